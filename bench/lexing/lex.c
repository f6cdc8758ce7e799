/* Lexes the file that is named, and prints the sum over its tokens: 1 and the bytes of its texts for each. */
#include <stdio.h>
#include <stdlib.h>
#ifdef NATIVE
#include "dnw_bench.h"
#else
#include "dns_names_wire.h"
#endif

#ifdef NATIVE
static uint64_t lexed(const uint8_t *text, size_t len)
{
    return dnw_lex(text, len, 1);
}
#else
static uint64_t lexed(const uint8_t *text, size_t len)
{
    static uint8_t words[65536];
    struct dnw_lexer lexer = {0, true};
    struct dnw_token token;
    uint64_t sum = 0;
    while (dnw_token_next(text, len, &lexer, words, sizeof words, &token) == DNW_DONE && token.kind != DNW_TOKEN_END)
        sum += 1 + token.len - (token.kind == DNW_TOKEN_LIST ? token.count : 0);
    return lexer.offset == len ? sum : 0;
}
#endif

int main(int count, char **words)
{
    FILE *file = count == 2 ? fopen(words[1], "rb") : NULL;
    if (!file || fseek(file, 0, SEEK_END) != 0)
        return 2;
    size_t len = (size_t)ftell(file);
    uint8_t *text = malloc(len + 1);
    rewind(file);
    if (!text || fread(text, 1, len, file) != len)
        return 2;
    printf("%llu\n", (unsigned long long)lexed(text, len));
    free(text);
    return fclose(file);
}
