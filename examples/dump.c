/* Prints a DNS message as dig does: dump [FILE]. The message is binary, in a file or on standard input. */
#include <stdio.h>

#include "dns_names_wire.h"

enum { MESSAGE_MAX = 65535, PART_MAX = 1 << 16 };

static int fail(uint32_t failure)
{
    uint8_t text[64];
    size_t len = dnw_error_text(failure, text, sizeof text);
    fprintf(stderr, "dump: %.*s\n", (int)len, (const char *)text);
    return 1;
}

int main(int argc, char **argv)
{
    static uint8_t message[MESSAGE_MAX], text[PART_MAX];
    struct dnw_printed_part part;
    FILE *file = argc > 1 ? fopen(argv[1], "rb") : stdin;
    if (file == NULL)
        return perror("dump"), 1;
    size_t len = fread(message, 1, sizeof message, file), printed = 0;
    do {
        uint32_t failure = dnw_message_print(message, len, DNW_MAX_POINTERS, printed, text, sizeof text, &part);
        if (failure != DNW_DONE)
            return fail(failure);
        fwrite(text, 1, part.len, stdout);
        printed += part.len;
    } while (printed < part.total);
    putchar('\n');
    return 0;
}
