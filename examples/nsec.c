/* Prints the names of a zone in the order of its NSEC records, each with the next: nsec FILE

   FILE has one name a line, in any order. Names are sorted by their sort keys, which are in canonical order (RFC 4034, section
   6.1). The first name follows the last (section 4.1.1). */
#include <stdio.h>
#include <stdlib.h>
#include <string.h>

#include "dns_names_wire.h"

enum { NAMES_MAX = 10000, LINE_MAX_SIZE = DNW_TEXT_SIZE + 2 };

struct entry {
    uint8_t key[DNW_SORT_KEY_SIZE], text[DNW_TEXT_SIZE];
    size_t key_len, text_len;
};

static int by_key(const void *left, const void *right)
{
    const struct entry *a = left, *b = right;
    int order = memcmp(a->key, b->key, a->key_len < b->key_len ? a->key_len : b->key_len);
    return order != 0 ? order : (a->key_len > b->key_len) - (a->key_len < b->key_len);
}

static uint32_t read_line(const char *line, size_t len, struct entry *entry)
{
    uint8_t form[DNW_FORM_SIZE];
    struct dnw_parsed_name name;
    const uint8_t *text = (const uint8_t *)line, *no_origin = text;
    uint32_t failure = dnw_name_parse(text, len, no_origin, 0, form, sizeof form, &name);
    if (failure == DNW_DONE)
        failure = dnw_name_sort_key(form, name.len, entry->key, sizeof entry->key, &entry->key_len);
    if (failure == DNW_DONE)
        failure = dnw_name_print(form, name.len, true, entry->text, sizeof entry->text, &entry->text_len);
    return failure;
}

static int fail(uint32_t failure, size_t line)
{
    uint8_t text[64];
    size_t len = dnw_error_text(failure, text, sizeof text);
    fprintf(stderr, "nsec: line %zu: %.*s\n", line, (int)len, (const char *)text);
    return 1;
}

int main(int argc, char **argv)
{
    static struct entry entries[NAMES_MAX];
    static char line[LINE_MAX_SIZE];
    FILE *file = argc == 2 ? fopen(argv[1], "r") : NULL;
    if (file == NULL) {
        fprintf(stderr, "usage: nsec FILE\n");
        return 2;
    }
    size_t count = 0;
    for (; count < NAMES_MAX && fgets(line, sizeof line, file) != NULL; count++) {
        uint32_t failure = read_line(line, strcspn(line, "\n"), &entries[count]);
        if (failure != DNW_DONE)
            return fail(failure, count + 1);
    }
    qsort(entries, count, sizeof *entries, by_key);
    for (size_t i = 0; i < count; i++) {
        const struct entry *entry = &entries[i], *next = &entries[i + 1 < count ? i + 1 : 0];
        if (i + 1 == count || by_key(entry, next) != 0)
            printf("%.*s NSEC %.*s\n", (int)entry->text_len, (char *)entry->text, (int)next->text_len, (char *)next->text);
    }
    return 0;
}
