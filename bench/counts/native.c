/* native ROW COUNT: does a row of rows.c so many times over the same inputs, by code in Rattle in one call (include/dnw_bench.h), and
   prints a sum of the results: that of rows.c. `message-look` looks at each label and each field too, and has a sum of its own.
   Without words, it prints the rows, each with that of peers.c that does the same work. */
#include "dnw_bench.h"
#include "inputs.h"

#include <stdlib.h>

int main(int argc, char **argv)
{
    static const struct {
        const char *name, *peer;
        uint64_t (*does)(const uint8_t *octets, size_t len, uint64_t count);
        const uint8_t *octets;
        size_t len;
    } rows[] = {
        {"message-walk", "message-walk", dnw_walk_message, RESPONSE, RESPONSE_LEN},
        {"message-look", "message-walk", dnw_read_message, RESPONSE, RESPONSE_LEN},
        {"8-entries-read", "8-entries-read", dnw_read_zone, (const uint8_t *)LINES, LINES_LEN},
    };
    begin();
    for (size_t i = 0; i < COUNT(rows); i++)
        if (argc != 3)
            printf("%s %s\n", rows[i].name, rows[i].peer);
        else if (strcmp(argv[1], rows[i].name) == 0)
            printf("%llu\n", (unsigned long long)rows[i].does(rows[i].octets, rows[i].len, strtoull(argv[2], NULL, 10)));
    for (size_t i = 0, len; i < COUNT(ZONE_ROWS); i++)
        if (argc != 3)
            printf("%s %s\n", ZONE_ROWS[i].name, ZONE_ROWS[i].name);
        else if (strcmp(argv[1], ZONE_ROWS[i].name) == 0) {
            const char *text = zone_text(&ZONE_ROWS[i], &len);
            printf("%llu\n", (unsigned long long)dnw_read_zone((const uint8_t *)text, len, strtoull(argv[2], NULL, 10)));
        }
    return argc == 3 ? 0 : 2;
}
