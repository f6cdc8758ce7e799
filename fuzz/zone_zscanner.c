/* The records of a zone file by Knot's scanner: `knot FILE ORIGIN` prints a line of each: owner, type, class, TTL and data, octets as
   hexadecimal digits. After the last one comes a line with `error` and why, if the scanner stops at one. */
#include <libzscanner/scanner.h>
#include <stdio.h>
#include <stdlib.h>

static void put(const uint8_t *octets, size_t len, char after)
{
    for (size_t i = 0; i < len; i++)
        printf("%02x", octets[i]);
    printf("%s%c", len == 0 ? "-" : "", after);
}

int main(int argc, char **argv)
{
    zs_scanner_t *scanner = calloc(1, sizeof *scanner);
    if (argc != 3 || scanner == NULL)
        return 2;
    if (zs_init(scanner, argv[2], 1, 3600) != 0 || zs_set_input_file(scanner, argv[1]) != 0) {
        puts("error it cannot be opened");
        return 0;
    }
    while (zs_parse_record(scanner) == 0 && scanner->state == ZS_STATE_DATA) {
        put(scanner->r_owner, scanner->r_owner_length, ' ');
        printf("%u %u %u ", scanner->r_type, scanner->r_class, scanner->r_ttl);
        put(scanner->r_data, scanner->r_data_length, '\n');
    }
    if (scanner->state == ZS_STATE_INCLUDE)
        puts("error $INCLUDE");
    else if (scanner->state != ZS_STATE_EOF)
        printf("error in line %llu: %s\n", (unsigned long long)scanner->line_counter, zs_strerror(scanner->error.code));
    zs_deinit(scanner);
    free(scanner);
    return 0;
}
