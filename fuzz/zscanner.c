/* How Knot's scanner reads the data of a record, for data_texts.py. */
#include <libzscanner/scanner.h>
#include <stdlib.h>
#include <string.h>

/* Reads a zone with one record below the root. Stores its data, and returns their length, or -1 if there is not exactly one record. */
int scanned(const char *zone, size_t len, unsigned char *data)
{
    zs_scanner_t *scanner = calloc(1, sizeof *scanner);
    int found = -1, records = 0;
    if (scanner == NULL || zs_init(scanner, ".", 1, 60) != 0 || zs_set_input_string(scanner, zone, len) != 0)
        abort();
    while (zs_parse_record(scanner) == 0) {
        if (scanner->state == ZS_STATE_DATA) {
            records++;
            found = (int)scanner->r_data_length;
            memcpy(data, scanner->r_data, scanner->r_data_length);
        } else {
            if (scanner->state != ZS_STATE_EOF)
                records = 0;
            break;
        }
    }
    zs_deinit(scanner);
    free(scanner);
    return records == 1 ? found : -1;
}
