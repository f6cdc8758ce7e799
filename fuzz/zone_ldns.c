/* The records of a zone file by ldns: `ldns FILE ORIGIN`, in the lines of zone_zscanner.c. */
#include <ldns/ldns.h>
#include <stdio.h>

static void put(const uint8_t *octets, size_t len, char after)
{
    for (size_t i = 0; i < len; i++)
        printf("%02x", octets[i]);
    printf("%s%c", len == 0 ? "-" : "", after);
}

/* Whether the record could be printed. */
static bool put_record(const ldns_rr *record)
{
    uint8_t *octets;
    size_t len, owner = ldns_rdf_size(ldns_rr_owner(record));
    if (ldns_rr2wire(&octets, record, LDNS_SECTION_ANSWER, &len) != LDNS_STATUS_OK)
        return false;
    put(octets, owner, ' ');
    printf("%d %d %u ", ldns_rr_get_type(record), ldns_rr_get_class(record), ldns_rr_ttl(record));
    put(octets + owner + 10, len - owner - 10, '\n');
    LDNS_FREE(octets);
    return true;
}

int main(int argc, char **argv)
{
    FILE *file = argc == 3 ? fopen(argv[1], "r") : NULL;
    ldns_rdf *origin = argc == 3 ? ldns_dname_new_frm_str(argv[2]) : NULL, *owner = NULL;
    uint32_t ttl = 3600;
    int line = 1;
    if (file == NULL)
        return 2;
    while (!feof(file)) {
        ldns_rr *record = NULL;
        ldns_status status = ldns_rr_new_frm_fp_l(&record, file, &ttl, &origin, &owner, &line);
        if (status == LDNS_STATUS_SYNTAX_EMPTY || status == LDNS_STATUS_SYNTAX_TTL || status == LDNS_STATUS_SYNTAX_ORIGIN)
            continue;
        if (status != LDNS_STATUS_OK || !put_record(record)) {
            printf("error in line %d: %s\n", line, ldns_get_errorstr_by_id(status));
            break;
        }
        ldns_rr_free(record);
    }
    return 0;
}
