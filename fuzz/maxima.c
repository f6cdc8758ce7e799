/* Reads messages as libknot or ldns does: `maxima libknot|ldns`, with a message in hexadecimal on each line of standard input. It prints
   a line for each: its records, as maxima.py names them, or `-` if the library reads no message there. */
#include <libknot/libknot.h>
#include <ldns/ldns.h>
#include <stdbool.h>
#include <stdint.h>
#include <stdio.h>
#include <string.h>

static void print_octets(const uint8_t *octets, size_t len)
{
    for (size_t at = 0; at < len; at++)
        printf("%02x", octets[at]);
}

static void print_head(int section, const uint8_t *owner, size_t len, unsigned type, unsigned class, unsigned long ttl)
{
    printf(" %d/", section);
    print_octets(owner, len);
    printf("/%u/%u/%lu/", type, class, ttl);
}

static void by_knot(uint8_t *octets, size_t len)
{
    knot_pkt_t *packet = knot_pkt_new(octets, (uint16_t)len, NULL);
    bool is_read = packet && knot_pkt_parse(packet, KNOT_PF_NOCANON) == KNOT_EOK && packet->parsed == len;
    printf(is_read ? "%d" : "-", is_read && knot_wire_get_tc(octets) ? 1 : 0);
    for (int section = KNOT_ANSWER; is_read && section <= KNOT_ADDITIONAL; section++) {
        const knot_pktsection_t *its = knot_pkt_section(packet, (knot_section_t)section);
        for (uint16_t i = 0; i < its->count; i++) {
            const knot_rrset_t *set = knot_pkt_rr(its, i);
            knot_rdata_t *data = set->rrs.rdata;
            for (uint16_t n = 0; n < set->rrs.count; n++, data = knot_rdataset_next(data)) {
                print_head((int)section + 1, set->owner, knot_dname_size(set->owner), set->type, set->rclass, set->ttl);
                print_octets(data->data, data->len);
            }
        }
    }
    knot_pkt_free(packet);
}

static void by_ldns(const uint8_t *octets, size_t len)
{
    ldns_pkt *packet;
    if (ldns_wire2pkt(&packet, octets, len) != LDNS_STATUS_OK) {
        putchar('-');
        return;
    }
    printf("%d", ldns_pkt_tc(packet) ? 1 : 0);
    const ldns_rr_list *sections[] = {ldns_pkt_answer(packet), ldns_pkt_authority(packet), ldns_pkt_additional(packet)};
    for (int section = 0; section < 3; section++)
        for (size_t i = 0; i < ldns_rr_list_rr_count(sections[section]); i++) {
            const ldns_rr *record = ldns_rr_list_rr(sections[section], i);
            const ldns_rdf *owner = ldns_rr_owner(record);
            print_head(section + 1, ldns_rdf_data(owner), ldns_rdf_size(owner), ldns_rr_get_type(record), ldns_rr_get_class(record),
                       ldns_rr_ttl(record));
            for (size_t field = 0; field < ldns_rr_rd_count(record); field++)
                print_octets(ldns_rdf_data(ldns_rr_rdf(record, field)), ldns_rdf_size(ldns_rr_rdf(record, field)));
        }
    ldns_pkt_free(packet);
}

int main(int argc, char **argv)
{
    static char line[1 << 18];
    static uint8_t octets[1 << 17];
    if (argc != 2)
        return 2;
    while (fgets(line, sizeof line, stdin)) {
        size_t len = 0;
        for (unsigned octet; sscanf(line + 2 * len, "%2x", &octet) == 1; len++)
            octets[len] = (uint8_t)octet;
        strcmp(argv[1], "ldns") == 0 ? by_ldns(octets, len) : by_knot(octets, len);
        putchar('\n');
    }
    return 0;
}
