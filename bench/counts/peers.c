/* peers LIBRARY ROW COUNT: does what the row of rows.c does so many times, by libknot or by ldns, over the same inputs, and prints a sum
   of the results: that of rows.c, but where texts and compression differ. Without words, it prints the libraries and their rows. libknot is used as its
   servers use it: memory from a pool that is used again, names as they are in the message, and hints for compression. */
#include <ldns/ldns.h>
#include <libknot/libknot.h>
#include <libzscanner/scanner.h>
#include <stdlib.h>

#include "inputs.h"

static uint64_t sum;
static uint8_t pool[1 << 20];
static size_t used;

static void must(bool is_right)
{
    if (!is_right) {
        fprintf(stderr, "peers: a call failed\n");
        exit(1);
    }
}

static void *take(void *of, size_t size)
{
    void *room = pool + used;
    (void)of;
    used += (size + 15) & ~(size_t)15;
    must(used <= sizeof pool);
    return room;
}

static knot_mm_t memory = {NULL, take, NULL};

static void knot_name_read(void)
{
    uint8_t form[KNOT_DNAME_MAXLEN];
    must(knot_dname_wire_check(RESPONSE + MAIL - 7, RESPONSE + RESPONSE_LEN, RESPONSE) > 0);
    sum += (uint64_t)knot_dname_unpack(form, RESPONSE + MAIL - 7, sizeof form, RESPONSE);
}

static void knot_name_parse(void)
{
    uint8_t form[KNOT_DNAME_MAXLEN];
    must(knot_dname_from_str(form, "www.example.org.", sizeof form) != NULL);
    sum += knot_dname_size(form);
}

static void knot_name_print(void)
{
    char text[KNOT_DNAME_TXT_MAXLEN + 1];
    must(knot_dname_to_str(text, NAME, sizeof text) != NULL);
    sum += strlen(text);
}

static int knot_order(const void *left, const void *right)
{
    return knot_dname_cmp(*(uint8_t *const *)left, *(uint8_t *const *)right);
}

static void knot_sort(void)
{
    const uint8_t *names[100];
    for (size_t i = 0; i < 100; i++)
        names[i] = hundred + 17 * i;
    qsort(names, 100, sizeof names[0], knot_order);
    sum += (uint64_t)(names[7] - hundred) / 17;
}

static knot_pkt_t *knot_parsed(void)
{
    used = 0;
    knot_pkt_t *packet = knot_pkt_new((void *)RESPONSE, RESPONSE_LEN, &memory);
    must(knot_pkt_parse(packet, KNOT_PF_NOCANON) == KNOT_EOK);
    return packet;
}

static void knot_walk(void)
{
    const knot_pkt_t *packet = knot_parsed();
    for (uint16_t i = 0; i < packet->rrset_count; i++) {
        const knot_rrset_t *set = &packet->rr[i];
        if (set->type == KNOT_RRTYPE_OPT)
            continue;
        knot_rdata_t *data = set->rrs.rdata;
        for (uint16_t n = 0; n < set->rrs.count; n++, data = knot_rdataset_next(data))
            sum += knot_dname_size(set->owner) + set->type + set->ttl + data->len;
    }
}

static void knot_pack(void)
{
    knot_pkt_t *packet = knot_parsed(), *made = knot_pkt_new(NULL, 512, &memory);
    memcpy(made->wire, RESPONSE, 4);
    must(knot_pkt_put_question(made, knot_pkt_qname(packet), knot_pkt_qclass(packet), knot_pkt_qtype(packet)) == KNOT_EOK);
    for (knot_section_t section = KNOT_ANSWER; section <= KNOT_ADDITIONAL; section++) {
        knot_pkt_begin(made, section);
        const knot_pktsection_t *own = knot_pkt_section(packet, section);
        for (uint16_t i = 0; i < own->count; i++)
            must(knot_pkt_put(made, KNOT_COMPR_HINT_NONE, knot_pkt_rr(own, i), 0) == KNOT_EOK);
    }
    sum += made->size;
}

/* The sets of a response, made before: successive records of one owner and type. Of each, where its owner is already: nowhere, the question,
   or a set before it, as its owner (0) or in the data of its record of that number, from 1. */
enum { NOWHERE = -1, QUESTION = -2 };
struct sets {
    knot_rrset_t all[16];
    uint16_t sections[16];
    int near[16], part[16];
    size_t count;
};
static struct sets answer, referral, nxdomain;

/* In which record of an NS or MX set a name stands, from 1, or 0. */
static int part_with(const knot_rrset_t *set, const knot_dname_t *name)
{
    if (set->type != KNOT_RRTYPE_NS && set->type != KNOT_RRTYPE_MX)
        return 0;
    knot_rdata_t *data = set->rrs.rdata;
    for (int n = 1; n <= set->rrs.count && n < KNOT_COMPR_HINT_COUNT; n++, data = knot_rdataset_next(data))
        if (knot_dname_is_equal(data->data + (set->type == KNOT_RRTYPE_MX ? 2 : 0), name))
            return n;
    return 0;
}

/* What knotd knows of the owner of a set: it is that of the question, of the set that a signature covers, or of a server that was named. */
static void find_near(struct sets *sets, size_t i, const knot_dname_t *asked)
{
    const knot_rrset_t *set = &sets->all[i];
    sets->near[i] = knot_dname_is_equal(set->owner, asked) ? QUESTION : NOWHERE;
    sets->part[i] = 0;
    if (set->type == KNOT_RRTYPE_RRSIG && i > 0 && sets->near[i] == NOWHERE && knot_dname_is_equal(sets->all[i - 1].owner, set->owner))
        sets->near[i] = (int)i - 1;
    for (size_t k = 0; sets->sections[i] == 4 && sets->near[i] == NOWHERE && k < i; k++)
        if ((sets->part[i] = part_with(&sets->all[k], set->owner)) != 0)
            sets->near[i] = (int)k;
}

static void make_sets(struct sets *sets, const knot_dname_t *query, const struct given *records, size_t count)
{
    const knot_dname_t *asked = query + KNOT_WIRE_HEADER_SIZE;
    for (const struct given *it = records; it < records + count; it++) {
        knot_rrset_t *last = sets->count > 0 ? &sets->all[sets->count - 1] : NULL;
        if (last == NULL || last->type != it->type || !knot_dname_is_equal(last->owner, it->owner)) {
            last = &sets->all[sets->count];
            sets->sections[sets->count++] = it->section;
            knot_rrset_init(last, (knot_dname_t *)it->owner, it->type, 1, 3600);
        }
        must(knot_rrset_add_rdata(last, it->data, (uint16_t)it->data_len, NULL) == KNOT_EOK);
    }
    for (size_t i = 0; i < sets->count; i++)
        find_near(sets, i, asked);
}

static uint16_t hint_of(const struct sets *sets, size_t i, const knot_pkt_t *made)
{
    switch (sets->near[i]) {
    case QUESTION: return KNOT_COMPR_HINT_QNAME;
    case NOWHERE: return KNOT_COMPR_HINT_NONE;
    default: return knot_compr_hint(&made->rr_info[sets->near[i]], (uint16_t)sets->part[i]);
    }
}

static void knot_respond(const uint8_t *asked, size_t len, bool is_authoritative, uint8_t code, const struct sets *sets)
{
    used = 0;
    knot_pkt_t *query = knot_pkt_new((void *)asked, (uint16_t)len, &memory), *made = knot_pkt_new(NULL, 1232, &memory);
    must(knot_pkt_parse(query, 0) == KNOT_EOK);
    must(knot_pkt_init_response(made, query) == KNOT_EOK);
    if (is_authoritative)
        knot_wire_set_aa(made->wire);
    knot_wire_set_rcode(made->wire, code);
    unsigned section = KNOT_ANSWER;
    for (size_t i = 0; i < sets->count; i++) {
        for (; section + 2 < sets->sections[i]; section++)
            knot_pkt_begin(made, section + 1);
        must(knot_pkt_put(made, hint_of(sets, i, made), &sets->all[i], 0) == KNOT_EOK);
    }
    for (; section < KNOT_ADDITIONAL; section++)
        knot_pkt_begin(made, section + 1);
    knot_rrset_t opt;
    must(knot_edns_init(&opt, 1232, 0, 0, &memory) == KNOT_EOK);
    if (knot_pkt_has_dnssec(query))
        knot_edns_set_do(&opt);
    must(knot_pkt_put(made, KNOT_COMPR_HINT_NONE, &opt, 0) == KNOT_EOK);
    sum += made->size;
}

static void knot_answer(void)
{
    knot_respond(QUERY_HOST, sizeof QUERY_HOST - 1, true, 0, &answer);
}

static void knot_referral(void)
{
    knot_respond(QUERY_CHILD, sizeof QUERY_CHILD - 1, false, 0, &referral);
}

static void knot_nxdomain(void)
{
    knot_respond(QUERY_NONE, sizeof QUERY_NONE - 1, true, 3, &nxdomain);
}

static void knot_print(void)
{
    static char *text;
    static size_t size;
    size_t at = RECORDS;
    knot_rrset_t set;
    used = 0;
    must(knot_rrset_rr_from_wire(RESPONSE, &at, RESPONSE_LEN, &set, &memory, true) == KNOT_EOK);
    if (text == NULL)
        text = malloc(size = 4096);
    must(knot_rrset_txt_dump(&set, &text, &size, &KNOT_DUMP_STYLE_DEFAULT) > 0);
    sum += strlen(text);
}

static void ldns_name_read(void)
{
    ldns_rdf *name;
    size_t at = MAIL - 7;
    must(ldns_wire2dname(&name, RESPONSE, RESPONSE_LEN, &at) == LDNS_STATUS_OK);
    sum += ldns_rdf_size(name);
    ldns_rdf_deep_free(name);
}

static void ldns_name_parse(void)
{
    ldns_rdf *name = ldns_dname_new_frm_str("www.example.org.");
    sum += ldns_rdf_size(name);
    ldns_rdf_deep_free(name);
}

static void ldns_name_print(void)
{
    ldns_rdf name = {NAME_LEN, LDNS_RDF_TYPE_DNAME, (void *)NAME};
    char *text = ldns_rdf2str(&name);
    sum += strlen(text);
    free(text);
}

static int ldns_order(const void *left, const void *right)
{
    return ldns_dname_compare(*(ldns_rdf *const *)left, *(ldns_rdf *const *)right);
}

static void ldns_sort(void)
{
    ldns_rdf names[100], *order[100];
    for (size_t i = 0; i < 100; i++) {
        names[i] = (ldns_rdf){17, LDNS_RDF_TYPE_DNAME, hundred + 17 * i};
        order[i] = &names[i];
    }
    qsort(order, 100, sizeof order[0], ldns_order);
    sum += (uint64_t)(order[7] - names);
}

static ldns_pkt *ldns_parsed(void)
{
    ldns_pkt *packet;
    must(ldns_wire2pkt(&packet, RESPONSE, RESPONSE_LEN) == LDNS_STATUS_OK);
    return packet;
}

static void ldns_walk(void)
{
    ldns_pkt *packet = ldns_parsed();
    ldns_rr_list *sections[] = {ldns_pkt_answer(packet), ldns_pkt_authority(packet), ldns_pkt_additional(packet)};
    for (size_t s = 0; s < 3; s++)
        for (size_t i = 0; i < ldns_rr_list_rr_count(sections[s]); i++) {
            ldns_rr *record = ldns_rr_list_rr(sections[s], i);
            sum += ldns_rdf_size(ldns_rr_owner(record)) + ldns_rr_get_type(record) + ldns_rr_ttl(record);
            for (size_t n = 0; n < ldns_rr_rd_count(record); n++)
                sum += ldns_rdf_size(ldns_rr_rdf(record, n));
        }
    ldns_pkt_free(packet);
}

static void ldns_pack(void)
{
    ldns_pkt *packet = ldns_parsed();
    uint8_t *made;
    size_t len;
    must(ldns_pkt2wire(&made, packet, &len) == LDNS_STATUS_OK);
    sum += len;
    free(made);
    ldns_pkt_free(packet);
}

static void ldns_print(void)
{
    ldns_rr *record;
    size_t at = RECORDS;
    must(ldns_wire2rr(&record, RESPONSE, RESPONSE_LEN, &at, LDNS_SECTION_ANSWER) == LDNS_STATUS_OK);
    char *text = ldns_rr2str(record);
    sum += strlen(text);
    free(text);
    ldns_rr_free(record);
}

static void knot_record(zs_scanner_t *scanner)
{
    sum += scanner->r_owner_length + scanner->r_data_length + 10;
}

static void knot_zone(const char *text, size_t len)
{
    static zs_scanner_t scanner;
    static bool is_made;
    if (!is_made)
        must(zs_init(&scanner, "example.org.", 1, 3600) == 0);
    is_made = true;
    must(zs_set_processing(&scanner, knot_record, NULL, NULL) == 0);
    must(zs_set_input_string(&scanner, text, len) == 0 && zs_parse_all(&scanner) == 0);
}

static void knot_lines(void)
{
    knot_zone(LINES, LINES_LEN);
}

static void ldns_lines(void)
{
    char line[256];
    for (const char *at = LINES; *at != 0;) {
        size_t len = strcspn(at, "\n");
        ldns_rr *record;
        memcpy(line, at, len);
        line[len] = 0;
        must(ldns_rr_new_frm_str(&record, line, 3600, NULL, NULL) == LDNS_STATUS_OK);
        sum += ldns_rdf_size(ldns_rr_owner(record)) + 10;
        for (size_t n = 0; n < ldns_rr_rd_count(record); n++)
            sum += ldns_rdf_size(ldns_rr_rdf(record, n));
        ldns_rr_free(record);
        at += len + 1;
    }
}

int main(int argc, char **argv)
{
    static const struct {
        const char *name;
        void (*knot)(void), (*ldns)(void);
    } rows[] = {
        {"name-read", knot_name_read, ldns_name_read}, {"name-parse", knot_name_parse, ldns_name_parse},
        {"name-print", knot_name_print, ldns_name_print}, {"100-names-sort", knot_sort, ldns_sort},
        {"message-walk", knot_walk, ldns_walk}, {"table-read", knot_walk, ldns_walk}, {"message-pack", knot_pack, ldns_pack},
        {"answer-write", knot_answer, NULL}, {"referral-write", knot_referral, NULL}, {"nxdomain-write", knot_nxdomain, NULL},
        {"record-print", knot_print, ldns_print}, {"8-records-parse", knot_lines, ldns_lines}, {"8-entries-read", knot_lines, ldns_lines},
    };
    begin();
    make_sets(&answer, QUERY_HOST, ANSWER, COUNT(ANSWER));
    make_sets(&referral, QUERY_CHILD, REFERRAL, COUNT(REFERRAL));
    make_sets(&nxdomain, QUERY_NONE, NXDOMAIN, COUNT(NXDOMAIN));
    for (size_t i = 0; i < sizeof rows / sizeof rows[0]; i++)
        if (argc != 4)
            printf(rows[i].ldns == NULL ? "libknot %s\n" : "libknot %s\nldns %s\n", rows[i].name, rows[i].name);
        else if (strcmp(argv[2], rows[i].name) == 0)
            for (long left = atol(argv[3]); left > 0; left--)
                (strcmp(argv[1], "libknot") == 0 ? rows[i].knot : rows[i].ldns)();
    for (size_t i = 0, len; i < COUNT(ZONE_ROWS); i++)
        if (argc != 4)
            printf("libknot %s\n", ZONE_ROWS[i].name);
        else if (strcmp(argv[2], ZONE_ROWS[i].name) == 0) {
            const char *text = zone_text(&ZONE_ROWS[i], &len);
            for (long left = atol(argv[3]); left > 0; left--)
                knot_zone(text, len);
        }
    if (argc == 4)
        printf("%llu\n", (unsigned long long)sum);
    return argc == 4 ? 0 : 2;
}
