/* rows ROW COUNT: does what a row counts so many times, over inputs that are made before. It prints a sum of the results, so that
   none is left out. bench/counts/run counts its instructions: for a row that begins with a number, those of each of so many. */
#include "dns_names_wire.h"
#include "inputs.h"

#include <stdlib.h>

static uint64_t sum;

static void must(uint32_t failure)
{
    if (failure != DNW_DONE) {
        fprintf(stderr, "rows: failure %u\n", (unsigned)failure);
        exit(1);
    }
}

static void name_read(void)
{
    uint8_t form[DNW_FORM_SIZE];
    struct dnw_read_name read;
    must(dnw_name_read(RESPONSE, RESPONSE_LEN, MAIL - 7, form, sizeof form, &read));
    sum += read.len;
}

static void name_parse(void)
{
    static const uint8_t text[] = "www.example.org.";
    uint8_t form[DNW_FORM_SIZE];
    struct dnw_parsed_name parsed;
    must(dnw_name_parse(text, sizeof text - 1, (const uint8_t *)"", 1, form, sizeof form, &parsed));
    sum += parsed.len;
}

static void name_print(void)
{
    uint8_t text[DNW_TEXT_SIZE];
    size_t len;
    must(dnw_name_print(NAME, NAME_LEN, true, text, sizeof text, &len));
    sum += len;
}

static void names_write(void)
{
    uint8_t out[512];
    struct dnw_written_names written;
    must(dnw_names_write(NAMES, sizeof NAMES, sizeof out, out, sizeof out, &written));
    sum += written.len;
}

static void names_sort(void)
{
    size_t order[100];
    must(dnw_names_sort(hundred, sizeof hundred, order, 100));
    sum += order[7];
}

static void message_read(void)
{
    struct dnw_message read;
    struct dnw_message_fault fault;
    must(dnw_message_read(RESPONSE, RESPONSE_LEN, DNW_MAX_POINTERS, &read, &fault));
    sum += read.end;
}

static void fields_walk(void)
{
    for (size_t at = RECORDS; at < RESPONSE_LEN;) {
        uint8_t owner[DNW_FORM_SIZE];
        struct dnw_record record;
        must(dnw_record_read(RESPONSE, RESPONSE_LEN, at, owner, sizeof owner, &record));
        struct dnw_fields fields = {record.data_offset, 0};
        struct dnw_field field;
        do {
            must(dnw_field_next(RESPONSE, record.end, record.data_offset, record.record_type, record.record_class, &fields, &field));
            sum += field.len;
        } while (field.kind != DNW_FIELD_END);
        at = record.end;
    }
}

/* The octets of the data of a record, with names whole. */
static uint64_t whole_data(const struct dnw_record *record)
{
    struct dnw_fields fields = {record->data_offset, 0};
    struct dnw_field field;
    uint8_t form[DNW_FORM_SIZE];
    struct dnw_read_name read;
    uint64_t octets = 0;
    for (;;) {
        must(dnw_field_next(RESPONSE, record->end, record->data_offset, record->record_type, record->record_class, &fields, &field));
        if (field.kind == DNW_FIELD_END)
            return octets;
        if (field.kind == DNW_FIELD_NAME)
            must(dnw_name_read(RESPONSE, record->end, field.offset, form, sizeof form, &read));
        octets += field.kind == DNW_FIELD_NAME ? read.len : field.len;
    }
}

/* A whole message is checked, and each record read, with its names whole. */
static void message_walk(void)
{
    struct dnw_message read;
    struct dnw_message_fault fault;
    must(dnw_message_read(RESPONSE, RESPONSE_LEN, DNW_MAX_POINTERS, &read, &fault));
    size_t at = read.answers;
    for (int left = read.answer_count + read.authority_count + read.additional_count; left > 0; left--) {
        uint8_t owner[DNW_FORM_SIZE];
        struct dnw_record record;
        must(dnw_record_read(RESPONSE, RESPONSE_LEN, at, owner, sizeof owner, &record));
        if (record.record_type != DNW_TYPE_OPT)
            sum += record.owner_len + record.record_type + record.ttl + whole_data(&record);
        at = record.end;
    }
}

/* The same by one call: a row for each record and each field, and their names whole. */
static void table_read(void)
{
    struct dnw_row listed[32];
    uint8_t names[512];
    struct dnw_table table;
    must(dnw_message_table(RESPONSE, RESPONSE_LEN, DNW_MAX_POINTERS, listed, COUNT(listed), names, sizeof names, &table));
    bool counts = false;
    for (size_t i = 0; i < table.row_count; i++) {
        const struct dnw_row *row = &listed[i];
        if (row->section != 0)
            counts = row->section > 1 && row->record_type != DNW_TYPE_OPT;
        if (counts)
            sum += row->section != 0              ? row->name_len + row->record_type + row->number
                   : row->kind == DNW_FIELD_NAME ? row->name_len
                                                 : row->len;
    }
}

static void message_pack(void)
{
    uint8_t packed[512];
    struct dnw_packed result;
    must(dnw_message_pack(RESPONSE, RESPONSE_LEN, sizeof packed, 0, packed, sizeof packed, &result));
    sum += result.len;
}

/* A query is read, and a response with these records written item by item. */
static void respond(const uint8_t *query, size_t len, uint16_t flags, const struct given *records, size_t count)
{
    uint8_t out[1232];
    struct dnw_writer writer;
    struct dnw_edns edns;
    must(dnw_writer_reply(out, sizeof out, sizeof out, query, len, flags, flags & 15, &writer, &edns));
    for (const struct given *it = records; it < records + count; it++)
        must(dnw_writer_record(out, sizeof out, it->section, it->owner, it->owner_len, it->type, 1, 3600, it->data, it->data_len, &writer));
    must(dnw_writer_reply_edns(out, sizeof out, &edns, 1232, NULL, 0, 0, &writer));
    sum += writer.len;
}

static void answer_write(void)
{
    respond(QUERY_HOST, sizeof QUERY_HOST - 1, DNW_FLAG_AUTHORITATIVE, ANSWER, COUNT(ANSWER));
}

static void referral_write(void)
{
    respond(QUERY_CHILD, sizeof QUERY_CHILD - 1, 0, REFERRAL, COUNT(REFERRAL));
}

static void nxdomain_write(void)
{
    respond(QUERY_NONE, sizeof QUERY_NONE - 1, DNW_FLAG_AUTHORITATIVE | 3, NXDOMAIN, COUNT(NXDOMAIN));
}

static void record_print(void)
{
    uint8_t text[256];
    struct dnw_printed_record printed;
    must(dnw_record_print(RESPONSE, RESPONSE_LEN, RECORDS, text, sizeof text, &printed));
    sum += printed.len;
}

static void signed_one(void)
{
    uint8_t octets[256];
    size_t len;
    must(dnw_signed_octets(SIGNED, sizeof SIGNED - 1, 0, 0, octets, sizeof octets, &len));
    sum += len;
}

static void types_read(void)
{
    static const uint8_t bitmap[] = "\0\7\x62\1\x80\x08\0\x03\x90";
    uint16_t codes[8 * sizeof bitmap];
    size_t count;
    must(dnw_types_read(bitmap, sizeof bitmap - 1, codes, sizeof codes / sizeof codes[0], &count));
    sum += count;
}

static void records_parse(void)
{
    static uint8_t octets[DNW_ZONE_OCTETS_SIZE];
    const uint8_t *line = (const uint8_t *)LINES, *end = line + LINES_LEN;
    while (line < end) {
        const uint8_t *feed = memchr(line, '\n', (size_t)(end - line));
        size_t len;
        must(dnw_record_parse(line, (size_t)(feed - line), octets, 0, octets, sizeof octets, &len));
        sum += len;
        line = feed + 1;
    }
}

static void read_zone(const char *text, size_t len)
{
    static uint8_t octets[DNW_ZONE_OCTETS_SIZE];
    struct dnw_zone zone;
    struct dnw_zone_entry entry = {0};
    size_t at = 0;
    must(dnw_zone_begin(NAME, NAME_LEN, &zone));
    do {
        must(dnw_zone_next((const uint8_t *)text + at, len - at, false, &zone, octets, sizeof octets, &entry));
        at += entry.used;
        sum += entry.len;
    } while (entry.kind != DNW_ZONE_END);
}

static void entries_read(void)
{
    read_zone(LINES, LINES_LEN);
}

int main(int argc, char **argv)
{
    static const struct {
        const char *name;
        void (*does)(void);
    } rows[] = {
        {"name-read", name_read}, {"name-parse", name_parse}, {"name-print", name_print}, {"4-names-write", names_write},
        {"100-names-sort", names_sort}, {"message-read", message_read}, {"fields-walk", fields_walk}, {"message-walk", message_walk},
        {"table-read", table_read}, {"message-pack", message_pack}, {"answer-write", answer_write}, {"referral-write", referral_write},
        {"nxdomain-write", nxdomain_write}, {"record-print", record_print}, {"signed-one", signed_one}, {"types-read", types_read},
        {"8-records-parse", records_parse}, {"8-entries-read", entries_read},
    };
    if (argc != 3) {
        for (size_t i = 0; i < sizeof rows / sizeof rows[0]; i++)
            puts(rows[i].name);
        for (size_t i = 0; i < COUNT(ZONE_ROWS); i++)
            puts(ZONE_ROWS[i].name);
        return 2;
    }
    begin();
    for (size_t i = 0; i < sizeof rows / sizeof rows[0]; i++)
        if (strcmp(argv[1], rows[i].name) == 0)
            for (long left = atol(argv[2]); left > 0; left--)
                rows[i].does();
    for (size_t i = 0, len; i < COUNT(ZONE_ROWS); i++)
        if (strcmp(argv[1], ZONE_ROWS[i].name) == 0) {
            const char *text = zone_text(&ZONE_ROWS[i], &len);
            for (long left = atol(argv[2]); left > 0; left--)
                read_zone(text, len);
        }
    printf("%llu\n", (unsigned long long)sum);
    return 0;
}
