/* Looks for the input of so many octets that a call takes most instructions for, by climbing over programs that make inputs.

   costs FOLDER OCTETS TRIES SEED CALL..

   It runs under callgrind, which counts the instructions of the call alone and writes them into a file of FOLDER, `o.N`. Inputs come
   from small programs: groups of steps, each of which is repeated. A step puts octets of the call's own list, labels, a pointer, the
   head of a record, or a question; the last group is repeated until the input is full. A try changes some numbers of the best
   program so far. The search is made for OCTETS, and again for twice as many, from what was found. It prints a line for each call;
   fuzz/costs makes the table. */
#include <stdio.h>
#include <stdlib.h>
#include <string.h>
#include <unistd.h>
#include <valgrind/callgrind.h>

#include "dns_names_wire.h"

enum { MOST = 1 << 17, GROUPS = 3, STEPS = 5, GENES = GROUPS * (1 + 4 * STEPS), ROOM = 1 << 22 };
enum step { LITERAL, LABELS, POINTER, RECORD, MARK, QUESTION, KINDS };

static uint8_t made[MOST], output[ROOM];
static uint32_t codes[ROOM / 4];
static struct dnw_row rows[MOST];
static size_t made_len, size, mark, last_record, open_data, first_data, records, questions, items;
static const char *folder;
static unsigned dumps;
static uint64_t state;

static size_t below(size_t n)
{
    state = state * 6364136223846793005u + 1442695040888963407u;
    return (size_t)((state >> 33) % n);
}

static bool put(const void *octets, size_t len)
{
    if (made_len + len > size)
        return false;
    memcpy(made + made_len, octets, len);
    made_len += len;
    return true;
}

static bool put_word(size_t word)
{
    const uint8_t octets[2] = {(uint8_t)(word >> 8), (uint8_t)word};
    return put(octets, 2);
}

/* The calls. Each takes a whole input. */
static size_t len, count;
static bool is_it;
static int32_t order;
static struct dnw_message message;
static struct dnw_message_fault fault;
static struct dnw_edns edns;
static struct dnw_packed packed;
static struct dnw_read_name name;
static struct dnw_parsed_name parsed;
static struct dnw_record record;
static struct dnw_printed_record printed;
static struct dnw_written_names written;
static struct dnw_table table;
static struct dnw_lexer lexer;
static struct dnw_token token;
static struct dnw_writer writer;
static struct dnw_net net;
static uint32_t seconds;
static uint16_t code;
#define IN made, made_len
#define OUT output, sizeof output

static uint32_t name_read(void) { return dnw_name_read(IN, mark, OUT, &name); }
static uint32_t name_read_text(void) { return dnw_name_read_text(IN, mark, OUT, &name); }
static uint32_t message_read(void) { return dnw_message_read(IN, DNW_MAX_POINTERS, &message, &fault); }
static uint32_t edns_read(void) { return dnw_edns_read(IN, DNW_MAX_POINTERS, &edns); }
static uint32_t message_pack(void) { return dnw_message_pack(IN, 65535, 0, OUT, &packed); }
static uint32_t message_table(void)
{
    return dnw_message_table(IN, DNW_MAX_POINTERS, rows, MOST, OUT, &table);
}
static uint32_t is_reply_to(void) { return dnw_is_reply_to(IN, IN, &is_it); }
static uint32_t record_read(void) { return dnw_record_read(IN, last_record, OUT, &record); }
static uint32_t record_data(void) { return dnw_record_data(IN, last_record, OUT, &len); }
static uint32_t option_print(void) { return dnw_option_print(3, IN, OUT, &len); }
static uint32_t record_print(void) { return dnw_record_print(IN, last_record, OUT, &printed); }
static uint32_t record_sort_key(void) { return dnw_record_sort_key(IN, last_record, OUT, &len); }
static uint32_t field_next(void)
{
    struct dnw_fields fields;
    struct dnw_field field;
    uint32_t failure = dnw_record_read(IN, last_record, OUT, &record);
    if (failure != DNW_DONE)
        return failure;
    fields = (struct dnw_fields){record.data_offset, 0};
    do
        failure = dnw_field_next(made, record.end, record.data_offset, record.record_type, record.record_class, &fields, &field);
    while (failure == DNW_DONE && field.kind != DNW_FIELD_END);
    return failure;
}
static uint32_t signed_octets(void) { return dnw_signed_octets(IN, 0, 0, OUT, &len); }
static uint32_t zone_digest(void) { return dnw_zone_digest((const uint8_t *)"", 1, IN, 2, OUT, &len); }
static uint32_t names_write(void) { return dnw_names_write(IN, 65535, OUT, &written); }
static uint32_t names_sort(void) { return dnw_names_sort(IN, (size_t *)(void *)output, sizeof output / sizeof(size_t)); }
static uint32_t types_read(void) { return dnw_types_read(IN, (uint16_t *)codes, sizeof codes / 2, &count); }
static uint32_t types_write(void)
{
    memcpy(codes, made, made_len);
    return dnw_types_write((uint16_t *)codes, made_len / 2, OUT, &len);
}
static uint32_t ttl_parse(void) { return dnw_ttl_parse(IN, &seconds); }
static uint32_t type_parse(void) { return dnw_type_parse(IN, &code); }
static uint32_t class_parse(void) { return dnw_class_parse(IN, &code); }
static uint32_t name_parse(void) { return dnw_name_parse(IN, made, 0, OUT, &parsed); }
static uint32_t name_text_fault(void) { return dnw_name_text_fault(IN, made, 0, &len); }
static uint32_t token_next(void)
{
    lexer = (struct dnw_lexer){0, true};
    return dnw_token_next(IN, &lexer, OUT, &token);
}
static uint32_t record_parse(void) { return dnw_record_parse(IN, made, 0, OUT, &len); }
/* A file, entry by entry. */
static uint32_t zone_next(void)
{
    struct dnw_zone zone;
    struct dnw_zone_entry entry = {.used = 0};
    uint32_t failure = dnw_zone_begin((const uint8_t *)"", 1, &zone);
    for (size_t at = 0; failure == DNW_DONE; at += entry.used) {
        failure = dnw_zone_next(made + at, made_len - at, false, &zone, OUT, &entry);
        if (entry.kind == DNW_ZONE_END)
            break;
    }
    return failure;
}
static uint32_t message_write(void) { return dnw_message_write(IN, 65535, 0, 0, 0, false, 0, OUT, &packed); }
static uint32_t name_print(void) { return dnw_name_print(IN, true, OUT, &len); }
static uint32_t name_compare(void) { return dnw_name_compare(IN, IN, &order); }
static uint32_t name_equal(void) { return dnw_name_equal(IN, IN, &is_it); }
static uint32_t name_in_zone(void) { return dnw_name_in_zone(IN, IN, &is_it); }
static uint32_t name_lower(void) { return dnw_name_to_lowercase(IN, OUT, &len); }
static uint32_t name_sort_key(void) { return dnw_name_sort_key(IN, OUT, &len); }
static uint32_t name_append(void) { return dnw_name_append(IN, (const uint8_t *)"", 1, OUT, &len); }
static uint32_t name_trim(void) { return dnw_name_trim(IN, 3, OUT, &len); }
static uint32_t name_wildcard(void) { return dnw_name_to_wildcard(IN, OUT, &len); }
static uint32_t reverse_parse(void) { return dnw_reverse_parse(IN, OUT, &net); }
static uint32_t nsec_covers(void) { return dnw_nsec_covers(IN, IN, IN, &is_it); }
static uint32_t nsec3_hash(void) { return dnw_nsec3_hash((const uint8_t *)"", 1, 1, 150, IN, 150, OUT, &len); }
static uint32_t key_tag(void) { return dnw_key_tag(IN, &code); }
static uint32_t ds_digest(void) { return dnw_ds_digest((const uint8_t *)"", 1, IN, 4, OUT, &len); }
/* A message that is the input, with a writer whose hints point all over it. */
static void spoil(void)
{
    memcpy(output, made, made_len);
    memset(&writer, 0, sizeof writer);
    writer.len = made_len;
    writer.max_size = 65535;
    for (size_t n = 0; n < 512; n++)
        writer.hints[n] = (uint16_t)(mark + 2 * n < made_len ? mark + 2 * n : mark);
    writer.owner = (uint16_t)mark;
}
/* The longest names: of 127 labels, and one of their suffixes. */
#define OWNER long_name, sizeof long_name
#define SHORTER long_name + 2, sizeof long_name - 2
static uint8_t long_name[DNW_FORM_SIZE];
static uint32_t writer_question(void)
{
    spoil();
    return dnw_writer_question(output, 65535, OWNER, DNW_TYPE_NS, 1, &writer);
}
static uint32_t writer_record(void)
{
    spoil();
    return dnw_writer_record(output, 65535, DNW_SECTION_ADDITIONALS, OWNER, DNW_TYPE_NS, 1, 0, SHORTER, &writer);
}
static uint32_t writer_last(void)
{
    spoil();
    return dnw_writer_last(output, 65535, 0, OWNER, DNW_TYPE_NS, 1, 0, SHORTER, &writer);
}
/* Six records of a set, whose data are long names. */
static uint32_t writer_set(void)
{
    static uint8_t set[6 * (2 + DNW_FORM_SIZE)];
    for (size_t n = 0; n < 6; n++) {
        uint8_t *own = set + n * (2 + DNW_FORM_SIZE);
        own[1] = DNW_FORM_SIZE;
        memcpy(own + 2, long_name, DNW_FORM_SIZE);
        own[DNW_FORM_SIZE] = (uint8_t)('b' + n);
    }
    spoil();
    return dnw_writer_set(output, 65535, DNW_SECTION_ADDITIONALS, true, OWNER, DNW_TYPE_NS, 1, 0, set, sizeof set, &writer);
}
static uint32_t writer_edns(void)
{
    spoil();
    return dnw_writer_edns(output, 65535, 0, 1232, 0, 0, false, OWNER, 468, &writer);
}
static uint32_t writer_reply(void) { return dnw_writer_reply(output, sizeof output, 65535, IN, 0, 0, &writer, &edns); }
static uint32_t record_data_name(void) { return dnw_record_data_name(IN, mark, made_len - mark, OUT, &len); }
static uint32_t name_prepend(void) { return dnw_name_prepend_label((const uint8_t *)"a", 1, IN, OUT, &len); }
static uint32_t nsec3_covers(void) { return dnw_nsec3_covers(IN, IN, IN, &is_it); }

/* Data of any type: two octets of type, and the text. */
static uint32_t data_parse(void)
{
    static const uint16_t types[] = {DNW_TYPE_TXT, DNW_TYPE_SVCB, DNW_TYPE_NSEC, DNW_TYPE_HIP, DNW_TYPE_APL, DNW_TYPE_LOC,
                                     DNW_TYPE_DNSKEY, DNW_TYPE_OPENPGPKEY, DNW_TYPE_NULL, DNW_TYPE_NAPTR, DNW_TYPE_AAAA};
    if (made_len == 0)
        return 0;
    return dnw_data_parse(types[made[0] % 11], 1, made + 1, made_len - 1, made, 0, OUT, &len);
}

static const char *const texts[] = {"a", "0", "9", ".", "\\", "\\000", "\\.", "\"", " ", "\n", ";", "(", ")", "=", ",", "key1=\"\" ", "a ",
                                    "A ", "TYPE1 ", "1:10.0.0.0/8 ", "!2:::1/0 ", "a. ", "\303\251", "1h", "0s", "AA", "=", "+", "/", "::",
                                    "f:", "\"\" ", "\"a\" ", "alpn=\"", "\\\\,", "\\,", "mandatory=", "key65535,", ". 0 IN TXT ",
                                    ". 0 IN SVCB 1 . ", ". 0 IN NSEC . ", ". 0 IN TYPE9 \\# 9 ", ". 0 IN HIP 2 00 AA== ",
                                    ". 0 IN APL ", ". 0 IN DNSKEY 0 3 8 ", "00", "1 . ", "2 00 AA== ", "\\# 1000 ", "\t", "\r"};
static const struct piece {
    const char *octets;
    size_t len;
} wires[] = {{"", 1},    {"\001a", 2}, {"\001A", 2}, {"\001a", 3},         {"\377", 1},   {"\000\001", 2},       {"\000\001\200", 3},
             {"\000\040", 2}, {"\001\001", 2}, {"\000\000\000\000", 4}, {"\000\001\000\000", 4}, {"\100", 1}, {"\001\000", 3},
             {"\001\001\001", 3}, {"\003\000\000\010\000\001", 6}, {"\000\144\000\000", 4},
             {"\001\000\000\001\000\001\000\000\000\000\000\000", 12}, {"\003\000\000\051\000\000\000\000\000\000\000\000", 12},
             {"\007in-addr\004arpa", 14}, {"\003ip6\004arpa", 10}, {"\0019", 2}, {"\177", 1}};

static const uint16_t types[] = {DNW_TYPE_NULL, DNW_TYPE_NS, DNW_TYPE_SOA, DNW_TYPE_MX, DNW_TYPE_RP, DNW_TYPE_HIP, DNW_TYPE_TXT, DNW_TYPE_NSEC,
                                 DNW_TYPE_SVCB, DNW_TYPE_APL, DNW_TYPE_OPT, DNW_TYPE_PX, DNW_TYPE_NAPTR, DNW_TYPE_RRSIG, 65280, DNW_TYPE_A};

enum domain { TEXT, WIRE, FORM, LIST, NAMES, RECORDS, SIGNED, MESSAGE };
static const struct call {
    const char *function;
    uint32_t (*run)(void);
    enum domain domain;
} calls[] = {{"dnw_name_read", name_read, MESSAGE}, {"dnw_name_read_text", name_read_text, MESSAGE},
             {"dnw_message_read", message_read, MESSAGE}, {"dnw_edns_read", edns_read, MESSAGE},
             {"dnw_option_print", option_print, WIRE},
             {"dnw_message_pack", message_pack, MESSAGE}, {"dnw_message_table", message_table, MESSAGE},
             {"dnw_is_reply_to", is_reply_to, MESSAGE}, {"dnw_record_read", record_read, MESSAGE},
             {"dnw_record_data", record_data, MESSAGE}, {"dnw_record_print", record_print, MESSAGE},
             {"dnw_record_sort_key", record_sort_key, MESSAGE}, {"dnw_field_next", field_next, MESSAGE},
             {"dnw_signed_octets", signed_octets, SIGNED}, {"dnw_zone_digest", zone_digest, RECORDS},
             {"dnw_writer_question", writer_question, MESSAGE}, {"dnw_writer_record", writer_record, MESSAGE},
             {"dnw_writer_set", writer_set, MESSAGE}, {"dnw_writer_last", writer_last, MESSAGE},
             {"dnw_writer_edns", writer_edns, MESSAGE}, {"dnw_writer_reply", writer_reply, MESSAGE},
             {"dnw_record_data_name", record_data_name, MESSAGE}, {"dnw_message_write", message_write, LIST},
             {"dnw_names_write", names_write, NAMES}, {"dnw_names_sort", names_sort, NAMES},
             {"dnw_types_read", types_read, WIRE}, {"dnw_types_write", types_write, WIRE},
             {"dnw_key_tag", key_tag, WIRE}, {"dnw_ds_digest", ds_digest, WIRE}, {"dnw_nsec3_hash", nsec3_hash, WIRE},
             {"dnw_name_print", name_print, FORM}, {"dnw_name_compare", name_compare, FORM}, {"dnw_name_equal", name_equal, FORM},
             {"dnw_name_in_zone", name_in_zone, FORM}, {"dnw_name_to_lowercase", name_lower, FORM},
             {"dnw_name_sort_key", name_sort_key, FORM}, {"dnw_name_append", name_append, FORM}, {"dnw_name_trim", name_trim, FORM},
             {"dnw_name_to_wildcard", name_wildcard, FORM}, {"dnw_reverse_parse", reverse_parse, FORM},
             {"dnw_nsec_covers", nsec_covers, FORM}, {"dnw_name_prepend_label", name_prepend, FORM}, {"dnw_nsec3_covers", nsec3_covers, WIRE},
             {"dnw_ttl_parse", ttl_parse, TEXT}, {"dnw_type_parse", type_parse, TEXT}, {"dnw_class_parse", class_parse, TEXT},
             {"dnw_name_parse", name_parse, TEXT}, {"dnw_name_text_fault", name_text_fault, TEXT}, {"dnw_token_next", token_next, TEXT},
             {"dnw_record_parse", record_parse, TEXT}, {"dnw_zone_next", zone_next, TEXT}, {"dnw_data_parse", data_parse, TEXT}};

/* The data of the record that is open end here. */
static void close_record(void)
{
    if (open_data == 0)
        return;
    size_t data = made_len - open_data;
    made[open_data - 2] = (uint8_t)(data >> 8);
    made[open_data - 1] = (uint8_t)data;
    open_data = 0;
}

static bool put_pointer(size_t way, size_t a)
{
    size_t target = way % 5 == 0 ? (made_len >= 2 ? made_len - 2 : 0) : way % 5 == 1 ? mark : way % 5 == 2 ? 2 * a
                    : way % 5 == 3 ? last_record : first_data + 2 * a;
    return put_word(0xc000 | (target & 0x3fff));
}

/* Puts a record up to its data. Its owner is the root, a pointer, or what stands there. */
static bool put_head(size_t a, size_t b)
{
    static const uint8_t fixed[8] = {0, 0, 0, 1};
    close_record();
    size_t start = made_len;
    bool fits = b % 7 < 5 ? put_pointer(b, a / 16) : put("", 1);
    if (!fits || !put(fixed, 8) || !put_word(0)) {
        made_len = start;
        return false;
    }
    made[made_len - 10] = (uint8_t)(types[a % 16] >> 8);
    made[made_len - 9] = (uint8_t)types[a % 16];
    last_record = start;
    open_data = made_len;
    first_data = first_data == 0 ? made_len : first_data;
    records++;
    return true;
}

static bool put_question(size_t a, size_t b)
{
    close_record();
    size_t start = made_len;
    bool fits = b % 7 < 5 ? put_pointer(b, a) : put("", 1);
    if (!fits || !put("\000\001\000\001", 4)) {
        made_len = start;
        return false;
    }
    questions += records == 0;
    return true;
}

/* Puts an item of a list: a record of a name with so many labels, of which the last, the first, each or none differs from item to item. */
static bool put_item(size_t a, size_t b)
{
    uint8_t item[2 * DNW_FORM_SIZE + 11] = {DNW_LIST_ADDITIONAL};
    size_t labels = 1 + a % 127, most = 254 / labels - 1, each = b % 3 == 0 ? 1 : 1 + b % (most < 63 ? most : 63), end = 1;
    for (size_t n = 0; n < labels; n++, end += 1 + each) {
        bool differs = b % 4 == 3 || (b % 4 == 2 && n == 0) || (b % 4 == 1 && n + 1 == labels);
        item[end] = (uint8_t)each;
        memset(item + end + 1, differs ? (int)(items % 256) : 'a', each);
    }
    items++;
    size_t form = end++;
    memcpy(item + end, a % 2 == 0 ? "\000\001\000\001\000\000\000\000\000\004" : "\000\002\000\001\000\000\000\000\000", 10);
    end += 10;
    if (a % 2 == 0)
        return put(item, end + 4);
    item[end - 1] = (uint8_t)form;
    memcpy(item + end, item + 1, form);
    return put(item, end + form);
}

static bool take(enum domain domain, const int *step)
{
    size_t kind = (size_t)step[0] % KINDS, a = (size_t)step[2], b = (size_t)step[3];
    if (domain == LIST)
        return put_item(a, b);
    if (domain == TEXT) {
        const char *text = texts[a % (sizeof texts / sizeof texts[0])];
        return put(text, strlen(text));
    }
    uint8_t label[64];
    size_t last = domain <= FORM ? LABELS : domain == NAMES ? POINTER : KINDS;
    switch (kind > last ? LITERAL : kind) {
    case LABELS:
        label[0] = (uint8_t)(a % 63 + 1);
        memset(label + 1, b % 3 == 0 ? 'A' : (int)(b % 256), 63);
        return put(label, label[0] + 1u);
    case POINTER: return put_pointer(b, a);
    case RECORD: return put_head(a, b);
    case MARK: mark = made_len; return true;
    case QUESTION: return put_question(a, b);
    default: return put(wires[a % (sizeof wires / sizeof wires[0])].octets, wires[a % (sizeof wires / sizeof wires[0])].len);
    }
}

/* Makes one name of the labels that the input begins with, as long as the input. */
static void make_form(void)
{
    size_t at = 0;
    while (at + 1 < made_len && made[at] > 0 && made[at] < 64 && at + 1 + made[at] + 2 < made_len)
        at += 1u + made[at];
    for (; at + 1 < made_len; at += 1u + made[at]) {
        size_t rest = made_len - at - 2;
        made[at] = (uint8_t)(rest < 64 ? rest : 62);
    }
    made[made_len - 1] = 0;
}

/* Makes the input of a program: its genes are for each group how often it is repeated, and for each step a kind, how often, and two
   numbers. */
static void make(enum domain domain, const int *genes)
{
    static const uint8_t rrsig[] = "\000\000\056\000\001\000\000\000\000\000\023\000\012\010\000\000\000\000\000\000\000\000\000\000\000\000\000\000\000";
    made_len = mark = last_record = open_data = first_data = records = questions = items = 0;
    memset(made, 0, 12);
    if (domain == MESSAGE)
        made_len = mark = last_record = 12;
    if (domain == SIGNED)
        put(rrsig, sizeof rrsig - 1), put("", 1);
    for (int group = 0; group < GROUPS; group++, genes += 1 + 4 * STEPS) {
        size_t before = SIZE_MAX;
        for (int n = 0; (n < genes[0] || group == GROUPS - 1) && made_len < size && made_len != before; n++) {
            before = made_len;
            bool fits = true;
            for (int s = 0; fits && s < STEPS; s++)
                for (int times = 0; fits && times < genes[1 + 4 * s + 1]; times++)
                    fits = take(domain, genes + 1 + 4 * s) && (genes[1 + 4 * s] % KINDS != MARK);
        }
    }
    close_record();
    if (domain == FORM && made_len > 2)
        make_form();
    if (domain == MESSAGE && mark == 12 && made_len > 14)
        mark = made_len - 2;
    if (domain == MESSAGE) {
        made[4] = (uint8_t)(questions >> 8), made[5] = (uint8_t)questions;
        made[6] = (uint8_t)(records >> 8), made[7] = (uint8_t)records;
    }
}

/* How many instructions a call takes for a program's input. */
static uint32_t answer;
static double cost(const struct call *call, const int *genes)
{
    char path[512], line[256];
    double instructions = 0;
    make(call->domain, genes);
    CALLGRIND_ZERO_STATS;
    CALLGRIND_TOGGLE_COLLECT;
    answer = call->run();
    CALLGRIND_TOGGLE_COLLECT;
    CALLGRIND_DUMP_STATS;
    snprintf(path, sizeof path, "%s/o.%u", folder, ++dumps);
    FILE *file = fopen(path, "r");
    if (file == NULL) {
        fprintf(stderr, "costs: no %s: it runs under callgrind alone\n", path);
        exit(2);
    }
    while (fgets(line, sizeof line, file) != NULL)
        if (sscanf(line, "summary: %lf", &instructions) == 1)
            break;
    fclose(file);
    unlink(path);
    return instructions;
}

static void mutate(int *genes, int changes)
{
    for (int n = 1 + (int)below((size_t)changes); n > 0; n--) {
        int gene = (int)below(GENES), value = genes[gene];
        bool is_kind = gene % (1 + 4 * STEPS) % 4 == 1;
        switch (below(6)) {
        case 0: value = (int)below(is_kind ? KINDS : 4096); break;
        case 1: value = (int)below(is_kind ? KINDS : 64); break;
        case 2: value *= 2; break;
        case 3: value /= 2; break;
        case 4: value = (int)below(3); break;
        default: value += (int)below(9) - 4;
        }
        genes[gene] = value < 0 ? 0 : value > 16384 ? 16384 : value;
    }
}

/* Climbs from the best, or from random programs if nothing was gained for a while. */
static double climb(const struct call *call, int *best, int tries)
{
    int here[GENES], next[GENES];
    double most = cost(call, best), height = most;
    memcpy(here, best, sizeof here);
    for (int n = 0, since = 0; n < tries; n++, since++) {
        if (since > tries / 12 + 20) {
            memcpy(here, best, sizeof here);
            mutate(here, GENES);
            if (below(2) == 0)
                mutate(here, GENES * 3);
            height = since = 0;
        }
        memcpy(next, here, sizeof next);
        mutate(next, 3);
        double took = cost(call, next);
        if (took < height)
            continue;
        since = took > height ? 0 : since;
        height = took;
        memcpy(here, next, sizeof here);
        if (took > most) {
            most = took;
            memcpy(best, next, sizeof next);
        }
    }
    return most;
}

/* A random program. */
static void begin(int *genes)
{
    for (int gene = 0; gene < GENES; gene++) {
        bool is_kind = gene % (1 + 4 * STEPS) % 4 == 1;
        int ways[5] = {0, 1, 2, (int)below(64), (int)below(4096)};
        genes[gene] = is_kind ? (int)below(KINDS) : ways[below(5)];
    }
}

/* A list of names that point to one another; or a message of a chain of pointers to the root, and then of records whose owners, or the names of whose data, are at its end. */
static void begin_chain(enum domain domain, int *genes, int n)
{
    if (domain == NAMES) {
        const int root[] = {1, LITERAL, 1, 0, 0}, pointers[] = {1, POINTER, 1, 0, 0};
        memcpy(genes, root, sizeof root);
        memcpy(genes + 2 * (1 + 4 * STEPS), pointers, sizeof pointers);
        return;
    }
    int links = (int)size * (1 + n / 32) / 8, type = n % 16;
    const int chain[] = {1, RECORD, 1, 0, 5, POINTER, 1, 0, 2, POINTER, links, 0, 0};
    const int last[] = {1, RECORD, 1, 16 * links + type, 4};
    const int named[] = {1, RECORD, 1, type, 5, LITERAL, n % 3, 5, 0, POINTER, 1 + n / 8, links, 4};
    memcpy(genes, chain, sizeof chain);
    if (n % 32 < 16)
        memcpy(genes + 2 * (1 + 4 * STEPS), last, sizeof last);
    else
        memcpy(genes + 2 * (1 + 4 * STEPS), named, sizeof named);
}

/* The best of some random programs, and of those that make a chain. */
static void best_start(const struct call *call, int *best, int tries)
{
    double most = 0;
    for (int n = 0; n < tries / 10 + 96; n++) {
        int genes[GENES] = {0};
        if (n < 96 && call->domain >= NAMES)
            begin_chain(call->domain, genes, n);
        else
            begin(genes);
        double took = cost(call, genes);
        if (took >= most) {
            most = took;
            memcpy(best, genes, sizeof genes);
        }
    }
}

static void search(const struct call *call, size_t octets, int tries)
{
    static int best[GENES], doubled[GENES];
    size = octets;
    best_start(call, best, tries);
    double once = climb(call, best, tries);
    cost(call, best);
    uint32_t first = answer;
    for (int gene = 0; gene < GENES; gene++)
        doubled[gene] = gene % (1 + 4 * STEPS) % 4 == 2 || gene % (1 + 4 * STEPS) == 0 || gene % (1 + 4 * STEPS) % 4 == 3 ? best[gene] * 2 : best[gene];
    size = 2 * octets;
    double twice = cost(call, best);
    if (cost(call, doubled) > twice)
        memcpy(best, doubled, sizeof best);
    best_start(call, doubled, tries / 3);
    if (cost(call, doubled) > cost(call, best))
        memcpy(best, doubled, sizeof best);
    twice = climb(call, best, tries / 3);
    cost(call, best);
    printf("%s %zu %.0f %u %zu %.0f %u\n", call->function, octets, once, (unsigned)first, 2 * octets, twice, (unsigned)answer);
    fflush(stdout);
}

int main(int argc, char **argv)
{
    if (argc < 6)
        return 2;
    folder = argv[1];
    for (size_t n = 0; n + 1 < sizeof long_name; n += 2)
        memcpy(long_name + n, "\001a", 2);
    for (int word = 5; word < argc; word++)
        for (size_t n = 0; n < sizeof calls / sizeof calls[0]; n++)
            if (strcmp(argv[word], calls[n].function) == 0 || strcmp(argv[word], "all") == 0) {
                state = strtoull(argv[4], NULL, 10) * 2654435761u + n;
                search(&calls[n], strtoul(argv[2], NULL, 10), atoi(argv[3]));
            }
    return 0;
}
