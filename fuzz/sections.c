/* Reads whole messages, what they say by EDNS, and the fields of the data of each of their records, and compares the answers
   with a model: what RFC 1035, section 4, and RFC 6891, section 6.1, say, in plain C. The first octet of an
   input is how many pointers may be followed, or 255 for as many as the header says. */
#include "harness.h"

static struct room input;

static const struct dnw_message no_message = {.id = 7, .end = 7};

/* Passes one question or record, and takes the pointers of its name from those that are left. */
static uint32_t pass(const uint8_t *message, size_t len, bool is_question, size_t *at, size_t *left)
{
    struct model_name name;
    struct dnw_record record;
    size_t start = *at;
    uint32_t failure;
    if (is_question) {
        failure = model_read(message, len, start, &name);
        *at = name.end + 4;
        if (failure == DNW_DONE && len - name.end < 4)
            failure = DNW_MESSAGE_CUT;
    } else {
        failure = model_record(message, len, start, &name, &record);
        *at = record.end;
    }
    if (failure != DNW_DONE)
        return failure;
    size_t count = model_pointers(message, start);
    if (*left < count)
        return DNW_TOO_MANY_POINTERS;
    *left -= count;
    return DNW_DONE;
}

static uint32_t model_message(const uint8_t *message, size_t len, size_t most, struct dnw_message *read,
                              struct dnw_message_fault *fault)
{
    *fault = (struct dnw_message_fault){0, 0, 0};
    if (len < DNW_HEADER_SIZE)
        return DNW_MESSAGE_CUT;
    uint32_t flags = model_number(message + 2, 2);
    size_t ends[4], at = DNW_HEADER_SIZE;
    for (uint32_t section = 0; section < 4; section++) {
        for (uint32_t item = 0; item < model_number(message + 4 + 2 * section, 2); item++) {
            *fault = (struct dnw_message_fault){section + 1, (uint16_t)item, at};
            uint32_t failure = pass(message, len, section == 0, &at, &most);
            if (failure != DNW_DONE)
                return failure;
        }
        ends[section] = at;
    }
    *read = (struct dnw_message){
        .id = (uint16_t)model_number(message, 2),
        .is_response = flags >> 15,
        .op_code = flags >> 11 & 15,
        .authoritative = flags >> 10 & 1,
        .truncation = flags >> 9 & 1,
        .recursion_desired = flags >> 8 & 1,
        .recursion_available = flags >> 7 & 1,
        .authentic_data = flags >> 5 & 1,
        .checking_disabled = flags >> 4 & 1,
        .response_code = flags & 15,
        .question_count = (uint16_t)model_number(message + 4, 2),
        .answer_count = (uint16_t)model_number(message + 6, 2),
        .authority_count = (uint16_t)model_number(message + 8, 2),
        .additional_count = (uint16_t)model_number(message + 10, 2),
        .answers = ends[0],
        .authorities = ends[1],
        .additionals = ends[2],
        .end = ends[3],
    };
    return DNW_DONE;
}

static bool is_same(const struct dnw_message *a, const struct dnw_message *b)
{
    return a->id == b->id && a->is_response == b->is_response && a->op_code == b->op_code &&
           a->authoritative == b->authoritative && a->truncation == b->truncation &&
           a->recursion_desired == b->recursion_desired && a->recursion_available == b->recursion_available &&
           a->authentic_data == b->authentic_data && a->checking_disabled == b->checking_disabled &&
           a->response_code == b->response_code && a->question_count == b->question_count &&
           a->answer_count == b->answer_count && a->authority_count == b->authority_count &&
           a->additional_count == b->additional_count && a->answers == b->answers && a->authorities == b->authorities &&
           a->additionals == b->additionals && a->end == b->end;
}

/* How many OPT records are among so many records of a checked message. Puts the first of them. */
static size_t find_opts(const uint8_t *message, size_t len, size_t at, size_t count, struct dnw_record *opt)
{
    size_t found = 0;
    struct dnw_record record;
    for (size_t i = 0; i < count; i++, at = record.end) {
        struct model_name owner;
        CHECK(model_record(message, len, at, &owner, &record) == DNW_DONE);
        if (record.record_type == DNW_TYPE_OPT && found++ == 0)
            *opt = record;
    }
    return found;
}

/* What a checked message says by EDNS. */
static uint32_t model_edns(const uint8_t *message, size_t len, const struct dnw_message *read, struct dnw_edns *edns)
{
    struct dnw_record opt = {.owner_len = 1}, other;
    size_t outside = find_opts(message, len, read->answers, read->answer_count + (size_t)read->authority_count, &other);
    size_t found = find_opts(message, len, read->additionals, read->additional_count, &opt);
    *edns = (struct dnw_edns){.max_payload = 512, .response_code = read->response_code};
    if (outside > 0)
        return DNW_OUTSIDE_ADDITIONALS;
    if (found > 1)
        return DNW_DUPLICATE_EDNS;
    if (opt.owner_len != 1)
        return DNW_OWNER_NOT_ROOT;
    if (found == 0)
        return DNW_DONE;
    for (size_t option = opt.data_offset; option != opt.end;) {
        if (opt.end - option < 4 || opt.end - option < 4 + model_number(message + option + 2, 2))
            return DNW_CUT_OPTION;
        option += 4 + model_number(message + option + 2, 2);
    }
    edns->is_present = true;
    edns->dnssec_ok = opt.ttl >> 15 & 1;
    edns->version = (uint8_t)(opt.ttl >> 16);
    edns->max_payload = opt.record_class < 512 ? 512 : opt.record_class;
    edns->response_code = (uint16_t)(opt.ttl >> 24 << 4 | read->response_code);
    edns->options_offset = opt.data_offset;
    edns->options_len = opt.data_len;
    return DNW_DONE;
}

static void reads_edns(const uint8_t *message, size_t len, size_t most, const struct dnw_message *read)
{
    struct dnw_edns wanted, edns = {.version = 7, .options_len = 7};
    uint32_t answer = model_edns(message, len, read, &wanted);
    CHECK(dnw_edns_read(message, len, most, &edns) == answer);
    if (answer != DNW_DONE) {
        CHECK(edns.version == 7 && edns.options_len == 7 && !edns.is_present);
        return;
    }
    CHECK(edns.is_present == wanted.is_present && edns.dnssec_ok == wanted.dnssec_ok && edns.version == wanted.version);
    CHECK(edns.max_payload == wanted.max_payload && edns.response_code == wanted.response_code);
    CHECK(edns.options_offset == wanted.options_offset && edns.options_len == wanted.options_len);
    CHECK(edns.takes_records == (edns.response_code != 1 && edns.response_code != 4 && edns.response_code != 16));
}

static void reads_fields(const uint8_t *message, size_t end, uint16_t class, uint16_t type, size_t offset)
{
    struct dnw_fields fields = {offset, 0}, wanted_fields = fields;
    uint32_t answer;
    struct dnw_field field, wanted;
    do {
        const struct dnw_fields before = fields;
        field = wanted = (struct dnw_field){77, 7, 7};
        answer = model_next(message, end, offset, class, type, &wanted_fields, &wanted);
        CHECK(dnw_field_next(message, end, offset, type, class, &fields, &field) == answer);
        if (answer != DNW_DONE) {
            CHECK(fields.offset == before.offset && fields.number == before.number);
            CHECK(field.kind == 77 && field.offset == 7 && field.len == 7);
            return;
        }
        CHECK(fields.offset == wanted_fields.offset && fields.number == wanted_fields.number);
        CHECK(field.kind == wanted.kind && field.offset == wanted.offset && field.len == wanted.len);
        CHECK(field.offset + field.len <= end && fields.offset == field.offset + field.len);
    } while (field.kind != DNW_FIELD_END);
}

static void reads(const uint8_t *message, size_t len, size_t most)
{
    struct dnw_message wanted, read = no_message;
    struct dnw_message_fault wanted_fault, fault = {7, 7, 7};
    uint32_t answer = model_message(message, len, most, &wanted, &wanted_fault);
    CHECK(dnw_message_read(message, len, most, &read, &fault) == answer);
    if (answer != DNW_DONE) {
        CHECK(is_same(&read, &no_message) && fault.section == wanted_fault.section);
        CHECK(fault.item == wanted_fault.item && fault.offset == wanted_fault.offset);
        struct dnw_edns edns = {.version = 7};
        CHECK(dnw_edns_read(message, len, most, &edns) == answer && edns.version == 7);
        return;
    }
    CHECK(is_same(&read, &wanted) && fault.section == 7 && fault.item == 7 && fault.offset == 7);
    reads_edns(message, len, most, &read);
    for (size_t at = read.answers; at != read.end;) {
        struct model_name owner;
        struct dnw_record record;
        CHECK(model_record(message, len, at, &owner, &record) == DNW_DONE);
        reads_fields(message, record.end, record.record_class, record.record_type, record.data_offset);
        at = record.end;
    }
}

int LLVMFuzzerTestOneInput(const uint8_t *data, size_t size)
{
    if (size == 0)
        return 0;
    size_t most = data[0] == 255 ? DNW_MAX_POINTERS : data[0], len = size - 1;
    refuse(1);
    const uint8_t *message = put_at_end(&input, data + 1, len);
    reads(message, len, most);
    /* The input as the data of a type, from its first octets on. */
    if (len >= 2) {
        uint16_t type = (uint16_t)(model_number(message, 2) % 300);
        static const uint16_t classes[] = {DNW_CLASS_IN, DNW_CLASS_CH, DNW_CLASS_HS, DNW_CLASS_NONE, DNW_CLASS_ANY};
        for (size_t i = 0; i < sizeof classes / sizeof classes[0]; i++) {
            reads_fields(message, len, classes[i], type, 2);
            reads_fields(message, len, classes[i], type, len + 1);
        }
    }
    message = put_at_start(&input, data + 1, len);
    reads(message, len, most);
    CHECK(memcmp(message, data + 1, len) == 0 && !was_refused());
    return 0;
}
