/* Parses lines of master files and the data of records, and compares the answers with a model: a line is a name, words that
   other functions read, and data, in the form of any data or in the type's own (data_reading.c). What is parsed is printed, and what
   is printed is parsed as the same. The first octet of an input is the length of the origin, which is next; then come two octets of
   a type, and the text. */
#include "data_reading.h"
#include "line_reading.h"

enum { MOST = 32 * 1024, DATA = 65535 };

static struct room input, origins, output;

/* Puts the one line of a text, after which nothing but white space may be. */
static uint32_t model_entry(struct part text, uint8_t *line, size_t *len)
{
    uint32_t failure = model_scan(text, line, len);
    for (size_t at = *len; failure == DNW_DONE && at < text.len; at++)
        if (!is_blank(text.bytes[at]))
            return DNW_BAD_DATA;
    return failure;
}

static void put_number(uint8_t *out, uint32_t number, size_t count)
{
    for (size_t i = 0; i < count; i++)
        out[i] = (uint8_t)(number >> 8 * (count - 1 - i));
}

/* What is between the owner and the data: type, class and time to live, as a record has them. */
static uint32_t head_of(struct reader *r, uint8_t head[8], uint16_t *type)
{
    struct head of = take_head(r);
    if (!of.has_ttl)
        return DNW_BAD_TIME;
    if (!take_code(r, type))
        return DNW_UNKNOWN_TEXT;
    put_number(head, *type, 2);
    put_number(head + 2, of.has_class ? of.class : DNW_CLASS_IN, 2);
    put_number(head + 4, of.ttl, 4);
    return DNW_DONE;
}

static uint8_t wanted[DNW_FORM_SIZE + 10 + DATA];

/* The record that a line is. The owner is read as the data of a CNAME. */
static uint32_t model_line(struct part text, struct part origin, size_t *len)
{
    struct model_name name;
    uint16_t type;
    uint32_t failure = origin.len == 0 ? DNW_DONE : model_form(origin.bytes, origin.len, &name);
    if (failure != DNW_DONE)
        return failure;
    static uint8_t line[MOST];
    size_t line_len;
    failure = model_entry(text, line, &line_len);
    if (failure != DNW_DONE)
        return failure;
    struct reader r = {{line, line_len}, origin, wanted, 0};
    if (line_len == 0 || is_blank(text.bytes[0]) || !take_name(&r))
        return DNW_BAD_TEXT;
    *len = r.len;
    failure = head_of(&r, wanted + *len, &type);
    if (failure != DNW_DONE)
        return failure;
    size_t data_len;
    uint16_t class = (uint16_t)model_number(wanted + *len + 2, 2);
    failure = dnw_data_parse(type, class, r.left.bytes, r.left.len, origin.bytes, origin.len, wanted + *len + 10, DATA, &data_len);
    if (failure != DNW_DONE)
        return failure;
    put_number(wanted + *len + 8, (uint32_t)data_len, 2);
    *len += 10 + data_len;
    return DNW_DONE;
}

/* A record without compression is printed as a line that gives it again. */
static void comes_back(const uint8_t *record, size_t len)
{
    static uint8_t line[16 * MOST], again[sizeof wanted];
    struct dnw_printed_record printed;
    size_t again_len;
    CHECK(dnw_record_print(record, len, 0, line, sizeof line, &printed) == DNW_DONE && printed.end == len);
    CHECK(dnw_record_parse(line, printed.len, record, 0, again, sizeof again, &again_len) == DNW_DONE);
    CHECK(again_len == len && memcmp(again, record, len) == 0);
}

/* A fault is within the text, and has a sentence; there is none exactly if the text was accepted. */
static void is_fault_of(struct dnw_text_fault fault, struct part text, bool is_right)
{
    uint8_t sentence[DNW_SENTENCE_SIZE];
    size_t len = 0;
    CHECK((fault.reason == DNW_REASON_NONE) == is_right);
    CHECK(fault.offset <= text.len && fault.len <= text.len - fault.offset);
    CHECK(fault.reason >= DNW_REASON_NAME || fault.field == 0);
    CHECK(dnw_text_fault_print(&fault, sentence, sizeof sentence, &len) == DNW_DONE && (len == 0) == is_right);
}

static void parses_line(struct part text, struct part origin)
{
    if (text.len > MOST)
        return;
    size_t model_len, len = 7;
    uint32_t answer = model_line(text, origin, &model_len);
    uint8_t *record = clear(&output, MOST);
    CHECK(dnw_record_parse(text.bytes, text.len, origin.bytes, origin.len, record, MOST, &len) == answer);
    struct dnw_text_fault fault;
    if (dnw_record_text_fault(text.bytes, text.len, origin.bytes, origin.len, &fault) == DNW_DONE)
        is_fault_of(fault, text, answer == DNW_DONE);
    else
        CHECK(origin.len > 0 && answer != DNW_DONE);
    if (answer != DNW_DONE) {
        CHECK(untouched(record, MOST) && len == 7);
        return;
    }
    CHECK(len == model_len && holds(record, MOST, wanted, len));
    comes_back(wanted, len);
    len = 7;
    record = clear(&output, model_len - 1);
    CHECK(dnw_record_parse(text.bytes, text.len, origin.bytes, origin.len, record, model_len - 1, &len) == DNW_NO_ROOM);
    CHECK(untouched(record, model_len - 1) && len == 7);
    for (size_t number = 1; number <= 8; number *= 2) {
        record = clear(&output, model_len);
        refuse(number);
        answer = dnw_record_parse(text.bytes, text.len, origin.bytes, origin.len, record, model_len, &len);
        /* what says of a word that it is no time to live needs no memory */
        bool is_refused = was_refused() && answer == DNW_NO_MEMORY;
        CHECK(is_refused ? untouched(record, model_len) : answer == DNW_DONE && holds(record, model_len, wanted, model_len));
    }
}

/* Data that are parsed are fields of their type, and no name in them is a pointer: so they can be put into any message. */
static void are_plain(uint16_t type, const uint8_t *data, size_t len)
{
    const char *row = model_fields_of(DNW_CLASS_IN, type, data, len);
    struct dnw_fields fields = {0, 0};
    struct dnw_field field;
    struct model_name name;
    do {
        size_t at = fields.offset, number = fields.number;
        CHECK(model_next(data, len, 0, DNW_CLASS_IN, type, &fields, &field) == DNW_DONE);
        if (number < strlen(row) && row[number] == 'n')
            CHECK(model_read(data, len, at, &name) == DNW_DONE && name.len == name.end - at);
    } while (field.kind != DNW_FIELD_END);
}

static void parses_data(uint16_t type, struct part text, struct part origin)
{
    static uint8_t read[DATA];
    size_t len = 7, read_len = 0;
    uint8_t *data = clear(&output, MOST);
    uint32_t answer = dnw_data_parse(type, DNW_CLASS_IN, text.bytes, text.len, origin.bytes, origin.len, data, MOST, &len);
    struct model_name name;
    uint32_t failure = origin.len == 0 ? DNW_DONE : model_form(origin.bytes, origin.len, &name);
    CHECK(failure != DNW_DONE ? answer == failure : answer == DNW_DONE || answer == DNW_BAD_DATA);
    struct dnw_text_fault fault;
    CHECK(dnw_data_text_fault(type, DNW_CLASS_IN, text.bytes, text.len, origin.bytes, origin.len, &fault) == failure);
    if (failure == DNW_DONE) {
        is_fault_of(fault, text, answer == DNW_DONE);
        saw(128 * (size_t)type + fault.reason);
    }
    CHECK((failure == DNW_DONE && model_data_text(type, text, origin, read, &read_len)) == (answer == DNW_DONE));
    if (answer != DNW_DONE) {
        CHECK(untouched(data, MOST) && len == 7);
        return;
    }
    CHECK(holds(data, MOST, data, len));
    CHECK(len == read_len && memcmp(data, read, len) == 0);
    are_plain(type, data, len);
    wanted[0] = 0;
    put_number(wanted + 1, type, 2);
    put_number(wanted + 3, DNW_CLASS_IN, 2);
    put_number(wanted + 5, 0, 4);
    put_number(wanted + 9, (uint32_t)len, 2);
    memcpy(wanted + 11, data, len);
    comes_back(wanted, 11 + len);
    if (len > 0) {
        size_t size = len;
        data = clear(&output, size - 1);
        CHECK(dnw_data_parse(type, DNW_CLASS_IN, text.bytes, text.len, origin.bytes, origin.len, data, size - 1, &len) == DNW_NO_ROOM);
        CHECK(untouched(data, size - 1) && len == size);
    }
}

int LLVMFuzzerTestOneInput(const uint8_t *data, size_t size)
{
    if (size < 3 || (size_t)data[0] > size - 3)
        return 0;
    struct part origin = {put_at_end(&origins, data + 1, data[0]), data[0]};
    size_t len = size - 3 - data[0];
    struct part text = {put_at_end(&input, data + 3 + data[0], len), len};
    parses_line(text, origin);
    parses_data((uint16_t)(model_number(data + 1 + data[0], 2) % 300), text, origin);
    CHECK(memcmp(text.bytes, data + 3 + data[0], len) == 0 && memcmp(origin.bytes, data + 1, data[0]) == 0);
    return 0;
}
