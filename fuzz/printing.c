/* Prints the record at each of the first offsets of the input, and the input as the data of a type, and compares the line with a
   model: what RFC 1035, section 5.1, and the RFC of each type say, in plain C. Each line is put into a buffer of just its size,
   and refused by one that is shorter by a byte; and it is parsed as the record. */
#include "field_texts.h"

enum { OFFSETS = 48 };

static struct room input, lines;

/* The types whose data are printed as octets, though their fields have texts, since many servers know none (docs/DATA.md). */
static bool is_little_known(uint16_t type)
{
    static const uint16_t types[] = {19, 20, 23, 27, 49, 56, 57, 58, 66, 67, 68, 105, 107, 258, 260, 261, 262, 263, 264, 32768, 32769};
    for (size_t i = 0; i < sizeof types / sizeof *types; i++)
        if (type == types[i])
            return true;
    return false;
}

/* Octets alone that have a text: keys, and addresses of NSAP, which are of IN and of its updates. */
static bool have_text(const struct dnw_record *record)
{
    uint16_t class = record->record_class;
    return record->record_type == 61 ||
           (record->record_type == 22 && (class == DNW_CLASS_IN || class == DNW_CLASS_NONE || class == DNW_CLASS_ANY));
}

static struct made line, octets;

/* Whether the data are fields of their type, and so are parsed from what is printed. */
static bool are_fields;

/* Adds a field to the octets, and its text to the line. Returns false if it has none. */
static bool add_field(const uint8_t *message, const struct dnw_record *record, char letter, uint32_t number, const struct dnw_field *field)
{
    const uint8_t *own = message + field->offset;
    struct model_name name;
    if (letter == 'n') {
        CHECK(model_read(message, record->end, field->offset, &name) == DNW_DONE);
        add(&octets, name.form, name.len);
        return add_field_text(&line, record->record_type, letter, name.form, name.len);
    }
    size_t head = model_head(letter);
    add(&octets, own - head, field->len + head);
    /* the second octets of NSEC3 are the hash of a name */
    if (letter == 'c' && number == 5)
        letter = 'h';
    return add_field_text(&line, record->record_type, letter, own, field->len);
}

/* Adds the text of a record's data, and the data with names that are not compressed. */
static void add_data(const uint8_t *message, const struct dnw_record *record)
{
    const char *row = model_fields_of(record->record_class, record->record_type, message + record->data_offset, record->data_len);
    size_t line_len = line.len, octets_len = octets.len;
    struct dnw_fields fields = {record->data_offset, 0};
    struct dnw_field field;
    uint32_t failure;
    bool has_text = (strcmp(row, "o") != 0 || have_text(record)) && (row[0] == 0 || !is_little_known(record->record_type));
    while ((failure = model_next(message, record->end, record->data_offset, record->record_class, record->record_type, &fields,
                                 &field)) == DNW_DONE &&
           field.kind != DNW_FIELD_END)
        has_text &= add_field(message, record, row[fields.number - 1], fields.number, &field);
    if (failure != DNW_DONE) {
        octets.len = octets_len;
        add(&octets, message + record->data_offset, record->data_len);
    }
    are_fields = failure == DNW_DONE;
    /* a text without a word is that of data that are left out, and not that of no prefixes */
    if (!are_fields || !has_text || (row[0] != 0 && line.len == line_len)) {
        line.len = line_len;
        add_text(&line, " \\#");
        add_number(&line, octets.len == octets_len ? " %u" : " %u ", (uint32_t)(octets.len - octets_len));
        add_hex(&line, octets.bytes + octets_len, octets.len - octets_len);
    }
}

/* Makes the line of a record, and the record without compression. */
static void model_line(const uint8_t *message, const struct model_name *owner, const struct dnw_record *record)
{
    line.len = octets.len = 0;
    add_name(&line, owner->form);
    add_number(&line, " %u ", record->ttl);
    add_code(&line, dnw_class_print, record->record_class);
    add_text(&line, " ");
    add_code(&line, dnw_type_print, record->record_type);
    add(&octets, owner->form, owner->len);
    add(&octets, message + record->data_offset - 10, 10);
    size_t len_at = octets.len - 2;
    add_data(message, record);
    size_t data_len = octets.len - len_at - 2;
    octets.bytes[len_at] = (uint8_t)(data_len >> 8);
    octets.bytes[len_at + 1] = (uint8_t)data_len;
}

static const struct dnw_printed_record none = {7, 7};

/* A line gives the record that it was printed from, without compression, if its data are fields of their type. */
static void parses_back(const uint8_t *text, size_t len)
{
    static uint8_t record[MOST];
    size_t record_len;
    CHECK(dnw_record_parse(text, len, text, 0, record, MOST, &record_len) == (are_fields ? DNW_DONE : DNW_BAD_DATA));
    CHECK(!are_fields || (record_len == octets.len && memcmp(record, octets.bytes, record_len) == 0));
}

static void prints(const uint8_t *message, size_t len, size_t start)
{
    struct model_name owner;
    struct dnw_record record;
    struct dnw_printed_record printed = none;
    uint32_t answer = model_record(message, len, start, &owner, &record);
    if (answer == DNW_DONE)
        model_line(message, &owner, &record);
    size_t size = answer == DNW_DONE ? line.len + 64 : 64;
    uint8_t *text = clear(&lines, size);
    CHECK(dnw_record_print(message, len, start, text, size, &printed) == answer);
    if (answer != DNW_DONE) {
        CHECK(untouched(text, size) && printed.len == 7 && printed.end == 7);
        return;
    }
    CHECK(printed.end == record.end && printed.len == line.len && holds(text, size, line.bytes, line.len));
    parses_back(text, printed.len);
    size = printed.len;
    printed = none;
    text = clear(&lines, size - 1);
    CHECK(dnw_record_print(message, len, start, text, size - 1, &printed) == DNW_NO_ROOM);
    CHECK(untouched(text, size - 1) && printed.len == 7);
    for (size_t number = 1; number <= 8; number *= 2) {
        text = clear(&lines, size);
        refuse(number);
        answer = dnw_record_print(message, len, start, text, size, &printed);
        CHECK(was_refused() ? answer == DNW_NO_MEMORY && untouched(text, size) : answer == DNW_DONE);
    }
}

/* A record of a type with these data, after its owner. */
static void prints_data(uint16_t type, const uint8_t *data, size_t len)
{
    static uint8_t record[4096];
    static const uint8_t head[] = {2, 'a', '.', 0, 0, 0, 0, 1, 0, 0, 14, 16};
    CHECK(len + sizeof head + 2 <= sizeof record);
    memcpy(record, head, sizeof head);
    record[4] = (uint8_t)(type >> 8);
    record[5] = (uint8_t)type;
    record[sizeof head] = (uint8_t)(len >> 8);
    record[sizeof head + 1] = (uint8_t)len;
    memcpy(record + sizeof head + 2, data, len);
    prints(put_at_end(&input, record, sizeof head + 2 + len), sizeof head + 2 + len, 0);
}

int LLVMFuzzerTestOneInput(const uint8_t *data, size_t size)
{
    if (size < 2)
        return 0;
    prints_data((uint16_t)(model_number(data, 2) % 300), data + 2, size - 2);
    const uint8_t *message = put_at_end(&input, data, size);
    for (size_t start = 0; start <= size + 1 && start < OFFSETS; start++)
        prints(message, size, start);
    prints(message, size, SIZE_MAX);
    CHECK(memcmp(message, data, size) == 0);
    return 0;
}
