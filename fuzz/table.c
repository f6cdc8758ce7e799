/* Reads a whole message as a table, and for each of its records the data with names whole and the sort key, and compares them with a
   model's: RFC 1035, section 4, and RFC 4034, section 6, in plain C. The first octet of an input is how many pointers may be followed, or
   255 for as many as the header says. */
#include "harness.h"

enum { ROWS = 8192, NAMES = 1 << 20, DATA = 1 << 20 };

static struct room input;
static struct dnw_row rows[ROWS], wanted[ROWS];
static uint8_t names[NAMES], wanted_names[NAMES], data[DATA], wanted_data[DATA];
static size_t row_count, names_len, left;

/* Adds a row, with the name that stands there, or none. Returns false if its pointers are more than are left. */
static bool add(struct dnw_row row, const uint8_t *message, size_t at, const struct model_name *name)
{
    if (name != NULL) {
        size_t count = model_pointers(message, at);
        if (left < count)
            return false;
        left -= count;
        row.name = names_len;
        row.name_len = name->len;
        memcpy(wanted_names + names_len, name->form, name->len);
        names_len += name->len;
    }
    CHECK(row_count < ROWS && names_len + DNW_FORM_SIZE < NAMES);
    wanted[row_count++] = row;
    return true;
}

/* Adds the entries of a list, which the model of fields has checked. */
static void add_entries(const uint8_t *message, const struct dnw_field *field)
{
    size_t at = field->offset, end = field->offset + field->len;
    while (at != end) {
        struct dnw_row row = {.kind = DNW_ROW_ENTRY};
        struct model_name name;
        switch (field->kind) {
        case DNW_FIELD_TEXTS: row.offset = at + 1, row.len = message[at]; break;
        case DNW_FIELD_TYPES: row.number = message[at], row.offset = at + 2, row.len = message[at + 1]; break;
        case DNW_FIELD_PARAMS:
            row.number = model_number(message + at, 2), row.offset = at + 4, row.len = model_number(message + at + 2, 2);
            break;
        case DNW_FIELD_PREFIXES:
            row.number = model_number(message + at, 2), row.offset = at + 2, row.len = 2 + (message[at + 3] & 127u);
            break;
        case DNW_FIELD_NAMES:
            CHECK(model_read(message, end, at, &name) == DNW_DONE);
            row.offset = at, row.len = name.end - at;
            break;
        default: return;
        }
        add(row, message, at, NULL);
        at = row.offset + row.len;
    }
}

static bool add_fields(const uint8_t *message, const struct dnw_record *record)
{
    struct dnw_fields fields = {record->data_offset, 0};
    for (;;) {
        struct dnw_field field;
        struct model_name name;
        size_t start = fields.offset;
        uint32_t failure = model_next(message, record->end, record->data_offset, record->record_class, record->record_type, &fields, &field);
        if (failure != DNW_DONE)
            return add((struct dnw_row){.kind = DNW_ROW_FAULT, .number = failure, .offset = start}, message, 0, NULL);
        if (field.kind == DNW_FIELD_END)
            return true;
        bool is_name = field.kind == DNW_FIELD_NAME;
        if (is_name)
            CHECK(model_read(message, record->end, field.offset, &name) == DNW_DONE);
        struct dnw_row row = {.kind = field.kind, .offset = field.offset, .len = field.len};
        if (!add(row, message, field.offset, is_name ? &name : NULL))
            return false;
        add_entries(message, &field);
    }
}

/* Lists the items of a message. Returns why it is none. */
static uint32_t list(const uint8_t *message, size_t len)
{
    size_t at = DNW_HEADER_SIZE;
    if (len < DNW_HEADER_SIZE)
        return DNW_MESSAGE_CUT;
    for (uint32_t section = 1; section <= 4; section++)
        for (uint32_t n = model_number(message + 2 + 2 * section, 2); n > 0; n--) {
            struct model_name owner;
            struct dnw_record record;
            uint32_t failure = section == 1 ? model_read(message, len, at, &owner) : model_record(message, len, at, &owner, &record);
            if (failure == DNW_DONE && section == 1 && len - owner.end < 4)
                failure = DNW_MESSAGE_CUT;
            if (failure != DNW_DONE)
                return failure;
            struct dnw_row row = {.section = section};
            const uint8_t *fixed = message + owner.end;
            row.record_type = (uint16_t)model_number(fixed, 2), row.record_class = (uint16_t)model_number(fixed + 2, 2);
            row.offset = section == 1 ? owner.end + 4 : record.data_offset, row.len = section == 1 ? 0 : record.data_len;
            row.number = section == 1 ? 0 : record.ttl;
            if (!add(row, message, at, &owner) || (section != 1 && !add_fields(message, &record)))
                return DNW_TOO_MANY_POINTERS;
            at = row.offset + row.len;
        }
    return DNW_DONE;
}

static bool is_same(const struct dnw_row *a, const struct dnw_row *b)
{
    bool is_field = a->section == 0 && a->kind != DNW_ROW_ENTRY && a->kind != DNW_ROW_FAULT;
    return a->section == b->section && a->kind == b->kind && a->record_type == b->record_type && a->record_class == b->record_class
           && (is_field || a->number == b->number) && a->offset == b->offset && (a->kind == DNW_ROW_FAULT || a->len == b->len)
           && a->name_len == b->name_len && (a->name_len == 0 || a->name == b->name);
}

/* Reads the table with just as much room as it needs, and with less. */
static void reads_table(const uint8_t *message, size_t len, size_t most)
{
    row_count = names_len = 0, left = most;
    uint32_t failure = list(message, len);
    struct dnw_table table = {7, 7};
    uint32_t answer = dnw_message_table(message, len, most, rows, ROWS, names, NAMES, &table);
    if (failure != DNW_DONE) {
        CHECK(answer == failure && table.row_count == 7 && table.names_len == 7);
        return;
    }
    memset(names, 0xAA, names_len + 64);
    memset(rows, 0xAA, sizeof rows[0] * (row_count + 1));
    CHECK(dnw_message_table(message, len, most, rows, row_count, names, names_len, &table) == DNW_DONE);
    CHECK(table.row_count == row_count && table.names_len == names_len && memcmp(names, wanted_names, names_len) == 0);
    for (size_t n = 0; n < row_count; n++)
        CHECK(is_same(&rows[n], &wanted[n]));
    CHECK(names[names_len] == 0xAA && ((uint8_t *)&rows[row_count])[0] == 0xAA && ((uint8_t *)&rows[row_count])[47] == 0xAA);
    CHECK(row_count <= len);
    if (row_count > 0)
        CHECK(dnw_message_table(message, len, most, rows, row_count - 1, names, NAMES, &table) == DNW_NO_ROOM);
    if (names_len > 0)
        CHECK(dnw_message_table(message, len, most, rows, ROWS, names, names_len - 1, &table) == DNW_NO_ROOM);
}

/* Puts the sort key of a name, and an octet 0. */
static size_t put_key(const struct model_name *name)
{
    size_t starts[128], count = 0, at = 0;
    struct model_name lowered = *name;
    model_lower(&lowered);
    for (size_t place = 0; lowered.form[place] != 0; place += 1 + lowered.form[place])
        starts[count++] = place;
    while (count-- > 0) {
        const uint8_t *label = lowered.form + starts[count];
        for (size_t n = 1; n <= label[0]; n++) {
            if (label[n] < 2)
                wanted_data[at++] = 1;
            wanted_data[at++] = label[n] < 2 ? (uint8_t)(label[n] + 1) : label[n];
        }
        wanted_data[at++] = 0;
    }
    wanted_data[at++] = 0;
    return at;
}

/* The result of a call is what the model has put, in just that room; or no room; or the failure. */
static void is_put(uint32_t (*call)(const uint8_t *, size_t, size_t, uint8_t *, size_t, size_t *), const uint8_t *message, size_t len,
                   size_t start, uint32_t failure, size_t wanted_len)
{
    size_t stored = 7;
    memset(data, 0xAA, wanted_len + 64);
    uint32_t answer = call(message, len, start, data, wanted_len, &stored);
    if (failure != DNW_DONE) {
        CHECK(answer == failure && stored == 7 && data[0] == 0xAA);
        return;
    }
    CHECK(answer == DNW_DONE && stored == wanted_len && memcmp(data, wanted_data, stored) == 0 && data[stored] == 0xAA);
    if (wanted_len > 0)
        CHECK(call(message, len, start, data, wanted_len - 1, &stored) == DNW_NO_ROOM);
    for (size_t number = 1; number < 4; number++) {
        refuse(number);
        answer = call(message, len, start, data, wanted_len, &stored);
        CHECK(was_refused() ? answer == DNW_NO_MEMORY : answer == DNW_DONE);
    }
}

static void reads_record(const uint8_t *message, size_t len, size_t start)
{
    struct model_name owner;
    struct dnw_record record;
    size_t at = 0;
    uint32_t failure = model_record(message, len, start, &owner, &record);
    uint32_t of_data = failure != DNW_DONE ? failure : model_put_data(message, &record, false, wanted_data, &at);
    is_put(dnw_record_data, message, len, start, of_data, at);
    if (failure == DNW_DONE) {
        at = put_key(&owner);
        memcpy(wanted_data + at, message + owner.end, 4);
        at += 4;
        failure = model_put_data(message, &record, model_is_lowered(record.record_type), wanted_data, &at);
    }
    is_put(dnw_record_sort_key, message, len, start, failure, at);
}

int LLVMFuzzerTestOneInput(const uint8_t *octets, size_t size)
{
    if (size == 0)
        return 0;
    size_t len = size - 1, most = octets[0] == 255 ? DNW_MAX_POINTERS : octets[0];
    const uint8_t *message = put_at_end(&input, octets + 1, len);
    refuse(1);
    reads_table(message, len, most);
    CHECK(!was_refused());
    for (size_t n = 0; n < row_count; n++)
        if (wanted[n].section > 1)
            reads_record(message, len, n == 0 ? DNW_HEADER_SIZE : wanted[n].offset - 10 - (wanted[n].offset > 12 ? 2 : 0));
    for (size_t start = 0; start < len && start < 24; start++)
        reads_record(message, len, start);
    reads_record(message, len, len + 1);
    return 0;
}
