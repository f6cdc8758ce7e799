/* Reads the input as a zone file: whole, in parts that are cut where its first octets say, and octet by octet. The entries are those
   of the model (zone_reading.c), are the same in parts, each at its place, and take as many octets as there are; records are read by
   dnw_record_read, and printed and parsed as themselves. A state that is spoiled makes a call fail, or read on, and nothing outside
   the buffers is touched. Without room or memory nothing is stored. */
#include "zone_reading.h"

static struct room input, part, octets, fault, rows;

enum { SIZE = DNW_ZONE_OCTETS_SIZE };

/* Entries, each as the octets that it was put as. */
struct entries {
    uint8_t bytes[1 << 20];
    size_t len;
    size_t count;
};

static struct entries whole, other;

static void add(struct entries *to, const void *bytes, size_t len)
{
    if (to->len + len <= sizeof to->bytes) {
        memcpy(to->bytes + to->len, bytes, len);
        to->len += len;
    }
}

static void add_entry(struct entries *to, const struct dnw_zone_entry *entry, const uint8_t *bytes)
{
    const size_t fields[] = {entry->kind, entry->used, entry->offset, entry->line, entry->column, entry->fault.offset,
                             entry->fault.len, entry->fault.field, entry->fault.reason, entry->len, entry->name_len,
                             entry->data_len, entry->ttl, entry->record_type, entry->record_class};
    add(to, fields, sizeof fields);
    add(to, bytes, entry->len);
    to->count += 1;
}

/* What entries there are, each by its type or its fault, and which come after one another. */
static void saw_entry(const struct dnw_zone_entry *entry, size_t last)
{
    size_t what = 128 * entry->kind + (entry->kind == DNW_ZONE_ERROR ? entry->fault.reason : 0);
    saw(what);
    saw(1024 + (16 * entry->kind + last) % 1024);
    saw(2048 + 16 * entry->fault.reason + entry->fault.field % 16);
    saw(4096 + entry->record_type % 4096);
    saw(8192 + entry->record_class % 512);
}

/* The entry is that of the model, and so is what is known after it. */
static void is_that_of_model(struct part text, const struct dnw_zone *before, const struct dnw_zone *after, const struct dnw_zone_entry *entry,
                             const uint8_t *bytes)
{
    static struct model_zone_entry wanted;
    struct dnw_zone zone = *before;
    model_zone_next(text, &zone, &wanted);
    if (wanted.kind == MODEL_OPEN) {
        CHECK(entry->kind == DNW_ZONE_NOTHING || entry->kind == DNW_ZONE_INCLUDE || entry->kind == DNW_ZONE_ERROR);
        return;
    }
    CHECK(entry->kind == wanted.kind);
    CHECK(zone.origin_len == after->origin_len && memcmp(zone.origin, after->origin, zone.origin_len) == 0);
    CHECK(zone.owner_len == after->owner_len && memcmp(zone.owner, after->owner, zone.owner_len) == 0);
    CHECK(zone.has_default_ttl == after->has_default_ttl && (!zone.has_default_ttl || zone.default_ttl == after->default_ttl));
    CHECK(zone.has_fallback_ttl == after->has_fallback_ttl && zone.fallback_ttl == after->fallback_ttl);
    CHECK(zone.has_last_ttl == after->has_last_ttl && (!zone.has_last_ttl || zone.last_ttl == after->last_ttl));
    CHECK(zone.record_class == after->record_class);
    if (entry->kind == DNW_ZONE_ERROR)
        return;
    CHECK(entry->used == wanted.used);
    if (entry->kind == DNW_ZONE_RECORD || entry->kind == DNW_ZONE_INCLUDE)
        CHECK(entry->len == wanted.len && entry->name_len == wanted.name_len && memcmp(bytes, wanted.octets, wanted.len) == 0);
    if (entry->kind == DNW_ZONE_INCLUDE)
        CHECK(entry->data_len == wanted.len - wanted.name_len);
}

/* The place of an offset, from 1, counted from the start of the file. */
static void check_place(const uint8_t *text, size_t at, const struct dnw_zone_entry *entry)
{
    size_t line = 1, column = 1;
    CHECK(at == entry->offset);
    for (size_t i = 0; i < at; i++) {
        line += text[i] == '\n';
        column = text[i] == '\n' ? 1 : column + 1;
    }
    CHECK(entry->line == line && entry->column == column);
}

static void check_record(const uint8_t *bytes, const struct dnw_zone_entry *entry)
{
    static uint8_t line[1 << 19], again[SIZE];
    uint8_t owner[DNW_FORM_SIZE];
    struct dnw_record record;
    struct dnw_printed_record printed;
    size_t len;
    CHECK(dnw_record_read(bytes, entry->len, 0, owner, sizeof owner, &record) == DNW_DONE);
    CHECK(record.owner_len == entry->name_len && record.record_type == entry->record_type && record.ttl == entry->ttl);
    CHECK(record.record_class == entry->record_class && record.end == entry->len && record.data_len == entry->data_len);
    CHECK(dnw_record_print(bytes, entry->len, 0, line, sizeof line, &printed) == DNW_DONE);
    CHECK(dnw_record_parse(line, printed.len, line, 0, again, sizeof again, &len) == DNW_DONE);
    CHECK(len == entry->len && memcmp(again, bytes, len) == 0);
}

static void check_fault(const struct dnw_zone_entry *entry)
{
    uint8_t *text = clear(&fault, DNW_SENTENCE_SIZE);
    size_t len;
    CHECK(dnw_text_fault_print(&entry->fault, text, DNW_SENTENCE_SIZE, &len) == DNW_DONE);
    CHECK(len > 0 && holds(text, DNW_SENTENCE_SIZE, text, len));
}

/* Takes an entry into a buffer of a size. What fails stores nothing. */
static uint32_t take(const uint8_t *text, size_t len, bool more, struct dnw_zone *zone, uint8_t *bytes, size_t size,
                     struct dnw_zone_entry *entry)
{
    struct dnw_zone was = *zone;
    struct dnw_zone_entry before;
    memset(entry, 7, sizeof *entry);
    before = *entry;
    uint32_t answer = dnw_zone_next(text, len, more, zone, bytes, size, entry);
    if (answer != DNW_DONE) {
        CHECK(memcmp(zone, &was, sizeof was) == 0 && memcmp(entry, &before, sizeof before) == 0 && untouched(bytes, size));
    } else {
        CHECK(holds(bytes, size, bytes, entry->len) && entry->used <= len && entry->kind <= DNW_ZONE_ERROR);
        CHECK(entry->fault.offset + entry->fault.len <= len);
    }
    return answer;
}

/* The same call with less room, or without an allocation, stores nothing, and just enough room is enough. */
static void take_in_other_ways(const uint8_t *text, size_t len, const struct dnw_zone *before, const struct dnw_zone_entry *entry)
{
    struct dnw_zone_entry again;
    for (size_t number = 1; number <= 3; number++) {
        struct dnw_zone zone = *before;
        uint8_t *bytes = clear(&octets, SIZE);
        refuse(number);
        uint32_t answer = take(text, len, false, &zone, bytes, SIZE, &again);
        CHECK(answer == DNW_DONE || (was_refused() && answer == DNW_NO_MEMORY));
    }
    was_refused();
    struct dnw_zone zone = *before;
    CHECK(take(text, len, false, &zone, clear(&octets, entry->len), entry->len, &again) == DNW_DONE && again.len == entry->len);
    zone = *before;
    if (entry->len > 0)
        CHECK(take(text, len, false, &zone, clear(&octets, entry->len - 1), entry->len - 1, &again) == DNW_NO_ROOM);
}

/* Reads a text of which the first octets come first, and so many more each time that more are wanted. */
static void read(const uint8_t *text, size_t len, size_t first, size_t step, struct entries *to)
{
    static const uint8_t origin[] = "\001o\000";
    struct dnw_zone zone;
    size_t at = 0, there = first < len ? first : len, last = 0;
    to->len = to->count = 0;
    CHECK(dnw_zone_begin(origin, sizeof origin - 1, &zone) == DNW_DONE);
    for (;;) {
        struct dnw_zone before = zone;
        struct dnw_zone_entry entry;
        const uint8_t *left = put_at_end(&part, text + at, there - at);
        uint8_t *bytes = clear(&octets, SIZE);
        CHECK(take(left, there - at, there < len, &zone, bytes, SIZE, &entry) == DNW_DONE);
        CHECK(zone.offset == at + entry.used);
        if (entry.kind == DNW_ZONE_MORE) {
            CHECK(there < len && entry.used == 0 && memcmp(&zone, &before, sizeof zone) == 0);
            there = len - there > step ? there + step : len;
            continue;
        }
        if (entry.kind == DNW_ZONE_END) {
            CHECK(there == len && at == len && entry.used == 0);
            return;
        }
        CHECK(entry.used > 0);
        if (to == &whole) {
            is_that_of_model((struct part){left, there - at}, &before, &zone, &entry, bytes);
            saw_entry(&entry, last);
        }
        last = entry.kind;
        add_entry(to, &entry, bytes);
        check_place(text, at + entry.fault.offset, &entry);
        if (entry.kind == DNW_ZONE_RECORD)
            check_record(bytes, &entry);
        if (entry.kind == DNW_ZONE_ERROR)
            check_fault(&entry);
        if (to == &whole)
            take_in_other_ways(left, there - at, &before, &entry);
        at += entry.used;
    }
}

static void read_the_same(const uint8_t *text, size_t len, size_t first, size_t step)
{
    read(text, len, first, step, &other);
    CHECK(other.count == whole.count && other.len == whole.len && memcmp(other.bytes, whole.bytes, whole.len) == 0);
}

/* What one entry is of those that were read one by one. */
struct wanted {
    size_t fields[15];
    const uint8_t *bytes;
};

static size_t next_wanted(const struct entries *from, size_t at, struct wanted *wanted)
{
    memcpy(wanted->fields, from->bytes + at, sizeof wanted->fields);
    wanted->bytes = from->bytes + at + sizeof wanted->fields;
    return at + sizeof wanted->fields + wanted->fields[9];
}

/* A row is the record that was read alone, and its octets. */
static void is_row(const struct dnw_zone_row *row, const struct wanted *wanted, size_t offset, size_t start, const uint8_t *bytes)
{
    CHECK(row->offset == offset && row->start == start && row->len == wanted->fields[9] && row->name_len == wanted->fields[10]);
    CHECK(row->data_len == wanted->fields[11] && row->ttl == wanted->fields[12] && row->record_type == wanted->fields[13]);
    CHECK(row->record_class == wanted->fields[14] && memcmp(bytes + start, wanted->bytes, row->len) == 0);
}

/* Reads many entries a call, with so many rows and so much room beside what any record may have: they are those that were read one by
   one, and the others come next. */
static void read_rows(const uint8_t *text, size_t len, size_t most, size_t room)
{
    static const uint8_t origin[] = "\001o\000";
    struct dnw_zone zone;
    struct dnw_rows_read got;
    struct dnw_zone_entry entry;
    struct wanted wanted;
    size_t at = 0, seen = 0;
    const size_t rows_size = most * sizeof(struct dnw_zone_row);
    CHECK(dnw_zone_begin(origin, sizeof origin - 1, &zone) == DNW_DONE);
    for (;;) {
        struct dnw_zone_row *put = (struct dnw_zone_row *)clear(&rows, rows_size);
        uint8_t *bytes = clear(&octets, SIZE + room);
        struct dnw_zone was = zone;
        CHECK(dnw_zone_read(text + at, len - at, false, &zone, put, most, bytes, SIZE - 1, &got) == DNW_NO_ROOM);
        CHECK(memcmp(&zone, &was, sizeof was) == 0 && untouched(bytes, SIZE + room) && untouched((uint8_t *)put, rows_size));
        CHECK(dnw_zone_read(text + at, len - at, false, &zone, put, most, bytes, SIZE + room, &got) == DNW_DONE);
        CHECK(holds(bytes, SIZE + room, bytes, got.octets_len) && got.used <= len - at && zone.offset == at + got.used);
        CHECK(got.row_count <= most && holds((uint8_t *)put, rows_size, put, got.row_count * sizeof *put));
        size_t used = 0, start = 0;
        for (size_t n = 0; used < got.used;) {
            seen = next_wanted(&whole, seen, &wanted);
            CHECK(wanted.fields[0] == DNW_ZONE_NOTHING || wanted.fields[0] == DNW_ZONE_RECORD);
            if (wanted.fields[0] == DNW_ZONE_RECORD) {
                CHECK(n < got.row_count && n < most && start <= room);
                is_row(put + n, &wanted, used, start, bytes);
                start += put[n++].len;
            }
            used += wanted.fields[1];
            CHECK(used < got.used || n == got.row_count);
        }
        CHECK(used == got.used && start == got.octets_len && (used > 0 || got.row_count == 0));
        at += used;
        if (got.next == DNW_ZONE_RECORD) {
            CHECK(got.row_count == most || start > room);
            if (most > 0)
                continue;
        }
        if (got.next == DNW_ZONE_END) {
            CHECK(at == len && seen == whole.len);
            return;
        }
        was = zone;
        CHECK(dnw_zone_next(text + at, len - at, false, &zone, clear(&octets, SIZE), SIZE, &entry) == DNW_DONE);
        if (entry.kind == DNW_ZONE_END)
            return;
        CHECK(got.next == entry.kind || most == 0);
        seen = next_wanted(&whole, seen, &wanted);
        CHECK(wanted.fields[0] == entry.kind && wanted.fields[1] == entry.used);
        at += entry.used;
    }
}

/* A state of any octets. */
static void read_spoiled(const uint8_t *data, size_t size)
{
    struct dnw_zone zone, file;
    struct dnw_zone_entry entry;
    memset(&zone, 0, sizeof zone);
    memcpy(&zone, data, size < sizeof zone ? size : sizeof zone);
    for (size_t calls = 0; calls < 8; calls++) {
        file = zone;
        uint32_t answer = dnw_zone_include(data, size < 3 ? size : 3, &file);
        CHECK(answer == DNW_DONE || memcmp(&file, &zone, sizeof zone) == 0);
        answer = take(data, size, calls % 2, &zone, clear(&octets, SIZE), SIZE, &entry);
        CHECK(answer == DNW_DONE || answer == DNW_BAD_ITEM);
        struct dnw_zone_row row;
        struct dnw_rows_read got;
        CHECK((dnw_zone_read(data, size, calls % 2, &file, &row, 1, clear(&octets, SIZE), SIZE, &got) == DNW_DONE)
              == (dnw_zone_read(data, size, calls % 2, &file, &row, 1, clear(&octets, SIZE), SIZE, &got) == DNW_DONE));
        zone.owner_len = calls < 4 ? 0 : zone.owner_len;
        if (answer != DNW_DONE && calls == 0)
            zone.origin_len = 1, zone.origin[0] = 0;
    }
}

int LLVMFuzzerTestOneInput(const uint8_t *data, size_t size)
{
    const uint8_t *text = put_at_end(&input, data, size);
    read(text, size, size, 1, &whole);
    read_the_same(text, size, 1, 1);
    read_the_same(text, size, size / 2, size);
    if (size > 1) {
        read_the_same(text, size, data[0] * size / 256, 1 + data[1] % 16);
        read_the_same(text, size, data[size - 1] * size / 256, size);
    }
    if (whole.len + SIZE < sizeof whole.bytes) {
        read_rows(text, size, 64, SIZE);
        read_rows(text, size, 1, 0);
        if (size > 1)
            read_rows(text, size, data[0] % 4, data[1]);
    }
    read_spoiled(text, size);
    CHECK(memcmp(text, data, size) == 0);
    return 0;
}
