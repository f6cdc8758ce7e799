/* Writes whole messages again, in at most as many octets as the first two of an input say, and compares the copy, octet for octet, with
   one that is written item by item: of each section the sets, of which one that has no room is left out with all after it; and then the
   records that come last. TC is set if a record is left out that is required, or half of a set, and nothing is left out of a message
   that is never cut.
   What the calls for items write is compared in writer.c. */
#include "harness.h"

static struct room input, output;
static uint8_t wanted[65535];
static uint8_t whole_data[131072];

/* A record that comes last and is never left out: OPT, TSIG, or SIG(0), which is a SIG that covers the type 0 (RFC 2931, section 3). */
static bool is_held(const uint8_t *message, const struct dnw_record *record)
{
    if (record->record_type == DNW_TYPE_SIG)
        return record->data_len >= 2 && model_number(message + record->data_offset, 2) == 0;
    return record->record_type == DNW_TYPE_OPT || record->record_type == DNW_TYPE_TSIG;
}

static struct model_member member(const uint8_t *message, const struct model_name *owner, const struct dnw_record *record)
{
    return (struct model_member){*owner, record->record_type, record->record_class, message + record->data_offset, record->data_len};
}

static bool are_of_one_set(const uint8_t *message, const struct model_name *a, const struct dnw_record *x, const struct model_name *b,
                           const struct dnw_record *y)
{
    struct model_member first = member(message, a, x), other = member(message, b, y);
    return model_are_of_one_set(&first, &other);
}

/* Adds a record to a section. */
static uint32_t add(const uint8_t *message, int section, size_t most, const struct model_name *owner, const struct dnw_record *record,
                    struct dnw_writer *w)
{
    uint32_t failure = model_data_failure(message, record);
    if (failure != DNW_DONE)
        return failure;
    size_t len = 0;
    CHECK(model_put_data(message, record, false, whole_data, &len) == DNW_DONE);
    return dnw_writer_record(wanted, most, DNW_SECTION_QUESTIONS + (uint32_t)section, owner->form, owner->len, record->record_type,
                             record->record_class, record->ttl, whole_data, len, w);
}

/* Adds the sets of a section, up to the first that has no room. */
static uint32_t add_sets(const uint8_t *message, size_t len, int section, size_t most, size_t at, struct dnw_writer *w, bool *all)
{
    struct model_name first_owner, owner;
    struct dnw_record first, record;
    struct dnw_writer before = *w;
    uint8_t counted[2];
    bool has_first = false;
    *all = true;
    for (uint32_t left = model_number(message + 4 + 2 * section, 2); left > 0; left--, at = record.end) {
        CHECK(model_record(message, len, at, &owner, &record) == DNW_DONE);
        if (section == 3 && is_held(message, &record))
            continue;
        if (!has_first || !are_of_one_set(message, &first_owner, &first, &owner, &record)) {
            first_owner = owner, first = record, has_first = true, before = *w;
            memcpy(counted, wanted + 4 + 2 * section, 2);
        }
        uint32_t answer = add(message, section, most, &owner, &record, w);
        if (answer == DNW_MESSAGE_TOO_LONG) {
            *w = before;
            memcpy(wanted + 4 + 2 * section, counted, 2);
            *all = false;
            return DNW_DONE;
        }
        if (answer != DNW_DONE)
            return answer;
    }
    return DNW_DONE;
}

static struct model_purpose purpose_of(const uint8_t *message, size_t len, const struct dnw_message *read)
{
    struct model_purpose purpose = model_purpose((uint16_t)model_number(message + 2, 2));
    struct model_name name;
    struct dnw_record record;
    if (read->question_count > 0) {
        CHECK(model_read(message, len, DNW_HEADER_SIZE, &name) == DNW_DONE);
        purpose.asked = model_number(message + name.end, 2);
    }
    size_t at = read->answers;
    for (size_t i = 0; i < (size_t)read->answer_count + read->authority_count; i++, at = record.end) {
        CHECK(model_record(message, len, at, &name, &record) == DNW_DONE);
        model_take(&purpose, i < read->answer_count ? 1 : 2, &name, record.record_type);
    }
    return purpose;
}

/* A record of a section is required that the copy does not have. */
static bool misses(const uint8_t *message, size_t len, int section, size_t at, struct model_purpose *purpose)
{
    purpose->server_out = false;
    struct model_name owner;
    struct dnw_record record;
    uint32_t copied = (uint32_t)model_number(wanted + 4 + 2 * section, 2);
    for (uint32_t left = (uint32_t)model_number(message + 4 + 2 * section, 2); left > 0; left--, at = record.end) {
        CHECK(model_record(message, len, at, &owner, &record) == DNW_DONE);
        if (section == 3 && is_held(message, &record))
            continue;
        if (copied > 0)
            copied--;
        else if (model_is_required(purpose, section, &owner, record.record_type, message + record.data_offset, record.data_len))
            return true;
    }
    return false;
}

/* Half of a set is in the copy, and another half is left out; or too many pairs of records would have to be compared. */
static bool has_half(const uint8_t *message, size_t len, int section, size_t at)
{
    static struct model_member members[6000];
    uint32_t copied = (uint32_t)model_number(wanted + 4 + 2 * section, 2), count = 0;
    struct model_name owner;
    struct dnw_record record;
    for (uint32_t left = (uint32_t)model_number(message + 4 + 2 * section, 2); left > 0; left--, at = record.end) {
        CHECK(model_record(message, len, at, &owner, &record) == DNW_DONE);
        if (section < 3 || !is_held(message, &record))
            members[count++] = member(message, &owner, &record);
    }
    for (uint32_t left = copied; left < count; left++) {
        if ((left - copied + 1) * copied > MODEL_PAIRS)
            return true;
        bool is_half = false, is_there = false;
        for (uint32_t there = 0; there < copied; there++) {
            is_half |= model_halves(&members[there], &members[left]);
            is_there |= model_are_the_same(&members[there], &members[left]);
        }
        if (is_half && !is_there)
            return true;
    }
    return false;
}

static uint32_t write_copy(const uint8_t *message, size_t len, size_t most, const struct dnw_message *read, struct dnw_packed *copy)
{
    static struct dnw_writer w;
    if (most < DNW_HEADER_SIZE)
        return DNW_NO_ROOM;
    CHECK(dnw_writer_begin(wanted, most, most, read->id, (uint16_t)(model_number(message + 2, 2) & 0xFFBF), &w) == DNW_DONE);
    struct model_name name;
    struct dnw_record record;
    size_t at = read->additionals;
    for (size_t i = 0; i < read->additional_count; i++, at = record.end) {
        CHECK(model_record(message, len, at, &name, &record) == DNW_DONE);
        if (is_held(message, &record)) {
            /* as many as it is written with, names in its data whole */
            size_t whole = 0;
            if (model_put_data(message, &record, false, whole_data, &whole) != DNW_DONE)
                whole = record.data_len;
            CHECK(dnw_writer_hold(name.len + 10 + whole, &w) == DNW_DONE);
        }
    }
    at = DNW_HEADER_SIZE;
    for (size_t i = 0; i < read->question_count; i++, at = name.end + 4) {
        CHECK(model_read(message, len, at, &name) == DNW_DONE);
        uint32_t answer = dnw_writer_question(wanted, most, name.form, name.len, (uint16_t)model_number(message + name.end, 2),
                                              (uint16_t)model_number(message + name.end + 2, 2), &w);
        if (answer != DNW_DONE)
            return answer;
    }
    size_t starts[] = {0, read->answers, read->authorities, read->additionals};
    bool all[4];
    for (int section = 1; section < 4; section++) {
        uint32_t answer = add_sets(message, len, section, most, starts[section], &w, &all[section]);
        if (answer != DNW_DONE)
            return answer;
    }
    bool is_cut = false;
    if (!all[1] || !all[2] || !all[3]) {
        struct model_purpose purpose = purpose_of(message, len, read);
        if (model_is_uncut(&purpose))
            return DNW_MESSAGE_TOO_LONG;
        for (int section = 1; section < 4; section++)
            is_cut |= misses(message, len, section, starts[section], &purpose) || has_half(message, len, section, starts[section]);
    }
    /* no name of the message is known to what comes last */
    CHECK(dnw_writer_release(SIZE_MAX, &w) == DNW_DONE);
    w.owner = 0;
    memset(w.hints, 0, sizeof w.hints);
    at = read->additionals;
    for (size_t i = 0; i < read->additional_count; i++, at = record.end) {
        CHECK(model_record(message, len, at, &name, &record) == DNW_DONE);
        uint32_t answer = is_held(message, &record) ? add(message, 3, most, &name, &record, &w) : (uint32_t)DNW_DONE;
        if (answer != DNW_DONE)
            return answer;
    }
    if (is_cut)
        wanted[2] |= 2;
    *copy = (struct dnw_packed){w.len, wanted[2] & 2};
    return DNW_DONE;
}

/* Returns true if the names in the data of all records follow no more pointers than are allowed. */
static bool follows_few(const uint8_t *message, size_t len, const struct dnw_message *read)
{
    size_t left = DNW_MAX_POINTERS, at = read->answers;
    for (size_t n = (size_t)read->answer_count + read->authority_count + read->additional_count; n > 0; n--) {
        struct model_name name;
        struct dnw_record record;
        struct dnw_field field;
        CHECK(model_record(message, len, at, &name, &record) == DNW_DONE);
        struct dnw_fields fields = {record.data_offset, 0};
        while (model_next(message, record.end, record.data_offset, record.record_class, record.record_type, &fields, &field) == DNW_DONE &&
               field.kind != DNW_FIELD_END) {
            size_t count = field.kind == DNW_FIELD_NAME ? model_pointers(message, field.offset) : 0;
            if (count > left)
                return false;
            left -= count;
        }
        at = record.end;
    }
    return true;
}

static uint32_t model_pack(const uint8_t *message, size_t len, size_t most, struct dnw_packed *packed)
{
    struct dnw_message read;
    struct dnw_message_fault fault;
    struct dnw_edns edns;
    uint32_t answer = dnw_message_read(message, len, DNW_MAX_POINTERS, &read, &fault);
    if (answer == DNW_DONE && most < DNW_HEADER_SIZE)
        return DNW_NO_ROOM;
    if (answer == DNW_DONE)
        answer = dnw_edns_read(message, len, DNW_MAX_POINTERS, &edns);
    if (answer == DNW_DONE && !follows_few(message, len, &read))
        return DNW_TOO_MANY_POINTERS;
    return answer == DNW_DONE ? write_copy(message, len, most, &read, packed) : answer;
}

static void packs(const uint8_t *message, size_t len, uint16_t most)
{
    struct dnw_packed model, packed = {7, false};
    uint32_t answer = model_pack(message, len, most, &model);
    uint8_t *copy = clear(&output, most);
    CHECK(dnw_message_pack(message, len, UINT16_MAX, 0, copy, most, &packed) == answer);
    if (answer != DNW_DONE) {
        CHECK(packed.len == 7 && !packed.truncated);
        return;
    }
    CHECK(packed.len == model.len && packed.truncated == model.truncated && memcmp(copy, wanted, model.len) == 0);
    copy = clear(&output, UINT16_MAX);
    CHECK(dnw_message_pack(message, len, most, 0, copy, UINT16_MAX, &packed) == DNW_DONE);
    CHECK(packed.len == model.len && packed.truncated == model.truncated && memcmp(copy, wanted, model.len) == 0);
    for (size_t number = 1; number <= 16; number *= 2) {
        copy = clear(&output, most);
        refuse(number);
        answer = dnw_message_pack(message, len, most, 0, copy, most, &packed);
        CHECK(was_refused() ? answer == DNW_NO_MEMORY : answer == DNW_DONE);
    }
}

int LLVMFuzzerTestOneInput(const uint8_t *data, size_t size)
{
    if (size < 2)
        return 0;
    uint16_t most = (uint16_t)model_number(data, 2);
    const uint8_t *message = put_at_end(&input, data + 2, size - 2);
    packs(message, size - 2, most);
    packs(message, size - 2, most % 600);
    packs(message, size - 2, UINT16_MAX);
    CHECK(memcmp(message, data + 2, size - 2) == 0);
    return 0;
}
