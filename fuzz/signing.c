/* Puts what the RRSIG at each of the first offsets of a message covers, of the records from another offset on, and compares the
   octets with a model's: RFC 4034, sections 3.1.8.1 and 6, RFC 4035, section 5.3, and RFC 6840, section 5.1, in plain C. The first
   two octets of an input are where the records begin; the first of them are tried as the RRSIG too, also with those after it
   alone. */
#include "harness.h"

enum { MOST = 64 * 1024, OFFSETS = 64, RECORDS = 256 };

static struct room input, output;

/* A record that is covered: where its data are in the model's octets. */
struct data {
    size_t at, len;
};

static uint8_t octets[1 << 22], wanted[1 << 22];
static struct data found[RECORDS];

static bool is_same_name(const struct model_name *a, const struct model_name *b)
{
    struct model_name left = *a, right = *b;
    model_lower(&left);
    model_lower(&right);
    return left.len == right.len && memcmp(left.form, right.form, left.len) == 0;
}

static int by_data(const void *left, const void *right)
{
    const struct data *a = left, *b = right;
    int order = memcmp(octets + a->at, octets + b->at, a->len < b->len ? a->len : b->len);
    return order != 0 ? order : (a->len > b->len) - (a->len < b->len);
}

/* Whether records follow one another up to the end. */
static uint32_t follow(const uint8_t *message, size_t end, size_t start)
{
    if (start > end)
        return DNW_MESSAGE_CUT;
    while (start < end) {
        struct model_name name;
        struct dnw_record record;
        uint32_t failure = model_record(message, end, start, &name, &record);
        if (failure != DNW_DONE)
            return failure;
        start = record.end;
    }
    return DNW_DONE;
}

/* Puts the data of the records that are covered. */
static uint32_t collect(const uint8_t *message, size_t end, size_t start, const struct model_name *owner,
                        const struct dnw_record *rrsig, uint16_t covered, size_t *count)
{
    size_t at = 0;
    *count = 0;
    while (start < end) {
        struct model_name name;
        struct dnw_record record;
        CHECK(model_record(message, end, start, &name, &record) == DNW_DONE);
        start = record.end;
        if (record.record_type != covered || record.record_class != rrsig->record_class || !is_same_name(&name, owner))
            continue;
        CHECK(*count < RECORDS);
        struct data *data = &found[(*count)++];
        data->at = at;
        uint32_t failure = model_put_data(message, &record, model_is_lowered(covered), octets, &at);
        if (failure != DNW_DONE)
            return failure;
        data->len = at - data->at;
        if (data->len > 65535)
            return DNW_DATA_TOO_LONG;
    }
    return DNW_DONE;
}

/* How many labels a name has, and where its last labels begin in its wire form, `most` of them. */
static size_t count_labels(const struct model_name *name)
{
    size_t count = 0;
    for (size_t at = 0; name->form[at] != 0; at += 1 + name->form[at])
        count++;
    return count;
}

static size_t last_labels(const struct model_name *name, size_t most)
{
    size_t at = 0;
    for (size_t count = count_labels(name); count > most; count--)
        at += 1 + name->form[at];
    return at;
}

/* Whether a name is another one, or below it. */
static bool is_below(const struct model_name *name, const struct model_name *other)
{
    struct model_name last = *name;
    size_t at = last_labels(name, count_labels(other));
    last.len = name->len - at;
    memmove(last.form, name->form + at, last.len);
    return is_same_name(&last, other);
}

static size_t add(uint8_t *out, size_t at, const void *bytes, size_t len)
{
    memcpy(out + at, bytes, len);
    return at + len;
}

/* Puts the records in order, each once, after the fields of the RRSIG. */
static size_t put_set(size_t at, struct model_name *owner, const struct dnw_record *rrsig, size_t count)
{
    uint8_t fixed[8] = {wanted[0], wanted[1], (uint8_t)(rrsig->record_class >> 8), (uint8_t)rrsig->record_class,
                        wanted[4], wanted[5], wanted[6], wanted[7]};
    model_lower(owner);
    size_t last = last_labels(owner, wanted[3]);
    qsort(found, count, sizeof *found, by_data);
    for (size_t i = 0; i < count; i++) {
        if (i > 0 && by_data(&found[i - 1], &found[i]) == 0)
            continue;
        uint8_t len[2] = {(uint8_t)(found[i].len >> 8), (uint8_t)found[i].len};
        if (last > 0)
            at = add(wanted, at, "\1*", 2);
        at = add(wanted, at, owner->form + last, owner->len - last);
        at = add(wanted, at, fixed, sizeof fixed);
        at = add(wanted, at, len, sizeof len);
        at = add(wanted, at, octets + found[i].at, found[i].len);
    }
    return at;
}

static uint32_t model_signed(const uint8_t *message, size_t end, size_t start, size_t at, size_t *len)
{
    struct model_name owner, signer;
    struct dnw_record rrsig;
    size_t count, put = 0;
    uint32_t failure = at > end ? DNW_MESSAGE_CUT : model_record(message, end, at, &owner, &rrsig);
    if (failure != DNW_DONE)
        return failure;
    failure = follow(message, end, start);
    if (failure != DNW_DONE)
        return failure;
    if (rrsig.record_type != DNW_TYPE_RRSIG)
        return DNW_NOT_RRSIG;
    failure = model_put_data(message, &rrsig, true, octets, &put);
    if (failure != DNW_DONE)
        return failure;
    /* no data are data of every type in the classes ANY and NONE (RFC 2136) */
    if (put == 0)
        return DNW_NOT_RRSIG;
    CHECK(model_read(message, rrsig.end, rrsig.data_offset + 18, &signer) == DNW_DONE);
    size_t fields = 18 + signer.len;
    memcpy(wanted, octets, fields);
    if (count_labels(&owner) < wanted[3])
        return DNW_TOO_FEW_LABELS;
    if (!is_below(&owner, &signer))
        return DNW_NOT_COVERED;
    failure = collect(message, end, start, &owner, &rrsig, (uint16_t)model_number(wanted, 2), &count);
    if (failure != DNW_DONE)
        return failure;
    if (count == 0)
        return DNW_NOT_COVERED;
    *len = put_set(fields, &owner, &rrsig, count);
    return DNW_DONE;
}

static void signs(const uint8_t *message, size_t end, size_t start, size_t at)
{
    size_t model_len, len = 7;
    uint32_t answer = model_signed(message, end, start, at, &model_len);
    if (answer == DNW_DONE && model_len > MOST)
        return;
    size_t size = answer == DNW_DONE ? model_len : MOST;
    uint8_t *put = clear(&output, size);
    CHECK(dnw_signed_octets(message, end, start, at, put, size, &len) == answer);
    if (answer != DNW_DONE) {
        CHECK(untouched(put, size) && len == 7);
        return;
    }
    CHECK(len == size && holds(put, size, wanted, len));
    len = 7;
    put = clear(&output, size - 1);
    CHECK(dnw_signed_octets(message, end, start, at, put, size - 1, &len) == DNW_NO_ROOM);
    CHECK(untouched(put, size - 1) && len == 7);
    for (size_t number = 1; number <= 16; number *= 2) {
        put = clear(&output, size);
        refuse(number);
        answer = dnw_signed_octets(message, end, start, at, put, size, &len);
        CHECK(was_refused() ? answer == DNW_NO_MEMORY && untouched(put, size) : answer == DNW_DONE);
    }
}

int LLVMFuzzerTestOneInput(const uint8_t *data, size_t size)
{
    if (size < 2)
        return 0;
    size_t start = model_number(data, 2), len = size - 2;
    const uint8_t *message = put_at_end(&input, data + 2, len);
    for (size_t at = 0; at <= len + 1 && at < OFFSETS; at++)
        signs(message, len, start, at);
    signs(message, len, start, start);
    signs(message, len, start, SIZE_MAX);
    struct model_name owner;
    struct dnw_record record;
    size_t at = start;
    for (size_t i = 0; i < 8 && at <= len && model_record(message, len, at, &owner, &record) == DNW_DONE; i++, at = record.end) {
        signs(message, len, start, at);
        signs(message, len, record.end, at);
        signs(message, record.end, start, at);
    }
    CHECK(memcmp(message, data + 2, len) == 0);
    return 0;
}
