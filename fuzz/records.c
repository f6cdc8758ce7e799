/* Reads the record at each offset of a message, and the name in its data, and compares the answer, the fields, the offsets
   and the failure with the model's. Each result is put into a buffer of just its size, and refused by one that is shorter
   by a byte. */
#include "harness.h"

static struct room input, owners, names;

static bool is_same(const struct dnw_record *left, const struct dnw_record *right)
{
    return left->owner_len == right->owner_len && left->record_type == right->record_type &&
           left->record_class == right->record_class && left->ttl == right->ttl &&
           left->data_offset == right->data_offset && left->data_len == right->data_len && left->end == right->end;
}

static const struct dnw_record none = {7, 7, 7, 7, 7, 7, 7};

/* The name that some octets of a message are, as the model reads it. */
static uint32_t model_data_name(const uint8_t *message, size_t len, size_t start, size_t data_len, struct model_name *name)
{
    uint32_t failure = model_read(message, len, start, name);
    if (failure != DNW_DONE)
        return failure;
    return name->end - start == data_len ? DNW_DONE : DNW_WRONG_DATA_LENGTH;
}

static void reads_name(const uint8_t *message, size_t len, size_t start, size_t data_len)
{
    struct model_name name = {.len = DNW_FORM_SIZE};
    uint32_t answer = model_data_name(message, len, start, data_len, &name);
    size_t put = 7;
    uint8_t *form = clear(&names, name.len);
    refuse(1);
    CHECK(dnw_record_data_name(message, len, start, data_len, form, name.len, &put) == answer && !was_refused());
    if (answer != DNW_DONE) {
        CHECK(untouched(form, name.len) && put == 7);
        return;
    }
    CHECK(holds(form, name.len, name.form, name.len) && put == name.len);
    form = clear(&names, name.len - 1);
    CHECK(dnw_record_data_name(message, len, start, data_len, form, name.len - 1, &put) == DNW_NO_ROOM);
    CHECK(untouched(form, name.len - 1) && put == name.len);
}

static void reads(const uint8_t *message, size_t len, size_t start)
{
    struct model_name owner = {.len = DNW_FORM_SIZE};
    struct dnw_record wanted = none, record = none;
    uint32_t answer = model_record(message, len, start, &owner, &wanted);
    uint8_t *form = clear(&owners, owner.len);
    refuse(1);
    CHECK(dnw_record_read(message, len, start, form, owner.len, &record) == answer && !was_refused());
    if (answer != DNW_DONE) {
        CHECK(untouched(form, owner.len) && is_same(&record, &none));
        return;
    }
    CHECK(holds(form, owner.len, owner.form, owner.len) && is_same(&record, &wanted));
    form = clear(&owners, owner.len - 1);
    record = none;
    CHECK(dnw_record_read(message, len, start, form, owner.len - 1, &record) == DNW_NO_ROOM);
    CHECK(untouched(form, owner.len - 1) && is_same(&record, &none));
    for (size_t skip = 0; skip <= 2 && skip <= wanted.data_len; skip++)
        reads_name(message, len, wanted.data_offset + skip, wanted.data_len - skip);
}

int LLVMFuzzerTestOneInput(const uint8_t *data, size_t size)
{
    const uint8_t *message = put_at_end(&input, data, size);
    for (size_t start = 0; start <= size + 1; start++) {
        reads(message, size, start);
        reads_name(message, size, start, start % 8);
    }
    reads(message, size, SIZE_MAX);
    reads_name(message, size, SIZE_MAX, SIZE_MAX);
    CHECK(memcmp(message, data, size) == 0);
    message = put_at_start(&input, data, size);
    for (size_t start = 0; start <= size; start++)
        reads(message, size, start);
    return 0;
}
