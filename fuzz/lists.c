/* Writes a list of names into a message, and reads the names back. The first two octets of the input are the maximum size,
   the third says how often the rest is repeated in the list. The message is the model's, byte for byte; each name is read
   at its place as it was in the list; and no list is longer as a message. */
#include "harness.h"

enum { LIST_MAX = 70000 };

static struct room input, output;

static void reads_back(const uint8_t *list, size_t list_len, const uint8_t *message, const struct dnw_written_names *w)
{
    size_t at = 0, in_list = 0, whole = 0;
    for (size_t i = 0; i < w->count; i++) {
        struct model_name wanted, there;
        struct dnw_read_name read;
        uint8_t form[DNW_FORM_SIZE];
        CHECK(model_read(list, list_len, in_list, &wanted) == DNW_DONE);
        CHECK(model_read(message, w->len, at, &there) == DNW_DONE);
        CHECK(dnw_name_read(message, w->len, at, form, sizeof form, &read) == DNW_DONE);
        CHECK(there.len == wanted.len && memcmp(there.form, wanted.form, wanted.len) == 0);
        CHECK(read.len == wanted.len && memcmp(form, wanted.form, wanted.len) == 0 && read.end == there.end);
        at = there.end;
        in_list = wanted.end;
        whole += wanted.len;
    }
    CHECK(at == w->len && in_list == list_len && w->len <= whole);
}

static void writes_without_memory(const uint8_t *list, size_t len, uint16_t max_size, size_t size, uint32_t answer)
{
    for (size_t number = 1; number <= 8; number++) {
        struct dnw_written_names written = {7, 9};
        uint8_t *out = clear(&output, size);
        refuse(number);
        uint32_t given = dnw_names_write(list, len, max_size, out, size, &written);
        if (!was_refused()) {
            CHECK(given == answer);
            return;
        }
        CHECK(given == DNW_NO_MEMORY && untouched(out, size) && written.len == 7 && written.count == 9);
    }
}

static void writes(const uint8_t *list, size_t len, uint16_t max_size)
{
    static uint8_t own[UINT16_MAX];
    struct dnw_written_names wanted = {7, 9}, written = {7, 9};
    uint32_t answer = model_write(list, len, max_size, own, &wanted);
    size_t size = answer == DNW_DONE ? wanted.len : 1000;
    uint8_t *out = clear(&output, size);
    CHECK(dnw_names_write(list, len, max_size, out, size, &written) == answer);
    CHECK(written.len == wanted.len && written.count == wanted.count);
    CHECK(answer == DNW_DONE || untouched(out, size));
    writes_without_memory(list, len, max_size, size, answer);
    if (answer != DNW_DONE)
        return;
    out = clear(&output, size);
    CHECK(dnw_names_write(list, len, max_size, out, size, &written) == DNW_DONE);
    CHECK(holds(out, size, own, size));
    reads_back(list, len, out, &written);
    if (size > 0) {
        out = clear(&output, size - 1);
        CHECK(dnw_names_write(list, len, max_size, out, size - 1, &written) == DNW_NO_ROOM);
        CHECK(untouched(out, size - 1));
    }
}

int LLVMFuzzerTestOneInput(const uint8_t *data, size_t size)
{
    static uint8_t list[LIST_MAX];
    if (size < 3)
        return 0;
    size_t len = put_repeated(list, sizeof list, data + 3, size - 3, data[2]);
    const uint8_t *there = put_at_end(&input, list, len);
    writes(there, len, (uint16_t)(data[0] << 8 | data[1]));
    CHECK(memcmp(there, list, len) == 0);
    return 0;
}
