/* Reads the name at each offset of a message, as its wire form and as its text, and compares the answer, the labels, the
   end and the failure with the model's. Each result is put into a buffer of just its size, and refused by one that is
   shorter by a byte. */
#include "harness.h"

static struct room input, forms, texts;

static void reads_form(const uint8_t *message, size_t len, size_t start, uint32_t answer, const struct model_name *name)
{
    struct dnw_read_name read = {7, 9};
    uint8_t *form = clear(&forms, name->len);
    refuse(1);
    CHECK(dnw_name_read(message, len, start, form, name->len, &read) == answer && !was_refused());
    if (answer != DNW_DONE) {
        CHECK(untouched(form, name->len) && read.len == 7 && read.end == 9);
        return;
    }
    CHECK(holds(form, name->len, name->form, name->len) && read.len == name->len && read.end == name->end);
    form = clear(&forms, name->len - 1);
    CHECK(dnw_name_read(message, len, start, form, name->len - 1, &read) == DNW_NO_ROOM);
    CHECK(untouched(form, name->len - 1));
    form = clear(&forms, DNW_FORM_SIZE);
    CHECK(dnw_name_read(message, len, start, form, DNW_FORM_SIZE, &read) == DNW_DONE);
    CHECK(holds(form, DNW_FORM_SIZE, name->form, name->len));
}

static void reads_text(const uint8_t *message, size_t len, size_t start, uint32_t answer, const struct model_name *name)
{
    struct dnw_read_name read = {7, 9};
    uint8_t own[DNW_TEXT_SIZE];
    size_t size = answer == DNW_DONE ? model_print(name, true, own) : DNW_TEXT_SIZE;
    if (answer == DNW_DONE && name->len == 1)
        CHECK(size == 1 && own[0] == '.');
    uint8_t *text = clear(&texts, size);
    refuse(1);
    CHECK(dnw_name_read_text(message, len, start, text, size, &read) == answer && !was_refused());
    if (answer != DNW_DONE) {
        CHECK(untouched(text, size) && read.len == 7 && read.end == 9);
        return;
    }
    CHECK(holds(text, size, own, size) && read.len == size && read.end == name->end);
    text = clear(&texts, size - 1);
    CHECK(dnw_name_read_text(message, len, start, text, size - 1, &read) == DNW_NO_ROOM);
    CHECK(untouched(text, size - 1));
}

static void reads(const uint8_t *message, size_t len, size_t start)
{
    struct model_name name = {.len = DNW_FORM_SIZE};
    uint32_t answer = model_read(message, len, start, &name);
    reads_form(message, len, start, answer, &name);
    reads_text(message, len, start, answer, &name);
}

int LLVMFuzzerTestOneInput(const uint8_t *data, size_t size)
{
    const uint8_t *message = put_at_end(&input, data, size);
    for (size_t start = 0; start <= size + 1; start++)
        reads(message, size, start);
    reads(message, size, SIZE_MAX);
    CHECK(memcmp(message, data, size) == 0);
    message = put_at_start(&input, data, size);
    for (size_t start = 0; start <= size; start++)
        reads(message, size, start);
    return 0;
}
