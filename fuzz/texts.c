/* Parses the input as a text, and prints it as a wire form. The answers are the model's, each text that is accepted is
   read back from what is printed, and refused memory is reported or not needed. */
#include "harness.h"

static struct room input, forms, texts;

/* The text of a name that was parsed gives the same name. */
static void comes_back(const uint8_t *form, size_t len, bool is_fqdn)
{
    uint8_t *text = clear(&texts, DNW_TEXT_SIZE), again[DNW_FORM_SIZE];
    size_t text_len = 0;
    struct dnw_parsed_name parsed;
    CHECK(dnw_name_print(form, len, is_fqdn, text, DNW_TEXT_SIZE, &text_len) == DNW_DONE);
    CHECK(dnw_name_parse(text, text_len, text, 0, again, sizeof again, &parsed) == DNW_DONE);
    CHECK(parsed.len == len && parsed.is_fqdn == is_fqdn && memcmp(again, form, len) == 0);
}

static void parses_into(const uint8_t *text, size_t len, size_t size, uint32_t answer, const struct model_text *name)
{
    struct dnw_parsed_name parsed = {7, false};
    uint8_t *form = clear(&forms, size);
    uint32_t given = dnw_name_parse(text, len, text, 0, form, size, &parsed);
    CHECK(given == answer);
    if (answer != DNW_DONE)
        CHECK(untouched(form, size) && parsed.len == 7);
    else
        CHECK(holds(form, size, name->form, name->len) && parsed.len == name->len && parsed.is_fqdn == name->is_fqdn);
}

static void parses_without_memory(const uint8_t *text, size_t len, uint32_t answer)
{
    struct dnw_parsed_name parsed;
    uint8_t *form = clear(&forms, DNW_FORM_SIZE);
    refuse(1);
    CHECK(dnw_name_parse(text, len, text, 0, form, DNW_FORM_SIZE, &parsed) == answer && !was_refused());
}

/* A text that gives no name goes wrong by the same rule, and so does what is up to the octet at the offset. A dot alone is the root. */
static void goes_wrong(const uint8_t *text, size_t len, uint32_t answer)
{
    size_t offset = len + 1;
    struct model_text name;
    refuse(1);
    CHECK(dnw_name_text_fault(text, len, text, 0, &offset) == answer && !was_refused());
    if (answer == DNW_DONE)
        CHECK(offset == len + 1);
    else
        CHECK(offset == 0 || (offset <= len && (offset == len || model_parse(text, offset + 1, &name) == answer)));
}

static void parses(const uint8_t *text, size_t len)
{
    struct model_text name;
    uint32_t answer = model_parse(text, len, &name);
    parses_into(text, len, DNW_FORM_SIZE, answer, &name);
    parses_without_memory(text, len, answer);
    goes_wrong(text, len, answer);
    if (answer != DNW_DONE)
        return;
    parses_into(text, len, name.len, answer, &name);
    parses_into(text, len, name.len - 1, DNW_NO_ROOM, &name);
    comes_back(name.form, name.len, name.is_fqdn);
}

static void prints(const uint8_t *form, size_t len, bool is_fqdn)
{
    struct model_name name;
    uint8_t own[DNW_TEXT_SIZE];
    uint32_t answer = model_form(form, len, &name);
    size_t own_len = answer == DNW_DONE ? model_print(&name, is_fqdn, own) : DNW_TEXT_SIZE, text_len = 7;
    uint8_t *text = clear(&texts, own_len);
    refuse(1);
    CHECK(dnw_name_print(form, len, is_fqdn, text, own_len, &text_len) == answer && !was_refused());
    if (answer != DNW_DONE) {
        CHECK(untouched(text, own_len) && text_len == 7);
        return;
    }
    CHECK(text_len == own_len && holds(text, own_len, own, own_len));
    if (own_len > 0) {
        text = clear(&texts, own_len - 1);
        CHECK(dnw_name_print(form, len, is_fqdn, text, own_len - 1, &text_len) == DNW_NO_ROOM);
        CHECK(untouched(text, own_len - 1));
    }
    parses(own, own_len);
}

int LLVMFuzzerTestOneInput(const uint8_t *data, size_t size)
{
    const uint8_t *bytes = put_at_end(&input, data, size);
    parses(bytes, size);
    prints(bytes, size, true);
    prints(bytes, size, false);
    CHECK(memcmp(bytes, data, size) == 0);
    bytes = put_at_start(&input, data, size);
    parses(bytes, size);
    prints(bytes, size, true);
    return 0;
}
