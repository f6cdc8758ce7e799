/* A million messages through one process. Each is a list of random names that share suffixes; it is written, its names
   are read back, and each is printed, parsed, compared and put in lower case. One allocation in a thousand is refused. Every
   answer must be the model's, or DNW_NO_MEMORY if an allocation was refused in that call. No call may leave a block, and
   after a tenth of the messages the process may grow by 64 KiB at most. After each 2,000 messages, names are read all over
   one of 65,535 octets. */
#define _DEFAULT_SOURCE
#include "harness.h"
#include "soaking.h"

enum { NAMES_MAX = 24, LIST_MAX = NAMES_MAX * DNW_FORM_SIZE };

static size_t calls, refusals, blocks, most_blocks;

void *__real_malloc(size_t size);
void *__real_realloc(void *block, size_t size);
void __real_free(void *block);
void *__wrap_malloc(size_t size);
void *__wrap_realloc(void *block, size_t size);
void __wrap_free(void *block);

static bool in_call, refused;

static bool refuses(void)
{
    if (!in_call || chance(1000) > 0)
        return false;
    refusals += 1;
    return refused = true;
}

void *__wrap_malloc(size_t size)
{
    if (refuses())
        return NULL;
    blocks += in_call;
    most_blocks = blocks > most_blocks ? blocks : most_blocks;
    return __real_malloc(size);
}

void *__wrap_realloc(void *block, size_t size)
{
    return refuses() ? NULL : __real_realloc(block, size);
}

void __wrap_free(void *block)
{
    blocks -= in_call && block != NULL;
    __real_free(block);
}

/* The answer of a call is the one wanted, or it ran out of memory since an allocation was refused. */
#define CALL(call, wanted) (begin(), end(call, wanted))

static void begin(void)
{
    calls += 1;
    refused = false;
    in_call = true;
}

/* Returns whether the call succeeded. */
static bool end(uint32_t answer, uint32_t wanted)
{
    in_call = false;
    CHECK(blocks == 0);
    CHECK(answer == wanted || (answer == DNW_NO_MEMORY && refused));
    return answer == DNW_DONE;
}

/* Adds a label of random octets, mostly letters, or one of a few, so that names share suffixes. */
static void add_label(struct model_name *name)
{
    static const char *const usual[] = {"com", "example", "www", "net", "EXAMPLE", "a", "b", "_tcp"};
    uint8_t label[63];
    size_t len;
    if (chance(4) > 0) {
        const char *text = usual[chance(8)];
        len = strlen(text);
        memcpy(label, text, len);
    } else {
        len = 1 + chance(chance(8) > 0 ? 8 : sizeof label);
        for (size_t i = 0; i < len; i++)
            label[i] = (uint8_t)(chance(8) > 0 ? 'a' + chance(26) : chance(256));
    }
    if (name->len + len + 2 > sizeof name->form)
        return;
    name->form[name->len] = (uint8_t)len;
    memcpy(name->form + name->len + 1, label, len);
    name->len += 1 + len;
}

/* Makes a random name; often one that ends as an earlier one of its message does. */
static void make_name(struct model_name *name, const struct model_name *earlier, size_t count)
{
    name->len = 0;
    for (size_t labels = chance(chance(16) > 0 ? 4 : 127); labels > 0; labels--)
        add_label(name);
    if (count > 0 && chance(2) > 0) {
        const struct model_name *other = &earlier[chance(count)];
        size_t from = 0;
        for (size_t skipped = chance(4); skipped > 0 && other->form[from] != 0; skipped--)
            from += 1u + other->form[from];
        if (name->len + other->len - from <= sizeof name->form) {
            memcpy(name->form + name->len, other->form + from, other->len - from);
            name->len += other->len - from;
            return;
        }
    }
    name->form[name->len++] = 0;
}

static void check_text(const struct model_name *name)
{
    uint8_t own[DNW_TEXT_SIZE], text[DNW_TEXT_SIZE], form[DNW_FORM_SIZE];
    struct dnw_parsed_name parsed;
    struct model_text wanted;
    size_t own_len = model_print(name, true, own), len;
    if (!CALL(dnw_name_print(name->form, name->len, true, text, sizeof text, &len), DNW_DONE))
        return;
    CHECK(len == own_len && memcmp(text, own, len) == 0);
    if (!CALL(dnw_name_parse(text, len, (const uint8_t *)"", 0, form, sizeof form, &parsed), model_parse(text, len, &wanted)))
        return;
    CHECK(parsed.len == name->len && parsed.is_fqdn && memcmp(form, name->form, name->len) == 0);
}

static void check_order(const struct model_name *left, const struct model_name *right)
{
    struct model_name lowered = *left;
    uint8_t form[DNW_FORM_SIZE];
    int32_t order;
    bool is;
    size_t len;
    CHECK(CALL(dnw_name_compare(left->form, left->len, right->form, right->len, &order), DNW_DONE));
    CHECK(order == model_compare(left, right));
    CHECK(CALL(dnw_name_equal(left->form, left->len, right->form, right->len, &is), DNW_DONE) && is == (order == 0));
    CHECK(CALL(dnw_name_in_zone(left->form, left->len, right->form, right->len, &is), DNW_DONE));
    CHECK(is == model_in_zone(left, right));
    CHECK(CALL(dnw_name_to_lowercase(left->form, left->len, form, sizeof form, &len), DNW_DONE));
    model_lower(&lowered);
    CHECK(len == left->len && memcmp(form, lowered.form, len) == 0);
}

/* Reads the name at an offset of the message, and returns its end. */
static size_t check_name(const uint8_t *message, size_t len, size_t at, const struct model_name *name)
{
    uint8_t form[DNW_FORM_SIZE], own[DNW_TEXT_SIZE], text[DNW_TEXT_SIZE];
    struct dnw_read_name read, shown;
    size_t own_len = model_print(name, true, own);
    CHECK(CALL(dnw_name_read(message, len, at, form, sizeof form, &read), DNW_DONE));
    CHECK(read.len == name->len && memcmp(form, name->form, name->len) == 0);
    if (CALL(dnw_name_read_text(message, len, at, text, sizeof text, &shown), DNW_DONE))
        CHECK(shown.end == read.end && shown.len == own_len && memcmp(text, own, own_len) == 0);
    return read.end;
}

static void check_message(void)
{
    static struct model_name names[NAMES_MAX];
    static uint8_t list[LIST_MAX], own[UINT16_MAX], message[LIST_MAX];
    struct dnw_written_names wanted, written;
    size_t count = 1 + chance(NAMES_MAX), len = 0, at = 0, max_size = chance(8) > 0 ? UINT16_MAX : chance(1000);
    for (size_t i = 0; i < count; i++) {
        make_name(&names[i], names, i);
        memcpy(list + len, names[i].form, names[i].len);
        len += names[i].len;
    }
    uint32_t answer = model_write(list, len, max_size, own, &wanted);
    if (!CALL(dnw_names_write(list, len, (uint16_t)max_size, message, sizeof message, &written), answer))
        return;
    CHECK(written.len == wanted.len && written.count == count && memcmp(message, own, written.len) == 0);
    for (size_t i = 0; i < count; i++) {
        at = check_name(message, written.len, at, &names[i]);
        check_text(&names[i]);
        check_order(&names[i], &names[chance(count)]);
    }
    CHECK(at == written.len);
}

/* Reads a message as long as they come, of random labels, zero octets and pointers, at each of its elements. */
static void check_long_message(void)
{
    static uint8_t message[UINT16_MAX];
    static size_t starts[UINT16_MAX];
    size_t len = 0, count = 0;
    while (len + 8 < sizeof message) {
        size_t labels = chance(4) > 0 ? 1 + chance(6) : 0;
        starts[count++] = len;
        if (labels == 0 && chance(2) > 0) {
            size_t target = starts[chance(count)] & 0x3FFF;
            message[len++] = (uint8_t)(0xC0 | target >> 8);
            message[len++] = (uint8_t)target;
            continue;
        }
        message[len++] = (uint8_t)labels;
        for (; labels > 0; labels--)
            message[len++] = (uint8_t)chance(256);
    }
    for (size_t i = 0; i < count; i++) {
        struct model_name name;
        struct dnw_read_name read;
        uint8_t form[DNW_FORM_SIZE];
        if (CALL(dnw_name_read(message, len, starts[i], form, sizeof form, &read),
                 model_read(message, len, starts[i], &name)))
            CHECK(read.len == name.len && read.end == name.end && memcmp(form, name.form, name.len) == 0);
    }
}

int main(int argc, char **argv)
{
    long messages = argc > 1 ? atol(argv[1]) : 1000000;
    size_t first = resident("self");
    for (long i = 1; i <= messages; i++) {
        check_message();
        if (i % 2000 == 0)
            check_long_message();
        if (i == messages / 10)
            first = resident("self");
    }
    size_t last = resident("self");
    printf("soak: %ld messages, %zu calls, %zu allocations refused, at most %zu blocks at once, none left\n", messages,
           calls, refusals, most_blocks);
    printf("soak: %zu KiB resident after a tenth of the messages, %zu KiB at the end\n", first, last);
    fflush(stdout);
    CHECK(first > 0 && last <= first + MAY_GROW);
    return 0;
}
