/* Calls any function of the header with any arguments, up to 24 calls for an input. What one call leaves is taken by later ones: states,
   results, lengths and offsets. fuzz/callers.py writes from the header which arguments a function takes, and what must hold of it:

   - it returns 0 or an error that the header has for it; DNW_NO_MEMORY only if an allocation was refused; and what does not allocate by
     the header does not;
   - it writes nothing outside its buffers, nor after what it says that it stored, and no input;
   - if it fails, nothing is changed but what the header says;
   - it does the same again in other places, whatever its buffers held before.

   Each buffer touches a page that cannot be touched: all end there in one call, and begin there in the next, and octets on the other side
   are poisoned. */
#include "callers.h"
#include "harness.h"

#include <sanitizer/asan_interface.h>

/* The function that is called. */
static const char *called = "no function";

#undef CHECK
#define CHECK(fact)                                                                     \
    do {                                                                                \
        if (!(fact)) {                                                                  \
            fprintf(stderr, "%s:%d: %s: failed: %s\n", __FILE__, __LINE__, called, #fact); \
            abort();                                                                    \
        }                                                                               \
    } while (0)

enum { CALLS = 24, LONGEST = 66000, OBJECT_SIZE = 2048, OUTPUTS = 4, RECENT = 16, SOME_ITEMS = 4096, BESIDE = 64, FIRST_FILLER = 0xAA, OTHER_FILLER = 0x55 };

/* What earlier calls left. */
static struct {
    uint8_t objects[NAMES][OBJECT_SIZE];
    size_t input_len[NAMES];
    size_t output_len[OUTPUTS];
    uint64_t recent[RECENT];
    size_t message_size;
    unsigned outputs, numbers;
} left;
static uint8_t inputs[NAMES][LONGEST], outputs[OUTPUTS][LONGEST], message[LONGEST];

static struct argument arguments[PARAMETERS];
static uint8_t contents[PARAMETERS][LONGEST];
static struct room rooms[2][PARAMETERS];
static uint64_t calls[FUNCTIONS], successes[FUNCTIONS];

static uint64_t take_number(struct part *rest, size_t size)
{
    uint64_t number = 0;
    for (struct part taken = take_part(rest, size); taken.len > 0; taken.bytes++, taken.len--)
        number = number << 8 | *taken.bytes;
    return number;
}

/* Offsets and lengths: small ones, any, the greatest, those of what was stored, and those about the end of the last input. */
static uint64_t take_size(struct part *rest, size_t last_input)
{
    uint64_t tag = take_number(rest, 1);
    if (tag < 0xE0)
        return tag;
    if (tag < 0xE8)
        return take_number(rest, 2);
    if (tag < 0xEC)
        return left.recent[take_number(rest, 1) % RECENT];
    if (tag == 0xEE)
        return SIZE_MAX - take_number(rest, 1);
    return tag < 0xEE ? take_number(rest, tag == 0xEC ? 4 : 8) : last_input - (tag - 0xEF);
}

static size_t copied(uint8_t *to, const void *octets, size_t len)
{
    len = len < LONGEST ? len : LONGEST;
    memcpy(to, octets, len);
    return len;
}

/* Octets: those that follow, once or many times, the last ones of this name, those that a call has stored, or a null pointer. */
static void take_input(struct part *rest, struct argument *it)
{
    uint64_t tag = take_number(rest, 1);
    size_t len = 0, name = it->is->name;
    if (tag < 0xD0) {
        struct part taken = take_part(rest, tag < 0xC0 ? tag : take_number(rest, 2));
        len = copied(it->content, taken.bytes, taken.len);
    } else if (tag < 0xE0) {
        len = copied(it->content, inputs[name], left.input_len[name]);
    } else if (tag < 0xF0) {
        len = copied(it->content, outputs[tag % OUTPUTS], left.output_len[tag % OUTPUTS]);
    } else if (tag > 0xF0) {
        struct part taken = take_part(rest, take_number(rest, 1));
        len = taken.len == 0 ? 0 : put_repeated(it->content, LONGEST, taken.bytes, taken.len, (size_t)1 << (tag & 15));
    }
    it->is_null = tag == 0xF0;
    it->number = len / it->is->size;
    left.input_len[name] = copied(inputs[name], it->content, len);
}

static void take_buffer(struct part *rest, struct argument *it)
{
    uint64_t tag = take_number(rest, 1);
    size_t items = tag < 0xC0 ? tag : tag < 0xE0 ? take_number(rest, 2) : tag < 0xF0 ? SOME_ITEMS : tag < 0xFF ? LONGEST : 0;
    it->is_null = tag == 0xFF;
    it->number = items * it->is->size <= 3 * LONGEST ? items : 3 * LONGEST / it->is->size;
}

/* The message that is written call by call, as it is, or with one other octet, or a new one of zeros. */
static void take_message(struct part *rest, struct argument *it)
{
    uint64_t tag = take_number(rest, 1);
    if (tag >= 0xC0) {
        left.message_size = tag == 0xFF ? LONGEST : take_number(rest, 2) % 2049;
        memset(message, 0, left.message_size);
    } else if (tag >= 0x80 && left.message_size > 0) {
        size_t offset = take_number(rest, 2) % left.message_size;
        message[offset] = (uint8_t)take_number(rest, 1);
    }
    it->number = copied(it->content, message, left.message_size);
    it->is_null = it->number == 0 && tag % 2 == 1;
}

/* An object: of zeros, as a call left it, the same with other octets, or of any octets. A bool is one. */
static void take_object(struct part *rest, struct argument *it)
{
    size_t size = it->is->size;
    uint64_t tag = take_number(rest, 1);
    CHECK(size <= OBJECT_SIZE);
    memset(it->content, 0, size);
    if (tag >= 0x40 && tag < 0xE0)
        memcpy(it->content, left.objects[it->is->name], size);
    for (uint64_t i = 0; tag >= 0xC0 && tag < 0xE0 && i <= tag % 8; i++) {
        size_t offset = take_number(rest, 2) % size;
        it->content[offset] = (uint8_t)take_number(rest, 1);
    }
    if (tag >= 0xE0) {
        struct part taken = take_part(rest, tag % 16 + 1);
        for (size_t i = 0; taken.len > 0 && i < size; i++)
            it->content[i] = taken.bytes[i % taken.len];
    }
    for (const struct member *at = it->is->bools; at != NULL && at->size > 0; at++)
        it->content[at->offset] &= 1;
}

static void take_arguments(struct part *rest, const struct function *function)
{
    size_t last_input = 0;
    CHECK(function->count <= PARAMETERS);
    for (unsigned i = 0; i < function->count; i++) {
        struct argument *it = &arguments[i];
        *it = (struct argument){.is = &function->parameters[i], .content = contents[i]};
        switch (it->is->kind) {
        case NUMBER:
            it->number = it->is->size == sizeof(size_t) ? take_size(rest, last_input) : take_number(rest, it->is->size);
            break;
        case INPUT:
            take_input(rest, it);
            last_input = it->number;
            break;
        case OUTPUT:
            take_buffer(rest, it);
            break;
        case MESSAGE:
            take_message(rest, it);
            break;
        default:
            take_object(rest, it);
        }
    }
}

static size_t octets_of(const struct argument *it)
{
    return it->is->kind == NUMBER ? 0 : it->is->kind == CONSTANT || it->is->kind == OBJECT ? it->is->size : it->number * it->is->size;
}

/* The octets beside a buffer: those before it if it ends at a page that cannot be touched. */
static uint8_t *beside(const struct argument *it, bool is_at_end)
{
    return is_at_end ? it->octets - BESIDE : it->octets + octets_of(it);
}

static bool are_all(const uint8_t *octets, size_t len, uint8_t filler)
{
    return len == 0 || (octets[0] == filler && memcmp(octets, octets + 1, len - 1) == 0);
}

/* Puts the arguments into rooms, at the end of each in the first place and at its start in the other. */
static void put_arguments(const struct function *function, bool is_other)
{
    for (unsigned i = 0; i < function->count; i++) {
        struct argument *it = &arguments[i];
        if (it->is->kind == NUMBER || it->is_null) {
            it->octets = NULL;
            continue;
        }
        it->octets = lay(&rooms[is_other][i], !is_other, is_other ? OTHER_FILLER : FIRST_FILLER, octets_of(it), BESIDE);
        if (it->is->kind != OUTPUT)
            memcpy(it->octets, it->content, octets_of(it));
        __asan_poison_memory_region(beside(it, !is_other), BESIDE);
    }
}

/* What is stored in a buffer, in octets, after a call that has not failed; or SIZE_MAX if nobody says. */
static size_t stored_in(const struct function *function, const struct argument *it, uint64_t result)
{
    size_t items;
    if (!function->has_status)
        return result <= it->number ? result : 0;
    if (it->is->length == NO_PARAMETER)
        return SIZE_MAX;
    memcpy(&items, arguments[it->is->length].octets + it->is->length_offset, sizeof items);
    CHECK(items <= it->number);
    return items * it->is->size;
}

/* What is in the message is as before, but for TC if the function may set it. */
static void expect_same_message(const struct function *function, const struct argument *it)
{
    size_t len = 0;
    for (unsigned i = 0; i < function->count; i++)
        if (arguments[i].is->size == sizeof(struct dnw_writer))
            memcpy(&len, arguments[i].content + offsetof(struct dnw_writer, len), sizeof len);
    for (size_t i = 0; i < len && i < it->number; i++)
        CHECK(((it->octets[i] ^ it->content[i]) & (function->sets_truncation && i == 2 ? 0xFD : 0xFF)) == 0);
}

/* What a call may not have written is as it was. */
static void expect_unchanged(const struct function *function, bool is_other, uint64_t result)
{
    bool fails = function->has_status && result != DNW_DONE;
    uint8_t filler = is_other ? OTHER_FILLER : FIRST_FILLER;
    for (unsigned i = 0; i < function->count; i++) {
        struct argument *it = &arguments[i];
        if (it->octets == NULL)
            continue;
        __asan_unpoison_memory_region(beside(it, !is_other), BESIDE);
        CHECK(are_all(beside(it, !is_other), BESIDE, filler));
        if (it->is->kind == INPUT || it->is->kind == CONSTANT || (it->is->kind == OBJECT && fails == (i != function->stored_failing)))
            CHECK(memcmp(it->octets, it->content, octets_of(it)) == 0);
        else if (it->is->kind == MESSAGE && fails && !function->leaves_any_octets)
            expect_same_message(function, it);
        else if (it->is->kind == OUTPUT && !function->leaves_any_octets) {
            size_t stored = fails ? 0 : stored_in(function, it, result);
            CHECK(stored == SIZE_MAX || are_all(it->octets + stored, octets_of(it) - stored, filler));
        }
    }
}

/* Makes the call with the arguments in the first place or in the other, and sees that it does what every function does. */
static uint64_t call_at(const struct function *function, bool is_other, size_t refused)
{
    called = function->name;
    put_arguments(function, is_other);
    refuse(refused);
    uint64_t result = function->call(arguments);
    bool is_refused = was_refused();
    CHECK(!is_refused || !function->never_allocates);
    if (function->has_status)
        CHECK(result == DNW_DONE || (result < 64 && (function->errors >> result & 1) != 0));
    CHECK(!function->has_status || result != DNW_NO_MEMORY || is_refused);
    expect_unchanged(function, is_other, result);
    return result;
}

/* The two calls stored the same. */
static void expect_same(const struct function *function, uint64_t result)
{
    bool fails = function->has_status && result != DNW_DONE;
    for (unsigned i = 0; i < function->count; i++) {
        const struct argument *it = &arguments[i];
        if (it->octets == NULL || it->is->kind == INPUT || it->is->kind == CONSTANT)
            continue;
        size_t len = octets_of(it), stored = it->is->kind == OUTPUT && !fails ? stored_in(function, it, result) : SIZE_MAX;
        const uint8_t *first = rooms[0][i].first + rooms[0][i].size - len, *other = it->octets;
        if (it->is->kind != OUTPUT || stored != SIZE_MAX)
            CHECK(memcmp(first, other, stored < len ? stored : len) == 0 || (fails && function->leaves_any_octets));
        else
            for (size_t at = 0; at < len && !fails; at++)
                CHECK(first[at] == other[at] || (first[at] == FIRST_FILLER && other[at] == OTHER_FILLER));
    }
}

/* Keeps what a call has stored for the next ones. */
static void keep(const struct function *function, uint64_t result)
{
    bool fails = function->has_status && result != DNW_DONE;
    for (unsigned i = 0; i < function->count; i++) {
        const struct argument *it = &arguments[i];
        if (it->octets == NULL)
            continue;
        if (it->is->kind == OBJECT) {
            memcpy(left.objects[it->is->name], it->octets, it->is->size);
            for (const struct member *at = it->is->numbers; at != NULL && at->size > 0; at++)
                memcpy(&left.recent[left.numbers++ % RECENT], it->octets + at->offset, sizeof(size_t));
        } else if (it->is->kind == OUTPUT && !fails) {
            size_t stored = stored_in(function, it, result), slot = left.outputs++ % OUTPUTS;
            left.output_len[slot] = copied(outputs[slot], it->octets, stored == SIZE_MAX ? octets_of(it) : stored);
        } else if (it->is->kind == MESSAGE)
            memcpy(message, it->octets, it->number);
    }
}

/* The first call is made in one place, the second in the other. Then it is made with an allocation refused. */
static void make_calls(struct part *rest)
{
    size_t index = take_number(rest, 1) % FUNCTIONS, refused = take_number(rest, 1) % 8;
    const struct function *function = &functions[index];
    take_arguments(rest, function);
    uint64_t result = call_at(function, false, 0);
    CHECK(call_at(function, true, function->never_allocates ? 1 : 0) == result);
    expect_same(function, result);
    keep(function, result);
    calls[index]++;
    successes[index] += !function->has_status || result == DNW_DONE;
    if (refused == 0 || function->never_allocates)
        return;
    uint64_t other = call_at(function, true, refused);
    CHECK(other == result || other == DNW_NO_MEMORY);
    if (other == result)
        expect_same(function, result);
}

/* Says which functions were called, if the fuzzer ends by itself. */
static void tell(void)
{
    unsigned called = 0, succeeded = 0;
    for (unsigned i = 0; i < FUNCTIONS; i++) {
        called += calls[i] > 0;
        succeeded += successes[i] > 0;
        if (successes[i] == 0)
            fprintf(stderr, "calls: %s: %llu calls, none without an error\n", functions[i].name, (unsigned long long)calls[i]);
    }
    fprintf(stderr, "calls: of %d functions %u were called, and %u did not fail\n", FUNCTIONS, called, succeeded);
}

int LLVMFuzzerTestOneInput(const uint8_t *data, size_t size)
{
    static bool is_asked;
    if (!is_asked)
        is_asked = atexit(tell) == 0;
    memset(&left, 0, sizeof left);
    left.message_size = 512;
    memset(message, 0, left.message_size);
    struct part rest = {data, size};
    for (int call = 0; call < CALLS && rest.len > 0; call++)
        make_calls(&rest);
    return 0;
}
