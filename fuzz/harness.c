#define _DEFAULT_SOURCE
#include "harness.h"

#include <sys/mman.h>

enum { PAGE = 4096, ROOM = 256 * 1024, FILLED = 64 };

static size_t number_to_refuse;
static bool refused;

void *__real_malloc(size_t size);
void *__real_realloc(void *block, size_t size);
void *__wrap_malloc(size_t size);
void *__wrap_realloc(void *block, size_t size);

static bool refuses(void)
{
    if (number_to_refuse == 0 || --number_to_refuse > 0)
        return false;
    refused = true;
    return true;
}

void *__wrap_malloc(size_t size)
{
    return refuses() ? NULL : __real_malloc(size);
}

void *__wrap_realloc(void *block, size_t size)
{
    return refuses() ? NULL : __real_realloc(block, size);
}

void refuse(size_t number)
{
    number_to_refuse = number;
    refused = false;
}

bool was_refused(void)
{
    number_to_refuse = 0;
    return refused;
}

static void open_room(struct room *room, size_t size)
{
    if (room->first == NULL) {
        uint8_t *pages = mmap(NULL, ROOM + 2 * PAGE, PROT_NONE, MAP_PRIVATE | MAP_ANONYMOUS, -1, 0);
        CHECK(pages != MAP_FAILED && mprotect(pages + PAGE, ROOM, PROT_READ | PROT_WRITE) == 0);
        room->first = pages + PAGE;
        room->size = ROOM;
    }
    CHECK(size + FILLED <= room->size);
}

const uint8_t *put_at_end(struct room *room, const uint8_t *bytes, size_t len)
{
    open_room(room, len);
    return memcpy(room->first + room->size - len, bytes, len);
}

const uint8_t *put_at_start(struct room *room, const uint8_t *bytes, size_t len)
{
    open_room(room, len);
    return memcpy(room->first, bytes, len);
}

uint8_t *lay(struct room *room, bool is_at_end, uint8_t filler, size_t size, size_t beside)
{
    open_room(room, size);
    CHECK(size + beside <= room->size);
    uint8_t *first = is_at_end ? room->first + room->size - size - beside : room->first;
    memset(first, filler, size + beside);
    return is_at_end ? first + beside : first;
}

uint8_t *clear(struct room *room, size_t size)
{
    return lay(room, true, 0xAA, size, FILLED);
}

static bool is_filled(const uint8_t *bytes, size_t len)
{
    return len == 0 || (bytes[0] == 0xAA && memcmp(bytes, bytes + 1, len - 1) == 0);
}

bool holds(const uint8_t *buffer, size_t size, const void *bytes, size_t len)
{
    return len <= size && memcmp(buffer, bytes, len) == 0 && is_filled(buffer + len, size - len) &&
           is_filled(buffer - FILLED, FILLED);
}

bool untouched(const uint8_t *buffer, size_t size)
{
    return is_filled(buffer - FILLED, size + FILLED);
}

/* The fuzzer sets these to zero before each input, and looks at them after it. */
static uint8_t seen[1 << 15] __attribute__((section("__libfuzzer_extra_counters")));

void saw(size_t number)
{
    seen[number % sizeof seen] = 1;
}

struct part take_part(struct part *rest, size_t len)
{
    struct part taken = {rest->bytes, len < rest->len ? len : rest->len};
    rest->bytes += taken.len;
    rest->len -= taken.len;
    return taken;
}

bool cut_in_three(const uint8_t *data, size_t size, struct part parts[3])
{
    if (size < 2 || (size_t)data[0] + data[1] > size - 2)
        return false;
    parts[0] = (struct part){data + 2, data[0]};
    parts[1] = (struct part){parts[0].bytes + data[0], data[1]};
    parts[2] = (struct part){parts[1].bytes + data[1], size - 2 - data[0] - data[1]};
    return true;
}

size_t put_repeated(uint8_t *buffer, size_t size, const uint8_t *bytes, size_t len, size_t times)
{
    size_t put = 0;
    for (size_t i = 0; i <= times && put + len <= size; i++, put += len)
        memcpy(buffer + put, bytes, len);
    return put;
}
