/* Reads the input as a type bitmap, and writes it as a list of codes. The first octet says how often the rest is repeated.
   What is listed and what is written are the model's (RFC 4034, section 4.1.2); what is written is read back as the codes
   that were given, each once and in ascending order, whatever order they were given in. */
#include "harness.h"

enum { BITMAP_MAX = 70000, DATA_MAX = 65535, CODES = 65536, WINDOW = 256, OCTETS_MAX = 32, WRITTEN_MAX = 256 * 34 };

static struct room input, lists, bitmaps;
static bool listed[CODES];

/* Marks what a bitmap lists, and returns whether it is one. Its last window may be cut anywhere. */
static bool model_bitmap(const uint8_t *bitmap, size_t len)
{
    memset(listed, 0, sizeof listed);
    for (size_t at = 0; at < len;) {
        size_t first = (size_t)bitmap[at] * WINDOW, wanted = at + 1 < len ? bitmap[at + 1] : 0;
        size_t from = at + 2 < len ? at + 2 : len, octets = wanted < len - from ? wanted : len - from;
        if (octets == 0 && from < len)
            return false;
        for (size_t bit = 0; bit < 8 * octets; bit++) {
            if (!(bitmap[from + bit / 8] & 128 >> bit % 8))
                continue;
            if (bit >= 8 * OCTETS_MAX)
                return false;
            listed[first + bit] = true;
        }
        at = from + octets;
    }
    return len <= DATA_MAX;
}

static size_t model_codes(uint16_t *codes)
{
    size_t count = 0;
    for (size_t code = 0; code < CODES; code++)
        if (listed[code])
            codes[count++] = (uint16_t)code;
    return count;
}

static size_t model_written(uint8_t *bitmap)
{
    size_t len = 0;
    for (size_t window = 0; window < CODES / WINDOW; window++) {
        uint8_t octets[OCTETS_MAX] = {0};
        size_t used = 0;
        for (size_t bit = 0; bit < WINDOW; bit++)
            if (listed[window * WINDOW + bit]) {
                octets[bit / 8] |= (uint8_t)(128 >> bit % 8);
                used = bit / 8 + 1;
            }
        if (used == 0)
            continue;
        bitmap[len] = (uint8_t)window;
        bitmap[len + 1] = (uint8_t)used;
        memcpy(bitmap + len + 2, octets, used);
        len += 2 + used;
    }
    return len;
}

static uint32_t read_into(const uint8_t *bitmap, size_t len, size_t size, const uint16_t *wanted, size_t count)
{
    size_t given = 7;
    uint8_t *codes = clear(&lists, 2 * size);
    uint32_t answer = dnw_types_read(bitmap, len, (uint16_t *)(void *)codes, size, &given);
    if (answer == DNW_DONE)
        CHECK(given == count && holds(codes, 2 * size, wanted, 2 * count));
    else
        CHECK(given == 7 && untouched(codes, 2 * size));
    return answer;
}

static uint32_t write_into(const uint16_t *codes, size_t count, size_t size, const uint8_t *wanted, size_t len)
{
    size_t given = 7;
    uint8_t *bitmap = clear(&bitmaps, size);
    uint32_t answer = dnw_types_write(codes, count, bitmap, size, &given);
    if (answer == DNW_DONE)
        CHECK(given == len && holds(bitmap, size, wanted, len));
    else
        CHECK(given == 7 && untouched(bitmap, size));
    return answer;
}

/* The list of the codes that are marked stands for a bitmap, which is read back. */
static void writes(const uint16_t *codes, size_t count)
{
    static uint16_t ascending[CODES];
    static uint8_t wanted[WRITTEN_MAX];
    size_t len = model_written(wanted), in_set = model_codes(ascending);
    CHECK(write_into(codes, count, len, wanted, len) == DNW_DONE);
    if (len > 0)
        CHECK(write_into(codes, count, len - 1, wanted, len) == DNW_NO_ROOM);
    CHECK(read_into(wanted, len, in_set, ascending, in_set) == DNW_DONE);
    refuse(1);
    uint32_t without = write_into(codes, count, len, wanted, len);
    bool is_without = was_refused();
    CHECK(without == DNW_DONE || (is_without && without == DNW_NO_MEMORY));
}

static void reads(const uint8_t *bitmap, size_t len)
{
    static uint16_t codes[CODES];
    bool is_bitmap = model_bitmap(bitmap, len);
    size_t count = is_bitmap ? model_codes(codes) : 0;
    uint32_t answer = is_bitmap ? DNW_DONE : DNW_BAD_BITMAP;
    CHECK(count <= 8 * len);
    CHECK(read_into(bitmap, len, is_bitmap ? count : 100, codes, count) == answer);
    if (count > 0)
        CHECK(read_into(bitmap, len, count - 1, codes, count) == DNW_NO_ROOM);
    for (size_t number = 1; number <= 3; number++) {
        refuse(number);
        uint32_t without = read_into(bitmap, len, is_bitmap ? count : 100, codes, count);
        bool is_without = was_refused();
        CHECK(without == answer || (is_without && len > 0 && without == DNW_NO_MEMORY));
    }
    if (is_bitmap)
        writes(codes, count);
}

int LLVMFuzzerTestOneInput(const uint8_t *data, size_t size)
{
    static uint8_t bytes[BITMAP_MAX];
    if (size < 1)
        return 0;
    size_t len = put_repeated(bytes, sizeof bytes, data + 1, size - 1, data[0]);
    reads(put_at_end(&input, bytes, len), len);
    size_t count = (size - 1) / 2;
    const uint8_t *codes = put_at_end(&input, data + 1, 2 * count);
    memset(listed, 0, sizeof listed);
    for (size_t i = 0; i < count; i++)
        listed[codes[2 * i] | codes[2 * i + 1] << 8] = true;
    writes((const uint16_t *)(const void *)codes, count);
    return 0;
}
