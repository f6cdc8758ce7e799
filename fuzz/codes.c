/* Takes the input as a text of a type, of a class and of a time to live, and its first octets as a code and as two serial
   numbers. What a code is printed as is parsed as that code; a text with a code is what that code is printed as, in upper or
   lower case, or a word and its digits; a time is a sum in 128 bits; serial numbers are compared and added as RFC 1982
   says. */
#include "harness.h"

#include <strings.h>

static struct room input, texts;

typedef uint32_t (*prints)(uint16_t code, uint8_t *text, size_t text_size, size_t *len);
typedef uint32_t (*parses)(const uint8_t *text, size_t text_len, uint16_t *code);

static void prints_code(prints print, parses parse, uint16_t code)
{
    size_t len = 7, again = 7;
    uint16_t back = 7;
    uint8_t *text = clear(&texts, DNW_CODE_SIZE);
    CHECK(print(code, text, DNW_CODE_SIZE, &len) == DNW_DONE);
    CHECK(len > 0 && holds(text, DNW_CODE_SIZE, text, len));
    uint32_t answer = parse(text, len, &back);
    CHECK(answer == DNW_DONE && back == code);
    text = clear(&texts, len - 1);
    CHECK(print(code, text, len - 1, &again) == DNW_NO_ROOM && again == 7 && untouched(text, len - 1));
}

static bool is_alike(const uint8_t *text, size_t len, const uint8_t *other, size_t other_len)
{
    return len == other_len && strncasecmp((const char *)text, (const char *)other, len) == 0;
}

/* A word and then the code in decimal digits, of which zeros may come first (RFC 3597, section 5). */
static bool is_numbered(const uint8_t *text, size_t len, const char *word, uint16_t code)
{
    size_t at = strlen(word);
    uint64_t number = 0;
    if (len <= at || !is_alike(text, at, (const uint8_t *)word, at))
        return false;
    for (; at < len && '0' <= text[at] && text[at] <= '9'; at++)
        number = number > 65535 ? number : 10 * number + (text[at] - '0');
    return at == len && number == code;
}

static void parses_text(prints print, parses parse, const char *word, const uint8_t *text, size_t len)
{
    size_t own_len = 7;
    uint16_t code = 7, without_memory = 7;
    uint8_t own[DNW_CODE_SIZE];
    uint32_t answer = parse(text, len, &code);
    if (answer == DNW_DONE) {
        CHECK(print(code, own, sizeof own, &own_len) == DNW_DONE);
        CHECK(is_alike(own, own_len, text, len) || (code == 255 && len == 1 && text[0] == '*') || is_numbered(text, len, word, code));
    } else {
        CHECK(code == 7 && answer == (model_is_utf8(text, len) ? DNW_UNKNOWN_TEXT : DNW_NOT_UTF8));
    }
    refuse(1);
    uint32_t without = parse(text, len, &without_memory);
    was_refused();
    CHECK(without == answer && without_memory == code);
}

static uint64_t unit_seconds(uint8_t c)
{
    switch (c | 32) {
    case 's':
        return 1;
    case 'm':
        return 60;
    case 'h':
        return 3600;
    case 'd':
        return 86400;
    case 'w':
        return 604800;
    default:
        return 0;
    }
}

/* Groups of digits and a unit, of which the last may lack its unit. Numbers of more than 2^64 stay there. */
static uint32_t model_time(const uint8_t *text, size_t len, uint32_t *seconds)
{
    unsigned __int128 sum = 0, most = (unsigned __int128)1 << 64;
    size_t at = 0;
    if (!model_is_utf8(text, len))
        return DNW_NOT_UTF8;
    if (len == 0)
        return DNW_BAD_TIME;
    while (at < len) {
        unsigned __int128 number = 0;
        size_t digits = at;
        for (; at < len && text[at] >= '0' && text[at] <= '9'; at++)
            number = number < most ? 10 * number + (text[at] - '0') : most;
        uint64_t unit = at < len ? unit_seconds(text[at]) : 1;
        if (at == digits || unit == 0)
            return DNW_BAD_TIME;
        sum += number * unit;
        sum = sum < most ? sum : most;
        at += 1;
    }
    *seconds = (uint32_t)sum;
    return sum <= UINT32_MAX ? DNW_DONE : DNW_BAD_TIME;
}

static void parses_time(const uint8_t *text, size_t len)
{
    uint32_t wanted = 7, seconds = 7, without_memory = 7;
    uint32_t answer = model_time(text, len, &wanted);
    CHECK(dnw_ttl_parse(text, len, &seconds) == answer);
    CHECK(seconds == (answer == DNW_DONE ? wanted : 7));
    refuse(1);
    uint32_t without = dnw_ttl_parse(text, len, &without_memory);
    was_refused();
    CHECK(without == answer && without_memory == seconds);
}

static void serials(uint32_t left, uint32_t right)
{
    int32_t order = 7, turned = 7;
    uint32_t way = right - left;
    int32_t wanted = way == 0 ? 0 : way < 0x80000000 ? -1 : 1;
    uint32_t answer = way == 0x80000000 ? DNW_NOT_ORDERED : DNW_DONE;
    CHECK(dnw_serial_compare(left, right, &order) == answer && order == (answer == DNW_DONE ? wanted : 7));
    CHECK(dnw_serial_compare(right, left, &turned) == answer && turned == (answer == DNW_DONE ? -wanted : 7));
    CHECK(dnw_serial_add(left, right) == (uint32_t)(((uint64_t)left + right) % ((uint64_t)1 << 32)));
}

int LLVMFuzzerTestOneInput(const uint8_t *data, size_t size)
{
    uint32_t numbers[2] = {0, 0};
    const uint8_t *text = put_at_end(&input, data, size);
    memcpy(numbers, data, size < sizeof numbers ? size : sizeof numbers);
    prints_code(dnw_type_print, dnw_type_parse, (uint16_t)numbers[0]);
    prints_code(dnw_class_print, dnw_class_parse, (uint16_t)numbers[0]);
    parses_text(dnw_type_print, dnw_type_parse, "TYPE", text, size);
    parses_text(dnw_class_print, dnw_class_parse, "CLASS", text, size);
    parses_time(text, size);
    serials(numbers[0], numbers[1]);
    serials(numbers[0], numbers[0] + numbers[1] % 2 + 0x7FFFFFFF);
    return 0;
}
