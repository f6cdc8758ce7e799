/* What the tests of long inputs share: an input that grows, and room for what a call stores. */
#ifndef INPUT_H
#define INPUT_H

#include "expect.h"

enum { ROOM = 1 << 22 };

static uint8_t input[ROOM], output[ROOM];
static size_t input_len;

static void put(const void *bytes, size_t len)
{
    EXPECT(input_len + len <= sizeof input);
    memcpy(input + input_len, bytes, len);
    input_len += len;
}

static void put_word(size_t word)
{
    const uint8_t octets[2] = {(uint8_t)(word >> 8), (uint8_t)word};
    put(octets, 2);
}

#endif
