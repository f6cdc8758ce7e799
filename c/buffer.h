/* What the tests of results in buffers share: a buffer, and what stands in it. */
#ifndef BUFFER_H
#define BUFFER_H

#include <stdbool.h>
#include <stdint.h>
#include <string.h>

static uint8_t buffer[1200];

/* The buffer has these bytes, and is unchanged after them. */
static bool holds(const char *bytes, size_t len)
{
    return memcmp(buffer, bytes, len) == 0 && buffer[len] == 0xAA;
}

static bool untouched(void)
{
    for (size_t i = 0; i < sizeof buffer; i++)
        if (buffer[i] != 0xAA)
            return false;
    return true;
}

static void clear(void)
{
    memset(buffer, 0xAA, sizeof buffer);
}

#endif
