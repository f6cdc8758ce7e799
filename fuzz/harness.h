/* What the harnesses share: a check, guarded pages, a malloc that can be refused, and the parts of an input. */
#ifndef HARNESS_H
#define HARNESS_H

#include <stdio.h>
#include <stdlib.h>
#include <string.h>

#include "model.h"

/* The fuzzer reports the input for which a fact does not hold. */
#define CHECK(fact)                                                                     \
    do {                                                                                \
        if (!(fact)) {                                                                  \
            fprintf(stderr, "%s:%d: failed: %s\n", __FILE__, __LINE__, #fact);          \
            abort();                                                                    \
        }                                                                               \
    } while (0)

/* Pages between two that cannot be touched. */
struct room {
    uint8_t *first;
    size_t size;
};

/* Puts bytes at the end of a room, so that reading on faults, or at its start, so that reading before does. Returns
   where they are. The room is made by its first use, of this size at least. */
const uint8_t *put_at_end(struct room *room, const uint8_t *bytes, size_t len);
const uint8_t *put_at_start(struct room *room, const uint8_t *bytes, size_t len);

/* Returns a buffer at the end of a room, filled with 0xAA, as are some bytes before it. */
uint8_t *clear(struct room *room, size_t size);

/* Returns a buffer at the end of a room, or at its start, that is filled, as are so many bytes on its other side. */
uint8_t *lay(struct room *room, bool is_at_end, uint8_t filler, size_t size, size_t beside);

/* The buffer has these bytes, and is unchanged after and before them. */
bool holds(const uint8_t *buffer, size_t size, const void *bytes, size_t len);
bool untouched(const uint8_t *buffer, size_t size);

/* The allocation with this number is refused, counted from 1; none if it is 0. */
void refuse(size_t number);

/* Returns whether an allocation was refused since, and stops that. */
bool was_refused(void);

/* The fuzzer keeps an input too for which a number is seen that no input before gave: one of what a call returned. */
void saw(size_t number);

/* A part of an input. */
struct part {
    const uint8_t *bytes;
    size_t len;
};

/* Cuts an input in three: its first two octets are the lengths of the first two parts, and the rest is the third. Returns
   false if the input is shorter. */
bool cut_in_three(const uint8_t *data, size_t size, struct part parts[3]);

/* Takes octets from the front of what is left of an input, as many as there are. */
struct part take_part(struct part *rest, size_t len);

/* Puts bytes into a buffer so many times and once more, as often as they fit, and returns how many octets these are. */
size_t put_repeated(uint8_t *buffer, size_t size, const uint8_t *bytes, size_t len, size_t times);

int LLVMFuzzerTestOneInput(const uint8_t *data, size_t size);

#endif
