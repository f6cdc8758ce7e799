/* What the tests of the C libraries share: a macro that stops at the first fact that does not hold. */
#ifndef EXPECT_H
#define EXPECT_H

#include <stdint.h>
#include <stdio.h>
#include <stdlib.h>
#include <string.h>

#define EXPECT(fact)                                                                    \
    do {                                                                                \
        if (!(fact)) {                                                                  \
            fprintf(stderr, "%s:%d: failed: %s\n", __FILE__, __LINE__, #fact);          \
            exit(1);                                                                    \
        }                                                                               \
    } while (0)

#define BYTES(text) ((const uint8_t *)(text)), (sizeof(text) - 1)

#endif
