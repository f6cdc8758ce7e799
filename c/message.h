/* The message that tests of reading share. */
#ifndef MESSAGE_H
#define MESSAGE_H

#include <stdint.h>
#include <string.h>

/* The names of RFC 1035, section 4.1.4: F.ISI.ARPA at 20, FOO.F.ISI.ARPA at 40, ARPA at 64, the root at 92. */
static uint8_t message[93];

static void make_message(void)
{
    memset(message, 0xFF, sizeof message);
    memcpy(message + 20, "\001F\003ISI\004ARPA\000", 12);
    memcpy(message + 40, "\003FOO\300\024", 6);
    memcpy(message + 64, "\300\032", 2);
    message[92] = 0;
}

#endif
