/* The inputs of the rows that rows.c does by this library, and peers.c by others. */
#include <stdint.h>
#include <stdio.h>
#include <string.h>

/* A response of example.org to a query for its mail exchange, with names that are compressed. */
static const uint8_t RESPONSE[] =
    "\x12\x34\x84\x00\x00\x01\x00\x02\x00\x01\x00\x02\x07" "example\x03org\x00\x00\x0f\x00\x01"
    "\xc0\x0c\x00\x0f\x00\x01\x00\x00\x0e\x10\x00\x09\x00\x0a\x04mail\xc0\x0c"
    "\xc0\x0c\x00\x0f\x00\x01\x00\x00\x0e\x10\x00\x0a\x00\x14\x05mail2\xc0\x0c"
    "\xc0\x0c\x00\x02\x00\x01\x00\x00\x0e\x10\x00\x05\x02ns\xc0\x0c"
    "\xc0\x2b\x00\x01\x00\x01\x00\x00\x0e\x10\x00\x04\xc0\x00\x02\x01"
    "\x00\x00\x29\x04\xd0\x00\x00\x00\x00\x00\x00";
#define RESPONSE_LEN (sizeof RESPONSE - 1)

static const uint8_t NAME[] = "\x03www\x07" "example\x03org";
#define NAME_LEN sizeof NAME

static const uint8_t NAMES[] = "\x03www\x07" "example\x03org\x00\x04mail\x07" "example\x03org\x00\x02ns\x07" "example\x03org\x00\x03ns2\x07" "example\x03org";

/* Where its records begin, and the first one with an address. */
enum { RECORDS = 29, MAIL = 50 };

/* A hundred names of a zone, one after another, in the order of their numbers. */
static uint8_t hundred[100 * 17];

/* The address of a host, after the RRSIG that covers it, without compression. */
static const uint8_t SIGNED[] =
    "\x01h\x07" "example\x00\x00\x2e\x00\x01\x00\x00\x00\x3c\x00\x1e"
    "\x00\x01\x0d\x02\x00\x00\x0e\x10\x00\x00\x00\x02\x00\x00\x00\x01\x00\x07\x07" "example\x00sig"
    "\x01h\x07" "example\x00\x00\x01\x00\x01\x00\x00\x00\x3c\x00\x04\xc0\x00\x02\x01";

/* Eight lines of a zone file, each a record with its owner, time to live and class. */
static const char LINES[] =
    "www.example.org. 3600 IN A 192.0.2.1\n"
    "www.example.org. 3600 IN AAAA 2001:db8::1\n"
    "example.org. 3600 IN MX 10 mail.example.org.\n"
    "example.org. 3600 IN TXT \"v=spf1 mx ip4:192.0.2.0/24 -all\"\n"
    "child.example.org. 3600 IN NS ns1.example.net.\n"
    "child.example.org. 3600 IN DS 60485 13 2 D4B7D520E7BB5F0F67674A0CCEB1E3E0614B93C4F9E99B8383F6A1E4469DA50A\n"
    "2t7b4g4vsa5smi47k61mv5bv1a22bojr.example.org. 3600 IN NSEC3 1 0 0 - 2VPTU5TIMAMQTTGL4LUU9KG21E0AOR3S A RRSIG\n"
    "www.example.org. 3600 IN RRSIG A 13 3 3600 20261227000000 20261127000000 12345 example.org. "
    "oJB1W6WNGv+ldvQ3WDG0MQkg5IEhjRip8WTrPYGv07h108dUKGMeDPKijVCHX3DDKdfb+v6oB9wfuh3DTJXUAfI/M0zmO/zz8bW0Rznl8O3t\n";
#define LINES_LEN (sizeof LINES - 1)

/* Eight records as people write them, in 264 octets: with an origin, owners, times and classes left out, tabs, and a comment. */
static const char SHORT_LINES[] =
    "$ORIGIN example.org.\n"
    "$TTL 3600\n"
    "host1\t300\tIN\tA\t10.1.0.1\n"
    "\t\t\tAAAA\t2001:db8::1\n"
    "\tTXT\t\"text of host 1\" ; quoted\n"
    "host2 A 10.1.0.2\n"
    "\tMX\t10 host1\n"
    "www CNAME host1\n"
    "sub 86400 NS ns.other.example.\n"
    "  DS 12345 13 2 D4B7D520E7BB5F0F67674A0CCEB1E3E0614B93C4F9E99B8383F6A1E4469DA50A\n";

/* The zone files of rows: the short lines, or one of the eight lines, from 0, so many times. The row's name begins with the number of its
   records. */
enum { TIMES = 64 };
static const struct zone_row {
    const char *name;
    int line; /* -1 for the short lines */
} ZONE_ROWS[] = {{"8-short-entries-read", -1}, {"64-A-entries-read", 0}, {"64-NSEC3-entries-read", 6}, {"64-RRSIG-entries-read", 7}};

/* The text of a row, and its octets. It is there until the next call. */
static const char *zone_text(const struct zone_row *row, size_t *len)
{
    static char text[TIMES * 256];
    const char *line = LINES;
    if (row->line < 0) {
        *len = sizeof SHORT_LINES - 1;
        return SHORT_LINES;
    }
    for (int number = 0; number < row->line; number++)
        line = strchr(line, '\n') + 1;
    size_t line_len = (size_t)(strchr(line, '\n') + 1 - line);
    for (size_t i = 0; i < TIMES; i++)
        memcpy(text + i * line_len, line, line_len);
    *len = TIMES * line_len;
    return text;
}

/* Queries for addresses with EDNS and DO: of a host, of a name below a zone that is delegated, and of a name that is not there. */
#define ASKS(name) "\x12\x34\x01\x10\x00\x01\x00\x00\x00\x00\x00\x01" name "\x00\x00\x01\x00\x01\x00\x00\x29\x04\xd0\x00\x00\x80\x00\x00\x00"
#define ZONE "\x07" "example\x03org"
static const uint8_t QUERY_HOST[] = ASKS("\x03www" ZONE), QUERY_CHILD[] = ASKS("\x03www\x05" "child" ZONE), QUERY_NONE[] = ASKS("\x04none\x03www" ZONE);

/* A record of a response: its section by its number in dns_names_wire.h, its owner and its data in their wire forms, and its type. */
struct given {
    uint16_t section, type;
    const uint8_t *owner, *data;
    size_t owner_len, data_len;
};
#define GIVEN(section, type, owner, data) {section, type, (const uint8_t *)owner, (const uint8_t *)data, sizeof owner, sizeof data - 1}
#define CHILD "\x05" "child" ZONE
#define SERVER(letter) "\x01" letter "\x02ns" CHILD
#define ADDRESSES(letter) GIVEN(4, 1, SERVER(letter), "\xc0\x00\x02\x01"), GIVEN(4, 28, SERVER(letter), "\x20\x01\x0d\xb8\0\0\0\0\0\0\0\0\0\0\0\x01")
#define OCTETS_64 "0123456789012345678901234567890123456789012345678901234567890123"
#define SIG(type) "\x00" type "\x0d\x03\x00\x00\x0e\x10\x65\x00\x00\x00\x64\x00\x00\x00\x12\x34" ZONE "\x00" OCTETS_64
#define HASHED(letter) "\x20" letter "abcdefghijklmnopqrstuv012345678" ZONE
#define DENIAL(letter) GIVEN(3, 50, HASHED(letter), "\x01\x00\x00\x00\x00\x14" "01234567890123456789\x00\x07\x22\x01\x80\x00\x00\x02\x90"), \
    GIVEN(3, 46, HASHED(letter), SIG("\x32"))

static const struct given ANSWER[] = {GIVEN(2, 1, "\x03www" ZONE, "\xc0\x00\x02\x01")};
static const struct given REFERRAL[] = {
    GIVEN(3, 2, CHILD, SERVER("a") "\0"), GIVEN(3, 2, CHILD, SERVER("b") "\0"), GIVEN(3, 2, CHILD, SERVER("c") "\0"), GIVEN(3, 2, CHILD, SERVER("d") "\0"),
    ADDRESSES("a"), ADDRESSES("b"), ADDRESSES("c"), ADDRESSES("d"),
};
static const struct given NXDOMAIN[] = {
    GIVEN(3, 6, ZONE, "\x03ns1" ZONE "\0\x0ahostmaster" ZONE "\0\x78\xa3\xf1\x75\x00\x00\x1c\x20\x00\x00\x0e\x10\x00\x12\x75\x00\x00\x00\x0e\x10"),
    GIVEN(3, 46, ZONE, SIG("\x06")), DENIAL("0"), DENIAL("g"), DENIAL("p"),
};
#define COUNT(list) (sizeof list / sizeof list[0])

static void begin(void)
{
    for (int i = 0; i < 100; i++) {
        uint8_t name[18];
        sprintf((char *)name, "\5h%04d\7example\1a", i * 37 % 100);
        memcpy(hundred + 17 * i, name, 16);
        hundred[17 * i + 16] = 0;
    }
}
