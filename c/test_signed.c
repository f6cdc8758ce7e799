/* Calls the function of dns_names_wire.h for what a signature covers with good and with bad input. It prints nothing if all is
   well, and exits with 1 at the first result that is not the expected one. Expected values are worked by hand from RFC 4034,
   sections 3.1.8.1 and 6, RFC 4035, section 5.3.2, and RFC 6840, section 5.1. */
#include "dns_names_wire.h"
#include "expect.h"
#include "message.h"

static uint8_t octets[1024];

/* Puts what the RRSIG at an offset signs into so many bytes. What is not written is unchanged. */
static uint32_t sign(const uint8_t *list, size_t end, size_t start, size_t rrsig, size_t size, size_t *len)
{
    memset(octets, '?', sizeof octets);
    *len = 7;
    uint32_t answer = dnw_signed_octets(list, end, start, rrsig, octets, size, len);
    if (answer != DNW_DONE)
        EXPECT(octets[0] == '?' && *len == 7);
    else
        EXPECT(*len <= size && octets[*len] == '?');
    return answer;
}

static uint32_t fails(const uint8_t *list, size_t end, size_t start, size_t rrsig)
{
    size_t len;
    return sign(list, end, start, rrsig, sizeof octets - 1, &len);
}

static bool signs(const uint8_t *list, size_t end, size_t start, size_t rrsig, const char *wanted, size_t wanted_len)
{
    size_t len;
    EXPECT(sign(list, end, start, rrsig, wanted_len - 1, &len) == DNW_NO_ROOM);
    EXPECT(sign(list, end, start, rrsig, wanted_len, &len) == DNW_DONE);
    return len == wanted_len && memcmp(octets, wanted, len) == 0;
}

#define WANTED(text) text, sizeof(text) - 1
#define TTL "\000\000\000\005"
#define ORIGINAL "\000\000\016\020"
/* what an RRSIG begins with: the type covered, algorithm 13, the labels, 3600 seconds, two times and tag 7 */
#define FIELDS(type, labels) type "\015" labels ORIGINAL "\356\153\050\000\145\123\361\000\000\007"
/* with the signer `B.` and a signature of three octets */
#define RRSIG(owner, type, labels) owner "\000\056\000\001" TTL "\000\030" FIELDS(type, labels) "\001B\000sig"
#define SIGNED(type, labels) FIELDS(type, labels) "\001b\000"
#define RECORD(owner, type, ttl, data) owner type "\000\001" ttl data
#define A "\000\001"
#define MX "\000\017"
#define NULL_TYPE "\000\012"
#define ADDRESS(last) "\000\004\300\000\002" last
#define A_B "\001a\001b\000"
#define SIZE(text) (sizeof(text) - 1)

#define OF_A RRSIG(A_B, A, "\002")
#define FIRST RECORD(A_B, A, TTL, ADDRESS("\001"))
#define SECOND RECORD("\001A\001B\000", A, "\177\000\000\000", ADDRESS("\002"))
#define BOTH RECORD(A_B, A, ORIGINAL, ADDRESS("\001")) RECORD(A_B, A, ORIGINAL, ADDRESS("\002"))

/* Each record once, in ascending order, with the original time to live and an owner in lower case; others are left out. */
static void signs_sets(void)
{
    EXPECT(signs(BYTES(OF_A FIRST SECOND), SIZE(OF_A), 0, WANTED(SIGNED(A, "\002") BOTH)));
    EXPECT(signs(BYTES(OF_A SECOND FIRST SECOND), SIZE(OF_A), 0, WANTED(SIGNED(A, "\002") BOTH)));
    /* the RRSIG among the records, and after them */
    EXPECT(signs(BYTES(SECOND OF_A FIRST), 0, SIZE(SECOND), WANTED(SIGNED(A, "\002") BOTH)));
    EXPECT(signs(BYTES(FIRST SECOND OF_A), 0, SIZE(FIRST SECOND), WANTED(SIGNED(A, "\002") BOTH)));
    /* of another type, class or owner, or before the section */
#define OTHERS RECORD(A_B, "\000\034", TTL, "\000\001?") A_B A "\000\003" TTL ADDRESS("\003") RECORD("\001b\000", A, TTL, "\000\000")
    EXPECT(signs(BYTES(OTHERS FIRST OTHERS SECOND OF_A), 0, SIZE(OTHERS FIRST OTHERS SECOND), WANTED(SIGNED(A, "\002") BOTH)));
    EXPECT(signs(BYTES(OF_A RECORD(A_B, A, TTL, ADDRESS("\003")) FIRST SECOND), SIZE(OF_A FIRST), 0,
                 WANTED(SIGNED(A, "\002") BOTH)));
    /* of the root, by the root; a name below can't be the zone of its records */
#define OF_ROOT "\000\000\056\000\001" TTL "\000\026" FIELDS(A, "\000") "\000sig"
    EXPECT(signs(BYTES(OF_ROOT RECORD("\000", A, TTL, ADDRESS("\001"))), SIZE(OF_ROOT), 0,
                 WANTED(FIELDS(A, "\000") "\000" RECORD("\000", A, ORIGINAL, ADDRESS("\001")))));
    EXPECT(fails(BYTES(RRSIG("\000", A, "\000") RECORD("\000", A, TTL, ADDRESS("\001"))), SIZE(RRSIG("\000", A, "\000")), 0)
           == DNW_NOT_COVERED);
    /* an absent octet is before a zero */
#define DATA(data) RECORD(A_B, NULL_TYPE, TTL, data)
#define SHOWN(data) RECORD(A_B, NULL_TYPE, ORIGINAL, data)
#define OF_NULL RRSIG(A_B, NULL_TYPE, "\002")
    EXPECT(signs(BYTES(OF_NULL DATA("\000\001\377") DATA("\000\002\000\001") DATA("\000\000") DATA("\000\001\000")), SIZE(OF_NULL),
                 0, WANTED(SIGNED(NULL_TYPE, "\002") SHOWN("\000\000") SHOWN("\000\001\000") SHOWN("\000\002\000\001")
                           SHOWN("\000\001\377"))));
}

/* The owner is the wildcard that made the records, if it has more labels than are signed. */
static void signs_wildcards(void)
{
    EXPECT(signs(BYTES(RRSIG(A_B, A, "\001") SECOND), SIZE(OF_A), 0,
                 WANTED(SIGNED(A, "\001") RECORD("\001*\001b\000", A, ORIGINAL, ADDRESS("\002")))));
    EXPECT(signs(BYTES(RRSIG(A_B, A, "\000") SECOND), SIZE(OF_A), 0,
                 WANTED(SIGNED(A, "\000") RECORD("\001*\000", A, ORIGINAL, ADDRESS("\002")))));
#define STAR "\001*\001b\000"
    EXPECT(signs(BYTES(RRSIG(STAR, A, "\001") RECORD(STAR, A, TTL, ADDRESS("\002"))), SIZE(OF_A), 0,
                 WANTED(SIGNED(A, "\001") RECORD(STAR, A, ORIGINAL, ADDRESS("\002")))));
    EXPECT(fails(BYTES(RRSIG(A_B, A, "\003") FIRST), SIZE(OF_A), 0) == DNW_TOO_FEW_LABELS);
}

/* Names in data are whole, and in lower case but for types such as NSEC and SVCB; and all of them may be compressed. */
static void signs_names(void)
{
    EXPECT(signs(BYTES(RRSIG(A_B, MX, "\002") RECORD("\300\000", MX, TTL, "\000\010\000\012\003X-Y\300\002")), SIZE(OF_A), 0,
                 WANTED(SIGNED(MX, "\002") RECORD(A_B, MX, ORIGINAL, "\000\011\000\012\003x-y\001b\000"))));
    EXPECT(signs(BYTES(RRSIG(A_B, "\000\057", "\002") RECORD("\300\000", "\000\057", TTL, "\000\007\001X\300\002\000\001\100")),
                 SIZE(OF_A), 0,
                 WANTED(SIGNED("\000\057", "\002") RECORD(A_B, "\000\057", ORIGINAL, "\000\010\001X\001b\000\000\001\100"))));
    EXPECT(signs(BYTES(RRSIG(A_B, "\000\100", "\002") RECORD("\300\000", "\000\100", TTL, "\000\006\000\001\001X\300\002")),
                 SIZE(OF_A), 0,
                 WANTED(SIGNED("\000\100", "\002") RECORD(A_B, "\000\100", ORIGINAL, "\000\007\000\001\001X\001b\000"))));
    /* a message, whose RRSIG has a compressed owner and signer, up to where its answers end */
#define MESSAGE "\000\000\200\000\000\001\000\002\000\001\000\000" A_B "\000\001\000\001"
#define SECTION RECORD("\300\014", A, TTL, ADDRESS("\002")) "\300\014\000\056\000\001" TTL "\000\027" FIELDS(A, "\002") "\300\016sig"
    EXPECT(signs(BYTES(MESSAGE SECTION), SIZE(MESSAGE), SIZE(MESSAGE) + 16,
                 WANTED(SIGNED(A, "\002") RECORD(A_B, A, ORIGINAL, ADDRESS("\002")))));
}

static void refuses_rrsigs(void)
{
    const uint8_t *list = (const uint8_t *)OF_A FIRST;
    EXPECT(fails(list, SIZE(OF_A FIRST), 0, SIZE(OF_A FIRST) + 1) == DNW_MESSAGE_CUT);
    EXPECT(fails(list, SIZE(OF_A FIRST), 0, SIZE_MAX) == DNW_MESSAGE_CUT);
    EXPECT(fails(list, SIZE(OF_A FIRST), 0, SIZE(OF_A FIRST)) == DNW_MESSAGE_CUT);
    EXPECT(fails(list, SIZE(OF_A FIRST), 0, SIZE(OF_A)) == DNW_NOT_RRSIG);
    EXPECT(fails(BYTES("\000\000\030\000\001" TTL "\000\000"), 0, 0) == DNW_NOT_RRSIG);
    /* RRSIG records of the classes ANY and NONE may have no data (RFC 2136), and then cover nothing; those of IN may not */
    EXPECT(fails(BYTES("\000\000\056\000\377" TTL "\000\000"), 0, 0) == DNW_NOT_RRSIG);
    EXPECT(fails(BYTES("\000\000\056\000\376" TTL "\000\000"), 0, 0) == DNW_NOT_RRSIG);
    EXPECT(fails(BYTES("\000\000\056\000\001" TTL "\000\000"), 0, 0) == DNW_MESSAGE_CUT);
    EXPECT(fails(BYTES("\100"), 0, 0) == DNW_RESERVED_OCTET);
    /* names, after which the octets of a record are not all there */
    make_message();
    EXPECT(fails(message, sizeof message, 0, 20) == DNW_MESSAGE_CUT);
    EXPECT(fails(message, sizeof message, 0, 40) == DNW_MESSAGE_CUT);
    EXPECT(fails(message, sizeof message, 0, 93) == DNW_MESSAGE_CUT);
    EXPECT(fails(message, sizeof message, 0, 0) == DNW_POINTER_NOT_BACK);
    EXPECT(fails(BYTES("\000\000\056\000\001" TTL "\000\021" "12345678901234567"), 0, 0) == DNW_MESSAGE_CUT);
    EXPECT(fails(BYTES("\000\000\056\000\001" TTL "\000\022" FIELDS(A, "\000")), 0, 0) == DNW_MESSAGE_CUT);
    EXPECT(fails(BYTES("\000\000\056\000\001" TTL "\000\023" FIELDS(A, "\000") "\100"), 0, 0) == DNW_RESERVED_OCTET);
}

static void refuses_records(void)
{
    const uint8_t *list = (const uint8_t *)OF_A FIRST SECOND;
    size_t whole = SIZE(OF_A FIRST SECOND);
    for (size_t end = 0; end < whole; end++) {
        bool is_whole = end == SIZE(OF_A) || end == SIZE(OF_A FIRST);
        uint32_t answer = fails(list, end, SIZE(OF_A), 0);
        EXPECT(is_whole ? answer == (end == SIZE(OF_A) ? DNW_NOT_COVERED : DNW_DONE) : answer == DNW_MESSAGE_CUT);
    }
    EXPECT(fails(list, whole, whole, 0) == DNW_NOT_COVERED);
    EXPECT(fails(list, whole, whole + 1, 0) == DNW_MESSAGE_CUT);
    EXPECT(fails(list, whole, SIZE_MAX, 0) == DNW_MESSAGE_CUT);
    EXPECT(fails(BYTES(OF_A FIRST "\100"), SIZE(OF_A), 0) == DNW_RESERVED_OCTET);
    /* all records are read before data are */
    EXPECT(fails(BYTES(OF_A RECORD(A_B, A, TTL, "\000\003123") "\100"), SIZE(OF_A), 0) == DNW_RESERVED_OCTET);
    EXPECT(fails(BYTES(OF_A RECORD(A_B, A, TTL, "\000\00512345")), SIZE(OF_A), 0) == DNW_WRONG_DATA_LENGTH);
    EXPECT(fails(BYTES(RRSIG(A_B, MX, "\002") RECORD(A_B, MX, TTL, "\000\003\000\001\100")), SIZE(OF_A), 0) == DNW_RESERVED_OCTET);
    /* too many labels, whether a record is covered or not */
    EXPECT(fails(BYTES(RRSIG(A_B, A, "\377")), SIZE(OF_A), 0) == DNW_TOO_FEW_LABELS);
}

/* Parameters of 65,531 octets after a name of two octets, which takes five without compression. */
static void refuses_long_data(void)
{
    static uint8_t list[70000], room[70000];
    static const char head[] = RRSIG(A_B, "\000\100", "\002")
        RECORD("\300\000", "\000\100", TTL, "\377\377\000\001\300\000\000\001");
    size_t len, end = SIZE(head) - 6 + 65535, value = 65535 - 8;
    memcpy(list, head, SIZE(head));
    list[SIZE(head)] = (uint8_t)(value >> 8);
    list[SIZE(head) + 1] = (uint8_t)value;
    EXPECT(dnw_signed_octets(list, end, SIZE(OF_A), 0, room, sizeof room, &len) == DNW_DATA_TOO_LONG);
    list[SIZE(OF_A) + 11] -= 3;
    list[SIZE(head) + 1] -= 3;
    EXPECT(dnw_signed_octets(list, end - 3, SIZE(OF_A), 0, room, sizeof room, &len) == DNW_DONE);
    EXPECT(len == SIZE(SIGNED(A, "\002")) + 15 + 65535);
}

int main(void)
{
    signs_sets();
    signs_wildcards();
    signs_names();
    refuses_rrsigs();
    refuses_records();
    refuses_long_data();
    return 0;
}
