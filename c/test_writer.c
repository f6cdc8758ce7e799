/* Calls each function of dns_names_wire.h that writes a message, item by item or from a list, at its limits, and with writers and
   buffers that are spoiled. It prints nothing if all is well, and exits with 1 at the first result that is not the expected one.
   Expected values are worked by hand from RFC 1035, section 4.1, and RFC 6891, section 6.1. */
#include "dns_names_wire.h"
#include "expect.h"

#define ROOM 512
#define WWW "\003www\007example\003com\000"
#define WEB "\003web\007example\003com\000"
#define ROOT "\000"

static uint8_t message[ROOM], before[ROOM];
static struct dnw_writer writer, was;

/* Keeps what is there before a call. */
static void keep(void)
{
    memcpy(before, message, ROOM);
    was = writer;
}

/* Returns the result of a call. One that failed has changed nothing up to where the message ends. */
static uint32_t done(uint32_t answer)
{
    if (answer != DNW_DONE) {
        EXPECT(memcmp(before, message, was.len < ROOM ? was.len : ROOM) == 0);
        EXPECT(memcmp(&writer, &was, sizeof was) == 0);
    }
    return answer;
}

static uint32_t begin(size_t size, size_t max_size, uint16_t id, uint16_t flags)
{
    keep();
    return done(dnw_writer_begin(message, size, max_size, id, flags, &writer));
}

static uint32_t question(size_t size, const uint8_t *name, size_t len)
{
    keep();
    return done(dnw_writer_question(message, size, name, len, DNW_TYPE_MX, DNW_CLASS_IN, &writer));
}

static uint32_t record(size_t size, uint32_t section, const uint8_t *owner, size_t owner_len, uint16_t type,
                       const uint8_t *octets, size_t len)
{
    keep();
    return done(dnw_writer_record(message, size, section, owner, owner_len, type, DNW_CLASS_IN, 0x01020304, octets, len,
                                  &writer));
}

static uint32_t address(size_t size, uint32_t section, const uint8_t *owner, size_t owner_len)
{
    return record(size, section, owner, owner_len, DNW_TYPE_A, BYTES("\300\000\002\001"));
}

static uint32_t last(size_t held, const uint8_t *owner, size_t owner_len)
{
    keep();
    return done(dnw_writer_last(message, ROOM, held, owner, owner_len, 65280, DNW_CLASS_ANY, 0, BYTES("\001\002"), &writer));
}

/* Expects that the message is these octets. */
static void expect_message(const uint8_t *octets, size_t len)
{
    EXPECT(writer.len == len);
    EXPECT(memcmp(message, octets, len) == 0);
}

/* A message of no items, in a buffer of other octets. */
static void begin_new(size_t max_size)
{
    memset(message, 0x5A, ROOM);
    EXPECT(begin(ROOM, max_size, 0x1234, 0x85B3) == DNW_DONE);
}

#define HEADER(counts) "\022\064\205\263" counts
#define CUT(counts) "\022\064\207\263" counts
#define QUESTION WWW "\000\017\000\001"
#define FIELDS(type) "\000" type "\000\001\001\002\003\004"
#define ADDRESS FIELDS("\001") "\000\004\300\000\002\001"

static void begins(void)
{
    memset(message, 0x5A, ROOM);
    memset(&writer, 7, sizeof writer);
    EXPECT(begin(0, ROOM, 1, 2) == DNW_NO_ROOM);
    EXPECT(begin(DNW_HEADER_SIZE - 1, ROOM, 1, 2) == DNW_NO_ROOM);
    uint16_t flags = DNW_FLAG_RESPONSE | DNW_FLAG_AUTHORITATIVE | DNW_FLAG_RECURSION_DESIRED | DNW_FLAG_RECURSION_AVAILABLE |
                     DNW_FLAG_AUTHENTIC_DATA | DNW_FLAG_CHECKING_DISABLED | 3;
    EXPECT(begin(DNW_HEADER_SIZE, 77, 0x1234, flags) == DNW_DONE);
    expect_message(BYTES(HEADER("\000\000\000\000\000\000\000\000")));
    EXPECT(message[12] == 0x5A && writer.max_size == 77 && writer.reserved == 0);
    struct dnw_message read;
    struct dnw_message_fault fault;
    EXPECT(dnw_message_read(message, writer.len, 0, &read, &fault) == DNW_DONE);
    EXPECT(read.id == 0x1234 && read.is_response && read.op_code == 0 && read.authoritative && !read.truncation);
    EXPECT(read.recursion_desired && read.recursion_available && read.authentic_data && read.checking_disabled);
    EXPECT(read.response_code == 3 && read.end == DNW_HEADER_SIZE);
    for (size_t most = 0; most < DNW_HEADER_SIZE; most++)
        EXPECT(begin(ROOM, most, 1, 2) == DNW_MESSAGE_TOO_LONG);
    EXPECT(begin(DNW_HEADER_SIZE - 1, 0, 1, 2) == DNW_NO_ROOM);
    EXPECT(begin(ROOM, DNW_HEADER_SIZE, 0, DNW_FLAG_TRUNCATION | 5 << 11) == DNW_DONE);
    EXPECT(dnw_message_read(message, writer.len, 0, &read, &fault) == DNW_DONE);
    EXPECT(read.truncation && !read.is_response && read.op_code == 5 && read.end == DNW_HEADER_SIZE);
    EXPECT(question(ROOM, BYTES(ROOT)) == DNW_MESSAGE_TOO_LONG);
}

/* One item of each kind, each in a buffer that it fills, after a try in one that is an octet shorter. */
static void appends(void)
{
    begin_new(ROOM);
    EXPECT(question(32, BYTES(WWW)) == DNW_MESSAGE_TOO_LONG);
    EXPECT(question(33, BYTES(WWW)) == DNW_DONE);
    expect_message(BYTES(HEADER("\000\001\000\000\000\000\000\000") QUESTION));
    EXPECT(message[33] == 0x5A);
    EXPECT(address(48, DNW_SECTION_ANSWERS, BYTES(WWW)) == DNW_MESSAGE_TOO_LONG);
    EXPECT(address(49, DNW_SECTION_ANSWERS, BYTES(WWW)) == DNW_DONE);
    expect_message(BYTES(HEADER("\000\001\000\001\000\000\000\000") QUESTION "\300\014" ADDRESS));
    EXPECT(record(64, DNW_SECTION_AUTHORITIES, BYTES("\007example\003com\000"), DNW_TYPE_NS, BYTES(WEB)) == DNW_MESSAGE_TOO_LONG);
    EXPECT(record(67, DNW_SECTION_AUTHORITIES, BYTES("\007example\003com\000"), DNW_TYPE_NS, BYTES(WEB)) == DNW_DONE);
    EXPECT(address(83, DNW_SECTION_ADDITIONALS, BYTES(WEB)) == DNW_DONE);
    expect_message(BYTES(HEADER("\000\001\000\001\000\001\000\001") QUESTION "\300\014" ADDRESS "\300\020" FIELDS("\002")
                         "\000\006\003web\300\020" "\300\075" ADDRESS));
    EXPECT(last(0, BYTES("\003key\000")) == DNW_DONE);
    EXPECT(writer.len == 83 + 17 && message[11] == 2);
    EXPECT(memcmp(message + 83, "\003key\000\377\000\000\377\000\000\000\000\000\002\001\002", 17) == 0);
    EXPECT(address(ROOM, DNW_SECTION_ADDITIONALS, BYTES(WEB)) == DNW_BAD_ITEM);
    EXPECT(last(0, BYTES("\003key\000")) == DNW_BAD_ITEM);
}

/* Names in data are compressed for the types that may have it, and not for others (RFC 3597, section 4). */
static void compresses_data(void)
{
    begin_new(51);
    EXPECT(question(ROOM, BYTES(WWW)) == DNW_DONE);
    EXPECT(record(50, DNW_SECTION_ANSWERS, BYTES(WWW), DNW_TYPE_CNAME, BYTES(WEB)) == DNW_MESSAGE_TOO_LONG);
    EXPECT(record(ROOM, DNW_SECTION_ANSWERS, BYTES(WWW), DNW_TYPE_CNAME, BYTES(WEB)) == DNW_DONE);
    expect_message(BYTES(HEADER("\000\001\000\001\000\000\000\000") QUESTION "\300\014" FIELDS("\005") "\000\006\003web\300\020"));
    begin_new(ROOM);
    EXPECT(record(ROOM, DNW_SECTION_ANSWERS, BYTES("\001a\000"), DNW_TYPE_SOA, BYTES("\001b\001a\000\001c\001b\001a\000" "01234567890123456789")) == DNW_DONE);
    expect_message(BYTES(HEADER("\000\000\000\001\000\000\000\000") "\001a\000" FIELDS("\006") "\000\034\001b\300\014\001c\300\031" "01234567890123456789"));
    EXPECT(record(ROOM, DNW_SECTION_ANSWERS, BYTES("\001a\000"), DNW_TYPE_MX, BYTES("\000\012\001a\000")) == DNW_DONE);
    EXPECT(memcmp(message + writer.len - 6, "\000\004\000\012\300\014", 6) == 0);
    EXPECT(record(ROOM, DNW_SECTION_ANSWERS, BYTES("\001a\000"), DNW_TYPE_SRV, BYTES("\000\001\000\002\000\003\001a\000")) == DNW_DONE);
    EXPECT(memcmp(message + writer.len - 11, "\000\011\000\001\000\002\000\003\001a\000", 11) == 0);
    /* data that are not of the type, and data that are left out */
    EXPECT(record(ROOM, DNW_SECTION_ANSWERS, BYTES("\001a\000"), DNW_TYPE_A, BYTES("\001\002\003")) == DNW_BAD_DATA);
    EXPECT(record(ROOM, DNW_SECTION_ANSWERS, BYTES("\001a\000"), DNW_TYPE_A, BYTES("")) == DNW_BAD_DATA);
    EXPECT(record(ROOM, DNW_SECTION_ANSWERS, BYTES("\001a\000"), DNW_TYPE_NS, BYTES("\300\014")) == DNW_BAD_DATA);
    EXPECT(record(ROOM, DNW_SECTION_ANSWERS, BYTES("\001a\000"), DNW_TYPE_NS, BYTES("\001a\000\000")) == DNW_BAD_DATA);
    EXPECT(dnw_writer_record(message, ROOM, DNW_SECTION_ANSWERS, BYTES("\001a\000"), DNW_TYPE_A, DNW_CLASS_ANY, 0, BYTES(""), &writer) == DNW_DONE);
}

static void minds_the_order(void)
{
    begin_new(ROOM);
    EXPECT(question(ROOM, BYTES(ROOT)) == DNW_DONE);
    const uint32_t numbers[] = {DNW_SECTION_HEADER, DNW_SECTION_QUESTIONS, 5, 0x102, UINT32_MAX};
    for (size_t i = 0; i < 5; i++)
        EXPECT(address(ROOM, numbers[i], BYTES(ROOT)) == DNW_BAD_ITEM);
    for (uint32_t here = DNW_SECTION_ANSWERS; here <= DNW_SECTION_ADDITIONALS; here++) {
        EXPECT(address(ROOM, here, BYTES(ROOT)) == DNW_DONE);
        EXPECT(question(ROOM, BYTES(ROOT)) == DNW_BAD_ITEM);
        for (uint32_t section = DNW_SECTION_ANSWERS; section < here; section++)
            EXPECT(address(ROOM, section, BYTES(ROOT)) == DNW_BAD_ITEM);
        EXPECT(address(ROOM, here, BYTES(ROOT)) == DNW_DONE);
    }
    /* a section may be left out */
    begin_new(ROOM);
    EXPECT(address(ROOM, DNW_SECTION_AUTHORITIES, BYTES(ROOT)) == DNW_DONE);
    EXPECT(memcmp(message + 4, "\000\000\000\000\000\001\000\000", 8) == 0);
}

/* A name that fails does so before the writer is tested. */
static void refuses_names(void)
{
    static const struct {
        const char *form;
        size_t len;
        uint32_t failure;
    } bad[] = {
        {"", 0, DNW_MESSAGE_CUT},          {"\001a", 2, DNW_MESSAGE_CUT},        {"\001a\000\000", 4, DNW_BYTES_LEFT},
        {"\100", 1, DNW_RESERVED_OCTET},   {"\300\000", 2, DNW_POINTER_NOT_BACK}, {"\000\000", 2, DNW_BYTES_LEFT},
    };
    begin_new(ROOM);
    for (size_t i = 0; i < sizeof bad / sizeof *bad; i++) {
        const uint8_t *form = (const uint8_t *)bad[i].form;
        EXPECT(question(ROOM, form, bad[i].len) == bad[i].failure);
        EXPECT(address(ROOM, DNW_SECTION_ANSWERS, form, bad[i].len) == bad[i].failure);
        EXPECT(last(0, form, bad[i].len) == bad[i].failure);
        EXPECT(question(0, form, bad[i].len) == bad[i].failure);
    }
    uint8_t form[256];
    memset(form, 1, sizeof form);
    form[254] = 0;
    EXPECT(question(ROOM, form, 255) == DNW_DONE && writer.len == 12 + 259);
    begin_new(ROOM);
    form[254] = 1;
    form[255] = 0;
    EXPECT(question(ROOM, form, 256) == DNW_NAME_TOO_LONG);
    EXPECT(question(ROOM, form, 255) == DNW_MESSAGE_CUT);
}

/* Octets that are held back are there for what comes last. */
static void holds_back(void)
{
    begin_new(60);
    EXPECT(dnw_writer_hold(17, &writer) == DNW_DONE && writer.reserved == 17);
    EXPECT(question(ROOM, BYTES(WWW)) == DNW_DONE);
    EXPECT(address(ROOM, DNW_SECTION_ANSWERS, BYTES(WWW)) == DNW_MESSAGE_TOO_LONG);
    EXPECT(last(16, BYTES("\020abcdefghijklmnop\000")) == DNW_MESSAGE_TOO_LONG && writer.reserved == 17);
    EXPECT(last(17, BYTES("\003key\000")) == DNW_DONE && writer.len == 50 && writer.reserved == 0);
    begin_new(48);
    EXPECT(question(ROOM, BYTES(WWW)) == DNW_DONE);
    EXPECT(address(ROOM, DNW_SECTION_ANSWERS, BYTES(WWW)) == DNW_MESSAGE_TOO_LONG);
    writer.max_size = 49;
    EXPECT(dnw_writer_hold(1, &writer) == DNW_DONE);
    EXPECT(address(ROOM, DNW_SECTION_ANSWERS, BYTES(WWW)) == DNW_MESSAGE_TOO_LONG);
    EXPECT(dnw_writer_release(5, &writer) == DNW_DONE && writer.reserved == 0);
    EXPECT(address(ROOM, DNW_SECTION_ANSWERS, BYTES(WWW)) == DNW_DONE);
    EXPECT(dnw_writer_hold(SIZE_MAX, &writer) == DNW_DONE && dnw_writer_hold(3, &writer) == DNW_DONE && writer.reserved == SIZE_MAX);
}

static uint32_t set(bool is_required, const uint8_t *records, size_t len)
{
    keep();
    uint32_t answer = dnw_writer_set(message, ROOM, DNW_SECTION_ANSWERS, is_required, BYTES(WWW), DNW_TYPE_A, DNW_CLASS_IN, 0x01020304,
                                     records, len, &writer);
    if (answer == DNW_MESSAGE_TOO_LONG && is_required)
        before[2] |= 2;
    return done(answer);
}

/* A set is added whole or not at all, and TC says that it is missing. */
static void adds_sets(void)
{
#define DATA "\000\004\300\000\002\001"
    for (size_t most = 33; most <= 65; most++) {
        begin_new(most);
        EXPECT(question(ROOM, BYTES(WWW)) == DNW_DONE);
        EXPECT(set(false, BYTES(DATA DATA)) == (most < 65 ? DNW_MESSAGE_TOO_LONG : DNW_DONE));
        EXPECT(writer.len == (most < 65 ? 33 : 65) && message[2] == 0x85 && message[7] == (most < 65 ? 0 : 2));
        if (most < 65)
            EXPECT(set(true, BYTES(DATA DATA)) == DNW_MESSAGE_TOO_LONG && message[2] == 0x87 && message[7] == 0);
    }
    expect_message(BYTES(HEADER("\000\001\000\002\000\000\000\000") QUESTION "\300\014" ADDRESS "\300\014" ADDRESS));
    begin_new(ROOM);
    EXPECT(set(true, BYTES("")) == DNW_DONE && writer.len == 12);
    EXPECT(set(true, BYTES(DATA "\000")) == DNW_BAD_ITEM && writer.len == 12 && message[7] == 0 && message[2] == 0x85);
    EXPECT(set(true, BYTES(DATA "\000\002\001")) == DNW_BAD_ITEM);
    EXPECT(set(true, BYTES(DATA "\000\002\001\002")) == DNW_BAD_DATA && writer.len == 12 && message[7] == 0);
    EXPECT(dnw_writer_set(message, ROOM, 1, true, BYTES(WWW), 1, 1, 0, BYTES(""), &writer) == DNW_BAD_ITEM);
    EXPECT(dnw_writer_set(message, ROOM, 2, true, BYTES("\001a"), 1, 1, 0, BYTES(""), &writer) == DNW_MESSAGE_CUT);
}

static uint32_t edns(size_t held, uint16_t max_payload, bool dnssec_ok, const uint8_t *options, size_t len, uint16_t block)
{
    keep();
    return done(dnw_writer_edns(message, ROOM, held, max_payload, 0xA1, 0xB2, dnssec_ok, options, len, block, &writer));
}

/* EDNS alone, as it is read, with the octets that were held back for it, and padded. */
static void puts_edns(void)
{
    struct dnw_edns read;
    begin_new(23);
    EXPECT(dnw_writer_hold(DNW_EDNS_SIZE, &writer) == DNW_DONE);
    EXPECT(edns(10, 511, false, BYTES(""), 0) == DNW_MESSAGE_TOO_LONG && writer.reserved == 11);
    EXPECT(edns(11, 511, false, BYTES(""), 0) == DNW_DONE && writer.reserved == 0);
    EXPECT(memcmp(message + 12, "\000\000\051\002\000\241\262\000\000\000\000", 11) == 0 && writer.len == 23);
    EXPECT(dnw_edns_read(message, writer.len, 0, &read) == DNW_DONE);
    EXPECT(read.is_present && !read.dnssec_ok && read.version == 0xB2 && read.max_payload == 512);
    EXPECT(read.response_code == 0xA13 && read.options_len == 0);
    EXPECT(edns(0, 512, false, BYTES(""), 0) == DNW_DUPLICATE_EDNS && writer.len == 23);
    begin_new(ROOM);
    EXPECT(edns(0, 512, true, BYTES("\000\003\000\001"), 0) == DNW_CUT_OPTION && writer.len == 12);
    EXPECT(edns(0, 512, true, BYTES("\000\003\000"), 0) == DNW_CUT_OPTION && writer.len == 12);
    EXPECT(edns(0, 65535, true, BYTES("\000\003\000\000"), 0) == DNW_DONE);
    EXPECT(dnw_edns_read(message, writer.len, 0, &read) == DNW_DONE);
    EXPECT(read.is_present && read.dnssec_ok && read.max_payload == 65535 && read.options_offset == 23 && read.options_len == 4);
    for (uint16_t block = 1; block < 520; block++) {
        begin_new(block % 2 == 0 ? ROOM : 400);
        EXPECT(question(ROOM, BYTES(WWW)) == DNW_DONE);
        EXPECT(dnw_writer_hold(7, &writer) == DNW_DONE);
        EXPECT(edns(0, 1232, true, BYTES("\000\003\000\000"), block) == DNW_DONE);
        size_t own = block > 512 ? 512 : block, least = 33 + 11 + 4 + 4 + 7, total = (least + own - 1) / own * own;
        bool is_padded = total <= writer.max_size;
        EXPECT(writer.len + 7 == (is_padded ? total : least - 4));
        EXPECT(dnw_edns_read(message, writer.len, 0, &read) == DNW_DONE && read.options_len == writer.len - 44);
        if (is_padded)
            EXPECT(message[48] == 0 && message[49] == 12 && message[50] * 256u + message[51] == total - least);
    }
}

static uint32_t opt_set(const uint8_t *data, size_t len)
{
    keep();
    return done(dnw_writer_set(message, ROOM, DNW_SECTION_ADDITIONALS, false, BYTES(ROOT), DNW_TYPE_OPT, 1232, 0, data, len, &writer));
}

/* Adds an OPT record by one of the functions that can. */
static uint32_t add_opt(int way)
{
    switch (way) {
    case 0:
        return edns(0, 1232, false, BYTES(""), 0);
    case 1:
        return record(ROOM, DNW_SECTION_ADDITIONALS, BYTES(ROOT), DNW_TYPE_OPT, BYTES(""));
    case 2:
        return opt_set(BYTES("\000\000"));
    default:
        keep();
        return done(dnw_writer_last(message, ROOM, 0, BYTES(ROOT), DNW_TYPE_OPT, 1232, 0, BYTES(""), &writer));
    }
}

/* A message has one OPT record at most, whichever functions add it. */
static void keeps_one_opt(void)
{
    for (int first = 0; first < 3; first++) {
        for (int second = 0; second < 4; second++) {
            begin_new(ROOM);
            EXPECT(add_opt(first) == DNW_DONE && writer.len == 23);
            EXPECT(add_opt(second) == DNW_DUPLICATE_EDNS && writer.len == 23 && message[11] == 1);
            EXPECT(address(ROOM, DNW_SECTION_ADDITIONALS, BYTES(WWW)) == DNW_DONE);
        }
    }
    begin_new(ROOM);
    EXPECT(opt_set(BYTES("\000\000\000\000")) == DNW_DUPLICATE_EDNS && writer.len == 12 && message[11] == 0);
    EXPECT(add_opt(3) == DNW_DONE && add_opt(3) == DNW_BAD_ITEM);
}

#define ASKS(flags, counts) "\253\315" flags counts
#define SAYS(version, flag) "\000\000\051\004\320\000" version flag "\000\000\000"

/* The low four bits of the flags are the response code. */
static uint32_t reply(const uint8_t *request, size_t len, size_t max_size, uint16_t flags, struct dnw_edns *edns)
{
    memset(message, 0x5A, ROOM);
    return dnw_writer_reply(message, ROOM, max_size, request, len, flags & 0xFFF0, flags & 15, &writer, edns);
}

static uint32_t reply_code(const uint8_t *request, size_t len, uint16_t code, struct dnw_edns *edns)
{
    memset(message, 0x5A, ROOM);
    return dnw_writer_reply(message, ROOM, ROOM, request, len, 0x000F, code, &writer, edns);
}

/* A reply has the id, the operation, RD, CD and the question of the request. */
static void begins_replies(void)
{
    struct dnw_edns edns;
    const uint16_t flags = DNW_FLAG_AUTHORITATIVE | DNW_FLAG_RECURSION_AVAILABLE | 3;
    EXPECT(reply(BYTES(ASKS("\001\020", "\000\001\000\000\000\000\000\000") QUESTION), ROOM, flags, &edns) == DNW_DONE);
    expect_message(BYTES(ASKS("\205\223", "\000\001\000\000\000\000\000\000") QUESTION));
    EXPECT(!edns.is_present && !edns.dnssec_ok && edns.max_payload == 512 && edns.response_code == 3 && writer.reserved == 0);
    EXPECT(edns.takes_records && edns.version == 0 && edns.options_offset == 0 && edns.options_len == 0);
    EXPECT(reply(BYTES(ASKS("\050\000", "\000\001\000\000\000\000\000\001") QUESTION SAYS("\000", "\200")), ROOM, 0, &edns) == DNW_DONE);
    expect_message(BYTES(ASKS("\250\000", "\000\001\000\000\000\000\000\000") QUESTION));
    EXPECT(edns.is_present && edns.dnssec_ok && edns.max_payload == 1232 && edns.response_code == 0 && writer.reserved == 11);
    EXPECT(reply(BYTES(ASKS("\001\000", "\000\001\000\000\000\000\000\001") QUESTION SAYS("\001", "\000")), ROOM, 0, &edns) == DNW_DONE);
    expect_message(BYTES(ASKS("\201\000", "\000\001\000\000\000\000\000\000") QUESTION));
    EXPECT(edns.is_present && !edns.dnssec_ok && edns.response_code == 16);
    /* no message is shorter than its header */
    for (size_t most = 0; most < DNW_HEADER_SIZE; most++)
        EXPECT(dnw_writer_reply(message, ROOM, most, BYTES(ASKS("\001\000", "\000\001\000\000\000\000\000\000") QUESTION), 0, 0, &writer, &edns)
               == DNW_MESSAGE_TOO_LONG);
    EXPECT(edns.is_present && edns.response_code == 16);
    EXPECT(address(ROOM, DNW_SECTION_ANSWERS, BYTES(ROOT)) == DNW_BAD_ITEM && address(ROOM, DNW_SECTION_AUTHORITIES, BYTES(ROOT)) == DNW_BAD_ITEM);
    EXPECT(add_opt(0) == DNW_DONE && writer.len == 33 + 11);
    /* not complete, two questions, two OPT records */
    EXPECT(reply(BYTES(ASKS("\001\000", "\000\001\000\000\000\000\000\000") WWW), ROOM, 0, &edns) == DNW_DONE);
    expect_message(BYTES(ASKS("\201\001", "\000\000\000\000\000\000\000\000")));
    EXPECT(!edns.is_present && edns.response_code == 1);
    EXPECT(reply(BYTES(ASKS("\001\000", "\000\002\000\000\000\000\000\000") QUESTION QUESTION), ROOM, 0, &edns) == DNW_DONE);
    expect_message(BYTES(ASKS("\201\001", "\000\000\000\000\000\000\000\000")));
    EXPECT(reply(BYTES(ASKS("\001\000", "\000\001\000\000\000\000\000\002") QUESTION SAYS("\000", "\000") SAYS("\000", "\000")), ROOM, 0, &edns) == DNW_DONE);
    EXPECT(!edns.is_present && edns.response_code == 1 && message[3] == 1);
    /* two questions and EDNS, which the reply has too (RFC 6891, section 6.1.1) */
    EXPECT(reply(BYTES(ASKS("\001\000", "\000\002\000\000\000\000\000\001") QUESTION QUESTION SAYS("\000", "\200")), ROOM, 0, &edns) == DNW_DONE);
    expect_message(BYTES(ASKS("\201\001", "\000\000\000\000\000\000\000\000")));
    EXPECT(edns.is_present && edns.dnssec_ok && edns.response_code == 1 && writer.reserved == 11);
    EXPECT(reply(BYTES(ASKS("\001\000", "\000\002\000\000\000\000\000\001") QUESTION QUESTION SAYS("\001", "\000")), ROOM, 0, &edns) == DNW_DONE);
    EXPECT(edns.is_present && edns.response_code == 16);
    /* no request, and no room */
    EXPECT(reply(BYTES("\253\315\001\000\000\001\000\000\000\000\000"), ROOM, 0, &edns) == DNW_BAD_ITEM);
    EXPECT(reply(BYTES(ASKS("\201\000", "\000\001\000\000\000\000\000\000") QUESTION), ROOM, 0, &edns) == DNW_BAD_ITEM);
    EXPECT(reply(BYTES(ASKS("\001\000", "\000\001\000\000\000\000\000\000") QUESTION), 32, 0, &edns) == DNW_MESSAGE_TOO_LONG);
    for (size_t most = 0; most < DNW_HEADER_SIZE; most++)
        EXPECT(reply(BYTES(ASKS("\001\000", "\000\000\000\000\000\000\000\000")), most, 0, &edns) == DNW_MESSAGE_TOO_LONG);
    EXPECT(reply(BYTES(ASKS("\001\000", "\000\001\000\000\000\000\000\000") QUESTION), 33, 0, &edns) == DNW_DONE);
}

/* A code above 15 needs EDNS, of which a reply has none if the request has none; and replies that are whole without a record. */
static void takes_codes(void)
{
    struct dnw_edns edns;
    const uint8_t plain[] = ASKS("\001\000", "\000\001\000\000\000\000\000\000") QUESTION;
    const uint8_t by_edns[] = ASKS("\001\000", "\000\001\000\000\000\000\000\001") QUESTION SAYS("\000", "\000");
    const size_t len = sizeof plain - 1, edns_len = sizeof by_edns - 1;
    for (uint16_t code = 0; code < 5000; code++) {
        EXPECT(reply_code(plain, len, code, &edns) == (code < 16 ? DNW_DONE : DNW_BAD_ITEM));
        EXPECT(code >= 16 || (edns.response_code == code && message[3] == code));
        EXPECT(reply_code(by_edns, edns_len, code, &edns) == (code < 4096 ? DNW_DONE : DNW_BAD_ITEM));
        EXPECT(code >= 4096 || (edns.response_code == code && message[3] == code % 16 && writer.reserved == 11));
        if (code < 4096) {
            const uint32_t expected = code == 1 || code == 4 || code == 16 ? DNW_BAD_ITEM : DNW_DONE;
            EXPECT(address(ROOM, DNW_SECTION_ANSWERS, BYTES(ROOT)) == expected);
            EXPECT(edns.takes_records == (expected == DNW_DONE));
            EXPECT(question(ROOM, BYTES(ROOT)) == DNW_BAD_ITEM);
            EXPECT(address(ROOM, DNW_SECTION_ADDITIONALS, BYTES(ROOT)) == DNW_DONE);
        }
    }
    /* a request that has to get another code gets it, whatever the server's */
    EXPECT(reply_code(BYTES(ASKS("\001\000", "\000\002\000\000\000\000\000\000") QUESTION QUESTION), 5000, &edns) == DNW_DONE);
    EXPECT(edns.response_code == 1 && !edns.takes_records);
}

static struct dnw_edns asked;

static uint32_t reply_edns(uint16_t max_payload, const uint8_t *options, size_t len, uint16_t block)
{
    keep();
    return done(dnw_writer_reply_edns(message, ROOM, &asked, max_payload, options, len, block, &writer));
}

/* A reply has OPT if its request has, and only then (RFC 6891, sections 6.1.1 and 7): of version 0, with DO as the request (RFC 3225,
   section 3), without the other flags, and with the high bits of the response code (RFC 6891, section 6.1.3). */
static void replies_by_edns(void)
{
#define ASKS_BY(version, flags) ASKS("\001\000", "\000\001\000\000\000\000\000\001") QUESTION SAYS(version, flags)
#define OPT_OF(code, flags) "\000\000\051\004\320" code "\000" flags "\000\000\000"
    static const struct {
        const uint8_t *request;
        size_t len;
        uint16_t code;
        const char *opt;
    } rows[] = {
        {BYTES(ASKS_BY("\000", "\000")), 0, OPT_OF("\000", "\000")},
        {BYTES(ASKS_BY("\000", "\200")), 3, OPT_OF("\000", "\200")},
        {BYTES(ASKS_BY("\000", "\177")), 0, OPT_OF("\000", "\000")},
        {BYTES(ASKS_BY("\000", "\200")), 23, OPT_OF("\001", "\200")},
        {BYTES(ASKS_BY("\000", "\000")), 4095, OPT_OF("\377", "\000")},
        {BYTES(ASKS_BY("\001", "\200")), 0, OPT_OF("\001", "\200")},
        {BYTES(ASKS("\001\000", "\000\002\000\000\000\000\000\001") QUESTION QUESTION SAYS("\000", "\200")), 0, OPT_OF("\000", "\200")},
    };
    for (size_t i = 0; i < sizeof rows / sizeof *rows; i++) {
        for (uint16_t block = 0; block < 2; block++) {
            EXPECT(reply_code(rows[i].request, rows[i].len, rows[i].code, &asked) == DNW_DONE && writer.reserved == 11);
            size_t len = writer.len;
            EXPECT(reply_edns(1232, BYTES(""), 128 * block) == DNW_DONE && writer.reserved == 0 && message[11] == 1);
            EXPECT(memcmp(message + len, rows[i].opt, 9) == 0 && writer.len == (block ? 128 : len + 11));
            EXPECT(reply_edns(1232, BYTES(""), 0) == DNW_DUPLICATE_EDNS);
        }
    }
    /* a request without EDNS, or whose EDNS is not valid */
    EXPECT(reply_code(BYTES(ASKS("\001\000", "\000\001\000\000\000\000\000\000") QUESTION), 15, &asked) == DNW_DONE);
    EXPECT(reply_edns(1232, BYTES("\000\003\000\000"), 128) == DNW_DONE);
    EXPECT(memcmp(before, message, ROOM) == 0 && memcmp(&writer, &was, sizeof was) == 0);
    EXPECT(reply_code(BYTES(ASKS("\001\000", "\000\001\000\000\000\000\000\002") QUESTION SAYS("\000", "\000") SAYS("\000", "\000")), 0, &asked) == DNW_DONE);
    EXPECT(reply_edns(1232, BYTES(""), 0) == DNW_DONE && writer.len == 33 && message[3] == 1);
    /* a size of at least 512, options, and no room for these */
    EXPECT(reply(BYTES(ASKS_BY("\000", "\000")), 33 + 11 + 4, 0, &asked) == DNW_DONE);
    EXPECT(reply_edns(511, BYTES("\000\003\000\001"), 0) == DNW_CUT_OPTION);
    EXPECT(reply_edns(511, BYTES("\000\003\000\001\007"), 0) == DNW_MESSAGE_TOO_LONG && writer.reserved == 11);
    EXPECT(reply_edns(511, BYTES("\000\003\000\000"), 128) == DNW_DONE && writer.len == 33 + 11 + 4);
    EXPECT(memcmp(message + 33, "\000\000\051\002\000\000\000\000\000\000\004\000\003\000\000", 15) == 0);
    EXPECT(reply(BYTES(ASKS_BY("\000", "\000")), ROOM, 0, &asked) == DNW_DONE && last(0, BYTES("\003key\000")) == DNW_DONE);
    EXPECT(reply_edns(1232, BYTES(""), 0) == DNW_BAD_ITEM);
}

/* Records of a list are added as far as there is room, and the call says where to go on. */
static void fills(void)
{
    uint8_t list[4 * 16];
    size_t next = 7;
    for (size_t i = 0; i < 4; i++)
        memcpy(list + 16 * i, "\001\000\000\001\000\001\000\000\000\000\000\004\300\000\002\001", 16);
    /* an item of 15 octets each time, in messages of 12 octets and two of them */
    for (size_t at = 0, left = 4; left > 0; at = next, left -= 2) {
        begin_new(12 + 2 * 15 + 14);
        EXPECT(dnw_writer_fill(message, ROOM, list, sizeof list, at, &writer, &next) == DNW_DONE);
        EXPECT(next == at + 32 && writer.len == 12 + 30 && message[7] == 2);
    }
    EXPECT(dnw_writer_fill(message, ROOM, list, sizeof list, sizeof list, &writer, &next) == DNW_DONE && next == sizeof list);
    /* none has room, is there, or may follow, and then nothing changes */
    next = 7;
    begin_new(12 + 14);
    EXPECT(dnw_writer_fill(message, ROOM, list, sizeof list, 0, &writer, &next) == DNW_MESSAGE_TOO_LONG);
    begin_new(ROOM);
    EXPECT(dnw_writer_fill(message, ROOM, list, sizeof list, sizeof list + 1, &writer, &next) == DNW_BAD_ITEM);
    EXPECT(dnw_writer_fill(message, ROOM, list, 15, 0, &writer, &next) == DNW_BAD_ITEM);
    EXPECT(dnw_writer_fill(message, ROOM, BYTES("\000" ROOT "\000\001\000\001"), 0, &writer, &next) == DNW_BAD_ITEM);
    EXPECT(dnw_writer_fill(message, ROOM, BYTES("\103" ROOT "\000\001\000\001\000\000\000\000\000\004\300\000\002\001"), 0, &writer, &next) == DNW_BAD_ITEM);
    EXPECT(dnw_writer_fill(message, ROOM, BYTES("\001" ROOT "\000\001\000\001\000\000\000\000\000\003\300\000\002"), 0, &writer, &next) == DNW_BAD_DATA);
    EXPECT(next == 7 && writer.len == 12 && message[7] == 0);
    /* one that fails later ends the call before it */
    list[32] = 99;
    EXPECT(dnw_writer_fill(message, ROOM, list, sizeof list, 0, &writer, &next) == DNW_DONE && next == 32 && writer.len == 12 + 30);
    EXPECT(dnw_writer_fill(message, ROOM, list, sizeof list, next, &writer, &next) == DNW_BAD_ITEM && next == 32);
}

static uint32_t query(size_t max_size, bool recursion_desired, const uint8_t *name, size_t len, uint16_t max_payload)
{
    memset(message, 0x5A, ROOM);
    return dnw_writer_query(message, ROOM, max_size, 0xABCD, recursion_desired, name, len, 15, 1, max_payload, &writer);
}

/* A query has RD as it is asked for, its question, and the size that it says. */
static void begins_queries(void)
{
    EXPECT(query(ROOM, true, BYTES(WWW), 0) == DNW_DONE);
    expect_message(BYTES(ASKS("\001\000", "\000\001\000\000\000\000\000\000") QUESTION));
    EXPECT(query(44, false, BYTES(WWW), 1232) == DNW_DONE);
    expect_message(BYTES(ASKS("\000\000", "\000\001\000\000\000\000\000\001") QUESTION SAYS("\000", "\000")));
    EXPECT(query(ROOM, true, BYTES(ROOT), 1) == DNW_DONE && message[20] == 2 && message[21] == 0 && writer.max_size == ROOM);
    EXPECT(query(ROOM, true, BYTES(ROOT), 513) == DNW_DONE && message[20] == 2 && message[21] == 1);
    EXPECT(add_opt(0) == DNW_DUPLICATE_EDNS);
    /* no room for the OPT record, the question and the header, and no name */
    const struct dnw_writer before = writer;
    EXPECT(query(43, true, BYTES(WWW), 1232) == DNW_MESSAGE_TOO_LONG);
    EXPECT(query(32, true, BYTES(WWW), 0) == DNW_MESSAGE_TOO_LONG);
    EXPECT(dnw_writer_query(message, 11, ROOM, 0, true, BYTES(ROOT), 1, 1, 0, &writer) == DNW_MESSAGE_TOO_LONG);
    EXPECT(query(ROOM, true, BYTES(WWW "\000"), 0) == DNW_BYTES_LEFT);
    EXPECT(query(ROOM, true, BYTES("\003www"), 0) != DNW_DONE);
    EXPECT(memcmp(&before, &writer, sizeof before) == 0);
}

/* What a caller may have spoiled: calls fail, or names are written whole, and nothing else happens. */
static void takes_any_writer(void)
{
    begin_new(ROOM);
    const struct dnw_writer begun = writer;
    const size_t lens[] = {ROOM - 4, ROOM, ROOM + 1, 65524, 65536, SIZE_MAX - 4, SIZE_MAX};
    for (size_t i = 0; i < 7; i++) {
        writer = begun;
        writer.len = lens[i];
        EXPECT(question(ROOM, BYTES(ROOT)) == DNW_MESSAGE_TOO_LONG);
        EXPECT(address(ROOM, DNW_SECTION_ANSWERS, BYTES(ROOT)) == DNW_MESSAGE_TOO_LONG);
        EXPECT(last(SIZE_MAX, BYTES(ROOT)) == DNW_MESSAGE_TOO_LONG);
    }
    for (size_t len = 0; len < DNW_HEADER_SIZE; len++) {
        writer = begun;
        writer.len = len;
        EXPECT(question(ROOM, BYTES(ROOT)) == DNW_MESSAGE_CUT);
        EXPECT(address(0, DNW_SECTION_ADDITIONALS, BYTES(ROOT)) == DNW_MESSAGE_CUT);
    }
    writer = begun;
    EXPECT(question(DNW_HEADER_SIZE - 1, BYTES(ROOT)) == DNW_MESSAGE_CUT);
    writer.rank = 255;
    EXPECT(question(ROOM, BYTES(ROOT)) == DNW_BAD_ITEM);
    EXPECT(address(ROOM, DNW_SECTION_ADDITIONALS, BYTES(ROOT)) == DNW_BAD_ITEM);
    message[10] = message[11] = 255;
    EXPECT(address(ROOM, DNW_SECTION_ADDITIONALS, BYTES(ROOT)) == DNW_MESSAGE_CUT);
    writer = begun;
    EXPECT(address(ROOM, DNW_SECTION_ADDITIONALS, BYTES(ROOT)) == DNW_MESSAGE_CUT);
    message[11] = 254;
    EXPECT(address(ROOM, DNW_SECTION_ADDITIONALS, BYTES(ROOT)) == DNW_DONE && message[10] == 255 && message[11] == 255);
    /* hints and an owner that lead anywhere */
    for (unsigned hint = 0; hint < 65536; hint += 7) {
        begin_new(ROOM);
        for (size_t i = 0; i < 512; i++)
            writer.hints[i] = (uint16_t)hint;
        writer.owner = (uint16_t)hint;
        EXPECT(question(ROOM, BYTES(WWW)) == DNW_DONE);
        expect_message(BYTES(HEADER("\000\001\000\000\000\000\000\000") QUESTION));
    }
}

/* A message has at most 65,535 octets (RFC 1035, section 4.2.2), also in a longer buffer: its header and 13,104 questions of the
   root, and three octets are left. */
static void ends_at_65535_octets(void)
{
    static uint8_t many[65536 + 11], octets[65536];
    struct dnw_writer w;
    EXPECT(dnw_writer_begin(many, sizeof many, SIZE_MAX, 0, 0, &w) == DNW_DONE);
    for (size_t i = 0; i < 13104; i++)
        EXPECT(dnw_writer_question(many, sizeof many, BYTES(ROOT), DNW_TYPE_A, DNW_CLASS_IN, &w) == DNW_DONE);
    EXPECT(dnw_writer_question(many, sizeof many, BYTES(ROOT), DNW_TYPE_A, DNW_CLASS_IN, &w) == DNW_MESSAGE_TOO_LONG);
    EXPECT(w.len == 65532 && many[4] == 51 && many[5] == 48);
    memset(octets, 7, sizeof octets);
    EXPECT(dnw_writer_begin(many, sizeof many, SIZE_MAX, 0, 0, &w) == DNW_DONE);
    for (size_t len = 65513; len <= 65536; len++)
        EXPECT(dnw_writer_record(many, sizeof many, DNW_SECTION_ANSWERS, BYTES(ROOT), 65280, DNW_CLASS_IN, 0, octets, len, &w) == DNW_MESSAGE_TOO_LONG);
    EXPECT(dnw_writer_record(many, 65534, DNW_SECTION_ANSWERS, BYTES(ROOT), 65280, DNW_CLASS_IN, 0, octets, 65512, &w) == DNW_MESSAGE_TOO_LONG);
    EXPECT(dnw_writer_record(many, 65535, DNW_SECTION_ANSWERS, BYTES(ROOT), 65280, DNW_CLASS_IN, 0, octets, 65512, &w) == DNW_DONE);
    EXPECT(w.len == 65535 && many[21] == 255 && many[22] == 232 && many[23] == 7 && many[65534] == 7 && many[65535] == 0);
    EXPECT(memcmp(many + 12, "\000\377\000\000\001\000\000\000\000", 9) == 0);
}

/* ---- lists */

static struct dnw_packed result;

static uint32_t list(const uint8_t *items, size_t items_len, size_t max_size, size_t size)
{
    memset(message, 0x5A, ROOM);
    result = (struct dnw_packed){7, true};
    uint32_t answer = dnw_message_write(items, items_len, max_size, 0x1234, 0x85B5, 3, false, 0, message, size, &result);
    if (answer != DNW_DONE)
        EXPECT(result.len == 7 && result.truncated);
    return answer;
}

static bool lists(const uint8_t *items, size_t items_len, size_t max_size, const char *wanted, size_t len, bool truncated)
{
    EXPECT(list(items, items_len, max_size, ROOM) == DNW_DONE);
    return result.len == len && result.truncated == truncated && memcmp(message, wanted, len) == 0;
}

#define WANTED(text) text, sizeof(text) - 1
#define ASKED "\000" QUESTION
#define RR(octet, owner) octet owner ADDRESS
#define NS_RR(octet) octet "\007example\003com\000" FIELDS("\002") "\000\021" WEB
#define PUT_NS "\300\020" FIELDS("\002") "\000\006\003web\300\020"
#define PUT_OPT "\000\000\051\004\320\000\000\000\000\000\000"
#define OPT_RR "\003" PUT_OPT
#define TSIG_FIELDS "\000\372\000\377\000\000\000\000\000\021" "\0\0\0\0\0\0\0\0\0\0\0\0\0\0\0\0\0"
#define KEY_DATA "\003key\000" TSIG_FIELDS
#define TSIG_RR "\003" KEY_DATA
#define PUT_A "\300\014" ADDRESS

static void writes_lists(void)
{
    EXPECT(lists(BYTES(""), 12, WANTED(HEADER("\000\000\000\000\000\000\000\000")), false));
    EXPECT(lists(BYTES(ASKED), ROOM, WANTED(HEADER("\000\001\000\000\000\000\000\000") QUESTION), false));
    EXPECT(lists(BYTES(ASKED RR("\001", WWW) RR("\001", WWW) NS_RR("\202") RR("\203", WEB) OPT_RR TSIG_RR), ROOM,
                 WANTED(HEADER("\000\001\000\002\000\001\000\003") QUESTION PUT_A PUT_A PUT_NS "\300\115" ADDRESS
                        PUT_OPT KEY_DATA),
                 false));
    /* names with pointers into the list */
    EXPECT(lists(BYTES(ASKED "\001\300\001" ADDRESS), ROOM, WANTED(HEADER("\000\001\000\001\000\000\000\000") QUESTION PUT_A), false));
}

/* A set is there whole, or not at all, and TC says so if it was to be there. */
static void leaves_sets_out(void)
{
#define TWO BYTES(ASKED RR("\001", WWW) RR("\001", WWW) RR("\001", WEB) NS_RR("\202") RR("\203", WEB) OPT_RR)
    /* 33, two addresses of 16, one of 20, NS 18, glue 16, OPT 11 */
    EXPECT(lists(TWO, 33 + 32 + 20 + 14 + 16 + 11, WANTED(HEADER("\000\001\000\003\000\001\000\002") QUESTION PUT_A PUT_A "\003web\300\020" ADDRESS
                      "\300\020" FIELDS("\002") "\000\002\300\101" "\300\101" ADDRESS PUT_OPT), false));
    EXPECT(lists(TWO, 33 + 32 + 20 + 14 + 15 + 11, WANTED(HEADER("\000\001\000\003\000\001\000\001") QUESTION PUT_A PUT_A "\003web\300\020" ADDRESS
                      "\300\020" FIELDS("\002") "\000\002\300\101" PUT_OPT), false));
    EXPECT(lists(TWO, 33 + 32 + 20 + 13 + 11, WANTED(HEADER("\000\001\000\003\000\000\000\001") QUESTION PUT_A PUT_A "\003web\300\020" ADDRESS
                      PUT_OPT), false));
    EXPECT(lists(TWO, 33 + 32 + 11, WANTED(CUT("\000\001\000\002\000\000\000\001") QUESTION PUT_A PUT_A PUT_OPT), true));
    /* one address of two is never there, and the set after it of its section is left out too, but not those of others */
    EXPECT(lists(TWO, 33 + 31 + 11, WANTED(CUT("\000\001\000\000\000\001\000\001") QUESTION PUT_NS PUT_OPT), true));
    EXPECT(lists(TWO, 33 + 17 + 11, WANTED(CUT("\000\001\000\000\000\000\000\001") QUESTION PUT_OPT), true));
    EXPECT(lists(TWO, 33 + 11, WANTED(CUT("\000\001\000\000\000\000\000\001") QUESTION PUT_OPT), true));
    EXPECT(list(TWO, 33 + 10, ROOM) == DNW_MESSAGE_TOO_LONG);
    EXPECT(list(TWO, ROOM, 33 + 10) == DNW_MESSAGE_TOO_LONG);
    EXPECT(list(TWO, ROOM, 33 + 11) == DNW_DONE && result.len == 44 && result.truncated && message[44] == 0x5A);
    /* records that are left out since an earlier set was are not looked into, but for TC */
    EXPECT(lists(BYTES(RR("\201", WWW) "\001\000" FIELDS("\001") "\000\000"), 12, WANTED(CUT("\000\000\000\000\000\000\000\000")), true));
    EXPECT(lists(BYTES(RR("\201", WWW) "\201\000" FIELDS("\001") "\000\000"), 12, WANTED(HEADER("\000\000\000\000\000\000\000\000")), false));
    EXPECT(list(BYTES("\001\000" FIELDS("\001") "\000\000"), 12, ROOM) == DNW_BAD_DATA);
    EXPECT(list(BYTES(OPT_RR), 22, ROOM) == DNW_MESSAGE_TOO_LONG);
    EXPECT(list(BYTES(OPT_RR), 23, 23) == DNW_DONE && result.len == 23);
    EXPECT(list(BYTES(""), ROOM, 11) == DNW_NO_ROOM);
    for (size_t most = 0; most < 12; most++)
        EXPECT(list(BYTES(""), most, ROOM) == DNW_MESSAGE_TOO_LONG);
}

/* The records of a set have owners that differ in case, and are there all or not at all (RFC 2181, section 5). */
static void takes_sets_without_case(void)
{
#define UPPER_WEB "\003wEb\007Example\003cOm\000"
#define MIXED BYTES(ASKED RR("\001", WEB) RR("\001", UPPER_WEB) RR("\001", WEB))
    EXPECT(list(MIXED, ROOM, ROOM) == DNW_DONE && !result.truncated && message[7] == 3);
    size_t len = result.len;
    for (size_t most = 33; most < len; most++)
        EXPECT(lists(MIXED, most, WANTED(CUT("\000\001\000\000\000\000\000\000") QUESTION), true));
}

/* Without a word of the caller, TC is set if the response lacks what RFC 2181, section 9, RFC 2308, RFC 4035, section 3.1, and RFC 9471
   require. */
static void knows_what_is_required(void)
{
#define SOA_RR(octet) octet "\007example\003com\000" FIELDS("\006") "\000\026" "\000\000" "\0\0\0\1\0\0\0\1\0\0\0\1\0\0\0\1\0\0\0\1"
#define NSEC_RR(octet) octet "\000" FIELDS("\057") "\000\004" "\000\000\001\100"
#define RRSIG_RR(octet, owner, type) octet owner FIELDS("\056") "\000\024" "\000" type "\010\000\000\000\000\000\000\000\000\002\000\000\000\001\000\007\000s"
#define COM_NS(octet) octet "\003com\000" FIELDS("\002") "\000\001\000"
#define ALIAS(octet) octet WWW FIELDS("\005") "\000\001\000"
    static const struct {
        const uint8_t *items;
        size_t len;
        bool truncated;
    } cases[] = {
        /* all answers */
        {BYTES(ASKED RR("\001", WWW)), true},
        {BYTES(ASKED RRSIG_RR("\001", WWW, "\001")), true},
        /* what denies or refers, and its signatures */
        {BYTES(ASKED SOA_RR("\002")), true},
        {BYTES(ASKED NSEC_RR("\002")), true},
        {BYTES(ASKED COM_NS("\002")), true},
        {BYTES(ASKED RRSIG_RR("\002", ROOT, "\057")), true},
        {BYTES(ASKED RRSIG_RR("\002", ROOT, "\002")), true},
        /* no glue without a cut, no addresses but those below it, and no signatures */
        {BYTES(ASKED RR("\003", WWW)), false},
        {BYTES(ASKED RRSIG_RR("\003", WWW, "\001")), false},
        /* by the word of the caller */
        {BYTES(ASKED RR("\041", WWW)), true},
        {BYTES(ASKED RR("\201", WWW)), false},
        {BYTES(ASKED SOA_RR("\042")), true},
        {BYTES(ASKED SOA_RR("\202")), false},
        {BYTES(ASKED RR("\043", WWW)), true},
        {BYTES(ASKED RR("\203", WWW)), false},
    };
    for (size_t i = 0; i < sizeof cases / sizeof *cases; i++)
        EXPECT(list(cases[i].items, cases[i].len, 33, ROOM) == DNW_DONE && result.len == 33 && result.truncated == cases[i].truncated);
    /* beside an answer that ends in data NS is extra information, with its signatures, and nothing else is */
#define ASKED_A "\000" WWW "\000\001\000\001" RR("\001", WWW)
#define PUT_ASKED_A WWW "\000\001\000\001" PUT_A
#define WITH_NS(type) ASKED_A COM_NS("\002") RRSIG_RR("\002", ROOT, type)
    EXPECT(lists(BYTES(WITH_NS("\002")), 49, WANTED(HEADER("\000\001\000\001\000\000\000\000") PUT_ASKED_A), false));
    EXPECT(lists(BYTES(WITH_NS("\057")), 49, WANTED(CUT("\000\001\000\001\000\000\000\000") PUT_ASKED_A), true));
    /* the signatures of NS that is there are not extra (RFC 4035, section 3.1.1): it goes with those that follow it */
#define SIGNED_NS "\002\000" FIELDS("\002") "\000\001\000" RRSIG_RR("\002", ROOT, "\002")
    for (size_t most = 49; most < 49 + 12 + 31; most++)
        EXPECT(lists(BYTES(ASKED_A SIGNED_NS), most, WANTED(HEADER("\000\001\000\001\000\000\000\000") PUT_ASKED_A), false));
    EXPECT(list(BYTES(ASKED_A SIGNED_NS), 49 + 12 + 31, ROOM) == DNW_DONE && result.len == 49 + 12 + 31 && !result.truncated);
    EXPECT(list(BYTES(WITH_NS("\002")), 66, ROOM) == DNW_DONE && result.len == 49 + 13 && result.truncated);
    EXPECT(list(BYTES(ASKED_A RRSIG_RR("\002", ROOT, "\002")), 49, ROOM) == DNW_DONE && result.len == 49 && result.truncated);
    EXPECT(list(BYTES(ASKED_A COM_NS("\202") RRSIG_RR("\002", ROOT, "\002")), 49, ROOM) == DNW_DONE && !result.truncated);
    EXPECT(list(BYTES("\000" WWW "\000\002\000\001" "\001" WWW FIELDS("\002") "\000\001\000" "\001" WEB FIELDS("\002") "\000\001\000" RRSIG_RR("\002", ROOT, "\002")),
                46, ROOM) == DNW_DONE && result.len == 46 && result.truncated);
    EXPECT(lists(BYTES(ASKED_A NSEC_RR("\002")), 49, WANTED(CUT("\000\001\000\001\000\000\000\000") PUT_ASKED_A), true));
    EXPECT(lists(BYTES(ASKED_A RR("\003", WEB)), 49, WANTED(HEADER("\000\001\000\001\000\000\000\000") PUT_ASKED_A), false));
    /* an answer of another type is no data, but for ANY */
    EXPECT(list(BYTES(ASKED ALIAS("\001") SOA_RR("\002")), 46, ROOM) == DNW_DONE && result.len == 46 && result.truncated);
    EXPECT(list(BYTES(ASKED ALIAS("\001") COM_NS("\002")), 46, ROOM) == DNW_DONE && result.len == 46 && result.truncated);
    EXPECT(list(BYTES("\000" WWW "\000\377\000\001" ALIAS("\001") COM_NS("\002")), 46, ROOM) == DNW_DONE && result.len == 46 && !result.truncated);
    /* glue at the cut and below it, but for case, and no signature of it (RFC 9471; RFC 4035, section 3.1.1) */
#define REFERS ASKED COM_NS("\002")
    static const struct {
        const uint8_t *items;
        size_t len;
        bool truncated;
    } glue[] = {
        {BYTES(REFERS RR("\003", WEB)), true},
        {BYTES(REFERS RR("\003", "\003COM\000")), true},
        {BYTES(REFERS "\003" WEB FIELDS("\034") "\000\020\0\0\0\0\0\0\0\0\0\0\0\0\0\0\0\1"), true},
        {BYTES(REFERS RR("\003", ROOT)), false},
        {BYTES(REFERS RR("\003", "\004xcom\000")), false},
        {BYTES(REFERS NSEC_RR("\003")), false},
        {BYTES(REFERS RRSIG_RR("\003", WEB, "\001")), false},
    };
    for (size_t i = 0; i < sizeof glue / sizeof *glue; i++)
        EXPECT(list(glue[i].items, glue[i].len, 46, ROOM) == DNW_DONE && result.len == 46 && result.truncated == glue[i].truncated);
    EXPECT(list(BYTES(ASKED_A COM_NS("\002") RR("\003", WEB)), 62, ROOM) == DNW_DONE && result.len == 62 && !result.truncated);
    /* data that lead below a cut are no answer, so the message refers to the cut; those of its zone are one */
#define LEADS(owner) "\000" WWW "\000\047\000\001" "\001\007example\003com\000" FIELDS("\047") "\000\005\003net\000" \
    "\002" owner FIELDS("\002") "\000\001\000" RR("\003", "\002ns" owner)
    EXPECT(list(BYTES(LEADS("\003net\000")), ROOM, ROOM) == DNW_DONE && !result.truncated);
    size_t len = result.len;
    for (size_t most = 33; most < len; most++)
        EXPECT(list(BYTES(LEADS("\003net\000")), most, ROOM) == DNW_DONE && result.truncated);
    for (size_t most = 50; most < len; most++)
        EXPECT(list(BYTES(LEADS("\003com\000")), most, ROOM) == DNW_DONE && !result.truncated && message[7] == 1);
}

/* If a part of a set is there and a part is left out, TC is set, wherever its records stand (RFC 2181, section 9), and whatever the
   caller says. A signature is never there without its set (RFC 4035, section 3.1.1). */
static void keeps_no_half_of_a_set(void)
{
#define AAAA_RR(octet, owner) octet owner FIELDS("\034") "\000\020\0\0\0\0\0\0\0\0\0\0\0\0\0\0\0\1"
#define APART(octet) ASKED_A RR(octet, WEB) AAAA_RR(octet, WEB) octet UPPER_WEB FIELDS("\001") "\000\004\300\000\002\002"
#define TWICE ASKED_A RR("\003", WEB) AAAA_RR("\003", WEB) RR("\003", UPPER_WEB)
#define SIGNED_LATER ASKED_A RRSIG_RR("\003", WEB, "\001") AAAA_RR("\003", WEB) RR("\003", WEB)
#define SIGNED_FIRST ASKED_A RR("\003", WEB) AAAA_RR("\003", WEB) RRSIG_RR("\003", WEB, "\001")
#define SIGNED_TWICE ASKED_A RRSIG_RR("\003", WEB, "\034") RR("\003", WEB) RRSIG_RR("\003", UPPER_WEB, "\034")
    static const struct {
        const uint8_t *items;
        size_t len;
        /* whether so many additional records are a part of a set */
        bool is_half[4];
    } cases[] = {
        {BYTES(APART("\003")), {false, true, true, false}},
        {BYTES(APART("\203")), {false, true, true, false}},
        {BYTES(SIGNED_LATER), {false, true, true, false}},
        /* what is left out is there already */
        {BYTES(TWICE), {false, false, false, false}},
        {BYTES(SIGNED_FIRST), {false, false, false, false}},
        {BYTES(SIGNED_TWICE), {false, false, false, false}},
    };
    for (size_t i = 0; i < sizeof cases / sizeof *cases; i++) {
        EXPECT(list(cases[i].items, cases[i].len, ROOM, ROOM) == DNW_DONE && !result.truncated && message[11] == 3);
        size_t len = result.len;
        for (size_t most = 49; most < len; most++)
            EXPECT(list(cases[i].items, cases[i].len, most, ROOM) == DNW_DONE && result.truncated == cases[i].is_half[message[11]]);
    }
    /* 4096 pairs of records are compared, and no more */
    static uint8_t items[4096], room[49 + 64 * 18];
    size_t len = sizeof ASKED_A - 1;
    memcpy(items, ASKED_A, len);
    for (unsigned i = 0; i < 129; i++, len += 5 + sizeof ADDRESS - 1) {
        const uint8_t owner[] = {3, 2, (uint8_t)i, 'x', 0};
        memcpy(items + len, owner, 5);
        memcpy(items + len + 5, ADDRESS, sizeof ADDRESS - 1);
    }
    for (size_t last = 0; last < 2; last++) {
        EXPECT(dnw_message_write(items, len - (1 - last) * (5 + sizeof ADDRESS - 1), ROOM * 4, 1, 0x8000, 0, false, 0, room, sizeof room, &result) == DNW_DONE);
        EXPECT(room[11] == 64 && result.truncated == (last == 1));
    }
}

/* A set that is taken back leaves nothing, so the message is as dnw_message_pack writes it: the names after the set stand as if it had
   not been tried. */
static void takes_sets_back(void)
{
#define TAKEN ASKED_A SIGNED_COM RR("\003", "\001x\003com\000") RR("\003", "\001y\003com\000")
#define SIGNED_COM COM_NS("\002") RRSIG_RR("\002", "\003com\000", "\002")
    uint8_t whole[ROOM], again[ROOM];
    EXPECT(list(BYTES(TAKEN), ROOM, ROOM) == DNW_DONE && !result.truncated);
    size_t len = result.len;
    memcpy(whole, message, len);
    for (size_t most = 49; most <= len; most++) {
        struct dnw_packed packed;
        EXPECT(dnw_message_pack(whole, len, (uint16_t)most, 0, again, sizeof again, &packed) == DNW_DONE);
        EXPECT(list(BYTES(TAKEN), most, ROOM) == DNW_DONE);
        EXPECT(packed.len == result.len && packed.truncated == result.truncated && memcmp(again, message, packed.len) == 0);
    }
}

/* A request is never cut, whatever its operation (RFC 2136, section 3.4.2), nor is a transfer (RFC 5936, section 2.2; RFC 1995, section 4).
   In a response to another operation every record is required. */
static void never_cuts_requests(void)
{
    static const uint16_t flags[] = {0, 0x0100, 0x2000, 0x2800};
    for (size_t i = 0; i < sizeof flags / sizeof *flags; i++) {
        for (size_t most = 12; most < 49; most++)
            for (unsigned octet = 1; octet < 256; octet = octet == 3 ? 129 : octet == 131 ? 256 : octet + 1) {
                uint8_t items[] = ASKED RR("\001", WWW);
                items[sizeof ASKED - 1] = (uint8_t)octet;
                struct dnw_packed found = {7, true};
                EXPECT(dnw_message_write(items, sizeof items - 1, most, 1, flags[i], 0, false, 0, message, ROOM, &found) == DNW_MESSAGE_TOO_LONG);
                EXPECT(found.len == 7 && found.truncated);
            }
        if (flags[i] & 0x7800) {
            EXPECT(dnw_message_write(BYTES(ASKED RR("\003", ROOT)), 33, 1, flags[i] | 0x8000, 0, false, 0, message, ROOM, &result) == DNW_DONE);
            EXPECT(result.len == 33 && result.truncated);
        }
    }
    /* half an UPDATE is another UPDATE: a prerequisite and 30 additions */
    static uint8_t update[1024];
    size_t len = sizeof ASKED - 1;
    memcpy(update, ASKED, len);
    for (uint8_t i = 0; i < 31; i++, len += 6 + sizeof ADDRESS - 1) {
        const uint8_t item[] = {i == 0 ? DNW_LIST_ANSWER : DNW_LIST_AUTHORITY, 3, 'h', 'a', i, 0};
        memcpy(update + len, item, 6);
        memcpy(update + len + 6, ADDRESS, sizeof ADDRESS - 1);
    }
    static uint8_t whole[1024], again[1024];
    EXPECT(dnw_message_write(update, len, sizeof whole, 7, 0x2800, 0, false, 0, whole, sizeof whole, &result) == DNW_DONE);
    size_t whole_len = result.len;
    EXPECT(whole_len > 512 && whole[9] == 30 && !result.truncated);
    const size_t sizes[] = {33, 100, 512, whole_len - 1};
    for (size_t i = 0; i < 4; i++) {
        EXPECT(dnw_message_write(update, len, sizes[i], 7, 0x2800, 0, false, 0, again, sizeof again, &result) == DNW_MESSAGE_TOO_LONG);
        EXPECT(dnw_message_pack(whole, whole_len, (uint16_t)sizes[i], 0, again, sizeof again, &result) == DNW_MESSAGE_TOO_LONG);
    }
#define TRANSFER(type) BYTES("\000" ROOT "\000" type "\000\001" RR("\001", ROOT) RR("\003", ROOT))
    for (size_t most = 12; most < 17 + 15 + 15; most++) {
        EXPECT(list(TRANSFER("\374"), most, ROOM) == DNW_MESSAGE_TOO_LONG);
        EXPECT(list(TRANSFER("\373"), most, ROOM) == DNW_MESSAGE_TOO_LONG);
        EXPECT(list(TRANSFER("\001"), most, ROOM) == (most < 17 ? DNW_MESSAGE_TOO_LONG : DNW_DONE));
    }
    EXPECT(list(TRANSFER("\374"), 47, ROOM) == DNW_DONE && result.len == 47 && !result.truncated);
}

/* A list with an OPT record is padded to a multiple of a block, with the signature after it; and not without room. */
static void pads_lists(void)
{
#define DNW_PADS(items, block, most) dnw_message_write(BYTES(items), most, 1, 0x8000, 0, false, block, message, ROOM, &result)
#define KEYED ASKED_A OPT_RR "\003" WWW TSIG_FIELDS
    static const uint16_t blocks[] = {0, 1, 32, 128, 468, 512, 600};
    for (size_t i = 0; i < sizeof blocks / sizeof *blocks; i++) {
        size_t block = blocks[i] > 512 ? 512 : blocks[i];
        EXPECT(DNW_PADS(ASKED_A OPT_RR, blocks[i], ROOM) == DNW_DONE && !result.truncated);
        EXPECT(block == 0 ? result.len == 49 + 11 : result.len % block == 0 && result.len >= 49 + 15);
        EXPECT(DNW_PADS(KEYED, blocks[i], ROOM) == DNW_DONE && !result.truncated);
        EXPECT(block == 0 ? result.len == 49 + 11 + 44 : result.len % block == 0 && result.len >= 49 + 15 + 44);
        EXPECT(memcmp(message + result.len - 44, WWW "\000\372", 19) == 0);
        /* no option without room for it, and none without OPT */
        EXPECT(DNW_PADS(KEYED, blocks[i], 49 + 11 + 44) == DNW_DONE && result.len == 49 + 11 + 44 && !result.truncated);
        EXPECT(DNW_PADS(ASKED_A, blocks[i], ROOM) == DNW_DONE && result.len == 49);
    }
    EXPECT(DNW_PADS(ASKED_A OPT_RR, 64, ROOM) == DNW_DONE && result.len == 64);
    EXPECT(memcmp(message + 49, "\000\000\051\004\320\000\000\000\000\000\004\000\014\000\000", 15) == 0);
    /* the bits of the OPT record are kept, but for those of the response code, and options that are cut fail */
#define SAYING "\003\000\000\051\002\000\001\002\200\000\000\000"
    EXPECT(DNW_PADS(SAYING, 1, ROOM) == DNW_DONE && memcmp(message + 12, "\000\000\051\002\000\000\002\200\000\000\004\000\014\000\000", 15) == 0);
    EXPECT(DNW_PADS("\003\000\000\051\002\000\000\000\000\000\000\001\007", 1, ROOM) == DNW_CUT_OPTION);
}

/* OPT and then a signature come last, wherever they stand among the additional records, and there is one of each at most (RFC 6891,
   section 6.1.1; RFC 8945, section 5.1; RFC 2931, section 3). A SIG that covers a type is a record like others. */
static void puts_signatures_last(void)
{
#define SIG_RR(type) "\003" SIG_PUT(type)
#define SIG_PUT(type) "\000\000\030\000\377\000\000\000\000\000\024" type "\010\000\000\000\000\000\000\000\000\002\000\000\000\001\000\007\000s"
    static const struct {
        const uint8_t *items;
        size_t len;
    } same[] = {
        {BYTES(ASKED RR("\003", WEB) OPT_RR TSIG_RR)},
        {BYTES(ASKED TSIG_RR OPT_RR RR("\003", WEB))},
        {BYTES(ASKED OPT_RR RR("\003", WEB) TSIG_RR)},
        {BYTES(ASKED "\043" KEY_DATA RR("\003", WEB) "\203" PUT_OPT)},
    };
    uint8_t first[ROOM];
    size_t len = 0;
    for (size_t i = 0; i < sizeof same / sizeof *same; i++)
        for (size_t most = 33 + 11 + 32; most < ROOM; most++) {
            EXPECT(list(same[i].items, same[i].len, most, ROOM) == DNW_DONE && result.len <= most);
            if (most == ROOM - 1 && i == 0)
                memcpy(first, message, len = result.len);
        }
    for (size_t i = 0; i < sizeof same / sizeof *same; i++) {
        EXPECT(list(same[i].items, same[i].len, ROOM, ROOM) == DNW_DONE && result.len == len && memcmp(message, first, len) == 0);
        EXPECT(list(same[i].items, same[i].len, 33 + 11 + 31, ROOM) == DNW_MESSAGE_TOO_LONG);
    }
    /* one that covers a type stands where it is, and makes no set with a SIG(0) */
    EXPECT(lists(BYTES(SIG_RR("\000\001") SIG_RR("\000\000") SIG_RR("\000\002")), ROOM,
                 WANTED(HEADER("\000\000\000\000\000\000\000\003") SIG_PUT("\000\001") SIG_PUT("\000\002") SIG_PUT("\000\000")), false));
    EXPECT(list(BYTES(TSIG_RR TSIG_RR), ROOM, ROOM) == DNW_BAD_ITEM);
    EXPECT(list(BYTES(TSIG_RR SIG_RR("\000\000")), ROOM, ROOM) == DNW_BAD_ITEM);
    EXPECT(list(BYTES(SIG_RR("\000\000") TSIG_RR), ROOM, ROOM) == DNW_BAD_ITEM);
    EXPECT(list(BYTES(OPT_RR OPT_RR), ROOM, ROOM) == DNW_DUPLICATE_EDNS);
    EXPECT(list(BYTES("\003\001a\000\000\051\004\320\000\000\000\000\000\000"), ROOM, ROOM) == DNW_OWNER_NOT_ROOT);
    EXPECT(list(BYTES("\003\000\000\051\004\320\000\000\000\000\000\001\007"), ROOM, ROOM) == DNW_CUT_OPTION);
}

/* A code above 15 needs OPT, which has its high bits (RFC 6891, section 6.1.3). A reply with FORMERR, NOTIMP or BADVERS has no records but
   those that come last, and no TC. */
static void writes_codes(void)
{
#define CODED(items, code, is_reply) dnw_message_write(BYTES(items), ROOM, 1, 0x800F, code, is_reply, 0, message, ROOM, &result)
    for (uint16_t code = 0; code < 4200; code++) {
        EXPECT(CODED(ASKED_A, code, false) == (code > 15 ? DNW_BAD_ITEM : DNW_DONE));
        if (code < 16)
            EXPECT(message[3] == code);
        EXPECT(CODED(ASKED_A OPT_RR, code, false) == (code > 4095 ? DNW_BAD_ITEM : DNW_DONE));
        if (code < 4096)
            EXPECT(message[3] == code % 16 && message[49 + 5] == code / 16 && message[7] == 1);
        bool is_bare = code == 1 || code == 4 || code == 16;
        EXPECT(CODED(ASKED_A RR("\003", WEB) OPT_RR TSIG_RR, code, true) == (code > 4095 ? DNW_BAD_ITEM : DNW_DONE));
        if (code < 4096)
            EXPECT(message[7] == !is_bare && message[11] == (is_bare ? 2 : 3) && !result.truncated);
    }
}

static void refuses_lists(void)
{
    EXPECT(list(BYTES("\004"), ROOM, ROOM) == DNW_BAD_ITEM);
    EXPECT(list(BYTES("\000"), ROOM, ROOM) == DNW_BAD_ITEM);
    EXPECT(list(BYTES("\000\000\000\001\000"), ROOM, ROOM) == DNW_BAD_ITEM);
    EXPECT(list(BYTES("\000\100\000\001\000\001"), ROOM, ROOM) == DNW_BAD_ITEM);
    for (unsigned octet = 4; octet < 256; octet++) {
        uint8_t items[] = {(uint8_t)octet, 0, 255, 0, 0, 1, 0, 0, 0, 0, 0, 0};
        bool is_known = (octet >= 33 && octet <= 35) || (octet >= 129 && octet <= 131);
        EXPECT(list(items, sizeof items, ROOM, ROOM) == (is_known ? DNW_DONE : DNW_BAD_ITEM));
        EXPECT(list(items, sizeof items - 1, ROOM, ROOM) == DNW_BAD_ITEM);
    }
    /* the order */
    EXPECT(list(BYTES(RR("\001", ROOT) ASKED), ROOM, ROOM) == DNW_BAD_ITEM);
    EXPECT(list(BYTES(RR("\202", ROOT) RR("\001", ROOT)), ROOM, ROOM) == DNW_BAD_ITEM);
    EXPECT(list(BYTES(RR("\003", ROOT) RR("\202", ROOT)), ROOM, ROOM) == DNW_BAD_ITEM);
    EXPECT(list(BYTES(OPT_RR "\000"), ROOM, 0) == DNW_BAD_ITEM);
    /* a second OPT record */
    EXPECT(list(BYTES(OPT_RR OPT_RR), ROOM, ROOM) == DNW_DUPLICATE_EDNS);
    EXPECT(list(BYTES("\003" PUT_OPT OPT_RR), ROOM, ROOM) == DNW_DUPLICATE_EDNS);
    EXPECT(list(BYTES("\003" PUT_OPT "\203" PUT_OPT), ROOM, ROOM) == DNW_DUPLICATE_EDNS);
}

int main(void)
{
    begins();
    appends();
    compresses_data();
    minds_the_order();
    refuses_names();
    holds_back();
    adds_sets();
    puts_edns();
    keeps_one_opt();
    begins_replies();
    takes_codes();
    replies_by_edns();
    fills();
    begins_queries();
    takes_any_writer();
    ends_at_65535_octets();
    writes_lists();
    leaves_sets_out();
    takes_sets_without_case();
    knows_what_is_required();
    keeps_no_half_of_a_set();
    takes_sets_back();
    never_cuts_requests();
    pads_lists();
    puts_signatures_last();
    writes_codes();
    refuses_lists();
    return 0;
}
