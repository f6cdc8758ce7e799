/* Calls each function of dns_names_wire.h for texts of records with good and with bad input. It prints nothing if all is
   well, and exits with 1 at the first result that is not the expected one. Expected values are worked by hand from RFC 1035,
   sections 4.1 and 5.1, and RFC 3597, section 5. */
#include "dns_names_wire.h"
#include "expect.h"
#include "message.h"

/* A message: a question for www.example.com at offset 12, its authority NS at 33, the glue at 50, an OPT record at 66, an MX
   whose data are cut at 83, and a text of two strings at 95. */
#define COUNTS "\000\001\000\000\000\001\000\004"
#define WWW "\003www\007example\003com\000"
#define TTL "\000\002\243\000"
#define NS "\300\020\000\002\000\001" TTL "\000\005\002ns\300\020"
#define GLUE "\300\055\000\001\000\001" TTL "\000\004\300\000\002\001"
#define OPT "\000\000\051\004\320\001\000\200\000\000\006\000\012\000\002\253\315"
#define CUT_MX "\000\000\017\000\001\000\000\000\000\000\001\005"
#define TXT "\001.\000\000\020\000\003\000\000\000\012\000\010\003a\"b\003c d"

static const char sample[] = "\022\064\205\247" COUNTS WWW "\000\001\000\001" NS GLUE OPT CUT_MX TXT;

static uint8_t text[300];

/* Prints a record into so many bytes. What is not written is unchanged. */
static uint32_t print(size_t start, size_t size, struct dnw_printed_record *printed)
{
    memset(text, '?', sizeof text);
    *printed = (struct dnw_printed_record){7, 7};
    uint32_t answer = dnw_record_print(BYTES(sample), start, text, size, printed);
    if (answer != DNW_DONE)
        EXPECT(text[0] == '?' && printed->len == 7 && printed->end == 7);
    else
        EXPECT(text[printed->len] == '?');
    return answer;
}

static bool prints(size_t start, size_t end, const char *wanted)
{
    struct dnw_printed_record printed;
    size_t len = strlen(wanted);
    EXPECT(print(start, len - 1, &printed) == DNW_NO_ROOM);
    EXPECT(print(start, len, &printed) == DNW_DONE);
    return printed.len == len && printed.end == end && memcmp(text, wanted, len) == 0;
}

static void prints_records(void)
{
    EXPECT(sizeof sample - 1 == 116);
    EXPECT(prints(33, 50, "example.com. 172800 IN NS ns.example.com."));
    EXPECT(prints(50, 66, "ns.example.com. 172800 IN A 192.0.2.1"));
    EXPECT(prints(66, 83, ". 16809984 CLASS1232 OPT \\# 6 000A0002ABCD"));
    EXPECT(prints(83, 95, ". 0 IN MX \\# 1 05"));
    EXPECT(prints(95, 116, "\\.. 10 CH TXT \"a\\\"b\" \"c d\""));
    struct dnw_printed_record printed;
    EXPECT(print(sizeof sample - 1, sizeof text, &printed) == DNW_MESSAGE_CUT);
    EXPECT(print(sizeof sample, sizeof text, &printed) == DNW_MESSAGE_CUT);
    EXPECT(print((size_t)-1, sizeof text, &printed) == DNW_MESSAGE_CUT);
    EXPECT(print(3, sizeof text, &printed) == DNW_RESERVED_OCTET);
    make_message();
    EXPECT(dnw_record_print(message, sizeof message, 0, text, sizeof text, &printed) == DNW_POINTER_NOT_BACK);
}

/* Parses a line or data into so many bytes. What is not written is unchanged. */
struct input {
    uint16_t type; /* of data, or 0 for a line */
    const char *text;
    const char *origin;
    size_t origin_len;
};

static uint32_t parse(struct input input, size_t size, size_t *len)
{
    const uint8_t *line = (const uint8_t *)input.text, *origin = (const uint8_t *)input.origin;
    memset(text, '?', sizeof text);
    *len = 7;
    uint32_t answer = input.type == 0
                          ? dnw_record_parse(line, strlen(input.text), origin, input.origin_len, text, size, len)
                          : dnw_data_parse(input.type, DNW_CLASS_IN, line, strlen(input.text), origin, input.origin_len, text, size, len);
    if (answer != DNW_DONE)
        EXPECT(text[0] == '?' && *len == 7);
    else
        EXPECT(text[*len] == '?');
    return answer;
}

static bool gives(struct input input, const char *wanted, size_t wanted_len)
{
    size_t len;
    if (wanted_len > 0)
        EXPECT(parse(input, wanted_len - 1, &len) == DNW_NO_ROOM);
    EXPECT(parse(input, wanted_len, &len) == DNW_DONE);
    return len == wanted_len && memcmp(text, wanted, len) == 0;
}

static uint32_t fails(struct input input)
{
    size_t len;
    return parse(input, sizeof text - 1, &len);
}

#define LINE(line) ((struct input){0, line, "", 0})
#define BELOW(line, origin) ((struct input){0, line, origin, sizeof(origin) - 1})
#define DATA(type, line) ((struct input){type, line, "", 0})
#define DATA_BELOW(type, line, origin) ((struct input){type, line, origin, sizeof(origin) - 1})
#define OCTETS(octets) octets, sizeof(octets) - 1
#define COM "\007example\003com\000"
#define NS_OF_COM COM "\000\002\000\001" TTL "\000\020\002ns" COM
#define A_OF(owner, class, ttl) owner "\000\001\000" class ttl "\000\004\300\000\002\001"

/* Where a line or data go wrong. */
static bool goes_wrong(struct input input, size_t offset, size_t len, size_t field, uint32_t reason)
{
    const uint8_t *line = (const uint8_t *)input.text, *origin = (const uint8_t *)input.origin;
    struct dnw_text_fault fault = {7, 7, 7, 7};
    size_t put;
    if (input.type == 0)
        EXPECT(dnw_record_text_fault(line, strlen(input.text), origin, input.origin_len, &fault) == DNW_DONE);
    else
        EXPECT(dnw_data_text_fault(input.type, DNW_CLASS_IN, line, strlen(input.text), origin, input.origin_len, &fault) == DNW_DONE);
    EXPECT((parse(input, sizeof text - 1, &put) == DNW_DONE) == (reason == DNW_REASON_NONE));
    return fault.offset == offset && fault.len == len && fault.field == field && fault.reason == reason;
}

static bool says(struct dnw_text_fault fault, const char *sentence)
{
    size_t len = 7;
    memset(text, '?', sizeof text);
    if (*sentence != 0)
        EXPECT(dnw_text_fault_print(&fault, text, strlen(sentence) - 1, &len) == DNW_NO_ROOM && len == 7 && text[0] == '?');
    EXPECT(dnw_text_fault_print(&fault, text, strlen(sentence), &len) == DNW_DONE);
    return len == strlen(sentence) && memcmp(text, sentence, len) == 0 && text[len] == '?';
}

/* What is printed above is the record again, with whole names. */
static void parses_what_is_printed(void)
{
    EXPECT(gives(LINE("example.com. 172800 IN NS ns.example.com."), OCTETS(NS_OF_COM)));
    EXPECT(gives(LINE("ns.example.com. 172800 IN A 192.0.2.1"), OCTETS(A_OF("\002ns" COM, "\001", TTL))));
    EXPECT(gives(LINE(". 16809984 CLASS1232 OPT \\# 6 000A0002ABCD"), OCTETS(OPT)));
    EXPECT(fails(LINE(". 0 IN MX \\# 1 05")) == DNW_BAD_DATA);
    EXPECT(gives(LINE("\\.. 10 CH TXT \"a\\\"b\" \"c d\""), OCTETS(TXT)));
    EXPECT(gives(LINE("\\.. 10 CH TXT ( \"a\\\"b\" ( \"c d\" ) )"), OCTETS(TXT)));
}

static void parses_records(void)
{
    EXPECT(gives(BELOW("@ 172800 NS ns", COM), OCTETS(NS_OF_COM)));
    EXPECT(gives(BELOW("@\tin 2d ns \t ns.example.com.\r\n", COM), OCTETS(NS_OF_COM)));
    EXPECT(gives(BELOW("a 1h1s HS a \\# 4 c0000201", COM), OCTETS(A_OF("\001a" COM, "\004", "\000\000\016\021"))));
    EXPECT(gives(BELOW("a 0 CLASS5 TYPE1 \\# 4 C0 000201", "\000"), OCTETS(A_OF("\001a\000", "\005", "\000\000\000\000"))));
    EXPECT(gives(LINE("\\0650. 4294967295 TYPE65280 \\# 0"), OCTETS("\002A0\000\377\000\000\001\377\377\377\377\000\000")));
    EXPECT(gives(LINE(". 0 IN uri 10 1 \"x\""), OCTETS("\000\001\000\000\001\000\000\000\000\000\005\000\012\000\001\170")));
    /* comments, and parentheses over lines */
    EXPECT(gives(LINE("a. 60 IN TXT ( \"v=DKIM1; k=rsa; \" ; the key\n \"p=ab\" )"),
                 OCTETS("\001a\000\000\020\000\001\000\000\000\074\000\026\020v=DKIM1; k=rsa; \004p=ab")));
    EXPECT(gives(LINE("a. 60 IN MX 1 a.;b\n"), OCTETS("\001a\000\000\017\000\001\000\000\000\074\000\005\000\001\001a\000")));
    /* strings are binary (RFC 1035, section 3.3): an octet stands for itself, in quotes or not */
    EXPECT(gives(LINE(". 0 IN TXT \"\351\" \200"), OCTETS("\000\000\020\000\001\000\000\000\000\000\004\001\351\001\200")));
    EXPECT(gives(DATA(DNW_TYPE_CAA, "0 a \351"), OCTETS("\000\001a\351")));
    EXPECT(gives(DATA(DNW_TYPE_SVCB, "1 . key9=\"\351\""), OCTETS("\000\001\000\000\011\000\001\351")));
    /* the keys that `mandatory` lists are there (RFC 9460, section 8), and `*` is no type and no class of a record (RFC 1035,
       sections 3.2.3 and 3.2.5) */
    EXPECT(gives(DATA(DNW_TYPE_SVCB, "1 . key9 mandatory=key9"), OCTETS("\000\001\000\000\000\000\002\000\011\000\011\000\000")));
    EXPECT(gives(DATA(DNW_TYPE_WKS, "10.0.0.1 TCP 80 smtp"), OCTETS("\012\000\000\001\006\000\000\000\100\000\000\000\000\000\000\200")));
    EXPECT(gives(DATA(DNW_TYPE_NXT, "b. A MX SIG NXT"), OCTETS("\001b\000\100\001\000\202")));
    EXPECT(fails(DATA(DNW_TYPE_SVCB, "1 . mandatory=key9")) == DNW_BAD_DATA);
    EXPECT(fails(DATA(DNW_TYPE_SVCB, "1 . key0=\"\\000\\011\"")) == DNW_BAD_DATA);
    EXPECT(fails(DATA(DNW_TYPE_NSEC, ". *")) == DNW_BAD_DATA);
    EXPECT(fails(LINE(". 0 IN * \\# 0")) == DNW_UNKNOWN_TEXT);
    EXPECT(fails(LINE(". 0 * A 192.0.2.1")) == DNW_UNKNOWN_TEXT);
    /* what a server is asked to add for any class */
    EXPECT(gives(LINE(". 0 ANY ANY \\# 0"), OCTETS("\000\000\377\000\377\000\000\000\000\000\000")));
}

static void refuses_records(void)
{
    EXPECT(fails(LINE("")) == DNW_BAD_TEXT);
    EXPECT(fails(LINE(" a. 300 IN A 192.0.2.1")) == DNW_BAD_TEXT);
    EXPECT(fails(LINE("a 300 IN A 192.0.2.1")) == DNW_BAD_TEXT);
    EXPECT(fails(LINE("@ 300 IN A 192.0.2.1")) == DNW_BAD_TEXT);
    EXPECT(fails(LINE("a..b. 300 IN A 192.0.2.1")) == DNW_BAD_TEXT);
    EXPECT(fails(LINE("a.")) == DNW_BAD_TIME);
    EXPECT(fails(LINE("a. IN A 192.0.2.1")) == DNW_BAD_TIME);
    EXPECT(fails(LINE("a. A 192.0.2.1")) == DNW_BAD_TIME);
    EXPECT(fails(LINE("a. 4294967296 IN A 192.0.2.1")) == DNW_BAD_TIME);
    EXPECT(fails(LINE("a. IN IN 300 A 192.0.2.1")) == DNW_BAD_TIME);
    EXPECT(fails(LINE("a. 300")) == DNW_UNKNOWN_TEXT);
    EXPECT(fails(LINE("a. 300 IN")) == DNW_UNKNOWN_TEXT);
    EXPECT(fails(LINE("a. 300 IN B 192.0.2.1")) == DNW_UNKNOWN_TEXT);
    EXPECT(fails(LINE("a. IN 300 IN A 192.0.2.1")) == DNW_UNKNOWN_TEXT);
    EXPECT(fails(LINE("a. 300 IN A")) == DNW_BAD_DATA);
    EXPECT(fails(LINE("a. 300 IN A 192.0.2.256")) == DNW_BAD_DATA);
    EXPECT(fails(LINE("a. 300 IN A 192.0.2.1 0")) == DNW_BAD_DATA);
    EXPECT(fails(LINE("a. 300 IN NS ns")) == DNW_BAD_DATA);
    EXPECT(fails(LINE("a. 300 IN A 192.0.2.1\377")) == DNW_BAD_DATA);
    EXPECT(fails(LINE("a. 300 IN TXT ( b\n c")) == DNW_UNCLOSED_LIST);
    EXPECT(fails(LINE("a. 300 IN TXT b )")) == DNW_ILLEGAL_CHARACTER);
    EXPECT(fails(LINE("a. 300 IN TXT \"b")) == DNW_UNCLOSED_QUOTE);
    EXPECT(fails(LINE("a. 300 IN TXT b\\")) == DNW_TEXT_CUT);
    EXPECT(fails(LINE("a. 300 IN TXT b\nb. 300 IN TXT c")) == DNW_BAD_DATA);
    EXPECT(fails(BELOW("a 300 IN A 192.0.2.1", "\001")) == DNW_MESSAGE_CUT);
    EXPECT(fails(BELOW("a 300 IN A 192.0.2.1", "\300\000")) == DNW_POINTER_NOT_BACK);
    EXPECT(fails(BELOW("\377", "\000\000")) == DNW_BYTES_LEFT);
}

static void parses_data(void)
{
    EXPECT(gives(DATA(DNW_TYPE_A, "192.0.2.1"), OCTETS("\300\000\002\001")));
    EXPECT(gives(DATA(DNW_TYPE_AAAA, " 2001:db8::1 "), OCTETS("\040\001\015\270\0\0\0\0\0\0\0\0\0\0\0\001")));
    EXPECT(gives(DATA_BELOW(DNW_TYPE_MX, "10 mail", COM), OCTETS("\000\012\004mail" COM)));
    EXPECT(gives(DATA_BELOW(DNW_TYPE_CNAME, "@", COM), OCTETS(COM)));
    EXPECT(gives(DATA(DNW_TYPE_TXT, "a \"b c\" \\100"), OCTETS("\001a\003b c\001d")));
    EXPECT(gives(DATA(DNW_TYPE_MX, "\\# 3 000500"), OCTETS("\000\005\000")));
    EXPECT(gives(DATA(65280, "\\# 0"), OCTETS("")));
    EXPECT(gives(DATA(DNW_TYPE_NSEC, "b. A RP LOC"), OCTETS("\001\142\000\000\004\100\000\100\004")));
    /* times of SOA with units, algorithms and types of certificates by their mnemonics, words that end at quotes */
    EXPECT(gives(DATA(DNW_TYPE_SOA, ". . 1 2h 1h 2w 5m"),
                 OCTETS("\000\000\0\0\0\001\0\0\034\040\0\0\016\020\0\022\165\0\0\0\001\054")));
    EXPECT(gives(DATA(DNW_TYPE_DS, "1 RSASHA256 2 00"), OCTETS("\000\001\010\002\000")));
    EXPECT(gives(DATA(DNW_TYPE_CERT, "PKIX 1 ed25519 AQ=="), OCTETS("\000\001\000\001\017\001")));
    EXPECT(gives(DATA(DNW_TYPE_TXT, "a\"b c\"d"), OCTETS("\001a\003b c\001d")));
    EXPECT(gives(DATA(DNW_TYPE_TXT, "\"a\" ; comment"), OCTETS("\001a")));
    EXPECT(gives(DATA(DNW_TYPE_DS, "\\# 4 00010802"), OCTETS("\000\001\010\002")));
    EXPECT(gives(DATA(DNW_TYPE_CDS, "0 0 0 00"), OCTETS("\000\000\000\000\000")));
    EXPECT(gives(DATA(DNW_TYPE_IPSECKEY, "10 0 2 ."), OCTETS("\012\000\002")));
    EXPECT(gives(DATA(DNW_TYPE_RRSIG, "A 5 0 0 21060207062816 0 1 . AA=="),
                 OCTETS("\000\001\005\000\000\000\000\000\000\000\000\000\000\000\000\000\000\001\000\000")));
    EXPECT(gives(DATA(DNW_TYPE_HTTPS, "1 . ohttp dohpath=/q{?dns}"),
                 OCTETS("\000\001\000\000\007\000\010/q{?dns}\000\010\000\000")));
    EXPECT(gives(DATA(DNW_TYPE_MX, "1 a.;b"), OCTETS("\000\001\001a\000")));
    EXPECT(gives(DATA(DNW_TYPE_MX, "( 1 ; (\n a. )\n"), OCTETS("\000\001\001a\000")));
}

static void refuses_data(void)
{
    EXPECT(fails(DATA(DNW_TYPE_A, "")) == DNW_BAD_DATA);
    EXPECT(fails(DATA(DNW_TYPE_A, "192.0.2")) == DNW_BAD_DATA);
    EXPECT(fails(DATA(DNW_TYPE_DS, "1 8 2")) == DNW_BAD_DATA);
    EXPECT(fails(DATA(DNW_TYPE_DNSKEY, "256 3 5")) == DNW_BAD_DATA);
    EXPECT(fails(DATA(DNW_TYPE_OPENPGPKEY, "")) == DNW_BAD_DATA);
    EXPECT(fails(DATA(DNW_TYPE_A, "\\# 4 010 20304")) == DNW_BAD_DATA);
    EXPECT(fails(DATA(DNW_TYPE_MX, "65536 .")) == DNW_BAD_DATA);
    EXPECT(fails(DATA(DNW_TYPE_CNAME, "a")) == DNW_BAD_DATA);
    EXPECT(fails(DATA(65280, "00")) == DNW_BAD_DATA);
    EXPECT(fails(DATA(65280, "\\# 2 00")) == DNW_BAD_DATA);
    /* in the form of any data too, only data of the type are taken, without pointers */
    EXPECT(fails(DATA(DNW_TYPE_NS, "\\# 2 C00C")) == DNW_BAD_DATA);
    EXPECT(fails(DATA(DNW_TYPE_A, "\\# 3 010203")) == DNW_BAD_DATA);
    EXPECT(fails(DATA(DNW_TYPE_MX, "\\# 1 00")) == DNW_BAD_DATA);
    EXPECT(fails(DATA(DNW_TYPE_A, "\\# 0")) == DNW_BAD_DATA);
    EXPECT(fails(DATA(DNW_TYPE_TXT, "\303(")) == DNW_UNCLOSED_LIST);
    EXPECT(fails(DATA_BELOW(DNW_TYPE_A, "192.0.2.1", "\100")) == DNW_RESERVED_OCTET);
    EXPECT(fails(DATA_BELOW(DNW_TYPE_A, "\377", "\000.")) == DNW_BYTES_LEFT);
    EXPECT(fails(DATA(DNW_TYPE_MX, "1 (")) == DNW_UNCLOSED_LIST);
    EXPECT(fails(DATA(DNW_TYPE_MX, "1 a.)")) == DNW_ILLEGAL_CHARACTER);
    EXPECT(fails(DATA(DNW_TYPE_MX, "1 a.\n2")) == DNW_BAD_DATA);
    EXPECT(fails(DATA(DNW_TYPE_NS, "\"a.\"")) == DNW_BAD_DATA);
    EXPECT(fails(DATA(DNW_TYPE_SOA, ". . 1h 2 3 4 5")) == DNW_BAD_DATA);
    EXPECT(fails(DATA(DNW_TYPE_SOA, ". . 1 2 3 4 1d1")) == DNW_BAD_DATA);
}

static void finds_faults(void)
{
    EXPECT(goes_wrong(LINE("a. 300 IN MX 1 b."), 0, 0, 0, DNW_REASON_NONE));
    EXPECT(goes_wrong(DATA(DNW_TYPE_A, "192.0.2.1"), 0, 0, 0, DNW_REASON_NONE));
    EXPECT(goes_wrong(LINE(""), 0, 0, 0, DNW_REASON_NO_OWNER));
    EXPECT(goes_wrong(LINE("a..b. 300 IN A 192.0.2.1"), 0, 5, 0, DNW_REASON_NO_OWNER));
    EXPECT(goes_wrong(LINE("a. A 192.0.2.1"), 3, 1, 0, DNW_REASON_NO_TIME_TO_LIVE));
    EXPECT(goes_wrong(LINE("a. 300 IN BB 192.0.2.1"), 10, 2, 0, DNW_REASON_NO_TYPE));
    EXPECT(goes_wrong(LINE("a. 300 IN"), 9, 0, 0, DNW_REASON_NO_TYPE));
    EXPECT(goes_wrong(LINE("a. 300 IN MX 1 b"), 15, 1, 1, DNW_REASON_NAME));
    EXPECT(goes_wrong(LINE("a. 300 IN MX ( ; 1\n 65536 b. )"), 20, 5, 0, DNW_REASON_U16));
    EXPECT(goes_wrong(LINE("a. 300 IN A 192.0.2.1 ( 0 )"), 24, 1, 1, DNW_REASON_END));
    EXPECT(goes_wrong(LINE("a. 300 IN A 192.0.2.1\377"), 12, 10, 0, DNW_REASON_IPV4));
    EXPECT(goes_wrong(LINE("a. 300 IN A \\# 3 010203"), 17, 6, 1, DNW_REASON_DATA));
    EXPECT(goes_wrong(LINE("a. 300 IN A \\# 4 010203"), 17, 6, 1, DNW_REASON_OCTETS));
    EXPECT(goes_wrong(LINE("a. 300 IN TXT ( b\n c"), 14, 0, 0, DNW_REASON_UNCLOSED_PARENTHESIS));
    EXPECT(goes_wrong(LINE("a. 300 IN TXT b )"), 16, 0, 0, DNW_REASON_UNOPENED_PARENTHESIS));
    EXPECT(goes_wrong(LINE("a. 300 IN TXT \"b"), 14, 2, 0, DNW_REASON_UNCLOSED_QUOTE));
    EXPECT(goes_wrong(LINE("a. 300 IN TXT b\\"), 16, 0, 0, DNW_REASON_UNFINISHED_ESCAPE));
    EXPECT(goes_wrong(LINE("a. 300 IN TXT b\nb. 300 IN TXT c"), 15, 0, 0, DNW_REASON_MORE_ENTRIES));
    EXPECT(goes_wrong(DATA(DNW_TYPE_SOA, ". . 1 2 3 4 1d1"), 12, 3, 6, DNW_REASON_PERIOD));
    EXPECT(goes_wrong(DATA(DNW_TYPE_MX, "1 ("), 3, 0, 0, DNW_REASON_UNCLOSED_PARENTHESIS));
    EXPECT(goes_wrong(DATA_BELOW(DNW_TYPE_MX, "1 b c", COM), 4, 1, 2, DNW_REASON_END));
    EXPECT(goes_wrong(DATA(65280, "00"), 0, 2, 0, DNW_REASON_GENERIC));
    EXPECT(goes_wrong(DATA(DNW_TYPE_WKS, "10.0.0.1 xyz 25"), 9, 3, 1, DNW_REASON_PROTOCOL));
    EXPECT(goes_wrong(DATA(DNW_TYPE_WKS, "10.0.0.1 TCP 25 65536"), 13, 2, 2, DNW_REASON_PORTS));
    EXPECT(goes_wrong(DATA(DNW_TYPE_NXT, "b. A TYPE128"), 3, 1, 1, DNW_REASON_OLD_TYPES));
    EXPECT(goes_wrong(DATA(DNW_TYPE_SVCB, "1 . mandatory=alpn port=1"), 4, 14, 2, DNW_REASON_MANDATORY));
    EXPECT(goes_wrong(DATA(DNW_TYPE_SVCB, "1 . port=1 port=1"), 4, 6, 2, DNW_REASON_PARAMS));
    struct dnw_text_fault fault = {7, 7, 7, 7};
    EXPECT(dnw_record_text_fault(BYTES("a. 1 A 1.2.3.4"), BYTES("\001"), &fault) == DNW_MESSAGE_CUT && fault.offset == 7);
    EXPECT(dnw_data_text_fault(1, 1, BYTES("1.2.3.4"), BYTES("\0000"), &fault) == DNW_BYTES_LEFT && fault.reason == 7);
}

/* The sentences are the library's own, as its errors print them. */
static void prints_faults(void)
{
    EXPECT(says((struct dnw_text_fault){15, 1, 1, DNW_REASON_NAME}, "at offset 15: wanted a name (field 1)"));
    EXPECT(says((struct dnw_text_fault){0, 5, 3, DNW_REASON_NO_OWNER}, "at offset 0: wanted an owner"));
    EXPECT(says((struct dnw_text_fault){9, 0, 0, DNW_REASON_WORDS_LEFT}, "at offset 9: more words are there"));
    EXPECT(says((struct dnw_text_fault){1, 1, 1, DNW_REASON_NONE}, ""));
    EXPECT(says((struct dnw_text_fault){1, 1, 1, DNW_REASON_BAD_TEMPLATE + 1}, ""));
    EXPECT(says((struct dnw_text_fault){1, 1, 1, DNW_REASON_NAME - 1}, ""));
    EXPECT(says((struct dnw_text_fault){1, 1, 1, DNW_REASON_MANDATORY + 1}, ""));
    for (uint32_t reason = 0; reason <= DNW_REASON_MANDATORY; reason++) {
        size_t len = 0;
        struct dnw_text_fault fault = {SIZE_MAX, 0, SIZE_MAX, reason};
        EXPECT(dnw_text_fault_print(&fault, text, DNW_SENTENCE_SIZE, &len) == DNW_DONE && len <= DNW_SENTENCE_SIZE);
        bool is_none = reason == 0 || (reason > DNW_REASON_BAD_TEMPLATE && reason < DNW_REASON_NAME);
        EXPECT((len == 0) == is_none);
    }
}

/* Data have at most 65535 octets. */
static void refuses_long_data(void)
{
    static uint8_t digits[2 * 65536], data[65536];
    size_t len = 7;
    memset(digits, 'A', sizeof digits);
    memcpy(digits, "0 0 0 ", 6);
    memset(data, '?', sizeof data);
    EXPECT(dnw_data_parse(DNW_TYPE_TLSA, DNW_CLASS_IN, digits, 6 + 2 * 65533, BYTES(""), data, sizeof data, &len) == DNW_BAD_DATA);
    EXPECT(data[0] == '?' && len == 7);
    struct dnw_text_fault fault;
    EXPECT(dnw_data_text_fault(DNW_TYPE_TLSA, DNW_CLASS_IN, digits, 6 + 2 * 65533, BYTES(""), &fault) == DNW_DONE);
    EXPECT(fault.reason == DNW_REASON_TOO_LONG && fault.offset == 0 && fault.len == 1);
    EXPECT(dnw_data_parse(DNW_TYPE_TLSA, DNW_CLASS_IN, digits, 6 + 2 * 65532, BYTES(""), data, 65534, &len) == DNW_NO_ROOM);
    EXPECT(dnw_data_parse(DNW_TYPE_TLSA, DNW_CLASS_IN, digits, 6 + 2 * 65532, BYTES(""), data, sizeof data, &len) == DNW_DONE);
    EXPECT(len == 65535 && data[2] == 0 && data[3] == 0xAA && data[65534] == 0xAA && data[65535] == '?');
}

int main(void)
{
    prints_records();
    parses_what_is_printed();
    parses_records();
    refuses_records();
    parses_data();
    refuses_data();
    finds_faults();
    prints_faults();
    refuses_long_data();
    return 0;
}
