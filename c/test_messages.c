/* Calls each function of dns_names_wire.h that reads whole messages, or writes them again, with good and with bad input. It
   prints nothing if all is well, and exits with 1 at the first result that is not the expected one. Expected values are worked
   by hand from RFC 1035, section 4.1, and RFC 6891, section 6.1. */
#include "dns_names_wire.h"
#include "expect.h"
#include "message.h"

/* A referral with glue: www.example.com has to be asked for at ns.example.com. The question begins at offset 12, the authority
   at 33, the glue at 50, and an OPT record of 1232 octets, DO, the response code's high bits 1 and a cookie at 66. */
#define COUNTS "\000\001\000\000\000\001\000\002"
#define WWW "\003www\007example\003com\000"
#define TTL "\000\002\243\000"
#define NS "\300\020\000\002\000\001" TTL "\000\005\002ns\300\020"
#define GLUE "\300\055\000\001\000\001" TTL "\000\004\300\000\002\001"
#define OPT "\000\000\051\004\320\001\000\200\000\000\006\000\012\000\002\253\315"

static const char referral[] = "\022\064\205\247" COUNTS WWW "\000\001\000\001" NS GLUE OPT;

static const struct dnw_message no_message = {.id = 7, .end = 7};
static const struct dnw_message_fault no_fault = {7, 7, 7};

/* Reads a message. What is not written is unchanged. */
static uint32_t read_message(const uint8_t *octets, size_t len, size_t most, struct dnw_message *read,
                             struct dnw_message_fault *fault)
{
    *read = no_message;
    *fault = no_fault;
    uint32_t answer = dnw_message_read(octets, len, most, read, fault);
    if (answer == DNW_DONE)
        EXPECT(fault->section == 7 && fault->item == 7 && fault->offset == 7);
    else
        EXPECT(memcmp(read, &no_message, sizeof *read) == 0);
    return answer;
}

static void reads_messages(void)
{
    struct dnw_message read;
    struct dnw_message_fault fault;
    EXPECT(sizeof referral - 1 == 83);
    EXPECT(read_message(BYTES(referral), DNW_MAX_POINTERS, &read, &fault) == DNW_DONE);
    EXPECT(read.id == 0x1234 && read.is_response && read.op_code == 0 && read.authoritative && !read.truncation);
    EXPECT(read.recursion_desired && read.recursion_available && read.authentic_data && !read.checking_disabled);
    EXPECT(read.response_code == 7 && read.question_count == 1 && read.answer_count == 0);
    EXPECT(read.authority_count == 1 && read.additional_count == 2);
    EXPECT(read.answers == 33 && read.authorities == 33 && read.additionals == 50 && read.end == 83);
    EXPECT(read_message(BYTES("\000\000\052\020\000\000\000\000\000\000\000\000more"), 0, &read, &fault) == DNW_DONE);
    EXPECT(!read.is_response && read.op_code == 5 && read.truncation && read.checking_disabled && read.end == 12);
    EXPECT(read.answers == 12 && read.authorities == 12 && read.additionals == 12);
}

static void refuses_messages(void)
{
    struct dnw_message read;
    struct dnw_message_fault fault;
    const uint8_t *octets = (const uint8_t *)referral;
    const size_t starts[] = {0, 12, 33, 50, 66};
    const uint32_t sections[] = {DNW_SECTION_HEADER, DNW_SECTION_QUESTIONS, DNW_SECTION_AUTHORITIES, DNW_SECTION_ADDITIONALS,
                                 DNW_SECTION_ADDITIONALS};
    size_t at = 0;
    for (size_t len = 0; len < 83; len++) {
        at += at < 4 && len == starts[at + 1];
        EXPECT(read_message(octets, len, DNW_MAX_POINTERS, &read, &fault) == DNW_MESSAGE_CUT);
        EXPECT(fault.section == sections[at] && fault.item == (at == 4) && fault.offset == starts[at]);
    }
    /* the owner of the glue follows two pointers */
    EXPECT(read_message(BYTES(referral), 3, &read, &fault) == DNW_DONE);
    EXPECT(read_message(BYTES(referral), 2, &read, &fault) == DNW_TOO_MANY_POINTERS);
    EXPECT(fault.section == DNW_SECTION_ADDITIONALS && fault.item == 0 && fault.offset == 50);
    EXPECT(read_message(BYTES("\000\000\000\000\000\001\000\000\000\000\000\000\100"), 9, &read, &fault) == DNW_RESERVED_OCTET);
    EXPECT(read_message(BYTES("\000\000\000\000\000\001\000\000\000\000\000\000\300\014"), 9, &read, &fault) ==
           DNW_POINTER_NOT_BACK);
    EXPECT(fault.section == DNW_SECTION_QUESTIONS && fault.item == 0 && fault.offset == 12);
    /* octets of 255, but for some names further on */
    make_message();
    EXPECT(read_message(message, sizeof message, 9, &read, &fault) == DNW_POINTER_NOT_BACK && fault.offset == 12);
}

#define NO_EDNS "\000\000\200\003\000\000\000\000\000\000\000\000"
#define ONE_MORE(count) "\000\000\200\003\000\000\000\000\000\000\000" count
#define EMPTY_OPT(owner) owner "\000\051\001\000\000\000\000\000\000\000"
#define OPT_AS_ANSWER "\000\000\200\003\000\000\000\001\000\000\000\000" EMPTY_OPT("\000")
#define OPT_AS_AUTHORITY "\000\000\200\003\000\000\000\000\000\001\000\001" EMPTY_OPT("\000") EMPTY_OPT("\000")

static void reads_edns(void)
{
    struct dnw_edns edns = {.version = 7, .options_len = 7};
    EXPECT(dnw_edns_read(BYTES(referral), 3, &edns) == DNW_DONE);
    EXPECT(edns.is_present && edns.dnssec_ok && edns.version == 0 && edns.max_payload == 1232);
    EXPECT(edns.response_code == 23 && edns.options_offset == 77 && edns.options_len == 6 && edns.takes_records);
    EXPECT(dnw_edns_read(BYTES(ONE_MORE("\001") EMPTY_OPT("\000")), 0, &edns) == DNW_DONE);
    EXPECT(edns.is_present && !edns.dnssec_ok && edns.max_payload == 512 && edns.response_code == 3);
    EXPECT(edns.options_offset == 23 && edns.options_len == 0);
    EXPECT(dnw_edns_read(BYTES(referral), 2, &edns) == DNW_TOO_MANY_POINTERS);
    EXPECT(dnw_edns_read(BYTES(ONE_MORE("\002") EMPTY_OPT("\000")), 0, &edns) == DNW_MESSAGE_CUT);
    EXPECT(dnw_edns_read(BYTES(ONE_MORE("\002") EMPTY_OPT("\000") EMPTY_OPT("\000")), 0, &edns) == DNW_DUPLICATE_EDNS);
    EXPECT(dnw_edns_read(BYTES(OPT_AS_ANSWER), 0, &edns) == DNW_OUTSIDE_ADDITIONALS);
    EXPECT(dnw_edns_read(BYTES(OPT_AS_AUTHORITY), 0, &edns) == DNW_OUTSIDE_ADDITIONALS);
    EXPECT(dnw_edns_read(BYTES(ONE_MORE("\001") EMPTY_OPT("\001a\000")), 0, &edns) == DNW_OWNER_NOT_ROOT);
    EXPECT(dnw_edns_read(BYTES(ONE_MORE("\001") "\000\000\051\001\000\000\000\000\000\000\004\000\003\000\001"), 0, &edns) ==
           DNW_CUT_OPTION);
    EXPECT(edns.is_present && edns.options_offset == 23);
    EXPECT(dnw_edns_read(BYTES(NO_EDNS), 0, &edns) == DNW_DONE && !edns.is_present && !edns.dnssec_ok);
    EXPECT(edns.version == 0 && edns.max_payload == 512 && edns.response_code == 3);
    EXPECT(edns.options_offset == 0 && edns.options_len == 0);
}

/* An option is shown so, if there is room for the text, and then also in a buffer of just that size. */
static void is_shown(uint16_t code, const uint8_t *data, size_t data_len, const char *shown)
{
    uint8_t text[256] = {'?'};
    size_t size = strlen(shown), len = 7;
    EXPECT(dnw_option_print(code, data, data_len, text, size - 1, &len) == DNW_NO_ROOM && len == 7 && text[0] == '?');
    EXPECT(dnw_option_print(code, data, data_len, text, size, &len) == DNW_DONE);
    EXPECT(len == size && memcmp(text, shown, size) == 0 && text[size] == 0);
    EXPECT(len <= 4 * data_len + 128);
}

/* Lines of dig 9.18, but for the cookies, after which it says whether they are its own. */
static void prints_options(void)
{
    is_shown(3, BYTES(""), "NSID:");
    is_shown(3, BYTES("ns1\n"), "NSID: 6e 73 31 0a (\"ns1.\")");
    is_shown(8, BYTES("\000\001\030\000\300\000\002"), "CLIENT-SUBNET: 192.0.2.0/24/0");
    is_shown(8, BYTES("\000\002\040\060\040\001\015\270"), "CLIENT-SUBNET: 2001:db8::/32/48");
    is_shown(8, BYTES("\000\000\000\000"), "CLIENT-SUBNET: 0/0/0");
    is_shown(8, BYTES("\000\003\010\000\001"), "OPT=8: 00 03 08 00 01 (\".....\")");
    is_shown(8, BYTES("\000\001\041\000\300\000\002\000\000"), "OPT=8: 00 01 21 00 c0 00 02 00 00 (\"..!......\")");
    is_shown(9, BYTES(""), "EXPIRE:");
    is_shown(9, BYTES("\000\011\072\203"), "EXPIRE: 604803 (1 week 3 seconds)");
    is_shown(9, BYTES("\000\000\000\000"), "EXPIRE: 0 (0 seconds)");
    is_shown(10, BYTES("\001\002\003\004\005\006\007\010"), "COOKIE: 0102030405060708");
    is_shown(11, BYTES("\000\017"), "TCP KEEPALIVE: 1.5 secs");
    is_shown(12, BYTES("\000\000"), "PAD: (2 bytes)");
    is_shown(15, BYTES("\000\006bad"), "EDE: 6 (DNSSEC Bogus): (bad)");
    is_shown(15, BYTES("\000\006\303\251\302\205\007"), "EDE: 6 (DNSSEC Bogus): (\303\251..)");
    is_shown(15, BYTES("\000\377"), "EDE: 255");
    is_shown(15, BYTES("\000\006\377"), "OPT=15: 00 06 ff (\"...\")");
    is_shown(18, BYTES("\001a\000"), "OPT=18: 01 61 00 (\".a.\")");
    is_shown(65535, BYTES("a"), "OPT=65535: 61 (\"a\")");
}

static struct dnw_option said;

/* Reads an option. If that fails, what would be written is unchanged. If not, its data are written again from what they say. */
static uint32_t read_option(uint16_t code, const uint8_t *data, size_t data_len)
{
    static const struct dnw_option none = {.source = 9, .offset = 9, .len = 9};
    uint8_t again[64] = {'?'};
    size_t len = 7;
    said = none;
    uint32_t answer = dnw_option_read(code, data, data_len, &said);
    if (answer != DNW_DONE) {
        EXPECT(said.source == 9 && said.offset == 9 && said.len == 9 && said.family == 0);
        return answer;
    }
    EXPECT(said.offset + said.len == data_len);
    const uint8_t *rest = data + said.offset;
    if (data_len > 0)
        EXPECT(dnw_option_write(code, &said, rest, said.len, again, data_len - 1, &len) == DNW_NO_ROOM && len == 7 && again[0] == '?');
    EXPECT(dnw_option_write(code, &said, rest, said.len, again, data_len, &len) == DNW_DONE);
    EXPECT(len == data_len && (len == 0 || memcmp(again, data, len) == 0) && again[len] == (len == 0 ? '?' : 0));
    return DNW_DONE;
}

static uint32_t write_option(uint16_t code, struct dnw_option option, const uint8_t *rest, size_t rest_len)
{
    uint8_t data[64] = {'?'};
    size_t len = 7;
    uint32_t answer = dnw_option_write(code, &option, rest, rest_len, data, sizeof data, &len);
    if (answer != DNW_DONE)
        EXPECT(len == 7 && data[0] == '?');
    return answer;
}

/* What each option says, at its limits; by the RFC of each. */
static void reads_options(void)
{
    EXPECT(read_option(3, BYTES("")) == DNW_DONE && said.is_given && said.len == 0);
    EXPECT(read_option(3, BYTES("ns1")) == DNW_DONE && said.len == 3);
    EXPECT(read_option(8, BYTES("\000\001\030\020\300\000\002")) == DNW_DONE && said.family == 1);
    EXPECT(said.source == 24 && said.scope == 16 && said.offset == 4 && said.len == 3);
    EXPECT(read_option(8, BYTES("\000\001\040\040\300\000\002\001")) == DNW_DONE && said.source == 32);
    EXPECT(read_option(8, BYTES("\000\002\001\200\200")) == DNW_DONE && said.family == 2 && said.scope == 128);
    EXPECT(read_option(8, BYTES("\000\000\000\000")) == DNW_DONE && said.family == 0 && said.len == 0);
    EXPECT(read_option(9, BYTES("")) == DNW_DONE && !said.is_given && said.seconds == 0);
    EXPECT(read_option(9, BYTES("\377\377\377\376")) == DNW_DONE && said.is_given && said.seconds == 4294967294u);
    EXPECT(read_option(10, BYTES("12345678")) == DNW_DONE && memcmp(said.client, "12345678", 8) == 0 && said.len == 0);
    EXPECT(read_option(10, BYTES("12345678abcdefgh")) == DNW_DONE && said.offset == 8 && said.len == 8);
    EXPECT(read_option(10, BYTES("12345678abcdefghabcdefghabcdefghabcdefgh")) == DNW_DONE && said.len == 32);
    EXPECT(read_option(11, BYTES("")) == DNW_DONE && !said.is_given);
    EXPECT(read_option(11, BYTES("\377\376")) == DNW_DONE && said.is_given && said.timeout == 65534);
    EXPECT(read_option(12, BYTES("\000\000")) == DNW_DONE && said.len == 2);
    EXPECT(read_option(13, BYTES("")) == DNW_DONE && !said.is_given);
    EXPECT(read_option(13, BYTES("\000")) == DNW_DONE && said.is_given && said.len == 1);
    EXPECT(read_option(15, BYTES("\377\376")) == DNW_DONE && said.info_code == 65534 && said.offset == 2 && said.len == 0);
    EXPECT(read_option(15, BYTES("\000\017\303\251")) == DNW_DONE && said.info_code == 15 && said.len == 2);
    EXPECT(read_option(18, BYTES("\001a\000")) == DNW_DONE && said.is_given && said.offset == 0 && said.len == 3);
    EXPECT(read_option(19, BYTES("")) == DNW_DONE && !said.is_given);
    EXPECT(read_option(19, BYTES("\002\000abcd")) == DNW_DONE && said.is_given && said.labels == 2 && said.version_type == 0);
    EXPECT(said.offset == 2 && said.len == 4);
    EXPECT(read_option(19, BYTES("\377\001")) == DNW_DONE && said.labels == 255 && said.version_type == 1 && said.len == 0);
    EXPECT(read_option(65001, BYTES("ab")) == DNW_DONE && said.is_given && said.offset == 0 && said.len == 2);
}

/* Data that break a rule of their option, and what no option says. */
static void refuses_options(void)
{
    EXPECT(read_option(8, BYTES("\000\001\030")) == DNW_BAD_DATA && read_option(8, BYTES("\000\001\030\000\300\000")) == DNW_BAD_DATA);
    EXPECT(read_option(8, BYTES("\000\001\041\000\300\000\002\001\000")) == DNW_BAD_FAMILY);
    EXPECT(read_option(8, BYTES("\000\001\000\041")) == DNW_BAD_FAMILY);
    EXPECT(read_option(8, BYTES("\000\002\000\201")) == DNW_BAD_FAMILY);
    EXPECT(read_option(8, BYTES("\000\001\027\000\300\000\003")) == DNW_BAD_FAMILY);
    EXPECT(read_option(9, BYTES("\000\000\000")) == DNW_BAD_DATA && read_option(11, BYTES("\000")) == DNW_BAD_DATA);
    EXPECT(read_option(10, BYTES("1234567")) == DNW_BAD_DATA && read_option(10, BYTES("12345678abcdefg")) == DNW_BAD_DATA);
    EXPECT(read_option(10, BYTES("12345678abcdefghabcdefghabcdefghabcdefgha")) == DNW_BAD_DATA);
    EXPECT(read_option(13, BYTES("\001a")) == DNW_BAD_DATA && read_option(18, BYTES("")) == DNW_BAD_DATA);
    EXPECT(read_option(18, BYTES("\001a\300\000")) == DNW_BAD_DATA && read_option(18, BYTES("\001a\000\000")) == DNW_BAD_DATA);
    EXPECT(read_option(15, BYTES("\000")) == DNW_BAD_DATA && read_option(15, BYTES("\000\001\377")) == DNW_NOT_UTF8);
    EXPECT(read_option(19, BYTES("\001")) == DNW_BAD_DATA && read_option(19, BYTES("\001\000abc")) == DNW_BAD_DATA);
    EXPECT(write_option(8, (struct dnw_option){.family = 1, .source = 24}, BYTES("\300\000")) == DNW_BAD_DATA);
    EXPECT(write_option(8, (struct dnw_option){.family = 1, .source = 33}, BYTES("12345")) == DNW_BAD_FAMILY);
    EXPECT(write_option(10, (struct dnw_option){.client = "1234567"}, BYTES("1234567")) == DNW_BAD_DATA);
    EXPECT(write_option(13, (struct dnw_option){.is_given = false}, BYTES("\001a")) == DNW_BAD_DATA);
    EXPECT(write_option(15, (struct dnw_option){.info_code = 1}, BYTES("\377")) == DNW_NOT_UTF8);
    EXPECT(write_option(19, (struct dnw_option){.is_given = true}, BYTES("abc")) == DNW_BAD_DATA);
    EXPECT(write_option(9, (struct dnw_option){.is_given = false, .seconds = 7}, BYTES("not read")) == DNW_DONE);
}

/* Reads the next field of data. If that fails, what would be written is unchanged. */
static uint32_t next_field(const uint8_t *octets, size_t len, uint16_t type, struct dnw_fields *fields, struct dnw_field *field)
{
    const struct dnw_fields before = *fields;
    *field = (struct dnw_field){7, 7, 7};
    uint32_t answer = dnw_field_next(octets, len, 0, type, DNW_CLASS_IN, fields, field);
    if (answer != DNW_DONE) {
        EXPECT(fields->offset == before.offset && fields->number == before.number);
        EXPECT(field->kind == 7 && field->offset == 7 && field->len == 7);
    }
    return answer;
}

static bool is_field(const struct dnw_field *field, uint32_t kind, size_t offset, size_t len)
{
    return field->kind == kind && field->offset == offset && field->len == len;
}

static void reads_fields(void)
{
    /* a name, and the data of an MX, which lead to it: MX 10 b.a. */
    static const char mx[] = "\001a\000\000\012\001b\300\000";
    struct dnw_fields fields = {3, 0};
    struct dnw_field field;
    EXPECT(next_field(BYTES(mx), DNW_TYPE_MX, &fields, &field) == DNW_DONE && is_field(&field, DNW_FIELD_NUMBER, 3, 2));
    EXPECT(next_field(BYTES(mx), DNW_TYPE_MX, &fields, &field) == DNW_DONE && is_field(&field, DNW_FIELD_NAME, 5, 4));
    EXPECT(next_field(BYTES(mx), DNW_TYPE_MX, &fields, &field) == DNW_DONE && is_field(&field, DNW_FIELD_END, 9, 0));
    EXPECT(fields.offset == 9 && fields.number == 2);
    /* NSEC3PARAM 1 0 12 AABB */
    fields = (struct dnw_fields){0, 0};
    for (int i = 0; i < 4; i++)
        EXPECT(next_field(BYTES("\001\000\000\014\002\252\273"), DNW_TYPE_NSEC3PARAM, &fields, &field) == DNW_DONE);
    EXPECT(is_field(&field, DNW_FIELD_OCTETS, 5, 2) && fields.offset == 7);
    /* APL !1:192.168.38.0/28, and one whose prefix ends in a zero (RFC 3123, section 4) */
    fields = (struct dnw_fields){0, 0};
    EXPECT(next_field(BYTES("\000\001\034\203\300\250\046"), 42, &fields, &field) == DNW_DONE);
    EXPECT(is_field(&field, DNW_FIELD_PREFIXES, 0, 7) && fields.offset == 7);
    fields = (struct dnw_fields){0, 0};
    EXPECT(next_field(BYTES("\000\001\034\202\300\000"), 42, &fields, &field) == DNW_BAD_FAMILY && fields.offset == 0);
    /* HIP 1 AA BB a. (RFC 8005, section 5) */
    fields = (struct dnw_fields){0, 0};
    static const char hip[] = "\001\001\000\001\252\273\001a\000";
    EXPECT(next_field(BYTES(hip), 55, &fields, &field) == DNW_DONE && is_field(&field, DNW_FIELD_HOST_IDENTITY, 0, 6));
    EXPECT(next_field(BYTES(hip), 55, &fields, &field) == DNW_DONE && is_field(&field, DNW_FIELD_NAMES, 6, 3));
    /* the MAC of a TSIG, after its length of two octets (RFC 8945, section 4.2) */
    fields = (struct dnw_fields){0, 0};
    for (int i = 0; i < 4; i++)
        EXPECT(next_field(BYTES("\000\000\000\000\000\000\001\000\002\000\002\252\273"), 250, &fields, &field) == DNW_DONE);
    EXPECT(is_field(&field, DNW_FIELD_OCTETS, 11, 2) && fields.offset == 13);
    /* a gateway that is a pointer (RFC 4025, section 2.5) */
    fields = (struct dnw_fields){1, 1};
    EXPECT(next_field(BYTES("\012\003\002\300\000"), 45, &fields, &field) == DNW_RESERVED_OCTET && fields.offset == 1);
    /* A6 64 ::1:2:3:4 b. and A6 0 of a whole address (RFC 2874, section 3.1.1) */
    static const char a6[] = "\100\000\001\000\002\000\003\000\004\001b\000";
    fields = (struct dnw_fields){0, 0};
    EXPECT(next_field(BYTES(a6), 38, &fields, &field) == DNW_DONE && is_field(&field, DNW_FIELD_ADDRESS_SUFFIX, 0, 9));
    EXPECT(next_field(BYTES(a6), 38, &fields, &field) == DNW_DONE && is_field(&field, DNW_FIELD_NAME, 9, 3));
    EXPECT(next_field(BYTES(a6), 38, &fields, &field) == DNW_DONE && is_field(&field, DNW_FIELD_END, 12, 0));
    fields = (struct dnw_fields){0, 0};
    EXPECT(next_field(BYTES("\000\001\002\003\004\005\006\007\010\011\012\013\014\015\016\017\020"), 38, &fields, &field) == DNW_DONE);
    EXPECT(is_field(&field, DNW_FIELD_ADDRESS_SUFFIX, 0, 17));
    fields = (struct dnw_fields){0, 0};
    EXPECT(next_field(BYTES("\201"), 38, &fields, &field) == DNW_BAD_FAMILY);
    /* CH A a. 1 (RFC 1035, section 3.6); A is octets in HS, and may be left out under ANY and NONE (RFC 2136, section 2.4) */
    fields = (struct dnw_fields){0, 0};
    EXPECT(dnw_field_next(BYTES("\001a\000\000\001"), 0, DNW_TYPE_A, DNW_CLASS_CH, &fields, &field) == DNW_DONE);
    EXPECT(is_field(&field, DNW_FIELD_NAME, 0, 3));
    EXPECT(dnw_field_next(BYTES("\001a\000\000\001"), 0, DNW_TYPE_A, DNW_CLASS_CH, &fields, &field) == DNW_DONE);
    EXPECT(is_field(&field, DNW_FIELD_NUMBER, 3, 2));
    fields = (struct dnw_fields){0, 0};
    EXPECT(dnw_field_next(BYTES("\300"), 0, DNW_TYPE_A, DNW_CLASS_HS, &fields, &field) == DNW_DONE);
    EXPECT(is_field(&field, DNW_FIELD_OCTETS, 0, 1));
    fields = (struct dnw_fields){1, 0};
    EXPECT(dnw_field_next(BYTES("?"), 1, DNW_TYPE_A, DNW_CLASS_ANY, &fields, &field) == DNW_DONE && field.kind == DNW_FIELD_END);
    EXPECT(dnw_field_next(BYTES("?"), 1, DNW_TYPE_MX, DNW_CLASS_NONE, &fields, &field) == DNW_DONE && field.kind == DNW_FIELD_END);
    EXPECT(dnw_field_next(BYTES("?"), 1, DNW_TYPE_A, DNW_CLASS_IN, &fields, &field) == DNW_MESSAGE_CUT);
    EXPECT(dnw_field_next(BYTES("?"), 2, DNW_TYPE_A, DNW_CLASS_ANY, &fields, &field) == DNW_MESSAGE_CUT);
    /* a type without fields */
    fields = (struct dnw_fields){1, 0};
    EXPECT(next_field(BYTES("abc"), 65280, &fields, &field) == DNW_DONE && is_field(&field, DNW_FIELD_OCTETS, 1, 2));
}

static uint32_t first_field(const uint8_t *octets, size_t len, uint16_t type, size_t offset)
{
    struct dnw_fields fields = {offset, 0};
    struct dnw_field field;
    return next_field(octets, len, type, &fields, &field);
}

static void refuses_fields(void)
{
    struct dnw_fields past = {4, SIZE_MAX};
    struct dnw_field field;
    EXPECT(first_field(BYTES("\300\000\002"), DNW_TYPE_A, 0) == DNW_MESSAGE_CUT);
    EXPECT(first_field(BYTES("\300\000\002"), DNW_TYPE_A, 4) == DNW_MESSAGE_CUT);
    EXPECT(first_field(BYTES(""), DNW_TYPE_A, SIZE_MAX) == DNW_MESSAGE_CUT);
    EXPECT(first_field(BYTES("\100"), DNW_TYPE_NS, 0) == DNW_RESERVED_OCTET);
    EXPECT(first_field(BYTES(""), DNW_TYPE_TXT, 0) == DNW_MESSAGE_CUT);
    EXPECT(first_field(BYTES("\002a"), DNW_TYPE_HINFO, 0) == DNW_MESSAGE_CUT);
    EXPECT(next_field(BYTES("\000\000\000\000\000"), DNW_TYPE_A, &past, &field) == DNW_WRONG_DATA_LENGTH);
    EXPECT(next_field(BYTES("\000\000\000\000"), DNW_TYPE_A, &past, &field) == DNW_DONE && field.kind == DNW_FIELD_END);
    past = (struct dnw_fields){1, 1};
    EXPECT(next_field(BYTES("\000\000\000"), DNW_TYPE_NSEC, &past, &field) == DNW_BAD_BITMAP);
    past = (struct dnw_fields){3, 2};
    EXPECT(next_field(BYTES("\000\001\000\000\003\000\000\000\001\000\000"), DNW_TYPE_SVCB, &past, &field) == DNW_BAD_PARAMS);
}

static uint8_t copy[512];

/* Packs a message into so many bytes. Nothing is stored if it fails. */
static uint32_t pack(const uint8_t *octets, size_t len, uint16_t most, size_t size, struct dnw_packed *packed)
{
    memset(copy, '?', sizeof copy);
    *packed = (struct dnw_packed){7, true};
    uint32_t answer = dnw_message_pack(octets, len, most, 0, copy, size, packed);
    if (answer != DNW_DONE)
        EXPECT(packed->len == 7 && packed->truncated);
    else
        EXPECT(packed->len <= most && packed->len <= size && (size == sizeof copy || copy[size] == '?'));
    return answer;
}

/* The maximum is that of the call, or the size of the buffer. */
static bool packs(const uint8_t *octets, size_t octets_len, uint16_t most, const char *wanted, size_t len, bool truncated)
{
    struct dnw_packed packed;
    EXPECT(pack(octets, octets_len, 65535, most, &packed) == DNW_DONE);
    EXPECT(packed.len == len && packed.truncated == truncated && memcmp(copy, wanted, len) == 0);
    EXPECT(pack(octets, octets_len, most, sizeof copy, &packed) == DNW_DONE);
    return packed.len == len && packed.truncated == truncated && memcmp(copy, wanted, len) == 0;
}

#define HEAD(flags, counts) "\022\064" flags "\247" counts
#define WWW_IN WWW "\000\001\000\001"
#define WANTED(octets) octets, sizeof(octets) - 1
#define TWO_MORE "\000\000\202\000\000\000\000\000\000\000\000\002"
#define A_OF_A "\001a\000\000\001\000\001" TTL "\000\004abcd"
#define RECORD(type, data) "\000\000" type "\000\001\000\000\000\000\000" data
#define ANSWER(type, data) "\000\000\200\000\000\000\000\001\000\000\000\000" RECORD(type, data)

/* Each set is there if it fits as it is written. The question and the 17 octets of the OPT record have to be there. */
static void packs_messages(void)
{
    struct dnw_packed packed;
    EXPECT(packs(BYTES(referral), 512, WANTED(referral), false));
    EXPECT(packs(BYTES(referral), 83, WANTED(referral), false));
    EXPECT(packs(BYTES(referral), 82, WANTED(HEAD("\207", "\000\001\000\000\000\001\000\001") WWW_IN NS OPT), true));
    EXPECT(packs(BYTES(referral), 67, WANTED(HEAD("\207", "\000\001\000\000\000\001\000\001") WWW_IN NS OPT), true));
    EXPECT(packs(BYTES(referral), 66, WANTED(HEAD("\207", "\000\001\000\000\000\000\000\001") WWW_IN OPT), true));
    EXPECT(packs(BYTES(referral), 50, WANTED(HEAD("\207", "\000\001\000\000\000\000\000\001") WWW_IN OPT), true));
    EXPECT(pack(BYTES(referral), 49, sizeof copy, &packed) == DNW_MESSAGE_TOO_LONG);
    EXPECT(pack(BYTES(referral), 512, 49, &packed) == DNW_MESSAGE_TOO_LONG);
    EXPECT(pack(BYTES(NO_EDNS), 11, sizeof copy, &packed) == DNW_MESSAGE_TOO_LONG);
    EXPECT(pack(BYTES(NO_EDNS), 512, 11, &packed) == DNW_NO_ROOM);
    /* of an answer, a set that has no room is left out whole, and TC is set; what only goes with it is left out without */
#define TWO(counts) "\000\000" counts "\001a\000\000\001\000\001"
#define FIRST "\300\014\000\001\000\001" TTL "\000\004abcd"
#define SECOND "\300\014\000\001\000\001" TTL "\000\004efgh"
#define OTHER "\300\014\000\034\000\001" TTL "\000\020abcdefghijklmnop"
    static const char answer[] = TWO("\200\000\000\001\000\002\000\000\000\001") FIRST SECOND OTHER;
    EXPECT(packs(BYTES(answer), 79, WANTED(answer), false));
    EXPECT(packs(BYTES(answer), 78, WANTED(TWO("\200\000\000\001\000\002\000\000\000\000") FIRST SECOND), false));
    EXPECT(packs(BYTES(answer), 51, WANTED(TWO("\200\000\000\001\000\002\000\000\000\000") FIRST SECOND), false));
    EXPECT(packs(BYTES(answer), 50, WANTED(TWO("\202\000\000\001\000\000\000\000\000\001") OTHER), true));
    EXPECT(packs(BYTES(answer), 46, WANTED(TWO("\202\000\000\001\000\000\000\000\000\000")), true));
    EXPECT(packs(BYTES(NO_EDNS "more"), 12, WANTED(NO_EDNS), false));
    /* an OPT record before another becomes the last one, and what was truncated stays so */
    EXPECT(packs(BYTES(TWO_MORE OPT A_OF_A), 512, WANTED(TWO_MORE A_OF_A OPT), true));
    /* so does a SIG(0), which covers the type 0 (RFC 2931, section 3), and no SIG that covers records */
#define SIG_OF(type) "\000\000\030\000\377\000\000\000\000\000\024" type "\010\000\000\000\000\000\000\000\000\002\000\000\000\001\000\007\000s"
#define SIGNED(flags, count) "\000\000" flags "\000\000\000\000\000\000\000\000" count
    static const char both[] = SIGNED("\200", "\003") SIG_OF("\000\000") SIG_OF("\000\001") A_OF_A;
    EXPECT(packs(BYTES(both), 512, WANTED(SIGNED("\200", "\003") SIG_OF("\000\001") A_OF_A SIG_OF("\000\000")), false));
    EXPECT(packs(BYTES(both), 43, WANTED(SIGNED("\200", "\001") SIG_OF("\000\000")), false));
    /* octets are held back for a SIG(0) as many as it is written with: its signer whole, also if it stands as a pointer */
#define SIGNED_BY(signer, size) "\000\000\030\000\377\000\000\000\000" size "\000\000\010\000\000\000\000\000\000\000\000\002\000\000\000\001\000\007" signer "s"
#define ANSWERED(counts) "\000\000" counts WWW_IN
#define WWW_ADDRESS "\300\014\000\001\000\001" TTL "\000\004abcd"
    static const char by_pointer[] = ANSWERED("\200\000\000\001\000\001\000\000\000\001") WWW_ADDRESS SIGNED_BY("\300\014", "\000\025");
    static const char by_name[] = ANSWERED("\200\000\000\001\000\001\000\000\000\001") WWW_ADDRESS SIGNED_BY(WWW, "\000\044");
    static const char by_name_alone[] = ANSWERED("\202\000\000\001\000\000\000\000\000\001") SIGNED_BY(WWW, "\000\044");
    const uint16_t signed_len = sizeof by_name - 1, alone_len = sizeof by_name_alone - 1;
    for (uint16_t most = 0; most < alone_len; most++)
        EXPECT(pack(BYTES(by_pointer), most, sizeof copy, &packed) == DNW_MESSAGE_TOO_LONG);
    for (uint16_t most = alone_len; most < signed_len; most++)
        EXPECT(packs(BYTES(by_pointer), most, WANTED(by_name_alone), true));
    EXPECT(packs(BYTES(by_pointer), signed_len, WANTED(by_name), false));
    /* names that are whole in the message are compressed in the copy, and those of an SRV are not */
    EXPECT(packs(BYTES("\000\000\200\000\000\001\000\002\000\000\000\000\001a\000\000\001\000\001"
                       "\001a\000\000\005\000\001" TTL "\000\005\001b\001a\000"
                       "\001b\001a\000\000\041\000\001" TTL "\000\010\000\000\000\000\000\000\300\014"), 512,
                 WANTED("\000\000\200\000\000\001\000\002\000\000\000\000\001a\000\000\001\000\001"
                        "\300\014\000\005\000\001" TTL "\000\004\001b\300\014"
                        "\300\037\000\041\000\001" TTL "\000\011\000\000\000\000\000\000\001a\000"), false));
}

static void refuses_to_pack(void)
{
    struct dnw_packed packed;
    for (size_t len = 0; len < 83; len++)
        EXPECT(pack((const uint8_t *)referral, len, 512, sizeof copy, &packed) == DNW_MESSAGE_CUT);
    EXPECT(pack(BYTES("\000\000\000\000\000\001\000\000\000\000\000\000\100"), 512, sizeof copy, &packed) ==
           DNW_RESERVED_OCTET);
    EXPECT(pack(BYTES(ONE_MORE("\002") EMPTY_OPT("\000") EMPTY_OPT("\000")), 512, sizeof copy, &packed) == DNW_DUPLICATE_EDNS);
    EXPECT(pack(BYTES(OPT_AS_ANSWER), 512, sizeof copy, &packed) == DNW_OUTSIDE_ADDITIONALS);
    EXPECT(pack(BYTES(OPT_AS_AUTHORITY), 512, sizeof copy, &packed) == DNW_OUTSIDE_ADDITIONALS);
    EXPECT(pack(BYTES(ONE_MORE("\001") EMPTY_OPT("\001a\000")), 512, sizeof copy, &packed) == DNW_OWNER_NOT_ROOT);
    EXPECT(pack(BYTES(ONE_MORE("\001") "\000\000\051\001\000\000\000\000\000\000\004\000\003\000\001"), 512, sizeof copy,
                &packed) == DNW_CUT_OPTION);
    EXPECT(pack(BYTES(ANSWER("\001", "\003abc")), 512, sizeof copy, &packed) == DNW_MESSAGE_CUT);
    EXPECT(pack(BYTES(ANSWER("\001", "\005abcde")), 512, sizeof copy, &packed) == DNW_WRONG_DATA_LENGTH);
    EXPECT(pack(BYTES(ANSWER("\002", "\001\100")), 512, sizeof copy, &packed) == DNW_RESERVED_OCTET);
    EXPECT(pack(BYTES(ANSWER("\057", "\003\000\000\000")), 512, sizeof copy, &packed) == DNW_BAD_BITMAP);
}

/* A request is whole or fails, whatever its operation: half an UPDATE is another UPDATE (RFC 2136, section 3.4.2). So is a transfer. */
static void packs_whole_requests(void)
{
    struct dnw_packed packed;
#define ZONE_AND(flags, type) "\000\000" flags "\000\000\001\000\000\000\002\000\000" "\001a\000\000" type "\000\001"
#define ADDED FIRST SECOND
    static const char update[] = ZONE_AND("\050", "\006") ADDED, query[] = ZONE_AND("\001", "\001") ADDED;
    static const char transfer[] = ZONE_AND("\200", "\374") ADDED, changes[] = ZONE_AND("\200", "\373") ADDED;
    static const char response[] = ZONE_AND("\250", "\006") ADDED;
    EXPECT(packs(BYTES(update), 51, WANTED(update), false) && packs(BYTES(query), 51, WANTED(query), false));
    EXPECT(packs(BYTES(transfer), 51, WANTED(transfer), false) && packs(BYTES(changes), 51, WANTED(changes), false));
    for (uint16_t most = 12; most < 51; most++) {
        EXPECT(pack(BYTES(update), most, sizeof copy, &packed) == DNW_MESSAGE_TOO_LONG);
        EXPECT(pack(BYTES(query), 512, most, &packed) == DNW_MESSAGE_TOO_LONG);
        EXPECT(pack(BYTES(transfer), most, sizeof copy, &packed) == DNW_MESSAGE_TOO_LONG);
        EXPECT(pack(BYTES(changes), most, sizeof copy, &packed) == DNW_MESSAGE_TOO_LONG);
        if (most >= 19)
            EXPECT(packs(BYTES(response), most, WANTED("\000\000\252\000\000\001\000\000\000\000\000\000\001a\000\000\006\000\001"), true));
    }
}

static uint32_t replies(const uint8_t *request, size_t request_len, const uint8_t *response, size_t response_len, bool *is_reply)
{
    *is_reply = true;
    return dnw_is_reply_to(request, request_len, response, response_len, is_reply);
}

/* A request for the address of www.example.com, and what is not a reply to it by one thing. */
static void tells_replies(void)
{
#define ASKS(flags, name, type) "\022\064" flags "\000\001\000\000\000\000\000\000" name "\000" type "\000\001"
    static const char asks[] = ASKS("\001\000", WWW, "\001");
    static const char cases[] = ASKS("\201\200", "\003wWw\007EXAMPLE\003com\000", "\001");
    bool is_reply;
    EXPECT(replies(BYTES(asks), BYTES(referral), &is_reply) == DNW_DONE && is_reply);
    EXPECT(replies(BYTES(asks), BYTES(cases), &is_reply) == DNW_DONE && is_reply);
    EXPECT(replies(BYTES(asks), BYTES(asks), &is_reply) == DNW_DONE && !is_reply);
    EXPECT(replies(BYTES(cases), BYTES(cases), &is_reply) == DNW_DONE && !is_reply);
    EXPECT(replies(BYTES(asks), BYTES(ASKS("\251\200", WWW, "\001")), &is_reply) == DNW_DONE && !is_reply);
    EXPECT(replies(BYTES(asks), BYTES(ASKS("\201\200", WWW, "\002")), &is_reply) == DNW_DONE && !is_reply);
    EXPECT(replies(BYTES(asks), BYTES(ASKS("\201\200", "\003www\007example\003org\000", "\001")), &is_reply) == DNW_DONE);
    EXPECT(!is_reply);
    EXPECT(replies(BYTES(asks), BYTES("\022\064\201\200\000\000\000\000\000\000\000\000"), &is_reply) == DNW_DONE && !is_reply);
    EXPECT(replies(BYTES(asks), BYTES("\022\065\201\200\000\001\000\000\000\000\000\000" WWW "\000\001\000\001"), &is_reply) == DNW_DONE);
    EXPECT(!is_reply);
    /* without a question: if none was asked, to an UPDATE, and by the codes of refusals */
#define BARE(flags, code) "\022\064" flags code "\000\000\000\000\000\000\000\000"
    EXPECT(replies(BYTES(BARE("\001", "\000")), BYTES(BARE("\201", "\000")), &is_reply) == DNW_DONE && is_reply);
    EXPECT(replies(BYTES(BARE("\001", "\000")), BYTES(cases), &is_reply) == DNW_DONE && !is_reply);
    EXPECT(replies(BYTES(ASKS("\050\000", WWW, "\006")), BYTES(BARE("\250", "\000")), &is_reply) == DNW_DONE && is_reply);
    EXPECT(replies(BYTES(ASKS("\050\000", WWW, "\006")), BYTES(ASKS("\250\000", WWW, "\001")), &is_reply) == DNW_DONE && !is_reply);
    for (unsigned code = 0; code < 16; code++) {
        const uint8_t bare[] = {0x12, 0x34, 0x81, (uint8_t)code, 0, 0, 0, 0, 0, 0, 0, 0};
        EXPECT(replies(BYTES(asks), bare, sizeof bare, &is_reply) == DNW_DONE);
        EXPECT(is_reply == (code == 1 || code == 2 || code == 4 || code == 5));
        const uint8_t two[] = ASKS("\001\000", WWW, "\001") "\000\000\001\000\001";
        uint8_t asks_two[sizeof two - 1];
        memcpy(asks_two, two, sizeof asks_two);
        asks_two[5] = 2;
        EXPECT(replies(asks_two, sizeof asks_two, bare, sizeof bare, &is_reply) == DNW_DONE);
        EXPECT(is_reply == (code == 1 || code == 2 || code == 4 || code == 5));
    }
    EXPECT(replies(BYTES("\022"), BYTES(referral), &is_reply) == DNW_MESSAGE_CUT && is_reply);
    EXPECT(replies(BYTES(asks), BYTES(referral) - 1, &is_reply) == DNW_MESSAGE_CUT && is_reply);
#undef ASKS
}

int main(void)
{
    reads_messages();
    refuses_messages();
    reads_edns();
    prints_options();
    reads_options();
    refuses_options();
    reads_fields();
    refuses_fields();
    packs_messages();
    packs_whole_requests();
    refuses_to_pack();
    tells_replies();
    return 0;
}
