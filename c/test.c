/* Calls each function of dns_names_wire.h with good and with bad input. It prints nothing if all is well, and exits with 1
   at the first result that is not the expected one. Expected values come from RFC 1035 or from the header. */
#include "dns_names_wire.h"
#include "buffer.h"
#include "expect.h"
#include "message.h"

/* While this is set, malloc and realloc fail: the linker puts the functions below in their place. */
static bool no_memory;

void *__real_malloc(size_t size);
void *__real_realloc(void *block, size_t size);
void *__wrap_malloc(size_t size);
void *__wrap_realloc(void *block, size_t size);

void *__wrap_malloc(size_t size)
{
    return no_memory ? NULL : __real_malloc(size);
}

void *__wrap_realloc(void *block, size_t size)
{
    return no_memory ? NULL : __real_realloc(block, size);
}

static uint32_t read_form(size_t start, size_t size, struct dnw_read_name *read)
{
    clear();
    return dnw_name_read(message, sizeof message, start, buffer, size, read);
}

static void reads_forms(void)
{
    struct dnw_read_name read = {7, 7};
    EXPECT(read_form(20, DNW_FORM_SIZE, &read) == DNW_DONE);
    EXPECT(read.len == 12 && read.end == 32 && holds("\001F\003ISI\004ARPA\000", 12));
    EXPECT(read_form(40, DNW_FORM_SIZE, &read) == DNW_DONE);
    EXPECT(read.len == 16 && read.end == 46 && holds("\003FOO\001F\003ISI\004ARPA\000", 16));
    EXPECT(read_form(64, 6, &read) == DNW_DONE);
    EXPECT(read.len == 6 && read.end == 66 && holds("\004ARPA\000", 6));
    EXPECT(read_form(92, 1, &read) == DNW_DONE);
    EXPECT(read.len == 1 && read.end == 93 && holds("\000", 1));
}

static uint32_t read_bytes(const uint8_t *bytes, size_t len, size_t start)
{
    struct dnw_read_name read = {7, 9};
    clear();
    uint32_t answer = dnw_name_read(bytes, len, start, buffer, sizeof buffer, &read);
    if (answer != DNW_DONE)
        EXPECT(untouched() && read.len == 7 && read.end == 9);
    return answer;
}

static void refuses_forms(void)
{
    struct dnw_read_name read = {7, 9};
    EXPECT(read_form(40, 15, &read) == DNW_NO_ROOM);
    EXPECT(untouched() && read.len == 7 && read.end == 9);
    EXPECT(read_bytes(BYTES(""), 0) == DNW_MESSAGE_CUT);
    EXPECT(read_bytes(BYTES("\000"), 2) == DNW_MESSAGE_CUT);
    EXPECT(read_bytes(BYTES("\000"), SIZE_MAX) == DNW_MESSAGE_CUT);
    EXPECT(read_bytes(BYTES("\005abc"), 0) == DNW_MESSAGE_CUT);
    EXPECT(read_bytes(BYTES("\300\000"), 0) == DNW_POINTER_NOT_BACK);
    EXPECT(read_bytes(BYTES("\001a\300\000"), 2) == DNW_SEGMENTS_OVERLAP);
    EXPECT(read_bytes(BYTES("\100"), 0) == DNW_RESERVED_OCTET);
    uint8_t labels[260];
    for (size_t i = 0; i < sizeof labels; i += 2) {
        labels[i] = 1;
        labels[i + 1] = 'a';
    }
    EXPECT(read_bytes(labels, sizeof labels, 0) == DNW_NAME_TOO_LONG);
    labels[254] = 0;
    EXPECT(read_bytes(labels, 255, 0) == DNW_DONE);
}

static void reads_texts(void)
{
    struct dnw_read_name read = {7, 9};
    clear();
    EXPECT(dnw_name_read_text(message, sizeof message, 40, buffer, sizeof buffer, &read) == DNW_DONE);
    EXPECT(read.len == 15 && read.end == 46 && holds("FOO.F.ISI.ARPA.", 15));
    clear();
    EXPECT(dnw_name_read_text(message, sizeof message, 92, buffer, sizeof buffer, &read) == DNW_DONE);
    EXPECT(read.len == 1 && read.end == 93 && holds(".", 1));
    clear();
    read.len = 7;
    read.end = 9;
    EXPECT(dnw_name_read_text(message, sizeof message, 40, buffer, 14, &read) == DNW_NO_ROOM);
    EXPECT(dnw_name_read_text(message, sizeof message, 0, buffer, sizeof buffer, &read) == DNW_POINTER_NOT_BACK);
    EXPECT(untouched() && read.len == 7 && read.end == 9);
}

static uint32_t parse(const uint8_t *text, size_t len, size_t size, struct dnw_parsed_name *parsed)
{
    clear();
    uint32_t answer = dnw_name_parse(text, len, BYTES(""), buffer, size, parsed);
    if (answer != DNW_DONE)
        EXPECT(untouched());
    return answer;
}

static void parses(void)
{
    struct dnw_parsed_name parsed = {7, false};
    EXPECT(parse(BYTES("a.bc."), sizeof buffer, &parsed) == DNW_DONE);
    EXPECT(parsed.len == 6 && parsed.is_fqdn && holds("\001a\002bc\000", 6));
    EXPECT(parse(BYTES("a.bc"), 6, &parsed) == DNW_DONE);
    EXPECT(parsed.len == 6 && !parsed.is_fqdn && holds("\001a\002bc\000", 6));
    EXPECT(parse(BYTES("."), 1, &parsed) == DNW_DONE && parsed.len == 1 && parsed.is_fqdn);
    EXPECT(parse(BYTES("@"), 1, &parsed) == DNW_DONE && parsed.len == 1 && !parsed.is_fqdn);
    EXPECT(parse(BYTES("a.bc"), 5, &parsed) == DNW_NO_ROOM);
    EXPECT(parse(BYTES("a..b"), sizeof buffer, &parsed) == DNW_EMPTY_LABEL);
    EXPECT(parse(BYTES(""), sizeof buffer, &parsed) == DNW_EMPTY_LABEL);
    EXPECT(parse(BYTES("\\"), sizeof buffer, &parsed) == DNW_TEXT_CUT);
    EXPECT(parse(BYTES("\\256"), sizeof buffer, &parsed) == DNW_BAD_ESCAPE);
    EXPECT(parse(BYTES("0/25.-a!b._c"), 14, &parsed) == DNW_DONE && holds("\0040/25\004-a!b\002_c\000", 14));
    EXPECT(parse(BYTES("a\\.b\\032\\c\377."), 8, &parsed) == DNW_DONE && holds("\006a.b c\377\000", 8));
    uint8_t text[256];
    memset(text, 'a', sizeof text);
    EXPECT(parse(text, 63, sizeof buffer, &parsed) == DNW_DONE && parsed.len == 65);
    EXPECT(parse(text, 64, sizeof buffer, &parsed) == DNW_LABEL_TOO_LONG);
    text[63] = text[127] = text[191] = '.';
    EXPECT(parse(text, 253, sizeof buffer, &parsed) == DNW_DONE && parsed.len == 255);
    EXPECT(parse(text, 254, sizeof buffer, &parsed) == DNW_NAME_TOO_LONG);
    EXPECT(parsed.len == 255);
}

/* An origin completes a text without a dot at its end, and `@` is the origin. */
static void completes(void)
{
    struct dnw_parsed_name parsed = {7, false};
    size_t offset = 7;
    clear();
    EXPECT(dnw_name_parse(BYTES("a"), BYTES("\001b\000"), buffer, sizeof buffer, &parsed) == DNW_DONE);
    EXPECT(parsed.len == 5 && parsed.is_fqdn && holds("\001a\001b\000", 5));
    EXPECT(dnw_name_parse(BYTES("@"), BYTES("\001b\000"), buffer, sizeof buffer, &parsed) == DNW_DONE);
    EXPECT(parsed.len == 3 && parsed.is_fqdn);
    EXPECT(dnw_name_parse(BYTES("a."), BYTES("\001b\000"), buffer, sizeof buffer, &parsed) == DNW_DONE && parsed.len == 3);
    EXPECT(dnw_name_parse(BYTES("a"), BYTES("\001b"), buffer, sizeof buffer, &parsed) == DNW_MESSAGE_CUT);
    EXPECT(dnw_name_text_fault(BYTES("a"), BYTES("\001b"), &offset) == DNW_MESSAGE_CUT && offset == 7);
    uint8_t text[253];
    memset(text, 'a', sizeof text);
    text[63] = text[127] = text[191] = '.';
    EXPECT(dnw_name_parse(text, sizeof text, BYTES("\000"), buffer, sizeof buffer, &parsed) == DNW_DONE && parsed.len == 255);
    EXPECT(dnw_name_parse(text, 252, BYTES("\001b\000"), buffer, sizeof buffer, &parsed) == DNW_NAME_TOO_LONG);
    EXPECT(dnw_name_text_fault(text, 252, BYTES("\001b\000"), &offset) == DNW_NAME_TOO_LONG && offset == 252);
}

static bool goes_wrong(const uint8_t *text, size_t len, size_t at, uint32_t rule)
{
    size_t offset = len + 1;
    return dnw_name_text_fault(text, len, BYTES(""), &offset) == rule && offset == at;
}

/* The offset is that of the first octet that is against a rule. */
static void texts_go_wrong(void)
{
    size_t offset = 7;
    EXPECT(dnw_name_text_fault(BYTES("a.bc."), BYTES(""), &offset) == DNW_DONE && offset == 7);
    EXPECT(dnw_name_text_fault(BYTES("."), BYTES(""), &offset) == DNW_DONE && offset == 7);
    EXPECT(dnw_name_text_fault(BYTES("@"), BYTES(""), &offset) == DNW_DONE && offset == 7);
    EXPECT(dnw_name_text_fault(BYTES("\\101\\.-.a b\\;c\377"), BYTES(""), &offset) == DNW_DONE && offset == 7);
    EXPECT(goes_wrong(BYTES(""), 0, DNW_EMPTY_LABEL));
    EXPECT(goes_wrong(BYTES("a..b"), 2, DNW_EMPTY_LABEL));
    EXPECT(goes_wrong(BYTES(".a"), 0, DNW_EMPTY_LABEL));
    EXPECT(goes_wrong(BYTES(".."), 0, DNW_EMPTY_LABEL));
    EXPECT(goes_wrong(BYTES("a\\256"), 4, DNW_BAD_ESCAPE));
    EXPECT(goes_wrong(BYTES("a\\1x"), 3, DNW_BAD_ESCAPE));
    EXPECT(goes_wrong(BYTES("a\\12."), 4, DNW_BAD_ESCAPE));
    EXPECT(goes_wrong(BYTES("a\\10"), 4, DNW_TEXT_CUT));
    EXPECT(goes_wrong(BYTES("\\"), 1, DNW_TEXT_CUT));
    uint8_t text[256];
    memset(text, 'a', sizeof text);
    EXPECT(dnw_name_text_fault(text, 63, BYTES(""), &offset) == DNW_DONE);
    EXPECT(goes_wrong(text, 64, 63, DNW_LABEL_TOO_LONG));
    EXPECT(goes_wrong(text, 256, 63, DNW_LABEL_TOO_LONG));
    text[63] = text[127] = text[191] = '.';
    EXPECT(dnw_name_text_fault(text, 253, BYTES(""), &offset) == DNW_DONE);
    EXPECT(goes_wrong(text, 254, 254, DNW_NAME_TOO_LONG));
    EXPECT(goes_wrong(text, 255, 255, DNW_NAME_TOO_LONG));
}

static void prints(void)
{
    size_t len = 7;
    clear();
    EXPECT(dnw_name_print(BYTES("\001a\002bc\000"), true, buffer, sizeof buffer, &len) == DNW_DONE);
    EXPECT(len == 5 && holds("a.bc.", 5));
    clear();
    EXPECT(dnw_name_print(BYTES("\001a\002bc\000"), false, buffer, 4, &len) == DNW_DONE);
    EXPECT(len == 4 && holds("a.bc", 4));
    clear();
    EXPECT(dnw_name_print(BYTES("\000"), false, buffer, 1, &len) == DNW_DONE && len == 1 && holds("@", 1));
    clear();
    EXPECT(dnw_name_print(BYTES("\015a b\"$().;@\\\001\377\000"), true, buffer, sizeof buffer, &len) == DNW_DONE);
    EXPECT(holds("a\\032b\\\"\\$\\(\\)\\.\\;\\@\\\\\\001\\255.", len));
    clear();
    len = 7;
    EXPECT(dnw_name_print(BYTES("\001a\002bc\000"), true, buffer, 4, &len) == DNW_NO_ROOM);
    EXPECT(dnw_name_print(BYTES("\001a\000\000"), true, buffer, sizeof buffer, &len) == DNW_BYTES_LEFT);
    EXPECT(dnw_name_print(BYTES("\001a"), true, buffer, sizeof buffer, &len) == DNW_MESSAGE_CUT);
    EXPECT(dnw_name_print(BYTES(""), true, buffer, sizeof buffer, &len) == DNW_MESSAGE_CUT);
    EXPECT(untouched() && len == 7);
    /* the longest text: 250 bytes in four labels, each shown by four characters */
    uint8_t form[255];
    memset(form, 0x80, sizeof form);
    form[0] = form[64] = form[128] = 63;
    form[192] = 61;
    form[254] = 0;
    EXPECT(dnw_name_print(form, sizeof form, true, buffer, DNW_TEXT_SIZE - 1, &len) == DNW_NO_ROOM);
    EXPECT(dnw_name_print(form, sizeof form, true, buffer, DNW_TEXT_SIZE, &len) == DNW_DONE);
    EXPECT(len == DNW_TEXT_SIZE && memcmp(buffer, "\\128", 4) == 0 && buffer[len - 1] == '.');
}

/* Whatever is written is read back, name by name, and takes no more room than the list. */
static void writes(void)
{
    static const char list[] = "\003www\002de\000\004mail\002de\000\000\003www\002de\000";
    struct dnw_written_names written = {7, 9};
    clear();
    EXPECT(dnw_names_write(BYTES(list), 512, buffer, sizeof buffer, &written) == DNW_DONE);
    EXPECT(written.count == 4 && written.len <= sizeof list - 1 && memcmp(buffer, list, 8) == 0);
    uint8_t form[DNW_FORM_SIZE];
    size_t at = 0, in_list = 0;
    for (size_t i = 0; i < written.count; i++) {
        struct dnw_read_name read;
        EXPECT(dnw_name_read(buffer, written.len, at, form, sizeof form, &read) == DNW_DONE);
        EXPECT(memcmp(form, list + in_list, read.len) == 0);
        at = read.end;
        in_list += read.len;
    }
    EXPECT(at == written.len && in_list == sizeof list - 1);
    clear();
    EXPECT(dnw_names_write(BYTES(""), 0, buffer, sizeof buffer, &written) == DNW_DONE);
    EXPECT(written.len == 0 && written.count == 0 && untouched());
}

static void refuses_to_write(void)
{
    struct dnw_written_names written = {7, 9};
    clear();
    EXPECT(dnw_names_write(BYTES("\003www\000"), 4, buffer, sizeof buffer, &written) == DNW_MESSAGE_TOO_LONG);
    EXPECT(dnw_names_write(BYTES("\003www\000"), 5, buffer, 4, &written) == DNW_NO_ROOM);
    EXPECT(dnw_names_write(BYTES("\003www\000\003ww"), 512, buffer, sizeof buffer, &written) == DNW_MESSAGE_CUT);
    EXPECT(untouched() && written.len == 7 && written.count == 9);
    EXPECT(dnw_names_write(BYTES("\003www\000"), 5, buffer, 5, &written) == DNW_DONE);
    EXPECT(written.len == 5 && written.count == 1 && holds("\003www\000", 5));
}

/* A referral with glue: www.example.com has to be asked for at ns.example.com, which is 192.0.2.1. Its bytes are worked by
   hand from RFC 1035, sections 4.1.1 to 4.1.4: the name of the question is at offset 12, so example.com is at 16; the
   records begin at 33 and 50, and ns.example.com is at 45. */
#define WWW "\003www\007example\003com\000"
#define APEX "\007example\003com\000"
#define NS "\002ns\007example\003com\000"
#define HEADER "\022\064\200\000\000\001\000\000\000\001\000\001"
#define TTL "\000\002\243\000"
#define ADDRESS "\000\001\000\001" TTL "\000\004\300\000\002\001"

static const char referral[] =
    HEADER WWW "\000\001\000\001" "\300\020" "\000\002\000\001" TTL "\000\005\002ns\300\020" "\300\055" ADDRESS;

static uint32_t read_record(size_t message_len, size_t start, size_t size, struct dnw_record *record)
{
    clear();
    uint32_t answer = dnw_record_read((const uint8_t *)referral, message_len, start, buffer, size, record);
    if (answer != DNW_DONE)
        EXPECT(untouched());
    return answer;
}

static uint32_t data_name(size_t offset, size_t data_len, size_t size, size_t *len)
{
    clear();
    uint32_t answer = dnw_record_data_name(BYTES(referral), offset, data_len, buffer, size, len);
    if (answer != DNW_DONE)
        EXPECT(untouched());
    return answer;
}

static void reads_records(void)
{
    const size_t all = sizeof referral - 1;
    struct dnw_record record = {7, 7, 7, 7, 7, 7, 7};
    size_t len = 7;
    EXPECT(all == 66);
    EXPECT(read_record(all, 33, 13, &record) == DNW_DONE && holds(APEX, 13));
    EXPECT(record.owner_len == 13 && record.record_type == 2 && record.record_class == 1 && record.ttl == 172800);
    EXPECT(record.data_offset == 45 && record.data_len == 5 && record.end == 50);
    EXPECT(data_name(record.data_offset, record.data_len, 16, &len) == DNW_DONE && len == 16 && holds(NS, 16));
    EXPECT(read_record(all, record.end, sizeof buffer, &record) == DNW_DONE && holds(NS, 16));
    EXPECT(record.owner_len == 16 && record.record_type == 1 && record.record_class == 1 && record.ttl == 172800);
    EXPECT(record.data_offset == 62 && record.data_len == 4 && record.end == all);
    EXPECT(memcmp(referral + record.data_offset, "\300\000\002\001", 4) == 0);
    /* an MX record's data, with a preference of 10 before the root */
    clear();
    EXPECT(dnw_record_data_name(BYTES("\000\012\000"), 2, 1, buffer, 1, &len) == DNW_DONE && len == 1 && holds("\000", 1));
}

static void refuses_records(void)
{
    const size_t all = sizeof referral - 1;
    struct dnw_record record = {7, 7, 7, 7, 7, 7, 7};
    size_t len = 7;
    EXPECT(read_record(all, 33, 12, &record) == DNW_NO_ROOM);
    EXPECT(read_record(all, all, 255, &record) == DNW_MESSAGE_CUT);
    EXPECT(read_record(all, SIZE_MAX, 255, &record) == DNW_MESSAGE_CUT);
    EXPECT(read_record(all - 1, 50, 255, &record) == DNW_MESSAGE_CUT);
    EXPECT(read_record(61, 50, 255, &record) == DNW_MESSAGE_CUT);
    EXPECT(read_record(all, 2, 255, &record) == DNW_RESERVED_OCTET);
    EXPECT(record.owner_len == 7 && record.ttl == 7 && record.end == 7);
    EXPECT(data_name(45, 4, 255, &len) == DNW_WRONG_DATA_LENGTH);
    EXPECT(data_name(45, 6, 255, &len) == DNW_WRONG_DATA_LENGTH);
    EXPECT(data_name(45, SIZE_MAX, 255, &len) == DNW_WRONG_DATA_LENGTH);
    EXPECT(data_name(45, 5, 15, &len) == DNW_NO_ROOM);
    EXPECT(data_name(SIZE_MAX, 1, 255, &len) == DNW_MESSAGE_CUT && len == 7);
}

/* The names are those of RFC 1035, section 3.5, with an address of RFC 5737, and of RFC 3596, section 2.5. */
static void reverses(void)
{
    static const char ipv4_name[] = "\0011\0012\0010\003192\007in-addr\004arpa\000";
    static const char ipv6[] = "\103\041\000\000\000\001\000\002\000\003\000\004\005\147\211\253";
    static const char nibbles[] = "ba987650400030002000100000001234";
    char ipv6_name[74 + 1];
    struct dnw_net net = {7, 9};
    size_t len = 7;
    for (size_t i = 0; i < 32; i++) {
        ipv6_name[2 * i] = 1;
        ipv6_name[2 * i + 1] = nibbles[i];
    }
    memcpy(ipv6_name + 64, "\003ip6\004arpa\000", 11);
    clear();
    EXPECT(dnw_reverse_name(BYTES("\300\000\002\001"), buffer, 23, &len) == DNW_NO_ROOM && untouched() && len == 7);
    EXPECT(dnw_reverse_name(BYTES("\300\000\002"), buffer, 255, &len) == DNW_BAD_ADDRESS && untouched() && len == 7);
    EXPECT(dnw_reverse_name(BYTES(""), buffer, 255, &len) == DNW_BAD_ADDRESS);
    EXPECT(dnw_reverse_name(BYTES("\300\000\002\001"), buffer, 24, &len) == DNW_DONE && len == 24 && holds(ipv4_name, 24));
    clear();
    EXPECT(dnw_reverse_name(BYTES(ipv6), buffer, 74, &len) == DNW_DONE && len == 74 && holds(ipv6_name, 74));
    clear();
    EXPECT(dnw_reverse_parse((const uint8_t *)ipv6_name, 74, buffer, 16, &net) == DNW_DONE);
    EXPECT(net.len == 16 && net.prefix_len == 128 && holds(ipv6, 16));
    clear();
    EXPECT(dnw_reverse_parse((const uint8_t *)ipv4_name, 24, buffer, 4, &net) == DNW_DONE);
    EXPECT(net.len == 4 && net.prefix_len == 32 && holds("\300\000\002\001", 4));
    EXPECT(dnw_reverse_parse(BYTES("\003168\003192\007IN-ADDR\004ARPA\000"), buffer, 4, &net) == DNW_DONE);
    EXPECT(net.len == 4 && net.prefix_len == 16 && holds("\300\250\000\000", 4));
    clear();
    EXPECT(dnw_reverse_parse((const uint8_t *)ipv4_name, 24, buffer, 3, &net) == DNW_NO_ROOM);
    EXPECT(dnw_reverse_parse((const uint8_t *)ipv4_name, 23, buffer, 4, &net) == DNW_MESSAGE_CUT);
    EXPECT(dnw_reverse_parse(BYTES("\007in-addr\004arpa\000\000"), buffer, 4, &net) == DNW_BYTES_LEFT);
    EXPECT(dnw_reverse_parse(BYTES("\003256\007in-addr\004arpa\000"), buffer, 4, &net) == DNW_NOT_REVERSE);
    EXPECT(dnw_reverse_parse(BYTES("\003www\000"), buffer, 4, &net) == DNW_NOT_REVERSE);
    EXPECT(untouched() && net.len == 4 && net.prefix_len == 16);
}

/* The order is that of RFC 4034, section 6.1: example, a.example, yljkjljk.a.example, Z.a.example, .. */
/* RFC 4592, section 2.1.1, has wildcards; the sizes are those of RFC 1035, section 2.3.4. */
static void edits(void)
{
    uint8_t form[DNW_FORM_SIZE];
    size_t len = 7;
    clear();
    EXPECT(dnw_name_append(BYTES("\003www\000"), BYTES("\002de\000"), buffer, sizeof buffer, &len) == DNW_DONE);
    EXPECT(len == 8 && holds("\003www\002de\000", 8));
    clear();
    EXPECT(dnw_name_append(BYTES("\000"), BYTES("\000"), buffer, 1, &len) == DNW_DONE && len == 1 && holds("\000", 1));
    clear();
    EXPECT(dnw_name_append(BYTES("\003www\000"), BYTES("\002de\000"), buffer, 7, &len) == DNW_NO_ROOM);
    EXPECT(dnw_name_append(BYTES("\003www\000"), BYTES("\002de"), buffer, 8, &len) == DNW_MESSAGE_CUT);
    EXPECT(dnw_name_append(BYTES("\003www\000\000"), BYTES("\002de"), buffer, 8, &len) == DNW_BYTES_LEFT);
    EXPECT(dnw_name_prepend_label(BYTES(""), BYTES("\000"), buffer, 8, &len) == DNW_BAD_TEXT);
    EXPECT(dnw_name_prepend_label(BYTES("a"), BYTES("\100"), buffer, 8, &len) == DNW_RESERVED_OCTET);
    memset(form, 'a', sizeof form);
    EXPECT(dnw_name_prepend_label(form, 64, BYTES("\000"), buffer, sizeof buffer, &len) == DNW_LABEL_TOO_LONG);
    form[0] = form[64] = form[128] = 63;
    form[192] = 61;
    form[254] = 0;
    EXPECT(dnw_name_prepend_label(BYTES("a"), form, sizeof form, buffer, sizeof buffer, &len) == DNW_NAME_TOO_LONG);
    EXPECT(dnw_name_append(form, sizeof form, BYTES("\001a\000"), buffer, sizeof buffer, &len) == DNW_NAME_TOO_LONG);
    EXPECT(untouched() && len == 1);
    EXPECT(dnw_name_prepend_label(BYTES("\000."), BYTES("\002de\000"), buffer, 7, &len) == DNW_DONE && len == 7);
    EXPECT(holds("\002\000.\002de\000", 7));
    clear();
    EXPECT(dnw_name_trim(BYTES("\001a\002bc\000"), 1, buffer, 4, &len) == DNW_DONE && len == 4 && holds("\002bc\000", 4));
    clear();
    EXPECT(dnw_name_trim(BYTES("\001a\002bc\000"), 0, buffer, 4, &len) == DNW_DONE && len == 1 && holds("\000", 1));
    clear();
    EXPECT(dnw_name_trim(BYTES("\001a\002bc\000"), 2, buffer, 5, &len) == DNW_NO_ROOM && untouched() && len == 1);
    EXPECT(dnw_name_trim(BYTES("\001a\002bc\000"), SIZE_MAX, buffer, 6, &len) == DNW_DONE && len == 6);
    EXPECT(holds("\001a\002bc\000", 6));
    clear();
    EXPECT(dnw_name_to_wildcard(BYTES("\003www\002de\000"), buffer, 5, &len) == DNW_NO_ROOM && untouched() && len == 6);
    EXPECT(dnw_name_to_wildcard(BYTES("\003www\002de\000"), buffer, 6, &len) == DNW_DONE && len == 6);
    EXPECT(holds("\001*\002de\000", 6));
    EXPECT(dnw_name_to_wildcard(BYTES("\000"), buffer, 6, &len) == DNW_DONE && len == 1 && buffer[0] == 0);
}

/* The codes are those of the IANA registry "Resource Record (RR) TYPEs", and of RFC 6895, section 3.2. */
static void codes(void)
{
    uint16_t code = 7;
    size_t len = 7;
    clear();
    EXPECT(dnw_type_print(28, buffer, 4, &len) == DNW_DONE && len == 4 && holds("AAAA", 4));
    EXPECT(dnw_type_print(51, buffer, DNW_CODE_SIZE, &len) == DNW_DONE && len == 10 && holds("NSEC3PARAM", 10));
    clear();
    EXPECT(dnw_type_print(28, buffer, 3, &len) == DNW_NO_ROOM && untouched() && len == 10);
    EXPECT(dnw_type_print(65280, buffer, 8, &len) == DNW_NO_ROOM && untouched() && len == 10);
    EXPECT(dnw_type_print(65280, buffer, 9, &len) == DNW_DONE && len == 9 && holds("TYPE65280", 9));
    EXPECT(dnw_type_parse(BYTES("AAAA"), &code) == DNW_DONE && code == 28);
    EXPECT(dnw_type_parse(BYTES("*"), &code) == DNW_DONE && code == 255);
    EXPECT(dnw_type_parse(BYTES("aaaa"), &code) == DNW_DONE && code == 28);
    EXPECT(dnw_type_parse(BYTES("IXFR"), &code) == DNW_DONE && code == 251);
    /* RFC 3597, section 5 */
    EXPECT(dnw_type_parse(BYTES("TYPE731"), &code) == DNW_DONE && code == 731);
    EXPECT(dnw_type_parse(BYTES("type62347"), &code) == DNW_DONE && code == 62347);
    EXPECT(dnw_type_parse(BYTES("Type00001"), &code) == DNW_DONE && code == 1);
    EXPECT(dnw_type_parse(BYTES("TYPE65535"), &code) == DNW_DONE && code == 65535);
    EXPECT(dnw_type_parse(BYTES("TYPE65536"), &code) == DNW_UNKNOWN_TEXT);
    EXPECT(dnw_type_parse(BYTES("TYPE131072"), &code) == DNW_UNKNOWN_TEXT);
    EXPECT(dnw_type_parse(BYTES("TYPE"), &code) == DNW_UNKNOWN_TEXT);
    EXPECT(dnw_type_parse(BYTES("TYPE+1"), &code) == DNW_UNKNOWN_TEXT);
    EXPECT(dnw_type_parse(BYTES("TYPE 1"), &code) == DNW_UNKNOWN_TEXT);
    EXPECT(dnw_type_parse(BYTES("TYPE1 "), &code) == DNW_UNKNOWN_TEXT);
    EXPECT(dnw_type_parse(BYTES("CLASS1"), &code) == DNW_UNKNOWN_TEXT);
    EXPECT(dnw_type_parse(BYTES("Unknown"), &code) == DNW_UNKNOWN_TEXT);
    EXPECT(dnw_type_parse(BYTES("\304\261xfr"), &code) == DNW_UNKNOWN_TEXT);
    EXPECT(dnw_type_parse(BYTES(""), &code) == DNW_UNKNOWN_TEXT);
    EXPECT(dnw_type_parse(BYTES("\377"), &code) == DNW_NOT_UTF8 && code == 65535);
    clear();
    EXPECT(dnw_class_print(254, buffer, 4, &len) == DNW_DONE && len == 4 && holds("NONE", 4));
    clear();
    EXPECT(dnw_class_print(2, buffer, 5, &len) == DNW_NO_ROOM && untouched() && len == 4);
    EXPECT(dnw_class_print(2, buffer, 6, &len) == DNW_DONE && len == 6 && holds("CLASS2", 6));
    EXPECT(dnw_class_parse(BYTES("class32"), &code) == DNW_DONE && code == 32);
    EXPECT(dnw_class_parse(BYTES("ch"), &code) == DNW_DONE && code == 3);
    EXPECT(dnw_class_parse(BYTES("UNKNOWN"), &code) == DNW_UNKNOWN_TEXT);
    EXPECT(dnw_class_parse(BYTES("OPT"), &code) == DNW_UNKNOWN_TEXT);
    EXPECT(dnw_class_parse(BYTES("\377"), &code) == DNW_NOT_UTF8 && code == 3);
}

/* RFC 1982, sections 3.1, 3.2 and 5.2 */
struct named_code {
    uint32_t code;
    const char *name;
};

/* The codes with names are those of the header, and no others. */
static void print_all(uint32_t (*print)(uint16_t, uint8_t *, size_t, size_t *),
                      uint32_t (*parse)(const uint8_t *, size_t, uint16_t *), const struct named_code *named, size_t count,
                      const char *word)
{
    for (uint32_t code = 0; code <= 65535; code++) {
        char numbered[16];
        snprintf(numbered, sizeof numbered, "%s%u", word, (unsigned)code);
        const char *name = numbered;
        uint16_t back = (uint16_t)~code;
        for (size_t i = 0; i < count; i++)
            if (named[i].code == code)
                name = named[i].name;
        size_t len = 0;
        clear();
        EXPECT(print((uint16_t)code, buffer, DNW_CODE_SIZE, &len) == DNW_DONE);
        EXPECT(len == strlen(name) && holds(name, len));
        EXPECT(parse((const uint8_t *)name, len, &back) == DNW_DONE && back == code);
        EXPECT(parse((const uint8_t *)numbered, strlen(numbered), &back) == DNW_DONE && back == code);
    }
}

static void named_codes(void)
{
    static const struct named_code types[] = {
        /* made by tools/types from crates/dnw_data/specs/Table.antt */
        {DNW_TYPE_ZERO, "TYPE0"}, {DNW_TYPE_A, "A"}, {DNW_TYPE_NS, "NS"}, {DNW_TYPE_MD, "MD"},
        {DNW_TYPE_MF, "MF"}, {DNW_TYPE_CNAME, "CNAME"}, {DNW_TYPE_SOA, "SOA"}, {DNW_TYPE_MB, "MB"},
        {DNW_TYPE_MG, "MG"}, {DNW_TYPE_MR, "MR"}, {DNW_TYPE_NULL, "NULL"}, {DNW_TYPE_WKS, "WKS"},
        {DNW_TYPE_PTR, "PTR"}, {DNW_TYPE_HINFO, "HINFO"}, {DNW_TYPE_MINFO, "MINFO"}, {DNW_TYPE_MX, "MX"},
        {DNW_TYPE_TXT, "TXT"}, {DNW_TYPE_RP, "RP"}, {DNW_TYPE_AFSDB, "AFSDB"}, {DNW_TYPE_X25, "X25"},
        {DNW_TYPE_ISDN, "ISDN"}, {DNW_TYPE_RT, "RT"}, {DNW_TYPE_NSAP, "NSAP"},
        {DNW_TYPE_NSAP_PTR, "NSAP-PTR"}, {DNW_TYPE_SIG, "SIG"}, {DNW_TYPE_KEY, "KEY"}, {DNW_TYPE_PX, "PX"},
        {DNW_TYPE_GPOS, "GPOS"}, {DNW_TYPE_AAAA, "AAAA"}, {DNW_TYPE_LOC, "LOC"}, {DNW_TYPE_NXT, "NXT"},
        {DNW_TYPE_EID, "EID"}, {DNW_TYPE_NIMLOC, "NIMLOC"}, {DNW_TYPE_SRV, "SRV"}, {DNW_TYPE_ATMA, "ATMA"},
        {DNW_TYPE_NAPTR, "NAPTR"}, {DNW_TYPE_KX, "KX"}, {DNW_TYPE_CERT, "CERT"}, {DNW_TYPE_A6, "A6"},
        {DNW_TYPE_DNAME, "DNAME"}, {DNW_TYPE_SINK, "SINK"}, {DNW_TYPE_OPT, "OPT"}, {DNW_TYPE_APL, "APL"},
        {DNW_TYPE_DS, "DS"}, {DNW_TYPE_SSHFP, "SSHFP"}, {DNW_TYPE_IPSECKEY, "IPSECKEY"},
        {DNW_TYPE_RRSIG, "RRSIG"}, {DNW_TYPE_NSEC, "NSEC"}, {DNW_TYPE_DNSKEY, "DNSKEY"},
        {DNW_TYPE_DHCID, "DHCID"}, {DNW_TYPE_NSEC3, "NSEC3"}, {DNW_TYPE_NSEC3PARAM, "NSEC3PARAM"},
        {DNW_TYPE_TLSA, "TLSA"}, {DNW_TYPE_SMIMEA, "SMIMEA"}, {DNW_TYPE_HIP, "HIP"},
        {DNW_TYPE_NINFO, "NINFO"}, {DNW_TYPE_RKEY, "RKEY"}, {DNW_TYPE_TALINK, "TALINK"},
        {DNW_TYPE_CDS, "CDS"}, {DNW_TYPE_CDNSKEY, "CDNSKEY"}, {DNW_TYPE_OPENPGPKEY, "OPENPGPKEY"},
        {DNW_TYPE_CSYNC, "CSYNC"}, {DNW_TYPE_ZONEMD, "ZONEMD"}, {DNW_TYPE_SVCB, "SVCB"},
        {DNW_TYPE_HTTPS, "HTTPS"}, {DNW_TYPE_DSYNC, "DSYNC"}, {DNW_TYPE_HHIT, "HHIT"},
        {DNW_TYPE_BRID, "BRID"}, {DNW_TYPE_SPF, "SPF"}, {DNW_TYPE_UINFO, "UINFO"}, {DNW_TYPE_UID, "UID"},
        {DNW_TYPE_GID, "GID"}, {DNW_TYPE_UNSPEC, "UNSPEC"}, {DNW_TYPE_NID, "NID"}, {DNW_TYPE_L32, "L32"},
        {DNW_TYPE_L64, "L64"}, {DNW_TYPE_LP, "LP"}, {DNW_TYPE_EUI48, "EUI48"}, {DNW_TYPE_EUI64, "EUI64"},
        {DNW_TYPE_NXNAME, "NXNAME"}, {DNW_TYPE_TKEY, "TKEY"}, {DNW_TYPE_TSIG, "TSIG"},
        {DNW_TYPE_IXFR, "IXFR"}, {DNW_TYPE_AXFR, "AXFR"}, {DNW_TYPE_MAILB, "MAILB"},
        {DNW_TYPE_MAILA, "MAILA"}, {DNW_TYPE_ANY, "ANY"}, {DNW_TYPE_URI, "URI"}, {DNW_TYPE_CAA, "CAA"},
        {DNW_TYPE_AVC, "AVC"}, {DNW_TYPE_DOA, "DOA"}, {DNW_TYPE_AMTRELAY, "AMTRELAY"},
        {DNW_TYPE_RESINFO, "RESINFO"}, {DNW_TYPE_WALLET, "WALLET"}, {DNW_TYPE_CLA, "CLA"},
        {DNW_TYPE_IPN, "IPN"}, {DNW_TYPE_TA, "TA"}, {DNW_TYPE_DLV, "DLV"}, {DNW_TYPE_ANAME, "TYPE65305"},
        /* made until here */
    };
    static const struct named_code classes[] = {
        {DNW_CLASS_IN, "IN"}, {DNW_CLASS_CH, "CH"}, {DNW_CLASS_HS, "HS"}, {DNW_CLASS_NONE, "NONE"},
        {DNW_CLASS_ANY, "ANY"},
    };
    print_all(dnw_type_print, dnw_type_parse, types, sizeof types / sizeof types[0], "TYPE");
    print_all(dnw_class_print, dnw_class_parse, classes, sizeof classes / sizeof classes[0], "CLASS");
}

static void serials(void)
{
    int32_t order = 7;
    EXPECT(dnw_serial_compare(0, 1, &order) == DNW_DONE && order == -1);
    EXPECT(dnw_serial_compare(1, 0, &order) == DNW_DONE && order == 1);
    EXPECT(dnw_serial_compare(5, 5, &order) == DNW_DONE && order == 0);
    EXPECT(dnw_serial_compare(UINT32_MAX, 0, &order) == DNW_DONE && order == -1);
    EXPECT(dnw_serial_compare(0, 0x7FFFFFFF, &order) == DNW_DONE && order == -1);
    EXPECT(dnw_serial_compare(0, 0x80000001, &order) == DNW_DONE && order == 1);
    EXPECT(dnw_serial_compare(0, 0x80000000, &order) == DNW_NOT_ORDERED && order == 1);
    EXPECT(dnw_serial_add(0xFFFFFFFF, 0x7FFFFFFF) == 0x7FFFFFFE);
    EXPECT(dnw_serial_add(1, 2) == 3);
}

/* The example of RFC 4034, section 4.3: A MX RRSIG NSEC TYPE1234. */
static void type_lists(void)
{
    static const char bitmap[] = "\000\006\100\001\000\000\000\003"
                                 "\004\033\000\000\000\000\000\000\000\000\000\000\000\000\000\000\000\000\000\000"
                                 "\000\000\000\000\000\000\000\000\040";
    static const uint16_t listed[] = {1, 15, 46, 47, 1234};
    static const uint16_t jumbled[] = {1234, 47, 1, 46, 15, 1};
    uint16_t codes[6] = {9, 9, 9, 9, 9, 9};
    size_t count = 7, len = 7;
    EXPECT(dnw_types_read(BYTES(bitmap), codes, 4, &count) == DNW_NO_ROOM && codes[0] == 9 && count == 7);
    EXPECT(dnw_types_read(BYTES(bitmap), codes, 5, &count) == DNW_DONE && count == 5 && codes[5] == 9);
    EXPECT(memcmp(codes, listed, sizeof listed) == 0);
    EXPECT(dnw_types_read(BYTES(""), codes, 0, &count) == DNW_DONE && count == 0);
    EXPECT(dnw_types_read(BYTES("\000\000\000"), codes, 6, &count) == DNW_BAD_BITMAP && count == 0 && codes[0] == 1);
    static uint8_t longest[65536];
    EXPECT(dnw_types_read(longest, sizeof longest, codes, 6, &count) == DNW_BAD_BITMAP && count == 0);
    clear();
    EXPECT(dnw_types_write(jumbled, 6, buffer, sizeof bitmap - 2, &len) == DNW_NO_ROOM && untouched() && len == 7);
    EXPECT(dnw_types_write(jumbled, 6, buffer, sizeof bitmap - 1, &len) == DNW_DONE && len == sizeof bitmap - 1);
    EXPECT(holds(bitmap, sizeof bitmap - 1));
    clear();
    EXPECT(dnw_types_write(jumbled, 0, buffer, 0, &len) == DNW_DONE && len == 0 && untouched());
}

static void times(void)
{
    uint32_t seconds = 7;
    EXPECT(dnw_ttl_parse(BYTES("1h30m"), &seconds) == DNW_DONE && seconds == 5400);
    EXPECT(dnw_ttl_parse(BYTES("300"), &seconds) == DNW_DONE && seconds == 300);
    EXPECT(dnw_ttl_parse(BYTES("4294967295"), &seconds) == DNW_DONE && seconds == 4294967295);
    EXPECT(dnw_ttl_parse(BYTES("4294967296"), &seconds) == DNW_BAD_TIME);
    EXPECT(dnw_ttl_parse(BYTES(""), &seconds) == DNW_BAD_TIME);
    EXPECT(dnw_ttl_parse(BYTES("h"), &seconds) == DNW_BAD_TIME);
    EXPECT(dnw_ttl_parse(BYTES("\377"), &seconds) == DNW_NOT_UTF8 && seconds == 4294967295);
}

/* The next token has this kind, number of texts and bytes. */
static bool gives(const char *text, size_t text_len, struct dnw_lexer *lexer, uint32_t kind, size_t count,
                  const char *bytes, size_t len)
{
    struct dnw_token token = {99, 99, 99};
    clear();
    return dnw_token_next((const uint8_t *)text, text_len, lexer, buffer, sizeof buffer, &token) == DNW_DONE
        && token.kind == kind && token.count == count && token.len == len && holds(bytes, len);
}

#define GIVES(kind, count, bytes) gives(text, sizeof text - 1, &lexer, kind, count, bytes, sizeof(bytes) - 1)

static void tokens(void)
{
    static const char text[] = "$TTL 1h\n@ IN SOA ns (1 2 ; two\n33) \"a b\\\"\"\n \303\251\n";
    struct dnw_lexer lexer = {0, true};
    EXPECT(GIVES(DNW_TOKEN_TTL, 0, "") && lexer.offset == 4 && !lexer.at_line_start);
    EXPECT(GIVES(DNW_TOKEN_TEXT, 1, "1h"));
    EXPECT(GIVES(DNW_TOKEN_LINE_END, 0, "") && lexer.offset == 8 && lexer.at_line_start);
    EXPECT(GIVES(DNW_TOKEN_AT, 0, "") && GIVES(DNW_TOKEN_TEXT, 1, "IN") && GIVES(DNW_TOKEN_TEXT, 1, "SOA"));
    EXPECT(GIVES(DNW_TOKEN_TEXT, 1, "ns"));
    struct dnw_lexer before = lexer;
    struct dnw_token token = {99, 99, 99};
    clear();
    EXPECT(dnw_token_next(BYTES(text), &lexer, buffer, 6, &token) == DNW_NO_ROOM && untouched());
    EXPECT(token.kind == 99 && token.len == 99 && token.count == 99);
    EXPECT(lexer.offset == before.offset && lexer.at_line_start == before.at_line_start);
    EXPECT(GIVES(DNW_TOKEN_LIST, 3, "1\0002\00033\000"));
    EXPECT(GIVES(DNW_TOKEN_TEXT, 1, "a b\""));
    EXPECT(GIVES(DNW_TOKEN_LINE_END, 0, "") && GIVES(DNW_TOKEN_BLANK, 0, "") && !lexer.at_line_start);
    EXPECT(GIVES(DNW_TOKEN_TEXT, 1, "\303\251") && GIVES(DNW_TOKEN_LINE_END, 0, ""));
    EXPECT(GIVES(DNW_TOKEN_END, 0, "") && lexer.offset == sizeof text - 1);
    EXPECT(GIVES(DNW_TOKEN_END, 0, ""));
    lexer.offset = SIZE_MAX;
    EXPECT(GIVES(DNW_TOKEN_END, 0, "") && lexer.offset == sizeof text - 1);
}

static uint32_t lex(const uint8_t *text, size_t text_len)
{
    struct dnw_lexer lexer = {0, true};
    struct dnw_token token = {99, 99, 99};
    clear();
    uint32_t answer = dnw_token_next(text, text_len, &lexer, buffer, sizeof buffer, &token);
    EXPECT(untouched() && token.kind == 99 && lexer.offset == 0 && lexer.at_line_start);
    return answer;
}

/* A word of any length and what ends it, also if a part of the text that is looked at first ends within them. */
static void long_tokens(void)
{
    static uint8_t text[1203], words[1203];
    for (size_t len = 2; len <= 1200; len += 2) {
        struct dnw_lexer lexer = {0, true};
        struct dnw_token token;
        for (size_t i = 0; i < len; i += 2)
            memcpy(text + i, "\303\251", 2);
        memcpy(text + len, ";\377\n", 3);
        EXPECT(dnw_token_next(text, len + 3, &lexer, words, sizeof words, &token) == DNW_DONE);
        EXPECT(token.kind == DNW_TOKEN_TEXT && token.count == 1 && token.len == len && memcmp(words, text, len) == 0);
        EXPECT(lexer.offset == len && !lexer.at_line_start);
        EXPECT(dnw_token_next(text, len + 3, &lexer, words, sizeof words, &token) == DNW_NOT_UTF8);
        EXPECT(lexer.offset == len && lex(text, len - 1) == DNW_NOT_UTF8);
        text[len] = ')';
        EXPECT(lex(text, len + 3) == DNW_ILLEGAL_CHARACTER);
    }
}

static void refuses_tokens(void)
{
    EXPECT(lex(BYTES("\377")) == DNW_NOT_UTF8 && lex(BYTES("a\377")) == DNW_NOT_UTF8);
    EXPECT(lex(BYTES("\r")) == DNW_TEXT_CUT);
    EXPECT(lex(BYTES("\"\\")) == DNW_TEXT_CUT);
    EXPECT(lex(BYTES(")")) == DNW_ILLEGAL_CHARACTER);
    EXPECT(lex(BYTES("\001")) == DNW_CONTROL_CHARACTER);
    EXPECT(lex(BYTES("(a")) == DNW_UNCLOSED_LIST);
    EXPECT(lex(BYTES("\"a")) == DNW_UNCLOSED_QUOTE);
    EXPECT(lex(BYTES("$FOO")) == DNW_UNKNOWN_ENTRY);
}

static void tells_failures(void)
{
    clear();
    EXPECT(dnw_error_text(DNW_NO_MEMORY, buffer, 12) == 13 && untouched());
    EXPECT(dnw_error_text(DNW_NO_MEMORY, buffer, 13) == 13 && holds("out of memory", 13));
    clear();
    EXPECT(dnw_error_text(DNW_DONE, buffer, sizeof buffer) == 7 && holds("success", 7));
    for (uint32_t i = 0; i <= DNW_BAD_FAMILY; i++) {
        size_t len = dnw_error_text(i, buffer, sizeof buffer);
        EXPECT(0 < len && len <= 64);
    }
    EXPECT(dnw_error_text(DNW_BAD_FAMILY + 1, buffer, sizeof buffer) == 0);
    EXPECT(dnw_error_text(UINT32_MAX, buffer, sizeof buffer) == 0);
}

static void is_of_this_version(void)
{
    EXPECT(dnw_version() == DNW_VERSION);
}

/* Without memory, what does not allocate succeeds, and what allocates says so and writes nothing. */
static void lacks_memory(void)
{
    struct dnw_read_name read = {7, 9};
    struct dnw_parsed_name parsed = {7, false};
    struct dnw_written_names written = {7, 9};
    size_t len = 7;
    no_memory = true;
    EXPECT(read_form(40, DNW_FORM_SIZE, &read) == DNW_DONE && read.len == 16);
    EXPECT(read_bytes(BYTES("\100"), 0) == DNW_RESERVED_OCTET);
    EXPECT(parse(BYTES("a.bc."), sizeof buffer, &parsed) == DNW_DONE && parsed.len == 6);
    EXPECT(parse(BYTES("\\"), sizeof buffer, &parsed) == DNW_TEXT_CUT);
    EXPECT(parse(BYTES("a..b"), sizeof buffer, &parsed) == DNW_EMPTY_LABEL);
    EXPECT(dnw_name_text_fault(BYTES("a..b"), BYTES(""), &len) == DNW_EMPTY_LABEL && len == 2);
    EXPECT(dnw_name_print(BYTES("\001a\000"), true, buffer, sizeof buffer, &len) == DNW_DONE && len == 2);
    EXPECT(dnw_name_read_text(message, sizeof message, 40, buffer, sizeof buffer, &read) == DNW_DONE);
    EXPECT(read_form(40, DNW_FORM_SIZE, &read) == DNW_DONE && read.len == 16);
    len = 7;
    clear();
    EXPECT(dnw_names_write(BYTES("\003www\000"), 512, buffer, sizeof buffer, &written) == DNW_NO_MEMORY);
    EXPECT(untouched() && read.len == 16 && parsed.len == 6 && len == 7 && written.len == 7 && written.count == 9);
    size_t order = 7;
    EXPECT(dnw_names_sort(BYTES("\003www\000"), &order, 1) == DNW_NO_MEMORY && order == 7);
    EXPECT(dnw_names_sort(BYTES(""), &order, 1) == DNW_DONE && order == 7);
    uint16_t code = 7, codes[1] = {9};
    uint32_t seconds = 7;
    struct dnw_lexer lexer = {0, true};
    struct dnw_token token = {99, 99, 99};
    EXPECT(dnw_type_parse(BYTES("none"), &code) == DNW_UNKNOWN_TEXT && code == 7);
    EXPECT(dnw_class_parse(BYTES("nothing"), &code) == DNW_UNKNOWN_TEXT && code == 7);
    EXPECT(dnw_ttl_parse(BYTES("none"), &seconds) == DNW_BAD_TIME && seconds == 7);
    EXPECT(dnw_types_read(BYTES(""), codes, 0, &len) == DNW_DONE && len == 0);
    EXPECT(dnw_types_read(BYTES("\000\001\100"), codes, 1, &len) == DNW_NO_MEMORY && len == 0 && codes[0] == 9);
    code = 1;
    EXPECT(dnw_types_write(&code, 1, buffer, sizeof buffer, &len) == DNW_NO_MEMORY && len == 0);
    EXPECT(dnw_option_print(3, BYTES("a"), buffer, sizeof buffer, &len) == DNW_NO_MEMORY && len == 0);
    struct dnw_printed_part part = {7, 7};
    EXPECT(dnw_message_print(BYTES(referral), 9, 0, buffer, sizeof buffer, &part) == DNW_NO_MEMORY && part.len == 7);
    EXPECT(dnw_message_json(BYTES(referral), 9, 0, buffer, sizeof buffer, &part) == DNW_NO_MEMORY && part.total == 7);
    EXPECT(dnw_message_print(BYTES("none"), 9, 0, buffer, sizeof buffer, &part) == DNW_MESSAGE_CUT && untouched());
    struct dnw_option option = {.is_given = true};
    EXPECT(dnw_option_read(3, BYTES("a"), &option) == DNW_DONE && option.len == 1);
    EXPECT(dnw_option_write(3, &option, BYTES("a"), buffer, sizeof buffer, &len) == DNW_NO_MEMORY && len == 0);
    EXPECT(lex(BYTES("\r")) == DNW_TEXT_CUT && lex(BYTES(")")) == DNW_ILLEGAL_CHARACTER && lex(BYTES("$")) == DNW_UNKNOWN_ENTRY);
    EXPECT(lex(BYTES("(\001")) == DNW_CONTROL_CHARACTER && lex(BYTES("(a")) == DNW_NO_MEMORY);
    EXPECT(dnw_token_next(BYTES("a"), &lexer, buffer, sizeof buffer, &token) == DNW_NO_MEMORY && lexer.offset == 0);
    EXPECT(dnw_token_next(BYTES("$FOO"), &lexer, buffer, sizeof buffer, &token) == DNW_NO_MEMORY && token.kind == 99);
    struct dnw_zone zone;
    struct dnw_zone_entry entry = {.kind = 99};
    EXPECT(dnw_zone_begin(BYTES("\000"), &zone) == DNW_DONE && dnw_zone_include(BYTES("\001a\000"), &zone) == DNW_DONE);
    EXPECT(dnw_zone_next(BYTES("b 1 A 192.0.2.1"), false, &zone, buffer, sizeof buffer, &entry) == DNW_NO_MEMORY);
    EXPECT(untouched() && entry.kind == 99 && zone.offset == 0 && zone.owner_len == 0);
    EXPECT(dnw_zone_next(BYTES(""), false, &zone, buffer, sizeof buffer, &entry) == DNW_DONE && entry.kind == DNW_ZONE_END);
    static uint8_t room[DNW_ZONE_OCTETS_SIZE];
    struct dnw_zone_row row = {.len = 99};
    struct dnw_rows_read got;
    EXPECT(dnw_zone_read(BYTES("\n$TTL 5\nb A 192.0.2.1"), false, &zone, &row, 1, room, sizeof room, &got) == DNW_DONE);
    EXPECT(got.next == DNW_ZONE_ERROR && got.used == 8 && got.row_count == 0 && row.len == 99 && zone.default_ttl == 5 && zone.owner_len == 0);
    EXPECT(dnw_name_append(BYTES("\001a\000"), BYTES("\000"), buffer, sizeof buffer, &len) == DNW_DONE && len == 3);
    EXPECT(dnw_name_print(BYTES("\000"), false, buffer, 1, &len) == DNW_DONE && len == 1);
    struct dnw_record record;
    struct dnw_net net;
    EXPECT(read_record(sizeof referral - 1, 33, 255, &record) == DNW_DONE && data_name(45, 5, 255, &len) == DNW_DONE);
    EXPECT(dnw_reverse_name(BYTES("\300\000\002\001"), buffer, 255, &len) == DNW_DONE);
    EXPECT(dnw_reverse_parse(BYTES("\007in-addr\004arpa\000"), buffer, 4, &net) == DNW_DONE && net.prefix_len == 0);
    no_memory = false;
}

int main(void)
{
    make_message();
    reads_forms();
    refuses_forms();
    reads_texts();
    parses();
    completes();
    texts_go_wrong();
    prints();
    writes();
    refuses_to_write();
    reads_records();
    refuses_records();
    reverses();
    edits();
    codes();
    named_codes();
    serials();
    type_lists();
    times();
    tokens();
    refuses_tokens();
    long_tokens();
    tells_failures();
    is_of_this_version();
    lacks_memory();
    return 0;
}
