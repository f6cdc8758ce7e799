/* Calls the functions of dns_names_wire.h that can fail with DNW_NO_MEMORY and that take records with a record of each type, while there
   is memory. No contract refuses a body that reports out of memory for some type, so this has to. It prints nothing if all is well,
   and exits with 1 at the first result that is not the expected one. What is written is worked out by hand from RFC 1035, sections
   3.2.1 and 4.1, and RFC 4034, sections 3.1.8.1 and 6: the names of all data are in lower case. */
#include "dns_names_wire.h"
#include "input.h"

/* A type and data of it, in hexadecimal. */
static const struct row {
    uint16_t record_type;
    const char *digits;
} rows[] = {
    {1, "c0000201"},
    {2, "036e7331076578616d706c6503636f6d00"},
    {3, "0161076578616d706c6500"},
    {4, "0162076578616d706c6500"},
    {5, "0161076578616d706c6500"},
    {6, "026e73076578616d706c65000561646d696e076578616d706c650078a3f17500001c2000000e10001275000000012c"},
    {7, "016d00"},
    {8, "01670767726f75702d6700"},
    {9, "016d016200"},
    {10, "0001ff"},
    {11, "0a0000010600000040"},
    {12, "04686f7374076578616d706c6500"},
    {13, "025043074c696e75782035"},
    {14, "0172000165016500"},
    {15, "000a046d61696c076578616d706c6503636f6d00"},
    {16, "0b763d73706631202d616c6c056122625c6302c878"},
    {17, "046d626f78076578616d706c650003747874076578616d706c6500"},
    {18, "000103616673076578616d706c6500"},
    {19, "0c333131303631373030393536"},
    {20, "03616263"},
    {21, "0002017200"},
    {22, "47000580005a00"},
    {23, "016100"},
    {24, "00010503000151803e7c9dd73e5510d70a52016500a09075"},
    {25, "010003050103d22a6ca7"},
    {26, "0032016100016200"},
    {27, "082d33322e36383832083131362e383635320431302e30"},
    {28, "20010db8000000000000000000000001"},
    {29, "002325238ce82360854a10a000989a68"},
    {30, "016d00400100000002"},
    {33, "0000000513c403736970076578616d706c6503636f6d00"},
    {35, "0064000a0175074532552b7369701b215e2e2a24217369703a696e666f406578616d706c652e636f6d2100"},
    {36, "000a026b78076578616d706c6500"},
    {37, "00010002030103d22a6ca77f35b8"},
    {38, "0020010db8000000000000000000000001"},
    {39, "0164076578616d706c6500"},
    {42, "00011503c0a82000011c83c0a826"},
    {43, "ec4505012bb183af5f22588179a53b0a98631fad1a292118"},
    {44, "0201123456789abcdef67890123456789abcdef67890"},
    {45, "0a0102c0000226010351537986ed"},
    {46, "00010503000151803e7c9dd73e5510d70a52076578616d706c6503636f6d00a090755ba58d1affa576f4375831b4310920e481218d18a9f164eb"},
    {47, "04686f7374076578616d706c6503636f6d000006400100000003041b000000000000000000000000000000000000000000000000000020"},
    {48, "010003050103d22a6ca77f35b893206fd35e4c506d8378843709b97e041647e1bff43d8d64c649af1e371973c9e8"},
    {49, "000201636fc0b8"},
    {50, "0101000c04aabbccdd14174eb2409fe28bcb4887a1836f957f0a8425e27b000722010000000290"},
    {51, "0100000c04aabbccdd"},
    {52, "0301010123456789abcdef"},
    {53, "0301010123456789abcdef"},
    {55, "01020001000003727673076578616d706c6500"},
    {56, "0161"},
    {57, "00000301aabb"},
    {58, "016100016200"},
    {59, "ec4505012bb183af5f22588179a53b0a98631fad1a292118"},
    {60, "010003050103d22a6ca77f35b893206fd35e4c506d83"},
    {61, "0103d22a6ca77f35b893206fd35e4c506d83"},
    {62, "000000420003000460000008"},
    {63, "7848b91c0101c68090d90a7aed716bc459f9340e3d7c1370d4d24b7e2fc3a1ddc0b9a87153b9a9713b3c9ae5cc27777f98b8e730044c"},
    {64, "000103666f6f076578616d706c6503636f6d00000300020035"},
    {65, "000003666f6f076578616d706c6500"},
    {66, "003b0114eb016100"},
    {67, "aabb"},
    {68, "ccdd"},
    {99, "0b763d73706631202d616c6c"},
    {104, "000a00144fffff20ee64"},
    {105, "000ac0000201"},
    {106, "000a20010db811401000"},
    {107, "000a016100"},
    {108, "00005e00532a"},
    {109, "00005eef1000002a"},
    {249, "0161005f0f90435f10e1c3000300000002aabb0000"},
    {256, "000a00016674703a2f2f667470312e6578616d706c652e636f6d2f7075626c6963"},
    {257, "000569737375656c657473656e63727970742e6f7267"},
    {258, "0161"},
    {259, "0000000100000002030474657874aabb"},
    {260, "0a81cb00710f"},
    {261, "0161"},
    {262, "0161"},
    {263, "0161"},
    {264, "0000000000000007"},
    {32768, "ec450501aabb"},
    {32769, "ec450501aabb"},
    {65280, "00"},
};

enum { ROWS = sizeof rows / sizeof rows[0], TTL = 60, HEAD = 11, HEADER = 12, SHA_384 = 48 };

/* The data that are tried, and the record of the root that has them. */
static uint8_t data[512], record[512 + HEAD];
static size_t data_len, record_len;

static void take_row(const struct row *row)
{
    unsigned octet;
    data_len = strlen(row->digits) / 2;
    for (size_t n = 0; n < data_len; n++) {
        EXPECT(sscanf(row->digits + 2 * n, "%2x", &octet) == 1);
        data[n] = (uint8_t)octet;
    }
    input_len = 0;
    put("", 1);
    put_word(row->record_type);
    put("\000\001\000\000\000\074", 6);
    put_word(data_len);
    put(data, data_len);
    record_len = input_len;
    memcpy(record, input, record_len);
}

static bool is_output(const void *octets, size_t len, size_t stored)
{
    return stored == len && memcmp(output, octets, len) == 0;
}

static void reads(void)
{
    size_t len = 7;
    EXPECT(dnw_record_data(record, record_len, 0, output, sizeof output, &len) == DNW_DONE && is_output(data, data_len, len));
    EXPECT(dnw_record_sort_key(record, record_len, 0, output, sizeof output, &len) == DNW_DONE);
    EXPECT(len == data_len + 5 && memcmp(output + 5, data, data_len) == 0);
}

/* The record as a line, its data in it, and an entry of a zone file. */
static void prints_and_parses(uint16_t record_type)
{
    static uint8_t line[4096];
    struct dnw_printed_record printed;
    struct dnw_text_fault fault;
    size_t len = 7, at = 0;
    EXPECT(dnw_record_print(record, record_len, 0, line, sizeof line, &printed) == DNW_DONE && printed.end == record_len);
    EXPECT(dnw_record_parse(line, printed.len, line, 0, output, sizeof output, &len) == DNW_DONE);
    EXPECT(is_output(record, record_len, len));
    EXPECT(dnw_record_text_fault(line, printed.len, line, 0, &fault) == DNW_DONE && fault.reason == DNW_REASON_NONE);
    /* after the owner, the time to live, the class and the type */
    for (int spaces = 0; spaces < 4 && at < printed.len; at++)
        spaces += line[at] == ' ';
    EXPECT(dnw_data_parse(record_type, 1, line + at, printed.len - at, line, 0, output, sizeof output, &len) == DNW_DONE);
    EXPECT(is_output(data, data_len, len));
    EXPECT(dnw_data_text_fault(record_type, 1, line + at, printed.len - at, line, 0, &fault) == DNW_DONE);
    EXPECT(fault.reason == DNW_REASON_NONE);
}

/* OPT, and types of 128 to 255, are none of a zone. */
static bool is_of_zone(uint16_t record_type)
{
    return record_type != DNW_TYPE_OPT && (record_type < 128 || record_type > 255);
}

static void puts_and_takes(uint16_t record_type)
{
    static uint8_t line[4096];
    struct dnw_printed_record printed;
    struct dnw_zone zone;
    struct dnw_zone_entry entry;
    EXPECT(dnw_zone_begin((const uint8_t *)"\001a", 3, &zone) == DNW_DONE);
    EXPECT(dnw_zone_put_record(record, record_len, 0, &zone, line, sizeof line, &printed) == DNW_DONE);
    EXPECT(dnw_zone_begin((const uint8_t *)"\001a", 3, &zone) == DNW_DONE);
    EXPECT(dnw_zone_next(line, printed.len, false, &zone, output, sizeof output, &entry) == DNW_DONE);
    if (is_of_zone(record_type))
        EXPECT(entry.kind == DNW_ZONE_RECORD && is_output(record, record_len, entry.len));
    else
        EXPECT(entry.kind == DNW_ZONE_ERROR && entry.fault.reason == DNW_REASON_OTHER_TYPE);
}

/* The RRSIG is before the section, and not one of the records that it covers. */
static void signs(uint16_t record_type)
{
    static const char rest[] = "\010\000\000\000\000\074\000\000\000\002\000\000\000\001\000\007";
    size_t len = 7, start;
    input_len = 0;
    put("", 1);
    put_word(DNW_TYPE_RRSIG);
    put("\000\001\000\000\000\074", 6);
    put_word(2 + sizeof rest);
    size_t fields = input_len;
    put_word(record_type);
    put(rest, sizeof rest);
    start = input_len;
    put(record, record_len);
    EXPECT(dnw_signed_octets(input, input_len, start, 0, output, sizeof output, &len) == DNW_DONE);
    EXPECT(is_output(input + fields, input_len - fields, len));
}

/* What is hashed of the zone begins with the octet of the root, as what is hashed for a DS record does. The digest of the zone is left
   out of it. */
static void sums_and_checks(uint16_t record_type)
{
    uint8_t wanted[SHA_384];
    struct dnw_zone_finding findings[16];
    size_t len = 7, count = 7;
    bool lacks_soa = false, lacks_servers = false;
    EXPECT(dnw_ds_digest((const uint8_t *)"", 1, record + 1, record_len - 1, 4, wanted, sizeof wanted, &len) == DNW_DONE);
    EXPECT(dnw_zone_digest((const uint8_t *)"", 1, record, record_len, 1, output, sizeof output, &len) == DNW_DONE);
    EXPECT(is_output(wanted, sizeof wanted, len) == (record_type != DNW_TYPE_ZONEMD));
    EXPECT(dnw_zone_check((const uint8_t *)"", 1, record, record_len, findings, 16, &count) == DNW_DONE);
    for (size_t n = 0; n < count; n++) {
        lacks_soa = lacks_soa || findings[n].check == DNW_CHECK_NO_SOA;
        lacks_servers = lacks_servers || findings[n].check == DNW_CHECK_NO_NS;
    }
    EXPECT(lacks_soa == (record_type != DNW_TYPE_SOA) && lacks_servers == (record_type != DNW_TYPE_NS));
}

/* The text of a message with the record ends with its line. */
static void prints(void)
{
    static uint8_t line[ROOM];
    struct dnw_printed_record printed;
    struct dnw_printed_part part;
    EXPECT(dnw_record_print(record, record_len, 0, line, sizeof line, &printed) == DNW_DONE);
    EXPECT(dnw_message_print(input, input_len, 9, 0, output, sizeof output, &part) == DNW_DONE && part.total > printed.len);
    EXPECT(memcmp(output + part.total - printed.len, line, printed.len) == 0 && output[part.total - printed.len - 1] == '\n');
    EXPECT(dnw_message_json(input, input_len, 9, 0, output, sizeof output, &part) == DNW_DONE && part.total > 2 * data_len);
}

/* Names in the data may be compressed. */
static void packs(void)
{
    static uint8_t message[1024], owner[DNW_FORM_SIZE];
    struct dnw_packed packed;
    struct dnw_record answer;
    size_t len = 7;
    input_len = 0;
    put("\000\007\204\000\000\000\000\001\000\000\000\000", HEADER);
    put(record, record_len);
    EXPECT(dnw_message_pack(input, input_len, sizeof message, 0, message, sizeof message, &packed) == DNW_DONE && !packed.truncated);
    EXPECT(dnw_record_read(message, packed.len, HEADER, owner, sizeof owner, &answer) == DNW_DONE && answer.end == packed.len);
    EXPECT(dnw_record_data(message, packed.len, HEADER, output, sizeof output, &len) == DNW_DONE && is_output(data, data_len, len));
    prints();
}

int main(void)
{
    for (size_t n = 0; n < ROWS; n++) {
        take_row(&rows[n]);
        reads();
        prints_and_parses(rows[n].record_type);
        puts_and_takes(rows[n].record_type);
        signs(rows[n].record_type);
        sums_and_checks(rows[n].record_type);
        packs();
    }
    return 0;
}
