/* Calls dnw_message_table and dnw_record_data with good and with bad input. It prints nothing if all is well, and exits with 1
   at the first result that is not the expected one. Expected values are worked by hand from RFC 1035, sections 3.3 and 4.1, RFC
   9460, section 2.2, and RFC 3123, section 4. */
#include "dns_names_wire.h"
#include "expect.h"

/* A question at 12, and three answers: an MX at 24, a TXT at 43, and an MX at 64 with two octets after its name. */
#define QUESTION "\003www\002ab\000\000\017\000\001"
#define MAIL "\300\014\000\017\000\001\000\000\016\020\000\007\000\012\002mx\300\020"
#define TEXT "\300\020\000\020\000\001\000\000\000\005\000\011\003one\000\003two"
#define BAD "\300\014\000\017\000\001\000\000\000\001\000\006\000\001\300\020\000\000"

static const char answers[] = "\000\007\200\000\000\001\000\003\000\000\000\000" QUESTION MAIL TEXT BAD;

/* An SVCB and an APL at the root. */
#define SERVICE "\000\000\100\000\001\000\000\000\000\000\012\000\001\000\000\001\000\003\002h2"
#define PREFIX "\000\000\052\000\001\000\000\000\000\000\006\000\001\030\202\012\001"

static const char lists[] = "\000\007\200\000\000\000\000\000\000\001\000\001" SERVICE PREFIX;

static struct dnw_row rows[32];
static uint8_t names[256];
static const struct dnw_table no_table = {9, 9};

static uint32_t table_of(const uint8_t *octets, size_t len, size_t most, size_t rows_size, size_t names_size, struct dnw_table *table)
{
    memset(rows, 0xEE, sizeof rows);
    memset(names, 0xEE, sizeof names);
    *table = no_table;
    uint32_t answer = dnw_message_table(octets, len, most, rows, rows_size, names, names_size, table);
    if (answer != DNW_DONE)
        EXPECT(memcmp(table, &no_table, sizeof *table) == 0);
    return answer;
}

static bool has_name(const struct dnw_row *row, const char *form, size_t len)
{
    return row->name_len == len && memcmp(names + row->name, form, len) == 0;
}

static bool is_item(const struct dnw_row *row, uint32_t section, uint16_t type, uint32_t ttl, size_t offset, size_t len)
{
    return row->section == section && row->kind == 0 && row->record_type == type && row->record_class == 1
           && row->number == ttl && row->offset == offset && row->len == len;
}

static bool is_field(const struct dnw_row *row, uint32_t kind, uint32_t number, size_t offset, size_t len)
{
    return row->section == 0 && row->kind == kind && row->record_type == 0 && row->record_class == 0 && row->number == number
           && row->offset == offset && row->len == len;
}

static void lists_items_and_fields(void)
{
    struct dnw_table table;
    EXPECT(sizeof answers - 1 == 82);
    EXPECT(table_of(BYTES(answers), DNW_MAX_POINTERS, 32, 256, &table) == DNW_DONE);
    EXPECT(table.row_count == 13 && table.names_len == 8 + 8 + 7 + 4 + 8 + 4);
    EXPECT(is_item(&rows[0], DNW_SECTION_QUESTIONS, DNW_TYPE_MX, 0, 24, 0) && has_name(&rows[0], "\003www\002ab", 8));
    EXPECT(is_item(&rows[1], DNW_SECTION_ANSWERS, DNW_TYPE_MX, 3600, 36, 7) && has_name(&rows[1], "\003www\002ab", 8));
    EXPECT(is_field(&rows[2], DNW_FIELD_NUMBER, 0, 36, 2) && rows[2].name_len == 0);
    EXPECT(is_field(&rows[3], DNW_FIELD_NAME, 0, 38, 5) && has_name(&rows[3], "\002mx\002ab", 7));
    EXPECT(is_item(&rows[4], DNW_SECTION_ANSWERS, DNW_TYPE_TXT, 5, 55, 9) && has_name(&rows[4], "\002ab", 4));
    EXPECT(is_field(&rows[5], DNW_FIELD_TEXTS, 0, 55, 9));
    EXPECT(is_field(&rows[6], DNW_ROW_ENTRY, 0, 56, 3) && is_field(&rows[7], DNW_ROW_ENTRY, 0, 60, 0));
    EXPECT(is_field(&rows[8], DNW_ROW_ENTRY, 0, 61, 3));
    EXPECT(is_item(&rows[9], DNW_SECTION_ANSWERS, DNW_TYPE_MX, 1, 76, 6) && has_name(&rows[9], "\003www\002ab", 8));
    EXPECT(is_field(&rows[10], DNW_FIELD_NUMBER, 0, 76, 2));
    EXPECT(is_field(&rows[11], DNW_FIELD_NAME, 0, 78, 2) && has_name(&rows[11], "\002ab", 4));
    EXPECT(is_field(&rows[12], DNW_ROW_FAULT, DNW_WRONG_DATA_LENGTH, 80, 2) && rows[12].name_len == 0);
    EXPECT(rows[13].kind == 0xEEEEEEEE && names[39] == 0xEE);
}

static void lists_entries(void)
{
    struct dnw_table table;
    EXPECT(table_of(BYTES(lists), 0, 32, 256, &table) == DNW_DONE);
    EXPECT(table.row_count == 8 && table.names_len == 3);
    EXPECT(is_item(&rows[0], DNW_SECTION_AUTHORITIES, DNW_TYPE_SVCB, 0, 23, 10) && has_name(&rows[0], "", 1));
    EXPECT(is_field(&rows[1], DNW_FIELD_NUMBER, 0, 23, 2));
    EXPECT(is_field(&rows[2], DNW_FIELD_NAME, 0, 25, 1) && has_name(&rows[2], "", 1));
    EXPECT(is_field(&rows[3], DNW_FIELD_PARAMS, 0, 26, 7) && is_field(&rows[4], DNW_ROW_ENTRY, 1, 30, 3));
    EXPECT(is_item(&rows[5], DNW_SECTION_ADDITIONALS, DNW_TYPE_APL, 0, 44, 6) && has_name(&rows[5], "", 1));
    EXPECT(is_field(&rows[6], DNW_FIELD_PREFIXES, 0, 44, 6) && is_field(&rows[7], DNW_ROW_ENTRY, 1, 46, 4));
    EXPECT(table_of(BYTES("\000\007\200\000\000\000\000\000\000\000\000\000"), 0, 0, 0, &table) == DNW_DONE);
    EXPECT(table.row_count == 0 && table.names_len == 0);
}

/* A message that ends too early, too many pointers, and too little room. */
static void refuses_messages(void)
{
    struct dnw_table table;
    const uint8_t *octets = (const uint8_t *)answers;
    size_t len;
    for (len = 0; len < sizeof answers - 1; len++)
        EXPECT(table_of(octets, len, DNW_MAX_POINTERS, 32, 256, &table) == DNW_MESSAGE_CUT);
    EXPECT(table_of(BYTES(answers), 5, 13, 39, &table) == DNW_DONE);
    EXPECT(table_of(BYTES(answers), 4, 13, 39, &table) == DNW_TOO_MANY_POINTERS);
    EXPECT(table_of(BYTES(answers), 0, 13, 39, &table) == DNW_TOO_MANY_POINTERS);
    for (len = 0; len < 13; len++)
        EXPECT(table_of(BYTES(answers), 5, len, 39, &table) == DNW_NO_ROOM);
    for (len = 0; len < 39; len++)
        EXPECT(table_of(BYTES(answers), 5, 13, len, &table) == DNW_NO_ROOM);
    EXPECT(table_of(BYTES("\000\007\200\000\000\001\000\000\000\000\000\000\300\014\000\001\000\001"), 9, 9, 9, &table)
           == DNW_POINTER_NOT_BACK);
}

static uint32_t data_at(size_t start, size_t size, size_t *len)
{
    memset(names, 0xEE, sizeof names);
    *len = 7;
    uint32_t answer = dnw_record_data(BYTES(answers), start, names, size, len);
    if (answer != DNW_DONE)
        EXPECT(*len == 7 && names[0] == 0xEE);
    return answer;
}

static void puts_whole_data(void)
{
    size_t len;
    EXPECT(data_at(24, 9, &len) == DNW_DONE && len == 9 && memcmp(names, "\000\012\002mx\002ab", 9) == 0 && names[9] == 0xEE);
    EXPECT(data_at(43, 256, &len) == DNW_DONE && len == 9 && memcmp(names, "\003one\000\003two", 9) == 0);
    EXPECT(data_at(24, 8, &len) == DNW_NO_ROOM && data_at(24, 0, &len) == DNW_NO_ROOM);
    EXPECT(data_at(64, 256, &len) == DNW_WRONG_DATA_LENGTH);
    EXPECT(data_at(82, 256, &len) == DNW_MESSAGE_CUT && data_at(200, 256, &len) == DNW_MESSAGE_CUT);
}

/* An RRSIG with so many octets of data, whose signer is a pointer to a name of four octets. */
static uint32_t long_data(size_t size, size_t *len)
{
    static uint8_t message[4 + 12 + 65535], data[65536];
    memset(message, 0, sizeof message);
    memcpy(message, "\002ab\000\300\000\000\056\000\001", 10);
    message[14] = (uint8_t)(size >> 8), message[15] = (uint8_t)size, message[16 + 18] = 0300;
    *len = 7, data[0] = 0xEE;
    uint32_t answer = dnw_record_data(message, 16 + size, 4, data, sizeof data, len);
    EXPECT(answer == DNW_DONE ? memcmp(data + 18, "\002ab", 4) == 0 && data[*len - 1] == 0 : *len == 7 && data[0] == 0xEE);
    return answer;
}

/* Data with every name in its wire form have at most 65535 octets. */
static void data_have_lengths(void)
{
    size_t len;
    EXPECT(long_data(20, &len) == DNW_DONE && len == 22);
    EXPECT(long_data(65533, &len) == DNW_DONE && len == 65535);
    EXPECT(long_data(65534, &len) == DNW_DATA_TOO_LONG && long_data(65535, &len) == DNW_DATA_TOO_LONG);
}

int main(void)
{
    lists_items_and_fields();
    lists_entries();
    refuses_messages();
    puts_whole_data();
    data_have_lengths();
    return 0;
}
