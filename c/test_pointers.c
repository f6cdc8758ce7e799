/* Calls the functions of dns_names_wire.h that read many names with lists whose names follow as many compression pointers as are
   allowed, with one more, and with a megabyte of the costliest names, which has to be refused at once. It prints nothing if all is
   well, and exits with 1 at the first result that is not the expected one. */
#include <time.h>

#include "dns_names_wire.h"
#include "input.h"

enum { MOST = 65536, MEGABYTE = 1 << 20, MOST_NAMES = MEGABYTE };

static size_t order[MOST_NAMES];

/* A pointer to an offset (RFC 1035, section 4.1.4). */
static void put_pointer(size_t offset)
{
    EXPECT(offset < 16384);
    put_word(0xC000 | offset);
}

/* So many pointers, each to the one before, and the first to the root at offset 0: the one with number n follows n + 1. */
static void put_chain(size_t count)
{
    size_t before = 0;
    for (size_t n = 0; n < count; n++) {
        size_t here = input_len;
        put_pointer(before);
        before = here;
    }
}

/* The root, and then names that are pointers. They follow 1 + 2 + .. + 361 pointers, which are 65,341, and `more` in the last name. */
static void begin_names(size_t more)
{
    input_len = 0;
    put("", 1);
    put_chain(361);
    put_pointer(1 + 2 * (more - 2));
}

static void counts_pointers_of_names(void)
{
    struct dnw_written_names written;
    begin_names(MOST - 65341);
    EXPECT(dnw_names_sort(input, input_len, order, MOST_NAMES) == DNW_DONE && order[0] == 0 && order[362] == 362);
    EXPECT(dnw_names_write(input, input_len, 65535, output, ROOM, &written) == DNW_DONE && written.count == 363);
    begin_names(MOST - 65341 + 1);
    order[0] = 7;
    written.count = 7;
    output[0] = 7;
    EXPECT(dnw_names_sort(input, input_len, order, MOST_NAMES) == DNW_TOO_MANY_POINTERS && order[0] == 7);
    EXPECT(dnw_names_write(input, input_len, 65535, output, ROOM, &written) == DNW_TOO_MANY_POINTERS && written.count == 7);
    EXPECT(output[0] == 7);
}

/* A record of this type with so many octets of data, up to these, after its owner. */
static void put_fields(uint16_t record_type, size_t data_len)
{
    put_word(record_type);
    put("\000\001\000\000\016\020", 6);
    put_word(data_len);
}

/* An RRSIG of the root by the root, which covers NS records, and then a record whose data are a chain of 511 pointers. */
static size_t begin_records(void)
{
    static const char fields[] = "\000\002\015\000\000\000\016\020\356\153\050\000\145\123\361\000\000\007\000sig";
    input_len = 0;
    put("", 1);
    put_fields(DNW_TYPE_RRSIG, sizeof fields - 1);
    put(fields, sizeof fields - 1);
    put("", 1);
    put_fields(DNW_TYPE_NULL, 2 * 511);
    put_chain(511);
    return input_len - 2;
}

/* So many NS records of the root. Owners and data each follow 512 pointers, or none. */
static void put_servers(size_t count, size_t end_of_chain, bool of_owner, bool of_data)
{
    for (size_t n = 0; n < count; n++) {
        if (of_owner)
            put_pointer(end_of_chain);
        else
            put("", 1);
        put_fields(DNW_TYPE_NS, of_data ? 2 : 1);
        if (of_data)
            put_pointer(end_of_chain);
        else
            put("", 1);
    }
}

static uint32_t signs(size_t count, bool of_owner, bool of_data)
{
    size_t len = 7;
    size_t chain = begin_records();
    put_servers(count, chain, of_owner, of_data);
    uint32_t answer = dnw_signed_octets(input, input_len, 0, 0, output, ROOM, &len);
    EXPECT(answer == DNW_DONE ? len == 19 + 12 : len == 7);
    return answer;
}

static uint32_t digests(size_t count, bool of_owner, bool of_data)
{
    size_t len = 7;
    size_t chain = begin_records();
    put_servers(count, chain, of_owner, of_data);
    uint32_t answer = dnw_zone_digest(BYTES("\000"), input, input_len, 1, output, ROOM, &len);
    EXPECT(len == (answer == DNW_DONE ? 48 : 7));
    return answer;
}

static void counts_pointers_of_records(void)
{
    EXPECT(signs(128, true, false) == DNW_DONE);
    EXPECT(signs(129, true, false) == DNW_TOO_MANY_POINTERS);
    EXPECT(signs(128, false, true) == DNW_DONE);
    EXPECT(signs(129, false, true) == DNW_TOO_MANY_POINTERS);
    EXPECT(signs(128, true, true) == DNW_DONE);
    EXPECT(signs(4096, false, false) == DNW_DONE);
    EXPECT(digests(128, true, false) == DNW_DONE);
    EXPECT(digests(129, true, false) == DNW_TOO_MANY_POINTERS);
    EXPECT(digests(128, false, true) == DNW_DONE);
    EXPECT(digests(129, false, true) == DNW_TOO_MANY_POINTERS);
    EXPECT(digests(64, true, true) == DNW_DONE);
    EXPECT(digests(65, true, true) == DNW_TOO_MANY_POINTERS);
    EXPECT(digests(4096, false, false) == DNW_DONE);
}

/* Data that are read before the name: the names of SOA records, and no name after a field that is none. */
static void counts_in_order(void)
{
    size_t len = 7;
    size_t chain = begin_records();
    for (int n = 0; n < 64; n++) {
        put("", 1);
        put_fields(DNW_TYPE_SOA, 4 + 20);
        put_pointer(chain);
        put_pointer(chain);
        put("\000\000\000\001\000\000\000\002\000\000\000\003\000\000\000\004\000\000\000\005", 20);
    }
    EXPECT(dnw_zone_digest(BYTES("\000"), input, input_len, 1, output, ROOM, &len) == DNW_DONE);
    put_servers(1, chain, false, true);
    EXPECT(dnw_zone_digest(BYTES("\000"), input, input_len, 1, output, ROOM, &len) == DNW_TOO_MANY_POINTERS);
    /* the data of the next record are no SOA's, so its second name is not read */
    input_len -= 1 + 10 + 2;
    put("", 1);
    put_fields(DNW_TYPE_SOA, 2);
    put("\100\000", 2);
    EXPECT(dnw_zone_digest(BYTES("\000"), input, input_len, 1, output, ROOM, &len) == DNW_RESERVED_OCTET);
}

/* The head of a response with so many answers, of which the first has a chain of so many pointers. Its id is 0, which is the root. */
static size_t begin_response(size_t answers, size_t pointers)
{
    input_len = 0;
    put("\000\000\200\000\000\000", 6);
    put_word(answers);
    put("\000\000\000\000", 4);
    put("", 1);
    put_fields(DNW_TYPE_NULL, 2 * pointers);
    put_chain(pointers);
    return input_len - 2;
}

static uint32_t packs(size_t count, bool of_owner, bool of_data)
{
    struct dnw_packed packed = {7, false};
    put_servers(count, begin_response(count + 1, 511), of_owner, of_data);
    uint32_t answer = dnw_message_pack(input, input_len, 65535, 0, output, ROOM, &packed);
    EXPECT(answer == DNW_DONE || packed.len == 7);
    return answer;
}

/* The owners are counted when the message is read, and the names in data apart from them. */
static void counts_pointers_of_a_message(void)
{
    EXPECT(packs(128, true, false) == DNW_DONE);
    EXPECT(packs(129, true, false) == DNW_TOO_MANY_POINTERS);
    EXPECT(packs(128, false, true) == DNW_DONE);
    EXPECT(packs(129, false, true) == DNW_TOO_MANY_POINTERS);
    EXPECT(packs(128, true, true) == DNW_DONE);
    EXPECT(packs(4096, false, false) == DNW_DONE);
}

static double seconds_since(clock_t start)
{
    return (double)(clock() - start) / CLOCKS_PER_SEC;
}

/* A megabyte of names, each of which follows 8,191 pointers. Without a limit these are four billion, which take a minute. A message
   of 64 KB that takes an eighth of a second without a limit is read a hundred times. */
static void refuses_a_megabyte_at_once(void)
{
    struct dnw_written_names written;
    struct dnw_packed packed;
    size_t len = 7;
    clock_t start = clock();
    input_len = 0;
    put("", 1);
    put_chain(8191);
    while (input_len + 2 <= MEGABYTE)
        put_pointer(1 + 2 * 8190);
    EXPECT(dnw_names_sort(input, input_len, order, MOST_NAMES) == DNW_TOO_MANY_POINTERS);
    EXPECT(dnw_names_write(input, input_len, 65535, output, ROOM, &written) == DNW_TOO_MANY_POINTERS);
    begin_records();
    input_len -= 2 * 511 + 11;
    put("", 1);
    put_fields(DNW_TYPE_NULL, 2 * 8000);
    put_chain(8000);
    put_servers((MEGABYTE - input_len) / 14, input_len - 2, true, true);
    EXPECT(dnw_signed_octets(input, input_len, 0, 0, output, ROOM, &len) == DNW_TOO_MANY_POINTERS);
    EXPECT(dnw_zone_digest(BYTES("\000"), input, input_len, 1, output, ROOM, &len) == DNW_TOO_MANY_POINTERS);
    put_servers(3808, begin_response(3809, 8000), false, true);
    for (int n = 0; n < 100; n++)
        EXPECT(dnw_message_pack(input, input_len, 65535, 0, output, ROOM, &packed) == DNW_TOO_MANY_POINTERS);
    EXPECT(seconds_since(start) < 5);
}

int main(void)
{
    counts_pointers_of_names();
    counts_pointers_of_records();
    counts_in_order();
    counts_pointers_of_a_message();
    refuses_a_megabyte_at_once();
    return 0;
}
