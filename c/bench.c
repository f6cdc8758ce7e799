/* Calls each function of dnw_bench.h and compares its checksum. It exits with 1 at the first that is not the expected
   one. */
#include "dnw_bench.h"
#include "expect.h"
#include "message.h"

int main(void)
{
    make_message();
    static const uint32_t starts[] = {20, 40, 64, 92};
    static const uint32_t refused[] = {0, 94};
    /* the ends, and the lengths of the wire forms */
    uint64_t sum = (32 + 46 + 66 + 93) + 65536 * (uint64_t)(12 + 16 + 6 + 1);
    EXPECT(dnw_read_names(message, sizeof message, starts, 4, 0) == 0);
    EXPECT(dnw_read_names(message, sizeof message, starts, 4, 3) == 3 * sum);
    EXPECT(dnw_read_names(message, sizeof message, refused, 2, 1) == (uint64_t)1 << 41);
    EXPECT(dnw_read_over(message, sizeof message, starts, 4, 3) == 3 * sum);
    EXPECT(dnw_read_over(message, sizeof message, refused, 2, 1) == (uint64_t)1 << 41);
    EXPECT(dnw_parse_names(BYTES("a.bc.\n.\n"), 2) == 14);
    EXPECT(dnw_parse_names(BYTES("a..\na\n"), 1) == ((uint64_t)1 << 40) + 3);
    EXPECT(dnw_parse_names(BYTES("\377"), 1) == 0);
    EXPECT(dnw_to_ascii(BYTES("\001a\002bc\000\000"), 2) == 12);
    EXPECT(dnw_to_ascii(BYTES("\001a"), 2) == 0);
    EXPECT(dnw_emit_names(BYTES("\001a\002bc\000\000"), 2) == 14);
    EXPECT(dnw_emit_names(BYTES("\001a"), 2) == 0);
    EXPECT(dnw_emit_names(BYTES("\001a\000"), 0) == 0);
    EXPECT(dnw_emit_lower(BYTES("\001A\002bc\000\001A\002bc\000"), 2) == 24);
    EXPECT(dnw_clone_names(BYTES("\001a\002bc\000\000"), 3) == 6);
    EXPECT(dnw_copy_over(BYTES("\001a\002bc\000\000"), 3) == 3 * (6 + 1));
    EXPECT(dnw_collect_names(BYTES("\001a\002bc\000\000"), 3) == 6);
    EXPECT(dnw_collect_names(BYTES("\001a"), 1) == (uint64_t)1 << 40);
    EXPECT(dnw_compare(BYTES("\001b\000\001A\000\001a\000\001c\000"), 2) == 2 * (2 + 1 + 0));
    EXPECT(dnw_sort(BYTES("\002bb\000\001A\000\000"), 1) == 1 * 1 + 2 * 3 + 3 * 4);
    EXPECT(dnw_hash(BYTES("\001A\000"), 1) == dnw_hash(BYTES("\001a\000"), 1));
    EXPECT(dnw_find_names(BYTES("\000\001A\000\002bb\000"), 2) == 2 * (1 + 2 + 3));
    EXPECT(dnw_list_names(BYTES("\000\001A\000\002bb\000"), 2) == 2 * (1 + 3 + 4));
    EXPECT(dnw_table_build(BYTES("\000\001A\000\002bb\000"), 2) == 2 * 3);
    EXPECT(dnw_table_build(BYTES("\001A\000\001a\000"), 1) == (uint64_t)1 << 40);
    EXPECT(dnw_table_find(BYTES("\000\001A\000\002bb\000"), 2) == 2 * (1 + 2 + 3));
    EXPECT(dnw_table_list(BYTES("\000\001A\000\002bb\000"), 2) == 2 * (1 + 3 + 4));
    EXPECT(dnw_table_list(BYTES("\001A\000\001a\000"), 1) == 0);
    EXPECT(dnw_lex(BYTES("@ IN (a bc) ; to the end\n"), 2) == 2 * (1 + 3 + 4 + 1));
    EXPECT(dnw_lex(BYTES("a )"), 1) == ((uint64_t)1 << 40) + 2);
    EXPECT(dnw_lex(BYTES("\377"), 1) == 0);
    EXPECT(dnw_parse_ttls(BYTES("1h30m\n300\n"), 2) == 2 * 5700);
    EXPECT(dnw_parse_ttls(BYTES("1x\n1s\n"), 1) == ((uint64_t)1 << 40) + 1);
    EXPECT(dnw_read_type_sets(BYTES("\000\003\000\001\140\000\000"), 2) == 4);
    EXPECT(dnw_read_type_sets(BYTES("\000\003\000\000\001"), 1) == (uint64_t)1 << 40);
    EXPECT(dnw_emit_type_sets(BYTES("\000\004\000\002\140\000\000\000"), 2) == 2 * 3);
    EXPECT(dnw_emit_type_sets(BYTES("\000\003\000"), 2) == 0);
    /* a header, then a. A 1 with four octets, and a. NS 2 with b.a., whose names have 3, 3 and 5 octets */
    static const uint8_t records[] = "\0\0\0\0\0\0\0\0\0\0\0\0"
                                     "\001a\000\0\1\0\1\0\0\0\1\0\4\1\2\3\4"
                                     "\300\014\0\2\0\1\0\0\0\2\0\4\001b\300\014";
    EXPECT(dnw_read_records(records, sizeof records - 1, 2) == 2 * (3 + 4 + 1 + 3 + 5 + 2));
    EXPECT(dnw_read_records(records, sizeof records - 2, 1) == (uint64_t)1 << 40);
    EXPECT(dnw_emit_records(records, sizeof records - 1, 2) == 2 * (sizeof records - 1));
    EXPECT(dnw_emit_records(records, 11, 1) == 0);
    /* id 7, a question a. A 1, an answer a. A 1 with time to live 1 and address 0.0.1.2, and an authority record a. NS 1 with
       time to live 2 and name b.a. */
    static const uint8_t whole[] = "\0\7\200\0\0\1\0\1\0\1\0\0"
                                   "\001a\000\0\1\0\1"
                                   "\300\014\0\1\0\1\0\0\0\1\0\4\0\0\1\2"
                                   "\300\014\0\2\0\1\0\0\0\2\0\4\001b\300\014";
    uint64_t a = 1 + 1 + 1 + 'a', ba = a + 1 + 1 + 'b';
    uint64_t all = 7 + 3 + (a + 2) + (a + 3 + 258) + (a + 5 + ba);
    EXPECT(dnw_read_message(whole, sizeof whole - 1, 0) == 0);
    EXPECT(dnw_read_message(whole, sizeof whole - 1, 2) == 2 * all);
    EXPECT(dnw_read_message(whole, sizeof whole - 2, 1) == (uint64_t)1 << 40);
    EXPECT(dnw_walk_message(whole, sizeof whole - 1, 2) == 2 * ((3 + 1 + 1 + 4) + (3 + 2 + 2 + 5)));
    EXPECT(dnw_walk_message(whole, sizeof whole - 2, 1) == (uint64_t)1 << 40);
    EXPECT(dnw_read_fields(whole, sizeof whole - 1, 2) == 2 * (258 + ba));
    EXPECT(dnw_read_fields(whole, sizeof whole - 2, 1) == 0);
    EXPECT(dnw_write_message(whole, sizeof whole - 1, 512, 2) == 2 * (sizeof whole - 1));
    EXPECT(dnw_write_message(whole, sizeof whole - 1, sizeof whole - 2, 1) == sizeof whole - 1 - 16);
    /* a message has its header whatever the maximum is */
    EXPECT(dnw_write_message(whole, sizeof whole - 1, 11, 1) == 12);
    EXPECT(dnw_write_message(whole, 11, 512, 1) == 0);
    /* two records of the owner a, with 4 and 3 octets of data, and an entry that is none */
    static const uint8_t zone[] = "$TTL 1\na. A 192.0.2.1 ; an address\n NS b.\n";
    EXPECT(dnw_read_zone(zone, sizeof zone - 1, 0) == 0);
    EXPECT(dnw_read_zone(zone, sizeof zone - 1, 2) == 2 * ((3 + 10 + 4) + (3 + 10 + 3)));
    EXPECT(dnw_read_zone(zone, sizeof zone - 5, 1) == 3 + 10 + 4 + ((uint64_t)1 << 40));
    return 0;
}
