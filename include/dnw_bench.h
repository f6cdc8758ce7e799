/* Functions for benchmarks: the static library libtest_bench.a, which `rt lib` builds in crates/test_bench. They are there
   to be timed: they promise to be safe and to return, and 0 if `count` is 0.

   Each does its set-up once, works through its input `count` times, and returns the sum of the checksums modulo 2^64. A
   failure adds 2^40. `names` is wire forms, one after another; `texts` has a line feed after each text;
   `sets` is bitmaps of record types, each after two octets that have its length. */
#ifndef DNW_BENCH_H
#define DNW_BENCH_H

#include <stddef.h>
#include <stdint.h>

#ifdef __cplusplus
extern "C" {
#endif

/* Reads the name at each start: the offset after it, and 65536 times the size of its wire form. */
uint64_t dnw_read_names(const uint8_t *message, size_t len, const uint32_t *starts, size_t n, uint64_t count);

/* Reads the name at each start in the place of the one before: as dnw_read_names. */
uint64_t dnw_read_over(const uint8_t *message, size_t len, const uint32_t *starts, size_t n, uint64_t count);

/* Writes all names into a new message, compressed: the length of the message. */
uint64_t dnw_emit_names(const uint8_t *names, size_t len, uint64_t count);

/* Writes all names into a new message, whole and in lower case: the length of the message. */
uint64_t dnw_emit_lower(const uint8_t *names, size_t len, uint64_t count);

/* Copies each name into a vector with room for all: the length of the vector. */
uint64_t dnw_clone_names(const uint8_t *names, size_t len, uint64_t count);

/* Copies each name in the place of the one before: the sizes of the wire forms. */
uint64_t dnw_copy_over(const uint8_t *names, size_t len, uint64_t count);

/* Reads each name into a growing vector: the length of the vector. */
uint64_t dnw_collect_names(const uint8_t *names, size_t len, uint64_t count);

/* Parses each text: the sizes of the wire forms. */
uint64_t dnw_parse_names(const uint8_t *texts, size_t len, uint64_t count);

/* Prints each name: the lengths of the texts. */
uint64_t dnw_to_ascii(const uint8_t *names, size_t len, uint64_t count);

/* Compares each name with the next in canonical order: 0, 1 or 2 if it is less, equal or greater. */
uint64_t dnw_compare(const uint8_t *names, size_t len, uint64_t count);

/* Sorts the names in canonical order: the sum of the sizes of their wire forms, each times its rank from 1. */
uint64_t dnw_sort(const uint8_t *names, size_t len, uint64_t count);

/* Hashes each name by SipHash 1-3: the hashes. */
uint64_t dnw_hash(const uint8_t *names, size_t len, uint64_t count);

/* Looks each name up in a vector of all, which have to be in canonical order: the number of each, from 1. */
uint64_t dnw_find_names(const uint8_t *names, size_t len, uint64_t count);

/* Goes through a vector of the names: the sizes of the wire forms. */
uint64_t dnw_list_names(const uint8_t *names, size_t len, uint64_t count);

/* Puts the names, in canonical order, into a table of wire forms: the number of names. */
uint64_t dnw_table_build(const uint8_t *names, size_t len, uint64_t count);

/* Looks each name up in such a table, as `dnw_find_names` does. */
uint64_t dnw_table_find(const uint8_t *names, size_t len, uint64_t count);

/* Goes through such a table, as `dnw_list_names` does. */
uint64_t dnw_table_list(const uint8_t *names, size_t len, uint64_t count);

/* Takes the tokens of a text: for each token 1 and the bytes of its texts. */
uint64_t dnw_lex(const uint8_t *text, size_t len, uint64_t count);

/* Reads each text as a time to live: the seconds. */
uint64_t dnw_parse_ttls(const uint8_t *texts, size_t len, uint64_t count);

/* Reads each set of types: the numbers of types. */
uint64_t dnw_read_type_sets(const uint8_t *sets, size_t len, uint64_t count);

/* Writes a set of the same types as each into a new message: the lengths of the messages. */
uint64_t dnw_emit_type_sets(const uint8_t *sets, size_t len, uint64_t count);

/* Reads the records of a message after its header, with their owners and the names in data of type NS, CNAME and PTR: the
   sizes of the wire forms of these names, the lengths of other data, and the times to live. */
uint64_t dnw_read_records(const uint8_t *message, size_t len, uint64_t count);

/* Writes the records of a message, compressed, into a new one after a header: the length of the message. The message is a
   header and records. */
uint64_t dnw_emit_records(const uint8_t *message, size_t len, uint64_t count);

/* Reads a whole message and looks at all of it but an OPT record: the id and the counts of the first three sections; for each
   name 1, and for each of its labels 1, the length and the last octet; types, classes and times to live; and the fields of data:
   numbers, an IPv4 address as a number, the first and the last octet of an IPv6 address, and for octets and each item of a list 1,
   the length and the last octet. Data that are no fields of their type are looked at up to the first that is none, which adds
   nothing. It does not allocate. */
uint64_t dnw_read_message(const uint8_t *message, size_t len, uint64_t count);

/* Checks a whole message, and walks over its records but an OPT record: the sizes of the wire forms of their owners, their types,
   their times to live, and the octets of the values of their data's fields, of names those of their wire forms. It does not
   allocate. */
uint64_t dnw_walk_message(const uint8_t *message, size_t len, uint64_t count);

/* Reads the data of the records of a message, whose owners were read before, by their fields: what dnw_read_message adds for
   these. If the message cannot be read, the result is 0. */
uint64_t dnw_read_fields(const uint8_t *message, size_t len, uint64_t count);

/* Writes the questions and records of a message, compressed, into a new message of at most max_size octets: its length. If the
   message cannot be read, the result is 0. */
uint64_t dnw_write_message(const uint8_t *message, size_t len, uint16_t max_size, uint64_t count);

/* Reads the entries of a zone file below the root: the octets of its records, whose names are not compressed. An entry that is none
   counts as a failure. */
uint64_t dnw_read_zone(const uint8_t *text, size_t len, uint64_t count);

#ifdef __cplusplus
}
#endif

#endif
