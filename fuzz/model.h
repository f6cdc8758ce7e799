/* What the functions of dns_names_wire.h must return, written once more in plain C: from RFC 1035, from RFC 4034, and from
   the header. It shares no line with the library, and it is compiled with the fuzzer's counters, so that inputs are
   searched for that take new branches here. */
#ifndef MODEL_H
#define MODEL_H

#include <stdbool.h>
#include <stddef.h>
#include <stdint.h>

#include "dns_names_wire.h"

/* A name: its wire form, and where its own octets end in the message that it was read from. */
struct model_name {
    uint8_t form[DNW_FORM_SIZE];
    size_t len;
    size_t end;
};

/* What the text of a name gives. */
struct model_text {
    uint8_t form[DNW_FORM_SIZE];
    size_t len;
    bool is_fqdn;
};

/* A candidate for compression: where labels were written, and their octets, without the zero octet at the end. */
struct model_candidate {
    size_t offset;
    uint8_t form[DNW_FORM_SIZE];
    size_t len;
};

enum { MODEL_CANDIDATES = 64 };

/* A message that is being written at `out`, which has room for 65,535 bytes. */
struct model_writer {
    struct model_candidate candidates[MODEL_CANDIDATES];
    size_t candidate_count;
    size_t compressed;
    size_t offset;
    size_t max_size;
    uint8_t *out;
};

/* Returns the number that octets are in network byte order. */
uint32_t model_number(const uint8_t *octets, size_t count);

/* Each returns DNW_DONE or the failure. */
uint32_t model_read(const uint8_t *message, size_t len, size_t start, struct model_name *name);
uint32_t model_record(const uint8_t *message, size_t len, size_t start, struct model_name *owner,
                      struct dnw_record *record);
/* How many pointers the name at an offset follows, if one is there. */
size_t model_pointers(const uint8_t *message, size_t at);

uint32_t model_form(const uint8_t *form, size_t len, struct model_name *name);
uint32_t model_parse(const uint8_t *text, size_t len, struct model_text *parsed);

/* The fields of a type: `n` a name, a digit a number of so many octets, `i` and `I` addresses, `t` a type, `T` a time, `s` a
   character string, `c` octets after their number, `w` octets after one of two octets, `V` a time of six octets, `Y` eight octets
   of a locator, `L`, `G`, `R` and `H` octets whose first ones say what follows, `x` a text, `o` and `b` octets up to the end, and
   `S`, `B`, `P`, `A` and `N` lists. */
const char *model_fields_of(uint16_t class, uint16_t type, const uint8_t *data, size_t len);

/* How many octets are before the value of a field. */
size_t model_head(char letter);

/* The next field of data that end at `end`, or their end. */
uint32_t model_next(const uint8_t *message, size_t end, size_t start, uint16_t class, uint16_t type, struct dnw_fields *fields,
                    struct dnw_field *field);

/* Puts the text of a wire form into `text`, which has DNW_TEXT_SIZE bytes, and returns its length. */
size_t model_print(const struct model_name *name, bool is_fqdn, uint8_t *text);

/* Each returns false if the message would go past its maximum size, and then the writer is unchanged. */
bool model_write_bytes(struct model_writer *w, const uint8_t *bytes, size_t len);
bool model_write_name(struct model_writer *w, const struct model_name *name, bool is_compressed);

/* Whether canonical form puts the names of a type in lower case (RFC 4034, section 6.2, and RFC 6840, section 5.1). */
bool model_is_lowered(uint16_t type);

/* Why the data of a record are none of its type. */
uint32_t model_data_failure(const uint8_t *message, const struct dnw_record *record);

/* Writes data, which are fields of their type: names are compressed if the type is one of RFC 1035, or are in canonical form. */
bool model_write_fields(struct model_writer *w, const uint8_t *message, const struct dnw_record *record, bool is_canonical);

/* Writes a list into a message at `out`, which has room for 65,535 bytes, and puts the message's length and its names. */
uint32_t model_write(const uint8_t *list, size_t list_len, size_t max_size, uint8_t *out,
                     struct dnw_written_names *written);

int model_compare(const struct model_name *left, const struct model_name *right);

/* Puts how many names of a list there are before the first that is none, which is the failure. */
uint32_t model_count(const uint8_t *list, size_t len, size_t *count);

/* The numbers are those of all the names of a list, in order. */
bool model_is_sorted(const uint8_t *list, size_t len, const size_t *order, size_t count);

bool model_in_zone(const struct model_name *name, const struct model_name *zone);
void model_lower(struct model_name *name);

/* What of a message decides which of its records are required: its flags, the type that its first question asks for (UINT32_MAX if it
   has none), the owner of the last answer of that type, and the owner of the first NS of the Authority section. */
struct model_purpose {
    uint16_t flags;
    uint32_t asked;
    bool has_found, has_cut;
    struct model_name found, cut;
    /* a server of the section is left out */
    bool server_out;
};

struct model_purpose model_purpose(uint16_t flags);

/* Takes one more record of a section: 1 for the answers, 2 for the authorities, 3 for the others. */
void model_take(struct model_purpose *purpose, int section, const struct model_name *owner, uint16_t type);

/* Nothing of the message is ever left out. */
bool model_is_uncut(const struct model_purpose *purpose);

/* A response has to have the record, which is left out (RFC 2181, section 9; RFC 2308; RFC 4035, section 3.1; RFC 9471). */
bool model_is_required(struct model_purpose *purpose, int section, const struct model_name *owner, uint16_t type,
                       const uint8_t *data, size_t data_len);

/* A record as one of a set: its owner, type, class and data. */
struct model_member {
    struct model_name owner;
    uint16_t type, class;
    const uint8_t *data;
    size_t len;
};

/* How many pairs of records are compared at most, to see if half of a set is there. */
#define MODEL_PAIRS 4096

/* Half of a set is there, if the first record is and the other is left out: the other is of its set, or of that which it signs. */
bool model_halves(const struct model_member *there, const struct model_member *left);

/* Both are the same record. */
bool model_are_the_same(const struct model_member *x, const struct model_member *y);

/* Both are of one set, which is written whole or not at all if they follow each other: the signatures of NS are of its set. */
bool model_are_of_one_set(const struct model_member *first, const struct model_member *other);

/* Puts the data of a record at `*at` of a buffer, with names whole, and lowered or not, and moves `*at` past them. Returns why they
   are none of their type. */
uint32_t model_put_data(const uint8_t *message, const struct dnw_record *record, bool lowers, uint8_t *out, size_t *at);

bool model_is_utf8(const uint8_t *text, size_t len);

/* Returns the character at the front of a text, and the number of its bytes, which is 0 if no UTF-8 is there (RFC 3629,
   section 4). */
uint32_t model_character(const uint8_t *text, size_t len, size_t *bytes);

/* Control characters (Cc) and white space (White_Space) of Unicode. */
bool model_is_control(uint32_t c);
bool model_is_space(uint32_t c);

#endif
