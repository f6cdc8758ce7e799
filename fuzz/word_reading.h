/* Words of the text of data, and the octets that they are, in plain C. What takes a word moves past it, and returns false if it is not
   what it has to be; what puts octets does so after those that are there. */
#ifndef WORD_READING_H
#define WORD_READING_H

#include "harness.h"

/* What is left of a text, and the octets so far. */
struct reader {
    struct part left;
    struct part origin;
    uint8_t *out;
    size_t len;
};

bool is_blank(uint8_t c);
bool is_digit(uint8_t c);
void put(struct reader *r, uint32_t number, size_t size);
void skip_blanks(struct reader *r);
struct part take_word(struct reader *r);

/* The part of a text before a character, and in its place that after it; all of it and nothing if the character is not there. */
struct part cut_at(struct part *text, uint8_t c);

bool is_number(struct part word, uint64_t most, uint64_t *number);
bool take_number(struct reader *r, uint32_t most, size_t size);
int hex_digit(uint8_t c);

/* Pairs of digits, among which the characters of `between` mean nothing. */
bool put_hex(struct reader *r, struct part text, const char *between);
bool put_base64(struct reader *r, struct part text);
bool put_address(struct reader *r, struct part word, size_t size);
bool put_string(struct reader *r, struct part word);
bool take_name(struct reader *r);

/* Takes fields up to the end. */
bool take_each(struct reader *r, bool (*take)(struct reader *));

/* Puts the octets of all that is left. */
bool take_rest(struct reader *r, bool (*put_text)(struct reader *, struct part));

/* A word that is octets after their number. */
bool take_counted(struct reader *r, bool (*put_text)(struct reader *, struct part));

#endif
