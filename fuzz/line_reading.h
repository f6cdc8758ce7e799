/* Lines of master files, in plain C: a line that a text begins with, and what is between the owner and the data of a record. */
#ifndef LINE_READING_H
#define LINE_READING_H

#include "word_reading.h"

/* Puts the first entry of a text into a line: a space for what is of comments and parentheses, and for the ends of lines in these.
   The length is that of the entry too, without the end of its line. */
uint32_t model_scan(struct part text, uint8_t *line, size_t *len);

/* A time to live and a class, in either order. */
struct head {
    bool has_ttl, has_class;
    uint32_t ttl;
    uint16_t class;
};

/* Takes what there is of both. */
struct head take_head(struct reader *r);

/* Takes a type; `*` asks for all types, and is none. */
bool take_code(struct reader *r, uint16_t *code);

/* A time to live: seconds, or numbers that each have a unit. */
bool is_ttl(struct part word, uint32_t *ttl);

#endif
