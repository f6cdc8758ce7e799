/* The text of each field of data, in plain C, from the RFC of its type. */
#ifndef FIELD_TEXTS_H
#define FIELD_TEXTS_H

#include "harness.h"

/* A bitmap of 2,500 octets has the names of some 19,000 types. */
enum { MOST = 240 * 1024 };

/* Text or octets that grow. */
struct made {
    uint8_t bytes[MOST];
    size_t len;
};

void add(struct made *made, const void *bytes, size_t len);
void add_text(struct made *made, const char *text);
void add_number(struct made *made, const char *form, uint32_t number);
void add_hex(struct made *made, const uint8_t *octets, size_t len);

/* The text of a name without compression. */
void add_name(struct made *made, const uint8_t *form);

/* The text of a type or a class. */
void add_code(struct made *made, uint32_t (*print)(uint16_t, uint8_t *, size_t, size_t *), uint16_t code);

/* Adds the text of a field, each word after a space. A field is a letter of `model_fields_of`, and a name is without compression.
   Returns false if it has no text. */
bool add_field_text(struct made *made, uint16_t type, char letter, const uint8_t *octets, size_t len);

/* Whether the keys that are mandatory by service parameters ascend, are there, and are not `mandatory` (RFC 9460, section 8). */
bool are_mandatory(const uint8_t *octets, size_t len);

#endif
