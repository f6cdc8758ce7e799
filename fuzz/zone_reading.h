/* What an entry of a zone file is after the entries before it, in plain C, from RFC 1035, section 5.1, RFC 2308, section 4, and the
   header. */
#ifndef ZONE_READING_H
#define ZONE_READING_H

#include "harness.h"

/* An entry: its kind is one of enum dnw_zone_kind, or MODEL_OPEN if it has a file or an origin that is not UTF-8, which the model does
   not know to be taken. Of an error only the kind is said. */
enum { MODEL_OPEN = 99 };

struct model_zone_entry {
    uint32_t kind;
    size_t used;
    size_t len;
    size_t name_len;
    uint8_t octets[DNW_ZONE_OCTETS_SIZE];
};

/* Reads the entry that the rest of a file begins with, and moves what is known for later entries. */
void model_zone_next(struct part text, struct dnw_zone *zone, struct model_zone_entry *entry);

#endif
