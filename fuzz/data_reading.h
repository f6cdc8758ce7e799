/* Which data some texts are, in plain C, from the RFC of each type and the header. */
#ifndef DATA_READING_H
#define DATA_READING_H

#include "harness.h"

/* Reads a text as data of IN, in the form of any data or in the type's own. Names are read as the data of a CNAME are, and types by
   dnw_type_parse. Returns false if it is none. `out` has room for 65,535 octets. */
bool model_data_text(uint16_t type, struct part text, struct part origin, uint8_t *out, size_t *len);

#endif
