/* A proved library that reads and writes DNS names, records and messages, type bitmaps, serial numbers and master
   files. docs/C.md shows how to link it.

   An input is a pointer and its length. A result is stored in a buffer of the caller, which is a pointer and its size.
   Such a pointer may be null if its length or size is 0, and no other may be. A buffer that is written must not overlap
   any other argument. Nothing is kept from one call to the next: a caller frees only its own memory, and may call from
   several threads at once.

   Each function except `dnw_error_text`, `dnw_serial_add` and `dnw_version` returns 0, or the number of an error. A
   function that fails stores nothing, neither in the buffer nor through a pointer. There are exceptions:
   `dnw_name_text_fault` and `dnw_message_read` store where the input is wrong, and what writes a message or its table
   may leave any octets there. Every input is checked: no byte outside the arguments is read or written. The type of a
   record is always before its class.

   The wire form of a name (RFC 1035, section 3.1) is its labels, each with a length octet before it, and a zero octet
   at the end. It has at most 255 octets. The text of a name is that of master files (RFC 1035, section 5.1): `\.` is a
   dot in a label, `\DDD` in decimal any octet, and a dot at the end means that the name is fully qualified. It has at
   most 1004 octets. Texts are not null-terminated. */
#ifndef DNS_NAMES_WIRE_H
#define DNS_NAMES_WIRE_H

#include <stdbool.h>
#include <stddef.h>
#include <stdint.h>

#ifdef __cplusplus
extern "C" {
#endif

/* The version of this header: its major, minor and patch number, an octet each. `dnw_version` returns the library's. */
#define DNW_VERSION 0x000100

/* Sizes that are always enough: for a wire form, a sort key, the text of a name, the text of a type or a class, and a
   sentence about a text. */
#define DNW_FORM_SIZE 255
#define DNW_SORT_KEY_SIZE 504
#define DNW_TEXT_SIZE 1004
#define DNW_CODE_SIZE 10
#define DNW_SENTENCE_SIZE 160

/* The number of octets of an NSEC3 hash and of its label, and a size that is always enough for a digest. */
#define DNW_NSEC3_HASH_SIZE 20
#define DNW_NSEC3_LABEL_SIZE 32
#define DNW_DIGEST_SIZE 64

/* The errors. A segment of a name is a run of labels, and the pointer or zero octet after it. */
enum dnw_failure {
    DNW_DONE = 0,
    DNW_NO_MEMORY = 1,         /* malloc or realloc failed */
    DNW_NO_ROOM = 2,           /* the result is longer than the buffer */
    DNW_MESSAGE_CUT = 3,       /* the message ends within the name, or before it */
    DNW_POINTER_NOT_BACK = 4,  /* a compression pointer does not point backwards, to before the segment that it ends */
    DNW_RESERVED_OCTET = 5,    /* an octet from 64 to 191 at the start of a label or a pointer */
    DNW_SEGMENTS_OVERLAP = 6,  /* a segment of the name runs into the one that points to it */
    DNW_NAME_TOO_LONG = 7,     /* a name of more than 255 octets */
    DNW_LABEL_TOO_LONG = 8,    /* a label of more than 63 octets */
    DNW_BAD_TEXT = 9,          /* a label, a character or an escape that is not allowed */
    DNW_NOT_UTF8 = 10,         /* a text that is not UTF-8 */
    DNW_BYTES_LEFT = 11,       /* bytes follow a name that should end the input */
    DNW_MESSAGE_TOO_LONG = 12, /* a message longer than its maximum */
    DNW_OTHER = 13,            /* no function returns it */
    DNW_UNKNOWN_TEXT = 14,     /* a text that is not the name of a type or class */
    DNW_NOT_ORDERED = 15,      /* two serial numbers that are 2^31 apart */
    DNW_BAD_BITMAP = 16,       /* a type bitmap that is not valid, or longer than 65535 octets */
    DNW_BAD_TIME = 17,         /* a text that is not a TTL, or a TTL above 4294967295 seconds */
    DNW_TEXT_CUT = 18,         /* a text that ends within an escape, or after a carriage return */
    DNW_ILLEGAL_CHARACTER = 19, /* a character that is not allowed there */
    DNW_CONTROL_CHARACTER = 20, /* a control character that is not white space */
    DNW_UNCLOSED_LIST = 21,    /* a text that ends within a list, before its `)` */
    DNW_UNCLOSED_QUOTE = 22,   /* a text that ends within a quoted text, before its closing quote */
    DNW_UNKNOWN_ENTRY = 23,    /* a `$` that is not the start of $INCLUDE, $ORIGIN or $TTL */
    DNW_WRONG_DATA_LENGTH = 24, /* the fields of a record's data do not end where the data do */
    DNW_BAD_ADDRESS = 25,      /* an address of neither 4 nor 16 bytes */
    DNW_NOT_REVERSE = 26,      /* a name that is not the reverse name of an address or a net */
    DNW_BAD_ITEM = 27,         /* a list with an item of an unknown kind, one that is cut, or one whose name or record
                                  is not valid; or an item of a message after one of a later section, or after the last */
    DNW_EMPTY_LABEL = 28,      /* a text with an empty label */
    DNW_BAD_ESCAPE = 29,       /* an escape that is not three decimal digits up to 255 */
    DNW_TOO_MANY_POINTERS = 30, /* the names of a message follow more compression pointers than the caller allows */
    DNW_DUPLICATE_EDNS = 31,   /* a message with more than one OPT record */
    DNW_OWNER_NOT_ROOT = 32,   /* an OPT record whose owner is not the root */
    DNW_CUT_OPTION = 33,       /* an option of an OPT record that is cut */
    DNW_BAD_PARAMS = 34,       /* service parameters that are not in ascending order */
    DNW_BAD_DATA = 35,         /* a text or octets that are not data of the record type or of an option, or more than 65535 */
    DNW_NOT_RRSIG = 36,        /* a record that should be an RRSIG and is of another type */
    DNW_NOT_COVERED = 37,      /* an RRSIG that covers none of the records */
    DNW_TOO_FEW_LABELS = 38,   /* an RRSIG whose owner has fewer labels than it counts */
    DNW_DATA_TOO_LONG = 39,    /* data of a record that have more than 65535 octets once names are uncompressed */
    DNW_OUTSIDE_ADDITIONALS = 40, /* an OPT record in the Answer or Authority section of a message */
    DNW_NOT_DNSKEY = 41,       /* octets that are not the data of a DNSKEY record */
    DNW_UNKNOWN_ALGORITHM = 42, /* an unknown digest type or hash algorithm */
    DNW_TOO_MANY_ITERATIONS = 43, /* more iterations of a hash than the caller allows */
    DNW_BAD_FAMILY = 44        /* an address, a prefix or a gateway that its family or type does not allow */
};

/* `len` bytes were stored in the buffer, and the name's own octets end at offset `end` of the message. */
struct dnw_read_name {
    size_t len;
    size_t end;
};

/* `len` bytes were stored in the buffer. `is_fqdn` is whether the name is fully qualified. */
struct dnw_parsed_name {
    size_t len;
    bool is_fqdn;
};

/* `len` bytes were stored in the buffer, for `count` names. */
struct dnw_written_names {
    size_t len;
    size_t count;
};

/* Reads the name at offset `start` of a message, following compression pointers (RFC 1035, section 4.1.4), and stores
   its wire form. It does not allocate. It fails with DNW_MESSAGE_CUT (also if `start` is past the message),
   DNW_POINTER_NOT_BACK, DNW_RESERVED_OCTET, DNW_SEGMENTS_OVERLAP or DNW_NAME_TOO_LONG if no valid name is there, and
   with DNW_NO_ROOM if one is there and its wire form has more than `form_size` octets. */
uint32_t dnw_name_read(const uint8_t *message, size_t message_len, size_t start, uint8_t *form, size_t form_size,
                       struct dnw_read_name *read);

/* Reads a name as dnw_name_read does, and stores its text as dnw_name_print does, fully qualified. It does not allocate. It fails as
   dnw_name_read if no valid name is there, and with DNW_NO_ROOM if the text has more than `text_size` octets. */
uint32_t dnw_name_read_text(const uint8_t *message, size_t message_len, size_t start, uint8_t *text, size_t text_size,
                            struct dnw_read_name *read);

/* Parses the text of a name (RFC 1035, section 5.1), and stores its wire form. Any octet stands for itself, but for a dot
   and a backslash: `\DDD` in decimal is that octet, and `\` before any other octet that octet. `.` is the root. A text
   with a dot at its end is fully qualified. Another one is completed by the origin, which is a wire form, and is fully
   qualified then; with no octets (`origin_len` 0) there is no origin, and the name is relative. `@` alone is the origin,
   or the relative name without labels. It does not allocate.

   It fails with DNW_EMPTY_LABEL (also for an empty text), DNW_LABEL_TOO_LONG, DNW_NAME_TOO_LONG, DNW_BAD_ESCAPE or
   DNW_TEXT_CUT if the text is not that of a name; dnw_name_text_fault reports where it is wrong. It fails with
   DNW_NO_ROOM if it is one and the wire form has more than `form_size` octets, and as dnw_name_print if the origin is
   not a wire form. */
uint32_t dnw_name_parse(const uint8_t *text, size_t text_len, const uint8_t *origin, size_t origin_len, uint8_t *form,
                        size_t form_size, struct dnw_parsed_name *parsed);

/* Reports where and why dnw_name_parse rejects a text, with the same origin. It returns 0 if the text is that of a name.
   Otherwise it returns the number of the rule that the text breaks, as dnw_name_parse does, and stores in `offset` the
   offset of the first octet that is against it: of the dot, or the end of the text, after a label that is empty or with
   which the name is too long; of the octet that makes a label too long; of what is no digit of an escape, or makes it
   more than 255; the end of a text that ends within an escape, or that the origin makes too long. If the origin is not a
   wire form, it returns the number for that, and stores nothing. It does not allocate. */
uint32_t dnw_name_text_fault(const uint8_t *text, size_t text_len, const uint8_t *origin, size_t origin_len,
                             size_t *offset);

/* Stores the text of the name with a wire form, fully qualified or not, and the length of the text in `len`: the labels
   with dots between them, and one at the end if the name is fully qualified. The root is `.`, and the relative name
   without labels `@`. `"`, `$`, `(`, `)`, `.`, `;`, `@` and `\` are printed after a `\`, and octets that are not
   printable ASCII as `\DDD` in decimal. dnw_name_parse, without an origin, reads the text as the same name. It does not
   allocate. It fails as dnw_name_read if the bytes do not begin with a valid name, with DNW_BYTES_LEFT if bytes
   follow it, and with DNW_NO_ROOM if the text has more than `text_size` octets. */
uint32_t dnw_name_print(const uint8_t *form, size_t form_len, bool is_fqdn, uint8_t *text, size_t text_size,
                        size_t *len);

/* Writes the names of a list to a message, with compression, and stores the message. The list has one name after
   another, as in a message; they may be wire forms. It fails as dnw_name_read at the first element of the list that is
   not a valid name, with DNW_TOO_MANY_POINTERS at the first name that, with those before it, follows more than 65536
   compression pointers, with DNW_MESSAGE_TOO_LONG at the first name that would go past `max_size` bytes, with
   DNW_NO_MEMORY, and with DNW_NO_ROOM if the message has more than `out_size` bytes. */
uint32_t dnw_names_write(const uint8_t *names, size_t names_len, uint16_t max_size, uint8_t *out, size_t out_size,
                         struct dnw_written_names *written);

/* A record of a message. `owner_len` bytes of its owner were stored in the buffer. Its data are the `data_len` octets
   at offset `data_offset` of the message, and it ends at offset `end`, where the next record begins. */
struct dnw_record {
    size_t owner_len;
    uint16_t record_type;
    uint16_t record_class;
    uint32_t ttl;
    size_t data_offset;
    size_t data_len;
    size_t end;
};

/* Reads the record at offset `start` of a message (RFC 1035, section 4.1.3), and stores its owner's wire form. The data
   are not checked. It does not allocate. It fails as dnw_name_read if the owner is not a valid name, with
   DNW_MESSAGE_CUT if the message ends before the record does, and with DNW_NO_ROOM if the owner's wire form has more
   than `owner_size` octets. */
uint32_t dnw_record_read(const uint8_t *message, size_t message_len, size_t start, uint8_t *owner, size_t owner_size,
                         struct dnw_record *record);

/* Reads the `data_len` octets at offset `data_offset` of a message as a name, following compression pointers, and
   stores its wire form, and the length of that in `len`. Pass the data of a record if they are a name, as for NS, CNAME
   and PTR, or the data after the fields before a name, as `data_offset + 2` and `data_len - 2` for MX. It does not
   allocate. It fails as dnw_name_read if no valid name is there, with DNW_WRONG_DATA_LENGTH if the name has more or
   fewer than `data_len` own octets, and with DNW_NO_ROOM if the wire form has more than `form_size` octets. */
uint32_t dnw_record_data_name(const uint8_t *message, size_t message_len, size_t data_offset, size_t data_len,
                              uint8_t *form, size_t form_size, size_t *len);

/* The size of a header (RFC 1035, section 4.1.1), after which the questions begin; and a limit for the compression
   pointers that the names of a message follow in total. */
#define DNW_HEADER_SIZE 12
#define DNW_MAX_POINTERS 65536

/* A message: the fields of its header (RFC 1035, section 4.1.1; RFC 4035, section 3.2), and the offsets of its
   sections. The questions begin at DNW_HEADER_SIZE, and the sections of records at `answers`, `authorities` and
   `additionals`, each where the one before ends. The message ends at `end`; more octets may follow. A question is a
   name, which dnw_name_read reads, then two octets of type and two of class. dnw_record_read reads a record. `op_code`
   and `response_code` are the four bits in the header; dnw_edns_read stores the whole response code. */
struct dnw_message {
    uint16_t id;
    bool is_response;         /* QR */
    uint8_t op_code;          /* 0 for a query, 4 for NOTIFY, 5 for UPDATE */
    bool authoritative;       /* AA */
    bool truncation;          /* TC */
    bool recursion_desired;   /* RD */
    bool recursion_available; /* RA */
    bool authentic_data;      /* AD */
    bool checking_disabled;   /* CD */
    uint16_t response_code;
    uint16_t question_count;
    uint16_t answer_count;
    uint16_t authority_count;
    uint16_t additional_count;
    size_t answers;
    size_t authorities;
    size_t additionals;
    size_t end;
};

enum dnw_section {
    DNW_SECTION_HEADER = 0,
    DNW_SECTION_QUESTIONS = 1,
    DNW_SECTION_ANSWERS = 2,
    DNW_SECTION_AUTHORITIES = 3,
    DNW_SECTION_ADDITIONALS = 4
};

/* Where a message is wrong: the section, the index of the item in it, and the offset of the start of the item. An item
   is a question or a record. */
struct dnw_message_fault {
    uint32_t section;
    uint16_t item;
    size_t offset;
};

/* Checks that a message is complete (RFC 1035, section 4): its header, and as many questions and records in each
   section as the header counts. The data of records are not checked. It stores the header and the offsets of the
   sections in `read`. It does not allocate.

   It stops at the first item that is wrong, and stores which one in `fault`. It fails as dnw_name_read if the name of
   the item is not valid; with DNW_MESSAGE_CUT if the message ends within the item or within the header; and with
   DNW_TOO_MANY_POINTERS if the names of the questions and the owners of the records, up to that item, follow more than
   `max_pointers` compression pointers in total. So its time is linear in `message_len` and `max_pointers`.
   DNW_MAX_POINTERS is far more than ordinary messages need. If it fails, `read` is unchanged; otherwise `fault` is. */
uint32_t dnw_message_read(const uint8_t *message, size_t message_len, size_t max_pointers, struct dnw_message *read,
                          struct dnw_message_fault *fault);

/* Stores in `is_reply` whether a message answers a request (RFC 5452, section 9.1): QR is set in the response and not in the
   request, its id and opcode are those of the request, and each of them has one question, with the same type, the same class
   and the same name, ignoring case. A response may have no question if the request has none (RFC 7873, section 5.4), if it
   is to an UPDATE (RFC 2136, section 3.8), or if its code is FORMERR, SERVFAIL, NOTIMP or REFUSED. Addresses and ports are
   the caller's to compare. It does not allocate. It fails as dnw_message_read with DNW_MAX_POINTERS if one of them is not a
   complete message. */
uint32_t dnw_is_reply_to(const uint8_t *request, size_t request_len, const uint8_t *response, size_t response_len,
                         bool *is_reply);

/* The EDNS fields of a message (RFC 6891, section 6.1). The `options_len` octets at offset `options_offset` of the
   message are options, each two octets of code, two of length, and as many octets as that. Without an OPT record,
   `is_present` is false, `max_payload` is 512, and all others except `takes_records` and the response code are 0. */
struct dnw_edns {
    bool is_present;
    bool dnssec_ok;         /* DO: the sender accepts DNSSEC records (RFC 3225, section 3) */
    uint8_t version;
    bool takes_records;     /* the response code is none of FORMERR, NOTIMP and BADVERS: a reply with these has no records
                               but OPT, and TSIG or SIG(0) (RFC 1035, section 4.1.1; RFC 6891, section 6.1.3) */
    uint16_t max_payload;   /* the size of the largest message that the sender accepts, at least 512 octets */
    uint16_t response_code; /* that of the header, with the high bits from the OPT record */
    size_t options_offset;
    size_t options_len;
};

/* Reads a message as dnw_message_read does, and stores its EDNS fields. It does not allocate. It fails as
   dnw_message_read; with DNW_OUTSIDE_ADDITIONALS if an OPT record is in the Answer or Authority section; with
   DNW_DUPLICATE_EDNS if there are two or more; with DNW_OWNER_NOT_ROOT if the owner of the only one is not the root;
   and otherwise with DNW_CUT_OPTION if its data end within an option. */
uint32_t dnw_edns_read(const uint8_t *message, size_t message_len, size_t max_pointers, struct dnw_edns *edns);

/* Stores an option with this code and this data as dig of BIND 9.18 shows it, without the `; ` before it, and the length of
   the text in `text_len`: `CLIENT-SUBNET: 192.0.2.0/24/0`, `EDE: 15 (Blocked): (why)`. NSID, client subnet, expire, cookie,
   TCP keepalive, padding and extended errors have a text of their own; the name of an error is that of IANA's registry. Any
   other option, and one whose data break a rule of its format, is its code, its octets in hexadecimal and these as
   characters: `OPT=65001: 61 0a ("a.")`. The text is UTF-8, without characters for control and those that turn the direction
   of text, and ASCII but for the text of an error. It fails with DNW_NO_ROOM if the text has more than `text_size` octets; 4 * `data_len` + 128 are always enough.
   Otherwise it fails with DNW_NO_MEMORY. */
uint32_t dnw_option_print(uint16_t code, const uint8_t *data, size_t data_len, uint8_t *text, size_t text_size,
                          size_t *text_len);

/* What an EDNS option says. Members that its code has none of are 0. After them come the `len` octets of its data at offset
   `offset`: any octets of NSID (3) and padding (12), an address, the cookie of a server, the wire form of a name in chain (13)
   and report channel (18), the text of an error, a version, or all octets of an option of which nothing is known. */
struct dnw_option {
    bool is_given;        /* false if expire, TCP keepalive, chain or ZONEVERSION is empty, as in queries */
    uint8_t source;       /* client subnet (8; RFC 7871, section 6): how many bits of the address are given, */
    uint8_t scope;        /* and how many of them the response is for */
    uint8_t labels;       /* ZONEVERSION (19; RFC 9660, section 2): how many labels of the name are the zone's, */
    uint8_t version_type; /* and what the version is: 0 for a serial number */
    uint16_t family;      /* client subnet: the family of the address, 1 for IPv4 and 2 for IPv6 */
    uint16_t timeout;     /* TCP keepalive (11; RFC 7828, section 3.1): in tenths of a second */
    uint16_t info_code;   /* extended error (15; RFC 8914, section 2) */
    uint32_t seconds;     /* expire (9; RFC 7314, section 2) */
    uint8_t client[8];    /* cookie (10; RFC 7873, section 4): that of the client */
    size_t offset;
    size_t len;
};

/* Reads an option with this code and this data, and stores what it says. It does not allocate. It fails with DNW_BAD_DATA if no
   option with this code has so many octets, or if they are not the wire form of a name; with DNW_BAD_FAMILY if a prefix is
   longer than an address of its family, or if an address has a bit after its prefix that is not 0; and with DNW_NOT_UTF8 if
   the text of an error is not UTF-8. An option of which nothing is known may have any data. */
uint32_t dnw_option_read(uint16_t code, const uint8_t *data, size_t data_len, struct dnw_option *option);

/* Stores the data of an option with this code that says this, and their length in `data_len`: the members that its code has,
   and after them the `rest_len` octets of `rest`. `offset` and `len` are not read, nor is `rest` for expire and TCP keepalive,
   nor for ZONEVERSION if it is not given; chain is given if `rest` is not empty. It fails as dnw_option_read if a rule is
   broken; with DNW_NO_ROOM if the data have more than `data_size` octets, of which `rest_len` + 8 are always enough; and with
   DNW_NO_MEMORY. */
uint32_t dnw_option_write(uint16_t code, const struct dnw_option *option, const uint8_t *rest, size_t rest_len, uint8_t *data,
                          size_t data_size, size_t *data_len);

/* `len` octets of a message were stored in the buffer. `truncated` is the TC bit of its header. */
struct dnw_packed {
    size_t len;
    bool truncated;
};

/* Writes a whole message again, with its names compressed, in at most `max_size` octets, and no more than the buffer has,
   and stores it. A server sends the copy if a response is longer than the receiver accepts. The copy has the header of the
   message, with its own counts, its questions, and its records, in the same sections and order. A set of records that has
   no room is left out whole, and so are the later ones of its section (RFC 2181, section 5). If a record is left out that is
   required, TC is set: dnw_message_write says which are, and which messages are never cut. An OPT record and a
   signature of the message among the additional records are never left out, since octets are held back for them, and come
   last. TSIG signs a message (RFC 8945), and SIG(0), which is a SIG that covers the type 0 (RFC 2931, section 3); other SIG
   records are as any. Names in the data of types of RFC 1035 are compressed too, and others are not (RFC 3597, section 4).
   Octets after the message are ignored.

   If `block` is not 0, the OPT record gets the option for padding, as dnw_writer_edns adds it, and comes before the signature:
   the message is a multiple of `block` octets, unless there is no OPT record, or it has that option already, which is there
   once at most (RFC 7830, section 3).

   It fails as dnw_message_read with DNW_MAX_POINTERS if the message is not complete, and as dnw_edns_read if its EDNS
   is not valid. If the data of a record are not valid, it fails as dnw_field_next does at the first wrong field. It
   fails with DNW_TOO_MANY_POINTERS if the names in the data of the records, each read up to the first wrong field, follow
   more than DNW_MAX_POINTERS in all; with DNW_NO_ROOM if the buffer has no room for a header; with DNW_MESSAGE_TOO_LONG if
   the header, the questions and the records that are never left out have no room, or any record of a message that is never
   cut; and with DNW_NO_MEMORY. If it fails, octets of the buffer may have changed. */
uint32_t dnw_message_pack(const uint8_t *message, size_t message_len, uint16_t max_size, uint16_t block, uint8_t *packed,
                          size_t packed_size, struct dnw_packed *result);

/* The offset of the next field of a record's data in the message, and the number of fields before it. A caller sets it
   to {record.data_offset, 0}, and dnw_field_next does the rest. */
struct dnw_fields {
    size_t offset;
    size_t number;
};

/* The kinds of the fields of data. */
enum dnw_field_kind {
    DNW_FIELD_END = 0,    /* there are no more fields */
    DNW_FIELD_NAME = 1,   /* a name, which dnw_name_read reads at the offset */
    DNW_FIELD_NUMBER = 2, /* a number of 1, 2, 4, 6 or 8 octets, the highest first */
    DNW_FIELD_IPV4 = 3,   /* an address of 4 octets */
    DNW_FIELD_IPV6 = 4,   /* an address of 16 octets */
    DNW_FIELD_TYPE = 5,   /* the code of a record type, of 2 octets */
    DNW_FIELD_TIME = 6,   /* a time of 4 octets, in seconds since 1970, as a serial number (RFC 4034, section 3.1.5) */
    DNW_FIELD_TEXT = 7,   /* a text: a character string (RFC 1035, section 3.3) without its length octet, or the rest of
                             the data if that is text */
    DNW_FIELD_OCTETS = 8, /* other octets: the rest of the data, or as many as the length before them says, which has one
                             octet or two */
    DNW_FIELD_TEXTS = 9,  /* one or more character strings up to the end, each with a length octet before it */
    DNW_FIELD_TYPES = 10, /* a type bitmap, which dnw_types_read reads (RFC 4034, section 4.1.2) */
    DNW_FIELD_PARAMS = 11, /* service parameters with ascending keys, each two octets of key, two of length, and as many
                              octets as that (RFC 9460, section 2.2) */
    DNW_FIELD_LOCATION = 12, /* a location: 16 octets if the first, the version, is 0 (RFC 1876, section 2) */
    DNW_FIELD_GATEWAY = 13,  /* the type of a gateway, an algorithm, and the gateway (RFC 4025, sections 2.3 to 2.5) */
    DNW_FIELD_RELAY = 14,    /* a bit and 7 bits of the type of a relay, and the relay (RFC 8777, section 4.2) */
    DNW_FIELD_HOST_IDENTITY = 15, /* the length of a tag, an algorithm, two octets of the length of a key, the tag and the
                                     key (RFC 8005, section 5) */
    DNW_FIELD_PREFIXES = 16, /* address prefixes, each two octets of family, one of prefix length, a bit that negates it
                                and 7 bits of length, and as many octets as that (RFC 3123, section 4) */
    DNW_FIELD_NAMES = 17,    /* names in their wire form, one after another */
    DNW_FIELD_ADDRESS_SUFFIX = 18 /* the length of a prefix, and the octets of an IPv6 address with the other bits (RFC 2874,
                                     section 3.1.1) */
};

/* A field: the `len` octets at offset `offset` of the message. `kind` is of enum dnw_field_kind. */
struct dnw_field {
    uint32_t kind;
    size_t offset;
    size_t len;
};

/* Stores the next field of the data of a record of type `record_type` and class `record_class`, and moves `fields` past
   it. Pass the message up to the end of the record, as `message` and `record.end`, and where the data begin, as
   `record.data_offset`. Data of a type without fields here are one field of octets (RFC 3597), and so are those of a
   type that only IN has in another class; of classes NONE and ANY they have the fields of IN, or none if there are no
   data. Names may be compressed, whatever the type. It does not allocate.

   After the last field, at the end of the data, it stores DNW_FIELD_END, and `fields` is unchanged. If octets are left
   there, it fails with DNW_WRONG_DATA_LENGTH. It fails with DNW_MESSAGE_CUT if the data end within the field, or
   `data_offset` or the offset in `fields` is after `data_end`; as dnw_name_read if the field should be a name and is not valid; with DNW_BAD_BITMAP if a window of
   a type bitmap is not after the one before it, or does not have 1 to 32 octets; with DNW_BAD_PARAMS if the key of a
   service parameter is not greater than the one before it; and with DNW_BAD_FAMILY if an address prefix has more bits
   or octets than its family allows or ends in a zero octet, or if the type of a gateway is unknown. If it fails,
   `fields` is unchanged. */
uint32_t dnw_field_next(const uint8_t *message, size_t data_end, size_t data_offset, uint16_t record_type,
                        uint16_t record_class, struct dnw_fields *fields, struct dnw_field *field);

/* A row of the table of a message. The row of an item, which is a question or a record, has its section, kind 0, and its type
   and class. `number` is the TTL of a record, and 0 for a question. The `len` octets at `offset` are the data of a record; a
   question has none. So each item ends at `offset + len`, where the next one begins. The wire form of its name is the
   `name_len` octets at `name` of the names.

   The rows of the fields of a record's data follow its row. They have section, type and class 0. The kind, `offset` and `len`
   of a field are as dnw_field_next stores them; if it is a name, its wire form is the `name_len` octets at `name` of the names.
   The rows of the entries of a list follow its row, of kind DNW_ROW_ENTRY: of character strings, with their octets after the
   length; of type bitmaps, with the number of the window in `number`, and its bits; of service parameters, with the key and
   the value; of address prefixes, with the family and the octets after it, of which the first is the length in bits, the
   highest bit of the second negates, and the others are the address; and of names in wire form.

   If the data of a record are not the fields of its type, a row of kind DNW_ROW_FAULT comes after those of the fields that
   are there, and is the last of that record: `number` is the error that dnw_field_next returns there, and `offset` is where
   the field would begin. */
struct dnw_row {
    uint32_t section; /* of enum dnw_section, from DNW_SECTION_QUESTIONS on, in the row of an item */
    uint32_t kind;    /* of enum dnw_field_kind or dnw_row_kind, in the other rows */
    uint16_t record_type;
    uint16_t record_class;
    uint32_t number;
    size_t offset;
    size_t len;
    size_t name;
    size_t name_len;
};

enum dnw_row_kind {
    DNW_ROW_ENTRY = 19, /* an entry of the list before it */
    DNW_ROW_FAULT = 20  /* data that are not the fields of their type, from here on */
};

/* So many rows, and so many octets of names, were stored. */
struct dnw_table {
    size_t row_count;
    size_t names_len;
};

/* Reads a whole message in one pass, and stores its table: rows for all its questions and records in order, and for the
   fields of their data; and the wire forms of all names among these, one after another. `rows_size` is the number of rows that
   there is room for. What follows in both buffers is unchanged. The header is not part of the table; dnw_message_read stores
   it. It does not allocate.

   It fails as dnw_message_read if the message is not complete, and with DNW_TOO_MANY_POINTERS if its names, those of data
   included, follow more than `max_pointers` compression pointers in total. So its time is linear in `message_len` and
   `max_pointers`. It fails with DNW_NO_ROOM if there are more rows or octets of names than there is room for; begin with some
   rows for each record and some octets for each row, and double both until it does not. If it fails, `table` is unchanged, and
   what the buffers hold has no meaning. */
uint32_t dnw_message_table(const uint8_t *message, size_t message_len, size_t max_pointers, struct dnw_row *rows, size_t rows_size,
                           uint8_t *names, size_t names_size, struct dnw_table *table);

/* Stores the data of the record at offset `start` of a message, with every name in its wire form, and their length in `len`,
   which is at most 65535.
   It fails as dnw_record_read if no record is there; as dnw_field_next at the first field that is wrong; with
   DNW_DATA_TOO_LONG if the data have more than 65535 octets once names are uncompressed, which no record can have; with
   DNW_NO_ROOM if they have more than `data_size` octets; and with DNW_NO_MEMORY. */
uint32_t dnw_record_data(const uint8_t *message, size_t message_len, size_t start, uint8_t *data, size_t data_size, size_t *len);

/* `len` bytes of text were stored in the buffer, and the record ends at offset `end` of the message. */
struct dnw_printed_record {
    size_t len;
    size_t end;
};

/* Stores the record at offset `start` of a message as one line of a master file (RFC 1035, section 5.1), without the
   end of the line: the owner, the TTL, the class, the type and the data, with a space between them. Names are fully
   qualified, and codes are as dnw_type_print and dnw_class_print print them. Data of a type without a text of its own,
   and data that are not valid for their type, are in the form of any data, `\# 4 0A000001` (RFC 3597, section 5). So
   every record has a text.

   It fails with DNW_MESSAGE_CUT if `start` is past the message, and as dnw_record_read if no valid record is there, but
   never for the room of the owner. Otherwise it fails with DNW_NO_ROOM if the text has more than `text_size` octets, or
   with DNW_NO_MEMORY. */
uint32_t dnw_record_print(const uint8_t *message, size_t message_len, size_t start, uint8_t *text, size_t text_size,
                          struct dnw_printed_record *printed);

/* `len` bytes of a text were stored in the buffer. The whole text has `total`. */
struct dnw_printed_part {
    size_t len;
    size_t total;
};

/* Stores the text of the message at the start of these octets, from its byte `start` on, as far as there is room. The text is
   in the layout of dig: the header, the EDNS fields and options, and under a title the questions and the records of each
   section. Records are as dnw_record_print prints them, and options as dnw_option_print does. The titles of an UPDATE are
   those of RFC 2136, section 2. If the message breaks a rule of EDNS, a line says which, the response code is that of the
   header alone, and an OPT record is printed as any other. A last line says how many octets follow the message, if any do.
   The text has no line feed at its end. It is UTF-8, and ASCII but for the texts of extended errors. But for line feeds, and
   tabs in the lines of questions, no character of it is for control or turns the direction of text.

   A text that is longer than the buffer is stored in parts: the next part starts where `len` bytes of this one end, up to
   `total`. A part may end within a character. With `text_size` 0 a call stores only the lengths, and from `total` on no byte.
   Each call makes the whole text, so a buffer of `total` bytes is faster than many parts.

   It fails as dnw_message_read, and with DNW_NO_MEMORY. */
uint32_t dnw_message_print(const uint8_t *message, size_t message_len, size_t max_pointers, size_t start, uint8_t *text,
                           size_t text_size, struct dnw_printed_part *printed);

/* As dnw_message_print, but the text is a JSON object in one line (RFC 8427). Names and the data of records are the texts that
   dnw_record_print prints, and `RDATAHEX` has the octets of the data, with every name in its wire form if the data are valid.
   `EDNS` has the version, DO, the size and the options, each as dnw_option_print prints it, or as `error` the rule that the
   message breaks. It fails as dnw_message_print, also with DNW_NO_MEMORY. */
uint32_t dnw_message_json(const uint8_t *message, size_t message_len, size_t max_pointers, size_t start, uint8_t *text,
                          size_t text_size, struct dnw_printed_part *printed);

/* Parses the text of data of type `record_type` and class `record_class`, and stores the data, and their length in
   `len`. The text is the fields of the type with white space between them, as dnw_record_print prints them, or the form
   of any data, `\# 4 0A000001` (RFC 3597, section 5), whose octets have to be data of the type and class, without
   compression pointers. A type without fields of its own takes only that form. An empty text is no data, which classes
   NONE and ANY allow. Names are stored uncompressed. The name with the wire form `origin`
   is appended to names without a last dot, and `@` is that name; if `origin_len` is 0 there is no origin, and such
   names are rejected. The times of SOA take units, as `1h30m`, and algorithms of DNSSEC and types of CERT are numbers or
   IANA's mnemonics, as `RSASHA256`. A word ends before white space, a quote, a parenthesis or a semicolon, and one in
   quotes at its last quote; only strings may be in quotes. Strings and the values of service parameters may have any
   octets as they are, also above 127. `*` is no type. If service parameters have `mandatory`, the keys that it lists have
   to be there (RFC 9460, section 8). The text is one entry: comments are left out, and in parentheses the end of a line is
   white space.

   If the origin is not a wire form, it fails as dnw_name_compare. Otherwise it fails with DNW_UNCLOSED_LIST,
   DNW_UNCLOSED_QUOTE, DNW_TEXT_CUT or DNW_ILLEGAL_CHARACTER, as dnw_record_parse; with DNW_BAD_DATA if the text is not
   data of the type, has more than 65535 octets of data, or if more than white space follows the entry; with DNW_NO_ROOM if
   it has more than `data_size`; and with DNW_NO_MEMORY. dnw_data_text_fault reports where the text is wrong. */
uint32_t dnw_data_parse(uint16_t record_type, uint16_t record_class, const uint8_t *text, size_t text_len, const uint8_t *origin,
                        size_t origin_len, uint8_t *data, size_t data_size, size_t *len);

/* Parses a line of a master file (RFC 1035, section 5.1), and stores the record, and its length in `len`: the owner's
   wire form, two octets of type, two of class, four of TTL, two of the length of the data, and the data. So it is an item
   of dnw_message_write after its octet, and dnw_record_read reads it at offset 0.

   The text is one entry: comments are left out, and in parentheses the end of a line is white space. It has the owner,
   the TTL as dnw_ttl_parse takes it (but a last number without a unit may not follow others, as in `1d1`), the class,
   the type and the data as dnw_data_parse takes them, with white space between them. The class may be before the TTL,
   or be left out for IN; `*` is no class and no type. The owner, the TTL and the type must be there, since nothing is kept of earlier lines. The
   origin is appended to the owner as to names in the data. The line that dnw_record_print prints is accepted if the
   data are valid for their type.

   If the origin is not a wire form, it fails as dnw_name_compare. Otherwise it fails with
   DNW_UNCLOSED_LIST, DNW_UNCLOSED_QUOTE or DNW_TEXT_CUT if the text ends within parentheses, or a line within a quoted
   string or an escape; with DNW_ILLEGAL_CHARACTER at a parenthesis within 255 others, or one that closes none; with
   DNW_BAD_TEXT if the first word is not a name, or there is no word; with DNW_BAD_TIME if there is no TTL, or none
   after the class; with DNW_UNKNOWN_TEXT if there is no type; as dnw_data_parse for the data; with DNW_BAD_DATA if more
   than white space follows the entry; with DNW_NO_ROOM if the record has more than `record_size` octets; and with
   DNW_NO_MEMORY. dnw_record_text_fault reports where the text is wrong. */
uint32_t dnw_record_parse(const uint8_t *text, size_t text_len, const uint8_t *origin, size_t origin_len, uint8_t *record,
                          size_t record_size, size_t *len);

/* What is wrong with a text of a master file. From 32 on, a field of data is not as it should be, and this was wanted in
   its place. */
enum dnw_text_reason {
    DNW_REASON_NONE = 0,                      /* nothing is wrong */
    DNW_REASON_NESTED_PARENTHESIS = 1,        /* more than 255 parentheses are open */
    DNW_REASON_UNOPENED_PARENTHESIS = 2,      /* a parenthesis is closed that none opened */
    DNW_REASON_UNCLOSED_PARENTHESIS = 3,      /* the text ends within parentheses */
    DNW_REASON_UNCLOSED_QUOTE = 4,            /* a line ends within a quoted string */
    DNW_REASON_UNFINISHED_ESCAPE = 5,         /* a line ends after a backslash */
    DNW_REASON_MORE_ENTRIES = 6,              /* another entry is after the first */
    DNW_REASON_NO_OWNER = 7,                  /* the text does not begin with a name */
    DNW_REASON_NO_TIME_TO_LIVE = 8,           /* no time to live is there */
    DNW_REASON_NO_TYPE = 9,                   /* no record type is there */
    DNW_REASON_TOO_LONG = 10,                 /* the data have more than 65535 octets */
    DNW_REASON_NO_OWNER_BEFORE = 11,          /* the first record of a zone file has no owner */
    DNW_REASON_BAD_OWNER = 12,                /* the owner of a record of a zone file is no name */
    DNW_REASON_NO_TIME_TO_LIVE_BEFORE = 13,   /* no time to live is there, nor was one before */
    DNW_REASON_UNKNOWN_DIRECTIVE = 14,        /* an entry begins with `$`, and is none that is known */
    DNW_REASON_GENERATE = 15,                 /* an entry is `$GENERATE` */
    DNW_REASON_NO_NAME = 16,                  /* `$ORIGIN` has no name, or what `$INCLUDE` has is none */
    DNW_REASON_NO_TIME = 17,                  /* `$TTL` has no time */
    DNW_REASON_NO_FILE = 18,                  /* `$INCLUDE` has no file */
    DNW_REASON_WORDS_LEFT = 19,               /* more is in an entry than it may have */
    DNW_REASON_UNKNOWN_TYPE = 20,             /* the type of a record of a zone file is unknown */
    DNW_REASON_OTHER_TYPE = 21,               /* no zone has records of the type: OPT, 128 to 255 (RFC 6895, section 3.1) */
    DNW_REASON_TIME_TOO_LARGE = 22,           /* a time of more than 2147483647 seconds (RFC 2181, section 8) */
    DNW_REASON_NO_RANGE = 23,                 /* `$GENERATE` has no range */
    DNW_REASON_TOO_MANY = 24,                 /* `$GENERATE` stands for more records than the limit */
    DNW_REASON_BAD_TEMPLATE = 25,             /* a `$` of a template stands for nothing */
    DNW_REASON_NAME = 32,                     /* a name; one without a dot at its end if there is an origin */
    DNW_REASON_U8 = 33,                       /* a number of one octet, in decimal */
    DNW_REASON_U16 = 34,                      /* a number of two octets, in decimal */
    DNW_REASON_U32 = 35,                      /* a number of four octets, in decimal */
    DNW_REASON_PERIOD = 36,                   /* a number of seconds, or numbers with units: `2h`, `1w2d` */
    DNW_REASON_ALGORITHM = 37,                /* an algorithm of DNSSEC by its number or its mnemonic: `RSASHA256` */
    DNW_REASON_CERTIFICATE_TYPE = 38,         /* a type of certificates by its number or its mnemonic: `PKIX` */
    DNW_REASON_TIME = 39,                     /* a time: 14 digits as YYYYMMDDHHmmSS, or a number of seconds */
    DNW_REASON_IPV4 = 40,                     /* an IPv4 address */
    DNW_REASON_IPV6 = 41,                     /* an IPv6 address */
    DNW_REASON_EUI48 = 42,                    /* an identifier of six octets */
    DNW_REASON_EUI64 = 43,                    /* an identifier of eight octets */
    DNW_REASON_TYPE_CODE = 44,                /* a record type */
    DNW_REASON_CHARACTER_STRING = 45,         /* a character string */
    DNW_REASON_TAG = 46,                      /* a tag: letters and digits */
    DNW_REASON_SALT = 47,                     /* a salt in hexadecimal, or `-` for none */
    DNW_REASON_HASH = 48,                     /* a hashed name in base 32 */
    DNW_REASON_TEXT = 49,                     /* a text, written as a character string is */
    DNW_REASON_HEXADECIMAL = 50,              /* octets up to the end, in hexadecimal */
    DNW_REASON_BASE64 = 51,                   /* octets up to the end, in base 64 */
    DNW_REASON_STRINGS = 52,                  /* character strings up to the end, one or more */
    DNW_REASON_TYPES = 53,                    /* record types up to the end */
    DNW_REASON_PARAMS = 54,                   /* service parameters up to the end, none of them twice */
    DNW_REASON_GENERIC = 55,                  /* the form that any data have, which begins with `\#`: the type has no other */
    DNW_REASON_SIZE = 56,                     /* the number of all octets, up to 65535 in decimal */
    DNW_REASON_OCTETS = 57,                   /* as many octets in hexadecimal as the number before says */
    DNW_REASON_DATA = 58,                     /* octets that are data of the type, without compression pointers */
    DNW_REASON_END = 59,                      /* nothing more */
    DNW_REASON_SCHEME = 60,                   /* a scheme of DSYNC by its number or its mnemonic: `NOTIFY` */
    DNW_REASON_NAMES = 61,                    /* names up to the end */
    DNW_REASON_GATEWAY = 62,                  /* the type of a gateway, an algorithm, and the gateway */
    DNW_REASON_RELAY = 63,                    /* the discovery flag of a relay, its type, and the relay */
    DNW_REASON_HOST_IDENTITY = 64,            /* the algorithm of a host identity, its tag and its key */
    DNW_REASON_LOCATION = 65,                 /* a location, as `52 22 23.000 N 4 53 32.000 E -2.00m` */
    DNW_REASON_LOCATOR = 66,                  /* four groups of hexadecimal digits: `2001:db8:1140:1000` */
    DNW_REASON_NODE_NUMBER = 67,              /* a number of eight octets, in decimal */
    DNW_REASON_NSAP = 68,                     /* octets in hexadecimal after `0x` */
    DNW_REASON_PREFIXES = 69,                 /* address prefixes up to the end: `1:192.0.2.0/24` */
    DNW_REASON_PROTOCOL = 70,                 /* a protocol by its number or its name: `TCP` */
    DNW_REASON_PORTS = 71,                    /* ports up to the end, by their numbers or the names of services: `smtp` */
    DNW_REASON_OLD_TYPES = 72,                /* record types of codes of 1 to 127 up to the end */
    DNW_REASON_MANDATORY = 73                 /* service parameters of which `mandatory` lists keys of the others */
};

/* Where a text goes wrong: at `offset`, in octets, where a word of `len` octets is (0 if none is: at the end, or at a
   parenthesis). `reason` is one of enum dnw_text_reason; from 32 on, `field` is the number of the field of the data,
   from 0 (of data in the form `\#`, 0 is the number of octets, and 1 the octets), else it is 0. */
struct dnw_text_fault {
    size_t offset;
    size_t len;
    size_t field;
    uint32_t reason;
};

/* Stores where a text goes wrong that dnw_record_parse takes, with the same origin, or DNW_REASON_NONE and zeros if the
   text is a record. The offset is that of the first word that is not as it should be, or of the end of the entry if a
   word lacks; of a parenthesis, a line feed or the text's end that is against a rule; or of the end of the first entry
   if another one follows. It fails as dnw_name_compare if the origin is not a wire form, and with DNW_NO_MEMORY. */
uint32_t dnw_record_text_fault(const uint8_t *text, size_t text_len, const uint8_t *origin, size_t origin_len,
                               struct dnw_text_fault *fault);

/* Stores where a text goes wrong that dnw_data_parse takes, with the same type, class and origin, as
   dnw_record_text_fault does. It fails as that does, and with DNW_NO_MEMORY. */
uint32_t dnw_data_text_fault(uint16_t record_type, uint16_t record_class, const uint8_t *text, size_t text_len,
                             const uint8_t *origin, size_t origin_len, struct dnw_text_fault *fault);

/* Stores a sentence about a fault in `text`, and its length in `len`, as `at offset 14: wanted a name (field 1)`. It has
   no octets if no reason has the number. It is ASCII, and has at most DNW_SENTENCE_SIZE octets. It fails with DNW_NO_ROOM
   if it has more than `text_size`, and with DNW_NO_MEMORY. */
uint32_t dnw_text_fault_print(const struct dnw_text_fault *fault, uint8_t *text, size_t text_size, size_t *len);

/* The kinds of what dnw_zone_next stores. */
enum dnw_zone_kind {
    DNW_ZONE_END = 0,     /* the text is at its end */
    DNW_ZONE_MORE = 1,    /* the text ends within an entry: call again with the same text and more after it */
    DNW_ZONE_NOTHING = 2, /* a blank line, a comment, $ORIGIN or $TTL */
    DNW_ZONE_RECORD = 3,
    DNW_ZONE_INCLUDE = 4,
    DNW_ZONE_ERROR = 5    /* an entry that is not valid: `fault` is where and why */
};

/* A size that is always enough for what dnw_zone_next stores in its buffer, and for any record. */
#define DNW_ZONE_OCTETS_SIZE 65800

/* Up to where a zone file was read or written, and what its entries so far say for later ones. dnw_zone_begin and
   dnw_zone_include fill it in, and a caller only reads it, but for `fallback_ttl`, its flag and `generate_limit`,
   which a caller may set before the first entry. It is plain data: it may be copied, and a copy put back, with the text after it, goes back.
   Whatever it holds, no call does harm. */
struct dnw_zone {
    size_t offset;        /* the octets of the file that were read */
    size_t line;          /* the line feeds among them */
    size_t column;        /* the octets after the last line feed */
    uint32_t default_ttl;  /* of $TTL, or the minimum of an SOA without a TTL, unless `has_default_ttl` is 0 */
    uint32_t last_ttl;     /* of the last record that has its own, unless `has_last_ttl` is 0 */
    uint32_t fallback_ttl; /* of records for which the file states none, unless `has_fallback_ttl` is 0 */
    uint32_t generate_limit; /* how many records a $GENERATE may stand for, or 0 if it is an error */
    uint32_t generate_next;  /* within a $GENERATE, the number of its next record, unless `has_generate_next` is 0 */
    uint16_t record_class;
    uint8_t has_default_ttl;
    uint8_t has_last_ttl;
    uint8_t has_fallback_ttl;
    uint8_t has_generate_next;
    uint8_t origin_len;
    uint8_t owner_len; /* 0 before the first record */
    uint8_t origin[DNW_FORM_SIZE];
    uint8_t owner[DNW_FORM_SIZE];
};

/* What a text begins with. What a kind has not is 0. */
struct dnw_zone_entry {
    uint32_t kind;               /* one of enum dnw_zone_kind */
    size_t used;                 /* the octets of the text that it takes: the next one begins after them */
    size_t offset;               /* where the entry is in the file, or what is wrong in it, from 0 */
    size_t line;                 /* from 1 */
    size_t column;               /* in octets, from 1 */
    struct dnw_text_fault fault; /* of DNW_ZONE_ERROR; its offset is in the text */
    size_t len;                  /* the octets that were stored in the buffer */
    size_t name_len;             /* those at its start that are the owner, or the origin of $INCLUDE */
    size_t data_len;             /* those at its end that are the data, or the name of the file */
    uint32_t ttl;
    uint16_t record_type;
    uint16_t record_class;
};

/* A record that dnw_zone_read stores. Its octets are those of dnw_zone_next, at offset `start` of the buffer. */
struct dnw_zone_row {
    size_t offset;   /* where its entry begins in the text */
    size_t start;    /* where its octets begin in the buffer */
    size_t len;      /* how many they are */
    size_t name_len; /* those at their start that are the owner */
    size_t data_len; /* those at their end that are the data */
    uint32_t ttl;
    uint16_t record_type;
    uint16_t record_class;
};

/* How much dnw_zone_read read and stored, and why not more. */
struct dnw_rows_read {
    size_t used;       /* the octets of the text: what comes next begins after them */
    size_t row_count;
    size_t octets_len; /* of all rows */
    uint32_t next;     /* what comes next, of enum dnw_zone_kind */
};

/* Begins a zone file: stores what is known before its first entry. `origin` is the wire form of the zone's name. It does not
   allocate. It fails as dnw_name_compare if the origin is not a wire form. */
uint32_t dnw_zone_begin(const uint8_t *origin, size_t origin_len, struct dnw_zone *zone);

/* Begins the file of an $INCLUDE: changes a copy of the state after that entry into the state before the first entry of the
   file, whose origin this is. The owner, the TTLs and the class stay as they are. At the end of the file the caller goes on
   with the state that was copied, so that what the file says ends with it (RFC 1035, section 5.1). It does not allocate. It
   fails as dnw_name_compare if the origin is not a wire form, and with DNW_BAD_ITEM if the state is spoiled. */
uint32_t dnw_zone_include(const uint8_t *origin, size_t origin_len, struct dnw_zone *zone);

/* Takes the entry that a text begins with (RFC 1035, section 5.1; RFC 2308, section 4): stores what it is in `entry`, and
   moves `zone` after it. It is called in a loop, each time with the text after the `used` octets, until the kind is
   DNW_ZONE_END. The text may be a part of the file: if `more` is set, an entry that may go on after the text is
   DNW_ZONE_MORE, and takes no octets. Then the caller reads more of the file after the same octets, as many as they are or
   more, so that no octet is looked at more than a few times; the longest entry bounds the memory. With the last part `more`
   is false.

   For DNW_ZONE_RECORD the buffer has the record as dnw_record_parse stores it. A record without an owner has that of the
   record before it, and one without a class the last class, or IN. The TTL is the record's own, or that of the last $TTL, or
   the last one that a record has; without these, an SOA and what follows it have its minimum, and other records have
   `fallback_ttl`. For DNW_ZONE_INCLUDE the buffer has the wire form of the origin, and then the name of the
   file, without quotes and escapes. It has an octet, and no zero octet, is UTF-8 but for its escapes, and is not null-
   terminated; another name is DNW_REASON_NO_FILE. For DNW_ZONE_ERROR nothing is stored in the buffer, and `zone` is after
   the line of the error: the next call goes on at the next entry, with what the entries before said.
   dnw_text_fault_print has a sentence for `fault`.

   A $GENERATE of BIND (its Administrator Reference Manual; no RFC has it) is the error DNW_REASON_GENERATE, unless
   `generate_limit` of the state is set. Then each call stores one of its records, and `used` is 0 but for the last one, or
   for an error: the next call has the same text. What is wrong of a template is at its offset.

   It fails with DNW_BAD_ITEM if the state is spoiled, so that its origin or its owner is not a wire form; with DNW_NO_ROOM if
   more than `octets_size` octets would be stored; and with DNW_NO_MEMORY. Then the same call may be made again. */
uint32_t dnw_zone_next(const uint8_t *text, size_t text_len, bool more, struct dnw_zone *zone, uint8_t *octets,
                       size_t octets_size, struct dnw_zone_entry *entry);

/* Takes as many entries of a text as calls of dnw_zone_next would, one after another, up to the first that is neither a record
   nor DNW_ZONE_NOTHING: stores a row for each record, and its octets after those of the row before, and moves `zone` after the
   last of these entries. `rows_size` is the number of rows that there is room for. What follows in both buffers is unchanged.
   It saves most of what a call costs for each record and each blank line: give it some hundred rows, and 128 octets for each
   beside the DNW_ZONE_OCTETS_SIZE that it asks for.

   `next` says what comes next. For DNW_ZONE_END and DNW_ZONE_MORE it is as for dnw_zone_next. For DNW_ZONE_RECORD all rows are
   used, or fewer than DNW_ZONE_OCTETS_SIZE octets of the buffer are left, so that not every record has room: once the rows are
   taken care of, the call is made again, with the text after the `used` octets. For DNW_ZONE_INCLUDE and DNW_ZONE_ERROR,
   dnw_zone_next takes that entry, or fails with DNW_NO_MEMORY if it was memory that ran out.

   It fails with DNW_NO_ROOM if `octets_size` is less than DNW_ZONE_OCTETS_SIZE, and else with DNW_BAD_ITEM if the state is
   spoiled. */
uint32_t dnw_zone_read(const uint8_t *text, size_t text_len, bool more, struct dnw_zone *zone, struct dnw_zone_row *rows,
                       size_t rows_size, uint8_t *octets, size_t octets_size, struct dnw_rows_read *read);

/* Stores the record at offset `start` of a message as a line of a zone file, with the end of the line, and moves `zone` after
   it. What the entries before say is left out (RFC 1035, section 5.1; RFC 2308, section 4): the owner if it is that of the
   record before, the last labels of another owner if they are those of the origin, and the TTL if it is that of the last
   $TTL. Capitals count: an owner that differs in them alone is written. The class, the type and the data are there in full.

   `zone` is the state of who reads the text: dnw_zone_begin fills it in, and after each call it is as dnw_zone_next leaves
   it after the same octets. So what is stored is read as the same record, if its data are valid for their type. If the
   origin is the root, names are in full, so that the text says the same with any origin.

   It fails as dnw_record_print does, also with DNW_NO_ROOM and DNW_NO_MEMORY; and with DNW_BAD_ITEM if the state is spoiled.
   Then nothing is stored, and the same call may be made again. */
uint32_t dnw_zone_put_record(const uint8_t *message, size_t message_len, size_t start, struct dnw_zone *zone, uint8_t *text,
                             size_t text_size, struct dnw_printed_record *printed);

/* Stores the line of an $ORIGIN (RFC 1035, section 5.1), with the name in full and the end of the line, and its length in
   `len`, and moves `zone` after it. `origin` is a wire form. A file that begins with it says the same with any origin. It
   fails as dnw_zone_begin, with DNW_BAD_ITEM if the state is spoiled, with DNW_NO_ROOM, and with DNW_NO_MEMORY. */
uint32_t dnw_zone_put_origin(const uint8_t *origin, size_t origin_len, struct dnw_zone *zone, uint8_t *text, size_t text_size,
                             size_t *len);

/* Stores the line of a $TTL (RFC 2308, section 4), in seconds, with the end of the line, and its length in `len`, and moves
   `zone` after it. It fails with DNW_BAD_ITEM if the state is spoiled, with DNW_NO_ROOM, and with DNW_NO_MEMORY. */
uint32_t dnw_zone_put_ttl(uint32_t ttl, struct dnw_zone *zone, uint8_t *text, size_t text_size, size_t *len);

/* What dnw_zone_check finds. All are errors, which servers refuse or serve wrong, but for DNW_CHECK_OTHER_TTL,
   DNW_CHECK_BELOW_DELEGATION, DNW_CHECK_NO_HOST_NAME, DNW_CHECK_WILDCARD_NS, DNW_CHECK_SERVER_IS_ADDRESS,
   DNW_CHECK_NO_SIBLING_GLUE and DNW_CHECK_NO_SERVER_ADDRESS, which are warnings. */
enum dnw_check {
    DNW_CHECK_NO_SOA = 1,            /* the apex has no SOA record (RFC 1035, section 5.2) */
    DNW_CHECK_NO_NS = 2,             /* the apex has no NS record (RFC 1034, section 4.2.1) */
    DNW_CHECK_OUT_OF_ZONE = 3,       /* the owner is not in the zone; nothing else is found of such a record */
    DNW_CHECK_OTHER_CLASS = 4,       /* the class is not that of the first record (RFC 1035, section 5.2) */
    DNW_CHECK_SOA_ELSEWHERE = 5,     /* a SOA record is not at the apex */
    DNW_CHECK_TWO_OF_ONE = 6,        /* a name has two SOA, CNAME (RFC 2181, section 10.1) or DNAME records (RFC 6672, section
                                        2.4) with different data, but for the case of names (RFC 4343); `other` is the first */
    DNW_CHECK_OTHER_TTL = 7,         /* the TTL is not that of the set's first record, `other` (RFC 2181, section 5.2) */
    DNW_CHECK_CNAME_AND_OTHER = 8,   /* the owner of a CNAME record has other data, `other` (RFC 2181, section 10.1); SIG, KEY
                                        and NXT (RFC 2535), RRSIG and NSEC may be there (RFC 4034) */
    DNW_CHECK_DS_ELSEWHERE = 9,      /* a DS record is at the apex, or where no NS record is (RFC 4035, section 2.4) */
    DNW_CHECK_BELOW_DNAME = 10,      /* the owner is below that of a DNAME record, `other` (RFC 6672, section 2.4) */
    DNW_CHECK_BELOW_DELEGATION = 11, /* the owner is below that of an NS record, `other`, and the record is no address */
    DNW_CHECK_NO_HOST_NAME = 12,     /* the owner of an A, AAAA or MX record is no name of a host (RFC 952; RFC 1123, section
                                        2.1), and no wildcard of such names */
    DNW_CHECK_SERVER_IS_ALIAS = 13,  /* the name that an NS, MX or SRV record has is an alias, by a CNAME record, also of a
                                        wildcard, or a DNAME record above it, `other` (RFC 2181, section 10.3; RFC 2782) */
    DNW_CHECK_NO_ADDRESS = 14,       /* the name that an NS record has is in the zone, and neither it nor, if it does not exist,
                                        a wildcard that stands for it (RFC 4592) has an A or AAAA record. Of names of
                                        delegations the delegation's own are meant, and no wildcard (RFC 9471, section 3.1) */
    DNW_CHECK_NS_AND_DNAME = 15,     /* a DNAME record not at the apex is beside NS records, `other` is the first (RFC 6672,
                                        section 2.3) */
    DNW_CHECK_WILDCARD_NS = 16,      /* the owner of an NS record is a wildcard (RFC 4592, section 4.2) */
    DNW_CHECK_DIGEST_LENGTH = 17,    /* the digest of a DS, CDS or ZONEMD record has not the length of its type (RFC 4034,
                                        section 5.1.3; RFC 8976, section 2.2.4) */
    DNW_CHECK_CAA_TAG = 18,          /* the tag of a CAA record is empty, cut, or has other octets than letters and digits (RFC
                                        8659, section 4.1) */
    DNW_CHECK_SERVER_IS_ADDRESS = 19, /* the name that an NS, MX or SRV record has is the text of an IPv4 address, alone or
                                        before the name of the zone */
    DNW_CHECK_NO_SIBLING_GLUE = 20,  /* the name that an NS record has is of another delegation of the zone, and has no address
                                        (RFC 9471, section 3.2) */
    DNW_CHECK_NO_SERVER_ADDRESS = 21 /* the name that an MX or SRV record has is in the zone, at no delegation nor below one, and
                                        has no address */
};

/* A finding of dnw_zone_check. */
struct dnw_zone_finding {
    uint32_t check; /* one of enum dnw_check */
    bool is_error;
    size_t number; /* of the record, from 0, or SIZE_MAX if it is about no record */
    size_t other;  /* of another record, or SIZE_MAX */
};

/* Stores what a zone has that the standards forbid or advise against, as findings, and their number in `count`: first those of
   the apex, and then those of each record in turn. `zone` is the wire form of the apex. `records` are the records of the zone,
   glue too, one after another, in canonical order of their owners (RFC 4034, section 6.1): the order of dnw_record_sort_key is
   one. No record has more than ten findings, and the apex two. What DNSSEC asks of a zone is not checked.

   If the apex is not a wire form, it fails as dnw_name_compare. Otherwise it fails as dnw_record_read for the first record that
   is not valid, but never for the room of the owner; with DNW_TOO_MANY_POINTERS at the first record whose owner, with those
   before it, follows more than 65536 compression pointers; with DNW_BAD_ITEM if the owner of a record is before that of the
   record before it; with DNW_NO_ROOM if there are more than `findings_size` findings; and with DNW_NO_MEMORY. Then nothing is
   stored. Data of NS, MX and SRV records that have no name are passed over. */
uint32_t dnw_zone_check(const uint8_t *zone, size_t zone_len, const uint8_t *records, size_t records_len,
                        struct dnw_zone_finding *findings, size_t findings_size, size_t *count);

/* Stores the octets that the signature of an RRSIG covers (RFC 4034, section 3.1.8.1), the bytes to verify or to sign,
   and their number in `len`.

   They are the data of the RRSIG up to the signature, with the signer's name in lower case, and then the covered
   records as a set in canonical form and order (RFC 4034, section 6), each once, with the original TTL. If the owner
   has more labels than the RRSIG counts, it is replaced by the wildcard that made the records (RFC 4035, section
   5.3.2). The covered records are those with the RRSIG's owner (ignoring ASCII case), its class and the type covered,
   among the records from offset `start` up to the end; there are none if the signer is neither that owner nor a name
   that the owner is below (RFC 4035, section 5.3.1).

   To verify a signature, pass a message up to the end of a section, and the offset at which that section begins, both
   from dnw_message_read. `rrsig` is the offset of the RRSIG, in that section or before it. To make a signature, pass
   only records, without compression: the RRSIG at offset 0, whose signature may be empty, and after it the records to
   sign. The caller has to check the signature, its times, and that the key is the zone's.

   It fails with DNW_MESSAGE_CUT if `rrsig` or `start` is after the end, and as dnw_record_read if a record at one of
   them, or after another record, is not valid, but never for the room of the owner; with DNW_NOT_RRSIG if the record at
   `rrsig` is of another type, or has no data, which is right in the classes ANY and NONE (RFC 2136, section 2.5);
   as dnw_field_next if the data of the RRSIG are not valid; with DNW_TOO_FEW_LABELS if the
   owner has fewer labels than it counts; at the first covered record, as dnw_field_next if its data are not valid, and
   with DNW_DATA_TOO_LONG if they have more than 65535 octets once names are uncompressed; with DNW_TOO_MANY_POINTERS if
   the owners of the records follow more than 65536 compression pointers in all, or the names in the data of those that
   are covered; with DNW_NOT_COVERED if it covers no record; with DNW_NO_ROOM if there are more than `octets_size`
   octets; and with DNW_NO_MEMORY. */
uint32_t dnw_signed_octets(const uint8_t *message, size_t section_end, size_t start, size_t rrsig, uint8_t *octets,
                           size_t octets_size, size_t *len);

/* Stores the sort key of the record at an offset of a message, and its length in `len`. Keys compare with memcmp, a
   shorter one first, as records do in canonical order (RFC 4034, section 6): by owner, type, class and data. Two records
   have the same key exactly if they are equal (RFC 2136, section 1.1.1): the TTL makes no difference, and neither do
   compression and the case of the owner and of the names that canonical form lowers. So keys can be hashed.

   A key has the octets that dnw_name_sort_key stores for the owner, an octet 0, two octets of type, two of class, and the
   data with names whole. DNW_SORT_KEY_SIZE + 5 + 512 octets and as many as the data have are always enough.

   It fails with DNW_MESSAGE_CUT if `start` is after the end; as dnw_record_read, but never for the room of the owner; as
   dnw_field_next if the data are not valid; with DNW_NO_ROOM if the key has more than `key_size` octets; and with
   DNW_NO_MEMORY. */
uint32_t dnw_record_sort_key(const uint8_t *message, size_t message_len, size_t start, uint8_t *key, size_t key_size,
                             size_t *len);

/* Stores the key tag of a DNSKEY, by its data (RFC 4034, appendix B). It does not allocate.

   It fails with DNW_NOT_DNSKEY if the data have fewer than 4 octets or more than 65535, or if the algorithm is 1 and
   they have fewer than 7. */
uint32_t dnw_key_tag(const uint8_t *dnskey, size_t dnskey_len, uint16_t *tag);

/* Stores the digest of a DNSKEY that a DS record has (RFC 4034, section 5.1.4), and its length in `len`. `owner` is the
   wire form of the owner, and `dnskey` the data. Digest type 1 is SHA-1, 2 is SHA-256 (RFC 4509) and 4 is SHA-384 (RFC
   6605). It does not allocate.

   If the owner is not a wire form, it fails as dnw_name_compare. Otherwise it fails with DNW_NOT_DNSKEY if the data have
   fewer than 4 octets or more than 65535; with DNW_UNKNOWN_ALGORITHM for another digest type; and with DNW_NO_ROOM if
   the buffer is too short, but never if it has DNW_DIGEST_SIZE bytes. */
uint32_t dnw_ds_digest(const uint8_t *owner, size_t owner_len, const uint8_t *dnskey, size_t dnskey_len, uint8_t digest_type,
                       uint8_t *digest, size_t digest_size, size_t *len);

/* Stores a name as NSEC3 hashes it (RFC 5155, section 5), DNW_NSEC3_HASH_SIZE octets, and their number in `len`. `name`
   is a wire form. `algorithm`, `iterations` and the salt are fields of an NSEC3 or NSEC3PARAM record, and `most` is how
   many iterations the caller allows, since each takes time (RFC 9276, section 3.2). It does not allocate.

   If the name is not a wire form, it fails as dnw_name_compare. Otherwise it fails with DNW_UNKNOWN_ALGORITHM if the
   algorithm is not 1 (SHA-1); with DNW_TOO_MANY_ITERATIONS if there are more than `most` iterations; and with
   DNW_NO_ROOM if the buffer is too short. */
uint32_t dnw_nsec3_hash(const uint8_t *name, size_t name_len, uint8_t algorithm, uint16_t iterations, const uint8_t *salt,
                        size_t salt_len, uint16_t most, uint8_t *hash, size_t hash_size, size_t *len);

/* As dnw_nsec3_hash, but it stores the first label of the owner of the NSEC3 record: the hash in base 32 with the
   extended hex alphabet, in lower case and without padding (RFC 5155, section 3), DNW_NSEC3_LABEL_SIZE octets. */
uint32_t dnw_nsec3_label(const uint8_t *name, size_t name_len, uint8_t algorithm, uint16_t iterations, const uint8_t *salt,
                         size_t salt_len, uint16_t most, uint8_t *label, size_t label_size, size_t *len);

/* Stores whether an NSEC record covers a name: the name comes after the owner and before the next name in canonical
   order, so the zone has no such name (RFC 4034, section 4.1.1). All three are wire forms. The next name of the last
   record of a zone is the zone's apex; that record covers each name of the zone after its owner. A name that is not in
   the zone is never covered. The caller has to check that the owner is not a delegation above the name (RFC 6840,
   section 4.1). It does not allocate.

   It fails as dnw_name_compare, for the first of them that is not a wire form. */
uint32_t dnw_nsec_covers(const uint8_t *owner, size_t owner_len, const uint8_t *next, size_t next_len, const uint8_t *name,
                         size_t name_len, bool *covers);

/* Stores whether an NSEC3 record with the hash `own` and the next hash `next` covers `hash`: it comes between them, or,
   for the last record of a zone, after its own or before the next one (RFC 5155, section 8.3). It cannot fail, and does
   not allocate. */
uint32_t dnw_nsec3_covers(const uint8_t *own, size_t own_len, const uint8_t *next, size_t next_len, const uint8_t *hash,
                          size_t hash_len, bool *covers);

/* Stores the digest of a zone that a ZONEMD record has, by the scheme SIMPLE (RFC 8976, section 3.3.1), and its length
   in `len`. `apex` is the wire form of the zone's apex. `records` are records of one class, one after another in any
   order. Those of the zone are digested, glue and what is below a delegation too; those whose owner is neither the apex
   nor below it are left out. Records that are the same but for the TTL count once, with the least TTL. The ZONEMD records
   at the apex, and the RRSIG records there that cover ZONEMD, are left out, so they may be given. Hash algorithm 1 is
   SHA-384, and 2 is SHA-512.

   If the apex is not a wire form, it fails as dnw_name_compare. Otherwise it fails as dnw_record_read for the first
   record that is not valid, but never for the room of the owner, and as dnw_field_next if its data are not valid;
   with DNW_TOO_MANY_POINTERS at the first record whose owner and names in data, with those of the records before it,
   follow more than 65536 compression pointers; with DNW_UNKNOWN_ALGORITHM for another hash algorithm; with
   DNW_DATA_TOO_LONG if a record has more than 65535 octets of data once names are uncompressed; with DNW_NO_ROOM if
   the buffer is too short, but never if it has DNW_DIGEST_SIZE bytes; and with DNW_NO_MEMORY. */
uint32_t dnw_zone_digest(const uint8_t *apex, size_t apex_len, const uint8_t *records, size_t records_len, uint8_t algorithm,
                         uint8_t *digest, size_t digest_size, size_t *len);

/* The flags of a header (RFC 1035, section 4.1.1; RFC 4035, section 3.2). A caller joins with `|` the flags to set, the
   operation code as `op_code << 11`, and the low four bits of the response code as `response_code & 15`. */
enum dnw_flag {
    DNW_FLAG_RESPONSE = 0x8000,            /* QR */
    DNW_FLAG_AUTHORITATIVE = 0x0400,       /* AA */
    DNW_FLAG_TRUNCATION = 0x0200,          /* TC */
    DNW_FLAG_RECURSION_DESIRED = 0x0100,   /* RD */
    DNW_FLAG_RECURSION_AVAILABLE = 0x0080, /* RA */
    DNW_FLAG_AUTHENTIC_DATA = 0x0020,      /* AD */
    DNW_FLAG_CHECKING_DISABLED = 0x0010    /* CD */
};

/* The number of octets of an OPT record without options, which a caller holds back for dnw_writer_edns. */
#define DNW_EDNS_SIZE 11

/* The state of a message that is written item by item. The message is the first `len` octets of its buffer.
   dnw_writer_begin, dnw_writer_query and dnw_writer_reply fill it in, and a caller only reads `len`, and may lower
   `max_size`. It is plain data: it may be copied, and a copy put back, with the octets of the message, takes back what was
   written since. */
struct dnw_writer {
    size_t len;
    size_t max_size; /* the most octets that the message may have */
    size_t reserved; /* how many of them are held back */
    uint16_t owner;
    uint8_t rank;
    uint8_t has_opt;
    uint16_t hints[512];
};

/* Begins a message of at most `max_size` octets in a buffer: stores a header with this id, these flags, and counts of 0.
   It fails with DNW_NO_ROOM if `message_size` is less than DNW_HEADER_SIZE, and with DNW_MESSAGE_TOO_LONG if `max_size` is.

   The functions below add an item at the end of the message and count it in the header. An item is added whole or not at
   all: a function that fails leaves the writer and the `len` octets of the message unchanged, but for TC where it says so.
   The octets of the buffer after the message may be anything then. Names are compressed (RFC 1035, section 4.1.4): owners,
   names of questions, and the names in data of the types that RFC 3597, section 4 allows: NS, MD, MF, CNAME, SOA, MB, MG,
   MR, PTR, MINFO and MX. An item fits exactly if what is written of it, compressed, does. None of these functions
   allocates. After each of them the message is complete.

   Whatever a writer and its buffer hold, nothing outside the buffer is written, and the name of no item is wrong. After
   the rules that the function itself has, an item fails with

    DNW_MESSAGE_CUT       if the message or the buffer has fewer than DNW_HEADER_SIZE octets, or its header counts 65535
                          items of the section;
    DNW_BAD_ITEM          if a later section has items already, or after dnw_writer_last;
    DNW_DUPLICATE_EDNS    if it is an OPT record, and the message has one already (RFC 6891, section 6.1.1);
    DNW_MESSAGE_TOO_LONG  if the message would be longer than `max_size`, the buffer, or 65535 octets, less the octets
                          that are held back. */
uint32_t dnw_writer_begin(uint8_t *message, size_t message_size, size_t max_size, uint16_t id, uint16_t flags,
                          struct dnw_writer *writer);

/* Begins the reply to a request: its id, operation code, RD and CD, QR, and its question, with AA, RA and AD of `flags`,
   and a response code. It stores in `edns` what the reply needs: `is_present` is whether it needs an OPT record, for which
   DNW_EDNS_SIZE octets are held back then (dnw_writer_reply_edns adds it); `dnssec_ok` and `max_payload` are those of the
   request, 512 without EDNS; the others are 0. Its `response_code` is that of the reply, whose high bits are
   `response_code >> 4`: mostly the given one; BADVERS (16) if the version of EDNS is above 0 (RFC 6891, section 6.1.3);
   and FORMERR (1) if the request is not complete, its EDNS is not valid (RFC 6891, section 7), or it has more than one
   question (RFC 9619): in the first two cases the reply has no OPT record. Over UDP a caller then lowers
   `writer->max_size` to `edns->max_payload`.

   A reply with FORMERR, NOTIMP (4) or BADVERS is whole without a record: only additional records may follow, which are
   OPT, and TSIG or SIG(0). Then `takes_records` is false.

   It fails with DNW_BAD_ITEM if the request has no whole header, or is a response; or if the code is above 15 and the
   request has no EDNS, as then the reply has none either (RFC 6891, section 7), or above 4095. It fails with
   DNW_MESSAGE_TOO_LONG if the header or the question does not fit. Then the buffer may hold anything. It does not
   allocate. */
uint32_t dnw_writer_reply(uint8_t *message, size_t message_size, size_t max_size, const uint8_t *request,
                          size_t request_len, uint16_t flags, uint16_t response_code, struct dnw_writer *writer,
                          struct dnw_edns *edns);

/* Adds the OPT record of a reply that dnw_writer_reply began, if its request has one, and only then (RFC 6891, sections 6.1.1 and
   7). `asked` is what that stored. The record has DO if the request has it (RFC 3225, section 3), the high bits of the response code,
   and the version 0; the caller gives the size of the largest message that it accepts, the options and `block`, as for
   dnw_writer_edns. The DNW_EDNS_SIZE octets that are held back for it are given back. It adds nothing and returns 0 if the request
   has no EDNS. It fails as dnw_writer_edns. */
uint32_t dnw_writer_reply_edns(uint8_t *message, size_t message_size, const struct dnw_edns *asked, uint16_t max_payload,
                               const uint8_t *options, size_t options_len, uint16_t block, struct dnw_writer *writer);

/* Begins a query: its id, RD if `recursion_desired` is set, and a question, the wire form of a name, a type and a class. If
   `max_payload` is not 0, an OPT record says that the sender accepts messages of so many octets, or of 512 if it is less
   (RFC 6891, section 6.2.5); a caller who has more to say by EDNS gives 0, and adds it by dnw_writer_edns. The id should be
   random (RFC 5452, section 9.2). `dnw_writer_query` fails as dnw_name_compare if the name is not a wire form, and with
   DNW_MESSAGE_TOO_LONG if the header, the question or the OPT record does not fit. Then the buffer may hold anything. */
uint32_t dnw_writer_query(uint8_t *message, size_t message_size, size_t max_size, uint16_t id, bool recursion_desired,
                          const uint8_t *name, size_t name_len, uint16_t query_type, uint16_t record_class,
                          uint16_t max_payload, struct dnw_writer *writer);

/* Adds a question: the wire form of its name, its type and its class. It fails as dnw_name_compare if the name is not a
   wire form, and otherwise by the rules above. */
uint32_t dnw_writer_question(uint8_t *message, size_t message_size, const uint8_t *name, size_t name_len,
                             uint16_t query_type, uint16_t record_class, struct dnw_writer *writer);

/* Adds a record to a section: DNW_SECTION_ANSWERS, DNW_SECTION_AUTHORITIES or DNW_SECTION_ADDITIONALS of enum
   dnw_section. `owner` is a wire form. The data are the fields of the type and class in wire form, with their names
   uncompressed; they may be empty in the classes ANY and NONE (RFC 2136). It fails with DNW_BAD_ITEM if `section` is
   another number; as dnw_name_compare if the owner is not a wire form; with DNW_BAD_DATA if the data are not those of
   the type; and otherwise by the rules above. */
uint32_t dnw_writer_record(uint8_t *message, size_t message_size, uint32_t section, const uint8_t *owner, size_t owner_len,
                           uint16_t record_type, uint16_t record_class, uint32_t ttl, const uint8_t *data, size_t data_len,
                           struct dnw_writer *writer);

/* Adds the records of a set, or none of them (RFC 2181, section 5). `set` has for each record two octets of length, and
   the data as for dnw_writer_record. If the set has no room and `required` is set, TC is set in the header (RFC 2181,
   section 9): for answers, and for what a reply cannot do without. It fails with DNW_BAD_ITEM also if the set ends within a
   record, and otherwise as dnw_writer_record, for the first record that fails. */
uint32_t dnw_writer_set(uint8_t *message, size_t message_size, uint32_t section, bool required, const uint8_t *owner,
                        size_t owner_len, uint16_t record_type, uint16_t record_class, uint32_t ttl, const uint8_t *set,
                        size_t set_len, struct dnw_writer *writer);

/* Holds back so many octets of the maximum, for items that come last; and gives back so many, or all if fewer are held.
   They cannot fail. */
uint32_t dnw_writer_hold(size_t octets, struct dnw_writer *writer);
uint32_t dnw_writer_release(size_t octets, struct dnw_writer *writer);

/* Adds an OPT record to the Additional section (RFC 6891, section 6.1), and gives back `held` octets first: the size of
   the largest message that the sender accepts, at least 512 octets (less is written as 512); the high eight bits of the
   response code, `response_code >> 4`; the version, which is 0; DO; and the options, each two octets of code, two of
   length, and as many octets as that. If `block` is not 0, the option for padding is added after them (RFC 7830), so that
   the octets of the message, with those that are still held back, are a multiple of `block` (RFC 8467), or of 512 if it
   is more; but not if there is no room for that. It fails with DNW_CUT_OPTION if the options end within an option, and
   otherwise by the rules above. */
uint32_t dnw_writer_edns(uint8_t *message, size_t message_size, size_t held, uint16_t max_payload, uint8_t rcode_high,
                         uint8_t version, bool dnssec_ok, const uint8_t *options, size_t options_len, uint16_t block,
                         struct dnw_writer *writer);

/* Adds a record to the Additional section after which no item may follow, as TSIG (RFC 8945, section 5.1) or SIG(0), and
   gives back `held` octets first. Its owner is not compressed, so that it has as many octets as were held back for it, and
   the message is a multiple of the block that dnw_writer_edns padded it to. Any type is taken: the caller says which record
   is the last. It fails as dnw_writer_record. */
uint32_t dnw_writer_last(uint8_t *message, size_t message_size, size_t held, const uint8_t *owner, size_t owner_len,
                         uint16_t record_type, uint16_t record_class, uint32_t ttl, const uint8_t *data, size_t data_len,
                         struct dnw_writer *writer);

/* Adds records of a list of items from offset `start` on, each after an octet of enum dnw_list_item for its section, as
   dnw_message_write takes them: all, or up to the first that is not added. It stores in `next` the offset of the item that
   is next, `items_len` after the last one. So a response to AXFR or IXFR is split into messages (RFC 5936, section 2.2):
   each is begun, as by dnw_writer_reply, and filled from `next` of the one before.

   If the first of them is not added, the call fails and changes nothing: with DNW_BAD_ITEM if `start` is after the end of
   the list or no record is there, and otherwise as dnw_writer_record. So a loop always comes to an end. */
uint32_t dnw_writer_fill(uint8_t *message, size_t message_size, const uint8_t *items, size_t items_len, size_t start,
                         struct dnw_writer *writer, size_t *next);

/* The first octet of an item of dnw_message_write: its section, and for a record one of the others joined by `|`. */
enum dnw_list_item {
    DNW_LIST_QUESTION = 0,
    DNW_LIST_ANSWER = 1,
    DNW_LIST_AUTHORITY = 2,
    DNW_LIST_ADDITIONAL = 3,
    DNW_LIST_REQUIRED = 0x20, /* a record that is not left out without TC, whatever the RFCs say */
    DNW_LIST_OPTIONAL = 0x80  /* a record that may be left out without TC, whatever the RFCs say */
};

/* Writes a message of a list of items, in at most `max_size` octets and `message_size`, and stores it. An item is an octet
   of enum dnw_list_item, the wire form of a name, two octets of type and two of class, and for a record four of TTL, two of
   the length of its data, and the data as for dnw_writer_record. The items are in the order of the sections.

   Wherever they stand among the additional records, an OPT record and then a signature come last in the message, and are never
   left out: their octets are held back from the start. A message has one of each at most (RFC 6891, section 6.1.1; RFC 8945,
   section 5.1; RFC 2931, section 3); which records sign it, dnw_message_pack says. The class of the OPT record is the payload
   size, and its TTL has the version and DO (RFC 6891, section 6.1.3).

   The header has the low four bits of `response_code` in place of those of `flags`, and the OPT record the high eight in
   place of those of its TTL. A code above 15 needs an OPT record, and none is above 4095. If `is_reply` is set, the
   message replies to a request: with FORMERR, NOTIMP or BADVERS, so that dnw_edns.takes_records is clear, it is whole
   without records, and those of the list are left out, but for what comes last.

   Successive records with the same octet, owner (ignoring case), type and class are a set, and are written whole or not at
   all (RFC 2181, section 5); the RRSIG records after a set of NS records that cover it are of the set. If a set does not
   fit, it and the later ones of its section are left out, and TC is set if one of their records is required. `result` has
   the length of the message and its TC bit. Names of questions and owners may be compressed: they are read with the list as
   their message. It does not allocate.

   A request (QR is clear in `flags`) and a response to a question for AXFR or IXFR are never cut. Otherwise these are
   required (RFC 2181, section 9), unless the octet says otherwise:
   - all answers, and every record if the operation is not QUERY;
   - all authorities, as SOA (RFC 2308), NSEC and NSEC3, DS, and their signatures (RFC 4035, section 3.1); but not NS if
     the last answer of the type that the first question asks for is at the owner of the first NS or below it, and then its
     signatures only if it is written;
   - additional records of type A and AAAA if there is no such answer and their owner is that of the first NS of the Authority
     section or below it (RFC 9471).
   TC is also set if a record is left out and another of its set, or an RRSIG that covers it, is there, also by the octet:
   records of a set may stand apart. It is not for an RRSIG, or if the same record is there, too. At most 4096 pairs of records are compared for that in a section; if there are more, TC
   is set.

   If `block` is not 0, the OPT record gets the option for padding, as dnw_writer_edns adds it: the message, with its signature,
   is a multiple of `block` octets.

   It fails with DNW_BAD_ITEM if the list is not one of items in this order, has a second signature, or has no OPT record for
   the response code; with DNW_DUPLICATE_EDNS if it has a second OPT record; with DNW_NO_ROOM if `message_size` is less than
   DNW_HEADER_SIZE; with DNW_MESSAGE_TOO_LONG if the header, a question or what comes last does not fit, or any record of a
   message that is never cut; with DNW_BAD_DATA if the data of a record are not those of its type, unless it is left out since
   an earlier set of its section was; and with DNW_OWNER_NOT_ROOT or DNW_CUT_OPTION if those of the OPT record are not. Then
   `result` is unchanged, and the buffer may hold anything. */
uint32_t dnw_message_write(const uint8_t *items, size_t items_len, size_t max_size, uint16_t id, uint16_t flags,
                           uint16_t response_code, bool is_reply, uint16_t block, uint8_t *message, size_t message_size,
                           struct dnw_packed *result);

/* Stores the wire form of the reverse name of an address, which owns its PTR records, and its length in `len`. The
   address is 4 bytes for IPv4 (RFC 1035, section 3.5) or 16 for IPv6 (RFC 3596, section 2.5), as in struct in_addr and
   struct in6_addr. It does not allocate. It fails with DNW_BAD_ADDRESS, or with DNW_NO_ROOM if the wire form has more
   than `form_size` octets. */
uint32_t dnw_reverse_name(const uint8_t *address, size_t address_len, uint8_t *form, size_t form_size, size_t *len);

/* `len` bytes of an address were stored in the buffer, 4 or 16. Its first `prefix_len` bits are the prefix of the net,
   and the others are 0. */
struct dnw_net {
    size_t len;
    uint8_t prefix_len;
};

/* Stores the address of the net of a reverse name: for 168.192.in-addr.arpa. 192.168.0.0, with a prefix of 16 bits. For
   the reverse name of an address, the prefix is the whole address. It ignores ASCII case, and does not allocate. It
   fails as dnw_name_compare if the bytes are not a wire form. Otherwise it fails with DNW_NOT_REVERSE if the name is
   not below in-addr.arpa. or ip6.arpa., has a label that is not an octet in decimal or a hexadecimal digit, or has more
   labels than an address; and with DNW_NO_ROOM if the address has more than `address_size` bytes. */
uint32_t dnw_reverse_parse(const uint8_t *form, size_t form_len, uint8_t *address, size_t address_size,
                           struct dnw_net *net);

/* Compares two names by their wire forms, in canonical order (RFC 4034, section 6.1): from the last label, as unsigned
   octets, ignoring ASCII case, a name before those that end in it. Stores -1, 0 or 1 in `order`. It does not allocate.
   It fails as dnw_name_read or with DNW_BYTES_LEFT if one of them is not a wire form; so do the next three. */
uint32_t dnw_name_compare(const uint8_t *left, size_t left_len, const uint8_t *right, size_t right_len, int32_t *order);

/* Stores whether two names are equal, ignoring ASCII case (RFC 4343). It does not allocate. */
uint32_t dnw_name_equal(const uint8_t *left, size_t left_len, const uint8_t *right, size_t right_len, bool *is_equal);

/* Stores whether a name is in a zone: the last labels of the name are those of the zone, ignoring ASCII case (RFC 1034,
   section 4.2). It does not allocate. */
uint32_t dnw_name_in_zone(const uint8_t *name, size_t name_len, const uint8_t *zone, size_t zone_len, bool *is_in_zone);

/* Stores the wire form of a name with its ASCII letters in lower case, and its length in `len`. It does not allocate.
   It fails with DNW_NO_ROOM if the wire form has more than `lowered_size` octets. */
uint32_t dnw_name_to_lowercase(const uint8_t *form, size_t form_len, uint8_t *lowered, size_t lowered_size, size_t *len);

/* Stores the sort key of a name, and its length in `len`. Keys that are compared by memcmp over the shorter length, and
   then by their lengths, are in the order of dnw_name_compare. They are equal exactly if the names are
   (dnw_name_equal). A key begins with the key of a zone exactly if its name is in the zone (dnw_name_in_zone). A key
   has the labels from the last one, in lower case, each with an octet 0 after it; in a label, 0 becomes 1 1, and 1
   becomes 1 2. The key of the root is empty. It does not allocate. It fails as dnw_name_compare if the bytes are not a
   wire form, and with DNW_NO_ROOM if the key has more than `key_size` octets. DNW_SORT_KEY_SIZE octets are always
   enough. */
uint32_t dnw_name_sort_key(const uint8_t *form, size_t form_len, uint8_t *key, size_t key_size, size_t *len);

/* Sorts the names of a list. It stores their indexes in `order`, in canonical order of the names, ignoring ASCII case
   (RFC 4034, section 6.1). Equal names keep the order of the list. `order` has room for `order_len` numbers; those
   after the last index are unchanged. The list has one name after another, as for dnw_names_write. It fails as
   dnw_name_read at the first element of the list that is not a valid name, with DNW_TOO_MANY_POINTERS at the first name
   that, with those before it, follows more than 65536 compression pointers, with DNW_NO_ROOM if the list has more than
   `order_len` names, and, unless the list is empty, with DNW_NO_MEMORY. */
uint32_t dnw_names_sort(const uint8_t *names, size_t names_len, size_t *order, size_t order_len);

/* Stores the wire form of a name with the labels of another name after its own, and its length in `len`. It does not
   allocate. It fails as dnw_name_compare if one of them is not a wire form. Otherwise it fails with DNW_NAME_TOO_LONG
   if the result has more than 255 octets, and with DNW_NO_ROOM if it has more than `form_size`. */
uint32_t dnw_name_append(const uint8_t *name, size_t name_len, const uint8_t *suffix, size_t suffix_len, uint8_t *form,
                         size_t form_size, size_t *len);

/* Stores the wire form of a name with a label before its own labels, and its length in `len`. The label is any 1 to 63
   bytes. It does not allocate. It fails as dnw_name_print if the name is not a wire form. Otherwise it fails with
   DNW_BAD_TEXT if the label is empty, with DNW_LABEL_TOO_LONG or DNW_NAME_TOO_LONG, and with DNW_NO_ROOM if the result
   has more than `form_size` octets. */
uint32_t dnw_name_prepend_label(const uint8_t *label, size_t label_len, const uint8_t *name, size_t name_len,
                                uint8_t *form, size_t form_size, size_t *len);

/* Stores the wire form of the last `labels` labels of a name, or of the whole name if it has fewer, and its length in
   `len`. It does not allocate. It fails as dnw_name_to_lowercase. */
uint32_t dnw_name_trim(const uint8_t *name, size_t name_len, size_t labels, uint8_t *form, size_t form_size, size_t *len);

/* Stores the wire form of a name with `*` in place of its first label (RFC 4592, section 2.1.1), and its length in
   `len`. The root is unchanged. It does not allocate. It fails as dnw_name_to_lowercase. */
uint32_t dnw_name_to_wildcard(const uint8_t *name, size_t name_len, uint8_t *form, size_t form_size, size_t *len);

/* The record types of IANA's registry that have a name, with code 0 and ANAME, and the classes that have one. Any other
   number up to 65535 is a code too. */
enum dnw_type {
    /* made by tools/types from crates/dnw_data/specs/Table.antt */
    DNW_TYPE_ZERO = 0,        /* Code 0, which no record has as its type (RFC 6895, section 3.1) */
    DNW_TYPE_A = 1,           /* An IPv4 address (RFC 1035, section 3.4.1) */
    DNW_TYPE_NS = 2,          /* A name server of a zone (RFC 1035, section 3.3.11) */
    DNW_TYPE_MD = 3,          /* A host that takes mail, which is obsolete (RFC 1035, section 3.3.4) */
    DNW_TYPE_MF = 4,          /* A host that forwards mail, which is obsolete (RFC 1035, section 3.3.5) */
    DNW_TYPE_CNAME = 5,       /* The canonical name of an alias (RFC 1035, section 3.3.1) */
    DNW_TYPE_SOA = 6,         /* The start of a zone of authority (RFC 1035, section 3.3.13) */
    DNW_TYPE_MB = 7,          /* A host of a mailbox (RFC 1035, section 3.3.3) */
    DNW_TYPE_MG = 8,          /* A member of a group of mailboxes (RFC 1035, section 3.3.6) */
    DNW_TYPE_MR = 9,          /* The new name of a mailbox (RFC 1035, section 3.3.8) */
    DNW_TYPE_NULL = 10,       /* Any data (RFC 1035, section 3.3.10) */
    DNW_TYPE_WKS = 11,        /* The services of a host by their ports, which is obsolete (RFC 1035, section 3.4.2) */
    DNW_TYPE_PTR = 12,        /* A pointer to another name (RFC 1035, section 3.3.12) */
    DNW_TYPE_HINFO = 13,      /* The CPU and the operating system of a host (RFC 1035, section 3.3.2) */
    DNW_TYPE_MINFO = 14,      /* A mailbox for requests and one for errors (RFC 1035, section 3.3.7) */
    DNW_TYPE_MX = 15,         /* A mail server for a domain (RFC 1035, section 3.3.9) */
    DNW_TYPE_TXT = 16,        /* Texts (RFC 1035, section 3.3.14) */
    DNW_TYPE_RP = 17,         /* The person responsible for a name, and the owner of a TXT record (RFC 1183, section
                                 2.2) */
    DNW_TYPE_AFSDB = 18,      /* A server of an AFS or DCE cell (RFC 1183, section 1) */
    DNW_TYPE_X25 = 19,        /* An address of X.25 (RFC 1183, section 3.1) */
    DNW_TYPE_ISDN = 20,       /* An address of ISDN, and a subaddress if there is one (RFC 1183, section 3.2) */
    DNW_TYPE_RT = 21,         /* A host that routes to another one (RFC 1183, section 3.3) */
    DNW_TYPE_NSAP = 22,       /* An address of OSI (RFC 1706, section 5) */
    DNW_TYPE_NSAP_PTR = 23,   /* The name of an address of OSI (RFC 1706, section 6) */
    DNW_TYPE_SIG = 24,        /* A signature of records (RFC 2535, section 4.1) or, if it covers the type 0, of a
                                 message (RFC 2931) */
    DNW_TYPE_KEY = 25,        /* A key of a host (RFC 2535, section 3.1) */
    DNW_TYPE_PX = 26,         /* A mapping between mail addresses and those of X.400 (RFC 2163, section 4) */
    DNW_TYPE_GPOS = 27,       /* Where a host is, in degrees and metres (RFC 1712, section 3) */
    DNW_TYPE_AAAA = 28,       /* An IPv6 address (RFC 3596, section 2.2) */
    DNW_TYPE_LOC = 29,        /* A location: 16 octets if the first, the version, is 0 (RFC 1876, section 2) */
    DNW_TYPE_NXT = 30,        /* The next name in a zone and the types at this name, in an old form (RFC 2535, section
                                 5.2) */
    DNW_TYPE_EID = 31,        /* An identifier of Nimrod (IANA's registry) */
    DNW_TYPE_NIMLOC = 32,     /* A locator of Nimrod (IANA's registry) */
    DNW_TYPE_SRV = 33,        /* The host and the port of a service (RFC 2782) */
    DNW_TYPE_ATMA = 34,       /* An address in ATM (IANA's registry) */
    DNW_TYPE_NAPTR = 35,      /* A rule that rewrites a name (RFC 3403, section 4.1) */
    DNW_TYPE_KX = 36,         /* A host that exchanges keys (RFC 2230, section 3) */
    DNW_TYPE_CERT = 37,       /* A certificate (RFC 4398, section 2) */
    DNW_TYPE_A6 = 38,         /* An IPv6 address in parts, historic (RFC 2874, section 3.1.1) */
    DNW_TYPE_DNAME = 39,      /* The name that a subtree is an alias of (RFC 6672, section 2.1) */
    DNW_TYPE_SINK = 40,       /* A kitchen sink (IANA's registry) */
    DNW_TYPE_OPT = 41,        /* The EDNS fields of a message (RFC 6891, section 6.1.1) */
    DNW_TYPE_APL = 42,        /* Address prefixes (RFC 3123, section 4) */
    DNW_TYPE_DS = 43,         /* The digest of a key of a child zone (RFC 4034, section 5.1) */
    DNW_TYPE_SSHFP = 44,      /* The fingerprint of an SSH key (RFC 4255, section 3.1) */
    DNW_TYPE_IPSECKEY = 45,   /* A gateway and its key for IPsec (RFC 4025, section 2.1) */
    DNW_TYPE_RRSIG = 46,      /* A signature of records (RFC 4034, section 3.1) */
    DNW_TYPE_NSEC = 47,       /* The next name in a zone, and the types at this name (RFC 4034, section 4.1) */
    DNW_TYPE_DNSKEY = 48,     /* A key of a zone (RFC 4034, section 2.1) */
    DNW_TYPE_DHCID = 49,      /* Which client of DHCP owns a name (RFC 4701, section 3.1) */
    DNW_TYPE_NSEC3 = 50,      /* The next hash in a zone, and the types at this name (RFC 5155, section 3.2) */
    DNW_TYPE_NSEC3PARAM = 51, /* How the names of a zone are hashed (RFC 5155, section 4.2) */
    DNW_TYPE_TLSA = 52,       /* A certificate of a TLS server (RFC 6698, section 2.1) */
    DNW_TYPE_SMIMEA = 53,     /* A certificate for mail (RFC 8162, section 2) */
    DNW_TYPE_HIP = 55,        /* The identity of a host, and its rendezvous servers (RFC 8005, section 5) */
    DNW_TYPE_NINFO = 56,      /* The state of a zone (the template NINFO of IANA's registry) */
    DNW_TYPE_RKEY = 57,       /* A key for the encryption of NAPTR records (the template RKEY of IANA's registry) */
    DNW_TYPE_TALINK = 58,     /* The links of a chain of trust anchors (the template TALINK of IANA's registry) */
    DNW_TYPE_CDS = 59,        /* The child's copy of a DS (RFC 7344, section 3.1) */
    DNW_TYPE_CDNSKEY = 60,    /* The child's copy of a DNSKEY (RFC 7344, section 3.2) */
    DNW_TYPE_OPENPGPKEY = 61, /* An OpenPGP key (RFC 7929, section 2.1) */
    DNW_TYPE_CSYNC = 62,      /* The types that a parent zone may copy from its child (RFC 7477, section 2.1.1) */
    DNW_TYPE_ZONEMD = 63,     /* The digest of a zone (RFC 8976, section 2.2) */
    DNW_TYPE_SVCB = 64,       /* How to reach a service (RFC 9460, section 2.2) */
    DNW_TYPE_HTTPS = 65,      /* How to reach a service over HTTPS (RFC 9460, section 9) */
    DNW_TYPE_DSYNC = 66,      /* Where to send notifications about a delegation (RFC 9859, section 2.1) */
    DNW_TYPE_HHIT = 67,       /* The identity of a host, in a hierarchy (RFC 9886, section 5.1) */
    DNW_TYPE_BRID = 68,       /* The identity of an unmanned aircraft (RFC 9886, section 5.2) */
    DNW_TYPE_SPF = 99,        /* SPF texts (RFC 4408, section 3.1.1), now in TXT records (RFC 7208, section 3.1) */
    DNW_TYPE_UINFO = 100,     /* Reserved by IANA */
    DNW_TYPE_UID = 101,       /* Reserved by IANA */
    DNW_TYPE_GID = 102,       /* Reserved by IANA */
    DNW_TYPE_UNSPEC = 103,    /* Reserved by IANA */
    DNW_TYPE_NID = 104,       /* The identifier of a node (RFC 6742, section 2.1.1) */
    DNW_TYPE_L32 = 105,       /* A locator of 32 bits (RFC 6742, section 2.2.1) */
    DNW_TYPE_L64 = 106,       /* A locator of 64 bits (RFC 6742, section 2.3.1) */
    DNW_TYPE_LP = 107,        /* The name of locators (RFC 6742, section 2.4.1) */
    DNW_TYPE_EUI48 = 108,     /* An EUI-48 address (RFC 7043, section 3.1) */
    DNW_TYPE_EUI64 = 109,     /* An EUI-64 address (RFC 7043, section 4.1) */
    DNW_TYPE_NXNAME = 128,    /* A name that does not exist, in bitmaps (RFC 9824) */
    DNW_TYPE_TKEY = 249,      /* The making of a key for TSIG (RFC 2930, section 2) */
    DNW_TYPE_TSIG = 250,      /* The signature of a message (RFC 8945, section 4.2) */
    DNW_TYPE_IXFR = 251,      /* A transfer of the changes of a zone, in a question (RFC 1995) */
    DNW_TYPE_AXFR = 252,      /* A transfer of a whole zone, in a question (RFC 5936) */
    DNW_TYPE_MAILB = 253,     /* Records of mailboxes, in a question, obsolete (RFC 1035, section 3.2.3) */
    DNW_TYPE_MAILA = 254,     /* Records of mail, in a question, obsolete (RFC 1035, section 3.2.3) */
    DNW_TYPE_ANY = 255,       /* Any type, in a question (RFC 1035, section 3.2.3) */
    DNW_TYPE_URI = 256,       /* The URI of a service (RFC 7553, section 4.2) */
    DNW_TYPE_CAA = 257,       /* The authorities that may issue certificates for a domain (RFC 8659, section 4.1) */
    DNW_TYPE_AVC = 258,       /* What is known of an application (the template AVC of IANA's registry) */
    DNW_TYPE_DOA = 259,       /* A digital object (the template DOA of IANA's registry) */
    DNW_TYPE_AMTRELAY = 260,  /* A relay for multicast (RFC 8777, section 4.2) */
    DNW_TYPE_RESINFO = 261,   /* What a resolver says of itself (RFC 9606, section 4) */
    DNW_TYPE_WALLET = 262,    /* A public address of a wallet (the template WALLET of IANA's registry) */
    DNW_TYPE_CLA = 263,       /* The convergence layer adapters of a node of the Bundle Protocol (the template CLA of
                                 IANA's registry) */
    DNW_TYPE_IPN = 264,       /* A node of the Bundle Protocol (the template IPN of IANA's registry) */
    DNW_TYPE_TA = 32768,      /* The digest of a key that is trusted (the reference of IANA's registry, as DS) */
    DNW_TYPE_DLV = 32769,     /* The digest of a key of a zone that is looked up aside (RFC 4431, section 2) */
    DNW_TYPE_ANAME = 65305    /* An alias at the top of a zone (draft-ietf-dnsop-aname). Its code was never assigned */
    /* made until here */
};

enum dnw_class {
    DNW_CLASS_IN = 1,     /* The Internet (RFC 1035, section 3.2.4) */
    DNW_CLASS_CH = 3,     /* Chaosnet (RFC 1035, section 3.2.4) */
    DNW_CLASS_HS = 4,     /* Hesiod (RFC 1035, section 3.2.4) */
    DNW_CLASS_NONE = 254, /* No class, in an update (RFC 2136, section 2.4) */
    DNW_CLASS_ANY = 255   /* Any class, in a question (RFC 1035, section 3.2.5) */
};

/* Stores the text of a record type, and its length in `len`: its name in IANA's registry, in capitals, or, if it has none
   there, as 0 and DNW_TYPE_ANAME, `TYPE` and the code, as `TYPE65280` (RFC 3597, section 5). DNW_CODE_SIZE bytes are
   always enough. It fails with DNW_NO_ROOM if the text is longer than `text_size`. */
uint32_t dnw_type_print(uint16_t code, uint8_t *text, size_t text_size, size_t *len);

/* Parses the text of a record type, in upper or lower case, and stores its code: a name, `*` for ANY, or `TYPE` and any
   code in decimal digits (RFC 3597, section 5). What dnw_type_print prints round-trips. It fails with DNW_NOT_UTF8 or
   DNW_UNKNOWN_TEXT. */
uint32_t dnw_type_parse(const uint8_t *text, size_t text_len, uint16_t *code);

/* The same for classes, with `CLASS` in place of `TYPE`. */
uint32_t dnw_class_print(uint16_t code, uint8_t *text, size_t text_size, size_t *len);
uint32_t dnw_class_parse(const uint8_t *text, size_t text_len, uint16_t *code);

/* Compares two serial numbers (RFC 1982, section 3.2). It stores -1 in `order` if `right` is 1 to 2^31 - 1 after
   `left`, 1 if it is as much before, and 0 if they are equal. It fails with DNW_NOT_ORDERED if they are 2^31 apart. */
uint32_t dnw_serial_compare(uint32_t left, uint32_t right, int32_t *order);

/* Returns the sum of two serial numbers, which wraps to 0 after 4294967295 (RFC 1982, section 3.1). It cannot fail. */
uint32_t dnw_serial_add(uint32_t serial, uint32_t other);

/* Reads a type bitmap (RFC 4034, section 4.1.2), and stores its codes, each once and in ascending order, and their
   number in `count`. `codes_size` counts codes, not bytes; 8 codes for each octet of the bitmap are always enough. The
   last window may be cut anywhere. It fails with DNW_BAD_BITMAP if an octet follows a window of length 0, if a bit is
   set after the 32nd octet of a window, or if the bitmap has more than 65535 octets; with DNW_NO_ROOM if it has more
   than `codes_size` codes; and, unless the bitmap is empty, with DNW_NO_MEMORY. */
uint32_t dnw_types_read(const uint8_t *bitmap, size_t bitmap_len, uint16_t *codes, size_t codes_size, size_t *count);

/* Stores the type bitmap with these codes, and its length in `len`: windows in ascending order, none longer than
   needed. The codes may be in any order, and repeated. `codes_count` counts codes. It fails with DNW_NO_ROOM if the
   bitmap has more than `bitmap_size` octets, and, unless there are no codes, with DNW_NO_MEMORY. */
uint32_t dnw_types_write(const uint16_t *codes, size_t codes_count, uint8_t *bitmap, size_t bitmap_size, size_t *len);

/* Parses a TTL, and stores its seconds: groups of digits, each with a unit of `s`, `m`, `h`, `d` or `w` in either case,
   as `1h30m`. The last group may have no unit, as `300`. It fails with DNW_NOT_UTF8 or DNW_BAD_TIME. It may allocate
   for a text that it rejects, and then fail with DNW_NO_MEMORY. */
uint32_t dnw_ttl_parse(const uint8_t *text, size_t text_len, uint32_t *seconds);

/* The offset of the next token of a text, and whether that is the start of a line. A caller sets it to {0, true}, and
   dnw_token_next does the rest. */
struct dnw_lexer {
    size_t offset;
    bool at_line_start;
};

enum dnw_token_kind {
    DNW_TOKEN_END = 0,     /* the text has no more tokens; the lexer is at its end */
    DNW_TOKEN_BLANK = 1,   /* white space at the start of a line: the record has the owner of the record before it */
    DNW_TOKEN_LIST = 2,    /* the words in parentheses */
    DNW_TOKEN_TEXT = 3,    /* a word, or a quoted text without its quotes and escapes */
    DNW_TOKEN_AT = 4,      /* `@` */
    DNW_TOKEN_INCLUDE = 5, /* `$INCLUDE` */
    DNW_TOKEN_ORIGIN = 6,  /* `$ORIGIN` */
    DNW_TOKEN_TTL = 7,     /* `$TTL` */
    DNW_TOKEN_LINE_END = 8
};

/* A token. `len` bytes were stored in the buffer, which are `count` texts. `kind` is of enum dnw_token_kind. */
struct dnw_token {
    uint32_t kind;
    size_t len;
    size_t count;
};

/* Finds the next token of a text of a master file (RFC 1035, section 5.1), stores its texts in UTF-8, and moves the
   lexer past it. The bytes of DNW_TOKEN_TEXT are the text. Those of DNW_TOKEN_LIST are its words, each with a zero byte
   after it; no word has a zero byte. Other tokens have no bytes. A buffer as long as the rest of the text is always
   enough.

   It fails with DNW_NOT_UTF8, DNW_TEXT_CUT, DNW_ILLEGAL_CHARACTER, DNW_CONTROL_CHARACTER, DNW_UNCLOSED_LIST,
   DNW_UNCLOSED_QUOTE or DNW_UNKNOWN_ENTRY if no valid token is next; with DNW_NO_ROOM if one is and it has more than
   `words_size` bytes; and with DNW_NO_MEMORY, but only if the token, a list or a quoted text has bytes of its own to
   keep. If it fails, the lexer is unchanged, so the call can be repeated with a larger buffer.

   A call reads no more than it needs: its time is that of a token and the white space and comment before it, not of the
   rest of the text. So it fails with DNW_NOT_UTF8 only if octets that are not UTF-8 are before the end of the next
   token or right after it; tokens before them are found. The offset after a token is the end of a character. */
uint32_t dnw_token_next(const uint8_t *text, size_t text_len, struct dnw_lexer *lexer, uint8_t *words, size_t words_size,
                        struct dnw_token *token);

/* Stores the text of an error if it fits, and returns its length, at most 64. The text of 0 is `success`, and that of a
   number not listed above is empty. */
size_t dnw_error_text(uint32_t number, uint8_t *text, size_t text_size);

/* Returns the version of the library, as DNW_VERSION is that of this header. A program that loads a shared library may
   compare them: before 1.0.0 another minor number may have other parameters. It cannot fail, and does not allocate. */
uint32_t dnw_version(void);

#ifdef __cplusplus
}
#endif

#endif
