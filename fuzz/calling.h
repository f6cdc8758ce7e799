/* What the harness `calls` knows of each function of the header. fuzz/callers.py writes a table of these rows from the header. */
#ifndef CALLING_H
#define CALLING_H

#include <stdbool.h>
#include <stddef.h>
#include <stdint.h>

/* What an argument is. */
enum kind {
    NUMBER,
    INPUT,    /* items that are read, with their number */
    CONSTANT, /* an object that is read */
    OUTPUT,   /* a buffer that is written, with its number of items */
    OBJECT,   /* an object that is written; it may be read, too */
    MESSAGE   /* the buffer of a message that is written call by call, with its size */
};

enum { PARAMETERS = 12, NO_PARAMETER = 255 };

/* A member of an object. After the last one comes one of no size. */
struct member {
    size_t offset, size;
};

struct parameter {
    enum kind kind;
    size_t size;                          /* of a number, an item or an object */
    unsigned name;                        /* the same for all inputs of one name, and for all objects of one type */
    const struct member *bools, *numbers; /* of an object */
    unsigned length;                      /* of a buffer: the object that has the number of items that were stored, */
    size_t length_offset;                 /* and at which offset, as a size_t */
};

struct argument {
    const struct parameter *is;
    uint64_t number;  /* of a number; else how many items there are */
    bool is_null;
    uint8_t *octets;  /* where they are for the call */
    uint8_t *content; /* what they are before it */
};

struct function {
    const char *name;
    uint64_t (*call)(const struct argument *arguments);
    const struct parameter *parameters;
    unsigned count;
    uint64_t errors;         /* a bit for each error that it can fail with */
    bool has_status;         /* it returns 0 or the number of an error */
    bool never_allocates;
    bool leaves_any_octets;  /* if it fails, its buffers may have any octets */
    bool sets_truncation;    /* if it fails, it may set TC in the message */
    unsigned stored_failing; /* the object that it stores if it fails, and only then */
};

#endif
