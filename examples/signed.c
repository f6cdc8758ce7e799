/* Prints the octets that each signature of a DNS message covers: signed [FILE]. The message is binary, in a file or on
   standard input.

   Each line has the owner of an RRSIG, the type that it covers, the tag of its key, and the octets in hexadecimal. A validator
   verifies the signature over these octets with the key (RFC 4035, section 5.3). */
#include <stdio.h>

#include "dns_names_wire.h"

/* A signature covers at most SIGNED_MAX octets if its records are from a message of MESSAGE_MAX octets. */
enum { MESSAGE_MAX = 65535, SIGNED_MAX = 1 << 22, KEY_TAG = 16 };

static int fail(uint32_t failure, size_t offset)
{
    uint8_t text[64];
    size_t len = dnw_error_text(failure, text, sizeof text);
    fprintf(stderr, "signed: at offset %zu: %.*s\n", offset, (int)len, (const char *)text);
    return 1;
}

static uint16_t number_at(const uint8_t *octets)
{
    return (uint16_t)(octets[0] << 8 | octets[1]);
}

/* Prints the octets that an RRSIG covers. `end` is the end of its section. */
static uint32_t print_signed(const uint8_t *message, size_t end, size_t start, size_t rrsig, const struct dnw_record *record)
{
    static uint8_t octets[SIGNED_MAX];
    uint8_t owner[DNW_TEXT_SIZE], kind[DNW_CODE_SIZE];
    struct dnw_read_name name;
    size_t len, kind_len;
    uint32_t failure = dnw_signed_octets(message, end, start, rrsig, octets, sizeof octets, &len);
    if (failure == DNW_DONE)
        failure = dnw_name_read_text(message, end, rrsig, owner, sizeof owner, &name);
    if (failure == DNW_DONE)
        failure = dnw_type_print(number_at(octets), kind, sizeof kind, &kind_len);
    if (failure != DNW_DONE)
        return failure;
    const uint8_t *fields = message + record->data_offset;
    printf("%.*s %.*s %d ", (int)name.len, (char *)owner, (int)kind_len, (char *)kind, number_at(fields + KEY_TAG));
    for (size_t i = 0; i < len; i++)
        printf("%02x", octets[i]);
    printf("\n");
    return DNW_DONE;
}

int main(int argc, char **argv)
{
    static uint8_t message[MESSAGE_MAX];
    uint8_t owner[DNW_FORM_SIZE];
    struct dnw_message read;
    struct dnw_message_fault fault;
    struct dnw_record record;
    FILE *file = argc > 1 ? fopen(argv[1], "rb") : stdin;
    if (file == NULL)
        return perror("signed"), 1;
    size_t len = fread(message, 1, sizeof message, file);
    uint32_t failure = dnw_message_read(message, len, DNW_MAX_POINTERS, &read, &fault);
    if (failure != DNW_DONE)
        return fail(failure, fault.offset);
    const size_t begins[] = {read.answers, read.authorities, read.additionals, read.end};
    for (size_t i = 0; i < 3; i++) {
        for (size_t offset = begins[i]; offset < begins[i + 1]; offset = record.end) {
            failure = dnw_record_read(message, len, offset, owner, sizeof owner, &record);
            if (failure == DNW_DONE && record.record_type == DNW_TYPE_RRSIG)
                failure = print_signed(message, begins[i + 1], begins[i], offset, &record);
            if (failure != DNW_DONE)
                return fail(failure, offset);
        }
    }
    return 0;
}
