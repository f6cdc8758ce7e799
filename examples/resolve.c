/* Asks a name server for records over UDP, and over TCP if the reply is truncated: resolve ADDRESS PORT NAME TYPE */
#include <string.h>
#include <sys/random.h>

#include "dns_names_wire.h"
#include "net.h"

enum { TEXT_MAX = 1 << 20 };
/* RD, and the counts of one question and one additional record; and an OPT record that accepts messages of 1232 octets (RFC
   6891, section 6.1.2). */
static const uint8_t HEAD[] = {1, 0, 0, 1, 0, 0, 0, 0, 0, 1}, OPT[] = {0, 0, DNW_TYPE_OPT, 4, 208, 0, 0, 0, 0, 0, 0};

static uint8_t query[DNW_HEADER_SIZE + DNW_FORM_SIZE + 4 + sizeof OPT];
static size_t question_end;

/* Sets `query`, and `question_end` to the end of its question. */
static void put_query(const char *text, const char *type)
{
    struct dnw_parsed_name name;
    uint16_t kind;
    static const uint8_t root[1];
    uint8_t *form = query + DNW_HEADER_SIZE;
    if (dnw_name_parse((const uint8_t *)text, strlen(text), root, 1, form, DNW_FORM_SIZE, &name) != DNW_DONE)
        fail("resolve: that is no name");
    if (dnw_type_parse((const uint8_t *)type, strlen(type), &kind) != DNW_DONE)
        fail("resolve: that is no type");
    if (getrandom(query, 2, 0) != 2) /* an id that a stranger cannot guess */
        fail("resolve: there is no id");
    uint8_t codes[] = {(uint8_t)(kind >> 8), (uint8_t)kind, 0, DNW_CLASS_IN};
    memcpy(query + 2, HEAD, sizeof HEAD);
    question_end = DNW_HEADER_SIZE + name.len + sizeof codes;
    memcpy(query + question_end - sizeof codes, codes, sizeof codes);
    memcpy(query + question_end, OPT, sizeof OPT);
}

/* A reply has the id and the question of the query (RFC 5452, section 9.1). Others are late, or not from the server. */
static bool is_reply(const uint8_t *message, size_t len)
{
    struct dnw_message read;
    struct dnw_message_fault fault;
    return dnw_message_read(message, len, DNW_MAX_POINTERS, &read, &fault) == DNW_DONE && read.is_response
           && read.question_count == 1 && memcmp(message, query, 2) == 0 && read.answers == question_end
           && memcmp(message + DNW_HEADER_SIZE, query + DNW_HEADER_SIZE, question_end - DNW_HEADER_SIZE) == 0;
}

int main(int argc, char **argv)
{
    static uint8_t reply[NET_MAX], text[TEXT_MAX];
    struct dnw_message read;
    struct dnw_message_fault fault;
    struct dnw_edns edns;
    struct dnw_printed_record line = {0, 0};
    if (argc != 5)
        fail("usage: resolve ADDRESS PORT NAME TYPE");
    put_query(argv[3], argv[4]);
    size_t size = question_end + sizeof OPT, len = ask(SOCK_DGRAM, argv[1], argv[2], query, size, is_reply, reply);
    if (reply[2] & 2) /* TC */
        len = ask(SOCK_STREAM, argv[1], argv[2], query, size, is_reply, reply);
    if (dnw_message_read(reply, len, DNW_MAX_POINTERS, &read, &fault) != DNW_DONE
        || dnw_edns_read(reply, len, DNW_MAX_POINTERS, &edns) != DNW_DONE)
        fail("resolve: what the reply says by EDNS breaks a rule");
    printf(";; rcode: %d\n", edns.response_code);
    for (line.end = read.answers; read.answer_count > 0; read.answer_count--) {
        if (dnw_record_print(reply, len, line.end, text, sizeof text, &line) != DNW_DONE)
            fail("resolve: out of memory");
        printf("%.*s\n", (int)line.len, (const char *)text);
    }
}
