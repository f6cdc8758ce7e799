/* Answers queries from the records of a zone, over UDP and TCP on 127.0.0.1: serve PORT FILE

   FILE has one record a line, the SOA record first. With port 0, any free port is used. The port is printed. A response that
   is longer than the requester accepts is truncated, with TC (RFC 2181, section 9). */
#include <string.h>

#include "dns_names_wire.h"
#include "net.h"

enum { PAYLOAD = 1232, NOERROR = 0, NXDOMAIN = 3, NOTIMP = 4, REFUSED = 5 };
static uint8_t zone[1 << 24], items[(1 << 25) + 2 * NET_MAX], owner[DNW_FORM_SIZE];
static size_t zone_len, items_len;

/* Adds an item to the list, after the octet of its section, unless it is empty. */
static void put_item(uint8_t section, const uint8_t *item, size_t len)
{
    items[items_len] = section;
    memcpy(items + items_len + 1, item, len);
    items_len += len > 0 ? 1 + len : 0;
}

/* Adds the answers to a question; or, if there are none, the SOA record as an authority (RFC 2308). Returns the response code. */
static uint16_t put_records(const uint8_t *name, size_t name_len, uint16_t type)
{
    bool is_owner, is_above;
    uint16_t code = NXDOMAIN;
    size_t begun = items_len;
    struct dnw_record own = {.end = 0};
    for (size_t start = 0; start < zone_len; start = own.end) {
        dnw_record_read(zone, zone_len, start, owner, sizeof owner, &own);
        dnw_name_equal(owner, own.owner_len, name, name_len, &is_owner);
        dnw_name_in_zone(owner, own.owner_len, name, name_len, &is_above);
        code = is_above ? NOERROR : code; /* a name exists if it owns records, or if one below it does (RFC 8020) */
        if (is_owner && (type == own.record_type || type == DNW_TYPE_ANY || own.record_type == DNW_TYPE_CNAME))
            put_item(DNW_LIST_ANSWER, zone + start, own.end - start);
    }
    if (items_len == begun && dnw_record_read(zone, zone_len, 0, owner, sizeof owner, &own) == DNW_DONE)
        put_item(DNW_LIST_AUTHORITY, zone, own.end);
    return code;
}

/* Adds what answers the question of so many octets that is the list so far, if its name is in the zone. Returns the response code. */
static uint16_t answer(size_t len, bool *is_ours)
{
    const uint8_t *name = items + 1, *form = name + len - 4; /* the type and the class are after the name */
    struct dnw_read_name origin;
    if (form[2] != 0 || form[3] != DNW_CLASS_IN || dnw_name_read(zone, zone_len, 0, owner, sizeof owner, &origin) != DNW_DONE)
        return REFUSED;
    dnw_name_in_zone(name, len - 4, zone, origin.len, is_ours);
    return *is_ours ? put_records(name, len - 4, (uint16_t)(form[0] << 8 | form[1])) : REFUSED;
}

/* Stores the response to a request; over UDP in at most as many octets as the requester accepts. Returns its length, or 0 if
   there is no response. The library says what the reply has of the request, and if it takes records. */
static size_t respond(const uint8_t *request, size_t len, bool is_udp, uint8_t *response)
{
    struct dnw_message read;
    struct dnw_message_fault fault;
    struct dnw_writer writer;
    struct dnw_edns edns;
    struct dnw_packed packed;
    bool is_ours = false;
    if (dnw_message_read(request, len, DNW_MAX_POINTERS, &read, &fault) != DNW_DONE
        || dnw_writer_reply(response, NET_MAX, NET_MAX, request, len, 0, read.op_code == 0 ? REFUSED : NOTIMP, &writer, &edns) != DNW_DONE)
        return 0;
    uint16_t id = (uint16_t)(response[0] << 8 | response[1]), flags = (uint16_t)(response[2] << 8 | response[3]);
    uint16_t code = edns.response_code;
    size_t end = writer.len;
    items_len = 0;
    put_item(DNW_LIST_QUESTION, response + DNW_HEADER_SIZE, end - DNW_HEADER_SIZE);
    if (code == REFUSED && items_len > 0)
        code = answer(items_len - 1, &is_ours);
    dnw_writer_reply_edns(response, NET_MAX, &edns, PAYLOAD, NULL, 0, 0, &writer);
    put_item(DNW_LIST_ADDITIONAL, response + end, writer.len - end);
    flags |= is_ours ? DNW_FLAG_AUTHORITATIVE : 0;
    uint16_t most = !is_udp ? NET_MAX : edns.max_payload < PAYLOAD ? edns.max_payload : PAYLOAD;
    return dnw_message_write(items, items_len, most, id, flags, code, true, 0, response, NET_MAX, &packed) == DNW_DONE ? packed.len : 0;
}

int main(int argc, char **argv)
{
    static char line[1 << 17];
    FILE *file = argc == 3 ? fopen(argv[2], "r") : NULL;
    for (size_t len; file != NULL && fgets(line, sizeof line, file) != NULL; zone_len += len)
        if (dnw_record_parse((uint8_t *)line, strlen(line), zone, 0, zone + zone_len, sizeof zone - zone_len, &len) != DNW_DONE)
            fail("serve: a line is no record");
    if (zone_len == 0)
        fail("usage: serve PORT FILE, with the records of a zone");
    serve(argv[1], respond);
}
