#include "zone_reading.h"
#include "data_reading.h"
#include "line_reading.h"

static bool is_at_end(struct reader *r)
{
    skip_blanks(r);
    return r->left.len == 0;
}

static bool is_directive(struct part word, const char *name)
{
    size_t at = 0;
    while (at < word.len && name[at] != 0 && (word.bytes[at] | 32) == (name[at] | 32))
        at++;
    return at == word.len && name[at] == 0;
}

/* Takes the only word that is left as a name. */
static bool take_only_name(struct reader *r)
{
    return take_name(r) && is_at_end(r);
}

static uint32_t take_origin(struct reader *r, struct dnw_zone *zone)
{
    if (!take_only_name(r))
        return DNW_ZONE_ERROR;
    memcpy(zone->origin, r->out, r->len);
    zone->origin_len = (uint8_t)r->len;
    r->len = 0;
    return DNW_ZONE_NOTHING;
}

/* The greatest TTL (RFC 2181, section 8). */
#define MAX_TTL 0x7fffffffu

static uint32_t take_default(struct reader *r, struct dnw_zone *zone)
{
    uint32_t ttl;
    if (!is_ttl(take_word(r), &ttl) || ttl > MAX_TTL || !is_at_end(r))
        return DNW_ZONE_ERROR;
    zone->default_ttl = ttl;
    zone->has_default_ttl = 1;
    return DNW_ZONE_NOTHING;
}

/* The name of a file, and maybe an origin, which is put first. The model does not know whether a file is taken that is not UTF-8. */
static uint32_t take_include(struct reader *r, size_t *name_len)
{
    struct part file = take_word(r);
    if (file.len == 0)
        return DNW_ZONE_ERROR;
    if (is_at_end(r)) {
        memcpy(r->out, r->origin.bytes, r->origin.len);
        r->len = r->origin.len;
    } else if (!take_only_name(r)) {
        return DNW_ZONE_ERROR;
    }
    *name_len = r->len;
    if (!put_string(r, file) || r->len == *name_len || memchr(r->out + *name_len, 0, r->len - *name_len) != NULL)
        return DNW_ZONE_ERROR;
    return model_is_utf8(file.bytes, file.len) ? DNW_ZONE_INCLUDE : MODEL_OPEN;
}

static uint32_t take_directive(struct reader *r, struct dnw_zone *zone, size_t *name_len)
{
    struct part word = take_word(r);
    if (is_directive(word, "$ORIGIN"))
        return take_origin(r, zone);
    if (is_directive(word, "$TTL"))
        return take_default(r, zone);
    return is_directive(word, "$INCLUDE") ? take_include(r, name_len) : DNW_ZONE_ERROR;
}

/* OPT, the types of questions and of messages, NONE and ANY are of no record of a zone. */
static bool is_of_zone(struct head head, uint16_t type)
{
    bool is_class = !head.has_class || (head.class != DNW_CLASS_NONE && head.class != DNW_CLASS_ANY);
    return is_class && (!head.has_ttl || head.ttl <= MAX_TTL) && type != DNW_TYPE_OPT && (type < 128 || 255 < type);
}

/* Puts what is after the owner: the head and the data. Data of IN are read by the model. An SOA before which no TTL is stated has its
   minimum, which is then that of later records. */
static uint32_t take_record(struct reader *r, struct dnw_zone *zone, size_t owner_len)
{
    struct head head = take_head(r);
    uint16_t type;
    uint16_t class = head.has_class ? head.class : zone->record_class;
    uint32_t ttl = head.has_ttl ? head.ttl : zone->has_default_ttl ? zone->default_ttl : zone->last_ttl;
    bool has_ttl = head.has_ttl || zone->has_default_ttl || zone->has_last_ttl;
    if (!take_code(r, &type) || !is_of_zone(head, type))
        return DNW_ZONE_ERROR;
    put(r, type, 2);
    put(r, class, 2);
    size_t ttl_at = r->len;
    put(r, ttl, 4);
    uint8_t *data = r->out + r->len + 2;
    size_t len;
    bool is_data = class == DNW_CLASS_IN
                       ? model_data_text(type, r->left, r->origin, data, &len)
                       : dnw_data_parse(type, class, r->left.bytes, r->left.len, r->origin.bytes, r->origin.len, data, UINT16_MAX, &len) == DNW_DONE;
    if (!is_data)
        return DNW_ZONE_ERROR;
    if (!has_ttl && type == DNW_TYPE_SOA && model_number(data + len - 4, 4) <= MAX_TTL) {
        zone->default_ttl = ttl = model_number(data + len - 4, 4);
        zone->has_default_ttl = 1;
    } else if (!has_ttl && zone->has_fallback_ttl) {
        ttl = zone->fallback_ttl;
    } else if (!has_ttl) {
        return DNW_ZONE_ERROR;
    }
    struct reader ttl_room = {r->left, r->origin, r->out, ttl_at};
    put(&ttl_room, ttl, 4);
    put(r, (uint32_t)len, 2);
    r->len += len;
    memcpy(zone->owner, r->out, owner_len);
    zone->owner_len = (uint8_t)owner_len;
    zone->record_class = class;
    if (head.has_ttl) {
        zone->last_ttl = head.ttl;
        zone->has_last_ttl = 1;
    }
    return DNW_ZONE_RECORD;
}

/* An entry that begins with white space has the owner of the record before. */
static uint32_t take_entry(struct reader *r, bool is_indented, struct dnw_zone *zone, size_t *name_len)
{
    struct part line = r->left;
    if (is_at_end(r))
        return DNW_ZONE_NOTHING;
    r->left = line;
    while (is_blank(line.bytes[0]))
        line.bytes++;
    if (!is_indented && line.bytes[0] == '$')
        return take_directive(r, zone, name_len);
    if (is_indented) {
        memcpy(r->out, zone->owner, zone->owner_len);
        r->len = zone->owner_len;
    } else if (!take_name(r)) {
        return DNW_ZONE_ERROR;
    }
    *name_len = r->len;
    return r->len == 0 ? DNW_ZONE_ERROR : take_record(r, zone, r->len);
}

void model_zone_next(struct part text, struct dnw_zone *zone, struct model_zone_entry *entry)
{
    static uint8_t line[1 << 16];
    size_t len;
    CHECK(text.len <= sizeof line);
    entry->kind = text.len == 0 ? DNW_ZONE_END : DNW_ZONE_ERROR;
    entry->used = entry->len = entry->name_len = 0;
    if (text.len == 0 || model_scan(text, line, &len) != DNW_DONE)
        return;
    uint8_t origin[DNW_FORM_SIZE];
    memcpy(origin, zone->origin, sizeof origin);
    struct reader r = {{line, len}, {origin, zone->origin_len}, entry->octets, 0};
    entry->kind = take_entry(&r, is_blank(text.bytes[0]), zone, &entry->name_len);
    entry->used = len < text.len ? len + 1 : len;
    entry->len = r.len;
}
