#include "model.h"

#include <string.h>

enum { LABEL_MAX = 63, LABELS_MAX = 127, POINTER = 192, COMPRESSED = 120 };

/* No candidate is kept of labels that end here or later; the octets of a record between its owner and its data. */
enum { REACH = 0x3FFF, FIELDS = 10 };

/* RFC 1035, section 4.1.4. A segment of a name ends in a zero octet or in a pointer, which must point to before the
   segment; no label of the segment that it points to may begin where the one before began, or later. */
uint32_t model_read(const uint8_t *message, size_t len, size_t start, struct model_name *name)
{
    size_t at = start, segment = start, limit = 0, size = 0;
    bool has_end = false;
    for (;;) {
        if (has_end && at >= limit)
            return DNW_SEGMENTS_OVERLAP;
        if (at >= len)
            return DNW_MESSAGE_CUT;
        uint8_t octet = message[at];
        if (octet > LABEL_MAX && octet < POINTER)
            return DNW_RESERVED_OCTET;
        if (octet >= POINTER) {
            if (len - at < 2)
                return DNW_MESSAGE_CUT;
            size_t target = (size_t)(octet & 63) << 8 | message[at + 1];
            if (target >= segment)
                return DNW_POINTER_NOT_BACK;
            if (!has_end)
                name->end = at + 2;
            has_end = true;
            limit = segment;
            at = segment = target;
            continue;
        }
        if (len - at < 1u + octet)
            return DNW_MESSAGE_CUT;
        if (octet > 0 && size + 1 + octet + 1 > DNW_FORM_SIZE)
            return DNW_NAME_TOO_LONG;
        memcpy(name->form + size, message + at, 1u + octet);
        size += 1u + octet;
        at += 1u + octet;
        if (octet == 0)
            break;
    }
    if (!has_end)
        name->end = at;
    name->len = size;
    return DNW_DONE;
}

uint32_t model_number(const uint8_t *octets, size_t count)
{
    uint32_t number = 0;
    for (size_t i = 0; i < count; i++)
        number = number << 8 | octets[i];
    return number;
}

/* RFC 1035, section 4.1.3. */
uint32_t model_record(const uint8_t *message, size_t len, size_t start, struct model_name *owner,
                      struct dnw_record *record)
{
    uint32_t failure = model_read(message, len, start, owner);
    if (failure != DNW_DONE)
        return failure;
    if (len - owner->end < FIELDS)
        return DNW_MESSAGE_CUT;
    const uint8_t *fields = message + owner->end;
    record->owner_len = owner->len;
    record->record_type = (uint16_t)model_number(fields, 2);
    record->record_class = (uint16_t)model_number(fields + 2, 2);
    record->ttl = model_number(fields + 4, 4);
    record->data_len = model_number(fields + 8, 2);
    record->data_offset = owner->end + FIELDS;
    record->end = record->data_offset + record->data_len;
    return record->end > len ? DNW_MESSAGE_CUT : DNW_DONE;
}

uint32_t model_form(const uint8_t *form, size_t len, struct model_name *name)
{
    uint32_t failure = model_read(form, len, 0, name);
    return failure == DNW_DONE && name->end != len ? DNW_BYTES_LEFT : failure;
}

uint32_t model_character(const uint8_t *text, size_t len, size_t *bytes)
{
    static const uint32_t least[] = {0, 0, 0x80, 0x800, 0x10000};
    uint8_t first = text[0];
    size_t n = first < 0x80 ? 1 : first >> 5 == 6 ? 2 : first >> 4 == 14 ? 3 : first >> 3 == 30 ? 4 : 0;
    *bytes = 0;
    if (n == 0 || n > len)
        return 0;
    uint32_t c = n == 1 ? first : first & (0x7Fu >> n);
    for (size_t i = 1; i < n; i++) {
        if (text[i] >> 6 != 2)
            return 0;
        c = c << 6 | (text[i] & 63);
    }
    if (c < least[n] || c > 0x10FFFF || (c >= 0xD800 && c <= 0xDFFF))
        return 0;
    *bytes = n;
    return c;
}

bool model_is_utf8(const uint8_t *text, size_t len)
{
    for (size_t at = 0, bytes; at < len; at += bytes) {
        model_character(text + at, len - at, &bytes);
        if (bytes == 0)
            return false;
    }
    return true;
}

bool model_is_control(uint32_t c)
{
    return c < 0x20 || (c >= 0x7F && c <= 0x9F);
}

bool model_is_space(uint32_t c)
{
    return (c >= 9 && c <= 13) || c == ' ' || c == 0x85 || c == 0xA0 || c == 0x1680 || (c >= 0x2000 && c <= 0x200A) ||
           c == 0x2028 || c == 0x2029 || c == 0x202F || c == 0x205F || c == 0x3000;
}

/* The number of an escape of three digits, or more than 255 if it is none. */
static unsigned number_of(const uint8_t *digits)
{
    for (size_t i = 0; i < 3; i++)
        if (digits[i] < '0' || digits[i] > '9')
            return 256;
    return (unsigned)(digits[0] - '0') * 100 + (unsigned)(digits[1] - '0') * 10 + (unsigned)(digits[2] - '0');
}

/* The octet that is next in a text, and how many octets of the text are it; 0 if an escape is wrong or cut. */
static size_t next_octet(const uint8_t *text, size_t len, uint8_t *octet, uint32_t *failure)
{
    *octet = text[0];
    if (text[0] != '\\')
        return 1;
    *failure = DNW_TEXT_CUT;
    if (len < 2)
        return 0;
    *octet = text[1];
    if (text[1] < '0' || text[1] > '9')
        return 2;
    for (size_t i = 2; i < 4; i++) {
        if (len <= i)
            return 0;
        if (text[i] < '0' || text[i] > '9') {
            *failure = DNW_BAD_ESCAPE;
            return 0;
        }
    }
    *failure = DNW_BAD_ESCAPE;
    *octet = (uint8_t)number_of(text + 1);
    return number_of(text + 1) > 255 ? 0 : 4;
}

/* Ends the label of so many octets that is at the end of the name. */
static uint32_t end_label(size_t *label, struct model_text *name)
{
    if (*label == 0)
        return DNW_EMPTY_LABEL;
    if (name->len + 1 + *label + 1 > DNW_FORM_SIZE)
        return DNW_NAME_TOO_LONG;
    name->form[name->len] = (uint8_t)*label;
    name->len += 1 + *label;
    *label = 0;
    return DNW_DONE;
}

/* RFC 1035, section 5.1, without an origin, read from the left up to the first fault. */
uint32_t model_parse(const uint8_t *text, size_t len, struct model_text *name)
{
    size_t label = 0;
    memset(name, 0, sizeof *name);
    if (len == 0)
        return DNW_EMPTY_LABEL;
    name->is_fqdn = len == 1 && text[0] == '.';
    bool is_whole = len == 1 && (text[0] == '.' || text[0] == '@');
    for (size_t at = 0, taken; at < len && !is_whole; at += taken) {
        uint32_t failure = DNW_DONE;
        uint8_t octet;
        taken = next_octet(text + at, len - at, &octet, &failure);
        if (taken == 0)
            return failure;
        name->is_fqdn = text[at] == '.';
        if (!name->is_fqdn && label == LABEL_MAX)
            return DNW_LABEL_TOO_LONG;
        if (!name->is_fqdn && name->len + 1 + label < sizeof name->form)
            name->form[name->len + 1 + label] = octet;
        label += !name->is_fqdn;
        failure = name->is_fqdn ? end_label(&label, name) : DNW_DONE;
        if (failure != DNW_DONE)
            return failure;
    }
    uint32_t failure = label > 0 ? end_label(&label, name) : DNW_DONE;
    name->form[name->len++] = 0;
    return failure;
}

size_t model_print(const struct model_name *name, bool is_fqdn, uint8_t *text)
{
    size_t len = 0;
    if (name->form[0] == 0 && !is_fqdn)
        text[len++] = '@';
    for (size_t at = 0; name->form[at] != 0; at += 1u + name->form[at]) {
        if (at > 0)
            text[len++] = '.';
        for (size_t i = 1; i <= name->form[at]; i++) {
            uint8_t c = name->form[at + i];
            bool is_seen = c > ' ' && c < 0x7F;
            if (!is_seen || strchr("\"$().;@\\", c) != NULL)
                text[len++] = '\\';
            if (!is_seen) {
                text[len++] = (uint8_t)('0' + c / 100);
                text[len++] = (uint8_t)('0' + c / 10 % 10);
                c = (uint8_t)('0' + c % 10);
            }
            text[len++] = c;
        }
    }
    if (is_fqdn)
        text[len++] = '.';
    return len;
}

static const struct model_candidate *find(const struct model_candidate *all, size_t count, const uint8_t *form, size_t len)
{
    for (size_t i = 0; i < count; i++)
        if (all[i].len == len && memcmp(all[i].form, form, len) == 0)
            return &all[i];
    return NULL;
}

/* Keeps the suffixes of a name that begin before `front` as candidates, if its labels end within reach of a pointer. */
static void keep(struct model_writer *w, const struct model_name *name, size_t front)
{
    size_t labels = name->len - 1;
    if (w->offset + labels >= REACH)
        return;
    for (size_t at = 0; at < front && w->candidate_count < MODEL_CANDIDATES; at += 1u + name->form[at]) {
        struct model_candidate *c = &w->candidates[w->candidate_count++];
        c->offset = w->offset + at;
        c->len = labels - at;
        memcpy(c->form, name->form + at, c->len);
    }
}

bool model_write_bytes(struct model_writer *w, const uint8_t *bytes, size_t len)
{
    if (len > w->max_size - w->offset)
        return false;
    memcpy(w->out + w->offset, bytes, len);
    w->offset += len;
    return true;
}

/* The first 120 names are compressed: the longest suffix that was kept is a pointer to the first place of it. */
bool model_write_name(struct model_writer *w, const struct model_name *name, bool is_compressed)
{
    size_t labels = name->len - 1, front = 0;
    const struct model_candidate *found = NULL;
    is_compressed = is_compressed && w->compressed < COMPRESSED;
    while (is_compressed && front < labels &&
           !(found = find(w->candidates, w->candidate_count, name->form + front, labels - front)))
        front += 1u + name->form[front];
    if (w->offset + (found ? labels : labels + 1) > w->max_size)
        return false;
    if (!found)
        front = labels;
    uint8_t *out = w->out + w->offset;
    memcpy(out, name->form, front);
    if (found) {
        out[front] = (uint8_t)(POINTER | found->offset >> 8);
        out[front + 1] = (uint8_t)found->offset;
    } else {
        out[front] = 0;
    }
    keep(w, name, front);
    w->offset += front + (found ? 2 : 1);
    w->compressed += is_compressed;
    return true;
}

uint32_t model_write(const uint8_t *list, size_t list_len, size_t max_size, uint8_t *out,
                     struct dnw_written_names *written)
{
    static struct model_writer w;
    w.candidate_count = w.compressed = w.offset = 0;
    w.max_size = max_size;
    w.out = out;
    size_t at = 0, count = 0;
    for (struct model_name name; at < list_len; at = name.end, count++) {
        uint32_t failure = model_read(list, list_len, at, &name);
        if (failure != DNW_DONE)
            return failure;
        if (!model_write_name(&w, &name, true))
            return DNW_MESSAGE_TOO_LONG;
    }
    written->len = w.offset;
    written->count = count;
    return DNW_DONE;
}

static uint8_t lower(uint8_t c)
{
    return c >= 'A' && c <= 'Z' ? (uint8_t)(c + ('a' - 'A')) : c;
}

/* Length octets are below the letters, and stay. */
void model_lower(struct model_name *name)
{
    for (size_t i = 0; i < name->len; i++)
        name->form[i] = lower(name->form[i]);
}

/* Puts where each label begins, and returns how many there are. */
static size_t label_starts(const struct model_name *name, size_t *starts)
{
    size_t count = 0;
    for (size_t at = 0; name->form[at] != 0; at += 1u + name->form[at])
        starts[count++] = at;
    return count;
}

static int compare_labels(const uint8_t *left, const uint8_t *right)
{
    for (size_t i = 1; i <= left[0] && i <= right[0]; i++)
        if (lower(left[i]) != lower(right[i]))
            return lower(left[i]) < lower(right[i]) ? -1 : 1;
    return (left[0] > right[0]) - (left[0] < right[0]);
}

/* RFC 4034, section 6.1. */
int model_compare(const struct model_name *left, const struct model_name *right)
{
    size_t lefts[LABELS_MAX], rights[LABELS_MAX];
    size_t l = label_starts(left, lefts), r = label_starts(right, rights);
    for (; l > 0 && r > 0; l--, r--) {
        int order = compare_labels(left->form + lefts[l - 1], right->form + rights[r - 1]);
        if (order != 0)
            return order;
    }
    return (l > r) - (l < r);
}

uint32_t model_count(const uint8_t *list, size_t len, size_t *count)
{
    uint32_t failure = DNW_DONE;
    struct model_name name;
    *count = 0;
    for (size_t at = 0; at < len && (failure = model_read(list, len, at, &name)) == DNW_DONE; at = name.end)
        ++*count;
    return failure;
}

/* Numbers that ascend among equal names differ, so that as many as there are names are all of them. */
bool model_is_sorted(const uint8_t *list, size_t len, const size_t *order, size_t count)
{
    static size_t starts[UINT16_MAX + 1];
    struct model_name before, own;
    own.end = 0;
    for (size_t i = 0; i < count && i <= UINT16_MAX; i++) {
        starts[i] = own.end;
        model_read(list, len, starts[i], &own);
    }
    for (size_t i = 0; i < count; i++, before = own) {
        if (order[i] >= count || order[i] > UINT16_MAX)
            return false;
        model_read(list, len, starts[order[i]], &own);
        int compared = i == 0 ? -1 : model_compare(&before, &own);
        if (compared > 0 || (compared == 0 && order[i - 1] >= order[i]))
            return false;
    }
    return true;
}

/* A name is in a zone if some suffix of it, its labels from one on, is the zone. */
bool model_in_zone(const struct model_name *name, const struct model_name *zone)
{
    struct model_name suffix = *name;
    for (size_t at = 0;; at += 1u + name->form[at]) {
        suffix.len = name->len - at;
        memcpy(suffix.form, name->form + at, suffix.len);
        if (model_compare(&suffix, zone) == 0)
            return true;
        if (name->form[at] == 0)
            return false;
    }
}

/* The types of RFC 1035, whose names in data are compressed (RFC 3597, section 4); with addresses of the class CH. */
static bool compresses(const struct dnw_record *record)
{
    uint16_t type = record->record_type;
    if (type == DNW_TYPE_A)
        return record->record_class == DNW_CLASS_CH;
    return (type >= 2 && type <= 9) || type == 12 || type == 14 || type == 15;
}

bool model_is_lowered(uint16_t type)
{
    static const uint8_t types[] = {1,  2,  3,  4,  5,  6,  7,  8,  9,  12, 14, 15,
                                    17, 18, 21, 24, 26, 30, 33, 35, 36, 38, 39, 46};
    return type < 256 && memchr(types, type, sizeof types) != NULL;
}

/* The next field of a record of a message. */
static uint32_t next_field(const uint8_t *message, const struct dnw_record *record, struct dnw_fields *fields,
                           struct dnw_field *field)
{
    return model_next(message, record->end, record->data_offset, record->record_class, record->record_type, fields, field);
}

uint32_t model_data_failure(const uint8_t *message, const struct dnw_record *record)
{
    struct dnw_fields fields = {record->data_offset, 0};
    struct dnw_field field;
    for (;;) {
        uint32_t failure = next_field(message, record, &fields, &field);
        if (failure != DNW_DONE || field.kind == DNW_FIELD_END)
            return failure;
    }
}

static bool write_field(struct model_writer *w, const uint8_t *message, const struct dnw_record *record, char letter,
                        const struct dnw_field *field, bool is_canonical)
{
    struct model_name name;
    size_t head = model_head(letter);
    if (letter != 'n')
        return model_write_bytes(w, message + field->offset - head, field->len + head);
    if (model_read(message, record->end, field->offset, &name) != DNW_DONE)
        return false;
    if (is_canonical && model_is_lowered(record->record_type))
        model_lower(&name);
    return model_write_name(w, &name, !is_canonical && compresses(record));
}

bool model_write_fields(struct model_writer *w, const uint8_t *message, const struct dnw_record *record, bool is_canonical)
{
    const uint8_t *data = message + record->data_offset;
    const char *row = model_fields_of(record->record_class, record->record_type, data, record->data_len);
    struct dnw_fields fields = {record->data_offset, 0};
    struct dnw_field field;
    while (next_field(message, record, &fields, &field) == DNW_DONE) {
        if (field.kind == DNW_FIELD_END)
            return true;
        if (!write_field(w, message, record, row[fields.number - 1], &field, is_canonical))
            return false;
    }
    return false;
}

size_t model_pointers(const uint8_t *message, size_t at)
{
    size_t count = 0;
    while (message[at] != 0) {
        if (message[at] < 64) {
            at += 1 + message[at];
        } else {
            at = model_number(message + at, 2) & 0x3FFF;
            count++;
        }
    }
    return count;
}

uint32_t model_put_data(const uint8_t *message, const struct dnw_record *record, bool lowers, uint8_t *out, size_t *at)
{
    const uint8_t *data = message + record->data_offset;
    const char *letters = model_fields_of(record->record_class, record->record_type, data, record->data_len);
    struct dnw_fields fields = {record->data_offset, 0};
    struct dnw_field field;
    for (;;) {
        uint32_t failure = next_field(message, record, &fields, &field);
        if (failure != DNW_DONE || field.kind == DNW_FIELD_END)
            return failure;
        char letter = letters[fields.number - 1];
        size_t head = model_head(letter), len = field.len + head;
        struct model_name name;
        if (letter != 'n') {
            memcpy(out + *at, message + field.offset - head, len);
        } else {
            failure = model_read(message, record->end, field.offset, &name);
            if (failure != DNW_DONE)
                return failure;
            if (lowers)
                model_lower(&name);
            memcpy(out + *at, name.form, name.len);
            len = name.len;
        }
        *at += len;
    }
}

struct model_purpose model_purpose(uint16_t flags)
{
    return (struct model_purpose){.flags = flags, .asked = UINT32_MAX};
}

void model_take(struct model_purpose *purpose, int section, const struct model_name *owner, uint16_t type)
{
    if (section == 1 && (purpose->asked == type || purpose->asked == DNW_TYPE_ANY)) {
        purpose->has_found = true;
        purpose->found = *owner;
    }
    if (section == 2 && !purpose->has_cut && type == DNW_TYPE_NS) {
        purpose->has_cut = true;
        purpose->cut = *owner;
    }
}

bool model_is_uncut(const struct model_purpose *purpose)
{
    return (purpose->flags & 0x8000) == 0 || purpose->asked == DNW_TYPE_AXFR || purpose->asked == DNW_TYPE_IXFR;
}

bool model_is_required(struct model_purpose *purpose, int section, const struct model_name *owner, uint16_t type,
                       const uint8_t *data, size_t data_len)
{
    if ((purpose->flags & 0x7800) != 0 || section == 1)
        return true;
    bool is_answered = purpose->has_found && purpose->has_cut && model_in_zone(&purpose->found, &purpose->cut);
    if (section == 3)
        return !is_answered && (type == DNW_TYPE_A || type == DNW_TYPE_AAAA) && purpose->has_cut && model_in_zone(owner, &purpose->cut);
    bool signs_ns = type == DNW_TYPE_RRSIG && data_len >= 2 && model_number(data, 2) == DNW_TYPE_NS;
    bool is_extra = type == DNW_TYPE_NS || (signs_ns && purpose->server_out);
    purpose->server_out |= type == DNW_TYPE_NS;
    return !is_answered || !is_extra;
}

/* The type that an RRSIG covers, or 65536 for another record. */
static uint32_t covered(const struct model_member *x)
{
    return x->type == DNW_TYPE_RRSIG && x->len >= 2 ? (uint32_t)model_number(x->data, 2) : 65536;
}

static bool are_beside(const struct model_member *x, const struct model_member *y)
{
    struct model_name low = x->owner, other = y->owner;
    model_lower(&low);
    model_lower(&other);
    return x->class == y->class && low.len == other.len && memcmp(low.form, other.form, low.len) == 0;
}

bool model_halves(const struct model_member *there, const struct model_member *left)
{
    uint32_t signs = covered(there);
    return covered(left) == 65536 && (signs < 65536 ? signs : there->type) == left->type && are_beside(there, left);
}

bool model_are_the_same(const struct model_member *x, const struct model_member *y)
{
    return x->type == y->type && are_beside(x, y) && x->len == y->len && memcmp(x->data, y->data, x->len) == 0;
}

bool model_are_of_one_set(const struct model_member *first, const struct model_member *other)
{
    bool goes_with = first->type == DNW_TYPE_NS && covered(other) == DNW_TYPE_NS;
    return (first->type == other->type || goes_with) && are_beside(first, other);
}
