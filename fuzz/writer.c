/* Makes the calls that an input lists, on one buffer and one writer. The first two octets of the input are the size of the buffer. After
   each call that adds something, the message is read back by the model, and must have exactly the items that were added, whatever the
   hints of the writer were changed to. An item must fit if and only if what is written of it does: the call is made once more on copies,
   with all room. A call that fails leaves what there is. A call may also spoil the writer or an octet of the buffer: then nothing else is
   asked than that nothing outside the buffer is written.

   Then the rest of the input is a list of items for dnw_message_write, whose message must be that of the calls for its items one by one. */
#include "harness.h"

enum { SIZE_MAX_TRIED = 1024, CALLS = 48, ITEMS = 400, LARGE = 70000 };

struct item {
    uint32_t section;
    uint16_t type, class;
    uint32_t ttl;
    uint8_t form[DNW_FORM_SIZE];
    size_t form_len;
    uint8_t data[300];
    size_t data_len;
};

static struct room output, input;
static uint8_t *buffer, before[SIZE_MAX_TRIED], large[LARGE];
static size_t buffer_size;
static struct dnw_writer writer, was, copy;
static struct item items[ITEMS];
static size_t item_count;
/* The writer began its message, and nothing was spoiled that the message rests on. */
static bool is_sound;

static uint32_t take_number(struct part *rest, size_t count)
{
    struct part taken = take_part(rest, count);
    return model_number(taken.bytes, taken.len);
}

static struct part take_block(struct part *rest)
{
    return take_part(rest, take_number(rest, 1));
}

/* A name of few labels, so that names often end alike, or octets as they are. */
static struct part take_name(struct part *rest, uint8_t *room)
{
    static const char *const labels[] = {"\001a", "\003www", "\007example", "\003com", "\001A", "\002ns", "\004mail", "\001b"};
    uint32_t what = take_number(rest, 1);
    if (what >= 240)
        return take_block(rest);
    size_t len = 0;
    for (uint32_t left = take_number(rest, 2), count = what % 5; count > 0; count--, left /= 8) {
        size_t size = strlen(labels[left % 8]);
        memcpy(room + len, labels[left % 8], size);
        len += size;
    }
    room[len++] = 0;
    return (struct part){room, len};
}

/* How many names are in data of a type that may be compressed, and how many octets before and after them. */
static bool may_be_compressed(uint16_t type, size_t *head, int *names, size_t *tail)
{
    *head = type == DNW_TYPE_MX ? 2 : 0;
    *tail = type == DNW_TYPE_SOA ? 20 : 0;
    *names = type == DNW_TYPE_SOA || type == DNW_TYPE_MINFO ? 2 : 1;
    return (type >= DNW_TYPE_NS && type <= DNW_TYPE_MR) || type == DNW_TYPE_PTR || type == DNW_TYPE_MINFO || type == DNW_TYPE_MX;
}

/* Whether octets are data of a class and type with every name whole. */
static bool are_data(uint16_t class, uint16_t type, const uint8_t *data, size_t len)
{
    struct dnw_fields fields = {0, 0};
    struct dnw_field field;
    if (len > 65535)
        return false;
    for (;;) {
        size_t start = fields.offset;
        if (model_next(data, len, 0, class, type, &fields, &field) != DNW_DONE)
            return false;
        if (field.kind == DNW_FIELD_END)
            return true;
        struct model_name name;
        if (field.kind == DNW_FIELD_NAME) {
            if (model_read(data, len, start, &name) != DNW_DONE || name.end - start != name.len)
                return false;
        }
    }
}

/* The data of a record of a message, with its names whole. */
static size_t whole_data(const uint8_t *message, size_t len, const struct dnw_record *record, uint8_t *out)
{
    size_t head, tail, put = 0, at = record->data_offset;
    int names;
    if (record->data_len == 0 || !may_be_compressed(record->record_type, &head, &names, &tail)) {
        memcpy(out, message + record->data_offset, record->data_len);
        return record->data_len;
    }
    memcpy(out, message + at, head);
    put += head;
    at += head;
    for (; names > 0; names--) {
        struct model_name name;
        CHECK(model_read(message, len, at, &name) == DNW_DONE);
        memcpy(out + put, name.form, name.len);
        put += name.len;
        at = name.end;
    }
    CHECK(at + tail == record->data_offset + record->data_len);
    memcpy(out + put, message + at, tail);
    return put + tail;
}

/* The message has exactly these items, in their sections. */
static void expect_items(const uint8_t *message, size_t len, const struct item *wanted, size_t count)
{
    static uint8_t data[LARGE];
    size_t at = 12, index = 0;
    for (uint32_t section = 1; section <= 4; section++) {
        for (uint32_t left = model_number(message + 2 + 2 * section, 2); left > 0; left--, index++) {
            struct model_name name;
            CHECK(index < count && wanted[index].section == section);
            const struct item *item = &wanted[index];
            CHECK(model_read(message, len, at, &name) == DNW_DONE);
            CHECK(name.len == item->form_len && memcmp(name.form, item->form, name.len) == 0);
            if (section == 1) {
                CHECK(name.end + 4 <= len && model_number(message + name.end, 2) == item->type);
                CHECK(model_number(message + name.end + 2, 2) == item->class);
                at = name.end + 4;
                continue;
            }
            struct dnw_record record;
            CHECK(model_record(message, len, at, &name, &record) == DNW_DONE);
            CHECK(record.record_type == item->type && record.record_class == item->class && record.ttl == item->ttl);
            size_t data_len = whole_data(message, len, &record, data);
            CHECK(data_len == item->data_len && memcmp(data, item->data, data_len) == 0);
            at = record.end;
        }
    }
    CHECK(index == count && at == len);
}

/* ---- calls */

struct call {
    enum { QUESTION, RECORD, LAST, SET } kind;
    uint32_t section;
    bool is_required;
    struct part name, data;
    uint16_t type, class;
    uint32_t ttl;
    size_t held;
};

static uint32_t make(const struct call *call, uint8_t *message, size_t size, struct dnw_writer *w)
{
    switch (call->kind) {
    case QUESTION:
        return dnw_writer_question(message, size, call->name.bytes, call->name.len, call->type, call->class, w);
    case RECORD:
        return dnw_writer_record(message, size, call->section, call->name.bytes, call->name.len, call->type, call->class, call->ttl,
                                 call->data.bytes, call->data.len, w);
    case LAST:
        return dnw_writer_last(message, size, call->held, call->name.bytes, call->name.len, call->type, call->class, call->ttl,
                               call->data.bytes, call->data.len, w);
    default:
        return dnw_writer_set(message, size, call->section, call->is_required, call->name.bytes, call->name.len, call->type, call->class,
                              call->ttl, call->data.bytes, call->data.len, w);
    }
}

static void add_item(const struct call *call, uint32_t section, struct part data)
{
    if (item_count == ITEMS) {
        is_sound = false;
        return;
    }
    struct item *item = &items[item_count++];
    *item = (struct item){section, call->type, call->class, call->ttl, {0}, call->name.len, {0}, data.len};
    memcpy(item->form, call->name.bytes, call->name.len);
    memcpy(item->data, data.bytes, data.len);
}

/* Whether one of the items is an OPT record. */
static bool has_opt(void)
{
    for (size_t i = 0; i < item_count; i++) {
        if (items[i].section > 1 && items[i].type == DNW_TYPE_OPT)
            return true;
    }
    return false;
}

/* Returns the failure that a call has before room is asked for, and adds its items as if it had none. */
static uint32_t failure_of(const struct call *call)
{
    struct model_name name;
    bool in_order;
    uint32_t section = call->kind == QUESTION ? 1 : call->kind == LAST ? 4 : call->section;
    if (section < 1 || section > 4 || (call->kind != QUESTION && section < 2))
        return DNW_BAD_ITEM;
    uint32_t failure = model_form(call->name.bytes, call->name.len, &name);
    if (failure != DNW_DONE)
        return failure;
    in_order = section >= writer.rank + 1u;
    if (call->kind == QUESTION) {
        add_item(call, 1, (struct part){(const uint8_t *)"", 0});
        return in_order ? DNW_DONE : DNW_BAD_ITEM;
    }
    if (call->kind != SET) {
        if (!are_data(call->class, call->type, call->data.bytes, call->data.len))
            return DNW_BAD_DATA;
        bool is_second = call->type == DNW_TYPE_OPT && has_opt();
        add_item(call, section, call->data);
        return !in_order ? DNW_BAD_ITEM : is_second ? DNW_DUPLICATE_EDNS : DNW_DONE;
    }
    struct part rest = call->data;
    while (rest.len > 0) {
        if (rest.len < 2 || rest.len - 2 < model_number(rest.bytes, 2))
            return DNW_BAD_ITEM;
        struct part data = {rest.bytes + 2, model_number(rest.bytes, 2)};
        rest = (struct part){data.bytes + data.len, rest.len - 2 - data.len};
        if (!are_data(call->class, call->type, data.bytes, data.len))
            return DNW_BAD_DATA;
        if (!in_order)
            return DNW_BAD_ITEM;
        if (call->type == DNW_TYPE_OPT && has_opt())
            return DNW_DUPLICATE_EDNS;
        add_item(call, section, data);
    }
    return DNW_DONE;
}

static void expect_kept(uint32_t answer, bool may_cut)
{
    size_t kept = was.len < buffer_size ? was.len : buffer_size;
    CHECK(answer != DNW_DONE && memcmp(&writer, &was, sizeof was) == 0);
    if (may_cut && kept > 2)
        before[2] |= 2;
    CHECK(memcmp(buffer, before, kept) == 0);
}

static void call_on(const struct call *call)
{
    size_t count = item_count;
    bool sound = is_sound;
    uint32_t failure = sound ? failure_of(call) : DNW_DONE;
    was = writer;
    memcpy(before, buffer, buffer_size);
    uint32_t answer = make(call, buffer, buffer_size, &writer);
    if (answer != DNW_DONE) {
        expect_kept(answer, call->kind == SET && call->is_required && answer == DNW_MESSAGE_TOO_LONG);
        item_count = count;
        is_sound = sound;
    }
    if (!sound)
        return;
    /* with all room */
    copy = was;
    copy.max_size = SIZE_MAX;
    copy.reserved = 0;
    memcpy(large, before, buffer_size);
    uint32_t wanted = make(call, large, sizeof large, &copy);
    size_t most = buffer_size < was.max_size ? buffer_size : was.max_size;
    size_t reserved = call->kind == LAST ? (was.reserved > call->held ? was.reserved - call->held : 0) : was.reserved;
    most = most > reserved ? most - reserved : 0;
    bool adds_none = call->kind == SET && call->data.len == 0;
    if (failure == DNW_DONE && (copy.len > most || was.len > most) && !adds_none)
        failure = DNW_MESSAGE_TOO_LONG;
    if (call->kind == SET && failure != answer)
        /* an earlier record of the set may have had no room */
        CHECK(answer == DNW_MESSAGE_TOO_LONG && failure != DNW_DONE);
    else
        CHECK(answer == failure && (answer == DNW_MESSAGE_TOO_LONG || answer == wanted));
    if (answer == DNW_DONE) {
        CHECK(writer.len == copy.len && memcmp(buffer + 12, large + 12, writer.len - 12) == 0);
        if (is_sound)
            expect_items(buffer, writer.len, items, item_count);
    }
}

static void begin(struct part *rest)
{
    uint16_t id = (uint16_t)take_number(rest, 2), flags = (uint16_t)take_number(rest, 2);
    size_t max_size = take_number(rest, 2) % 1100;
    was = writer;
    memcpy(before, buffer, buffer_size);
    uint32_t answer = dnw_writer_begin(buffer, buffer_size, max_size, id, flags, &writer);
    CHECK(answer == (buffer_size < 12 ? DNW_NO_ROOM : max_size < 12 ? DNW_MESSAGE_TOO_LONG : DNW_DONE));
    if (answer != DNW_DONE)
        return expect_kept(answer, false);
    CHECK(writer.len == 12 && writer.max_size == max_size && writer.reserved == 0 && writer.rank == 0);
    CHECK(model_number(buffer, 2) == id && model_number(buffer + 2, 2) == flags);
    CHECK(memcmp(buffer + 4, "\0\0\0\0\0\0\0\0", 8) == 0);
    item_count = 0;
    is_sound = true;
}

/* Changes the writer, or an octet of the buffer. */
static void spoil(struct part *rest)
{
    uint32_t what = take_number(rest, 1) % 8, number = take_number(rest, 4);
    if (what == 0) {
        writer.len = number % 2 == 0 ? number >> 16 : SIZE_MAX - number;
        is_sound = false;
    } else if (what == 1) {
        writer.rank = (uint8_t)number;
        is_sound = false;
    } else if (what == 2 && buffer_size > 0) {
        buffer[(number >> 8) % buffer_size] = (uint8_t)number;
        is_sound = false;
    } else if (what == 3) {
        writer.max_size = number % 2 == 0 ? number % 1024 : SIZE_MAX - number;
    } else if (what == 4) {
        writer.owner = (uint16_t)number;
    } else if (what == 5) {
        writer.has_opt = (uint8_t)number;
        is_sound = false;
    } else {
        for (size_t i = number >> 23; i < 512; i += 1 + number % 7)
            writer.hints[i] = (uint16_t)(what == 6 ? number : number % 400 + i % 64);
    }
}

static void hold(struct part *rest)
{
    size_t octets = take_number(rest, 1);
    bool is_release = octets % 2 == 1;
    size_t wanted = is_release ? (writer.reserved > octets ? writer.reserved - octets : 0)
                    : writer.reserved > SIZE_MAX - octets ? SIZE_MAX : writer.reserved + octets;
    CHECK((is_release ? dnw_writer_release : dnw_writer_hold)(octets, &writer) == DNW_DONE && writer.reserved == wanted);
}

static void make_call(struct part *rest)
{
    static const uint16_t types[] = {1, 2, 5, 6, 14, 15, 16, 33, 28, 46, 12, 250, 39, 65280, 41, 257};
    static uint8_t name[64], data[4 + 2 * 64 + 22], target[64];
    struct call call = {0};
    uint32_t what = take_number(rest, 1);
    if (what % 16 == 0)
        return begin(rest);
    if (what % 16 == 1)
        return spoil(rest);
    if (what % 16 == 2)
        return hold(rest);
    call.kind = what % 16 < 5 ? QUESTION : what % 16 < 12 ? RECORD : what % 16 < 13 ? LAST : SET;
    call.section = what / 16 % 8;
    call.is_required = what >= 128;
    call.name = take_name(rest, name);
    uint32_t kinds = take_number(rest, 1);
    call.type = types[kinds % 16];
    call.class = kinds >= 240 ? 255 : 1;
    call.ttl = kinds;
    call.held = kinds;
    if (kinds % 32 < 16 && call.kind != QUESTION) {
        /* data that are mostly right */
        size_t head, tail, len = call.kind == SET ? 2 : 0;
        int names;
        if (!may_be_compressed(call.type, &head, &names, &tail)) {
            head = call.type == 1 ? 4 : call.type == 28 ? 16 : 6;
            names = call.type == 33 || call.type == 39 ? 1 : 0;
            tail = 0;
        }
        memset(data, 7, sizeof data);
        for (len += head; names > 0; names--) {
            struct part part = take_name(rest, target);
            size_t some = part.len < 64 ? part.len : 64;
            memcpy(data + len, part.bytes, some);
            len += some;
        }
        len += tail;
        if (call.kind == SET) {
            data[0] = 0;
            data[1] = (uint8_t)(len - 2);
        }
        call.data = (struct part){data, len};
    } else {
        call.data = take_block(rest);
    }
    call_on(&call);
}

/* ---- lists */

/* An item of a list: its octet, its name, where its fields after the name are, its data, and where it ends. */
struct listed {
    uint8_t octet;
    struct model_name name;
    size_t fields;
    struct part data;
    size_t end;
};

static bool read_listed(const uint8_t *list, size_t len, size_t at, struct listed *item)
{
    item->octet = list[at];
    if (item->octet > 3 && (item->octet < 33 || item->octet > 35) && (item->octet < 129 || item->octet > 131))
        return false;
    if (model_read(list, len, at + 1, &item->name) != DNW_DONE)
        return false;
    item->fields = item->name.end;
    if (item->octet == 0) {
        item->end = item->fields + 4;
        return item->end <= len;
    }
    struct dnw_record record;
    if (model_record(list, len, at + 1, &item->name, &record) != DNW_DONE)
        return false;
    item->fields = record.data_offset - 10;
    item->data = (struct part){list + record.data_offset, record.data_len};
    item->end = record.end;
    return true;
}

static uint32_t add_listed(const uint8_t *list, const struct listed *item, uint32_t section, uint8_t *message, size_t size,
                           struct dnw_writer *w)
{
    const uint8_t *fields = list + item->fields;
    uint16_t type = (uint16_t)model_number(fields, 2), class = (uint16_t)model_number(fields + 2, 2);
    return dnw_writer_record(message, size, section, item->name.form, item->name.len, type, class, model_number(fields + 4, 4),
                             item->data.bytes, item->data.len, w);
}

/* The type or the class of an item. */
static uint16_t code_of(const uint8_t *list, const struct listed *item, size_t at)
{
    return (uint16_t)model_number(list + item->fields + at, 2);
}

static struct model_member member(const uint8_t *list, const struct listed *item)
{
    return (struct model_member){item->name, code_of(list, item, 0), code_of(list, item, 2), item->data.bytes, item->data.len};
}

/* Records with the same octet, and of one set. */
static bool are_of_one_set(const uint8_t *list, const struct listed *item, const struct listed *other)
{
    struct model_member first = member(list, item), next = member(list, other);
    return item->octet == other->octet && model_are_of_one_set(&first, &next);
}

/* A record comes last: OPT, or a signature of the message. */
static bool is_end(const uint8_t *list, const struct listed *item)
{
    if (item->octet % 4 != 3)
        return false;
    uint16_t code = code_of(list, item, 0);
    bool covers_no_type = item->data.len >= 2 && item->data.bytes[0] == 0 && item->data.bytes[1] == 0;
    return code == DNW_TYPE_OPT || code == DNW_TYPE_TSIG || (code == DNW_TYPE_SIG && covers_no_type);
}

/* One of so many records, from an offset on, and a record that is left out are half of a set each, and none is the same. */
static bool is_half(const uint8_t *list, size_t len, size_t at, unsigned count, const struct listed *item)
{
    struct listed there;
    struct model_member out = member(list, item);
    bool is_half = false;
    for (; count > 0; count--, at = there.end) {
        CHECK(read_listed(list, len, at, &there));
        if (is_end(list, &there)) {
            count++;
            continue;
        }
        struct model_member own = member(list, &there);
        if (model_are_the_same(&own, &out))
            return false;
        is_half |= model_halves(&own, &out);
    }
    return is_half;
}

/* A record that is left out has to be there, by the word of the list, or else by what the message is for. */
static bool is_missed(const uint8_t *list, const struct listed *item, struct model_purpose *purpose)
{
    bool is_required = model_is_required(purpose, item->octet % 4, &item->name, code_of(list, item, 0), item->data.bytes, item->data.len);
    return item->octet >= 32 ? item->octet < 128 : is_required;
}

/* Writes what comes last in a message with this code. */
static uint32_t write_ends(const uint8_t *list, const struct listed *opt, const struct listed *signature, uint16_t code, uint16_t block,
                           uint8_t *message, size_t size, struct dnw_writer *w)
{
    if (opt->end > 0) {
        const uint8_t *fields = list + opt->fields;
        if (opt->name.len > 1)
            return DNW_OWNER_NOT_ROOT;
        uint32_t answer = dnw_writer_edns(message, size, 11 + opt->data.len, code_of(list, opt, 2), (uint8_t)(code >> 4), fields[5],
                                          fields[6] >= 128, opt->data.bytes, opt->data.len, block, w);
        if (answer != DNW_DONE)
            return answer;
    }
    if (signature->end == 0)
        return DNW_DONE;
    /* no name of the message is known to what comes last */
    dnw_writer_release(signature->name.len + 10 + signature->data.len, w);
    w->owner = 0;
    memset(w->hints, 0, sizeof w->hints);
    return add_listed(list, signature, 4, message, size, w);
}

/* Writes a list by the calls for its items, and puts whether something required is missing. */
static uint32_t model_list(const uint8_t *list, size_t len, size_t max_size, uint16_t flags, uint16_t code, bool is_reply, uint16_t block,
                           uint8_t *message, size_t size, struct dnw_writer *w, bool *missing)
{
    struct model_purpose purpose = model_purpose(flags);
    struct listed item, next, opt = {0}, signature = {0};
    bool is_bare = is_reply && (code == 1 || code == 4 || code == 16);
    size_t held = 0;
    unsigned place = 0;
    for (size_t at = 0; at < len; at = item.end) {
        unsigned own = list[at] % 4;
        if (own < place || !read_listed(list, len, at, &item))
            return DNW_BAD_ITEM;
        place = own;
        if (is_end(list, &item)) {
            bool is_opt = code_of(list, &item, 0) == DNW_TYPE_OPT;
            struct listed *end = is_opt ? &opt : &signature;
            if (end->end > 0)
                return is_opt ? DNW_DUPLICATE_EDNS : DNW_BAD_ITEM;
            *end = item;
            held += item.name.len + 10 + item.data.len;
        } else if (item.octet > 0)
            model_take(&purpose, item.octet % 4, &item.name, code_of(list, &item, 0));
        else if (purpose.asked == UINT32_MAX)
            purpose.asked = code_of(list, &item, 0);
    }
    if (code > (opt.end > 0 ? 4095 : 15))
        return DNW_BAD_ITEM;
    uint32_t begun = dnw_writer_begin(message, size, max_size, 1, (uint16_t)((flags & ~15) | (code & 15)), w);
    if (begun != DNW_DONE)
        return begun;
    dnw_writer_hold(held, w);
    unsigned closed = 0, opened = 0, out = 0;
    size_t start = 0;
    for (size_t at = 0; at < len;) {
        CHECK(read_listed(list, len, at, &item));
        unsigned section = item.octet % 4;
        uint32_t answer;
        if (is_end(list, &item) || (is_bare && item.octet > 0)) {
            at = item.end;
            continue;
        }
        if (item.octet != 0 && section != opened) {
            opened = section;
            start = at;
            out = 0;
        }
        unsigned there = (unsigned)model_number(message + 4 + 2 * section, 2);
        if (item.octet == 0) {
            const uint8_t *fields = list + item.fields;
            answer = dnw_writer_question(message, size, item.name.form, item.name.len, (uint16_t)model_number(fields, 2),
                                         (uint16_t)model_number(fields + 2, 2), w);
            if (answer != DNW_DONE)
                return answer;
            at = item.end;
        } else if (section == closed) {
            *missing |= is_missed(list, &item, &purpose);
            *missing |= ++out * there > MODEL_PAIRS || is_half(list, len, start, there, &item);
            at = item.end;
        } else {
            struct dnw_writer before = *w;
            uint8_t counts[8];
            memcpy(counts, message + 4, 8);
            for (next = item; !is_end(list, &next) && are_of_one_set(list, &item, &next);) {
                answer = add_listed(list, &next, section + 1, message, size, w);
                if (answer == DNW_MESSAGE_TOO_LONG && !model_is_uncut(&purpose)) {
                    *w = before;
                    memcpy(message + 4, counts, 8);
                    closed = section;
                    purpose.server_out = false;
                    *missing |= is_missed(list, &item, &purpose);
                    *missing |= ++out * there > MODEL_PAIRS || is_half(list, len, start, there, &item);
                    at = item.end;
                    break;
                }
                if (answer != DNW_DONE)
                    return answer;
                at = next.end;
                if (at == len)
                    break;
                CHECK(read_listed(list, len, at, &next));
            }
        }
    }
    return write_ends(list, &opt, &signature, code, block, message, size, w);
}

static void writes_list(const uint8_t *list, size_t len, size_t max_size, size_t size)
{
    static struct room lists;
    static uint8_t own[SIZE_MAX_TRIED];
    struct dnw_writer w;
    bool missing = false;
    struct dnw_packed written = {7, false};
    /* responses to queries, requests, and responses to updates */
    static const uint16_t kinds[] = {0x8002, 0x8002, 2, 0xA802};
    uint16_t flags = kinds[max_size % 4];
    static const uint16_t codes[] = {0, 2, 1, 4, 15, 16, 23, 4095, 4096, 3};
    uint16_t code = codes[max_size % 10];
    bool is_reply = max_size % 7 < 3;
    uint16_t block = max_size % 3 == 0 ? (uint16_t)(max_size % 130) : 0;
    uint32_t wanted = model_list(list, len, max_size, flags, code, is_reply, block, own, size, &w, &missing);
    uint8_t *message = clear(&lists, size);
    uint32_t answer = dnw_message_write(list, len, max_size, 1, flags, code, is_reply, block, message, size, &written);
    CHECK(answer == wanted);
    if (answer != DNW_DONE) {
        CHECK(written.len == 7 && !written.truncated);
        return;
    }
    if (missing)
        own[2] |= 2;
    CHECK(written.len == w.len && written.truncated == missing && memcmp(message, own, w.len) == 0);
    CHECK(written.len <= max_size);
}

int LLVMFuzzerTestOneInput(const uint8_t *data, size_t size)
{
    if (size < 6)
        return 0;
    struct part rest = {put_at_end(&input, data + 6, size - 6), size - 6};
    buffer_size = model_number(data, 2) % (SIZE_MAX_TRIED + 1);
    buffer = clear(&output, buffer_size);
    writes_list(rest.bytes, rest.len, model_number(data + 2, 2) % 1100, buffer_size);
    memset(&writer, data[5], sizeof writer);
    is_sound = false;
    item_count = 0;
    for (int i = 0; i < CALLS && rest.len > 0; i++) {
        make_call(&rest);
        CHECK(holds(buffer, buffer_size, buffer, buffer_size));
    }
    return 0;
}
