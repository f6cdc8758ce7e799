/* Takes the first 4 and the first 16 octets of the input as addresses, and the input as the wire form of a reverse name and as
   the number of a failure. The name of an address is the model's, and gives the address again; a name gives the net that the
   model says, and the name of its address begins with what the net leaves out. */
#include "harness.h"

static struct room names, results, addresses;

enum { IPV4 = 4, IPV6 = 16, TEXTS = 64, FAILURES = DNW_BAD_FAMILY + 1 };

/* How many bits a label of a reverse name stands for. */
static size_t bits_of(size_t len)
{
    return len == IPV4 ? 8 : 4;
}

static const char *zone_of(size_t len)
{
    return len == IPV4 ? "\7in-addr\4arpa" : "\3ip6\4arpa";
}

static void put_label(struct model_name *name, const char *text)
{
    size_t len = strlen(text);
    name->form[name->len] = (uint8_t)len;
    memcpy(name->form + name->len + 1, text, len);
    name->len += 1 + len;
}

/* RFC 1035, section 3.5, and RFC 3596, section 2.5. */
static uint32_t model_reverse(const uint8_t *address, size_t len, struct model_name *name)
{
    char text[4];
    name->len = 0;
    if (len != IPV4 && len != IPV6)
        return DNW_BAD_ADDRESS;
    for (size_t i = len; i-- > 0;) {
        if (len == IPV4) {
            snprintf(text, sizeof text, "%u", address[i]);
            put_label(name, text);
            continue;
        }
        for (unsigned shift = 0; shift <= 4; shift += 4) {
            snprintf(text, sizeof text, "%x", address[i] >> shift & 15u);
            put_label(name, text);
        }
    }
    size_t zone_len = strlen(zone_of(len)) + 1;
    memcpy(name->form + name->len, zone_of(len), zone_len);
    name->len += zone_len;
    return DNW_DONE;
}

/* The number that a label in lower case is: an octet in decimal, with zeros and a plus sign before it if need be, or a
   hexadecimal digit. */
static bool model_label(const uint8_t *label, size_t label_len, size_t len, unsigned *number)
{
    static const char digits[] = "0123456789abcdef";
    bool has_sign = len == IPV4 && label_len > 1 && label[0] == '+';
    *number = 0;
    if (len == IPV6 && label_len != 1)
        return false;
    for (size_t i = has_sign; i < label_len; i++) {
        const char *digit = label[i] == 0 ? NULL : strchr(digits, label[i]);
        if (digit == NULL || (len == IPV4 && digit - digits > 9))
            return false;
        *number = (len == IPV4 ? 10 : 16) * *number + (unsigned)(digit - digits);
        if (*number > 255)
            return false;
    }
    return true;
}

/* Puts the net of a name below the zone of addresses with so many octets, if it is one. */
static bool model_below(const struct model_name *name, size_t len, uint8_t *address, struct dnw_net *net)
{
    size_t starts[128], count = 0, zone = strlen(zone_of(len)) + 1, at = 0;
    struct model_name low = *name;
    model_lower(&low);
    memset(address, 0, IPV6);
    if (low.len < zone)
        return false;
    for (; at < low.len - zone; at += 1u + low.form[at])
        starts[count++] = at;
    if (at != low.len - zone || memcmp(low.form + at, zone_of(len), zone) != 0 || count > len * 8 / bits_of(len))
        return false;
    for (size_t i = 0; i < count; i++) {
        unsigned number;
        const uint8_t *label = low.form + starts[count - 1 - i];
        if (!model_label(label + 1, label[0], len, &number))
            return false;
        size_t bit = i * bits_of(len);
        address[bit / 8] |= (uint8_t)(number << (8 - bits_of(len) - bit % 8));
    }
    *net = (struct dnw_net){len, (uint8_t)(count * bits_of(len))};
    return true;
}

static uint32_t model_net(const uint8_t *form, size_t len, uint8_t *address, struct dnw_net *net)
{
    struct model_name name;
    uint32_t answer = model_form(form, len, &name);
    if (answer != DNW_DONE)
        return answer;
    return model_below(&name, IPV4, address, net) || model_below(&name, IPV6, address, net) ? DNW_DONE : DNW_NOT_REVERSE;
}

static void parses(const uint8_t *octets, size_t len)
{
    uint8_t wanted[IPV6];
    struct dnw_net model = {7, 7}, net = {7, 7};
    const uint8_t *form = put_at_end(&names, octets, len);
    uint32_t answer = model_net(form, len, wanted, &model);
    size_t size = answer == DNW_DONE ? model.len : IPV6;
    uint8_t *address = clear(&addresses, size);
    refuse(1);
    CHECK(dnw_reverse_parse(form, len, address, size, &net) == answer && !was_refused());
    if (answer != DNW_DONE) {
        CHECK(untouched(address, size) && net.len == 7 && net.prefix_len == 7);
        return;
    }
    CHECK(net.len == model.len && net.prefix_len == model.prefix_len && holds(address, size, wanted, size));
    net = (struct dnw_net){7, 7};
    address = clear(&addresses, size - 1);
    CHECK(dnw_reverse_parse(form, len, address, size - 1, &net) == DNW_NO_ROOM && untouched(address, size - 1) && net.len == 7);
}

static void prints(const uint8_t *octets, size_t len)
{
    struct model_name wanted;
    const uint8_t *address = put_at_end(&addresses, octets, len);
    uint32_t answer = model_reverse(address, len, &wanted);
    size_t size = answer == DNW_DONE ? wanted.len : DNW_FORM_SIZE, form_len = 7;
    uint8_t *form = clear(&results, size);
    refuse(1);
    CHECK(dnw_reverse_name(address, len, form, size, &form_len) == answer && !was_refused());
    if (answer != DNW_DONE) {
        CHECK(untouched(form, size) && form_len == 7);
        return;
    }
    CHECK(form_len == size && holds(form, size, wanted.form, size));
    form_len = 7;
    form = clear(&results, size - 1);
    CHECK(dnw_reverse_name(address, len, form, size - 1, &form_len) == DNW_NO_ROOM && untouched(form, size - 1) && form_len == 7);
    parses(wanted.form, wanted.len);
    uint8_t again[IPV6];
    struct dnw_net net;
    CHECK(model_net(wanted.form, wanted.len, again, &net) == DNW_DONE && net.len == len && net.prefix_len == 8 * len);
    CHECK(memcmp(again, octets, len) == 0);
}

/* The text of a number is there or not whatever the room is, and is put if it fits. The texts of two failures are two. */
static void explains(uint32_t number, size_t size)
{
    uint8_t whole[TEXTS], other[TEXTS];
    size_t len = dnw_error_text(number, whole, sizeof whole);
    CHECK(len <= TEXTS && (len > 0) == (number < FAILURES));
    uint8_t *text = clear(&results, size);
    refuse(1);
    CHECK(dnw_error_text(number, text, size) == len && !was_refused());
    CHECK(len <= size ? holds(text, size, whole, len) : untouched(text, size));
    for (size_t i = 0; i < len; i++)
        CHECK(whole[i] >= ' ' && whole[i] < 127);
    CHECK(number != DNW_DONE || (len == 7 && memcmp(whole, "success", 7) == 0));
    for (uint32_t i = 0; number < FAILURES && i < FAILURES; i++)
        CHECK(i == number || dnw_error_text(i, other, sizeof other) != len || memcmp(whole, other, len) != 0);
}

int LLVMFuzzerTestOneInput(const uint8_t *data, size_t size)
{
    parses(data, size);
    prints(data, size < IPV4 ? size : IPV4);
    prints(data, size < IPV6 ? size : IPV6);
    if (size < 2)
        return 0;
    prints(data + 1, data[0] % size);
    uint32_t number = size < 6 ? data[0] : model_number(data + 1, 4);
    explains(number, data[1] % (TEXTS + 2));
    explains(data[0] % FAILURES, data[1] % (TEXTS + 2));
    return 0;
}
