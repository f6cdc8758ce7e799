#include "field_texts.h"

void add(struct made *made, const void *bytes, size_t len)
{
    CHECK(len <= MOST - made->len);
    memcpy(made->bytes + made->len, bytes, len);
    made->len += len;
}

void add_text(struct made *made, const char *text)
{
    add(made, text, strlen(text));
}

void add_number(struct made *made, const char *form, uint32_t number)
{
    char text[16];
    int len = snprintf(text, sizeof text, form, number);
    CHECK(len >= 0 && (size_t)len < sizeof text);
    add_text(made, text);
}

/* An octet of a label or of a string: one of these characters after a backslash, a printable one as it is. */
static void add_escaped(struct made *made, uint8_t octet, const char *special, uint8_t first)
{
    if (octet != 0 && strchr(special, octet) != NULL)
        add(made, (uint8_t[]){'\\', octet}, 2);
    else if (octet >= first && octet <= 126)
        add(made, &octet, 1);
    else
        add_number(made, "\\%03u", octet);
}

void add_name(struct made *made, const uint8_t *form)
{
    if (form[0] == 0)
        add_text(made, ".");
    for (; form[0] != 0; form += 1 + form[0]) {
        for (size_t i = 1; i <= form[0]; i++)
            add_escaped(made, form[i], "\"$().;@\\", '!');
        add_text(made, ".");
    }
}

static void add_string(struct made *made, const uint8_t *octets, size_t len)
{
    add_text(made, "\"");
    for (size_t i = 0; i < len; i++)
        add_escaped(made, octets[i], "\"\\", ' ');
    add_text(made, "\"");
}

/* Octets of so many digits each, with a text between two. */
static void add_groups(struct made *made, const char *form, const char *between, const uint8_t *octets, size_t len, size_t size)
{
    for (size_t i = 0; i < len; i += size) {
        add_text(made, i == 0 ? "" : between);
        add_number(made, form, model_number(octets + i, size));
    }
}

void add_hex(struct made *made, const uint8_t *octets, size_t len)
{
    add_groups(made, "%02X", "", octets, len, 1);
}

/* RFC 4648: symbols of so many bits each; the last has zeros for bits that are not there. */
static void add_symbols(struct made *made, const char *symbols, uint32_t bits, const uint8_t *octets, size_t len)
{
    uint32_t held = 0, count = 0;
    for (size_t i = 0; i < len; i++) {
        held = (held << 8 | octets[i]) & 0xFFFF;
        for (count += 8; count >= bits; count -= bits)
            add(made, &symbols[held >> (count - bits) & ((1u << bits) - 1)], 1);
    }
    if (count > 0)
        add(made, &symbols[held << (bits - count) & ((1u << bits) - 1)], 1);
}

static void add_base64(struct made *made, const uint8_t *octets, size_t len)
{
    add_symbols(made, "ABCDEFGHIJKLMNOPQRSTUVWXYZabcdefghijklmnopqrstuvwxyz0123456789+/", 6, octets, len);
    add(made, "==", (3 - len % 3) % 3);
}

/* RFC 5952: the longest run of two zeros or more is left out, and of two such runs the first. */
static void add_ipv6(struct made *made, const uint8_t *octets)
{
    size_t first = 8, most = 1;
    for (size_t i = 0; i < 8; i++) {
        size_t run = 0;
        while (i + run < 8 && model_number(octets + 2 * (i + run), 2) == 0)
            run++;
        if (run > most) {
            first = i;
            most = run;
        }
    }
    if (first == 0 && most == 5 && octets[10] == 0xFF && octets[11] == 0xFF) {
        add_text(made, "::ffff:");
        add_groups(made, "%u", ".", octets + 12, 4, 1);
        return;
    }
    for (size_t i = 0; i < 8; i++) {
        if (i == first) {
            add_text(made, "::");
            i += most - 1;
        } else {
            add_number(made, i == 0 || i == first + most ? "%x" : ":%x", model_number(octets + 2 * i, 2));
        }
    }
}

static void add_ipv4(struct made *made, const uint8_t *octets)
{
    add_groups(made, "%u", ".", octets, 4, 1);
}

/* YYYYMMDDHHmmSS, by counting days. */
static void add_time(struct made *made, uint32_t seconds)
{
    static const uint32_t days_in[] = {31, 28, 31, 30, 31, 30, 31, 31, 30, 31, 30, 31};
    uint32_t days = seconds / 86400, year = 1970, month = 0;
    for (;;) {
        uint32_t leap = year % 4 == 0 && (year % 100 != 0 || year % 400 == 0);
        uint32_t size = days_in[month] + (month == 1 ? leap : 0);
        if (days < size)
            break;
        days -= size;
        month = (month + 1) % 12;
        year += month == 0;
    }
    add_number(made, "%04u", year);
    add_number(made, "%02u", month + 1);
    add_number(made, "%02u", days + 1);
    add_number(made, "%02u", seconds / 3600 % 24);
    add_number(made, "%02u", seconds / 60 % 60);
    add_number(made, "%02u", seconds % 60);
}

void add_code(struct made *made, uint32_t (*print)(uint16_t, uint8_t *, size_t, size_t *), uint16_t code)
{
    uint8_t text[DNW_CODE_SIZE];
    size_t len;
    CHECK(print(code, text, sizeof text, &len) == DNW_DONE);
    add(made, text, len);
}

/* ---- LOC (RFC 1876) */

/* North and east are above 2^31, in thousandths of a second of arc. No place is past a pole, or past 180 degrees. */
static bool add_angle(struct made *made, uint32_t angle, uint32_t degrees, const char *letters)
{
    static const uint32_t middle = UINT32_C(1) << 31;
    uint32_t arc = angle >= middle ? angle - middle : middle - angle;
    add_number(made, " %u", arc / 1000 / 60 / 60);
    add_number(made, " %u", arc / 1000 / 60 % 60);
    add_number(made, " %u", arc / 1000 % 60);
    add_number(made, ".%03u ", arc % 1000);
    add(made, &letters[angle >= middle], 1);
    return arc <= degrees * 60 * 60 * 1000;
}

/* A digit, and a power of ten, of centimetres: from a metre on, without a point. */
static bool add_precision(struct made *made, uint8_t octet)
{
    uint32_t digit = octet >> 4, power = octet & 15;
    if (power < 2) {
        add_number(made, " 0.%02um", power == 1 ? 10 * digit : digit);
    } else {
        add_number(made, " %u", digit);
        for (; power > 2; power--)
            add_text(made, "0");
        add_text(made, "m");
    }
    return digit <= 9 && octet % 16 <= 9 && (digit > 0 || octet == 0);
}

/* The altitude counts from 100,000 metres below the ellipsoid. */
static bool add_location(struct made *made, const uint8_t *octets, size_t len)
{
    static const uint32_t lowest = 100000 * 100;
    if (len != 16 || octets[0] != 0 || !add_angle(made, model_number(octets + 4, 4), 90, "SN") ||
        !add_angle(made, model_number(octets + 8, 4), 180, "WE"))
        return false;
    uint32_t altitude = model_number(octets + 12, 4);
    uint32_t height = altitude < lowest ? lowest - altitude : altitude - lowest;
    add_number(made, altitude < lowest ? " -%u" : " %u", height / 100);
    add_number(made, ".%02um", height % 100);
    return add_precision(made, octets[1]) && add_precision(made, octets[2]) && add_precision(made, octets[3]);
}

/* ---- other fields with more than one word */

static bool add_strings(struct made *made, const uint8_t *octets, size_t len)
{
    for (size_t at = 0; at < len; at += 1 + (size_t)octets[at]) {
        add_text(made, " ");
        add_string(made, octets + at + 1, octets[at]);
    }
    return true;
}

static bool add_names(struct made *made, const uint8_t *octets, size_t len)
{
    size_t at = 0;
    while (at < len) {
        add_text(made, " ");
        add_name(made, octets + at);
        while (octets[at] != 0)
            at += 1 + (size_t)octets[at];
        at++;
    }
    return true;
}

/* RFC 3123, section 5: the families 1 and 2 of IANA's registry have texts. */
static bool add_prefixes(struct made *made, const uint8_t *octets, size_t len)
{
    for (size_t at = 0, size; at < len; at += 4 + size) {
        uint32_t family = model_number(octets + at, 2);
        uint8_t address[16] = {0};
        size = octets[at + 3] & 0x7F;
        if (family < 1 || family > 2)
            return false;
        memcpy(address, octets + at + 4, size);
        add_text(made, octets[at + 3] >> 7 == 1 ? " !" : " ");
        add_number(made, "%u:", family);
        (family == 1 ? add_ipv4 : add_ipv6)(made, address);
        add_number(made, "/%u", octets[at + 2]);
    }
    return true;
}

/* RFC 4025, section 3.1: the type of the gateway, the algorithm, and the gateway. */
static bool add_gateway(struct made *made, const uint8_t *octets)
{
    add_number(made, " %u", octets[0]);
    add_number(made, " %u ", octets[1]);
    if (octets[0] == 0)
        add_text(made, ".");
    else
        (octets[0] == 1 ? add_ipv4 : octets[0] == 2 ? add_ipv6 : add_name)(made, octets + 2);
    return true;
}

/* RFC 8005, section 6: the algorithm, the tag in base 16, and the key in base 64. No word stands for no octets. */
static bool add_identity(struct made *made, const uint8_t *octets)
{
    uint32_t tag_len = octets[0], key_len = model_number(octets + 2, 2);
    add_number(made, " %u ", octets[1]);
    add_hex(made, octets + 4, tag_len);
    add_text(made, " ");
    add_base64(made, octets + 4 + tag_len, key_len);
    return tag_len > 0 && key_len > 0;
}

/* The types whose names fewer than three of five servers read, or of which ldns makes type 0: their numbers are printed. */
static bool has_unread_name(uint16_t type)
{
    static const uint16_t types[] = {31,  32,  34,  40,  56,  57,  58,  66,  67,  68,  100,  101,
                                     102, 103, 128, 258, 259, 260, 261, 262, 263, 264, 32768};
    for (size_t i = 0; i < sizeof types / sizeof *types; i++)
        if (type == types[i])
            return true;
    return false;
}

static void add_type(struct made *made, uint16_t type)
{
    if (has_unread_name(type))
        add_number(made, "TYPE%u", type);
    else
        add_code(made, dnw_type_print, type);
}

/* RFC 4034, section 4.2: a window has no zeros at its end. */
static bool add_bitmap(struct made *made, const uint8_t *octets, size_t len)
{
    for (size_t at = 0; at < len; at += 2 + (size_t)octets[at + 1]) {
        if (octets[at + 1 + octets[at + 1]] == 0)
            return false;
        for (size_t bit = 0; bit < 8 * (size_t)octets[at + 1]; bit++)
            if (octets[at + 2 + bit / 8] & 0x80 >> bit % 8) {
                add_text(made, " ");
                add_type(made, (uint16_t)(256 * octets[at] + bit));
            }
    }
    return true;
}

/* The numbers of the bits of octets, the last of which is not zero: ports (RFC 1035, section 3.4.2), or types below 128 but 0 (RFC 2535,
   section 5.2). */
static bool add_bits(struct made *made, uint16_t type, const uint8_t *octets, size_t len)
{
    size_t most = type == DNW_TYPE_WKS ? 8192 : type == DNW_TYPE_NXT ? 16 : 0;
    if (most == 0 || len > most || (len > 0 && octets[len - 1] == 0) || (type == DNW_TYPE_NXT && len > 0 && octets[0] >= 128))
        return false;
    for (uint32_t bit = 0; bit < 8 * len; bit++) {
        if ((octets[bit / 8] & 0x80 >> bit % 8) == 0)
            continue;
        add_text(made, " ");
        if (type == DNW_TYPE_WKS)
            add_number(made, "%u", bit);
        else
            add_type(made, (uint16_t)bit);
    }
    return true;
}

/* RFC 8659, section 4.1.1. */
static bool add_tag(struct made *made, const uint8_t *octets, size_t len)
{
    for (size_t i = 0; i < len; i++)
        if (!(octets[i] >= '0' && octets[i] <= '9') && !((octets[i] | 32) >= 'a' && (octets[i] | 32) <= 'z'))
            return false;
    add_text(made, " ");
    add(made, octets, len);
    return len > 0;
}

/* ---- service parameters (RFC 9460) */

/* Section 14.3.2. */
static void add_key(struct made *made, uint32_t key)
{
    static const char *const names[] = {"mandatory", "alpn", "no-default-alpn", "port", "ipv4hint", "ech", "ipv6hint"};
    if (key < sizeof names / sizeof *names)
        add_text(made, names[key]);
    else
        add_number(made, "key%u", key);
}

static void add_keys(struct made *made, const uint8_t *octets, size_t len)
{
    for (size_t at = 0; at < len; at += 2) {
        add_text(made, at == 0 ? "=" : ",");
        add_key(made, model_number(octets + at, 2));
    }
}

bool are_mandatory(const uint8_t *octets, size_t len)
{
    if (len < 4 || model_number(octets, 2) != 0)
        return true;
    size_t size = model_number(octets + 2, 2), at = 4 + size;
    uint32_t last = 0;
    for (size_t i = 4; i + 1 < 4 + size; i += 2) {
        uint32_t key = model_number(octets + i, 2);
        while (at < len && model_number(octets + at, 2) != key)
            at += 4 + model_number(octets + at + 2, 2);
        if (key <= last || at >= len)
            return false;
        last = key;
    }
    return size > 0 && size % 2 == 0;
}

/* Section 7.1.1 and appendix A.1: a string of a list, in which a comma and a backslash of an identifier are after a backslash. */
static bool add_protocols(struct made *made, const uint8_t *octets, size_t len)
{
    static struct made list;
    list.len = 0;
    for (size_t at = 0; at < len; at += 1 + (size_t)octets[at]) {
        if (octets[at] == 0 || octets[at] >= len - at)
            return false;
        if (at > 0)
            add_text(&list, ",");
        for (size_t i = 1; i <= octets[at]; i++) {
            if (octets[at + i] == ',' || octets[at + i] == '\\')
                add_text(&list, "\\");
            add(&list, &octets[at + i], 1);
        }
    }
    add_text(made, "=");
    add_string(made, list.bytes, list.len);
    return len > 0;
}

static bool add_hints(struct made *made, const uint8_t *octets, size_t len, size_t size)
{
    if (len == 0 || len % size > 0)
        return false;
    for (size_t at = 0; at < len; at += size) {
        add_text(made, at == 0 ? "=" : ",");
        (size == 4 ? add_ipv4 : add_ipv6)(made, octets + at);
    }
    return true;
}

/* The value after a key's name: sections 7 and 8, and for ECH base 64. */
static bool add_value(struct made *made, uint32_t key, const uint8_t *octets, size_t len)
{
    if (key == 0) {
        add_keys(made, octets, len);
        return true;
    }
    if (key == 1)
        return add_protocols(made, octets, len);
    if (key == 3 && len == 2)
        add_number(made, "=%u", model_number(octets, 2));
    if (key == 4 || key == 6)
        return add_hints(made, octets, len, key == 4 ? 4 : 16);
    if (key == 5) {
        add_text(made, "=");
        add_base64(made, octets, len);
    }
    return key == 2 ? len == 0 : key == 3 ? len == 2 : key == 5 && len > 0;
}

/* Section 2.1: a value that is none of its key's is that of any key. */
static bool add_params(struct made *made, const uint8_t *octets, size_t len)
{
    if (!are_mandatory(octets, len))
        return false;
    for (size_t at = 0, size; at < len; at += 4 + size) {
        uint32_t key = model_number(octets + at, 2);
        size = model_number(octets + at + 2, 2);
        add_text(made, " ");
        size_t start = made->len;
        add_key(made, key);
        if (!add_value(made, key, octets + at + 4, size)) {
            made->len = start;
            add_number(made, "key%u", key);
            add_text(made, size == 0 ? "" : "=");
            if (size > 0)
                add_string(made, octets + at + 4, size);
        }
    }
    return true;
}

/* ---- fields */

static bool is_base64(uint16_t type)
{
    static const uint16_t types[] = {24, 25, 37, 45, 46, 48, 49, 57, 60, 61};
    for (size_t i = 0; i < sizeof types / sizeof *types; i++)
        if (type == types[i])
            return true;
    return false;
}

/* Octets up to the end: none have no text, but of an address of NSAP (RFC 1706, section 5). */
static bool add_octets(struct made *made, uint16_t type, const uint8_t *octets, size_t len)
{
    add_text(made, type == 22 ? " 0x" : " ");
    if (type == 22)
        add_groups(made, "%02x", "", octets, len, 1);
    else
        (is_base64(type) ? add_base64 : add_hex)(made, octets, len);
    return type == 22 || len > 0;
}

/* A salt in base 16, or the hash of a name in base 32 with the extended alphabet (RFC 5155, section 3.3). */
static bool add_salt(struct made *made, const uint8_t *octets, size_t len)
{
    add_text(made, len == 0 ? " -" : " ");
    add_hex(made, octets, len);
    return true;
}

static bool add_hash(struct made *made, const uint8_t *octets, size_t len)
{
    add_text(made, " ");
    add_symbols(made, "0123456789ABCDEFGHIJKLMNOPQRSTUV", 5, octets, len);
    return len > 0;
}

bool add_field_text(struct made *made, uint16_t type, char letter, const uint8_t *octets, size_t len)
{
    switch (letter) {
    case 'S': return add_strings(made, octets, len);
    case 'N': return add_names(made, octets, len);
    case 'A': return add_prefixes(made, octets, len);
    case 'B': return add_bitmap(made, octets, len);
    case 'b': return add_bits(made, type, octets, len);
    case 'P': return add_params(made, octets, len);
    case 'L': return add_location(made, octets, len);
    case 'G': return add_gateway(made, octets);
    case 'H': return add_identity(made, octets);
    case 'o': return add_octets(made, type, octets, len);
    case 'c': return add_salt(made, octets, len);
    case 'h': return add_hash(made, octets, len);
    }
    if (letter == 's' && type == 257)
        return add_tag(made, octets, len);
    add_text(made, " ");
    switch (letter) {
    case 'n': add_name(made, octets); break;
    case '1': case '2': case '4': add_number(made, "%u", model_number(octets, len)); break;
    case '6': case '8': add_groups(made, "%02x", "-", octets, len, 1); break;
    case 'Y': add_groups(made, "%04x", ":", octets, len, 2); break;
    case 'i': add_ipv4(made, octets); break;
    case 'I': add_ipv6(made, octets); break;
    case 't': add_type(made, (uint16_t)model_number(octets, 2)); break;
    case 'T': add_time(made, model_number(octets, 4)); break;
    case 's': case 'x': add_string(made, octets, len); break;
    default: return false;
    }
    return true;
}
