#include "data_reading.h"
#include "field_texts.h"
#include "line_reading.h"

static bool is_among(uint16_t type, const uint16_t *types, size_t count)
{
    for (size_t i = 0; i < count; i++)
        if (types[i] == type)
            return true;
    return false;
}

/* ---- LOC (RFC 1876, section 3) */

/* Digits with so many after a point, as a number without the point. */
static bool is_decimal(struct part word, uint32_t places, uint64_t most, uint64_t *number)
{
    struct part whole = cut_at(&word, '.');
    uint64_t part = 0;
    *number = 0;
    if (word.len > places || (whole.len > 0 && !is_number(whole, most, number)) || (word.len > 0 && !is_number(word, 999, &part)))
        return false;
    for (uint32_t i = 0; i < places; i++)
        *number *= 10;
    for (size_t i = word.len; i < places; i++)
        part *= 10;
    *number += part;
    return *number <= most && whole.len + word.len > 0;
}

static bool is_letter(struct part word, const char *letters)
{
    return word.len == 1 && word.bytes[0] != 0 && strchr(letters, word.bytes[0]) != NULL;
}

/* Degrees, minutes and seconds, of which the last may be left out, up to a letter: `NS` or `EW`. */
static bool take_angle(struct reader *r, uint32_t degrees, const char *letters)
{
    uint64_t parts[3] = {0, 0, 0};
    struct part word = take_word(r);
    for (size_t i = 0; i < 3 && (i == 0 || !is_letter(word, letters)); i++) {
        bool is_part = i == 2 ? word.len > 0 && word.bytes[0] != '.' && is_decimal(word, 3, 59999, &parts[2])
                              : is_number(word, i == 0 ? degrees : 59, &parts[i]);
        if (!is_part)
            return false;
        word = take_word(r);
    }
    uint64_t arc = (parts[0] * 60 + parts[1]) * 60000 + parts[2];
    if (!is_letter(word, letters) || arc > (uint64_t)degrees * 3600000)
        return false;
    put(r, (uint32_t)(word.bytes[0] == letters[0] ? 2147483648 + arc : 2147483648 - arc), 4);
    return true;
}

/* Metres with a sign and a unit, in centimetres. */
static bool is_metres(struct part word, uint64_t *number, bool *is_below)
{
    *is_below = word.len > 0 && word.bytes[0] == '-';
    if (word.len > 0 && (word.bytes[0] == '-' || word.bytes[0] == '+'))
        word = (struct part){word.bytes + 1, word.len - 1};
    if (word.len > 0 && word.bytes[word.len - 1] == 'm')
        word.len--;
    return is_decimal(word, 2, 9000000000, number);
}

static bool put_altitude(struct reader *r, struct part word)
{
    uint64_t number;
    bool is_below;
    if (!is_metres(word, &number, &is_below) || (is_below ? number > 10000000 : number > UINT32_MAX - 10000000))
        return false;
    put(r, (uint32_t)(is_below ? 10000000 - number : 10000000 + number), 4);
    return true;
}

/* The first digit of the centimetres, and how many come after it. */
static bool put_precision(struct reader *r, struct part word)
{
    uint64_t number;
    uint32_t power = 0;
    bool is_below;
    if (!is_metres(word, &number, &is_below) || (is_below && number > 0))
        return false;
    for (; number > 9; number /= 10)
        power++;
    put(r, (uint32_t)number << 4 | power, 1);
    return true;
}

static bool take_location(struct reader *r)
{
    static const uint8_t defaults[] = {0, 0x12, 0x16, 0x13};
    uint8_t *sizes = r->out;
    memcpy(sizes, defaults, 4);
    r->len = 4;
    if (!take_angle(r, 90, "NS") || !take_angle(r, 180, "EW") || !put_altitude(r, take_word(r)))
        return false;
    skip_blanks(r);
    for (size_t i = 1; i < 4 && r->left.len > 0; i++) {
        if (!put_precision(r, take_word(r)))
            return false;
        sizes[i] = r->out[--r->len];
        skip_blanks(r);
    }
    return true;
}

/* ---- other forms */

/* RFC 3123, section 5; zeros at the end of an address are left out (section 4). */
static bool put_prefix(struct reader *r, struct part word)
{
    uint64_t family, bits;
    uint32_t negates = word.len > 0 && word.bytes[0] == '!' ? 0x80 : 0;
    if (negates > 0)
        word = (struct part){word.bytes + 1, word.len - 1};
    if (!is_number(cut_at(&word, ':'), UINT16_MAX, &family) || family < 1 || family > 2)
        return false;
    size_t at = r->len;
    put(r, (uint32_t)family, 2);
    put(r, 0, 2);
    if (!put_address(r, cut_at(&word, '/'), family == 1 ? 4 : 16) || !is_number(word, family == 1 ? 32 : 128, &bits))
        return false;
    while (r->len > at + 4 && r->out[r->len - 1] == 0)
        r->len--;
    r->out[at + 2] = (uint8_t)bits;
    r->out[at + 3] = (uint8_t)(negates | (r->len - at - 4));
    return true;
}

static bool take_prefix(struct reader *r)
{
    return put_prefix(r, take_word(r));
}

/* What a gateway or a relay of a type is: nothing, an address or a name. */
static bool take_end(struct reader *r, uint8_t type)
{
    if (type == 3)
        return take_name(r);
    struct part word = take_word(r);
    return type == 0 ? word.len == 1 && word.bytes[0] == '.' : type < 3 && put_address(r, word, type == 1 ? 4 : 16);
}

/* RFC 4025, section 3.1: the type, an algorithm and the gateway. */
static bool take_gateway(struct reader *r)
{
    return take_number(r, UINT8_MAX, 1) && take_number(r, UINT8_MAX, 1) && take_end(r, r->out[r->len - 2]);
}

/* RFC 8777, section 4.3: whether discovery is optional, the type and the relay. The first is a bit of the octet of the type. */
static bool take_relay(struct reader *r)
{
    if (!take_number(r, 1, 1) || !take_number(r, UINT8_MAX, 1))
        return false;
    uint8_t type = r->out[--r->len];
    r->out[r->len - 1] = (uint8_t)(r->out[r->len - 1] << 7 | type);
    return take_end(r, type);
}

/* RFC 8005, section 6. The lengths are the first octet, and the third and fourth. */
static bool take_identity(struct reader *r)
{
    put(r, 0, 1);
    if (!take_number(r, UINT8_MAX, 1))
        return false;
    put(r, 0, 2);
    if (!put_hex(r, take_word(r), "") || r->len == 4 || r->len > 4 + UINT8_MAX)
        return false;
    size_t tag_len = r->len - 4;
    if (!put_base64(r, take_word(r)) || r->len == 4 + tag_len)
        return false;
    size_t key_len = r->len - 4 - tag_len;
    r->out[0] = (uint8_t)tag_len;
    r->out[2] = (uint8_t)(key_len >> 8);
    r->out[3] = (uint8_t)key_len;
    return true;
}

/* RFC 1706, section 5. */
static bool take_nsap(struct reader *r)
{
    struct part word = take_word(r);
    return word.len >= 2 && memcmp(word.bytes, "0x", 2) == 0 && put_hex(r, (struct part){word.bytes + 2, word.len - 2}, ".");
}

/* RFC 6742, sections 2.1.2 and 2.3.2. */
static bool take_locator(struct reader *r)
{
    struct part word = take_word(r);
    for (size_t i = 0; i < 4; i++) {
        struct part group = i < 3 ? cut_at(&word, ':') : word;
        uint32_t number = 0;
        for (size_t k = 0; k < group.len; k++) {
            if (k == 4 || hex_digit(group.bytes[k]) < 0)
                return false;
            number = number << 4 | (uint32_t)hex_digit(group.bytes[k]);
        }
        if (group.len == 0)
            return false;
        put(r, number, 2);
    }
    return true;
}

/* RFC 7043, sections 3.2 and 4.2. */
static bool take_pairs(struct reader *r, size_t size)
{
    struct part word = take_word(r);
    if (word.len != 3 * size - 1)
        return false;
    for (size_t i = 0; i < size; i++) {
        struct part pair = {word.bytes + 3 * i, 2};
        if ((i > 0 && pair.bytes[-1] != '-') || !put_hex(r, pair, ""))
            return false;
    }
    return true;
}

/* The number of a node in 64 bits (the template IPN of the registry). */
static bool take_node(struct reader *r)
{
    uint64_t number;
    if (!is_number(take_word(r), UINT64_MAX, &number))
        return false;
    put(r, (uint32_t)(number >> 32), 4);
    put(r, (uint32_t)number, 4);
    return true;
}

/* ---- numbers that have other forms too */

/* The times of SOA: seconds, or numbers that each have a unit. */
static bool take_period(struct reader *r)
{
    static const char units[] = "smhdwSMHDW";
    static const uint32_t seconds[] = {1, 60, 3600, 86400, 604800};
    struct part word = take_word(r);
    uint64_t total = 0;
    bool has_units = false;
    for (size_t at = 0, digits; at < word.len; at += digits + 1) {
        uint64_t number;
        for (digits = 0; at + digits < word.len && is_digit(word.bytes[at + digits]); digits++)
            ;
        if (!is_number((struct part){word.bytes + at, digits}, UINT32_MAX, &number))
            return false;
        bool is_last = at + digits == word.len;
        const char *unit = is_last || word.bytes[at + digits] == 0 ? NULL : strchr(units, word.bytes[at + digits]);
        if (unit == NULL && (!is_last || has_units))
            return false;
        has_units = true;
        total += number * (unit == NULL ? 1 : seconds[(unit - units) % 5]);
        if (total > UINT32_MAX)
            return false;
    }
    put(r, (uint32_t)total, 4);
    return word.len > 0;
}

struct mnemonic {
    const char *name;
    uint32_t number;
};

/* IANA's "DNS Security Algorithm Numbers", and three that BIND prints. */
static const struct mnemonic algorithms[] = {
    {"RSAMD5", 1}, {"DH", 2}, {"DSA", 3}, {"RSASHA1", 5}, {"DSA-NSEC3-SHA1", 6}, {"NSEC3DSA", 6}, {"RSASHA1-NSEC3-SHA1", 7},
    {"NSEC3RSASHA1", 7}, {"RSASHA256", 8}, {"RSASHA512", 10}, {"ECC-GOST", 12}, {"ECCGOST", 12}, {"ECDSAP256SHA256", 13},
    {"ECDSAP384SHA384", 14}, {"ED25519", 15}, {"ED448", 16}, {"SM2SM3", 17}, {"ECC-GOST12", 23}, {"INDIRECT", 252},
    {"PRIVATEDNS", 253}, {"PRIVATEOID", 254}, {NULL, 0}};

/* RFC 4398, section 2.1. */
static const struct mnemonic certificates[] = {{"PKIX", 1}, {"SPKI", 2}, {"PGP", 3}, {"IPKIX", 4}, {"ISPKI", 5}, {"IPGP", 6}, {"ACPKIX", 7},
                                               {"IACPKIX", 8}, {"URI", 253}, {"OID", 254}, {NULL, 0}};

/* RFC 9859, section 2.1. */
static const struct mnemonic schemes[] = {{"NOTIFY", 1}, {NULL, 0}};

/* Some of IANA's "Protocol Numbers", and of its "Service Name and Transport Protocol Port Numbers". */
static const struct mnemonic protocols[] = {{"ICMP", 1}, {"IGMP", 2}, {"GGP", 3}, {"TCP", 6}, {"EGP", 8}, {"UDP", 17}, {NULL, 0}};
static const struct mnemonic services[] = {
    {"ECHO", 7}, {"DISCARD", 9}, {"SYSTAT", 11}, {"DAYTIME", 13}, {"NETSTAT", 15}, {"QOTD", 17}, {"CHARGEN", 19}, {"FTP-DATA", 20},
    {"FTP", 21}, {"SSH", 22}, {"TELNET", 23}, {"SMTP", 25}, {"TIME", 37}, {"WHOIS", 43}, {"DOMAIN", 53}, {"BOOTPS", 67}, {"BOOTPC", 68},
    {"TFTP", 69}, {"GOPHER", 70}, {"FINGER", 79}, {"HTTP", 80}, {"KERBEROS", 88}, {"POP3", 110}, {"SUNRPC", 111}, {"AUTH", 113},
    {"NNTP", 119}, {"NTP", 123}, {"IMAP2", 143}, {"SNMP", 161}, {"BGP", 179}, {"LDAP", 389}, {"HTTPS", 443}, {NULL, 0}};

/* A number in decimal, or one of these names in upper or lower case. */
static bool take_named(struct reader *r, const struct mnemonic *names, uint32_t most, size_t size)
{
    struct part word = take_word(r);
    uint64_t number;
    if (is_number(word, most, &number)) {
        put(r, (uint32_t)number, size);
        return true;
    }
    for (; names->name != NULL; names++) {
        size_t at = 0;
        while (at < word.len && names->name[at] != 0 &&
               (word.bytes[at] >= 'a' && word.bytes[at] <= 'z' ? word.bytes[at] - 32 : word.bytes[at]) == names->name[at])
            at++;
        if (at == word.len && names->name[at] == 0) {
            put(r, names->number, size);
            return true;
        }
    }
    return false;
}

/* The number of a field of a type. */
static bool take_number_of(struct reader *r, uint16_t type, uint32_t number, size_t size)
{
    static const uint16_t second[] = {24, 43, 46, 59, 32768, 32769}, third[] = {25, 37, 48, 57, 60};
    uint32_t most = size == 4 ? UINT32_MAX : size == 2 ? UINT16_MAX : UINT8_MAX;
    if (type == DNW_TYPE_SOA && number >= 4)
        return take_period(r);
    if (type == DNW_TYPE_CERT && number == 1)
        return take_named(r, certificates, most, size);
    if (type == DNW_TYPE_DSYNC && number == 2)
        return take_named(r, schemes, most, size);
    if (type == DNW_TYPE_WKS && number == 2)
        return take_named(r, protocols, most, size);
    if ((number == 2 && is_among(type, second, sizeof second / sizeof *second)) ||
        (number == 3 && is_among(type, third, sizeof third / sizeof *third)))
        return take_named(r, algorithms, most, size);
    return take_number(r, most, size);
}

/* RFC 4034, section 3.2: YYYYMMDDHHmmSS, and only that has 14 digits, or seconds. */
static bool take_time(struct reader *r)
{
    static const uint32_t days_in[] = {31, 28, 31, 30, 31, 30, 31, 31, 30, 31, 30, 31};
    struct part word = take_word(r);
    uint64_t parts[6], days = 0, number;
    if (word.len != 14) {
        if (!is_number(word, UINT32_MAX, &number))
            return false;
        put(r, (uint32_t)number, 4);
        return true;
    }
    for (size_t i = 0, at = 0; i < 6; at += i == 0 ? 4 : 2, i++)
        if (!is_number((struct part){word.bytes + at, i == 0 ? 4 : 2}, 9999, &parts[i]))
            return false;
    bool is_leap = parts[0] % 4 == 0 && (parts[0] % 100 != 0 || parts[0] % 400 == 0);
    if (parts[0] < 1970 || parts[1] < 1 || parts[1] > 12 || parts[2] < 1 ||
        parts[2] > days_in[parts[1] - 1] + (is_leap && parts[1] == 2) || parts[3] > 23 || parts[4] > 59 || parts[5] > 59)
        return false;
    for (uint64_t year = 1970; year < parts[0]; year++)
        days += year % 4 == 0 && (year % 100 != 0 || year % 400 == 0) ? 366 : 365;
    for (uint64_t month = 1; month < parts[1]; month++)
        days += days_in[month - 1] + (is_leap && month == 2);
    number = (days + parts[2] - 1) * 86400 + parts[3] * 3600 + parts[4] * 60 + parts[5];
    put(r, (uint32_t)number, 4);
    return number <= UINT32_MAX;
}

/* ---- strings, and octets after their number */

/* RFC 8659, section 4.1.1. */
static bool put_tag(struct reader *r, struct part word)
{
    for (size_t i = 0; i < word.len; i++) {
        uint8_t c = word.bytes[i];
        if (!is_digit(c) && !((c | 32) >= 'a' && (c | 32) <= 'z'))
            return false;
        put(r, c, 1);
    }
    return word.len > 0;
}

/* RFC 5155, section 3.3: hexadecimal, or `-` for none. */
static bool put_salt(struct reader *r, struct part word)
{
    if (word.len == 1 && word.bytes[0] == '-')
        return true;
    return word.len > 0 && put_hex(r, word, "");
}

/* RFC 5155, section 3.3: base 32 with the extended alphabet (RFC 4648, section 7) and without padding. */
static bool put_hash(struct reader *r, struct part word)
{
    uint32_t held = 0, bits = 0;
    for (size_t i = 0; i < word.len; i++) {
        uint8_t c = word.bytes[i];
        uint32_t letter = (uint32_t)(c | 32) - 'a';
        if (!is_digit(c) && !(c >= 'A' && letter < 22))
            return false;
        held = held << 5 | (is_digit(c) ? (uint32_t)(c - '0') : 10 + letter);
        bits += 5;
        if (bits >= 8) {
            bits -= 8;
            put(r, held >> bits & 0xFF, 1);
        }
        held &= 0xFF;
    }
    return word.len > 0 && bits < 5 && (held & ((1u << bits) - 1)) == 0;
}

static bool take_string(struct reader *r)
{
    return take_counted(r, put_string);
}

static bool take_strings(struct reader *r)
{
    size_t at = r->len;
    return take_each(r, take_string) && r->len > at;
}

static bool take_type(struct reader *r)
{
    uint16_t code;
    if (!take_code(r, &code))
        return false;
    put(r, code, 2);
    return true;
}

/* RFC 4034, section 4.1.2: windows ascend, and have no zeros at their end. */
static bool take_bitmap(struct reader *r)
{
    static uint8_t windows[256][32];
    memset(windows, 0, sizeof windows);
    for (skip_blanks(r); r->left.len > 0; skip_blanks(r)) {
        uint16_t code;
        if (!take_code(r, &code))
            return false;
        windows[code >> 8][code % 256 / 8] |= (uint8_t)(0x80 >> code % 8);
    }
    for (uint32_t window = 0; window < 256; window++) {
        size_t size = 32;
        while (size > 0 && windows[window][size - 1] == 0)
            size--;
        if (size > 0) {
            put(r, window << 8 | (uint32_t)size, 2);
            memcpy(r->out + r->len, windows[window], size);
            r->len += size;
        }
    }
    return true;
}

/* ---- service parameters (RFC 9460) */

static bool is_key(struct part word, uint32_t *key, bool *is_named)
{
    static const char *const names[] = {"mandatory", "alpn", "no-default-alpn", "port", "ipv4hint", "ech", "ipv6hint"};
    for (*key = 0; *key < 7; ++*key)
        if (strlen(names[*key]) == word.len && memcmp(names[*key], word.bytes, word.len) == 0) {
            *is_named = true;
            return true;
        }
    uint64_t number;
    *is_named = false;
    if (word.len < 4 || memcmp(word.bytes, "key", 3) != 0 || (word.bytes[3] == '0' && word.len > 4) ||
        !is_number((struct part){word.bytes + 3, word.len - 3}, UINT16_MAX, &number))
        return false;
    *key = (uint32_t)number;
    return true;
}

/* The first item of a list, without its escapes (appendix A.1). */
static bool take_item(struct part *list, uint8_t *item, size_t *len)
{
    *len = 0;
    for (; list->len > 0 && list->bytes[0] != ','; list->bytes++, list->len--) {
        if (list->bytes[0] == '\\') {
            list->bytes++;
            list->len--;
            if (list->len == 0 || (list->bytes[0] != '\\' && list->bytes[0] != ','))
                return false;
        }
        item[(*len)++] = list->bytes[0];
    }
    return true;
}

/* An item of the list that is the value of a key: a key, an identifier of a protocol, or an address. */
static bool put_item(struct reader *r, uint32_t of, struct part item)
{
    if (of == 4 || of == 6)
        return put_address(r, item, of == 4 ? 4 : 16);
    if (of == 1) {
        put(r, (uint32_t)item.len & 0xFF, 1);
        memcpy(r->out + r->len, item.bytes, item.len);
        r->len += item.len;
        return item.len > 0 && item.len < 256;
    }
    uint32_t key;
    bool is_named;
    if (!is_key(item, &key, &is_named) || key == 0)
        return false;
    put(r, key, 2);
    return true;
}

/* Sorts the keys of two octets each, and says whether each is there once. */
static bool sort_keys(uint8_t *keys, size_t len)
{
    for (size_t i = 2; i < len; i += 2)
        for (size_t k = i; k >= 2; k -= 2) {
            uint32_t left = model_number(keys + k - 2, 2), right = model_number(keys + k, 2);
            if (left == right)
                return false;
            if (left < right)
                break;
            memcpy(keys + k - 2, (uint8_t[]){(uint8_t)(right >> 8), (uint8_t)right, (uint8_t)(left >> 8), (uint8_t)left}, 4);
        }
    return true;
}

/* Sections 7 and 8, and base 64 for ECH: the octets of a value of a key by its name. */
static bool put_value(struct reader *r, uint32_t key, struct part value)
{
    uint64_t number;
    size_t start = r->len;
    if (key == 2)
        return value.len == 0;
    if (key == 5)
        return value.len > 0 && (memchr(value.bytes, ' ', value.len) == NULL && memchr(value.bytes, '\t', value.len) == NULL &&
                                 memchr(value.bytes, '\n', value.len) == NULL && memchr(value.bytes, '\r', value.len) == NULL) &&
               put_base64(r, value);
    if (key == 3) {
        if (!is_number(value, UINT16_MAX, &number))
            return false;
        put(r, (uint32_t)number, 2);
        return true;
    }
    for (;;) {
        uint8_t item[4096];
        size_t len;
        if (!take_item(&value, item, &len) || !put_item(r, key, (struct part){item, len}))
            return false;
        if (value.len == 0)
            break;
        value = (struct part){value.bytes + 1, value.len - 1};
    }
    return key > 0 || sort_keys(r->out + start, r->len - start);
}

/* Section 2.1: a key, and a value after a `=`. */
static bool take_param(struct reader *r)
{
    static uint8_t octets[65536];
    struct part word = {r->left.bytes, 0}, value = {NULL, 0};
    uint32_t key;
    bool is_named, has_value;
    while (word.len < r->left.len && !is_blank(word.bytes[word.len]) && word.bytes[word.len] != '=' &&
           (word.bytes[word.len] == 0 || strchr("\"();", word.bytes[word.len]) == NULL))
        word.len++;
    r->left = (struct part){word.bytes + word.len, r->left.len - word.len};
    has_value = r->left.len > 0 && r->left.bytes[0] == '=';
    struct reader at = {r->left, r->origin, octets, 0};
    if (has_value) {
        r->left = (struct part){r->left.bytes + 1, r->left.len - 1};
        if (r->left.len == 0 || is_blank(r->left.bytes[0]))
            return false;
        value = take_word(r);
        if (!put_string(&at, value))
            return false;
    }
    if (!is_key(word, &key, &is_named))
        return false;
    put(r, key, 2);
    size_t start = r->len;
    put(r, 0, 2);
    if (is_named && !put_value(r, key, (struct part){octets, at.len}))
        return false;
    if (!is_named) {
        memcpy(r->out + r->len, octets, at.len);
        r->len += at.len;
    }
    size_t len = r->len - start - 2;
    r->out[start] = (uint8_t)(len >> 8);
    r->out[start + 1] = (uint8_t)len;
    return len <= UINT16_MAX;
}

/* Section 2.2: on the wire keys ascend, each once; and section 8. */
static bool take_params(struct reader *r)
{
    static uint8_t sorted[65536];
    size_t start = r->len, len = 0;
    if (!take_each(r, take_param))
        return false;
    for (uint32_t key = 0; key <= UINT16_MAX && len < r->len - start; key++) {
        bool is_there = false;
        for (size_t at = start, size; at < r->len; at += size) {
            size = 4 + model_number(r->out + at + 2, 2);
            if (model_number(r->out + at, 2) != key)
                continue;
            if (is_there)
                return false;
            is_there = true;
            memcpy(sorted + len, r->out + at, size);
            len += size;
        }
    }
    memcpy(r->out + start, sorted, len);
    return are_mandatory(sorted, len);
}

/* ---- the form of any data (RFC 3597, section 5) */

static bool put_hex_words(struct reader *r, struct part text)
{
    return put_hex(r, text, " \t\r\n");
}

/* The octets are fields of a type, and no name among them is a pointer. */
static bool are_fields(uint16_t type, const uint8_t *data, size_t len)
{
    struct dnw_fields fields = {0, 0};
    struct dnw_field field;
    struct model_name name;
    do {
        size_t at = fields.offset;
        if (model_next(data, len, 0, DNW_CLASS_IN, type, &fields, &field) != DNW_DONE)
            return false;
        if (field.kind == DNW_FIELD_NAME && (model_read(data, len, at, &name) != DNW_DONE || name.len != name.end - at))
            return false;
    } while (field.kind != DNW_FIELD_END);
    return true;
}

static bool take_octets(struct reader *r, uint16_t type)
{
    uint64_t size;
    return is_number(take_word(r), UINT16_MAX, &size) && take_rest(r, put_hex_words) && r->len == size && are_fields(type, r->out, r->len);
}

/* ---- fields */

/* Octets up to the end, in hexadecimal or base 64. */
static bool take_octets_of(struct reader *r, uint16_t type)
{
    static const uint16_t keys[] = {24, 25, 37, 45, 46, 48, 49, 57, 60, 61, 67, 68};
    if (type == DNW_TYPE_NSAP)
        return take_nsap(r);
    return take_rest(r, is_among(type, keys, sizeof keys / sizeof *keys) ? put_base64 : put_hex_words);
}

/* Ports, or types below 128 but 0, up to the end: the bit of each, in as few octets as have them all. */
static bool take_bits(struct reader *r, uint16_t type)
{
    static uint8_t bits[8192];
    size_t len = 0;
    memset(bits, 0, sizeof bits);
    for (skip_blanks(r); r->left.len > 0; skip_blanks(r)) {
        if (!(type == DNW_TYPE_WKS ? take_named(r, services, UINT16_MAX, 2) : take_type(r)))
            return false;
        r->len -= 2;
        size_t bit = model_number(r->out + r->len, 2);
        if (type == DNW_TYPE_NXT && (bit < 1 || bit > 127))
            return false;
        bits[bit / 8] |= (uint8_t)(0x80 >> bit % 8);
        len = len > bit / 8 ? len : bit / 8 + 1;
    }
    memcpy(r->out + r->len, bits, len);
    r->len += len;
    return true;
}

static bool take_field(struct reader *r, uint16_t type, char letter, uint32_t number)
{
    switch (letter) {
    case 'n': return take_name(r);
    case '1': case '2': case '4': return take_number_of(r, type, number, (size_t)(letter - '0'));
    case '6': case '8': return take_pairs(r, (size_t)(letter - '0'));
    case 'i': return put_address(r, take_word(r), 4);
    case 'I': return put_address(r, take_word(r), 16);
    case 't': return take_type(r);
    case 'T': return take_time(r);
    case 'Y': return type == DNW_TYPE_IPN ? take_node(r) : take_locator(r);
    case 's': return take_counted(r, type == DNW_TYPE_CAA ? put_tag : put_string);
    case 'c': return take_counted(r, number == 5 ? put_hash : put_salt);
    case 'x': return put_string(r, take_word(r));
    case 'o': return take_octets_of(r, type);
    case 'S': return take_strings(r);
    case 'B': return take_bitmap(r);
    case 'b': return take_bits(r, type);
    case 'P': return take_params(r);
    case 'A': return take_each(r, take_prefix);
    case 'N': return take_each(r, take_name);
    case 'L': return take_location(r);
    case 'G': return take_gateway(r);
    case 'R': return take_relay(r);
    case 'H': return take_identity(r);
    }
    return false;
}

/* The types that have the form of any data alone: those of octets without more, and those with a field that has no text. */
static bool has_own_form(uint16_t type, const char *row)
{
    static const uint16_t known[] = {22, 49, 61, 67, 68};
    return strpbrk(row, "VwXC") == NULL && type != DNW_TYPE_DOA && (strcmp(row, "o") != 0 || is_among(type, known, sizeof known / sizeof *known));
}

bool model_data_text(uint16_t type, struct part text, struct part origin, uint8_t *out, size_t *len)
{
    const char *row = model_fields_of(DNW_CLASS_IN, type, NULL, 0);
    struct reader r = {text, origin, out, 0};
    struct part first = take_word(&r);
    if (first.len == 2 && memcmp(first.bytes, "\\#", 2) == 0) {
        if (!take_octets(&r, type))
            return false;
    } else {
        r = (struct reader){text, origin, out, 0};
        if (!has_own_form(type, row))
            return false;
        for (size_t i = 0; row[i] != 0; i++)
            if (!take_field(&r, type, row[i], (uint32_t)i + 1))
                return false;
    }
    skip_blanks(&r);
    *len = r.len;
    return r.left.len == 0;
}
