#include "word_reading.h"

#include <arpa/inet.h>

bool is_blank(uint8_t c)
{
    return c == ' ' || c == '\t' || c == '\r' || c == '\n';
}

bool is_digit(uint8_t c)
{
    return c >= '0' && c <= '9';
}

void put(struct reader *r, uint32_t number, size_t size)
{
    for (size_t i = size; i > 0; i--)
        r->out[r->len++] = (uint8_t)(number >> 8 * (i - 1));
}

void skip_blanks(struct reader *r)
{
    while (r->left.len > 0 && is_blank(r->left.bytes[0])) {
        r->left.bytes++;
        r->left.len--;
    }
}

/* The next word, which may be in quotes; without any it ends before white space, a quote, a parenthesis or a semicolon. An octet after a
   backslash is of the word. */
struct part take_word(struct reader *r)
{
    skip_blanks(r);
    struct part word = {r->left.bytes, 0};
    bool is_quoted = r->left.len > 0 && word.bytes[0] == '"';
    if (is_quoted)
        word.len = 1;
    while (word.len < r->left.len) {
        uint8_t c = word.bytes[word.len];
        if (c == '"' && is_quoted) {
            word.len++;
            break;
        }
        if (!is_quoted && (is_blank(c) || strchr("\"();", c) != NULL) && c != 0)
            break;
        word.len += c == '\\' && word.len + 1 < r->left.len ? 2 : 1;
    }
    r->left.bytes += word.len;
    r->left.len -= word.len;
    return word;
}

/* The part of a text before a character and that after it; all of it and nothing if the character is not there. */
struct part cut_at(struct part *text, uint8_t c)
{
    const uint8_t *at = text->len == 0 ? NULL : memchr(text->bytes, c, text->len);
    size_t len = at == NULL ? text->len : (size_t)(at - text->bytes);
    struct part first = {text->bytes, len};
    *text = at == NULL ? (struct part){text->bytes + len, 0} : (struct part){at + 1, text->len - len - 1};
    return first;
}

/* Digits up to a number; leading zeros count nothing. */
bool is_number(struct part word, uint64_t most, uint64_t *number)
{
    *number = 0;
    for (size_t i = 0; i < word.len; i++) {
        if (!is_digit(word.bytes[i]))
            return false;
        uint64_t digit = (uint64_t)(word.bytes[i] - '0');
        if (digit > most || *number > (most - digit) / 10)
            return false;
        *number = 10 * *number + digit;
    }
    return word.len > 0;
}

bool take_number(struct reader *r, uint32_t most, size_t size)
{
    uint64_t number;
    if (!is_number(take_word(r), most, &number))
        return false;
    put(r, (uint32_t)number, size);
    return true;
}

int hex_digit(uint8_t c)
{
    static const char digits[] = "0123456789abcdef";
    const char *at = c == 0 ? NULL : strchr(digits, c >= 'A' && c <= 'F' ? c + 32 : c);
    return at == NULL ? -1 : (int)(at - digits);
}

/* RFC 4648, section 8: pairs of digits. Characters of `between` mean nothing. */
bool put_hex(struct reader *r, struct part text, const char *between)
{
    uint32_t count = 0, octet = 0;
    for (size_t i = 0; i < text.len; i++) {
        uint8_t c = text.bytes[i];
        if (c != 0 && strchr(between, c) != NULL)
            continue;
        if (hex_digit(c) < 0)
            return false;
        octet = octet << 4 | (uint32_t)hex_digit(c);
        if (++count % 2 == 0)
            put(r, octet & 0xFF, 1);
    }
    return count % 2 == 0;
}

/* RFC 4648, section 4: the one text that octets have, with white space in it that means nothing. */
bool put_base64(struct reader *r, struct part text)
{
    static const char symbols[] = "ABCDEFGHIJKLMNOPQRSTUVWXYZabcdefghijklmnopqrstuvwxyz0123456789+/";
    uint32_t held = 0, bits = 0, count = 0, pads = 0;
    for (size_t i = 0; i < text.len; i++) {
        uint8_t c = text.bytes[i];
        if (is_blank(c))
            continue;
        const char *at = c == 0 ? NULL : strchr(symbols, c);
        if (c == '=' ? ++pads > 2 : at == NULL || pads > 0)
            return false;
        count++;
        if (c == '=')
            continue;
        held = held << 6 | (uint32_t)(at - symbols);
        bits += 6;
        if (bits >= 8) {
            bits -= 8;
            put(r, held >> bits & 0xFF, 1);
        }
        held &= 0xFF;
    }
    return count % 4 == 0 && bits < 6 && (held & ((1u << bits) - 1)) == 0 && pads == (bits == 4 ? 2 : bits == 2 ? 1 : 0);
}

/* An address of four octets, or of 16. */
bool put_address(struct reader *r, struct part word, size_t size)
{
    char text[64];
    if (word.len >= sizeof text || (word.len > 0 && memchr(word.bytes, 0, word.len) != NULL))
        return false;
    memcpy(text, word.bytes, word.len);
    text[word.len] = 0;
    if (inet_pton(size == 4 ? AF_INET : AF_INET6, text, r->out + r->len) != 1)
        return false;
    r->len += size;
    return true;
}

/* The name that a word is with an origin. `\#` begins a name here, and the form of any data in a CNAME. */
bool take_name(struct reader *r)
{
    struct part word = take_word(r);
    size_t len;
    if (word.len >= 2 && word.bytes[0] == '\\' && word.bytes[1] == '#')
        word = (struct part){word.bytes + 1, word.len - 1};
    if (word.len == 0 || dnw_data_parse(DNW_TYPE_CNAME, DNW_CLASS_IN, word.bytes, word.len, r->origin.bytes, r->origin.len, r->out + r->len,
                                        DNW_FORM_SIZE, &len) != DNW_DONE)
        return false;
    r->len += len;
    return true;
}

/* RFC 1035, section 5.1: in quotes or not, any octet stands for itself, but a backslash for three digits after it, or for one other
   octet. */
bool put_string(struct reader *r, struct part word)
{
    bool is_quoted = word.len > 0 && word.bytes[0] == '"';
    size_t at = is_quoted ? 1 : 0;
    for (; at < word.len && !(is_quoted && word.bytes[at] == '"'); at++) {
        uint32_t octet = word.bytes[at];
        if (octet == '\\') {
            uint64_t number;
            if (++at == word.len)
                return false;
            octet = word.bytes[at];
            if (is_digit(word.bytes[at])) {
                if (word.len - at < 3 || !is_number((struct part){word.bytes + at, 3}, UINT8_MAX, &number))
                    return false;
                octet = (uint32_t)number;
                at += 2;
            }
        }
        put(r, octet, 1);
    }
    return is_quoted ? at + 1 == word.len : word.len > 0;
}

bool take_each(struct reader *r, bool (*take)(struct reader *))
{
    for (skip_blanks(r); r->left.len > 0; skip_blanks(r))
        if (!take(r))
            return false;
    return true;
}

bool take_rest(struct reader *r, bool (*put_text)(struct reader *, struct part))
{
    struct part rest = r->left;
    r->left.len = 0;
    return put_text(r, rest);
}

/* A word that is octets after their number. */
bool take_counted(struct reader *r, bool (*put_text)(struct reader *, struct part))
{
    size_t at = r->len;
    put(r, 0, 1);
    if (!put_text(r, take_word(r)) || r->len - at - 1 > UINT8_MAX)
        return false;
    r->out[at] = (uint8_t)(r->len - at - 1);
    return true;
}
