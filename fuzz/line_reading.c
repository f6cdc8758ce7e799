#include "line_reading.h"

uint32_t model_scan(struct part text, uint8_t *line, size_t *len)
{
    bool is_quoted = false, is_escaped = false, is_comment = false;
    unsigned open = 0;
    size_t at = 0;
    for (; at < text.len; at++) {
        uint8_t c = text.bytes[at];
        bool is_end = c == '\n' || c == '\r', is_kept = !is_comment, is_grouped = open > 0;
        if (is_comment) {
            if (c == '\n' && !is_grouped)
                break;
            is_comment = c != '\n';
        } else if (is_escaped) {
            if (is_end && !is_quoted)
                return DNW_TEXT_CUT;
            is_escaped = false;
        } else if (is_quoted) {
            if (c == '\n')
                return DNW_UNCLOSED_QUOTE;
            is_quoted = c != '"';
            is_escaped = c == '\\';
        } else if (is_end && !is_grouped) {
            break;
        } else if (c == '(' || c == ')') {
            if (c == '(' ? open == 255 : open == 0)
                return DNW_ILLEGAL_CHARACTER;
            open = c == '(' ? open + 1 : open - 1;
            is_kept = false;
        } else {
            is_comment = c == ';';
            is_quoted = c == '"';
            is_escaped = c == '\\';
            is_kept = !is_end && !is_comment;
        }
        line[at] = is_kept ? c : ' ';
    }
    *len = at;
    if (at == text.len && (is_quoted || is_escaped))
        return is_quoted ? DNW_UNCLOSED_QUOTE : DNW_TEXT_CUT;
    if (at == text.len && open > 0)
        return DNW_UNCLOSED_LIST;
    return DNW_DONE;
}

/* A time to live: what dnw_ttl_parse takes, but no number without a unit after others. */
bool is_ttl(struct part word, uint32_t *ttl)
{
    bool has_units = false;
    for (size_t at = 0; at < word.len; at++)
        has_units |= word.bytes[at] > '9';
    if (has_units && word.bytes[word.len - 1] <= '9')
        return false;
    return dnw_ttl_parse(word.bytes, word.len, ttl) == DNW_DONE;
}

static bool is_any(struct part word)
{
    return word.len == 1 && word.bytes[0] == '*';
}

static bool take_ttl(struct reader *r, struct head *head)
{
    struct reader before = *r;
    head->has_ttl = is_ttl(take_word(r), &head->ttl);
    if (!head->has_ttl)
        *r = before;
    return head->has_ttl;
}

struct head take_head(struct reader *r)
{
    struct head head = {false, false, 0, 0};
    bool is_first = take_ttl(r, &head);
    struct reader before = *r;
    struct part word = take_word(r);
    head.has_class = !is_any(word) && dnw_class_parse(word.bytes, word.len, &head.class) == DNW_DONE;
    if (!head.has_class)
        *r = before;
    if (!is_first)
        take_ttl(r, &head);
    return head;
}

bool take_code(struct reader *r, uint16_t *code)
{
    struct part word = take_word(r);
    return !is_any(word) && dnw_type_parse(word.bytes, word.len, code) == DNW_DONE;
}
