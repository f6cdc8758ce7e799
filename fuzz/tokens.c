/* Takes the tokens of a text, one after another. Each is the model's (RFC 1035, section 5.1, and the header), and so is the
   state after it; there are at most as many calls as characters, and one; each token is found again from the state before
   it, and in the text that begins there; and a buffer of just its size is enough. */
#include "harness.h"

static struct room input, again, words;

/* What stands next in a text. If `is_open`, it depends on whether a character past ASCII is a digit in Unicode. */
struct model_token {
    uint32_t kind;
    uint8_t *bytes;
    size_t len;
    size_t count;
    struct dnw_lexer after;
    bool is_open;
};

/* A text, and where in it the model is. */
struct reader {
    const uint8_t *text;
    size_t len;
    size_t at;
};

enum { NOTHING = 0x110000 };

static uint32_t look(const struct reader *r, size_t *bytes)
{
    *bytes = 0;
    return r->at < r->len ? model_character(r->text + r->at, r->len - r->at, bytes) : NOTHING;
}

static uint32_t take(struct reader *r)
{
    size_t bytes;
    uint32_t c = look(r, &bytes);
    r->at += bytes;
    return c;
}

static void add(struct model_token *token, uint32_t c)
{
    static const uint8_t marks[] = {0, 0, 0xC0, 0xE0, 0xF0};
    size_t n = c < 0x80 ? 1 : c < 0x800 ? 2 : c < 0x10000 ? 3 : 4;
    for (size_t i = n - 1; i > 0; i--, c >>= 6)
        token->bytes[token->len + i] = (uint8_t)(0x80 | (c & 63));
    token->bytes[token->len] = (uint8_t)(marks[n == 1 ? 0 : n] | c);
    token->len += n;
}

static bool is_line_end(uint32_t c)
{
    return c == '\r' || c == '\n';
}

static bool is_digit(uint32_t c)
{
    return c >= '0' && c <= '9';
}

static uint32_t line_end(struct reader *r, struct model_token *token)
{
    for (;;) {
        uint32_t c = take(r);
        if (c == '\n') {
            token->kind = DNW_TOKEN_LINE_END;
            token->after.at_line_start = true;
            return DNW_DONE;
        }
        if (c != '\r')
            return c == NOTHING ? DNW_TEXT_CUT : DNW_ILLEGAL_CHARACTER;
    }
}

static uint32_t comment(struct reader *r, struct model_token *token)
{
    size_t bytes;
    for (uint32_t c = look(r, &bytes); c != NOTHING; c = look(r, &bytes)) {
        if (is_line_end(c))
            return line_end(r, token);
        r->at += bytes;
    }
    return DNW_DONE;
}

static uint32_t word(struct reader *r, struct model_token *token)
{
    size_t bytes;
    token->kind = DNW_TOKEN_TEXT;
    token->count = 1;
    for (;; r->at += bytes) {
        uint32_t c = look(r, &bytes);
        if (c == NOTHING || c == ';' || model_is_space(c))
            return DNW_DONE;
        if (c == ')')
            return DNW_ILLEGAL_CHARACTER;
        if (model_is_control(c))
            return DNW_CONTROL_CHARACTER;
        add(token, c);
    }
}

static void end_word(struct model_token *token, bool *is_in_word)
{
    if (*is_in_word) {
        token->bytes[token->len++] = 0;
        token->count += 1;
    }
    *is_in_word = false;
}

static uint32_t list(struct reader *r, struct model_token *token)
{
    bool is_in_word = false, is_comment = false;
    token->kind = DNW_TOKEN_LIST;
    for (;;) {
        uint32_t c = take(r);
        if (c == NOTHING)
            return DNW_UNCLOSED_LIST;
        if (is_comment) {
            is_comment = !is_line_end(c);
        } else if (model_is_space(c) || c == ')' || c == ';') {
            end_word(token, &is_in_word);
            if (c == ')')
                return DNW_DONE;
            is_comment = c == ';';
        } else if (model_is_control(c)) {
            return DNW_CONTROL_CHARACTER;
        } else {
            add(token, c);
            is_in_word = true;
        }
    }
}

/* A backslash and three digits stand for the character of which they are the octets, the first above the second. */
static uint32_t escape(struct reader *r, struct model_token *token)
{
    uint32_t digits[3] = {take(r)};
    if (digits[0] == NOTHING)
        return DNW_TEXT_CUT;
    if (model_is_control(digits[0]))
        return DNW_ILLEGAL_CHARACTER;
    if (digits[0] >= 0x80)
        token->is_open = true;
    if (!is_digit(digits[0])) {
        add(token, digits[0]);
        return DNW_DONE;
    }
    for (size_t i = 1; i < 3; i++) {
        digits[i] = take(r);
        if (!is_digit(digits[i]))
            return digits[i] == NOTHING ? DNW_TEXT_CUT : DNW_ILLEGAL_CHARACTER;
    }
    add(token, (digits[0] - '0') << 16 | (digits[1] - '0') << 8 | (digits[2] - '0'));
    return DNW_DONE;
}

static uint32_t quoted(struct reader *r, struct model_token *token)
{
    token->kind = DNW_TOKEN_TEXT;
    token->count = 1;
    for (;;) {
        uint32_t c = take(r), failure = DNW_DONE;
        if (c == NOTHING)
            return DNW_UNCLOSED_QUOTE;
        if (c == '"')
            return DNW_DONE;
        if (c == '\\')
            failure = escape(r, token);
        else
            add(token, c);
        if (failure != DNW_DONE)
            return failure;
    }
}

static uint32_t control_entry(struct reader *r, struct model_token *token)
{
    static const char *const names[] = {"INCLUDE", "ORIGIN", "TTL"};
    size_t from = r->at;
    while (r->at < r->len && r->text[r->at] >= 'A' && r->text[r->at] <= 'Z')
        r->at += 1;
    for (uint32_t i = 0; i < 3; i++)
        if (strlen(names[i]) == r->at - from && memcmp(names[i], r->text + from, r->at - from) == 0) {
            token->kind = DNW_TOKEN_INCLUDE + i;
            return DNW_DONE;
        }
    return DNW_UNKNOWN_ENTRY;
}

static uint32_t entry(struct reader *r, struct model_token *token, uint32_t c, size_t bytes)
{
    if (model_is_control(c))
        return DNW_CONTROL_CHARACTER;
    if (c == ')')
        return DNW_ILLEGAL_CHARACTER;
    if (c != '@' && c != '(' && c != '$' && c != '"' && c != ';')
        return word(r, token);
    r->at += bytes;
    if (c == '@')
        token->kind = DNW_TOKEN_AT;
    return c == '@' ? DNW_DONE : c == '(' ? list(r, token) : c == '$' ? control_entry(r, token)
                                             : c == '"' ? quoted(r, token) : comment(r, token);
}

static uint32_t next(struct reader *r, struct model_token *token, bool at_line_start)
{
    size_t bytes;
    uint32_t c = look(r, &bytes);
    if (at_line_start && model_is_space(c) && !is_line_end(c)) {
        r->at += bytes;
        token->kind = DNW_TOKEN_BLANK;
        return DNW_DONE;
    }
    for (; model_is_space(c) && !is_line_end(c); c = look(r, &bytes))
        r->at += bytes;
    if (c == NOTHING)
        return DNW_DONE;
    return is_line_end(c) ? line_end(r, token) : entry(r, token, c, bytes);
}

/* Where the longest UTF-8 from an offset on ends. */
static size_t utf8_end(const uint8_t *text, size_t len, size_t at)
{
    for (size_t n = 1; n <= 4 && at + n <= len;)
        if (model_is_utf8(text + at, n))
            at += n, n = 1;
        else
            n++;
    return at;
}

/* The next token: of the UTF-8 before octets that are not, if these make no difference. */
static uint32_t next_token(const uint8_t *text, size_t len, struct dnw_lexer at, struct model_token *token)
{
    static uint8_t bytes[80000];
    size_t start = at.offset < len ? at.offset : len, end = utf8_end(text, len, start);
    struct reader r = {text, end, start};
    *token = (struct model_token){.bytes = bytes};
    uint32_t failure = next(&r, token, at.at_line_start);
    token->after.offset = r.at;
    if (end == len || failure == DNW_ILLEGAL_CHARACTER || failure == DNW_CONTROL_CHARACTER)
        return failure;
    return failure == DNW_DONE && token->kind != DNW_TOKEN_END && r.at < end ? DNW_DONE : DNW_NOT_UTF8;
}

/* Takes the next token into a buffer of a size, and compares it with one. */
static uint32_t takes(const uint8_t *text, size_t len, struct dnw_lexer *at, size_t size, const struct model_token *token)
{
    struct dnw_lexer before = *at;
    struct dnw_token given = {7, 8, 9};
    uint8_t *put = clear(&words, size);
    uint32_t answer = dnw_token_next(text, len, at, put, size, &given);
    if (answer != DNW_DONE) {
        CHECK(given.kind == 7 && given.len == 8 && given.count == 9 && untouched(put, size));
        CHECK(at->offset == before.offset && at->at_line_start == before.at_line_start);
    } else if (token != NULL) {
        CHECK(given.kind == token->kind && given.len == token->len && given.count == token->count);
        CHECK(holds(put, size, token->bytes, token->len));
        CHECK(at->offset == token->after.offset && at->at_line_start == token->after.at_line_start);
    }
    return answer;
}

static void takes_in_other_ways(const uint8_t *text, size_t len, struct dnw_lexer at, struct model_token *token)
{
    struct dnw_lexer lexer = at, rest = {0, at.at_line_start};
    CHECK(takes(text, len, &lexer, token->len, token) == DNW_DONE);
    for (size_t number = 1; number <= 2; number++) {
        lexer = at;
        refuse(number);
        uint32_t without = takes(text, len, &lexer, token->len, token);
        bool is_without = was_refused();
        CHECK(without == DNW_DONE || (is_without && without == DNW_NO_MEMORY));
    }
    lexer = at;
    if (token->len > 0)
        CHECK(takes(text, len, &lexer, token->len - 1, token) == DNW_NO_ROOM);
    if (at.offset > len)
        return;
    const uint8_t *part = put_at_start(&again, text + at.offset, len - at.offset);
    token->after.offset -= at.offset;
    CHECK(takes(part, len - at.offset, &rest, len - at.offset, token) == DNW_DONE);
    token->after.offset += at.offset;
}

/* Takes tokens from a state up to the end or a failure. */
static void takes_all(const uint8_t *text, size_t len, struct dnw_lexer at)
{
    size_t left = at.offset < len ? len - at.offset : 0;
    for (size_t calls = 1;; calls++) {
        struct model_token token;
        struct dnw_lexer before = at;
        uint32_t wanted = next_token(text, len, at, &token);
        uint32_t answer = takes(text, len, &at, left, token.is_open ? NULL : &token);
        CHECK(calls <= left + 1);
        if (token.is_open)
            CHECK(answer == wanted || answer == DNW_ILLEGAL_CHARACTER);
        else
            CHECK(answer == wanted);
        if (answer != DNW_DONE)
            return;
        if (!token.is_open)
            takes_in_other_ways(text, len, before, &token);
        if (token.kind == DNW_TOKEN_END)
            return;
    }
}

int LLVMFuzzerTestOneInput(const uint8_t *data, size_t size)
{
    const uint8_t *text = put_at_end(&input, data, size);
    takes_all(text, size, (struct dnw_lexer){0, true});
    takes_all(text, size, (struct dnw_lexer){0, false});
    takes_all(text, size, (struct dnw_lexer){size / 2, true});
    takes_all(text, size, (struct dnw_lexer){size, true});
    takes_all(text, size, (struct dnw_lexer){SIZE_MAX, true});
    CHECK(memcmp(text, data, size) == 0);
    return 0;
}
