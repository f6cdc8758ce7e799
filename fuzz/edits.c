/* Joins names, puts labels before them, cuts them and makes wildcards of them. The first two octets of the input are the
   lengths of the first two parts, and the rest is the third. The answers are the model's, octet for octet. */
#include "harness.h"

static struct room names, others, results;

/* Puts labels, as they are in a wire form, after those of a name, if they fit in one. */
static bool add_labels(struct model_name *name, const uint8_t *labels, size_t len)
{
    if (name->len - 1 + len + 1 > DNW_FORM_SIZE)
        return false;
    memcpy(name->form + name->len - 1, labels, len);
    name->len += len;
    name->form[name->len - 1] = 0;
    return true;
}

static const struct model_name root = {{0}, 1, 1};

static uint32_t model_prepend(struct part label, const struct model_name *name, struct model_name *joined)
{
    uint8_t octets[64] = {(uint8_t)label.len};
    if (label.len == 0)
        return DNW_BAD_TEXT;
    if (label.len > 63)
        return DNW_LABEL_TOO_LONG;
    memcpy(octets + 1, label.bytes, label.len);
    *joined = root;
    bool fits = add_labels(joined, octets, 1 + label.len) && add_labels(joined, name->form, name->len - 1);
    return fits ? DNW_DONE : DNW_NAME_TOO_LONG;
}

/* The offset of the last `labels` labels. */
static size_t last_labels(const struct model_name *name, size_t labels)
{
    size_t count = 0, at = 0;
    for (size_t i = 0; name->form[i] != 0; i += 1u + name->form[i])
        count += 1;
    for (; count > labels; count--)
        at += 1u + name->form[at];
    return at;
}

/* The result of a call is put into a buffer of just its size, and refused by one that is shorter by a byte. */
#define GIVES(answer, wanted, call)                                                     \
    do {                                                                                \
        size_t size = (answer) == DNW_DONE ? (wanted).len : DNW_FORM_SIZE, len = 7;     \
        uint8_t *form = clear(&results, size);                                          \
        refuse(1);                                                                      \
        CHECK((call) == (answer) && !was_refused());                                    \
        if ((answer) != DNW_DONE) {                                                     \
            CHECK(len == 7 && untouched(form, size));                                   \
        } else {                                                                        \
            CHECK(len == size && holds(form, size, (wanted).form, size));               \
            len = 7;                                                                    \
            form = clear(&results, --size);                                             \
            CHECK((call) == DNW_NO_ROOM && len == 7 && untouched(form, size));          \
        }                                                                               \
    } while (0)

static void joins(struct part left, struct part right)
{
    struct model_name name, suffix, joined;
    const uint8_t *l = put_at_end(&names, left.bytes, left.len), *r = put_at_end(&others, right.bytes, right.len);
    uint32_t answer = model_form(l, left.len, &name);
    if (answer == DNW_DONE)
        answer = model_form(r, right.len, &suffix);
    if (answer == DNW_DONE) {
        joined = name;
        answer = add_labels(&joined, suffix.form, suffix.len - 1) ? DNW_DONE : DNW_NAME_TOO_LONG;
    }
    GIVES(answer, joined, dnw_name_append(l, left.len, r, right.len, form, size, &len));
    answer = model_form(r, right.len, &suffix);
    if (answer == DNW_DONE)
        answer = model_prepend(left, &suffix, &joined);
    GIVES(answer, joined, dnw_name_prepend_label(l, left.len, r, right.len, form, size, &len));
}

static void cuts(struct part part, size_t labels)
{
    struct model_name name, cut = root, wild = root;
    const uint8_t *form_in = put_at_end(&names, part.bytes, part.len);
    uint32_t answer = model_form(form_in, part.len, &name);
    if (answer == DNW_DONE) {
        size_t from = last_labels(&name, labels), rest = 1u + name.form[0];
        CHECK(add_labels(&cut, name.form + from, name.len - 1 - from));
        if (name.len > 1)
            CHECK(add_labels(&wild, (const uint8_t *)"\001*", 2) &&
                  add_labels(&wild, name.form + rest, name.len - 1 - rest));
    }
    GIVES(answer, cut, dnw_name_trim(form_in, part.len, labels, form, size, &len));
    GIVES(answer, wild, dnw_name_to_wildcard(form_in, part.len, form, size, &len));
}

int LLVMFuzzerTestOneInput(const uint8_t *data, size_t size)
{
    struct part parts[3];
    if (!cut_in_three(data, size, parts))
        return 0;
    for (size_t i = 0; i < 3; i++) {
        for (size_t j = 0; j < 3; j++)
            joins(parts[i], parts[j]);
        for (size_t labels = 0; labels <= 4; labels++)
            cuts(parts[i], labels);
        cuts(parts[i], SIZE_MAX);
    }
    return 0;
}
