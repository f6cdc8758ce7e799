/* Compares three names and their sort keys, and puts them in lower case. The first two octets of the input are the lengths of the first two
   wire forms, and the rest is the third. The answers are the model's, and the order is one. What follows the two octets is also
   sorted as a list of names. */
#include "harness.h"

static struct room lefts, rights, lowered, left_keys, right_keys, orders;

static int32_t compare(struct part left, struct part right)
{
    int32_t order = 7;
    uint32_t answer = dnw_name_compare(left.bytes, left.len, right.bytes, right.len, &order);
    CHECK(answer == DNW_DONE ? order >= -1 && order <= 1 : order == 7);
    return order;
}

static struct part key_of(struct room *room, struct part name)
{
    size_t len = 7;
    uint8_t *key = clear(room, DNW_SORT_KEY_SIZE);
    CHECK(dnw_name_sort_key(name.bytes, name.len, key, DNW_SORT_KEY_SIZE, &len) == DNW_DONE && len <= DNW_SORT_KEY_SIZE);
    return (struct part){key, len};
}

/* Keys are in the order of the names, and begin with the keys of zones. */
static void compares_keys(struct part left, struct part right, int32_t order, bool is_in_zone)
{
    struct part a = key_of(&left_keys, left), b = key_of(&right_keys, right);
    int first = memcmp(a.bytes, b.bytes, a.len < b.len ? a.len : b.len);
    CHECK(order == (first != 0 ? (first > 0) - (first < 0) : (a.len > b.len) - (a.len < b.len)));
    CHECK(is_in_zone == (b.len <= a.len && memcmp(a.bytes, b.bytes, b.len) == 0));
}

static void compares(struct part left, struct part right)
{
    struct model_name l, r;
    const uint8_t *a = put_at_end(&lefts, left.bytes, left.len), *b = put_at_end(&rights, right.bytes, right.len);
    uint32_t answer = model_form(a, left.len, &l);
    if (answer == DNW_DONE)
        answer = model_form(b, right.len, &r);
    int32_t order = 7;
    bool is_equal = false, is_in_zone = false;
    refuse(1);
    CHECK(dnw_name_compare(a, left.len, b, right.len, &order) == answer);
    CHECK(dnw_name_equal(a, left.len, b, right.len, &is_equal) == answer);
    CHECK(dnw_name_in_zone(a, left.len, b, right.len, &is_in_zone) == answer);
    CHECK(!was_refused());
    if (answer != DNW_DONE) {
        CHECK(order == 7 && !is_equal && !is_in_zone);
        return;
    }
    CHECK(order == model_compare(&l, &r));
    CHECK(is_equal == (order == 0));
    CHECK(is_in_zone == model_in_zone(&l, &r));
    CHECK(compare(right, left) == -order);
    compares_keys(left, right, order, is_in_zone);
}

/* A key that does not fit, or of no name, is not put. */
static void puts_no_key(struct part name)
{
    struct model_name own;
    const uint8_t *form = put_at_end(&lefts, name.bytes, name.len);
    uint32_t answer = model_form(form, name.len, &own);
    size_t size = answer == DNW_DONE ? key_of(&left_keys, name).len : DNW_SORT_KEY_SIZE, len = 7;
    if (size == 0)
        return;
    uint8_t *key = clear(&right_keys, size - 1);
    refuse(1);
    CHECK(dnw_name_sort_key(form, name.len, key, size - 1, &len) == (answer == DNW_DONE ? DNW_NO_ROOM : answer));
    CHECK(!was_refused() && untouched(key, size - 1) && len == 7);
}

static void lowers(struct part name)
{
    struct model_name own;
    const uint8_t *form = put_at_start(&lefts, name.bytes, name.len);
    uint32_t answer = model_form(form, name.len, &own);
    size_t size = answer == DNW_DONE ? own.len : DNW_FORM_SIZE, len = 7;
    uint8_t *low = clear(&lowered, size);
    refuse(1);
    CHECK(dnw_name_to_lowercase(form, name.len, low, size, &len) == answer && !was_refused());
    if (answer != DNW_DONE) {
        CHECK(untouched(low, size) && len == 7);
        return;
    }
    model_lower(&own);
    CHECK(len == own.len && holds(low, size, own.form, own.len));
    CHECK(compare(name, (struct part){low, len}) == 0);
    low = clear(&lowered, size - 1);
    CHECK(dnw_name_to_lowercase(form, name.len, low, size - 1, &len) == DNW_NO_ROOM && untouched(low, size - 1));
}

static void sorts_without_memory(const uint8_t *list, size_t len, size_t count, uint32_t answer)
{
    size_t size = count * sizeof(size_t);
    for (size_t number = 1; number <= 8; number++) {
        uint8_t *order = clear(&orders, size);
        refuse(number);
        uint32_t given = dnw_names_sort(list, len, (size_t *)order, count);
        if (!was_refused()) {
            CHECK(given == answer);
            return;
        }
        CHECK(given == DNW_NO_MEMORY && untouched(order, size));
    }
}

static void sorts(const uint8_t *octets, size_t len)
{
    size_t count;
    const uint8_t *list = put_at_end(&lefts, octets, len);
    uint32_t answer = model_count(list, len, &count);
    size_t size = count * sizeof(size_t);
    uint8_t *order = clear(&orders, size);
    CHECK(dnw_names_sort(list, len, (size_t *)order, count) == answer);
    CHECK(answer == DNW_DONE ? model_is_sorted(list, len, (size_t *)order, count) : untouched(order, size));
    sorts_without_memory(list, len, count, answer);
    if (answer != DNW_DONE || count == 0)
        return;
    order = clear(&orders, size - sizeof(size_t));
    CHECK(dnw_names_sort(list, len, (size_t *)order, count - 1) == DNW_NO_ROOM && untouched(order, size - sizeof(size_t)));
    order = clear(&orders, size + 2 * sizeof(size_t));
    CHECK(dnw_names_sort(list, len, (size_t *)order, count + 2) == DNW_DONE);
    CHECK(holds(order, size + 2 * sizeof(size_t), order, size));
}

int LLVMFuzzerTestOneInput(const uint8_t *data, size_t size)
{
    struct part parts[3];
    if (!cut_in_three(data, size, parts))
        return 0;
    for (size_t i = 0; i < 3; i++) {
        lowers(parts[i]);
        puts_no_key(parts[i]);
        for (size_t j = 0; j < 3; j++)
            compares(parts[i], parts[j]);
    }
    sorts(data + 2, size - 2);
    int32_t first = compare(parts[0], parts[1]), second = compare(parts[1], parts[2]);
    if (first <= 0 && second <= 0)
        CHECK(compare(parts[0], parts[2]) == (first < second ? first : second));
    return 0;
}
