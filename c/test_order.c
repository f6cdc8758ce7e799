/* Calls the functions of dns_names_wire.h that compare and sort names, with good and with bad input. It prints nothing if all is
   well, and exits with 1 at the first result that is not the expected one. Expected values come from RFC 4034, section 6.1, or
   from the header. */
#include "dns_names_wire.h"
#include "buffer.h"
#include "expect.h"

static void compares(void)
{
    int32_t order = 7;
    bool is = false;
    size_t len = 7;
    EXPECT(dnw_name_compare(BYTES("\007example\000"), BYTES("\001a\007example\000"), &order) == DNW_DONE && order == -1);
    EXPECT(dnw_name_compare(BYTES("\001Z\001a\000"), BYTES("\010yljkjljk\001a\000"), &order) == DNW_DONE && order == 1);
    EXPECT(dnw_name_compare(BYTES("\001Z\000"), BYTES("\001z\000"), &order) == DNW_DONE && order == 0);
    EXPECT(dnw_name_compare(BYTES("\001Z\000\000"), BYTES("\001z\000"), &order) == DNW_BYTES_LEFT && order == 0);
    EXPECT(dnw_name_compare(BYTES("\001Z\000"), BYTES("\001"), &order) == DNW_MESSAGE_CUT && order == 0);
    EXPECT(dnw_name_equal(BYTES("\001Z\000"), BYTES("\001z\000"), &is) == DNW_DONE && is);
    EXPECT(dnw_name_equal(BYTES("\001Z\000"), BYTES("\001y\000"), &is) == DNW_DONE && !is);
    EXPECT(dnw_name_equal(BYTES("\100"), BYTES("\001y\000"), &is) == DNW_RESERVED_OCTET && !is);
    EXPECT(dnw_name_in_zone(BYTES("\001b\001A\000"), BYTES("\001a\000"), &is) == DNW_DONE && is);
    EXPECT(dnw_name_in_zone(BYTES("\001a\000"), BYTES("\001b\001A\000"), &is) == DNW_DONE && !is);
    EXPECT(dnw_name_in_zone(BYTES("\001a\000"), BYTES("\001b\001A"), &is) == DNW_MESSAGE_CUT && !is);
    clear();
    EXPECT(dnw_name_to_lowercase(BYTES("\001A\002Bc\000"), buffer, 5, &len) == DNW_NO_ROOM && untouched() && len == 7);
    EXPECT(dnw_name_to_lowercase(BYTES("\001A\002Bc\000"), buffer, 6, &len) == DNW_DONE && len == 6);
    EXPECT(holds("\001a\002bc\000", 6));
}

/* The names of RFC 4034, section 6.1, in their order; \310 is its octet 200. */
static void sorts(void)
{
    static const struct {
        const char *form;
        size_t len;
    } names[] = {
        {"\007example", 9},
        {"\001a\007example", 11},
        {"\010yljkjljk\001a\007example", 20},
        {"\001Z\001a\007example", 13},
        {"\004zABC\001a\007EXAMPLE", 16},
        {"\001z\007example", 11},
        {"\001\001\001z\007example", 13},
        {"\001*\001z\007example", 13},
        {"\001\310\001z\007example", 13},
    };
    uint8_t before[DNW_SORT_KEY_SIZE] = {0}, key[DNW_SORT_KEY_SIZE], form[DNW_FORM_SIZE] = {0};
    size_t before_len = 0, len = 7;
    for (size_t i = 0; i < sizeof names / sizeof *names; i++) {
        EXPECT(dnw_name_sort_key((const uint8_t *)names[i].form, names[i].len, key, sizeof key, &len) == DNW_DONE);
        int order = memcmp(before, key, before_len < len ? before_len : len);
        EXPECT(order < 0 || (order == 0 && before_len < len));
        memcpy(before, key, len);
        before_len = len;
    }
    clear();
    EXPECT(dnw_name_sort_key(BYTES("\004B\000\001\002\001A\000"), buffer, 8, &len) == DNW_NO_ROOM && untouched());
    EXPECT(dnw_name_sort_key(BYTES("\004B\000\001\002\001A\000"), buffer, 9, &len) == DNW_DONE && len == 9);
    EXPECT(holds("a\000b\001\001\001\002\002\000", 9));
    clear();
    EXPECT(dnw_name_sort_key(BYTES("\000"), buffer, 0, &len) == DNW_DONE && len == 0 && untouched());
    EXPECT(dnw_name_sort_key(BYTES("\000\000"), buffer, sizeof buffer, &len) == DNW_BYTES_LEFT);
    EXPECT(dnw_name_sort_key(BYTES("\001"), buffer, sizeof buffer, &len) == DNW_MESSAGE_CUT && untouched() && len == 0);
    form[0] = form[64] = form[128] = 63;
    form[192] = 61;
    EXPECT(dnw_name_sort_key(form, sizeof form, key, sizeof key - 1, &len) == DNW_NO_ROOM);
    EXPECT(dnw_name_sort_key(form, sizeof form, key, sizeof key, &len) == DNW_DONE && len == DNW_SORT_KEY_SIZE);
}

/* The numbers are these, and the one after them is unchanged. */
static bool is_order(const size_t *order, const size_t *wanted, size_t count)
{
    return memcmp(order, wanted, count * sizeof *order) == 0 && order[count] == 77;
}

static void sorts_lists(void)
{
    /* The names of RFC 4034, section 6.1, in another order. */
    static const char names[] = "\001z\007example\000\001a\007example\000\001\310\001z\007example\000\007example\000"
                                "\010yljkjljk\001a\007example\000\001*\001z\007example\000\001Z\001a\007example\000"
                                "\001\001\001z\007example\000\004zABC\001a\007EXAMPLE\000";
    static const char equal[] = "\001B\000\001a\000\001b\000\000\001A\000\001b\000", pointer[] = "\001b\001a\000\300\002\001c\300\002";
    size_t order[10];
    for (size_t i = 0; i < 10; i++)
        order[i] = 77;
    EXPECT(dnw_names_sort(BYTES(""), order, 0) == DNW_DONE && is_order(order, NULL, 0));
    EXPECT(dnw_names_sort(BYTES("\001a\000"), order, 0) == DNW_NO_ROOM && is_order(order, NULL, 0));
    EXPECT(dnw_names_sort(BYTES(names), order, 8) == DNW_NO_ROOM && is_order(order, NULL, 0));
    EXPECT(dnw_names_sort((const uint8_t *)names, sizeof names - 2, order, 9) == DNW_MESSAGE_CUT && is_order(order, NULL, 0));
    EXPECT(dnw_names_sort(BYTES("\001a\000\100"), order, 9) == DNW_RESERVED_OCTET && is_order(order, NULL, 0));
    EXPECT(dnw_names_sort(BYTES("\001a\000\001"), order, 0) == DNW_MESSAGE_CUT && is_order(order, NULL, 0));
    EXPECT(dnw_names_sort(BYTES("\001a\000"), order, 9) == DNW_DONE && is_order(order, (const size_t[]){0}, 1));
    EXPECT(dnw_names_sort(BYTES(pointer), order, 9) == DNW_DONE && is_order(order, (const size_t[]){1, 0, 2}, 3));
    EXPECT(dnw_names_sort(BYTES(equal), order, 6) == DNW_DONE && is_order(order, (const size_t[]){3, 1, 4, 0, 2, 5}, 6));
    EXPECT(dnw_names_sort(BYTES(names), order, 9) == DNW_DONE);
    EXPECT(is_order(order, (const size_t[]){3, 1, 4, 6, 8, 0, 7, 5, 2}, 9));
}

int main(void)
{
    compares();
    sorts();
    sorts_lists();
    return 0;
}
