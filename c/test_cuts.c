/* Writes responses of name servers again at each size, from the message and from a list of its items, and expects TC where the server set
   it: the lines of diff/servers/cuts.txt, which the tests of Rust and Python read too. It prints nothing if all is well, and exits with 1
   at the first result that is not the expected one. The tests that are installed have no such file. */
#include "dns_names_wire.h"
#include "expect.h"

enum { MOST = 8192, LEAST = 512 };

static uint8_t whole[MOST], items[2 * MOST], written[MOST];

/* Reads hexadecimal digits, and returns how many octets they are. */
static size_t read_hex(const char *text)
{
    size_t len = 0;
    for (unsigned octet; sscanf(text + 2 * len, "%2x", &octet) == 1; len++) {
        EXPECT(len < MOST);
        whole[len] = (uint8_t)octet;
    }
    return len;
}

/* Whether a size is in ranges as `512-660,662`; `-` is none. */
static bool is_in(const char *ranges, unsigned size)
{
    for (int used = 0; *ranges != 0 && *ranges != '-'; ranges += used + (ranges[used] == ',')) {
        unsigned first, last;
        EXPECT(sscanf(ranges, "%u%n", &first, &used) == 1);
        last = first;
        if (ranges[used] == '-') {
            ranges += used + 1;
            EXPECT(sscanf(ranges, "%u%n", &last, &used) == 1);
        }
        if (first <= size && size <= last)
            return true;
    }
    return false;
}

/* Puts the item at an offset of the message after the octet of its section, with its names whole, and moves both offsets past it. */
static void put_item(unsigned section, size_t len, size_t *at, size_t *put)
{
    uint8_t *item = items + *put + 1;
    struct dnw_read_name name;
    struct dnw_record record;
    size_t data_len;
    items[*put] = (uint8_t)section;
    if (section == DNW_LIST_QUESTION) {
        EXPECT(dnw_name_read(whole, len, *at, item, DNW_FORM_SIZE, &name) == DNW_DONE);
        memcpy(item + name.len, whole + name.end, 4);
        *put += 1 + name.len + 4;
        *at = name.end + 4;
        return;
    }
    EXPECT(dnw_record_read(whole, len, *at, item, DNW_FORM_SIZE, &record) == DNW_DONE);
    item += record.owner_len;
    memcpy(item, whole + record.data_offset - 10, 8);
    EXPECT(dnw_record_data(whole, len, *at, item + 10, sizeof items - (size_t)(item + 10 - items), &data_len) == DNW_DONE);
    item[8] = (uint8_t)(data_len >> 8);
    item[9] = (uint8_t)data_len;
    *put = (size_t)(item + 10 - items) + data_len;
    *at = record.end;
}

/* Makes the list of the items of the message, and returns its length. */
static size_t list_items(size_t len)
{
    struct dnw_message read;
    struct dnw_message_fault fault;
    size_t at = DNW_HEADER_SIZE, put = 0;
    EXPECT(dnw_message_read(whole, len, DNW_MAX_POINTERS, &read, &fault) == DNW_DONE && read.end == len);
    const uint16_t counts[] = {read.question_count, read.answer_count, read.authority_count, read.additional_count};
    for (unsigned section = 0; section < 4; section++)
        for (uint16_t i = 0; i < counts[section]; i++)
            put_item(section, len, &at, &put);
    return put;
}

/* Expects TC of what is written at each size to be as the server had it, up to the size of the whole message, which may be less than the
   server's: names are compressed that the server wrote whole. */
static void judge(const char *ranges, size_t len)
{
    struct dnw_packed result;
    size_t items_len = list_items(len);
    uint16_t flags = (uint16_t)(whole[2] << 8 | whole[3]);
    EXPECT(dnw_message_pack(whole, len, 65535, 0, written, sizeof written, &result) == DNW_DONE && result.len <= len);
    const size_t own_len = result.len;
    for (size_t size = LEAST; size <= own_len; size++) {
        bool wanted = size < own_len && is_in(ranges, (unsigned)size);
        EXPECT(dnw_message_pack(whole, len, (uint16_t)size, 0, written, sizeof written, &result) == DNW_DONE);
        EXPECT(result.len <= size && result.truncated == wanted && (written[2] & 2) == wanted * 2);
        for (int is_reply = 0; is_reply < 2; is_reply++) {
            EXPECT(dnw_message_write(items, items_len, size, 7, flags, flags & 15, is_reply, 0, written, sizeof written, &result) == DNW_DONE);
            EXPECT(result.len <= size && result.truncated == wanted && (written[2] & 2) == wanted * 2);
        }
    }
}

int main(void)
{
    static char line[2 * MOST + 128];
    FILE *file = fopen("diff/servers/cuts.txt", "r");
    if (file == NULL)
        return 0;
    unsigned lines = 0;
    for (; fgets(line, sizeof line, file) != NULL; lines++) {
        char ranges[64];
        int start = 0;
        EXPECT(sscanf(line, "%*s %*s %63s %n", ranges, &start) == 1 && start > 0);
        judge(ranges, read_hex(line + start));
    }
    EXPECT(lines == 22 && fclose(file) == 0);
    return 0;
}
