/* Prints each message of diff/dnw.txt and of diff/servers/replies.txt by dnw_message_print or dnw_message_json, at once and in parts,
   and compares the text with that of the row; and looks for characters that no text may have. It prints nothing if all is well, and
   exits with 1 at the first result that is not the expected one. It runs at the top of the repository. */
#include "dns_names_wire.h"
#include "expect.h"

enum { MOST = 1 << 20 };

typedef uint32_t printer(const uint8_t *, size_t, size_t, size_t, uint8_t *, size_t, struct dnw_printed_part *);

static uint8_t octets[65536], text[MOST];
static char line[MOST], shown[MOST];

/* Reads hexadecimal digits, and returns how many octets they are, or 0 if there is anything else. */
static size_t read_digits(const char *digits)
{
    size_t len = 0, count = strlen(digits);
    if (count % 2 != 0 || strspn(digits, "0123456789abcdefABCDEF") != count || count / 2 > sizeof octets)
        return 0;
    for (; len < count / 2; len++) {
        unsigned octet;
        EXPECT(sscanf(digits + 2 * len, "%2x", &octet) == 1);
        octets[len] = (uint8_t)octet;
    }
    return len;
}

/* Copies a text with a line feed in the place of each of these marks. */
static void put_lines(const char *from, const char *mark)
{
    char *to = shown;
    while (*from != '\0') {
        bool is_mark = strncmp(from, mark, strlen(mark)) == 0;
        *to++ = is_mark ? '\n' : *from;
        from += is_mark ? strlen(mark) : 1;
    }
    *to = '\0';
}

/* No octet is for control but line feed and tab, nor part of a character that is, or that turns the direction of text. */
static void is_plain(const uint8_t *octet, size_t len)
{
    for (size_t at = 0; at < len; at++) {
        EXPECT((octet[at] >= 32 && octet[at] != 127) || octet[at] == '\n' || octet[at] == '\t');
        if (at + 1 < len && octet[at] == 0xC2)
            EXPECT(octet[at + 1] >= 0xA0);
        if (at + 1 < len && octet[at] == 0xD8)
            EXPECT(octet[at + 1] != 0x9C);
        if (at + 2 < len && octet[at] == 0xE2 && octet[at + 1] == 0x80)
            EXPECT(!(octet[at + 2] >= 0x8E && octet[at + 2] <= 0x8F) && !(octet[at + 2] >= 0xA8 && octet[at + 2] <= 0xAE));
        if (at + 2 < len && octet[at] == 0xE2 && octet[at + 1] == 0x81)
            EXPECT(!(octet[at + 2] >= 0xA6 && octet[at + 2] <= 0xA9));
    }
}

/* The message has this text: in a buffer that is long enough, and in parts of so many octets. */
static void is_printed(printer *print, size_t len, const char *wanted, size_t part)
{
    size_t total = strlen(wanted);
    struct dnw_printed_part printed = {7, 7};
    memset(text, '?', total + 1);
    EXPECT(print(octets, len, DNW_MAX_POINTERS, 0, text, sizeof text, &printed) == DNW_DONE);
    EXPECT(printed.len == total && printed.total == total && memcmp(text, wanted, total) == 0 && text[total] == '?');
    is_plain(text, total);
    for (size_t start = 0; start <= total; start += part) {
        size_t left = total - start;
        memset(text, '?', part + 1);
        EXPECT(print(octets, len, DNW_MAX_POINTERS, start, text, part, &printed) == DNW_DONE);
        EXPECT(printed.len == (left < part ? left : part) && printed.total == total);
        EXPECT(memcmp(text, wanted + start, printed.len) == 0 && text[printed.len] == '?');
    }
    EXPECT(print(octets, len, DNW_MAX_POINTERS, SIZE_MAX, text, part, &printed) == DNW_DONE && printed.len == 0);
    EXPECT(print(octets, len, DNW_MAX_POINTERS, 0, text, 0, &printed) == DNW_DONE && printed.len == 0 && printed.total == total);
}

/* The rows of dnw.txt that ask for the text of a message by its digits: `message WORD.. = 0 TEXT`. Returns how many there are. */
static size_t prints_rows(void)
{
    size_t rows = 0;
    FILE *file = fopen("diff/dnw.txt", "r");
    if (file == NULL)
        return 0;
    while (fgets(line, sizeof line, file) != NULL) {
        line[strcspn(line, "\n")] = '\0';
        char *answer = strstr(line, " = 0 ");
        if (strncmp(line, "message ", 8) != 0 || answer == NULL)
            continue;
        *answer = '\0';
        put_lines(answer + 5, "//");
        printer *print = dnw_message_print;
        size_t len = 0, words = 0;
        for (char *word = strtok(line + 8, " "); word != NULL; word = strtok(NULL, " "), words++) {
            if (strcmp(word, "--json") == 0)
                print = dnw_message_json;
            else
                len = read_digits(word);
        }
        if (len == 0 || words != (print == dnw_message_json ? 2 : 1))
            continue;
        is_printed(print, len, shown, 7 + rows);
        rows++;
    }
    fclose(file);
    return rows;
}

/* The replies of servers: `SERVER DIGITS TEXT`. */
static size_t prints_replies(void)
{
    size_t rows = 0;
    FILE *file = fopen("diff/servers/replies.txt", "r");
    if (file == NULL)
        return 0;
    while (fgets(line, sizeof line, file) != NULL) {
        line[strcspn(line, "\n")] = '\0';
        if (line[0] == '#' || line[0] == '\0')
            continue;
        char *digits = strchr(line, ' ') + 1, *answer = strchr(digits, ' ');
        *answer = '\0';
        put_lines(answer + 1, "|");
        size_t len = read_digits(digits);
        EXPECT(len != 0);
        is_printed(dnw_message_print, len, shown, 500);
        rows++;
    }
    fclose(file);
    return rows;
}

/* What is refused, and what is stored then. */
static void refuses_messages(printer *print)
{
    struct dnw_printed_part printed = {7, 8};
    uint8_t room[4] = "????";
    EXPECT(print(BYTES("\000\000\000\000\000\001\000\000\000\000\000\000"), 9, 0, room, 4, &printed) == DNW_MESSAGE_CUT);
    EXPECT(print(BYTES(""), 9, 0, room, 4, &printed) == DNW_MESSAGE_CUT);
    EXPECT(print(BYTES("\000\000\000\000\000\001\000\000\000\000\000\000\100"), 9, 0, room, 4, &printed) == DNW_RESERVED_OCTET);
    static const char pointed[] = "\000\000\000\000\000\002\000\000\000\000\000\000\001b\000\000\001\000\001\300\014\000\001\000\001";
    EXPECT(print(BYTES(pointed), 0, 0, room, 4, &printed) == DNW_TOO_MANY_POINTERS);
    EXPECT(printed.len == 7 && printed.total == 8 && memcmp(room, "????", 4) == 0);
    EXPECT(print(BYTES(pointed), 1, 0, room, 4, &printed) == DNW_DONE && printed.len == 4);
}

int main(void)
{
    size_t rows = prints_rows(), replies = prints_replies();
    /* All of them are in the repository, and none is in a package, which is tried by the calls below. */
    EXPECT(rows == 0 ? replies == 0 : rows >= 10 && replies >= 100);
    refuses_messages(dnw_message_print);
    refuses_messages(dnw_message_json);
    return 0;
}
