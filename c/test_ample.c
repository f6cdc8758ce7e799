/* Calls each function of dns_names_wire.h that can fail with DNW_NO_MEMORY with inputs of every size that a body could take for a
   limit, while there is memory. No contract refuses a body that reports out of memory past some size, so this has to. It prints
   nothing if all is well, and exits with 1 at the first result that is not the expected one.

   test_ample [FUNCTION..] tests those functions alone. c/ample_rows fails if the table below has no row for one. */
#include "dns_names_wire.h"
#include "input.h"

/* Octets, items or names: all numbers up to USUAL, and both sides of each that a body could take for a limit. */
static const size_t sizes[] = {1023, 1024, 1025, 4095, 4096, 4097, 65534, 65535, 65536, 65537};

enum { SIZES = sizeof sizes / sizeof sizes[0], USUAL = 600, MOST = 65537, HEADER = 12, LONGEST = 65535 };

static void fill(uint8_t octet, size_t len)
{
    EXPECT(input_len + len <= sizeof input);
    memset(input + input_len, octet, len);
    input_len += len;
}

/* A record of the root in class IN, with a time to live of 60, up to its data, of which there are so many octets. */
static void put_head(uint16_t record_type, size_t data_len)
{
    put("", 1);
    put_word(record_type);
    put("\000\001\000\000\000\074", 6);
    put_word(data_len);
}

/* A record whose data are its number. */
static void put_numbered(size_t number)
{
    put_head(DNW_TYPE_NULL, 4);
    put_word(number >> 16);
    put_word(number);
}

/* A header with so many questions and answers. */
static void put_header(size_t questions, size_t answers)
{
    put("\000\000\204\000", 4);
    put_word(questions);
    put_word(answers);
    put("\000\000\000\000", 4);
}

/* Names of one, of six and of eight octets: roots, distinct names, and distinct names of a zone, if a message has room for all of
   them without compression. */
static void writes_names(size_t size)
{
    static const size_t widths[3] = {1, 6, 8};
    for (int kind = 0; kind < 3; kind++) {
        struct dnw_written_names written;
        if (size * widths[kind] > LONGEST)
            continue;
        input_len = 0;
        for (size_t n = 0; n < size; n++) {
            char digits[6];
            snprintf(digits, sizeof digits, "\004%04x", (unsigned)n);
            put(digits, kind == 0 ? 0 : 5);
            put("\001z", kind == 2 ? 2 : 0);
            put("", 1);
        }
        EXPECT(dnw_names_write(input, input_len, LONGEST, output, sizeof output, &written) == DNW_DONE);
        EXPECT(written.count == size && written.len <= input_len && (kind == 2 || written.len == input_len));
    }
}

static void sorts_names(size_t size)
{
    static size_t order[MOST];
    input_len = 0;
    for (size_t n = size; n-- > 0;) {
        char name[7];
        put(name, (size_t)snprintf(name, sizeof name, "\005%05x", (unsigned)n));
        put("", 1);
    }
    EXPECT(dnw_names_sort(input, input_len, order, MOST) == DNW_DONE);
    for (size_t n = 0; n < size; n++)
        EXPECT(order[n] == size - 1 - n);
}

/* The type bitmap of the first so many codes. */
static size_t bitmap_len(size_t count)
{
    return count / 256 * 34 + (count % 256 > 0 ? 2 + (count % 256 + 7) / 8 : 0);
}

static void put_bitmap(size_t count)
{
    for (size_t window = 0; count > 0; window++) {
        size_t here = count < 256 ? count : 256;
        const uint8_t head[2] = {(uint8_t)window, (uint8_t)((here + 7) / 8)};
        put(head, 2);
        fill(0xff, here / 8);
        fill((uint8_t)(0xff00 >> (here % 8)), here % 8 != 0);
        count -= here;
    }
}

/* Windows with one code each, over and over, and what is left of one at the end; and so many codes. */
static void reads_types(size_t size)
{
    static uint16_t codes[8 * MOST];
    size_t count = 7, wanted = size < 65536 ? size : 65536;
    input_len = 0;
    for (size_t window = 0; input_len < size; window++) {
        const uint8_t octets[3] = {(uint8_t)window, 1, 0x80};
        put(octets, size - input_len < 3 ? size - input_len : 3);
    }
    uint32_t answer = dnw_types_read(input, input_len, codes, 8 * MOST, &count);
    if (size > LONGEST)
        EXPECT(answer == DNW_BAD_BITMAP && count == 7);
    else
        EXPECT(answer == DNW_DONE && count == (size / 3 < 256 ? size / 3 : 256));
    input_len = 0;
    put_bitmap(wanted);
    EXPECT(dnw_types_read(input, input_len, codes, 8 * MOST, &count) == DNW_DONE && count == wanted);
    for (size_t n = 0; n < wanted; n++)
        EXPECT(codes[n] == n);
}

/* So many codes, in descending order. */
static void writes_types(size_t size)
{
    static uint16_t codes[MOST];
    size_t len = 7;
    for (size_t n = 0; n < size; n++)
        codes[n] = (uint16_t)(size - 1 - n);
    EXPECT(dnw_types_write(codes, size, output, sizeof output, &len) == DNW_DONE);
    EXPECT(len == bitmap_len(size < 65536 ? size : 65536));
}

/* A text that is not a time, of so many octets; and zeros with a unit, which are. */
static void parses_times(size_t size)
{
    uint32_t seconds = 7;
    input_len = 0;
    fill('0', size);
    fill('?', 1);
    EXPECT(dnw_ttl_parse(input, input_len, &seconds) == DNW_BAD_TIME && seconds == 7);
    input[size] = 's';
    EXPECT(dnw_ttl_parse(input, input_len, &seconds) == (size > 0 ? DNW_DONE : DNW_BAD_TIME));
    EXPECT(seconds == (size > 0 ? 0u : 7u));
    input_len = 0;
    fill('9', size);
    uint32_t answer = dnw_ttl_parse(input, size, &seconds);
    /* nine digits fit in 32 bits, and ten nines do not */
    EXPECT(answer == (size > 0 && size < 10 ? DNW_DONE : DNW_BAD_TIME));
}

static void finds(const char *what, uint32_t kind, size_t len, size_t count)
{
    struct dnw_lexer lexer = {0, true};
    struct dnw_token token;
    uint32_t answer = dnw_token_next(input, input_len, &lexer, output, sizeof output, &token);
    if (answer != DNW_DONE)
        fprintf(stderr, "%s of %zu octets: %u\n", what, len, (unsigned)answer);
    EXPECT(answer == DNW_DONE && token.kind == kind && token.len == len && token.count == count);
}

/* A word, a quoted text, a list of one word and one of so many words, and a comment, a blank and lines before a word. */
static void finds_tokens(size_t size)
{
    input_len = 0;
    fill('a', size);
    put("\n", 1);
    finds("a word", size > 0 ? DNW_TOKEN_TEXT : DNW_TOKEN_LINE_END, size, size > 0);
    input_len = 0;
    put("\"", 1);
    fill('a', size);
    put("\"\n", 2);
    finds("a quoted text", DNW_TOKEN_TEXT, size, 1);
    input_len = 0;
    put("(", 1);
    fill('a', size);
    put(")\n", 2);
    finds("a list of a word", DNW_TOKEN_LIST, size > 0 ? size + 1 : 0, size > 0);
    input_len = 0;
    put("(", 1);
    for (size_t n = 0; n < size; n++)
        put(" a", 2);
    put(")\n", 2);
    finds("a list", DNW_TOKEN_LIST, 2 * size, size);
    input_len = 0;
    put("(;", 2);
    fill('c', size);
    put("\na)\n", 4);
    finds("a list with a comment", DNW_TOKEN_LIST, 2, 1);
    input_len = 0;
    put("a", 1);
    for (size_t n = 0; n < size; n++)
        put("\303\251", 2);
    put(" ", 1);
    finds("a word of other letters", DNW_TOKEN_TEXT, 1 + 2 * size, 1);
}

/* Data of so many octets, so many records, and so many questions, as far as 16 bits count them. A copy has 65,535 octets at most:
   records that have no room are left out, and questions have to be there. */
static void packs(size_t size)
{
    struct dnw_packed packed;
    if (size > LONGEST)
        return;
    input_len = 0;
    put_header(0, 1);
    put_head(DNW_TYPE_NULL, size);
    fill('x', size);
    bool fits = input_len <= LONGEST;
    EXPECT(dnw_message_pack(input, input_len, LONGEST, 0, output, sizeof output, &packed) == DNW_DONE);
    EXPECT(packed.truncated == !fits && packed.len == (fits ? input_len : HEADER));
    input_len = 0;
    put_header(0, size);
    for (size_t n = 0; n < size; n++)
        put_numbered(n);
    fits = input_len <= LONGEST;
    EXPECT(dnw_message_pack(input, input_len, LONGEST, 0, output, sizeof output, &packed) == DNW_DONE);
    EXPECT(packed.truncated == !fits && (!fits || packed.len == input_len));
    input_len = 0;
    put_header(size, 0);
    for (size_t n = 0; n < size; n++)
        put("\000\000\001\000\001", 5);
    fits = input_len <= LONGEST;
    EXPECT(dnw_message_pack(input, input_len, LONGEST, 0, output, sizeof output, &packed) == (fits ? DNW_DONE : DNW_MESSAGE_TOO_LONG));
    EXPECT(!fits || packed.len == input_len);
}

/* A message is printed in the layout of dig, and as JSON, in so many bytes at least. */
static void is_printed(size_t least)
{
    struct dnw_printed_part printed;
    EXPECT(dnw_message_print(input, input_len, DNW_MAX_POINTERS, 0, output, sizeof output, &printed) == DNW_DONE);
    EXPECT(least <= printed.total && (printed.len == printed.total || printed.len == sizeof output));
    EXPECT(dnw_message_json(input, input_len, DNW_MAX_POINTERS, 0, output, sizeof output, &printed) == DNW_DONE);
    EXPECT(least <= printed.total && (printed.len == printed.total || printed.len == sizeof output));
}

/* So many questions, so many answers, data of so many octets, and so many octets of an option. */
static void prints_messages(size_t size)
{
    if (size > LONGEST)
        return;
    input_len = 0;
    put_header(size, 0);
    for (size_t n = 0; n < size; n++)
        put("\000\000\001\000\001", 5);
    is_printed(8 * size);
    input_len = 0;
    put_header(0, size);
    for (size_t n = 0; n < size; n++)
        put_numbered(n);
    is_printed(20 * size);
    input_len = 0;
    put_header(0, 1);
    put_head(DNW_TYPE_NULL, size);
    fill('x', size);
    is_printed(2 * size);
    if (LONGEST < size + 4)
        return;
    input_len = 0;
    put("\000\000\204\000\000\000\000\000\000\000\000\001", 12);
    put_head(DNW_TYPE_OPT, size + 4);
    put("\000\003", 2);
    put_word(size);
    fill('x', size);
    is_printed(4 * size);
}

static void reads_data(size_t size)
{
    size_t len = 7;
    if (size > LONGEST)
        return;
    input_len = 0;
    put_head(DNW_TYPE_NULL, size);
    size_t start = input_len;
    fill('x', size);
    EXPECT(dnw_record_data(input, input_len, 0, output, sizeof output, &len) == DNW_DONE);
    EXPECT(len == size && memcmp(output, input + start, size) == 0);
    if (size == 0)
        return;
    /* an owner of a label, to which the name in the data points; and octets after it */
    input_len = 0;
    put("\001a", 2);
    put_head(DNW_TYPE_RRSIG, size + 20 > LONGEST ? LONGEST : size + 20);
    fill(0, 18);
    put("\300\000", 2);
    size_t rest = size + 20 > LONGEST ? LONGEST - 20 : size;
    fill('s', rest);
    /* with the name whole they are one octet longer, which may be one too many */
    uint32_t failure = dnw_record_data(input, input_len, 0, output, sizeof output, &len);
    EXPECT(failure == (rest + 21 > LONGEST ? DNW_DATA_TOO_LONG : DNW_DONE) && (failure != DNW_DONE || len == rest + 21));
}

/* A record of so many octets is printed, and its line and the data in it are parsed as the same octets. */
static void prints_and_parses(uint16_t record_type, size_t data_len, bool data_alone)
{
    static uint8_t text[ROOM], owner[DNW_FORM_SIZE];
    struct dnw_printed_record printed;
    struct dnw_record record;
    size_t len = 7;
    EXPECT(dnw_record_print(input, input_len, 0, text, sizeof text, &printed) == DNW_DONE);
    EXPECT(printed.end == input_len && dnw_record_read(input, input_len, 0, owner, sizeof owner, &record) == DNW_DONE);
    EXPECT(record.record_type == record_type && record.data_len == data_len);
    if (!data_alone) {
        EXPECT(dnw_record_parse(text, printed.len, text, 0, output, sizeof output, &len) == DNW_DONE);
        EXPECT(len == input_len && memcmp(output, input, len) == 0);
        return;
    }
    /* after the owner, the time to live, the class and the type */
    size_t at = 0;
    for (int spaces = 0; spaces < 4 && at < printed.len; at++)
        spaces += text[at] == ' ';
    EXPECT(dnw_data_parse(record_type, 1, text + at, printed.len - at, text, 0, output, sizeof output, &len) == DNW_DONE);
    EXPECT(len == data_len && memcmp(output, input + record.data_offset, len) == 0);
}

/* Data of so many octets: of NULL, of a key in base 64, and of a digest in hexadecimal digits; and so many strings. */
static void texts_of_octets(size_t size, bool data_alone)
{
    static const uint16_t types[3] = {DNW_TYPE_NULL, DNW_TYPE_OPENPGPKEY, DNW_TYPE_TXT};
    for (int n = 0; n < 3 && size <= LONGEST; n++) {
        if (size == 0 && n > 0)
            continue;
        input_len = 0;
        put_head(types[n], size);
        fill(types[n] == DNW_TYPE_TXT ? 0 : 'x', size);
        prints_and_parses(types[n], size, data_alone);
    }
    if (size == 0 || LONGEST < 4 + size)
        return;
    input_len = 0;
    put_head(DNW_TYPE_DS, 4 + size);
    put("\000\001\010\002", 4);
    fill('d', size);
    prints_and_parses(DNW_TYPE_DS, 4 + size, data_alone);
}

/* So many service parameters without values, one with a value of so many octets, and so many address prefixes. */
static void texts_of_lists(size_t size, bool data_alone)
{
    if (3 + 4 * size <= LONGEST) {
        input_len = 0;
        put_head(DNW_TYPE_SVCB, 3 + 4 * size);
        put("\000\001\000", 3);
        for (size_t n = 0; n < size; n++) {
            put_word(100 + n);
            put_word(0);
        }
        prints_and_parses(DNW_TYPE_SVCB, 3 + 4 * size, data_alone);
        input_len = 0;
        put_head(DNW_TYPE_APL, 4 * size);
        for (size_t n = 0; n < size; n++)
            put("\000\001\000\000", 4);
        prints_and_parses(DNW_TYPE_APL, 4 * size, data_alone);
    }
    if (size == 0 || LONGEST < 7 + size)
        return;
    input_len = 0;
    put_head(DNW_TYPE_SVCB, 7 + size);
    put("\000\001\000\000\005", 5);
    put_word(size);
    fill('e', size);
    prints_and_parses(DNW_TYPE_SVCB, 7 + size, data_alone);
}

/* The types of an NSEC record, which are the first so many. */
static void texts_of_types(size_t size, bool data_alone)
{
    size_t count = size < 65536 ? size : 65536, len = 1 + bitmap_len(count);
    input_len = 0;
    put_head(DNW_TYPE_NSEC, len);
    put("", 1);
    put_bitmap(count);
    prints_and_parses(DNW_TYPE_NSEC, len, data_alone);
}

static void texts(size_t size, bool data_alone)
{
    texts_of_octets(size, data_alone);
    texts_of_lists(size, data_alone);
    texts_of_types(size, data_alone);
}

static void prints_records(size_t size)
{
    static uint8_t text[ROOM];
    struct dnw_printed_record printed;
    if (size > LONGEST)
        return;
    input_len = 0;
    put_head(65280, size);
    fill(0xab, size);
    EXPECT(dnw_record_print(input, input_len, 0, text, sizeof text, &printed) == DNW_DONE);
    char head[64];
    size_t wanted = (size_t)snprintf(head, sizeof head, ". 60 IN TYPE65280 \\# %zu", size) + (size > 0 ? 1 + 2 * size : 0);
    EXPECT(printed.len == wanted && printed.end == input_len);
    texts(size, false);
}

static void parses_records(size_t size)
{
    size_t len = 7;
    texts(size, false);
    /* white space of so many octets within a line */
    input_len = 0;
    put(". 60 IN", 7);
    fill(' ', size + 1);
    put("A 192.0.2.1", 11);
    EXPECT(dnw_record_parse(input, input_len, input, 0, output, sizeof output, &len) == DNW_DONE && len == 15);
}

static void parses_data(size_t size)
{
    size_t len = 7;
    texts(size, true);
    input_len = 0;
    fill(' ', size);
    put("192.0.2.1", 9);
    EXPECT(dnw_data_parse(DNW_TYPE_A, 1, input, input_len, input, 0, output, sizeof output, &len) == DNW_DONE && len == 4);
}

static void finds_record_faults(size_t size)
{
    struct dnw_text_fault fault;
    input_len = 0;
    put(". 60 IN", 7);
    fill(' ', size + 1);
    put("A 192.0.2.1", 11);
    EXPECT(dnw_record_text_fault(input, input_len, input, 0, &fault) == DNW_DONE && fault.reason == DNW_REASON_NONE);
    put(" 0", 2);
    EXPECT(dnw_record_text_fault(input, input_len, input, 0, &fault) == DNW_DONE && fault.reason == DNW_REASON_END);
    EXPECT(fault.offset == input_len - 1 && fault.len == 1);
}

static void finds_data_faults(size_t size)
{
    struct dnw_text_fault fault;
    input_len = 0;
    fill(' ', size);
    put("192.0.2", 7);
    EXPECT(dnw_data_text_fault(DNW_TYPE_A, 1, input, input_len, input, 0, &fault) == DNW_DONE && fault.reason == DNW_REASON_IPV4);
    EXPECT(fault.offset == size && fault.len == 7);
}

static void prints_faults(size_t size)
{
    size_t len = 7;
    struct dnw_text_fault fault = {size, size, size, DNW_REASON_END};
    EXPECT(dnw_text_fault_print(&fault, output, sizeof output, &len) == DNW_DONE && len <= DNW_SENTENCE_SIZE && len > 40);
}

static void prints_options(size_t size)
{
    size_t len = 7;
    input_len = 0;
    fill('x', size);
    EXPECT(dnw_option_print(3, input, size, output, sizeof output, &len) == DNW_DONE && len == 5 + (size == 0 ? 0 : 4 * size + 5));
    EXPECT(dnw_option_print(12, input, size, output, sizeof output, &len) == DNW_DONE && memcmp(output, "PAD:", 4) == 0);
    memcpy(input, "\0\1", 2);
    EXPECT(dnw_option_print(15, input, size, output, sizeof output, &len) == DNW_DONE && len >= (size < 2 ? 7 : size));
    for (uint16_t code = 0; code < 40; code++) {
        len = 0;
        EXPECT(dnw_option_print(code, input, size, output, sizeof output, &len) == DNW_DONE && len >= 4);
    }
}

static void writes_options(size_t size)
{
    const struct dnw_option option = {.info_code = 1};
    size_t len = 7;
    input_len = 0;
    fill('x', size);
    EXPECT(dnw_option_write(3, &option, input, size, output, sizeof output, &len) == DNW_DONE && len == size);
    EXPECT(dnw_option_write(15, &option, input, size, output, sizeof output, &len) == DNW_DONE && len == 2 + size);
    EXPECT(dnw_option_write(12, &option, input, size, output, sizeof output, &len) == DNW_DONE);
    EXPECT(len == size && memcmp(output, input, size) == 0);
}

/* Takes the entry that is in the input. */
static void takes(const char *what, uint32_t kind, size_t len)
{
    struct dnw_zone zone;
    struct dnw_zone_entry entry;
    (void)what;
    EXPECT(dnw_zone_begin((const uint8_t *)"", 1, &zone) == DNW_DONE);
    EXPECT(dnw_zone_next(input, input_len, false, &zone, output, sizeof output, &entry) == DNW_DONE);
    EXPECT(entry.kind == kind && entry.len == len && entry.used == input_len && zone.offset == input_len);
}

/* Entries with so many octets, words and lines: a record, an error, an `$INCLUDE`, a comment, and a part of an entry. */
static void reads_zones(size_t size)
{
    if (size <= LONGEST) {
        input_len = 0;
        put(". 60 NULL \\# ", 13);
        char text[24];
        put(text, (size_t)snprintf(text, sizeof text, "%zu", size));
        for (size_t n = 0; n < size; n++)
            put(" 41", 3);
        put("\n", 1);
        takes("data", DNW_ZONE_RECORD, 11 + size);
        input_len = 0;
        put("$INCLUDE \"", 10);
        fill('f', size + (size == 0));
        put("\"\n", 2);
        takes("a file", DNW_ZONE_INCLUDE, 1 + size + (size == 0));
    }
    input_len = 0;
    put(". 60 A (", 8);
    fill('\n', size);
    put("192.0.2.1 ; ", 12);
    fill('c', size);
    put("\n)\n", 3);
    takes("lines", DNW_ZONE_RECORD, 15);
    input_len = 0;
    put(". 60 A ", 7);
    fill('x', size);
    put("\n", 1);
    takes("an error", DNW_ZONE_ERROR, 0);
    input_len = 0;
    put(";", 1);
    fill('c', size);
    takes("a comment", DNW_ZONE_NOTHING, 0);
}

/* So many records, each in so many octets, lines and words, with as many blank lines and comments, are rows of one call. */
static void reads_rows(size_t size)
{
    static struct dnw_zone_row rows[MOST];
    static const char *const records[] = {". 60 A 192.0.2.1\n", "\n;\n. 60 IN A ( 192.0.2.1 ; c\n)\n"};
    for (size_t kind = 0; kind < 2; kind++) {
        struct dnw_zone zone;
        struct dnw_rows_read got;
        if (size * strlen(records[kind]) > sizeof input)
            continue;
        input_len = 0;
        for (size_t n = 0; n < size; n++)
            put(records[kind], strlen(records[kind]));
        EXPECT(dnw_zone_begin((const uint8_t *)"", 1, &zone) == DNW_DONE);
        EXPECT(dnw_zone_read(input, input_len, false, &zone, rows, MOST, output, sizeof output, &got) == DNW_DONE);
        EXPECT(got.row_count == size && got.octets_len == 15 * size && got.used == input_len);
        EXPECT(got.next == (size == MOST ? DNW_ZONE_RECORD : DNW_ZONE_END));
    }
    if (size > LONGEST)
        return;
    struct dnw_zone zone;
    struct dnw_rows_read got;
    input_len = 0;
    put(". 60 NULL \\# ", 13);
    char text[24];
    put(text, (size_t)snprintf(text, sizeof text, "%zu", size));
    for (size_t n = 0; n < size; n++)
        put(" 41", 3);
    EXPECT(dnw_zone_begin((const uint8_t *)"", 1, &zone) == DNW_DONE);
    EXPECT(dnw_zone_read(input, input_len, false, &zone, rows, 2, output, sizeof output, &got) == DNW_DONE);
    EXPECT(got.row_count == 1 && rows[0].data_len == size && got.next == DNW_ZONE_END);
}

/* A record with so many octets of data is put with its owner, and again without it. */
static void puts_records(size_t size)
{
    static uint8_t text[ROOM];
    struct dnw_printed_record printed;
    struct dnw_zone zone;
    char head[64];
    if (size > LONGEST)
        return;
    EXPECT(dnw_zone_begin((const uint8_t *)"\001a", 3, &zone) == DNW_DONE);
    input_len = 0;
    put_head(65280, size);
    fill(0xab, size);
    size_t wanted = (size_t)snprintf(head, sizeof head, ". 60 IN TYPE65280 \\# %zu\n", size) + (size > 0 ? 1 + 2 * size : 0);
    EXPECT(dnw_zone_put_record(input, input_len, 0, &zone, text, sizeof text, &printed) == DNW_DONE && printed.len == wanted);
    EXPECT(dnw_zone_put_record(input, input_len, 0, &zone, text, sizeof text, &printed) == DNW_DONE && printed.len == wanted - 1);
}

/* An $ORIGIN of so many labels. */
static void puts_origins(size_t size)
{
    struct dnw_zone zone;
    size_t len = 7;
    if (size > 127)
        return;
    EXPECT(dnw_zone_begin((const uint8_t *)"", 1, &zone) == DNW_DONE);
    input_len = 0;
    for (size_t n = 0; n < size; n++)
        put("\001a", 2);
    put("", 1);
    EXPECT(dnw_zone_put_origin(input, input_len, &zone, output, sizeof output, &len) == DNW_DONE);
    EXPECT(len == 9 + (size > 0 ? 2 * size : 1));
}

/* A $TTL of so many seconds, and of as many times 65535. */
static void puts_times(size_t size)
{
    for (uint32_t factor = 1; factor <= 65535; factor += 65534) {
        struct dnw_zone zone;
        char line[32];
        size_t len = 7, wanted = (size_t)snprintf(line, sizeof line, "$TTL %u\n", (unsigned)((uint32_t)size * factor));
        EXPECT(dnw_zone_begin((const uint8_t *)"", 1, &zone) == DNW_DONE);
        EXPECT(dnw_zone_put_ttl((uint32_t)size * factor, &zone, output, sizeof output, &len) == DNW_DONE);
        EXPECT(len == wanted && memcmp(output, line, len) == 0);
    }
}

/* The data of an RRSIG of the root over NULL records, up to the signature. */
#define RRSIG "\000\012\010\000\000\000\016\020\000\000\000\002\000\000\000\001\000\007\000"

static void signs(size_t size)
{
    size_t len = 7, head = sizeof RRSIG - 1;
    /* a signature of so many octets */
    if (size + head <= LONGEST) {
        input_len = 0;
        put_head(DNW_TYPE_RRSIG, head + size);
        put(RRSIG, head);
        fill('s', size);
        size_t start = input_len;
        put_numbered(1);
        EXPECT(dnw_signed_octets(input, input_len, start, 0, output, sizeof output, &len) == DNW_DONE && len == head + 15);
    }
    /* a record with so many octets of data */
    if (size <= LONGEST) {
        input_len = 0;
        put_head(DNW_TYPE_RRSIG, head);
        put(RRSIG, head);
        put_head(DNW_TYPE_NULL, size);
        fill('x', size);
        EXPECT(dnw_signed_octets(input, input_len, 30, 0, output, sizeof output, &len) == DNW_DONE && len == head + 11 + size);
    }
    /* so many records */
    input_len = 0;
    put_head(DNW_TYPE_RRSIG, head);
    put(RRSIG, head);
    for (size_t n = size; n-- > 0;)
        put_numbered(n);
    uint32_t answer = dnw_signed_octets(input, input_len, 30, 0, output, sizeof output, &len);
    EXPECT(answer == (size == 0 ? DNW_NOT_COVERED : DNW_DONE) && (size == 0 || len == head + 15 * size));
}

static void makes_keys(size_t size)
{
    size_t len = 7;
    if (size > LONGEST)
        return;
    input_len = 0;
    put_head(DNW_TYPE_NULL, size);
    fill('x', size);
    EXPECT(dnw_record_sort_key(input, input_len, 0, output, sizeof output, &len) == DNW_DONE && len == 5 + size);
}

static void digests_zones(size_t size)
{
    static const char of_none[] = "\070\260\140\247\121\254\226\070\114\331\062\176\261\261\343\152\041\375\267\021\024\276\007\103"
                                  "\114\014\307\277\143\366\341\332\047\116\336\277\347\157\145\373\325\032\322\361\110\230\271\133";
    size_t len = 7;
    input_len = 0;
    for (size_t n = size; n-- > 0;)
        put_numbered(n);
    EXPECT(dnw_zone_digest((const uint8_t *)"", 1, input, input_len, 1, output, sizeof output, &len) == DNW_DONE && len == 48);
    EXPECT((memcmp(output, of_none, 48) == 0) == (size == 0));
    if (size > LONGEST)
        return;
    input_len = 0;
    put_head(DNW_TYPE_NULL, size);
    fill('x', size);
    EXPECT(dnw_zone_digest((const uint8_t *)"", 1, input, input_len, 2, output, sizeof output, &len) == DNW_DONE && len == 64);
}

/* So many records of the root, which has no SOA and no NS. The second and later ones have another time to live. */
static void checks_zones(size_t size)
{
    static struct dnw_zone_finding findings[MOST + 2];
    size_t count = 7;
    input_len = 0;
    for (size_t n = 0; n < size; n++) {
        put_numbered(n);
        input[input_len - 7] = n == 0 ? 60 : 61;
    }
    EXPECT(dnw_zone_check((const uint8_t *)"", 1, input, input_len, findings, MOST + 2, &count) == DNW_DONE);
    EXPECT(count == 2 + (size == 0 ? 0 : size - 1));
    EXPECT(findings[0].check == DNW_CHECK_NO_SOA && findings[1].check == DNW_CHECK_NO_NS);
    EXPECT(size < 2 || (findings[count - 1].check == DNW_CHECK_OTHER_TTL && findings[count - 1].number == size - 1));
}

static const struct row {
    const char *function;
    void (*test)(size_t size);
} rows[] = {
    {"dnw_names_write", writes_names},
    {"dnw_message_pack", packs},
    {"dnw_message_print", prints_messages},
    {"dnw_message_json", prints_messages},
    {"dnw_option_print", prints_options},
    {"dnw_option_write", writes_options},
    {"dnw_record_data", reads_data},
    {"dnw_record_print", prints_records},
    {"dnw_data_parse", parses_data},
    {"dnw_record_parse", parses_records},
    {"dnw_record_text_fault", finds_record_faults},
    {"dnw_data_text_fault", finds_data_faults},
    {"dnw_text_fault_print", prints_faults},
    {"dnw_zone_next", reads_zones},
    {"dnw_zone_read", reads_rows},
    {"dnw_zone_put_record", puts_records},
    {"dnw_zone_put_origin", puts_origins},
    {"dnw_zone_put_ttl", puts_times},
    {"dnw_signed_octets", signs},
    {"dnw_record_sort_key", makes_keys},
    {"dnw_zone_digest", digests_zones},
    {"dnw_zone_check", checks_zones},
    {"dnw_types_read", reads_types},
    {"dnw_types_write", writes_types},
    {"dnw_ttl_parse", parses_times},
    {"dnw_token_next", finds_tokens},
    {"dnw_names_sort", sorts_names},
};

int main(int argc, char **argv)
{
    size_t ran = 0;
    for (size_t row = 0; row < sizeof rows / sizeof rows[0]; row++) {
        bool is_asked = argc == 1;
        for (int word = 1; word < argc; word++)
            is_asked = is_asked || strcmp(argv[word], rows[row].function) == 0;
        for (size_t size = 0; is_asked && size <= USUAL; size++)
            rows[row].test(size);
        for (size_t n = 0; is_asked && n < SIZES; n++)
            rows[row].test(sizes[n]);
        ran += is_asked;
    }
    return ran == 0;
}
