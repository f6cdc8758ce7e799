/* Reads and writes zone files through the functions of dns_names_wire.h for them: whole, in parts, with errors, and with states that are spoiled.
   It prints nothing if all is well, and exits with 1 at the first result that is not the expected one. Expected values are worked by
   hand from RFC 1035, section 5, and RFC 2308, section 4; the records of the first zone are those of `named-checkzone -D`. */
#include "dns_names_wire.h"
#include "expect.h"

#define ROOT "\000"
#define ISI "\003ISI\003EDU\000"
#define ROOM 70000

static uint8_t octets[DNW_ZONE_OCTETS_SIZE + 8], before[sizeof octets];
static char lines[ROOM];
static size_t lines_len;
static const char *error_text; /* of the last call */
static struct dnw_zone zone;
static struct dnw_zone_entry entry;

static void say(const char *bytes, size_t len)
{
    EXPECT(lines_len + len < sizeof lines);
    memcpy(lines + lines_len, bytes, len);
    lines_len += len;
    lines[lines_len] = '\0';
}

static void say_text(const char *text)
{
    say(text, strlen(text));
}

static void say_number(size_t number)
{
    char text[24];
    say(text, (size_t)snprintf(text, sizeof text, "%zu", number));
}

static void say_record(void)
{
    static uint8_t line[ROOM];
    struct dnw_printed_record printed;
    EXPECT(dnw_record_print(octets, entry.len, 0, line, sizeof line, &printed) == DNW_DONE && printed.end == entry.len);
    struct dnw_record read;
    uint8_t owner[DNW_FORM_SIZE];
    EXPECT(dnw_record_read(octets, entry.len, 0, owner, sizeof owner, &read) == DNW_DONE && read.owner_len == entry.name_len);
    EXPECT(read.data_len == entry.data_len && read.data_offset == entry.len - entry.data_len && read.ttl == entry.ttl);
    EXPECT(read.record_type == entry.record_type && read.record_class == entry.record_class);
    say((const char *)line, printed.len);
}

static void say_include(void)
{
    uint8_t name[DNW_TEXT_SIZE];
    size_t len;
    EXPECT(entry.name_len + entry.data_len == entry.len);
    EXPECT(dnw_name_print(octets, entry.name_len, true, name, sizeof name, &len) == DNW_DONE);
    say_text("$INCLUDE ");
    say((const char *)octets + entry.name_len, entry.data_len);
    say_text(" ");
    say((const char *)name, len);
}

static void say_error(void)
{
    uint8_t text[DNW_SENTENCE_SIZE];
    size_t len;
    EXPECT(dnw_text_fault_print(&entry.fault, text, sizeof text, &len) == DNW_DONE);
    const char *words = memchr(text, ':', len);
    EXPECT(words != NULL);
    say_text("error");
    say(words, (size_t)((const char *)text + len - words));
    say_text(" `");
    say(error_text + entry.fault.offset, entry.fault.len);
    say_text("`");
}

/* Takes the next entry into so many octets. A call that fails stores nothing, and one that stores nothing in the buffer leaves it. */
static uint32_t next_in(const char *text, size_t len, bool more, size_t size)
{
    struct dnw_zone was = zone;
    error_text = text;
    memset(octets, 0xAA, sizeof octets);
    memset(before, 0xAA, sizeof before);
    memset(&entry, 0xAA, sizeof entry);
    uint32_t answer = dnw_zone_next((const uint8_t *)text, len, more, &zone, octets, size, &entry);
    if (answer != DNW_DONE) {
        EXPECT(memcmp(&zone, &was, sizeof was) == 0 && memcmp(&entry, before, sizeof entry) == 0);
        EXPECT(memcmp(octets, before, sizeof octets) == 0);
    } else {
        EXPECT(memcmp(octets + entry.len, before, sizeof octets - entry.len) == 0);
        EXPECT(entry.used <= len && zone.offset == was.offset + entry.used);
        bool is_none = entry.kind == DNW_ZONE_END || entry.kind == DNW_ZONE_MORE;
        EXPECT((entry.used == 0) == (is_none || zone.has_generate_next));
        EXPECT((entry.kind == DNW_ZONE_RECORD || entry.kind == DNW_ZONE_INCLUDE) == (entry.len > 0));
        EXPECT((entry.kind == DNW_ZONE_ERROR) == (entry.fault.reason > 0) && entry.fault.offset + entry.fault.len <= len);
    }
    return answer;
}

static void next(const char *text, size_t len, bool more)
{
    EXPECT(next_in(text, len, more, DNW_ZONE_OCTETS_SIZE) == DNW_DONE);
}

/* Says the entry that was taken, in a line with its place. Those that say nothing are left out. */
static void say_entry(void)
{
    if (entry.kind <= DNW_ZONE_NOTHING)
        return;
    say_number(entry.line);
    say_text(":");
    say_number(entry.column);
    say_text(" ");
    entry.kind == DNW_ZONE_RECORD ? say_record() : entry.kind == DNW_ZONE_INCLUDE ? say_include() : say_error();
    say_text("\n");
}

/* Reads what is left of a text of which the first octets come first, and then so many more each time that more are wanted. */
static void read_parts(const char *text, size_t len, size_t first, size_t step)
{
    size_t at = 0, there = first < len ? first : len;
    for (;;) {
        next(text + at, there - at, there < len);
        EXPECT(entry.kind != DNW_ZONE_MORE || there < len);
        if (entry.kind == DNW_ZONE_END && there == len)
            return;
        if (entry.kind == DNW_ZONE_MORE)
            there = there + step < len ? there + step : len;
        say_entry();
        at += entry.used;
    }
}

/* How many records a $GENERATE may stand for. */
static uint32_t generate_limit;

static const char *reads(const char *origin, size_t origin_len, const char *text, size_t len, size_t first, size_t step)
{
    lines_len = 0;
    lines[0] = '\0';
    memset(&zone, 0xAA, sizeof zone);
    EXPECT(dnw_zone_begin((const uint8_t *)origin, origin_len, &zone) == DNW_DONE);
    zone.generate_limit = generate_limit;
    read_parts(text, len, first, step);
    EXPECT(zone.offset == len);
    return lines;
}

/* The whole text gives these lines, and so do its parts, wherever it is cut, and octet by octet. */
static void gives(const char *origin, size_t origin_len, const char *text, size_t len, const char *wanted)
{
    const char *said = reads(origin, origin_len, text, len, len, 1);
    if (strcmp(said, wanted) != 0)
        fprintf(stderr, "%s", said);
    EXPECT(strcmp(said, wanted) == 0);
    for (size_t cut = 0; cut <= len; cut++)
        EXPECT(strcmp(reads(origin, origin_len, text, len, cut, len), wanted) == 0);
    EXPECT(strcmp(reads(origin, origin_len, text, len, 1, 1), wanted) == 0);
}

#define GIVES(origin, text, wanted) gives(origin, sizeof(origin) - 1, text, sizeof(text) - 1, wanted)

/* The example of RFC 1035, section 5.3, after a $TTL. */
static void reads_the_example(void)
{
    GIVES(ISI,
          "$TTL 1h\n"
          "@   IN  SOA     VENERA      Action\\.domains (\n"
          "                                 20     ; SERIAL\n"
          "                                 7200   ; REFRESH\n"
          "                                 600    ; RETRY\n"
          "                                 3600000; EXPIRE\n"
          "                                 60)    ; MINIMUM\n"
          "\n"
          "        NS      A.ISI.EDU.\n"
          "        NS      VENERA\n"
          "        MX      10      VENERA\n"
          "\n"
          "A       A       26.3.0.103\n"
          "\n"
          "VENERA  A       10.1.0.52\n"
          "        A       128.9.0.32\n"
          "\n"
          "$INCLUDE <SUBSYS>ISI-MAILBOXES.TXT\n",
          "2:1 ISI.EDU. 3600 IN SOA VENERA.ISI.EDU. Action\\.domains.ISI.EDU. 20 7200 600 3600000 60\n"
          "9:1 ISI.EDU. 3600 IN NS A.ISI.EDU.\n"
          "10:1 ISI.EDU. 3600 IN NS VENERA.ISI.EDU.\n"
          "11:1 ISI.EDU. 3600 IN MX 10 VENERA.ISI.EDU.\n"
          "13:1 A.ISI.EDU. 3600 IN A 26.3.0.103\n"
          "15:1 VENERA.ISI.EDU. 3600 IN A 10.1.0.52\n"
          "16:1 VENERA.ISI.EDU. 3600 IN A 128.9.0.32\n"
          "18:1 $INCLUDE <SUBSYS>ISI-MAILBOXES.TXT ISI.EDU.\n");
}

/* What is left out comes from the entries before (RFC 1035, section 5.1; RFC 2308, section 4). */
static void reads_what_is_left_out(void)
{
    GIVES(ISI, "a 5 IN A 1.2.3.4\n\tA 1.2.3.5\nb 7 A 1.2.3.6\nc A 1.2.3.7\n$TTL 9\nd A 1.2.3.8\ne IN 3 A 1.2.3.9\n  A 1.2.3.9",
          "1:1 a.ISI.EDU. 5 IN A 1.2.3.4\n2:1 a.ISI.EDU. 5 IN A 1.2.3.5\n3:1 b.ISI.EDU. 7 IN A 1.2.3.6\n"
          "4:1 c.ISI.EDU. 7 IN A 1.2.3.7\n6:1 d.ISI.EDU. 9 IN A 1.2.3.8\n7:1 e.ISI.EDU. 3 IN A 1.2.3.9\n"
          "8:1 e.ISI.EDU. 9 IN A 1.2.3.9\n");
    GIVES(ROOT, "$origin com.\n$ttl 1\nexample CH TXT \"a;b\" ; c\n$ORIGIN example\n@ TXT ( x\n ) y\nwww TXT \\\"\n",
          "3:1 example.com. 1 CH TXT \"a;b\"\n5:1 example.com. 1 CH TXT \"x\" \"y\"\n7:1 www.example.com. 1 CH TXT \"\\\"\"\n");
    /* names have any octets (RFC 2181, section 11) */
    GIVES(ROOT, "$TTL 1\n$ORIGIN \377.o.\na A 1.2.3.4\n", "3:1 a.\\255.o. 1 IN A 1.2.3.4\n");
    GIVES(ROOT, "$TTL 1\n. NULL \\# 3 ( 00\n0102\n)\n. TYPE65280 \\# 0\n", "2:1 . 1 IN NULL \\# 3 000102\n5:1 . 1 IN TYPE65280 \\# 0\n");
    GIVES(ROOT, "", "");
    GIVES(ROOT, "\n ; c\n\t\n(\n)\n;", "");
}

/* An SOA without a TTL has its minimum, and so has what follows it (BIND, dnspython); a caller's TTL comes last. */
static void knows_times_to_live(void)
{
    GIVES(ISI, "@ SOA ns h 1 2 3 4 300\n@ NS ns\nns 60 A 1.2.3.4\nb A 1.2.3.5\n",
          "1:1 ISI.EDU. 300 IN SOA ns.ISI.EDU. h.ISI.EDU. 1 2 3 4 300\n2:1 ISI.EDU. 300 IN NS ns.ISI.EDU.\n"
          "3:1 ns.ISI.EDU. 60 IN A 1.2.3.4\n4:1 b.ISI.EDU. 300 IN A 1.2.3.5\n");
    GIVES(ISI, "@ 7 SOA ns h 1 2 3 4 300\n@ NS ns\n",
          "1:1 ISI.EDU. 7 IN SOA ns.ISI.EDU. h.ISI.EDU. 1 2 3 4 300\n2:1 ISI.EDU. 7 IN NS ns.ISI.EDU.\n");
    struct dnw_zone zone;
    struct dnw_zone_entry entry;
    uint8_t octets[64];
    EXPECT(dnw_zone_begin(BYTES(ROOT), &zone) == DNW_DONE);
    zone.fallback_ttl = 9;
    zone.has_fallback_ttl = 1;
    EXPECT(dnw_zone_next(BYTES("a A 1.2.3.4\n"), false, &zone, octets, sizeof octets, &entry) == DNW_DONE);
    EXPECT(entry.kind == DNW_ZONE_RECORD && entry.ttl == 9 && zone.has_fallback_ttl == 1 && zone.has_default_ttl == 0);
}

/* A parenthesis at the start of a line is no white space, and parentheses may stand in others (BIND, dnspython, ldns). */
static void reads_parentheses(void)
{
    GIVES(ISI, "$TTL 9\na 5 TXT x\n(TXT TXT c)\n()b TXT c\n($TTL 7)\n ( TXT d )\nc A ((1.2.3.4))\n",
          "2:1 a.ISI.EDU. 5 IN TXT \"x\"\n3:1 TXT.ISI.EDU. 9 IN TXT \"c\"\n4:1 b.ISI.EDU. 9 IN TXT \"c\"\n"
          "6:1 b.ISI.EDU. 7 IN TXT \"d\"\n7:1 c.ISI.EDU. 7 IN A 1.2.3.4\n");
    uint8_t text[300];
    memset(text, '(', sizeof text);
    struct dnw_text_fault fault;
    EXPECT(dnw_record_text_fault(text, sizeof text, NULL, 0, &fault) == DNW_DONE);
    EXPECT(fault.offset == 255 && fault.reason == DNW_REASON_NESTED_PARENTHESIS);
}

/* After an error the next line is read, with what the entries before it said. */
static void reads_on_after_errors(void)
{
    GIVES(ISI, " A 1.2.3.4\n", "1:2 error: no owner is there, nor in an entry before `A`\n");
    GIVES(ISI, "a A 1.2.3.4\n", "1:3 error: no time to live is there, nor in an entry before `A`\n");
    GIVES(ISI, "$TTL 1\na..b A 1.2.3.4\na IN A 1.2.3.256\n",
          "2:1 error: the owner is no name `a..b`\n3:8 error: wanted an IPv4 address (field 0) `1.2.3.256`\n");
    GIVES(ISI, "$TTL 1\na A 1.2.3.4\n MX 1 x y\n MX 65536 x\n NOTYPE 1\n TXT x\n A 1.2.3.5 ) x\n A (( 1.2.3.6\n )\n)\n A 1.2.3.6 \\\n A 1.2.3.7\n",
          "2:1 a.ISI.EDU. 1 IN A 1.2.3.4\n3:9 error: wanted the end of the data (field 2) `y`\n"
          "4:5 error: wanted a number of at most 65535 (field 0) `65536`\n5:2 error: the type is unknown `NOTYPE`\n"
          "6:1 a.ISI.EDU. 1 IN TXT \"x\"\n7:12 error: no parenthesis is open ``\n"
          "8:1 a.ISI.EDU. 1 IN A 1.2.3.6\n11:13 error: the line ends after a backslash ``\n12:1 a.ISI.EDU. 1 IN A 1.2.3.7\n");
    /* OPT, and types of 128 to 255, are none of a zone (RFC 6895, section 3.1); a TTL has at most 2147483647 seconds (RFC 2181,
       section 8); NONE and ANY are no classes of records (RFC 6895, section 3.2) */
    GIVES(ISI, "a 1 OPT \\# 0\na 1 TYPE200 \\# 0\na 1 TYPE127 \\# 0\na 2147483648 A 1.2.3.4\n$TTL 2147483648\na 1 NONE A 1.2.3.4\n",
          "1:5 error: no zone has records of this type `OPT`\n2:5 error: no zone has records of this type `TYPE200`\n"
          "3:1 a.ISI.EDU. 1 IN TYPE127 \\# 0\n4:3 error: the time is too large `2147483648`\n"
          "5:6 error: the time is too large `2147483648`\n6:5 error: the type is unknown `NONE`\n");
    GIVES(ISI, "$TTL\n$TTL x\n$TTL 1 2\n$ORIGIN\n$ORIGIN a..\n$ORIGIN a b\n$INCLUDE\n$INCLUDE f a b\n$INCLUDE f a..\n$FOO\n$generate 1-2 a A 1\n",
          "1:5 error: no time is there ``\n2:6 error: no time is there `x`\n3:8 error: more words are there `2`\n"
          "4:8 error: no name is there ``\n5:9 error: no name is there `a..`\n6:11 error: more words are there `b`\n"
          "7:9 error: no file is there ``\n8:14 error: more words are there `b`\n9:12 error: no name is there `a..`\n"
          "10:1 error: no entry has this name `$FOO`\n11:1 error: $GENERATE is not read `$generate`\n");
    GIVES(ISI, "a 1 A ( 1.2.3.4\n ; )\n", "1:7 error: the text ends within parentheses ``\n");
    GIVES(ISI, "a 1 TXT \"a\"b \"c\n", "1:14 error: the line ends within a quoted string `\"c\n`\n");
    GIVES(ISI, "a 1 TXT \\# 2 00\na 1 A \\# 3 000000\na 1 TXT \"x\\256\"\n",
          "1:14 error: wanted as many octets in hexadecimal as the number says (field 1) `00`\n"
          "2:12 error: wanted octets that are data of the type (field 1) `000000`\n"
          "3:9 error: wanted character strings of at most 255 octets, one or more (field 0) `\"x\\256\"`\n");
}

/* Line ends: LF, CR before LF, and none at the end of the file. CR alone, NUL and other octets are as they are. */
static void reads_odd_lines(void)
{
    GIVES(ISI, "$TTL 1\r\na A 1.2.3.4\r\n A ( 1.2.3.5\r\n )\r\n\r\n A 1.2.3.6",
          "2:1 a.ISI.EDU. 1 IN A 1.2.3.4\n3:1 a.ISI.EDU. 1 IN A 1.2.3.5\n6:1 a.ISI.EDU. 1 IN A 1.2.3.6\n");
    GIVES(ISI, "$TTL 1\n\000 A 1.2.3.4\n\377\001 A 1.2.3.4\n",
          "2:1 \\000.ISI.EDU. 1 IN A 1.2.3.4\n3:1 \\255\\001.ISI.EDU. 1 IN A 1.2.3.4\n");
}

static void includes(void)
{
    GIVES(ISI, "$INCLUDE \"a b\" sub\n$include a\\;b x.y.\n$INCLUDE c;d\n$INCLUDE \"\"\n$INCLUDE \"a\\000b\"\n$INCLUDE \377\n$INCLUDE \\255\n"
               "$INCLUDE \"a\\256\"\n",
          "1:1 $INCLUDE a b sub.ISI.EDU.\n2:1 $INCLUDE a;b x.y.\n3:1 $INCLUDE c ISI.EDU.\n4:10 error: no file is there `\"\"`\n"
          "5:10 error: no file is there `\"a\\000b\"`\n6:10 error: no file is there `\377`\n7:1 $INCLUDE \377 ISI.EDU.\n"
          "8:10 error: no file is there `\"a\\256\"`\n");
    static const char text[] = "$TTL 7\na A 1.2.3.4\n$INCLUDE f sub\n A 1.2.3.6\n", file[] = " A 1.2.3.5\nb A 1.2.3.7\n$TTL 8\n$ORIGIN c.\n@ TXT x\n";
    struct dnw_zone outer;
    lines_len = 0;
    EXPECT(dnw_zone_begin(BYTES(ISI), &zone) == DNW_DONE);
    for (size_t at = 0; entry.kind != DNW_ZONE_INCLUDE; at += entry.used)
        next(text + at, sizeof text - 1 - at, false);
    outer = zone;
    EXPECT(dnw_zone_include(octets, entry.name_len, &zone) == DNW_DONE);
    EXPECT(zone.offset == 0 && zone.line == 0 && zone.column == 0);
    read_parts(file, sizeof file - 1, sizeof file - 1, 1);
    EXPECT(strcmp(lines, "1:1 a.ISI.EDU. 7 IN A 1.2.3.5\n2:1 b.sub.ISI.EDU. 7 IN A 1.2.3.7\n5:1 c. 8 IN TXT \"x\"\n") == 0);
    zone = outer;
    lines_len = 0;
    read_parts(text + zone.offset, sizeof text - 1 - zone.offset, 99, 1);
    EXPECT(strcmp(lines, "4:1 a.ISI.EDU. 7 IN A 1.2.3.6\n") == 0);
}

/* Just as many octets as are stored are enough, and one less is not. The call can be made again. */
static void lacks_room(void)
{
    static const char *const texts[] = {"$INCLUDE f\n", "a 1 A 1.2.3.4\n"};
    for (size_t n = 0; n < 2; n++) {
        size_t len = strlen(texts[n]), size = n == 0 ? 10 : 11 + 10 + 4;
        EXPECT(dnw_zone_begin(BYTES(ISI), &zone) == DNW_DONE);
        EXPECT(next_in(texts[n], len, false, 0) == DNW_NO_ROOM && next_in(texts[n], len, false, size - 1) == DNW_NO_ROOM);
        EXPECT(next_in(texts[n], len, false, size) == DNW_DONE && entry.len == size);
        EXPECT(next_in(texts[n] + len, 0, false, 0) == DNW_DONE && entry.kind == DNW_ZONE_END);
    }
}

/* Entries that are read in one call, into so many rows and octets. A call that fails stores nothing. */
enum { ROWS = 16, ALL_OCTETS = 4 * DNW_ZONE_OCTETS_SIZE };
static struct dnw_zone_row rows[ROWS + 1];
static uint8_t row_octets[ALL_OCTETS];
static struct dnw_rows_read got;

static uint32_t read_in(const char *text, size_t len, bool more, size_t most, size_t size)
{
    static uint8_t rest[ALL_OCTETS];
    struct dnw_zone was = zone;
    struct dnw_zone_row row;
    memset(rest, 0xAA, sizeof rest);
    memset(&row, 0xAA, sizeof row);
    memset(rows, 0xAA, sizeof rows);
    memset(row_octets, 0xAA, sizeof row_octets);
    memset(&got, 0xAA, sizeof got);
    uint32_t answer = dnw_zone_read((const uint8_t *)text, len, more, &zone, rows, most, row_octets, size, &got);
    size_t row_count = answer == DNW_DONE ? got.row_count : 0, octets_len = answer == DNW_DONE ? got.octets_len : 0;
    EXPECT(row_count <= most && octets_len <= size && memcmp(row_octets + octets_len, rest, sizeof rest - octets_len) == 0);
    for (size_t n = row_count; n <= ROWS; n++)
        EXPECT(memcmp(rows + n, &row, sizeof row) == 0);
    if (answer != DNW_DONE)
        EXPECT(memcmp(&zone, &was, sizeof was) == 0 && memcmp(&got, rest, sizeof got) == 0);
    else
        EXPECT(got.used <= len && zone.offset == was.offset + got.used);
    return answer;
}

/* Says the lines of rows, each with the offset of its entry in the text. */
static const char *say_rows(void)
{
    static uint8_t line[ROOM];
    size_t end = 0;
    lines_len = 0;
    lines[0] = '\0';
    for (size_t n = 0; n < got.row_count; n++) {
        struct dnw_printed_record printed;
        const struct dnw_zone_row *row = rows + n;
        EXPECT(row->start == end && row->name_len + 10 + row->data_len == row->len);
        end += row->len;
        EXPECT(dnw_record_print(row_octets, end, row->start, line, sizeof line, &printed) == DNW_DONE && printed.end == end);
        say_number(row->offset);
        say_text(" ");
        say((const char *)line, printed.len);
        say_text("\n");
    }
    EXPECT(end == got.octets_len);
    return lines;
}

/* Rows are the records of the entries up to what has no row, and the state is after these. */
static void reads_rows(void)
{
    static const char text[] = "; c\n\n$TTL 5\na A 1.2.3.4\n A ( 1.2.3.5 ; c\n )\n\n$ORIGIN b.\nc 7 CH TXT x\n\n";
    static const char wanted[] = "12 a.ISI.EDU. 5 IN A 1.2.3.4\n24 a.ISI.EDU. 5 IN A 1.2.3.5\n56 c.b. 7 CH TXT \"x\"\n";
    EXPECT(dnw_zone_begin(BYTES(ISI), &zone) == DNW_DONE);
    EXPECT(read_in(text, sizeof text - 1, false, ROWS, ALL_OCTETS) == DNW_DONE && got.next == DNW_ZONE_END);
    EXPECT(strcmp(say_rows(), wanted) == 0 && got.used == sizeof text - 1);
    EXPECT(zone.line == 10 && zone.column == 0 && zone.origin_len == 3 && zone.default_ttl == 5 && zone.last_ttl == 7);
    EXPECT(zone.record_class == 3 && zone.owner_len == 5 && memcmp(zone.owner, "\001c\001b", 5) == 0);
    EXPECT(rows[2].record_class == 3 && rows[2].record_type == DNW_TYPE_TXT && rows[2].ttl == 7 && rows[2].data_len == 2);
    EXPECT(rows[1].start == rows[0].len && rows[1].name_len == 11 && rows[1].record_type == DNW_TYPE_A && rows[1].record_class == 1);
}

/* Without a row nothing is read, and with one up to the next record. No octet less is enough than any record may have. */
static void reads_rows_at_the_limits(void)
{
    static const char text[] = "\n;\na 1 A 1.2.3.4\n\n;\nb A 1.2.3.5\n\n";
    EXPECT(dnw_zone_begin(BYTES(ISI), &zone) == DNW_DONE);
    EXPECT(read_in(text, sizeof text - 1, false, ROWS, DNW_ZONE_OCTETS_SIZE - 1) == DNW_NO_ROOM);
    EXPECT(read_in(text, sizeof text - 1, false, 0, DNW_ZONE_OCTETS_SIZE - 1) == DNW_NO_ROOM);
    EXPECT(read_in(text, sizeof text - 1, false, 0, DNW_ZONE_OCTETS_SIZE) == DNW_DONE);
    EXPECT(got.next == DNW_ZONE_RECORD && got.used == 0 && got.row_count == 0);
    EXPECT(read_in(text, sizeof text - 1, false, 1, ALL_OCTETS) == DNW_DONE && got.next == DNW_ZONE_RECORD && got.used == 17);
    EXPECT(strcmp(say_rows(), "3 a.ISI.EDU. 1 IN A 1.2.3.4\n") == 0 && zone.line == 3);
    EXPECT(read_in(text + 17, sizeof text - 18, false, 2, DNW_ZONE_OCTETS_SIZE) == DNW_DONE && got.next == DNW_ZONE_RECORD);
    EXPECT(strcmp(say_rows(), "3 b.ISI.EDU. 1 IN A 1.2.3.5\n") == 0 && zone.line == 6);
    EXPECT(read_in(text + zone.offset, sizeof text - 1 - zone.offset, false, 2, DNW_ZONE_OCTETS_SIZE) == DNW_DONE);
    EXPECT(got.next == DNW_ZONE_END && got.row_count == 0 && got.used == 1 && zone.offset == sizeof text - 1);
    /* two records of 25 octets have room where one may have as many as any */
    EXPECT(dnw_zone_begin(BYTES(ISI), &zone) == DNW_DONE);
    EXPECT(read_in(text, sizeof text - 1, false, ROWS, DNW_ZONE_OCTETS_SIZE + 24) == DNW_DONE && got.row_count == 1);
    EXPECT(dnw_zone_begin(BYTES(ISI), &zone) == DNW_DONE);
    EXPECT(read_in(text, sizeof text - 1, false, ROWS, DNW_ZONE_OCTETS_SIZE + 25) == DNW_DONE && got.row_count == 2 && got.next == DNW_ZONE_RECORD);
    EXPECT(dnw_zone_begin(BYTES(ISI), &zone) == DNW_DONE);
    EXPECT(read_in(text, sizeof text - 1, false, ROWS, DNW_ZONE_OCTETS_SIZE + 50) == DNW_DONE && got.row_count == 2 && got.next == DNW_ZONE_END);
    zone.origin_len = 0;
    EXPECT(read_in(text, sizeof text - 1, false, ROWS, ALL_OCTETS) == DNW_BAD_ITEM);
    EXPECT(read_in(text, sizeof text - 1, false, ROWS, DNW_ZONE_OCTETS_SIZE - 1) == DNW_NO_ROOM);
}

/* It stops before what has no row: the call for one entry takes it, and the next call goes on after it. */
static void rows_stop(void)
{
    static const char text[] = "a 1 A 1.2.3.4\n$INCLUDE f\n\nb A 1.2.3.256\nc A 1.2.3.4\nd A ( 1.2.3.5\n";
    EXPECT(dnw_zone_begin(BYTES(ISI), &zone) == DNW_DONE);
    EXPECT(read_in(text, sizeof text - 1, true, ROWS, ALL_OCTETS) == DNW_DONE && got.next == DNW_ZONE_INCLUDE);
    EXPECT(strcmp(say_rows(), "0 a.ISI.EDU. 1 IN A 1.2.3.4\n") == 0 && zone.offset == 14);
    next(text + 14, sizeof text - 15, true);
    EXPECT(entry.kind == DNW_ZONE_INCLUDE && zone.offset == 25);
    EXPECT(read_in(text + 25, sizeof text - 26, true, ROWS, ALL_OCTETS) == DNW_DONE && got.next == DNW_ZONE_ERROR);
    EXPECT(got.row_count == 0 && got.used == 1 && zone.owner_len == 11 && zone.owner[1] == 'a');
    next(text + 26, sizeof text - 27, true);
    EXPECT(entry.kind == DNW_ZONE_ERROR && entry.line == 4);
    EXPECT(read_in(text + zone.offset, sizeof text - 1 - zone.offset, true, ROWS, ALL_OCTETS) == DNW_DONE && got.next == DNW_ZONE_MORE);
    EXPECT(strcmp(say_rows(), "0 c.ISI.EDU. 1 IN A 1.2.3.4\n") == 0 && got.used == 12);
    EXPECT(read_in(text + zone.offset, sizeof text - 1 - zone.offset, false, ROWS, ALL_OCTETS) == DNW_DONE && got.next == DNW_ZONE_ERROR);
    EXPECT(got.used == 0);
    EXPECT(read_in("", 0, true, ROWS, ALL_OCTETS) == DNW_DONE && got.next == DNW_ZONE_MORE);
    EXPECT(read_in("", 0, false, ROWS, ALL_OCTETS) == DNW_DONE && got.next == DNW_ZONE_END);
}

/* $GENERATE as named-compilezone (BIND 9.18) reads it, if the caller wants it. */
static void generates(void)
{
    generate_limit = 3;
    GIVES(ISI, "$TTL 60\n$GENERATE 1-6/2 a$ A 1.2.3.$ ; c\nb A 1.2.3.4\n$generate 2147483647-2147483647 ( @ IN 7\n TXT ) \\$$b\n",
          "2:1 a1.ISI.EDU. 60 IN A 1.2.3.1\n2:1 a3.ISI.EDU. 60 IN A 1.2.3.3\n2:1 a5.ISI.EDU. 60 IN A 1.2.3.5\n"
          "3:1 b.ISI.EDU. 60 IN A 1.2.3.4\n4:1 ISI.EDU. 7 IN TXT \"$2147483647b\"\n");
    GIVES(ROOT, "$GENERATE 1-2 $$a$ 7 MX \"10 m${10}\"\n$GENERATE 1-1 a TXT \"\\\"foo \\\\ \\$\\\" ${0}\"\n",
          "1:1 \\$a1. 7 IN MX 10 m11.\n1:1 \\$a2. 7 IN MX 10 m12.\n2:1 a. 7 IN TXT \"foo \\\\ $\" \"1\"\n");
    GIVES(ROOT, "$GENERATE 1-1 a 7 TXT \"${-10} ${+10} ${-10,5} ${10,5} ${-10,5,d} ${-1,2,d} ${00,05}\"\n",
          "1:1 a. 7 IN TXT \"-9\" \"11\" \"-0009\" \"00011\" \"-0009\" \"00\" \"00001\"\n");
    GIVES(ROOT, "$GENERATE 1-1 a 7 TXT \"${254,5,x} ${254,5,X} ${254,5,o} ${-10,5,x} ${-10,5,o} ${254,0,x}\"\n",
          "1:1 a. 7 IN TXT \"000ff\" \"000FF\" \"00377\" \"fffffff7\" \"37777777767\" \"ff\"\n");
    GIVES(ROOT, "$GENERATE 1-1 a 7 TXT \"${254,0,n} ${254,2,n} ${254,3,n} ${254,4,n} ${254,5,N} ${254,6,N} ${-10,5,n} ${-1,2,n}\"\n",
          "1:1 a. 7 IN TXT \"f.f\" \"f.f\" \"f.f\" \"f.f.\" \"F.F.0\" \"F.F.0.\" \"7.f.f.f.f.f.f.f\" \"0.\"\n");
    GIVES(ROOT, "$TTL 1\n$GENERATE 254-256 a$ A 1.2.3.$\n A 1.2.3.4\n$GENERATE 1-4 a$ A 1.2.3.4\n$GENERATE 2-1 a$ A 1.2.3.4\n"
                "$GENERATE 1-2/0 a$ A 1.2.3.4\n$GENERATE\n$GENERATE 1-1 a\n$GENERATE 1-1 a BOGUS b\n$GENERATE 1-1 a A 1.2.3.4 x\n"
                "$GENERATE 1-1 a..$ A 1.2.3.4\n$GENERATE 1-1 a TXT ${0,5,b}\n$GENERATE 1-1 a${ A 1.2.3.4\n$GENERATE 1-1 a TXT ${2147483647}\n",
          "2:1 a254. 1 IN A 1.2.3.254\n2:1 a255. 1 IN A 1.2.3.255\n2:24 error: wanted an IPv4 address (field 0) `1.2.3.$`\n"
          "3:1 a255. 1 IN A 1.2.3.4\n4:11 error: more records than the limit `1-4`\n5:11 error: no range is there `2-1`\n"
          "6:11 error: no range is there `1-2/0`\n7:10 error: no range is there ``\n8:16 error: wanted a record type ``\n"
          "9:17 error: the type is unknown `BOGUS`\n10:27 error: more words are there `x`\n11:15 error: the owner is no name `a..$`\n"
          "12:21 error: wanted $ or ${offset,width,base} `${0,5,b}`\n13:15 error: wanted $ or ${offset,width,base} `a${`\n"
          "14:21 error: wanted $ or ${offset,width,base} `${2147483647}`\n");
    generate_limit = 0;
}

/* The state is plain data: a call fails or reads on, whatever it holds. */
static void states_are_spoiled(void)
{
    static const char text[] = " A 1.2.3.4\n";
    struct dnw_zone good;
    EXPECT(dnw_zone_begin(BYTES(ISI), &zone) == DNW_DONE);
    next("a 1 A 1.2.3.4\n", 14, false);
    good = zone;
    for (size_t at = 0; at < sizeof zone; at++)
        for (unsigned octet = 0; octet < 256; octet += at < offsetof(struct dnw_zone, origin) ? 1 : 17) {
            zone = good;
            ((uint8_t *)&zone)[at] = (uint8_t)octet;
            struct dnw_zone was = zone;
            uint32_t answer = dnw_zone_next(BYTES(text), false, &zone, octets, sizeof octets, &entry);
            EXPECT(answer == DNW_DONE || (answer == DNW_BAD_ITEM && memcmp(&zone, &was, sizeof was) == 0));
            zone = was;
            EXPECT(dnw_zone_include(BYTES(ISI), &zone) == answer);
        }
    zone = good;
    zone.origin_len = 0;
    EXPECT(next_in(text, sizeof text - 1, false, 100) == DNW_BAD_ITEM);
    zone = good;
    zone.owner[0] = 192;
    EXPECT(next_in(text, sizeof text - 1, false, 100) == DNW_BAD_ITEM);
    zone = good;
    zone.owner_len -= 1;
    EXPECT(next_in(text, sizeof text - 1, false, 100) == DNW_BAD_ITEM);
    zone = good;
    zone.offset = zone.line = zone.column = SIZE_MAX;
    EXPECT(dnw_zone_next(BYTES(text), false, &zone, octets, sizeof octets, &entry) == DNW_DONE && entry.kind == DNW_ZONE_RECORD);
    EXPECT(zone.offset == SIZE_MAX && zone.line == SIZE_MAX && zone.column == 0 && entry.line == SIZE_MAX && entry.column == SIZE_MAX);
}

static void refuses_origins(void)
{
    memset(&zone, 7, sizeof zone);
    struct dnw_zone was = zone;
    EXPECT(dnw_zone_begin(BYTES(""), &zone) == DNW_MESSAGE_CUT && dnw_zone_begin(BYTES("\001a"), &zone) == DNW_MESSAGE_CUT);
    EXPECT(dnw_zone_begin(BYTES("\000\000"), &zone) == DNW_BYTES_LEFT && dnw_zone_begin(BYTES("\300\000"), &zone) == DNW_POINTER_NOT_BACK);
    EXPECT(memcmp(&zone, &was, sizeof was) == 0);
    EXPECT(dnw_zone_begin(BYTES(ISI), &zone) == DNW_DONE);
    was = zone;
    EXPECT(dnw_zone_include(BYTES(""), &zone) == DNW_MESSAGE_CUT && dnw_zone_include(BYTES("\100"), &zone) == DNW_RESERVED_OCTET);
    EXPECT(memcmp(&zone, &was, sizeof was) == 0 && zone.record_class == DNW_CLASS_IN && zone.origin_len == 9 && zone.owner_len == 0);
}

/* What is written after the same entries leaves out what they say, and the state is the reader's. */
static void writes_lines(void)
{
    static const char text[] = "$ORIGIN example.\n$TTL 60\n@ IN TXT \"a\"\n 5 IN TXT \"b\"\nx.y IN A 192.0.2.1\nY.EXAMPLE. CH TXT \"c\"\n"
                               "xexample. IN A 192.0.2.1\n\\@ IN TYPE1234 \\# 0\n. IN A 192.0.2.1\n";
    struct dnw_zone written;
    struct dnw_printed_record printed;
    uint8_t out[sizeof text];
    size_t len, at = 0, read = 0;
    EXPECT(dnw_zone_begin(BYTES(ROOT), &written) == DNW_DONE && dnw_zone_begin(BYTES(ROOT), &zone) == DNW_DONE);
    EXPECT(dnw_zone_put_origin(BYTES("\007example\000"), &written, out, sizeof out, &len) == DNW_DONE && len == 17);
    at += len;
    EXPECT(dnw_zone_put_ttl(60, &written, out + at, 8, &len) == DNW_DONE && len == 8);
    at += len;
    for (;;) {
        EXPECT(dnw_zone_next((const uint8_t *)text + read, sizeof text - 1 - read, false, &zone, octets, sizeof octets, &entry) == DNW_DONE);
        EXPECT(entry.kind != DNW_ZONE_ERROR);
        read += entry.used;
        if (entry.kind == DNW_ZONE_END)
            break;
        if (entry.kind == DNW_ZONE_NOTHING)
            continue;
        EXPECT(dnw_zone_put_record(octets, entry.len, 0, &written, out + at, sizeof out - at, &printed) == DNW_DONE);
        EXPECT(printed.len == entry.used && printed.end == entry.len);
        at += printed.len;
        EXPECT(memcmp(&written, &zone, sizeof zone) == 0);
    }
    EXPECT(at == sizeof text - 1 && memcmp(out, text, at) == 0);
}

static void writes_nothing(void)
{
    static const uint8_t record[] = "\001a\000\000\001\000\001\000\000\000\074\000\004\300\000\002\001";
    uint8_t out[32] = {7}, old[32] = {7};
    struct dnw_printed_record printed = {7, 7};
    size_t len = 7;
    EXPECT(dnw_zone_begin(BYTES(ROOT), &zone) == DNW_DONE);
    struct dnw_zone was = zone;
    EXPECT(dnw_zone_put_ttl(60, &zone, out, 7, &len) == DNW_NO_ROOM && dnw_zone_put_origin(BYTES(ISI), &zone, out, 16, &len) == DNW_NO_ROOM);
    EXPECT(dnw_zone_put_origin(BYTES(""), &zone, out, sizeof out, &len) == DNW_MESSAGE_CUT);
    EXPECT(dnw_zone_put_origin(BYTES("\001a"), &zone, out, sizeof out, &len) == DNW_MESSAGE_CUT);
    EXPECT(dnw_zone_put_record(record, sizeof record - 1, 0, &zone, out, 20, &printed) == DNW_NO_ROOM);
    EXPECT(dnw_zone_put_record(record, sizeof record - 1, sizeof record, &zone, out, sizeof out, &printed) == DNW_MESSAGE_CUT);
    EXPECT(dnw_zone_put_record(record, sizeof record - 2, 0, &zone, out, sizeof out, &printed) == DNW_MESSAGE_CUT);
    zone.origin[0] = was.origin[0] = 192;
    EXPECT(dnw_zone_put_record(record, sizeof record - 1, 0, &zone, out, sizeof out, &printed) == DNW_BAD_ITEM);
    EXPECT(dnw_zone_put_ttl(60, &zone, out, sizeof out, &len) == DNW_BAD_ITEM);
    EXPECT(dnw_zone_put_origin(BYTES(ISI), &zone, out, sizeof out, &len) == DNW_BAD_ITEM);
    EXPECT(memcmp(&zone, &was, sizeof was) == 0 && memcmp(out, old, sizeof old) == 0 && len == 7 && printed.len == 7 && printed.end == 7);
}

/* A million parentheses, octets and lines take as many steps as they have lines, and as little memory. */
static void reads_hostile_texts(void)
{
    static const char kinds[] = "(\")a \000\\;";
    static char text[1 << 20];
    for (size_t n = 0; n < sizeof kinds - 1; n++) {
        memset(text, kinds[n], sizeof text);
        EXPECT(dnw_zone_begin(BYTES(ROOT), &zone) == DNW_DONE);
        next(text, sizeof text, true);
        next(text, sizeof text, false);
        EXPECT(entry.used == sizeof text);
        next(text, 0, false);
        EXPECT(entry.kind == DNW_ZONE_END && zone.offset == sizeof text && zone.column == sizeof text);
    }
    for (size_t kind = 0; kind < 2; kind++) {
        memset(text, "\n\r"[kind], sizeof text);
        EXPECT(dnw_zone_begin(BYTES(ROOT), &zone) == DNW_DONE);
        for (size_t n = 0; n < sizeof text; n++)
            EXPECT(dnw_zone_next((const uint8_t *)text + n, sizeof text - n, false, &zone, octets, 0, &entry) == DNW_DONE && entry.used == 1);
        EXPECT(kind == 0 ? zone.line == sizeof text && zone.column == 0 : zone.line == 0 && zone.column == sizeof text);
        struct dnw_zone after = zone;
        EXPECT(dnw_zone_begin(BYTES(ROOT), &zone) == DNW_DONE && read_in(text, sizeof text, false, 1, ALL_OCTETS) == DNW_DONE);
        EXPECT(got.next == DNW_ZONE_END && got.used == sizeof text && memcmp(&zone, &after, sizeof zone) == 0);
    }
}

/* The lines of a zone, in canonical order of their owners, and a line for each finding. */
static const char *const checked[] = {
    "a. 60 SOA ns.a. h.a. 1 2 3 4 5",
    "a. 60 SOA ns.a. h.a. 2 2 3 4 5",
    "a. 60 NS ns.a.",
    "A. 60 NS lost.a.",
    "c.a. 60 CNAME ns.a.",
    "c.a. 60 TXT x",
    "d.a. 60 DNAME b.",
    "x.d.a. 60 TXT x",
    "ds.a. 60 DS 1 13 1 0000000000000000000000000000000000000000",
    "m.a. 60 MX 5 c.a.",
    "n_s.a. 60 A 192.0.2.1",
    "ns.a. 60 A 192.0.2.1",
    "ns.a. 61 A 192.0.2.2",
    "s.a. 60 SOA ns.a. h.a. 1 2 3 4 5",
    "sub.a. 60 NS sub.a.",
    "sub.a. 60 A 192.0.2.3",
    "x.sub.a. 60 TXT x",
    "z.a. 60 CH TXT x",
    "b. 60 TXT x",
};
static const struct dnw_zone_finding wanted[] = {
    {DNW_CHECK_TWO_OF_ONE, true, 1, 0},         {DNW_CHECK_NO_ADDRESS, true, 3, SIZE_MAX},
    {DNW_CHECK_CNAME_AND_OTHER, true, 4, 5},    {DNW_CHECK_BELOW_DNAME, true, 7, 6},
    {DNW_CHECK_DS_ELSEWHERE, true, 8, SIZE_MAX}, {DNW_CHECK_SERVER_IS_ALIAS, true, 9, 4},
    {DNW_CHECK_NO_HOST_NAME, false, 10, SIZE_MAX}, {DNW_CHECK_OTHER_TTL, false, 12, 11},
    {DNW_CHECK_SOA_ELSEWHERE, true, 13, SIZE_MAX}, {DNW_CHECK_BELOW_DELEGATION, false, 16, 14},
    {DNW_CHECK_OTHER_CLASS, true, 17, SIZE_MAX}, {DNW_CHECK_OUT_OF_ZONE, true, 18, SIZE_MAX},
};

/* A zone with servers, wildcards, digests and tags that are wrong, and some that are right, and a line for each finding. */
static const char *const served[] = {
    "a. 60 SOA ns.a. h.a. 1 2 3 4 5",
    "A. 60 SOA NS.a. h.A. 1 2 3 4 5",
    "a. 60 NS ns.a.",
    "a. 60 MX 1 192.0.2.9.",
    "a. 60 MX 1 any.deep.w.a.",
    "a. 60 MX 1 w.a.",
    "c.a. 60 CAA \\# 6 0003612d6278",
    "d.a. 60 DNAME b.",
    "d.a. 60 NS ns.a.",
    "ns.a. 60 A 192.0.2.1",
    "s.a. 60 NS ns.t.a.",
    "s.a. 60 DS 1 13 2 aa",
    "t.a. 60 NS ns.t.a.",
    "*.w.a. 60 A 192.0.2.2",
    "*.x.a. 60 NS ns.a.",
};
static const struct dnw_zone_finding wanted_served[] = {
    {DNW_CHECK_SERVER_IS_ADDRESS, false, 3, SIZE_MAX},
    {DNW_CHECK_NO_SERVER_ADDRESS, false, 5, SIZE_MAX},
    {DNW_CHECK_CAA_TAG, true, 6, SIZE_MAX},
    {DNW_CHECK_NS_AND_DNAME, true, 7, 8},
    {DNW_CHECK_NO_SIBLING_GLUE, false, 10, SIZE_MAX},
    {DNW_CHECK_DIGEST_LENGTH, true, 11, SIZE_MAX},
    {DNW_CHECK_NO_ADDRESS, true, 12, SIZE_MAX},
    {DNW_CHECK_WILDCARD_NS, false, 14, SIZE_MAX},
};

static void checks_zones(void)
{
    static uint8_t records[ROOM];
    struct dnw_zone_finding found[32] = {{0, false, 0, 0}};
    size_t end = 0, last = 0, len = 0, count = 77;
    const size_t all = sizeof wanted / sizeof *wanted;
    for (size_t n = 0; n < sizeof checked / sizeof *checked; n++, last = end, end += len)
        EXPECT(dnw_record_parse((const uint8_t *)checked[n], strlen(checked[n]), NULL, 0, records + end, sizeof records - end, &len) == DNW_DONE);
    EXPECT(dnw_zone_check(BYTES("\001A\000"), records, end, found, all - 1, &count) == DNW_NO_ROOM && count == 77);
    EXPECT(dnw_zone_check(BYTES("\001A\000"), records, end, found, 32, &count) == DNW_DONE && count == all);
    for (size_t n = 0; n < all; n++)
        EXPECT(found[n].check == wanted[n].check && found[n].is_error == wanted[n].is_error && found[n].number == wanted[n].number && found[n].other == wanted[n].other);
    EXPECT(found[all].check == 0);
    EXPECT(dnw_zone_check(BYTES("\001a\000"), records, 0, found, 2, &count) == DNW_DONE && count == 2);
    EXPECT(found[0].check == DNW_CHECK_NO_SOA && found[0].number == SIZE_MAX && found[1].check == DNW_CHECK_NO_NS && found[1].is_error);
    EXPECT(dnw_zone_check(BYTES("\001a\000"), records, end - 1, found, 32, &count) == DNW_MESSAGE_CUT && count == 2);
    EXPECT(dnw_zone_check(BYTES("\001a"), records, end, found, 32, &count) == DNW_MESSAGE_CUT);
    EXPECT(dnw_zone_check(BYTES("\001a\000\000"), records, end, found, 32, &count) == DNW_BYTES_LEFT);
    memcpy(records + end, records + last, end - last);
    memcpy(records + end, "\001a", 2);
    EXPECT(dnw_zone_check(BYTES("\001a\000"), records, end + end - last, found, 32, &count) == DNW_BAD_ITEM && count == 2);
}

static void checks_servers(void)
{
    static uint8_t records[ROOM];
    struct dnw_zone_finding found[32] = {{0, false, 0, 0}};
    size_t end = 0, len = 0, count = 0;
    for (size_t n = 0; n < sizeof served / sizeof *served; n++, end += len)
        EXPECT(dnw_record_parse((const uint8_t *)served[n], strlen(served[n]), NULL, 0, records + end, sizeof records - end, &len) == DNW_DONE);
    EXPECT(dnw_zone_check(BYTES("\001a\000"), records, end, found, 32, &count) == DNW_DONE && count == sizeof wanted_served / sizeof *wanted_served);
    for (size_t n = 0; n < count; n++)
        EXPECT(found[n].check == wanted_served[n].check && found[n].is_error == wanted_served[n].is_error && found[n].number == wanted_served[n].number && found[n].other == wanted_served[n].other);
}

int main(void)
{
    reads_the_example();
    reads_what_is_left_out();
    knows_times_to_live();
    reads_parentheses();
    reads_on_after_errors();
    reads_odd_lines();
    includes();
    lacks_room();
    reads_rows();
    reads_rows_at_the_limits();
    rows_stop();
    generates();
    states_are_spoiled();
    refuses_origins();
    writes_lines();
    writes_nothing();
    reads_hostile_texts();
    checks_zones();
    checks_servers();
    return 0;
}
