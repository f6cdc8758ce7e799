/* Prints a DNS message as dig does, or sorts names, with the C library.

       dns_show [FILE]          prints the message in a file or on standard input, in binary or in hexadecimal
       dns_show --sort [FILE]   prints the names in a file, one a line, in canonical order (RFC 4034, section 6.1)

   It exits with 1 if the input is rejected, and with 2 on a usage error.

       cc -Iinclude examples/dns_show.c -ldns_names_wire -o dns_show */
#include <arpa/inet.h>
#include <ctype.h>
#include <stdio.h>
#include <stdlib.h>
#include <string.h>

#include "dns_names_wire.h"

struct bytes {
    uint8_t *at;
    size_t len;
};

static _Noreturn void reject(size_t offset, const char *why, size_t len)
{
    fflush(stdout);
    fprintf(stderr, "dns_show: at offset %zu: %.*s\n", offset, (int)len, why);
    exit(1);
}

static _Noreturn void reject_failure(size_t offset, uint32_t failure)
{
    uint8_t text[64];
    reject(offset, (const char *)text, dnw_error_text(failure, text, sizeof text));
}

static void *room(void *old, size_t size)
{
    void *block = realloc(old, size);
    if (block == NULL)
        reject(0, "out of memory", 13);
    return block;
}

static struct bytes read_all(const char *path)
{
    FILE *file = path == NULL ? stdin : fopen(path, "rb");
    if (file == NULL) {
        perror(path);
        exit(2);
    }
    struct bytes all = {room(NULL, 4096), 0};
    for (size_t size = 4096, got; (got = fread(all.at + all.len, 1, size - all.len, file)) > 0;) {
        all.len += got;
        if (all.len == size)
            all.at = room(all.at, size *= 2);
    }
    if (file != stdin)
        fclose(file);
    return all;
}

/* If the bytes are hexadecimal digits and white space, replaces them with the octets that they encode. */
static void from_hex(struct bytes *all)
{
    size_t digits = 0;
    for (size_t i = 0; i < all->len; i++) {
        if (isxdigit(all->at[i]))
            digits++;
        else if (!isspace(all->at[i]))
            return;
    }
    size_t len = 0, high = 0;
    for (size_t i = 0; i < all->len; i++) {
        int c = tolower(all->at[i]);
        if (isspace(c))
            continue;
        high = high << 4 | (size_t)(isdigit(c) ? c - '0' : c - 'a' + 10);
        if (++len % 2 == 0)
            all->at[len / 2 - 1] = (uint8_t)high;
    }
    if (digits % 2 != 0)
        reject(digits / 2, "half an octet in hexadecimal", 28);
    all->len = len / 2;
}

/* A cursor over a part of a message, up to `end`. */
struct cursor {
    const struct bytes *message;
    size_t at, end;
};

static const uint8_t *take(struct cursor *from, size_t len)
{
    if (from->end - from->at < len)
        reject(from->at, "the message or the record ends too early", 40);
    from->at += len;
    return from->message->at + from->at - len;
}

static unsigned take_u8(struct cursor *from)
{
    return take(from, 1)[0];
}

static unsigned take_u16(struct cursor *from)
{
    const uint8_t *octets = take(from, 2);
    return (unsigned)octets[0] << 8 | octets[1];
}

static unsigned long take_u32(struct cursor *from)
{
    unsigned long high = take_u16(from);
    return high << 16 | take_u16(from);
}

static void show_name(struct cursor *from)
{
    uint8_t text[DNW_TEXT_SIZE];
    struct dnw_read_name read;
    uint32_t failure =
        dnw_name_read_text(from->message->at, from->message->len, from->at, text, sizeof text, &read);
    if (failure != DNW_DONE)
        reject_failure(from->at, failure);
    if (read.end > from->end)
        reject(from->at, "the message or the record ends too early", 40);
    from->at = read.end;
    printf("%.*s", (int)read.len, (const char *)text);
}

/* The fields of the data of a type: n is a name; 1, 2 and 4 are a number of as many octets; a is the address of A, and 6 that
   of AAAA; s is strings, t a tag and a value, x octets in hexadecimal, and b a type bitmap. */
static const struct {
    unsigned code;
    const char *data;
} kinds[] = {
    {1, "a"},    {2, "n"},  {5, "n"},  {6, "nn44444"}, {12, "n"},   {15, "2n"},  {16, "s"},
    {28, "6"}, {33, "222n"}, {39, "n"}, {43, "211x"},   {47, "nb"}, {257, "1t"},
};
#define OPT 41

static const char *data_of(unsigned code)
{
    for (size_t i = 0; i < sizeof kinds / sizeof *kinds; i++)
        if (kinds[i].code == code)
            return kinds[i].data;
    return "";
}

static void show_code_text(uint32_t (*print)(uint16_t, uint8_t *, size_t, size_t *), unsigned code)
{
    uint8_t text[DNW_CODE_SIZE];
    size_t len = 0;
    print((uint16_t)code, text, sizeof text, &len);
    printf("%.*s", (int)len, (const char *)text);
}

static void show_type(unsigned code)
{
    show_code_text(dnw_type_print, code);
}

static void show_class(unsigned code)
{
    show_code_text(dnw_class_print, code);
}

static void show_hex(struct cursor *from)
{
    while (from->at < from->end)
        printf("%02x", take_u8(from));
}

static void show_string(const uint8_t *octets, size_t len)
{
    putchar('"');
    for (size_t i = 0; i < len; i++) {
        if (octets[i] < 32 || octets[i] > 126)
            printf("\\%03d", octets[i]);
        else
            printf("%s%c", octets[i] == '"' || octets[i] == '\\' ? "\\" : "", octets[i]);
    }
    putchar('"');
}

static void show_address(struct cursor *from, int family, size_t len)
{
    char text[INET6_ADDRSTRLEN];
    inet_ntop(family, take(from, len), text, sizeof text);
    printf("%s", text);
}

/* Prints the types of a bitmap (RFC 4034, section 4.1.2). */
static void show_types(struct cursor *from)
{
    size_t len = from->end - from->at, count = 0;
    uint16_t *codes = room(NULL, (8 * len + 1) * sizeof *codes);
    uint32_t failure = dnw_types_read(from->message->at + from->at, len, codes, 8 * len, &count);
    if (failure != DNW_DONE)
        reject_failure(from->at, failure);
    take(from, len);
    for (size_t i = 0; i < count; i++) {
        if (i > 0)
            putchar(' ');
        show_type(codes[i]);
    }
    free(codes);
}

static void show_field(struct cursor *data, char field)
{
    size_t len;
    switch (field) {
    case 'n': show_name(data); break;
    case '1': printf("%u", take_u8(data)); break;
    case '2': printf("%u", take_u16(data)); break;
    case '4': printf("%lu", take_u32(data)); break;
    case 'a': show_address(data, AF_INET, 4); break;
    case '6': show_address(data, AF_INET6, 16); break;
    case 'x': show_hex(data); break;
    case 'b': show_types(data); break;
    case 's':
        do {
            len = take_u8(data);
            show_string(take(data, len), len);
            if (data->at < data->end)
                putchar(' ');
        } while (data->at < data->end);
        break;
    case 't':
        len = take_u8(data);
        printf("%.*s ", (int)len, (const char *)take(data, len));
        len = data->end - data->at;
        show_string(take(data, len), len);
        break;
    }
}

/* Prints a record's data: by its type, or as in RFC 3597. */
static void show_data(struct cursor *data, unsigned type)
{
    const char *fields = data_of(type);
    if (*fields == 0) {
        printf("\\# %zu%s", data->end - data->at, data->at < data->end ? " " : "");
        show_hex(data);
    } else {
        for (const char *field = fields; *field != 0; field++) {
            if (field != fields)
                putchar(' ');
            show_field(data, *field);
        }
    }
    if (data->at != data->end)
        reject(data->at, "octets are left in a record", 27);
}

/* The OPT pseudo-record (RFC 6891): its class is a size, and its TTL has the version and the flags. */
static void show_edns(unsigned size, unsigned long ttl)
{
    printf("; EDNS: version: %lu, flags:%s; udp: %u\n", ttl >> 16 & 255, ttl & 0x8000 ? " do" : "", size);
}

static void show_record(struct cursor *from)
{
    uint8_t owner[DNW_FORM_SIZE], text[DNW_TEXT_SIZE];
    struct dnw_record record;
    size_t len = 0;
    uint32_t failure =
        dnw_record_read(from->message->at, from->message->len, from->at, owner, sizeof owner, &record);
    if (failure == DNW_DONE)
        failure = dnw_name_print(owner, record.owner_len, true, text, sizeof text, &len);
    if (failure != DNW_DONE)
        reject_failure(from->at, failure);
    from->at = record.end;
    if (record.record_type == OPT) {
        show_edns(record.record_class, record.ttl);
        return;
    }
    printf("%.*s\t%lu\t", (int)len, (const char *)text, (unsigned long)record.ttl);
    show_class(record.record_class);
    putchar('\t');
    show_type(record.record_type);
    putchar('\t');
    struct cursor data = {from->message, record.data_offset, record.end};
    show_data(&data, record.record_type);
    putchar('\n');
}

static void show_question(struct cursor *from)
{
    putchar(';');
    show_name(from);
    unsigned type = take_u16(from), class = take_u16(from);
    putchar('\t');
    show_class(class);
    putchar('\t');
    show_type(type);
    putchar('\n');
}

static const char *const opcodes[] = {"QUERY", "IQUERY", "STATUS", NULL, "NOTIFY", "UPDATE"};
static const char *const statuses[] = {"NOERROR", "FORMERR", "SERVFAIL", "NXDOMAIN", "NOTIMP",  "REFUSED",
                                       "YXDOMAIN", "YXRRSET", "NXRRSET", "NOTAUTH",  "NOTZONE"};

static void show_code(const char *const *texts, size_t count, const char *other, unsigned code)
{
    if (code < count && texts[code] != NULL)
        printf("%s", texts[code]);
    else
        printf("%s%u", other, code);
}

/* Prints the header, and stores the number of records in each section. */
static void show_header(struct cursor *from, unsigned counts[4])
{
    static const struct {
        unsigned mask;
        const char *text;
    } flags[] = {{0x8000, "qr"}, {0x0400, "aa"}, {0x0200, "tc"}, {0x0100, "rd"},
                 {0x0080, "ra"}, {0x0020, "ad"}, {0x0010, "cd"}};
    unsigned id = take_u16(from), word = take_u16(from);
    for (int i = 0; i < 4; i++)
        counts[i] = take_u16(from);
    printf(";; ->>HEADER<<- opcode: ");
    show_code(opcodes, sizeof opcodes / sizeof *opcodes, "OPCODE", word >> 11 & 15);
    printf(", status: ");
    show_code(statuses, sizeof statuses / sizeof *statuses, "RCODE", word & 15);
    printf(", id: %u\n;; flags:", id);
    for (size_t i = 0; i < sizeof flags / sizeof *flags; i++)
        if (word & flags[i].mask)
            printf(" %s", flags[i].text);
    printf("; QUERY: %u, ANSWER: %u, AUTHORITY: %u, ADDITIONAL: %u\n", counts[0], counts[1], counts[2], counts[3]);
}

static void show_message(const struct bytes *message)
{
    static const char *const sections[] = {"QUESTION", "ANSWER", "AUTHORITY", "ADDITIONAL"};
    struct cursor from = {message, 0, message->len};
    unsigned counts[4];
    show_header(&from, counts);
    for (int section = 0; section < 4; section++) {
        if (counts[section] == 0)
            continue;
        printf("\n;; %s SECTION:\n", sections[section]);
        for (unsigned i = 0; i < counts[section]; i++)
            (section == 0 ? show_question : show_record)(&from);
    }
    if (from.at != from.end)
        reject(from.at, "octets are left after the message", 33);
}

struct name {
    uint8_t form[DNW_FORM_SIZE];
    size_t len, line;
};

static int by_order(const void *left, const void *right)
{
    const struct name *a = left, *b = right;
    int32_t order = 0;
    dnw_name_compare(a->form, a->len, b->form, b->len, &order);
    return order != 0 ? order : (a->line > b->line) - (a->line < b->line);
}

static void show_sorted(const struct bytes *text)
{
    struct name *names = NULL;
    size_t count = 0;
    for (size_t at = 0; at < text->len;) {
        const uint8_t *end = memchr(text->at + at, '\n', text->len - at);
        size_t len = (end == NULL ? text->len : (size_t)(end - text->at)) - at;
        names = room(names, (count + 1) * sizeof *names);
        struct dnw_parsed_name parsed;
        uint32_t failure = dnw_name_parse(text->at + at, len, text->at, 0, names[count].form, DNW_FORM_SIZE, &parsed);
        if (failure != DNW_DONE)
            reject_failure(at, failure);
        names[count].len = parsed.len;
        names[count].line = count;
        count++;
        at += len + 1;
    }
    if (count > 0)
        qsort(names, count, sizeof *names, by_order);
    for (size_t i = 0; i < count; i++) {
        uint8_t shown[DNW_TEXT_SIZE];
        size_t len;
        uint32_t failure = dnw_name_print(names[i].form, names[i].len, true, shown, sizeof shown, &len);
        if (failure != DNW_DONE)
            reject_failure(0, failure);
        printf("%.*s\n", (int)len, (const char *)shown);
    }
    free(names);
}

int main(int count, char **words)
{
    int sorts = count > 1 && strcmp(words[1], "--sort") == 0;
    if (count > 2 + sorts || (count == 2 && !sorts && words[1][0] == '-')) {
        fprintf(stderr, "usage: dns_show [--sort] [FILE]\n");
        return 2;
    }
    struct bytes input = read_all(words[1 + sorts]);
    if (sorts) {
        show_sorted(&input);
    } else {
        from_hex(&input);
        show_message(&input);
    }
    free(input.at);
    return 0;
}
