/* Eight threads call the functions of dns_names_wire.h at once, over the same inputs and into buffers of their own, and get what one thread
   gets. It prints nothing if all is well, and exits with 1 at the first result that is another. It is for ThreadSanitizer too
   (`clang -fsanitize=thread`), which sees each malloc, free and memcpy of the library, and what the test itself touches. */
#include "dns_names_wire.h"
#include "expect.h"
#include "message.h"

#include <pthread.h>

enum { THREADS = 8, TURNS = 400, SIZE = 4096 };

static const char zone[] = "\001b\000\000\006\000\001\000\000\000\074\000\032\001a\000\001b\000\000\000\000\001\000\000\000\002\000\000\000"
                           "\003\000\000\000\004\000\000\000\005";
/* an RRSIG of the root over NULL records, and two of those */
static const char set[] = "\000\000\056\000\001\000\000\000\005\000\024\000\012\010\000\000\000\016\020\000\000\000\002\000\000\000\001\000"
                          "\007\000s\000\000\012\000\001\000\000\000\005\000\001b\000\000\012\000\001\000\000\000\005\000\001a";
/* a question, an MX record, and an OPT record */
static const char response[] = "\000\007\201\200\000\001\000\001\000\000\000\001\001a\001b\000\000\017\000\001\300\014\000\017\000\001\000\000"
                               "\000\005\000\010\000\001\003mx1\300\016\000\000\051\004\320\000\000\000\000\000\000";
static const char list[] = "\001b\000\001a\000\003www\001a\000";

/* The results of a turn, one after another. */
struct results {
    uint8_t octets[SIZE];
    size_t len;
};

static void keep(struct results *results, const void *octets, size_t len)
{
    EXPECT(results->len + len <= SIZE);
    memcpy(results->octets + results->len, octets, len);
    results->len += len;
}

/* Keeps what a call that succeeds has stored. */
#define KEEP(call, octets, len)         \
    do {                                \
        EXPECT((call) == DNW_DONE);     \
        keep(results, (octets), (len)); \
    } while (0)

static void call_names(struct results *results)
{
    uint8_t buffer[1024];
    size_t len, order[3];
    bool is;
    struct dnw_read_name read;
    struct dnw_parsed_name parsed;
    struct dnw_written_names written;
    KEEP(dnw_name_read(message, sizeof message, 40, buffer, sizeof buffer, &read), buffer, read.len);
    KEEP(dnw_name_read_text(message, sizeof message, 40, buffer, sizeof buffer, &read), buffer, read.len);
    KEEP(dnw_name_parse(BYTES("a\\.b.c."), BYTES(""), buffer, sizeof buffer, &parsed), buffer, parsed.len);
    KEEP(dnw_name_print(BYTES("\001.\000"), true, buffer, sizeof buffer, &len), buffer, len);
    KEEP(dnw_name_sort_key(BYTES("\001A\001b\000"), buffer, sizeof buffer, &len), buffer, len);
    KEEP(dnw_names_write(BYTES(list), 512, buffer, sizeof buffer, &written), buffer, written.len);
    KEEP(dnw_names_sort(BYTES(list), order, 3), order, sizeof order);
    KEEP(dnw_name_in_zone(BYTES("\001a\001B\000"), BYTES("\001b\000"), &is), &is, sizeof is);
    KEEP(dnw_nsec3_label(BYTES("\001a\000"), 1, 2, BYTES("salt"), 2, buffer, sizeof buffer, &len), buffer, len);
    KEEP(dnw_zone_digest(BYTES("\001b\000"), BYTES(zone), 1, buffer, sizeof buffer, &len), buffer, len);
    KEEP(dnw_signed_octets(BYTES(set), 0, 0, buffer, sizeof buffer, &len), buffer, len);
}

static void call_texts(struct results *results)
{
    uint8_t buffer[1024];
    uint16_t codes[9];
    size_t len, count;
    uint32_t seconds;
    struct dnw_lexer lexer = {0, true};
    struct dnw_token token;
    struct dnw_printed_record printed;
    KEEP(dnw_record_parse(BYTES("a. 1h IN TXT \"x\" y"), BYTES(""), buffer, sizeof buffer, &len), buffer, len);
    KEEP(dnw_record_print(BYTES(zone), 0, buffer, sizeof buffer, &printed), buffer, printed.len);
    KEEP(dnw_data_parse(DNW_TYPE_SVCB, 1, BYTES("1 . alpn=h2"), BYTES(""), buffer, sizeof buffer, &len), buffer, len);
    KEEP(dnw_record_sort_key(BYTES(zone), 0, buffer, sizeof buffer, &len), buffer, len);
    KEEP(dnw_types_read(BYTES("\000\001\142"), codes, 9, &count), codes, 2 * count);
    KEEP(dnw_types_write(codes, count, buffer, sizeof buffer, &len), buffer, len);
    KEEP(dnw_ttl_parse(BYTES("1w2d"), &seconds), &seconds, sizeof seconds);
    KEEP(dnw_token_next(BYTES("(a \"b\" ; c\n d)"), &lexer, buffer, sizeof buffer, &token), buffer, token.len);
    struct dnw_zone state;
    struct dnw_zone_entry entry;
    KEEP(dnw_zone_begin(BYTES("\001a\000"), &state), "", 0);
    KEEP(dnw_zone_next(BYTES("b 1 MX ( 1\n c )\n"), false, &state, buffer, sizeof buffer, &entry), buffer, entry.len);
    uint8_t room[DNW_ZONE_OCTETS_SIZE];
    struct dnw_zone_row row;
    struct dnw_rows_read got;
    KEEP(dnw_zone_read(BYTES("b 1 MX ( 1\n c )\n"), false, &state, &row, 1, room, sizeof room, &got), room, got.octets_len);
}

static void call_messages(struct results *results)
{
    uint8_t buffer[1024];
    struct dnw_row rows[32];
    struct dnw_table table;
    struct dnw_packed packed;
    struct dnw_edns edns;
    struct dnw_writer writer;
    size_t len;
    KEEP(dnw_message_table(BYTES(response), 99, rows, 32, buffer, sizeof buffer, &table), buffer, table.names_len);
    KEEP(dnw_message_pack(BYTES(response), 512, 0, buffer, sizeof buffer, &packed), buffer, packed.len);
    KEEP(dnw_edns_read(BYTES(response), 99, &edns), &edns.max_payload, sizeof edns.max_payload);
    KEEP(dnw_option_print(15, BYTES("\000\006bad"), buffer, sizeof buffer, &len), buffer, len);
    struct dnw_option option;
    KEEP(dnw_option_read(15, BYTES("\000\006bad"), &option), &option.info_code, sizeof option.info_code);
    KEEP(dnw_option_write(15, &option, BYTES("bad"), buffer, sizeof buffer, &len), buffer, len);
    KEEP(dnw_record_data(BYTES(response), 21, buffer, sizeof buffer, &len), buffer, len);
    KEEP(dnw_writer_begin(buffer, sizeof buffer, 512, 7, 0, &writer), "", 0);
    KEEP(dnw_writer_question(buffer, sizeof buffer, BYTES("\001a\000"), 1, 1, &writer), "", 0);
    KEEP(dnw_writer_record(buffer, sizeof buffer, DNW_SECTION_ANSWERS, BYTES("\001a\000"), DNW_TYPE_NS, 1, 5, BYTES("\001b\001a\000"),
                           &writer), "", 0);
    KEEP(dnw_writer_edns(buffer, sizeof buffer, 0, 1232, 0, 0, false, BYTES(""), 128, &writer), buffer, writer.len);
}

static void call_all(struct results *results)
{
    results->len = 0;
    call_names(results);
    call_texts(results);
    call_messages(results);
}

static struct results alone;

static void *run(void *number)
{
    struct results results;
    (void)number;
    for (int turn = 0; turn < TURNS; turn++) {
        call_all(&results);
        EXPECT(results.len == alone.len && memcmp(results.octets, alone.octets, alone.len) == 0);
    }
    return NULL;
}

int main(void)
{
    pthread_t threads[THREADS];
    make_message();
    call_all(&alone);
    for (int n = 0; n < THREADS; n++)
        EXPECT(pthread_create(&threads[n], NULL, run, NULL) == 0);
    for (int n = 0; n < THREADS; n++)
        EXPECT(pthread_join(threads[n], NULL) == 0);
    return 0;
}
