/* Asks a server on the loopback very often, by queries of which a quarter are mutated:

   asking PORT PID QUERIES COUNT SAMPLE OUTPUT

   QUERIES has one query a line, in hexadecimal digits. Each is asked once, and its reply is kept. Then COUNT queries are sent, 31 and one
   that is not mutated at a time; each gets its place as its id. The replies come in the order of the queries, so what is not answered
   before the last reply is not answered at all. A query that is not mutated gets the reply that it got at first. Some SAMPLE queries
   and their replies are written to OUTPUT, a pair a line, and `-` for none. The process PID may not grow by more than 64 KiB after a
   tenth of the queries. It prints counts, and exits with 1 at the first fault. */
#define _GNU_SOURCE
#include <arpa/inet.h>
#include <stdbool.h>
#include <stdint.h>
#include <stdio.h>
#include <stdlib.h>
#include <string.h>
#include <sys/socket.h>
#include <sys/time.h>

#include "soaking.h"

enum { MOST_QUERIES = 4096, MOST = 65535, BATCH = 32, QUERY_MOST = 1500 };

struct octets {
    uint8_t *octets;
    size_t len;
};

static struct octets queries[MOST_QUERIES], replies[MOST_QUERIES];
static size_t query_count;
static unsigned long long sent, mutated, answered, mutated_answered, octets_back, sampled;
static int channel;

static void fail(const char *why)
{
    fprintf(stderr, "asking: %s, after %llu queries\n", why, sent);
    exit(1);
}

static struct octets copy(const uint8_t *octets, size_t len)
{
    struct octets made = {malloc(len + 1), len};
    memcpy(made.octets, octets, len);
    return made;
}

static void read_queries(const char *path)
{
    static char line[4 * QUERY_MOST];
    uint8_t query[QUERY_MOST];
    FILE *file = fopen(path, "r");
    if (file == NULL)
        fail("no file of queries");
    for (; query_count < MOST_QUERIES && fgets(line, sizeof line, file) != NULL; query_count++) {
        size_t len = strspn(line, "0123456789abcdef") / 2;
        for (size_t n = 0; n < len; n++)
            sscanf(line + 2 * n, "%2hhx", &query[n]);
        queries[query_count] = copy(query, len);
    }
    fclose(file);
}

/* Puts the query with its place as its id. */
static size_t put_query(struct octets query, uint8_t place, uint8_t *out)
{
    memcpy(out, query.octets, query.len);
    out[0] = 0x5a;
    out[1] = place;
    return query.len;
}

/* Changes some octets after the id, or how many there are. */
static size_t mutate(uint8_t *query, size_t len)
{
    for (uint64_t changes = 1 + chance(2); changes > 0; changes--) {
        size_t at = len > 2 ? 2 + chance(len - 2) : len, some = 1 + chance(12);
        switch (chance(8)) {
        case 0:
        case 1: query[at] ^= (uint8_t)(1u << chance(8)); break;
        case 2: query[at] = (uint8_t)chance(256); break;
        case 3: query[at] = (uint8_t)(0xc0 | chance(2)); break;
        case 4: query[at] = (uint8_t)chance(4); break;
        case 5: len = at; break;
        case 6: /* octets that were there come once more */
            if (len + some > QUERY_MOST || at + some > len)
                break;
            memmove(query + at + some, query + at, len - at);
            len += some;
            break;
        default: /* octets are gone */
            if (at + some > len)
                break;
            memmove(query + at, query + at + some, len - at - some);
            len -= some;
        }
    }
    return len;
}

/* Receives a reply, and returns its length. */
static size_t receive(uint8_t *reply)
{
    ssize_t len = recv(channel, reply, MOST, 0);
    if (len < 12)
        fail(len < 0 ? "no reply came" : "a reply without a header");
    if ((reply[2] & 0x80) == 0 || reply[0] != 0x5a)
        fail("no reply, or one with another id");
    octets_back += (unsigned long long)len;
    return (size_t)len;
}

static void send_query(const uint8_t *query, size_t len)
{
    if (send(channel, query, len, 0) != (ssize_t)len)
        fail("not sent");
}

static void ask_once(void)
{
    static uint8_t reply[MOST];
    uint8_t query[QUERY_MOST];
    for (size_t n = 0; n < query_count; n++) {
        send_query(query, put_query(queries[n], 0, query));
        replies[n] = copy(reply, receive(reply));
    }
}

static void put_hexadecimal(FILE *output, const uint8_t *octets, size_t len, char end)
{
    if (len == 0)
        fputc('-', output);
    for (size_t n = 0; n < len; n++)
        fprintf(output, "%02x", octets[n]);
    fputc(end, output);
}

/* A batch of queries and their replies. */
struct place {
    uint8_t query[QUERY_MOST + 64], reply[4096];
    size_t len, reply_len, number;
    bool is_mutated;
};

static struct place places[BATCH];

static void send_batch(void)
{
    for (size_t n = 0; n < BATCH; n++, sent++) {
        struct place *own = &places[n];
        own->number = chance(query_count);
        own->is_mutated = n + 1 < BATCH && chance(BATCH - 1) < BATCH / 4;
        own->len = put_query(queries[own->number], (uint8_t)n, own->query);
        own->reply_len = 0;
        if (own->is_mutated)
            own->len = mutate(own->query, own->len);
        mutated += own->is_mutated;
        send_query(own->query, own->len);
    }
}

static void receive_batch(void)
{
    static uint8_t reply[MOST];
    size_t last = 0;
    for (bool is_first = true;; is_first = false) {
        size_t len = receive(reply), n = reply[1];
        if (n >= BATCH || (!is_first && n <= last) || len > sizeof places[n].reply)
            fail("a reply that nothing asked for");
        memcpy(places[n].reply, reply, places[n].reply_len = len);
        last = n;
        if (n == BATCH - 1)
            return;
    }
}

static void check_batch(uint64_t count, uint64_t sample, FILE *output)
{
    for (size_t n = 0; n < BATCH; n++) {
        struct place *own = &places[n];
        const struct octets *wanted = &replies[own->number];
        if (!own->is_mutated && (own->reply_len != wanted->len || memcmp(own->reply + 2, wanted->octets + 2, wanted->len - 2) != 0)) {
            put_hexadecimal(stderr, own->query, own->len, '\n');
            fail("another reply than at first");
        }
        answered += own->reply_len > 0;
        mutated_answered += own->reply_len > 0 && own->is_mutated;
        if (sampled < sample && chance(count) < sample + sample / 64) {
            put_hexadecimal(output, own->query, own->len, ' ');
            put_hexadecimal(output, own->reply, own->reply_len, '\n');
            sampled++;
        }
    }
}

int main(int argc, char **argv)
{
    struct sockaddr_in server = {.sin_family = AF_INET, .sin_addr.s_addr = htonl(INADDR_LOOPBACK)};
    struct timeval wait = {60, 0};
    if (argc != 7)
        fail("usage: asking PORT PID QUERIES COUNT SAMPLE OUTPUT");
    uint64_t count = strtoull(argv[4], NULL, 10), sample = strtoull(argv[5], NULL, 10);
    FILE *output = fopen(argv[6], "w");
    server.sin_port = htons((uint16_t)atoi(argv[1]));
    channel = socket(AF_INET, SOCK_DGRAM, 0);
    setsockopt(channel, SOL_SOCKET, SO_RCVTIMEO, &wait, sizeof wait);
    setsockopt(channel, SOL_SOCKET, SO_RCVBUF, &(int){1 << 20}, sizeof(int));
    if (output == NULL || connect(channel, (struct sockaddr *)&server, sizeof server) != 0)
        fail("no file, or no server");
    read_queries(argv[3]);
    ask_once();
    size_t at_tenth = 0, most = 0;
    for (uint64_t tenths = 0; sent < count;) {
        send_batch();
        receive_batch();
        check_batch(count, sample, output);
        if (sent * 10 / count == tenths)
            continue;
        size_t now = resident(argv[2]);
        if (now == 0)
            fail("the server is gone");
        at_tenth = tenths++ == 0 ? now : at_tenth;
        most = now > most ? now : most;
    }
    if (most > at_tenth + MAY_GROW || fclose(output) != 0)
        fail("the server grows");
    printf("%llu queries, %llu of them mutated, %llu replies, %llu to mutated ones, with %llu octets; %zu KiB resident after a tenth, at most %zu "
           "KiB later; %llu kept\n",
           sent, mutated, answered, mutated_answered, octets_back, at_tenth, most, sampled);
    return 0;
}
