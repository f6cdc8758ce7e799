/* Looks for the message of at most 65,535 octets that dnw_message_read takes longest for, by hill climbing over shapes.

   worst search LIMIT SECONDS FILE [SEED]    writes the best message that was found into FILE, and prints its shape
   worst read LIMIT COUNT FILE               reads the message in FILE so many times: for valgrind
   worst time LIMIT COUNT FILE               prints the least milliseconds of so many readings

   A shape is a question, a chain of pointers in the data of a first record, and groups of records: how many labels they have
   of their own, of how many octets, to what their owners point, and how many octets of data they have. A message that is
   refused counts too, for the time until it is. bench/worst runs this. */
#include "dns_names_wire.h"
#include <stdio.h>
#include <stdlib.h>
#include <string.h>
#include <time.h>

enum { MOST = 65535, POINTERS_REACH = 0x4000, GROUPS = 2, GENES = 3 + 7 * GROUPS };

/* What the genes of a group are, after those of the question and the chain. */
enum gene { RECORDS, LABELS, OCTETS, TARGET, PLACE, DATA, NESTED };
static const char *const words[] = {"records", "labels", "octets", "target", "place", "data", "nested"};

/* The greatest value of each gene: labels and octets of the question's name, the pointers of the chain, then the groups'. */
static const int most_first[3] = {127, 63, 8000};
static const int most_of_group[7] = {6000, 127, 63, 2, 8000, 200, 200};

struct shape {
    int genes[GENES];
};

static int most_of(int gene)
{
    return gene < 3 ? most_first[gene] : most_of_group[(gene - 3) % 7];
}

struct message {
    uint8_t octets[MOST];
    size_t len;
};

static uint64_t state;

static int below(int n)
{
    state = state * 6364136223846793005u + 1442695040888963407u;
    return (int)((state >> 33) % (uint64_t)n);
}

/* Appends so many octets, if there is room for them. */
static bool put(struct message *m, const void *octets, size_t len)
{
    if (m->len + len > MOST)
        return false;
    memcpy(m->octets + m->len, octets, len);
    m->len += len;
    return true;
}

static bool put_word(struct message *m, size_t word)
{
    uint8_t octets[2] = {(uint8_t)(word >> 8), (uint8_t)word};
    return put(m, octets, 2);
}

static bool put_labels(struct message *m, int labels, int octets)
{
    uint8_t label[64] = {(uint8_t)octets};
    memset(label + 1, 'a', 63);
    for (int i = 0; i < labels; i++)
        if (!put(m, label, (size_t)octets + 1))
            return false;
    return true;
}

/* A type that is not known, class IN, a time to live of 0, and so many octets of data. */
static bool put_fixed(struct message *m, size_t data)
{
    static const uint8_t fixed[8] = {0xff, 0, 0, 1};
    return put(m, fixed, 8) && put_word(m, data);
}

/* The records of a group. Each points to the question's name, into the chain, or to the record before it, up to a depth. */
static size_t put_group(struct message *m, const int *genes, size_t question, size_t chain, int links)
{
    static const uint8_t zeros[200];
    size_t written = 0, before = question;
    for (int i = 0; i < genes[RECORDS]; i++, written++) {
        size_t whole = m->len, place = genes[PLACE] < links ? chain + 2 * (size_t)genes[PLACE] : question;
        size_t target = genes[TARGET] == 0 ? question : genes[TARGET] == 1 ? place : before;
        bool fits = put_labels(m, genes[LABELS], genes[OCTETS]) && put_word(m, 0xc000 | target)
                    && put_fixed(m, (size_t)genes[DATA]) && put(m, zeros, (size_t)genes[DATA]);
        if (!fits) {
            m->len = whole;
            return written;
        }
        if (i < genes[NESTED] && whole < POINTERS_REACH)
            before = whole;
    }
    return written;
}

/* The message of a shape: as many of its records as there is room for. */
static void make(const struct shape *shape, struct message *m)
{
    const int *genes = shape->genes;
    int labels = genes[0] * (genes[1] + 1) > 254 ? 254 / (genes[1] + 1) : genes[0], links = 0;
    size_t records = 0, question = 12, last = 12;
    memset(m->octets, 0, 12);
    m->len = 12;
    m->octets[5] = 1;
    put_labels(m, labels, genes[1]);
    put(m, "\0\0\1\0\1", 5);
    size_t chain = m->len + 11;
    if (genes[2] > 0) {
        put(m, "", 1);
        put_fixed(m, 2 * (size_t)genes[2]);
        for (; links < genes[2]; links++, last = m->len - 2)
            put_word(m, 0xc000 | (last < POINTERS_REACH ? last : 12));
        records = 1;
    }
    for (int g = 0; g < GROUPS; g++)
        records += put_group(m, genes + 3 + 7 * g, question, chain, chain + 2 * (size_t)links < POINTERS_REACH ? links : 0);
    m->octets[6] = (uint8_t)(records >> 8);
    m->octets[7] = (uint8_t)records;
}

static uint32_t read_once(const struct message *m, size_t limit)
{
    struct dnw_message read;
    struct dnw_message_fault fault;
    return dnw_message_read(m->octets, m->len, limit, &read, &fault);
}

static double once(const struct message *m, size_t limit)
{
    struct timespec from, to;
    clock_gettime(CLOCK_PROCESS_CPUTIME_ID, &from);
    read_once(m, limit);
    clock_gettime(CLOCK_PROCESS_CPUTIME_ID, &to);
    return (double)(to.tv_sec - from.tv_sec) * 1e3 + (double)(to.tv_nsec - from.tv_nsec) / 1e6;
}

/* The least of some readings, in milliseconds of this process. */
static double cost(const struct message *m, size_t limit, int rounds)
{
    double least = 1e9;
    for (int i = 0; i < rounds; i++) {
        double took = once(m, limit);
        least = took < least ? took : least;
    }
    return least;
}

/* Whether one message takes longer than another. They take turns, since what else runs here slows down both. */
static bool takes_longer(const struct message *m, const struct message *other, size_t limit, int rounds)
{
    double least = 1e9, others = 1e9;
    for (int i = 0; i < rounds; i++) {
        double took = once(m, limit), other_took = once(other, limit);
        least = took < least ? took : least;
        others = other_took < others ? other_took : others;
        if ((i == 1 && least < others * 0.8) || (i == 4 && least < others * 0.97))
            return false;
    }
    return least > others * 1.005;
}

/* Changes some genes: to any value, to a small one, or to one near what it was. */
static void mutate(struct shape *shape, int changes)
{
    for (int n = 1 + below(changes); n > 0; n--) {
        int gene = below(GENES), most = most_of(gene), value = shape->genes[gene];
        switch (below(5)) {
        case 0: value = below(most + 1); break;
        case 1: value = below(16); break;
        case 2: value = value * 2; break;
        case 3: value = value / 2; break;
        default: value += below(9) - 4;
        }
        shape->genes[gene] = value < 0 ? 0 : value > most ? most : value;
    }
    for (int gene = 0; gene < GENES; gene++)
        if ((gene == 1 || (gene > 2 && (gene - 3) % 7 == OCTETS)) && shape->genes[gene] == 0)
            shape->genes[gene] = 1;
}

static void print_shape(const struct shape *shape)
{
    printf("question of %d labels of %d octets, chain of %d pointers\n", shape->genes[0], shape->genes[1], shape->genes[2]);
    for (int g = 0; g < GROUPS; g++) {
        printf("group:");
        for (int k = 0; k < 7; k++)
            printf(" %s %d", words[k], shape->genes[3 + 7 * g + k]);
        printf("\n");
    }
}

/* Climbs from random shapes and from the best, after some changes, by the least of three readings. What was good for nothing for a
   while is left for another start. */
static long explore(struct shape *best, size_t limit, double until)
{
    static struct message best_made, made;
    struct shape here = *best;
    double here_cost = 0;
    long tried = 0, starts = 0;
    make(best, &best_made);
    for (int since = 1 << 20; (double)time(NULL) < until; since++, tried++) {
        struct shape next = here;
        if (since > 400) {
            next = *best;
            for (int gene = 0; gene < GENES && starts % 3 != 2; gene++)
                next.genes[gene] = below(most_of(gene) + 1);
            mutate(&next, GENES / 3);
            here_cost = since = 0;
            starts++;
        }
        mutate(&next, 2);
        make(&next, &made);
        double took = cost(&made, limit, 3);
        if (took <= here_cost * 1.002)
            continue;
        since = 0;
        here = next;
        here_cost = took;
        if (takes_longer(&made, &best_made, limit, 15)) {
            *best = here;
            best_made = made;
        }
    }
    return tried;
}

/* Climbs from a shape alone, in small steps that are measured with more care. */
static long polish(struct shape *best, size_t limit, double until)
{
    static struct message best_made, made;
    long tried = 0;
    make(best, &best_made);
    for (; (double)time(NULL) < until; tried++) {
        struct shape next = *best;
        mutate(&next, 2);
        make(&next, &made);
        if (takes_longer(&made, &best_made, limit, 15)) {
            *best = next;
            best_made = made;
        }
    }
    return tried;
}

static struct shape search(size_t limit, double seconds)
{
    static struct message made;
    struct shape best = {{0}};
    double from = (double)time(NULL);
    long tried = explore(&best, limit, from + seconds / 2) + polish(&best, limit, from + seconds);
    make(&best, &made);
    printf("limit %zu: %.2f ms, the worst of %ld shapes\n", limit, cost(&made, limit, 200), tried);
    return best;
}

int main(int argc, char **argv)
{
    static struct message m;
    if (argc < 5)
        return 2;
    size_t limit = strtoul(argv[2], NULL, 10);
    double number = atof(argv[3]);
    if (strcmp(argv[1], "search") == 0) {
        state = argc > 5 ? strtoull(argv[5], NULL, 10) : 1;
        struct shape best = search(limit, number);
        print_shape(&best);
        make(&best, &m);
        FILE *file = fopen(argv[4], "wb");
        return !(file != NULL && fwrite(m.octets, 1, m.len, file) == m.len && fclose(file) == 0);
    }
    FILE *file = fopen(argv[4], "rb");
    if (file == NULL)
        return 1;
    m.len = fread(m.octets, 1, MOST, file);
    if (strcmp(argv[1], "time") == 0) {
        printf("%.2f\n", cost(&m, limit, (int)number));
        return 0;
    }
    uint32_t result = 0;
    for (int i = 0; i < (int)number; i++)
        result = read_once(&m, limit);
    printf("%u\n", result);
    return 0;
}
