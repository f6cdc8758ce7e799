/* Makes the sums of DNSSEC, and compares them with a model's: RFC 4034, appendix B and section 5.1.4, RFC 5155, section 5 and 8.3, RFC 8976,
   section 3.3.1, and the hashes of FIPS 180-4, in plain C. An input is two lengths and three parts: names, digests, a salt, records. */
#include "harness.h"

enum { MOST = 1 << 16, RECORDS = 512 };

static struct room output;
static uint8_t *buffer;

/* The hashes: 20 octets of SHA-1, 32 of SHA-256, 48 or 64 of SHA-512, by their rounds as they stand in the standard. */
static uint64_t turned(uint64_t x, unsigned by, unsigned bits)
{
    uint64_t all = bits == 64 ? ~0ull : 0xffffffffull;
    return ((x >> by) | (x << (bits - by))) & all;
}

/* The first bits of the fraction of a root of a prime, square or cube, by bisection over whole numbers. */
static uint64_t root_bits(uint64_t prime, unsigned power, unsigned bits)
{
    unsigned __int128 low = 0, high = (unsigned __int128)32 << bits;
    while (high - low > 1) {
        unsigned __int128 middle = (low + high) / 2;
        /* middle^power against prime * 2^(bits * power), in parts of 32 bits */
        uint32_t product[12] = {1}, limit[12] = {0};
        for (unsigned times = 0; times < power; times++) {
            uint32_t next[12] = {0};
            for (unsigned i = 0; i < 12; i++) {
                uint64_t carry = 0;
                for (unsigned j = 0; i + j < 12; j++) {
                    uint64_t factor = j < 4 ? (uint32_t)(middle >> (32 * j)) : 0;
                    carry += next[i + j] + (uint64_t)product[i] * factor;
                    next[i + j] = (uint32_t)carry;
                    carry >>= 32;
                }
            }
            memcpy(product, next, sizeof product);
        }
        limit[bits * power / 32] = (uint32_t)(prime << (bits * power % 32));
        int order = 0;
        for (int n = 11; n >= 0 && order == 0; n--)
            order = (product[n] > limit[n]) - (product[n] < limit[n]);
        if (order > 0)
            high = middle;
        else
            low = middle;
    }
    return bits == 64 ? (uint64_t)low : (uint64_t)low & 0xffffffff;
}

static void prime_roots(unsigned power, unsigned bits, unsigned skipped, uint64_t *roots, unsigned count)
{
    for (uint64_t n = 2; count > 0; n++) {
        bool is_prime = true;
        for (uint64_t d = 2; d * d <= n; d++)
            is_prime = is_prime && n % d != 0;
        if (!is_prime)
            continue;
        if (skipped > 0)
            skipped--;
        else
            *roots++ = root_bits(n, power, bits), count--;
    }
}

/* A message, the bit 1, zeros, and the number of bits in 8 or 16 octets. */
static size_t padded(const uint8_t *message, size_t len, size_t block, uint8_t *out)
{
    size_t whole = (len + 1 + block / 8 + block - 1) / block * block;
    memset(out, 0, whole);
    memcpy(out, message, len);
    out[len] = 0x80;
    for (unsigned n = 0; n < 8; n++)
        out[whole - 1 - n] = (uint8_t)((uint64_t)len * 8 >> (8 * n));
    return whole;
}

static void sha1(const uint8_t *message, size_t len, uint8_t *digest)
{
    static uint8_t blocks[2 * MOST];
    uint32_t h[5] = {0x67452301, 0xefcdab89, 0x98badcfe, 0x10325476, 0xc3d2e1f0}, w[80];
    size_t whole = padded(message, len, 64, blocks);
    for (size_t at = 0; at < whole; at += 64) {
        for (unsigned t = 0; t < 80; t++)
            w[t] = t < 16 ? model_number(blocks + at + 4 * t, 4) : (uint32_t)turned(w[t - 3] ^ w[t - 8] ^ w[t - 14] ^ w[t - 16], 31, 32);
        uint32_t a = h[0], b = h[1], c = h[2], d = h[3], e = h[4];
        for (unsigned t = 0; t < 80; t++) {
            uint32_t f = t < 20 ? (b & c) | (~b & d) : t < 40 || t >= 60 ? b ^ c ^ d : (b & c) | (b & d) | (c & d);
            uint32_t k = t < 20 ? 0x5a827999 : t < 40 ? 0x6ed9eba1 : t < 60 ? 0x8f1bbcdc : 0xca62c1d6;
            uint32_t next = (uint32_t)turned(a, 27, 32) + f + e + k + w[t];
            e = d, d = c, c = (uint32_t)turned(b, 2, 32), b = a, a = next;
        }
        h[0] += a, h[1] += b, h[2] += c, h[3] += d, h[4] += e;
    }
    for (unsigned n = 0; n < 20; n++)
        digest[n] = (uint8_t)(h[n / 4] >> (24 - n % 4 * 8));
}

/* SHA-256 in words of 32 bits, SHA-384 and SHA-512 in words of 64. */
static void sha2(const uint8_t *message, size_t len, unsigned size, uint8_t *digest)
{
    static const unsigned turns[2][10] = {{2, 13, 22, 6, 11, 25, 7, 18, 17, 19}, {28, 34, 39, 14, 18, 41, 1, 8, 19, 61}};
    static const unsigned shifts[2][2] = {{3, 10}, {7, 6}};
    static uint64_t keys[2][80], first[3][8];
    static uint8_t blocks[2 * MOST];
    unsigned wide = size > 32, bits = wide ? 64 : 32, rounds = wide ? 80 : 64, octets = bits / 8;
    if (keys[0][0] == 0) {
        prime_roots(3, 32, 0, keys[0], 64);
        prime_roots(3, 64, 0, keys[1], 80);
        prime_roots(2, 32, 0, first[0], 8);
        prime_roots(2, 64, 8, first[1], 8);
        prime_roots(2, 64, 0, first[2], 8);
    }
    uint64_t h[8], w[80], all = wide ? ~0ull : 0xffffffffull;
    const unsigned *t = turns[wide];
    memcpy(h, first[size == 32 ? 0 : size == 48 ? 1 : 2], sizeof h);
    size_t whole = padded(message, len, 16 * octets, blocks);
    for (size_t at = 0; at < whole; at += 16 * octets) {
        for (unsigned n = 0; n < rounds; n++) {
            if (n < 16) {
                const uint8_t *word = blocks + at + octets * n;
                w[n] = wide ? (uint64_t)model_number(word, 4) << 32 | model_number(word + 4, 4) : model_number(word, 4);
                continue;
            }
            uint64_t s0 = turned(w[n - 15], t[6], bits) ^ turned(w[n - 15], t[7], bits) ^ (w[n - 15] >> shifts[wide][0]);
            uint64_t s1 = turned(w[n - 2], t[8], bits) ^ turned(w[n - 2], t[9], bits) ^ (w[n - 2] >> shifts[wide][1]);
            w[n] = (w[n - 16] + s0 + w[n - 7] + s1) & all;
        }
        uint64_t v[8];
        memcpy(v, h, sizeof v);
        for (unsigned n = 0; n < rounds; n++) {
            uint64_t s1 = turned(v[4], t[3], bits) ^ turned(v[4], t[4], bits) ^ turned(v[4], t[5], bits);
            uint64_t s0 = turned(v[0], t[0], bits) ^ turned(v[0], t[1], bits) ^ turned(v[0], t[2], bits);
            uint64_t one = v[7] + s1 + ((v[4] & v[5]) ^ (~v[4] & v[6])) + keys[wide][n] + w[n];
            uint64_t two = s0 + ((v[0] & v[1]) ^ (v[0] & v[2]) ^ (v[1] & v[2]));
            memmove(v + 1, v, 7 * sizeof v[0]);
            v[4] = (v[4] + one) & all, v[0] = (one + two) & all;
        }
        for (unsigned n = 0; n < 8; n++)
            h[n] = (h[n] + v[n]) & all;
    }
    for (unsigned n = 0; n < size; n++)
        digest[n] = (uint8_t)(h[n / octets] >> (bits - 8 - n % octets * 8));
}

/* A call that stores a digest: the failure, or the octets in just their room. */
static uint32_t answer;
static size_t stored;
#define STORES(call, failure, wanted, wanted_len)                                                            \
    do {                                                                                                     \
        size_t size = (wanted_len), len = 7;                                                                 \
        buffer = clear(&output, size);                                                                       \
        answer = call;                                                                                       \
        stored = len;                                                                                        \
        CHECK(answer == (failure));                                                                          \
        CHECK(answer == DNW_DONE ? len == size && holds(buffer, size, wanted, len) : len == 7 && untouched(buffer, size)); \
        size--;                                                                                              \
        buffer = clear(&output, size);                                                                       \
        CHECK((call) == (answer == DNW_DONE ? DNW_NO_ROOM : answer) && untouched(buffer, size));             \
    } while (0)

static void makes_digests(const struct part parts[3])
{
    static uint8_t joined[MOST], digest[64];
    struct model_name owner;
    uint16_t tag = 7, wanted = 0;
    const uint8_t *key = parts[2].bytes;
    size_t key_len = parts[2].len;
    bool is_key = key_len >= 4;
    uint32_t sum = 0;
    for (size_t n = 0; n < key_len; n++)
        sum += n % 2 ? key[n] : (uint32_t)key[n] << 8;
    wanted = (uint16_t)(sum + (sum >> 16));
    bool is_old = is_key && key[3] == 1;
    if (is_old && key_len >= 7)
        wanted = (uint16_t)model_number(key + key_len - 3, 2);
    uint32_t failure = !is_key || (is_old && key_len < 7) ? DNW_NOT_DNSKEY : DNW_DONE;
    CHECK(dnw_key_tag(key, key_len, &tag) == failure && tag == (failure == DNW_DONE ? wanted : 7));
    uint8_t type = parts[1].len > 0 ? parts[1].bytes[0] % 6 : 2;
    failure = model_form(parts[0].bytes, parts[0].len, &owner);
    if (failure == DNW_DONE) {
        failure = !is_key ? DNW_NOT_DNSKEY : type != 1 && type != 2 && type != 4 ? DNW_UNKNOWN_ALGORITHM : DNW_DONE;
        model_lower(&owner);
        memcpy(joined, owner.form, owner.len);
        memcpy(joined + owner.len, key, key_len);
        if (type == 1)
            sha1(joined, owner.len + key_len, digest);
        else
            sha2(joined, owner.len + key_len, type == 2 ? 32 : 48, digest);
    }
    STORES(dnw_ds_digest(parts[0].bytes, parts[0].len, key, key_len, type, buffer, size, &len), failure, digest,
           (size_t)(type == 1 ? 20 : type == 2 ? 32 : 48));
}

static void hashes_names(const struct part parts[3])
{
    static uint8_t joined[MOST], digest[20];
    static const char digits[] = "0123456789abcdefghijklmnopqrstuv";
    char label[32];
    struct model_name name;
    uint16_t iterations = parts[2].len > 1 ? parts[2].bytes[0] % 8 : 0, most = parts[2].len > 1 ? parts[2].bytes[1] % 8 : 0;
    uint8_t algorithm = parts[2].len > 2 ? parts[2].bytes[2] % 3 : 1;
    uint32_t failure = model_form(parts[0].bytes, parts[0].len, &name);
    if (failure == DNW_DONE) {
        failure = algorithm != 1 ? DNW_UNKNOWN_ALGORITHM : iterations > most ? DNW_TOO_MANY_ITERATIONS : DNW_DONE;
        model_lower(&name);
        memcpy(joined, name.form, name.len);
        size_t len = name.len;
        for (unsigned n = 0; n <= iterations; n++, len = 20) {
            memcpy(joined + len, parts[1].bytes, parts[1].len);
            sha1(joined, len + parts[1].len, digest);
            memcpy(joined, digest, 20);
        }
        for (unsigned n = 0; n < 32; n++) {
            uint64_t five = 0;
            for (unsigned bit = 5 * n; bit < 5 * n + 5; bit++)
                five = five << 1 | (digest[bit / 8] >> (7 - bit % 8) & 1);
            label[n] = digits[five];
        }
    }
    STORES(dnw_nsec3_hash(parts[0].bytes, parts[0].len, algorithm, iterations, parts[1].bytes, parts[1].len, most, buffer, size, &len),
           failure, digest, (size_t)20);
    STORES(dnw_nsec3_label(parts[0].bytes, parts[0].len, algorithm, iterations, parts[1].bytes, parts[1].len, most, buffer, size, &len),
           failure, label, (size_t)32);
}

static int by_octets(const uint8_t *a, size_t a_len, const uint8_t *b, size_t b_len)
{
    int order = memcmp(a, b, a_len < b_len ? a_len : b_len);
    return order != 0 ? order : (a_len > b_len) - (a_len < b_len);
}

static void covers(const struct part p[3])
{
    struct model_name names[3];
    uint32_t failure = DNW_DONE;
    for (int n = 0; n < 3 && failure == DNW_DONE; n++)
        failure = model_form(p[n].bytes, p[n].len, &names[n]);
    for (int start = 0; start < 2; start++) {
        bool is = start, wanted = start;
        if (failure == DNW_DONE) {
            bool is_after = model_compare(&names[0], &names[2]) < 0;
            wanted = model_compare(&names[0], &names[1]) < 0 ? is_after && model_compare(&names[2], &names[1]) < 0
                                                            : is_after && model_in_zone(&names[2], &names[1]);
        }
        CHECK(dnw_nsec_covers(p[0].bytes, p[0].len, p[1].bytes, p[1].len, p[2].bytes, p[2].len, &is) == failure && is == wanted);
        bool is_after = by_octets(p[0].bytes, p[0].len, p[2].bytes, p[2].len) < 0;
        bool is_before = by_octets(p[2].bytes, p[2].len, p[1].bytes, p[1].len) < 0;
        wanted = by_octets(p[0].bytes, p[0].len, p[1].bytes, p[1].len) < 0 ? is_after && is_before : is_after || is_before;
        CHECK(dnw_nsec3_covers(p[0].bytes, p[0].len, p[1].bytes, p[1].len, p[2].bytes, p[2].len, &is) == DNW_DONE && is == wanted);
    }
}

/* A record of a zone in canonical form. */
struct canonical {
    struct model_name owner;
    uint16_t type, class;
    uint32_t ttl;
    size_t at, len;
};
static struct canonical found[RECORDS];
static uint8_t octets[1 << 20], whole[1 << 21];

static int by_order(const void *left, const void *right)
{
    const struct canonical *a = left, *b = right;
    int order = model_compare(&a->owner, &b->owner);
    if (order == 0)
        order = (a->type > b->type) - (a->type < b->type);
    if (order == 0)
        order = (a->class > b->class) - (a->class < b->class);
    if (order == 0)
        order = by_octets(octets + a->at, a->len, octets + b->at, b->len);
    return order != 0 ? order : (a->ttl > b->ttl) - (a->ttl < b->ttl);
}

static size_t collect(const uint8_t *records, size_t len, const struct model_name *apex, uint32_t *failure)
{
    size_t count = 0, put = 0;
    for (size_t at = 0; at < len;) {
        struct dnw_record record;
        struct canonical *next = &found[count];
        CHECK(count < RECORDS);
        *failure = model_record(records, len, at, &next->owner, &record);
        if (*failure != DNW_DONE)
            return 0;
        *next = (struct canonical){next->owner, record.record_type, record.record_class, record.ttl, put, 0};
        *failure = model_put_data(records, &record, model_is_lowered(record.record_type), octets, &put);
        if (*failure != DNW_DONE)
            return 0;
        next->len = put - next->at;
        model_lower(&next->owner);
        at = record.end;
        bool is_zonemd = next->type == DNW_TYPE_ZONEMD;
        /* A record of the class ANY may have no data. */
        bool is_its_rrsig = next->type == DNW_TYPE_RRSIG && next->len >= 2 && model_number(octets + next->at, 2) == DNW_TYPE_ZONEMD;
        bool is_own = model_compare(&next->owner, apex) == 0 && (is_zonemd || is_its_rrsig);
        count += model_in_zone(&next->owner, apex) && !is_own;
    }
    return count;
}

static bool is_duplicate(const struct canonical *a, const struct canonical *b)
{
    return model_compare(&a->owner, &b->owner) == 0 && a->type == b->type && a->class == b->class
           && by_octets(octets + a->at, a->len, octets + b->at, b->len) == 0;
}

static void put_number(size_t *len, uint32_t number, unsigned count)
{
    while (count-- > 0)
        whole[(*len)++] = (uint8_t)(number >> (8 * count));
}

/* Records of more than one class are no zone: the digest may be any. */
static bool are_of_one_class(size_t count)
{
    for (size_t n = 1; n < count; n++)
        if (found[n].class != found[0].class)
            return false;
    return true;
}

static void digests_zones(const struct part parts[3])
{
    static uint8_t digest[64];
    struct model_name apex;
    size_t len_of_all = 0, count = 0;
    uint8_t algorithm = parts[1].len > 0 ? parts[1].bytes[0] % 4 : 1;
    unsigned size_of_it = algorithm == 2 ? 64 : 48;
    uint32_t failure = model_form(parts[0].bytes, parts[0].len, &apex);
    if (failure == DNW_DONE)
        count = collect(parts[2].bytes, parts[2].len, &apex, &failure);
    if (failure == DNW_DONE && !are_of_one_class(count))
        return;
    if (failure == DNW_DONE && algorithm != 1 && algorithm != 2)
        failure = DNW_UNKNOWN_ALGORITHM;
    if (failure == DNW_DONE) {
        qsort(found, count, sizeof found[0], by_order);
        for (size_t n = 0; n < count; n++) {
            const struct canonical *it = &found[n];
            if (n > 0 && is_duplicate(&found[n - 1], it))
                continue;
            memcpy(whole + len_of_all, it->owner.form, it->owner.len);
            len_of_all += it->owner.len;
            put_number(&len_of_all, it->type, 2);
            put_number(&len_of_all, it->class, 2);
            put_number(&len_of_all, it->ttl, 4);
            put_number(&len_of_all, (uint32_t)it->len, 2);
            memcpy(whole + len_of_all, octets + it->at, it->len);
            len_of_all += it->len;
        }
        CHECK(len_of_all < MOST);
        sha2(whole, len_of_all, size_of_it, digest);
    }
    STORES(dnw_zone_digest(parts[0].bytes, parts[0].len, parts[2].bytes, parts[2].len, algorithm, buffer, size, &len), failure, digest,
           (size_t)size_of_it);
    for (size_t number = 1; number < 4; number++) {
        size_t len = 7;
        refuse(number);
        buffer = clear(&output, 64);
        answer = dnw_zone_digest(parts[0].bytes, parts[0].len, parts[2].bytes, parts[2].len, algorithm, buffer, 64, &len);
        bool is_refused = was_refused();
        CHECK(answer == failure || (is_refused && answer == DNW_NO_MEMORY));
        CHECK(answer == DNW_DONE || (untouched(buffer, 64) && len == 7));
    }
}

int LLVMFuzzerTestOneInput(const uint8_t *data, size_t size)
{
    struct part parts[3];
    if (!cut_in_three(data, size, parts))
        return 0;
    makes_digests(parts);
    hashes_names(parts);
    covers(parts);
    digests_zones(parts);
    return 0;
}
