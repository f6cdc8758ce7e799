/* Calls the functions of dns_names_wire.h for the sums of DNSSEC with good and with bad input. It prints nothing if all is well,
   and exits with 1 at the first result that is not the expected one. Expected values are those of RFC 6605, section 6.1, of RFC 5155,
   appendix A, of RFC 8976, appendix A, and of the zone of RFC 4035, appendix A. */
#include "dns_names_wire.h"
#include "expect.h"

/* the data of a DNSKEY of example.net, and its digest */
#define DNSKEY                                                                                                          \
    "\001\001\003\015\032\210\310\206\025\324\067\373\270\277\236\031\102\241\222\237" \
    "\050\126\047\006\256\154\053\323\231\347\261\277\266\321\351\347\133\222\264\252" \
    "\102\221\172\341\306\033\160\036\360\065\303\376\173\343\000\234\272\376\132\057" \
    "\161\061\154\220\055\317\015\000"
#define DIGEST                                                                                                          \
    "\264\310\301\376\056\164\167\022\173\047\021\126\126\255\142\126\364\044\142\133" \
    "\365\301\342\167\014\346\326\343\175\366\035\027"
#define OWNER "\007Example\003NET\000"
#define EXAMPLE "\007example\000"

static uint8_t buffer[DNW_DIGEST_SIZE];
static size_t len;

/* Fills the buffer, which a call that fails leaves as it is. */
static void clear(void)
{
    memset(buffer, '?', sizeof buffer);
    len = 7;
}

static bool untouched(void)
{
    for (size_t i = 0; i < sizeof buffer; i++)
        if (buffer[i] != '?')
            return false;
    return len == 7;
}

static bool holds(const char *wanted, size_t wanted_len)
{
    return len == wanted_len && memcmp(buffer, wanted, len) == 0 && (len == sizeof buffer || buffer[len] == '?');
}

static void makes_key_tags(void)
{
    uint16_t tag = 7;
    EXPECT(dnw_key_tag(BYTES(DNSKEY), &tag) == DNW_DONE && tag == 55648);
    EXPECT(dnw_key_tag(BYTES("\001\000\003"), &tag) == DNW_NOT_DNSKEY && tag == 55648);
    EXPECT(dnw_key_tag(BYTES("\001\000\003\010"), &tag) == DNW_DONE && tag == 0x0408);
    EXPECT(dnw_key_tag(BYTES("\001\000\003\001\252\273"), &tag) == DNW_NOT_DNSKEY && tag == 0x0408);
    EXPECT(dnw_key_tag(BYTES("\001\000\003\001\252\273\314"), &tag) == DNW_DONE && tag == 0xaabb);
    static uint8_t large[65536];
    EXPECT(dnw_key_tag(large, 65535, &tag) == DNW_DONE && tag == 0);
    EXPECT(dnw_key_tag(large, 65536, &tag) == DNW_NOT_DNSKEY && tag == 0);
}

static void makes_digests(void)
{
    clear();
    EXPECT(dnw_ds_digest(BYTES(OWNER), BYTES(DNSKEY), 2, buffer, 31, &len) == DNW_NO_ROOM && untouched());
    EXPECT(dnw_ds_digest(BYTES(OWNER), BYTES(DNSKEY), 2, buffer, 32, &len) == DNW_DONE && holds(DIGEST, 32));
    clear();
    EXPECT(dnw_ds_digest(BYTES(OWNER), BYTES(DNSKEY), 3, buffer, sizeof buffer, &len) == DNW_UNKNOWN_ALGORITHM && untouched());
    EXPECT(dnw_ds_digest(BYTES(OWNER), BYTES("abc"), 3, buffer, sizeof buffer, &len) == DNW_NOT_DNSKEY && untouched());
    EXPECT(dnw_ds_digest(BYTES("\003NET"), BYTES("abc"), 3, buffer, sizeof buffer, &len) == DNW_MESSAGE_CUT && untouched());
    EXPECT(dnw_ds_digest(BYTES(OWNER "\000"), BYTES("abc"), 3, buffer, sizeof buffer, &len) == DNW_BYTES_LEFT && untouched());
    EXPECT(dnw_ds_digest(BYTES(OWNER), BYTES(DNSKEY), 1, buffer, sizeof buffer, &len) == DNW_DONE && len == 20);
    EXPECT(dnw_ds_digest(BYTES(OWNER), BYTES(DNSKEY), 4, buffer, sizeof buffer, &len) == DNW_DONE && len == 48);
}

#define SALT BYTES("\252\273\314\335")
#define HASH                                                                                                            \
    "\006\123\150\253\356\327\354\156\237\353\251\153\214\213\303\350\267\221\367\026"

static void hashes_names(void)
{
    clear();
    EXPECT(dnw_nsec3_hash(BYTES(EXAMPLE), 1, 12, SALT, 11, buffer, 64, &len) == DNW_TOO_MANY_ITERATIONS && untouched());
    EXPECT(dnw_nsec3_hash(BYTES(EXAMPLE), 2, 12, SALT, 11, buffer, sizeof buffer, &len) == DNW_UNKNOWN_ALGORITHM && untouched());
    EXPECT(dnw_nsec3_hash(BYTES("\007exam"), 2, 12, SALT, 11, buffer, sizeof buffer, &len) == DNW_MESSAGE_CUT && untouched());
    EXPECT(dnw_nsec3_hash(BYTES(EXAMPLE), 1, 12, SALT, 12, buffer, 19, &len) == DNW_NO_ROOM && untouched());
    EXPECT(dnw_nsec3_hash(BYTES(EXAMPLE), 1, 12, SALT, 12, buffer, DNW_NSEC3_HASH_SIZE, &len) == DNW_DONE && holds(HASH, 20));
    clear();
    EXPECT(dnw_nsec3_label(BYTES(EXAMPLE), 1, 12, SALT, 11, buffer, 64, &len) == DNW_TOO_MANY_ITERATIONS && untouched());
    EXPECT(dnw_nsec3_label(BYTES(EXAMPLE), 1, 12, SALT, 12, buffer, 31, &len) == DNW_NO_ROOM && untouched());
    EXPECT(dnw_nsec3_label(BYTES(EXAMPLE), 1, 12, SALT, 12, buffer, DNW_NSEC3_LABEL_SIZE, &len) == DNW_DONE
           && holds("0p9mhaveqvm6t7vbl5lop2u3t2rp3tom", 32));
}

#define B "\001b" EXAMPLE
#define NS1 "\003ns1" EXAMPLE
#define XX "\002xx" EXAMPLE

static bool covers(const uint8_t *owner, size_t owner_len, const uint8_t *next, size_t next_len, const uint8_t *name,
                   size_t name_len)
{
    bool is = false;
    EXPECT(dnw_nsec_covers(owner, owner_len, next, next_len, name, name_len, &is) == DNW_DONE);
    return is;
}

static bool covers_hash(const char *own, const char *next, const char *hash)
{
    bool is = false;
    EXPECT(dnw_nsec3_covers((const uint8_t *)own, 4, (const uint8_t *)next, 4, (const uint8_t *)hash, 4, &is) == DNW_DONE);
    return is;
}

static void covers_names(void)
{
    EXPECT(covers(BYTES(B), BYTES(NS1), BYTES("\002ML" EXAMPLE)));
    EXPECT(!covers(BYTES(B), BYTES(NS1), BYTES(B)) && !covers(BYTES(B), BYTES(NS1), BYTES(NS1)));
    EXPECT(!covers(BYTES(B), BYTES(NS1), BYTES(XX)) && !covers(BYTES(B), BYTES(NS1), BYTES(EXAMPLE)));
    EXPECT(covers(BYTES(XX), BYTES(EXAMPLE), BYTES("\002zz" EXAMPLE)));
    EXPECT(!covers(BYTES(XX), BYTES(EXAMPLE), BYTES(B)) && !covers(BYTES(XX), BYTES(EXAMPLE), BYTES("\004test\000")));
    EXPECT(covers(BYTES(EXAMPLE), BYTES(EXAMPLE), BYTES(B)) && !covers(BYTES(EXAMPLE), BYTES(EXAMPLE), BYTES(EXAMPLE)));
    bool is = true;
    EXPECT(dnw_nsec_covers(BYTES("\001"), BYTES(B), BYTES(B), &is) == DNW_MESSAGE_CUT && is);
    EXPECT(dnw_nsec_covers(BYTES(B), BYTES("\100"), BYTES("\001"), &is) == DNW_RESERVED_OCTET && is);
    EXPECT(dnw_nsec_covers(BYTES(B), BYTES(NS1), BYTES("\000\000"), &is) == DNW_BYTES_LEFT && is);
    EXPECT(covers_hash("0p9m", "2t7b", "0va5") && !covers_hash("0p9m", "2t7b", "0p9m") && !covers_hash("0p9m", "2t7b", "2t7b"));
    EXPECT(covers_hash("t644", "0p9m", "zzzz") && covers_hash("t644", "0p9m", "0000") && !covers_hash("t644", "0p9m", "b4um"));
    EXPECT(covers_hash("t644", "t644", "b4um") && !covers_hash("t644", "t644", "t644"));
}

/* the records of the zone, and its digest */
#define ZONE                                                                                                            \
    "\007\145\170\141\155\160\154\145\000\000\006\000\001\000\001\121\200\000\060\003" \
    "\156\163\061\007\145\170\141\155\160\154\145\000\005\141\144\155\151\156\007\145" \
    "\170\141\155\160\154\145\000\170\110\271\034\000\000\007\010\000\000\003\204\000" \
    "\011\072\200\000\001\121\200\007\145\170\141\155\160\154\145\000\000\002\000\001" \
    "\000\001\121\200\000\015\003\156\163\061\007\145\170\141\155\160\154\145\000\007" \
    "\145\170\141\155\160\154\145\000\000\002\000\001\000\001\121\200\000\015\003\156" \
    "\163\062\007\145\170\141\155\160\154\145\000\007\145\170\141\155\160\154\145\000" \
    "\000\077\000\001\000\001\121\200\000\066\170\110\271\034\001\001\306\200\220\331" \
    "\012\172\355\161\153\304\131\371\064\016\075\174\023\160\324\322\113\176\057\303" \
    "\241\335\300\271\250\161\123\271\251\161\073\074\232\345\314\047\167\177\230\270" \
    "\347\060\004\114\003\156\163\061\007\145\170\141\155\160\154\145\000\000\001\000" \
    "\001\000\000\016\020\000\004\313\000\161\077\003\156\163\062\007\145\170\141\155" \
    "\160\154\145\000\000\034\000\001\000\000\016\020\000\020\040\001\015\270\000\000" \
    "\000\000\000\000\000\000\000\000\000\143"
#define ZONE_DIGEST                                                                                                     \
    "\306\200\220\331\012\172\355\161\153\304\131\371\064\016\075\174\023\160\324\322" \
    "\113\176\057\303\241\335\300\271\250\161\123\271\251\161\073\074\232\345\314\047" \
    "\167\177\230\270\347\060\004\114"

static void digests_zones(void)
{
    clear();
    EXPECT(dnw_zone_digest(BYTES(EXAMPLE), BYTES(ZONE), 1, buffer, 47, &len) == DNW_NO_ROOM && untouched());
    EXPECT(dnw_zone_digest(BYTES(EXAMPLE), BYTES(ZONE), 1, buffer, 48, &len) == DNW_DONE && holds(ZONE_DIGEST, 48));
    EXPECT(dnw_zone_digest(BYTES("\007EXAMPLE\000"), BYTES(ZONE ZONE), 1, buffer, 64, &len) == DNW_DONE);
    EXPECT(holds(ZONE_DIGEST, 48));
    EXPECT(dnw_zone_digest(BYTES(EXAMPLE), BYTES(ZONE), 2, buffer, sizeof buffer, &len) == DNW_DONE && len == 64);
    clear();
    EXPECT(dnw_zone_digest(BYTES(EXAMPLE), BYTES(ZONE), 3, buffer, sizeof buffer, &len) == DNW_UNKNOWN_ALGORITHM && untouched());
    EXPECT(dnw_zone_digest(BYTES(EXAMPLE), BYTES(ZONE "\000"), 3, buffer, sizeof buffer, &len) == DNW_MESSAGE_CUT && untouched());
    EXPECT(dnw_zone_digest(BYTES("\007"), BYTES(ZONE "\000"), 3, buffer, sizeof buffer, &len) == DNW_MESSAGE_CUT && untouched());
}

/* an address, whose owner is before it */
#define ADDRESS "\000\001\000\001\000\000\016\020\000\004\300\000\002\001"

static void leaves_out_records_out_of_the_zone(void)
{
    clear();
    EXPECT(dnw_zone_digest(BYTES(EXAMPLE), BYTES("\003foo\004test\000" ADDRESS ZONE), 1, buffer, 48, &len) == DNW_DONE);
    EXPECT(holds(ZONE_DIGEST, 48));
    EXPECT(dnw_zone_digest(BYTES(EXAMPLE), BYTES(ZONE "\012notexample\000" ADDRESS), 1, buffer, 48, &len) == DNW_DONE);
    EXPECT(holds(ZONE_DIGEST, 48));
    EXPECT(dnw_zone_digest(BYTES(EXAMPLE), BYTES(ZONE "\000" ADDRESS), 1, buffer, 48, &len) == DNW_DONE);
    EXPECT(holds(ZONE_DIGEST, 48));
    EXPECT(dnw_zone_digest(BYTES(EXAMPLE), BYTES(ZONE "\003foo\007EXAMPLE\000" ADDRESS), 1, buffer, 48, &len) == DNW_DONE);
    EXPECT(!holds(ZONE_DIGEST, 48));
}

static uint8_t text[1 << 14], records[1 << 14];
static size_t records_len;

/* the digests at the apex of a zone, by their hash algorithm */
static uint8_t digests[3][DNW_DIGEST_SIZE];

/* Keeps the digest of a ZONEMD record of the scheme SIMPLE at the apex (RFC 8976, section 2.2). */
static void keep_digest(const uint8_t *record, const struct dnw_zone_entry *entry, const char *apex)
{
    const uint8_t *data = record + entry->len - entry->data_len;
    bool at_apex = entry->name_len == strlen(apex) + 1 && memcmp(record, apex, entry->name_len) == 0;
    if (entry->record_type == DNW_TYPE_ZONEMD && at_apex && data[4] == 1 && data[5] <= 2)
        memcpy(digests[data[5]], data + 6, entry->data_len - 6);
}

/* Reads a zone of the repository that has its own digests. Returns false if there is no such file. */
static bool read_zone(const char *name, const char *apex)
{
    char path[80];
    snprintf(path, sizeof path, "diff/included/digests/%s.zone", name);
    FILE *file = fopen(path, "rb");
    if (file == NULL)
        return false;
    size_t text_len = fread(text, 1, sizeof text, file), read = 0;
    EXPECT(text_len < sizeof text && fclose(file) == 0);
    struct dnw_zone zone;
    struct dnw_zone_entry entry;
    EXPECT(dnw_zone_begin((const uint8_t *)apex, strlen(apex) + 1, &zone) == DNW_DONE);
    records_len = 0;
    do {
        uint8_t *record = records + records_len;
        EXPECT(dnw_zone_next(text + read, text_len - read, false, &zone, record, sizeof records - records_len, &entry) == DNW_DONE);
        EXPECT(entry.kind == DNW_ZONE_END || entry.kind == DNW_ZONE_NOTHING || entry.kind == DNW_ZONE_RECORD);
        if (entry.kind == DNW_ZONE_RECORD)
            keep_digest(record, &entry, apex);
        read += entry.used;
        records_len += entry.len;
    } while (entry.kind != DNW_ZONE_END);
    return true;
}

/* The zones of RFC 8976, appendix A, and one whose digests are those of dnspython. The tests that are installed have no files. */
static void zones_have_their_digests(void)
{
    static const struct {
        const char *name, *apex;
        uint8_t last_algorithm;
    } zones[] = {{"simple", "\007example", 1}, {"complex", "\007example", 1},
                 {"multiple", "\007example", 2}, {"uri.arpa", "\003uri\004arpa", 1},
                 {"root-servers.net", "\014root-servers\003net", 1}, {"outside", "\007example", 2}};
    size_t count = sizeof zones / sizeof zones[0];
    if (!read_zone(zones[0].name, zones[0].apex))
        return;
    for (size_t i = 0; i < count; i++) {
        memset(digests, 0, sizeof digests);
        EXPECT(read_zone(zones[i].name, zones[i].apex));
        for (uint8_t algorithm = 1; algorithm <= zones[i].last_algorithm; algorithm++) {
            clear();
            EXPECT(dnw_zone_digest((const uint8_t *)zones[i].apex, strlen(zones[i].apex) + 1, records, records_len, algorithm, buffer,
                                   sizeof buffer, &len) == DNW_DONE);
            EXPECT(holds((const char *)digests[algorithm], algorithm == 1 ? 48 : 64));
        }
    }
}

int main(void)
{
    makes_key_tags();
    makes_digests();
    hashes_names();
    covers_names();
    digests_zones();
    leaves_out_records_out_of_the_zone();
    zones_have_their_digests();
    return 0;
}
