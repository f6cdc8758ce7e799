#!/usr/bin/env python3
"""Writes rows of `record-set` requests to standard output: sets of records, and the octets that a signature covers, which
dnspython 2.3 makes of them. It verifies each signature over these octets, with Debian's python3-cryptography.

usage: diff/make_sets.py > diff/lists/sets.txt

The keys and signatures of RFC 6605 and RFC 8080 are theirs. All others are made by a key of Ed25519 from 32 octets that are
all 7, so that they are the same whenever this is run.
"""

import base64
import itertools

import cryptography.hazmat.primitives.asymmetric.ed25519 as ed25519
import cryptography.hazmat.primitives.serialization as serialization
import dns.dnssec
import dns.name
import dns.rdata
import dns.rdatatype
import dns.rrset

ZONE = dns.name.from_text("Example.")
NOW, UNTIL = 1438207200, 1440021600

# The key and the record set of RFC 6605, section 6.1, and of RFC 8080, section 6.1, each with its signature.
PUBLISHED = [
    (
        "RFC 6605, section 6.1",
        ("example.net.", "257 3 13 GojIhhXUN/u4v54ZQqGSnyhWJwaubCvTmeexv7bR6edbkrSqQpF64cYbcB7wNcP+e+MAnLr+Wi9xMWyQLc8NAA=="),
        ("www.example.net.", "A", "192.0.2.1"),
        "A 13 3 3600 20100909100439 20100812100439 55648 example.net. "
        "qx6wLYqmh+l9oCKTN6qIc+bw6ya+KJ8oMz0YP107epXAyGmt+3SNruPFKG7tZoLBLlUzGGus7ZwmwWep666VCw==",
    ),
    (
        "RFC 8080, section 6.1",
        ("example.com.", "257 3 15 l02Woi0iS8Aa25FQkUd9RMzZHJpBoRQwAQEX1SxZJA4="),
        ("example.com.", "MX", "10 mail.example.com."),
        "MX 15 2 3600 1440021600 1438207200 3613 example.com. "
        "oL9krJun7xfBOIWcGHi7mag5/hdZrKWw15jPGrHpjQeRAvTdszaPD+QLs3fx8A4M3e23mRZ9VrbpMngwcrqNAg==",
    ),
]

# Sets of records: the owner, the labels that the signature counts if the owner is made from a wildcard, the type and the data.
SETS = [
    ("in order of their data, an absent octet before a zero (RFC 4034, section 6.3)", "a.Example.", None, "TXT", ['"a"', '"ab"', '"" ""', '""', '"a" ""', '"\\000"']),
    ("names in lower case (RFC 4034, section 6.2)", "Example.", None, "NS", ["NS.Example.", "ns2.EXAMPLE.", "a.b.C.", "."]),
    ("an order by lowered names", "Example.", None, "MX", ["10 B.Example.", "10 a.example.", "2 z.example.", "256 A.example."]),
    ("two names", "Example.", None, "SOA", ["NS.Example. Admin.Example. 1 7200 600 3600000 60"]),
    ("names of types after RFC 1035", "_x._tcp.EXAMPLE.", None, "SRV", ["0 1 9 B.Example.", "0 1 9 a.Example.", "0 0 0 ."]),
    ("names after strings", "Example.", None, "NAPTR", ['100 50 "A" "z3950" "" CID.Example.', '100 50 "a" "z3950" "" cid.Example.']),
    ("a next name that stays as it is (RFC 6840, section 5.1)", "A.Example.", None, "NSEC", ["Host.Example. A MX RRSIG NSEC"]),
    ("a target that stays as it is", "a.Example.", None, "SVCB", ["1 Foo.Example. port=53", "16 foo.Example. port=53"]),
    ("addresses", "a.Example.", None, "A", ["192.0.2.10", "192.0.2.2", "9.255.255.255", "10.0.0.1"]),
    ("addresses", "a.Example.", None, "AAAA", ["2001:db8::1", "::1", "2001:db8::"]),
    ("keys", "Example.", None, "DNSKEY", ["257 3 15 l02Woi0iS8Aa25FQkUd9RMzZHJpBoRQwAQEX1SxZJA4=", "256 3 5 AQPSKmyn", "256 3 5 AQPS"]),
    ("digests", "sub.Example.", None, "DS", ["3613 15 2 3aa5ab37efce57f737fc1627013fee07bdf241bd10f3b1964ab55c78e79a304b"]),
    ("no octets", "a.Example.", None, "TYPE731", ["\\# 0", "\\# 1 00", "\\# 2 0000", "\\# 1 01"]),
    ("a wildcard itself (RFC 4034, section 3.1.3)", "*.Example.", 1, "A", ["192.0.2.1", "192.0.2.0"]),
    ("made by a wildcard (RFC 4035, section 5.3.2)", "a.Z.W.Example.", 2, "MX", ["1 AI.Example.", "1 ah.Example."]),
    ("made by a wildcard of the root", "a.Example.", 0, "TXT", ["x", "y"]),
    ("the root", ".", None, "NS", ["A.Root-Servers.NET.", "b.root-servers.net."]),
]


def set_of(owner, kind, texts):
    return dns.rrset.from_text(owner, 60, "IN", kind, *texts)


def words_of(rrset):
    """The records, in the order given and in the reverse one, with another time to live, and the first one once more."""
    words = [
        f"{rrset.name},{int(rrset.rdclass)},{int(rrset.rdtype)},60,{data.to_wire().hex() or '-'}" for data in rrset
    ]
    again = [word.replace(",60,", ",3600,", 1) for word in reversed(words)]
    yield words
    if len(words) > 1:
        yield again + words[:1]
        swapped = [word.split(",", 1) for word in words]
        yield [owner.swapcase() + "," + rest for owner, rest in swapped[1:] + swapped[:1]]


def rows(rrset, rrsig, keys):
    dns.dnssec.validate_rrsig(rrset, rrsig, keys, now=rrsig.inception)
    octets = dns.dnssec._make_rrsig_signature_data(rrset, rrsig)
    for words in words_of(rrset):
        yield f"record-set {rrsig.to_wire().hex()} {' '.join(words)} = {octets.hex()}"


def made():
    private = ed25519.Ed25519PrivateKey.from_private_bytes(bytes([7]) * 32)
    public = private.public_key().public_bytes(serialization.Encoding.Raw, serialization.PublicFormat.Raw)
    key = dns.rdata.from_text("IN", "DNSKEY", "256 3 15 " + base64.b64encode(public).decode())
    keys = {ZONE: dns.rrset.from_rdata(ZONE, 60, key)}
    for what, owner, labels, kind, texts in SETS:
        rrset = set_of(owner, kind, texts)
        count = len(rrset.name) - 1 if labels is None else labels
        head = f"{kind} 15 {count} 3600 {UNTIL} {NOW} {dns.dnssec.key_id(key)} {ZONE} "
        unsigned = dns.rdata.from_text("IN", "RRSIG", head + "AA==")
        signature = private.sign(dns.dnssec._make_rrsig_signature_data(rrset, unsigned))
        rrsig = dns.rdata.from_text("IN", "RRSIG", head + base64.b64encode(signature).decode())
        yield what, rows(rrset, rrsig, keys)


def published():
    for source, (zone, key), (owner, kind, text), signature in PUBLISHED:
        zone = dns.name.from_text(zone)
        keys = {zone: dns.rrset.from_text(zone, 3600, "IN", "DNSKEY", key)}
        yield source, rows(set_of(owner, kind, [text]), dns.rdata.from_text("IN", "RRSIG", signature), keys)


def main():
    print("# The octets that signatures of sets of records cover, by dnspython: `diff/make_sets.py`.")
    for what, lines in itertools.chain(published(), made()):
        print(f"\n# {what[0].upper()}{what[1:]}.")
        print(*lines, sep="\n")


main()
