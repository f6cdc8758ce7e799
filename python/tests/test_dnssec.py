"""The sums of DNSSEC: the examples of their RFCs, and what dnspython makes of random input if it is installed."""

import hashlib
import pathlib
import random
import struct
import unittest

import dns_names_wire as dnw
from dns_names_wire import Name, Record, RecordType

try:
    import dns.dnssec
    import dns.name
    import dns.rdata
    import dns.rdataclass
    import dns.rdatatype
    import dns.zone
except ImportError:
    dns = None

# RFC 4034, section 5.4; RFC 4509, section 2.3; RFC 6605, sections 6.1 and 6.2.
RSA = """256 3 5 AQOeiiR0GOMYkDshWoSKz9XzfwJr1AYtsmx3TGkJaNXVbfi/2pHm822aJ5iI9BMzNXxeYCmZDRD99WYwYqUSdjMmmAphXdvxegXd/M5+
X7OrzKBaMbCVdFLUUh6DhweJBjEVv5f2wwjM9XzcnOf+EPbtG9DMBmADjFDc2w/rljwvFw=="""
P256 = "257 3 13 GojIhhXUN/u4v54ZQqGSnyhWJwaubCvTmeexv7bR6edbkrSqQpF64cYbcB7wNcP+e+MAnLr+Wi9xMWyQLc8NAA=="
P384 = """257 3 14 xKYaNhWdGOfJ+nPrL8/arkwf2EY3MDJ+SErKivBVSum1w/egsXvSADtNJhyem5RCOpgQ6K8X1DRSEkrbYQ+OB+v8/uX45NBwY8rp65F6Glur
8I/mlVNgF6W/qTI37m40"""
KEYS = [
    ("dskey.example.com.", RSA, 60485, 1, "2bb183af5f22588179a53b0a98631fad1a292118"),
    ("dskey.example.com.", RSA, 60485, 2, "d4b7d520e7bb5f0f67674a0cceb1e3e0614b93c4f9e99b8383f6a1e4469da50a"),
    ("Example.NET.", P256, 55648, 2, "b4c8c1fe2e7477127b27115656ad6256f424625bf5c1e2770ce6d6e37df61d17"),
    (
        "example.net.",
        P384,
        10771,
        4,
        "72d7b62976ce06438e9c0bf319013cf801f09ecc84b8d7e9495f27e305c6a9b0563a9b5f4d288405c3008a946df983d6",
    ),
]
# RFC 5155, appendix A.
HASHES = {
    "example.": "0p9mhaveqvm6t7vbl5lop2u3t2rp3tom",
    "a.example.": "35mthgpgcu1qg68fab165klnsnk3dpvl",
    "ai.example.": "gjeqe526plbf1g8mklp59enfd789njgi",
    "ns1.example.": "2t7b4g4vsa5smi47k61mv5bv1a22bojr",
    "NS2.example.": "q04jkcevqvmu85r014c7dkba38o0ji5r",
    "*.w.example.": "r53bq7cc2uvmubfu5ocmm6pers9tk9en",
    "xx.example.": "t644ebqk9bibcna874givr6joj62mlhv",
}
# RFC 8976, appendix A.1.
ZONE_DIGEST = "c68090d90a7aed716bc459f9340e3d7c1370d4d24b7e2fc3a1ddc0b9a87153b9a9713b3c9ae5cc27777f98b8e730044c"
ZONE = f"""\
example. 86400 IN SOA ns1.example. admin.example. 2018031900 1800 900 604800 86400
example. 86400 IN NS ns1.example.
example. 86400 IN NS ns2.example.
example. 86400 IN ZONEMD 2018031900 1 1 {ZONE_DIGEST}
ns1.example. 3600 IN A 203.0.113.63
ns2.example. 3600 IN AAAA 2001:db8::63"""

# The zones of RFC 8976, appendix A, and one whose digests are those of dnspython: their apexes, and how many digests they have.
ZONES = pathlib.Path(__file__).resolve().parents[2] / "diff" / "included" / "digests"
DIGESTS = {
    "simple": ("example.", 1),
    "complex": ("example.", 1),
    "multiple": ("example.", 2),
    "uri.arpa": ("uri.arpa.", 1),
    "root-servers.net": ("root-servers.net.", 1),
    "outside": ("example.", 2),
}


def random_octets(chance, least, most):
    return bytes(chance.choices(range(256), k=chance.randint(least, most)))


def random_name(chance, zone):
    labels = [bytes(chance.choices(b"aAbBzZ0-\x00*\xff", k=chance.randint(1, 4))) for _ in range(chance.randint(0, 3))]
    wire = b"".join(bytes([len(label)]) + label for label in labels) + zone
    return Name.from_wire(wire), dns.name.from_wire(wire, 0)[0]


class Sums(unittest.TestCase):
    def test_keys_have_the_tags_and_digests_of_the_rfcs(self):
        for owner, text, tag, digest_type, digest in KEYS:
            key = Record.from_text(f"{owner} 60 IN DNSKEY {' '.join(text.split())}").raw_data
            self.assertEqual(dnw.key_tag(key), tag)
            self.assertEqual(dnw.ds_digest(Name(owner), key, digest_type).hex(), digest)
        self.assertEqual(dnw.key_tag(bytes.fromhex("01000301aabbcc")), 0xAABB)

    def test_names_have_the_hashes_of_the_rfc(self):
        for text, label in HASHES.items():
            self.assertEqual(dnw.nsec3_label(Name(text), 12, b"\xaa\xbb\xcc\xdd", 12), label)

    def test_a_zone_has_the_digest_of_the_rfc(self):
        zone = [Record.from_text(line) for line in ZONE.split("\n")]
        self.assertEqual(dnw.zone_digest(Name("EXAMPLE."), zone, 1).hex(), ZONE_DIGEST)
        self.assertEqual(dnw.zone_digest(Name("example."), zone[::-1] + zone, 1).hex(), ZONE_DIGEST)

    def test_records_that_differ_in_their_ttl_are_one(self):
        least = Record.from_text("a. 5 IN A 192.0.2.1")
        others = [Record.from_text(f"A. {ttl} IN A 192.0.2.1") for ttl in (7, 6, 9)]
        self.assertEqual(dnw.zone_digest(Name("a."), [*others, least], 2), hashlib.sha512(least.to_wire()).digest())

    def test_only_the_digest_at_the_apex_is_left_out(self):
        zonemd = "ZONEMD 7 1 1 " + "00" * 48
        rrsig = "RRSIG ZONEMD 13 1 60 20010909014640 20010909014640 7 a. AA=="
        apex = [Record.from_text(f"a. 60 IN {data}") for data in (zonemd, rrsig)]
        below = [Record.from_text(f"b.a. 60 IN {data}") for data in (rrsig, zonemd)]
        whole = b"".join(record.to_wire() for record in below)
        self.assertEqual(dnw.zone_digest(Name("a."), apex + below[::-1], 2), hashlib.sha512(whole).digest())
        self.assertEqual(dnw.zone_digest(Name("a."), apex, 2), hashlib.sha512(b"").digest())

    def test_records_out_of_the_zone_are_left_out(self):
        zone = [Record.from_text(line) for line in ZONE.split("\n")]
        for owner in ("foo.test.", "notexample.", "ample.", "."):
            zone.insert(0, Record.from_text(f"{owner} 60 IN A 192.0.2.1"))
            self.assertEqual(dnw.zone_digest(Name("example."), zone, 1).hex(), ZONE_DIGEST)
        zone.append(Record.from_text("foo.EXAMPLE. 60 IN A 192.0.2.1"))
        self.assertNotEqual(dnw.zone_digest(Name("example."), zone, 1).hex(), ZONE_DIGEST)

    @unittest.skipIf(not ZONES.is_dir(), "the zones of the repository are not there")
    def test_zones_have_their_digests(self):
        for file, (text, count) in DIGESTS.items():
            apex = Name(text)
            zone = list(dnw.read_zone(ZONES / f"{file}.zone", apex))
            at_apex = [it.data for it in zone if it.owner == apex and it.record_type == RecordType.ZONEMD]
            known = [data for data in at_apex if data.scheme == 1 and data.hash_algorithm <= 2]
            self.assertEqual(len(known), count, file)
            for data in known:
                self.assertEqual(dnw.zone_digest(apex, zone, data.hash_algorithm), data.digest, file)

    def test_a_record_covers_what_is_between_its_names(self):
        # the names of RFC 4035, appendix A
        for owner, following, name, covers in [
            ("b.example.", "ns1.example.", "ML.example.", True),
            ("b.example.", "ns1.example.", "b.EXAMPLE.", False),
            ("b.example.", "ns1.example.", "ns1.example.", False),
            ("b.example.", "ns1.example.", "example.", False),
            ("xx.example.", "example.", "zz.example.", True),
            ("xx.example.", "example.", "ml.example.", False),
            ("xx.example.", "example.", "test.", False),
            ("xx.example.", "example.", "a.", False),
            ("example.", "example.", "a.example.", True),
            ("example.", "example.", "example.", False),
        ]:
            self.assertEqual(dnw.nsec_covers(Name(owner), Name(following), Name(name)), covers, (owner, name))
        for own, following, given, covers in [(2, 5, 3, True), (2, 5, 2, False), (2, 5, 5, False), (2, 5, 6, False)] + [
            (5, 2, 6, True),
            (5, 2, 1, True),
            (5, 2, 3, False),
            (5, 5, 5, False),
            (5, 5, 4, True),
        ]:
            self.assertEqual(dnw.nsec3_covers(*(bytes([it]) * 20 for it in (own, following, given))), covers)

    def test_wrong_arguments_are_rejected(self):
        name = Name("a.")
        for error, call in [
            (dnw.NotDnskey, lambda: dnw.key_tag(b"\1\0\3")),
            (dnw.NotDnskey, lambda: dnw.key_tag(b"\1\0\3\1ab")),
            (dnw.NotDnskey, lambda: dnw.key_tag(bytes(65536))),
            (dnw.NotDnskey, lambda: dnw.ds_digest(name, b"", 2)),
            (dnw.UnknownAlgorithm, lambda: dnw.ds_digest(name, bytes(4), 3)),
            (dnw.UnknownAlgorithm, lambda: dnw.nsec3_hash(name, 0, b"", 0, algorithm=2)),
            (dnw.TooManyIterations, lambda: dnw.nsec3_hash(name, 11, b"", 10)),
            (dnw.TooManyIterations, lambda: dnw.nsec3_label(name, 11, b"", 10)),
            (dnw.UnknownAlgorithm, lambda: dnw.zone_digest(name, [], 3)),
            (ValueError, lambda: dnw.nsec3_hash(name, 65536, b"", 10)),
            (ValueError, lambda: dnw.ds_digest(name, bytes(4), 256)),
            (TypeError, lambda: dnw.key_tag("")),
            (TypeError, lambda: dnw.ds_digest(b"a.", bytes(4), 2)),
            (ValueError, lambda: dnw.ds_digest("a", bytes(4), 2)),
        ]:
            self.assertRaises(error, call)


@unittest.skipIf(dns is None, "dnspython is not installed")
class Beside(unittest.TestCase):
    def setUp(self):
        self.chance = random.Random(5)

    def test_keys(self):
        for _ in range(300):
            ours, theirs = random_name(self.chance, b"\7Example\0")
            octets = random_octets(self.chance, 7, 300)
            key = dns.rdata.from_wire(dns.rdataclass.IN, dns.rdatatype.DNSKEY, octets, 0, len(octets))
            self.assertEqual(dnw.key_tag(octets), dns.dnssec.key_id(key))
            digest_type, kind = self.chance.choice([(1, "SHA1"), (2, "SHA256"), (4, "SHA384")])
            ds = dns.dnssec.make_ds(theirs, key, kind, policy=dns.dnssec.allow_all_policy)
            self.assertEqual(dnw.ds_digest(ours, octets, digest_type), ds.digest)

    def test_hashed_names(self):
        for _ in range(300):
            ours, theirs = random_name(self.chance, b"\7Example\0")
            salt, iterations = random_octets(self.chance, 0, 20), self.chance.randint(0, 30)
            label = dns.dnssec.nsec3_hash(theirs, salt, iterations, 1).lower()
            self.assertEqual(dnw.nsec3_label(ours, iterations, salt, 30), label)

    def test_covered_names(self):
        for _ in range(600):
            (own, a), (following, b), (given, c) = (random_name(self.chance, b"\1z\0") for _ in range(3))
            apex = dns.name.from_text("z.")
            if a >= b:
                (following, b) = Name("Z."), apex
            covers = a < c and (c < b or b == apex)
            self.assertEqual(dnw.nsec_covers(own, following, given), covers, (a, b, c))

    def test_zones(self):
        for _ in range(100):
            apex = dns.name.from_text("Example.")
            zone, records = dns.zone.Zone(apex, relativize=False), []
            for _ in range(self.chance.randint(1, 20)):
                theirs = random_name(self.chance, b"\7Example\0")[1]
                texts = ["A 192.0.2.%d", "MX %d Mail.Example.", "NS N%d.Example.", 'TXT "%d"', "SRV 1 2 %d B.a."]
                text = self.chance.choice(texts)
                kind, data = (text % self.chance.randint(0, 9)).split(" ", 1)
                rdata = dns.rdata.from_text("IN", kind, data)
                zone.find_rdataset(theirs, rdata.rdtype, create=True).add(rdata, 60)
                octets = rdata.to_wire()
                fixed = struct.pack("!HHIH", rdata.rdtype, 1, 60, len(octets))
                records.append(dnw.read_record(theirs.to_wire() + fixed + octets))
            for algorithm in (1, 2):
                wanted = zone._compute_digest(algorithm)
                self.assertEqual(dnw.zone_digest(Name("example."), records, algorithm), wanted)


if __name__ == "__main__":
    unittest.main()
