"""The octets that signatures cover. Expected octets are worked out by hand from RFC 4034, sections 3.1.8.1 and 6, RFC
4035, section 5.3.2, and RFC 6840, section 5.1, or are dnspython's if it is installed. A real signature is verified over
them if `cryptography` is."""

import dataclasses
import pathlib
import random
import unittest

import dns_names_wire as dnw
from dns_names_wire import Message, Name, Record, RecordType

try:
    import dns.dnssec
    import dns.name
    import dns.rdata
    import dns.rdataset
    import dns.rdatatype
    from dns.rdtypes.ANY.RRSIG import RRSIG
except ImportError:
    dns = None
try:
    from cryptography.hazmat.primitives import hashes
    from cryptography.hazmat.primitives.asymmetric import ec, utils
except ImportError:
    ec = None

RESPONSE = pathlib.Path(__file__).resolve().parents[2] / "examples" / "signed"
FIRST = "0161016200 0001 0001 00000e10 0004 c0000201"
SECOND = "0161016200 0001 0001 00000e10 0004 c0000202"
TEXTS = """\
NS X.Example.
SOA Ns.example. Host.Example. 1 2 3 4 5
PTR X.Example.
HINFO "Cpu" "Os"
MX 10 Mail.Example.
TXT "A" "a"
RP M.Example. T.Example.
AFSDB 1 Host.Example.
RT 10 Relay.Example.
PX 10 Map.Example. X400.Example.
SRV 1 2 53 Target.Example.
NAPTR 100 10 "U" "E2U+sip" "" Re.Example.
KX 10 Kx.Example.
DNAME Other.Example.
NSEC Next.Example. A MX
DS 60485 5 1 2bb183af5f22588179a53b0a98631fad1a292118
CAA 128 issue "CA.example.net"
A 192.0.2.1
AAAA 2001:db8::1""".splitlines()


def rrsig(covered, labels=2, owner="a.B.", signer="B."):
    """An RRSIG that covers a type, and its fields up to the signature in hexadecimal."""
    text = f"{owner} 5 IN RRSIG {covered} 13 {labels} 3600 20010909014640 20010909014640 7 {signer} c2ln"
    name = Name(signer.lower()).wire.hex()
    fields = f"{dnw.type_code(covered):04x} 0d {labels:02x} 00000e10 3b9aca00 3b9aca00 0007 {name}"
    return Record.from_text(text), fields


def records(*lines):
    return [Record.from_text(line) for line in lines]


class Signed(unittest.TestCase):
    def signs(self, signature, others, wanted):
        self.assertEqual(signature.signed_octets(others).hex(), wanted.replace(" ", ""))

    def test_a_set_is_in_order_and_each_record_once(self):
        own, fields = rrsig("A")
        covered = records("A.b. 9 A 192.0.2.2", "a.b. 8 A 192.0.2.1", "a.b. 5 A 192.0.2.2")
        others = records("a.b. 5 AAAA ::1", "b. 5 A 192.0.2.3", "a.b. 5 NONE A 192.0.2.4")
        self.signs(own, covered + others + [own], f"{fields} {FIRST} {SECOND}")
        self.signs(own, iter(covered[1:2]), f"{fields} {FIRST}")
        # to be signed: no signature yet
        template = Record(own.owner, 0, dataclasses.replace(own.data, signature=b""))
        self.signs(template, covered, f"{fields} {FIRST} {SECOND}")

    def test_wildcards(self):
        for labels, owner in [(1, "012a016200"), (0, "012a00")]:
            own, fields = rrsig("A", labels)
            self.signs(own, records("A.B. 5 A 192.0.2.1"), f"{fields} {owner} 0001 0001 00000e10 0004 c0000201")

    def test_names_in_data_are_lowered_by_type(self):
        for text, data in [
            ("MX 10 X.B.", "0007 000a 0178016200"),
            ("NSEC X.B. A", "0008 0158014200 000140"),
            ("SVCB 1 X.B.", "0007 0001 0158014200"),
        ]:
            kind = text.split()[0]
            own, fields = rrsig(kind)
            self.signs(own, records(f"a.b. 5 IN {text}"), f"{fields} 0161016200 {dnw.type_code(kind):04x} 0001 00000e10 {data}")

    def test_sections_of_messages(self):
        own, fields = rrsig("A")
        answers = records("a.b. 5 A 192.0.2.2", "a.b. 5 A 192.0.2.1") + [own]
        message = Message.from_wire(Message.query(Name("a.b."), RecordType.A).reply(answers).to_wire())
        self.signs(message.answers[2], message.answers, f"{fields} {FIRST} {SECOND}")
        # the data of records that are not covered are not checked
        wrong = dnw.read_record(bytes.fromhex("016200 0001 0001 00000000 0001 00"))
        self.signs(message.answers[2], [*message.answers, wrong], f"{fields} {FIRST} {SECOND}")

    def test_what_is_not_signed(self):
        own, _ = rrsig("A")
        covered = records("a.b. 5 A 192.0.2.1")
        with self.assertRaisesRegex(dnw.NotCovered, "^the RRSIG covers none of the records$"):
            own.signed_octets([])
        self.assertRaises(dnw.NotCovered, own.signed_octets, records("a.b. 5 AAAA ::1", "b.b. 5 A 192.0.2.1"))
        self.assertRaises(dnw.NotCovered, rrsig("A", signer="C.")[0].signed_octets, covered)
        self.assertRaises(dnw.NotCovered, rrsig("A", signer="x.a.b.")[0].signed_octets, covered)
        with self.assertRaisesRegex(dnw.TooFewLabels, "^the owner has fewer labels than the RRSIG counts$"):
            rrsig("A", 3)[0].signed_octets(covered)
        with self.assertRaisesRegex(dnw.NotRrsig, "^the record is no RRSIG$"):
            covered[0].signed_octets(covered)
        cut = dnw.read_record(bytes.fromhex("00 002e 0001 00000000 0011" + "00" * 17))
        self.assertRaises(dnw.MessageCut, cut.signed_octets, covered)
        wrong = dnw.read_record(bytes.fromhex("0161016200 0001 0001 00000000 0005 0102030405"))
        self.assertRaises(dnw.WrongDataLength, own.signed_octets, [wrong])

    @unittest.skipIf(dns is None, "dnspython is not installed")
    def test_dnspython_signs_the_same(self):
        rng = random.Random(7)
        for _ in range(300):
            text = rng.choice(TEXTS)
            kind, data = text.split(" ", 1)
            lines = sorted({data, data.upper() if kind in ("NS", "PTR", "MX") else data, data.replace("Example", rng.choice(["a", "B"]))})
            if kind in ("SOA", "DNAME", "NSEC"):
                # dnspython keeps one record of these in a set.
                lines = lines[:1]
            owner = rng.choice(["a.b.Example.", "Example.", "*.Example.", "x.*.example."])
            most = owner.count(".") - owner.startswith("*")
            # dnspython has names for more types.
            code = f"TYPE{int(dns.rdatatype.from_text(kind))}"
            own, _ = rrsig(code, rng.randrange(most + 1), owner, "Example.")
            found = records(*(f"{owner} {rng.randrange(99)} IN {code} {line}" for line in lines))
            rng.shuffle(found)
            signature = dns.rdata.from_wire(1, 46, own.raw_data, 0, len(own.raw_data))
            of_set = dns.rdataset.from_text("IN", kind, 5, *lines)
            wanted = dns.dnssec._make_rrsig_signature_data((dns.name.from_text(owner), of_set), signature)
            self.assertEqual(own.signed_octets(found).hex(), wanted.hex(), text)

    @unittest.skipIf(ec is None or not RESPONSE.is_dir(), "cryptography or the response of the examples is not there")
    def test_signatures_of_a_key(self):
        wire = bytes.fromhex((RESPONSE / "response.hex").read_text())
        point = Record.from_text((RESPONSE / "key.txt").read_text()).data.key
        numbers = (int.from_bytes(half, "big") for half in (point[:32], point[32:]))
        key = ec.EllipticCurvePublicNumbers(*numbers, ec.SECP256R1()).public_key()
        message, tested = Message.from_wire(wire), 0
        for section in message.answers, message.authorities, message.additionals:
            for record in (it for it in section if it.record_type == RecordType.RRSIG):
                own = record.data.signature
                signature = utils.encode_dss_signature(*(int.from_bytes(half, "big") for half in (own[:32], own[32:])))
                # It raises InvalidSignature if one octet is another.
                key.verify(signature, record.signed_octets(section), ec.ECDSA(hashes.SHA256()))
                tested += 1
        self.assertEqual(tested, 8)


if __name__ == "__main__":
    unittest.main()
