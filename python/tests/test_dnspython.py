"""Compares with dnspython, if it is installed: the same names from the same bytes, and the same order."""

import ipaddress
import random
import unittest

from dns_names_wire import (
    NS,
    DnsError,
    Edns,
    EdnsOption,
    Header,
    Message,
    MessageWriter,
    Name,
    Question,
    Record,
    read_name,
    type_code,
    type_text,
)

try:
    import dns.edns
    import dns.exception
    import dns.flags
    import dns.message
    import dns.name
    import dns.rdata
    import dns.rdataclass
    import dns.rdatatype
except ImportError:
    dns = None

# Data of each type that has a text of its own, except those that dnspython 2.3.0 lacks.
TEXTS = """\
A 192.0.2.1
NS ns.example.
CNAME www.example.
SOA ns.example. hostmaster.example. 2024010101 7200 3600 1209600 3600
PTR host.example.
HINFO "cpu" "os"
MX 10 mail.example.
TXT "v=spf1 -all" "" "a\\"b\\\\c\\200"
RP mbox.example. txt.example.
AFSDB 1 host.example.
RT 10 relay.example.
PX 10 map.example. x400.example.
AAAA 2001:db8::1
SRV 1 2 53 target.example.
NAPTR 100 10 "u" "E2U+sip" "!^.*$!sip:info@example.com!" .
KX 10 kx.example.
CERT 1 2 3 AQIDBA==
DNAME other.example.
DS 60485 5 1 2bb183af5f22588179a53b0a98631fad1a292118
SSHFP 2 1 123456789abcdef67890123456789abcdef67890
RRSIG A 5 3 86400 20030322173103 20030220173103 2642 example. oJB1W6WNGv+ldvQ3WDG0MQkg5IEhjRip8WTr
NSEC next.example. A MX RP LOC RRSIG NSEC URI TYPE1234
DNSKEY 256 3 5 AQPSKmynfzW4kyBv015MUG2DeIQ3
NSEC3 1 1 12 aabbccdd 2vptu5timamqttgl4luu9kg21e0aor3s A RRSIG
NSEC3PARAM 1 0 12 aabbccdd
RRSIG ZONEMD 5 3 86400 20030322173103 20030220173103 2642 example. oJB1W6WNGv+ldvQ3WDG0MQkg5IEhjRip8WTr
TLSA 3 1 1 d2abde240d7cd3ee6b4b28c54df034b97983a1d16e8a410e4561cb106618e971
SMIMEA 3 1 1 d2abde240d7cd3ee6b4b28c54df034b97983a1d16e8a410e4561cb106618e971
CDS 60485 5 1 2bb183af5f22588179a53b0a98631fad1a292118
CDNSKEY 256 3 5 AQPSKmynfzW4kyBv015MUG2DeIQ3
CSYNC 66 3 A NS AAAA
IPSECKEY 10 1 2 192.0.2.38 AQNRU3mG
IPSECKEY 10 3 2 gateway.example. AQNRU3mG
HIP 2 200100107b1a74df365639cc39f1d578 AwEAAbdx rvs1.example. rvs2.example.
AMTRELAY 128 1 3 amtrelays.example.
SPF "v=spf1 -all"
EUI48 00-00-5e-00-53-2a
EUI64 00-00-5e-ef-10-00-00-2a
URI 10 1 "https://example.com/"
CAA 128 issue "ca.example.net"
TYPE65280 \\# 4 0a000001
""".splitlines()

WORDS = [b"www", b"WWW", b"a", b"B", b"mail", b"example", b"Example", b"com", b"\x00", b"a.b", b"\xff\xc8", b"x" * 63]


def some_name(rng):
    """Returns the wire form of a name of at most 255 octets."""
    labels = [rng.choice(WORDS) for _ in range(rng.randrange(6))]
    while sum(len(label) + 1 for label in labels) > 254:
        labels.pop()
    return b"".join(bytes([len(label)]) + label for label in labels) + b"\x00"


@unittest.skipIf(dns is None, "dnspython is not installed")
class BesideDnspython(unittest.TestCase):
    def setUp(self):
        self.rng = random.Random(1)

    def test_wire_forms_and_order(self):
        forms = [some_name(self.rng) for _ in range(400)]
        ours = [Name.from_wire(form) for form in forms]
        theirs = [dns.name.from_wire(form, 0)[0] for form in forms]
        for left, right, their_left, their_right in zip(ours, ours[1:], theirs, theirs[1:]):
            self.assertEqual(left.wire, their_left.to_wire())
            self.assertEqual(left.lower().wire, their_left.canonicalize().to_wire())
            self.assertEqual(left < right, their_left < their_right)
            self.assertEqual(left == right, their_left == their_right)
            self.assertEqual(left.is_in(right), their_left.is_subdomain(their_right))
        self.assertEqual([name.lower().wire for name in sorted(ours)], [name.canonicalize().to_wire() for name in sorted(theirs)])

    def test_messages_that_we_write(self):
        for _ in range(50):
            names = [Name.from_wire(some_name(self.rng)) for _ in range(self.rng.randrange(60))]
            writer = MessageWriter()
            for name in names:
                writer.answer(Record(name, 0, NS(name)))
            message = writer.finish()
            theirs = dns.message.from_wire(message, one_rr_per_rrset=True)
            self.assertEqual([(one.name.to_wire(), one[0].target.to_wire()) for one in theirs.answer], [(name.wire,) * 2 for name in names])
            ours = Message.from_wire(message)
            self.assertEqual([(one.owner.wire, one.data.target.wire) for one in ours.answers], [(name.wire,) * 2 for name in names])

    def test_bytes_that_may_be_no_name(self):
        """What we accept, dnspython reads as the same name. It accepts more: a segment that runs into the one after
        it."""
        accepted = 0
        for _ in range(20000):
            message = bytes(self.rng.choice([0, 1, 2, 3, 0xC0, 0x41, 5, 7]) for _ in range(self.rng.randrange(1, 24)))
            start = self.rng.randrange(len(message))
            try:
                name, end = read_name(message, start)
            except DnsError:
                continue
            theirs, used = dns.name.from_wire(message, start)
            self.assertEqual((theirs.to_wire(), start + used), (name.wire, end))
            accepted += 1
        self.assertGreater(accepted, 1000)

    def test_texts(self):
        for text in ["www.example.com.", "a.b", "*.a.", "_443._tcp.a.", "a\\.b.c."]:
            theirs = dns.name.from_text(text, None)
            ours = Name(text)
            self.assertEqual(ours.labels, tuple(label for label in theirs.labels if label))
            self.assertEqual((str(ours), ours.is_fqdn), (theirs.to_text(), theirs.is_absolute()))

    def test_types_have_the_same_names(self):
        for kind in dns.rdatatype.RdataType:
            text = dns.rdatatype.to_text(kind)
            self.assertEqual((type_text(kind), type_code(text), type_code(text.lower())), (text, kind, kind))

    def test_data_are_read_as_they_were_written(self):
        for text in TEXTS:
            kind, own = text.split(" ", 1)
            record = Record.from_text(f"Host.Example. 60 IN {text}")
            theirs = dns.rdata.from_text("IN", kind, own)
            self.assertEqual(record.raw_data, theirs.to_wire(), text)
            # made from values, and written in a message, where names may be compressed
            again = Record(record.owner, 60, record.data)
            self.assertEqual(again.raw_data, record.raw_data, text)
            wire = Message.build(Header(7), [Question(Name("example."), 255, 1)], [again]).to_wire(65535)
            (read,) = dns.message.from_wire(wire).answer
            self.assertEqual((read.name.to_text(), read.ttl, read.rdtype), ("Host.Example.", 60, record.record_type))
            self.assertEqual(read[0], theirs, text)
            # as a text, which dnspython reads as the same data
            shown_kind, shown = str(record).split(" ", 4)[3:]
            self.assertEqual((shown_kind, dns.rdata.from_text("IN", kind, shown)), (kind, theirs), text)

    def test_options_are_read_and_written_alike(self):
        chance = random.Random(55)
        for _ in range(400):
            bits = chance.choice([32, 128])
            address = str((ipaddress.IPv4Address if bits == 32 else ipaddress.IPv6Address)(chance.getrandbits(bits)))
            source, scope = chance.randrange(bits + 1), chance.randrange(bits + 1)
            theirs = dns.edns.ECSOption(address, source, scope)
            ours = EdnsOption(8, theirs.to_wire()).data
            self.assertEqual((ours.family, ours.source, ours.scope), (1 if bits == 32 else 2, source, scope))
            self.assertEqual(ours.address, theirs.addrdata)
            self.assertEqual(ours.option().octets, theirs.to_wire())
            theirs = dns.edns.EDEOption(chance.randrange(65536), chance.choice([None, "why", "\u00e9", "x" * 99]))
            ours = EdnsOption(15, theirs.to_wire()).data
            self.assertEqual((ours.info_code, ours.text or None), (theirs.code, theirs.text))
            self.assertEqual(ours.option().octets, theirs.to_wire())

    def test_messages_are_read_as_they_were_written(self):
        owners = "www.example.", "example.", "x.www.example."
        records = [Record.from_text(f"{owner} 60 IN {text}") for text in TEXTS for owner in owners]
        for _ in range(200):
            sections = [self.rng.sample(records, self.rng.randrange(9)) for _ in range(3)]
            question = Question(Name.from_wire(some_name(self.rng)), self.rng.randrange(65536), 1)
            edns = Edns(4096, 0, True, ((10, b"12345678"),)) if self.rng.random() < 0.5 else None
            header = Header(self.rng.randrange(65536), True, recursion_desired=True, response_code=3)
            built = Message.build(header, [question], *sections, edns)
            for size in [65535, self.rng.randrange(400, 1400)]:
                wire = built.to_wire(size)
                read = dns.message.from_wire(wire, one_rr_per_rrset=True)
                ours = Message.from_wire(wire)
                self.assertEqual((read.id, read.rcode(), read.payload), (header.id, 3, 4096 if edns else 0))
                self.assertEqual(read.question[0].name.to_wire(), question.name.wire)
                for theirs, written, own in zip(
                    (read.answer, read.authority, read.additional), sections, (ours.answers, ours.authorities, ours.additionals)
                ):
                    found = [(one.name.to_wire(), one.ttl, one[0].to_wire()) for one in theirs]
                    wanted = [(record.owner.wire, record.ttl, record.raw_data) for record in written]
                    plain = [record.to_wire() for record in own if record.record_type != 41]
                    self.assertEqual(plain, [record.to_wire() for record in written if record.to_wire() in plain])
                    if size == 65535:
                        self.assertEqual(found, wanted)
                    self.assertEqual(len(found), len(plain))
                # All answers and authorities are needed (RFC 2181, section 9); no owner here is that of a name server (RFC
                # 9471), and no answer of the type that is asked for.
                cut = len(read.answer) < len(sections[0]) or len(read.authority) < len(sections[1])
                self.assertEqual(bool(read.flags & dns.flags.TC), cut)

