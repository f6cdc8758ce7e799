"""Data by type, and records that are built. Expected values are what dnspython 2.3.0 wrote the response from, or are
worked out by hand from RFC 1035, sections 4.1 and 5.1, and RFC 6891, section 6.1."""

import dataclasses
import pickle
import random
import unittest
from ipaddress import IPv4Address, IPv6Address

import dns_names_wire as dnw
from dns_names_wire import Message, Name, OpCode, Record, ResponseCode, _rdata

from test_whole_messages import RESPONSE

# The classes of types, by their codes.
CLASSES = {code: getattr(_rdata, name) for code, name in _rdata.NAMES.items()}


class DataByType(unittest.TestCase):
    def test_data_are_read_by_type(self):
        message = Message.from_wire(RESPONSE)
        data = [record.data for record in message.answers + message.authorities]
        self.assertEqual(data[0], dnw.CNAME(Name("web.example.com.")))
        self.assertEqual(data[1:3], [dnw.A(IPv4Address("192.0.2.1")), dnw.AAAA(IPv6Address("2001:db8::1"))])
        self.assertEqual(data[3], dnw.MX(preference=10, exchange=Name("mail.example.com.")))
        self.assertEqual(data[4], dnw.TXT((b"v=spf1 -all", b"", b"b")))
        self.assertEqual(data[5], dnw.CAA(128, b"issue", b"ca.example.net"))
        self.assertEqual(data[6], dnw.HTTPS(1, Name("."), ((1, b"\x02h2"), (3, b"\x20\xfb"))))
        self.assertNotEqual(data[6], dnw.SVCB(1, Name("."), ((1, b"\x02h2"), (3, b"\x20\xfb"))))
        self.assertEqual(data[7:9], [dnw.EUI48(0x5E00532A), dnw.Unknown(65280, bytes([1, 2, 3]))])
        names = Name("ns.example.com."), Name("hostmaster.example.com.")
        self.assertEqual(data[9], dnw.SOA(*names, 2024010101, 7200, 3600, 1209600, 3600))
        self.assertEqual(data[10], dnw.NSEC(Name("a.example.com."), dnw.TypeSet([1, 15, 46, 47, 1234])))
        self.assertEqual((data[11].type_covered, data[11].key_tag, data[11].signer), (1, 2642, Name("example.com.")))
        self.assertEqual((data[12].salt, len(data[12].next)), (bytes.fromhex("aabbccdd"), 20))
        for record, own in zip(message.answers + message.authorities, data):
            self.assertEqual(own.record_type, record.record_type)
            again = Record(record.owner, record.ttl, own, record.record_class)
            self.assertEqual((again.to_wire(), again.data, again.owner), (record.to_wire(), own, record.owner))
            self.assertEqual(pickle.loads(pickle.dumps(own)), own)
        with self.assertRaises(dataclasses.FrozenInstanceError):
            data[1].address = None

    def test_names_are_read_where_they_are_whole(self):
        # An owner that is a pointer is not one for data before it: b. NS, with a pointer to the owner of the next record.
        wire = bytes.fromhex("00000000 0000 0002 0000 0000 016200 0002 0001 00000000 0002 c01b 016300 0001 0001 00000000 0000")
        message = Message.from_wire(wire)
        self.assertEqual(message.answers[1].owner, Name("c."))
        with self.assertRaises(dnw.PointerNotBack):
            message.answers[0].data
        with self.assertRaises(dnw.MessageCut):
            message.answers[1].data

    def test_names_in_data_end_where_the_data_do(self):
        # . NS, of which the data are `a` alone; . A, which begins with the zero octet; and an owner that points to these data
        wire = bytes.fromhex("00000000 0000 0003 0000 0000 00 0002 0001 00000000 0002 0161 00 0001 0001 00000000 0004 c0000201"
                             "c017 0001 0001 00000000 0004 c0000201")
        message = Message.from_wire(wire)
        self.assertEqual(message.answers[2].owner, Name("a."))
        with self.assertRaises(dnw.MessageCut):
            message.answers[0].data
        # a name of 253 octets, and data with one that would have 256, or 255
        form = (b"\x3f" + b"a" * 63) * 3 + b"\x3b" + b"b" * 59 + b"\0"
        for label, error in [(b"\2cc", dnw.NameTooLong), (b"\1c", None)]:
            head = bytes.fromhex("00000000 0001 0001 0000 0000") + form + bytes.fromhex("0002 0001 c00c 0002 0001 00000000 00")
            message = Message.from_wire(head + bytes([len(label) + 2]) + label + b"\xc0\x0c")
            self.assertEqual(message.answers[0].owner.wire, form)
            if error is None:
                self.assertEqual(message.answers[0].data.target.wire, label + form)
            else:
                self.assertRaises(error, lambda: message.answers[0].data)

    def test_codes_of_headers(self):
        self.assertEqual((OpCode.UPDATE, str(OpCode(3)), repr(OpCode.NOTIFY)), (5, "RESERVED3", "OpCode.NOTIFY"))
        self.assertEqual((str(ResponseCode(16)), ResponseCode.from_text("yxrrset")), ("BADVERS", 7))
        for kind, most in [(OpCode, 15), (ResponseCode, 4095)]:
            self.assertEqual([kind.from_text(str(kind(code))) for code in range(most + 1)], list(range(most + 1)))
            with self.assertRaises(ValueError):
                kind(most + 1)
            with self.assertRaises(dnw.UnknownText):
                kind.from_text("ZZ")


class ByChance(unittest.TestCase):
    """Random data, often with a fault: a record of a message has the same data as one that is read alone, or fails as it
    does."""

    def setUp(self):
        self.rng = random.Random(1035)

    def octets(self, most):
        return bytes(self.rng.randrange(256) for _ in range(self.rng.randrange(most)))

    def name(self, size):
        """Returns the octets of a name in a message of this length."""
        labels = [self.rng.choice([1, 1, 2, 7, 63, 64]) for _ in range(self.rng.randrange(3))]
        own = b"".join(bytes([length]) + b"a" * length for length in labels)
        target = self.rng.choice([12, 16, self.rng.randrange(size)])
        return own + self.rng.choice([b"\0", (0xC000 | target).to_bytes(2, "big")])

    def field(self, kind, size):
        if kind == "n":
            return self.name(size)
        if kind in "scS":
            return b"".join(bytes([len(text)]) + text for text in [self.octets(6)] * self.rng.randrange(3 if kind == "S" else 2))
        if kind in "BP":
            return self.rng.choice([b"", b"\0\1\x40", b"\0\0", b"\1\1\2\0\1\1", b"\0\1\0\2ab", b"\0\2\0\0\0\1\0\0"])
        if kind in "lgpN":
            return self.rng.choice([b"", b"\0\1a", b"\0", b"\1\2\xc0\0\2\1", b"\1a\0", b"\0\1\x08\1\x0a", b"\1\2\0\1ab"])
        return self.octets(5) if kind in "ox" else bytes({"i": 4, "I": 16, "t": 2, "T": 4}.get(kind) or int(kind))

    def message(self):
        wire, count = bytearray.fromhex("0001800000010000000000000377777707 6578616d706c65000001 0001".replace(" ", "")), 3
        for _ in range(count):
            kind = self.rng.choice(list(CLASSES.values()))
            wire += self.rng.choice([b"\xc0\x0c", b"\xc0\x10", b"\1a\xc0\x10", b"\0"])
            head = len(wire)
            wire += kind._code.to_bytes(2, "big") + b"\0\1" + bytes(6)
            for letter in kind._kinds:
                wire += self.field(letter, len(wire))
            wire += self.octets(2) if self.rng.random() < 0.1 else b""
            if self.rng.random() < 0.1 and len(wire) > head + 10:
                del wire[-1]
            wire[head + 8 : head + 10] = (len(wire) - head - 10).to_bytes(2, "big")
        wire[7] = count
        return bytes(wire)

    def outcome(self, call):
        try:
            return call()
        except dnw.DnsError as error:
            return type(error), str(error)

    def test_random_data(self):
        counts = {True: 0, False: 0}
        for _ in range(1500):
            wire = self.message()
            for record in self.rng.sample(Message.from_wire(wire).answers, 3):
                own = self.outcome(lambda: record.data)
                wanted = self.outcome(lambda: CLASSES[record.record_type](*record.fields()))
                self.assertEqual((own, repr(own)), (wanted, repr(wanted)), wire.hex())
                alone = self.outcome(lambda: dnw.read_record(wire, record._start).data)
                self.assertEqual(*[it if isinstance(it, dnw.Data) else it[0] for it in (alone, own)], wire.hex())
                self.assertEqual(record.owner.wire, dnw.read_record(wire, record._start).owner.wire)
                counts[isinstance(own, dnw.Data)] += 1
        self.assertGreater(min(counts.values()), 500)


class Classes(unittest.TestCase):
    def test_each_class_has_its_type_and_its_fields(self):
        kinds = CLASSES
        self.assertEqual(len(kinds), 79)
        self.assertLess({kind.__name__ for kind in kinds.values()}, set(dnw.__all__))
        for code, kind in kinds.items():
            self.assertEqual(len(kind._kinds), len(dataclasses.fields(kind)))
            self.assertEqual(dnw.type_text(code).replace("-", "_"), kind.__name__)
        self.assertEqual((dnw.RRSIG._kinds, dnw.NSEC3._kinds, dnw.KX._kinds), ("t114TT2no", "112ccB", "2n"))
        for kind in [dnw.Data, dnw.Unknown]:
            self.assertRaises(TypeError, kind.from_text, "a")
            self.assertRaises(TypeError, kind.from_wire, b"a")


class Arguments(unittest.TestCase):
    def test_arguments_are_checked(self):
        root = Name(".")
        for make, error in [
            (lambda: Record(b"a.", 0, dnw.A("192.0.2.1")), TypeError),
            (lambda: Record(root, 0, b"\0"), TypeError),
            (lambda: Record(root, -1, dnw.A("192.0.2.1")), ValueError),
            (lambda: Record(root, 0, dnw.MX(65536, root)), ValueError),
            (lambda: Record(root, 0, dnw.TXT((b"a" * 256,))), dnw.DataTooLong),
            (lambda: Record(root, 0, dnw.Unknown(65280, bytes(65536))), dnw.DataTooLong),
        ]:
            with self.assertRaises(error):
                make()
