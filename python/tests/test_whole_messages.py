"""Whole messages. Expected values are what dnspython 2.3.0 wrote the message from, or are worked out by hand from RFC
1035, section 4.1, and RFC 6891, section 6.1."""

import dataclasses
import pickle
import unittest
from ipaddress import IPv4Address, IPv6Address

import dns_names_wire as dnw
from dns_names_wire import Message, Name, Record, RecordType, TypeSet, read_record

# A response with thirteen records, each of another type, and an OPT record.
RESPONSE = bytes.fromhex(
    "123485a7000100090004000103777777076578616d706c6503636f6d0000010001c00c000500010000012c000603776562c010c02d000100"
    "010000003c0004c0000201c02d001c00010000003c001020010db8000000000000000000000001c010000f00010000003c0009000a046d61"
    "696cc010c010001000010000003c000f0b763d73706631202d616c6c000162c010010100010000003c00158005697373756563612e657861"
    "6d706c652e6e6574c010004100010000003c0010000100000100030268320003000220fbc010006c00010000003c000600005e00532ac010"
    "ff0000010000003c0003010203c0100006000100000e100026026e73c0100a686f73746d6173746572c01078a3f17500001c2000000e1000"
    "12750000000e10c010002f000100000e1000340161076578616d706c6503636f6d000006400100000003041b000000000000000000000000"
    "000000000000000000000000000020c010002e000100000e10003a00010803000151803e7c9dd73e5510d70a52076578616d706c6503636f"
    "6d00a090755ba58d1affa576f4375831b4310920e481218d18a9f164eb203070396d6861766571766d36743776626c356c6f703275337432"
    "727033746f6dc0100032000100000e1000270101000c04aabbccdd14174eb2409fe28bcb4887a1836f957f0a8425e27b0007220100000002"
    "9000002904d001008000000c000a00080102030405060708"
)


def opt(owner, data):
    octets = bytes.fromhex(data)
    return bytes.fromhex(owner + "0029010000000000") + len(octets).to_bytes(2, "big") + octets


def with_additionals(*records):
    return bytes.fromhex("000080000000000000000000")[:10] + len(records).to_bytes(2, "big") + b"".join(records)


class WholeMessages(unittest.TestCase):
    def test_a_response_is_read(self):
        for octets in [RESPONSE, bytearray(RESPONSE), memoryview(RESPONSE)]:
            message = Message.from_wire(octets)
            self.assertEqual((message.id, message.flags), (0x1234, ("QR", "AA", "RD", "RA", "AD")))
            self.assertEqual((message.header.op_code, message.header.response_code), (0, 7))
            self.assertEqual([str(question) for question in message.questions], ["www.example.com. IN A"])
            self.assertEqual((len(message.answers), len(message.authorities), len(message.additionals)), (9, 4, 1))
            self.assertEqual(message.answers[0].owner, Name("www.example.com."))
            self.assertEqual({record.ttl for record in message.authorities}, {3600})
            self.assertEqual((message.wire, message.trailing), (RESPONSE, b""))
            edns = message.edns
            self.assertEqual((edns.max_payload, edns.version, edns.dnssec_ok), (1232, 0, True))
            self.assertEqual(edns.options, ((10, bytes([1, 2, 3, 4, 5, 6, 7, 8])),))
            self.assertEqual(message.response_code, 23)
        self.assertEqual(Message.from_wire(RESPONSE + b"more").trailing, b"more")
        copied = pickle.loads(pickle.dumps(message))
        self.assertEqual((copied.header, copied.questions, copied.wire), (message.header, message.questions, message.wire))
        self.assertEqual((copied, hash(copied)), (message, hash(message)))
        with self.assertRaises(dataclasses.FrozenInstanceError):
            message.header.id = 1

    def test_a_record_is_a_line(self):
        # . CH TXT, of 250 strings of 255 octets, each printed as four characters
        wire = bytes.fromhex("00 0010 0003 00000009 fa00") + (b"\xff" + bytes(255)) * 250
        self.assertEqual(str(read_record(wire)), ". 9 CH TXT " + " ".join(['"' + "\\000" * 255 + '"'] * 250))
        for octets, line in [
            ("00 000f 0001 00000000 0001 05", ". 0 IN MX \\# 1 05"),
            ("02612000 0001 0001 00000000 0004 c0000201", "a\\032. 0 IN A 192.0.2.1"),
            ("00 ff00 0001 00000000 0000", ". 0 IN TYPE65280 \\# 0"),
            # Under NONE data may be left out (RFC 2136, section 2.4).
            ("00 ff00 00fe 00000000 0000", ". 0 NONE TYPE65280"),
        ]:
            self.assertEqual(str(read_record(bytes.fromhex(octets))), line)
        self.assertEqual(str(Record(Name("a."), 1, dnw.Unknown(65280, b"\1\2"))), "a. 1 IN TYPE65280 \\# 2 0102")

    def test_a_message_is_shown_as_dig_does(self):
        sections = [line for line in str(Message.from_wire(RESPONSE)).split("\n") if line.startswith(";") or not line]
        self.assertEqual(
            sections,
            [
                ";; ->>HEADER<<- opcode: QUERY, status: BADCOOKIE, id: 4660",
                ";; flags: qr aa rd ra ad; QUERY: 1, ANSWER: 9, AUTHORITY: 4, ADDITIONAL: 1",
                "",
                ";; OPT PSEUDOSECTION:",
                "; EDNS: version: 0, flags: do; udp: 1232",
                "; COOKIE: 0102030405060708",
                ";; QUESTION SECTION:",
                ";www.example.com.\tIN\tA",
                "",
                ";; ANSWER SECTION:",
                "",
                ";; AUTHORITY SECTION:",
            ],
        )
        # Two OPT records break a rule of EDNS, and are printed as records.
        shown = str(Message.from_wire(with_additionals(opt("00", ""), opt("00", ""))))
        self.assertIn("\n\n;; WARNING: EDNS breaks a rule: more than one EDNS record\n\n;; ADDITIONAL SECTION:", shown)
        self.assertTrue(shown.endswith("\n\n;; ADDITIONAL SECTION:" + "\n. 0 CLASS256 OPT \\# 0" * 2), shown)

    def test_fields_are_read(self):
        message = Message.from_wire(RESPONSE)
        found = {record.record_type: record.fields() for record in message.answers + message.authorities}
        self.assertEqual(found[RecordType.CNAME], (Name("web.example.com."),))
        self.assertEqual(found[RecordType.A], (IPv4Address("192.0.2.1"),))
        self.assertEqual(found[RecordType.AAAA], (IPv6Address("2001:db8::1"),))
        self.assertEqual(found[RecordType.MX], (10, Name("mail.example.com.")))
        self.assertEqual(found[RecordType.TXT], ((b"v=spf1 -all", b"", b"b"),))
        self.assertEqual(found[RecordType.CAA], (128, b"issue", b"ca.example.net"))
        self.assertEqual(found[RecordType.HTTPS], (1, Name("."), ((1, b"\x02h2"), (3, b"\x20\xfb"))))
        self.assertEqual(found[108], (0x5E00532A,))
        self.assertEqual(found[65280], (b"\x01\x02\x03",))
        names = Name("ns.example.com."), Name("hostmaster.example.com.")
        self.assertEqual(found[RecordType.SOA], (*names, 2024010101, 7200, 3600, 1209600, 3600))
        self.assertEqual(found[RecordType.NSEC], (Name("a.example.com."), TypeSet([1, 15, 46, 47, 1234])))
        signature = found[RecordType.RRSIG]
        self.assertEqual(signature[:7], (RecordType.A, 8, 3, 86400, 1048354263, 1045762263, 2642))
        self.assertEqual(signature[7], Name("example.com."))
        self.assertEqual(found[RecordType.NSEC3][2:4], (12, bytes.fromhex("aabbccdd")))

    def test_each_beginning_of_a_message_fails_at_its_item(self):
        message = Message.from_wire(RESPONSE)
        records = message.answers + message.authorities + message.additionals
        offsets = [0, 12, 33] + [record.end for record in records][:-1]
        items = [("header", 0), ("question", 0)]
        items += [("answer", n) for n in range(9)] + [("authority", n) for n in range(4)] + [("additional", 0)]
        for length in range(len(RESPONSE)):
            with self.assertRaises(dnw.MessageCut) as caught:
                Message.from_wire(RESPONSE[:length])
            error = caught.exception
            number = sum(offset <= length for offset in offsets[1:])
            self.assertEqual((error.section, error.item, error.offset), (*items[number], offsets[number]))
        self.assertEqual(str(error), "additional 0, at offset 505: the message ends within the name")

    def test_pointers_are_counted(self):
        # The owners of A and AAAA follow two pointers, the root none, and the others one each; names in data follow four.
        Message.from_wire(RESPONSE, max_pointers=19)
        with self.assertRaises(dnw.TooManyPointers) as caught:
            Message.from_wire(RESPONSE, max_pointers=18)
        self.assertEqual((caught.exception.section, caught.exception.item), (None, None))
        with self.assertRaises(dnw.TooManyPointers) as caught:
            Message.from_wire(RESPONSE, max_pointers=14)
        self.assertEqual((caught.exception.section, caught.exception.item), ("authority", 3))
        for wrong in [-1, 2**64]:
            self.assertRaises(ValueError, Message.from_wire, RESPONSE, max_pointers=wrong)
        self.assertRaises(TypeError, Message.from_wire, "text")

    def test_edns_breaks_its_rules(self):
        self.assertIsNone(Message.from_wire(with_additionals()).edns)
        # A size below 512 counts as 512 (RFC 6891, section 6.2.3).
        self.assertEqual(Message.from_wire(with_additionals(opt("00", ""))).edns.max_payload, 512)
        for records, failure in [
            ([opt("00", ""), opt("00", "")], dnw.DuplicateEdns),
            ([opt("016100", "")], dnw.OwnerNotRoot),
            ([opt("00", "00030001")], dnw.CutOption),
        ]:
            with self.assertRaises(failure):
                Message.from_wire(with_additionals(*records)).edns
        # An OPT record in the Answer or Authority section.
        for counts in ["000100000000", "000000010000", "000100000001", "000000010001"]:
            message = Message.from_wire(bytes.fromhex("000080000000" + counts) + 2 * opt("00", ""))
            for fails in [lambda: message.edns, lambda: message.response_code, message.to_wire]:
                self.assertRaises(dnw.OutsideAdditionals, fails)

    def test_fields_that_are_none(self):
        for kind, data, failure in [
            (1, "c00002", dnw.MessageCut),
            (1, "c000020100", dnw.WrongDataLength),
            (15, "000a40", dnw.ReservedOctet),
            (16, "", dnw.MessageCut),
            (47, "000000", dnw.BadBitmap),
            (64, "0001000003000000010000", dnw.BadParams),
        ]:
            octets = bytes.fromhex(data)
            head = b"\0" + kind.to_bytes(2, "big") + bytes.fromhex("000100000000") + len(octets).to_bytes(2, "big")
            with self.assertRaises(failure):
                read_record(head + octets).fields()


if __name__ == "__main__":
    unittest.main()
