"""Messages and records that are built. Expected octets are what dnspython 2.3.0 writes for the same, or are worked out
by hand from RFC 1035, sections 4.1 and 5.1, RFC 6891, section 6.1, and RFC 2181, section 9."""

import pickle
import unittest

import dns_names_wire as dnw
from dns_names_wire import Edns, Header, Message, Name, Question, Record, RecordClass, RecordType, ResponseCode, make_query

QUERY = bytes.fromhex("12340100000100000000000103777777076578616d706c6503636f6d000001000100002904d0000000000000")
REPLY = bytes.fromhex(
    "12348500000100050002000203777777076578616d706c6503636f6d0000010001c00c000500010000012c000603776562c010c02d000100"
    "010000003c0004c0000201c02d001c00010000003c001020010db8000000000000000000000001c010000f00010000003c0009000a046d61"
    "696cc010c010001000010000003c000d0b763d73706631202d616c6c00c0100006000100000e100026026e73c0100a686f73746d61737465"
    "72c01078a3f17500001c2000000e100012750000000e10c0100002000100000e100002c099c0990001000100000e100004c0000235000029"
    "04d0000000000000"
)
ZONE = Name("example.com.")
ANSWERS = [
    Record(Name("www") + ZONE, 300, dnw.CNAME(Name("web") + ZONE)),
    Record(Name("web") + ZONE, 60, dnw.A("192.0.2.1")),
    Record(Name("web") + ZONE, 60, dnw.AAAA("2001:db8::1")),
    Record(ZONE, 60, dnw.MX(10, Name("mail") + ZONE)),
    Record(ZONE, 60, dnw.TXT((b"v=spf1 -all", b""))),
]
NAMES = Name("ns") + ZONE, Name("hostmaster") + ZONE
AUTHORITIES = [
    Record(ZONE, 3600, dnw.SOA(*NAMES, 2024010101, 7200, 3600, 1209600, 3600)),
    Record(ZONE, 3600, dnw.NS(NAMES[0])),
]
ADDITIONALS = [Record(NAMES[0], 3600, dnw.A("192.0.2.53"))]

LINES = [
    ("a.example. 60 IN A 192.0.2.1", "0161076578616d706c6500000100010000003c0004c0000201"),
    ('a.example. 3600 CH TXT "abc" "d e"', "0161076578616d706c65000010000300000e1000080361626303642065"),
    (
        "a.example. 0 IN SRV 1 2 53 host.example.",
        "0161076578616d706c65000021000100000000001400010002003504686f7374076578616d706c6500",
    ),
    (
        'a.example. 1 IN CAA 128 issue "ca.net"',
        "0161076578616d706c65000101000100000001000d8005697373756563612e6e6574",
    ),
    ("a.example. 1 IN TYPE65280 \\# 3 010203", "0161076578616d706c6500ff000001000000010003010203"),
    (
        "a.example. 1 IN SOA ns.example. h.example. 1 2 3 4 5",
        "0161076578616d706c65000006000100000001002b026e73076578616d706c65000168076578616d706c6500"
        "0000000100000002000000030000000400000005",
    ),
    (
        "a.example. 1 IN NSEC b.example. A MX TYPE1234",
        "0161076578616d706c6500002f000100000001002c0162076578616d706c650000024001041b00000000000000000000000000000000"
        "0000000000000000000020",
    ),
    (
        "a.example. 1 IN RRSIG A 5 3 86400 20030322173103 20030220173103 2642 example. oJB1W6WNGv+ldvQ3WDG0MQkg5IEhjRip8WTr",
        "0161076578616d706c6500002e000100000001003600010503000151803e7c9dd73e5510d70a52076578616d706c6500a090755ba58d"
        "1affa576f4375831b4310920e481218d18a9f164eb",
    ),
]


def query():
    return Message.query(Name("www") + ZONE, RecordType.A, id=0x1234, edns=Edns(1232))


class Messages(unittest.TestCase):
    def test_a_query_is_written_item_by_item(self):
        question = Question("www.example.com.", "A")
        self.assertEqual(dnw.MessageWriter.query(question, id=0x1234, max_payload=1232).finish(), QUERY)
        plain = dnw.MessageWriter.query(question, id=1, recursion_desired=False)
        self.assertEqual(plain.finish(), Message.query("www.example.com.", "A", id=1, recursion_desired=False).to_wire())
        small = dnw.MessageWriter.query(question, id=1, max_payload=0)
        self.assertEqual(Message.from_wire(small.finish()).edns.max_payload, 512)
        with self.assertRaises(dnw.DuplicateEdns):
            small.edns()
        with self.assertRaises(dnw.MessageTooLong):
            dnw.MessageWriter.query(question, 43, id=1, max_payload=1232)
        with self.assertRaises(TypeError):
            dnw.MessageWriter.query("a. A", id=1)
        with self.assertRaises(ValueError):
            dnw.MessageWriter.query(question, id=65536)

    def test_a_query_and_its_reply_are_written(self):
        request = query()
        self.assertEqual(request.to_wire(), QUERY)
        self.assertEqual(Message.from_wire(QUERY), request)
        self.assertEqual(make_query("www.example.com.", "a", max_payload=1232, id=0x1234), request)
        reply = request.reply(ANSWERS, AUTHORITIES, ADDITIONALS, authoritative=True)
        self.assertEqual(reply.to_wire(), REPLY)
        read = Message.from_wire(REPLY)
        self.assertEqual(read.to_wire(), REPLY)
        self.assertEqual((read.header, read.questions), (reply.header, reply.questions))
        self.assertEqual(list(map(str, read.answers)), list(map(str, reply.answers)))
        self.assertEqual([record.data for record in read.answers], [record.data for record in ANSWERS])
        self.assertEqual(read.edns, reply.edns)
        self.assertEqual((str(read), read.to_text()), (str(reply), str(read)))
        self.assertTrue(read.is_reply_to(request))
        for other in [make_query("www.example.com.", "A", id=1), make_query("example.com.", "A", id=0x1234)]:
            self.assertFalse(read.is_reply_to(other))
        notify = Message.build(Header(0x1234, op_code=dnw.OpCode.NOTIFY), request.questions)
        self.assertFalse(read.is_reply_to(notify))
        self.assertTrue(read.is_reply_to(make_query("WWW.example.com.", "A", id=0x1234)))
        self.assertFalse(request.is_reply_to(request))
        # records of a message that was read, in another one
        again = request.reply(read.answers, read.authorities, read.additionals[:1], authoritative=True)
        self.assertEqual((again.to_wire(), again), (REPLY, reply))
        self.assertEqual(pickle.loads(pickle.dumps(again)), again)
        for attribute in ["wire", "answers", "other"]:
            with self.assertRaises(AttributeError):
                setattr(again, attribute, b"")

    def test_a_reply_has_no_more_than_the_size(self):
        reply = query().reply(ANSWERS, AUTHORITIES, ADDITIONALS, authoritative=True)
        count = 5
        for size in range(len(REPLY), 43, -1):
            wire = reply.to_wire(size)
            self.assertLessEqual(len(wire), size)
            read = Message.from_wire(wire)
            self.assertLessEqual(len(read.answers), count)
            count = len(read.answers)
            # SOA is the first of the Authority section, and NS beside an answer is extra information.
            self.assertEqual(read.header.truncation, count < 5 or not read.authorities)
            self.assertEqual((read.edns.max_payload, read.additionals[-1].record_type), (1232, RecordType.OPT))
            again = Message.from_wire(Message.from_wire(REPLY).to_wire(size))
            self.assertLessEqual(len(again.wire), size)
            self.assertEqual(again.additionals[-1].record_type, RecordType.OPT)
            self.assertLessEqual(set(again.answers), set(ANSWERS))
            self.assertTrue(again.header.truncation or len(again.answers) == 5)
        self.assertEqual(count, 0)
        # The address of ns.example.com. is not required, so TC is not set without it.
        read = Message.from_wire(reply.to_wire(len(REPLY) - 1))
        self.assertEqual((read.header.truncation, len(read.additionals)), (False, 1))
        with self.assertRaisesRegex(dnw.MessageTooLong, "^the message would be longer than its maximum$"):
            reply.to_wire(43)
        self.assertEqual(Message.build().to_wire(12), bytes(12))
        self.assertRaises(dnw.MessageTooLong, Message.build().to_wire, 11)
        # 512 octets by default
        long = query().reply([Record(ZONE, 1, dnw.TXT((bytes(255),) * 2))])
        self.assertTrue(Message.from_wire(long.to_wire()).header.truncation)
        self.assertEqual(len(Message.from_wire(long.to_wire(65535)).answers), 1)
        self.assertRaises(ValueError, long.to_wire, 65536)
        self.assertRaises(TypeError, long.to_wire, "512")

    def test_a_reply_has_what_its_request_says(self):
        header = Header(0xABCD, op_code=dnw.OpCode.NOTIFY, recursion_desired=True, checking_disabled=True, authoritative=True)
        question = Question(Name("a."), RecordType.SOA, RecordClass.CH)
        asked = Message.build(header, [question], edns=Edns(4096, dnssec_ok=True))
        self.assertEqual(
            asked.reply().to_wire().hex(), "abcda110000100000000000101610000060003" + "00002904d0000080000000"
        )
        later = Message.from_wire(bytes.fromhex("000100000000000000000001 00 0029 0200 00010000 0000"))
        self.assertEqual(later.reply().to_wire().hex(), "000180000000000000000001" + "00002904d0010000000000")
        self.assertEqual(later.reply().response_code, ResponseCode.BADVERS)
        two = Message.from_wire(bytes.fromhex("000100000000000000000002" + 2 * "0000290200000000000000"))
        self.assertEqual(two.reply().to_wire().hex(), "000180010000000000000000")
        self.assertEqual(two.reply(response_code=ResponseCode.REFUSED).header.response_code, ResponseCode.FORMERR)
        self.assertEqual(query().reply(response_code=ResponseCode.REFUSED).header.response_code, 5)
        own = query().reply(edns=Edns(4096, options=((3, b"a"),)), recursion_available=True)
        self.assertEqual((own.edns, own.flags), (Edns(4096, options=((3, b"a"),)), ("QR", "RD", "RA")))
        self.assertEqual(dnw.make_response(query(), recursion_available=True).flags, ("QR", "RD", "RA"))
        self.assertIsNone(make_query("a.", "A").reply(edns=Edns()).edns)

    def test_headers_and_edns_are_written(self):
        every = Header(65535, True, dnw.OpCode(15), True, True, True, True, True, True, ResponseCode(4095))
        built = Message.build(every, edns=Edns())
        self.assertEqual(built.to_wire().hex(), "ffffffbf0000000000000001" + "00002904d0ff0000000000")
        self.assertEqual((built.response_code, built.header.response_code), (4095, 15))
        self.assertEqual(Message.from_wire(built.to_wire()).header, built.header)
        later = Message.build(additionals=ADDITIONALS, edns=Edns(version=1))
        self.assertEqual((later.edns, later.additionals[1].record_type), (Edns(version=1), RecordType.OPT))
        for header in [Header(65536), Header(-1), Header(response_code=4096), Header(op_code=16)]:
            self.assertRaises(ValueError, Message.build, header)
        for edns in [Edns(65536), Edns(version=256)]:
            self.assertRaises(ValueError, Message.build, edns=edns)
        for option in [(65536, b""), (0, bytes(65536))]:
            self.assertRaises(ValueError, Edns, options=(option,))
        self.assertRaises(dnw.DataTooLong, Message.build, edns=Edns(options=((0, bytes(65532)),)))
        self.assertRaises(dnw.MessageTooLong, Message.build, edns=Edns(options=((0, bytes(65509)),)))
        most = Message.build(edns=Edns(options=((0, bytes(65508)),)))
        self.assertEqual(len(most.to_wire(65535)), 65535)
        record = Record(Name("."), 0, dnw.Unknown(65280, b""))
        with self.assertRaisesRegex(ValueError, "the number of answers"):
            Message.build(answers=[record] * 65536)
        # a set is not cut (RFC 2181, section 5)
        response = Header(is_response=True)
        whole = Message.from_wire(Message.build(response, answers=[record] * 65535).to_wire(65535))
        self.assertEqual((len(whole.answers), whole.header.truncation), (0, True))
        whole = Message.from_wire(Message.build(answers=[record] * 5956).to_wire(65535))
        self.assertEqual((len(whole.answers), whole.header.truncation), ((65535 - 12) // 11, False))

    def test_queries(self):
        asked = make_query(Name("a."), RecordType.NS, "CH", dnssec_ok=True)
        self.assertEqual((asked.edns, asked.questions[0].question_class), (Edns(1232, dnssec_ok=True), RecordClass.CH))
        self.assertFalse(Message.query(Name("a."), 2, recursion_desired=False).header.recursion_desired)
        self.assertGreater(len({make_query("a.", "A").id for _ in range(20)}), 1)
        for arguments, error in [
            (("a..", "A"), dnw.EmptyLabel), (("a.", "NOTYPE"), dnw.UnknownText), (("a.", 65536), ValueError), ((1, 1), TypeError)
        ]:
            self.assertRaises(error, make_query, *arguments)
        self.assertRaises(ValueError, Message.query, Name("a."), 1, id=65536)

    def test_what_is_no_message_is_not_written(self):
        wrong = Record(Name("."), 0, dnw.Unknown(1, b"\1\2\3"))
        self.assertRaises(dnw.BadData, Message.build(answers=[wrong]).to_wire)
        opt = Record(Name("."), 0, dnw.Unknown(41, b""), 512)
        self.assertRaises(dnw.DuplicateEdns, Message.build(additionals=[opt], edns=Edns()).to_wire)
        self.assertRaises(dnw.DuplicateEdns, lambda: Message.build(additionals=[opt, opt]).edns)
        self.assertRaises(dnw.OutsideAdditionals, lambda: Message.build(answers=[opt]).edns)
        self.assertRaises(dnw.DuplicateEdns, lambda: Message.build(authorities=[opt], edns=Edns()).edns)
        # one OPT record among the others is that of the message, and TSIG is after it
        key = Record("key.", 0, dnw.TSIG("hmac-sha256.", 1, 300, bytes(32), 7, 0, b""), RecordClass.ANY)
        both = Message.from_wire(Message.build(additionals=[key, opt, *ADDITIONALS]).to_wire(65535))
        self.assertEqual([record.record_type for record in both.additionals], [RecordType.A, RecordType.OPT, RecordType.TSIG])
        self.assertEqual(both.edns, Edns(512))
        # so is SIG(0), which covers the type 0 (RFC 2931, section 3), and no SIG that covers records
        signed = Record(".", 0, dnw.SIG(0, 8, 0, 0, 2, 1, 7, "a.", bytes(64)), RecordClass.ANY)
        other = Record(".", 0, dnw.SIG(1, 8, 0, 0, 2, 1, 7, "a.", bytes(64)))
        response = Header(is_response=True)
        three = Message.from_wire(Message.build(additionals=[signed, other, opt]).to_wire(65535))
        self.assertEqual(three.additionals, (other, Record(".", 0, dnw.Unknown(41, b""), 512), signed))
        # a message has one signature (RFC 8945, section 5.1; RFC 2931, section 3), and a code above 15 needs EDNS
        for two in ([key, key], [key, signed], [signed, signed]):
            self.assertRaises(dnw.BadItem, Message.build(additionals=two).to_wire)
        for code in (15, 16, 23, 4095):
            made = [Message.build(Header(response_code=code), edns=edns) for edns in (None, Edns())]
            self.assertEqual(Message.from_wire(made[1].to_wire()).response_code, code)
            if code > 15:
                self.assertRaises(dnw.BadItem, made[0].to_wire)
        cut = Record(Name("."), 0, dnw.Unknown(41, b"\0\7"), 512)
        self.assertRaises(dnw.CutOption, Message.build(additionals=[cut]).to_wire)
        self.assertRaises(dnw.OwnerNotRoot, Message.build(additionals=[Record(Name("a."), 0, opt.data, 512)]).to_wire)
        for last in (key, signed):
            made = Message.build(response, additionals=[*ADDITIONALS, other, last])
            one = Message.from_wire(made.to_wire(12 + len(last.to_wire())))
            self.assertEqual((one.additionals, one.header.truncation), ((last,), False))


class Records(unittest.TestCase):
    def test_texts_have_comments_and_parentheses(self):
        record = Record.from_text('a. 60 TXT ( "v=DKIM1; k=rsa; " ; the key\n "p=ab" )\n')
        self.assertEqual(str(record), 'a. 60 IN TXT "v=DKIM1; k=rsa; " "p=ab"')

    def test_records_are_parsed_and_shown(self):
        for line, hexadecimal in LINES:
            record = Record.from_text(line)
            self.assertEqual(record.to_wire().hex(), hexadecimal, line)
            self.assertEqual((str(record), record.to_text()), (line, line))
            again = Record(record.owner, record.ttl, record.data, record.record_class)
            self.assertEqual(again.to_wire(), record.to_wire())
            relative = Record.from_text(line.replace(".example.", ""), origin=Name("example."))
            self.assertEqual(relative.to_wire(), record.to_wire(), line)
            kind, text = line.split(" ", 4)[3:]
            data = dnw.data_from_text(RecordType.from_text(kind), text)
            self.assertEqual((data, data.to_text()), (record.data, text))
            self.assertEqual(dnw.data_from_wire(data.record_type, data.to_wire()), data)
            if not isinstance(data, dnw.Unknown):
                self.assertEqual((type(data).from_text(text), type(data).from_wire(data.to_wire())), (data, data))
        for line in ["a.example. IN 1m A 192.0.2.1", "a.example. 60 A 192.0.2.1", "a.example. 1m IN A 192.0.2.1"]:
            self.assertEqual(Record.from_text(line).to_wire().hex(), LINES[0][1])
        self.assertEqual(str(Record.from_text("@ 1 NS @", Name("a."))), "a. 1 IN NS a.")
        self.assertEqual(dnw.MX.from_text("10 @", origin=Name("a.")), dnw.MX(10, Name("a.")))

    def test_strings_of_any_octets(self):
        # RFC 1035, section 3.3: strings are binary; so BIND, NSD and ldns.
        for text in [b'"\xe9" \x80', b"\xe9 \x80", b'"\\233" \\128']:
            self.assertEqual(Record.from_text(b"a. 60 TXT " + text).to_wire()[13:], b"\x01\xe9\x01\x80")
            self.assertEqual(dnw.data_from_text("TXT", text), dnw.TXT.from_text(text))
        self.assertEqual(dnw.data_from_text("TXT", "\u00e9"), dnw.data_from_text("TXT", b"\xc3\xa9"))
        self.assertEqual(dnw.data_from_text("SVCB", b"1 . key9=\xe9"), dnw.SVCB(1, ".", [(9, b"\xe9")]))

    def test_keys_that_are_mandatory(self):
        # RFC 9460, section 8
        data = dnw.data_from_text("SVCB", "1 . alpn=h2 mandatory=alpn")
        self.assertEqual(data, dnw.SVCB(1, ".", [(0, b"\0\1"), (1, b"\2h2")]))
        for text in ["1 . mandatory=alpn", "1 . mandatory=alpn port=1", '1 . key0="\\000\\001"', "1 . key0 alpn=h2"]:
            self.assertRaises(dnw.BadData, dnw.data_from_text, "SVCB", text)
        wrong = Record("a.", 60, dnw.SVCB(1, ".", [(0, b"\0\1")]))
        self.assertEqual(str(wrong), "a. 60 IN SVCB \\# 9 000100000000020001")
        self.assertEqual(Record.from_text(str(wrong)), wrong)

    def test_an_asterisk_is_no_type_and_no_class(self):
        for line in ["a. 60 * A 192.0.2.1", "a. 60 IN * \\# 0", "a. 60 NSEC b. *", "a. 60 NSEC b. A *"]:
            self.assertRaises(dnw.DnsError, Record.from_text, line)

    def test_texts_that_are_no_records(self):
        for line, error, offset, reason in [
            ("", dnw.BadText, 0, "wanted an owner"),
            ("a 1 IN A 192.0.2.1", dnw.BadText, 0, "wanted an owner"),
            ("a. IN A 192.0.2.1", dnw.BadTime, 3, "wanted a time to live"),
            ("a. 4294967296 IN A 192.0.2.1", dnw.BadTime, 3, "wanted a time to live"),
            ("a. 1 IN NOTYPE 192.0.2.1", dnw.UnknownText, 8, "wanted a record type"),
            ("a. 1 IN", dnw.UnknownText, 7, "wanted a record type"),
            ("a. 1 IN A", dnw.BadData, 9, "wanted an IPv4 address (field 0)"),
            ("a. 1 IN A 192.0.2.1 1", dnw.BadData, 20, "wanted the end of the data (field 1)"),
            ("a. 1 IN MX 1 a", dnw.BadData, 13, "wanted a name (field 1)"),
            ("\u00e4. 1 IN MX 1 a", dnw.BadData, 13, "wanted a name (field 1)"),
            ("a. 1 IN TYPE65280 01", dnw.BadData, 18, "wanted the form of any data, which begins with \\# (field 0)"),
            ("a. 1 IN TXT ( b", dnw.UnclosedList, 12, "the text ends within parentheses"),
            ("a. 1 IN TXT b )", dnw.IllegalCharacter, 14, "no parenthesis is open"),
            ('a. 1 IN TXT "b', dnw.UnclosedQuote, 12, "the line ends within a quoted string"),
            ("a. 1 IN TXT b\\", dnw.TextCut, 14, "the line ends after a backslash"),
            ("a. 1 IN TXT b\nb. 60 TXT c", dnw.BadData, 13, "another entry is there"),
            ("a. 1 IN TXT \ud800", dnw.NotUtf8, 12, "the text is not UTF-8"),
        ]:
            with self.assertRaises(error) as caught:
                Record.from_text(line)
            self.assertEqual((caught.exception.offset, caught.exception.reason), (offset, reason))
            self.assertEqual(str(caught.exception), f"at offset {offset}: {reason}")
        with self.assertRaises(dnw.BadData) as caught:
            dnw.data_from_text(RecordType.MX, "10 a..b.")
        self.assertEqual(str(caught.exception), "at offset 3: wanted a name (field 1)")
        self.assertRaises(dnw.BadData, dnw.data_from_text, 1, "192.0.2")
        self.assertRaises(dnw.BadData, dnw.A.from_text, "")
        self.assertRaises(dnw.MessageCut, dnw.A.from_wire, b"123")
        for call in [lambda: Record.from_text(1), lambda: Record.from_text("a. 1 A 1.2.3.4", "a.")]:
            self.assertRaises(TypeError, call)
        for code in [-1, 65536]:
            self.assertRaises(ValueError, dnw.data_from_text, code, "")
        generic = lambda length: f". 1 IN TYPE65280 \\# {length} " + "00" * length
        self.assertEqual(len(Record.from_text(generic(65535)).raw_data), 65535)
        long = ".".join(["a" * 63] * 3 + ["b" * 61])
        self.assertEqual(len(Record.from_text(long + generic(65535)).to_wire()), 255 + 10 + 65535)
        self.assertRaises(dnw.BadData, Record.from_text, generic(65536))
        texts = lambda count: ". 1 IN TXT" + f' "{"a" * 255}"' * count
        self.assertEqual(len(Record.from_text(texts(255)).raw_data), 255 * 256)
        self.assertRaises(dnw.BadData, Record.from_text, texts(256))
        text = "^the data of a record, or a text in them, are too long$"
        with self.assertRaisesRegex(dnw.DataTooLong, text):
            dnw.TXT((bytes(256),)).to_wire()
        for call in [lambda long: Record(Name("."), 0, long), dnw.Unknown.to_text]:
            with self.assertRaisesRegex(dnw.DataTooLong, text):
                call(dnw.Unknown(65280, bytes(65536)))
        self.assertEqual(dnw.Unknown(65280, bytes(65535)).to_text(), "\\# 65535 " + "00" * 65535)

    def test_names_with_an_origin(self):
        origin = Name("example.")
        self.assertEqual(Name.from_text("www", origin), Name("www.example."))
        self.assertEqual((Name.from_text("www.", origin), Name.from_text("@", origin)), (Name("www."), origin))
        self.assertEqual((Name.from_text("www").to_text(), Name.from_text("www")), ("www", Name("www")))
        self.assertEqual((Name.from_text("@"), Name.from_text("@", Name("."))), (Name(), Name(".")))


if __name__ == "__main__":
    unittest.main()
