"""Messages written item by item, and as lists. Expected octets are worked out by hand from RFC 1035, sections 4.1.1 to
4.1.4, RFC 2181, sections 5 and 9, RFC 6891, section 6.1, RFC 7830 and RFC 9471."""

import contextlib
import doctest
import random
import signal
import sys
import threading
import unittest
from importlib import import_module

import dns_names_wire as dnw
from dns_names_wire import (
    A,
    MX,
    NS,
    SOA,
    TSIG,
    TXT,
    Edns,
    Header,
    Message,
    MessageWriter,
    Name,
    OpCode,
    Question,
    Record,
    RecordClass,
    RecordType,
    ResponseCode,
    RRset,
    Unknown,
    make_query,
)

# A referral with glue: ns.example.com is the server for www.example.com. The name of the question is at offset 12, so
# example.com is at 16; the records begin at 33 and 50, and ns.example.com is at 45.
REFERRAL = bytes.fromhex(
    "1234 8000 0001 0000 0001 0001 03777777 07 6578616d706c65 03636f6d 00 0001 0001"
    "c010 0002 0001 0002a300 0005 026e73 c010 c02d 0001 0001 0002a300 0004 c0000201"
)
HEADER = Header(0x1234, is_response=True)
QUESTION = Question("www.example.com.", "A")
SERVER = Record("example.com.", 172800, NS("ns.example.com."))
GLUE = Record("ns.example.com.", 172800, A("192.0.2.1"))
KEY = Record("key.", 0, TSIG("hmac-sha256.", 1, 300, bytes(32), 7, 0, b""), RecordClass.ANY)


def counts(message: bytes) -> "list[int]":
    read = Message.from_wire(message)
    return [len(part) for part in (read.questions, read.answers, read.authorities, read.additionals)]


class Stepwise(unittest.TestCase):
    def test_a_referral(self) -> None:
        for records in [[SERVER, GLUE], [*Message.from_wire(REFERRAL).authorities, *Message.from_wire(REFERRAL).additionals]]:
            writer = MessageWriter(HEADER)
            self.assertEqual((writer.size, writer.finish()), (12, bytes.fromhex("123480000000000000000000")))
            writer.question(QUESTION)
            self.assertEqual(writer.finish(), REFERRAL[:5] + b"\1" + bytes(6) + REFERRAL[12:33])
            writer.authority(records[0])
            writer.additional(records[1])
            self.assertEqual((writer.finish(), writer.size), (REFERRAL, 66))

    def test_an_item_is_written_whole_or_not_at_all(self) -> None:
        for size in range(12, len(REFERRAL) + 1):
            writer, written = MessageWriter(HEADER, size), [12]
            for write, item, end in [(writer.question, QUESTION, 33), (writer.authority, SERVER, 50), (writer.additional, GLUE, 66)]:
                before = writer.finish()
                if end <= size:
                    write(item)  # type: ignore[operator]
                    written.append(end)
                    continue
                with self.assertRaises(dnw.MessageTooLong):
                    write(item)  # type: ignore[operator]
                self.assertEqual(writer.finish(), before)
            self.assertEqual(writer.size, max(written))
        for buffer in [bytearray(66), bytearray(b"\xff" * 100)]:
            writer = MessageWriter(HEADER, buffer=buffer)
            writer.question(QUESTION)
            writer.authority(SERVER)
            writer.additional(GLUE)
            self.assertEqual(bytes(buffer[: writer.size]), REFERRAL)
        with self.assertRaises(dnw.DnsError):
            MessageWriter(HEADER, buffer=bytearray(11))

    def test_items_are_in_order(self) -> None:
        writer = MessageWriter(HEADER)
        writer.authority(SERVER)
        before = writer.finish()
        for write, item in [(writer.question, QUESTION), (writer.answer, SERVER)]:
            with self.assertRaises(dnw.BadItem):
                write(item)  # type: ignore[operator]
        self.assertEqual(writer.finish(), before)

    def test_a_set_is_written_whole_or_not_at_all(self) -> None:
        addresses = RRset.of("a.", 60, [A(f"192.0.2.{number}") for number in range(4)])
        writer = MessageWriter(HEADER, 12 + 17 + 3 * 16 - 1)
        for is_required in (False, True):
            with self.assertRaises(dnw.MessageTooLong):
                writer.answer_set(addresses, required=is_required)
            self.assertEqual((writer.size, Message.from_wire(writer.finish()).header.truncation), (12, is_required))
        writer = MessageWriter(HEADER)
        writer.answer_set(addresses)
        writer.additional_set([GLUE])
        self.assertEqual(counts(writer.finish()), [0, 4, 0, 1])
        self.assertEqual(Message.from_wire(writer.finish()).answers, tuple(addresses))
        with self.assertRaises(ValueError):
            writer.additional_set([GLUE, SERVER])

    def test_octets_that_are_held_back(self) -> None:
        writer = MessageWriter(HEADER, 40)
        writer.hold(8)
        with self.assertRaises(dnw.MessageTooLong):
            writer.question(QUESTION)
        self.assertEqual(writer.held, 8)
        writer.release(8)
        writer.question(QUESTION)
        self.assertEqual((writer.size, writer.held), (33, 0))

    def test_edns_and_padding(self) -> None:
        writer = MessageWriter(HEADER)
        writer.question(QUESTION)
        writer.edns(Edns(4096, dnssec_ok=True, options=((3, b"ab"),)), block=128)
        wire = writer.finish()
        read = Message.from_wire(wire)
        assert read.edns is not None
        self.assertEqual((len(wire) % 128, read.edns.max_payload, read.edns.dnssec_ok), (0, 4096, True))
        self.assertEqual((read.edns.options[0], read.edns.options[1][0], set(read.edns.options[1][1])), ((3, b"ab"), 12, {0}))
        with self.assertRaises(dnw.DuplicateEdns):
            writer.edns()

    def test_the_last_record_stays_last(self) -> None:
        writer = MessageWriter(HEADER)
        writer.question(QUESTION)
        writer.last(KEY)
        self.assertEqual(Message.from_wire(writer.finish()).additionals, (KEY,))
        before = writer.finish()
        for write in [lambda: writer.additional(GLUE), lambda: writer.last(KEY), lambda: writer.edns()]:
            with self.assertRaises(dnw.BadItem):
                write()
        self.assertEqual(writer.finish(), before)

    def test_replies(self) -> None:
        query = make_query("www.example.com.", "A", id=0x1234, max_payload=1232)
        writer = MessageWriter.reply(query, authoritative=True, response_code=ResponseCode.BADCOOKIE)
        writer.answer(Record("www.example.com.", 60, A("192.0.2.1")))
        own = query.reply([Record("www.example.com.", 60, A("192.0.2.1"))], authoritative=True, response_code=23)
        self.assertEqual(writer.finish(), own.to_wire(65535))
        self.assertEqual(Message.from_wire(writer.finish()).response_code, ResponseCode.BADCOOKIE)
        writer = MessageWriter.reply(query, 12 + 21 + 11)
        with self.assertRaises(dnw.MessageTooLong):
            writer.answer(Record("www.example.com.", 60, A("192.0.2.1")))
        writer.edns(Edns(1400))
        self.assertEqual(Message.from_wire(writer.finish()).max_payload, 1400)
        with self.assertRaises(dnw.BadItem):
            MessageWriter.reply(query.reply())

    def test_arguments(self) -> None:
        writer = MessageWriter()
        for call, text in [
            (lambda: MessageWriter(Header(), 65536), "max_size: 65536 is not from 0 to 65535"),
            (lambda: MessageWriter(Header(65536)), "id: 65536 is not from 0 to 65535"),
            (lambda: MessageWriter(Header(response_code=ResponseCode(16))), "response_code: 16 is not from 0 to 15"),
            (lambda: MessageWriter(buffer=bytes(12)), "buffer: a bytearray is wanted, not bytes"),  # type: ignore[arg-type]
            (lambda: writer.question(Name("a.")), "question: a Question is wanted, not Name"),  # type: ignore[arg-type]
            (lambda: writer.answer(QUESTION), "record: a Record is wanted, not Question"),  # type: ignore[arg-type]
            (lambda: writer.last(QUESTION), "record: a Record is wanted, not Question"),  # type: ignore[arg-type]
            (lambda: writer.hold(-1), "octets: -1 is not from 0 to 65535"),
            (lambda: writer.edns(block=65536), "block: 65536 is not from 0 to 65535"),
        ]:
            with self.subTest(text=text), self.assertRaises((TypeError, ValueError)) as raised:
                call()
            self.assertEqual(str(raised.exception), text)

    def test_a_state_of_any_octets_is_harmless(self) -> None:
        """Names are right whatever the table of hints holds."""
        rng = random.Random(7)
        names = [f"host{number % 5}.zone{number % 3}.example." for number in range(30)]
        for _ in range(20):
            writer = MessageWriter(HEADER)
            for number, name in enumerate(names):
                writer._state.hints[rng.randrange(512)] = rng.randrange(65536)
                writer._state.owner = rng.randrange(65536)
                writer.answer(Record(name, number, NS(names[-1])))
            read = Message.from_wire(writer.finish())
            self.assertEqual([record.owner for record in read.answers], list(map(Name, names)))
            self.assertEqual({record.data for record in read.answers}, {NS(names[-1])})


class Lists(unittest.TestCase):
    def test_what_the_receiver_needs_sets_tc(self) -> None:
        query, text = make_query("a.", "TXT", id=7), Record("a.", 60, TXT((bytes(200),)))
        extra = Record("b.", 60, TXT((bytes(200), bytes(200))))
        negative = Record("a.", 60, SOA("b.", "c.", 1, 2, 3, 4, 5))
        for reply, is_cut in [
            (query.reply([text, extra]), True),
            (query.reply([text], [extra]), True),
            (query.reply([text], [], [extra]), False),
            (query.reply([text], [], required=[extra]), True),
            (query.reply([], [negative, extra]), True),
            (query.reply([], [negative], [extra]), False),
        ]:
            read = Message.from_wire(reply.to_wire(300))
            self.assertEqual((read.header.truncation, sum(counts(read.wire)[1:])), (is_cut, 1), reply)
            self.assertFalse(Message.from_wire(reply.to_wire(1200)).header.truncation)

    def test_what_is_left_out_is_not_missing(self) -> None:
        query = make_query("b.a.", "A", id=7)

        def rr(line: str) -> Record:
            return Record.from_text(line)

        def signed(owner: str, covered: str) -> Record:
            return rr(f"{owner} 60 RRSIG {covered} 8 2 60 20300101000000 20200101000000 1 a. AAAA")

        soa, ns, alias = rr("a. 60 SOA a. a. 1 2 3 4 5"), rr("a. 60 NS ns.a."), rr("b.a. 60 CNAME x.a.")
        address, glue, nsec = rr("b.a. 60 A 192.0.2.1"), rr("NS.A. 60 AAAA 2001:db8::1"), rr("c.a. 60 NSEC d.a. A RRSIG NSEC")
        for reply, is_required in [
            # A wildcard's answer has to have its proof (RFC 4035, sections 3.1.1 and 3.1.3.3).
            (query.reply([address], [nsec, signed("c.a.", "NSEC")]), True),
            (query.reply([address], [signed("c.a.", "NSEC"), nsec]), True),
            # The name that an alias stands for does not exist (RFC 2308, section 2.1).
            (query.reply([alias], [soa]), True),
            (query.reply([], [soa]), True),
            # A referral needs its servers, and their addresses at the cut or below it, but no signatures of these (RFC
            # 9471; RFC 4035, section 3.1.1).
            (query.reply([], [ns]), True),
            (query.reply([], [ns], [glue]), True),
            (query.reply([], [ns], [signed("ns.a.", "AAAA")]), False),
            # Beside data NS is extra information (RFC 2181, section 9).
            (query.reply([address], [ns], [glue]), False),
            # Servers that are there have to be signed (RFC 4035, section 3.1.1), so they go with their signatures.
            (query.reply([address], [ns, signed("a.", "NS")]), False),
            (query.reply([address], [ns, rr("b. 60 NS ns.b."), signed("a.", "NS")]), True),
            (query.reply([address], [ns, signed("a.", "NS")], [glue]), False),
            (query.reply([address], [], [glue]), False),
        ]:
            whole = reply.to_wire(65535)
            cut = reply.to_wire(len(whole) - 1)
            self.assertLess(len(cut), len(whole))
            self.assertEqual(Message.from_wire(cut).header.truncation, is_required, reply)
            self.assertFalse(Message.from_wire(whole).header.truncation)
            for size in range(21, len(whole)):
                self.assertEqual(Message.from_wire(whole).to_wire(size), reply.to_wire(size))

    def test_data_above_a_cut_are_no_answer(self) -> None:
        # the message refers to the cut, and needs its servers and their addresses (RFC 6672, section 3.2; RFC 9471)
        query, alias = make_query("w.a.", "DNAME", id=7), Record.from_text("a. 60 DNAME b.")
        for owner, is_required in [("b.", True), ("c.a.", True), ("a.", False), (".", False)]:
            server = "ns." + owner.lstrip(".")
            reply = query.reply([alias], [Record(owner, 60, NS(server))], [Record(server, 60, A("192.0.2.1"))])
            whole = reply.to_wire(65535)
            self.assertFalse(Message.from_wire(whole).header.truncation)
            for size in range(len(whole) - 16, len(whole)):
                self.assertEqual(Message.from_wire(reply.to_wire(size)).header.truncation, is_required, (owner, size))
                self.assertEqual(Message.from_wire(whole).to_wire(size), reply.to_wire(size))

    def test_sets_that_stand_apart_are_whole(self) -> None:
        # with TC clear a set is there whole or not at all (RFC 2181, sections 5 and 9), and no signature without its set
        query, answer = make_query("x.", "A", id=7), Record("x.", 60, A("192.0.2.1"))
        a, more, other = (
            Record.from_text(f"{line}") for line in ("a.b. 60 A 192.0.2.1", "A.b. 60 A 192.0.2.2", "a.b. 60 AAAA 2001:db8::1")
        )
        signature = Record.from_text("a.b. 60 RRSIG A 8 2 60 20300101000000 20200101000000 1 a. AAAA")
        third = Record("c.", 60, A("192.0.2.1"))
        # nothing of a set is missing if what is left out is there already
        for records in ([a, other, a], [a, more, a], [a, other, more], [more, other, third, other, a], [signature, a], [signature, other, a]):
            reply = query.reply([answer], [], records)
            whole = reply.to_wire(65535)
            for size in range(35, len(whole) + 1):
                cut = Message.from_wire(reply.to_wire(size))
                there = len(cut.additionals)
                half = any(
                    (RecordType.A if own is signature else own.record_type, own.owner) == (left.record_type, left.owner)
                    for own in records[:there] for left in records[there:] if left not in records[:there]
                )  # fmt: skip
                self.assertEqual(cut.header.truncation, half, (records, size))
                self.assertEqual(Message.from_wire(whole).to_wire(size), cut.wire)

    def test_a_signer_is_held_back_for_whole(self) -> None:
        # a SIG(0) is written with its signer whole, also if it stands as a pointer (RFC 3597, section 4)
        head = "0007 8000 0001 0001 0000 0001 03777777 01610000010001 c00c 0001 0001 0000003c 0004 c0000201"
        by_pointer, by_name = (
            bytes.fromhex(f"{head} 00 0018 00ff 00000000 {size} 0000 08 00 00000000 00000002 00000001 0007 {signer} 73")
            for size, signer in [("0015", "c00c"), ("001a", "03777777016100")]
        )
        for size in range(len(by_name) + 5):
            if size < len(by_name) - 16:
                with self.assertRaises(dnw.MessageTooLong):
                    Message.from_wire(by_pointer).to_wire(size)
            else:
                cut = Message.from_wire(by_pointer).to_wire(size)
                self.assertEqual(len(cut), len(by_name) - 16 if size < len(by_name) else len(by_name))
                self.assertEqual(Message.from_wire(cut).header.truncation, size < len(by_name))

    def test_a_request_is_never_cut(self) -> None:
        # half an UPDATE is another UPDATE (RFC 2136, section 3.4.2)
        added = [Record(f"host-{number}.example.", 60, A(f"192.0.2.{number}")) for number in range(30)]
        used = Record("a.example.", 0, Unknown(255, b""), RecordClass.ANY)
        zone = [Question("example.", "SOA")]
        update = Message.build(Header(7, op_code=OpCode.UPDATE), zone, [used], added)
        transfer = Message.build(Header(7, is_response=True), [Question("example.", "AXFR")], added)
        for message in [update, transfer]:
            whole = message.to_wire(65535)
            self.assertGreater(len(whole), 512)
            for size in [12, 25, 100, 512, len(whole) - 1]:
                self.assertRaises(dnw.MessageTooLong, message.to_wire, size)
                self.assertRaises(dnw.MessageTooLong, Message.from_wire(whole).to_wire, size)
            self.assertEqual(Message.from_wire(whole).to_wire(len(whole)), whole)

    def test_a_set_is_not_cut(self) -> None:
        query = make_query("a.", "A", id=7)
        reply = query.reply([Record("a.", 60, A(f"192.0.2.{number}")) for number in range(20)])
        for size in range(len(query.to_wire()), len(reply.to_wire())):
            read = Message.from_wire(reply.to_wire(size))
            self.assertEqual((read.answers, read.header.truncation), ((), True))

    def test_the_question_is_never_left_out(self) -> None:
        query = make_query("www.example.com.", "A", id=7, max_payload=1232)
        reply = query.reply([Record("www.example.com.", 60, A("192.0.2.1"))])
        for size in range(12 + 21 + 11):
            with self.assertRaises(dnw.MessageTooLong):
                reply.to_wire(size)
        self.assertEqual(counts(reply.to_wire(44)), [1, 0, 0, 1])

    def test_answers_that_fit_compressed_are_there(self) -> None:
        # the data of CNAME repeat the name of the question but for its first label: 51 octets in all
        reply = make_query("www.example.com.", "A", id=7).reply([Record("www.example.com.", 60, dnw.CNAME("web.example.com."))])
        self.assertEqual(len(reply.to_wire()), 51)
        self.assertEqual(counts(reply.to_wire(51)), [1, 1, 0, 0])
        self.assertEqual(counts(reply.to_wire(50)), [1, 0, 0, 0])

    def test_requests_decide_what_a_reply_may_be(self) -> None:
        two = Message.build(Header(7), [QUESTION, QUESTION])
        self.assertEqual((two.reply([GLUE]).response_code, two.reply().questions), (ResponseCode.FORMERR, ()))
        later = Message.build(Header(7), [QUESTION], edns=Edns(version=1))
        self.assertEqual(later.reply(response_code=0).response_code, ResponseCode.BADVERS)
        with self.assertRaises(dnw.BadItem):
            Message.from_wire(REFERRAL).reply()
        update = Message.build(Header(7, op_code=OpCode.UPDATE), [Question("a.", "SOA")])
        self.assertEqual(update.reply().header.op_code, OpCode.UPDATE)

    def test_a_reply_has_edns_only_if_the_request_has(self) -> None:
        # also to two questions (RFC 6891, sections 6.1.1 and 7)
        two = Message.build(Header(7), [QUESTION, QUESTION], edns=Edns(dnssec_ok=True)).reply()
        self.assertEqual((two.response_code, two.edns), (ResponseCode.FORMERR, Edns(dnssec_ok=True)))
        plain = make_query("a.", "A")
        for code in [16, 23, 4095]:
            for reply in [plain.reply, lambda **code: MessageWriter.reply(plain, **code)]:
                with self.assertRaises(dnw.BadItem):
                    reply(response_code=code)
        self.assertEqual(plain.reply(response_code=15).header.response_code, 15)
        for code in [16, 23, 4095]:
            self.assertEqual(make_query("a.", "A", max_payload=1232).reply(response_code=code).response_code, code)

    def test_a_reply_says_what_its_request_asks(self) -> None:
        # BADVERS for another version (RFC 6891, section 6.1.3), without records, and DO as the request (RFC 3225, section 3)
        for version, dnssec_ok in [(0, False), (0, True), (1, False), (255, True)]:
            request = Message.build(Header(7), [QUESTION], edns=Edns(version=version, dnssec_ok=dnssec_ok))
            asks = Edns(4096, 7, not dnssec_ok, [dnw.Nsid()])
            made = request.reply([GLUE], response_code=3, edns=asks)
            code, count = (3, 1) if version == 0 else (16, 0)
            wanted = Edns(4096, 0, dnssec_ok, [dnw.Nsid()])
            self.assertEqual((made.response_code, len(made.answers), made.edns), (code, count, wanted))
            self.assertEqual(Message.from_wire(made.to_wire()), made)
            # so does one that is written item by item, also if nobody writes its OPT record
            for edns in (None, asks):
                writer = MessageWriter.reply(request, response_code=3)
                if edns is not None:
                    writer.edns(edns)
                read = Message.from_wire(writer.finish())
                said = Edns(1232, 0, dnssec_ok) if edns is None else wanted
                self.assertEqual((read.response_code, read.edns, writer.held), (code, said, 0))
        plain = MessageWriter.reply(make_query("a.", "A"))
        plain.edns(Edns(4096))
        plain.last(KEY)
        self.assertEqual(Message.from_wire(plain.finish()).additionals, (KEY,))

    def test_a_refusal_is_whole_without_a_record(self) -> None:
        later = Message.build(Header(7), [QUESTION], edns=Edns(version=1))
        for reply in [later.reply([GLUE], [GLUE], [GLUE, KEY], required=[GLUE]), later.reply([GLUE], [], [KEY], response_code=4)]:
            self.assertEqual(counts(reply.to_wire()), [1, 0, 0, 2])
            self.assertEqual(Message.from_wire(reply.to_wire()).additionals[1], KEY)
        for code, fails in [(1, True), (2, False), (3, False), (4, True), (5, False)]:
            writer = MessageWriter.reply(make_query("a.", "A"), response_code=code)
            self.assertEqual(counts(make_query("a.", "A").reply([GLUE], response_code=code).to_wire()), [1, int(not fails), 0, 0])
            with self.assertRaises(dnw.BadItem) if fails else contextlib.nullcontext():
                writer.answer(GLUE)

    def test_replies_without_the_question(self) -> None:
        for op_code, code, without in [
            (0, 0, False), (0, 1, True), (0, 2, True), (0, 3, False), (0, 4, True), (0, 5, True), (0, 9, False), (5, 0, True),
            (4, 0, False),
        ]:  # fmt: skip
            request = Message.build(Header(7, op_code=op_code), [QUESTION])
            bare = Header(7, is_response=True, op_code=op_code, response_code=code)
            self.assertEqual(Message.build(bare).is_reply_to(request), without, (op_code, code))
            self.assertTrue(Message.build(bare, [QUESTION]).is_reply_to(request))
            self.assertFalse(Message.build(bare, [Question("b.", "SOA")]).is_reply_to(request))
            # none was asked (RFC 7873, section 5.4)
            self.assertTrue(Message.build(bare).is_reply_to(Message.build(Header(7, op_code=op_code))))
        self.assertTrue(Message.build(Header(7), [QUESTION, QUESTION]).reply().is_reply_to(Message.build(Header(7), [QUESTION])))

    def test_a_maximum_below_the_header_is_too_small(self) -> None:
        request = make_query("a.", "A", id=7)
        for size in range(12):
            for begin in (
                lambda: MessageWriter(HEADER, size),
                lambda: MessageWriter.reply(request, max_size=size),
                lambda: MessageWriter.query(QUESTION, size, id=7),
                lambda: Message.build(HEADER).to_wire(size),
                lambda: Message.from_wire(request.to_wire()).to_wire(size),
            ):
                self.assertRaises(dnw.MessageTooLong, begin)

    def test_the_last_record_is_as_long_as_what_is_held(self) -> None:
        key = Record(QUESTION.name, 0, KEY.data, RecordClass.ANY)
        for block in [1, 32, 128, 468]:
            writer = MessageWriter(HEADER)
            writer.question(QUESTION)
            writer.hold(len(key.to_wire()))
            writer.edns(block=block)
            writer.last(key, held=len(key.to_wire()))
            self.assertEqual((len(writer.finish()) % block, Message.from_wire(writer.finish()).additionals[1]), (0, key))

    def test_made_messages_are_padded(self) -> None:
        key = Record(QUESTION.name, 0, KEY.data, RecordClass.ANY)
        query = make_query(QUESTION.name, "A", id=7, max_payload=1232)
        for block in [1, 32, 128, 468, 512, 600]:
            for others in [[], [key]]:
                reply = query.reply([Record(QUESTION.name, 60, A("192.0.2.1"))], [], others)
                padded = reply.to_wire(1300, block=block)
                self.assertEqual((len(padded) % min(block, 512), Message.from_wire(padded).additionals[1:]), (0, tuple(others)))
                least = len(reply.to_wire(1300))
                self.assertEqual(len(reply.to_wire(least, block=block)), least)
        self.assertEqual(make_query("a.", "A", id=7).to_wire(block=128), make_query("a.", "A", id=7).to_wire())

    def test_messages_that_were_read_are_padded(self) -> None:
        key = Record(QUESTION.name, 0, KEY.data, RecordClass.ANY)
        query = make_query(QUESTION.name, "A", id=7, max_payload=1232)
        for block in [1, 32, 128, 468, 512, 600]:
            for others in [[], [key]]:
                reply = query.reply([Record(QUESTION.name, 60, A("192.0.2.1"))], [], others)
                read, padded = Message.from_wire(reply.to_wire(1300)), reply.to_wire(1300, block=block)
                self.assertEqual(read.to_wire(1300, block=block), padded)
                # without room, and with padding already (RFC 7830, section 3), it is not
                self.assertEqual(read.to_wire(len(read.wire), block=block), read.wire)
                self.assertEqual(Message.from_wire(padded).to_wire(1300, block=468), padded)
        plain = Message.from_wire(make_query("a.", "A", id=7).to_wire())
        self.assertEqual(plain.to_wire(block=128), plain.wire)
        with self.assertRaises(ValueError):
            plain.to_wire(block=65536)

    def test_a_transfer_is_split(self) -> None:
        soa = Record.from_text("a. 60 SOA a. a. 1 2 3 4 5")
        records = [soa, *(Record(f"host-{i}.a.", 60, A("192.0.2.1")) for i in range(3000)), soa]
        for payload, max_size in [(None, 65535), (1232, 65535), (None, 512), (1232, 512), (None, 100)]:
            request = make_query("a.", "AXFR", max_payload=payload)
            messages = [Message.from_wire(octets) for octets in dnw.transfer(request, records, max_size)]
            self.assertEqual([record for message in messages for record in message.answers], records)
            for message in messages:
                self.assertTrue(message.is_reply_to(request) and message.header.authoritative and not message.header.truncation)
                self.assertTrue(len(message.wire) <= max_size and message.answers)
                self.assertEqual(message.edns is None, payload is None)
        with self.assertRaises(dnw.MessageTooLong):
            list(dnw.transfer(make_query("a.", "AXFR"), records, 40))
        refused = list(dnw.transfer(Message.build(Header(7), [QUESTION, QUESTION]), records))
        self.assertEqual([counts(octets) for octets in refused], [[0, 0, 0, 0]])
        self.assertEqual([counts(octets) for octets in dnw.transfer(make_query("a.", "AXFR"), [])], [[1, 0, 0, 0]])

    def test_data_that_are_not_of_their_type(self) -> None:
        for data in [Unknown(1, b"abc"), Unknown(2, b"\xc0\x0c"), Unknown(15, b"\0\1")]:
            with self.assertRaises(dnw.DnsError):
                make_query("a.", "A").reply([Record("a.", 60, data)]).to_wire()
        # data that are left out in an update (RFC 2136, section 2.4)
        empty = Record("a.", 0, Unknown(1, b""), RecordClass.ANY)
        self.assertEqual(Message.from_wire(Message.build(answers=[empty]).to_wire()).answers, (empty,))

    def test_messages_are_equal_as_octets(self) -> None:
        reply = make_query("a.", "MX", id=7).reply([Record("a.", 60, MX(1, "b.a."))])
        self.assertEqual(Message.from_wire(reply.to_wire()), reply)
        self.assertEqual(hash(Message.from_wire(reply.to_wire())), hash(reply))
        self.assertEqual((reply.wire, reply.trailing), (reply.to_wire(65535), b""))
        self.assertEqual(reply.answers[0].record_type, RecordType.MX)


class Rooms(unittest.TestCase):
    """Buffers are used again, and no two calls use one at once."""

    def exchange(self, number: int) -> None:
        owner = Name(f"host{number}.example.")
        query = Message.from_wire(make_query(owner, "A", id=number, max_payload=1232).to_wire())
        record = Record(owner, number, A(f"192.0.2.{number % 256}"))
        reply = Message.from_wire(query.reply([record], authoritative=True).to_wire())
        self.assertEqual((reply.id, reply.questions[0].name, str(reply.answers[0])), (number, owner, str(record)))
        self.assertEqual(owner.sort_key(), f"example\0host{number}\0".encode())

    def test_threads(self) -> None:
        wrong: "list[BaseException]" = []

        def work(first: int) -> None:
            try:
                for number in range(first, first + 200):
                    self.exchange(number)
            except BaseException as error:
                wrong.append(error)

        before = sys.getswitchinterval()
        sys.setswitchinterval(1e-5)
        try:
            threads = [threading.Thread(target=work, args=(first,)) for first in (0, 1000, 2000, 3000)]
            for thread in threads:
                thread.start()
            for thread in threads:
                thread.join()
        finally:
            sys.setswitchinterval(before)
        self.assertEqual(wrong, [])

    def test_signal_handlers(self) -> None:
        wrong: "list[BaseException]" = []

        def handler(signum: int, frame: object) -> None:
            try:
                self.exchange(65000)
            except BaseException as error:
                wrong.append(error)

        before = signal.signal(signal.SIGALRM, handler)
        signal.setitimer(signal.ITIMER_REAL, 0.0005, 0.0005)
        try:
            for number in range(1500):
                self.exchange(number)
        finally:
            signal.setitimer(signal.ITIMER_REAL, 0)
            signal.signal(signal.SIGALRM, before)
        self.assertEqual(wrong, [])


def load_tests(loader: object, tests: unittest.TestSuite, pattern: object) -> unittest.TestSuite:
    tests.addTests(doctest.DocTestSuite(import_module("dns_names_wire._writer")))
    return tests


if __name__ == "__main__":
    unittest.main()
