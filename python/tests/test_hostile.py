"""Values that lie, buffers that change meanwhile, signals in between, and threads."""

import gc
import random
import signal
import struct
import threading
import unittest
from typing import Any, Callable, Dict, List, Tuple

import dns_names_wire as dnw
from dns_names_wire import MX, NS, A, DnsError, Header, Message, MessageWriter, Name, Question, Record, RRset, TXT, make_query

# A response with a question, a CNAME and an address, whose names are compressed.
REPLY = bytes.fromhex(
    "000781800001000200000000"
    "03777777076578616d706c650000010001"
    "c00c000500010000003c000603776562c010"
    "c029000100010000003c0004c0000201"
)


class LyingBytes(bytes):
    """Octets whose methods say others."""

    def __len__(self) -> int:
        return 1 << 40

    def __getitem__(self, at: Any) -> Any:
        return b"\xff" * 9

    def __iter__(self) -> Any:
        return iter(b"\xff" * 300)

    def __bytes__(self) -> bytes:
        return b"\xff" * 12

    def __buffer__(self, flags: int) -> memoryview:
        return memoryview(bytes(self))

    def __eq__(self, other: object) -> bool:
        return True

    def __hash__(self) -> int:
        return 7


class LyingText(str):
    """A text whose methods say another one."""

    def __len__(self) -> int:
        return 1 << 40

    def __str__(self) -> str:
        return "other."

    def encode(self, encoding: str = "utf-8", errors: str = "strict") -> bytes:
        return b"other." * 100000

    def __getitem__(self, at: Any) -> str:
        return "x"

    def __iter__(self) -> Any:
        return iter("other.")

    def __eq__(self, other: object) -> bool:
        return True

    def __hash__(self) -> int:
        return 7


class LyingInt(int):
    """A number whose methods say another one."""

    def __index__(self) -> int:
        return 1 << 70

    def __int__(self) -> int:
        return 1 << 70

    def __lt__(self, other: object) -> bool:
        return False

    def __le__(self, other: object) -> bool:
        return True

    def __gt__(self, other: object) -> bool:
        return False

    def __ge__(self, other: object) -> bool:
        return True

    def __and__(self, other: int) -> int:
        return 1 << 70

    def __add__(self, other: int) -> int:
        return 1 << 70

    def __hash__(self) -> int:
        return 7


class Disguised:
    """No octets, text or number, but of a class that says so."""

    def __init__(self, kind: type) -> None:
        self.kind = kind

    @property  # type: ignore[misc]
    def __class__(self) -> Any:
        return self.kind


class Numbers:
    """A number that changes each time that it is asked, and one that fails."""

    def __init__(self, values: List[int]) -> None:
        self.values = values

    def __index__(self) -> int:
        if not self.values:
            raise KeyError("a number")
        return self.values.pop(0)


class Lies(unittest.TestCase):
    def test_octets_are_those_of_the_value(self) -> None:
        honest = Message.from_wire(REPLY)
        self.assertEqual(Message.from_wire(LyingBytes(REPLY)).wire, honest.wire)
        self.assertEqual(Name.from_wire(LyingBytes(b"\1a\0")).wire, b"\1a\0")
        self.assertEqual(dnw.read_name(LyingBytes(REPLY), 12), dnw.read_name(REPLY, 12))
        self.assertEqual([it.name for it in dnw.names(LyingBytes(b"\1a\0\1b\0"))], [Name("a."), Name("b.")])
        self.assertEqual(Name.from_labels([LyingBytes(b"a")]).wire, b"\1a\0")
        self.assertEqual(Name("b.").prepend_label(LyingBytes(b"a")).wire, b"\1a\1b\0")
        self.assertEqual(TXT((LyingBytes(b"ab"),)).to_wire(), b"\2ab")
        self.assertEqual(dnw.read_record(LyingBytes(REPLY), 29), dnw.read_record(REPLY, 29))

    def test_texts_are_those_of_the_value(self) -> None:
        self.assertEqual(Name(LyingText("a.")).wire, b"\1a\0")
        self.assertEqual(Record.from_text(LyingText("a. 60 IN NS b.")), Record.from_text("a. 60 IN NS b."))
        self.assertEqual(MX.from_text(LyingText("1 b.")).to_wire(), b"\0\1\1b\0")
        self.assertEqual(dnw.type_code(LyingText("MX")), 15)

    def test_numbers_are_those_of_the_value(self) -> None:
        makes: Tuple[Callable[[Any], Any], ...] = (
            lambda n: Record("a.", n, NS("b.")).ttl,
            lambda n: MX(n, "a.").preference,
            lambda n: Name("a.b.c.").trim_to(n).wire,
            lambda n: dnw.read_name(b"\1a\0\1b\0", n).name,
            lambda n: dnw.serial_add(n, n),
            lambda n: Message.from_wire(REPLY, max_pointers=n).wire,
            lambda n: MessageWriter(Header(id=n), 512).finish(),
            lambda n: make_query("a.", "NS", id=n).wire,
        )
        for make in makes:
            with self.subTest(make=make):
                self.assertEqual(self.outcome(make, LyingInt(3)), self.outcome(make, 3))
                self.outcome(make, Numbers([3, 1 << 70]))
                self.outcome(make, Numbers([-1]))
                self.outcome(make, Numbers([]))
                self.outcome(make, LyingInt(-1))
                self.outcome(make, True)

    @staticmethod
    def outcome(make: Callable[[Any], Any], value: Any) -> Any:
        """What a call returns; or the kind of its error, which is an ordinary one."""
        try:
            return make(value)
        except (DnsError, TypeError, ValueError, KeyError) as error:
            return type(error)

    def test_a_class_that_lies_is_a_type_error(self) -> None:
        calls: Tuple[Tuple[Callable[[Any], Any], type], ...] = (
            (Message.from_wire, bytes),
            (Name.from_wire, bytearray),
            (Name.from_wire, memoryview),
            (Name, str),
            (dnw.type_code, str),
            (Record.from_text, str),
            (Name("a.").trim_to, int),
            (Name("a.").append, Name),
            (Name("a.").is_in, Name),
            (MessageWriter().question, Question),
            (MessageWriter().answer, Record),
        )
        for call, kind in calls:
            with self.subTest(call=call), self.assertRaises((TypeError, AttributeError, ValueError)):
                call(Disguised(kind))

    def test_half_a_surrogate_pair_is_no_text(self) -> None:
        calls: Tuple[Callable[[str], Any], ...] = (Name, dnw.type_code, Record.from_text, MX.from_text)
        for call in calls:
            with self.subTest(call=call):
                self.outcome(call, "a\ud800.")


class Texts(unittest.TestCase):
    def test_texts_are_of_printable_ascii(self) -> None:
        """Of a name and data with control characters, of all types that are known and one that is not."""
        chance = random.Random(5)
        for record_type in (*range(300), 32768, 32769, 65280):
            for size in range(0, 40, 3):
                data = bytes(chance.choice(b"\0\0\1\2\7\n\r\x1b \";\\\x7f\x80\xa0\xff") for _ in range(size))
                octets = b"\3a\n\x1b\0" + struct.pack(">HHIH", record_type, 1, 1, len(data)) + data
                text = str(dnw.read_record(octets, 0))
                self.assertTrue(text.isascii() and text.isprintable(), (record_type, data, text))


class Buffers(unittest.TestCase):
    def test_a_buffer_is_copied(self) -> None:
        octets = bytearray(REPLY)
        message = Message.from_wire(octets)
        octets[:] = b"\xff" * 5
        self.assertEqual(message.wire, REPLY)
        self.assertEqual(message.answers[1].data, A("192.0.2.1"))
        view = memoryview(bytearray(REPLY + REPLY))[::2]
        with self.assertRaises(DnsError):
            Message.from_wire(view)
        view.release()
        with self.assertRaises(ValueError):
            Message.from_wire(view)

    def test_a_buffer_that_another_thread_resizes(self) -> None:
        """A call sees it as it was at one time, or that it is in use."""
        octets, is_done = bytearray(REPLY), threading.Event()
        views = [memoryview(bytearray(REPLY)) for _ in range(300)]

        def change() -> None:
            while not is_done.is_set():
                try:
                    octets.clear()
                    octets.extend(REPLY + b"\xff" * 70000)
                    del octets[len(REPLY) :]
                except BufferError:
                    continue
                if views:
                    views.pop().release()

        thread = threading.Thread(target=change)
        thread.start()
        read = 0
        try:
            while views or read < 100:
                for own in (octets, views[0] if views else octets):
                    try:
                        self.assertEqual(Message.from_wire(own).answers[1].data, A("192.0.2.1"))
                        read += 1
                    except (DnsError, ValueError) as error:
                        self.assertIn(type(error), (dnw.MessageCut, ValueError))
                    Lies.outcome(Name.from_wire, own)
        finally:
            is_done.set()
            thread.join()

    def test_a_writers_buffer_is_not_resized(self) -> None:
        buffer = bytearray(512)
        writer = MessageWriter(Header(id=7), buffer=buffer)
        changes: Tuple[Callable[[], Any], ...] = (lambda: buffer.extend(b"x"), buffer.clear, lambda: buffer.__delitem__(slice(0, 9)))
        for change in changes:
            with self.assertRaises(BufferError):
                change()
        writer.question(Question("a.", "NS"))
        self.assertEqual(writer.finish()[:2], b"\0\7")

    def test_a_writers_buffer_may_be_spoiled(self) -> None:
        for octet in (0, 0x3F, 0xC0, 0xFF):
            buffer = bytearray(100)
            writer = MessageWriter(Header(id=7), buffer=buffer)
            writer.question(Question("a.b.c.", "NS"))
            buffer[:] = bytes([octet]) * 100
            for _ in range(20):
                Lies.outcome(writer.answer, Record("a.b.c.", 60, NS("b.c.")))
            self.assertLessEqual(writer.size, 100)
            self.assertEqual(len(buffer), 100)

    def test_an_iterable_that_changes_what_it_comes_from(self) -> None:
        writer = MessageWriter(Header(id=7), 512)

        def records() -> Any:
            for last in range(3):
                writer.additional(Record("other.", 60, A("192.0.2.9")))
                yield Record("a.", 60, A(f"192.0.2.{last}"))

        Lies.outcome(writer.answer_set, records())
        Message.from_wire(writer.finish())


class InBetween(unittest.TestCase):
    def test_signal_handlers_call_too(self) -> None:
        """A timer interrupts calls, and its handler makes the same calls; some of them raise through the call that is interrupted."""
        seen: Dict[str, int] = {"handled": 0, "raised": 0}
        # Has an item while an exception of the handler is caught. The handler takes it out before it raises.
        armed: List[int] = []

        class Interrupt(Exception):
            pass

        def handler(*_: Any) -> None:
            seen["handled"] += 1
            self.check_all()
            if armed and seen["handled"] % 3 == 0:
                armed.clear()
                raise Interrupt

        before = signal.signal(signal.SIGALRM, handler)
        try:
            signal.setitimer(signal.ITIMER_REAL, 0.001, 0.001)
            while seen["handled"] < 300:
                try:
                    armed.append(1)
                    self.check_all()
                    armed.clear()
                except Interrupt:
                    seen["raised"] += 1
        finally:
            signal.setitimer(signal.ITIMER_REAL, 0)
            signal.signal(signal.SIGALRM, before)
        self.check_all()
        self.assertGreater(seen["raised"], 0)

    def check_all(self) -> None:
        message = Message.from_wire(REPLY)
        self.assertEqual(message.answers[1].data, A("192.0.2.1"))
        self.assertEqual(str(message.answers[0]), "www.example. 60 IN CNAME web.example.")
        self.assertEqual(Message.build(message.header, message.questions, message.answers).to_wire(), REPLY)
        self.assertEqual(Record.from_text("a. 60 IN MX 1 b.").data.to_wire(), b"\0\1\1b\0")
        self.assertEqual(sorted([Name("b."), Name("a.")]), [Name("a."), Name("b.")])

    def test_threads_get_the_results_of_one(self) -> None:
        faults: List[BaseException] = []

        def run(number: int) -> None:
            try:
                for turn in range(150):
                    self.check_all()
                    writer = MessageWriter(Header(id=number))
                    for last in range(5):
                        writer.answer(Record("a.", turn, A(f"192.0.{number}.{last}")))
                    answers = Message.from_wire(writer.finish()).answers
                    self.assertEqual(len(answers), 5)
                    self.assertTrue(all(it.ttl == turn and it.data.to_wire()[2] == number for it in answers))
            except BaseException as fault:
                faults.append(fault)

        threads = [threading.Thread(target=run, args=(number,)) for number in range(8)]
        for thread in threads:
            thread.start()
        for thread in threads:
            thread.join()
        self.assertEqual(faults, [])

    def test_one_writer_in_threads_stays_in_its_buffer(self) -> None:
        """The message may be anything then, but no octet outside of the buffer is written, and nothing crashes."""
        around = [bytearray(b"\xaa" * 200) for _ in range(9)]
        writer = MessageWriter(Header(id=7), buffer=around[4])
        records = [Record("a.b.", 60, TXT((b"x" * size,))) for size in (1, 40, 90)]

        def run(number: int) -> None:
            for turn in range(300):
                Lies.outcome(writer.answer, records[(turn + number) % 3])
                if turn % 7 == number % 7:
                    dnw._library.library.dnw_writer_begin(writer._room, 200, 200, 7, 0, writer._state)

        threads = [threading.Thread(target=run, args=(number,)) for number in range(4)]
        for thread in threads:
            thread.start()
        for thread in threads:
            thread.join()
        self.assertTrue(all(it == b"\xaa" * 200 for at, it in enumerate(around) if at != 4))

    def test_results_outlive_what_they_came_from(self) -> None:
        records = list(Message.from_wire(bytearray(REPLY)).answers)
        sets = list(dnw.rrsets(records))
        gc.collect()
        self.assertEqual(sets, [RRset([records[0]]), RRset([records[1]])])


if __name__ == "__main__":
    unittest.main()
