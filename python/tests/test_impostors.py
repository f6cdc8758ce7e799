"""Arguments of classes that say what is not so: of subclasses whose attributes lie, and of classes that only say that they are ours.
What is passed to the library is our own, so each call refuses them, or sees the true value. Under valgrind no call reads past it."""

import inspect
import unittest
from typing import Any, Callable, Dict, Iterator, List

import dns_names_wire as dnw
from dns_names_wire import MX, A, Edns, EdnsOption, Header, Message, MessageWriter, Name, Question, Record, RRset, TypeSet, make_query

from test_hostile import REPLY, Disguised, LyingBytes, LyingInt, LyingText


class LyingName(Name):
    """A name whose attributes are those of another, with octets that say another length."""

    wire = property(lambda self: LyingBytes(b"\1b\0"))  # type: ignore[assignment]
    _wire = property(lambda self: LyingBytes(b"\1b\0"))  # type: ignore[assignment]
    is_fqdn = property(lambda self: True)  # type: ignore[assignment]
    _order = property(lambda self: LyingBytes(b"\1b\0"))

    def __bytes__(self) -> bytes:
        return LyingBytes(b"\1b\0")

    def sort_key(self) -> bytes:
        return LyingBytes(b"b\0")


class LyingData(MX):
    def to_wire(self) -> bytes:
        return LyingBytes(super().to_wire())


class LyingQuestion(Question):
    def __post_init__(self) -> None:
        self.__dict__.update(name=Impostor("wire", LyingBytes(b"\1b\0")), question_type=LyingInt(1), question_class=LyingInt(1))

    def to_wire(self) -> bytes:
        return LyingBytes(b"\1b\0\0\1\0\1")


class LyingEdns(Edns):
    max_payload = property(lambda self: LyingInt(512))  # type: ignore[assignment]
    options = property(lambda self: [(LyingInt(3), LyingBytes(b"ab"))])  # type: ignore[assignment]


class LyingOption(dnw.Cookie):
    def _parts(self) -> Any:
        parts, own = super()._parts()
        return parts, LyingBytes(own)


class LyingHeader(Header):
    op_code = property(lambda self: LyingInt(5))  # type: ignore[assignment]
    response_code = property(lambda self: LyingInt(3))  # type: ignore[assignment]


class LyingStream:
    """A file that says that it has read other octets than it has."""

    def __init__(self, says: Any) -> None:
        self.says = says

    def readinto(self, room: memoryview) -> Any:
        return self.says


class Impostor:
    """An object with one attribute that lies; any other is a function that returns the same."""

    def __init__(self, name: str, value: Any, kind: type = object) -> None:
        self.__dict__.update({"lies": {name: value}, "value": value, "kind": kind})

    @property  # type: ignore[misc]
    def __class__(self) -> Any:
        return self.kind

    def __getattr__(self, name: str) -> Any:
        return self.lies.get(name, lambda *_: self.value)


def impostors(kind: type) -> List[Any]:
    """Objects that say that they are of a class, and whose octets say another length."""
    wire = LyingBytes(REPLY if kind in (Message, Record) else b"\1b\0")
    return [Disguised(kind), *[Impostor(name, wire, kind) for name in ("wire", "_wire", "_message", "to_wire")]]


def lies() -> Iterator[Any]:
    """A lie for each kind of argument."""
    yield from (LyingBytes(b"\1a\0"), LyingBytes(REPLY), LyingText("a."), LyingInt(3), LyingName("a."), LyingName("a"))
    yield from (LyingData(10, "a."), LyingQuestion("a.", "A"), LyingEdns(), LyingOption(b"12345678", b"abcdefgh"), LyingHeader(7))
    for kind in (Name, Record, RRset, TypeSet, Message, Question, Header, Edns, EdnsOption, MX, bytes, bytearray, memoryview, str, int):
        yield from impostors(kind)
    yield from ([LyingName("a.")], [LyingBytes(b"ab")], [LyingText("a.")], [LyingInt(3)], [(LyingInt(3), LyingBytes(b"ab"))])
    yield from ([one] for kind in (Name, Record, Question, Message) for one in impostors(kind))


def attempt(call: Callable[..., Any], *arguments: Any, **named: Any) -> None:
    """Calls, and uses what is returned. An ordinary exception is all that may come."""
    try:
        made = call(*arguments, **named)
        for use in (str, repr, hash, list, lambda one: one.to_wire(), lambda one: one.wire, lambda one: one.option()):
            try:
                use(made)
            except (TypeError, ValueError, AttributeError, OverflowError, MemoryError, RuntimeWarning):
                pass
    except (TypeError, ValueError, AttributeError, OverflowError, MemoryError, KeyError, OSError, RuntimeWarning):
        pass


def honest() -> Dict[str, Any]:
    """A value for each name that an argument has, as far as calls need one."""
    record = Record("a.", 60, MX(10, "b."))
    message, request = Message.from_wire(REPLY), make_query("a.", "MX", id=7)
    own: Dict[str, Any] = dict.fromkeys(("text",), "a.")
    own.update(dict.fromkeys(("owner", "next_name", "name", "apex", "zone", "origin", "other", "suffix"), Name("a.")))
    own.update(dict.fromkeys(("wire", "message", "octets", "salt", "label", "bitmap", "own_hash", "next_hash", "name_hash"), b"\1a\0"))
    own.update(records=[record], answers=[record], record=record, dnskey=b"\1\0\3\1aaaaaaa", request=request, query=request, data=record.data)
    own.update(question=Question("a.", "MX"), questions=[Question("a.", "MX")], header=Header(7), source=b"a 60 A 192.0.2.1\n")
    own.update(address="192.0.2.1", labels=1, record_type="MX", code=15, self=message, names=[Name("a.")], codes=[1], options=[(3, b"a")])
    return own


def calls() -> Iterator[Callable[..., Any]]:
    """All public functions and classes, and the methods of an object of each."""
    record, message = Record("a.", 60, MX(10, "b.")), Message.from_wire(REPLY)
    for name in dnw.__all__:  # type: ignore[attr-defined]
        one = getattr(dnw, name)
        if inspect.isfunction(one) or (inspect.isclass(one) and not issubclass(one, BaseException)):
            yield one
    objects = (
        Name("a."), record, RRset([record]), TypeSet([1]), message, make_query("a.", "A"), record.data,
        EdnsOption(3, b"a"), dnw.Cookie(b"12345678"), Record.from_text("a. 60 DNSKEY 256 3 8 AQAB").data,
        Record.from_text("a. 60 IN RRSIG MX 13 1 3600 20010909014640 20010909014640 7 a. AA=="),
    )  # fmt: skip
    for value in (*objects, *map(type, objects)):
        for name, method in inspect.getmembers(value, callable):
            if not name.startswith("_") and str(getattr(method, "__module__", "")).startswith("dns_names_wire"):
                yield method
    writer_calls = [name for name, _ in inspect.getmembers(MessageWriter, callable) if not name.startswith("_")]
    for name in writer_calls:
        yield getattr(MessageWriter(Header(id=7, is_response=True), 512), name)


class Impostors(unittest.TestCase):
    def test_every_call_with_a_lie_in_each_place(self) -> None:
        tried = 0
        for call in calls():
            try:
                parameters = list(inspect.signature(call).parameters.values())
            except (TypeError, ValueError):
                continue
            own = honest()
            needed = [it for it in parameters if it.default is it.empty and it.kind in (it.POSITIONAL_ONLY, it.POSITIONAL_OR_KEYWORD)]
            given = [own.get(it.name, 1) for it in needed]
            for at, it in enumerate(needed):
                for lie in lies():
                    attempt(call, *given[:at], lie, *given[at + 1 :])
                    tried += 1
            for it in parameters:
                if it not in needed and it.kind in (it.POSITIONAL_OR_KEYWORD, it.KEYWORD_ONLY):
                    for lie in lies():
                        attempt(call, *given, **{it.name: lie})
                        tried += 1
        self.assertGreater(tried, 20000)

    def test_a_name_is_its_own(self) -> None:
        """The name `a.`, whatever its attributes say."""
        name = LyingName("a.")
        self.assertEqual(make_query(name, "A", id=7).to_wire(), make_query("a.", "A", id=7).to_wire())
        self.assertEqual(Record(name, 60, MX(1, name)).to_wire(), Record("a.", 60, MX(1, "a.")).to_wire())
        self.assertEqual([str(it) for it in dnw.read_zone(b"@ 60 A 192.0.2.1\n", name)], ["a. 60 IN A 192.0.2.1"])
        records = [Record("b.a.", 60, A("192.0.2.1"))]
        self.assertEqual(list(dnw.zone_lines(records, name)), list(dnw.zone_lines(records, "a.")))
        self.assertEqual(dnw.check_zone(records, name), dnw.check_zone(records, "a."))
        self.assertEqual(dnw.zone_digest(name, records, 1), dnw.zone_digest(Name("a."), records, 1))
        self.assertRaises(ValueError, make_query, LyingName("a"), "A")

    def test_no_subclass_stands_for_a_value(self) -> None:
        for kind in (Record, RRset, TypeSet, Message, MessageWriter):
            with self.assertRaisesRegex(TypeError, "has no subclasses$"):
                type("Other", (kind,), {})
        for one in impostors(Record):
            self.assertRaises(TypeError, RRset, [one])
            self.assertRaises(TypeError, list, dnw.zone_lines([one], "a."))
            self.assertRaises(TypeError, dnw.check_zone, [one], "a.")
            self.assertRaises(TypeError, MessageWriter().answer, one)
            self.assertRaises(TypeError, dnw.zone_digest, Name("a."), [one], 1)
        for one in impostors(Message):
            self.assertRaises(TypeError, MessageWriter.reply, one)
            self.assertRaises(TypeError, Message.from_wire(REPLY).is_reply_to, one)

    def test_a_file_has_not_more_than_there_is_room_for(self) -> None:
        for says in (65537, 1 << 20, 1 << 62, -1, LyingInt(1 << 20), None, "1"):
            with self.assertRaises((TypeError, ValueError)):
                list(dnw.read_zone(LyingStream(says), "a."))  # type: ignore[arg-type]

    def test_what_a_subclass_says_is_checked(self) -> None:
        header, edns = LyingHeader(7, is_response=True), LyingEdns()
        built = Message.from_wire(Message.build(header, [Question("a.", "A")], edns=edns).to_wire())
        self.assertEqual((built.header.op_code, built.response_code, built.max_payload), (5, 3, 512))
        self.assertEqual(built.edns, Edns(512, options=[(3, b"ab")]))
        self.assertRaises(TypeError, Message.build, questions=[LyingQuestion("a.", "A")])
        self.assertRaises(TypeError, MessageWriter().question, LyingQuestion("a.", "A"))
        for section in ("answers", "authorities", "additionals", "required"):
            for one in impostors(Record):
                with self.assertRaisesRegex(TypeError, f"^{section}: a Record is wanted"):
                    Message.build(**{section: [one]})
                with self.assertRaisesRegex(TypeError, f"^{section}: a Record is wanted"):
                    make_query("a.", "A").reply(**{section: [one]})

    def test_a_long_bitmap_takes_no_room(self) -> None:
        for bitmap in (bytes(65536), bytes(50_000_000), b"\xff" * 50_000_000):
            self.assertRaises(dnw.BadBitmap, TypeSet.from_bitmap, bitmap)
        windows = b"".join(bytes([window, 32]) + b"\xff" * 32 for window in range(256))
        self.assertEqual(TypeSet.from_bitmap(windows), set(range(65536)))


if __name__ == "__main__":
    unittest.main()
