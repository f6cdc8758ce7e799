"""Messages written item by item."""

from contextlib import suppress
from ctypes import byref, c_char, c_size_t
from typing import Any, Callable, Iterable, Iterator, NoReturn, Optional, Tuple, final

from . import _checks
from . import _header as dnw
from ._errors import check
from ._failures import BadItem, DuplicateEdns
from ._library import library, taken
from ._messages import ANSWER_ITEM, OF_REPLY, Edns, Header, Message, Question, flags_of, own_message, question_parts, said_by
from ._records import Record, own_record
from ._sets import RRset

_MOST = 65535


@final
class MessageWriter:
    """Writes a message into a bytearray, item by item, with names compressed (RFC 1035, section 4.1.4).

    An item is written whole, or it raises `MessageTooLong` and the message stays as it was. What was written is a message
    after each item: `finish` returns it. Items are in the order of the sections; another order raises `BadItem`.

    >>> from dns_names_wire import NS, A, Header, Question, Record
    >>> writer = MessageWriter(Header(id=7, is_response=True))
    >>> writer.question(Question("a.", "NS"))
    >>> writer.answer(Record("a.", 60, NS("b.a.")))
    >>> writer.additional(Record("b.a.", 60, A("192.0.2.1")))
    >>> print(str(Message.from_wire(writer.finish())).expandtabs(1))
    ;; ->>HEADER<<- opcode: QUERY, status: NOERROR, id: 7
    ;; flags: qr; QUERY: 1, ANSWER: 1, AUTHORITY: 0, ADDITIONAL: 1
    <BLANKLINE>
    ;; QUESTION SECTION:
    ;a. IN NS
    <BLANKLINE>
    ;; ANSWER SECTION:
    a. 60 IN NS b.a.
    <BLANKLINE>
    ;; ADDITIONAL SECTION:
    b.a. 60 IN A 192.0.2.1
    """

    def __init__(self, header: Header = Header(), max_size: int = _MOST, buffer: Optional[bytearray] = None) -> None:
        """Begins a message of at most `max_size` octets with this header. A `buffer` is written from its first octet on; its
        size is a maximum too, and it cannot be resized as long as the writer is used."""
        self._set(max_size, buffer)
        _checks.number("response_code", header.response_code, 15)
        self._call(library.dnw_writer_begin, self._max_size, _checks.number("id", header.id, _MOST), flags_of(header))

    def __init_subclass__(cls) -> NoReturn:
        raise TypeError("MessageWriter has no subclasses")

    def _set(self, max_size: int, buffer: Optional[bytearray]) -> None:
        self._max_size = _checks.number("max_size", max_size, _MOST)
        self._buffer = bytearray(max(self._max_size, 12)) if buffer is None else buffer
        if not isinstance(self._buffer, bytearray):
            raise _checks.wrong_type("buffer", "a bytearray is", buffer)
        self._room = (c_char * bytearray.__len__(self._buffer)).from_buffer(self._buffer)
        self._state, self._asked = dnw.Writer(), None  # type: dnw.Writer, Optional[dnw.Edns]

    def _call(self, call: Callable[..., int], *given: object, last: Tuple[Any, ...] = ()) -> None:
        """Calls a function of the library with the buffer, other arguments, the state, and what comes after it."""
        check(call(self._room, len(self._room), *given, byref(self._state), *last))

    @classmethod
    def query(
        cls,
        question: Question,
        max_size: int = _MOST,
        buffer: Optional[bytearray] = None,
        *,
        id: int,
        recursion_desired: bool = True,
        max_payload: Optional[int] = None,
    ) -> "MessageWriter":
        """Begins a query with this question. A `max_payload` adds an OPT record, which says that the sender accepts messages of so
        many octets, or of 512 if it is less; without it `edns` may say more. The `id` should be random (RFC 5452, section
        9.2).

        >>> from dns_names_wire import Question
        >>> MessageWriter.query(Question("a.", "NS"), id=7).finish().hex()
        '00070100000100000000000001610000020001'
        """
        writer = cls.__new__(cls)
        writer._set(max_size, buffer)
        wire, *codes = question_parts("question", question)
        size = 0 if max_payload is None else max(1, _checks.number("max_payload", max_payload, _MOST))
        head = writer._max_size, _checks.number("id", id, _MOST), bool(recursion_desired)
        writer._call(library.dnw_writer_query, *head, wire, len(wire), *codes, size)
        return writer

    @classmethod
    def reply(
        cls,
        request: Message,
        max_size: int = _MOST,
        buffer: Optional[bytearray] = None,
        *,
        authoritative: bool = False,
        recursion_available: bool = False,
        authentic_data: bool = False,
        response_code: int = 0,
    ) -> "MessageWriter":
        """Begins the reply to a request, as `Message.reply` makes it, with the question of the request. If the request has
        EDNS, room is held back for the OPT record, which `edns` writes, or else `last` or `finish`.

        >>> from dns_names_wire import make_query
        >>> MessageWriter.reply(make_query("a.", "NS", id=7)).finish().hex()
        '00078100000100000000000001610000020001'
        """
        writer = cls.__new__(cls)
        writer._set(max_size, buffer)
        code = _checks.number("response_code", response_code, 4095)
        flags = bool(authoritative) << 10 | bool(recursion_available) << 7 | bool(authentic_data) << 5
        wire, writer._asked = own_message("request", request).wire, dnw.Edns()
        given = writer._max_size, wire, len(wire), flags, code
        writer._call(library.dnw_writer_reply, *given, last=(byref(writer._asked),))
        return writer

    def __reduce__(self) -> NoReturn:
        raise TypeError("a MessageWriter is not copied: it writes into one buffer")

    @property
    def size(self) -> int:
        """The number of octets of the message so far."""
        return int(self._state.len)

    @property
    def held(self) -> int:
        """The number of octets that are held back."""
        return int(self._state.reserved)

    def hold(self, octets: int) -> None:
        """Holds back so many octets of the maximum, for items that come last."""
        check(library.dnw_writer_hold(_checks.number("octets", octets, _MOST), byref(self._state)))

    def release(self, octets: int) -> None:
        """Gives back so many octets that were held back, or all if fewer were."""
        check(library.dnw_writer_release(_checks.number("octets", octets, _MOST), byref(self._state)))

    def question(self, question: Question) -> None:
        """Writes a question."""
        wire, *codes = question_parts("question", question)
        self._call(library.dnw_writer_question, wire, len(wire), *codes)

    def answer(self, record: Record) -> None:
        """Writes a record of the Answer section. Raises `BadData`, or as `Record.fields`, if its data are not valid."""
        self._call(library.dnw_writer_record, dnw.SECTION_ANSWERS, *_parts_of(record))

    def authority(self, record: Record) -> None:
        """Writes a record of the Authority section, as `answer`."""
        self._call(library.dnw_writer_record, dnw.SECTION_AUTHORITIES, *_parts_of(record))

    def additional(self, record: Record) -> None:
        """Writes a record of the Additional section, as `answer`."""
        self._call(library.dnw_writer_record, dnw.SECTION_ADDITIONALS, *_parts_of(record))

    def answer_set(self, records: Iterable[Record], *, required: bool = True) -> None:
        """Writes the records of a set to the Answer section, or none of them (RFC 2181, section 5). If there is no room and
        the receiver needs the set, TC is set (section 9). Raises `ValueError` as `RRset`, and otherwise as `answer`."""
        self._set_of(dnw.SECTION_ANSWERS, records, required)

    def authority_set(self, records: Iterable[Record], *, required: bool = True) -> None:
        """Writes a set to the Authority section, as `answer_set`."""
        self._set_of(dnw.SECTION_AUTHORITIES, records, required)

    def additional_set(self, records: Iterable[Record], *, required: bool = False) -> None:
        """Writes a set to the Additional section, as `answer_set`. Glue is required (RFC 9471)."""
        self._set_of(dnw.SECTION_ADDITIONALS, records, required)

    def _set_of(self, section: int, records: Iterable[Record], required: bool) -> None:
        found = records if type(records) is RRset else RRset(records)
        owner, codes = found.owner.wire, (found.record_type, found.record_class, found.ttl)
        octets = b"".join([part for record in found for part in _counted(record._whole_data())])
        self._call(library.dnw_writer_set, section, bool(required), owner, len(owner), *codes, octets, len(octets))

    def edns(self, edns: Optional[Edns] = None, *, block: int = 0) -> None:
        """Writes the OPT record: of a reply as `Message.reply` has it, if its request has EDNS. If `block` is not 0, the message
        is padded to a multiple of so many octets (RFC 7830; RFC 8467). Raises `DuplicateEdns` if there is one already."""
        own = OF_REPLY if edns is None else edns
        (payload, options), padded = said_by(own), _checks.number("block", block, _MOST)
        last = payload, options, len(options), padded
        if self._asked is not None:
            self._call(library.dnw_writer_reply_edns, byref(self._asked), *last)
        else:
            version = _checks.number("version", own.version, 255)
            self._call(library.dnw_writer_edns, 0, payload, 0, version, bool(own.dnssec_ok), *last[1:])

    def _add_owed_edns(self) -> None:
        """Writes the OPT record of a reply, unless it is there."""
        if self._asked is not None:
            with suppress(DuplicateEdns, BadItem):
                self.edns()

    def last(self, record: Record, *, held: int = 0) -> None:
        """Writes a record after which no item may follow, as TSIG (RFC 8945, section 5.1), and gives back octets that are
        held back for it."""
        parts = _parts_of(record)
        self._add_owed_edns()
        self._call(library.dnw_writer_last, _checks.number("held", held, _MOST), *parts)

    def finish(self) -> bytes:
        """Returns the message. A reply gets its OPT record first, if it has none and the request has EDNS."""
        self._add_owed_edns()
        return taken(self._room, self._state.len)


def transfer(request: Message, records: Iterable[Record], max_size: int = _MOST) -> Iterator[bytes]:
    """Yields the messages of a response to AXFR or IXFR over TCP (RFC 5936, section 2.2; RFC 1995, section 4): each a reply
    to the request, with AA and the question, and with as many of the records as it has room for. The records are those of
    the Answer sections, in their order: of an AXFR the SOA record of the zone comes first and last. A request that has to be
    refused, as `Message.reply` says, gets one message without records. Raises `MessageTooLong` if a record has no room.

    >>> from dns_names_wire import Record, make_query
    >>> lines = ["a. 60 SOA a. a. 1 2 3 4 5", "a. 60 NS b.a.", "b.a. 60 A 192.0.2.1", "a. 60 SOA a. a. 1 2 3 4 5"]
    >>> messages = transfer(make_query("a.", "AXFR", id=7), [Record.from_text(line) for line in lines], max_size=100)
    >>> [len(Message.from_wire(octets).answers) for octets in messages]
    [3, 1]
    """
    items, at = b"".join([part for record in records for part in (ANSWER_ITEM, own_record("records", record).to_wire())]), c_size_t()
    while True:
        writer = MessageWriter.reply(request, max_size, authoritative=True)
        if writer._asked is not None and not writer._asked.takes_records:
            at.value = len(items)
        else:
            writer._call(library.dnw_writer_fill, items, len(items), at.value, last=(byref(at),))
        yield writer.finish()
        if at.value == len(items):
            return


def _parts_of(record: Record) -> Tuple[object, ...]:
    """Returns the owner, the type, the class, the TTL and the data of a record, as calls take them."""
    owner, data = own_record("record", record).owner.wire, record._whole_data()
    return owner, len(owner), record.record_type, record.record_class, record.ttl, data, len(data)


def _counted(octets: bytes) -> Tuple[bytes, bytes]:
    return len(octets).to_bytes(2, "big"), octets
