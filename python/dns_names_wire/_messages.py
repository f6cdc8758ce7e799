"""Whole messages, which are checked once."""

import os
import struct
from ctypes import addressof, byref, c_bool
from functools import lru_cache
from typing import TYPE_CHECKING, Any, Callable, Dict, Iterable, List, NamedTuple, NoReturn, Optional, Tuple, final

from . import _checks
from . import _header as dnw
from ._checks import Bytes
from ._codes import OpCode, RecordClass, RecordType, ResponseCode, code_of
from ._data import NameLike, TypeLike, put_pairs, take_pairs
from ._errors import SECTIONS, check, check_item
from ._library import ROOM_SIZE, by_address, give_back, library, room_of, take_room, taken
from ._names import Name, whole_name, whole_wire
from ._options import EdnsOption, OptionLike, options_of
from ._records import Record, own_record, record_at
from ._sets import RRset, rrsets
from ._table import Table, read_table
from ._values import Value, dataclass

# The type and the class of a question.
_CODES = struct.Struct("!HH")
# The id, the flags and the codes, and the counts of a header; and the first two of these.
_HEADER = struct.Struct("!HHHHHH")
_head_of: Any = struct.Struct("!HH").unpack_from
# The first octets of the items of a list.
ANSWER_ITEM, _AUTHORITY, _ADDITIONAL = bytes([dnw.LIST_ANSWER]), bytes([dnw.LIST_AUTHORITY]), bytes([dnw.LIST_ADDITIONAL])
_REQUIRED = bytes([dnw.LIST_ADDITIONAL | dnw.LIST_REQUIRED])
_MOST = 65535
# The bytes of most texts of messages.
_USUAL_TEXT = 2048
_MOST_POINTERS = 2**64 - 1
_message_pack, _message_write = by_address("dnw_message_pack"), by_address("dnw_message_write")
_writer_query, _writer_reply = by_address("dnw_writer_query"), by_address("dnw_writer_reply")
# The arguments that are records.
_ARGUMENTS = ("answers", "authorities", "required", "additionals")
# The flags of a header, the fields that they are, and their bits.
_FLAGS = (
    ("QR", "is_response", 15), ("AA", "authoritative", 10), ("TC", "truncation", 9), ("RD", "recursion_desired", 8),
    ("RA", "recursion_available", 7), ("AD", "authentic_data", 5), ("CD", "checking_disabled", 4),
)  # fmt: skip


@dataclass(frozen=True)
class Header(Value):
    """The fields of a header except for the counts (RFC 1035, section 4.1.1; RFC 4035, section 3.2).

    `response_code` is the low four bits of the response code; `Message.response_code` has all bits.
    """

    id: int = 0
    is_response: bool = False
    op_code: OpCode = OpCode.QUERY
    authoritative: bool = False
    truncation: bool = False
    recursion_desired: bool = False
    recursion_available: bool = False
    authentic_data: bool = False
    checking_disabled: bool = False
    response_code: ResponseCode = ResponseCode.NOERROR

    @property
    def flags(self) -> Tuple[str, ...]:
        """The names of the flags that are set, in the order of their bits."""
        return tuple([name for name, field, _ in _FLAGS if getattr(self, field)])


def flags_of(header: Header) -> int:
    """Returns the flags and codes of a header, with the low four bits of the response code."""
    code = _checks.number("response_code", header.response_code, 4095) & 15
    bits = [bool(getattr(header, field)) << bit for _, field, bit in _FLAGS]
    return sum(bits) | _checks.number("op_code", header.op_code, 15) << 11 | code


# The questions of a message, and the records of each section.
_Parts = Tuple[Tuple["Question", ...], Tuple[Record, ...], Tuple[Record, ...], Tuple[Record, ...]]


@dataclass(frozen=True)
class Question(Value):
    """A question (RFC 1035, section 4.1.2): its fully qualified name, type and class, each of which may be a text.

    `str` returns the name, class and type, with spaces between them.

    >>> print(Question("www.example.", "AAAA"))
    www.example. IN AAAA
    """

    name: Name
    question_type: RecordType
    question_class: RecordClass = RecordClass.IN

    if TYPE_CHECKING:
        def __init__(self, name: NameLike, question_type: TypeLike, question_class: TypeLike = 1) -> None: ...

    def __post_init__(self) -> None:
        codes = code_of(RecordType, "question_type", self.question_type), code_of(RecordClass, "question_class", self.question_class)
        self.__dict__.update(name=whole_name("name", self.name), question_type=codes[0], question_class=codes[1])

    def __str__(self) -> str:
        return f"{self.name} {self.question_class} {self.question_type}"

    def to_wire(self) -> bytes:
        """Returns the octets, without compression."""
        return self.name.wire + _CODES.pack(self.question_type, self.question_class)


@dataclass(frozen=True)
class Edns(Value):
    """The EDNS fields of a message (RFC 6891, section 6.1).

    `max_payload` is the size of the largest message that the sender accepts, at least 512 octets. The options may be given by what
    they say, or as pairs of a code and its octets.

    >>> from dns_names_wire import Nsid
    >>> Edns(options=[Nsid()]).options, Edns(options=[(3, b"")]).options
    ((EdnsOption(code=3, octets=b''),), (EdnsOption(code=3, octets=b''),))
    """

    max_payload: int = 1232
    version: int = 0
    dnssec_ok: bool = False
    options: Tuple[EdnsOption, ...] = ()

    if TYPE_CHECKING:
        def __init__(
            self, max_payload: int = 1232, version: int = 0, dnssec_ok: bool = False, options: Iterable[OptionLike] = ()
        ) -> None: ...

    def __post_init__(self) -> None:
        if self.options != ():
            self.__dict__["options"] = options_of("options", self.options)


def said_by(edns: Edns) -> Tuple[int, bytes]:
    """Returns the size of messages that EDNS says, and the octets of its options."""
    options = put_pairs(take_pairs("options", edns.options))
    if len(options) > _MOST:
        check(dnw.DATA_TOO_LONG)
    return _checks.number("max_payload", edns.max_payload, _MOST), options


@lru_cache(maxsize=512)
def _opt(payload: int, options: bytes, code: int, version: int, dnssec_ok: bool, asked: Optional[bool]) -> bytes:
    """Returns the OPT record (RFC 6891, section 6.1.2) that the library writes into a message without other items, or no octets. A
    reply is `asked` for EDNS or not by its request."""
    room, writer = room_of(dnw.HEADER_SIZE + dnw.EDNS_SIZE + len(options)), dnw.Writer()
    check(library.dnw_writer_begin(room, len(room), len(room), 0, 0, byref(writer)))
    last = options, len(options), 0, byref(writer)
    if asked is None:
        check(library.dnw_writer_edns(room, len(room), 0, payload, code >> 4, version, dnssec_ok, *last))
    else:
        request = dnw.Edns(is_present=asked, dnssec_ok=dnssec_ok, response_code=code)
        check(library.dnw_writer_reply_edns(room, len(room), byref(request), payload, *last))
    return taken(room, writer.len)[dnw.HEADER_SIZE :]


def _opt_of(edns: Optional[Edns], code: int) -> bytes:
    """Returns the OPT record of a message with this response code, or no octets."""
    if edns is None:
        return b""
    return _opt(*said_by(edns), code, _checks.number("version", edns.version, 255), bool(edns.dnssec_ok), None)


class _Made(NamedTuple):
    """What a message was made of: the response code, whether it replies to a request, its questions as items of the list that is
    written and as values, if these are known, the records of its sections by `_ARGUMENTS`, and its OPT record, or no octets."""

    code: int
    is_reply: bool
    asked: bytes
    questions: Optional[Tuple[Question, ...]]
    records: Tuple[Tuple[Record, ...], ...]
    opt: bytes


@final
class Message:
    """A message (RFC 1035, section 4): one that was read and checked as a whole, or one that was made.

    `Message.from_wire` reads a message. The data of its records are not checked; `Record.fields` does. `trailing` is the
    octets after the message. `Message.build`, `Message.query` and `Message.reply` make a message. `to_wire` writes any
    message, compressed and within a size. Two messages are equal if all their octets are.

    >>> message = Message.from_wire(bytes.fromhex("123484000001000100000000 016200 0001 0001 c00c 0001 0001 0000003c 0004 c0000201"))
    >>> message.id, message.flags
    (4660, ('QR', 'AA'))
    >>> print(message.questions[0])
    b. IN A
    >>> message.answers
    (<Record b. 60 IN A c0000201>,)
    >>> message.answers[0].data
    A(address=IPv4Address('192.0.2.1'))
    >>> print(str(message).expandtabs(1))
    ;; ->>HEADER<<- opcode: QUERY, status: NOERROR, id: 4660
    ;; flags: qr aa; QUERY: 1, ANSWER: 1, AUTHORITY: 0, ADDITIONAL: 0
    <BLANKLINE>
    ;; QUESTION SECTION:
    ;b. IN A
    <BLANKLINE>
    ;; ANSWER SECTION:
    b. 60 IN A 192.0.2.1
    """

    __slots__ = ("_head", "_made", "_wire", "_trailing", "_max_pointers", "_table", "_parts")

    # The id and the flags; and what the message was made of, or what the library read of it.
    _head: Tuple[int, int]
    _made: Optional[_Made]
    _table: Table
    _trailing: bytes
    _max_pointers: int
    # What is made when it is first used.
    _wire: Optional[bytes]
    _parts: Optional[_Parts]

    def __init__(self) -> None:
        raise TypeError("a Message is made by Message.from_wire, build, query or reply")

    def __init_subclass__(cls) -> NoReturn:
        raise TypeError("Message has no subclasses")

    @classmethod
    def _new(cls, head: Tuple[int, int], made: Optional[_Made]) -> "Message":
        message = object.__new__(cls)
        message._head, message._made, message._wire, message._parts = head, made, None, None
        message._trailing, message._max_pointers = b"", dnw.MAX_POINTERS
        return message

    @classmethod
    def from_wire(cls, message: Bytes, *, max_pointers: int = dnw.MAX_POINTERS) -> "Message":
        """Reads the message at the start of these octets. More octets may follow.

        Raises the exception of the first question or record that is wrong, with its `section`, `item` and `offset`: as
        `read_name` for its name, `MessageCut` if the octets end within it or within the header, and `TooManyPointers`
        if the names up to it follow more than `max_pointers` compression pointers in total. Names in data count too; if these
        are too many, there is no item.
        """
        whole = message if type(message) is bytes else _checks.octets("message", message)
        most = _checks.number("max_pointers", max_pointers, _MOST_POINTERS)
        failure, table = read_table(whole, most)
        if failure:
            read, fault = dnw.Message(), dnw.MessageFault()
            number = library.dnw_message_read(whole, len(whole), most, byref(read), byref(fault))
            check_item(number, SECTIONS[fault.section], fault.item, fault.offset)
            # The names in data follow too many pointers.
            check(failure)
        end = dnw.HEADER_SIZE
        for row in reversed(table.rows):
            if row[0]:
                end = row[5] + row[6]
                break
        read_message = cls._new(_head_of(whole), None)
        read_message._wire, read_message._trailing, read_message._max_pointers = whole[:end], whole[end:], most
        read_message._table = table
        return read_message

    @classmethod
    def build(
        cls,
        header: Header = Header(),
        questions: Iterable[Question] = (),
        answers: Iterable[Record] = (),
        authorities: Iterable[Record] = (),
        additionals: Iterable[Record] = (),
        edns: Optional[Edns] = None,
        *,
        required: Iterable[Record] = (),
    ) -> "Message":
        """Makes a message. The EDNS fields become the last record of the Additional section but a signature. `required` is
        records of the Additional section, before the others, that are not left out without TC. Glue below a cut never is
        (RFC 9471). `to_wire` raises `BadItem` if the response code is above 15 without EDNS (RFC 6891, section 6.1.3).

        Raises `ValueError` if a section has more than 65535 items or a number is out of bounds, `DataTooLong` if the
        options have more than 65535 octets, and `MessageTooLong` if no message has room for them.

        >>> from dns_names_wire import MX, Header, Record
        >>> record = Record("a.", 60, MX(10, "mail.a."))
        >>> Message.build(Header(id=7, is_response=True), answers=[record]).to_wire().hex()
        '000780000000000100000000016100000f00010000003c0009000a046d61696cc00c'
        """
        code, number = _checks.number("response_code", header.response_code, 4095), _checks.number("id", header.id, _MOST)
        asked = tuple(questions)
        sections = _own_records((answers, authorities, required, additionals))
        additional = len(sections[2]) + len(sections[3]) + (edns is not None)
        counts = len(asked), len(sections[0]), len(sections[1]), 0, additional
        for what, count in zip(("questions", *_ARGUMENTS), counts):
            _checks.number(f"the number of {what}", count, _MOST)
        items = b"".join([part for it in asked for part in _question_item(*question_parts("questions", it))])
        return cls._new((number, flags_of(header)), _Made(code, False, items, asked, sections, _opt_of(edns, code)))

    @classmethod
    def query(
        cls,
        name: NameLike,
        record_type: TypeLike,
        record_class: TypeLike = RecordClass.IN,
        *,
        id: Optional[int] = None,
        recursion_desired: bool = True,
        edns: Optional[Edns] = None,
    ) -> "Message":
        """Makes a query for records of a fully qualified name. The default `id` is random (RFC 5452, section 9.2).

        >>> Message.query("a.", RecordType.NS, id=7).to_wire().hex()
        '00070100000100000000000001610000020001'
        """
        number = int.from_bytes(os.urandom(2), "big") if id is None else _checks.number("id", id, _MOST)
        question, flag = Question(name, record_type, record_class), bool(recursion_desired)
        wire, codes = question.name.wire, (question.question_type, question.question_class)
        room = take_room()
        check(_writer_query(room.octets_at, ROOM_SIZE, _MOST, number, flag, wire, len(wire), *codes, 0, room.writer_at))
        head: Any = room.octets[: room.writer.len]
        give_back(room)
        return cls._new(_head_of(head), _Made(0, False, b"\0" + head[12:], (question,), ((),) * 4, _opt_of(edns, 0)))

    def reply(
        self,
        answers: Iterable[Record] = (),
        authorities: Iterable[Record] = (),
        additionals: Iterable[Record] = (),
        *,
        required: Iterable[Record] = (),
        authoritative: bool = False,
        recursion_available: bool = False,
        authentic_data: bool = False,
        response_code: Optional[int] = None,
        edns: Optional[Edns] = None,
    ) -> "Message":
        """Makes a reply to this request. It repeats the id, the operation code, RD, CD and the question of the request
        (RFC 1035, section 4.1.1; RFC 4035, section 3.2.2). It has EDNS if the request has, and only then (RFC 6891, sections
        6.1.1 and 7): with the same DO (RFC 3225, section 3), version 0, and 1232 octets as the largest message that is accepted,
        or the size and the options of `edns`. `required` is as in `build`.

        The default response code is NOERROR. It is always BADVERS if the version of the request's EDNS is above 0 (RFC
        6891, section 6.1.3), and FORMERR if that is not valid (section 7; the reply then has no EDNS) or the request has more
        than one question (RFC 9619; the reply then has no question). A reply with one of these codes, or NOTIMP, is whole
        without a record: all but OPT, TSIG and SIG(0) are left out. Raises `BadItem` if the request is a response, or if it
        has no EDNS and the code is above 15.

        >>> Message.query("a.", RecordType.NS, id=7).reply(response_code=ResponseCode.NXDOMAIN)
        <Message 7 QR RD [1, 0, 0, 0]>
        """
        wanted = 0 if response_code is None else _checks.number("response_code", response_code, 4095)
        flags = bool(authoritative) << 10 | bool(recursion_available) << 7 | bool(authentic_data) << 5
        sections = _own_records((answers, authorities, required, additionals))
        request, said = self.wire, _SAID if edns is None else said_by(edns)
        room = take_room()
        check(_writer_reply(room.octets_at, ROOM_SIZE, _MOST, request, len(request), flags, wanted, room.writer_at, room.edns_at))
        head: Any = room.octets[: room.writer.len]
        asked = room.edns
        takes_records, code = asked.takes_records, asked.response_code
        opt = _opt(*said, code, 0, asked.dnssec_ok, asked.is_present)
        give_back(room)
        items = b"\0" + head[12:] if len(head) > 12 else b""
        made = Message._new(_head_of(head), _Made(code, True, items, None, sections, opt))
        return made if takes_records else Message.from_wire(made.wire)

    def is_reply_to(self, request: "Message") -> bool:
        """Returns whether this is a response with the id, the operation code and the question of a request, which is no
        response itself (RFC 5452, section 9.1). It may have no question if the request has none (RFC 7873, section 5.4), if
        it is to an UPDATE (RFC 2136, section 3.8), or if its code is FORMERR, SERVFAIL, NOTIMP or REFUSED.

        >>> request = Message.query("a.", RecordType.NS)
        >>> request.reply().is_reply_to(request), request.is_reply_to(request)
        (True, False)
        """
        own, asked, is_reply = self.wire, own_message("request", request).wire, c_bool()
        check(library.dnw_is_reply_to(asked, len(asked), own, len(own), byref(is_reply)))
        return is_reply.value

    def to_wire(self, max_size: int = 512, *, block: int = 0) -> bytes:
        """Returns the message with its names compressed, in at most `max_size` octets: 512 over UDP without EDNS,
        `max_payload` of the request with EDNS, and 65535 over TCP.

        Sets of records that do not fit are left out whole (RFC 2181, section 5), with the later ones of their section. TC
        is set if one is left out that the receiver needs (section 9): an answer; a record of the Authority section, but for
        NS of a zone that has the answer; or glue below a cut; and if a part of a set is there. The questions and the OPT
        record are never left out; nor is a TSIG or SIG(0), which comes last. Nothing is left out of a request, or of a
        transfer. A reply with FORMERR, NOTIMP or BADVERS is whole without other records, and has none.

        If `block` is not 0, a message with EDNS is padded to a multiple of so many octets, or of 512 if it is more (RFC 7830;
        RFC 8467); but not if there is no room for that, or if it was read with padding.

        Raises `BadData` or as `Record.fields` if the data of a record are not valid; as `edns` if `additionals` has an OPT
        record that is not valid, or a second one; `BadItem` if it has two signatures, or if the response code is above 15
        without EDNS; and `MessageTooLong` if what is never left out has more than `max_size` octets.

        >>> record = Record.from_text("a. 60 IN TXT " + " ".join(["abcdefgh"] * 100))
        >>> reply = Message.query("a.", RecordType.TXT, id=7).reply([record])
        >>> Message.from_wire(reply.to_wire()), Message.from_wire(reply.to_wire(65535))
        (<Message 7 QR TC RD [1, 0, 0, 0]>, <Message 7 QR RD [1, 1, 0, 0]>)
        """
        most, block, room = _checks.number("max_size", max_size, _MOST), _checks.number("block", block, _MOST), take_room()
        made, octets, place, has = self._made, room.octets, room.octets_at, ROOM_SIZE
        items = self.wire if made is None else _items_of(made)
        # An item takes no more octets in a message than in the list, but for padding.
        if (made is None or block or len(items) > ROOM_SIZE - dnw.HEADER_SIZE) and most > ROOM_SIZE:
            octets = room_of(most)
            place, has = addressof(octets), len(octets)
        if made is None:
            # The room is a limit too: what has none in it is left out.
            number = _message_pack(items, len(items), most, block, place, has, room.packed_at)
        else:
            head = *self._head, made.code, made.is_reply, block
            number = _message_write(items, len(items), most, *head, place, has, room.packed_at)
        check(number)
        wire: Any = octets[: room.packed.len]
        give_back(room)
        return wire  # type: ignore[no-any-return]

    def to_text(self) -> str:
        """Returns the lines that `dig` prints, as `str` does: the header, the EDNS fields and options, the questions, and the
        records of each section, which are lines of master files. If the message breaks a rule of EDNS, a line says which. The
        text has no character for control but line feeds, and tabs in the lines of questions. Raises as `wire`."""
        return str(self)

    def to_json(self) -> str:
        """Returns the message as a JSON object in one line (RFC 8427). Names and data are texts of master files, `RDATAHEX` has
        the octets of data, and `EDNS` what the message says by EDNS, or the rule that it breaks. Raises as `wire`.

        >>> import json
        >>> found = json.loads(Message.query("b.", RecordType.NS, id=7).to_json())
        >>> found["ID"], found["QNAME"], found["QTYPEname"]
        (7, 'b.', 'NS')
        """
        return self._printed(library.dnw_message_json)

    def _printed(self, print_part: Callable[..., int]) -> str:
        """Returns the text that a function of the library stores in parts."""
        octets, part, text, left = self.wire + self.trailing, dnw.PrintedPart(), b"", _USUAL_TEXT
        while left:
            room = room_of(left)
            check(print_part(octets, len(octets), self._max_pointers, len(text), room, len(room), byref(part)))
            text += taken(room, part.len)
            left = part.total - len(text)
        return text.decode()

    @property
    def header(self) -> Header:
        """The fields of the header."""
        made = object.__new__(Header)
        id, flags = self._head
        made.__dict__.update(_fields_of(flags), id=id)
        return made

    @property
    def questions(self) -> Tuple[Question, ...]:
        """The questions."""
        return self._sections()[0]

    @property
    def answers(self) -> Tuple[Record, ...]:
        """The records of the Answer section."""
        return self._sections()[1]

    @property
    def authorities(self) -> Tuple[Record, ...]:
        """The records of the Authority section."""
        return self._sections()[2]

    @property
    def additionals(self) -> Tuple[Record, ...]:
        """The records of the Additional section, with the OPT record."""
        return self._sections()[3]

    @property
    def wire(self) -> bytes:
        """The octets: of a message that was read as it was read, and of one that was made as `to_wire(65535)` returns
        them."""
        if self._wire is None:
            self._wire = self.to_wire(_MOST)
        return self._wire

    @property
    def trailing(self) -> bytes:
        """The octets after a message that was read."""
        return self._trailing

    def _sections(self) -> _Parts:
        if self._parts is None:
            made = self._made
            if made is None:
                self._parts = _parts_of(self._table)
            else:
                answers, authorities, required, others = made.records
                own = (Record._made(made.opt),) if made.opt else ()
                self._parts = _questions_of(made), answers, authorities, (*required, *others, *own)
        return self._parts

    @property
    def answer_sets(self) -> Tuple[RRset, ...]:
        """The sets of records of the Answer section, in the order of their first records."""
        return rrsets(self.answers)

    @property
    def authority_sets(self) -> Tuple[RRset, ...]:
        """As `answer_sets`, of the Authority section."""
        return rrsets(self.authorities)

    @property
    def additional_sets(self) -> Tuple[RRset, ...]:
        """As `answer_sets`, of the Additional section."""
        return rrsets(self.additionals)

    @property
    def id(self) -> int:
        """The id of a request, which its response repeats."""
        return self._head[0]

    @property
    def flags(self) -> Tuple[str, ...]:
        """The names of the flags that are set. See `Header.flags`."""
        return self.header.flags

    @property
    def edns(self) -> Optional[Edns]:
        """The EDNS fields of the message, or None if it has no OPT record.

        Raises `OutsideAdditionals` if an OPT record is in the Answer or Authority section, `DuplicateEdns` if there are
        two or more, `OwnerNotRoot` if the owner of the only one is not the root, and `CutOption` if its data end within
        an option.
        """
        read = self._read_edns()
        if not read.is_present:
            return None
        options = self.wire[read.options_offset : read.options_offset + read.options_len]
        return Edns(int(read.max_payload), int(read.version), bool(read.dnssec_ok), _pairs(options))

    @property
    def max_payload(self) -> int:
        """The size of the largest message that the sender accepts over UDP: 512 octets if there is no EDNS. Raises as
        `edns`."""
        return int(self._read_edns().max_payload)

    @property
    def response_code(self) -> ResponseCode:
        """The response code, with the high bits from the OPT record (RFC 6891, section 6.1.3). Raises as `edns`."""
        return ResponseCode.of(self._read_edns().response_code)

    def _read_edns(self) -> dnw.Edns:
        read = dnw.Edns()
        check(library.dnw_edns_read(self.wire, len(self.wire), self._max_pointers, byref(read)))
        return read

    def __eq__(self, other: object) -> bool:
        if not isinstance(other, Message):
            return NotImplemented
        return (self.wire, self.trailing) == (other.wire, other.trailing)

    def __hash__(self) -> int:
        return hash((self.wire, self.trailing))

    def __reduce__(self) -> Tuple[object, Tuple[bytes, int]]:
        return _read_again, (self.wire + self.trailing, self._max_pointers)

    def __str__(self) -> str:
        return self._printed(library.dnw_message_print)

    def __repr__(self) -> str:
        counts = [len(part) for part in (self.questions, self.answers, self.authorities, self.additionals)]
        return f"<Message {self.id} {' '.join(self.flags)} {counts}>"


def _own_records(sections: Iterable[Iterable[Record]]) -> Tuple[Tuple[Record, ...], ...]:
    """Returns the records of arguments, each of which has to be one."""
    found = tuple([tuple(records) for records in sections])
    for what, records in zip(_ARGUMENTS, found):
        for record in records:
            if type(record) is not Record:
                own_record(what, record)
    return found


def question_parts(what: str, question: object) -> Tuple[bytes, int, int]:
    """Returns the wire form of the name of an argument that has to be a question, its type and its class."""
    if not isinstance(question, Question):
        raise _checks.wrong_type(what, "a Question is", question)
    codes = question.question_type, question.question_class
    return whole_wire(what, question.name), _checks.number("question_type", codes[0], _MOST), _checks.number("question_class", codes[1], _MOST)


def _question_item(wire: bytes, question_type: int, question_class: int) -> Tuple[bytes, bytes, bytes]:
    return b"\0", wire, _CODES.pack(question_type, question_class)


def _items_of(made: _Made) -> bytes:
    """Returns the list of the items of a message."""
    parts = [made.asked]
    add = parts.append
    for octet, records in zip((ANSWER_ITEM, _AUTHORITY, _REQUIRED, _ADDITIONAL), made.records):
        for record in records:
            add(octet)
            add(record._message if record._is_whole else record.to_wire())
    return b"".join([*parts, _ADDITIONAL, made.opt]) if made.opt else b"".join(parts)


def _questions_of(made: _Made) -> Tuple[Question, ...]:
    """Returns the questions of a message that was made. A reply has one at most."""
    if made.questions is not None:
        return made.questions
    alone = _HEADER.pack(0, 0, 1 if made.asked else 0, 0, 0, 0) + made.asked[1:]
    return _parts_of(read_table(alone, dnw.MAX_POINTERS)[1])[0]


def _parts_of(table: Table) -> _Parts:
    """Returns the questions and records of a message by its table."""
    questions: List[Question] = []
    sections: Tuple[List[Record], ...] = ([], [], [])
    start = dnw.HEADER_SIZE
    for at, row in enumerate(table.rows):
        section = row[0]
        if section == 1:
            question = object.__new__(Question)
            codes = {"question_type": RecordType.of(row[2]), "question_class": RecordClass.of(row[3])}
            question.__dict__.update(codes, name=table.name(row))
            questions.append(question)
            start = row[5]
        elif section:
            sections[section - 2].append(record_at(table, at, start))
            start = row[5] + row[6]
    answers, authorities, additionals = sections
    return tuple(questions), tuple(answers), tuple(authorities), tuple(additionals)


def own_message(what: str, message: object) -> Message:
    """Returns an argument that has to be a message. One of a class that only says that it is `Message` is none."""
    if type(message) is not Message:
        raise _checks.wrong_type(what, "a Message is", message)
    return message


def _read_again(octets: bytes, max_pointers: int) -> Message:
    return Message.from_wire(octets, max_pointers=max_pointers)


def _pairs(octets: bytes) -> Tuple[Tuple[int, bytes], ...]:
    """Returns the options of EDNS, whose lengths the library checked."""
    found, at = [], 0
    while at < len(octets):
        code, length = _CODES.unpack_from(octets, at)
        found.append((code, octets[at + 4 : at + 4 + length]))
        at += 4 + length
    return tuple(found)


def make_query(
    name: NameLike,
    record_type: TypeLike,
    record_class: TypeLike = RecordClass.IN,
    *,
    dnssec_ok: bool = False,
    max_payload: Optional[int] = None,
    id: Optional[int] = None,
) -> Message:
    """As `Message.query`, for a name, or a text that the root completes. A `max_payload`, or `dnssec_ok`, which sets DO, adds
    EDNS.

    >>> print(make_query("www.example", "AAAA", max_payload=1232).questions[0])
    www.example. IN AAAA
    """
    own = Name.absolute(name) if isinstance(name, str) else name
    size = Edns.max_payload if max_payload is None else max_payload
    edns = None if max_payload is None and not dnssec_ok else Edns(size, dnssec_ok=dnssec_ok)
    return Message.query(own, record_type, record_class, id=id, edns=edns)


def make_response(query: Message, *, recursion_available: bool = False) -> Message:
    """The same as `query.reply()`, without records.

    >>> make_response(make_query("a.", "NS", id=7))
    <Message 7 QR RD [1, 0, 0, 0]>
    """
    return query.reply(recursion_available=recursion_available)


@lru_cache(maxsize=1024)
def _fields_of(flags: int) -> Dict[str, Any]:
    """Returns the fields in the second number of a header, as the library reads it."""
    octets, read, fault = _HEADER.pack(0, flags, 0, 0, 0, 0), dnw.Message(), dnw.MessageFault()
    check(library.dnw_message_read(octets, len(octets), 0, byref(read), byref(fault)))
    fields: Dict[str, Any] = {name: getattr(read, name) for name in Header._names}
    fields["op_code"], fields["response_code"] = OpCode.of(read.op_code), ResponseCode.of(read.response_code)
    return fields


# What a reply says by EDNS, if the caller says nothing else.
OF_REPLY = Edns()
_SAID = said_by(OF_REPLY)
