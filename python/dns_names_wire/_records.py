"""The records of messages."""

import struct
from ctypes import byref
from functools import partial, total_ordering
from typing import Any, Iterable, Iterator, List, NoReturn, Optional, Tuple, Union, final

from . import _checks
from . import _header as dnw
from ._checks import Bytes
from ._codes import RecordClass, RecordType, code_of
from ._data import Data, NameLike, TypeLike, Unknown, data_of, parsed, printed
from ._errors import DnsError, check, stored
from ._library import Form, library, taken
from ._names import Name, placed, whole_name
from ._table import ALONE_SIZE, FieldValue, Table, table_of

# What is between the owner and the data: the type, the class, the TTL and the data length.
_FIXED = struct.Struct("!HHIH")
_MOST = 65535
# The longest time to live (RFC 2181, section 8).
MOST_TTL = 2**31 - 1
# The names of ordinary data grow by no more octets when they are whole.
_USUAL_GROWTH = 256


@final
@total_ordering
class Record:
    """A record of a message, or one that was made (RFC 1035, section 4.1.3).

    It keeps its message, and makes its owner and its data when they are first used. `Record(owner, ttl, data)` makes one
    of class IN; the owner is a fully qualified name, or its text. `str` returns a line of a master file (RFC 1035, section
    5.1). Data without a text of their own are printed as `\\# 4 0A000001` (RFC 3597, section 5). Escapes are decimal.

    >>> from dns_names_wire import MX, Record
    >>> record = Record("a.", 60, MX(10, "b.a."))
    >>> print(record)
    a. 60 IN MX 10 b.a.
    >>> record.to_wire().hex()
    '016100000f00010000003c0007000a0162016100'
    """

    __slots__ = (
        "_message", "_start", "_type", "_class", "_ttl", "_data_offset", "_end", "_is_whole", "_table", "_at", "_owner", "_data"
    )  # fmt: skip

    _message: bytes
    _start: int
    _type: int
    _class: int
    _ttl: int
    _data_offset: int
    _end: int
    # Whether the octets are the record's own, in which no name is compressed.
    _is_whole: bool
    # What the library read of its message, or of its own octets, and the row of the record there.
    _table: Optional[Table]
    _at: int
    _owner: Optional[Name]
    _data: Optional[Data]

    def __init_subclass__(cls) -> NoReturn:
        raise TypeError("Record has no subclasses")

    def __init__(self, owner: NameLike, ttl: int, data: Data, record_class: TypeLike = RecordClass.IN) -> None:
        """Raises `ValueError` if the owner is relative, or the TTL is above 2147483647 (RFC 2181, section 8), and `DataTooLong`
        if the data have more than 65535 octets."""
        if not isinstance(data, Data):
            raise _checks.wrong_type("data", "a class of data is", data)
        name = whole_name("owner", owner)
        octets, code = _checks.octets("data", data.to_wire()), code_of(RecordType, "data", data.record_type)
        if len(octets) > _MOST:
            check(dnw.DATA_TOO_LONG)
        codes = code_of(RecordClass, "record_class", record_class), _checks.number("ttl", ttl, MOST_TTL)
        self._message, self._start = name.wire + _FIXED.pack(code, *codes, len(octets)) + octets, 0
        self._type, (self._class, self._ttl) = code, codes
        self._end = len(self._message)
        self._data_offset = self._end - len(octets)
        self._is_whole, self._table, self._at, self._owner = True, None, 0, name
        # In another class than IN the octets may have other fields, and octets of no class may have those of their type.
        self._data = data if codes[0] == 1 and not isinstance(data, Unknown) else None

    @classmethod
    def _made(cls, wire: bytes) -> "Record":
        """Returns the record with this wire form, in which no name is compressed."""
        table = table_of(wire)
        _, _, kind, its_class, ttl, data_offset, *_ = table.rows[0]
        return _record(wire, 0, (kind, its_class, ttl), data_offset - ALONE_SIZE, len(wire), True, table)

    @classmethod
    def from_text(cls, text: Union[str, bytes], origin: Optional[Name] = None) -> "Record":
        """Parses a line of a master file (RFC 1035, section 5.1): the owner, the TTL, the class, the type and the data.
        The class may be before the TTL, or be left out for IN. The origin is appended to names without a last dot, and
        `@` is the origin; without an origin such names are rejected. The text may have comments, and parentheses in
        which the end of a line is white space. A string may have any octets as they are, so the text may be octets too; a
        `str` is taken in UTF-8.

        Raises `BadText` if the first word is not a name, `BadTime` if there is no TTL, `UnknownText` if there is no
        type, and `BadData` if the rest is not data of the type; and `UnclosedList`, `UnclosedQuote`, `TextCut` or
        `IllegalCharacter` if parentheses, quotes or escapes are not closed, a parenthesis is not allowed, or a name in a
        `str` has a character that is not ASCII.

        >>> print(Record.from_text("www 1h IN CNAME @", origin=Name("example.")))
        www.example. 3600 IN CNAME example.
        """
        return cls._made(parsed(library.dnw_record_parse, library.dnw_record_text_fault, text, origin))

    def to_text(self) -> str:
        """Returns the line of a master file, as `str` does."""
        return str(self)

    @property
    def owner(self) -> Name:
        """The name that owns the record."""
        name = self._owner
        if name is None:
            table = self._read()
            name = self._owner = table.name(table.rows[self._at])
        return name

    def _read(self) -> Table:
        """Returns what the library read of the record, and keeps it."""
        table = self._table
        if table is None:
            table = self._table = table_of(self.to_wire())
        return table

    def _fields(self) -> Tuple[Tuple[int, ...], List[FieldValue]]:
        """Returns the kinds of the fields of the data, and their values."""
        return self._read().fields(self._at, ALONE_SIZE if self._is_whole else 0)

    @property
    def record_type(self) -> RecordType:
        """The type, by its code."""
        return RecordType.of(self._type)

    @property
    def record_class(self) -> RecordClass:
        """The class, by its code."""
        return RecordClass.of(self._class)

    @property
    def ttl(self) -> int:
        """The TTL, in seconds."""
        return self._ttl

    @property
    def data(self) -> Data:
        """The data, of the class for their type, as `MX`, or `Unknown`. Raises as `fields`.

        >>> read_record(bytes.fromhex("00 000f 0001 00000000 0005 000a 016100")).data
        MX(preference=10, exchange=Name('a.'))
        """
        data = self._data
        if data is None:
            data = self._data = data_of(self._type, *self._fields(), self.raw_data)
        return data

    @property
    def raw_data(self) -> bytes:
        """The octets of the data, in which names may be compressed."""
        return self._message[self._data_offset : self._end]

    @property
    def data_offset(self) -> int:
        """The offset of the data in the message."""
        return self._data_offset

    @property
    def end(self) -> int:
        """The offset after the record, where the next one begins."""
        return self._end

    def to_wire(self) -> bytes:
        """Returns the octets of the record, without compression."""
        if self._is_whole:
            return self._message
        data = self._whole_data()
        return self.owner.wire + _FIXED.pack(self._type, self._class, self._ttl, len(data)) + data

    def _whole_data(self) -> bytes:
        """Returns the octets of the data, without compression."""
        if self._is_whole:
            return self.raw_data
        size, failed = self._end - self._data_offset + _USUAL_GROWTH, partial(check, offset=self._data_offset)
        return stored(library.dnw_record_data, self._message, self._end, self._start, size=size, failed=failed)

    def data_name(self, skip: int = 0) -> Name:
        """Reads the data after the first `skip` octets as a name: after two for MX, after six for SRV.

        Raises as `read_name`, `WrongDataLength` if the name does not end where the data do, and `MessageCut` if the
        data have fewer octets than are skipped.
        """
        start = self._data_offset + _checks.number("skip", skip)
        if start > self._end:
            check(dnw.MESSAGE_CUT, self._end)
        given = self._message, len(self._message), start, self._end - start
        return Name._of(stored(library.dnw_record_data_name, *given, failed=partial(check, offset=start)), True)

    def fields(self) -> Tuple[FieldValue, ...]:
        """Returns the fields of the data, by the record's class and type: names, numbers, addresses, octets, tuples of texts,
        sets of types and pairs of keys and values. Data of an unknown type are one field of octets.

        Raises as `read_name` for a name, `MessageCut` if the data end within a field, `WrongDataLength` if octets are
        left after the last field, and `BadBitmap`, `BadParams` or `BadFamily`.

        >>> read_record(bytes.fromhex("00 000f 0001 00000000 0005 000a 016100")).fields()
        (10, Name('a.'))
        """
        return tuple(self._fields()[1])

    def signed_octets(self, records: Iterable["Record"]) -> bytes:
        """Returns the octets that the signature of this RRSIG covers (RFC 4034, section 3.1.8.1): the bytes to verify
        or to sign.

        These are its data up to the signature, and the covered records: those of `records` with its owner, its class
        and the type covered, as a set in canonical form and order (RFC 4034, section 6), each once, with the original
        TTL. If the owner has more labels than the RRSIG counts, it is replaced by the wildcard that made the records
        (RFC 4035, section 5.3.2). It covers none if its signer is neither the owner nor a name that the owner is below
        (RFC 4035, section 5.3.1).

        To verify a signature, pass a section of a message. To make one, pass the records to sign, and leave the
        signature of the RRSIG empty. The signature and its times are not checked.

        Raises `NotRrsig` if this record is of another type; `NotCovered` if it covers none of the records;
        `TooFewLabels` if its owner has fewer labels than it counts; `DataTooLong` if the data of a record have more
        than 65535 octets once their names are uncompressed; and as `fields` for its own data and those of the covered
        records.

        >>> rrsig = Record.from_text("a. 60 IN RRSIG A 13 1 3600 20010909014640 20010909014640 7 a. AA==")
        >>> rrsig.signed_octets([Record.from_text("A. 5 IN A 192.0.2.1")]).hex(" ", -4)
        '00010d01 00000e10 3b9aca00 3b9aca00 00070161 00016100 00010001 00000e10 0004c000 0201'
        """
        if self._type != RecordType.RRSIG:
            check(dnw.NOT_RRSIG)
        kind = self.fields()[0]
        # The library selects again. Other records are left out here, since their data may not be valid.
        given = [own_record("records", it) for it in records]
        found = [it for it in given if (it._type, it._class, it.owner) == (kind, self._class, self.owner)]
        own = self.to_wire()
        wire = own + b"".join(record.to_wire() for record in found)
        # A record is not longer in canonical form, and the signature is left out.
        return stored(library.dnw_signed_octets, wire, len(wire), len(own), 0, size=len(wire))

    def sort_key(self) -> bytes:
        """Returns the sort key of the record. Keys compare as records do in canonical order (RFC 4034, section 6): by
        owner, type, class and data. Raises as `fields` if the data are not the fields of their type.

        >>> Record.from_text("b.A. 60 IN A 192.0.2.1").sort_key().hex(" ", -4)
        '61006200 00000100 01c00002 01'
        """
        # The names of no data grow by more than two whole names.
        size = dnw.SORT_KEY_SIZE + 5 + self._end - self._data_offset + 2 * dnw.FORM_SIZE
        return stored(library.dnw_record_sort_key, self._message, self._end, self._start, size=size)

    def _order_key(self) -> bytes:
        """Returns what records compare and hash by: the sort key, or, if the data are not the fields of their type, the
        same with the octets of the data as they are."""
        try:
            return self.sort_key()
        except DnsError:
            codes = self._type.to_bytes(2, "big") + self._class.to_bytes(2, "big")
            return self.owner.sort_key() + b"\0" + codes + self.raw_data

    def __eq__(self, other: object) -> bool:
        """Returns whether the owners, types, classes and data are equal (RFC 2136, section 1.1.1). The TTL makes no
        difference, and neither do compression and the case of the owner and of the names that canonical form lowers.

        >>> Record.from_text("b.a. 60 IN MX 1 c.a.") == Record.from_text("B.A. 5 IN MX 1 C.A.")
        True
        """
        if not isinstance(other, Record):
            return NotImplemented
        return (self._type, self._class) == (other._type, other._class) and self._order_key() == other._order_key()

    def __hash__(self) -> int:
        return hash(self._order_key())

    def __lt__(self, other: object) -> bool:
        """Compares in canonical order (RFC 4034, section 6): by owner, type, class and data."""
        if not isinstance(other, Record):
            return NotImplemented
        return self._order_key() < other._order_key()

    def __str__(self) -> str:
        return printed(self._message, self._start)

    def __repr__(self) -> str:
        return f"<Record {self.owner} {self.ttl} {self.record_class} {self.record_type} {self.raw_data.hex()}>"


def own_record(what: str, record: object) -> Record:
    """Returns an argument that has to be a record. One of a class that only says that it is `Record` is none."""
    if type(record) is not Record:
        raise _checks.wrong_type(what, "a Record is", record)
    return record


_new: Any = object.__new__


def _record(
    message: bytes, start: int, fixed: Tuple[int, int, int], data_offset: int, end: int, is_whole: bool, table: Optional[Table] = None,
    at: int = 0, owner: Optional[Name] = None,
) -> Record:  # fmt: skip
    """Returns the record at an offset of a message, whose type, class and TTL are `fixed`."""
    record: Record = _new(Record)
    record._message, record._start, record._is_whole, record._table, record._at = message, start, is_whole, table, at
    record._type, record._class, record._ttl = fixed
    record._data_offset, record._end, record._owner, record._data = data_offset, end, owner, None
    return record


def record_at(table: Table, at: int, start: int) -> Record:
    """Returns the record at a row of the table of a message, which begins at an offset."""
    # It is called for each record of a message, so it calls no function.
    record: Record = _new(Record)
    record._message, record._start, record._is_whole, record._table, record._at = table.message, start, False, table, at
    _, _, record._type, record._class, record._ttl, data_offset, length, _, _ = table.rows[at]
    record._data_offset, record._end, record._owner, record._data = data_offset, data_offset + length, None, None
    return record


def record_of(wire: bytes, owner: Name, record_type: int, record_class: int, ttl: int, data_offset: int) -> Record:
    """Returns the record with this wire form, in which no name is compressed, of which these are the parts."""
    return _record(wire, 0, (record_type, record_class, ttl), data_offset, len(wire), True, owner=owner)


def read_record(message: Bytes, start: int = 0) -> Record:
    """Reads the record at an offset of a message.

    Raises as `read_name` for the owner, `MessageCut` if the message ends before the record does, and `ValueError` if
    `start` is negative. A message that is not `bytes` is copied.

    >>> record = read_record(bytes.fromhex("016200 0002 0001 0000003c 0004 0161c000"))
    >>> record
    <Record b. 60 IN NS 0161c000>
    >>> record.data_name(), record.end
    (Name('a.b.'), 17)
    """
    whole, offset = placed(message, start)
    form, read = Form(), dnw.Record()
    check(library.dnw_record_read(whole, len(whole), offset, form, len(form), byref(read)), start)
    fixed, owner = (read.record_type, read.record_class, read.ttl), Name._of(taken(form, read.owner_len), True)
    return _record(whole, offset, fixed, read.data_offset, read.end, False, owner=owner)


def records(message: Bytes, start: int) -> Iterator[Record]:
    """Returns an iterator over the consecutive records in a message, from an offset to the end. Raises as
    `read_record`.

    >>> [record.raw_data.hex() for record in records(bytes.fromhex("00 0001 0001 00000000 0004 c0000201"), 0)]
    ['c0000201']
    """
    whole = _checks.octets("message", message)
    while start != len(whole):
        record = read_record(whole, start)
        yield record
        start = record.end
