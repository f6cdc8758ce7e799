"""The data of records: what their classes have in common."""

from ctypes import byref
from functools import partial
from ipaddress import IPv4Address, IPv6Address
from typing import TYPE_CHECKING, Any, Callable, ClassVar, Dict, Iterable, List, Optional, Tuple, Type, TypeVar, Union

from . import _checks
from . import _header as dnw
from ._checks import Bytes
from ._codes import RecordType, code_of
from ._errors import check, check_fault, check_utf8, stored
from ._library import library
from ._names import Name, check_ascii, whole_name, whole_wire, wire_of
from ._table import ALONE_SIZE, FieldValue, Prefix, table_of
from ._types import TypeSet
from ._values import Value, dataclass

_Own = TypeVar("_Own", bound="Data")
_MOST = 65535

# What a constructor takes for a name, an address, a type, a set of types and texts: the value, or its text, or numbers.
NameLike = Union[Name, str]
IPv4Like = Union[IPv4Address, str]
IPv6Like = Union[IPv6Address, str]
TypeLike = Union[int, str]
TypesLike = Iterable[TypeLike]
StringLike = Union[str, Bytes]
StringsLike = Union[StringLike, Iterable[StringLike]]


def parsed(
    parse: Callable[..., int],
    find: Callable[..., int],
    text: Union[str, bytes],
    origin: Optional[Name],
    record_of: Callable[[bytes], bytes] = bytes,
) -> bytes:
    """Returns the octets that a function of the library stores for a text and an origin. The other finds where the text is wrong.
    `record_of` returns the record that these octets are, or are the data of. Raises `IllegalCharacter` if the text is a `str`, and a
    name in it has a character that is not ASCII."""
    if isinstance(text, bytes):
        return _parsed(parse, find, _checks.octets("text", text), origin)
    encoded = _checks.text("text", text)
    check_utf8(encoded)
    octets = _parsed(parse, find, encoded, origin)
    if not encoded.isascii():
        # Other letters make other names, and other strings, which may have any octets.
        other = _parsed(parse, find, encoded.translate(_OTHER_LETTERS), origin)
        if table_of(record_of(octets)).names != table_of(record_of(other)).names:
            check_ascii(encoded)
    return octets


_OTHER_LETTERS = bytes(octet if octet < 128 else ord("x") for octet in range(256))


def _parsed(parse: Callable[..., int], find: Callable[..., int], text: bytes, origin: Optional[Name]) -> bytes:
    wire = b"" if origin is None else whole_wire("origin", origin)
    given = text, len(text), wire, len(wire)
    return stored(parse, *given, failed=lambda number: check_fault(number, text, lambda fault: find(*given, byref(fault))))


def printed(message: bytes, start: int) -> str:
    """Returns the line of the record at an offset of a message."""
    failed = partial(check, offset=start)
    return stored(library.dnw_record_print, message, len(message), start, result=dnw.PrintedRecord(), failed=failed).decode("ascii")


def data_from_wire(record_type: "TypeLike", octets: Bytes) -> "Data":
    """Reads data of a type in class IN from octets, in which no name is compressed. Returns the class of the type, or `Unknown`.
    Raises as `Record.fields`.

    >>> data_from_wire("MX", bytes.fromhex("000a016100"))
    MX(preference=10, exchange=Name('a.'))
    """
    code, whole = code_of(RecordType, "record_type", record_type), _checks.octets("octets", octets)
    return data_of(code, *table_of(_root_record(code, whole)).fields(0, ALONE_SIZE + _ROOT_SIZE), whole)


def _root_record(record_type: int, octets: bytes) -> bytes:
    """Returns the octets of a record of the root, of class IN, with these data. Raises `DataTooLong` if they are too long."""
    if len(octets) > _MOST:
        check(dnw.DATA_TOO_LONG)
    return b"\0" + record_type.to_bytes(2, "big") + b"\0\1\0\0\0\0" + len(octets).to_bytes(2, "big") + octets


# The octets of that record before its data.
_ROOT_SIZE = 11


def data_of(record_type: int, kinds: Tuple[int, ...], values: List[FieldValue], octets: bytes) -> "Data":
    """Returns the data of a type that have these octets, and fields of these kinds with these values."""
    try:
        kind = _CLASSES_OF[record_type, kinds]
    except KeyError:
        kind = _class_of(record_type, kinds)
    if kind is None:
        return Unknown(record_type, octets)
    # There is a value for each field of the class, of its type, so __init__ need not be called.
    made = object.__new__(kind)
    made.__dict__.update(zip(kind._names, values))
    return made


def data_from_text(record_type: "TypeLike", text: Union[str, bytes], origin: Optional[Name] = None) -> "Data":
    """Parses data of a type in class IN from their text in master files, which may have comments and parentheses. The origin is
    appended to names without a last dot.
    A string may have any octets as they are, so the text may be octets too; a `str` is taken in UTF-8.

    Raises `BadData` if the text is not data of the type, and `IllegalCharacter` if a name in a `str` has a character that is not
    ASCII.

    >>> data_from_text("MX", "10 mail", Name("example."))
    MX(preference=10, exchange=Name('mail.example.'))
    """
    code = code_of(RecordType, "record_type", record_type)
    parse, find = (partial(function, code, 1) for function in (library.dnw_data_parse, library.dnw_data_text_fault))
    octets = parsed(parse, find, text, origin, lambda octets: _root_record(code, octets))
    return data_from_wire(code, octets)


class Data(Value):
    """The data of a record. There is a subclass for each type, with the fields and the methods of a frozen dataclass.

    A name may be given by its text, fully qualified, and an address or a character string by its text. Each class raises
    `TypeError` or `ValueError` if a field is of a wrong type or out of bounds, or a name is relative, and `DataTooLong` if
    octets are more than a field may have. `str` returns the text in master files.

    >>> from dns_names_wire import MX, TXT
    >>> MX(10, "mail.example."), MX(10, "mail.example.").to_wire().hex()
    (MX(preference=10, exchange=Name('mail.example.')), '000a046d61696c076578616d706c6500')
    >>> print(MX(10, "mail.example."), TXT("v=spf1 -all"))
    10 mail.example. "v=spf1 -all"
    """

    # The code of the type, if the class has one, and the letters of the fields.
    _code: ClassVar[Optional[int]] = None
    _kinds: ClassVar[str] = ""

    if not TYPE_CHECKING:

        def __init__(self, *values, **named):
            own = self.__dict__
            for name, kind, value in zip(self._names, self._kinds, self._given(values, named)):
                own[name] = _KINDS[kind][1](name, value)

    @property
    def record_type(self) -> RecordType:
        """The type of the data."""
        return RecordType.of(self._own_code())

    def to_wire(self) -> bytes:
        """Returns the octets, without compression."""
        own = self.__dict__
        return b"".join([_KINDS[kind][2](own[name]) for name, kind in zip(self._names, self._kinds)])

    def to_text(self) -> str:
        """Returns the text in master files: in the form of the type, or in that of any data, `\\# 4 0A000001` (RFC
        3597, section 5). Raises `DataTooLong` if there are more than 65535 octets.

        >>> from dns_names_wire import MX
        >>> MX(10, "a.").to_text()
        '10 a.'
        """
        octets = _checks.octets("data", self.to_wire())
        return printed(_root_record(self.record_type, octets), 0).split(" ", 4)[4]

    def __str__(self) -> str:
        return self.to_text()

    @classmethod
    def from_wire(cls: Type[_Own], octets: Bytes) -> _Own:
        """Reads the data from octets, in which no name is compressed. Raises as `Record.fields`."""
        return cls._own(data_from_wire(cls._own_code(), octets))

    @classmethod
    def from_text(cls: Type[_Own], text: Union[str, bytes], origin: Optional[Name] = None) -> _Own:
        """Parses the data from their text in master files. The origin is appended to names without a last dot. Raises
        `BadData`.

        >>> from dns_names_wire import MX, Name
        >>> MX.from_text("10 a", origin=Name("b."))
        MX(preference=10, exchange=Name('a.b.'))
        """
        return cls._own(data_from_text(cls._own_code(), text, origin))

    @classmethod
    def _own_code(cls) -> int:
        if cls._code is None:
            raise TypeError(f"{cls.__name__} is of no type; data_from_wire and data_from_text take one")
        return cls._code

    @classmethod
    def _own(cls: Type[_Own], data: "Data") -> _Own:
        if not isinstance(data, cls):
            raise _checks.wrong_type("data", f"{cls.__name__} is", data)
        return data


@dataclass(frozen=True)
class Unknown(Data):
    """Data of a type that has no class of its own, or that are not those of its class."""

    of_type: RecordType
    octets: bytes
    _kinds = "to"

    if TYPE_CHECKING:
        def __init__(self, of_type: TypeLike, octets: Bytes) -> None: ...

    @property
    def record_type(self) -> RecordType:
        """The type of the data."""
        return self.of_type

    def to_wire(self) -> bytes:
        """Returns the octets."""
        return self.octets


def _take_number(octets: int) -> Callable[[str, Any], int]:
    return lambda name, value: _checks.number(name, value, 256**octets - 1)


def _put_number(octets: int) -> Callable[[int], bytes]:
    return lambda value: int.to_bytes(value, octets, "big")


def _take_octets(most: int) -> Callable[[str, Any], bytes]:
    def take(name: str, value: Any) -> bytes:
        octets = _checks.octets(name, value)
        if len(octets) > most:
            check(dnw.DATA_TOO_LONG)
        return octets

    return take


# The last field of data may have more octets than data have: a record has no room for them.
_take_any, _take_counted = _take_octets(1 << 62), _take_octets(255)


def _take_text(name: str, value: Any) -> bytes:
    """Takes octets, or a text by its UTF-8."""
    if not isinstance(value, str):
        return _take_any(name, value)
    octets = _checks.text(name, value)
    check_utf8(octets)
    return octets


def _take_string(name: str, value: Any) -> bytes:
    return _take_counted(name, _take_text(name, value))


def _take_strings(name: str, value: Any) -> Tuple[bytes, ...]:
    """Takes one string, or an iterable of strings."""
    is_one = isinstance(value, (str, bytes, bytearray, memoryview))
    return tuple([_take_string(name, one) for one in ([value] if is_one else value)])


def _take_prefix(name: str, prefix: Prefix) -> Prefix:
    family, length, is_negated, value = prefix
    octets = _take_any(name, value)
    _checks.number(name, len(octets), 127)
    return _checks.number(name, family, _MOST), _checks.number(name, length, 255), bool(is_negated), octets


def take_pairs(name: str, pairs: Any) -> Tuple[Tuple[int, bytes], ...]:
    """Takes service parameters or options: pairs of a key and its octets."""
    found = tuple((_checks.number(name, key, _MOST), _take_any(name, value)) for key, value in pairs)
    for _, value in found:
        _checks.number(name, len(value), _MOST)
    return found


def _put_string(value: bytes) -> bytes:
    return bytes([len(value)]) + value


def _put_prefix(prefix: Prefix) -> bytes:
    family, length, is_negated, octets = prefix
    return family.to_bytes(2, "big") + bytes([length, len(octets) | (128 if is_negated else 0)]) + octets


def put_pairs(pairs: Iterable[Tuple[int, bytes]]) -> bytes:
    """Returns the octets of service parameters or options, each a key and its octets."""
    return b"".join([part for key, value in pairs for part in (key.to_bytes(2, "big"), len(value).to_bytes(2, "big"), value)])


def _each(one: Callable[..., Any], join: Callable[[List[Any]], Any]) -> Callable[..., Any]:
    """Returns a function that joins what another one makes of each item of its last argument."""
    return lambda *given: join([one(*given[:-1], item) for item in given[-1]])


def _address(kind: Callable[[Any], Any]) -> Callable[[str, Any], Any]:
    return lambda name, value: value if type(value) is kind else kind(value)


_Kind = Tuple[Any, Callable[[str, Any], Any], Callable[[Any], Any], Tuple[int, ...]]
# What a field is, by the letter of its kind, which tools/type_tables/bound.py gives it: its type; functions that check what a
# constructor is given for it, and that return its octets; and its kinds in dns_names_wire.h.
_KINDS: Dict[str, _Kind] = {
    **{str(octets): (int, _take_number(octets), _put_number(octets), (2,)) for octets in (1, 2, 4, 6, 8)},
    "T": (int, _take_number(4), _put_number(4), (6,)),
    "t": (RecordType, partial(code_of, RecordType), _put_number(2), (5,)),
    "n": (Name, whole_name, lambda value: wire_of("name", value)[0], (1,)),
    "i": (IPv4Address, _address(IPv4Address), lambda value: value.packed, (3,)),
    "I": (IPv6Address, _address(IPv6Address), lambda value: value.packed, (4,)),
    "s": (bytes, _take_string, _put_string, (7,)),
    "x": (bytes, _take_text, bytes, (7,)),
    "c": (bytes, _take_counted, _put_string, (8,)),
    "l": (bytes, _take_octets(_MOST), lambda value: len(value).to_bytes(2, "big") + value, (8,)),
    "o": (bytes, _take_any, bytes, (8,)),
    "g": (bytes, _take_any, bytes, (12, 13, 14, 15, 18)),
    "S": (Tuple[bytes, ...], _take_strings, _each(_put_string, b"".join), (9,)),
    "B": (TypeSet, lambda name, value: value if type(value) is TypeSet else TypeSet(value), TypeSet.to_bitmap, (10,)),
    "P": (Tuple[Tuple[int, bytes], ...], take_pairs, put_pairs, (11,)),
    "p": (Tuple[Prefix, ...], _each(_take_prefix, tuple), _each(_put_prefix, b"".join), (16,)),
    "N": (Tuple[Name, ...], _each(whole_name, tuple), _each(lambda name: wire_of("name", name)[0], b"".join), (17,)),
}


def class_of(name: str, code: int, fields: str, about: str) -> Type[Data]:
    """Makes the class of the data of a type, which has these fields, each with the letter of its kind."""
    if name in ("DNSKEY", "CDNSKEY"):
        from ._dnssec import Key as base
    else:
        base = Data  # type: ignore[misc, assignment]
    own = dict(field.split(":") for field in fields.split())
    types = {field: _KINDS[letter][0] for field, letter in own.items()}
    made: Dict[str, Any] = {"_code": code, "_kinds": "".join(own.values()), "__annotations__": types, "__doc__": about}
    return type(name, (base,), {**made, "__module__": f"{__package__}._rdata"})


# The class of data of a type with fields of these kinds, if it is known already, or None if they are those of no class.
_CLASSES_OF: Dict[Tuple[int, Tuple[int, ...]], Optional[Type[Data]]] = {}


def _class_of(record_type: int, kinds: Tuple[int, ...]) -> Optional[Type[Data]]:
    """Returns the class of data of a type with fields of these kinds, if they are those of the class. In another class than
    IN a type may have other fields, or none."""
    from . import _rdata

    kind: Any = getattr(_rdata, _rdata.NAMES.get(record_type, "Unknown"), Unknown)
    letters = kind._kinds
    fits = kind is not Unknown and len(letters) == len(kinds) and all(own in _KINDS[letter][3] for letter, own in zip(letters, kinds))
    found = _CLASSES_OF[record_type, kinds] = kind if fits else None
    return found
