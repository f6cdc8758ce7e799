"""Record types and classes, and the codes of headers."""

from ctypes import byref, c_uint16
from typing import Any, Callable, ClassVar, Dict, Mapping, Type, TypeVar

from . import _checks
from . import _header as dnw
from ._code_names import OP_CODES, RECORD_TYPES, RESPONSE_CODES, OpCodes, RecordTypes, ResponseCodes
from ._errors import check, stored
from ._library import library

_MOST = 65535
_Own = TypeVar("_Own", bound="_Code")


def _text(function: Callable[..., int], code: int) -> str:
    return stored(function, _checks.number("code", code, _MOST)).decode("ascii")


def _code(function: Callable[..., int], text: str) -> int:
    octets, code = _checks.text("text", text), c_uint16()
    check(function(octets, len(octets), byref(code)))
    return code.value


def type_text(code: int) -> str:
    """Returns the name of a record type in IANA's registry, or `TYPE` and the code if it has none (RFC 3597, section 5).

    >>> type_text(28), type_text(256), type_text(65280)
    ('AAAA', 'URI', 'TYPE65280')
    """
    return _text(library.dnw_type_print, code)


def type_code(text: str) -> int:
    """Parses the text of a record type, in upper or lower case, and returns its code. Raises `UnknownText`.

    >>> type_code("AAAA"), type_code("type65280")
    (28, 65280)
    """
    return _code(library.dnw_type_parse, text)


def class_text(code: int) -> str:
    """Returns the name of a class, or `CLASS` and the code if it has none (RFC 3597, section 5).

    >>> class_text(1), class_text(7)
    ('IN', 'CLASS7')
    """
    return _text(library.dnw_class_print, code)


def class_code(text: str) -> int:
    """Parses the text of a class, in upper or lower case, and returns its code. Raises `UnknownText`.

    >>> class_code("CH"), class_code("class7")
    (3, 7)
    """
    return _code(library.dnw_class_parse, text)


class _Code(int):
    """A code, as an `int`. `str` returns its name."""

    _text_of: ClassVar[Callable[[int], str]]
    _code_of: ClassVar[Callable[[str], int]]
    _most: ClassVar[int] = _MOST
    _made: ClassVar[Dict[int, Any]]

    def __new__(cls: Type[_Own], code: int) -> _Own:
        return int.__new__(cls, _checks.number("code", code, cls._most))

    def __init_subclass__(cls) -> None:
        cls._made = {}

    @classmethod
    def of(cls: Type[_Own], code: int) -> _Own:
        """Returns the code with a number. Each is created once."""
        made: Any = cls._made.get(code)
        if made is None:
            made = cls._made[code] = cls(code)
        return made  # type: ignore[no-any-return]

    @classmethod
    def from_text(cls: Type[_Own], text: str) -> _Own:
        """Returns the code with a name, in upper or lower case. Raises `UnknownText`."""
        return cls(cls._code_of(text))

    def __str__(self) -> str:
        return type(self)._text_of(int(self))

    def __format__(self, spec: str) -> str:
        return format(str(self), spec)

    def __repr__(self) -> str:
        text, own = str(self), type(self).__name__
        return f"{own}.{text}" if hasattr(type(self), text) else f"{own}({int(self)})"


def code_of(kind: Type[_Own], what: str, value: object) -> _Own:
    """Returns an argument that has to be a code, as a number or by its name."""
    return kind.from_text(value) if isinstance(value, str) else kind.of(_checks.number(what, value, kind._most))


class RecordType(_Code, RecordTypes):
    """A record type: its code, as an `int`. There is a constant for each type that has a name.

    >>> RecordType.AAAA, RecordType.AAAA == 28, str(RecordType.AAAA)
    (RecordType.AAAA, True, 'AAAA')
    >>> RecordType(65280), str(RecordType(65280)), RecordType.from_text("type65280")
    (RecordType(65280), 'TYPE65280', RecordType(65280))
    """

    _text_of = staticmethod(type_text)
    _code_of = staticmethod(type_code)


class RecordClass(_Code):
    """A class: its code, as an `int`. There is a constant for each class that has a name.

    >>> RecordClass.IN, RecordClass.IN == 1, RecordClass(7), str(RecordClass(7))
    (RecordClass.IN, True, RecordClass(7), 'CLASS7')
    """

    _text_of = staticmethod(class_text)
    _code_of = staticmethod(class_code)

    IN: ClassVar["RecordClass"]
    CH: ClassVar["RecordClass"]
    HS: ClassVar["RecordClass"]
    NONE: ClassVar["RecordClass"]
    ANY: ClassVar["RecordClass"]


def _parsed(names: Mapping[int, str], most: int, text: str) -> int:
    """Returns the code with a name of its own, or with the name `RESERVED` and the number."""
    own = _checks.text("text", text).decode(errors="replace").upper()
    for code in range(most + 1):
        if own == names.get(code, f"RESERVED{code}"):
            return code
    check(dnw.UNKNOWN_TEXT)
    return 0


class OpCode(_Code, OpCodes):
    """The operation code of a message, four bits, as an `int`. There is a constant for each code that has a name (RFC
    1035, section 4.1.1; RFC 1996; RFC 2136).

    >>> OpCode.UPDATE, OpCode.UPDATE == 5, str(OpCode(7)), OpCode.from_text("notify")
    (OpCode.UPDATE, True, 'RESERVED7', OpCode.NOTIFY)
    """

    _text_of = staticmethod(lambda code: OP_CODES.get(code, f"RESERVED{code}"))
    _code_of = staticmethod(lambda text: _parsed(OP_CODES, 15, text))
    _most = 15


class ResponseCode(_Code, ResponseCodes):
    """The response code of a message, four bits, or twelve with EDNS, as an `int`. There is a constant for each code
    that has a name (RFC 1035, section 4.1.1; RFC 2136, section 2.2; RFC 6891, section 9; RFC 8945, section 3; RFC 2930,
    section 2.6; RFC 7873, section 8).

    >>> ResponseCode.NXDOMAIN, ResponseCode.NXDOMAIN == 3, str(ResponseCode(23)), ResponseCode.from_text("refused")
    (ResponseCode.NXDOMAIN, True, 'BADCOOKIE', ResponseCode.REFUSED)
    """

    _text_of = staticmethod(lambda code: RESPONSE_CODES.get(code, f"RESERVED{code}"))
    _code_of = staticmethod(lambda text: _parsed(RESPONSE_CODES, 4095, text))
    _most = 4095


def _set_constants(kind: Type[_Code], codes: Mapping[str, int]) -> None:
    for name, code in codes.items():
        setattr(kind, name, kind.of(code))


_set_constants(RecordType, RECORD_TYPES)
_set_constants(RecordClass, {"IN": 1, "CH": 3, "HS": 4, "NONE": 254, "ANY": 255})
_set_constants(OpCode, {name: code for code, name in OP_CODES.items()})
_set_constants(ResponseCode, {name: code for code, name in RESPONSE_CODES.items()})
