"""EDNS options."""

from ctypes import byref, c_uint8
from typing import Any, Callable, ClassVar, Dict, Iterable, NamedTuple, Optional, Tuple, Type, Union

from . import _checks
from . import _header as dnw
from ._data import take_pairs
from ._errors import check, stored
from ._library import library
from ._names import Name, whole_name, wire_of
from ._values import Value, dataclass


class EdnsOption(NamedTuple):
    """An EDNS option (RFC 6891, section 6.1.2): a tuple of its code and its octets.

    `data` is what it says, as a value of a class for its code. `str` returns it as `dig` shows it. An option that `dig` does
    not know, or that breaks a rule of its format, is its code, its octets in hexadecimal and these as characters. No control
    character is in it.

    >>> print(EdnsOption(8, bytes.fromhex("0001 18 00 c00002")))
    CLIENT-SUBNET: 192.0.2.0/24/0
    >>> print(EdnsOption(15, b"\\x00\\x0fwhy"))
    EDE: 15 (Blocked): (why)
    >>> EdnsOption(15, b"\\x00\\x0fwhy").data
    ExtendedError(info_code=15, text='why')
    >>> print(EdnsOption(65001, b"a\\n"))
    OPT=65001: 61 0a ("a.")
    """

    code: int
    octets: bytes

    def _own(self) -> Tuple[int, bytes, int]:
        octets = _checks.octets("octets", self.octets)
        return _checks.number("code", self.code, 65535), octets, len(octets)

    @property
    def data(self) -> "OptionData":
        """What the option says. An option of which nothing is known here is an `UnknownOption`.

        Raises `BadData` if no option with its code has so many octets, or these are not the wire form of a name; `BadFamily`
        if a prefix is longer than an address of its family, or an address has a bit after its prefix that is not zero (RFC
        7871, section 6); or `NotUtf8` if a text is not UTF-8 (RFC 8914, section 2)."""
        code, octets, length = self._own()
        parts = dnw.Option()
        check(library.dnw_option_read(code, octets, length, byref(parts)))
        own = octets[parts.offset : parts.offset + parts.len]
        kind = _KINDS.get(code)
        return UnknownOption(code, own) if kind is None else kind._of(parts, own)

    def __str__(self) -> str:
        return stored(library.dnw_option_print, *self._own()).decode()


# How the last field of an option is written as octets, by its name and its value, and how it is read.
_Rest = Tuple[str, Callable[[str, Any], bytes], Callable[[bytes], Any]]


class OptionData(Value):
    """What an EDNS option says. There is a class for each code of which something is known here, and `UnknownOption`. `str` returns
    it as that of the option.

    >>> ClientSubnet(1, 24, 0, bytes([192, 0, 2])).option()
    EdnsOption(code=8, octets=b'\\x00\\x01\\x18\\x00\\xc0\\x00\\x02')
    >>> Cookie(b"12345678").option().data
    Cookie(client=b'12345678', server=b'')
    """

    code: ClassVar[int]
    # The greatest number of each field that is a member of `struct dnw_option`, and the field that is the octets after these. If the
    # first field may be None, the option is empty then.
    _numbers: ClassVar[Dict[str, int]] = {}
    _rest: ClassVar[Optional[_Rest]] = None

    def option(self) -> EdnsOption:
        """Returns the option that says it. Raises as `EdnsOption.data` does if it breaks a rule of the option."""
        (parts, own), code = self._parts(), _checks.number("code", self.code, 65535)
        own = _checks.octets("octets", own)
        return EdnsOption(code, stored(library.dnw_option_write, code, byref(parts), own, len(own)))

    def __str__(self) -> str:
        return str(self.option())

    @classmethod
    def _of(cls, parts: dnw.Option, own: bytes) -> "OptionData":
        """Returns what these parts and the octets after them say."""
        if cls._may_be_empty() and not parts.is_given:
            return cls()
        values = [getattr(parts, name) for name in cls._numbers]
        return cls(*values, *(() if cls._rest is None else [cls._rest[2](own)]))

    @classmethod
    def _may_be_empty(cls) -> bool:
        return getattr(cls, cls._names[0], 0) is None

    def _parts(self) -> Tuple[dnw.Option, bytes]:
        """Returns the parts, and the octets after them."""
        own: Dict[str, Any] = self.__dict__
        if own[self._names[0]] is None and self._may_be_empty():
            return dnw.Option(), b""
        parts = dnw.Option(is_given=True, **{name: _checks.number(name, own[name], most) for name, most in self._numbers.items()})
        return parts, b"" if self._rest is None else self._rest[1](self._rest[0], own[self._rest[0]])


def _wire(what: str, name: object) -> bytes:
    """Returns the wire form of an argument that has to be a fully qualified name, or its text."""
    return wire_of(what, whole_name(what, name))[0]


@dataclass(frozen=True)
class _Octets(OptionData):
    _rest = "octets", _checks.octets, bytes
    octets: bytes = b""


class Nsid(_Octets):
    """The identifier of a server, any octets; empty in a query (RFC 5001, section 2.3)."""

    code = 3


class Padding(_Octets):
    """Padding: any octets (RFC 7830, section 3)."""

    code = 12


@dataclass(frozen=True)
class ClientSubnet(OptionData):
    """The network of a client (RFC 7871, section 6): the family of its address, 1 for IPv4 and 2 for IPv6; how many bits of it are
    given; how many of them the response is for, 0 in a query; and the octets of these bits."""

    code = 8
    _numbers = {"family": 65535, "source": 255, "scope": 255}
    _rest = "address", _checks.octets, bytes
    family: int
    source: int
    scope: int
    address: bytes


@dataclass(frozen=True)
class Expire(OptionData):
    """The time after which a zone expires, in seconds; None in a query (RFC 7314, section 2)."""

    code = 9
    _numbers = {"seconds": 4294967295}
    seconds: Optional[int] = None


@dataclass(frozen=True)
class Cookie(OptionData):
    """The cookie of a client, of 8 octets, and that of a server, of 8 to 32, or none if the client has none yet (RFC 7873,
    section 4)."""

    code = 10
    client: bytes
    server: bytes = b""

    @classmethod
    def _of(cls, parts: dnw.Option, own: bytes) -> OptionData:
        return cls(bytes(parts.client), own)

    def _parts(self) -> Tuple[dnw.Option, bytes]:
        client, parts = _checks.octets("client", self.client), dnw.Option()
        if len(client) != len(parts.client):
            raise ValueError(f"client: {len(client)} octets are not {len(parts.client)}")
        return dnw.Option(client=(c_uint8 * len(client))(*client)), _checks.octets("server", self.server)


@dataclass(frozen=True)
class TcpKeepalive(OptionData):
    """How long a connection is kept, in tenths of a second; None in a query (RFC 7828, section 3.1)."""

    code = 11
    _numbers = {"timeout": 65535}
    timeout: Optional[int] = None


@dataclass(frozen=True)
class Chain(OptionData):
    """The closest trust point, or None to ask whether the server knows this option (RFC 7901, sections 4 and 5.1)."""

    code = 13
    _rest = "name", _wire, Name.from_wire
    name: Optional[Union[Name, str]] = None


@dataclass(frozen=True)
class ExtendedError(OptionData):
    """An extended DNS error: its code, by IANA's registry "Extended DNS Error Codes", and more about it, which may be empty (RFC
    8914, section 2)."""

    code = 15
    _numbers = {"info_code": 65535}
    _rest = "text", _checks.text, bytes.decode
    info_code: int
    text: str = ""


@dataclass(frozen=True)
class ReportChannel(OptionData):
    """The domain of an agent that errors are reported to (RFC 9567, section 5)."""

    code = 18
    _rest = "name", _wire, Name.from_wire
    name: Union[Name, str]


@dataclass(frozen=True)
class ZoneVersion(OptionData):
    """The version of a zone (RFC 9660, section 2): how many labels of the name in the question are the zone's, what the version is,
    0 for the serial number, and its octets. In a query `labels` is None, and there are no others."""

    code = 19
    _numbers = {"labels": 255, "version_type": 255}
    _rest = "version", _checks.octets, bytes
    labels: Optional[int] = None
    version_type: int = 0
    version: bytes = b""


@dataclass(frozen=True)
class UnknownOption(OptionData):
    """An option of which nothing is known here: its code and its octets."""

    code: int  # type: ignore[misc]
    octets: bytes

    def option(self) -> EdnsOption:
        """Returns the option. Raises as `EdnsOption.data` does if its code is one that is known, and it breaks a rule."""
        option = EdnsOption(*EdnsOption(self.code, self.octets)._own()[:2])
        option.data
        return option


# What is taken for an option: what it says, or its code and its octets.
OptionLike = Union[OptionData, Tuple[int, _checks.Bytes]]


def options_of(what: str, options: Iterable[OptionLike]) -> Tuple[EdnsOption, ...]:
    """Returns options that are given so. Raises `ValueError` if one has more than 65535 octets."""
    pairs = [one.option() if isinstance(one, OptionData) else one for one in options]
    return tuple([EdnsOption(*pair) for pair in take_pairs(what, pairs)])


# The classes of options, by their codes.
_ALL: Tuple[Type[OptionData], ...] = (
    Nsid, ClientSubnet, Expire, Cookie, TcpKeepalive, Padding, Chain, ExtendedError, ReportChannel, ZoneVersion,
)  # fmt: skip
_KINDS: Dict[int, Type[OptionData]] = {kind.code: kind for kind in _ALL}
