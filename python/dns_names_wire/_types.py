"""Sets of record types, and serial numbers."""

from array import array
from ctypes import byref, c_int32, c_size_t
from typing import AbstractSet, FrozenSet, Iterable, Iterator, NoReturn, Union, final

from . import _checks
from ._checks import Bytes
from ._codes import RecordType, code_of
from ._errors import check, stored
from ._library import library, room_of, taken

_CODE_SIZE = 2
# The octets of the longest bitmap, which are the most that data have.
_MOST_SIZE = 65535


@final
class TypeSet(AbstractSet[int]):
    """A set of record types by their codes, as in the bitmap of an NSEC or NSEC3 record (RFC 4034, section 4.1.2).

    It is immutable, and equal to other sets of the same codes. It is iterated in ascending order.

    >>> types = TypeSet.from_bitmap(bytes.fromhex("0006400100000003"))
    >>> [str(kind) for kind in types], RecordType.MX in types, 15 in types
    (['A', 'MX', 'RRSIG', 'NSEC'], True, True)
    >>> TypeSet([47, 1, "MX", "RRSIG"]).to_bitmap().hex()
    '0006400100000003'
    """

    __slots__ = ("_codes",)

    _codes: FrozenSet[int]

    def __init_subclass__(cls) -> NoReturn:
        raise TypeError("TypeSet has no subclasses")

    def __init__(self, codes: Iterable[Union[int, str]] = ()) -> None:
        """Creates the set of these types, each its code, from 0 to 65535, or its name."""
        self._codes = frozenset(int(code_of(RecordType, "codes", code)) for code in codes)

    @classmethod
    def from_bitmap(cls, bitmap: Bytes) -> "TypeSet":
        """Reads a bitmap. The last window may be cut anywhere.

        Raises `BadBitmap` if an octet follows a window of length 0, if a bit is set after the 32nd octet of a window,
        or if the bitmap has more than 65535 octets.
        """
        octets = _checks.octets("bitmap", bitmap)
        # A longer bitmap is refused before its room is used.
        size = 8 * min(len(octets), _MOST_SIZE)
        room, count = room_of(_CODE_SIZE * size), c_size_t()
        check(library.dnw_types_read(octets, len(octets), room, size, byref(count)))
        made = cls.__new__(cls)
        made._codes = frozenset(array("H", taken(room, _CODE_SIZE * count.value)))
        return made

    def to_bitmap(self) -> bytes:
        """Returns the bitmap: windows in ascending order, none longer than needed."""
        return stored(library.dnw_types_write, array("H", self._codes).tobytes(), len(self._codes))

    def __contains__(self, code: object) -> bool:
        return code in self._codes

    def __iter__(self) -> Iterator[RecordType]:
        return map(RecordType, sorted(self._codes))

    def __len__(self) -> int:
        return len(self._codes)

    def __hash__(self) -> int:
        return hash(self._codes)

    def __repr__(self) -> str:
        return f"TypeSet({sorted(self._codes)})"


_MOST_SERIAL = 4294967295


def serial_compare(left: int, right: int) -> int:
    """Returns -1, 0 or 1 if a serial number is before, equal to or after another (RFC 1982, section 3.2).

    Raises `NotOrdered` if they are 2^31 apart.

    >>> serial_compare(4294967295, 0)
    -1
    """
    first, second = _checks.number("left", left, _MOST_SERIAL), _checks.number("right", right, _MOST_SERIAL)
    order = c_int32()
    check(library.dnw_serial_compare(first, second, byref(order)))
    return order.value


def serial_add(serial: int, other: int) -> int:
    """Returns the sum of two serial numbers, which wraps to 0 after 4294967295 (RFC 1982, section 3.1).

    >>> serial_add(4294967295, 2)
    1
    """
    first, second = _checks.number("serial", serial, _MOST_SERIAL), _checks.number("other", other, _MOST_SERIAL)
    return int(library.dnw_serial_add(first, second))
