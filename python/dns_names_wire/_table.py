"""What the library reads of a message in one call: its questions and records, the fields of their data, and all names."""

import struct
from ctypes import addressof
from ipaddress import IPv4Address, IPv6Address
from typing import Any, Callable, Dict, List, Tuple, Union

from . import _header as dnw
from ._codes import RecordType
from ._errors import check
from ._library import ROOM_SIZE, ROWS_SIZE, by_address, give_back, room_of, take_room, taken
from ._names import Name
from ._types import TypeSet

# An address prefix: its family, its length in bits, whether it is negated, and its octets (RFC 3123, section 4).
Prefix = Tuple[int, int, bool, bytes]

FieldValue = Union[
    Name, int, IPv4Address, IPv6Address, RecordType, bytes, Tuple[bytes, ...], TypeSet, Tuple[Tuple[int, bytes], ...],
    Tuple[Prefix, ...], Tuple[Name, ...],
]  # fmt: skip

# A row, `struct dnw_row`: section, kind, type, class, number, offset, length, and the place and length of its name among the
# names.
Row = Tuple[int, int, int, int, int, int, int, int, int]
_ROW = struct.Struct("@IIHHIQQQQ")

# The kinds of rows, besides those of fields: an entry of a list, and why there is no field.
_NAME, _NUMBER, _ENTRY, _FAULT = 1, 2, 19, 20
_name_of, _from_bytes = Name._of, int.from_bytes


class Table:
    """The rows of a message and its names, each of which is made when it is first used."""

    __slots__ = ("message", "rows", "names", "_made")

    def __init__(self, message: bytes, rows: List[Row], names: bytes) -> None:
        self.message, self.rows, self.names = message, rows, names
        self._made: Dict[bytes, Name] = {}

    def name(self, row: Row) -> Name:
        """Returns the name of a row. Equal octets are one name."""
        wire = self.names[row[7] : row[7] + row[8]]
        name = self._made.get(wire)
        if name is None:
            name = self._made[wire] = Name._of(wire, True)
        return name

    def fields(self, at: int, before: int = 0) -> Tuple[Tuple[int, ...], List[FieldValue]]:
        """Returns the kinds of the fields of the data of the record at a row, and their values. Raises as `Record.fields`,
        with offsets after the first `before` octets."""
        rows, message, names, made = self.rows, self.message, self.names, self._made
        kinds: List[int] = []
        values: List[FieldValue] = []
        at += 1
        count = len(rows)
        while at < count:
            section, kind, _, _, number, start, length, place, size = rows[at]
            if section:
                break
            at += 1
            if kind == _NAME:
                wire = names[place : place + size]
                name = made.get(wire)
                if name is None:
                    name = made[wire] = _name_of(wire, True)
                values.append(name)
            elif kind == _NUMBER:
                values.append(_from_bytes(message[start : start + length], "big"))
            elif kind in _LISTS:
                first = at
                while at < count and rows[at][1] == _ENTRY:
                    at += 1
                entries = [(entry[4], message[entry[5] : entry[5] + entry[6]]) for entry in rows[first:at]]
                values.append(_LISTS[kind](message[start : start + length], entries))
            elif kind == _FAULT:
                check(number, start - before)
            else:
                values.append(_VALUES[kind](message[start : start + length]))
            kinds.append(kind)
        return tuple(kinds), values

    def check_whole(self, at: int) -> None:
        """Raises `BadData` if a name in the data of the record at a row is compressed."""
        for row in self.rows[at + 1 :]:
            if row[0]:
                break
            if row[1] == _NAME and row[6] != row[8]:
                check(dnw.BAD_DATA)


# The value of a field of each kind that is no name, number or list, by its number in dns_names_wire.h.
_VALUES: Dict[int, Callable[[bytes], FieldValue]] = {
    **dict.fromkeys((7, 8, 12, 13, 14, 15, 18), bytes),
    3: IPv4Address,
    4: IPv6Address,
    5: lambda octets: RecordType.of(_from_bytes(octets, "big")),
    6: lambda octets: _from_bytes(octets, "big"),
}

# The value of a list of each kind, by its octets and its entries: the number and the octets of each.
_LISTS: Dict[int, Callable[[bytes, List[Tuple[int, bytes]]], FieldValue]] = {
    9: lambda octets, entries: tuple([text for _, text in entries]),
    10: lambda octets, entries: TypeSet.from_bitmap(octets),
    11: lambda octets, entries: tuple(entries),
    16: lambda octets, entries: tuple([(family, own[0], own[1] > 127, own[2:]) for family, own in entries]),
    17: lambda octets, entries: tuple([Name._of(wire, True) for _, wire in entries]),
}

_message_table = by_address("dnw_message_table")
_row_size = _ROW.size
_USUAL_ROWS = ROWS_SIZE // _row_size


def read_table(message: bytes, max_pointers: int) -> "Tuple[int, Table]":
    """Returns 0 and the table of a message, or the number of a failure and an empty table."""
    room, size = take_room(), len(message)
    rows, names, counts, row_count, names_size = room.rows, room.octets, room.table, _USUAL_ROWS, ROOM_SIZE
    number = _message_table(message, size, max_pointers, room.rows_at, row_count, room.octets_at, names_size, room.table_at)
    while number == dnw.NO_ROOM:
        row_count, names_size = 8 * row_count, 8 * names_size
        rows, names, counts = room_of(row_count * _row_size), room_of(names_size), dnw.Table()
        places = addressof(rows), row_count, addressof(names), names_size, addressof(counts)
        number = _message_table(message, size, max_pointers, *places)
    listed: Any = () if number else _ROW.iter_unpack(taken(rows, counts.row_count * _row_size))
    table = Table(message, list(listed), b"" if number else taken(names, counts.names_len))
    give_back(room)
    return number, table


# A header that counts one answer, which a record follows whose names are not compressed.
_ALONE = bytes(7) + b"\1" + bytes(4)
ALONE_SIZE = len(_ALONE)


def table_of(record: bytes) -> Table:
    """Returns the table of a message that has a record alone. Raises `BadData` if a name in its data is compressed."""
    number, table = read_table(_ALONE + record, dnw.MAX_POINTERS)
    check(number)
    table.check_whole(0)
    return table
