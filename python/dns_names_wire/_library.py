"""The shared library. Its functions are declared as `dns_names_wire.h` does when they are first used."""

import ctypes
import os
from ctypes import addressof, c_char, c_size_t, c_uint32, c_void_p
from typing import Any, Dict, List

from . import _header as dnw

LIBRARY = "libdns_names_wire.so"
FUNCTIONS: Dict[str, Any] = dnw.FUNCTIONS

# A buffer that is always large enough for a wire form.
Form = c_char * dnw.FORM_SIZE

# Buffers of these sizes. Their types are kept, since making a type takes longer than a call.
_ROOMS = [c_char * (512 << step) for step in range(8)]

_HOW = """\
Install the wheel, which has it: out/dist/python of the repository, after tools/dist. Or build it in a checkout by
`tools/c-library FOLDER`, for which the Rattle toolchain has to be there, and set DNW_LIB_DIR to that folder."""


def room_of(size: int) -> "ctypes.Array[c_char]":
    """Returns a new buffer with room for so many octets."""
    step = (size - 1 >> 9).bit_length() if size > 512 else 0
    return _ROOMS[step]() if step < len(_ROOMS) else (c_char * size)()


def taken(buffer: "ctypes.Array[c_char]", length: int) -> bytes:
    """Returns the first bytes of a buffer. No others are copied."""
    octets: Any = buffer[:length]
    return bytes(octets)


class _Library(ctypes.CDLL):
    def __getattr__(self, name: str) -> Any:
        function = super().__getattr__(name)
        function.argtypes = FUNCTIONS[name]
        function.restype = c_size_t if name == "dnw_error_text" else c_uint32
        return function


def _open() -> _Library:
    folder = os.environ.get("DNW_LIB_DIR")
    path = os.path.join(folder or os.path.dirname(os.path.realpath(__file__)), LIBRARY)
    which = "the folder that DNW_LIB_DIR names" if folder else "the folder of the package, since DNW_LIB_DIR is not set"
    if not os.path.isfile(path):
        raise ImportError(f"there is no {path}; it was looked for in {which}.\n{_HOW}")
    try:
        return _Library(path)
    except OSError as error:
        raise ImportError(f"{path} cannot be loaded: {error}. A wheel's is for one machine and one C library of Linux.\n{_HOW}") from error


library = _open()


def by_address(name: str) -> Any:
    """Returns a function of the library that takes octets as `bytes`, buffers by their addresses, and numbers in the range of
    their types. All are passed as pointers are, in whole registers, which takes half the time."""
    function = library[name]
    function.argtypes, function.restype = [c_void_p] * len(FUNCTIONS[name]), c_uint32
    return function


# The sizes of the buffers of a room.
ROOM_SIZE = 4096
ROWS_SIZE = 256 * 48


class Room:
    """Buffers for the results of a call, and their addresses."""

    __slots__ = (
        "octets", "octets_at", "rows", "rows_at", "writer", "writer_at", "edns", "edns_at", "packed", "packed_at", "table",
        "table_at", "length", "length_at",
    )  # fmt: skip

    def __init__(self) -> None:
        self.octets, self.rows = (c_char * ROOM_SIZE)(), (c_char * ROWS_SIZE)()
        self.writer, self.edns, self.packed, self.table = dnw.Writer(), dnw.Edns(), dnw.Packed(), dnw.Table()
        self.length = c_size_t()
        self.octets_at, self.rows_at, self.writer_at = addressof(self.octets), addressof(self.rows), addressof(self.writer)
        self.edns_at, self.packed_at, self.table_at = addressof(self.edns), addressof(self.packed), addressof(self.table)
        self.length_at = addressof(self.length)


# Rooms that no call uses. A call takes one out, so another call in between, of a signal handler or a thread, has its own.
_FREE: List[Room] = []
give_back = _FREE.append


def take_room() -> Room:
    """Returns a room that no other call uses, to be given back."""
    try:
        return _FREE.pop()
    except IndexError:
        return Room()
