"""Texts of master files."""

from ctypes import byref, c_uint32

from . import _checks
from ._errors import check
from ._library import library


def parse_ttl(text: str) -> int:
    """Parses a TTL, and returns its seconds: groups of digits, each with a unit of `s`, `m`, `h`, `d` or `w`. The last
    group may have no unit.

    Raises `BadTime`, also above 4294967295 seconds.

    >>> parse_ttl("1h30m"), parse_ttl("300")
    (5400, 300)
    """
    encoded, seconds = _checks.text("text", text), c_uint32()
    check(library.dnw_ttl_parse(encoded, len(encoded), byref(seconds)))
    return seconds.value
