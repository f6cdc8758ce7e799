"""Checks of arguments. A wrong argument raises TypeError or ValueError with the argument's name.

A returned value is never of a subclass, since its methods could return another length or other octets than it has."""

import operator
from typing import Optional, Union

Bytes = Union[bytes, bytearray, memoryview]


def wrong_type(what: str, wanted: str, value: object) -> TypeError:
    return TypeError(f"{what}: {wanted} wanted, not {type(value).__name__}")


def text(what: str, value: object) -> bytes:
    """Returns the UTF-8 of a text. Half a surrogate pair is kept, and the library rejects it."""
    if not isinstance(value, str):
        raise wrong_type(what, "a str is", value)
    return str.encode(value, "utf-8", "surrogatepass")


def octets(what: str, value: object) -> bytes:
    """Returns the value as `bytes`. Other types are copied."""
    if type(value) is bytes:
        return value
    # The methods of a subclass are not called.
    for kind in (bytes, bytearray):
        if isinstance(value, kind):
            return bytes(kind.__getitem__(value, slice(None)))
    if isinstance(value, memoryview):
        return memoryview.tobytes(value)
    raise wrong_type(what, "bytes are", value)


def number(what: str, value: object, most: Optional[int] = None) -> int:
    """Returns the value as an `int` of at least 0, and at most `most` if that is given."""
    try:
        whole = value if type(value) is int else int.__add__(operator.index(value), 0)  # type: ignore[arg-type]
    except TypeError:
        raise wrong_type(what, "an int is", value) from None
    if whole < 0 and most is None:
        raise ValueError(f"{what}: {whole} is negative")
    if most is not None and not 0 <= whole <= most:
        raise ValueError(f"{what}: {whole} is not from 0 to {most}")
    return whole
