"""Why a call fails. `_failures` has an exception for each failure of the C library."""

import enum
from ctypes import byref, c_char, c_size_t
from typing import Any, Callable, Optional

from . import _header as dnw
from ._library import library, room_of, taken


class TextRule(enum.IntEnum):
    """A rule that the text of a name breaks, by its number in `dns_names_wire.h`. `str` returns it as a sentence.

    >>> print(TextRule.EMPTY_LABEL)
    a label of the text is empty
    """

    NAME_TOO_LONG = dnw.NAME_TOO_LONG
    LABEL_TOO_LONG = dnw.LABEL_TOO_LONG
    UNFINISHED_ESCAPE = dnw.TEXT_CUT
    EMPTY_LABEL = dnw.EMPTY_LABEL
    BAD_ESCAPE = dnw.BAD_ESCAPE

    def __str__(self) -> str:
        return error_text(int(self))


class DnsError(ValueError):
    """A call failed. Each error is a subclass.

    `number` is its number in `dns_names_wire.h`, and `reason` is what is wrong, in words. The other attributes are None
    if they do not apply:

    - `offset` is where the input is wrong: the octet of the message at which the name or record should begin, the
      character of a master file after which no valid token is next, or the first wrong character of the text of a name, or of
      a word of the text of a record or of data.
    - `rule` is the `TextRule` that the text of a name breaks.
    - `section` is "header", "question", "answer", "authority" or "additional", and `item` is the index in that section
      of the first item that is wrong, if a whole message was read.

    >>> from dns_names_wire import read_name
    >>> try:
    ...     read_name(bytes.fromhex("000000c005"), 3)
    ... except DnsError as error:
    ...     print(error)
    ...     print(error.offset, error.reason)
    at offset 3: a compression pointer does not point back
    3 a compression pointer does not point back
    >>> from dns_names_wire import Name
    >>> try:
    ...     Name("a..bc")
    ... except DnsError as error:
    ...     print(error)
    ...     print(error.offset, error.rule is TextRule.EMPTY_LABEL)
    at offset 2: a label of the text is empty
    2 True
    """

    number = dnw.OTHER
    reason: str
    offset: Optional[int]
    rule: Optional[TextRule]
    section: Optional[str]
    item: Optional[int]

    def __init__(
        self,
        reason: str = "",
        offset: Optional[int] = None,
        rule: Optional[TextRule] = None,
        section: Optional[str] = None,
        item: Optional[int] = None,
    ) -> None:
        which = "" if section is None else f"{section} {item}, "
        super().__init__(which + ("" if offset is None else f"at offset {offset}: ") + reason)
        self.reason, self.offset, self.rule = reason, offset, rule
        self.section, self.item = section, item


# The word for an item of each section, by the section's number in `dns_names_wire.h`.
SECTIONS = ("header", "question", "answer", "authority", "additional")


def error_text(number: int) -> str:
    """Returns the C library's text of an error number, which is empty if there is no such error."""
    room = (c_char * 64)()
    return taken(room, library.dnw_error_text(number, room, len(room))).decode("ascii")


def failure(number: int, offset: Optional[int] = None, reason: str = "", **where: object) -> Exception:
    """Returns the exception for a number other than 0: `MemoryError` if the library is out of memory."""
    from ._failures import CLASSES

    reason = reason or error_text(number) or f"failure {number}"
    if number == dnw.NO_MEMORY:
        return MemoryError(reason)
    return CLASSES.get(number, DnsError)(reason, offset, **where)  # type: ignore[arg-type]


def check(number: int, offset: Optional[int] = None) -> None:
    """Raises the exception for a number other than 0."""
    if number:
        raise failure(number, offset)


def stored(
    call: Callable[..., int], *arguments: object, size: int = 512, result: Any = None, failed: Callable[[int], None] = check
) -> bytes:
    """Returns the octets that a call stores in a buffer, which comes after its other arguments and grows if need be. Their number is
    in `result`, if that is a struct. `failed` raises the exception for a number other than 0."""
    length = result or c_size_t()
    while True:
        room = room_of(size)
        number = call(*arguments, room, len(room), byref(length))
        if number != dnw.NO_ROOM:
            failed(number)
            return taken(room, result.len if result else length.value)
        size = 4 * len(room)


def check_item(number: int, section: str, item: int, offset: int) -> None:
    """As `check`, for an item of a message."""
    if number:
        raise failure(number, offset, section=section, item=item)


def check_text(number: int, text: bytes, origin: bytes) -> None:
    """As `check`, for the text of a name: the exception has the offset and the rule."""
    offset = c_size_t()
    broken = library.dnw_name_text_fault(text, len(text), origin, len(origin), byref(offset)) if number else 0
    if broken:
        raise failure(number, len(text[: offset.value].decode(errors="ignore")), rule=TextRule(broken))
    check(number)


def sentence(fault: dnw.TextFault) -> str:
    """Returns what is wrong with a text, without where it is."""
    return stored(library.dnw_text_fault_print, byref(fault)).decode("ascii").partition(": ")[2]


def check_fault(number: int, text: bytes, find: Callable[[dnw.TextFault], int]) -> None:
    """As `check`, for the text of a record or of data: the exception has the offset, and what is wrong there. `find` is called to
    store where the text goes wrong."""
    fault = dnw.TextFault()
    if number in (0, dnw.NO_MEMORY) or find(fault) != 0 or fault.reason == 0:
        return check(number)
    fault.offset = len(text[: fault.offset].decode(errors="ignore"))
    raise failure(number, fault.offset, sentence(fault))


def check_utf8(text: bytes) -> None:
    """Raises `NotUtf8` if a text has half a surrogate pair."""
    try:
        text.decode()
    except UnicodeDecodeError as error:
        check(dnw.NOT_UTF8, len(text[: error.start].decode()))
