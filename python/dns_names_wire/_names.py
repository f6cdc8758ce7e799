"""Names: read, parsed, printed, compared."""

import warnings
from ctypes import byref, c_bool, c_int32, c_size_t
from functools import total_ordering
from typing import Any, Callable, Iterable, Iterator, List, NamedTuple, Optional, Tuple, Union, overload

from . import _checks
from . import _header as dnw
from ._checks import Bytes
from ._errors import check, check_text, check_utf8, failure, stored
from ._library import Form, by_address, give_back, library, take_room, taken

_sort_key = by_address("dnw_name_sort_key")


@total_ordering
class Name:
    """A domain name. `Name("a.b")` is relative and equals no name of a message; `Name("a.b.")` and `Name.absolute("a.b")` do.

    A name without a dot at its end is relative, as in a master file: `absolute` or an origin completes it. Names of
    messages are fully qualified, and a record takes no other names.

    A name has at most 255 octets of wire form (RFC 1035, section 3.1). It is immutable. Case is kept, and is ignored when
    names are compared and hashed (RFC 4343). The order is canonical (RFC 4034, section 6.1); relative names are before
    all others. A name is not compared with a text: `name == "a.b."` is false, with a warning.

    Its items are its labels: `len(name)` is their number, `name[0]` is the first, and a slice is a name of some of them.
    `a + b` appends, `bytes(name)` is the wire form, and `name in zone` is `name.is_in(zone)`. A name is always truthy,
    even the root.

    >>> Name("www.example.com") == Name("www.example.com."), Name.absolute("www.example.com") == Name("www.example.com.")
    (False, True)
    >>> name, zone = Name("www.Example.com."), Name("example.com.")
    >>> name in zone, zone < name, name == Name("WWW.example.com.")
    (True, True, True)
    >>> len(name), list(name), bytes(zone)
    (3, [b'www', b'Example', b'com'], b'\\x07example\\x03com\\x00')
    >>> name[0], name[-1], name[1:], name[:1]
    (b'www', b'com', Name('Example.com.'), Name('www'))
    >>> Name("www") + zone, Name("www", zone), name.parent
    (Name('www.example.com.'), Name('www.example.com.'), Name('Example.com.'))
    >>> sorted([Name("b.a."), Name("z."), Name("a.")])
    [Name('a.'), Name('b.a.'), Name('z.')]
    """

    __slots__ = ("_wire", "_is_fqdn", "_hash", "_order")

    _wire: bytes
    _is_fqdn: bool
    _hash: int
    # An octet that says whether the name is fully qualified, and the sort key, once it is used. Names compare as these do.
    _order: Any

    def __new__(cls, text: str = "@", origin: Optional["Name"] = None) -> "Name":
        """Parses a name (RFC 1035, section 5.1), as `from_text`."""
        return cls.from_text(text, origin)

    @classmethod
    def _of(cls, wire: bytes, is_fqdn: bool) -> "Name":
        name = object.__new__(cls)
        _set_wire(name, wire)
        _set_is_fqdn(name, is_fqdn)
        _set_order(name, None)
        return name

    @classmethod
    def from_wire(cls, wire: Bytes, *, is_fqdn: bool = True) -> "Name":
        """Returns the name with this wire form, fully qualified or not. Raises as `read_name`, and `BytesLeft` if bytes
        follow the name.

        >>> Name.from_wire(b"\\x01a\\x00")
        Name('a.')
        """
        whole = _checks.octets("wire", wire)
        name, end = read_name(whole, 0)
        if end != len(whole):
            check(dnw.BYTES_LEFT, end)
        return cls._of(name._wire, bool(is_fqdn))

    @classmethod
    def from_text(cls, text: str, origin: Optional["Name"] = None) -> "Name":
        """Parses a name (RFC 1035, section 5.1): labels with dots between them. Any ASCII character stands for itself, but
        for a dot and a backslash: `\\DDD` in decimal is that octet, and a backslash before any other character is that
        character. A label of other letters has to be given as an A-label (RFC 5890, section 2.3.2.1), as `xn--bcher-kva`.

        A name with a dot at its end is fully qualified, and `.` is the root. Any other name is completed by the origin,
        if there is one, and is fully qualified then; else it is relative. `@` is the origin, or the relative name
        without labels. Raises `EmptyLabel` (also for an empty text), `LabelTooLong`, `NameTooLong`, `BadEscape` or
        `TextCut` if the text is not a name, with the offset and the rule, `IllegalCharacter` if it is not ASCII, and
        `ValueError` if the origin is relative.

        >>> Name.from_text("www", Name("example."))
        Name('www.example.')
        >>> Name.from_text("a\\\\032b\\\\.c.").labels
        (b'a b.c',)
        """
        encoded, own = _checks.text("text", text), b"" if origin is None else whole_wire("origin", origin)
        check_ascii(encoded)
        form, parsed = Form(), dnw.ParsedName()
        check_text(library.dnw_name_parse(encoded, len(encoded), own, len(own), form, len(form), byref(parsed)), encoded, own)
        return cls._of(taken(form, parsed.len), parsed.is_fqdn)

    def to_text(self) -> str:
        """Returns the text, as `str` does: in ASCII, with a dot at the end if the name is fully qualified. The root is
        `.`, and the relative name without labels `@`. `from_text` reads it as the same name.

        `"`, `$`, `(`, `)`, `.`, `;`, `@` and `\\` are printed after a backslash, and octets that are not printable ASCII
        as a backslash and three decimal digits.

        >>> Name.from_wire(b"\\x05a b.c\\x00").to_text()
        'a\\\\032b\\\\.c.'
        """
        return str(self)

    def absolute(self: Union["Name", str]) -> "Name":
        """Returns the name, or the one with this text, fully qualified: a relative name is completed by the root.

        >>> Name("www.example.com").absolute(), Name.absolute("www.example.com")
        (Name('www.example.com.'), Name('www.example.com.'))
        """
        name = Name.from_text(self) if isinstance(self, str) else self
        return name.derelativize(Name._of(b"\0", True))

    def derelativize(self, origin: "Name") -> "Name":
        """Returns a relative name with the labels of the origin after its own, and any other name as it is. May raise
        `NameTooLong`.

        >>> Name("www").derelativize(Name("example.")), Name("a.").derelativize(Name("example."))
        (Name('www.example.'), Name('a.'))
        """
        wire_of("origin", origin)
        return self if self._is_fqdn else self.append(origin)

    def relativize(self, origin: "Name") -> "Name":
        """Returns a name in the zone `origin` as a relative name, without the labels of the zone, and any other name as
        it is.

        >>> Name("www.Example.").relativize(Name("example.")), Name("a.").relativize(Name("example."))
        (Name('www'), Name('a.'))
        """
        wire_of("origin", origin)
        if self._is_fqdn != origin._is_fqdn or not self.is_in(origin):
            return self
        return Name._of(self[: len(self) - len(origin)]._wire, False)

    @classmethod
    def from_labels(cls, labels: Iterable[Bytes]) -> "Name":
        """Returns the fully qualified name with these labels, each of any 1 to 63 octets.

        Raises `BadText` if a label is empty, `LabelTooLong` or `NameTooLong`, for the first label that does not fit.

        >>> Name.from_labels([b"www", b"example", b"com"])
        Name('www.example.com.')
        """
        root = name = cls._of(b"\0", True)
        for label in labels:
            name = name.append(root.prepend_label(label))
        return name

    def __setattr__(self, name: str, value: object) -> None:
        raise AttributeError("a Name does not change")

    def __delattr__(self, name: str) -> None:
        raise AttributeError("a Name does not change")

    def __reduce__(self) -> Tuple[object, Tuple[bytes, bool]]:
        return Name._of, (self._wire, self._is_fqdn)

    @property
    def wire(self) -> bytes:
        """The wire form, without compression: each label after its length octet, and a zero octet."""
        return self._wire

    def __bytes__(self) -> bytes:
        return self._wire

    @property
    def is_fqdn(self) -> bool:
        """Whether the name is fully qualified."""
        return self._is_fqdn

    @property
    def is_root(self) -> bool:
        """Whether the name has no labels and is fully qualified.

        >>> Name(".").is_root, Name("@").is_root
        (True, False)
        """
        return self._is_fqdn and len(self._wire) == 1

    @property
    def is_wildcard(self) -> bool:
        """Whether the first label is `*` (RFC 4592, section 2.1.1)."""
        return self._wire.startswith(b"\x01*")

    @property
    def labels(self) -> Tuple[bytes, ...]:
        """The labels, from the first to the one before the root.

        >>> Name("www.example.com.").labels
        (b'www', b'example', b'com')
        """
        return tuple(self)

    @overload
    def __getitem__(self, index: int) -> bytes: ...

    @overload
    def __getitem__(self, index: slice) -> "Name": ...

    def __getitem__(self, index: Union[int, slice]) -> Union[bytes, "Name"]:
        """Returns the label with an index, or a name of the labels of a slice. It is fully qualified if this name is, and
        the slice goes up to the last label; else it is relative."""
        labels = self.labels
        if not isinstance(index, slice):
            return labels[index]
        _, end, step = index.indices(len(labels))
        wire = b"".join(bytes([len(label)]) + label for label in labels[index]) + b"\0"
        return Name.from_wire(wire, is_fqdn=self._is_fqdn and end == len(labels) and step == 1)

    def __iter__(self) -> Iterator[bytes]:
        at = 0
        while self._wire[at]:
            end = at + 1 + self._wire[at]
            yield self._wire[at + 1 : end]
            at = end

    def __len__(self) -> int:
        return sum(1 for _ in self)

    def __bool__(self) -> bool:
        return True

    def __contains__(self, name: object) -> bool:
        wire_of("name", name)
        return name.is_in(self)  # type: ignore[attr-defined, no-any-return]

    def is_in(self, zone: "Name") -> bool:
        """Returns whether the name's last labels are those of the zone, ignoring case (RFC 1034, section 4.2).

        >>> Name("www.Example.com.").is_in(Name("example.com."))
        True
        """
        is_in = c_bool()
        check(library.dnw_name_in_zone(*_slice(self), *wire_of("zone", zone), byref(is_in)))
        return is_in.value

    @property
    def parent(self) -> "Name":
        """The name without its first label. Raises `ValueError` if it has no labels, as the root.

        >>> Name("www.example.com.").parent
        Name('example.com.')
        """
        count = len(self)
        if count == 0:
            raise ValueError(f"the name {self} has no parent")
        return self.trim_to(count - 1)

    def lower(self) -> "Name":
        """Returns the name with its ASCII letters in lower case."""
        return Name._of(stored(library.dnw_name_to_lowercase, *_slice(self)), self._is_fqdn)

    def append(self, suffix: "Name") -> "Name":
        """Returns the name with the labels of another name after its own, fully qualified if the other is. May raise
        `NameTooLong`.

        >>> Name("www").append(Name("example.com."))
        Name('www.example.com.')
        """
        return Name._of(stored(library.dnw_name_append, *_slice(self), *wire_of("suffix", suffix)), suffix._is_fqdn)

    def __add__(self, suffix: object) -> "Name":
        if not isinstance(suffix, Name):
            return NotImplemented
        return self.append(suffix)

    def prepend_label(self, label: Bytes) -> "Name":
        """Returns the name with a label, of any 1 to 63 octets, before its own labels.

        Raises `BadText` if the label is empty, `LabelTooLong` or `NameTooLong`.

        >>> Name("com.").prepend_label(b"example")
        Name('example.com.')
        """
        octets = _checks.octets("label", label)
        return Name._of(stored(library.dnw_name_prepend_label, octets, len(octets), *_slice(self)), self._is_fqdn)

    def trim_to(self, labels: int) -> "Name":
        """Returns the name with only the last `labels` labels, or the whole name if it has fewer.

        >>> Name("www.example.com.").trim_to(2)
        Name('example.com.')
        """
        count = min(_checks.number("labels", labels), dnw.FORM_SIZE)
        return Name._of(stored(library.dnw_name_trim, *_slice(self), count), self._is_fqdn)

    def to_wildcard(self) -> "Name":
        """Returns the name with `*` in place of its first label (RFC 4592, section 2.1.1). The root is unchanged.

        >>> Name("www.example.com.").to_wildcard()
        Name('*.example.com.')
        """
        return Name._of(stored(library.dnw_name_to_wildcard, *_slice(self)), self._is_fqdn)

    def compare(self, other: "Name") -> int:
        """Returns -1, 0 or 1 if this name is before, equal to or after the other."""
        others = wire_of("other", other)
        if self._is_fqdn != other._is_fqdn:
            return 1 if self._is_fqdn else -1
        order = c_int32()
        check(library.dnw_name_compare(*_slice(self), *others, byref(order)))
        return order.value

    def sort_key(self) -> bytes:
        """Returns a key of at most 504 octets. The order of keys is the canonical order of names (RFC 4034, section
        6.1). The key does not depend on whether the name is fully qualified.

        Keys are equal exactly if the labels are, ignoring case. The keys of the names in a zone are those that begin
        with the zone's key. A name keeps its key once it is made, and is compared by it.

        >>> sorted(map(Name, ["z.example.", "example.", "Z.a.example."]), key=Name.sort_key)
        [Name('example.'), Name('Z.a.example.'), Name('z.example.')]
        >>> Name("WWW.example.").sort_key()
        b'example\\x00www\\x00'
        """
        return _order_of(self)[1:]

    def __str__(self) -> str:
        return stored(library.dnw_name_print, *_slice(self), _get_is_fqdn(self), size=dnw.TEXT_SIZE).decode("ascii")

    def __format__(self, spec: str) -> str:
        return format(str(self), spec)

    def __repr__(self) -> str:
        """Returns an expression with this value."""
        return f"Name({str(self)!r})"

    def __eq__(self, other: object) -> bool:
        if not isinstance(other, Name):
            if isinstance(other, (str, bytes)):
                text = f"a Name is never equal to {type(other).__name__}: {other!r} has to be a Name to be compared with {self}"
                warnings.warn(text, RuntimeWarning, stacklevel=2)
            return NotImplemented
        # Equal names have wire forms of one length, and a form equals itself.
        if self._is_fqdn != other._is_fqdn or len(self._wire) != len(other._wire):
            return False
        if self._wire == other._wire:
            return True
        is_equal = c_bool()
        check(library.dnw_name_equal(*_slice(self), *_slice(other), byref(is_equal)))
        return is_equal.value

    def __hash__(self) -> int:
        try:
            return self._hash
        except AttributeError:
            # A length octet is at most 63, which is no letter, so the whole form is lowered at once.
            _set_hash(self, hash((self._wire.lower(), self._is_fqdn)))
            return self._hash

    def __lt__(self, other: "Name") -> bool:
        # `sorted` calls it for many names, whose keys are mostly there.
        try:
            return self._order < other._order  # type: ignore[no-any-return]
        except (AttributeError, TypeError):
            return _order_of(self) < _order_of(other) if isinstance(other, Name) else NotImplemented


# The slots of a Name are set when it is created, or when they are first used.
_set_wire: Callable[[Name, bytes], None] = Name.__dict__["_wire"].__set__
_get_wire: Callable[[Name], bytes] = Name.__dict__["_wire"].__get__
_set_is_fqdn: Callable[[Name, bool], None] = Name.__dict__["_is_fqdn"].__set__
_get_is_fqdn: Callable[[Name], bool] = Name.__dict__["_is_fqdn"].__get__
_set_order: Callable[[Name, Optional[bytes]], None] = Name.__dict__["_order"].__set__
_set_hash: Callable[[Name, int], None] = Name.__dict__["_hash"].__set__


def _order_of(name: Name) -> bytes:
    """Returns what the name is compared by, and keeps it."""
    order = name._order
    if order is None:
        # It is called for many names, so it calls as few functions as possible.
        wire, room = _get_wire(name), take_room()
        number = _sort_key(wire, len(wire), room.octets_at, dnw.SORT_KEY_SIZE, room.length_at)
        if number:
            check(number)
        octets: Any = room.octets[: room.length.value]
        give_back(room)
        order = (b"\1" if _get_is_fqdn(name) else b"\0") + bytes(octets)
        _set_order(name, order)
    return bytes(order)


def _slice(name: Name) -> Tuple[bytes, int]:
    """Returns the wire form and its length, whatever methods a subclass has."""
    wire = _get_wire(name)
    return wire, len(wire)


def wire_of(what: str, name: object) -> Tuple[bytes, int]:
    """Returns the wire form of an argument that has to be a name, and its length."""
    if not isinstance(name, Name):
        raise _checks.wrong_type(what, "a Name is", name)
    return _slice(name)


def whole_name(what: str, name: object) -> Name:
    """Returns an argument that has to be a fully qualified name, or its text. The result is of no subclass."""
    own = Name.from_text(name) if isinstance(name, str) else name
    wire = whole_wire(what, own)
    return own if type(own) is Name else Name._of(wire, True)


def whole_wire(what: str, name: object) -> bytes:
    """Returns the wire form of an argument that has to be a fully qualified name."""
    wire, _ = wire_of(what, name)
    if not _get_is_fqdn(name):  # type: ignore[arg-type]
        raise ValueError(f"{what}: {name} is relative; Name.absolute or an origin completes it")
    return wire


def check_ascii(text: bytes) -> None:
    """Raises `IllegalCharacter` at the first character of a text in UTF-8 that is not ASCII, or `NotUtf8`."""
    if not text.isascii():
        check_utf8(text)
        offset = next(offset for offset, octet in enumerate(text) if octet > 127)
        raise failure(dnw.ILLEGAL_CHARACTER, offset, "a name has ASCII characters; a label of others has to be given as an A-label")


def sort_names(names: Iterable[Name]) -> List[Name]:
    """Sorts names as `sorted(names)` does, in one call of the library. The names keep no sort keys.

    Names that are not fully qualified are before those that are, both in canonical order (RFC 4034, section 6.1). Equal
    names keep their order.

    >>> sort_names(map(Name, ["z.example.", "example.", "Z.a.example.", "z"]))
    [Name('z'), Name('example.'), Name('Z.a.example.'), Name('z.example.')]
    """
    listed = list(names)
    wires = b"".join([wire_of("names", name)[0] for name in listed])
    order = (c_size_t * len(listed))()
    check(library.dnw_names_sort(wires, len(wires), order, len(listed)))
    in_order = [listed[number] for number in order]
    return [name for name in in_order if not name._is_fqdn] + [name for name in in_order if name._is_fqdn]


class NameAt(NamedTuple):
    """A name of a message, and the offset after its own octets."""

    name: Name
    end: int


def placed(message: Bytes, start: int) -> Tuple[bytes, int]:
    """Returns the message as `bytes`, and the offset, but at most one octet past the message."""
    whole = _checks.octets("message", message)
    return whole, min(_checks.number("start", start), len(whole) + 1)


def read_name(message: Bytes, start: int = 0) -> NameAt:
    """Reads the name at an offset of a message, following compression pointers (RFC 1035, section 4.1.4).

    Raises `MessageCut` (also if `start` is past the message), `PointerNotBack`, `ReservedOctet`, `SegmentsOverlap` or
    `NameTooLong` if no valid name is there, and `ValueError` if `start` is negative. A message that is not `bytes` is
    copied.

    >>> read_name(b"\\x01b\\x00\\x01a\\xc0\\x00", 3)
    NameAt(name=Name('a.b.'), end=7)
    """
    whole, offset = placed(message, start)
    form, read = Form(), dnw.ReadName()
    check(library.dnw_name_read(whole, len(whole), offset, form, len(form), byref(read)), start)
    return NameAt(Name._of(taken(form, read.len), True), read.end)


def names(message: Bytes, start: int = 0) -> Iterator[NameAt]:
    """Returns an iterator over the consecutive names in a message, from an offset to the end. Raises as `read_name`.

    >>> [str(name) for name, _ in names(b"\\x01b\\x00\\x01a\\xc0\\x00")]
    ['b.', 'a.b.']
    """
    whole = _checks.octets("message", message)
    while start != len(whole):
        read = read_name(whole, start)
        yield read
        start = read.end
