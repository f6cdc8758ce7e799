"""How the bindings have each kind of field."""

from __future__ import annotations

from dataclasses import dataclass
from typing import Dict

from .listed import TABLE, Type, fail


@dataclass(frozen=True)
class Bound:
    """A kind of field in Rust, its type and the word by which it is written and shown; and in Python, the letter by which _data.py
    knows it, its annotation and, if that is another one, what the constructor takes."""

    rust: str
    word: str
    letter: str
    python: str
    taken: str = ""

    @property
    def owned(self) -> str:
        """The type in Rust with octets of its own."""
        return {"NameRef<'a>": "Name", OCTETS: "Vec<u8>"}.get(self.rust) or self.rust.replace("<'a>", "")


OCTETS = "&'a [u8]"
# By the words of the definitions; a kind with an argument may be there without it.
KINDS: Dict[str, Bound] = {
    "Name": Bound("NameRef<'a>", "name", "n", "Name", "NameLike"),
    "U8": Bound("u8", "u8", "1", "int"),
    "U16": Bound("u16", "u16", "2", "int"),
    "U32": Bound("u32", "u32", "4", "int"),
    "U48": Bound("[u8; 6]", "eui48", "6", "int"),
    "U64": Bound("[u8; 8]", "eui64", "8", "int"),
    "Ipv4": Bound("Ipv4Addr", "ipv4", "i", "IPv4Address", "IPv4Like"),
    "Ipv6": Bound("Ipv6Addr", "ipv6", "I", "IPv6Address", "IPv6Like"),
    "TypeCode": Bound("RecordType", "record_type", "t", "RecordType", "TypeLike"),
    "Time": Bound("u32", "u32", "T", "int"),
    "LongTime": Bound("u64", "u48", "6", "int"),
    "Locator": Bound("u64", "u64", "8", "int"),
    "NodeNumber": Bound("u64", "u64", "8", "int"),
    "Counted Text": Bound(OCTETS, "string", "s", "bytes", "StringLike"),
    "Counted Tag": Bound(OCTETS, "string", "s", "bytes", "StringLike"),
    "Counted": Bound(OCTETS, "string", "c", "bytes", "Bytes"),
    "LongCounted": Bound(OCTETS, "long", "l", "bytes", "Bytes"),
    "Octets Text": Bound(OCTETS, "rest", "x", "bytes", "StringLike"),
    "Octets": Bound(OCTETS, "rest", "o", "bytes", "Bytes"),
    "Shaped": Bound(OCTETS, "rest", "g", "bytes", "Bytes"),
    "List Texts": Bound("Texts<'a>", "texts", "S", "Tuple[bytes, ...]", "StringsLike"),
    "List Types": Bound("TypeSet", "types", "B", "TypeSet", "TypesLike"),
    "List Params": Bound("Pairs<'a>", "params", "P", "Tuple[Tuple[int, bytes], ...]", "Iterable[Tuple[int, Bytes]]"),
    "List Prefixes": Bound("Prefixes<'a>", "prefixes", "p", "Tuple[Prefix, ...]", "Iterable[Prefix]"),
    "List Names": Bound("WholeNames<'a>", "whole_names", "N", "Tuple[Name, ...]", "Iterable[NameLike]"),
}


def bound(kind: str) -> Bound:
    found = KINDS.get(kind) or KINDS.get(kind.split()[0])
    return found or fail(TABLE, f"{kind} is a kind of field that the bindings do not know: KINDS of tools/type_tables/bound.py")


def check_shared(it: Type, other: Type) -> None:
    """Fails if a type cannot have the class of another."""
    if list(map(bound, it.kinds)) != list(map(bound, other.kinds)):
        fail(TABLE, f"{it.name} has not the fields of {other.name}")
