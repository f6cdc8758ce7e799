"""The table of docs/DATA.md. Which data are printed in the form of any data is from crates/dnw_zone_data/specs/DataTexts.antt."""

from __future__ import annotations

import re
from typing import Iterator, List, Tuple

from .code import internet_codes
from .listed import TABLE, Type, TypeList, fail, items, kinds_of, read
from .outputs import Parts, joined, lines

FILE = "docs/DATA.md"
TEXTS = "crates/dnw_zone_data/specs/DataTexts.antt"
# What a kind of field is called, by its words in the definitions; a kind with an argument may be named without it.
WORDS = {
    "Name Compressible": "name (C)",
    "Name Lowered": "name (L)",
    "Name Plain": "name",
    "U8": "u8",
    "U16": "u16",
    "U32": "u32",
    "U48": "u48",
    "U64": "u64",
    "Ipv4": "IPv4 address",
    "Ipv6": "IPv6 address",
    "TypeCode": "type",
    "Time": "time",
    "LongTime": "long time",
    "Locator": "locator",
    "NodeNumber": "node number",
    "Counted Text": "string",
    "Counted Tag": "tag",
    "Counted": "counted octets",
    "LongCounted": "long octets",
    "Octets": "octets",
    "Shaped Location": "location",
    "Shaped Gateway": "gateway",
    "Shaped Relay": "relay",
    "Shaped HostIdentity": "host identity",
    "Shaped AddressSuffix": "address suffix",
    "ChaosAddress": "Chaosnet address",
    "List Texts": "strings",
    "List Types": "types",
    "List Params": "parameters",
    "List Prefixes": "prefixes",
    "List Names": "names",
}


def word_of(kind: str) -> str:
    """How the page calls a kind."""
    found = WORDS.get(kind) or WORDS.get(kind.split()[0])
    return found or fail(TABLE, f"{kind} is a kind of field without words: give it some in WORDS of tools/type_tables/page.py")


def is_like(kind: str, pattern: str) -> bool:
    """Whether a kind is one of a pattern, in which words in lower case stand for anything."""
    words, wanted = kind.split(), pattern.split()
    return len(words) == len(wanted) and all(it[0].islower() or it == word for word, it in zip(words, wanted))


class Forms:
    """Which data are printed in the form of any data."""

    def __init__(self) -> None:
        text = read(TEXTS)
        lists = re.findall(r"^is_octets \((.*)\) = true$", text, re.M)
        alone = re.findall(r"^has_field_text \(?(.*?)\)? = false$", text, re.M)
        little = re.search(r"^little_known =\n +((?:\d+ ∷ )+)\[\]$", text, re.M)
        if not lists or not alone or not little:
            fail(TEXTS, "is_octets is true, or has_field_text false, for nothing, or there is no list little_known")
        self.lists = [items(it) for it in lists]
        self.alone = [re.sub(r"\b[a-z]\w*\.", "", it) for it in alone]
        self.little_known = {int(code) for code in items(little[1])}

    def has_text(self, it: Type) -> bool:
        """Whether the data of a type are printed in a form of their own."""
        if it.code in self.little_known or any(is_like(kind, own) for kind in it.kinds for own in self.alone):
            return False
        return not any(len(own) == len(it.kinds) and all(map(is_like, it.kinds, own)) for own in self.lists)


def source_of(text: str) -> str:
    """Where the fields are from: the number of an RFC and its section, or what else there is."""
    return re.sub(r"^RFC (\d+)(, )?(sections? )?", r"\1\2", text)


def found(pattern: str) -> List[Tuple[str, ...]]:
    """The kinds of the groups of the one place of the list that has a pattern."""
    match = re.search(pattern, read(TABLE), re.M)
    return [kinds_of(part) for part in match.groups()] if match else fail(TABLE, f"there is no {pattern}")


def special_rows(its: TypeList) -> Iterator[str]:
    """The rows of data that go by more than the type: A6, and A of CH."""
    short, whole = found(r"^a6_fields prefix = if prefix == 0 then (.*) else (.*)$")
    if whole[:-1] != short:
        fail(TABLE, "A6 has other fields before its name if it has none")
    suffix, a6 = ", ".join(map(word_of, short)), its.named("A6")
    yield rf"| {a6.code} | A6 | {suffix} and {word_of(whole[-1])} unless the prefix is empty | {source_of(a6.source)} | `\#` |"
    (chaos,) = found(r"^chaos_fields = (.*)$")
    yield rf"| 1 of CH | A | {', '.join(map(word_of, chaos))} | 1035, 3.6 | `\#` |"
    yield r"| any other | | octets | 3597, 3 | `\#` |"


def table(its: TypeList, forms: Forms) -> Iterator[str]:
    yield from ("", "| code | type | fields | RFC | text |", "|---|---|---|---|---|")
    for it in its.rows:
        text = "own" if forms.has_text(it) else r"`\#`"
        yield f"| {it.code} | {it.name} | {', '.join(map(word_of, it.kinds))} | {source_of(it.source)} | {text} |"
    yield from special_rows(its)
    yield from ("", "Only IN has these types, which are octets in other classes than IN, NONE and ANY:")
    names = {str(it.code): it.name for it in its.types}
    yield from (f"{joined([names[code] for code in internet_codes()])}.", "")


def outputs(its: TypeList) -> List[Parts]:
    return [Parts(FILE, [lines(list(table(its, Forms())))])]
