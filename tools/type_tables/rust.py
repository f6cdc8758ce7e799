"""The tables of Rust: the constants of types, and the data of types, from which the borrowed and the owned form are made."""

from __future__ import annotations

import textwrap
from dataclasses import dataclass
from typing import Dict, Iterator, List, Tuple, Union

from .bound import Bound, bound, check_shared
from .listed import Field, Type, TypeList
from .outputs import Parts, Whole, filled, joined, lines

CODES, DATA = "rust/src/codes.rs", "rust/src/rdata/table.rs"
WIDTH = 120
# The types that have a struct of another name than the list says, since these names were there before it.
OTHER_STRUCTS = {"MINFO": "Mailboxes", "RP": "Mailboxes", "AFSDB": "MX", "LP": "MX"}
# What is said of a struct that is named for no type, and its fields.
MAILBOXES = (
    "Two mailboxes (RFC 1035, section 3.3.7), or a mailbox and the owner of a TXT record (RFC 1183, section 2.2)",
    [Field("mailbox", "The first mailbox."), Field("other", "The second mailbox, or the owner of a TXT record.")],
)


@dataclass(frozen=True)
class Struct:
    """A struct: its name, the types whose data it is, what is said of it, and its fields with their kinds."""

    name: str
    types: List[Type]
    about: str
    fields: List[Tuple[Field, Bound]]

    @property
    def is_own(self) -> bool:
        """Whether it is named for a type, and is the data of that."""
        return any(name_of(it.name) == self.name for it in self.types)

    @property
    def head(self) -> str:
        """The name, with the lifetime of what it borrows."""
        return f"{self.name}<'a>" if any("'a" in it.rust for _, it in self.fields) else self.name


def docs(words: str, indent: int) -> List[str]:
    """The lines of a doc comment."""
    linked = words.replace("serial number (RFC 1982)", "[`SerialNumber`](crate::SerialNumber)")
    return [f"{' ' * indent}/// {line}" for line in textwrap.wrap(linked, WIDTH - indent - 4, break_on_hyphens=False)]


def name_of(name: str) -> str:
    """The name of a variant, and of the struct for it."""
    return name.replace("-", "")


def owner_of(it: Type) -> str:
    """The name of the type whose struct a type has."""
    return OTHER_STRUCTS.get(it.name) or it.like or it.name


def structs(its: TypeList) -> List[Struct]:
    """The structs, each for the types that share it. A type with one field needs none."""
    types_of: Dict[str, List[Type]] = {}
    for it in its.with_class:
        if len(it.kinds) > 1:
            types_of.setdefault(owner_of(it), []).append(it)
    return [struct(its, name, types) for name, types in types_of.items()]


def struct(its: TypeList, name: str, types: List[Type]) -> Struct:
    own = types[0] if name == "Mailboxes" else its.named(name)
    about, fields = MAILBOXES if name == "Mailboxes" else (own.about, own.fields)
    for it in types:
        check_shared(it, own)
    return Struct(name_of(name), types, about, list(zip(fields, map(bound, own.kinds))))


def struct_lines(it: Struct) -> Iterator[str]:
    others = [other.name for other in it.types if other.name != it.name] if it.is_own else []
    shared = f" Also the data of {joined(others)}." if others else ""
    yield from docs(f"{it.about}.{shared}", 12)
    yield f"            {it.head} {{"
    for own, kind in it.fields:
        yield from docs(own.words or f"The {own.name.replace('_', ' ')}.", 16)
        yield f"                {own.name}: {kind.rust}, {kind.owned} = {kind.word},"
    yield "            }"


def variants(its: TypeList, heads: Dict[str, str]) -> Tuple[List[str], List[str]]:
    """The lines of the variants with one value, and of those with a struct."""
    one, several = [], []
    for it in its.with_class:
        name = name_of(it.name)
        if len(it.kinds) == 1:
            kind = bound(it.kinds[0])
            one += [*docs(f"{it.about}.", 16), f"                {name} = {it.code}: {kind.rust}, {kind.owned} = {kind.word},"]
        else:
            several += [*docs(f"{it.about}.", 16), f"                {name} = {it.code}: {heads[name_of(owner_of(it))]},"]
    return one, several


def macro(name: str, about: str, body: List[str]) -> List[str]:
    """The lines of a macro that passes a body to another macro."""
    head = [f"macro_rules! {name} {{", "    ($then:ident) => {", "        $then! {"]
    return ["", *docs(about, 0), *head, *body, "        }", "    };", "}"]


def data(its: TypeList) -> str:
    made = structs(its)
    bodies = [list(struct_lines(it)) for it in made]
    each = [line for body in bodies for line in ([""] + body if body is not bodies[0] else body)]
    one, several = variants(its, {it.name: it.head for it in made})
    own = filled([it.head for it in made if it.is_own], 12, WIDTH + 8).splitlines()
    return lines(
        [
            "//! The table of the data of all types, from which the borrowed and the owned form are made.",
            *macro(
                "each_struct",
                "Passes the structs for data with several fields to a macro. Each field has its type in the borrowed form and in the owned "
                "one, and its kind, by which it is written and shown.",
                each,
            ),
            *macro(
                "each_variant",
                "Passes the variants of the data to a macro: those with one value of a kind, and those with a struct, each with the "
                "code of its type.",
                ["            one {", *one, "            }", "            several {", *several, "            }"],
            ),
            *macro("each_own_struct", "Passes the structs that are the data of the type of their name to a macro.", own),
            "",
            "pub(crate) use {each_own_struct, each_struct, each_variant};",
        ]
    )


def constants(its: TypeList) -> List[str]:
    """The lines of the constants with a name in the registry, and of the others."""
    named, others = [], []
    for it in its.types:
        if it.is_named:
            named += [*docs(f"{it.about}.", 8), f"        {it.identifier} = {it.code},"]
        else:
            others += [*docs(f"{it.about}.", 4), f"    pub const {it.identifier}: RecordType = RecordType({it.code});"]
    return [lines(named), lines(others)]


def outputs(its: TypeList) -> List[Union[Parts, Whole]]:
    return [Parts(CODES, constants(its)), Whole(DATA, data(its))]
