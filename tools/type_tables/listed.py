"""The list of record types, as crates/dnw_data/specs/Table.antt has it."""

from __future__ import annotations

import pathlib
import re
import sys
from dataclasses import dataclass, field
from typing import Dict, Iterator, List, NoReturn, Tuple

ROOT = pathlib.Path(__file__).resolve().parent.parent.parent
TABLE = "crates/dnw_data/specs/Table.antt"
NAMES = ("crates/dnw_base/specs/RecordTypes.antt", "crates/dnw_base/specs/TypeNames.antt")

# The lines of the list: what a type is, a field or the type whose fields it has, its row; and a type without a row.
ABOUT = re.compile(r" +-- (\*?)(\S+): (\S.*)")
LIKE = re.compile(r" +--   as (\S+)")
FIELD = re.compile(r" +--   ([a-z]\w*)(?:: (\S.*))?")
ROW = re.compile(r" +(?:∷ )?row (\d+) \((.*)\)")
END = re.compile(r" +∷ \[\]")
WITHOUT_ROW = re.compile(r"^--   (\d+) (\*?)(\S+): (\S.*)$", re.M)


def fail(file: str, why: str) -> NoReturn:
    sys.exit(f"types: {file}: {why}")


def read(file: str) -> str:
    return (ROOT / file).read_text()


def items(text: str) -> List[str]:
    """The items of a list of the definitions."""
    return [it.strip() for it in text.split("∷") if it.strip() not in ("", "[]")]


@dataclass(frozen=True)
class Field:
    """A field of data: its name, and what it says, if that needs words."""

    name: str
    words: str = ""


@dataclass
class Type:
    """A record type. It has kinds if it has a row, and fields if the bindings have a class for its data."""

    code: int
    name: str
    about: str
    is_named: bool
    kinds: Tuple[str, ...] = ()
    fields: List[Field] = field(default_factory=list)
    like: str = ""

    @property
    def identifier(self) -> str:
        return self.name.replace("-", "_")

    @property
    def source(self) -> str:
        """What stands in the first brackets: the RFC and its section, as a rule."""
        found = re.search(r"\((.*?)\)", self.about)
        return found[1] if found else fail(TABLE, f"{self.name} has no source in brackets")

    @property
    def text(self) -> str:
        """How the type is printed: a code without a name in the registry by its number."""
        return self.name if self.is_named else f"TYPE{self.code}"


@dataclass(frozen=True)
class TypeList:
    """The types in the order of their codes, and the blocks of rows in the order of the file."""

    types: Tuple[Type, ...]
    blocks: Tuple[Tuple[Type, ...], ...]

    def named(self, name: str) -> Type:
        return {it.name: it for it in self.types}.get(name) or fail(TABLE, f"there is no type {name}")

    @property
    def rows(self) -> List[Type]:
        return [it for it in self.types if it.kinds]

    @property
    def with_class(self) -> List[Type]:
        """The types whose data the bindings have as more than octets."""
        return [it for it in self.types if it.fields]


def short_words() -> Dict[str, str]:
    """What the short words of the list for kinds stand for."""
    return dict(re.findall(r"^abbrev pub (\w+) : Kind\n\1 = (.*)$", read(TABLE), re.M))


def kinds_of(text: str) -> Tuple[str, ...]:
    """The kinds of a list of the definitions, without the paths that words are found by, as in `kinds.List lists.Texts`."""
    short = short_words()
    return tuple(re.sub(r"\b[a-z]\w*\.", "", short.get(it, it)) for it in items(text))


def types_of(block: str) -> Iterator[Type]:
    """The types of a block of rows."""
    made = None
    for line in block.splitlines():
        found = ABOUT.fullmatch(line)
        if made and (found or END.fullmatch(line)):
            fail(TABLE, f"{made.name} has no row")
        elif found:
            made = Type(-1, found[2], found[3], not found[1])
        elif END.fullmatch(line):
            continue
        elif made is None:
            fail(TABLE, f"not below the name and the sentence of a type: {line.strip()}")
        elif found := LIKE.fullmatch(line):
            made.like = found[1]
        elif found := FIELD.fullmatch(line):
            made.fields.append(Field(found[1], found[2] or ""))
        elif found := ROW.fullmatch(line):
            made.code, made.kinds = int(found[1]), kinds_of(found[2])
            yield made
            made = None
        else:
            fail(TABLE, f"not a line of the list: {line.strip()}")


def faults_of(its: TypeList) -> Iterator[str]:
    """What is wrong with the list by itself, and beside the names of types."""
    for block in its.blocks:
        if [it.code for it in block] != sorted({it.code for it in block}):
            yield f"{TABLE}: the rows from {block[0].name} to {block[-1].name} are not by ascending codes"
    if len({it.code for it in its.types} | {it.name for it in its.types}) != 2 * len(its.types):
        yield f"{TABLE}: a code or a name is there twice"
    for it in its.rows:
        if it.fields and len(it.fields) != len(it.kinds):
            yield f"{TABLE}: {it.name} has {len(it.kinds)} fields, and names of {len(it.fields)}"
    yield from faults_of_names(its)


def faults_of_names(its: TypeList) -> Iterator[str]:
    entries = {int(code): name for file in NAMES for code, name in re.findall(r'entry (\d+) \(codes "(\S+?)"\)', read(file))}
    listed = {it.code: it for it in its.types}
    for code, name in sorted(entries.items()):
        if code not in listed or listed[code].name != name:
            yield f"{TABLE}: {code} is not {name}, as {' or '.join(NAMES)} has it"
    for it in its.types:
        if it.is_named and it.code not in entries:
            yield f"{NAMES[1]}: {it.code} is not {it.name}, as {TABLE} has it"


def with_fields_of_others(its: TypeList) -> TypeList:
    for it in its.types:
        if it.like:
            other = its.named(it.like)
            if it.fields or other.like or not other.fields:
                fail(TABLE, f"{it.name} cannot be as {other.name}: one of them has own fields, and the other none")
            it.fields = other.fields
    return its


def type_list() -> TypeList:
    text = read(TABLE)
    blocks = tuple(tuple(types_of(it)) for it in re.findall(r"^\w+_rows =\n((?: .*\n)+)", text, re.M))
    others = [Type(int(code), name, about, not mark) for code, mark, name, about in WITHOUT_ROW.findall(text)]
    types = sorted([*others, *(it for block in blocks for it in block)], key=lambda it: it.code)
    its = with_fields_of_others(TypeList(tuple(types), blocks))
    faults = list(faults_of(its))
    if faults:
        sys.exit("\n".join(f"types: {it}" for it in faults))
    return its
