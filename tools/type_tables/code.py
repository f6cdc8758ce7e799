"""The table of the code in Rattle: crates/dnw_data/src/table.rt. The prover checks it against the list."""

from __future__ import annotations

import re
from typing import Dict, Iterable, List, Tuple

from .listed import TABLE, Type, TypeList, fail, items, read
from .outputs import Parts, lines

FILE = "crates/dnw_data/src/table.rt"
# The widest list of kinds that `rt fmt` leaves on one line.
WIDTH = 60


def canonical(kind: str) -> str:
    """A kind of the code, as the definitions write it: `Kind::Name(NameForm::Plain)` is `Name Plain`."""
    return " ".join(re.findall(r"(\w+)(?!\w|::)", kind))


def constants(text: str) -> Tuple[Dict[str, str], Dict[Tuple[str, ...], str]]:
    """The words of the code for kinds, and those for the fields of whole types."""
    single = {canonical(kind): name for name, kind in re.findall(r"^const (\w+): Kind = (.*);$", text, re.M)}
    kind_of = {name: kind for kind, name in single.items()}
    whole = {}
    for name, body in re.findall(r"^const (\w+): \[Kind; \d+\] = \[\n((?: .*\n)+)\];$", text, re.M):
        words = [it.strip().rstrip(",") for it in body.splitlines()]
        whole[tuple(kind_of.get(it) or canonical(it) for it in words)] = name
    return single, whole


def word_of(kind: str, single: Dict[str, str]) -> str:
    """How the code writes a kind."""
    first, *rest = kind.split()
    if kind in single:
        return single[kind]
    if not rest:
        return f"Kind::{first}"
    return f"Kind::Shaped(Shape::{rest[0]})" if first == "Shaped" else fail(FILE, f"there is no constant for {kind}")


def arm(it: Type, single: Dict[str, str], whole: Dict[Tuple[str, ...], str]) -> List[str]:
    """The lines of the arm of a type."""
    if it.kinds in whole:
        return [f"        {it.code} => &{whole[it.kinds]}, // {it.name}"]
    words = [word_of(kind, single) for kind in it.kinds]
    if len(", ".join(words)) <= WIDTH:
        return [f"        {it.code} => &[{', '.join(words)}], // {it.name}"]
    return [f"        {it.code} => &[", *(f"            {word}," for word in words), f"        ], // {it.name}"]


def internet_codes() -> List[str]:
    """The codes of the types that only IN has."""
    found = re.search(r"^internet_types = (.*)$", read(TABLE), re.M)
    a6 = re.search(r"^a6 = (\d+)$", read(TABLE), re.M)
    if not found or not a6:
        fail(TABLE, "there are no internet_types, or a6 is no number")
    return [a6[1] if it == "a6" else it for it in items(found[1])]


def arms(block: Iterable[Type], text: str) -> str:
    single, whole = constants(text)
    return lines([line for it in block for line in arm(it, single, whole)])


def outputs(its: TypeList) -> List[Parts]:
    text = read(FILE)
    internet = lines(["    matches!(", "        code,", f"        {' | '.join(internet_codes())}", "    )"])
    return [Parts(FILE, [internet, *(arms(block, text) for block in its.blocks)])]
