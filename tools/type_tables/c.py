"""The constants of C: the header, and the rows of the test that prints and parses each code."""

from __future__ import annotations

import textwrap
from typing import Iterator, List

from .listed import Type, TypeList
from .outputs import Parts, filled, lines

HEADER, TEST = "include/dns_names_wire.h", "c/test.c"
WIDTH = 120


def constants(types: List[Type]) -> Iterator[str]:
    """The lines of the constants, whose comments begin in one column."""
    heads = [f"    DNW_TYPE_{it.identifier} = {it.code}{',' if it is not types[-1] else ''}" for it in types]
    column = max(map(len, heads)) + 1
    for head, it in zip(heads, types):
        first, *more = textwrap.wrap(f"/* {it.about} */", WIDTH - column)
        yield head.ljust(column) + first
        yield from (f"{' ' * (column + 3)}{line}" for line in more)


def outputs(its: TypeList) -> List[Parts]:
    types = list(its.types)
    tested = [f'{{DNW_TYPE_{it.identifier}, "{it.text}"}}' for it in types]
    return [Parts(HEADER, [lines(list(constants(types)))]), Parts(TEST, [filled(tested, 8, 108)])]
