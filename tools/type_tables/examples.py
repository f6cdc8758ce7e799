"""Each type of the list has an example, from its RFC or by another implementation, since a wrong row would be wrong everywhere."""

from __future__ import annotations

import re
from typing import Iterator, Set, Tuple

from .listed import TypeList, read
from .page import Forms

# Requests of the replay, with answers that are not ours: data as octets, and as texts.
OCTETS = ("diff/rows/fields.txt", "diff/lists/fields.txt")
TEXTS = ("diff/rows/data_texts.txt", "diff/lists/data_texts.txt")
# The test that calls what takes records with one of each type, since no contract refuses a body that is out of memory for one type. A
# TSIG, which is of a whole message, is none of them.
AMPLE = "c/test_ample_types.c"


def shown(files: Tuple[str, ...], words: str) -> Set[int]:
    """The codes of the types that a request of one of these words is for."""
    return {int(code) for file in files for code in re.findall(rf"^(?:{words}) (\d+) ", read(file), re.M)}


def faults(its: TypeList) -> Iterator[str]:
    octets, texts, forms = shown(OCTETS, "fields|record"), shown(TEXTS, "data-text|data-parse"), Forms()
    called = {int(code) for code in re.findall(r'^    \{(\d+), "', read(AMPLE), re.M)}
    for it in its.rows:
        if it.code not in octets:
            yield f"{OCTETS[0]}: {it.name} ({it.code}) has no example of its octets"
        if forms.has_text(it) and it.code not in texts:
            yield f"{TEXTS[0]}: {it.name} ({it.code}) has no example of its text"
        if it.code not in called and it.name != "TSIG":
            yield f"{AMPLE}: {it.name} ({it.code}) has no row"
