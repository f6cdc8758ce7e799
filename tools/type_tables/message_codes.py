"""The codes of messages and of EDNS options, as tools/codes.txt has them, and the tables of Rust that are made of them."""

from __future__ import annotations

import re
import sys
from dataclasses import dataclass
from typing import Dict, Iterator, List, Tuple

from .listed import fail, read
from .outputs import Parts, lines
from .rust import docs

LIST = "tools/codes.txt"
SPECS = "crates/dnw_message_read/specs"
# The definitions that have codes of a kind, and a line of them with a name and a number.
DEFINED = {
    "operation": (f"{SPECS}/OpCodes.antt", r"^op_entry (\w+) = entry (\d+) "),
    "response": (f"{SPECS}/ResponseCodes.antt", r"^response_entry rc\.(\w+) = entry (\d+) "),
    "option": (f"{SPECS}/Codes.antt", r"^option_code (\w+) = (\d+)\b"),
}
OPTION_CLASSES = "python/dns_names_wire/_options.py"


@dataclass(frozen=True)
class Code:
    """A code with a name: its number, and what it stands for."""

    number: int
    name: str
    about: str

    @property
    def constant(self) -> str:
        """The name as a constant: `CLIENT_SUBNET`."""
        return re.sub(r"(?<=[a-z])(?=[A-Z])", "_", self.name).upper()


def defined(kind: str) -> List[Tuple[str, int]]:
    """The names and numbers that the definitions have."""
    file, pattern = DEFINED[kind]
    found = [(name, int(number)) for name, number in re.findall(pattern, read(file), re.M)]
    return found or fail(file, f"there is no line {pattern}")


def faults_of(kind: str, codes: List[Code]) -> Iterator[str]:
    """What is wrong with the codes of a kind. Of two names that the definitions have for a number, one is enough."""
    listed = {it.number: it.name for it in codes}
    if [it.number for it in codes] != sorted(listed):
        yield f"{LIST}: the lines of {kind} are not by ascending numbers"
    names: Dict[int, List[str]] = {}
    for name, number in defined(kind):
        names.setdefault(number, []).append(name)
    for number, all_names in names.items():
        if listed.get(number) not in all_names:
            yield f"{LIST}: {kind} {number} is not {all_names[0]}, as {DEFINED[kind][0]} has it"


def faults_of_options(codes: List[Code]) -> Iterator[str]:
    classes = dict(re.findall(r"^class (\w+)\(.*\):\n(?:(?!class ).*\n)*?    code = (\d+)$", read(OPTION_CLASSES), re.M))
    for it in codes:
        if classes.get(it.name) != str(it.number):
            yield f"{OPTION_CLASSES}: there is no class {it.name} with the code {it.number}"


def message_codes() -> Dict[str, List[Code]]:
    """The codes of each kind, in their order."""
    codes: Dict[str, List[Code]] = {kind: [] for kind in DEFINED}
    for line in read(LIST).splitlines():
        found = re.fullmatch(r"(\w+) (\d+) (\w+): (\S.*)", line)
        if found and found[1] in codes:
            codes[found[1]].append(Code(int(found[2]), found[3], found[4]))
        elif line and not line.startswith("#"):
            fail(LIST, f"not a kind of code, a number, a name and what it stands for: {line}")
    faults = [it for kind in codes for it in faults_of(kind, codes[kind])] + list(faults_of_options(codes["option"]))
    if faults:
        sys.exit("\n".join(f"types: {it}" for it in faults))
    return codes


def variants(codes: List[Code]) -> str:
    """The rows of an enum of Rust, with the text of each."""
    rows = ([*docs(f"{it.about}.", 8), f'        {it.name} = {it.number} "{it.name.upper()}",'] for it in codes)
    return lines([line for row in rows for line in row])


def constants(codes: List[Code]) -> str:
    rows = ([*docs(f"The code of {it.about[0].lower()}{it.about[1:]}.", 4), f"    pub const {it.constant}: u16 = {it.number};"] for it in codes)
    return lines([line for row in rows for line in row])


def outputs(codes: Dict[str, List[Code]]) -> List[Parts]:
    return [
        Parts("rust/src/header.rs", [variants(codes["operation"]), variants(codes["response"])]),
        Parts("rust/src/edns_option.rs", [constants(codes["option"])]),
    ]
