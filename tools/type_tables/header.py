"""What include/dns_names_wire.h declares, for Python: constants, structs, functions, and an exception for each failure."""

from __future__ import annotations

import re
import textwrap
from typing import Dict, Iterator, List, Tuple

from .listed import read
from .outputs import Whole, filled, lines

HEADER = "include/dns_names_wire.h"
DECLARED, FAILURES = (f"python/dns_names_wire/{it}.py" for it in ("_header", "_failures"))
WIDTH = 120
KINDS = {"bool": "c_bool", "size_t": "c_size_t", **{f"{it}_t": f"c_{it}" for it in ("uint8", "uint16", "uint32", "int32")}}
# The enums whose constants are made, with what is taken off their names.
ENUMS = ("dnw_failure", "dnw_section", "dnw_list_item", "dnw_zone_kind")
# The failures that no exception of their own is for.
NO_CLASS = ("DONE", "NO_MEMORY", "NO_ROOM", "OTHER", "BAD_ADDRESS")
# What the exceptions say of which Python knows more or less than C.
SAID = {
    "BAD_TEXT": "a label that is empty, or a line of a master file that does not begin with a name",
    "NOT_UTF8": "a text has no UTF-8, for example since it has half a surrogate pair, or that of an EDNS option is not UTF-8",
    "BAD_ITEM": "an item of a message after one of a later section, or after the last one; or a reply to a response",
    "DATA_TOO_LONG": "data of more than 65535 octets, or a character string of more than 255, that should be written",
}
HEAD = '''"""The constants, structs and functions of the C library, as its header declares them."""

from ctypes import POINTER, Structure, c_bool, c_char_p, c_int32, c_size_t, c_uint8, c_uint16, c_uint32, c_void_p
'''


def camel(name: str) -> str:
    return "".join(word.capitalize() for word in name.split("_"))


def constants(text: str) -> Iterator[str]:
    for name, number in re.findall(r"^#define DNW_(\w+) (0x[0-9a-f]+|\d+)$", text, re.M):
        yield f"{name} = {number}"
    for enum in ENUMS:
        body = re.search(rf"enum {enum} \{{(.*?)\}};", text, re.S)
        yield from (f"{name} = {number}" for name, number in re.findall(r"DNW_(\w+) = (\w+)", body[1] if body else ""))


def structs(text: str) -> Iterator[str]:
    """A class for each struct, whose members are in the order of the header."""
    for name, body in re.findall(r"^struct dnw_(\w+) \{(.*?)^\};", text, re.S | re.M):
        members = []
        for kind, member, size in re.findall(r"(?:struct )?(\w+) (\w+)(?:\[(\w+)\])?;", body):
            own = KINDS[kind] if kind in KINDS else camel(kind[len("dnw_") :])
            members.append(f'("{member}", {own}{" * " + size.replace("DNW_", "") if size else ""})')
        yield from ("", "", f"class {camel(name)}(Structure):", "    _fields_ = [")
        yield from filled(members, 8, WIDTH).splitlines()
        yield "    ]"


def argument(kind: str, name: str, after: str) -> str:
    """How ctypes takes an argument: octets as `bytes` or a buffer of characters, and other slices by a pointer to their first
    element."""
    kind = re.sub(r"const |struct ", "", kind).strip()
    if not kind.endswith("*"):
        return KINDS[kind]
    own = kind[:-1].strip()
    if own == "uint8_t":
        return "c_char_p"
    if after.startswith(f"size_t {name}_"):
        return "c_void_p"
    return f"POINTER({KINDS[own] if own in KINDS else camel(own[len('dnw_'):])})"


def functions(text: str) -> Iterator[str]:
    yield from ("", "", "# What each function takes. It returns the number of a failure, or the length of a text.", "FUNCTIONS = {")
    for name, body in re.findall(r"^(?:uint32_t|size_t) (dnw_\w+)\(([^;]*?)\);", text, re.M):
        given = [" ".join(it.split()) for it in body.split(",") if it != "void"]
        words = [re.fullmatch(r"(.*?)(\w+)", it) for it in given]
        kinds = [argument(it[1], it[2], after) for it, after in zip(words, [*given[1:], ""]) if it]
        line = f'    "{name}": ({", ".join(kinds)}),'
        yield from [line] if len(line) <= WIDTH else [f'    "{name}": (', *filled(kinds, 8, WIDTH).splitlines(), "    ),"]
    yield "}"


def failures(text: str) -> Iterator[Tuple[str, int, str]]:
    """The name, the number and the words of each failure that has an exception."""
    body = re.search(r"enum dnw_failure \{(.*?)\};", text, re.S)
    for name, number, words in re.findall(r"DNW_(\w+) = (\d+),?(?:\s*/\*(.*?)\*/)?", body[1] if body else "", re.S):
        if name not in NO_CLASS:
            yield camel(name), int(number), SAID.get(name, " ".join(words.split()))


def exceptions(text: str) -> Iterator[str]:
    yield from ('"""An exception for each failure of the C library."""', "", "from typing import Dict, Type", "", "from ._errors import DnsError")
    for name, number, words in failures(text):
        said = textwrap.wrap(f"{words[0].upper()}{words[1:]}.", WIDTH - 10, break_on_hyphens=False)
        yield from ("", "", f"class {name}(DnsError):")
        yield from [f'    """{said[0]}"""'] if len(said) == 1 else [f'    """{said[0]}', *(f"    {it}" for it in said[1:]), '    """']
        yield from ("", f"    number = {number}")
    yield from ("", "", "CLASSES: Dict[int, Type[DnsError]] = {")
    yield from filled([f"{number}: {name}" for name, number, _ in failures(text)], 4, WIDTH).splitlines()
    yield "}"


def names() -> List[str]:
    """The names of the exceptions."""
    return [name for name, _, _ in failures(read(HEADER))]


def outputs() -> List[Whole]:
    whole = read(HEADER)
    text = re.sub(r"/\*.*?\*/", "", whole, flags=re.S)
    made = [*constants(text), *structs(text), *functions(text)]
    return [Whole(DECLARED, f"{HEAD}\n{lines(made)}", HEADER), Whole(FAILURES, lines(list(exceptions(whole))), HEADER)]
