"""The classes of Python for the data of types, the names of codes, and what the package shows."""

from __future__ import annotations

import ast
import re
import textwrap
from dataclasses import dataclass
from typing import Dict, Iterable, Iterator, List, Union

from . import header
from .bound import bound
from .listed import TABLE, Type, TypeList
from .message_codes import Code
from .outputs import Parts, Whole, filled, lines

SHOWN, NAMES, DATA = (f"python/dns_names_wire/{it}.py" for it in ("__init__", "_code_names", "_rdata"))
WIDTH = 120
# The types whose data are those of keys.
KEYS = ("DNSKEY", "CDNSKEY")
NAMES_HEAD = '''"""The names of codes, and the constants of their classes, for type checkers."""

from __future__ import annotations

from typing import TYPE_CHECKING, ClassVar

if TYPE_CHECKING:
    from ._codes import OpCode, RecordType, ResponseCode
'''
DATA_HEAD = '''"""The data of records: a class for each type, made when it is first used. Type checkers read _rdata.pyi."""

from typing import Dict, Type

from ._data import Data, class_of

# By the name of each class: the code of the type, the fields and the letters of their kinds, and what it is.
ROWS = {
'''
DATA_TAIL = '''# The names, by the codes.
NAMES: Dict[int, str] = {row[0]: name for name, row in ROWS.items()}


def __getattr__(name: str) -> Type[Data]:
    if name not in ROWS:
        raise AttributeError(f"module {__name__!r} has no attribute {name!r}")
    made = globals()[name] = class_of(name, *ROWS[name])
    return made
'''
STUB_HEAD = '''"""The data of records: a class for each type."""

from dataclasses import dataclass
from ipaddress import IPv4Address, IPv6Address
from typing import Dict, Iterable, Tuple

from ._checks import Bytes
from ._codes import RecordType
from ._data import Data, IPv4Like, IPv6Like, NameLike, StringLike, StringsLike, TypeLike, TypesLike
from ._dnssec import Key
from ._names import Name
from ._table import Prefix
from ._types import TypeSet

NAMES: Dict[int, str]
'''


def about(its_class: Type) -> List[str]:
    """What a class says: the sentence of its type, and what its own fields say."""
    said = [it for it in its_class.fields if it.words]
    text = textwrap.wrap(f"{its_class.about}.", WIDTH - 10, break_on_hyphens=False)
    fields = [textwrap.wrap(f"{it.name}: {it.words}", WIDTH - 4, subsequent_indent=" " * 4, break_on_hyphens=False) for it in said]
    return [*text, *[""] * bool(said), *(line for field in fields for line in field)]


def row(it: Type) -> Iterator[str]:
    fields = " ".join(f"{own.name}:{bound(kind).letter}" for own, kind in zip(it.fields, it.kinds))
    head, text = f'    "{it.identifier}": ({it.code}, "{fields}", ', about(it)
    if len(text) == 1 and len(head) + len(text[0]) + 4 <= WIDTH:
        yield f'{head}"{text[0]}"),'
    else:
        yield f"    \"{it.identifier}\": ("
        yield f'        {it.code}, "{fields}",'
        yield f'        """{text[0]}' + ('"""' if len(text) == 1 else "")
        yield from text[1:-1]
        yield from [f'{text[-1]}"""'] if len(text) > 1 else []
        yield "    ),"


def class_lines(it: Type) -> Iterator[str]:
    kinds = [bound(kind) for kind in it.kinds]
    taken = ["self", *(f"{own.name}: {kind.taken or kind.python}" for own, kind in zip(it.fields, kinds))]
    head, text = f"    def __init__({', '.join(taken)}) -> None: ...", about(it)
    yield from ("", "@dataclass(frozen=True)", f"class {it.identifier}({'Key' if it.name in KEYS else 'Data'}):")
    yield from [f'    """{text[0]}"""'] if len(text) == 1 else [f'    """{text[0]}', *(f"    {line}".rstrip() for line in text[1:]), '    """']
    yield from (f"    {own.name}: {kind.python}" for own, kind in zip(it.fields, kinds))
    if len(head) <= WIDTH:
        yield head
    else:
        yield from ("    def __init__(", *filled(taken, 8, WIDTH, last="").splitlines(), "    ) -> None: ...")


def names_of(name: str, codes: List[Code]) -> Iterator[str]:
    """The lines of the names of codes, by their numbers."""
    yield from ("", f"{name} = {{")
    yield from (f'    {it.number}: "{it.name.upper()}",  # {it.about}' for it in codes)
    yield "}"


def declared(names: Iterable[str], kind: str) -> Iterator[str]:
    """A class that declares the constants of a class of codes, which that gets when it is made."""
    yield from ("", "", f"class {kind}s:", f'    """The constants of {kind}."""', "")
    yield from (f"    {name}: ClassVar[{kind}]" for name in names)


def names(its: TypeList, codes: Dict[str, List[Code]]) -> Iterator[str]:
    yield from ("# The codes of types, by the names of their constants.", "RECORD_TYPES = {")
    yield from (f'    "{it.identifier}": {it.code},' for it in its.types)
    yield "}"
    yield from names_of("OP_CODES", codes["operation"])
    yield from names_of("RESPONSE_CODES", codes["response"])
    yield from declared((it.identifier for it in its.types), "RecordType")
    yield from declared((it.name.upper() for it in codes["operation"]), "OpCode")
    yield from declared((it.name.upper() for it in codes["response"]), "ResponseCode")


@dataclass(frozen=True)
class Stub:
    """What the package shows, for type checkers: as __init__.py says it, by the modules."""

    shown: Parts
    file: str = f"{SHOWN}i"

    def made(self) -> str:
        table = re.search(r"(?s)^_PLACES = (\{.*?^\})", self.shown.made(), re.M)
        places: Dict[str, str] = ast.literal_eval(table[1]) if table else {}
        text = [line for module, its in places.items() for line in imported(module, its.split())]
        return Whole(self.file, lines([*text, "from ._version import VERSION as __version__"]), SHOWN).made()


def imported(module: str, names: List[str]) -> List[str]:
    line = f"from .{module} import {', '.join(f'{it} as {it}' for it in names)}"
    return [line] if len(line) <= WIDTH else [f"from .{module} import (", *filled([f"{it} as {it}" for it in names], 4, WIDTH).splitlines(), ")"]


def outputs(its: TypeList, codes: Dict[str, List[Code]]) -> List[Union[Parts, Stub, Whole]]:
    classes = [line for it in its.with_class for line in class_lines(it)]
    rows = [line for it in its.with_class for line in row(it)]
    shown = Parts(SHOWN, [quoted("_failures", sorted(header.names())), quoted("_rdata", sorted(it.identifier for it in its.with_class))])
    return [
        Whole(NAMES, f"{NAMES_HEAD}\n{lines(list(names(its, codes)))}", f"{TABLE} and tools/codes.txt"),
        shown,
        Stub(shown),
        Whole(DATA, DATA_HEAD + lines([*rows, "}"]) + DATA_TAIL),
        Whole(f"{DATA}i", STUB_HEAD + lines(classes)),
        *header.outputs(),
    ]


def quoted(module: str, names: List[str]) -> str:
    """An entry of the table of what is shown."""
    own = textwrap.wrap(" ".join(names), WIDTH - 10)
    return lines([f'    "{module}":', *(f'        "{line} "' for line in own[:-1]), f'        "{own[-1]}",'])
