"""The C library as Rust calls it: its structs and functions, as include/dns_names_wire.h declares them, and a safe function over each.

A pointer with a length is a slice, one with a size is a buffer, and one to a struct is a reference. What a function only stores is what
the safe one returns, and its number is an `Err` if it is a failure.
"""

from __future__ import annotations

import re
from dataclasses import dataclass, field
from typing import Iterator, List, Optional, Tuple

from .listed import fail, read
from .outputs import Whole, lines

HEADER, LIBRARY = "include/dns_names_wire.h", "rust/src/ffi/library.rs"
SCALARS = {"bool": "bool", "size_t": "usize", **{f"{sign}int{bits}_t": f"{sign or 'i'}{bits}" for sign in ("u", "") for bits in (8, 16, 32)}}
# Structs whose names are another thing in Rust, those that a function reads too, and the one that is stored if it fails.
OTHER_NAMES = {"option": "OptionParts"}
STATES = {"writer", "zone", "fields", "lexer"}
FAULT = "message_fault"
# The enums whose numbers are passed or stored, and as what.
ENUMS = {"dnw_flag": "u16", "dnw_zone_kind": "u32", "dnw_list_item": "u8", "dnw_field_kind": "u32"}
# Codes that have a type of their own.
CODES = {"record_type": "RecordType", "query_type": "RecordType", "record_class": "Class"}
# The longest array of which there is a `Default`, and which is copied without a word.
SHORT = 32


def struct_name(name: str) -> str:
    return OTHER_NAMES.get(name) or "".join(word.capitalize() for word in name.split("_"))


def scalar(name: str) -> str:
    return SCALARS.get(name) or (f"{struct_name(name[len('struct dnw_'):])}" if name.startswith("struct dnw_") else fail(HEADER, f"there is no type {name}"))


def number_of(text: str, size: str) -> int:
    """The number that an array has as its size, or the one that its name stands for."""
    found = re.search(rf"(?m)^#define {size} (\d+)$", text)
    return int(found[1] if found else size)


@dataclass(frozen=True)
class Parameter:
    """A parameter: its name, the type that it has or points to, and whether it is a pointer, and to what is not changed."""

    name: str
    its: str
    is_pointer: bool
    is_const: bool

    @property
    def raw(self) -> str:
        return f"{'*const ' if self.is_const else '*mut ' if self.is_pointer else ''}{scalar(self.its)}"

    @property
    def struct(self) -> Optional[str]:
        return self.its[len("struct dnw_") :] if self.its.startswith("struct") else None


@dataclass(frozen=True)
class Function:
    name: str
    returns: str
    parameters: List[Parameter]

    def size_after(self, at: int) -> bool:
        """Whether the parameter at an index is a pointer to several values, so that the next one is their number."""
        it, rest = self.parameters[at], self.parameters[at + 1 :]
        several = it.is_const and not it.struct or rest[:1] and re.fullmatch(rf"{it.name}_(len|size|count)", rest[0].name)
        return it.is_pointer and bool(several)


def functions(text: str) -> Iterator[Function]:
    for returns, name, given in re.findall(r"(?m)^(uint32_t|size_t) dnw_(\w+)\(([^)]*)\);", text):
        parameters = []
        for it in [] if given == "void" else re.split(r",\s*", given):
            found = re.fullmatch(r"(const )?((?:struct )?\w+) (\*?)(\w+)", it)
            is_const, its, star, own = found.groups() if found else fail(HEADER, f"{it} is no parameter")
            parameters.append(Parameter(own, its, bool(star), bool(is_const)))
        yield Function(name, scalar(returns), parameters)


def declaration(it: Function) -> str:
    return f"    fn dnw_{it.name}({', '.join(f'{own.name}: {own.raw}' for own in it.parameters)}) -> {it.returns};"


@dataclass
class Call:
    """What the safe function takes, what it makes of that, what it passes on, and what the call stores: names, types and first values."""

    takes: List[str] = field(default_factory=list)
    makes: List[str] = field(default_factory=list)
    passes: List[str] = field(default_factory=list)
    stores: List[Tuple[str, str, str]] = field(default_factory=list)

    @property
    def lifetime(self) -> str:
        return "<'b>" if any("<'b>" in it for it in self.takes) else ""


def several(call: Call, own: Parameter, is_state: bool) -> None:
    """A slice, or a buffer. That of a message that is written item by item holds the items before."""
    kind = scalar(own.its)
    if own.is_const:
        call.takes.append(f"{own.name}: &[{kind}]")
        call.passes += [f"{own.name}.as_ptr()", f"{own.name}.len()"]
    elif kind == "u8" and not is_state:
        call.takes.append(f"{own.name}: impl Into<Buffer<'b>>")
        call.makes.append(f"    let {own.name} = {own.name}.into();")
        call.passes += [f"{own.name}.first", f"{own.name}.size"]
    else:
        call.takes.append(f"{own.name}: &mut [{kind}]")
        call.passes += [f"{own.name}.as_mut_ptr()", f"{own.name}.len()"]


def one(call: Call, own: Parameter) -> None:
    """A number, a struct that is read, or what is stored."""
    kind = scalar(own.its)
    if not own.is_pointer:
        code = CODES.get(own.name)
        call.takes.append(f"{own.name}: {code or kind}")
        call.passes.append(f"{own.name}.code()" if code else own.name)
    elif own.is_const or own.struct in STATES or own.struct == FAULT:
        call.takes.append(f"{own.name}: &{'' if own.is_const else 'mut '}{kind}")
        call.passes.append(own.name)
    else:
        zero = f"{kind}::ZERO" if own.struct else "false" if kind == "bool" else "0"
        call.stores.append((own.name, kind, zero))
        call.passes.append(f"&mut {own.name}")


def call_of(it: Function) -> Call:
    call = Call()
    is_state = any(own.struct == "writer" for own in it.parameters)
    sizes = {at + 1 for at in range(len(it.parameters)) if it.size_after(at)}
    for at, own in enumerate(it.parameters):
        if at + 1 in sizes:
            several(call, own, is_state)
        elif at not in sizes:
            one(call, own)
    return call


def joined(items: List[str]) -> str:
    """One item, or the tuple of several."""
    return items[0] if len(items) == 1 else f"({', '.join(items)})"


def safe(it: Function) -> Iterator[str]:
    """The lines of the safe function."""
    call = call_of(it)
    names, kinds = joined([name for name, _, _ in call.stores]), joined([kind for _, kind, _ in call.stores])
    # What takes no pointer, and what returns a length, cannot fail. The number of a text's fault says what is wrong.
    is_plain = it.returns == "usize" or not any(own.is_pointer for own in it.parameters)
    is_fault = it.name.endswith("text_fault") and kinds == "usize"
    returns = it.returns if is_plain else f"({it.returns}, {kinds})" if is_fault else f"Result<{kinds}, Error>"
    yield from ("", f"/// Calls `dnw_{it.name}`.", "#[inline]")
    yield f"pub(crate) fn {it.name}{call.lifetime}({', '.join(call.takes)}) -> {returns} {{"
    yield from call.makes
    yield from (f"    let mut {name} = {zero};" for name, _, zero in call.stores)
    yield "    // SAFETY: as the module `ffi` says of each call."
    unsafe = f"unsafe {{ dnw_{it.name}({', '.join(call.passes)}) }}"
    if is_plain:
        yield f"    {unsafe}"
    else:
        yield f"    let number = {unsafe};"
        yield f"    (number, {names})" if is_fault else f"    outcome(number, {names})"
    yield "}"


def struct(text: str, name: str, body: str) -> Iterator[str]:
    fields: List[Tuple[str, str, str]] = []
    is_short = True
    for its, own, size in re.findall(r"((?:struct )?\w+) (\w+)(?:\[(\w+)\])?;", re.sub(r"/\*.*?\*/", "", body, flags=re.S)):
        kind, zero = scalar(its), f"{scalar(its)}::ZERO" if its.startswith("struct") else "false" if its == "bool" else "0"
        if size:
            number = number_of(text, size)
            is_short = is_short and number <= SHORT
            kind, zero = f"[{kind}; {number}]", f"[{zero}; {number}]"
        fields.append((own, kind, zero))
    yield ""
    yield f"/// `struct dnw_{name}`"
    yield "#[repr(C)]"
    yield f"#[derive(Clone, {'Copy, ' if is_short else ''}Debug, PartialEq, Eq, Hash)]"
    yield f"pub(crate) struct {struct_name(name)} {{"
    yield from (f"    pub(crate) {own}: {kind}," for own, kind, _ in fields)
    yield "}"
    yield ""
    yield f"impl {struct_name(name)} {{"
    yield "    /// It before a call has stored it."
    yield f"    pub(crate) const ZERO: Self = Self {{ {', '.join(f'{own}: {zero}' for own, _, zero in fields)} }};"
    yield "}"


def constants(text: str) -> Iterator[str]:
    yield ""
    for name, number in re.findall(r"(?m)^#define DNW_(\w+) (\d+)$", text):
        yield f"pub(crate) const {name}: usize = {number};"
    for enum, kind in ENUMS.items():
        body = re.search(rf"(?ms)^enum {enum} \{{(.*?)^\}};", text)
        for name, number in re.findall(r"DNW_(\w+) = (\w+)", body[1] if body else fail(HEADER, f"there is no {enum}")):
            yield f"pub(crate) const {name}: {kind} = {number};"


def library(text: str) -> str:
    its = list(functions(text))
    structs = re.findall(r"(?ms)^struct dnw_(\w+) \{\n(.*?)^\};", text)
    return lines(
        [
            "//! The C library: its structs and functions, and a safe function over each. See the module `ffi`.",
            "use super::{outcome, Buffer};",
            "use crate::codes::{Class, RecordType};",
            "use crate::error::Error;",
            *constants(text),
            *(line for name, body in structs for line in struct(text, name, body)),
            "",
            'extern "C" {',
            *map(declaration, its),
            "}",
            *(line for it in its for line in safe(it)),
        ]
    )


def outputs() -> List[Whole]:
    return [Whole(LIBRARY, library(read(HEADER)), HEADER)]
