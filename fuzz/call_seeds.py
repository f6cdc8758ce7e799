"""The inputs that the harness `calls` begins with: calls of each function with the arguments by which c/check_null.py calls it, with the
messages and texts that other harnesses begin with, and calls of all functions that take the same state, one after another.

fuzz/calls.c says how an input is read.
"""

import importlib.util
import pathlib
import struct

import callers

ROOT = pathlib.Path(__file__).resolve().parent.parent
EMPTY, KEPT, SOME_ITEMS, AS_IT_IS, LAST, RECENT = b"\0", b"\x40", b"\xe0", b"\0", b"\xd0", b"\xe8"
# Inputs of other harnesses that stand for what parameters of these names take, and how many of their octets are not part of that.
MESSAGES, SKIPPED = {"message": "sections", "request": "sections", "response": "sections"}, 1
TEXTS = {"dnw_zone_next": ("zone_files", 0), "dnw_token_next": ("tokens", 0), "dnw_name_parse": ("texts", 0), "dnw_ttl_parse": ("codes", 0)}
OTHER_TEXT = ("zone_files", 0)
# So many of these are taken for each function.
TAKEN = 40


def check_null():
    """The script c/check_null.py, as a module."""
    spec = importlib.util.spec_from_file_location("check_null", ROOT / "c" / "check_null.py")
    module = importlib.util.module_from_spec(spec)
    spec.loader.exec_module(module)
    return module


def octets(given):
    """Octets as an input of the harness has them."""
    return bytes([len(given)]) + given if len(given) < 0xC0 else b"\xc0" + struct.pack(">H", len(given)) + given


def number(it, given):
    size = callers.NUMBERS[it.type]
    if it.type != "size_t":
        return given.to_bytes(size, "big")
    return bytes([given]) if given < 0xE0 else b"\xed" + struct.pack(">Q", given)


def call(index, function, values, state=KEPT, is_refused=False):
    """A call of a function, with values for some of its parameters, by name: octets or a number, or a list of octets that the harness reads."""
    made = bytes([index, is_refused])
    for it in (it for it in function.parameters if it.kind != "LENGTH"):
        given = values.get(it.name, 0 if it.kind == "NUMBER" else b"")
        if isinstance(given, list):
            made += b"".join(given)
        elif it.kind == "NUMBER":
            made += number(it, given)
        elif it.kind == "INPUT":
            made += octets(given)
        else:
            made += {"OUTPUT": SOME_ITEMS, "MESSAGE": AS_IT_IS, "OBJECT": state, "CONSTANT": state}[it.kind]
    return made


def samples(function, tables):
    """What c/check_null.py passes, and a name for each pointer of which it says nothing."""
    names = {it.name: tables.NAME for it in function.parameters if it.kind == "INPUT"}
    values = tables.SAMPLES.get(function.name, {})
    lengths = {it.name for it in function.parameters if it.kind == "LENGTH"}
    return {**names, **{name: value for name, value in values.items() if name not in lengths}}


def some(others, harness, skipped):
    """Inputs of another harness, not too long, spread over all of them."""
    found = sorted({it[skipped:] for it in others.get(harness, ()) if len(it) < 2000})
    return found[:: max(1, len(found) // TAKEN)]


def calls(others):
    """The inputs; `others` are those of the other harnesses, by their names."""
    tables, (listed, *_) = check_null(), callers.read_header()
    numbered = list(enumerate(listed))
    reading = next((index, it) for index, it in numbered if it.name == "dnw_message_read")
    for index, it in numbered:
        values = samples(it, tables)
        yield call(index, it, values, EMPTY)
        yield call(index, it, values, EMPTY, is_refused=True)
        taken = {p.name for p in it.parameters if p.kind == "INPUT"}
        for message in some(others, "sections", SKIPPED) if taken & set(MESSAGES) else ():
            read = call(*reading, {"message": message, "max_pointers": 200})
            for at in range(4):
                offsets = {p.name: [RECENT, bytes([at])] for p in it.parameters if p.name in ("start", "data_offset", "rrsig")}
                yield read + call(index, it, {**values, **{name: message for name in taken & set(MESSAGES)}, **offsets}, EMPTY, is_refused=at % 2 == 1)
        for text in some(others, *TEXTS.get(it.name, OTHER_TEXT)) if "text" in taken else ():
            yield call(index, it, {**values, "text": text}, EMPTY)
            yield call(index, it, {**values, "text": text}) + call(index, it, {**values, "text": [LAST]}, is_refused=True) * 6
    for kind in sorted({p.type for it in listed for p in it.parameters if p.kind == "OBJECT" and p.type.startswith("struct ")}):
        family = [(index, it) for index, it in numbered if any(p.type == kind for p in it.parameters)]
        yield b"".join(call(index, it, samples(it, tables)) for index, it in family)
        yield b"".join(call(index, it, samples(it, tables), is_refused=True) for index, it in family for _ in range(2))
