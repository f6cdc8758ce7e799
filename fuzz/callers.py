#!/usr/bin/env python3
"""Writes what the harness `calls` knows of each function of include/dns_names_wire.h, from the header alone.

usage: fuzz/callers.py FILE NAME.. writes FILE, a header that fuzz/calls.c includes, with the functions of these names
       fuzz/callers.py             lists the functions, and which errors each can fail with
       fuzz/callers.py --check     fails if a harness that calls a function is not there

A function's parameters say what it takes, by their types and names; the comment before it says with which errors it fails, whether it
allocates, and what it leaves unchanged. It fails at a function that has a parameter that it cannot make, or whose comment says of no
error when it comes, and at a sentence of the header that it rests on and does not find. So no function of the header can be forgotten.

With --check it looks at the harnesses of fuzz/run: each function is called by `calls`, and by one that knows what it returns, or the test
below compares what it returns. It is part of `.ci/public-calls`.
"""

import pathlib
import re
import sys

ROOT = pathlib.Path(__file__).resolve().parent.parent
HEADER = ROOT / "include" / "dns_names_wire.h"
# Functions of which no harness has a model, and the test that compares what they return with what other implementations do.
WITHOUT_MODEL = {
    "dnw_is_reply_to": "c/test_messages.c",
    "dnw_message_json": "c/test_printing.c",
    "dnw_message_print": "c/test_printing.c",
    "dnw_option_print": "fuzz/options.py",
    "dnw_option_read": "fuzz/options.py",
    "dnw_option_write": "fuzz/options.py",
    "dnw_version": "c/test.c",
    "dnw_writer_fill": "c/test_writer.c",
    "dnw_writer_query": "c/test_writer.c",
    "dnw_writer_reply": "c/test_writer.c",
    "dnw_writer_reply_edns": "c/test_writer.c",
    "dnw_zone_check": "c/test_zone.c",
    "dnw_zone_put_origin": "c/test_zone.c",
    "dnw_zone_put_record": "c/test_zone.c",
    "dnw_zone_put_ttl": "c/test_zone.c",
}
NUMBERS = {"bool": 1, "uint8_t": 1, "uint16_t": 2, "uint32_t": 4, "size_t": 8, "int32_t": 4}
# What holds the number of items that were stored in a buffer: a parameter, or a member of one.
LENGTHS = ("len", "text_len", "data_len", "count", "owner_len", "octets_len")
# Buffers whose number of items has another name, and those of which it is not stored.
OTHER_LENGTHS = {"rows": "row_count", "names": "names_len", "order": ""}
# What the first comment of the header says in whole.
NO_STATUS = r"Each function except `(dnw_\w+)`, `(dnw_\w+)` and `(dnw_\w+)` returns 0, or the number of an error\."
STORES_FAILING = r"There are exceptions:\s+`(dnw_\w+)` and `(dnw_\w+)` store where the input is wrong, and what writes a message or its table\s+may leave any octets there\."
WHERE_WRONG = {"dnw_name_text_fault": "offset", "dnw_message_read": "fault"}
# The errors that functions share by `by the rules above` follow these words.
RULES, RULES_ABOVE = "an item fails with", "by the rules above"
ANY_OCTETS = "buffer may hold anything|octets of the buffer may have changed|what the buffers hold has no meaning"


class Parameter:
    """A parameter: what kind of argument it takes, and the name and the size of its type."""

    def __init__(self, text):
        self.name = re.search(r"\w+$", text)[0]
        self.type = re.sub(r"\bconst\b|\*", "", text[: -len(self.name)]).strip()
        self.is_pointer, self.is_const = "*" in text, text.startswith("const")
        self.kind = "POINTER" if self.is_pointer else "NUMBER"


class Function:
    """A function, with its parameters and the comment that it stands under."""

    def __init__(self, result, name, parameters, comment):
        self.result, self.name, self.parameters, self.comment = result, name, parameters, comment


def stop(why):
    sys.exit(f"callers: {why}")


def members(text):
    """The members of each struct, by its name: type, name and number of items."""
    found = {}
    for name, body in re.findall(r"^struct (dnw_\w+) \{\n(.*?)^\};", re.sub(r"/\*.*?\*/", "", text, flags=re.S), re.M | re.S):
        found[name] = re.findall(r"^\s*((?:struct )?\w+) (\w+)(?:\[(\w+)\])?;", body, re.M)
        if body.count(";") != len(found[name]):
            stop(f"struct {name} has a member that is not understood")
    return found


def functions(text):
    """The functions of the header in their order. Those that follow one another stand under one comment."""
    comment, found = "", []
    for part in re.finditer(r"/\*(.*?)\*/|^(?:uint32_t|size_t) dnw_\w+\([^;{]*?\);", text, re.S | re.M):
        if part[1] is not None:
            comment = " ".join(part[1].split())
            continue
        result, name, listed = re.fullmatch(r"(\w+) (dnw_\w+)\((.*)\);", part[0], re.S).groups()
        parameters = [Parameter(" ".join(it.split())) for it in listed.split(",") if it != "void"]
        found.append(Function(result, name, parameters, comment))
    return found


def give_kinds(function, structs):
    """Says of each pointer what it leads to, and of each length to which pointer it belongs."""
    is_writer = any(it.type == "struct dnw_writer" for it in function.parameters)
    for at, it in enumerate(function.parameters):
        after = function.parameters[at + 1] if at + 1 < len(function.parameters) else None
        is_counted = bool(after) and after.type == "size_t" and not after.is_pointer
        if it.kind == "LENGTH":
            continue
        if it.kind == "NUMBER":
            if it.type not in NUMBERS:
                stop(f"{function.name}: {it.name}: a number of type {it.type}")
            continue
        is_known = it.type in NUMBERS or it.type.removeprefix("struct ") in structs
        if not is_known:
            stop(f"{function.name}: {it.name}: a pointer to {it.type}")
        # A pointer to octets has a length; so has one whose length is named for it.
        if it.type == "uint8_t" or is_counted and re.fullmatch(rf"{it.name}_(len|size|count)", after.name):
            if not is_counted:
                stop(f"{function.name}: {it.name}: no length follows")
            after.kind = "LENGTH"
            it.kind = "INPUT" if it.is_const else "MESSAGE" if is_writer and it.name == "message" else "OUTPUT"
        else:
            it.kind = "CONSTANT" if it.is_const else "OBJECT"


def failing(comment):
    """What a comment says of when a function fails."""
    return " ".join(it for it in re.split(r"(?<=[.)])\s+(?=[A-Z])", comment) if re.search(r"\bfails?\b|returns the number", it))


def as_others(function, listed):
    """The functions that a function fails as, by its comment or by that of one before it."""
    at, said, found = listed.index(function), failing(function.comment), set()
    found.update(re.findall(r"\b[Aa]s (dnw_\w+)", said))
    if leading := re.match(r"As (dnw_\w+), but", function.comment):
        found.add(leading[1])
    if "as that does" in said:
        found.update(re.findall(r"\bas (dnw_\w+) does\b", function.comment))
    for before in listed[max(0, at - 3) : at]:
        if "so do the next three." in before.comment:
            found.add(before.name)
    for before in listed[max(0, at - 2) : at]:
        if function.comment.startswith("The same for") and before.name.rsplit("_")[-1] == function.name.rsplit("_")[-1]:
            found.add(before.name)
    return {it.name: it for it in listed if it.name in found}.values()


def errors(function, listed, failures, seen=()):
    """The errors that a function can fail with, by its comment and by those of the functions that it fails as."""
    own, _, rules = function.comment.partition(RULES)
    found = set(re.findall(r"\bDNW_\w+", failing(own))) & failures
    if RULES_ABOVE in own:
        (above,) = (it.comment for it in listed if RULES in it.comment)
        found |= set(re.findall(r"\bDNW_\w+", above.partition(RULES)[2])) & failures
    for it in as_others(function, listed):
        if it.name not in seen:
            found |= errors(it, listed, failures, (*seen, function.name))
    # No buffer is too short for a function that has none, and what it writes into a message is too long for that.
    if not any(it.kind == "OUTPUT" for it in function.parameters):
        found -= {"DNW_NO_ROOM"} - set(re.findall(r"\bDNW_\w+", failing(own)))
    return found


def allocates_not(function, listed):
    """Whether the comment says so, or that of the function that it refers to, or of the group."""
    (above,) = (it.comment for it in listed if RULES in it.comment)
    is_of_group = any(it.kind == "MESSAGE" for it in function.parameters) and "None of these functions allocates." in above
    is_as_other = any("does not allocate" in it.comment and function.comment.startswith(f"As {it.name}, but") for it in as_others(function, listed))
    return "does not allocate" in function.comment or is_of_group or is_as_other


def length_of(function, buffer, structs):
    """The object that has the number of items that a buffer was given, and the member of it."""
    wanted = [OTHER_LENGTHS[buffer.name]] if buffer.name in OTHER_LENGTHS else LENGTHS
    for at, it in enumerate(it for it in function.parameters if it.kind != "LENGTH"):
        if it.kind == "OBJECT" and it.type == "size_t" and it.name in wanted:
            return at, None
        if it.kind == "OBJECT":
            for kind, member, _ in structs.get(it.type.removeprefix("struct "), []):
                if kind == "size_t" and member in wanted:
                    return at, member
    if wanted != [""] and function.result == "uint32_t":
        stop(f"{function.name}: nothing has the length of what is stored in {buffer.name}")
    return None, None


def member_table(name, kind, structs):
    """The members of one type of a struct, as rows."""
    rows = []
    for type_of_it, member, count in structs[name]:
        if type_of_it.removeprefix("struct ") in structs and any(it[0] == "bool" for it in structs[type_of_it.removeprefix("struct ")]):
            stop(f"struct {name}: {member} has bools within")
        if type_of_it == kind and not count:
            rows.append(f"{{offsetof(struct {name}, {member}), sizeof({kind})}}, ")
    return f"static const struct member {kind}_of_{name}[] = {{{''.join(rows)}{{0, 0}}}};"


def parameter_row(function, it, structs, names):
    """A row of the table of a function's parameters."""
    struct = it.type.removeprefix("struct ")
    named = it.name if it.kind == "INPUT" else it.type
    words = [f".kind = {it.kind}", f".size = sizeof({it.type})", f".name = {names.setdefault((it.kind == 'INPUT', named), len(names))}"]
    if struct in structs:
        words += [f".bools = bool_of_{struct}", f".numbers = size_t_of_{struct}"]
    elif it.kind == "OBJECT":
        words += [f".{which} = whole_{kind}" for which, kind in (("bools", "bool"), ("numbers", "size_t")) if it.type == kind]
    if it.kind == "OUTPUT":
        at, member = length_of(function, it, structs)
        words.append(f".length = {'NO_PARAMETER' if at is None else at}")
        if member:
            owner = [it for it in function.parameters if it.kind != "LENGTH"][at].type
            words.append(f".length_offset = offsetof({owner}, {member})")
    return f"    {{{', '.join(words)}}},"


def passed(it, at):
    """The words that pass an argument to the function."""
    if it.kind == "NUMBER":
        return f"({it.type})a[{at}].number"
    pointer = f"({'const ' if it.is_const else ''}{it.type} *)a[{at}].octets"
    return f"{pointer}, a[{at}].number" if it.kind in ("INPUT", "OUTPUT", "MESSAGE") else pointer


def function_rows(function, listed, failures, structs, names, exceptions):
    """What the table has for a function: how it is called, its parameters, and its row."""
    taken = [it for it in function.parameters if it.kind != "LENGTH"]
    no_status, stores_failing = exceptions
    found = errors(function, listed, failures)
    has_status = function.name not in no_status
    if has_status and not found and "cannot fail" not in function.comment:
        stop(f"{function.name}: no comment says how it fails")
    stored = [at for at, it in enumerate(taken) if function.name in stores_failing and it.name == WHERE_WRONG[function.name]]
    facts = {
        "errors": " | ".join(f"UINT64_C(1) << {it}" for it in sorted(found)) or "0",
        "has_status": str(has_status).lower(),
        "never_allocates": str(allocates_not(function, listed)).lower(),
        "leaves_any_octets": str(bool(re.search(ANY_OCTETS, function.comment))).lower(),
        "sets_truncation": str("TC is set in the header" in function.comment).lower(),
        "stored_failing": str(stored[0]) if stored else "NO_PARAMETER",
    }
    unused = "" if taken else "    (void)a;\n"
    call = f"static uint64_t call_{function.name}(const struct argument *a)\n{{\n{unused}    return {function.name}({', '.join(passed(it, at) for at, it in enumerate(taken))});\n}}"
    rows = "\n".join(parameter_row(function, it, structs, names) for it in taken) or "    {.length = NO_PARAMETER},"
    table = f"static const struct parameter parameters_of_{function.name}[] = {{\n{rows}\n}};"
    row = f'    {{.name = "{function.name}", .call = call_{function.name}, .parameters = parameters_of_{function.name}, .count = {len(taken)},\n     '
    return call, table, row + ", ".join(f".{key} = {value}" for key, value in facts.items()) + "},"


def read_header():
    """The functions of the header, its structs and its errors, and the functions that are exceptions."""
    text = HEADER.read_text(encoding="utf-8")
    failures = set(re.findall(r"^    (DNW_[A-Z0-9_]+) = \d+,? ", re.search(r"enum dnw_failure \{(.*?)^\};", text, re.S | re.M)[1], re.M))
    listed, structs = functions(text), members(text)
    exceptions = []
    for sentence in (NO_STATUS, STORES_FAILING):
        if not (found := re.search(sentence, text)):
            stop(f"the header does not say: {sentence}")
        exceptions.append(found.groups())
    for it in listed:
        give_kinds(it, structs)
    if len(listed) != len(set(re.findall(r"\b(dnw_\w+)\(", re.sub(r"/\*.*?\*/", "", text, flags=re.S)))):
        stop("a function of the header was not found")
    return listed, structs, failures, exceptions


def whole_table(wanted=None):
    """The header that fuzz/calls.c includes, and the functions that it calls: all, or those that are wanted."""
    listed, structs, failures, exceptions = read_header()
    called = [it for it in listed if wanted is None or it.name in wanted]
    names = {}
    rows = [function_rows(it, listed, failures, structs, names, exceptions) for it in called]
    tables = [member_table(name, kind, structs) for name in structs for kind in ("bool", "size_t")]
    tables += [f"static const struct member whole_{kind}[] = {{{{0, sizeof({kind})}}, {{0, 0}}}};" for kind in ("bool", "size_t")]
    head = ["/* Made by fuzz/callers.py from include/dns_names_wire.h. */", '#include "calling.h"', '#include "dns_names_wire.h"', ""]
    parts = [*head, *tables, *(it for call, table, _ in rows for it in (call, table)), "static const struct function functions[] = {", *(row for *_, row in rows), "};"]
    return "\n".join([*parts, f"enum {{ FUNCTIONS = {len(called)}, NAMES = {len(names)} }};", ""]), [it.name for it in listed]


def called(text):
    """The functions of the library that a source in C names, but for what a comment does."""
    return set(re.findall(r"\bdnw_\w+\b", re.sub(r"/\*.*?\*/", "", text, flags=re.S)))


def check():
    """The functions of the header, those that a harness with a model calls, and what is wrong."""
    table, listed = whole_table()
    folder = ROOT / "fuzz"
    run = re.search(r"^\[ .* \] \|\| harnesses=\((.*)\)$", (folder / "run").read_text(encoding="utf-8"), re.M)
    harnesses = run[1].split() if run else []
    sources = {it.stem: it.read_text(encoding="utf-8") for it in folder.glob("*.c") if "LLVMFuzzerTestOneInput(" in it.read_text(encoding="utf-8")}
    faults = [f"fuzz/run has no harness {it}" for it in sorted(set(sources) - set(harnesses))]
    faults += [f"fuzz/{it}.c is not there, which fuzz/run names" for it in sorted(set(harnesses) - set(sources))]
    is_included = '#include "callers.h"' in sources.get("calls", "") and "functions[index]" in sources["calls"]
    faults += [f"no harness calls {it}" for it in listed if not is_included or f".call = call_{it}," not in table or f"return {it}(" not in table]
    modelled = set().union(*(called(text) for name, text in sources.items() if name in harnesses and name != "calls")) & set(listed)
    faults += [f"no harness with a model calls {it}, and WITHOUT_MODEL does not have it" for it in listed if it not in modelled | set(WITHOUT_MODEL)]
    faults += [f"WITHOUT_MODEL has {it}, which a harness with a model calls, or which is gone" for it in WITHOUT_MODEL if it in modelled or it not in listed]
    faults += [f"{test} does not call {it}" for it, test in WITHOUT_MODEL.items() if it not in called((ROOT / test).read_text(encoding="utf-8"))]
    return listed, modelled, faults


def main(words):
    if not words:
        listed, _, failures, _ = read_header()
        for it in listed:
            print(it.name, *sorted(errors(it, listed, failures)))
    elif words == ["--check"]:
        listed, modelled, faults = check()
        print("\n".join([*faults, f"callers: {len(listed)} functions, {len(modelled)} of them in a harness with a model; {len(faults)} faults"]))
        return 1 if faults else 0
    else:
        pathlib.Path(words[0]).write_text(whole_table(words[1:])[0], encoding="utf-8")
    return 0


if __name__ == "__main__":
    sys.exit(main(sys.argv[1:]))
