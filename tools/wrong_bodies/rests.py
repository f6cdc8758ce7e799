"""What the refusal of an edit rests on: the texts from which its trial takes the goals of the functions that it changes.

A trial takes each function that these call by its contract. So it rests on the functions as they are, with their hand-written proofs, and
on what they name, here and in the crates below: contracts of functions, types, constants, macros, and of the types what they implement;
on what these name in turn; and on the files of specs and proofs that all of them import."""

import functools
import re

from crates import ROOT, below, listed

from wrong_bodies.edits import Crate, texts_of
from wrong_bodies.source import IMPORT, functions_of, is_named, type_of, without_comments

texts_of = functools.lru_cache(maxsize=None)(texts_of)
VISIBLE = r"(?:pub(?:\([\w: ]+\))? )?"
NAMED = re.compile(rf"{VISIBLE}(?:ghost )?(?:struct|enum|union|const|static|type|trait|macro_rules!) (\w+)")
FUNCTION = re.compile(rf"{VISIBLE}(?:const )?(?:unsafe )?(?:extern \"C\" )?fn \w+")


@functools.lru_cache(maxsize=None)
def words_in(text):
    return frozenset(re.findall(r"\w+", text))


def items_of(text):
    """The items of a file, which is in the layout of `rt fmt`, as ranges of lines. An item begins with its attributes."""
    lines, start = text.split("\n"), None
    for at, line in enumerate(lines):
        if not line or line[0].isspace() or line.startswith("//"):
            continue
        start = at if start is None else start
        is_over = line[0] == "}" or not line.startswith("#[") and line.endswith((";", "}"))
        if is_over or line.startswith("#!["):
            yield start, at
            start = None


def index(pairs):
    found = {}
    for key, value in pairs:
        found.setdefault(key, []).append(value)
    return found


class File:
    """The parts of a file of code: each with the words that a text must have to rest on it, and its own text. Of a function it is the
    contract, and the whole of those whose first lines are given, and of constant ones, which a type may name. A crate above sees no
    private function."""

    def __init__(self, text, is_below, whole=frozenset()):
        self.lines, self.parts, self.is_below, self.whole = text.split("\n"), [], is_below, whole
        found = [(path, name) for path, names in IMPORT.findall(text) for name in re.findall(r"[^\s,][^,]*", names or path)]
        self.imports = [it for it in found if not it[0].startswith(("Rattle.std.", "std::"))]
        functions = functions_of("", text)
        for first, last in items_of(text):
            self.take(first, last, [it for it in functions if first <= it.first <= last])
        # By each word that a part needs, which parts need it.
        self.needing = index((word, it) for it in self.parts for word in it[0])

    def take(self, first, last, functions):
        """Takes the parts of an item."""
        head = next((it for it in self.lines[first : last + 1] if not it.startswith(("#[", "//"))), "")
        if re.match(rf"(ghost )?use |{VISIBLE}mod \w+;", head) or "#[cfg(test)]" in self.lines[first : last + 1]:
            return
        named = NAMED.match(head)
        if re.match(r"(unsafe )?impl\b", head):
            self.take_impl(first, last, functions, head)
        elif named and "macro_rules!" not in head:
            self.add({named[1]}, first, last, functions)
        elif FUNCTION.match(head) and len(functions) == 1:
            self.add_function({functions[0].name}, functions[0])
        else:
            self.add({named[1]} if named else set(), first, last, [])

    def take_impl(self, first, last, functions, head):
        """Of a trait its methods go with it, since operators and `for` call them without a name. Others count if they are named."""
        own = type_of(head)
        # What is implemented for any type has a parameter there.
        needed = set() if re.fullmatch(r"[A-Z]\d?", own) else {own}
        if re.search(r"\bfor\b", head):
            self.add(needed, first, last, functions)
            return
        kept = [at for at in range(first, last + 1) if not any(it.top <= at <= it.last for it in functions)]
        text = without_comments([self.lines[at] for at in kept])
        if not re.fullmatch(r"[^\n]*\{\s*\}", text):
            self.parts.append(({own}, text))
        for function in functions:
            self.add_function({own, function.name}, function)

    def add_function(self, words, function):
        line = self.lines[function.first]
        if not self.is_below or re.match(r" *pub (?!\()", line):
            self.add(words, function.top, function.last, [function])

    def add(self, words, first, last, functions):
        """Adds lines without the bodies of functions."""
        hidden = {at for it in functions if it.body < it.last and not self.is_whole(it) for at in range(it.body, it.last + 1)}
        words = set() if any(it.first in self.whole for it in functions) else words
        self.parts.append((words, without_comments([self.lines[at] for at in range(first, last + 1) if at not in hidden])))

    def is_whole(self, function):
        return function.first in self.whole or re.search(r"\bconst\b.*\bfn\b", self.lines[function.first])


@functools.lru_cache(maxsize=None)
def file_of(crate, path, is_below, whole=frozenset()):
    return File(texts_of(crate)[path], is_below, whole)


# What stands before the name of a definition.
BEFORE = {"pub", "abbrev", "unfoldable", "record", "data", "module", "instance"}
SPLIT = re.compile(r"[^\s(){}\[\],;]+")
PATH = re.compile(r"Rattle\.(\w+)\.((?:specs|proofs)[\w.+]*)")


@functools.lru_cache(maxsize=None)
def names_in(text):
    """The names in a text of specs or proofs, and the parts of those with dots. An operator is there without the places for its operands."""
    found = set(SPLIT.findall(text))
    return frozenset(found | {part for it in found for part in re.split(r"[.:◌]", it)})


class Antt:
    """A file of specs or proofs: its definitions, each with its names and its text, and what it imports, each with its names here, the files
    where it may be, the words of its path, and whether it is there for others."""

    def __init__(self, text):
        self.definitions, self.imports = [], []
        name, lines, before = None, [], []
        for line in text.split("\n"):
            word = next((it for it in SPLIT.findall(line) if it not in BEFORE), "")
            if re.match(r"(pub )?use ", line):
                self.take_import(line)
            elif not line or line.startswith("--") or re.match(r"(pub )?mod ", line):
                continue
            elif line.startswith("unfolding "):
                before.append(line)
            elif line[0] in " )}]" or word == name:
                lines += [*before, line]
                before = []
            else:
                self.end(name, lines)
                name, lines, before = word, [*before, line], []
        self.end(name, lines)
        self.named = index((it, definition) for definition in self.definitions for it in definition[0])

    def end(self, name, lines):
        """Takes a definition. What has parts is known by their names too."""
        if lines:
            has_parts = re.match(r"(?:abbrev |pub )*(?:record|data|module) ", lines[-1] if len(lines) == 1 else lines[0])
            parts = {it for line in lines[1:] for it in SPLIT.findall(line)[:2]} if has_parts else set()
            names = {name, *(name or "").split("◌"), *parts} - {"", None, "pub", ":"}
            self.definitions.append((frozenset(names), "\n".join(lines)))

    def take_import(self, line):
        path, _, rest = line.partition("use ")[2].partition("{")
        found = PATH.match(path)
        if found:
            module = found[2].strip(".").split(".")
            files = [f"crates/{found[1]}/{'/'.join(module[:size])}.antt" for size in range(len(module), 1, -1)]
            alias = re.search(r" as (\S+)$", path.strip())
            named = [it.strip() for it in rest.rstrip("} ").split(",")] if rest else [f"{module[-1]} as {alias[1]}" if alias else module[-1]]
            for it in named:
                name, _, here = it.partition(" as ")
                found = [file for file in files if (ROOT / file).is_file()]
                self.imports.append((names_in(here or name), name, found, frozenset(module), line.startswith("pub ")))


@functools.lru_cache(maxsize=None)
def antt(path):
    return Antt((ROOT / path).read_text(encoding="utf-8"))


def imported_by(text):
    """The files of specs and proofs that a line of code imports from."""
    for crate, module in PATH.findall(text):
        parts = module.strip(".").split(".")
        paths = (f"crates/{crate}/{'/'.join(parts[:size])}.antt" for size in range(len(parts), 1, -1))
        yield from (path for path in paths if (ROOT / path).is_file())


class Reached:
    """What is reached from a function: texts by the files that have them. `names` are those that may stand for a definition, and `words` those that
    may stand for something in code."""

    def __init__(self, files, text):
        self.files, self.items, self.words, self.names = files, set(), set(words_in(text)), set(names_in(text))
        # The words of what is taken of each file of code, and the names of what is taken of each other file, by which their imports are chosen.
        self.of_code, self.of_antt = {path: set() for path in files}, {}

    def add_antt(self, path, text):
        """Adds a definition."""
        if (path, text) not in self.items:
            self.items.add((path, text))
            self.names |= names_in(text)
            self.of_antt.setdefault(path, set()).update(names_in(text))

    def add_whole(self, path):
        for _, text in antt(path).definitions:
            self.add_antt(path, text)

    def add_code(self, path, text):
        if (path, text) not in self.items:
            self.items.add((path, text))
            self.words |= words_in(text)
            self.names |= names_in(text)
            self.of_code[path] |= words_in(text)
            for other in imported_by(text):
                self.of_antt.setdefault(other, set())

    def look_in_code(self, words):
        """Adds what new words name."""
        for path, file in self.files.items():
            for word in words & file.needing.keys():
                for needed, text in file.needing[word]:
                    if needed <= self.words:
                        self.add_code(path, text)
            for source, name in file.imports if self.of_code[path] else ():
                if is_named(name, self.of_code[path]):
                    self.add_code(path, f"use {source} {name}")

    def look_in_antt(self, names, known):
        """Adds what new names stand for, in files that were looked at, and what any name stands for in others."""
        for path in list(self.of_antt):
            file, looked_for = antt(path), names if path in known else self.names
            for name in looked_for & file.named.keys():
                for _, text in file.named[name]:
                    self.add_antt(path, text)
            for here, name, files, module, is_passed_on in file.imports:
                if not here.isdisjoint(self.names if is_passed_on else self.of_antt[path]):
                    self.names |= names_in(name)
                    self.words |= module
                    for other in files:
                        self.of_antt.setdefault(other, set())

    def close(self):
        """Adds what is named, until nothing more is."""
        for path, file in self.files.items():
            for needed, text in file.parts:
                if not needed:
                    self.add_code(path, text)
        words, names, known = set(), set(), set()
        while (words, names, known) != (self.words, self.names, self.of_antt.keys()):
            new_words, new_names, before = self.words - words, self.names - names, known
            words, names, known = set(self.words), set(self.names), set(self.of_antt)
            self.look_in_code(new_words)
            self.look_in_antt(new_names, before)
        return self.items


@functools.lru_cache(maxsize=None)
def placed(crate):
    """A crate, and its edits with the functions that they change, by their names. No library is read for that."""
    found = Crate(crate, libraries=ROOT / "crates" / crate / "must-fail")
    return found, {edit.label: edit for edit in found.edits}


def rests_on(edit):
    """What the refusal of an edit rests on, as pairs of a file and a text. If more than functions may change, or it cannot be applied, it is
    the whole crate."""
    crate, edits = placed(edit.crate)
    known = edits.get(edit.label)
    is_known = known is not None and not known.is_alone
    changed = known.functions if is_known else crate.all_functions()
    whole = {(path, it.first) for path, found in crate.functions.items() for it in found if it in changed}
    files = {f"crates/{other}/{path}": file_of(other, path, True) for other in sorted(below(edit.crate, listed())) for path in sources(other)}
    for path in sources(edit.crate):
        files[f"crates/{edit.crate}/{path}"] = file_of(edit.crate, path, False, frozenset(first for file, first in whole if file == path))
    reached = Reached(files, edit.text)
    folders = tuple("/".join(["proofs", *parts, ""]) for it in changed for parts in it.folders())
    for path in crate.texts:
        if path.startswith(folders) or not is_known and not path.startswith("src/"):
            reached.add_whole(f"crates/{edit.crate}/{path}")
    return reached.close()


def sources(crate):
    return [path for path in texts_of(crate) if path.startswith("src/")]
