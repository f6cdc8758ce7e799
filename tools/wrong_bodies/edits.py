"""Wrong bodies: the edits of a crate, what each changes, the rounds in which they are tried, and the texts of a round's trial."""

import json
import pathlib
import re

from crates import ROOT

from wrong_bodies.source import functions_of, is_same_code, module_of

SOURCES = ("src", "specs", "proofs")
# The proof of a function that a round does not try.
HOLE = """\
use {module}.Statement.{{statement}}

pub {name}_spec : {{M : Type 1}} → statement M
{name}_spec = ?
"""
# The most edits of a round. More save little, and their check takes longer than other crates take meanwhile.
MOST_EDITS = 40


class Broken(Exception):
    """An edit that cannot be applied, or that changes nothing."""


class Edit:
    """A wrong body: the changes that it makes, the functions that it changes, also from `is_outside` of them, and the number
    of its twin, if it is made in one. It may change its function's hand-written answers too, in `proofs`, so that they name its steps."""

    def __init__(self, file):
        self.file, self.crate, self.text = file, file.parent.parent.name, file.read_text(encoding="utf-8")
        self.label = f"{self.crate}/{file.stem}"
        self.changes, self.lines, self.proofs, self.functions = [], {}, {}, []
        self.is_outside, self.is_alone, self.number = False, False, 0
        path = old = None
        for line in self.text.split("\n"):
            word, _, rest = line.partition(":")
            if word == "file":
                path = rest.strip()
            elif word == "old":
                old = rest[1:]
            elif word == "new" and path and old:
                self.changes.append((path, old, rest[1:]))
                old = None

    def has_twin(self):
        """Whether it can be made in a twin."""
        return not self.is_outside and len(self.functions) == 1 and self.functions[0].has_twin()

    def calls_anew(self, functions):
        """Whether its function, which can have a twin, may call one that it did not call. In place, two such edits could call
        each other's functions, which the check refuses before it tries any goal."""
        new = "\n".join(self.lines.values())
        return self.has_twin() and any(self.functions[0].calls(it, new) and not self.functions[0].calls(it) for it in functions)

    def lines_in(self, texts):
        """The lines that it changes in the crate's files: for each file and number of a line, what the line is then."""
        if not self.changes:
            raise Broken("it has no 'file:', 'old:' and 'new:'")
        edited = {path: texts[path] for path, _, _ in self.changes if path in texts}
        for path, old, new in self.changes:
            found = edited.get(path, "").count(old)
            if found != 1:
                raise Broken(f"an 'old:' text is in {path} {found} times, and not once")
            if not re.match(r"src/|proofs/.*/Answers\.antt$", path):
                raise Broken(f"it changes {path}, which is neither code nor an answer")
            edited[path] = edited[path].replace(old, new)
        self.proofs = {path: edited.pop(path) for path in list(edited) if path.startswith("proofs/")}
        pairs = {path: list(zip(texts[path].split("\n"), text.split("\n"))) for path, text in edited.items()}
        return {(path, at): new for path, both in pairs.items() for at, (old, new) in enumerate(both) if old != new}

    def tried(self):
        """The functions that its trial has with its changes."""
        return [self.functions[0].twin(self.number)] if self.number else self.functions


def paths_in(library):
    """The paths of a library's functions, as a check prints them; none if it is not there, as that of a program. What the toolchain adds
    beside them, such as the drop of a value, has a `+` in its path."""
    file = library / "toolchain" / "mir.json"
    named = json.loads(file.read_text(encoding="utf-8")) if file.is_file() else []
    return {path for path, *_ in named if "+" not in path}


def edits_of(crate):
    return [Edit(file) for file in sorted((ROOT / "crates" / crate / "must-fail").glob("*.edit"))]


def texts_of(crate):
    """The texts of a crate's files of code, specs and proofs, by their paths below the crate."""
    folder = ROOT / "crates" / crate
    files = [file for part in SOURCES for file in sorted((folder / part).rglob("*")) if file.is_file()]
    return {str(file.relative_to(folder)): file.read_text(encoding="utf-8") for file in files}


class Crate:
    """A crate with its edits, what its functions are, and their paths in its library."""

    def __init__(self, name, edits=None, libraries=ROOT):
        self.name, self.texts = name, texts_of(name)
        self.paths = paths_in(pathlib.Path(libraries, "crates", name, "out", "rlib", f"{name}.rlib"))
        sources = {path: module_of(name, path) for path in self.texts if path.startswith("src/")}
        self.functions = {path: functions_of(module, self.texts[path]) for path, module in sources.items()}
        types = r"^(?:pub(?:\([\w: ]+\))? )?(?:struct|enum|trait) (\w+)"
        homes = {kind: module for path, module in sources.items() for kind in re.findall(types, self.texts[path], re.M)}
        for function in self.all_functions():
            function.set_paths(homes)
        self.edits, self.broken = [], {}
        for edit in edits if edits is not None else edits_of(name):
            try:
                self.place(edit)
                self.edits.append(edit)
            except Broken as why:
                self.broken[edit] = str(why)

    def all_functions(self):
        return [it for found in self.functions.values() for it in found]

    def place(self, edit):
        """Finds the functions that an edit changes."""
        edit.lines = edit.lines_in(self.texts)
        for path, at in edit.lines:
            inside = [it for it in self.functions.get(path, []) if it.first <= at <= it.last]
            changed = inside or self.that_name(path, at)
            edit.functions += [it for it in changed if it not in edit.functions]
            edit.is_outside |= not inside
            edit.is_alone |= not changed
        if not self.is_other_code(edit):
            raise Broken("it changes nothing but comments, white space and names of locals")

    def is_other_code(self, edit):
        """Whether an edit leaves its functions, or what else it changes, with other tokens, also if locals had their old names."""
        for path, at in edit.lines:
            old = self.texts[path].split("\n")
            here = next((it for it in self.functions.get(path, []) if it.first <= at <= it.last), None)
            span = range(here.first, here.last + 1) if here else [at]
            pair = ("\n".join(old[it] for it in span), "\n".join(edit.lines.get((path, it), old[it]) for it in span))
            if not is_same_code(*pair):
                return True
        return False

    def that_name(self, path, at):
        """The functions that name the constant, the static or the macro of a line, or those of the impl that begins there; none if the
        rest of the crate names it too."""
        lines = self.texts[path].split("\n")
        top = next((it for it in range(at, -1, -1) if re.match(r"[^\s})\]]", lines[it])), at)
        item = re.match(r"(?:pub(?:\([\w: ]+\))? )?(?:(?:const|static) (\w+):|macro_rules! (\w+))", lines[top])
        if not item:
            return [it for it in self.functions.get(path, []) if it.at == at]
        name = rf"\b{item[1]}\b" if item[1] else rf"\b{item[2]}!"
        found = []
        for file, text in self.texts.items():
            rest = text.split("\n")
            if file == path:
                rest[top] = ""
            for it in self.functions.get(file, []):
                if re.search(name, "\n".join(rest[it.first : it.last + 1])):
                    found.append(it)
                    rest[it.first : it.last + 1] = [""] * (it.last + 1 - it.first)
            if any(re.search(name, line) and not re.match(r" *(?:(?:pub |ghost )*use|//)", line) for line in rest):
                return []
        return found

    def edited(self, edits, is_control=False):
        """The files that a trial of edits changes or adds: those that they change in place, and those with twins and their proofs. A
        control is the same trial with the right bodies."""
        lines, added = {}, {}
        for edit in (it for it in edits if not it.number and not is_control):
            lines.update(edit.lines)
            yield from edit.proofs.items()
        for edit in (it for it in edits if it.number):
            path = next(path for path, _ in edit.lines)
            twin = self.twin_of(path, edit, {} if is_control else edit.lines)
            added.setdefault((path, edit.functions[0].last), []).append(twin)
            yield from self.proofs_of(edit)
        for path in sorted({path for path, _ in [*lines, *added]}):
            old = enumerate(self.texts[path].split("\n"))
            yield path, "\n".join("\n".join([lines.get((path, at), line), *added.get((path, at), [])]) for at, line in old)

    def holes(self, edits):
        """The proof files of a trial that are other than the crate's: for each function that no edit changes in place, a hole in place
        of its proof. Where none may be meant, as the paths of a method may be two, the check says so, and goes on."""
        if any(edit.is_alone for edit in edits):
            return
        changed = {path for edit in edits if not edit.number for it in edit.functions for path in self.paths_of(it)}
        own = {path for it in self.all_functions() if it.calls_itself() for path in it.paths}
        others = self.paths or {path for it in self.all_functions() for path in it.paths}
        for path in others - changed - own:
            _, *parts = path.split("::")
            folder = "/".join(["proofs", *parts])
            for name in ("Answers.antt", "Invariants.antt"):
                if f"{folder}/{name}" in self.texts:
                    yield f"{folder}/{name}", None
            module = ".".join(["Rattle", self.name, "proofs", *parts])
            yield f"{folder}/Proof.antt", HOLE.format(module=module, name=parts[-1])

    def paths_of(self, function):
        """The paths of a function, one for each impl that has it; those that it may have, if no library says so."""
        return {path for path in self.paths if function.is_at(path)} or function.paths

    def asked(self, edits):
        """The words by which a check proves nothing but the functions of a trial that have an edit's changes; none if their paths are not
        known."""
        if any(edit.is_alone for edit in edits):
            return []
        found = set()
        for edit in edits:
            for function in edit.functions:
                paths = self.paths_of(function)
                if not self.paths and len(paths) > 1:
                    return []
                found |= {f"{path}_wrong{edit.number}" if edit.number else path for path in paths}
        return [f"--only={path.partition('::')[2]}" for path in sorted(found)]

    def twin_of(self, path, edit, lines):
        """The text of an edit's twin, with these changes."""
        function, old = edit.functions[0], self.texts[path].split("\n")
        here = [lines.get((path, at), old[at]) for at in range(function.top, function.last + 1)]
        at = function.first - function.top
        here[at] = re.sub(rf"\bfn {function.name}\b", f"fn {function.twin(edit.number).name}", here[at])
        return "\n".join(["", *here])

    def answers_of(self, edit):
        """The files of hand-written answers of the functions that an edit changes."""
        folders = ["/".join(["proofs", *parts]) for function in edit.functions for parts in function.folders()]
        return [self.texts[f"{it}/Answers.antt"] for it in folders if f"{it}/Answers.antt" in self.texts]

    def proofs_of(self, edit):
        """The files of a function's proof, for its twin."""
        function, twin = edit.functions[0], edit.functions[0].twin(edit.number)
        for parts in function.folders():
            folder, other = "/".join(["proofs", *parts, ""]), [*parts[:-1], twin.name]
            for path, text in self.texts.items():
                if path.startswith(folder):
                    own, its = (".".join(["Rattle", self.name, "proofs", *it]) for it in (parts, other))
                    named = re.sub(rf"{re.escape(own)}\b", its, edit.proofs.get(path, text))
                    yield "/".join(["proofs", *other, path[len(folder) :]]), named

    def rounds(self, edits):
        """Puts edits into few rounds of much the same size: first those that fit into few of them. An edit has a twin if its
        round has another edit of its function in place, or if it calls what its function did not."""
        shared, functions = [it for it in edits if not it.is_alone], self.all_functions()
        found = [[] for _ in range(-(-len(shared) // MOST_EDITS))]
        for edit in sorted(shared, key=lambda it: (not it.is_outside, it.has_twin())):
            free = [them for them in found if len(them) < MOST_EDITS and all(may_meet(edit, it) for it in them)]
            if not free:
                free = [[]]
                found += free
            them = min(free, key=lambda them: (is_changed(edit, them), len(them)))
            edit.number = self.edits.index(edit) + 1 if is_changed(edit, them) or edit.calls_anew(functions) else 0
            them.append(edit)
        return sorted(found + [[it] for it in edits if it.is_alone], key=len, reverse=True)


def is_changed(edit, edits):
    """Whether one of these edits changes, in place, a function that this one changes."""
    return any(not it.number and set(it.functions) & set(edit.functions) for it in edits)


def may_meet(one, other):
    """Whether two edits may share a round."""
    if one.is_outside or other.is_outside:
        pairs = [(a, b) for a in one.functions for b in other.functions]
        return not any(a is b or a.calls(b) or b.calls(a) for a, b in pairs)
    return one.has_twin() or other.number or not is_changed(one, [other])
