"""Whether a folder, over whose libraries edits are tried, has this repository's sources, and libraries that were made of them."""

import functools
import pathlib
import re

from crates import ROOT, listed

from wrong_bodies.edits import SOURCES
from wrong_bodies.source import Shown, without_comments


def library_of(folder, crate):
    return pathlib.Path(folder, "crates", crate, "out", "rlib", f"{crate}.rlib")


def has_library(folder, crate):
    """Whether a library of a crate is there, which only a crate that is proved has. A program and a static library leave none."""
    return (library_of(folder, crate) / "toolchain" / "mir.json").is_file()


@functools.lru_cache(maxsize=None)
def differences(crate, folder):
    """What of a crate is in a folder other than here: its files, its row of crates.txt, and what its library has of its files."""
    own, others = files_of(ROOT / "crates" / crate), files_of(pathlib.Path(folder, "crates", crate))
    found = sorted(path for path in own.keys() | others.keys() if own.get(path) != others.get(path))
    if listed(ROOT)[crate] != listed(folder).get(crate):
        found.append("its row of crates.txt")
    if has_library(folder, crate):
        found += shown_differently(own, library_of(folder, crate) / "lang")
    return tuple(f"{crate}: {it}" for it in found)


def files_of(folder):
    """The octets of a crate's files of code, specs and proofs, by their paths."""
    files = (file for part in SOURCES for file in (folder / part).rglob("*") if file.is_file())
    return {str(file.relative_to(folder)): file.read_bytes() for file in files}


def shown_differently(own, library):
    """The files of which a library has something else than these: of specs and proofs any octet, of code a clause."""
    kept = {f"{part}{rest}": octets for part, rest, octets in kept_in(library)}
    for path, octets in sorted(own.items()):
        if path.startswith("src/"):
            shown = library / path
            if shown.is_file() and not has_clauses_of(shown.read_text(encoding="utf-8"), octets.decode()):
                yield f"the clauses of {path} in its library"
        elif kept.pop(path, None) != octets:
            yield f"{path} in its library"
    yield from (f"{path} in its library alone" for path in sorted(kept))


def kept_in(library):
    """The files of specs and proofs that a library has. Its `specs.antt` is the crate's specs/Lib.antt."""
    for part in ("specs", "proofs"):
        folder = library / "antt" / part
        for file in folder.rglob("*.antt"):
            yield part, f"/{file.relative_to(folder)}", file.read_bytes()
        root = folder.with_suffix(".antt")
        if root.is_file():
            yield part, "/Lib.antt", root.read_bytes()


CLAUSE = re.compile(r"\b(?:requires|ensures)\*?(?: \w+)? *\{")


def clauses_in(text):
    """The clauses in a text, without white space."""
    found = []
    for start in CLAUSE.finditer(text):
        depth, end = 1, start.end()
        while depth and end < len(text):
            depth += (text[end] == "{") - (text[end] == "}")
            end += 1
        found.append(re.sub(r"\s", "", text[start.start() : end]))
    return found


def has_clauses_of(shown, text):
    """Whether what a library shows of a file has the clauses of its text: what is shown is some of these, in their order, and all of
    those of public functions."""
    theirs, own = clauses_in(shown), iter(clauses_in(without_comments(text.split("\n"))))
    if not all(it in own for it in theirs):
        return False
    return all(it in theirs for _, head in Shown(text).functions for it in clauses_in(head))
