#!/usr/bin/env python3
"""The crates of this repository, as crates.txt lists them.

usage: tools/crates.py archives        the crates that are joined to the C library, one a line
       tools/crates.py below CRATE     a crate and all of this repository that it stands on, lowest first, one a line
"""

import pathlib
import re
import sys

ROOT = pathlib.Path(__file__).resolve().parent.parent
# The lines of docs/TESTING.md around the tables that tools/minutes writes.
MINUTES = ("<!-- tools/minutes -->", "<!-- end of tools/minutes -->")
# Seconds of processor time that a crate takes, and that each line adds, if it was not measured.
LOADING, A_LINE = 25, 0.055


def rows(root=ROOT):
    """The rows of crates.txt: a crate's name and after it `staticlib`, if it is one, and then the crates that it stands on."""
    lines = [line.partition("#")[0].partition(":") for line in (root / "crates.txt").read_text().split("\n")]
    return [(head.split(), rest.split()) for head, _, rest in lines if head.split()]


def listed(root=ROOT):
    """What each crate stands on, by its name."""
    return {head[0]: rest for head, rest in rows(root)}


def below(name, crates):
    """The crates of the repository that a crate stands on, and what they stand on."""
    return {found for it in crates[name] if it in crates for found in {it} | below(it, crates)}


def archives():
    """The crates that are joined to the C library: those whose functions C calls."""
    return [head[0] for head, _ in rows() if "staticlib" in head and re.match("dnw_c_", head[0])]


def in_order(name, crates):
    """A crate and those that it stands on, each after those that it stands on itself."""
    needed = below(name, crates) | {name}
    return sorted(needed, key=lambda it: (len(below(it, crates)), it))


def files(name):
    """The files that a crate is made of."""
    folder = ROOT / "crates" / name
    return sorted(it for part in ("src", "specs", "proofs") for it in (folder / part).rglob("*") if it.is_file())


def weights(names):
    """The seconds of processor time that crates take: as docs/TESTING.md has them, or else by their lines."""
    page = (ROOT / "docs" / "TESTING.md").read_text().partition(MINUTES[0])[2].partition(MINUTES[1])[0]
    measured = {name: float(spent) for name, spent in re.findall(r"^\| `(\w+)` \|.* (\d+) \| [\d.]+ \|$", page, re.M)}
    lines = {it: sum(file.read_bytes().count(b"\n") for file in files(it)) for it in names if it not in measured}
    return {it: measured[it] if it in measured else LOADING + A_LINE * lines[it] for it in names}


def chains(names, crates, seconds):
    """For each crate, the seconds of the longest chain of crates that begins with it, each of which stands on the one before it."""
    found = {}
    for name in sorted(names, key=lambda it: -len(below(it, crates))):
        found[name] = seconds[name] + max((found[it] for it in found if name in crates[it]), default=0)
    return found


def main(words):
    if words == ["archives"]:
        print("\n".join(archives()))
    elif len(words) == 2 and words[0] == "below" and words[1] in listed():
        print("\n".join(in_order(words[1], listed())))
    else:
        sys.exit(__doc__)


if __name__ == "__main__":
    main(sys.argv[1:])
