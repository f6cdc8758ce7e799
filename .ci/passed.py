#!/usr/bin/env python3
"""What has passed on this machine with which inputs, so that the gate need not run it again.

usage: .ci/passed.py sum PATH..       the SHA-256 of these inputs
       .ci/passed.py when NAME SUM    prints when NAME has passed with the inputs of this sum here; it ends with 1 if it never has
       .ci/passed.py note NAME SUM    notes that it has passed now

An input is a file, a folder with all that is in it, or `toolchain`, which is Rattle's checker, compiler, logic and std. The sum is over
their names and all of their octets, and what is not there counts as not there. It is taken before the run that it stands for.
A stamp is an empty file passed/NAME/SUM in the folder dns-names-wire of $XDG_CACHE_HOME, or else of ~/.cache; its time is when NAME
passed.
"""

import functools
import hashlib
import os
import pathlib
import re
import shutil
import sys
import time

ROOT = pathlib.Path(__file__).resolve().parent.parent
sys.path.append(str(ROOT / "tools"))

from crates import in_order, listed  # noqa: E402

CACHE = pathlib.Path(os.environ.get("XDG_CACHE_HOME") or "~/.cache").expanduser() / "dns-names-wire" / "passed"
PARTS_OF_TOOLCHAIN = ("KIT-ID", "bin", "c", "logic_built", "rattle/logic", "rlibs/core.rlib", "rlibs/std*.rlib", "toolchain")
CHUNK = 1 << 20


# The folder of the toolchain.
KIT = pathlib.Path(shutil.which("rt") or "rt").resolve().parent.parent


def toolchain():
    return [it for part in PARTS_OF_TOOLCHAIN for it in sorted(KIT.glob(part))]


def files_of(path):
    """The files of an input, in the order of their names. What Python or git keeps for itself is none."""
    if not path.is_dir():
        return [path]
    found = (pathlib.Path(folder, it) for folder, _, files in os.walk(path) for it in files)
    return sorted(it for it in found if not {"__pycache__", ".git"} & set(it.parts))


def add(found, path):
    """Adds a file to a sum: its name, how long it is, and its octets."""
    if not path.is_file():
        return found.update(f"{path} is not there\0".encode())
    name = path.relative_to(ROOT) if ROOT in path.parents else path
    found.update(f"{name}\0{path.stat().st_size}\0".encode())
    with open(path, "rb") as file:
        while octets := file.read(CHUNK):
            found.update(octets)


@functools.lru_cache(maxsize=None)
def sum_of_one(path):
    found = hashlib.sha256()
    for file in files_of(path):
        add(found, file)
    return found.digest()


def sum_of(paths):
    return hashlib.sha256(b"".join(map(sum_of_one, paths))).hexdigest()


def named(words):
    return [it for word in words for it in (toolchain() if word == "toolchain" else [pathlib.Path(word).resolve()])]


def sources(crate, *kinds):
    """These folders of a crate and of those that it stands on, and the kit's libraries that they name."""
    crates = in_order(crate, listed())
    kits = sorted({it for name in crates for it in listed()[name]} - set(listed()))
    return [ROOT / "crates" / name / kind for name in crates for kind in kinds] + [KIT / "rlibs" / f"{it}.rlib" for it in kits]


def when(name, total):
    """When this has passed with the inputs of this sum, or nothing if it never has."""
    stamp = CACHE / name / total
    return time.strftime("%-d %B %Y, %H:%M", time.gmtime(stamp.stat().st_mtime)) if stamp.is_file() else ""


def note(name, total):
    (CACHE / name).mkdir(parents=True, exist_ok=True)
    (CACHE / name / total).touch()


class Stamp:
    """The stamp of a part with these inputs, whose sum is taken when it is first asked for."""

    def __init__(self, name, *inputs):
        self.name, self.inputs = name, inputs

    def when(self):
        self.total = sum_of(self.inputs)
        return when(self.name, self.total)

    def note(self):
        note(self.name, self.total)


def main(words):
    command, *rest = words or [""]
    is_sum = len(rest) == 2 and re.fullmatch(r"[\w-]+", rest[0]) and re.fullmatch(r"[0-9a-f]{64}", rest[1])
    if command == "sum" and rest:
        print(sum_of(named(rest)))
    elif command == "when" and is_sum:
        found = when(*rest)
        print(found or "never")
        return 0 if found else 1
    elif command == "note" and is_sum:
        note(*rest)
    else:
        sys.exit(__doc__)
    return 0


if __name__ == "__main__":
    sys.exit(main(sys.argv[1:]))
