"""What was refused, so that it need not be tried again: `.ci/refused` has a line for each edit, with its name, a key, and how it was refused.

A key is a sum over all that a refusal rests on: the edit; what rests.py finds of the edit's crate and those below it; what the crate's line
in crates.txt says; the toolchain's logic; and the files of this tool. Kits of one logic differ in their search alone: that what one
refuses is refused by the next too is seen by the edits that each run tries."""

import functools
import hashlib
import re
import subprocess
import threading

from crates import ROOT, listed

from wrong_bodies.rests import rests_on

FILE = ROOT / ".ci" / "refused"
# What judges edits. If one of these files changes, what was recorded counts for nothing.
JUDGES = [ROOT / "tools" / it for it in ("rattle", *(f"wrong_bodies/{name}.py" for name in ("edits", "findings", "source", "sources", "trial")))]
HEAD = """\
# The wrong bodies that the prover refused, as tools/wrong-bodies --record writes them: name, key, and how each was refused.
"""
# Of the edits that are recorded, a run tries those of one crate in so many: what a crate stands on is loaded once for all of them.
ONE_IN = 20
# Of all edits, no more than one in so many may be without a record.
MOST_STALE = 20


def sum_of(*texts):
    found = hashlib.sha256()
    for text in texts:
        found.update(f"{len(text)}:{text}".encode())
    return found.hexdigest()


@functools.lru_cache(maxsize=None)
def judged_by():
    """The toolchain's logic, and what judges edits."""
    said = subprocess.run(["rt", "version"], capture_output=True, check=True, text=True).stdout
    return sum_of(re.search(r"\blogic \w+", said)[0], *(file.read_text(encoding="utf-8") for file in JUDGES))


def key_of(edit):
    parts = [part for pair in sorted(rests_on(edit)) for part in pair]
    return sum_of(judged_by(), edit.crate, *sorted(listed()[edit.crate]), *parts, edit.text)[:32]


class Record:
    """The file, which is written anew after each change if `keeps` is set."""

    def __init__(self, keeps=False):
        lines = FILE.read_text(encoding="utf-8").split("\n") if FILE.is_file() else []
        self.rows = {name: (key, how) for name, key, how in (line.split(" ", 2) for line in lines if line and line[0] != "#")}
        self.keeps, self.lock = keeps, threading.Lock()

    def has(self, edit):
        return self.rows.get(edit.label, ("",))[0] == key_of(edit)

    def is_sampled(self, edit, commit):
        """Whether this run tries an edit that is recorded: those of one crate in twenty, of other crates for each commit."""
        return int(sum_of(commit, edit.crate), 16) % ONE_IN == 0

    def note(self, verdicts):
        """Notes how edits were refused, or that they were not."""
        with self.lock:
            for edit, how in verdicts.items():
                self.rows.pop(edit.label, None)
                if how:
                    self.rows[edit.label] = (key_of(edit), how)
            if self.keeps:
                self.write()

    def drop_gone(self, labels):
        """Drops the rows of edits that are no more."""
        with self.lock:
            self.rows = {name: row for name, row in self.rows.items() if name in labels}
            if self.keeps:
                self.write()

    def write(self):
        rows = "".join(f"{name} {key} {how}\n" for name, (key, how) in sorted(self.rows.items()))
        FILE.with_suffix(".new").write_text(HEAD + rows, encoding="utf-8")
        FILE.with_suffix(".new").replace(FILE)
