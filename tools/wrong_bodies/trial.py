"""The trial of edits: a copy of their crate for each, checks of it, and what they say of each edit."""

import pathlib
import queue
import re
import shutil
import subprocess
import tempfile
import threading
import time

from crates import ROOT, below, listed

from wrong_bodies.edits import SOURCES, Crate, edits_of
from wrong_bodies.findings import NO_SUCH_PATH, REFUSALS, Findings, only_in_trial, surest, without_stale_answers
from wrong_bodies.sources import differences, has_library

# What a check leaves of a crate: what the next one starts from, and the library as it is built.
KEPT = ("out/incremental", "out/rlib")
SHOWN = 12
# The most checks of a round, of which each but the first is without the answers that the one before found stale.
MOST_CHECKS = 4
# A check of a crate ends within this many seconds, or something is wrong with it. Most take a minute; a proof from nothing
# takes ten, and several times that on a busy machine.
LIMIT = 7200
# What is said of an edit that is not refused.
PROVED = "NOT REFUSED: its function is still proved"
NOT_JUDGED = "NOT JUDGED: the right body is not proved either, in its place and without the answers that are stale"
BROKEN = "BROKEN: no goal of its function is open"


def copy_crate(name, room, parts):
    for part in parts:
        here = ROOT / "crates" / name / part
        if here.is_dir():
            shutil.copytree(here, room / "crates" / name / part)


def run(folder, words):
    """What a command prints in a crate's folder, and its status. If it did not end, that is said, and there is none."""
    how = {"stdin": subprocess.DEVNULL, "stdout": subprocess.PIPE, "stderr": subprocess.STDOUT, "errors": "replace"}
    try:
        ran = subprocess.run(words, cwd=folder, timeout=LIMIT, **how)
    except subprocess.TimeoutExpired:
        return f"it did not end within {LIMIT} seconds", None
    return ran.stdout, ran.returncode


class Room:
    """A copy of a crate in which its rounds are checked in turn, each over what those before it kept."""

    def __init__(self, folder, crate, libraries):
        copy_crate(crate.name, pathlib.Path(folder), (*SOURCES, "out/incremental"))
        self.crate, self.here, self.written = crate, pathlib.Path(folder, "crates", crate.name), {}
        # Whether a library of the crate shows that it is proved as it is.
        self.is_proved = has_library(libraries, crate.name)
        self.words = [ROOT / "tools" / "rattle", "check", crate.name, libraries]
        self.words += ["--allow-holes", "--jobs", "1", "--incremental", "out/incremental"]

    def write(self, texts):
        """Writes files of the crate in place of those that the trial before wrote. One without a text is removed."""
        for path in {**self.written, **texts}:
            file, text = self.here / path, texts[path] if path in texts else self.crate.texts.get(path)
            if text is None:
                file.unlink(missing_ok=True)
            else:
                file.parent.mkdir(parents=True, exist_ok=True)
                file.write_text(text, encoding="utf-8")
        self.written = texts

    def check(self, edits, cut, is_control=False):
        """Checks a trial of edits, without the answers that are cut away, and returns what is found and the trial's files."""
        texts = {**dict(self.crate.holes(edits)), **dict(self.crate.edited(edits, is_control))}
        for edit in edits:
            texts.update(cut[edit])
        self.write(texts)
        said, status = run(self.here, [*self.words, *self.crate.asked(edits)])
        if status == NO_SUCH_PATH:
            said, status = run(self.here, self.words)
        return Findings(said, self.crate.name), texts

    def judge(self, edits):
        """Tries edits, and returns how each one is refused or why it is not, and what the last check found. An edit that has none of
        these is to be tried again, alone."""
        verdicts, cut, left, opened = {}, {edit: {} for edit in edits}, edits, {}
        for _ in range(MOST_CHECKS):
            found, texts = self.check(left, cut)
            if not found.is_whole:
                # Alone, it is the missing answer that ends the check; else it may be another edit.
                verdicts.update({edit: NOT_JUDGED for edit in left if cut[edit] and len(edits) == 1})
                break
            stale, files = {edit: found.stale_lines(edit) for edit in left}, {**self.crate.texts, **texts}
            for edit in (it for it in left if not stale[it]):
                goals = found.open_goals(edit)
                verdicts[edit] = surest(goals.values()) or (PROVED if found.is_proved(edit) else None)
                if goals and (cut[edit] or edit.number or not self.is_proved):
                    opened[edit] = goals
            left = [edit for edit in left if stale[edit] and self.may_cut(stale[edit]) and not edit.proofs]
            for edit in left:
                cut[edit].update(without_stale_answers(files, stale[edit]))
            verdicts.update({it: NOT_JUDGED for it in stale if stale[it] and it not in left})
            if not left:
                break
        verdicts.update(self.controlled(opened, cut))
        return verdicts, found

    def may_cut(self, stale):
        """Whether these files can do without an answer: an invariant, a measure and a whole proof cannot be left out."""
        return all(file.endswith("/Answers.antt") for file in stale)

    def controlled(self, opened, cut):
        """The verdicts on edits with open goals, of which answers were cut away, or that were made in twins: they are refused only if the
        right body is proved in that place without these answers, or if a clause is open that is proved there. The proof of the crate
        itself is the control of the other edits."""
        if not opened:
            return {}
        found, _ = self.check(list(opened), cut, is_control=True)
        return {edit: self.verdict_of(edit, goals, found) for edit, goals in opened.items()}

    def verdict_of(self, edit, goals, control):
        if control.is_whole and control.is_proved(edit):
            return surest(goals.values())
        answered = [name for file in self.crate.answers_of(edit) for name in re.findall(r"^pub (\S+) :", file, re.M)]
        return control.is_whole and only_in_trial(goals, control.open_goals(edit), answered) or NOT_JUDGED


class Report:
    """Prints what is found, one line at a time, and counts it."""

    def __init__(self):
        self.refused, self.failed, self.lock = {}, [], threading.Lock()

    def say(self, text):
        with self.lock:
            print(text, flush=True)

    def refuse(self, verdicts):
        with self.lock:
            for how in verdicts.values():
                self.refused[how] = self.refused.get(how, 0) + 1

    def fail(self, edit, why, said=""):
        self.say("\n".join(filter(None, [f"{edit.label}: {why}", said])))
        with self.lock:
            self.failed.append(edit.label)


class Schedule:
    """Runs tasks on N threads, those of the lowest rank first: the proofs of crates, since other proofs wait for them, and then the
    rounds of the crates with the most edits, so that none is left for the end."""

    def __init__(self, jobs):
        self.tasks, self.number, self.failure = queue.PriorityQueue(), 0, None
        self.lock = threading.Lock()
        for _ in range(jobs):
            threading.Thread(target=self.work, daemon=True).start()

    def put(self, rank, call, *words):
        with self.lock:
            self.number += 1
            self.tasks.put((rank, self.number, call, words))

    def work(self):
        while True:
            _, _, call, words = self.tasks.get()
            try:
                call(*words)
            except BaseException as failure:
                self.failure = failure
            self.tasks.task_done()

    def wait(self):
        self.tasks.join()
        if self.failure:
            raise self.failure


def link_tree(here, there):
    """Copies a folder of files that nothing changes, by hard links where the file system has them."""
    try:
        shutil.copytree(here, there, copy_function=pathlib.os.link)
    except (OSError, shutil.Error):
        shutil.rmtree(there, ignore_errors=True)
        shutil.copytree(here, there)


def make_room(room, name):
    """A copy of the repository with one crate, what was kept of it, and the libraries below it as they are built."""
    crates = listed()
    for file in ("crates.txt", "HANDLES"):
        if (ROOT / file).is_file():
            shutil.copy(ROOT / file, room)
    for it in crates:
        copy_crate(it, room, SOURCES if it in below(name, crates) | {name} else ("src",))
    for it in below(name, crates):
        link_tree(ROOT / "crates" / it / "out" / "rlib", room / "crates" / it / "out" / "rlib")
    copy_crate(name, room, KEPT)


def keep(made, out):
    """Puts what a check left in the place of what was there before."""
    out.mkdir(exist_ok=True)
    for it in made.iterdir():
        if it.is_dir():
            shutil.rmtree(out / it.name, ignore_errors=True)
        shutil.move(str(it), str(out / it.name))


class Trial:
    """The crates that are proved, and their edits, which are tried unless the record has them."""

    def __init__(self, names, schedule, report, record, wanted, over=None):
        self.crates, self.schedule, self.report, self.record = listed(), schedule, report, record
        self.names, self.over, self.wanted, self.lock, self.left = names, over, wanted, threading.Lock(), {}
        needed = {it for name in names for it in below(name, self.crates) | {name}}
        self.left = {name: below(name, self.crates) for name in needed}

    def start(self):
        """Starts with the edits, if all is proved, and else with the crates that stand on nothing."""
        for name in self.names if self.over else []:
            self.try_over(name)
        for name in [it for it, waits in self.left.items() if not waits and not self.over]:
            self.schedule.put(0, self.prove, name)

    def prove(self, name):
        """Proves a crate as it is, keeps what that leaves, and goes on with its edits and with the crates above it."""
        started = time.monotonic()
        with tempfile.TemporaryDirectory(prefix="wrong-bodies-") as folder:
            make_room(pathlib.Path(folder), name)
            here = pathlib.Path(folder, "crates", name)
            said, status = run(here, ["rt", "check" if (here / "src" / "main.rt").is_file() else "lib", "--jobs", "1"])
            if status == 0:
                keep(here / "out", ROOT / "crates" / name / "out")
        if status != 0:
            told = [line for line in said.split("\n") if re.search(r"\berror\b|: (not proved|no proof)", line)] or said.split("\n")
            lines = "\n".join(f"    {line[:300]}" for line in told[-SHOWN:])
            self.report.say(f"{name}: NOT PROVED as it is, so no edit of it or of what stands on it is tried\n{lines}")
            self.give_up(name)
            return
        self.report.say(f"{name}: proved as it is ({time.monotonic() - started:.0f} s)")
        self.go_on(name)
        if name in self.names:
            self.try_edits(Crate(name))

    def go_on(self, name):
        """Proves the crates that waited for this one alone."""
        with self.lock:
            for it, waits in self.left.items():
                if waits and waits == {name} & waits:
                    self.schedule.put(0, self.prove, it)
                waits.discard(name)

    def give_up(self, name):
        for it in [name, *(it for it in self.left if name in below(it, self.crates))]:
            for edit in edits_of(it) if it in self.names else []:
                self.report.fail(edit, "NOT TRIED")

    def try_as_proved(self, lines):
        """Tries the edits of the crates that these lines name, as they come. What is not named in the end was not proved."""
        named = set()
        for name in map(str.strip, lines):
            if name in self.names and name not in named:
                named.add(name)
                self.try_over(name)
        for edit in (it for name in self.names if name not in named for it in edits_of(name)):
            self.report.fail(edit, "NOT TRIED, since its crate is not proved")

    def try_over(self, name):
        """Tries the edits of a crate over the libraries of another folder, if these are of this repository's sources."""
        others = [it for crate in sorted({name} | below(name, self.crates)) for it in differences(crate, self.over)]
        if not others:
            self.try_edits(Crate(name, libraries=self.over))
            return
        self.report.say(f"{name}: {self.over} has other sources, or a library of other sources: {', '.join(others[:SHOWN])}")
        for edit in edits_of(name):
            self.report.fail(edit, "NOT TRIED, since it would be tried over other sources")

    def try_edits(self, crate):
        for edit, why in crate.broken.items():
            self.report.fail(edit, f"BROKEN: {why}")
        edits = [it for it in crate.edits if self.wanted(it)]
        if edits:
            self.schedule.put(1 / len(edits), self.try_rounds, crate, edits)

    def try_rounds(self, crate, edits):
        """Tries the rounds of a crate, and what one leaves in smaller ones, down to one edit."""
        rounds = crate.rounds(edits)
        self.report.say(f"{crate.name}: {len(edits)} of {len(crate.edits)} edits in {len(rounds)} rounds")
        with tempfile.TemporaryDirectory(prefix="wrong-bodies-") as folder:
            room = Room(folder, crate, self.over or ROOT)
            while rounds:
                rounds = [*self.try_round(room, rounds[0]), *rounds[1:]]

    def try_round(self, room, edits):
        """Tries a round, and returns what is to be tried again: one that is alone is judged, and the others in smaller rounds."""
        started = time.monotonic()
        verdicts, found = room.judge(edits)
        refused = {edit: how for edit, how in verdicts.items() if how in REFUSALS}
        self.report.say(f"{room.crate.name}: {len(refused)} of {len(edits)} refused in one round ({time.monotonic() - started:.0f} s)")
        self.report.refuse(refused)
        self.record.note(refused)
        for edit in (it for it in edits if verdicts.get(it) in (PROVED, NOT_JUDGED)):
            self.fail(edit, verdicts[edit])
        left = [edit for edit in edits if not verdicts.get(edit)]
        if left and len(edits) == 1:
            self.fail(left[0], BROKEN, found.last_lines(SHOWN))
            return []
        half = (len(left) + 1) // 2 if left == edits else len(left)
        return list(filter(None, (left[:half], left[half:])))

    def fail(self, edit, why, said=""):
        was = "; .ci/refused has it as refused" if self.record.has(edit) else ""
        self.report.fail(edit, why + was, said)
        self.record.note({edit: None})
