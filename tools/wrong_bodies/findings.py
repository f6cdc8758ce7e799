"""What a check of a trial says of an edit's functions: the goals that stay open, and the hand-written answers that went stale.

A check prints, right before a function's line, a note for each of its goals that the prover left open:

    note: src/a.rt:27:1: it is not proved that .. (`returns`); the facts known there allow values at which this goal is false
    fn sums::add: no proof: ..; `search` did not prove `returns`

An error in a file of proofs has its file, its line and its column."""

import re

# How an edit is refused, the surest first, and what the check's note of a goal has. The second has no such words.
FALSE, OPEN, GAVE_UP = "a counterexample was found", "a goal stays open", "the search gave up"
REFUSALS = (FALSE, OPEN, GAVE_UP)
HOW = {FALSE: "the facts known there allow values", GAVE_UP: "`search` gave up at one of its limits"}
# An error in a file of proofs.
ERROR = r"^(?:\./)?(proofs/\S+\.antt):(\d+):\d+: error: "
# The status of a check that was asked for a function that it does not find.
NO_SUCH_PATH = 2


class Findings:
    """What a check printed, read once: the lines of functions with the notes before them, and the errors in files of proofs."""

    def __init__(self, said, crate):
        self.said, self.functions, self.errors = said, [], []
        # A check that the front end ends proves nothing, whatever it printed before.
        self.is_whole = re.search(r"^(only=\d+ (?:proved|holes)=\d|holes=\d|logic=)", said, re.M) is not None
        notes = []
        for line in said.split("\n"):
            note = re.match(r"note: src/\S+:\d+:\d+: .*?\(`([^`]+)`\)(.*)", line)
            if note:
                notes.append((note[1], next((how for how, words in HOW.items() if words in note[2]), OPEN)))
            function = re.match(r"fn (\S+): (.*)", line)
            if function:
                self.functions.append((function[1], function[2], dict(notes)))
                notes = []
        for file, line in re.findall(ERROR, said, re.M):
            path = "::".join([crate, *file[len("proofs/") :].replace("+", "").split("/")[:-1]])
            self.errors.append((path, file, int(line)))

    def of(self, edit):
        """The status and the open goals of each function that has an edit's changes, or of all if it changes none that is known."""
        functions = edit.tried()
        return [(status, notes) for path, status, notes in self.functions if not functions or any(it.is_at(path) for it in functions)]

    def open_goals(self, edit):
        """How each goal that stays open in an edit's functions does, by its name."""
        found = {}
        for status, notes in self.of(edit):
            for goals in re.findall(r"`search` did not prove ((?:`[^`]+`(?:, | and )?)+)", status):
                found.update({goal: notes.get(goal, OPEN) for goal in re.findall(r"`([^`]+)`", goals)})
        return found

    def is_proved(self, edit):
        """Whether the check says that no goal of an edit's functions is open, but what others still lack."""
        found = self.of(edit)
        return bool(found) and all(re.match(r"no holes|depends on a hole|proved", status) for status, _ in found)

    def stale_lines(self, edit):
        """The lines with errors in the proof files of an edit's functions, by file."""
        found = {}
        for path, file, line in self.errors:
            if any(it.is_at(path) for it in edit.tried()):
                found.setdefault(file, set()).add(line)
        return found

    def last_lines(self, count):
        return "\n".join(f"    {line[:300]}" for line in self.said.rstrip("\n").split("\n")[-count:])


def surest(ways):
    """The surest of the ways in which goals are open; none if there are none."""
    return next((how for how in REFUSALS if how in ways), None)


def stem(goal):
    """Where a goal arises: its name without the clause that it is for, as `returns-in_ok-x` of `returns-in_ok-x-clause-same`."""
    return goal.partition("-clause-")[0]


def only_in_trial(trial, control, answered):
    """How goals are open that the right body has too, and that are proved there: those for a clause, where another clause at that
    place is open in the control or has a hand-written answer."""
    known = {stem(goal) for goal in [*control, *answered]}
    return surest([how for goal, how in trial.items() if goal not in control and "-clause-" in goal and stem(goal) in known])


def without_stale_answers(texts, stale):
    """These proof files without the answers that have an error in one of their lines, so that the prover tries their goals."""
    left = {}
    for file, lines in stale.items():
        number, kept = 1, []
        for part in texts[file].split("\n\n"):
            after = number + part.count("\n") + 2
            if not any(number <= line < after for line in lines):
                kept.append(part)
            number = after
        left[file] = "\n\n".join(kept) + "\n"
    return left
