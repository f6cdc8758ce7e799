"""The parts of the gate: commands that are run, ended at their limits, and counted."""

import itertools
import os
import pathlib
import re
import signal
import subprocess
import threading
import time

ROOT = pathlib.Path(__file__).resolve().parent.parent
# The environment variable by which the processes of a part are known, also those that left its group.
MARK = "DNW_GATE_PART"
NUMBERS = itertools.count(1)
SKIPPED, NOT_RUN = "skipped, since", "not run: its inputs are those"
HEAD = f"{'part':32} {'passed':>8} {'failed':>7} {'skipped':>8} {'not run':>8} {'minutes':>8} {'of processor time':>18}"


def say(text):
    # With its end in one write, since parts say what they do side by side.
    print(f"gate: {text}\n", end="", flush=True)


def processes():
    """All processes: each one's parent, and its environment."""
    for folder in pathlib.Path("/proc").glob("[0-9]*"):
        try:
            # After the name, which is in parentheses, come the state and the parent.
            parent = int((folder / "stat").read_text().rpartition(")")[2].split()[1])
            yield int(folder.name), parent, (folder / "environ").read_bytes().split(b"\0")
        except OSError:
            continue


def marked(mark):
    """The processes that have a mark in their environment, and what they have started without one."""
    parents, found = {}, set()
    for process, parent, environment in processes():
        parents[process] = parent
        if f"{MARK}={mark}".encode() in environment:
            found.add(process)
    while new := {it for it, parent in parents.items() if parent in found} - found:
        found |= new
    return found


class Whole:
    """The minutes of the whole gate, and the parts that are running. After `stop` no part begins."""

    def __init__(self, minutes):
        self.ends, self.running, self.is_stopped = time.monotonic() + minutes * 60, set(), False

    def left(self):
        return max(self.ends - time.monotonic(), 0)

    def stop(self):
        self.is_stopped = True
        for part in list(self.running):
            part.kill("the gate was ended")


class Part:
    """A part of the gate: a command, and what it took and found. After `limit` minutes, or if the whole has no time left, its processes
    are killed, and it has failed. One that `reads` gets a line of standard input for each crate that another one proves, which `writes`
    it. With CI=true one that skips a test has failed, but for one that `may_skip`, since it judges itself what a machine cannot have.
    One that has a `stamp` is not run if it has passed with the same inputs here, as the stamp's `when` says."""

    def __init__(self, name, *command, limit, folder=ROOT, is_quiet=False, may_skip=False, reads=None, writes=None, stamp=None):
        self.name, self.command, self.limit, self.folder = name, command, limit, folder
        self.is_quiet, self.may_skip, self.reads, self.writes, self.stamp = is_quiet, may_skip, reads, writes, stamp
        self.seconds = self.processor = self.passed = self.failed = self.status = 0
        self.skipped, self.not_run, self.why_killed, self.last_line = [], [], "", ""
        self.mark = f"{os.getpid()}.{next(NUMBERS)}"

    def run(self, whole):
        """Runs the command, counts what it found, and says it as a row of the table."""
        when = self.stamp and self.stamp.when()
        if when:
            self.not_run = [f"{self.name}: {NOT_RUN} with which it passed here on {when}"]
            say(self.not_run[0])
        elif not whole.is_stopped:
            say(f"{self.name} begins")
            try:
                self.execute(whole)
            except FileNotFoundError as error:
                self.failed = 1
                say(f"{self.name} FAILED: {error}")
            if self.stamp and self.passed and not (self.failed or self.skipped):
                self.stamp.note()
        if self.writes:
            self.writes.close()
        say(self.row())

    def execute(self, whole):
        started, said = time.monotonic(), []
        how = {"stdin": self.reads or subprocess.DEVNULL, "stdout": subprocess.PIPE, "stderr": subprocess.STDOUT, "errors": "replace"}
        environment = {**os.environ, MARK: self.mark}
        # A group of its own, and no session: Linux shares processors among sessions, whatever is nice within them.
        with subprocess.Popen(self.command, cwd=self.folder, env=environment, text=True, preexec_fn=os.setpgrp, **how) as ran:
            whole.running.add(self)
            if whole.is_stopped:
                self.kill("the gate was ended")
            timer = self.timer(whole)
            for line in ran.stdout:
                said.append(line)
                self.pass_on(line)
            _, status, usage = os.wait4(ran.pid, 0)
            timer.cancel()
            whole.running.discard(self)
            ran.returncode = self.status = os.waitstatus_to_exitcode(status) if hasattr(os, "waitstatus_to_exitcode") else status
        self.seconds, self.processor = time.monotonic() - started, usage.ru_utime + usage.ru_stime
        self.count(said)
        if self.failed and self.is_quiet:
            print("".join(said), end="", flush=True)
        if self.why_killed:
            say(f"{self.name} FAILED: {self.why_killed}, and its processes were killed")

    def timer(self, whole):
        """Starts what kills the command at its limit, or when the whole has no time left."""
        own, left = self.limit * 60, whole.left()
        why = f"it took longer than its {self.limit} minutes" if own < left else "the minutes of the whole gate are over"
        timer = threading.Timer(min(own, left), self.kill, [why])
        timer.daemon = True
        timer.start()
        return timer

    def pass_on(self, line):
        """Passes on what the command says, or the lines of `rt` alone if it is quiet, and which crates are proved."""
        if not self.is_quiet or line.startswith("rt: "):
            print(line, end="", flush=True)
        proved = self.writes and re.fullmatch(r"rt: (\w+) (?:proved|is kept: .*)\n", line)
        if proved:
            print(proved[1], file=self.writes, flush=True)

    def kill(self, why):
        """Kills all that the command has started, in its group or not, until there is nothing left."""
        self.why_killed = why
        while found := marked(self.mark):
            for process in found:
                try:
                    os.kill(process, signal.SIGKILL)
                except ProcessLookupError:
                    pass
            time.sleep(0.1)

    def count(self, said):
        """Reads how many passed and failed from the last line, if it says so. A status that is not 0 is a failure by itself."""
        self.skipped = [f"{self.name}: {line.strip()}" for line in said if SKIPPED in line]
        self.not_run = [f"{self.name}: {line.strip()}" for line in said if NOT_RUN in line]
        self.last_line = said[-1].rstrip("\n") if said else ""
        found = re.fullmatch(r"(\d+) (?:passed|refused), (\d+) (?:failed|not refused)", self.last_line)
        self.passed, self.failed = (int(found[1]), int(found[2])) if found else (int(self.status == 0), 0)
        self.failed = self.failed or int(self.status != 0 or bool(self.why_killed))
        if self.skipped and not self.may_skip and os.environ.get("CI") == "true":
            say(f"{self.name} FAILED: it may skip nothing in CI")
            self.failed += len(self.skipped)

    def row(self):
        counts = f"{self.passed:8} {self.failed:7} {len(self.skipped):8} {len(self.not_run):8}"
        return f"{self.name:32} {counts} {self.seconds / 60:8.1f} {self.processor / 60:18.1f}"
