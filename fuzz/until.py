#!/usr/bin/env python3
"""Runs a fuzzer until it has used so much of a processor: `until.py MINUTES COMMAND..`.

Prints the seconds of user time that it used, and exits as it did. A fuzzer ends at SIGUSR1, and says how far it came.
"""

import os
import pathlib
import signal
import subprocess
import sys
import time

TICKS = os.sysconf("SC_CLK_TCK")


def user_seconds(pid):
    """The user time of a process that has not been waited for."""
    words = pathlib.Path(f"/proc/{pid}/stat").read_text(encoding="ascii").rsplit(")", 1)[1].split()
    return int(words[11]) / TICKS


def main(minutes, *command):
    with subprocess.Popen(command, stdout=2) as fuzzer:
        is_asked = False
        while os.waitid(os.P_PID, fuzzer.pid, os.WEXITED | os.WNOHANG | os.WNOWAIT) is None:
            if not is_asked and user_seconds(fuzzer.pid) >= 60 * float(minutes):
                fuzzer.send_signal(signal.SIGUSR1)
                is_asked = True
            time.sleep(0.2)
        _, status, used = os.wait4(fuzzer.pid, 0)
        fuzzer.returncode = os.waitstatus_to_exitcode(status)
    print(f"{used.ru_utime:.0f}")
    return 0 if fuzzer.returncode == 0 else 1


if __name__ == "__main__":
    sys.exit(main(*sys.argv[1:]))
