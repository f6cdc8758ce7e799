"""Judges what the library writes by what real servers write: `servers.py [QUESTIONS [SEED [PART..]]]`.

The parts are `cuts`, `updates` and `transfers`; see served_cuts.py, served_updates.py and served_transfers.py. DNW_LIB_DIR has to name the
folder of the shared library, and PYTHONPATH the Python package.
"""

import pathlib
import signal
import sys
import tempfile
import time

import served_cuts
import served_transfers
import served_updates
from served import say


def main(count="1000", seed="1035", *parts):
    count, seed, faults = int(count), int(seed), 0
    # The servers are ended if the script is.
    signal.signal(signal.SIGTERM, lambda *_: sys.exit(143))
    runs = {
        "cuts": lambda room: served_cuts.main(room, seed, count, count // 10),
        "updates": lambda room: served_updates.main(room, seed),
        "transfers": lambda room: served_transfers.main(room, seed),
    }
    for part in parts or runs:
        began = time.monotonic()
        with tempfile.TemporaryDirectory(prefix="servers-") as folder:
            faults += runs[part](pathlib.Path(folder))
        say(f"{part}: {time.monotonic() - began:.0f} seconds")
    return faults > 0


if __name__ == "__main__":
    sys.exit(main(*sys.argv[1:]))
