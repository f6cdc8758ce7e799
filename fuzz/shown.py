#!/usr/bin/env python3
"""Looks for characters that a terminal obeys in what `dnw` prints of hostile input: shown.py DNW [SECONDS [SEED]]

DNW is the program, as tools/program makes it. For so many seconds (600) it is given, again and again, three hundred messages, as lines and
as JSON, a zone file with its errors, names as lines, and words: replies of name servers, text and random octets, of which some are
changed to characters for control, to such as turn the direction of text, or to others. In what it prints, on standard output and on
standard error, no octet may be below 32, but line feed and tab, or 127, it is UTF-8, and it has none of these characters. Its status is
0, 1 or 2. The first input that is printed otherwise is written to a file, and ends it.
"""

import os
import pathlib
import random
import re
import subprocess
import sys
import tempfile
import time

ROOT = pathlib.Path(__file__).resolve().parent.parent
# Characters for control, those that end a line or turn its direction, and others beside them.
TURNS = [0x61C, 0x200E, 0x200F, 0x2028, 0x2029, *range(0x202A, 0x202F), *range(0x2066, 0x206A)]
BAD = re.compile("[" + "".join(map(chr, [*range(9), *range(11, 32), *range(127, 160), *TURNS])) + "]")
PLANTED = [*(bytes([it]) for it in [*range(32), 127, 128, 155, 255]), *(chr(it).encode() for it in [0x85, 0x9B, 0x2027, 0x202F, *TURNS])]
# Options of EDNS that have a text, or that are shown as one: NSID, Extended DNS Error, zone versions, agents.
OPTIONS = [3, 15, 18, 19, 65001, 5, 12, 13, 16]
WORDS = ["TXT", "A", "MX", "CAA", "URI", "SVCB", "NAPTR", "$ORIGIN", "$TTL", "$INCLUDE", "$BOGUS", "IN", "60", "(", ")", '"', ";", "\\#", "@"]


def messages():
    for line in (ROOT / "diff/servers/replies.txt").read_text().split("\n"):
        if line and line[0] != "#":
            yield bytes.fromhex(line.split(" ")[1])


def planted(chance, octets, most=4):
    """Octets, some of which are replaced by what is hostile."""
    octets = bytearray(octets)
    for _ in range(chance.randrange(most + 1)):
        at, bad = chance.randrange(len(octets) + 1), chance.choice(PLANTED)
        if chance.random() < 0.7:
            octets[at : at + len(bad)] = bad
        else:
            octets[at:at] = bad
    return bytes(octets)


def text(chance, most=30):
    return planted(chance, bytes(chance.randrange(32, 127) for _ in range(chance.randrange(most))), 6)


def with_options(chance):
    """A response that has an OPT record with options, some of them texts."""
    own = b""
    for _ in range(chance.randrange(1, 4)):
        octets = text(chance)
        if chance.random() < 0.6:
            octets = chance.randbytes(2) + octets
        own += chance.choice(OPTIONS).to_bytes(2, "big") + len(octets).to_bytes(2, "big") + octets
    return bytes.fromhex("0007818000000000000000010000290200000000") + b"\0\0" + len(own).to_bytes(2, "big") + own


def zone(chance):
    """The text of a zone file."""
    lines = []
    for _ in range(chance.randrange(1, 200)):
        words = [chance.choice(WORDS) if chance.random() < 0.6 else text(chance, 12).decode("latin-1") for _ in range(chance.randrange(1, 8))]
        line = (chance.choice(["a", "@", "", " ", "x\\010y"]) + " 60 " if chance.random() < 0.5 else "") + " ".join(words)
        lines.append(planted(chance, line.encode("latin-1"), 2))
    return b"\n".join(lines)


def asked(chance, seeds, folder):
    """Words for `dnw`, and its standard input."""
    kind = chance.randrange(6)
    if kind < 3:
        many = [with_options(chance) if chance.random() < 0.3 else planted(chance, chance.choice(seeds)) for _ in range(300)]
        how = chance.choice([["--lines"], ["--lines", "--json"], ["--framed"], ["--framed", "--json"]])
        if "--lines" in how:
            return ["message", "-", *how], b"\n".join(it.hex().encode() for it in many)
        return ["message", "-", *how], b"".join(len(it).to_bytes(2, "big") + it for it in many)
    if kind == 3:
        how = chance.choice([[], ["--check"], ["--relative"], ["--sort"]])
        return ["zone", "-", "--origin", "example.", f"--include={folder}", *how], zone(chance)
    if kind == 4:
        return ["name", "--lines", "-", *chance.choice([[], ["--key"], ["--reverse"]])], b"\n".join(text(chance) for _ in range(300))
    words = [text(chance, 12).replace(b"\0", b"").decode("utf-8", "ignore") for _ in range(3)]
    return [chance.choice(["message", "query", "name", "zone", "nsec3", "ds", words[2], f"--{words[2]}"]), *words[:2]], b""


def fault(wrote, status):
    """What is wrong with what was printed, if anything is."""
    try:
        found = BAD.search(wrote.decode())
    except UnicodeDecodeError as error:
        return str(error)
    if status not in (0, 1, 2):
        return f"status {status}"
    return f"character {ord(found[0])} at {found.start()}" if found else ""


def main():
    if not 2 <= len(sys.argv) <= 4:
        sys.exit(__doc__)
    program, seconds, seed = os.path.abspath(sys.argv[1]), float((sys.argv[2:3] or ["600"])[0]), int((sys.argv[3:4] or ["1"])[0])
    chance, seeds, end, runs, octets = random.Random(seed), list(messages()), time.monotonic() + seconds, 0, 0
    with tempfile.TemporaryDirectory() as folder:
        while time.monotonic() < end:
            words, given = asked(chance, seeds, folder)
            ran = subprocess.run([program, *words], input=given, capture_output=True, cwd=folder, timeout=60)
            runs, octets = runs + 1, octets + len(ran.stdout) + len(ran.stderr)
            for wrote in (ran.stdout, ran.stderr):
                wrong = fault(wrote, ran.returncode)
                if wrong:
                    pathlib.Path("shown.input").write_bytes(given)
                    sys.exit(f"shown: failed: {wrong}: {words}, with the input in the file shown.input: {wrote[:200]}")
    print(f"shown: {runs} runs, {octets} octets printed, none that a terminal obeys")


if __name__ == "__main__":
    main()
