#!/usr/bin/env python3
"""Makes the lists of the Rust's answers: requests by a generator with a fixed seed, answers by an oracle, a program
over hickory-proto 0.26.3 that answers requests line by line.

    make.py ORACLE    writes the lists beside itself

README.md has their format. The requests: readings at each offset of messages that are valid, cut, changed in a byte or
hostile; steps of an encoder of which none fails; the texts of names, both ways.
"""
import os
import re
import sys

from oracle import Oracle, Random, hexed

HOSTS = "www mail smtp ns1 ns2 api cdn static img db auth login _sip _tcp _443 git ci x a *".split()
PIECES = ["a", "B", "z", "0", "7", "9", "-", "_", "*", ".", ".", "\\", "\\", "\\.", "\\101", "\\052", "\\200", "\\377",
          " ", "\t", "!", "@", "~", "\x7f", "\0"]
TELLING = [0, 42, 45, 46, 92, 95, 127, 128, 255]
ZONES = "example.com example.net Example.ORG hickory-dns.org bbc.co.uk in-addr.arpa a.b de".split()


def labels_of(wire):
    out, i = [], 0
    while wire[i]:
        out.append(wire[i + 1 : i + 1 + wire[i]])
        i += 1 + wire[i]
    return out


def wire_of(labels):
    return b"".join(bytes([len(l)]) + l for l in labels) + b"\0"


def oracle_name(flag, labels):
    return f"{flag} " + (",".join(l.hex() for l in labels) or "-")


# ---- errors

DECODE = [
    (r"InsufficientBytes", "c"),
    (r"PointerNotPriorToLabel \{ idx: (\d+), ptr: (\d+) \}", r"p\1.\2"),
    (r"LabelOverlapsWithOther \{ label: (\d+), other: (\d+) \}", r"o\1.\2"),
    (r"UnrecognizedLabelCode\((\d+)\)", r"x\1"),
    (r"DomainNameTooLong\((\d+)\)", r"n\1"),
    (r"LabelBytesTooLong\((\d+)\)", r"b\1"),
]
MSG = [("Malformed label: ", "m"), ("unrecognized char: ", "u"), ("illegal char: ", "i")]


def decode_code(debug):
    for pattern, code in DECODE:
        if m := re.fullmatch(pattern, debug):
            return m.expand(code)
    sys.exit(f"an error without a code: {debug}")


def proto_code(debug, display):
    """The oracle escapes control characters, so the rest of a text is left out if something in it may be escaped."""
    if m := re.fullmatch(r"Decode\((.*)\)", debug):
        return decode_code(m.group(1))
    for prefix, code in MSG:
        if debug.startswith("Msg(") and display.startswith(prefix):
            return f"{code}:{display[len(prefix):].encode().hex()}" if "\\" not in display else code
    sys.exit(f"an error without a code: {debug}")


# ---- messages

def name(r):
    labels = [r.pick(HOSTS).encode() for _ in range(r.below(3))] + r.pick(ZONES).encode().split(b".")
    if r.below(12) == 0:
        labels.insert(0, bytes(r.below(256) for _ in range(1 + r.below(6))))
    return labels if r.below(20) else []


def valid_message(r):
    """Names and a few other bytes; the names share suffixes by pointers."""
    out, known = bytearray(r.below(256) for _ in range(r.below(4))), {}
    for _ in range(1 + r.below(4)):
        labels = name(r)
        while labels and (key := tuple(labels)) not in known:
            known[key] = len(out)
            out += bytes([len(labels[0])]) + labels[0]
            labels = labels[1:]
        out += (0xC000 | known[tuple(labels)]).to_bytes(2, "big") if labels else b"\0"
        out += bytes(r.below(256) for _ in range(r.below(4)))
    return bytes(out)


def changed(r, message):
    out = bytearray(message)
    for _ in range(1 + r.below(2)):
        out[r.below(len(out))] = r.pick([0, 1, 2, 5, 63, 64, 128, 191, 192, 193, 255, r.below(256)])
    return bytes(out)


def hostile(r):
    """Bytes that are mostly small lengths, pointers near the start, and reserved octets."""
    out = bytearray()
    size = 4 + r.below(24)
    while len(out) < size:
        out += r.pick([b"\0", b"\1a", b"\2", b"\1", bytes([0xC0, r.below(size)]), bytes([0xC0, r.below(size)]),
                       bytes([0xC0 + r.below(64)]), bytes([r.below(256)]), bytes([64 + r.below(128)])])
    return bytes(out)


def chain(pointers):
    """A root, and pointers each to the one before."""
    out, last = bytearray(b"\0"), 0
    for _ in range(pointers):
        last, at = len(out), last
        out += (0xC000 | at).to_bytes(2, "big")
    return bytes(out)


def deep(labels):
    """Labels of one byte, each before the last one by a pointer."""
    out, last = bytearray(b"\1a\0"), 0
    for _ in range(labels - 1):
        last, at = len(out), last
        out += b"\1a" + (0xC000 | at).to_bytes(2, "big")
    return bytes(out)


def long_names():
    """Names at the limit of 255 octets and just past it, whole and by a pointer."""
    for last in (60, 61, 62, 63):
        labels = [b"x" * 63] * 3 + [b"y" * last]
        yield wire_of(labels)
        yield wire_of(labels[1:]) + bytes([63]) + labels[0] + b"\xc0\0"
    for count in (126, 127, 128):
        yield b"\1a" * count + b"\0"


def short_messages():
    alphabet = [0, 1, 2, 0x61, 0x40, 0xC0, 0xC1]
    layer = [b""]
    for _ in range(4):
        layer = [m + bytes([b]) for m in layer for b in alphabet]
        yield from layer


def messages(r):
    yield b""
    yield from short_messages()
    for _ in range(550):
        message = valid_message(r)
        yield message
        if len(message) > 1:
            yield message[: 1 + r.below(len(message) - 1)]
            yield changed(r, message)
    for _ in range(1300):
        yield hostile(r)
    yield from (chain(n) for n in (1, 2, 3, 30, 120))
    yield from (deep(n) for n in (2, 126, 127, 128))
    yield from long_names()


def readings(oracle, r):
    everything = list(dict.fromkeys(messages(r)))
    asked = [(m, start) for m in everything for start in range(len(m) + 1)]
    said = oracle.ask([f"read {start} {hexed(m)}" for m, start in asked])
    cursors = oracle.ask([f"read-cursor {start} {hexed(m)}" for m, start in asked])
    answers = {}
    for (m, start), answer, cursor in zip(asked, said, cursors):
        answers.setdefault(m, []).append(reading(m, start, answer, cursor))
    for m, told in answers.items():
        yield f"readings {hexed(m)} = " + " ".join(told)


def reading(message, start, answer, cursor):
    if answer.startswith("err "):
        moved = int(cursor.split()[1])
        code = decode_code(answer[4:].split("\t")[0])
        return code if moved == start else f"{code}@{moved}"
    _, flag, labels, end = answer.split()
    assert flag == "1" and cursor == f"ok {end}", (answer, cursor)
    wire = wire_of([bytes.fromhex(l) for l in labels.split(",")] if labels != "-" else [])
    return end if message[start : int(end)] == wire else f"{end}:{wire.hex()}"


# ---- texts

def text(r):
    kind = r.below(8)
    if kind < 3:
        out = ".".join([r.pick(HOSTS) for _ in range(r.below(3))] + [r.pick(ZONES)]) + r.pick([".", ""])
    elif kind < 6:
        out = "".join(r.pick(PIECES) for _ in range(r.below(9)))
    elif kind < 7:
        out = "".join(r.pick(["a", ".", "\\", "é", "ß", "ሴ", "\u00a0", "\u2003", "\u0085", "٠", "½", "Ⅷ", "五", "𝟘", "😀",
                              "\\1", "\\12", "\\777", "8", "\u200b", "\u00ad"]) for _ in range(1 + r.below(6)))
    else:
        out = ".".join(r.pick("abc*-_") * r.pick([1, 2, 61, 62, 63, 64, 65]) for _ in range(1 + r.below(5)))
    return out


def texts(oracle, r):
    asked = ["", ".", "\\", "a\\", "a.b\\.", "\\\U0001246f"]
    asked += sorted({text(r) for _ in range(22000)} - set(asked))
    for t, answer in zip(asked, oracle.ask([f"text {hexed(t.encode())}" for t in asked])):
        yield f"text {hexed(t.encode())} = " + parsed(t, answer)


def parsed(asked, answer):
    if answer.startswith("err "):
        return "!" + proto_code(*answer[4:].split("\t"))
    _, flag, _, shown = answer.split()
    shown = bytes.fromhex(shown.replace("-", "")).decode()
    return flag + ("=" if shown == asked else shown)


def prints(oracle, r):
    asked = [(0, []), (1, [])]
    for _ in range(5000):
        labels = name(r)
        for _ in range(r.below(3)):
            labels.append(bytes(r.pick(TELLING + [r.below(256)]) for _ in range(1 + r.below(5))))
        asked.append((r.below(2), labels))
    said = oracle.ask(["to_ascii " + oracle_name(flag, labels) for flag, labels in asked])
    for (flag, labels), answer in zip(asked, said):
        shown = bytes.fromhex(answer.split()[1].replace("-", "")).decode()
        yield f"print {flag} {wire_of(labels).hex()} = {shown}".rstrip()


# ---- encoders

def steps(r, compressed):
    """A few steps. Placeholders are filled from the last one reserved to the first."""
    out, places, kept = ([] if compressed else ["enc:U"]), 0, []
    for _ in range(1 + r.below(9)):
        kind = r.below(20)
        step = step_of(name(r))
        if kind < 11:
            out.append(step)
        elif kind < 13:
            out += ["rdata:" + r.pick("SCO"), step, "end"]
        elif kind == 13:
            out.append("enc:" + r.pick("CUL" if compressed else "UL"))
        elif kind == 14:
            out.append("place")
            kept.append(places)
            places += 1
        elif kind == 15 and kept:
            out.append(f"fill:{kept.pop()}:{r.below(65536)}")
        elif kind == 16:
            out.append(f"u32:{r.below(2**31) * 2 + r.below(2)}")
        elif kind == 17:
            out.append(f"u16:{r.below(65536)}")
        elif kind == 18:
            data = bytes(r.below(256) for _ in range(1 + r.below(6)))
            out.append(r.pick(["vec:", "char:"]) + data.hex())
        else:
            out.append(f"canon:{r.below(2)}")
    return out


def step_of(labels):
    return "n:" + oracle_name(1, labels).replace(" ", ":")


def many_names(r):
    """More names than an encoder compresses, and more suffixes than it keeps."""
    return [step_of(name(r)) for _ in range(110 + r.below(50))]


def far_names(r):
    """Names before, at and after the offset that pointers reach to."""
    gap = 16300 + r.below(80)
    return [step_of(name(r)) for _ in range(3)] + [f"zeros:{gap}"] + [step_of(name(r)) for _ in range(9)]


def encoders(oracle, r, compressed, count):
    asked = [steps(r, compressed) for _ in range(count)]
    if compressed:
        asked += [many_names(r) for _ in range(40)] + [far_names(r) for _ in range(6)]
    for steps_of_one, answer in zip(asked, oracle.ask(["emit " + " ".join(it) for it in asked])):
        assert "err" not in answer and "noplace" not in answer, answer
        # how many names were compressed is private to our encoder
        yield f"encode {' '.join(steps_of_one)} = " + re.sub(r" names=\d+$", "", answer)


def main():
    oracle = Oracle(sys.argv[1])
    lists = {
        "readings": readings(oracle, Random(1)),
        "texts": texts(oracle, Random(2)),
        "prints": prints(oracle, Random(3)),
        "encoders_uncompressed": encoders(oracle, Random(4), False, 1500),
        "encoders_compressed": encoders(oracle, Random(5), True, 5000),
    }
    for name_of_list, lines in lists.items():
        with open(os.path.join(os.path.dirname(__file__), "lists", name_of_list + ".txt"), "w") as out:
            print("# Answers of hickory-proto 0.26.3, by diff/make.py. README.md has the format.", file=out)
            for line in lines:
                print(line, file=out)


if __name__ == "__main__":
    main()
