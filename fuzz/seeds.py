#!/usr/bin/env python3
"""Writes the inputs that the fuzzer begins with: `seeds.py FOLDER` makes a folder in it for each harness.

They are the messages, texts, wire forms, names, bitmaps and times of the lists and rows in diff/, and the replies of name
servers there, each once.
"""

import collections
import hashlib
import itertools
import pathlib
import re
import struct
import sys

import call_seeds

DIFF = pathlib.Path(__file__).resolve().parent.parent / "diff"


def requests():
    """The words of each request: the lines of the lists and rows without their answers."""
    for file in sorted([*DIFF.glob("lists/*.txt"), *DIFF.glob("rows/*.txt"), *DIFF.glob("tokens/*.txt")]):
        for line in file.read_text(encoding="utf-8").split("\n"):
            if line and not line.startswith("#") and "<" not in line:
                words = line.split(" = ")[0].split(" ")
                yield ["lex", words[1]] if file.parent.name == "tokens" and words[0] == "cuts" else words


def octets(word):
    """The octets that a word of a request has in hexadecimal, or none."""
    return bytes.fromhex(word) if re.fullmatch("([0-9a-f]{2})*", word) else b""


def form(name):
    """The wire form of `1:LABEL,LABEL` or `0:LABEL,LABEL`, or of a plain text, or nothing."""
    if re.fullmatch("[01]:[0-9a-f,-]*", name):
        labels = [octets(label) for label in name[2:].split(",") if label not in ("", "-")]
    elif re.fullmatch("[0-9A-Za-z.]+", name):
        labels = [label.encode() for label in name.split(".") if label]
    else:
        return b""
    return b"".join(bytes([len(label)]) + label for label in labels) + b"\0"


def character(word):
    """The octet that a character of a reverse name is, or `=` and two digits."""
    return int(word[1:], 16) if len(word) == 3 else ord(word)


def triples(forms):
    """Inputs of three names each: the lengths of the first two, and the three."""
    for left, middle, right in zip(forms, forms[1:], forms[2:]):
        if len(left) < 256 and len(middle) < 256:
            yield bytes([len(left), len(middle)]) + left + middle + right


def records(names):
    """Records of the first name: its own address, and then each other name as the data of an NS record."""
    first, others = names[0], names[1:]
    yield first + b"\0\1\0\1\0\0\1\x2c\0\4\xc0\0\2\1"
    for other in others:
        yield first + b"\0\2\0\1\0\0\1\x2c" + struct.pack(">H", len(other)) + other


def message(names):
    """A list of items: a question, and records, each in one of the sections or left out at will."""
    items = b"\0" + names[0] + b"\0\1\0\1"
    for number, record in enumerate(records(names)):
        items += bytes([(1, 1, 130, 131)[min(number // 5, 3)]]) + record
    return items


def block(octets):
    """Octets after their number, as many as it can say."""
    return bytes([min(len(octets), 255)]) + octets[:255]


def calls(names):
    """The calls that write a message of these names: a question, and records of each section."""
    made = b"\0\x12\x34\x85\x80\4\0" + b"\3\xf0" + block(names[0]) + b"\0\0"
    for number, name in enumerate(names):
        made += bytes([16 * min(2 + number // 4, 4) + 5]) + b"\xf0" + block(name) + b"\x11" + block(name)
    return made


def signature(code, labels):
    """An RRSIG of the root that covers a type, with so many labels."""
    return b"\0" + struct.pack(">HHIH", 46, 1, 0, 19) + struct.pack(">HBB", code, 13, labels) + bytes(15)


def responses():
    """The inputs that the signed response of the examples gives: from where each section begins, which the fuzzer need not find."""
    whole = octets("".join((DIFF.parent / "examples" / "signed" / "response.hex").read_text().split()))
    for start in range(12, len(whole), 7):
        yield "signing", struct.pack(">H", start) + whole
    at = 12
    for counts in struct.unpack(">HHHH", whole[4:12]):
        yield "signing", struct.pack(">H", at) + whole
        for _ in range(counts):
            at = passed(whole, at, at == 12)


def passed(whole, at, is_question):
    """Where the question or record at an offset ends."""
    while 0 < whole[at] < 64:
        at += 1 + whole[at]
    at += 1 if whole[at] == 0 else 2
    return at + 4 if is_question else at + 10 + struct.unpack(">H", whole[at + 8 : at + 10])[0]


def inputs(words):
    """The inputs that a request gives: pairs of a harness and octets."""
    kind, rest = words[0], words[1:]
    if kind in ("readings", "read", "cuts", "octets"):
        yield "names", octets(rest[-1])
    elif kind == "fields":
        code, start, whole = int(rest[0]), int(rest[1]), octets(rest[2])
        record = b"\0" + struct.pack(">HHIH", code, 1, 0, len(whole) - start) + whole[start:]
        yield "sections", b"\xff" + bytes(6) + b"\0\1" + bytes(4) + record
        yield "sections", b"\xff" + struct.pack(">H", code) + whole[start:]
        yield "printing", struct.pack(">H", code) + whole[start:]
        yield "packing", b"\2\0" + bytes(6) + b"\0\2" + bytes(4) + record + record
        yield "signing", b"\0\x1e" + signature(code, 0) + record + record
        yield "sums", b"\1\1\0\1" + signature(63, 0) + record + record
    elif kind == "data-parse":
        text = " ".join(rest[1:]).encode()
        yield "parsing", b"\0" + struct.pack(">H", int(rest[0])) + text
        yield "parsing", b"\3\1a\0" + struct.pack(">H", int(rest[0])) + b"@ 1h CH TYPE" + rest[0].encode() + b" " + text
        yield "parsing", b"\3\1a\0" + struct.pack(">H", int(rest[0])) + b"b 1 IN TYPE" + rest[0].encode() + b" ( " + text + b" ;\n )"
        yield "zone_files", b"$TTL 1h\nb TYPE" + rest[0].encode() + b" " + text + b"\n @ CH ( TYPE" + rest[0].encode() + b"\n " + text + b" ; c\n)"
    elif kind in ("text", "print"):
        yield "texts", octets(rest[-1])
    elif kind in ("encode", "script"):
        names = [form(step[2:]) for step in rest if step.startswith("n:")]
        yield "lists", b"\xff\xff\0" + b"".join(names)
        if any(names):
            names = [name for name in names if name][:20]
            yield "records", bytes(12) + b"".join(records(names))
            yield "printing", b"".join(records(names))
            counts = struct.pack(">HHHH", 1, 0, 0, len(names))
            whole = bytes(4) + counts + names[0] + b"\0\1\0\1" + b"".join(records(names))
            yield "sections", b"\xff" + whole
            yield "table", b"\xff" + whole
            yield "packing", b"\2\0" + whole
            for most in b"\4\0", b"\0\x60", b"\1\0":
                yield "writer", b"\4\0" + most + b"\0\0" + calls(names)
                yield "writer", b"\4\0" + most + b"\0\0" + message(names)
    elif kind == "order":
        for triple in triples([form(name) for name in rest][:4]):
            yield "order", triple
            yield "edits", triple
            yield "sums", triple
    elif kind == "set-read":
        yield "types", b"\0" + octets(rest[-1])
        yield "sections", b"\xff" + struct.pack(">H", 47) + b"\0" + octets(rest[-1])
    elif kind == "set-new":
        codes = [int(code) for code in rest[0].split(",") if code.isdigit()]
        yield "types", b"\0" + struct.pack(f"<{len(codes)}H", *codes)
    elif kind in ("type-name", "class-name"):
        yield "codes", rest[0].encode()
    elif kind == "arpa":
        labels = [bytes(map(character, re.findall("=..|.", label))) for label in rest[0].split(".") if label]
        yield "reverse", b"".join(bytes([len(label)]) + label for label in labels) + b"\0"
    elif kind in ("time", "lex"):
        yield "codes" if kind == "time" else "tokens", octets(rest[-1])
        if kind == "lex":
            yield "zone_files", octets(rest[-1])


def replies():
    """The inputs that the replies of name servers give."""
    for line in (DIFF / "servers" / "replies.txt").read_text(encoding="utf-8").splitlines():
        whole = line.split(" ", 2)[1]
        yield "sections", b"\xff" + octets(whole)
        yield "table", b"\xff" + octets(whole)
        yield "packing", b"\0\x80" + octets(whole)
        yield "printing", octets(whole)


# Texts of data at the limits of what they may be, by their types.
AT_LIMITS = {
    6: ["a. b. 1 2s 3m 4h 5d", "a. b. 1 1w1 1 1 1", "a. b. 1h 1 1 1 1", "a. b. 4294967295 7101w 1 1 1"],
    22: ["0x", "0X00", "0x0.0", "0x0"],
    29: [
        "90 N 180 E 0", "90 0 0.001 N 180 E 0", "90 S 180 0 0.001 W 0m", "0 59 59.999 S 0 60 W 1", "89 59 60 N 1 E .5m", "1 N 2 E -100000.01m",
        "1 2 N 3 4 5. W -100000.00m 0 .01 90000000.00m", "1 N 2 E 42849672.95m 1m 2m 3m", "1 N 2 E 42849672.96", "1 N 2 E 1 90000000.01m",
        "1 N 2 E 1 -0m -.01m", "1 N 2 E +1m 1 2 3 4",
    ],
    37: ["PKIX 0 RSAMD5 AA==", "OID 65535 254 AA=="],
    42: ["1:1.2.3.4/33", "!1:0.0.0.0/0", "2:::/129", "3:1/1", "1:1.2.3.4", "01:1.2.3.4/032"],
    45: ["10 0 2 a. AA==", "10 4 2 . AA==", "10 4 2 192.0.2.1 AA==", "10 4 2 ::1 AA==", "256 0 2 ."],
    46: ["A 5 3 1 20250101240000 20240229235959 1 a. AA==", "A 5 3 1 20230229000000 21060207062816 1 a. AA==", "* 5 3 1 1 4294967295 1 a. AA=="],
    50: ["1 0 0 - 0g", "1 0 0 - 0h", "1 0 0 00 0 A"],
    55: ["2 00 = a.", "2 00 AA== a. b.", "2 - AA=="],
    64: ["1 . key01=a", "1 . mandatory=port", "1 . port=65536", "1 . alpn=a,,b", "1 . key3= key4", "1 . no-default-alpn=\"\" key2"],
    104: ["1 1:2:3:4", "1 00000:0:0:0", "65536 0:0:0:0", "1 :0:0:0"],
    260: ["1 0 0 .", "1 2 0 .", "1 1 4 .", "1 1 3 a."],
    264: ["18446744073709551615", "18446744073709551616"],
}

# Data that have no text of their own, or only just one, by their types.
OCTETS_AT_LIMITS = {
    22: ["", "00"],
    29: ["0133161389172dd070be15f000988d20", "01"],
    42: ["00030801ff", "0001200401020304", "0002808020010db8000000000000000000000001"],
    45: ["0a000201", "0a000200", "0a030200"],
    47: ["000001400002400000", "00000001400001000140"],
    50: ["01000000000000", "010000000101010f"],
    55: ["00020001ff", "01020000ff", "01020001aabb", "01020001aabb00016100"],
    64: ["000100000000020003", "0001000000000200030003000200350004000400000000", "00010000010003022c5c", "0001000001000100", "00010000030001ff"],
    257: ["0003612d6261", "000061", "000161"],
}


def limits():
    """Data at their limits, which no mutation finds soon: texts, and locations (RFC 1876) as octets."""
    for code, texts in AT_LIMITS.items():
        for text in texts:
            yield "parsing", b"\0" + struct.pack(">H", code) + text.encode()
            yield "zone_files", b"a. 1 TYPE" + str(code).encode() + b" " + text.encode()
    for code, data in OCTETS_AT_LIMITS.items():
        for whole in data:
            yield "printing", struct.pack(">H", code) + octets(whole)
    middle, pole, lowest = 1 << 31, 90 * 3600000, 10000000
    for latitude, longitude in itertools.product([pole, pole + 1, -pole, -pole - 1, -1], [2 * pole, 2 * pole + 1, -2 * pole, -2 * pole - 1, 0]):
        for sizes in b"\x12\x16\x13", b"\x00\x10\x99", b"\x01\x9a\xa0", b"\x11\x09\x90":
            altitude = lowest + (latitude + longitude) % 300 - 150
            whole = struct.pack(">B3sIII", 0, sizes, middle + latitude, middle + longitude, altitude)
            yield "printing", struct.pack(">H", 29) + whole


def zones():
    """The zone files that are there, and the forms of control entries."""
    for file in [*DIFF.glob("zones/*"), *DIFF.glob("included/**/*.zone"), *(DIFF.parent / "examples").glob("zone.*")]:
        yield "zone_files", file.read_bytes()
    for entry in b"$TTL 1w2d\n", b"$ORIGIN a.b.\n", b"$INCLUDE sub/x.zone c.d. ; e\n", b'$INCLUDE "a b"\n':
        yield "zone_files", entry + b"@ 1 IN A 192.0.2.1\n  TXT ( a\n \"b c\" )\nb CH 2m NS a\n IN A 192.0.2.2\n" + entry


def main():
    folder = pathlib.Path(sys.argv[1])
    others = collections.defaultdict(set)
    for harness, octets_of_it in itertools.chain(*map(inputs, requests()), replies(), responses(), limits(), zones()):
        others[harness].add(octets_of_it)
    others["calls"] = set(call_seeds.calls(others))
    for harness, octets_of_it in ((harness, it) for harness, found in others.items() for it in found):
        place = folder / harness
        place.mkdir(parents=True, exist_ok=True)
        (place / hashlib.sha1(octets_of_it).hexdigest()).write_bytes(octets_of_it)


if __name__ == "__main__":
    main()
