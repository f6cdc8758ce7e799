"""Exchanges the texts of names with dnspython and BIND: `name_texts.py LIBRARY [NAMES [SEED]]`.

Random names, of any octets, are printed by ours and read by dnspython, printed by dnspython and read by ours, and in a
zone put through `named-checkzone -D`, which reads ours and prints its own. All must be the same octets. Random texts, of
what means something to a reader and with one octet changed, are read by ours and by dnspython, with and without an origin:
the same octets, or both refuse; where they differ on purpose, DIFFERENCES says so, and how often is printed.
"""

import collections
import ctypes
import random
import struct
import subprocess
import sys
import tempfile

import dns.exception
import dns.name

OURS = ctypes.CDLL(sys.argv[1])
NAMES = int(sys.argv[2]) if len(sys.argv) > 2 else 20000
SEED = int(sys.argv[3]) if len(sys.argv) > 3 else 1035

HOSTILE = b"\"\\;()@$ \t\n\r\0.,=#*-_/!09aZ\x7f\x80\xff"
EXAMPLES = [
    "0/25.2.0.192.in-addr.arpa.",
    "-dash.example.",
    "a!b.example.",
    "_sip._tcp.x.",
    "sp\\032ace.",
    "a\\.b\\@\\\\.c.",
    "*.example.",
    ".",
]
DIFFERENCES = {
    "dnspython reads the empty text as the origin, or the name without labels": lambda text: text == b"",
}


class Parsed(ctypes.Structure):
    _fields_ = [("len", ctypes.c_size_t), ("is_fqdn", ctypes.c_bool)]


def parse(text, origin=b""):
    """The wire form of a text's name and whether it is fully qualified, or None."""
    form, parsed = ctypes.create_string_buffer(255), Parsed()
    sizes = [ctypes.c_size_t(len(it)) for it in (text, origin)]
    given = (text, sizes[0], origin, sizes[1])
    failed = OURS.dnw_name_parse(*given, form, ctypes.c_size_t(255), ctypes.byref(parsed))
    offset = ctypes.c_size_t(len(text) + 1)
    assert OURS.dnw_name_text_fault(*given, ctypes.byref(offset)) == failed, text
    assert failed == 0 or offset.value <= len(text), text
    return None if failed else (form.raw[: parsed.len], parsed.is_fqdn)


def show(form, is_fqdn):
    text, length = ctypes.create_string_buffer(1004), ctypes.c_size_t()
    size = ctypes.c_size_t(len(form))
    failed = OURS.dnw_name_print(form, size, is_fqdn, text, ctypes.c_size_t(1004), ctypes.byref(length))
    assert failed == 0, form
    return text.raw[: length.value]


def theirs(text, origin=None):
    """The same by dnspython, of the octets of a text."""
    try:
        name = dns.name.from_text(text.decode(), origin)
    except (dns.exception.DNSException, struct.error):
        return None
    labels = name.labels[:-1] if name.is_absolute() else name.labels
    return b"".join(bytes([len(it)]) + it for it in labels) + b"\0", name.is_absolute()


def name():
    """Labels of any octets: ordinary, of what means something to a reader, or of any."""
    labels, left = [], random.choice([20, 40, 40, 255, 255])
    for _ in range(random.choice([1, 2, 3, 3, 4, 127])):
        alphabet = random.choice([b"abcXYZ019-_", HOSTILE, bytes(range(256)), bytes(range(256))])
        label = bytes(random.choices(alphabet, k=random.choice([1, 1, 2, 8, 63])))
        if len(label) + 1 > left - 1:
            break
        labels.append(label)
        left -= len(label) + 1
    return labels


def exchange(labels, is_fqdn):
    form = b"".join(bytes([len(it)]) + it for it in labels) + b"\0"
    text = show(form, is_fqdn)
    assert parse(text) == (form, is_fqdn), (labels, text)
    assert theirs(text) == (form, is_fqdn), (labels, text)
    own = dns.name.Name(labels + [b""] * is_fqdn).to_text()
    assert parse(own.encode()) == (form, is_fqdn), (labels, own)
    return text


def by_bind(texts):
    """Puts names into a zone, and returns the owners that BIND prints, in their canonical order, each as octets."""
    with tempfile.TemporaryDirectory() as folder:
        with open(f"{folder}/zone", "wb") as zone:
            zone.write(b"$TTL 60\n@ IN SOA . . 1 2 3 4 5\n@ IN NS ns.\nns. IN A 192.0.2.1\n")
            for text in texts:
                zone.write(text + b" IN TXT \"a\"\n")
        checks = ["-q", "-i", "none", "-k", "ignore", "-n", "ignore"]
        words = ["named-checkzone", *checks, "-D", "-o", f"{folder}/out", ".", f"{folder}/zone"]
        ran = subprocess.run(words, capture_output=True)
        assert ran.returncode == 0, ran.stdout + ran.stderr
        with open(f"{folder}/out", "rb") as out:
            return [line.split()[0] for line in out if line.split()[3:4] == [b"TXT"]]


def text():
    """What means something to a reader, or a text of a name with one octet changed."""
    if random.random() < 0.5:
        return bytes(random.choices(b"ab.\\@\"0125 9;()", k=random.choice([0, 1, 2, 3, 5, 8, 8, 20])))
    own = bytearray(show(b"".join(bytes([len(it)]) + it for it in name()) + b"\0", True))
    own[random.randrange(len(own))] = random.choice(b"\\.0129@a ")
    return bytes(own)


def main():
    random.seed(SEED)
    found = collections.Counter()
    for example in EXAMPLES:
        own = parse(example.encode())
        assert own == theirs(example.encode()) and show(*own) == example.encode(), example
    lines = set()
    for i in range(NAMES):
        labels = name()
        exchange(labels, False)
        lines.add(exchange(labels, True))
        found["names exchanged with dnspython"] += 1
    lines -= {b"."}
    wanted = {parse(line)[0].lower() for line in lines}
    owners = {parse(owner)[0].lower() for owner in by_bind(sorted(lines))}
    assert owners == wanted, (sorted(owners ^ wanted)[:5])
    found["names that BIND reads and prints"] = len(owners)
    origin = dns.name.from_text("o.rigin.")
    for i in range(NAMES):
        given = text()
        for own, other in [(parse(given), theirs(given)), (parse(given, b"\x01o\x05rigin\0"), theirs(given, origin))]:
            if own == other:
                found["texts read alike" if own else "texts that both refuse"] += 1
                continue
            known = [said for said, holds in DIFFERENCES.items() if holds(given)]
            assert known, (given, own, other)
            found[known[0]] += 1
    for said, count in sorted(found.items()):
        print(f"{said}: {count}")


if __name__ == "__main__":
    main()
