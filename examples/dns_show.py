#!/usr/bin/env python3
"""Prints a DNS message as dig does, or sorts names, with the Python package.

    dns_show.py [FILE]          prints the message in a file or on standard input, in binary or in hexadecimal
    dns_show.py --sort [FILE]   prints the names in a file, one a line, in canonical order (RFC 4034, section 6.1)

It exits with 1 if the input is rejected, and with 2 on a usage error.
"""

import ipaddress
import pathlib
import re
import signal
import sys
from typing import Callable, Dict, List, Sequence

from dns_names_wire import DnsError, Name, TypeSet, class_text, read_name, read_record, type_text

# The fields of the data of a type: n is a name; 1, 2 and 4 are a number of as many octets; a is the address of A, and 6 that
# of AAAA; s is strings, t a tag and a value, x octets in hexadecimal, and b a type bitmap.
FIELDS_OF = {
    "A": "a", "NS": "n", "CNAME": "n", "SOA": "nn44444", "PTR": "n", "MX": "2n", "TXT": "s", "AAAA": "6", "SRV": "222n",
    "DNAME": "n", "DS": "211x", "NSEC": "nb", "CAA": "1t",
}  # fmt: skip
OPCODES = {0: "QUERY", 1: "IQUERY", 2: "STATUS", 4: "NOTIFY", 5: "UPDATE"}
STATUSES = ["NOERROR", "FORMERR", "SERVFAIL", "NXDOMAIN", "NOTIMP", "REFUSED", "YXDOMAIN", "YXRRSET", "NXRRSET", "NOTAUTH", "NOTZONE"]
FLAGS = {0x8000: "qr", 0x0400: "aa", 0x0200: "tc", 0x0100: "rd", 0x0080: "ra", 0x0020: "ad", 0x0010: "cd"}


class Rejected(Exception):
    """The input is rejected: the offset, and why."""


class Cursor:
    """A cursor over a part of a message, up to `end`."""

    def __init__(self, message: bytes, at: int, end: int) -> None:
        self.message, self.at, self.end = message, at, end

    def take(self, length: int) -> bytes:
        if self.end - self.at < length:
            raise Rejected(self.at, "the message or the record ends too early")
        self.at += length
        return self.message[self.at - length : self.at]

    def number(self, octets: int) -> int:
        return int.from_bytes(self.take(octets), "big")

    def name(self) -> Name:
        try:
            name, end = read_name(self.message, self.at)
        except DnsError as error:
            raise Rejected(self.at, error.reason) from error
        if end > self.end:
            raise Rejected(self.at, "the message or the record ends too early")
        self.at = end
        return name

    def rest(self) -> bytes:
        return self.take(self.end - self.at)


def string_text(octets: bytes) -> str:
    def shown(octet: int) -> str:
        if not 32 <= octet <= 126:
            return f"\\{octet:03}"
        return ("\\" if octet in b'"\\' else "") + chr(octet)

    return '"' + "".join(map(shown, octets)) + '"'


def strings_text(data: Cursor) -> str:
    texts = [string_text(data.take(data.number(1)))]
    while data.at < data.end:
        texts.append(string_text(data.take(data.number(1))))
    return " ".join(texts)


def tagged_text(data: Cursor) -> str:
    tag = data.take(data.number(1)).decode("latin-1")
    return f"{tag} {string_text(data.rest())}"


def types_text(data: Cursor) -> str:
    at = data.at
    try:
        return " ".join(type_text(code) for code in TypeSet.from_bitmap(data.rest()))
    except DnsError as error:
        raise Rejected(at, error.reason) from error


FIELDS: Dict[str, Callable[[Cursor], str]] = {
    "n": lambda data: str(data.name()),
    "1": lambda data: str(data.number(1)),
    "2": lambda data: str(data.number(2)),
    "4": lambda data: str(data.number(4)),
    "a": lambda data: str(ipaddress.IPv4Address(data.take(4))),
    "6": lambda data: str(ipaddress.IPv6Address(data.take(16))),
    "x": lambda data: data.rest().hex(),
    "b": types_text,
    "s": strings_text,
    "t": tagged_text,
}


def data_text(data: Cursor, kind: str) -> str:
    """Returns the text of a record's data: by its type, or as in RFC 3597."""
    fields = FIELDS_OF.get(kind)
    if fields is None:
        octets = data.rest()
        return f"\\# {len(octets)} {octets.hex()}".rstrip()
    text = " ".join(FIELDS[field](data) for field in fields)
    if data.at != data.end:
        raise Rejected(data.at, "octets are left in a record")
    return text


def record_text(cursor: Cursor) -> str:
    try:
        record = read_record(cursor.message, cursor.at)
    except DnsError as error:
        raise Rejected(cursor.at, error.reason) from error
    cursor.at = record.end
    kind, klass, ttl = type_text(record.record_type), record.record_class, record.ttl
    if kind == "OPT":  # RFC 6891: its class is a size, and its TTL has a version and flags
        return f"; EDNS: version: {ttl >> 16 & 255}, flags:{' do' if ttl & 0x8000 else ''}; udp: {int(klass)}"
    data = data_text(Cursor(cursor.message, record.data_offset, record.end), kind)
    return f"{record.owner}\t{ttl}\t{class_text(klass)}\t{kind}\t{data}"


def question_text(cursor: Cursor) -> str:
    name, kind, klass = cursor.name(), cursor.number(2), cursor.number(2)
    return f";{name}\t{class_text(klass)}\t{type_text(kind)}"


def header_text(ident: int, word: int, counts: Sequence[int]) -> str:
    opcode, status = word >> 11 & 15, word & 15
    status_text = STATUSES[status] if status < len(STATUSES) else f"RCODE{status}"
    flags = "".join(f" {text}" for mask, text in FLAGS.items() if word & mask)
    return (
        f";; ->>HEADER<<- opcode: {OPCODES.get(opcode, f'OPCODE{opcode}')}, status: {status_text}, id: {ident}\n"
        f";; flags:{flags}; QUERY: {counts[0]}, ANSWER: {counts[1]}, AUTHORITY: {counts[2]}, ADDITIONAL: {counts[3]}"
    )


def show_message(message: bytes) -> None:
    cursor = Cursor(message, 0, len(message))
    ident, word = cursor.number(2), cursor.number(2)
    counts = [cursor.number(2) for _ in range(4)]
    print(header_text(ident, word, counts))
    for section, count in zip(["QUESTION", "ANSWER", "AUTHORITY", "ADDITIONAL"], counts):
        if count:
            print(f"\n;; {section} SECTION:")
        for _ in range(count):
            print((question_text if section == "QUESTION" else record_text)(cursor))
    if cursor.at != cursor.end:
        raise Rejected(cursor.at, "octets are left after the message")


def show_sorted(text: bytes) -> None:
    names: List[Name] = []
    at = 0
    for line in text.splitlines(keepends=True):
        try:
            # a name from its wire form is fully qualified
            names.append(Name.from_wire(Name(line.rstrip(b"\n").decode()).wire))
        except DnsError as error:
            raise Rejected(at, error.reason) from error
        except UnicodeDecodeError as error:
            raise Rejected(at, error) from error
        at += len(line)
    for name in sorted(names):
        print(name)


def message_of(octets: bytes) -> bytes:
    """Returns the octets; or, if they are hexadecimal digits and white space, the octets that they encode."""
    if not re.fullmatch(rb"[0-9A-Fa-f\s]*", octets):
        return octets
    digits = b"".join(octets.split())
    if len(digits) % 2:
        raise Rejected(len(digits) // 2, "half an octet in hexadecimal")
    return bytes.fromhex(digits.decode())


def main(words: Sequence[str]) -> int:
    sorts = words[:1] == ["--sort"]
    files = words[1:] if sorts else words
    if len(files) > 1 or (files and files[0].startswith("-")):
        print("usage: dns_show.py [--sort] [FILE]", file=sys.stderr)
        return 2
    try:
        octets = pathlib.Path(files[0]).read_bytes() if files else sys.stdin.buffer.read()
    except OSError as error:
        print(f"dns_show: {error}", file=sys.stderr)
        return 2
    try:
        if sorts:
            show_sorted(octets)
        else:
            show_message(message_of(octets))
    except Rejected as rejected:
        offset, why = rejected.args
        print(f"dns_show: at offset {offset}: {why}", file=sys.stderr)
        return 1
    return 0


if __name__ == "__main__":
    # If the reader of the output closes it, as `head` does, this program ends silently.
    signal.signal(signal.SIGPIPE, signal.SIG_DFL)
    sys.exit(main(sys.argv[1:]))
