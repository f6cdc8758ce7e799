"""Compares the texts of EDNS options with those of dig and dnspython: `options.py LIBRARY [MESSAGES [SEED]]`.

A server on the loopback sends dig messages with up to five options: of dnspython, and random octets. dig and ours must show each
option by the same line; where they differ on purpose, DIFFERENCES says so, and how often is printed. The address, prefixes, code, name
and text in ours must be those that dnspython reads. A message that dig rejects is passed over, and counted.
"""

import collections
import ctypes
import ipaddress
import random
import re
import socket
import struct
import subprocess
import sys
import threading

import dns.edns

OURS = ctypes.CDLL(sys.argv[1])
MESSAGES = int(sys.argv[2]) if len(sys.argv) > 2 else 2000
RNG = random.Random(int(sys.argv[3]) if len(sys.argv) > 3 else 6891)

SECONDS = (0, 1, 59, 60, 61, 3600, 3661, 86400, 604800, 694861, 2**32 - 1)
TEXTS = (None, "x", "a \u00e9 \u20ac", 'a"b\\c;', "tab\there", "\x85\x9f\xa0", "nul\0x", "\U0001f512")
# By the code, the octets, the line of dig and ours.
DIFFERENCES = {
    "dig 9.18 has no name for extended errors from 25 on": lambda code, octets, dig, ours: code == 15
    and struct.unpack("!H", octets[:2])[0] >= 25
    and re.sub(rb" \(.*?\)", b"", ours, count=1) == dig,
    "dig prints the control characters after ASCII as they are": lambda code, octets, dig, ours: code == 15
    and any(128 <= ord(c) < 160 for c in octets[2:].decode()),
    "dig prints the end of an address of zeros as one of IPv4": lambda code, octets, dig, ours: code == 8
    and re.match(rb"CLIENT-SUBNET: ::\d+\.", dig)
    and [ipaddress.ip_address(line.decode()[15:].split("/")[0]) for line in (dig, ours)].count(address_of(octets)) == 2
    and dig.split(b"/", 1)[1] == ours.split(b"/", 1)[1],
    "dig has a text for LLQ and KEY-TAG": lambda code, octets, dig, ours: code in (1, 14) and dig[:5] in (b"LLQ: ", b"KEY-T"),
    "dig names TCP keepalive of a wrong length": lambda code, octets, dig, ours: code == 11
    and dig.replace(b"TCP KEEPALIVE", b"OPT=11") == ours,
}


def address_of(octets):
    return ipaddress.IPv6Address(octets[4:].ljust(16, b"\0"))


def ours(code, octets):
    room, length = ctypes.create_string_buffer(4 * len(octets) + 128), ctypes.c_size_t()
    size = ctypes.c_size_t(len(room))
    answer = OURS.dnw_option_print(ctypes.c_uint16(code), octets, ctypes.c_size_t(len(octets)), room, size, ctypes.byref(length))
    check(answer == 0, answer, code, octets.hex())
    return room.raw[: length.value]


def check(fact, *what):
    if not fact:
        sys.exit(f"options: failed: {what}"[:4000])


def option():
    """An option of dnspython, or random octets under a code that has a text, or under any."""
    kind, octets = RNG.randrange(8), RNG.randbytes(RNG.randrange(20))
    if kind == 0:
        address = ".".join(str(RNG.randrange(256)) for _ in range(4))
        return 8, dns.edns.ECSOption(address, RNG.randrange(33), RNG.randrange(33)).to_wire()
    if kind == 1:
        address = ":".join(f"{RNG.choice([0, 0, RNG.randrange(65536)]):x}" for _ in range(8))
        return 8, dns.edns.ECSOption(address, RNG.randrange(129), RNG.randrange(129)).to_wire()
    if kind == 2:
        return 15, dns.edns.EDEOption(RNG.randrange(40), RNG.choice(TEXTS)).to_wire()
    if kind == 3:
        return 9, struct.pack("!I", RNG.choice([*SECONDS, RNG.randrange(2**32), RNG.randrange(2**20)]))
    if kind == 4:
        return 11, struct.pack("!H", RNG.randrange(65536))
    if kind == 5:
        return RNG.choice([3, 12, 13, 18, 19]), octets
    if kind == 6:
        return RNG.choice([9, 11, 15, 18, 19]), octets[:6]
    return RNG.choice([1, 2, 4, 5, 6, 7, 14, 20, 26946, RNG.randrange(32, 65536)]), octets


def message(query, options):
    data = b"".join(struct.pack("!HH", code, len(octets)) + octets for code, octets in options)
    end = query.index(0, 12) + 5
    opt = struct.pack("!xHHIH", 41, 1232, 0, len(data)) + data
    return query[:2] + struct.pack("!HHHHH", 0x8400, 1, 0, 0, 1) + query[12:end] + opt


def serve(channel, left, sent):
    for options in left:
        query, asking = channel.recvfrom(512)
        # by name, since ids may repeat
        sent[query[13 : 13 + query[12]].decode()] = options
        channel.sendto(message(query, options), asking)


class Said(ctypes.Structure):
    """struct dnw_option"""

    _fields_ = [(name, ctypes.c_uint8) for name in ("is_given", "source", "scope", "labels", "version_type")]
    _fields_ += [(name, ctypes.c_uint16) for name in ("family", "timeout", "info_code")] + [("seconds", ctypes.c_uint32)]
    _fields_ += [("client", ctypes.c_uint8 * 8), ("offset", ctypes.c_size_t), ("len", ctypes.c_size_t)]


def said_by(code, octets):
    """What an option says, which is written as the same octets again; None if it breaks a rule."""
    said, length, room = Said(), ctypes.c_size_t(), ctypes.create_string_buffer(len(octets) + 8)
    if OURS.dnw_option_read(ctypes.c_uint16(code), octets, ctypes.c_size_t(len(octets)), ctypes.byref(said)):
        return None
    rest = octets[said.offset :]
    check(len(rest) == said.len, code, octets)
    size = ctypes.c_size_t(len(room))
    answer = OURS.dnw_option_write(
        ctypes.c_uint16(code), ctypes.byref(said), rest, ctypes.c_size_t(len(rest)), room, size, ctypes.byref(length)
    )
    check(answer == 0 and room.raw[: length.value] == octets, code, octets)
    return said


def compare_dnspython(code, octets, line):
    """Compares what dnspython reads of two options with our line, and with what we say of them."""
    said = said_by(code, octets)
    try:
        read = dns.edns.option_from_wire(code, octets, 0, len(octets))
    except Exception:
        return 0
    if isinstance(read, dns.edns.ECSOption) and line.startswith("CLIENT"):
        address, source, scope = line.split(": ", 1)[1].split("/")
        wanted = ipaddress.ip_address(read.address), read.srclen, read.scopelen
        check((ipaddress.ip_address(address), int(source), int(scope)) == wanted, line, read)
        check((said.family, said.source, said.scope, octets[said.offset :]) == (read.family, *wanted[1:], read.addrdata), octets, read)
    elif isinstance(read, dns.edns.EDEOption) and line.startswith("EDE") and read.code <= 24:
        name = dns.edns.EDECode(read.code).name.replace("_", " ").lower()
        named = re.match(r"EDE: (\d+) \((.*?)\)", line)
        check((int(named[1]), re.sub(r"[^a-z0-9 ]", " ", named[2].lower())) == (read.code, name), line, name)
        shown = "".join("." if ord(c) < 32 or 127 <= ord(c) < 160 else c for c in read.text or "")
        check(line.endswith(f": ({shown})") if shown else line.endswith(f"({named[2]})"), line, shown)
        check((said.info_code, octets[said.offset :].decode()) == (read.code, read.text or ""), octets, read)
    else:
        return 0
    return 1


def main():
    left = [[option() for _ in range(RNG.randrange(1, 6))] for _ in range(MESSAGES)]
    channel, sent = socket.socket(socket.AF_INET, socket.SOCK_DGRAM), {}
    channel.bind(("127.0.0.1", 0))
    threading.Thread(target=serve, args=(channel, left, sent), daemon=True).start()
    words = "+nocookie +norecurse +ignore +nocmd +nostats +tries=1 +time=5 +noall +comments +question -f -".split()
    command = ["dig", "@127.0.0.1", "-p", str(channel.getsockname()[1]), *words]
    asked = "".join(f"n{number} A\n" for number in range(MESSAGES))
    ran = subprocess.run(command, input=asked.encode(), capture_output=True, timeout=600)
    texts = ran.stdout.split(b";; Got answer:\n")[1:]
    differ, compared, read = collections.Counter(), 0, 0
    for text in texts:
        options = sent[re.search(rb"^;(n\d+)\.", text, re.M)[1].decode()]
        lines = [line[2:] for line in text.split(b"\n") if line.startswith(b"; ")][1:]
        check(len(lines) == len(options), text, options)
        for (code, octets), dig in zip(options, lines):
            line = ours(code, octets)
            why = None if line == dig else next((why for why, is_so in DIFFERENCES.items() if is_so(code, octets, dig, line)), "")
            check(why != "", code, octets.hex(), dig, line)
            differ[why] += 1
            compared += 1
            read += compare_dnspython(code, octets, line.decode())
    print(f"options: {compared} options in {len(texts)} of {MESSAGES} messages, as dig shows them; {read} as dnspython reads them")
    for why, count in sorted((why, count) for why, count in differ.items() if why):
        print(f"options: {count}: {why}")


if __name__ == "__main__":
    main()
