#!/usr/bin/env python3
"""Makes lists/nets.txt, the list of the Rust's reverse names: addresses and names by a generator with a fixed seed, answers by
an oracle, a program over hickory-proto 0.26.3 that answers requests line by line.

    make_nets.py ORACLE    writes lists/nets.txt

README.md has the format. Names are cut, changed in an octet or two, have a digit or a label too many or one of another
kind, capitals, and octets past ASCII.
"""
import ipaddress
import sys

from oracle import Oracle, Random

ADDRESSES = 12_000
NAMES = 45_000
PLAIN = set(b"abcdefghijklmnopqrstuvwxyzABCDEFGHIJKLMNOPQRSTUVWXYZ0123456789+-_")
# Labels in the place of octets and nibbles: numbers at the limits, with signs and zeros, and what is no number.
OCTETS = [b"0", b"00", b"000000001", b"+7", b"+", b"++1", b"-1", b"255", b"256", b"0255", b"1000", b"a", b"1a", b"0x1", b"1 ",
          b"\xff", b"1\xff", b"\xc3\xa9", b"\xd9\xa1", b"99999999999999999999", b"1" * 63]
DIGITS = [b"0", b"f", b"F", b"A", b"9", b"g", b"G", b"+", b"-", b"\xff", b"\x80", b"\x00", b"00", b"0f", b"\xc3\xa9", b"*"]
ENDS = [[b"arpa"], [b"ARPA"], [b"aRpA"], [b"arp"], [b"arpa\xff"], [b"\xff"], [b"com"], [b"home", b"arpa"], []]
FAMILIES = [b"in-addr", b"IN-ADDR", b"In-aDdr", b"ip6", b"IP6", b"iP6", b"ip4", b"in_addr", b"ip6\xff", b"\xc3\xa9", b"ip6.arpa"]


def shown(labels, is_fqdn):
    """The name as lists write it."""
    text = ".".join("".join(chr(b) if b in PLAIN else f"={b:02x}" for b in label) for label in labels)
    return text + "." if is_fqdn else text


def asked(labels, is_fqdn):
    """The name as the oracle reads it."""
    return f"{1 if is_fqdn else 0} {','.join(label.hex() for label in labels) or '-'}"


def address(random):
    kind = random.below(8)
    if kind < 4:
        octets = bytes(random.pick([0, 1, 9, 10, 99, 100, 127, 192, 255, random.below(256)]) for _ in range(4))
        return ipaddress.IPv4Address(octets)
    octets = bytearray(random.below(256) for _ in range(16))
    for _ in range(random.below(16)):
        octets[random.below(16)] = random.pick([0, 0, 1, 15, 16, 240, 255])
    if kind == 7:
        octets[:12] = random.pick([bytes(12), bytes(10) + b"\xff\xff", b"\x20\x01\x0d\xb8" + bytes(8)])
    return ipaddress.IPv6Address(bytes(octets))


def values(random, ip6):
    """Labels of octets or nibbles, most of them right, from the first to the last."""
    most = 32 if ip6 else 4
    count = random.pick([most, most, most, random.below(most + 1), random.below(most + 1), most + 1, most + random.below(6)])
    if ip6:
        labels = [b"%x" % random.below(16) for _ in range(count)]
    else:
        labels = [b"%d" % random.below(256) for _ in range(count)]
    for _ in range(random.pick([0, 0, 0, 1, 1, 2])):
        if labels:
            odd = random.pick(DIGITS if ip6 else OCTETS)
            labels[random.below(len(labels))] = random.pick([odd, odd, bytes([random.below(256)])])
    return labels


def changed(random, labels):
    """One octet of one label changed."""
    if not labels:
        return labels
    at = random.below(len(labels))
    label = bytearray(labels[at])
    label[random.below(len(label))] = random.below(256)
    return labels[:at] + [bytes(label)] + labels[at + 1 :]


def name(random):
    """The labels of a name, and whether it is fully qualified."""
    ip6 = random.below(2) == 1
    family = random.pick([b"ip6" if ip6 else b"in-addr"] * 6 + [random.pick(FAMILIES)])
    end = random.pick([[b"arpa"]] * 6 + [random.pick(ENDS)])
    labels = values(random, ip6)[::-1] + random.pick([[family]] * 12 + [[]]) + end
    if random.below(6) == 0:
        labels = changed(random, labels)
    if random.below(8) == 0:
        labels = labels[random.below(len(labels) + 1) :]
    if random.below(8) == 0:
        labels = [label.upper() for label in labels]
    return labels, random.below(24) != 0


def is_name(labels):
    return sum(len(label) + 1 for label in labels) < 255 and all(1 <= len(label) <= 63 for label in labels)


def answer_of(said):
    """The oracle's answer in the list's words."""
    if said.startswith("ok "):
        return "/".join(said.split(" ")[1:])
    assert said.startswith("err "), said
    return "!" + said.split("\t")[1]


def main():
    oracle = Oracle(sys.argv[1])
    random = Random(20)
    addresses = sorted({address(random) for _ in range(ADDRESSES)}, key=lambda it: (it.version, it))
    names = {}
    while len(names) < NAMES:
        labels, is_fqdn = name(random)
        if is_name(labels):
            names[shown(labels, is_fqdn)] = asked(labels, is_fqdn)
    said = oracle.ask([f"from_ip {it}" for it in addresses] + [f"arpa {it}" for it in names.values()])
    with open("lists/nets.txt", "w") as out:
        for it, answer in zip(addresses, said):
            text = bytes.fromhex(answer.split(" ")[3]).decode()
            out.write(f"ip {it} = {text}\n")
        for it, answer in zip(names, said[len(addresses) :]):
            out.write(f"arpa {it} = {answer_of(answer)}\n")


if __name__ == "__main__":
    main()
