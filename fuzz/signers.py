"""Verifies signatures of other signers over the octets that this library says they cover: signers.py

ldns-signzone, dnssec-signzone and Net::DNS::SEC sign sets of every type that they take, of those in SETS: owners and names with
capitals, wildcards, and records that are there twice. The records are put into a message as hostile servers may send them: in
any order, some twice, among those of other sets, with smaller times to live, names compressed where receivers have to decompress
them (RFC 3597, section 4), capitals changed where canonical form has none (RFC 4034, section 6.2), and names that a wildcard made.
Each signature verifies over the octets of `dnw_signed_octets`, which `Record.signed_octets` returns too. A changed record fails.
"""

import base64
import ctypes
import pathlib
import random
import shutil
import struct
import subprocess
import sys
import tempfile

from cryptography.exceptions import InvalidSignature
from cryptography.hazmat.primitives import hashes
from cryptography.hazmat.primitives.asymmetric import ec, ed25519, utils

import dns_names_wire as dnw
from dns_names_wire._errors import check as succeeds
from dns_names_wire._library import library

ZONE = "Example."
RRSIG = 46
# Types whose names canonical form lowers, and where in the data these are: `n` a name, `s` a character string, a digit so many octets
# (RFC 4034, section 6.2, and RFC 6840, section 5.1).
LOWERED = {2: "n", 3: "n", 4: "n", 5: "n", 6: "nn", 7: "n", 8: "n", 9: "n", 12: "n", 14: "nn", 15: "2n", 17: "nn", 18: "2n", 21: "2n"}
LOWERED |= {24: "99n", 26: "2nn", 30: "n", 33: "6n", 35: "4sssn", 36: "2n", 39: "n", RRSIG: "99n"}
# Those of them whose names may be compressed, and are decompressed by receivers (RFC 3597, section 4).
COMPRESSED = {2, 3, 4, 5, 6, 7, 8, 9, 12, 14, 15, 17, 18, 21, 24, 26, 30, 33, 35}


def name(text):
    return b"".join(bytes([len(label)]) + label.encode() for label in text.split(".") if label) + b"\0"


def text(own):
    return bytes([len(own)]) + own.encode()


def sets():
    """The data of sets, by type: names are in mixed case."""
    host, other = name("Host.Example."), name("aB.Other.")
    names = [host, other, name("a.Example.")]
    two = [b"\0\x0a" + it for it in names]
    key = b"\x01\x01\x03\x0d" + bytes(range(64))
    hashed = b"\x01\x00\x00\x05\x02\xab\xcd\x14" + bytes(range(20)) + b"\0\x01\x40"
    signed = b"\0\x01\x0d\x02\0\0\x0e\x10\x65\0\0\0\x64\0\0\0\x30\x39"
    table = {code: names for code in (2, 3, 4, 7, 8, 9, 12, 23)}
    table |= {5: [host], 39: [other], 1: [b"\xc0\0\2\2", b"\xc0\0\2\1", b"\x0a\0\0\1"], 28: [bytes(15) + b"\1", b"\x20\1" + bytes(14)]}
    table |= {10: [b"\1\2", b"\1"], 11: [b"\xc0\0\2\1\6\0\0\1", b"\xc0\0\2\1\x11\x40"], 13: [text("Cpu") + text("Os"), text("cpu") + text("os")]}
    table |= {14: [host + other, other + host], 17: [host + other, other + host], 58: [host + other, other + host]}
    table |= {code: two for code in (15, 18, 21, 36, 107)} | {26: [b"\0\x0a" + host + other, b"\0\x0a" + other + host]}
    table |= {code: [text("B"), text("b") + text("A"), text("a")] for code in (16, 56, 99, 258, 261, 262)}
    table |= {19: [text("311061700956")], 20: [text("150862028003217") + text("004")], 22: [b"\x47\0\5\x80"], 27: [text("-32.6") + text("116.8") + text("10.0")]}
    table |= {24: [signed + host + b"sig"], 25: [key], 29: [b"\0\x12\x16\x13\x8b\x36\xc3\xb8\x71\xd8\x5c\x10\0\x98\x6b\xe6"], 30: [host + b"\x62\1"]}
    table |= {33: [b"\0\1\0\2\0\x35" + it for it in names], 35: [b"\0\x64\0\x0a" + text("U") + text("E2U+sip") + text("") + it for it in names]}
    table |= {37: [b"\0\1\0\0\0abc"], 42: [b"\0\1\x18\3\xc0\0\2"], 43: [b"\xec\x45\5\1" + bytes(range(20))], 44: [b"\1\1" + bytes(range(20))]}
    table |= {45: [b"\x0a\1\2\xc0\0\2\1key", b"\x0a\3\2" + host + b"key", b"\x0a\0\2key"], 47: [host + b"\0\6\x40\1\0\0\0\3"]}
    table |= {49: [b"\0\1\1" + bytes(range(32))], 50: [hashed], 51: [b"\1\0\0\5\2\xab\xcd"], 52: [b"\3\1\1" + bytes(range(32))], 53: [b"\3\1\1" + bytes(range(32))]}
    table |= {55: [b"\4\2\0\4hit!key!" + host], 57: [key], 59: [b"\xec\x45\x0d\2" + bytes(range(32))], 60: [key], 61: [b"openpgp"]}
    table |= {62: [b"\0\0\0\x42\0\3\0\1\x60"], 63: [b"\0\0\0\5\1\1" + bytes(range(48))], 64: [b"\0\1" + host + b"\0\1\0\3\2h2", b"\0\0" + other]}
    table |= {65: [b"\0\1" + host + b"\0\4\0\4\xc0\0\2\1", b"\0\0" + other], 66: [b"\0\x3b\1\0\x35" + host], 67: [b"Hhit"], 68: [b"brid"], 104: [b"\0\x0a" + bytes(range(8))]}
    table |= {105: [b"\0\x0a\xc0\0\2\1"], 106: [b"\0\x0a" + bytes(range(8))], 108: [bytes(range(6))], 109: [bytes(range(8))]}
    table |= {256: [b"\0\x0a\0\1https://Example/"], 257: [b"\0\5issueCA.Example", b"\0\5issueca.example"], 259: [bytes(9) + text("a/b") + b"data"]}
    table |= {260: [b"\x0a\1\xc0\0\2\1", b"\x0a\3" + host, b"\x0a\x80"], 263: [text("cla")], 264: [bytes(range(8))], 32768: [b"\xec\x45\5\1" + bytes(range(20))], 32769: [b"\xec\x45\5\1" + bytes(range(20))]}
    return table | {65280: [b"Octets", b"octets", b"octet"]}


SETS = sets()


class Record:
    """A record: its owner as labels, and its data."""

    def __init__(self, owner, code, record_class, ttl, data):
        self.owner, self.code, self.record_class, self.ttl, self.data = owner, code, record_class, ttl, data


def labels_at(octets, at):
    """The labels of a name that is not compressed, and the offset after it."""
    found = []
    while octets[at]:
        found.append(octets[at + 1 : at + 1 + octets[at]])
        at += 1 + octets[at]
    return found, at + 1


def of_wire(octets):
    """The record that these octets are."""
    owner, at = labels_at(octets, 0)
    code, record_class, ttl, size = struct.unpack_from(">HHIH", octets, at)
    assert at + 10 + size == len(octets)
    return Record(owner, code, record_class, ttl, octets[at + 10 :])


def covered_type(record):
    """The type of a record, or the one that an RRSIG covers."""
    return struct.unpack_from(">H", record.data)[0] if record.code == RRSIG else record.code


def run(*words, given=None):
    return subprocess.run(words, input=given, capture_output=True, check=False)


def zone_text(codes):
    """A zone with sets of these types, and with a wildcard for every third."""
    lines = [f"{ZONE} 3600 IN SOA Ns.Example. Host.Example. 1 3600 900 86400 300", f"{ZONE} 3600 IN NS Ns.Example."]
    for code in codes:
        for owner in [f"T{code}.{ZONE}"] + [f"*.W{code}.{ZONE}"] * (code % 3 == 0):
            for data in SETS[code] + SETS[code][:1]:
                lines.append(f"{owner} {600 + code} IN TYPE{code} \\# {len(data)} {data.hex()}")
    return "\n".join(lines) + "\n"


class Bind:
    """dnssec-signzone of BIND: its raw form has the records in wire form."""

    title, tools = "dnssec-signzone", ("dnssec-signzone", "dnssec-keygen")
    # It lowers the name of NSAP-PTR, which RFC 4034, section 6.2, does not list.
    departs = {23}

    def __init__(self, room):
        self.room = room
        made = run("dnssec-keygen", "-q", "-K", room, "-a", "ECDSAP256SHA256", ZONE.lower())
        self.key = room / made.stdout.decode().strip()

    def sign(self, codes):
        (self.room / "zone").write_text(zone_text(codes) + pathlib.Path(f"{self.key}.key").read_text())
        signed = self.room / "signed"
        signed.unlink(missing_ok=True)
        run("dnssec-signzone", "-d", self.room, "-P", "-z", "-O", "raw=0", "-o", ZONE, "-f", signed, self.room / "zone", self.key)
        return list(self.records(signed.read_bytes())) if signed.exists() else None

    @staticmethod
    def records(octets):
        at = 12
        while at < len(octets):
            record_class, code, _covers, ttl, count, size = struct.unpack_from(">HHHIIH", octets, at + 4)
            at += 20
            owner, end = labels_at(octets, at)
            assert end == at + size
            at = end
            for _ in range(count):
                (size,) = struct.unpack_from(">H", octets, at)
                yield Record(owner, code, record_class, ttl, octets[at + 2 : at + 2 + size])
                at += 2 + size


class Ldns:
    """ldns-signzone: libldns reads the lines that it writes, but for NXT."""

    title, tools = "ldns-signzone", ("ldns-signzone", "ldns-keygen")
    departs = set()

    def __init__(self, room):
        self.room = room
        made = run("sh", "-c", f"cd {room} && ldns-keygen -a ECDSAP256SHA256 {ZONE.lower()}")
        self.key = room / made.stdout.decode().strip()
        self.ldns = ctypes.CDLL("libldns.so.3")

    def sign(self, codes):
        (self.room / "zone").write_text(zone_text(codes))
        signed = self.room / "signed"
        signed.unlink(missing_ok=True)
        run("ldns-signzone", "-f", signed, self.room / "zone", self.key)
        if not signed.exists():
            return None
        found = [self.record(line) for line in signed.read_text().splitlines() if line.strip() and not line.startswith(";")]
        return None if None in found else found

    def record(self, line):
        found, octets, size = ctypes.c_void_p(), ctypes.POINTER(ctypes.c_uint8)(), ctypes.c_size_t()
        if self.ldns.ldns_rr_new_frm_str(ctypes.byref(found), line.encode(), 0, None, None):
            return None
        assert self.ldns.ldns_rr2wire(ctypes.byref(octets), found, 1, ctypes.byref(size)) == 0
        return of_wire(bytes(octets[: size.value]))


class NetDns:
    """Net::DNS::SEC: signs the sets that it is given as text."""

    title, tools = "Net::DNS::SEC", ("perl", "dnssec-keygen")
    # It keeps the capitals of MD, MF and NXT, which RFC 4034, section 6.2, lists.
    departs = {3, 4, 30}
    SIGN = """
        use Net::DNS; use Net::DNS::SEC; my (%sets, @order);
        for (<STDIN>) { my $rr = eval { Net::DNS::RR->new($_) } or next; my $k = lc($rr->owner) . "/" . $rr->type;
            push @order, $k unless $sets{$k}; push @{$sets{$k}}, $rr }
        for (@order) { my $sig = eval { Net::DNS::RR::RRSIG->create($sets{$_}, $ARGV[0], ttl => 3600) } or next;
            print unpack("H*", $_->encode), "\\n" for @{$sets{$_}}, $sig }"""

    def __init__(self, room):
        self.key = Bind(room).key
        assert run("perl", "-MNet::DNS::SEC", "-e", "1").returncode == 0

    def sign(self, codes):
        made = run("perl", "-e", self.SIGN, f"{self.key}.private", given=zone_text(codes).encode())
        return [of_wire(bytes.fromhex(line)) for line in made.stdout.decode().split()] or None


def taken(signer):
    """The records that a signer makes of the types that it takes, which are those whose data it leaves as they are."""
    whole = signer.sign(SETS)
    found = whole or signer.sign([code for code in SETS if signer.sign([code])])
    same = {code: {data.lower() for data in group} for code, group in SETS.items()}
    changed = {it.code for it in found if it.code in SETS and len(it.owner) > 1 and it.data.lower() not in same[it.code]}
    return [it for it in found if covered_type(it) not in changed - {47} | signer.departs]


class Writer:
    """A message that is written with names compressed and capitals changed."""

    def __init__(self, draw):
        self.draw, self.octets, self.places = draw, bytearray(12), {}

    def cased(self, label):
        return bytes(it ^ 32 if chr(it).isalpha() and it < 128 and self.draw.random() < 0.5 else it for it in label)

    def put_name(self, labels, compressed):
        for number in range(len(labels)):
            rest = tuple(label.lower() for label in labels[number:])
            if compressed and rest in self.places and self.draw.random() < 0.8:
                self.octets += struct.pack(">H", 0xC000 | self.places[rest])
                return
            if len(self.octets) < 0x4000:
                self.places.setdefault(rest, len(self.octets))
            label = self.cased(labels[number])
            self.octets += bytes([len(label)]) + label
        self.octets.append(0)

    def put_data(self, record):
        at = 0
        for part in LOWERED.get(record.code, ""):
            if part == "n":
                labels, end = labels_at(record.data, at)
                self.put_name(labels, record.code in COMPRESSED)
            else:
                end = at + (int(part) if part.isdigit() else 1 + record.data[at])
                self.octets += record.data[at:end]
            at = end
        self.octets += record.data[at:]

    def put(self, record):
        """Returns the offset of the record."""
        start = len(self.octets)
        self.put_name(record.owner, True)
        ttl = self.draw.randrange(record.ttl + 1)
        self.octets += struct.pack(">HHIH", record.code, record.record_class, ttl, 0)
        data = len(self.octets)
        self.put_data(record)
        struct.pack_into(">H", self.octets, data - 2, len(self.octets) - data)
        return start


def key_of(path):
    words = pathlib.Path(f"{path}.key").read_text().split("DNSKEY")[-1].split(";")[0].split()
    return int(words[2]), base64.b64decode("".join(words[3:]))


def verify(algorithm, key, signature, octets):
    if algorithm == 15:
        return ed25519.Ed25519PublicKey.from_public_bytes(key).verify(signature, octets)
    own = ec.EllipticCurvePublicNumbers(int.from_bytes(key[:32], "big"), int.from_bytes(key[32:], "big"), ec.SECP256R1())
    pair = utils.encode_dss_signature(int.from_bytes(signature[:32], "big"), int.from_bytes(signature[32:], "big"))
    own.public_key().verify(pair, octets, ec.ECDSA(hashes.SHA256()))


def covered(message, start, rrsig):
    size, room = ctypes.c_size_t(), ctypes.create_string_buffer(1 << 17)
    succeeds(library.dnw_signed_octets(bytes(message), len(message), start, rrsig, room, len(room), ctypes.byref(size)))
    return room.raw[: size.value]


def made_by_wildcard(records, draw):
    """The records, with names that a wildcard stands for as their owner."""
    labels = [b"x", b"Y"][: draw.randrange(1, 3)]
    return [Record(labels + it.owner[1:] if it.owner[:1] == [b"*"] else it.owner, it.code, it.record_class, it.ttl, it.data) for it in records]


def try_signature(rrsig, members, others, key, draw):
    """Verifies a signature over a set, read from a message."""
    rrsig, *members = made_by_wildcard([rrsig, *members], draw)
    records = [*members, *draw.choices(members, k=2), *others, rrsig]
    draw.shuffle(records)
    writer = Writer(draw)
    offsets = {id(it): writer.put(it) for it in records}
    struct.pack_into(">HHHH", writer.octets, 4, 0, len(records), 0, 0)
    octets = covered(writer.octets, 12, offsets[id(rrsig)])
    _, end = labels_at(rrsig.data, 18)
    verify(*key, rrsig.data[end:], octets)
    answers = dnw.Message.from_wire(bytes(writer.octets)).answers
    assert answers[records.index(rrsig)].signed_octets(answers) == octets
    try:
        verify(*key, rrsig.data[end:], octets[:-1] + bytes([octets[-1] ^ 1]))
    except InvalidSignature:
        return
    sys.exit("signers: failed: a changed record verifies")


def try_signer(signer, draw):
    found = taken(signer)
    key = key_of(signer.key)
    groups = {}
    for it in found:
        groups.setdefault((tuple(label.lower() for label in it.owner), covered_type(it)), []).append(it)
    count, types = 0, set()
    for (owner, kind), group in groups.items():
        members = [it for it in group if it.code != RRSIG]
        others = [it for it in draw.sample(found, min(4, len(found))) if it not in group]
        for rrsig in group:
            if rrsig.code == RRSIG:
                for _ in range(3):
                    try_signature(rrsig, members, others, key, draw)
                count += 1
                types.add(kind)
    print(f"signers: {signer.title}: {count} signatures over sets of {len(types)} types verify, each in 3 messages", flush=True)


def main():
    draw = random.Random(4034)
    for kind in (Ldns, Bind, NetDns):
        if missing := [tool for tool in kind.tools if not shutil.which(tool)]:
            print(f"signers: skipped, since {missing[0]} is not installed: signatures of {kind.title}")
            continue
        with tempfile.TemporaryDirectory() as room:
            try_signer(kind(pathlib.Path(room)), draw)


if __name__ == "__main__":
    main()
