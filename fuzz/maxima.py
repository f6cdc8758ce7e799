"""Lets other libraries read what is written at each maximum: `maxima.py LIBRARY READER GO`, with programs of maxima.c and maxima.go.

A rich response is written at each maximum from 12 to 600 octets, with EDNS and without. Its sets of records have to be whole or left
out, with all later ones of their section, and TC is set exactly if an answer or an authority is missing, which are required here.
dnspython, Net::DNS, miekg/dns, libknot and ldns have to read exactly the records that are there, and tshark must find nothing malformed.

Then each reply of the name servers in diff/servers is written again. In all they may take no more octets than the servers took, and one in
forty may take more than 2 of 100 more: BIND and others let pointers lead into data whose own names may not be compressed (RFC 3597), as
those of RP, AFSDB and SVCB, and the writer does not.
"""

import ctypes
import pathlib
import re
import struct
import subprocess
import sys
import tempfile

import dns.flags
import dns.message
import dns.name
import dns.rdataclass
import dns.rdatatype
import dns.zone

OURS, READER, GO = ctypes.CDLL(sys.argv[1]), *sys.argv[2:]
HERE = pathlib.Path(__file__).resolve().parent
# The sections of a message, and the marks of items that may be left out without TC, and that come last.
QUESTION, ANSWER, AUTHORITY, ADDITIONAL = range(4)
OPTIONAL = 0x80
RESPONSE, CUT = 0x8400, 0x0200
ZONE = """
@ ANY ANSWER
@ 3600 IN SOA ns1 Host.Master 2026112800 7200 3600 1209600 300
@ 3600 IN MX 10 mail
@ 3600 IN MX 20 mail.backup.example.net.
@ 300 IN TXT "v=spf1 mx -all" "and more"
@ 60 IN A 192.0.2.1
@ 60 IN A 192.0.2.2
@ 60 IN CAA 0 issue "ca.example.net"
@ ANY AUTHORITY
@ 86400 IN NS ns1
@ 86400 IN NS Ns2.example.net.
@ ANY ADDITIONAL
ns1 86400 IN A 192.0.2.53
ns1 86400 IN AAAA 2001:db8::53
mail 3600 IN A 192.0.2.25
_25._tcp.mail 3600 IN TLSA 3 1 1 0123456789abcdef0123456789abcdef0123456789abcdef0123456789abcdef
"""


class Packed(ctypes.Structure):
    """The length of a message, and whether it is cut."""

    _fields_ = [("len", ctypes.c_size_t), ("truncated", ctypes.c_bool)]


def records_of_zone():
    """The sets of the response in order: the section of each, and its records as owner, type, class, TTL and data."""
    origin, section, sets = dns.name.from_text("example.com."), ANSWER, []
    for line in ZONE.strip().split("\n"):
        owner, word, kind, *rest = line.split(" ", 3)
        if word == "ANY":
            section = {"ANSWER": ANSWER, "AUTHORITY": AUTHORITY, "ADDITIONAL": ADDITIONAL}[kind]
            continue
        kind, text = rest[0].split(" ", 1)
        data = dns.rdata.from_text("IN", kind, text, origin=origin, relativize=False).to_wire()
        wire = dns.name.from_text(owner, origin).to_wire()
        record = (wire, dns.rdatatype.from_text(kind), 1, int(word), data)
        if sets and sets[-1][0] == section and sets[-1][1][0][:2] == record[:2]:
            sets[-1][1].append(record)
        else:
            sets.append((section, [record]))
    return sets


def item(section, owner, kind, number, ttl=None, data=b""):
    head = bytes([section]) + owner + struct.pack("!HH", kind, number)
    return head if ttl is None else head + struct.pack("!IH", ttl, len(data)) + data


def list_of(sets, with_edns):
    """The list of dnw_message_write. Additional records are optional."""
    items = [item(QUESTION, sets[0][1][0][0], 255, 1)]
    for section, records in sets:
        items += [item(section | (OPTIONAL if section == ADDITIONAL else 0), *record) for record in records]
    return b"".join(items) + (item(ADDITIONAL, b"\0", 41, 1232, 0x8000, b"\0\x0a\0\x08COOKIE12") if with_edns else b"")


def write(items, maximum):
    """The message of a list, or None if the maximum has no room for what is never left out."""
    room, result = ctypes.create_string_buffer(65535), Packed()
    size = ctypes.c_size_t
    failure = OURS.dnw_message_write(items, size(len(items)), size(maximum), 0x1234, RESPONSE, 0, False, 0, room, size(len(room)), ctypes.byref(result))
    return None if failure else room.raw[: result.len]


def shown(section, owner, kind, number, ttl, data):
    return f"{section}/{owner.hex()}/{kind}/{number}/{ttl}/{data.hex()}"


def kept(sets, octets):
    """What a message has to be read as: its TC bit, and of each section the first sets, whole, which are as many as it counts."""
    counts = struct.unpack("!3H", octets[6:12])
    found, is_cut = [], False
    for section in (ANSWER, AUTHORITY, ADDITIONAL):
        left = counts[section - 1] - (section == ADDITIONAL and b"COOKIE12" in octets)
        is_left_out = False
        for records in (records for its, records in sets if its == section):
            is_left_out = is_left_out or len(records) > left
            left -= 0 if is_left_out else len(records)
            found += [] if is_left_out else [shown(section, *record) for record in records]
        check(left == 0, "a part of a set is there", octets.hex())
        is_cut = is_cut or is_left_out and section != ADDITIONAL
    return " ".join([str(int(is_cut)), *found])


def by_dnspython(octets):
    try:
        message = dns.message.from_wire(octets, one_rr_per_rrset=True)
    except Exception as error:
        return f"- {error}"
    found = [str(int(bool(message.flags & dns.flags.TC)))]
    for section, sets in ((ANSWER, message.answer), (AUTHORITY, message.authority), (ADDITIONAL, message.additional)):
        found += [shown(section, it.name.to_wire(), it.rdtype, it.rdclass, it.ttl, it[0].to_wire()) for it in sets]
    return " ".join(found)


def by_program(messages, *words):
    """What a program reads in each message, without its OPT record."""
    fed = "".join(octets.hex() + "\n" for octets in messages)
    lines = subprocess.run(words, input=fed, capture_output=True, text=True, check=True).stdout.split("\n")
    return [re.sub(r" 3/00/41/\S*", "", line) for line in lines[:-1]]


def malformed(messages):
    """Which messages tshark finds fault with, by their numbers, or does not read as DNS."""
    with tempfile.NamedTemporaryFile(suffix=".pcap") as file:
        file.write(struct.pack("=IHHIIII", 0xA1B2C3D4, 2, 4, 0, 0, 65535, 101))
        for octets in messages:
            datagram = struct.pack("!HHHH", 53, 5353, 8 + len(octets), 0) + octets
            packet = struct.pack("!BBHHHBBH4s4s", 0x45, 0, 20 + len(datagram), 0, 0, 64, 17, 0, b"\xc0\0\2\1", b"\xc0\0\2\2") + datagram
            file.write(struct.pack("=IIII", 0, 0, len(packet), len(packet)) + packet)
        file.flush()
        fields = ["-T", "fields", "-e", "dns.count.answers", "-e", "_ws.malformed", "-E", "separator=;"]
        said = subprocess.run(["tshark", "-n", "-r", file.name, *fields], capture_output=True, text=True, check=True).stdout.split("\n")[:-1]
    check(len(said) == len(messages), "tshark read another number of packets", len(said))
    return [at for at, (line, octets) in enumerate(zip(said, messages)) if line != f"{octets[7]};"]


def check(fact, *what):
    if not fact:
        sys.exit(f"maxima: failed: {what}"[:4000])


def responses():
    """Writes the response at each maximum, and lets each library read it."""
    sets = records_of_zone()
    messages, expected, refused = [], [], 0
    for with_edns in (False, True):
        items = list_of(sets, with_edns)
        for maximum in range(12, 601):
            octets = write(items, maximum)
            refused += octets is None
            if octets is not None:
                check(len(octets) <= maximum, "longer than the maximum", maximum, octets.hex())
                messages.append(octets)
                expected.append(kept(sets, octets))
    readers = {
        "dnspython": list(map(by_dnspython, messages)),
        "Net::DNS": by_program(messages, "perl", str(HERE / "maxima.pl")),
        "miekg/dns": by_program(messages, GO),
        "libknot": by_program(messages, READER, "libknot"),
        "ldns": by_program(messages, READER, "ldns"),
    }
    for name, said in readers.items():
        for octets, want, got in zip(messages, expected, said):
            check(want == got, name, octets.hex(), want, got)
    check(not malformed(messages), "tshark finds fault", [messages[at].hex() for at in malformed(messages)][:3])
    whole = sum(it[0] == "0" for it in expected)
    print(f"{len(messages)} messages, {whole} without TC, of {len(set(expected))} lists of records; {refused} maxima have no room")
    print(f"read the same by {', '.join(readers)}, and without a fault by tshark")


def replies():
    """Writes the replies of name servers again."""
    sizes, longer = {}, []
    for line in (HERE.parent / "diff" / "servers" / "replies.txt").read_text().split("\n")[:-1]:
        server, text = line.split(" ", 2)[:2]
        octets, room, result, size = bytes.fromhex(text), ctypes.create_string_buffer(65535), Packed(), ctypes.c_size_t
        if OURS.dnw_message_pack(octets, size(len(octets)), 65535, 0, room, size(len(room)), ctypes.byref(result)):
            continue
        count, theirs, ours = sizes.get(server, (0, 0, 0))
        sizes[server] = (count + 1, theirs + len(octets), ours + result.len)
        if result.len > len(octets) * 1.02:
            longer.append((server, len(octets), result.len, text))
    for server, (count, theirs, ours) in sizes.items():
        print(f"{server}: {count} replies of {theirs} octets, written again in {ours}")
    replies, theirs, ours = map(sum, zip(*sizes.values()))
    print(f"{len(longer)} of {replies} replies are longer by more than 2 of 100")
    check(ours <= theirs and len(longer) * 40 <= replies, "replies are longer", theirs, ours, longer[:3])


responses()
replies()
