"""Lets nsupdate write updates, which the library reads and writes again: the second part of fuzz/servers.

A listener keeps what nsupdate sends. Through C and through Python each message comes out with the same records, in the same octets or
others, or, if it has no room, not at all. Two servers with the same zone get one what nsupdate sent and the other what the library wrote;
their responses and, after each update, their zones are the same.
"""

import collections
import contextlib
import ctypes
import os
import pathlib
import random
import socket
import struct
import subprocess
import threading

import dns.message
import dns.name
import dns.rdataclass
import dns.rdatatype
import dns.tsig
import dns.tsigkeyring

from dns_names_wire import DnsError, Message, MessageTooLong
from served import HOST, Server, Zone, check, free_port, path_of, receive_framed, say, send_framed

ORIGIN = "update.test."
MESSAGES, HEADER_SIZE, TOO_LONG = 500, 12, 12
NAMES = [f"{'Host' if at % 7 == 0 else 'host'}{at}" for at in range(60)] + [f"a.b{at}.deep" for at in range(20)]
ZONE = ["@ SOA ns host 1 7200 3600 1209600 300", "@ NS ns", "ns A 192.0.2.1", "fixed A 192.0.2.2", "fixed A 192.0.2.3", 'fixed TXT "a" "b"']
KEY = "hmac-sha256:key.test:c2VjcmV0IG9mIHRoZSB0ZXN0cw=="


def data(rng):
    """The type and the text of random data."""
    number = rng.randrange(400)
    return rng.choice([
        f"A 192.0.2.{number % 256}", f"AAAA 2001:db8::{number:x}", f"MX {number} mail{number % 9}.{ORIGIN}", f'TXT "{"t" * (number % 200)}" "{number}"',
        f"SRV 1 {number} 53 host{number % 9}.{ORIGIN}", f"CAA 0 issue ca{number}.example.net", f"PTR Host{number % 99}.example.net.",
        f"NS ns{number % 20}.example.net.", f"SSHFP 1 1 {number:040x}", f"TYPE65280 \\# 2 {number:04x}",
    ])


def change(rng):
    """A line that changes something: most add a record, others delete one, a set or all of a name."""
    owner = f"{rng.choice(NAMES)}.{ORIGIN}"
    kind, _, text = data(rng).partition(" ")
    draw = rng.random()
    if draw < 0.7:
        return f"update add {owner} {rng.choice([60, 300, 3600])} {kind} {text}"
    return f"update delete {owner}" + (f" {kind} {text}" if draw < 0.8 else f" {kind}" if draw < 0.95 else "")


def needs(rng, number):
    """The lines of prerequisites. They hold in nine of ten updates."""
    if rng.random() < 0.1:
        return [f"prereq yxdomain absent{number}.{ORIGIN}"]
    lines = [
        f"prereq nxdomain absent{number}.{ORIGIN}", f"prereq yxdomain fixed.{ORIGIN}", f"prereq nxrrset fixed.{ORIGIN} MX", f"prereq yxrrset fixed.{ORIGIN} TXT",
        f"prereq yxrrset fixed.{ORIGIN} A 192.0.2.2\nprereq yxrrset fixed.{ORIGIN} A 192.0.2.3",
    ]
    return rng.sample(lines, rng.randrange(1, len(lines) + 1))


def script(rng, port, counts):
    """What nsupdate is told: an update of so many changes each, every other with prerequisites."""
    lines = [f"server {HOST} {port}", f"zone {ORIGIN}"]
    for number, count in enumerate(counts):
        lines += (needs(rng, number) if number % 2 else []) + [change(rng) for _ in range(count)] + ["send"]
    return "\n".join(lines) + "\nquit\n"


class Listener:
    """Keeps the messages that come over UDP and TCP, and answers each by NOERROR."""

    def __init__(self):
        self.port, self.kept = free_port(), []
        self.udp, self.tcp = socket.socket(socket.AF_INET, socket.SOCK_DGRAM), socket.create_server((HOST, self.port))
        self.udp.bind((HOST, self.port))
        for serve in (self.serve_udp, self.serve_tcp):
            threading.Thread(target=serve, daemon=True).start()

    def reply(self, message):
        self.kept.append(message)
        return message[:2] + b"\xa8\0" + bytes(8)

    def serve_udp(self):
        while True:
            message, client = self.udp.recvfrom(65535)
            self.udp.sendto(self.reply(message), client)

    def serve_tcp(self):
        while True:
            stream, _ = self.tcp.accept()
            with stream, contextlib.suppress(OSError):
                while True:
                    send_framed(stream, self.reply(receive_framed(stream)))


def captured(rng, counts, *words):
    """The messages that nsupdate sends for updates of so many changes."""
    listener = Listener()
    text = script(rng, listener.port, counts)
    ran = subprocess.run([path_of("nsupdate"), *words], input=text, capture_output=True, text=True, check=False)
    check(len(listener.kept) == len(counts), "nsupdate", len(listener.kept), len(counts), ran.stdout[-500:], ran.stderr[-500:])
    return listener.kept


class Packed(ctypes.Structure):
    _fields_ = [("len", ctypes.c_size_t), ("truncated", ctypes.c_bool)]


class ThroughC:
    """`dnw_message_pack` as a program in C calls it."""

    def __init__(self):
        self.library = ctypes.CDLL(str(pathlib.Path(os.environ["DNW_LIB_DIR"]) / "libdns_names_wire.so"))
        self.room = ctypes.create_string_buffer(65535)

    def __call__(self, octets, size):
        """The message in so many octets, or None if it is too long."""
        packed = Packed()
        words = octets, ctypes.c_size_t(len(octets)), ctypes.c_uint16(size), ctypes.c_uint16(0), self.room, ctypes.c_size_t(len(self.room)), ctypes.byref(packed)
        answer = self.library.dnw_message_pack(*words)
        check(answer in (0, TOO_LONG), "dnw_message_pack", answer, octets.hex())
        check(not (answer == 0 and packed.truncated), "dnw_message_pack sets TC", size, octets.hex())
        return None if answer else self.room.raw[: packed.len]


def fails_if_long(write):
    """Calls what raises MessageTooLong, and returns None then."""
    try:
        return write()
    except MessageTooLong:
        return None
    except DnsError as error:
        check(False, "another error", error)


def through_python(octets, size):
    return fails_if_long(lambda: Message.from_wire(octets).to_wire(size))


def built_by_python(octets, size):
    read = Message.from_wire(octets)
    made = Message.build(read.header, read.questions, read.answers, read.authorities, read.additionals)
    return fails_if_long(lambda: made.to_wire(size))


def records(octets):
    """The header and the records of each section, as dnspython reads them, each a record, in their order; and the TSIG record, if it is
    valid, as it ends a message: with its owner whole. Other octets with the same record are not what was signed."""
    keyring = dns.tsigkeyring.from_text({"key.test.": ("hmac-sha256", KEY.rpartition(":")[2])})
    message = dns.message.from_wire(octets, one_rr_per_rrset=True, keyring=keyring, continue_on_error=True)
    check(all(isinstance(it.exception, dns.tsig.BadSignature) for it in message.errors), "dnspython does not read", message.errors, octets.hex())
    sections = [[(rrset.name, rrset.rdclass, rrset.deleting, rrset.rdtype, rrset.ttl, [data.to_wire() for data in rrset]) for rrset in part]
                for part in message.sections]
    return message.id, message.flags, sections, tsig_of(message)


def tsig_of(message):
    if message.tsig is None:
        return b""
    data = message.tsig[0].to_wire()
    return message.tsig.name.to_wire() + struct.pack("!HHIH", dns.rdatatype.TSIG, dns.rdataclass.ANY, 0, len(data)) + data


def judge_message(writers, octets, rng, counts):
    """Each writer gives the records of the message, or nothing, and never fewer. It returns what the first of them wrote."""
    wanted, first = records(octets), None
    for name, write in writers.items():
        whole = write(octets, 65535)
        check(whole is not None and len(whole) <= len(octets), name, "not written, or longer", octets.hex())
        if whole != octets:
            check(records(whole)[:3] == wanted[:3] and whole.endswith(wanted[3]), name, "other records", octets.hex(), whole.hex())
        counts[f"{name}: " + ("the same octets" if whole == octets else "other octets, the same records")] += 1
        for size in {512, HEADER_SIZE, len(whole) - 1, len(whole), *(rng.randrange(12, 65536) for _ in range(4))}:
            got = write(octets, size)
            check(got == (None if size < len(whole) else whole), name, "is cut, or fails", size, len(whole), octets.hex())
            counts[f"{name}: " + ("fails, since it is too long" if got is None else "is whole")] += 1
        first = first or whole
    return first


def zone_of(server):
    """The messages of a transfer of the zone, without their ids."""
    query, found, owners = dns.message.make_query(ORIGIN, "AXFR"), [], 0
    with socket.create_connection((HOST, server.port), timeout=20) as stream:
        send_framed(stream, query.to_wire())
        while owners < 2:
            octets = receive_framed(stream)
            message = dns.message.from_wire(octets, one_rr_per_rrset=True, xfr=True)
            check(message.rcode() == 0 and message.answer, "no transfer", message.to_text()[:300])
            owners += sum(rrset.rdtype == dns.rdatatype.SOA for rrset in message.answer)
            found += [(rrset.name, rrset.rdtype, rrset.ttl, rrset[0].to_wire()) for rrset in message.answer]
    return found


def judge_effects(room, pairs):
    """One server gets what nsupdate sent, another what the library wrote: they say the same, and then have the same zone."""
    for name in ("theirs", "ours"):
        (room / name).mkdir()
        (room / name / "zone").write_text(f"$ORIGIN {ORIGIN}\n$TTL 300\n" + "\n".join(ZONE) + "\n")
    codes, sizes = collections.Counter(), []
    zones = {name: [Zone(ORIGIN, str(room / name / "zone"), is_updated=True)] for name in ("theirs", "ours")}
    with Server("named", room / "theirs", zones["theirs"]) as theirs, Server("named", room / "ours", zones["ours"]) as ours:
        for number, (sent, written) in enumerate(pairs):
            said = [server.over_tcp(octets) for server, octets in ((theirs, sent), (ours, written))]
            check(said[0][:12] == said[1][:12], "another response", number, said[0].hex(), said[1].hex(), sent.hex(), written.hex())
            codes[dns.message.from_wire(said[0]).rcode().name if len(said[0]) >= 12 else "none"] += 1
            after = zone_of(theirs)
            check(after == zone_of(ours), "another zone", number, sent.hex(), written.hex())
            sizes.append(len(after))
    say(f"updates: named did {len(pairs)} as nsupdate sent and as the library wrote them: {dict(codes)}, the zone has {min(sizes)} to {max(sizes)} records")


def main(room, seed):
    rng, counts = random.Random(seed), collections.Counter()
    writers = {"C": ThroughC(), "Python, read": through_python, "Python, built": built_by_python}
    messages = captured(rng, range(1, MESSAGES + 1))
    pairs = [(octets, judge_message(writers, octets, rng, counts)) for octets in messages]
    for octets in captured(rng, range(1, MESSAGES + 1, 10), "-y", KEY):
        judge_message(writers, octets, rng, counts)
    for what, times in sorted(counts.items()):
        say(f"updates: {times} times {what}")
    say(f"updates: {len(messages)} messages of nsupdate, in {min(map(len, messages))} to {max(map(len, messages))} octets")
    judge_effects(room, pairs)
    return 0
