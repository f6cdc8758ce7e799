"""Serves a transfer that the library wrote to named, knotd, nsd and dnspython: the third part of fuzz/servers.

Through C `dnw_writer_fill` fills one message after another, in Python `transfer` does, and MessageWriter is given one record after
another until one has no room. Each secondary gives the zone away again, to dig; named-compilezone prints that and the zone file in one form, of which the
digests and the numbers of lines have to be the same.
"""

import contextlib
import ctypes
import hashlib
import os
import pathlib
import random
import socket
import struct
import subprocess
import threading

import dns.message
import dns.name
import dns.query
import dns.rdata
import dns.rdataclass
import dns.rdatatype as rt
import dns.rrset

from dns_names_wire import Header, MessageTooLong, MessageWriter, Question, Record, make_query, transfer
from served import HOST, SERVERS, Server, Zone, check, free_port, path_of, receive_framed, say, send_framed

ORIGIN = "transfer.test."
AXFR, IN, MOST = 252, 1, 65535
RESPONSE = 0x8400
LIST_ANSWER = 1
# Servers that give names in lower case.
LOWERING = {"knotd", "nsd"}
SOA = f"{ORIGIN} 3600 IN SOA ns.{ORIGIN} Host.Master.{ORIGIN} 7 7200 3600 1209600 300"
HEAD = [f"{ORIGIN} 3600 IN NS ns.{ORIGIN}", f"ns.{ORIGIN} 3600 IN A 192.0.2.1"]


def lines_of(seed, count):
    """So many records, of which the first is the SOA; some names have capitals, some sets are large, and some data long."""
    rng, lines = random.Random(seed), [SOA, *HEAD]
    number = 0
    while len(lines) < count:
        number += 1
        owner = f"{rng.choice(['host', 'Host', 'a.b', '_sip._tcp.c'])}{number}.{rng.choice(['', 'deep.', 'x.y.z.', 'LONG-' * 9 + '.'])}{ORIGIN}"
        kind, text = rng.choice([
            ("A", lambda it: f"192.0.{it >> 8 & 255}.{it & 255}"), ("AAAA", lambda it: f"2001:db8::{it:x}"), ("MX", lambda it: f"{it & 255} mail{it & 63}.{ORIGIN}"),
            ("TXT", lambda it: f'"{"t" * (it % 250)}" "{it}"'), ("SRV", lambda it: f"0 {it & 1023} 53 host{it & 99}.{ORIGIN}"), ("PTR", lambda it: f"Host{it}.example.net."),
            ("CAA", lambda it: f'0 issue "ca{it}.example.net"'), ("NAPTR", lambda it: f'{it} 10 "s" "SIP+D2U" "" _sip._udp.{ORIGIN}'),
            ("TLSA", lambda it: f"3 1 1 {it:064x}"), ("TYPE65280", lambda it: f"\\# 4 {it:08x}"),
        ])
        start = rng.randrange(60000)
        lines += [f"{owner} {300 + number % 7} IN {kind} {text(it)}" for it in range(start, start + rng.choice([1, 1, 2, 3, 9, 40]))]
    return lines[:count]


def parsed(line):
    """A line as its owner, type, time to live, and the octets of its data, by dnspython."""
    owner, ttl, _, kind, text = line.split(None, 4)
    code = rt.from_text(kind)
    return dns.name.from_text(owner).to_wire(), code, int(ttl), dns.rdata.from_text(dns.rdataclass.IN, code, text).to_wire()


# ---- the messages, as three callers of the library write them


class Writer(ctypes.Structure):
    _fields_ = [("len", ctypes.c_size_t), ("max_size", ctypes.c_size_t), ("reserved", ctypes.c_size_t), ("owner", ctypes.c_uint16), ("rank", ctypes.c_uint8),
                ("has_opt", ctypes.c_uint8), ("hints", ctypes.c_uint16 * 512)]


class ThroughC:
    """The calls of a writer as a program in C makes them."""

    def __init__(self):
        self.library = ctypes.CDLL(str(pathlib.Path(os.environ["DNW_LIB_DIR"]) / "libdns_names_wire.so"))
        self.room, self.writer = ctypes.create_string_buffer(MOST), Writer()

    def call(self, name, *words):
        given = [ctypes.c_size_t(word) if isinstance(word, int) else word for word in words]
        return getattr(self.library, name)(self.room, ctypes.c_size_t(MOST), *given, ctypes.byref(self.writer))

    def begin(self):
        zone = dns.name.from_text(ORIGIN).to_wire()
        check(self.call("dnw_writer_begin", MOST, 0, RESPONSE) == 0, "dnw_writer_begin")
        check(self.call("dnw_writer_question", zone, len(zone), AXFR, IN) == 0, "dnw_writer_question")

    def messages(self, lines):
        items = b"".join(item_of(*parsed(line)) for line in lines)
        at = ctypes.c_size_t()
        while at.value < len(items):
            self.begin()
            failure = self.library.dnw_writer_fill(
                self.room, ctypes.c_size_t(MOST), items, ctypes.c_size_t(len(items)), at, ctypes.byref(self.writer), ctypes.byref(at)
            )
            check(failure == 0, "dnw_writer_fill", failure, at.value)
            yield self.room.raw[: self.writer.len]


def item_of(owner, kind, ttl, data):
    """A record of the Answer section as an item of a list."""
    return bytes([LIST_ANSWER]) + owner + struct.pack("!HHIH", kind, IN, ttl, len(data)) + data


def by_transfer(lines):
    """The messages of `transfer`."""
    return transfer(make_query(ORIGIN, "AXFR", id=0), map(Record.from_text, lines))


def by_writer(lines):
    """The messages of MessageWriter."""
    question, writer = Question(ORIGIN, AXFR), None
    for record in map(Record.from_text, lines):
        if writer is not None:
            with contextlib.suppress(MessageTooLong):
                writer.answer(record)
                continue
            yield writer.finish()
        writer = MessageWriter(Header(is_response=True, authoritative=True))
        writer.question(question)
        writer.answer(record)
    yield writer.finish()


# ---- the server, and those that read


class Primary:
    """Gives the SOA, and the messages of a transfer to whoever asks for one, with the id of the request."""

    def __init__(self, soa, messages):
        self.soa, self.messages, self.given = soa, messages, 0
        self.port = free_port()
        self.udp, self.tcp = socket.socket(socket.AF_INET, socket.SOCK_DGRAM), socket.create_server((HOST, self.port))
        self.udp.bind((HOST, self.port))
        for serve in (self.serve_udp, self.serve_tcp):
            threading.Thread(target=serve, daemon=True).start()

    def answer(self, query):
        """The SOA record in answer to a query for it, by dnspython."""
        asked = dns.message.from_wire(query)
        reply = dns.message.make_response(asked)
        reply.flags |= dns.flags.AA
        reply.answer.append(dns.rrset.from_text(ORIGIN, 3600, "IN", "SOA", self.soa))
        return reply.to_wire()

    def serve_udp(self):
        while True:
            query, client = self.udp.recvfrom(65535)
            self.udp.sendto(self.answer(query), client)

    def serve_tcp(self):
        while True:
            stream, _ = self.tcp.accept()
            threading.Thread(target=self.talk, args=(stream,), daemon=True).start()

    def talk(self, stream):
        with stream, contextlib.suppress(OSError):
            while True:
                query = receive_framed(stream)
                if dns.message.from_wire(query).question[0].rdtype != rt.AXFR:
                    send_framed(stream, self.answer(query))
                    continue
                for message in self.messages:
                    send_framed(stream, query[:2] + message[2:])
                self.given += 1


def compiled(room, path):
    """The number of lines of a zone, and two digests, in the form in which named-compilezone prints it: of these lines, and without case."""
    words = [path_of("named-compilezone"), "-i", "none", "-k", "ignore", "-n", "ignore", "-m", "ignore", "-M", "ignore", "-r", "ignore", "-S", "ignore",
             "-s", "full", "-o", "compiled", ORIGIN, str(path)]
    ran = subprocess.run(words, cwd=room, capture_output=True, text=True, check=False)
    check(ran.returncode == 0, ran.stdout[-1000:], ran.stderr)
    octets = (room / "compiled").read_bytes()
    return octets.count(b"\n"), hashlib.sha256(octets).hexdigest(), hashlib.sha256(octets.lower()).hexdigest()


def given_by(room, port):
    """The zone of a server, as dig prints a transfer."""
    path = room / "transferred"
    with open(path, "w", encoding="utf-8") as file:
        words = [path_of("dig"), f"@{HOST}", "-p", str(port), ORIGIN, "AXFR", "+nocmd", "+nostats", "+nocomments", "+noidnout"]
        subprocess.run(words, stdout=file, check=True)
    return path


def read_by_dnspython(port):
    """The records of a transfer, each as owner, type, time to live and octets of data; the last one, the SOA, aside."""
    found = []
    for message in dns.query.xfr(HOST, ORIGIN, port=port, relativize=False, timeout=60):
        for rrset in message.answer:
            found += [(rrset.name.canonicalize(), rrset.rdtype, rrset.ttl, data.to_digestable(dns.name.root)) for data in rrset]
    check(found[0] == found[-1], "the last record is not the SOA")
    return set(found)


def lowered(lines):
    """The records of lines as dnspython reads them, without case."""
    for line in lines:
        owner, ttl, _, kind, text = line.split(None, 4)
        code = rt.from_text(kind)
        yield dns.name.from_text(owner).canonicalize(), code, int(ttl), dns.rdata.from_text(dns.rdataclass.IN, code, text).to_digestable(dns.name.root)


def judge_messages(messages):
    """dnspython reads each message; none is cut, and all but the last are nearly full."""
    for message in messages:
        read = dns.message.from_wire(message, one_rr_per_rrset=True)
        check(not read.flags & dns.flags.TC and read.answer and not read.authority and not read.additional, "a message of the transfer", message[:64].hex())
    return f"{len(messages)} messages in {min(map(len, messages[:-1]))} to {max(map(len, messages))} octets, the last in {len(messages[-1])}"


def main(room, seed, count=100_000):
    lines = lines_of(seed, count)
    (room / "zone").write_text("\n".join(lines) + "\n")
    wanted = compiled(room, room / "zone")
    soa = SOA.partition(" SOA ")[2]
    for number, (name, write) in enumerate({"C": ThroughC().messages, "MessageWriter": by_writer, "transfer": by_transfer}.items()):
        messages = list(write([*lines, SOA]))
        say(f"transfers: {count + 1} records by {name}: {judge_messages(messages)}")
        primary = Primary(soa, messages)
        check(read_by_dnspython(primary.port) == set(lowered(lines)), "dnspython reads other records", name)
        for tool in SERVERS:
            own = room / f"{tool}-{number}"
            with Server(tool, own, [Zone(ORIGIN, str(own / "zone"), primary.port)], 300) as server:
                found = compiled(room, given_by(room, server.port))
                kept = [it for it in (0, 1, 2) if found[it] == wanted[it]]
                check(kept == ([0, 2] if tool in LOWERING else [0, 1, 2]), tool, "has another zone", found, wanted)
        check(primary.given == 1 + len(SERVERS), "transfers", primary.given)
        say(f"transfers: by {name}, dnspython and {', '.join(SERVERS)} read the {wanted[0]} records of the zone")
    return 0
