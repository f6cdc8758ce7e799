"""Asks the example server ten million times, a quarter by mutated queries: serving.py LIBRARY SERVE ASKING [QUERIES [SAMPLE]]

SERVE and ASKING are the words of the commands that start the server, and fuzz/asking.c, which sends the queries and sees that the server's
memory stays flat and that equal queries get equal replies. A sample of 100,000 queries and replies is then read by dnspython and by ldns,
which have to read the same in each reply; and it is the reply that a server in Python, below, says that the query gets: by the zone and by
how the example answers. That server shares no code with the library: it reads queries by dnspython.
"""

import pathlib
import random
import re
import shlex
import struct
import subprocess
import sys
import tempfile
import time

import dns.exception
import dns.message
import dns.name
import dns.rdataclass
import dns.rdatatype
import dns.version

from exchange import LDNS, read_dnspython, read_ldns
from network import ORIGIN, random_zone, record, running

PAYLOAD, OPT, CNAME, ANY, IN = 1232, 41, 5, 255, 1
NOERROR, FORMERR, NXDOMAIN, NOTIMP, REFUSED, BADVERS = 0, 1, 3, 4, 5, 16
NAMES = 12


def check(fact, *what):
    if not fact:
        sys.exit(f"serving: failed: {what}"[:4000])


def queries(asked):
    """The octets of queries, with and without EDNS."""
    names = [name for name, _ in asked] + ["example.", "ns.example.", "nothing.example.", "other.", "."]
    kinds = {name: kind for name, kind in asked}
    for name in names:
        for kind in {kinds.get(name, "SOA"), "A", "NS", "ANY", "TYPE65280"}:
            for size in (None, 512, 1232, 4096):
                query = dns.message.make_query(name, kind, use_edns=-1 if size is None else 0, payload=size)
                yield query.to_wire()
        options = [dns.edns.GenericOption(code, bytes(size)) for code, size in ((3, 0), (10, 8), (12, 40))]
        yield dns.message.make_query(name.upper(), "A", want_dnssec=True, payload=1232, options=options).to_wire()
        yield dns.message.make_query(name, "A", rdclass="CH").to_wire()
        yield dns.message.make_query(name, "SOA", use_edns=1).to_wire()


# ---- the server in Python


def walk(query):
    """Where the answers begin, the records as (section, owner, type, class, time to live, data), or None if it is no message."""
    if len(query) < 12:
        return None
    at, answers, found = 12, 12, []
    try:
        for section, count in enumerate(struct.unpack("!4H", query[4:12])):
            for _ in range(count):
                owner, used = dns.name.from_wire(query, at)
                at += used
                kind = struct.unpack_from("!HH" if section == 0 else "!HHIH", query, at)
                at += 4 if section == 0 else 10 + kind[3]
                if at > len(query):
                    return None
                found.append((section, owner, *kind[:3], query[at - kind[3] : at] if section else b""))
            answers = at if section == 0 else answers
    except (dns.exception.DNSException, struct.error):
        return None
    return answers, found


def edns(records):
    """What a query says by EDNS: version, DO and size; None without it, and False if it is wrong."""
    own = [it for it in records if it[0] > 0 and it[2] == OPT]
    if not own:
        return None
    section, owner, _, size, flags, data = own[0]
    if len(own) > 1 or section != 3 or owner != dns.name.root:
        return False
    while data:
        if len(data) < 4 or len(data) < 4 + struct.unpack("!H", data[2:4])[0]:
            return False
        data = data[4 + struct.unpack("!H", data[2:4])[0] :]
    return flags >> 16 & 255, bool(flags & 0x8000), max(512, size)


class Zone:
    def __init__(self, lines):
        self.records = [record(line) for line in lines]

    def answer(self, name, kind):
        """The code, the answers, and whether the SOA record is in the Authority section."""
        found = [it for it in self.records if it[0] == name and (kind in (it[1], ANY) or it[1] == CNAME)]
        there = any(it[0].is_subdomain(name) for it in self.records)
        return NOERROR if there else NXDOMAIN, found


def wanted(zone, query):
    """What a query gets: None, or the flags, code, question, answers, authorities, and what the OPT record says; and the most octets."""
    walked = walk(query)
    if walked is None or query[2] & 0x80:
        return None
    answers, records = walked
    questions = [it for it in records if it[0] == 0]
    says, op_code = edns(records), query[2] >> 3 & 15
    version, is_ok, size = says or (0, False, 512)
    code = FORMERR if says is False or len(questions) != 1 else BADVERS if version else NOTIMP if op_code else REFUSED
    asked, is_ours, found, authorities = [], False, [], []
    if len(questions) == 1:
        _, name, kind, own_class = questions[0][:4]
        asked = [(b"".join(bytes([len(it)]) + it for it in name.labels), kind, own_class)]
        is_ours = code == REFUSED and own_class == IN and name.is_subdomain(ORIGIN)
        if is_ours:
            code, found = zone.answer(name, kind)
            authorities = zone.records[:1] if not found else []
    flags = (True, op_code, is_ours, bool(query[2] & 1), bool(query[3] & 0x10), code)
    return flags, asked, found, authorities, (0, is_ok, PAYLOAD, b"") if says else None, min(size, PAYLOAD)


def plain(records):
    """Records as the zone has them, in any order: owner in lower case, type, time to live, data."""
    return sorted((dns.name.from_wire(it[0], 0)[0].canonicalize().to_wire(), it[1], it[3], it[4]) for it in records)


def check_pair(zone, query, reply):
    want = wanted(zone, query)
    if want is None or not reply:
        return check(want is None and not reply, "a reply, or none", query.hex(), reply.hex(), want)
    flags, asked, found, authorities, says, most = want
    # dnspython refuses unknown operation codes, and reads updates in another way.
    op_code, plain_reply = reply[2] >> 3 & 15, reply[:2] + bytes([reply[2] & 0x87]) + reply[3:]
    header, questions, sections, own = read_dnspython(plain_reply, False)
    sections = [[it for it, _ in section] for section in sections]
    check((header, questions, sections, own) == read_ldns(plain_reply), "ldns reads another reply than dnspython", reply.hex())
    ident, _, (qr, aa, tc, rd, ra, ad, cd), code = header
    check(len(reply) <= most and ident == struct.unpack("!H", query[:2])[0], "octets or id", query.hex(), reply.hex())
    check((qr, op_code, aa, rd, cd, code) == flags and not ra and not ad, "header", query.hex(), reply.hex(), flags)
    check(questions == asked and own == says, "question or EDNS", query.hex(), reply.hex(), asked, says)
    for at, records in enumerate((found, authorities, [])):
        have, all_records = plain(sections[at]), sorted((it[0].canonicalize().to_wire(), *it[1:]) for it in records)
        check(have == all_records or tc and len(have) < len(all_records) and set(have) < set(all_records), "records", query.hex(), reply.hex())
        check(not tc or len(found) + len(authorities) > sum(map(len, sections)), "TC", query.hex(), reply.hex())
    return None


def main(serve, asking, count=10_000_000, sample=100_000):
    random.seed(1035)
    lines, asked = random_zone(NAMES)
    zone, own = Zone(lines), sorted(set(queries(asked)))
    started = time.monotonic()
    with tempfile.TemporaryDirectory(prefix="serving-") as folder:
        room = pathlib.Path(folder)
        (room / "zone").write_text("\n".join(lines) + "\n")
        (room / "queries").write_text("".join(f"{it.hex()}\n" for it in own))
        with running([*shlex.split(serve), "0", str(room / "zone")]) as server:
            port = re.fullmatch(r"serving on port (\d+)\n", server.stdout.readline())
            check(port, "the server does not start")
            words = [*shlex.split(asking), port[1], server.pid, room / "queries", count, sample, room / "sample"]
            ran = subprocess.run(list(map(str, words)), capture_output=True, text=True)
            check(ran.returncode == 0 and server.poll() is None, ran.stderr)
        print(f"serving: {len(own)} queries to a zone of {len(lines)} records: {ran.stdout.strip()} ({time.monotonic() - started:.0f} s)", flush=True)
        pairs = replied = 0
        for line in (room / "sample").open():
            query, reply = (b"" if it == "-" else bytes.fromhex(it) for it in line.split())
            check_pair(zone, query, reply)
            pairs, replied = pairs + 1, replied + bool(reply)
    print(f"serving: {pairs} pairs read by dnspython {dns.version.version} and ldns {LDNS.ldns_version().decode()}, {replied} with a reply: all right")


if __name__ == "__main__":
    if not 4 <= len(sys.argv) <= 6:
        sys.exit(__doc__)
    main(*sys.argv[2:4], *map(int, sys.argv[4:]))
