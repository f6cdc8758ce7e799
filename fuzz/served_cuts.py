"""Judges what the library leaves out of responses by what knotd, nsd and named leave out: the first part of fuzz/servers.

Each server is asked by TCP for its whole response to a query with DO, which the library packs, and builds again from its records, at each
size; beside it is what the servers send by UDP for the same question with an EDNS size of that number. What is required in a response is
said here once more, from the RFCs.
"""

import collections
import random

import dns.dnssec
import dns.exception
import dns.flags
import dns.message
import dns.name
import dns.rdatatype as rt
import dns.rrset

from dns_names_wire import Message
from served import SERVERS, Server, Zone, check, say
from served_delv import Delv
from served_zones import ZONES, questions, signed

LEAST, MOST_UDP = 512, 4096
ANSWER, AUTHORITY, ADDITIONAL = SECTIONS = 1, 2, 3
ADDRESSES = {rt.A, rt.AAAA}
# What may be missing, and the rule that says whether TC is set for it.
REQUIRED = {
    "answer": "an answer (RFC 2181, section 9)",
    "authority": "SOA, NSEC, NSEC3, DS or a cut's NS, or their signatures (RFC 2308, 2 and 3; RFC 4035, 3.1.1 to 3.1.4; RFC 1034, 4.3.2)",
    "owed": "the signature of a set of the authority section that is there (RFC 4035, section 3.1.1)",
    "glue": "an address at or below the cut (RFC 9471, section 3.1)",
}
OPTIONAL = {
    "servers": "NS beside an answer, or of the zone itself, or their signatures: extra information (RFC 2181, section 9)",
    "sibling": "an address beside the cut (RFC 9471, section 3.2: MAY set TC)",
    "signature": "a signature of the additional section (RFC 4035, section 3.1.1: must not set TC for it alone)",
    "additional": "another additional record (RFC 2181, section 9)",
}


class Response:
    """A response of a zone as dnspython reads it: whether TC is set, and the records of each set, OPT aside."""

    def __init__(self, octets, origin):
        self.size = len(octets)
        self.message = message = dns.message.from_wire(octets)
        check(message.opt is not None, "EDNS is missing", octets.hex())
        self.rcode, self.is_cut = message.rcode(), bool(message.flags & dns.flags.TC)
        # A set is of its section, its owner without case, its class, its type, and the type that signatures cover.
        found = collections.defaultdict(collections.Counter)
        for section in SECTIONS:
            for rrset in message.sections[section]:
                key = section, rrset.name.canonicalize(), rrset.rdclass, rrset.rdtype, rrset.covers
                found[key].update((rrset.ttl, data.to_digestable(dns.name.root)) for data in rrset)
        self.sets, self.lacking = dict(found), {}
        # NS of the zone itself are no cut: they are beside an answer, or beside an alias that leads out of the zone.
        servers = [key[1] for key in self.sets if key[0] == AUTHORITY and key[3] == rt.NS]
        self.cut = next((owner for owner in servers if owner != origin), None)

    def why(self, key):
        """Which kind of set this is: one of REQUIRED or OPTIONAL."""
        section, owner, _, kind, covered = key
        if section == ANSWER:
            return "answer"
        if section == AUTHORITY:
            return "servers" if self.cut is None and rt.NS in (kind, covered) else "authority"
        if kind == rt.RRSIG:
            return "signature"
        if self.cut is None or kind not in ADDRESSES:
            return "additional"
        return "glue" if owner.is_subdomain(self.cut) else "sibling"

    def lost(self, other):
        """The sets that another response lacks, each with its kind. A signature is required if what it covers is there."""
        if id(other) not in self.lacking:
            self.lacking[id(other)] = self.find_lost(other)
        return self.lacking[id(other)]

    def find_lost(self, other):
        found = {key: self.why(key) for key in self.sets if key not in other.sets}
        owed = {key for key in found if key[0] == AUTHORITY and (*key[:3], key[4], rt.NONE) in other.sets}
        return {key: "owed" if key in owed else kind for key, kind in found.items()}

    def kept(self):
        """What a validator looks at: the code, and the answers and authorities."""
        return self.rcode, frozenset((key, frozenset(found)) for key, found in self.sets.items() if key[0] != ADDITIONAL)


class Reader:
    """Reads responses of a zone; octets that have come before, but for their id, are read once."""

    def __init__(self, origin):
        self.known, self.origin = {}, dns.name.from_text(origin)

    def __call__(self, octets):
        body = octets[2:]
        if body not in self.known:
            self.known[body] = Response(octets, self.origin)
        return self.known[body]


def query_of(name, kind, size):
    """A query with DO."""
    query = dns.message.make_query(name, kind, use_edns=0, payload=size, want_dnssec=True)
    query.flags = 0
    return query.to_wire()


def resized(query, size):
    """The same query with another EDNS size: its OPT record is the last, and has no data."""
    return query[:-8] + size.to_bytes(2, "big") + query[-6:]


def packed(query, octets, sizes):
    """What the library makes of a response at each size: packed; built again from its records; and as the reply to the query. These are
    mostly the same octets, but a name may be compressed in one and not in another, after a set that was left out."""
    message, found = Message.from_wire(octets), {}
    parts = message.answers, message.authorities, [record for record in message.additionals if record.record_type != rt.OPT]
    built = Message.build(message.header, message.questions, *parts, message.edns)
    code, is_authoritative = message.response_code, message.header.authoritative
    reply = Message.from_wire(query).reply(*parts, authoritative=is_authoritative, response_code=code, edns=message.edns)
    for size in sizes:
        found[size] = {it.to_wire(size) for it in (message, built, reply)}
        check(max(map(len, found[size])) <= size, "longer than it may be", size, octets.hex())
    return found


def size_of_required(octets, whole):
    """The octets of the response without what is optional."""
    message = Message.from_wire(octets)
    parts = [[record for record in part if record.record_type != rt.OPT and whole.why(key_of(section, record)) in REQUIRED]
             for section, part in ((AUTHORITY, message.authorities), (ADDITIONAL, message.additionals))]
    return len(Message.build(message.header, message.questions, message.answers, *parts, message.edns).to_wire(65535))


def key_of(section, record):
    """The set of a record of the library."""
    owner = dns.name.from_wire(record.owner.wire, 0)[0].canonicalize()
    covered = int.from_bytes(record.raw_data[:2], "big") if record.record_type == rt.RRSIG else rt.NONE
    return section, owner, record.record_class, record.record_type, covered


def sizes_for(wholes, is_every):
    """The sizes to try: each from the greatest whole response down, or steps of eight, and those around the whole responses."""
    most = max(len(octets) for octets in wholes.values())
    exact = {len(octets) + by for octets in wholes.values() for by in (-1, 0, 1)}
    steps = range(LEAST, most + 1) if is_every else range(LEAST, most + 1, 8)
    return sorted({size for size in {*steps, *exact} if LEAST <= size <= most + 1}, reverse=True)


class Judge:
    """Compares responses, and counts what is otherwise than two of three servers have it."""

    def __init__(self, keys):
        self.keys = {dns.name.from_text(origin): dns.rrset.from_text(origin, 3600, "IN", "DNSKEY", text) for origin, text in keys.items()}
        self.counts, self.shown, self.verified, self.silent = collections.Counter(), {}, {}, collections.Counter()
        # The sizes at which TC is clear here and set by two, by what is missing, the question and the server of the whole response.
        self.clear = collections.defaultdict(list)

    def count(self, what, example):
        """Counts a case, and keeps its smallest example."""
        self.counts[what] += 1
        if what not in self.shown or example[1] < self.shown[what][1]:
            self.shown[what] = example

    def must(self, fact, rule, example):
        """Counts a fault if something is not so."""
        if not fact:
            self.count(f"FAULT: {rule}", example)

    def sets_are_whole(self, whole, ours, where):
        """Each set of ours has all records of the server's set, and no signature is without what it covers (RFC 2181, section 5). With TC
        clear, answers and authorities have the signatures that they had."""
        self.must(ours.rcode == whole.rcode, "another response code", where)
        for key, found in ours.sets.items():
            section, owner, kind, _, covered = key
            plain, signature = (section, owner, kind, covered, rt.NONE), (section, owner, kind, rt.RRSIG, key[3])
            self.must(whole.sets.get(key) == found, "half a set (RFC 2181, section 5)", where)
            self.must(not covered or plain not in whole.sets or plain in ours.sets, "a signature without what it covers", where)
            is_owed = not ours.is_cut and section != ADDITIONAL and signature in whole.sets
            self.must(not is_owed or signature in ours.sets, f"a set of section {section} without its signature, TC clear (RFC 4035, 3.1.1)", where)

    def truncation(self, whole, ours, others, where):
        """TC is set exactly if something is missing that the RFCs require. If it is otherwise than two of three servers have it, that is
        counted by what is missing, and by what those two have of it: `others` is the whole response of each server and what it sent."""
        lost = whole.lost(ours)
        required = {key: kind for key, kind in lost.items() if kind in REQUIRED}
        self.must(ours.is_cut or not required, f"TC is clear, missing: {kinds(lost)}", where)
        self.must(not ours.is_cut or required, f"TC is set, missing: {kinds(lost)}", where)
        self.counts["TC is set" if ours.is_cut else "TC is clear"] += 1
        is_wanted = sum(sent.is_cut for _, sent in others) >= 2
        if len(others) < len(SERVERS) or ours.is_cut == is_wanted or not lost:
            return
        if is_wanted:
            self.clear[kinds(lost), where[0], where[2]].append(where[1])
            return
        found = {state(key, *other) for key in required for other in others if not other[1].is_cut}
        self.count(f"TC is set here, and clear by two, missing: {kinds(required)}, which these {' or '.join(sorted(found))}", where)

    def signatures(self, origin, ours, where):
        """dnspython verifies each set of a response without TC that has signatures."""
        zone = dns.name.from_text(origin)
        for section in (ANSWER, AUTHORITY):
            sets = {(it.name, it.rdtype, it.covers): it for it in ours.message.sections[section]}
            for (name, _, covered), signatures in sets.items():
                rrset = sets.get((name, covered, rt.NONE))
                key = rrset and (rrset.to_text(), signatures.to_text())
                if rrset is not None and key not in self.verified:
                    self.verified[key] = is_verified(rrset, signatures, {zone: self.keys[zone]})
                self.must(rrset is None or self.verified[key], "dnspython does not verify a signature", where)

    def say(self):
        for what, count in sorted(self.counts.items()):
            say(f"{count} times {what}" + (f": {self.shown[what]}" if what in self.shown else ""))
        for (missing, question, tool), sizes in sorted(self.clear.items()):
            say(f"TC is clear here, and set by two: {question}, as {tool} has it, at {min(sizes)} to {max(sizes)} ({len(sizes)} sizes), missing: {missing}")
        for kind, rule in {**REQUIRED, **OPTIONAL}.items():
            say(f"{kind}: {rule}")
        for tool, times in self.silent.items():
            say(f"{tool} gave no response by UDP to {times} questions, and was started again")


def kinds(lost):
    return ", ".join(sorted(set(lost.values())))


def state(key, whole, sent):
    """What a server's response has of a set."""
    return "have" if key in sent.sets else "leave out too" if key in whole.sets else "never have"


def is_verified(rrset, signatures, keys):
    try:
        dns.dnssec.validate(rrset, signatures, keys)
        return True
    except dns.dnssec.ValidationFailure:
        return False


def asked_of(servers, query, sizes, judge):
    """What each server sends by UDP at each size. One that gives no response is started again, and has none for this question."""
    found = {}
    for tool, server in servers.items():
        got = server.over_udp([resized(query, size) for size in sizes])
        if None in got:
            judge.silent[tool] += 1
            server.start()
        found[tool] = dict(zip(sizes, got))
    return found


def judge_question(servers, judge, question, is_every):
    """Judges one question at all sizes. It returns, for delv, what of the library's responses has no TC: with that of the whole response."""
    origin, name, kind = question
    query, read = query_of(name, kind, 65535), Reader(origin)
    wholes = {tool: server.over_tcp(query) for tool, server in servers.items()}
    sizes = sizes_for(wholes, is_every)
    theirs = asked_of(servers, query, [size for size in sizes if size <= MOST_UDP], judge)
    kept, judged = {}, set()
    for tool, octets in wholes.items():
        whole = read(octets)
        check(not whole.is_cut, tool, "the whole response has TC", question)
        enough = size_of_required(octets, whole)
        for size, written in packed(query, octets, sizes).items():
            where = f"{name} {kind}", size, tool, len(octets)
            others = [(read(wholes[other]), read(got[size])) for other, got in theirs.items() if got.get(size) is not None]
            if len(written) > 1:
                judge.count("packed and built in other octets", where)
            for ours_octets in written:
                ours = read(ours_octets)
                judge.truncation(whole, ours, others, where)
                if ours.is_cut and size >= enough:
                    judge.count("TC is set, and all that is required has room without what is optional", where)
                if (tool, ours_octets) not in judged:
                    judged.add((tool, ours_octets))
                    judge.sets_are_whole(whole, ours, where)
                    if not ours.is_cut:
                        judge.signatures(origin, ours, where)
                        kept.setdefault(ours.kept(), (origin, name, kind, octets, ours_octets))
    return list(kept.values())


def main(room, seed, count, every):
    """Judges so many questions in steps, and the first ones of a shuffled list at every size."""
    keys = signed(room, seed)
    zones = [Zone(origin, str(room / origin.rstrip("."))) for origin, _, _ in ZONES]
    found = questions(seed, count)
    random.Random(seed).shuffle(found)
    judge, kept = Judge(keys), []
    servers = {}
    try:
        for tool in SERVERS:
            servers[tool] = Server(tool, room / tool, zones)
        for number, question in enumerate(found):
            kept += judge_question(servers, judge, question, number < every)
            if number % 100 == 99:
                say(f"{number + 1} questions of {len(found)}, {sum(judge.counts.values())} responses")
        Delv(room, keys, servers["named"]).judge(kept, judge)
        judge.say()
        return sum(times for what, times in judge.counts.items() if what.startswith("FAULT"))
    finally:
        for server in servers.values():
            server.close()
