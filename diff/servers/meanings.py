#!/usr/bin/env python3
"""Records what name servers reply over the loopback for the zone below, and what dnspython makes of it.

    apt-get install bind9 nsd knot python3-dnspython
    /usr/bin/python3 diff/servers/meanings.py > crates/test_responses/src/recorded.rt

A row is a server, a name and a type, what the reply means by the zone and the RFCs, and its octets. If dnspython finds another name at
the end of the aliases, or data where there are none, the run ends. After those are messages that no honest server sends.
"""

import pathlib
import socket
import subprocess
import tempfile
import time

import dns.flags
import dns.message
import dns.name
import dns.query
import dns.rcode
import dns.rdata
import dns.rdatatype
import dns.rrset

PORT = 5390
ZONE = """$ORIGIN a.test.
$TTL 60
@ 300 SOA ns h 1 2 3 4 120
@ NS ns
ns A 192.0.2.1
w A 192.0.2.2
w TXT x
alias CNAME w
one CNAME two
two CNAME alias
out CNAME b.other.
missing CNAME nothing
into CNAME x.sub
loop CNAME pool
pool CNAME loop
*.wild CNAME w
e.e TXT x
d DNAME t
x.t A 192.0.2.3
far DNAME other.
long DNAME LONG
sub NS ns.sub
ns.sub A 192.0.2.4
""".replace("LONG", ".".join(["l" * 63] * 3) + ".a.test.")

# What is asked, and what the zone says of it: a word, and the name at the end of the aliases, or that of the delegation.
ROWS = [
    ("w", "A", "data", "w"),
    ("W", "TXT", "data", "w"),
    ("w", "MX", "no data", "w"),
    ("w", "ANY", "data", "w"),
    ("alias", "A", "data", "w"),
    ("alias", "CNAME", "data", "alias"),
    ("alias", "MX", "no data", "w"),
    ("one", "TXT", "data", "w"),
    ("one", "MX", "no data", "w"),
    ("out", "A", "alias", "b.other."),
    ("missing", "A", "no name", "nothing"),
    ("nothing", "A", "no name", "nothing"),
    ("into", "A", "referral", "sub"),
    ("q.wild", "A", "data", "w"),
    ("e", "A", "no data", "e"),
    ("x.d", "A", "data", "x.t"),
    ("x.d", "MX", "no data", "x.t"),
    ("y.d", "A", "no name", "y.t"),
    ("d", "DNAME", "data", "d"),
    ("q.far", "A", "alias", "q.other."),
    ("k" * 63 + ".long", "A", "too long", ""),
    ("sub", "A", "referral", "sub"),
    ("y.sub", "A", "referral", "sub"),
    ("sub", "DS", "no data", "sub"),
    ("@", "SOA", "data", "@"),
    ("@", "NS", "data", "@"),
    ("loop", "A", "loop", ""),
]
ORIGIN = dns.name.from_text("a.test.")


def commands(folder):
    yield "named", ["named", "-f", "-c", f"{folder}/named.conf"], "named.conf", (
        f'options {{ directory "{folder}"; listen-on port {PORT} {{ 127.0.0.1; }}; listen-on-v6 {{ none; }}; recursion no; '
        f'pid-file none; session-keyfile none; dnssec-validation no; minimal-responses no; }}; controls {{ }};\n'
        f'zone "a.test" {{ type primary; file "{folder}/a.zone"; check-names ignore; }};\n'
    )
    yield "knotd", ["knotd", "-c", f"{folder}/knot.conf"], "knot.conf", (
        f'server:\n  rundir: "{folder}"\n  listen: 127.0.0.1@{PORT + 1}\ndatabase:\n  storage: "{folder}/knot"\n'
        f'zone:\n  - domain: a.test\n    file: "{folder}/a.zone"\n'
    )
    yield "nsd", ["nsd", "-d", "-c", f"{folder}/nsd.conf"], "nsd.conf", (
        f'server:\n ip-address: 127.0.0.1@{PORT + 2}\n username: ""\n zonesdir: "{folder}"\n database: ""\n pidfile: "{folder}/nsd.pid"\n'
        f' logfile: "{folder}/nsd.log"\n xfrdfile: "{folder}/xfrd"\n zonelistfile: "{folder}/zones"\n server-count: 1\n minimal-responses: no\n'
        'remote-control:\n control-enable: no\nzone:\n name: "a.test"\n zonefile: "a.zone"\n'
    )


def negative(reply, end):
    """For how long there is nothing: the smaller of the time to live of the SOA record of the name's zone, which is the one that was
    asked or below it, and its minimum (RFC 2308, section 5)."""
    for records in reply.authority:
        if records.rdtype == dns.rdatatype.SOA and records.name.is_subdomain(ORIGIN) and end.is_subdomain(records.name):
            return min(records.ttl, records[0].minimum)
    return ""


def check(reply, word, end):
    """Compares what dnspython says of the aliases and the name at their end, as far as it does."""
    if word not in ("data", "no data", "no name") or reply.question[0].rdtype == dns.rdatatype.ANY:
        return
    chain = reply.resolve_chaining()
    assert chain.canonical_name == end, (chain.canonical_name, end)
    assert (chain.answer is not None) == (word == "data"), word
    assert (reply.rcode() == dns.rcode.NXDOMAIN) == (word == "no name"), word


def row(server, name, kind, word, end, wire):
    """A row of the test."""
    reply = dns.message.from_wire(wire)
    end = name if end == name else end
    if server != "hostile":
        check(reply, word, end)
    if reply.rcode() not in (dns.rcode.NOERROR, dns.rcode.NXDOMAIN) and word in ("loop", "too long"):
        word = "failed"
    ttl = negative(reply, end) if word in ("no data", "no name") else ""
    meant = " ".join(str(it) for it in (word, end, ttl) if it not in (None, ""))
    return f'    "{server} {name} {int(dns.rdatatype.from_text(kind))} {wire.hex()} {meant}",'


# Messages that no honest server of the zone sends: a name and a type, the flags, the sections, and what they mean by the RFCs.
HOSTILE = [
    # names that are not in the zone (RFC 2181, section 5.4.1)
    ("q A", "QR AA", ["q.a.test. 60 A 192.0.2.1", "www.bank. 60 A 192.0.2.9"], ["bank. 60 NS ns.bank."], "data", "q"),
    ("q A", "QR AA", ["www.bank. 60 CNAME q.a.test.", "q.a.test. 60 A 192.0.2.1"], [], "data", "q"),
    ("q A", "QR AA", ["q.a.test. 60 CNAME b.other.", "b.other. 60 A 192.0.2.1"], [], "alias", "b.other."),
    ("q A", "QR AA NXDOMAIN", ["q.a.test. 60 CNAME b.other."], ["other. 60 SOA ns.other. h.other. 1 2 3 4 5"], "alias", "b.other."),
    ("q A", "QR AA", [], ["test. 60 SOA ns.test. h.test. 1 2 3 4 5"], "no data", "q"),
    ("q A", "QR AA", [], ["z.a.test. 60 SOA ns.test. h.test. 1 2 3 4 5"], "no data", "q"),
    # another alias than that of the name
    ("q A", "QR AA", ["z.a.test. 60 CNAME w.a.test.", "w.a.test. 60 A 192.0.2.1"], [], "no data", "q"),
    # referrals that lead nowhere: up, sideways, to the zone itself
    ("q A", "QR", [], [". 60 NS a.root."], "lame", ""),
    ("q A", "QR", [], ["test. 60 NS ns.test."], "lame", ""),
    ("q A", "QR", [], ["z.a.test. 60 NS ns.test."], "lame", ""),
    ("q A", "QR", [], ["a.test. 60 NS ns.test."], "lame", ""),
    ("q A", "QR", [], [], "lame", ""),
    ("q A", "QR AA", [], ["q.a.test. 60 NS ns.test."], "no data", "q"),
    ("x.q A", "QR", [], ["q.a.test. 60 NS ns.test."], "referral", "q"),
    # an alias of which no more is said
    ("q A", "QR AA", ["q.a.test. 60 CNAME w.a.test."], [], "alias", "w"),
    # aliases in any order, and loops of them
    ("q A", "QR AA", ["r.a.test. 60 A 192.0.2.1", "p.a.test. 60 CNAME r.a.test.", "q.a.test. 60 CNAME P.a.test."], [], "data", "r"),
    ("q A", "QR AA", ["q.a.test. 60 CNAME q.a.test."], [], "loop", ""),
    ("q A", "QR AA", ["q.a.test. 60 CNAME p.a.test.", "p.a.test. 60 CNAME Q.a.test."], [], "loop", ""),
    ("n0 A", "QR AA", [f"n{n}.a.test. 60 CNAME n{n + 1}.a.test." for n in range(16)] + ["n16.a.test. 60 A 192.0.2.1"], [], "data", "n16"),
    ("n0 A", "QR AA", [f"n{n}.a.test. 60 CNAME n{n + 1}.a.test." for n in range(17)] + ["n17.a.test. 60 A 192.0.2.1"], [], "loop", ""),
    # DNAME, and a CNAME record that is not the one that it makes, or is missing (RFC 6672, section 3.1)
    ("x.d A", "QR AA", ["d.a.test. 60 DNAME t.a.test.", "x.d.a.test. 60 CNAME e.a.test.", "e.a.test. 60 A 192.0.2.9"], [], "wrong alias", ""),
    ("x.d A", "QR AA", ["d.a.test. 60 DNAME t.a.test.", "x.t.a.test. 60 A 192.0.2.1"], [], "data", "x.t"),
    ("X.y.d A", "QR AA", ["D.a.test. 60 DNAME t.a.test.", "x.Y.d.a.test. 60 CNAME X.Y.T.a.test.", "x.y.t.a.test. 60 A 192.0.2.1"], [], "data", "X.y.t"),
    ("d A", "QR AA", ["d.a.test. 60 DNAME t.a.test."], ["a.test. 60 SOA ns h 1 2 3 4 5"], "no data", "d"),
    # a code that says otherwise than the records (RFC 6604, section 3)
    ("q A", "QR AA NXDOMAIN", ["q.a.test. 60 A 192.0.2.1"], [], "data", "q"),
    ("q A", "QR AA NXDOMAIN", ["q.a.test. 60 CNAME p.a.test."], ["a.test. 300 SOA ns h 1 2 3 4 120"], "no name", "p"),
    # the smaller of two times
    ("q A", "QR AA", [], ["a.test. 60 SOA ns h 1 2 3 4 120"], "no data", "q"),
    ("q A", "QR AA", [], ["a.test. 300 SOA ns h 1 2 3 4 120"], "no data", "q"),
    # no answers
    ("q A", "AA", ["q.a.test. 60 A 192.0.2.1"], [], "query", ""),
    ("q A", "QR AA TC", ["q.a.test. 60 A 192.0.2.1"], [], "truncated", ""),
    ("q A", "QR SERVFAIL", [], [], "failed", ""),
    ("q A", "QR BADVERS", [], [], "failed", ""),
    ("other A", "QR AA", ["q.a.test. 60 A 192.0.2.1"], [], "other question", "q A"),
    ("q MX", "QR AA", ["q.a.test. 60 A 192.0.2.1"], [], "other question", "q A"),
]


def hostile():
    """Those messages: who asked for which name and type, and the octets."""
    for question, flags, answers, authorities, word, end in HOSTILE:
        name, kind = question.split()
        message = dns.message.make_query(dns.name.from_text(name, ORIGIN), kind, id=7)
        words = flags.split()
        codes = [dns.rcode.from_text(it) for it in words if it in ("NXDOMAIN", "SERVFAIL", "BADVERS")]
        message.flags = dns.flags.from_text(" ".join(it for it in words if it in ("QR", "AA", "TC")))
        if codes and codes[0] > 15:
            message.use_edns(0)
        for section, lines in ((message.answer, answers), (message.authority, authorities)):
            for line in lines:
                owner, ttl, own, data = line.split(maxsplit=3)
                section.append(dns.rrset.from_text(dns.name.from_text(owner, ORIGIN), int(ttl), "IN", own, dns.rdata.from_text("IN", own, data, origin=ORIGIN, relativize=False).to_text()))
        if codes:
            message.set_rcode(codes[0])
        if word == "other question":
            (name, kind), end = end.split(), ""
        yield dns.name.from_text(name, ORIGIN), kind, word, dns.name.from_text(end, ORIGIN) if end else None, message.to_wire()


def ask(port, name, kind):
    """A reply of the server at this port."""
    query = dns.message.make_query(name, kind, id=7)
    query.flags = 0
    with socket.create_connection(("127.0.0.1", port), 3) as stream:
        dns.query.send_tcp(stream, query)
        size = int.from_bytes(stream.recv(2, socket.MSG_WAITALL), "big")
        return stream.recv(size, socket.MSG_WAITALL)


def serves(port):
    """Whether the server at this port serves the zone by now."""
    try:
        return dns.message.from_wire(ask(port, ORIGIN, "SOA")).rcode() == dns.rcode.NOERROR
    except OSError:
        return False


def replies(folder):
    """What the servers reply to each question."""
    pathlib.Path(folder, "a.zone").write_text(ZONE)
    for number, (server, words, file, text) in enumerate(commands(folder)):
        pathlib.Path(folder, file).write_text(text)
        with open(f"{folder}/{server}.log", "w") as log:
            process = subprocess.Popen(words, stdout=log, stderr=log)
        try:
            while not serves(PORT + number):
                time.sleep(0.2)
            for name, kind, word, end in ROWS:
                name = dns.name.from_text(name, ORIGIN)
                yield server, name, kind, word, dns.name.from_text(end, ORIGIN) if end else None, ask(PORT + number, name, kind)
        finally:
            process.terminate()
            process.wait()


def main():
    print("//! Replies of servers, and hostile messages, as `diff/servers/meanings.py` writes them.\n")
    with tempfile.TemporaryDirectory() as folder:
        rows = [row(*words) for words in replies(folder)]
    rows += [row("hostile", *words) for words in hostile()]
    print("/// Messages about the zone `a.test.`: who sent it, the name and the type that were asked, its octets, and what it means.")
    print(f"pub(crate) const ROWS: [&str; {len(rows)}] = [")
    print(*rows, "];", sep="\n")


if __name__ == "__main__":
    main()
