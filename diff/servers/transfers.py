#!/usr/bin/env python3
"""Records how name servers transfer the zone below over the loopback, and what dnspython makes of it.

    apt-get install bind9 bind9-dnsutils nsd knot python3-dnspython
    /usr/bin/python3 diff/servers/transfers.py > crates/test_transfers/src/recorded.rt

A row is who sent the messages, what was asked (AXFR, or IXFR and the serial number of the client's version), what came by the RFCs, how
many records are added and how many deleted, and the octets of each message. dnspython's `dns.xfr.Inbound` takes the same messages; the run
ends if it says otherwise, but for the rows that say why it does. After those of servers are messages that no honest server sends.
"""

import pathlib
import socket
import subprocess
import tempfile
import time

import dns.exception
import dns.flags
import dns.message
import dns.name
import dns.query
import dns.rcode
import dns.rdata
import dns.rdataclass
import dns.rdatatype
import dns.rrset
import dns.versioned
import dns.xfr

PORT = 5394
ORIGIN = dns.name.from_text("a.test.")
HOSTS = 300
ZONE = "$ORIGIN a.test.\n$TTL 60\n@ SOA ns h 1 2 3 4 120\n@ NS ns\nns A 192.0.2.1\n" + "".join(
    f"host{n} TXT {'x' * 40}\n" for n in range(HOSTS)
)
# What is changed after that, an update at a time.
UPDATES = [
    "update add new.a.test. 60 A 192.0.2.2",
    "update delete new.a.test. A\nupdate add new.a.test. 60 A 192.0.2.3\nupdate add q.a.test. 60 TXT y",
    "update delete host7.a.test. TXT",
]


def commands(folder):
    """How each server is started: its name, its words, its configuration and the file of it."""
    yield "named", ["named", "-f", "-c", f"{folder}/named.conf"], "named.conf", (
        f'options {{ directory "{folder}"; listen-on port {PORT} {{ 127.0.0.1; }}; listen-on-v6 {{ none; }}; recursion no; '
        f'pid-file none; session-keyfile none; dnssec-validation no; notify no; allow-transfer {{ any; }}; }}; controls {{ }};\n'
        f'zone "a.test" {{ type primary; file "{folder}/named.zone"; allow-update {{ 127.0.0.1; }}; }};\n'
    )
    yield "knotd", ["knotd", "-c", f"{folder}/knot.conf"], "knot.conf", (
        f'server:\n  rundir: "{folder}"\n  listen: 127.0.0.1@{PORT + 1}\ndatabase:\n  storage: "{folder}/knot"\n  journal-db-max-size: 10M\n'
        "acl:\n  - id: all\n    address: 127.0.0.1\n    action: [transfer, update]\n"
        f'zone:\n  - domain: a.test\n    file: "{folder}/knotd.zone"\n    acl: all\n    zonefile-sync: -1\n'
    )
    yield "nsd", ["nsd", "-d", "-c", f"{folder}/nsd.conf"], "nsd.conf", (
        f'server:\n ip-address: 127.0.0.1@{PORT + 2}\n username: ""\n zonesdir: "{folder}"\n database: ""\n pidfile: "{folder}/nsd.pid"\n'
        f' logfile: "{folder}/nsd.log"\n xfrdfile: "{folder}/xfrd"\n zonelistfile: "{folder}/zones"\n server-count: 1\n'
        'remote-control:\n control-enable: no\nzone:\n name: "a.test"\n zonefile: "nsd.zone"\n provide-xfr: 127.0.0.1 NOKEY\n'
    )


def judged(zone, kind, own, wires):
    """What dnspython says of messages: whether they are all, or why not."""
    done = False
    try:
        with dns.xfr.Inbound(zone, dns.rdatatype.from_text(kind), own) as inbound:
            for wire in wires:
                if done:
                    return "error"
                done = inbound.process_message(dns.message.from_wire(wire, xfr=True, one_rr_per_rrset=True))
    except (dns.exception.DNSException, KeyError, ValueError) as why:
        return f"error {type(why).__name__}"
    return "done" if done else "more"


# What dnspython says if it says otherwise, by the reason.
AGREES = {"zone": "done", "changes": "done", "up to date": "done", "begun": "more", "more": "more"}


def row(server, zone, kind, own, came, added, deleted, wires, other=None):
    """A row of the test, after dnspython has been asked."""
    said = judged(zone, kind, own, wires).split()[0]
    wanted = other or AGREES.get(came, "error")
    assert said == wanted, (server, kind, own, came, said)
    octets = ",".join(wire.hex() for wire in wires)
    return f'    "{server}|{kind}|{own or 0}|{came}|{added}|{deleted}|{octets}",'


def received(stream, size):
    """So many octets of a stream, or fewer if no more come in a second."""
    octets = b""
    try:
        while len(octets) < size:
            more = stream.recv(size - len(octets))
            if not more:
                break
            octets += more
    except TimeoutError:
        pass
    return octets


def messages(port, kind, own=None):
    """The messages of a transfer: all that come."""
    query = dns.message.make_query(ORIGIN, kind, id=7)
    query.flags = 0
    if own is not None:
        soa = dns.rrset.from_text(ORIGIN, 0, "IN", "SOA", f". . {own} 0 0 0 0")
        query.authority.append(soa)
    wires = []
    with socket.create_connection(("127.0.0.1", port), 3) as stream:
        dns.query.send_tcp(stream, query)
        stream.settimeout(1)
        while len(size := received(stream, 2)) == 2:
            wires.append(received(stream, int.from_bytes(size, "big")))
    return wires


def serves(port, serial):
    """Whether the server at this port has the version with this serial number by now."""
    query = dns.message.make_query(ORIGIN, "SOA", id=7)
    try:
        reply = dns.query.tcp(query, "127.0.0.1", 2, port)
        return bool(reply.answer) and reply.answer[0][0].serial == serial
    except (OSError, dns.exception.DNSException):
        return False


def wait_for(port, serial):
    for _ in range(150):
        if serves(port, serial):
            return
        time.sleep(0.2)
    raise SystemExit(f"no serial number {serial} at {port}")


def read_zone(wires=None):
    """The zone as dnspython has it after a transfer, or an empty one."""
    zone = dns.versioned.Zone(ORIGIN, relativize=False)
    if wires:
        assert judged(zone, "AXFR", None, wires) == "done"
    return zone


def counts(zone):
    """How many records a zone has."""
    with zone.reader() as reader:
        return sum(len(it) for _, it in reader)


def update(server, port):
    """Changes the zone of a server by updates."""
    for number, text in enumerate(UPDATES):
        subprocess.run(["nsupdate"], input=f"server 127.0.0.1 {port}\nzone a.test.\n{text}\nsend\n", text=True, check=True)
        wait_for(port, number + 2)


def served(folder):
    """The rows of the servers."""
    for number, (server, words, file, text) in enumerate(commands(folder)):
        port = PORT + number
        pathlib.Path(folder, "knot").mkdir(exist_ok=True)
        pathlib.Path(folder, f"{server}.zone").write_text(ZONE)
        pathlib.Path(folder, file).write_text(text)
        with open(f"{folder}/{server}.log", "w") as log:
            process = subprocess.Popen(words, stdout=log, stderr=log)
        try:
            wait_for(port, 1)
            whole = messages(port, "AXFR")
            zone = read_zone(whole)
            yield row(server, read_zone(), "AXFR", None, "zone", counts(zone) - 1, 0, whole)
            yield row(server, zone, "IXFR", 1, "up to date", 0, 0, messages(port, "IXFR", 1))
            if server == "nsd":
                continue
            update(server, port)
            yield row(server, zone, "IXFR", 1, "changes", 3, 2, messages(port, "IXFR", 1))
            assert counts(zone) == counts(read_zone(messages(port, "AXFR")))
        finally:
            process.kill()
            process.wait()


SOA = "a.test. 60 SOA ns.a.test. h.a.test. {} 2 3 4 120"
HOST = "host.a.test. 60 A 192.0.2.{}"
S1, S2, S3 = (SOA.format(n) for n in (1, 2, 3))
H1, H2 = HOST.format(1), HOST.format(2)
# What was asked, the messages' records, what came, how many records are added and deleted, what is changed of the last message, and what
# dnspython says if it says otherwise.
HOSTILE = [
    # whole zones, split anywhere
    ("AXFR", None, [[S3, H1, H2, S3]], "zone", 2, 0, "", None),
    ("AXFR", None, [[S3], [H1], [H2], [S3]], "zone", 2, 0, "", None),
    ("AXFR", None, [[S3, H1], [], [H2, S3]], "zone", 2, 0, "", None),
    ("AXFR", None, [[S3, S3]], "zone", 0, 0, "", None),
    ("AXFR", None, [[S3, H1]], "more", 1, 0, "", None),
    ("AXFR", None, [[S3]], "begun", 0, 0, "", None),
    ("AXFR", None, [[S3, H1], [H2, S3]], "zone", 2, 0, "no question", None),
    ("AXFR", None, [[S3.replace("a.test. 60", "A.TEST. 60"), H1, S3]], "zone", 1, 0, "", None),
    # changes, and a whole zone instead
    ("IXFR", 1, [[S3, S1, S2, H1, S2, H1, S3, H2, S3]], "changes", 2, 1, "", None),
    ("IXFR", 1, [[S3], [S1], [S2, H1], [S2, H1, S3], [H2], [S3]], "changes", 2, 1, "", None),
    ("IXFR", 1, [[S3, S1, S3, S3]], "changes", 0, 0, "", None),
    ("IXFR", 1, [[S3, H1, H2, S3]], "zone", 2, 0, "", None),
    ("IXFR", 1, [[S3]], "begun", 0, 0, "", None),
    # RFC 1995 has no empty sequence of changes, and a zone may have no other record
    ("IXFR", 1, [[S3, S3]], "zone", 0, 0, "", "error"),
    # up to date, by serial numbers that start again at 0 (RFC 1982)
    ("IXFR", 3, [[S3]], "up to date", 0, 0, "", None),
    ("IXFR", 4, [[S3]], "up to date", 0, 0, "", "error"),
    ("IXFR", 0xFFFFFFFF, [[S3, SOA.format(0xFFFFFFFF), S3, H1, S3]], "changes", 1, 0, "", None),
    # the client's version is 2^31 away: not ordered
    ("IXFR", 0x80000003, [[S3]], "up to date", 0, 0, "", "more"),
    # what is wrong with a message
    ("AXFR", None, [[S3, H1, S3]], "OtherId", 0, 0, "id", "done"),
    ("AXFR", None, [[S3, H1, S3]], "NotAResponse", 0, 0, "query", "done"),
    ("AXFR", None, [[]], "Failed", 0, 0, "REFUSED", None),
    ("AXFR", None, [[]], "Failed", 0, 0, "BADVERS", None),
    ("AXFR", None, [[S3, H1], [H2, S3]], "Failed", 1, 0, "SERVFAIL", None),
    ("AXFR", None, [[S3, H1, S3]], "Truncated", 0, 0, "TC", "done"),
    ("AXFR", None, [[S3, H1, S3]], "OtherQuestion", 0, 0, "no question", "done"),
    ("AXFR", None, [[S3, H1, S3]], "OtherQuestion", 0, 0, "other name", None),
    ("AXFR", None, [[S3, H1, S3]], "OtherQuestion", 0, 0, "other type", None),
    ("AXFR", None, [[S3, H1, S3]], "OtherQuestion", 0, 0, "other class", "done"),
    ("AXFR", None, [[S3, H1], [H2, S3]], "OtherQuestion", 1, 0, "other name", None),
    # what is wrong with records
    ("AXFR", None, [[]], "NoSoa", 0, 0, "", None),
    ("AXFR", None, [[H1, S3]], "NoSoa", 0, 0, "", None),
    ("AXFR", None, [[S3, H1, S2]], "OtherSerial", 0, 0, "", None),
    ("AXFR", None, [[S3, S2]], "OtherSerial", 0, 0, "", None),
    ("AXFR", None, [[S3, H1, S3, H2]], "AfterEnd", 0, 0, "", None),
    ("AXFR", None, [[S3, H1, S3, S3]], "AfterEnd", 0, 0, "", None),
    ("AXFR", None, [[S3, H1, S3], [H2]], "AfterEnd", 1, 0, "", None),
    ("AXFR", None, [[S3, H1, S3], []], "AfterEnd", 1, 0, "", None),
    ("AXFR", None, [[S3, "host.b.test. 60 A 192.0.2.1", S3]], "OutOfZone", 0, 0, "", None),
    ("AXFR", None, [["test. 60 SOA ns.a.test. h.a.test. 3 2 3 4 120", H1]], "OutOfZone", 0, 0, "", None),
    ("AXFR", None, [[S3, S3.replace("a.test. 60", "x.a.test. 60"), S3]], "SoaBelow", 0, 0, "", None),
    ("AXFR", None, [[S3, H1, S3]], "OtherClass", 0, 0, "class", None),
    ("IXFR", 1, [[S3, S2, S3, H1, S3]], "OtherSerial", 0, 0, "", None),
    ("IXFR", 1, [[S3, S1, S2, H1, S3]], "OtherSerial", 0, 0, "", None),
    ("IXFR", 1, [[S3, S1, S2, H1, S1]], "OtherSerial", 0, 0, "", None),
    ("IXFR", 1, [[S3, H1, S2]], "OtherSerial", 0, 0, "", None),
    ("IXFR", 1, [[S3, S1, S3, H1, S3, H2]], "AfterEnd", 0, 0, "", None),
    ("IXFR", 3, [[S3, H1]], "AfterEnd", 0, 0, "", None),
]


def changed(message, what):
    """A message with this changed."""
    if what == "id":
        message.id = 8
    elif what == "query":
        message.flags &= ~dns.flags.QR
    elif what == "TC":
        message.flags |= dns.flags.TC
    elif what == "no question":
        message.question = []
    elif what == "other name":
        message.question[0].name = dns.name.from_text("b.test.")
    elif what == "other type":
        message.question[0].rdtype = dns.rdatatype.IXFR
    elif what == "other class":
        message.question[0].rdclass = dns.rdataclass.CH
    elif what == "class":
        message.answer[1].rdclass = dns.rdataclass.CH
    elif what:
        message.use_edns(0)
        message.set_rcode(dns.rcode.from_text(what))
    return message


def hostile():
    """The rows of messages that are made here. The zone before is H1 alone, if there is one."""
    for kind, own, lists, came, added, deleted, what, other in HOSTILE:
        wires = []
        for number, lines in enumerate(lists):
            message = dns.message.make_query(ORIGIN, kind, id=7)
            message.flags = dns.flags.QR | dns.flags.AA
            for line in lines:
                owner, ttl, own_type, data = line.split(maxsplit=3)
                message.answer.append(dns.rrset.from_text(owner, int(ttl), "IN", own_type, data))
            if number + 1 == len(lists):
                changed(message, what)
            wires.append(message.to_wire(max_size=65535))
        zone = dns.versioned.Zone(ORIGIN, relativize=False)
        if own is not None:
            with zone.writer(True) as change:
                soa = SOA.format(own).split(maxsplit=3)[3]
                change.add(ORIGIN, 60, dns.rdata.from_text("IN", "SOA", soa))
        yield row("made", zone, kind, own, came, added, deleted, wires, other)


def main():
    with tempfile.TemporaryDirectory() as folder:
        rows = list(served(folder))
    rows += hostile()
    print("//! Transfers of servers, and messages of no honest one, as `diff/servers/transfers.py` writes them.\n")
    print("/// Transfers of the zone `a.test.`, as that script says.")
    print(f"pub(crate) const ROWS: [&str; {len(rows)}] = [")
    print(*rows, "];", sep="\n")


if __name__ == "__main__":
    main()
