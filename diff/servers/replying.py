#!/usr/bin/env python3
"""Records what name servers reply to requests over the loopback for the zone below, for `crates/test_replies`.

    apt-get install bind9 nsd knot python3-dnspython
    /usr/bin/python3 diff/servers/replying.py > crates/test_replies/src/recorded.rt

A row is what is asked, the octets of the request, and the reply as text: the code, the operation and the flags, a line for each record with
its section, and one for OPT. Replies are those of knotd, or of the server in `OTHER`: where knotd does not reply at all, clears CD, has one
set of several for ANY, ignores who owns an OPT record, or has another code than nsd, which is followed. The NS records that named and
nsd send beside an answer, and their addresses, are left out. Of a reply with FORMERR or NOTIMP the code and the flags count.
"""

import pathlib
import socket
import subprocess
import tempfile
import time

import dns.message
import dns.name
import dns.rcode
import dns.rdataclass
import dns.rdatatype
import dns.zone

import meanings

ZONE = """$ORIGIN a.test.
$TTL 60
@ 300 SOA ns h 1 2 3 4 30
@ 300 NS ns
@ 300 NS ns.other.test.
@ 300 MX 10 mail
@ 300 MX 20 mail.other.test.
mail A 192.0.2.25
mail AAAA 2001:db8::25
ns A 192.0.2.53
*.w TXT x
alias CNAME one
one CNAME two
two CNAME mail
out CNAME www.other.test.
gone CNAME nothing
into CNAME x.sub
loop CNAME loop
d 30 DNAME t
x.t A 192.0.2.3
y.t CNAME x.d
back CNAME d
z.t CNAME d
sub NS ns.sub
sub NS ns.other.test.
sub DS 1 13 2 abababababababababababababababababababababababababababababababab
ns.sub A 192.0.2.4
ns.sub AAAA 2001:db8::4
_s._tcp SRV 1 2 5060 mail
e.e TXT x
"""
ZONE += "".join(f"big A 10.0.0.{i}\n" for i in range(1, 41))
ZONE += "".join(f"m MX {i} mail{i}.many\n" for i in range(1, 7))
ZONE += "".join(f"mail{i}.many AAAA 2001:db8::{i}\n" for i in range(1, 13))
ZONE += "".join(f"deep NS ns{i}.deep\nns{i}.deep A 10.1.0.{i}\nns{i}.deep AAAA 2001:db8::1:{i}\n" for i in range(1, 9))
ZONE += 'long TXT "' + "x" * 200 + '" "' + "y" * 200 + '"\nlong TXT "' + "z" * 200 + '"\n'
OTHER = {
    "A with CD and AD": "named",
    "A with all flags of a query": "named",
    "ANY": "named",
    "ANY of the apex": "named",
    "IXFR": "nsd",
    "UPDATE": "nsd",
    "octets after": "nsd",
    "OPT with owner": "named",
    "two questions": "named",
    "two questions, EDNS": "named",
    "cut question": "named",
    "cut name": "named",
    "header alone": "named",
    "bad label": "named",
}
FLAGS = ((0x8000, "qr"), (0x400, "aa"), (0x200, "tc"), (0x100, "rd"), (0x80, "ra"), (0x40, "z"), (0x20, "ad"), (0x10, "cd"))
REQUESTS = []


def octets(number, count):
    return number.to_bytes(count, "big")


def wire(name):
    return dns.name.from_text(name).to_wire()


def request(name, kind, record_class=1, flags=0x0100, edns=None, questions=1, extra=b"", more=b"", counts=None):
    """A request. `edns` is its payload size, version and DO; `more` comes after the question, `extra` at the end."""
    question = b"" if name is None else wire(name) + octets(dns.rdatatype.from_text(kind), 2) + octets(record_class, 2)
    opt = b""
    if edns is not None:
        size, version, dnssec_ok = edns
        opt = b"\0" + octets(41, 2) + octets(size, 2) + bytes([0, version]) + octets(0x8000 if dnssec_ok else 0, 2) + b"\0\0"
    counts = counts or (questions, 0, 0, 1 if opt else 0)
    return b"\x12\x34" + octets(flags, 2) + b"".join(octets(it, 2) for it in counts) + question + more + opt + extra


def add(label, *words, **others):
    REQUESTS.append((label, request(*words, **others)))


OPT = (1232, 0, False)
add("A", "mail.a.test.", "A")
add("A without RD", "mail.a.test.", "A", flags=0)
add("A with CD and AD", "mail.a.test.", "A", flags=0x0130)
add("A with all flags of a query", "mail.a.test.", "A", flags=0x07f0)
add("A with EDNS", "mail.a.test.", "A", edns=OPT)
add("A with DO", "mail.a.test.", "A", edns=(4096,0,True))
add("A, mixed case", "mAiL.A.tEsT.", "A", edns=OPT)
add("A, small payload", "big.a.test.", "A", edns=(100,0,False))
add("no data", "mail.a.test.", "MX", edns=OPT)
add("no name", "no.a.test.", "A", edns=OPT)
add("no name, no EDNS", "x.no.a.test.", "A")
add("empty non-terminal", "e.a.test.", "A")
add("wildcard", "x.w.a.test.", "TXT", edns=OPT)
add("wildcard, no data", "x.w.a.test.", "A")
add("wildcard itself", "*.w.a.test.", "TXT")
add("MX", "a.test.", "MX", edns=OPT)
add("SRV", "_s._tcp.a.test.", "SRV", edns=OPT)
add("NS of the apex", "a.test.", "NS", edns=OPT)
add("SOA", "a.test.", "SOA")
add("referral", "x.sub.a.test.", "A", edns=OPT)
add("referral, no EDNS", "sub.a.test.", "NS")
add("DS", "sub.a.test.", "DS", edns=OPT)
add("referral with much glue", "x.deep.a.test.", "A")
add("referral with much glue and EDNS", "x.deep.a.test.", "A", edns=OPT)
add("chain", "alias.a.test.", "A", edns=OPT)
add("chain, no data", "alias.a.test.", "TXT")
add("alias itself", "alias.a.test.", "CNAME")
add("alias out", "out.a.test.", "A")
add("alias to nothing", "gone.a.test.", "A")
add("alias into a delegation", "into.a.test.", "A", edns=OPT)
add("alias to itself", "loop.a.test.", "A")
add("DNAME", "x.d.a.test.", "A", edns=OPT)
add("DNAME itself", "d.a.test.", "DNAME")
add("DNAME twice in a chain", "y.d.a.test.", "A", edns=OPT)
add("DNAME and its owner", "z.d.a.test.", "DNAME")
add("DNAME, no name", "no.d.a.test.", "A")
add("ANY", "mail.a.test.", "ANY", edns=OPT)
add("ANY of the apex", "a.test.", "ANY", edns=OPT)
add("ANY of an alias", "alias.a.test.", "ANY")
add("ANY, no name", "no.a.test.", "ANY")
add("unknown type", "mail.a.test.", "TYPE100")
add("type 128", "mail.a.test.", "TYPE128")
add("OPT asked", "mail.a.test.", "OPT")
add("TSIG asked", "mail.a.test.", "TSIG")
add("RRSIG asked", "mail.a.test.", "RRSIG")
add("truncated", "big.a.test.", "A")
add("not truncated", "big.a.test.", "A", edns=OPT)
add("truncated TXT", "long.a.test.", "TXT")
add("MX with many additionals", "m.a.test.", "MX")
add("MX with many additionals, EDNS", "m.a.test.", "MX", edns=OPT)
add("other zone", "b.test.", "A")
add("other zone with EDNS", "b.test.", "A", edns=OPT)
add("root", ".", "NS")
add("class CH", "a.test.", "A", record_class=3)
add("class NONE", "mail.a.test.", "A", record_class=254, edns=OPT)
add("AXFR", "a.test.", "AXFR")
add("AXFR with EDNS", "a.test.", "AXFR", edns=OPT)
add("IXFR", "a.test.", "IXFR")
add("MAILA", "a.test.", "MAILA")
add("MAILB", "a.test.", "MAILB")
add("AXFR other zone", "b.test.", "AXFR")
add("BADVERS", "mail.a.test.", "A", edns=(1232,1,False))
add("BADVERS DO", "mail.a.test.", "A", edns=(1232,255,True))
add("status", "mail.a.test.", "A", flags=0x1000)
add("IQUERY", "mail.a.test.", "A", flags=0x0800)
add("UPDATE", "a.test.", "SOA", flags=0x2800)
add("no question", None, "A", questions=0)
add("no question with EDNS", None, "A", questions=0, edns=OPT)
q2 = wire("ns.a.test.") + b"\0\1\0\1"
add("two questions", "mail.a.test.", "A", questions=2, more=q2)
add("two questions, EDNS", "mail.a.test.", "A", questions=2, more=q2, edns=OPT)
add("cut question", "mail.a.test.", "A", questions=2)
REQUESTS.append(("cut name", bytes.fromhex("123401000001000000000000046d6169")))
REQUESTS.append(("header alone", bytes.fromhex("123401000001000000000000")))
REQUESTS.append(("short", bytes.fromhex("1234010000010000000000")))
REQUESTS.append(("bad label", bytes.fromhex("12340100000100000000000080610161000001" "0001")))
opt = b"\0\0\x29\x04\xd0\0\0\0\0\0\0"
add("two OPT", "mail.a.test.", "A", edns=OPT, extra=opt, counts=(1,0,0,2))
add("OPT with owner", "mail.a.test.", "A", extra=b"\1a\0\0\x29\x04\xd0\0\0\0\0\0\0", counts=(1,0,0,1))
add("OPT with a cut option", "mail.a.test.", "A", extra=b"\0\0\x29\x04\xd0\0\0\0\0\0\5\0\x0a\0\x08\1", counts=(1,0,0,1))
add("OPT among the answers", "mail.a.test.", "A", extra=opt, counts=(1,1,0,0))
add("missing additional", "mail.a.test.", "A", counts=(1,0,0,1))
add("response", "mail.a.test.", "A", flags=0x8100)
add("octets after", "mail.a.test.", "A", extra=b"xyz")
add("an answer in a query", "mail.a.test.", "A", extra=b"\0\0\x01\0\1\0\0\0\0\0\4\1\2\3\4", counts=(1,1,0,0))



def ask(port, message):
    with socket.socket(socket.AF_INET, socket.SOCK_DGRAM) as asking:
        asking.settimeout(0.5)
        asking.connect(("127.0.0.1", port))
        asking.send(message)
        try:
            return asking.recv(65535)
        except TimeoutError:
            return None


def records_of(reply):
    for section, sets in (("an", reply.answer), ("au", reply.authority), ("ad", reply.additional)):
        for records in sets:
            for record in records:
                yield f"{section} {records.name} {records.ttl} {dns.rdatatype.to_text(records.rdtype)} {record}"


def shown(label, message):
    """A reply as text."""
    if message is None:
        return "none"
    reply = dns.message.from_wire(message)
    code = dns.rcode.to_text(reply.rcode())
    flags = int.from_bytes(message[2:4], "big")
    lines = [" ".join([code, f"op{flags >> 11 & 15}", *(name for bit, name in FLAGS if flags & bit)])]
    records = list(records_of(reply))
    if code in ("FORMERR", "NOTIMP"):
        return lines[0]
    if label in OTHER and all(it.split()[3] == "NS" for it in records if it.startswith("au ")):
        records = [it for it in records if it.startswith("an ")]
    if reply.edns >= 0:
        records.append(f"opt {reply.edns} {reply.payload} {int(reply.ednsflags & 0x8000 != 0)}")
    return "\n".join(lines + records)


def quoted(text):
    return '"' + text.replace("\\", "\\\\").replace('"', '\\"').replace("\n", "\\n\\\n         ") + '"'


def zone_lines():
    """The records of the zone, in canonical order of their owners."""
    zone = dns.zone.from_text(ZONE, origin="a.test.", relativize=False)
    for name in sorted(zone.nodes):
        for records in zone.nodes[name]:
            for record in records:
                yield f"{name} {records.ttl} {dns.rdatatype.to_text(records.rdtype)} {record}"


def main():
    replies = {}
    with tempfile.TemporaryDirectory() as folder:
        pathlib.Path(folder, "a.zone").write_text(ZONE)
        running = []
        for name, command, file, text in meanings.commands(folder):
            pathlib.Path(folder, file).write_text(text)
            running.append(subprocess.Popen(command, stdout=subprocess.DEVNULL, stderr=subprocess.DEVNULL))
        try:
            time.sleep(5)
            for label, message in REQUESTS:
                server = OTHER.get(label, "knotd")
                replies[label] = ask(meanings.PORT + ("named", "knotd", "nsd").index(server), message)
        finally:
            for process in running:
                process.terminate()
                process.wait()
    lines = list(zone_lines())
    print("//! Requests, and what servers replied to them, as `diff/servers/replying.py` writes them.")
    print("\n/// The zone `a.test.`, by its records in canonical order of their owners.")
    print(f"pub(crate) const ZONE: [&str; {len(lines)}] = [")
    for line in lines:
        print(f"    {quoted(line)},")
    print("];\n\n/// What is asked, the octets of the request, and the reply.")
    print(f"pub(crate) const ROWS: [(&str, &str, &str); {len(REQUESTS)}] = [")
    for label, message in REQUESTS:
        print(f"    (\n        {quoted(label)},\n        {quoted(message.hex())},\n        {quoted(shown(label, replies[label]))},\n    ),")
    print("];")


if __name__ == "__main__":
    main()
