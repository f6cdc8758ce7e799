#!/usr/bin/env python3
"""Records what name servers reply over the loopback, and what dnspython reads in it: the lines of diff/servers/replies.txt.

    apt-get install bind9 bind9-dnsutils nsd knot pdns-server pdns-backend-bind python3-dnspython
    /usr/bin/python3 diff/servers/record.py [--texts]

BIND, Knot, NSD and PowerDNS serve example.zone: BIND signed with NSEC by dnssec-signzone, Knot and NSD signed with NSEC3 by Knot,
and PowerDNS not signed. The keys are made for one run. Each is asked for each owner and type of the zone, with and without EDNS,
and for what makes replies of other shapes: names that do not exist, a delegation, aliases, replies that are cut, options, a zone
that cannot be read, and what they refuse. A server that does not serve the zone ends the run.

Types that a server has no name for are in its copy by their numbers (UNNAMED). BIND refuses MD and MF (obsolete types) by name and
by number, so its copy has none. The others refuse nothing.

A line is SERVER HEX, and then the text that dnspython gives the message, in the layout of `dig`, with | for the end of a line.
With --texts no server is started: the replies that are there get their texts again.
"""

import pathlib
import re
import socket
import subprocess
import sys
import tempfile
import time
import types

import dns.edns
import dns.message
import dns.name
import dns.opcode
import dns.rcode
import dns.rdata
import dns.rdatatype
import dns.rdtypes.ANY.DNSKEY
import dns.rdtypes.ANY.NS
import dns.rdtypes.ANY.RP
import dns.rdtypes.ANY.RRSIG

HERE = pathlib.Path(__file__).resolve().parent
sys.path.insert(0, str(HERE.parent.parent / "examples" / "responses"))
import make  # noqa: E402

PORT = 5300
ORIGIN = dns.name.from_text("example.")
# Types that dnspython has no class for, and the types with the same fields and text that it has one for (RFC 1035, section 3.3, and
# RFC 2535, sections 3.1 and 4.1).
LIKE = {
    **dict.fromkeys(("MD", "MF", "MB", "MG", "MR"), dns.rdtypes.ANY.NS.NS),
    "MINFO": dns.rdtypes.ANY.RP.RP,
    "SIG": dns.rdtypes.ANY.RRSIG.RRSIG,
    "KEY": dns.rdtypes.ANY.DNSKEY.DNSKEY,
}
for like, known in LIKE.items():
    dns.rdata.register_type(types.SimpleNamespace(**{like: known}), dns.rdatatype.from_text(like), like)

# The types that a server has no name for, and those that it refuses. NSD serves what Knot writes.
UNNAMED = {"bind": set(), "knot": {"HIP", "MB", "MD", "MF", "MG", "MR", "NULL", "SIG"}, "powerdns": {"HIP", "MD", "MF", "NULL", "SIG"}}
REFUSED = {"bind": {"MD", "MF"}, "knot": set(), "powerdns": set()}

# The types whose data have a text of their own here. Those of the others are shown as RFC 3597 does.
TEXTS = set("""A NS MD MF CNAME SOA MB MG MR PTR HINFO MINFO MX TXT RP AFSDB RT PX SIG KEY AAAA SRV NAPTR KX CERT DNAME DS SSHFP
    RRSIG DNSKEY NSEC3PARAM TLSA SMIMEA CDS CDNSKEY OPENPGPKEY ZONEMD SPF URI CAA NSEC NSEC3 CSYNC EUI48 EUI64 SVCB HTTPS IPSECKEY HIP LOC APL NID L64
    NSAP WKS""".split())

# Those whose letters are hexadecimal digits, which dnspython has in lower case.
HEXADECIMAL = {"DS", "CDS", "SSHFP", "TLSA", "SMIMEA", "ZONEMD", "NSEC3PARAM"}

# How many words are before the types of a bitmap. The salt and the hashed name of NSEC3 are the fourth and the fifth.
BEFORE_TYPES = {"NSEC": 1, "NSEC3": 5, "CSYNC": 2}
# The types that have a name here, as the C header has them.
HEADER = HERE.parent.parent / "include" / "dns_names_wire.h"
NAMED = {int(code) for code in re.findall(r"DNW_TYPE_\w+ = (\d+)", HEADER.read_text())}


def type_text(kind):
    """The name of a type, if it has one here."""
    return dns.rdatatype.to_text(kind) if kind in NAMED else f"TYPE{int(kind)}"


def data_text(record):
    """The text of data as dnspython has it, in one piece, and those of a CERT as numbers."""
    kind = dns.rdatatype.to_text(record.rdtype)
    if kind in BEFORE_TYPES:
        words = record.to_text().split()
        before, types = words[: BEFORE_TYPES[kind]], words[BEFORE_TYPES[kind] :]
        before[3:] = [word.upper() for word in before[3:]]
        return " ".join([*before, *(type_text(dns.rdatatype.from_text(word)) for word in types)])
    if kind in ("RRSIG", "SIG"):
        return " ".join([type_text(record.type_covered), *record.to_text(chunksize=0).split()[1:]])
    if kind == "CERT":
        numbers = (record.certificate_type, record.key_tag, record.algorithm)
        return " ".join([*(str(int(number)) for number in numbers), record.to_text(chunksize=0).split()[-1]])
    if kind == "LOC":
        # dnspython leaves out the sizes that RFC 1876, section 3, has by default; BIND, as here, shows all, and no zeros of whole metres
        words = record.to_text().split()
        sizes = words[9:] or ["1.00m", "10000.00m", "10.00m"]
        return " ".join([*words[:9], *(re.sub(r"^([1-9]\d*)\.00m$", r"\1m", size) for size in sizes)])
    if kind == "HIP":
        algorithm, tag, rest = record.to_text().split(" ", 2)
        return " ".join([algorithm, tag.upper(), rest])
    if kind in ("OPENPGPKEY", "EUI48", "EUI64"):
        return record.to_text()
    if kind in ("SVCB", "HTTPS"):
        # dnspython has quotes around each value; BIND, as here, around those of any octets alone
        return re.sub(r'\b(mandatory|port|ipv[46]hint|ech)="([^"]*)"', r"\1=\2", record.to_text())
    if kind in ("APL", "NID", "L64", "NSAP"):
        # of the octets: dnspython keeps the words of a text that it parsed
        octets = record.to_wire()
        return dns.rdata.from_wire(record.rdclass, record.rdtype, octets, 0, len(octets)).to_text() or "\\# 0"
    if kind in TEXTS and not isinstance(record, dns.rdata.GenericRdata):
        text = record.to_text(chunksize=0)
        return text.upper() if kind in HEXADECIMAL else text
    octets = record.to_wire()
    return f"\\# {len(octets)} {octets.hex().upper()}".rstrip()


def records():
    """The lines of the zone that are records: the owner, the type and the data of each."""
    lines = (HERE / "example.zone").read_text().split("\n")
    return [line.split(maxsplit=2) for line in lines if line and line[0] not in ";$"]


def by_number(kind, data):
    """A record's type and data as RFC 3597, section 5, writes any data."""
    number = dns.rdatatype.from_text(kind)
    octets = dns.rdata.from_text("IN", number, data, origin=ORIGIN, relativize=False).to_wire()
    return f"TYPE{int(number)} \\# {len(octets)} {octets.hex()}"


def copy_for(server):
    """The zone as this server takes it."""
    yield "$ORIGIN example."
    yield "$TTL 3600"
    for owner, kind, data in records():
        if kind not in REFUSED[server]:
            yield f"{owner} {by_number(kind, data) if kind in UNNAMED[server] else f'{kind} {data}'}"


def sign(folder):
    """Signs BIND's copy."""
    key = ["dnssec-keygen", "-K", folder, "-a", "ECDSAP256SHA256"]
    for words in ([*key, "example."], [*key, "-f", "KSK", "example."]):
        subprocess.run(words, check=True, capture_output=True)
    words = ["dnssec-signzone", "-S", "-K", folder, "-d", folder, "-o", "example.", "-f", f"{folder}/signed.zone"]
    subprocess.run([*words, "-s", "20261101000000", "-e", "20361101000000", f"{folder}/bind.zone"], check=True, capture_output=True)


def commands(folder):
    """How each server is started: its name, its configuration, and its words. No file has the zone `broken`."""
    yield "bind", "named.conf", ["named", "-f", "-c", f"{folder}/named.conf"], (
        f'options {{ directory "{folder}"; listen-on port {PORT} {{ 127.0.0.1; }}; listen-on-v6 {{ none; }}; recursion no; '
        f'pid-file none; session-keyfile none; dnssec-validation no; minimal-responses no; server-id "one"; }}; controls {{ }};\n'
        f'zone "example" {{ type primary; file "{folder}/signed.zone"; check-names ignore; }};\n'
        f'zone "broken" {{ type primary; file "{folder}/broken.zone"; }};\n'
    )
    yield "knot", "knot.conf", ["knotd", "-c", f"{folder}/knot.conf"], (
        f'server:\n  rundir: "{folder}"\n  listen: 127.0.0.1@{PORT + 1}\n  nsid: two\ndatabase:\n  storage: "{folder}/knot"\n'
        "policy:\n  - id: nsec3\n    nsec3: on\n    nsec3-opt-out: on\n    nsec3-iterations: 5\n    nsec3-salt-length: 4\n"
        f'zone:\n  - domain: example\n    file: "{folder}/knot.zone"\n    dnssec-signing: on\n    dnssec-policy: nsec3\n'
        f'  - domain: broken\n    file: "{folder}/broken.zone"\n'
    )
    yield "nsd", "nsd.conf", ["nsd", "-d", "-c", f"{folder}/nsd.conf"], (
        f'server:\n ip-address: 127.0.0.1@{PORT + 2}\n username: ""\n zonesdir: "{folder}"\n database: ""\n pidfile: "{folder}/nsd.pid"\n'
        f' logfile: "{folder}/nsd.log"\n xfrdfile: "{folder}/xfrd"\n zonelistfile: "{folder}/zones"\n server-count: 1\n minimal-responses: no\n'
        f' nsid: "ascii_three"\nremote-control:\n control-enable: no\nzone:\n name: "example"\n zonefile: "knot.zone"\n'
        'zone:\n name: "broken"\n zonefile: "broken.zone"\n'
    )
    bind = f"--bind-config={folder}/pdns.zones"
    words = ["--no-config", "--launch=bind", bind, "--local-address=127.0.0.1", f"--local-port={PORT + 3}", f"--socket-dir={folder}"]
    yield "powerdns", "pdns.zones", ["pdns_server", *words, "--guardian=no", "--daemon=no", "--server-id=four", "--dname-processing=yes"], (
        f'options {{ directory "{folder}"; }};\nzone "example" {{ type native; file "{folder}/powerdns.zone"; }};\n'
        f'zone "broken" {{ type native; file "{folder}/broken.zone"; }};\n'
    )


def questions():
    """What the servers are asked: a name, a type, and what dnspython's `make_query` takes besides."""
    with_edns = {"use_edns": 0, "payload": 1232}
    for owner, kind in dict.fromkeys((owner, kind) for owner, kind, _ in records()):
        yield "example." if owner == "@" else f"{owner}.example.", kind, with_edns
    for name in ("example.", "a.example.", "cname.example."):
        yield name, "ANY", {}
    yield "example.", "SOA", {**with_edns, "want_dnssec": True}
    yield "example.", "DNSKEY", {**with_edns, "want_dnssec": True}
    yield "example.", "NSEC3PARAM", with_edns
    yield "example.", "SOA", {**with_edns, "options": [dns.edns.GenericOption(3, b""), dns.edns.GenericOption(10, bytes(range(8)))]}
    yield "nothing.example.", "A", {}
    yield "nothing.example.", "A", {**with_edns, "want_dnssec": True}
    yield "a.example.", "MX", {**with_edns, "want_dnssec": True}
    yield "x.sub.example.", "A", {}
    yield "x.sub.example.", "A", {**with_edns, "want_dnssec": True}
    yield "cname.example.", "A", {}
    yield "y.z.old.example.", "TXT", with_edns
    yield "q.wild.example.", "TXT", {}
    yield "q.wild.example.", "TXT", {**with_edns, "want_dnssec": True}
    yield "null.example.", "NULL", {**with_edns, "want_dnssec": True}
    yield "rp.example.", "RP", {**with_edns, "want_dnssec": True}
    yield "big.example.", "TXT", {}
    yield "A.eXaMPle.", "a", {}
    yield "elsewhere.net.", "A", {}
    yield "broken.", "SOA", with_edns


def ask(port, query):
    with socket.socket(socket.AF_INET, socket.SOCK_DGRAM) as asking:
        asking.settimeout(2)
        asking.sendto(query, ("127.0.0.1", port))
        return asking.recv(65535)


def replies(port):
    """The replies of a server, in the order of the questions."""
    for number, (name, kind, words) in enumerate(questions(), 1):
        query = dns.message.make_query(name, kind, **words)
        query.id = number
        try:
            yield ask(port, query.to_wire())
        except socket.timeout:
            print(f"no reply: {name} {kind}", file=sys.stderr)
    other = dns.message.make_query("example.", "SOA")
    other.id = 0xFFFF
    other.set_opcode(dns.opcode.STATUS)
    for query in (other.to_wire(), other.to_wire()[:16]):
        try:
            yield ask(port, query)
        except socket.timeout:
            print("no reply to what is no query", file=sys.stderr)


def in_spaces(line):
    """A line of a record with a space between its parts, as zone files are printed; any other line as it is."""
    return line if line.startswith(";") else line.replace("\t", " ")


def listing(reply):
    """The text of a message, with what EDNS says before the questions, as `dig` has it."""
    lines = [in_spaces(line) for line in make.text_of(reply, data_text, type_text).rstrip().split("\n")]
    if not lines[-1].startswith("; EDNS: "):
        return "\n".join(lines)
    *lines, edns = lines
    if lines[-1] == ";; ADDITIONAL SECTION:":
        del lines[-2:]
    at = lines.index("") if "" in lines else len(lines)
    shown = [f"; {shown_option(it)}" for it in dns.message.from_wire(reply).options]
    # No empty line stands between what EDNS says and the questions.
    follows = lines[at + 1 :] if lines[at + 1 : at + 2] == [";; QUESTION SECTION:"] else lines[at:]
    return "\n".join([*lines[:at], "", ";; OPT PSEUDOSECTION:", edns, *shown, *follows])


def shown_option(option):
    """An option as dig of BIND 9.18 shows it: those that the servers here send."""
    octets = option.to_wire()
    if option.otype == dns.edns.OptionType.NSID:
        return f'NSID: {octets.hex(" ")} ("{octets.decode("ascii")}")'
    if option.otype == dns.edns.OptionType.COOKIE:
        return f"COOKIE: {octets.hex()}"
    if option.otype == dns.edns.OptionType.EDE:
        name = dns.edns.EDECode(option.code).name.replace("_", " ").title()
        return f"EDE: {int(option.code)} ({name})" + (f": ({option.text})" if option.text else "")
    return f"OPT={int(option.otype)}: {octets.hex(' ')}"


def line_of(server, reply):
    return f"{server} {reply.hex()} {listing(reply).replace(chr(10), '|')}"


def recorded():
    """The lines of the replies that are there."""
    for line in (HERE / "replies.txt").read_text().splitlines():
        server, digits, _ = line.split(" ", 2)
        yield line_of(server, bytes.fromhex(digits))


def serves(running, port):
    """Whether a server that was just started has the zone within a minute."""
    query = dns.message.make_query("example.", "SOA").to_wire()
    end = time.monotonic() + 60
    while running.poll() is None and time.monotonic() < end:
        time.sleep(0.5)
        try:
            if dns.message.from_wire(ask(port, query)).rcode() == dns.rcode.NOERROR:
                return True
        except OSError:
            pass
    return False


def served():
    """The lines of what the servers reply."""
    with tempfile.TemporaryDirectory() as folder:
        for server in UNNAMED:
            pathlib.Path(folder, f"{server}.zone").write_text("\n".join([*copy_for(server), ""]))
        pathlib.Path(folder, "knot").mkdir()
        sign(folder)
        for at, (server, file, words, text) in enumerate(commands(folder)):
            pathlib.Path(folder, file).write_text(text)
            with open(f"{folder}/{server}.log", "w") as log, subprocess.Popen(words, stdout=log, stderr=log) as running:
                try:
                    if not serves(running, PORT + at):
                        sys.exit(f"{server} does not serve the zone: {pathlib.Path(log.name).read_text()[-500:]}")
                    for reply in replies(PORT + at):
                        yield line_of(server, reply)
                finally:
                    running.kill()


def main():
    lines = list(recorded() if "--texts" in sys.argv[1:] else served())
    (HERE / "replies.txt").write_text("\n".join(lines) + "\n")
    print(f"{len(lines)} replies")


if __name__ == "__main__":
    main()
