"""Lets real clients ask the example server, and the example resolver ask real servers: network.py NAMES SERVE RESOLVE

SERVE and RESOLVE are the words of the commands that start the two programs. A zone of so many names, with random records, is
served on the loopback. dig, kdig and dnspython ask for each name: without EDNS, and with EDNS for 512 and for 1,232 octets. Each
reply has no more octets than were asked for; it has TC if and only if records of the answer are missing; and with TC the client
asks again over TCP, and then has all of them. nsd and named serve the same zone to the example resolver, which has to print the
same records. Without one of the clients or servers a line says that it was skipped.
"""

import contextlib
import pathlib
import random
import re
import shlex
import shutil
import socket
import subprocess
import sys
import tempfile
import time

import dns.exception
import dns.flags
import dns.message
import dns.name
import dns.query
import dns.rcode
import dns.rdata
import dns.rdataclass
import dns.rdatatype
import dns.version

ORIGIN = dns.name.from_text("example.")
SOA = "example. 3600 IN SOA ns.example. hostmaster.example. 1 7200 3600 1209600 300"
HEAD = [SOA, "example. 3600 IN NS ns.example.", "ns.example. 3600 IN A 127.0.0.1"]
LABELS = ["www", "mail", "a", "b", "long-label-of-a-name", "x" * 58, "_tcp", "1"]
# What is asked for: no EDNS, and EDNS with a size; and how many octets a reply then has at most.
SIZES = [(None, 512), (512, 512), (1232, 1232)]


def say(text):
    print(f"network: {text}", flush=True)


def check(fact, *what):
    if not fact:
        sys.exit(f"network: failed: {what}"[:4000])


def is_there(tool):
    found = shutil.which(tool) or shutil.which(tool, path="/usr/sbin:/sbin")
    if not found:
        say(f"skipped, since {tool} is not installed: what it asks or answers")
    return found


def random_data():
    """The type of a set of records, and the texts of their data."""
    kind = random.choice(["A", "AAAA", "MX", "TXT", "SRV", "CAA", "PTR", "TYPE65280"])
    # Not more of texts, since a response has at most 65,535 octets.
    count = random.choice([1, 1, 2, 3, 20, 20 if kind == "TXT" else 60])
    texts = {
        "A": lambda: f"192.0.{random.randrange(256)}.{random.randrange(256)}",
        "AAAA": lambda: f"2001:db8::{random.randrange(65536):x}",
        "MX": lambda: f"{random.randrange(65536)} {random.choice(LABELS)}.example.",
        "TXT": lambda: " ".join(f'"{"t" * random.randrange(1, 200)}{i}"' for i in range(random.choice([1, 2, 6]))),
        "SRV": lambda: f"{random.randrange(9)} {random.randrange(65536)} 53 {random.choice(LABELS)}.example.",
        "CAA": lambda: f'0 issue "ca{random.randrange(9999)}.example.net"',
        "PTR": lambda: f"{random.choice(LABELS)}{random.randrange(99)}.example.",
        "TYPE65280": lambda: f"\\# 4 {random.randrange(2**32):08x}",
    }[kind]
    return kind, sorted({texts() for _ in range(count)})


def random_zone(count):
    """The lines of a zone, and the names and types to ask for, with some that are not there."""
    lines, asked, names = list(HEAD), [], set()
    while len(names) < count:
        labels = [random.choice(LABELS) for _ in range(random.randrange(3))]
        name = ".".join([f"n{len(names)}", *labels, "example."])
        names.add(name)
        kind, texts = ("CNAME", ["ns.example."]) if random.random() < 0.05 else random_data()
        lines += [f"{name} {random.randrange(1, 9999)} IN {kind} {text}" for text in texts]
        # The records of a set have one time to live (RFC 2181, section 5.2).
        ttl = lines[-len(texts)].split(" ")[1]
        lines[-len(texts) :] = [re.sub(r" \d+ ", f" {ttl} ", line, count=1) for line in lines[-len(texts) :]]
        asked.append((name, kind) if random.random() > 0.1 else (f"not.{name}", kind))
    return lines, asked


def record(line):
    """A line as its owner, type, time to live, and the octets of its data."""
    owner, ttl, _, kind, text = line.split(None, 4)
    code = dns.rdatatype.from_text(kind)
    data = dns.rdata.from_text(dns.rdataclass.IN, code, text)
    return dns.name.from_text(owner), code, int(ttl), data.to_wire()


def wanted(lines, asked):
    """The response code and the records for each question."""
    table = {}
    for line in lines:
        own = record(line)
        table.setdefault(own[:2], set()).add(own)
    found = [table.get((dns.name.from_text(name), dns.rdatatype.from_text(kind)), set()) for name, kind in asked]
    return [("NOERROR" if records else "NXDOMAIN", records) for records in found]


@contextlib.contextmanager
def running(command, **how):
    with subprocess.Popen(command, stdout=subprocess.PIPE, stderr=subprocess.STDOUT, text=True, **how) as ran:
        try:
            yield ran
        finally:
            ran.terminate()


def check_reply(how, question, answer, reply, most):
    """A reply without TC has all records; with TC it lacks some."""
    status, records, size = reply
    rcode, all_records = answer
    check(status[0] == rcode, how, question, status)
    check(size <= most, how, question, "octets", size)
    check(records <= all_records, how, question, "other records")
    is_cut = "tc" in status[1].split()
    check(is_cut == (len(records) < len(all_records)), how, question, "TC", is_cut, len(records), len(all_records))
    return is_cut


def blocks(output):
    """The replies that dig or kdig printed: status, flags, records and octets."""
    for block in output.split("->>HEADER<<-")[1:]:
        status, flags = re.search(r"status: (\w+)", block)[1], re.search(r"[Ff]lags: ([a-z ]*);", block)[1]
        lines = [line for line in block.split("\n")[1:] if line and not line.startswith(";")]
        size = re.search(r"(?:MSG SIZE  rcvd: |Received )(\d+)", block)
        yield (status, flags), {record(line) for line in lines}, int(size[1]) if size else 0


def check_client(tool, port, asked, answers):
    """dig or kdig, by the records that it prints."""
    path = is_there(tool)
    if not path:
        return
    shown = ["+noall", "+answer", "+comments", "+stats"] if tool == "dig" else ["+noall", "+answer", "+header", "+stats"]
    for edns, most in SIZES:
        how = "without EDNS" if edns is None else f"with EDNS and {edns} octets"
        cut = [
            sum(check_reply(f"{tool} {how}", *row, limit) for row in rows(tool, path, port, asked, answers, edns, ending))
            for ending, limit in ((["+ignore"], most), ([], 65535))
        ]
        check(cut[1] == 0, tool, how, "TC over TCP", cut[1])
        say(f"{tool}, {how}: {len(asked)} names, {cut[0]} cut, of which it has all records over TCP")


def rows(tool, path, port, asked, answers, edns, ending):
    """Each question, what is wanted, and the reply that dig or kdig printed."""
    shown = ["+noall", "+answer", "+comments", "+stats"] if tool == "dig" else ["+noall", "+answer", "+header", "+stats"]
    options = ["+noedns"] if edns is None else [f"+bufsize={edns}"]
    # without what dig would put into a query by itself
    options += ["+nocookie", "+nocmd", "+tries=2"] if tool == "dig" else ["+retry=2"]
    command = [path, "@127.0.0.1", "-p", str(port), *shown, *options, *ending]
    if tool == "dig":
        batch = "\n".join(f"{name} {kind}" for name, kind in asked) + "\n"
        ran = subprocess.run([*command, "-f", "-"], input=batch, capture_output=True, text=True)
    else:
        words = [word for question in asked for word in question]
        ran = subprocess.run([*command, *words], capture_output=True, text=True)
    replies = list(blocks(ran.stdout))
    check(len(replies) == len(asked), tool, edns, len(replies), ran.stdout[-500:], ran.stderr[-500:])
    return zip(asked, answers, replies)


def check_dnspython(port, asked, answers):
    """dnspython, which reads all octets of each reply."""
    for edns, most in SIZES:
        for (name, kind), answer in zip(asked, answers):
            query = dns.message.make_query(name, kind, use_edns=-1 if edns is None else 0, payload=edns)
            for over, limit in ((dns.query.udp, most), (dns.query.tcp, 65535)):
                reply = over(query, "127.0.0.1", port=port, timeout=5, one_rr_per_rrset=True)
                check((reply.edns >= 0) == (edns is not None), "dnspython", name, "EDNS")
                found = {(rrset.name, rrset.rdtype, rrset.ttl, rrset[0].to_wire()) for rrset in reply.answer}
                flags = "tc" if reply.flags & dns.flags.TC else ""
                check(reply.flags & dns.flags.AA, "dnspython", name, "AA")
                status = dns.rcode.to_text(reply.rcode()), flags
                is_cut = check_reply("dnspython", (name, kind), answer, (status, found, 0), limit)
                check(over is dns.query.udp or not is_cut, "dnspython", name, "TC over TCP")
                check(bool(answer[1]) or [rrset.rdtype for rrset in reply.authority] == [dns.rdatatype.SOA], name, "SOA")
    say(f"dnspython {dns.version.version} reads all {2 * len(SIZES) * len(asked)} replies, over UDP and TCP")


def free_port():
    with socket.socket(socket.AF_INET, socket.SOCK_STREAM) as found:
        found.bind(("127.0.0.1", 0))
        return found.getsockname()[1]


def nsd(room, port):
    (room / "nsd.conf").write_text(
        f"""server:
  ip-address: 127.0.0.1@{port}
  username: ""
  chroot: ""
  zonesdir: "{room}"
  database: ""
  pidfile: "{room}/nsd.pid"
  xfrdfile: "{room}/xfrd.state"
  zonelistfile: "{room}/zone.list"
  xfrdir: "{room}"
  logfile: "{room}/nsd.log"
  rrl-ratelimit: 0
remote-control:
  control-enable: no
zone:
  name: "example."
  zonefile: "zone"
"""
    )
    return ["-d", "-c", str(room / "nsd.conf")]


def named(room, port):
    (room / "named.conf").write_text(
        f"""options {{
  directory "{room}"; pid-file none; session-keyfile none; listen-on port {port} {{ 127.0.0.1; }}; listen-on-v6 {{ none; }};
  recursion no; dnssec-validation no; check-names primary ignore; check-integrity no;
}};
controls {{ }};
zone "example." {{ type primary; file "zone"; }};
"""
    )
    return ["-g", "-c", str(room / "named.conf")]


def is_up(port):
    query = dns.message.make_query("example.", "SOA")
    for _ in range(100):
        with contextlib.suppress(OSError, dns.exception.DNSException):
            if dns.query.udp(query, "127.0.0.1", port=port, timeout=0.5).answer:
                return True
        time.sleep(0.1)
    return False


def check_server(tool, settings, resolve, lines, asked, answers):
    """A real server, by what the example resolver prints of its answers."""
    path = is_there(tool)
    if not path:
        return
    with tempfile.TemporaryDirectory(prefix="network-") as folder:
        room, port = pathlib.Path(folder), free_port()
        (room / "zone").write_text("\n".join(lines) + "\n")
        with running([path, *settings(room, port)]) as server:
            check(is_up(port), tool, "does not answer", server.poll())
            for (name, kind), (rcode, records) in zip(asked, answers):
                ran = subprocess.run([*resolve, "127.0.0.1", str(port), name, kind], capture_output=True, text=True)
                check(ran.returncode == 0, tool, name, kind, ran.stderr)
                first, *rest = ran.stdout.splitlines()
                check(first == f";; rcode: {int(dns.rcode.from_text(rcode))}", tool, name, kind, first)
                check({record(line) for line in rest} == records, tool, name, kind, "other records")
    say(f"{tool} answers the resolver: {len(asked)} names, all records")


def main(count, serve, resolve):
    random.seed(1035)
    lines, asked = random_zone(int(count))
    answers = wanted(lines, asked)
    with tempfile.NamedTemporaryFile("w", suffix=".records") as file:
        file.write("\n".join(lines) + "\n")
        file.flush()
        with running([*shlex.split(serve), "0", file.name]) as server:
            first = server.stdout.readline()
            port = re.fullmatch(r"serving on port (\d+)\n", first)
            check(port, "the server does not start", first)
            port = int(port[1])
            check_dnspython(port, asked, answers)
            for tool in ("dig", "kdig"):
                check_client(tool, port, asked, answers)
    for tool, settings in (("nsd", nsd), ("named", named)):
        check_server(tool, settings, shlex.split(resolve), lines, asked, answers)


if __name__ == "__main__":
    if len(sys.argv) != 4:
        sys.exit(__doc__)
    main(*sys.argv[1:])
