"""Compares what an example prints of the replies of name servers with what dig prints of the same octets: dig.py DUMP [EVERY]

DUMP is the words of the command that prints a message. A server on the loopback sends dig the replies of diff/servers/replies.txt,
or every so many-th, one for each question. Both must have the same header, the same line for EDNS, the same questions, and in
sections with the same titles the same records in the same order: owner, type, time to live, and the octets of the data, as
dnspython parses both texts. What dig prints besides is passed over: its warnings, and the options of EDNS, which the examples do
not show.
"""

import pathlib
import re
import shlex
import socket
import subprocess
import sys
import threading

import dns.message
import dns.name
import dns.rdata
import dns.rdataclass
import dns.rdatatype

SERVERS = pathlib.Path(__file__).resolve().parent.parent / "diff" / "servers"
# It adds to dnspython the types that this has no class for.
sys.path.insert(0, str(SERVERS))
import record as _  # noqa: E402, F401

REPLIES = SERVERS / "replies.txt"
WORDS = "+notcp +norecurse +noedns +nocookie +ignore +nocmd +nostats +tries=1 +time=5 +noall +comments +question +answer +authority +additional"


def check(fact, *what):
    if not fact:
        sys.exit(f"dig: failed: {what}"[:4000])


class Server(threading.Thread):
    """Sends the replies one after another, each with the number of the question that it answers."""

    def __init__(self, replies):
        super().__init__(daemon=True)
        self.left, self.sent = list(replies), []
        self.socket = socket.socket(socket.AF_INET, socket.SOCK_DGRAM)
        self.socket.bind(("127.0.0.1", 0))
        self.port = self.socket.getsockname()[1]

    def run(self):
        while self.left:
            query, asking = self.socket.recvfrom(512)
            self.sent.append(query[:2] + self.left.pop(0)[2:])
            self.socket.sendto(self.sent[-1], asking)


def record(line):
    owner, ttl, record_class, kind, text = line.split(None, 4)
    code = dns.rdatatype.from_text(kind)
    data = dns.rdata.from_text(dns.rdataclass.from_text(record_class), code, text)
    return dns.name.from_text(owner), code, int(ttl), data.to_wire()


def shown(text):
    """What a text says of a message: the lines of its header and the titles as they are, and its questions and records."""
    for line in text.splitlines():
        if re.match(r";; (->>HEADER<<-|flags:|OPT PSEUDO|[A-Z]+ SECTION:)|; EDNS:", line):
            yield line
        elif re.match(r";[^; ]", line):
            name, record_class, kind = line.split()
            # by number, since fewer types have a name here
            yield name, record_class, int(dns.rdatatype.from_text(kind))
        elif line and line[0] != ";":
            yield record(line)


def question(reply):
    """What dig is asked for a reply: name, type and code of the operation; for the root's SOA record if the reply has no question."""
    message = dns.message.from_wire(reply)
    name, kind = next(((asked.name, asked.rdtype) for asked in message.question), (".", dns.rdatatype.SOA))
    return f"{name} {dns.rdatatype.to_text(kind)} +opcode={int(message.opcode())}"


def main(dump, every=1):
    replies = [bytes.fromhex(line.split()[1]) for line in REPLIES.read_text().splitlines()[:: int(every)]]
    server = Server(replies)
    server.start()
    asked = "".join(f"{question(reply)}\n" for reply in replies)
    command = ["dig", "@127.0.0.1", "-p", str(server.port), *WORDS.split(), "-f", "-"]
    ran = subprocess.run(command, input=asked, capture_output=True, text=True, timeout=300)
    texts = re.split(r"^;; Got answer:\n", ran.stdout, flags=re.M)[1:]
    check(len(texts) == len(replies) == len(server.sent), len(texts), len(server.sent), ran.stdout[-1000:], ran.stderr[-1000:])
    lines = 0
    for octets, text in zip(server.sent, texts):
        own = subprocess.run(shlex.split(dump), input=octets, capture_output=True)
        ours, theirs = list(shown(own.stdout.decode())), list(shown(text))
        check(ours == theirs, [both for both in zip(ours, theirs) if both[0] != both[1]][:1], octets.hex(), own.stdout, own.stderr, text)
        lines += len(ours)
    print(f"dig: {len(replies)} replies as dig prints them, in {lines} lines")


if __name__ == "__main__":
    if len(sys.argv) not in (2, 3):
        sys.exit(__doc__)
    main(*sys.argv[1:])
