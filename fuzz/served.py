"""The servers that fuzz/servers starts: knotd, nsd and named, each on a port of the loopback of its own, and ended at the end."""

import contextlib
import pathlib
import shutil
import socket
import subprocess
import sys
import time

import dns.exception
import dns.flags
import dns.message
import dns.query

HOST = "127.0.0.1"


def say(text):
    print(f"servers: {text}", flush=True)


def check(fact, *what):
    if not fact:
        sys.exit(f"servers: failed: {what}"[:4000])


def path_of(tool):
    found = shutil.which(tool) or shutil.which(tool, path="/usr/sbin:/sbin")
    check(found, f"{tool} is not installed")
    return found


def free_port():
    """A port that is free for UDP and TCP."""
    while True:
        with socket.socket(socket.AF_INET, socket.SOCK_STREAM) as tcp, socket.socket(socket.AF_INET, socket.SOCK_DGRAM) as udp:
            tcp.bind((HOST, 0))
            with contextlib.suppress(OSError):
                udp.bind(tcp.getsockname())
                return tcp.getsockname()[1]


class Zone:
    """A zone that a server serves: of a file, or of a primary on a port, and whether updates are allowed."""

    def __init__(self, origin, file, primary=None, is_updated=False):
        self.origin, self.file, self.primary, self.is_updated = origin, file, primary, is_updated


def named(room, port, zones):
    """The words that start named. Sets are sent in the order of the zone, so that each response to a question is the same."""
    texts = []
    for zone in zones:
        kind = "type primary;" if zone.primary is None else f"type secondary; primaries {{ {HOST} port {zone.primary}; }}; masterfile-format text;"
        allowed = f"allow-update {{ {HOST}; }};" if zone.is_updated else ""
        texts.append(f'zone "{zone.origin}" {{ {kind} file "{zone.file}"; {allowed} }};')
    (room / "named.conf").write_text(
        f"""options {{
  directory "{room}"; pid-file none; session-keyfile none; listen-on port {port} {{ {HOST}; }}; listen-on-v6 {{ none; }};
  recursion no; dnssec-validation no; check-names primary ignore; check-names secondary ignore; check-integrity no; notify no;
  minimal-responses no; edns-udp-size 4096; max-udp-size 4096; rrset-order {{ order none; }}; allow-transfer {{ any; }};
  request-ixfr no; max-records 0;
}};
controls {{ }};
{chr(10).join(texts)}
"""
    )
    return [path_of("named"), "-g", "-n", "1", "-c", str(room / "named.conf")]


def nsd(room, port, zones):
    texts = []
    for zone in zones:
        more = "" if zone.primary is None else f"  request-xfr: AXFR {HOST}@{zone.primary} NOKEY\n  allow-notify: {HOST} NOKEY\n"
        texts.append(f'zone:\n  name: "{zone.origin}"\n  zonefile: "{zone.file}"\n  provide-xfr: {HOST} NOKEY\n{more}')
    (room / "nsd.conf").write_text(
        f"""server:
  ip-address: {HOST}@{port}
  username: ""
  chroot: ""
  zonesdir: "{room}"
  database: ""
  pidfile: "{room}/nsd.pid"
  xfrdfile: "{room}/xfrd.state"
  zonelistfile: "{room}/zone.list"
  xfrdir: "{room}"
  logfile: "{room}/nsd.log"
  ipv4-edns-size: 4096
  rrl-ratelimit: 0
  server-count: 1
remote-control:
  control-enable: no
{chr(10).join(texts)}
"""
    )
    return [path_of("nsd"), "-d", "-c", str(room / "nsd.conf")]


def knotd(room, port, zones):
    primaries = sorted({zone.primary for zone in zones if zone.primary is not None})
    remotes = "".join(f"  - id: from{it}\n    address: {HOST}@{it}\n" for it in primaries)
    texts = []
    for zone in zones:
        more = "    acl: own\n" if zone.primary is None else f"    acl: own\n    master: from{zone.primary}\n    zonefile-load: none\n"
        texts.append(f"  - domain: {zone.origin}\n    file: {zone.file}\n    semantic-checks: off\n    journal-content: none\n{more}")
    (room / "knot.conf").write_text(
        f"""server:
    rundir: {room}
    listen: {HOST}@{port}
    udp-max-payload: 4096
    udp-workers: 1
    tcp-workers: 1
    background-workers: 1
log:
  - target: stderr
    any: info
database:
    storage: {room}/knot
acl:
  - id: own
    address: {HOST}
    action: [transfer, notify]
{"remote:" if remotes else ""}
{remotes}
template:
  - id: default
    storage: {room}
zone:
{"".join(texts)}"""
    )
    return [path_of("knotd"), "-c", str(room / "knot.conf")]


SERVERS = {"knotd": knotd, "nsd": nsd, "named": named}


def answers(port, origin):
    """Whether a server has a zone."""
    with contextlib.suppress(OSError, dns.exception.DNSException):
        reply = dns.query.udp(dns.message.make_query(origin, "SOA"), HOST, port=port, timeout=0.5)
        return bool(reply.answer) and bool(reply.flags & dns.flags.AA)
    return False


class Server:
    """A server that runs in a folder until it is closed, and what asks it by octets over UDP or TCP."""

    def __init__(self, tool, room, zones, seconds=60):
        self.tool, self.room, self.zones = tool, pathlib.Path(room), zones
        self.process = self.udp = self.tcp = None
        self.room.mkdir(parents=True, exist_ok=True)
        self.start(seconds)

    def __enter__(self):
        return self

    def __exit__(self, *failure):
        self.close()

    def start(self, seconds=60):
        """Starts it, or starts it again, and waits until it has its zones."""
        self.close()
        self.port = free_port()
        with open(self.room / "said", "w", encoding="utf-8") as said:
            words = SERVERS[self.tool](self.room, self.port, self.zones)
            self.process = subprocess.Popen(words, stdout=said, stderr=subprocess.STDOUT)
        end = time.monotonic() + seconds
        while not all(answers(self.port, zone.origin) for zone in self.zones):
            if self.process.poll() is not None or time.monotonic() > end:
                self.close()
                check(False, self.tool, "does not answer", (self.room / "said").read_text()[-2000:])
            time.sleep(0.1)
        self.udp = socket.socket(socket.AF_INET, socket.SOCK_DGRAM)
        self.udp.setsockopt(socket.SOL_SOCKET, socket.SO_RCVBUF, 1 << 20)
        self.udp.connect((HOST, self.port))

    def close(self):
        for end in (self.udp, self.tcp):
            if end is not None:
                end.close()
        self.udp = self.tcp = None
        if self.process is not None:
            self.process.terminate()
            with contextlib.suppress(subprocess.TimeoutExpired):
                self.process.wait(5)
            self.process.kill()
            self.process.wait()
            self.process = None

    def over_udp(self, queries, seconds=2.0):
        """The responses to queries over UDP, in their order, with the ids of the queries; None for one that does not come. Up to 64
        queries are sent before the responses are read, each with an id of its own."""
        found = [None] * len(queries)
        for _ in range(3):
            left = [at for at, got in enumerate(found) if got is None]
            for start in range(0, len(left), 64):
                for at, got in self.exchange({at: queries[at] for at in left[start : start + 64]}, seconds).items():
                    found[at] = queries[at][:2] + got[2:]
        return found

    def exchange(self, queries, seconds):
        """Sends queries over UDP with their numbers as ids, and returns the responses that come, by their numbers. One to an earlier
        question may come late: the question has to be the same, which ends before the OPT record of 11 octets."""
        for at, query in queries.items():
            self.udp.send(at.to_bytes(2, "big") + query[2:])
        found, end = {}, time.monotonic() + seconds
        with contextlib.suppress(TimeoutError):
            while len(found) < len(queries):
                self.udp.settimeout(max(0.01, end - time.monotonic()))
                got = self.udp.recv(65535)
                at = int.from_bytes(got[:2], "big")
                if at in queries and got[12 : len(queries[at]) - 11] == queries[at][12:-11]:
                    found[at] = got
        return found

    def over_tcp(self, query):
        """The response over TCP. The connection is kept, and made again once if the server has closed it."""
        for is_last in (False, True):
            try:
                if self.tcp is None:
                    self.tcp = socket.create_connection((HOST, self.port), timeout=10)
                send_framed(self.tcp, query)
                return receive_framed(self.tcp)
            except OSError as error:
                self.tcp = None
                check(not is_last, self.tool, "no response over TCP", query.hex(), error)


def send_framed(stream, message):
    stream.sendall(len(message).to_bytes(2, "big") + message)


def receive_framed(stream):
    """The next message of a stream. It raises OSError if the other side has ended it."""
    return receive(stream, int.from_bytes(receive(stream, 2), "big"))


def receive(stream, size):
    got = b""
    while len(got) < size:
        more = stream.recv(size - len(got))
        if not more:
            raise OSError("the stream has ended")
        got += more
    return got
