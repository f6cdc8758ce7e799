"""Lets delv validate responses of the library, of which a small server gives it one at a time."""

import collections
import concurrent.futures
import queue
import re
import socket
import subprocess
import threading

import dns.flags
import dns.message

from served import HOST, free_port, path_of, receive_framed, say, send_framed

WORKERS = 4


class Replay:
    """A server on a port of its own, which gives one response to one question, and what another server gives to all others: over TCP,
    to which it sends those who ask by UDP."""

    def __init__(self, forward):
        self.forward, self.question, self.octets = forward, None, b""
        self.port = free_port()
        self.listener = socket.create_server((HOST, self.port))
        self.udp = socket.socket(socket.AF_INET, socket.SOCK_DGRAM)
        self.udp.bind((HOST, self.port))
        threading.Thread(target=self.serve, daemon=True).start()
        threading.Thread(target=self.serve_udp, daemon=True).start()

    def serve(self):
        while True:
            stream, _ = self.listener.accept()
            threading.Thread(target=self.talk, args=(stream,), daemon=True).start()

    def serve_udp(self):
        while True:
            query, client = self.udp.recvfrom(65535)
            reply = dns.message.make_response(dns.message.from_wire(query))
            reply.flags |= dns.flags.TC
            self.udp.sendto(reply.to_wire(), client)

    def talk(self, stream):
        try:
            with stream:
                while True:
                    query = receive_framed(stream)
                    own = question_of(query) == self.question
                    octets = self.octets if own else self.forward(query)
                    send_framed(stream, query[:2] + octets[2:])
        except OSError:
            return


def question_of(octets):
    """The name without case, and the type."""
    asked = dns.message.from_wire(octets, question_only=True).question[0]
    return asked.name.canonicalize(), asked.rdtype


class Delv:
    """delv with the keys of the zones as its anchors."""

    def __init__(self, room, keys, server):
        self.known, self.lock, self.server, self.anchors = {}, threading.Lock(), server, {}
        for origin, text in keys.items():
            flags, protocol, algorithm, key = text.split(None, 3)
            self.anchors[origin] = room / f"{origin}anchor"
            quoted = "".join(key.split())
            self.anchors[origin].write_text(f'trust-anchors {{ "{origin}" static-key {flags} {protocol} {algorithm} "{quoted}"; }};\n')
        self.free = queue.Queue()
        for _ in range(WORKERS):
            self.free.put(Replay(self.forward))

    def forward(self, query):
        """What the server gives, which is asked once for each question."""
        key = query[2:]
        with self.lock:
            if key not in self.known:
                self.known[key] = self.server.over_tcp(query)
            return self.known[key]

    def says(self, origin, name, kind, octets):
        """What delv says of a response: the comments of its output, without names."""
        replay = self.free.get()
        try:
            replay.question, replay.octets = question_of(octets), octets
            words = [path_of("delv"), f"@{HOST}", "-p", str(replay.port), "-a", str(self.anchors[origin]), f"+root={origin}", "+tcp"]
            ran = subprocess.run([*words, "-q", name, "-t", kind], capture_output=True, text=True, timeout=60, check=False)
        finally:
            self.free.put(replay)
        return tuple(sorted(set(re.findall(r"fully validated|negative response|unsigned answer|resolution failed: .*", ran.stdout + ran.stderr))))

    def judge(self, kept, judge):
        """Each response without TC is validated if the whole one is."""
        outcomes = collections.Counter()

        def pair(item):
            origin, name, kind, whole, ours = item
            return item, self.says(origin, name, kind, whole), self.says(origin, name, kind, ours)

        with concurrent.futures.ThreadPoolExecutor(WORKERS) as pool:
            for item, whole, ours in pool.map(pair, kept):
                is_valid = "fully validated" in whole
                judge.must(not is_valid or ours == whole, "delv does not validate", (f"{item[1]} {item[2]}", len(item[4]), ours, item[3].hex()))
                outcomes[whole] += 1
        for said, count in outcomes.most_common():
            say(f"delv: {count} responses without TC: {', '.join(said)}")
