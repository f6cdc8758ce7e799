#!/usr/bin/env python3
"""Answers queries from a table of records, over UDP and TCP on 127.0.0.1: serve.py PORT FILE

FILE has one record of a zone a line, the SOA record first. Names without a last dot are rejected. With port 0, any free port
is used. The port is printed. A response that is longer than the requester accepts is truncated, with TC (RFC 2181, section
9).
"""

import socketserver
import sys
import threading
from typing import List, Optional

from dns_names_wire import DnsError, Message, OpCode, Record, RecordClass, RecordType, ResponseCode

# The size of a message that goes through most networks without fragmentation.
PAYLOAD = 1232


def reply_to(table: List[Record], request: Message) -> Message:
    if request.header.op_code != OpCode.QUERY:
        return request.reply(response_code=ResponseCode.NOTIMP)
    if len(request.questions) != 1:
        return request.reply(response_code=ResponseCode.FORMERR)
    question = request.questions[0]
    if question.question_class != RecordClass.IN or question.name not in table[0].owner:
        return request.reply(response_code=ResponseCode.REFUSED)
    wanted = (question.question_type, RecordType.CNAME)
    own = [record for record in table if record.owner == question.name]
    answers = [record for record in own if record.record_type in wanted or RecordType.ANY in wanted]
    if answers:
        return request.reply(answers, authoritative=True)
    # A name exists if it owns records, or if a name below it does (RFC 8020).
    exists = any(record.owner in question.name for record in table)
    code = None if exists else ResponseCode.NXDOMAIN
    return request.reply(authorities=table[:1], authoritative=True, response_code=code)


def respond(table: List[Record], octets: bytes, most: Optional[int]) -> bytes:
    """Returns the octets of the response to a request, or no octets if it is not a request."""
    try:
        request = Message.from_wire(octets)
    except DnsError:
        return b""
    if request.header.is_response:
        return b""
    try:
        accepted = min(request.max_payload, PAYLOAD)
    except DnsError:
        accepted = 512
    return reply_to(table, request).to_wire(most or accepted)


class Udp(socketserver.DatagramRequestHandler):
    table: List[Record] = []

    def handle(self) -> None:
        self.wfile.write(respond(self.table, self.rfile.read(), None))


class Tcp(socketserver.StreamRequestHandler):
    table: List[Record] = []

    def handle(self) -> None:
        while length := self.rfile.read(2):
            octets = respond(self.table, self.rfile.read(int.from_bytes(length, "big")), 65535)
            self.wfile.write(len(octets).to_bytes(2, "big") + octets)


def main(port: str, file: str) -> None:
    with open(file, encoding="utf-8") as lines:
        Udp.table = Tcp.table = [Record.from_text(line.rstrip("\n")) for line in lines]
    udp = socketserver.UDPServer(("127.0.0.1", int(port)), Udp)
    tcp = socketserver.ThreadingTCPServer(udp.server_address, Tcp)
    threading.Thread(target=tcp.serve_forever, daemon=True).start()
    print("serving on port", udp.server_address[1], flush=True)
    udp.serve_forever()


if __name__ == "__main__":
    main(*sys.argv[1:])
