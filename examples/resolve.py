#!/usr/bin/env python3
"""Asks a name server for records over UDP, and over TCP if the reply is truncated: resolve.py ADDRESS PORT NAME TYPE"""

import socket
import sys
from typing import Tuple

from dns_names_wire import DnsError, Message, make_query

# The size of a message that goes through most networks without fragmentation.
PAYLOAD = 1232
TRIES = 3
SECONDS = 2


def over_udp(server: Tuple[str, int], query: Message) -> Message:
    """Returns the first message that is a reply to the query. Others are ignored: they are late, or not from the server."""
    family = socket.AF_INET6 if ":" in server[0] else socket.AF_INET
    with socket.socket(family, socket.SOCK_DGRAM) as channel:
        channel.settimeout(SECONDS)
        channel.connect(server)
        for _ in range(TRIES):
            channel.send(query.to_wire())
            try:
                while True:
                    octets = channel.recv(PAYLOAD)
                    try:
                        reply = Message.from_wire(octets)
                    except DnsError:
                        continue
                    if reply.is_reply_to(query):
                        return reply
            except socket.timeout:
                pass
    raise OSError("there is no reply")


def over_tcp(server: Tuple[str, int], query: Message) -> Message:
    """Each message has two octets of its length before it (RFC 1035, section 4.2.2)."""
    with socket.create_connection(server, SECONDS) as channel, channel.makefile("rwb") as stream:
        octets = query.to_wire()
        stream.write(len(octets).to_bytes(2, "big") + octets)
        stream.flush()
        reply = Message.from_wire(stream.read(int.from_bytes(stream.read(2), "big")))
    if not reply.is_reply_to(query):
        raise OSError("this is no reply")
    return reply


def main(address: str, port: str, name: str, record_type: str) -> None:
    server, query = (address, int(port)), make_query(name, record_type, max_payload=PAYLOAD)
    reply = over_udp(server, query)
    if reply.header.truncation:
        reply = over_tcp(server, query)
    print(f";; rcode: {int(reply.response_code)}", *reply.answers, sep="\n")


if __name__ == "__main__":
    try:
        main(*sys.argv[1:])
    except (DnsError, OSError) as error:
        sys.exit(f"resolve: {error}")
