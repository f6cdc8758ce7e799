#!/usr/bin/env python3
"""Prints a DNS message as dig does: dump.py [FILE]. The message is binary, in a file or on standard input."""

import sys

from dns_names_wire import DnsError, Message


def main(file: str = "/dev/stdin") -> None:
    with open(file, "rb") as octets:
        message = Message.from_wire(octets.read())
    print(message)


if __name__ == "__main__":
    try:
        main(*sys.argv[1:])
    except DnsError as error:
        sys.exit(f"dump: {error}")
