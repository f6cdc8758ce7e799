#!/usr/bin/env python3
"""Prints the octets that each signature of a DNS message covers: signed.py [FILE]. The message is binary, in a file or on
standard input.

Each line has the owner of an RRSIG, the type that it covers, the tag of its key, and the octets in hexadecimal. A validator
verifies the signature over these octets with the key (RFC 4035, section 5.3).
"""

import sys

from dns_names_wire import RRSIG, DnsError, Message


def main(file: str = "/dev/stdin") -> None:
    with open(file, "rb") as octets:
        message = Message.from_wire(octets.read())
    for section in message.answers, message.authorities, message.additionals:
        for record in section:
            data = record.data
            if isinstance(data, RRSIG):
                signed = record.signed_octets(section)
                print(record.owner, data.type_covered, data.key_tag, signed.hex())


if __name__ == "__main__":
    try:
        main(*sys.argv[1:])
    except DnsError as error:
        sys.exit(f"signed: {error}")
