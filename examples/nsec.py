#!/usr/bin/env python3
"""Prints the names of a zone in the order of its NSEC records, each with the next: nsec.py FILE

FILE has one name a line, in any order. Names are sorted by their sort keys, which are in canonical order (RFC 4034, section
6.1). The first name follows the last (section 4.1.1).
"""

import sys

from dns_names_wire import DnsError, Name


def main(file: str) -> None:
    with open(file, encoding="ascii") as lines:
        names = sorted({Name(line.rstrip("\n")) for line in lines}, key=Name.sort_key)
    for name, following in zip(names, names[1:] + names[:1]):
        print(name, "NSEC", following)


if __name__ == "__main__":
    try:
        main(*sys.argv[1:])
    except DnsError as error:
        sys.exit(f"nsec: {error}")
