#!/usr/bin/env python3
"""Records at which sizes name servers set TC: writes the lines of diff/servers/cuts.txt.

    apt-get install bind9 bind9-utils bind9-dnsutils nsd knot python3-dnspython
    /usr/bin/python3 diff/servers/cuts.py

knotd and nsd serve the zones of fuzz/served_zones.py over the loopback, signed by keys that are made for one run. Each is asked over TCP
for a whole response with DO, and over UDP with each EDNS size from 512 octets to the size of that response.

A line is KIND SERVER SIZES HEX: what the response is, who sent it, the sizes at which TC was set, as `512-660,662`, or `-` for none, and
the whole response. A response of at most 512 octets has no line. nsd has none for referrals, of which it leaves out glue with TC clear
(RFC 9471, section 3.1, says otherwise), and knotd none for chains of aliases, of which it sends a part with TC clear.
"""

import pathlib
import sys
import tempfile

HERE = pathlib.Path(__file__).resolve().parent
sys.path.insert(0, str(HERE.parent.parent / "fuzz"))

import dns.flags
import dns.message
from served import Server, Zone, check
from served_zones import ZONES, signed

SEED, LEAST = 1035, 512
# What is asked for. The names are those of fuzz/served_zones.py; the signatures of nsec3.test. are the longest.
QUESTIONS = [
    ("wildcard", "x.wild.nsec.test.", "TXT"),
    ("wildcard", "x.wild.nsec3.test.", "A"),
    ("no-name", "gone1.nsec3.test.", "A"),
    ("no-data", "ns1.nsec3.test.", "MX"),
    ("no-name-after-alias", "x0.lost.nsec3.test.", "A"),
    ("no-data-after-alias", "chain9-0.nsec3.test.", "A"),
    ("signed-referral", "www.cut0.nsec3.test.", "A"),
    ("referral", "www.cut5.nsec3.test.", "A"),
    ("referral-below-another", "www.cut1.nsec3.test.", "A"),
    ("alias-to-referral", "chain5-0.nsec3.test.", "A"),
    ("chain", "chain3-0.nsec3.test.", "A"),
    ("dname", "mx.dn.nsec3.test.", "MX"),
    ("additionals", "nsec.test.", "MX"),
    ("additionals", "nsec3.test.", "NS"),
]
# The kinds of responses that each server is not asked for.
OTHERWISE = {
    "knotd": {"chain", "no-data-after-alias"},
    "nsd": {"signed-referral", "referral", "referral-below-another", "alias-to-referral"},
}


def query_of(name, kind, size):
    query = dns.message.make_query(name, kind, use_edns=0, payload=size, want_dnssec=True)
    query.id, query.flags = 7, 0
    return query.to_wire()


def ranges(sizes):
    """The sizes as a text, those that follow one another as one range."""
    found = []
    for size in sizes:
        if found and found[-1][1] == size - 1:
            found[-1][1] = size
        else:
            found.append([size, size])
    return ",".join(f"{first}-{last}" if first < last else str(first) for first, last in found) or "-"


def cuts(server, name, kind):
    """The whole response of a server, and the sizes at which it sets TC."""
    whole = server.over_tcp(query_of(name, kind, 65535))
    sizes = range(LEAST, len(whole) + 1)
    sent = server.over_udp([query_of(name, kind, size) for size in sizes])
    check(None not in sent, "no response over UDP", name, kind)
    return whole, [size for size, octets in zip(sizes, sent) if dns.message.from_wire(octets).flags & dns.flags.TC]


def main():
    with tempfile.TemporaryDirectory() as folder:
        room, lines = pathlib.Path(folder), []
        signed(room, SEED)
        zones = [Zone(origin, str(room / origin.rstrip("."))) for origin, _, _ in ZONES]
        for tool, otherwise in OTHERWISE.items():
            with Server(tool, room / tool, zones) as server:
                for what, name, kind in QUESTIONS:
                    if what in otherwise:
                        continue
                    whole, cut = cuts(server, name, kind)
                    if len(whole) > LEAST:
                        lines.append(f"{what} {tool} {ranges(cut)} {whole.hex()}\n")
        (HERE / "cuts.txt").write_text("".join(lines))


if __name__ == "__main__":
    main()
