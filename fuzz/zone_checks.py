"""Compares what zones are found to have with named-checkzone, kzonecheck and nsd-checkzone: `fuzz/zone_checks`.

Each zone is a good one with lines added or without some. What each of the four finds is put into our words by the sentences that it
prints, and a finding of ours must be one of another's as well, or be in OWN, which says why; and what two of the others find must be one
of ours. Each zone is printed for which that is not so, and how often each finding came. Exits with 1 if there is any."""

import collections
import re
import subprocess
import sys
import tempfile

from dns_names_wire import check_zone, read_zone

SOA, NS, GLUE = "@ 3600 IN SOA ns h 1 7200 3600 1209600 3600", "@ NS ns", "ns A 192.0.2.1"
BASE = ["$TTL 3600", SOA, NS, GLUE]
ADDED = [
    [], ["www A 192.0.2.2"], ["www CNAME ns"], ["www CNAME ns", "www TXT x"], ["www CNAME ns", "www CNAME other"], ["@ CNAME www"],
    ["@ 3600 SOA ns h 2 7200 3600 1209600 3600"], [SOA], ["a SOA ns h 1 2 3 4 5"], ["@ NS lost"], ["@ NS ns.other."], ["@ NS alias", "alias CNAME ns"],
    ["sub NS ns.sub"], ["sub NS ns.sub", "ns.sub A 192.0.2.3"], ["sub NS ns.sub", "ns.sub AAAA 2001:db8::1", "txt.sub TXT x"], ["sub NS sub", "sub A 192.0.2.3"],
    ["sub NS ns", "x.sub A 192.0.2.3"], ["sub NS alias", "alias CNAME ns"], ["sub NS ns.b", "b NS ns"], ["sub NS ns.b", "b NS ns", "ns.b A 192.0.2.4"],
    ["d DNAME other."], ["d DNAME other.", "x.d A 192.0.2.3"], ["d DNAME other.", "d DNAME x."], ["d DNAME other.", "d A 192.0.2.3"], ["@ DNAME other."],
    ["www 60 A 192.0.2.2", "www 61 A 192.0.2.3"], ["www 60 A 192.0.2.2", "www 60 A 192.0.2.3"], ["www 60 A 192.0.2.2", "www 61 TXT x"],
    ["other.test. A 192.0.2.2"], ["test. A 192.0.2.2"], ["xexample. A 192.0.2.2"], ["a_b A 192.0.2.2"], ["_sip._tcp SRV 0 0 5060 ns"], ["_x TXT y"],
    ["a_b MX 1 ns"], ["-a A 192.0.2.2"], ["*.w A 192.0.2.2"], ["@ MX 1 ns"], ["@ MX 1 lost"], ["@ MX 1 alias", "alias CNAME ns"], ["@ MX 0 ."],
    ["@ MX 1 mail.other."], ["* A 192.0.2.2", "@ MX 1 mail"], ["_s._tcp SRV 0 0 1 lost"], ["_s._tcp SRV 0 0 1 alias", "alias CNAME ns"], ["@ MX 1 x.sub", "sub NS ns"],
    ["ds DS 1 13 2 " + "00" * 32], ["sub NS ns", "sub DS 1 13 2 " + "00" * 32], ["@ DS 1 13 2 " + "00" * 32], ["www CNAME ns", "www NSEC z CNAME NSEC"],
    ["www CNAME ns", "WWW CNAME NS"], ["d DNAME other.", "d NS ns"], ["@ NS 1.2.3.4."], ["@ MX 1 1.2.3.4."], ["@ MX 1 1.2.3.4"], ["*.w NS ns"],
    ["sub NS ns", "sub DS 1 13 2 aa"], ["sub NS ns", "sub DS 1 13 1 " + "00" * 32], ["@ ZONEMD 1 1 1 aa"], ["@ CAA 0 \"a-b\" \"x\""], ["@ NS ns.sub", "sub NS ns.other."],
    ["* A 192.0.2.2", "@ MX 1 a.b.c"], ["* A 192.0.2.2", "@ MX 1 txt", "txt TXT x"], ["* A 192.0.2.2", "@ MX 1 ent", "x.ent TXT x"],
    ["*.w CNAME ns", "@ MX 1 x.w"], ["sub NS ns.x.sub", "*.sub A 192.0.2.2"], ["@ NS x.d", "d DNAME other."], ["sub NS ns.b", "b NS ns.other."],
]
LESS = [SOA, NS, GLUE]
# What another tool's sentence means, by the tool; a number is of `enum dnw_check`.
SAYS = {
    "named": [
        (r"/NS .* has no address records|has no A or AAAA|REQUIRED GLUE", 14), (r"SIBLING GLUE", 20), (r"/(MX|SRV) .* has no address records", 21),
        (r"appears to be an address|is an address", 19), (r"invalid NS owner name", 16), (r"fromtext.*unexpected end of input", 17), (r"fromtext.*unexpected token", 18), (r"CNAME and other data", 8), (r"multiple RRs of singleton type", 6),
        (r"out-of-zone data", 3), (r"not at top of zone", 5), (r"TTL set to prior TTL", 7), (r"bad owner name", 12), (r"is a CNAME|is below a DNAME", 13),
        (r"has 0 SOA records|no SOA", 1), (r"has no NS records", 2), (r"below.*DNAME|DNAME.*below", 10),
    ],
    "knot": [
        (r"missing glue", 14), (r"NS record exists beside DNAME", 15), (r"invalid digest length", 17), (r"beside CNAME", 8), (r"multiple CNAME|multiple DNAME|multiple SOA", 6), (r"out-of-zone", 3), (r"TTL mismatch", 7),
        (r"missing SOA|no SOA", 1), (r"missing NS at the zone apex", 2), (r"under DNAME", 10),
    ],
    "nsd": [
        (r"invalid tag", 18), (r"CNAME and other data", 8), (r"multiple CNAMEs|multiple DNAME|multiple SOA|Duplicate SOA", 6), (r"outside the zone", 3), (r"does not match the TTL", 7),
        (r"invalid domain name", 5), (r"SOA record not present|no SOA|missing SOA", 1), (r"data below it", 10),
    ],
}
# What we find alone, and why.
OWN = {
    2: "NSD and Knot ask for no NS record", 9: "others pass over a DS record that is at no delegation, or say so only of signed zones",
    11: "others occlude such records and say nothing", 12: "BIND alone checks names", 13: "BIND alone follows names of servers to aliases",
    14: "BIND alone follows wildcards", 15: "Knot alone", 16: "BIND alone", 17: "NSD says nothing", 18: "Knot says nothing",
    19: "BIND alone", 20: "BIND alone, of RFC 9471, section 3.2", 21: "BIND alone asks for the addresses of mail servers", 5: "Knot says nothing", 6: "the others refuse or merge",
}


def output(*command):
    done = subprocess.run(command, stdout=subprocess.PIPE, stderr=subprocess.STDOUT, timeout=60, check=False)
    return done.stdout.decode("utf-8", "replace")


def said(tool, text):
    return {number for sentence, number in SAYS[tool] if re.search(sentence, text)}


def judged(lines):
    """Returns our findings, and those of each of the others."""
    text = "\n".join(lines) + "\n"
    with tempfile.NamedTemporaryFile("w", suffix=".zone") as file:
        file.write(text)
        file.flush()
        others = {
            "named": output("named-checkzone", "-i", "full", "-k", "warn", "example", file.name),
            "knot": output("kzonecheck", "-o", "example.", file.name),
            "nsd": output("nsd-checkzone", "example", file.name),
        }
    ours = {finding.check for finding in check_zone(read_zone(text.encode(), "example."), "example.")}
    return ours, {tool: said(tool, shown) for tool, shown in others.items()}, others


def main():
    zones = [BASE + more for more in ADDED] + [[line for line in BASE if line != left] for left in LESS]
    came, bad = collections.Counter(), 0
    for lines in zones:
        ours, others, shown = judged(lines)
        for number in ours:
            came[number, sum(number in found for found in others.values())] += 1
        alone = {number for number in ours if number not in OWN and not any(number in found for found in others.values())}
        votes = collections.Counter(number for found in others.values() for number in found)
        missing = {number for number, count in votes.items() if count > 1} - ours
        if alone or missing:
            bad += 1
            print("zone:", *lines[1:], sep="\n  ")
            print("ours alone:", alone, "missing:", missing, "all:", ours, others, *shown.values(), sep="\n")
    for (number, count), times in sorted(came.items()):
        print(f"check {number}: {times} times, as {count} of 3 others")
    print(f"{len(zones)} zones, {bad} otherwise than the others")
    return bad > 0


if __name__ == "__main__":
    sys.exit(main())
