#!/usr/bin/env python3
"""Writes rows of the requests for sums of DNSSEC to standard output: random keys, names and zones, and what dnspython 2.3 makes
of them.

usage: diff/make_dnssec.py > diff/lists/dnssec.txt

It is the same whenever this is run.
"""

import random

import dns.dnssec
import dns.name
import dns.rdata
import dns.rdataclass
import dns.rdatatype
import dns.zone

APEX = dns.name.from_text("Example.")
DIGESTS = {1: "SHA1", 2: "SHA256", 4: "SHA384"}
DATA = ["A 192.0.2.{}", "MX {} Mail.Example.", "NS N{}.Example.", 'TXT "{}"', "SRV 1 2 {} B.a.", "NSEC N{}.Example. A", "ZONEMD {} 1 240 000102030405060708090a0b"]
# The last labels of names out of the zone, and the zone's own with other capitals.
OTHERS = [b"test", b"notexample", b"ample", b"EXAMPLE"]

chance = random.Random(8976)


def octets(least, most):
    return bytes(chance.choices(range(256), k=chance.randint(least, most)))


def hexadecimal(given):
    return given.hex() or "-"


def name():
    """A name of the zone, of few labels and characters, so that names are often equal or neighbours."""
    labels = ["".join(chance.choices("aAbBzZ0_", k=chance.randint(1, 3))) for _ in range(chance.randint(0, 3))]
    return dns.name.from_text(".".join([*labels, "Example."]))


def keys():
    print("# The tags and the digests of keys of random octets.")
    for _ in range(60):
        key = octets(7, 200)
        rdata = dns.rdata.from_wire(dns.rdataclass.IN, dns.rdatatype.DNSKEY, key, 0, len(key))
        owner, code = name(), chance.choice(list(DIGESTS))
        ds = dns.dnssec.make_ds(owner, rdata, DIGESTS[code], policy=dns.dnssec.allow_all_policy)
        print(f"key-tag {key.hex()} = {dns.dnssec.key_id(rdata)}")
        print(f"ds {owner} {code} {key.hex()} = {ds.digest.hex()}")


def hashed_names():
    print("\n# Hashed names.")
    for _ in range(60):
        owner, salt, iterations = name(), octets(0, 40), chance.randint(0, 100)
        label = dns.dnssec.nsec3_hash(owner, salt, iterations, 1).lower()
        print(f"nsec3 {owner} 1 {iterations} {hexadecimal(salt)} 100 = {label}")


def covered_names():
    print("\n# Names that records of the zone cover, in the order of dnspython.")
    for _ in range(100):
        owner, following, given = name(), name(), name()
        if owner >= following:
            following = APEX
        covers = owner < given and (given < following or following == APEX)
        print(f"nsec-covers {owner} {following} {given} = {str(covers).lower()}")


def zones():
    print("\n# Zones of random records, of which some are out of the zone.")
    for _ in range(40):
        zone, words = dns.zone.Zone(APEX, relativize=False), []
        for _ in range(chance.randint(1, 12)):
            owner, text = name(), chance.choice(DATA).format(chance.randint(0, 9))
            if chance.random() < 0.2:
                owner = dns.name.Name([*owner.labels[:-2], chance.choice(OTHERS), b""])
            rdata = dns.rdata.from_text("IN", *text.split(" ", 1))
            if owner.is_subdomain(APEX):
                zone.find_rdataset(owner, rdata.rdtype, rdata.covers(), create=True).add(rdata, 60)
            words.append(f"{owner},1,{int(rdata.rdtype)},60,{rdata.to_wire().hex()}")
        algorithm = chance.choice([1, 2])
        print(f"zone-digest {APEX} {algorithm} {' '.join(words)} = {zone._compute_digest(algorithm).hex()}")


if __name__ == "__main__":
    keys()
    hashed_names()
    covered_names()
    zones()
