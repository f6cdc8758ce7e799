"""The zones that fuzz/servers serves, signed by dnssec-signzone, and what it asks them for."""

import pathlib
import random
import re
import subprocess

# The origin of each zone, the words for dnssec-keygen, and those for dnssec-signzone. Signatures of RSA are long, so that less fits.
ZONES = [
    ("nsec.test.", ["-a", "ECDSAP256SHA256"], []),
    ("nsec3.test.", ["-a", "RSASHA256", "-b", "2048"], ["-3", "-", "-H", "0"]),
    ("optout.test.", ["-a", "ECDSAP256SHA256"], ["-3", "ab12", "-H", "2", "-A"]),
]
# How many names of each kind a zone has.
HOSTS, SETS, CHAINS, CUTS = 24, 30, 16, 12
KINDS = ["A", "AAAA", "MX", "TXT", "SRV", "CAA", "NAPTR", "PTR", "HINFO", "TLSA", "TYPE65280"]
# What is asked for at a name that has none of it, and at one that is not there.
ABSENT = ["A", "AAAA", "MX", "TXT", "SRV", "DS", "NS", "SOA", "CAA"]


def head():
    """The apex of a zone, and hosts that others point to; some names have capitals."""
    lines = [
        "@ SOA ns1 Host.Master 2026113000 7200 3600 1209600 300",
        "@ NS ns1", "@ NS Ns2", "@ NS ns.other.example.",
        "ns1 A 192.0.2.1", "ns1 AAAA 2001:db8::1", "Ns2 A 192.0.2.2", "ns2 AAAA 2001:db8::2",
        "@ A 192.0.2.80", "@ MX 10 Mail1", "@ MX 20 mail2", "@ MX 30 mail.other.example.", '@ TXT "v=spf1 mx -all"',
    ]
    for at in range(HOSTS):
        lines += [f"{'Mail' if at % 5 == 0 else 'mail'}{at} A 192.0.2.{at + 1}"] + [f"mail{at} AAAA 2001:db8::1:{at:x}"] * (at % 3 > 0)
    return lines


def data(rng, kind):
    """The text of random data of a type."""
    host = f"mail{rng.randrange(HOSTS + 2)}"
    return {
        "A": lambda: f"192.0.2.{rng.randrange(256)}",
        "AAAA": lambda: f"2001:db8::{rng.randrange(65536):x}",
        "MX": lambda: f"{rng.randrange(100)} {host}",
        "TXT": lambda: " ".join(f'"{rng.choice("abc") * rng.randrange(1, 200)}"' for _ in range(rng.choice([1, 1, 3]))),
        "SRV": lambda: f"{rng.randrange(9)} {rng.randrange(99)} 5060 {host}",
        "CAA": lambda: f'0 issue "ca{rng.randrange(999)}.example.net"',
        "NAPTR": lambda: f'{rng.randrange(99)} 10 "s" "SIP+D2U" "" _sip._udp.{host}',
        "PTR": lambda: host,
        "HINFO": lambda: f'"cpu{rng.randrange(99)}" "os"',
        "TLSA": lambda: f"3 1 1 {rng.randbytes(32).hex()}",
        "TYPE65280": lambda: f"\\# 4 {rng.randbytes(4).hex()}",
    }[kind]()


def sets(rng, owner, kinds):
    """Sets of random records of these types, each of 1 to 20 records."""
    found = []
    for kind in kinds:
        texts = {data(rng, kind) for _ in range(rng.choice([1, 1, 2, 3, 6, 20]))}
        found += [f"{owner} {kind} {text}" for text in sorted(texts)]
    return found


def chains(rng):
    """Chains of aliases that end in data, in a name that is not there, in one without data, in a wildcard, below a cut and elsewhere."""
    ends = ["set0", "set1", "gone", "ent.deep", "any.wild", "www.cut0", "www.cut1", "elsewhere.example.", "a.alias.dn", "deep"]
    lines = []
    for at in range(CHAINS):
        length, end = 1 + at % 4, ends[at % len(ends)]
        names = [f"chain{at}-{step}" for step in range(length)] + [end]
        lines += [f"{one} CNAME {other}" for one, other in zip(names, names[1:])]
    return lines


def cuts(rng):
    """Delegations, signed and not, whose servers are below the cut, at it, below another cut, in the zone and elsewhere."""
    lines = []
    for at in range(CUTS):
        cut, other = f"cut{at}", f"cut{(at + 1) % CUTS}"
        targets = [[f"ns1.{cut}", f"Ns2.{cut}"], [f"ns1.{cut}", f"ns1.{other}"], [f"ns1.{other}"], [cut], ["ns1", "ns.other.example."],
                   [f"ns{number}.{cut}" for number in range(1, 14)]][at % 6]
        lines += [f"{cut if at % 4 else cut.title()} NS {target}" for target in targets]
        glue = [target for target in [*targets, f"ns1.{cut}"] if target.endswith(cut)]
        for number, target in enumerate(dict.fromkeys(glue)):
            lines += [f"{target} A 198.51.100.{number + 1}", f"{target} AAAA 2001:db8:{at}::{number + 1:x}"]
        if at % 2 == 0:
            lines += [f"{cut} DS {rng.randrange(65536)} 13 2 {rng.randbytes(32).hex()}" for _ in range(1 + at % 3)]
    return lines


def zone_lines(seed):
    """The records of a zone, without its origin."""
    rng = random.Random(seed)
    lines = head() + chains(rng) + cuts(rng)
    for at in range(SETS):
        lines += sets(rng, f"set{at}" if at % 4 else f"Set{at}", rng.sample(KINDS, rng.randrange(1, 5)))
    lines += sets(rng, "*.wild", ["A", "TXT", "MX"]) + sets(rng, "*.more.wild", ["SRV", "AAAA"]) + ["*.alias CNAME set2", "*.lost CNAME gone"]
    # Names without data, and DNAMEs to names that are there, are not, and whose synthesized names are aliases.
    lines += ["a.ent.deep A 192.0.2.9", "b.x.ent.deep A 192.0.2.10"]
    lines += ["dn DNAME dnto", "www.dnto A 192.0.2.11", "mx.dnto MX 5 mail1", "a.alias.dnto CNAME set3", "out DNAME example.net.", "far.away DNAME wild", "dncut DNAME cut0"]
    # Singleton sets whose answers are near the smallest size, by long texts.
    lines += [f'text{at} TXT "{"x" * 200}" "{"y" * (at * 12 + 1)}"' for at in range(16)]
    return list(dict.fromkeys(lines))


def asked(seed, origin):
    """The names and types to ask a zone for, each once."""
    rng, found = random.Random(seed), []
    owners = {}
    for line in zone_lines(seed):
        owner, kind = line.split()[:2]
        owners.setdefault(owner.lower(), set()).add(kind)
    for owner, kinds in owners.items():
        # below a cut too: a referral
        found += [(owner, kind) for kind in sorted(kinds)] + [(owner, kind) for kind in rng.sample(ABSENT, 2)]
    found += [(f"{name}.wild", kind) for name in ("x", "y.z", "a.more", "b.c.more") for kind in ("A", "TXT", "MX", "SRV", "AAAA")]
    found += [(f"x{at}.{below}", kind) for at in range(3) for below in ("alias", "lost", "dn", "away") for kind in ("A", "MX")]
    found += [(f"{name}.dn", kind) for name in ("www", "mx", "gone", "a.alias", "x.far") for kind in ("A", "MX", "DNAME")]
    found += [(f"www{at}.dncut", kind) for at in range(3) for kind in ("A", "DNAME", "CNAME")]
    found += [(f"{name}.out", "A") for name in ("www", "a.b.c")] + [(f"{name}.far.away", "TXT") for name in ("q", "a.more")]
    found += [(f"{name}.cut{at}", kind) for at in range(CUTS) for name in ("www", "a.b") for kind in ("A", "DS", "MX")]
    found += [(f"gone{at}{below}", kind) for at in range(12) for below in ("", ".set1", ".ent.deep", ".ns1") for kind in ("A", "TXT")]
    found += [("deep", "A"), ("ent.deep", "MX"), ("x.ent.deep", "TXT"), ("@", "DNSKEY"), ("@", "ANY"), ("set3", "ANY"), ("@", "NSEC3PARAM")]
    # Letters of names are sent in any case, as some resolvers do.
    return [(shuffled(rng, origin if owner == "@" else f"{owner}.{origin}"), kind) for owner, kind in dict.fromkeys(found)]


def shuffled(rng, name):
    """The name, or in one case of four with letters in any case."""
    return name if rng.random() < 0.75 else "".join(rng.choice([letter.lower(), letter.upper()]) for letter in name)


def run(room, *words):
    ran = subprocess.run(words, cwd=room, capture_output=True, text=True, check=False)
    if ran.returncode:
        raise SystemExit(f"servers: failed: {words} {ran.stdout} {ran.stderr}")
    return ran.stdout


def signed(room, seed):
    """Makes the zones and signs them, each in the file of its name without the last dot; and returns their keys, as a dictionary of texts."""
    keys = {}
    for number, (origin, key_words, words) in enumerate(ZONES):
        name = origin.rstrip(".")
        key = run(room, "dnssec-keygen", "-q", "-f", "KSK", *key_words, origin).strip()
        keys[origin] = re.search(r"DNSKEY (.*)", pathlib.Path(room, f"{key}.key").read_text())[1]
        text = f"$ORIGIN {origin}\n$TTL 3600\n" + "\n".join(zone_lines(seed + number)) + f"\n$INCLUDE {key}.key\n"
        pathlib.Path(room, f"{name}.unsigned").write_text(text)
        # -z: the one key signs everything.
        run(room, "dnssec-signzone", "-z", "-P", *words, "-o", origin, "-f", name, f"{name}.unsigned", f"{key}.private")
    return keys


def questions(seed, count):
    """So many questions over all zones, as origin, name and type."""
    found = [(origin, *own) for number, (origin, _, _) in enumerate(ZONES) for own in asked(seed + number, origin)]
    rng = random.Random(seed)
    return found if len(found) <= count else sorted(rng.sample(found, count))
