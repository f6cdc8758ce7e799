"""Compares how zone files are read with five other readers: `zone_sources.py TOOLS FOLDER..`, as fuzz/zone_sources calls it.

Each file with a SOA record is read whole by ours, BIND, Knot, ldns, miekg/dns and dnspython, at the origin that it states or that its SOA
record has. Two readers agree if both reject it, or read the same records, whatever their order and the case of letters. Times to live
are compared apart, since BIND gives a set one of them. A file is printed if two of the others agree that are not as ours, with what each said.
BIND has no say of a file that it reads and then finds no zone. The last line counts the files by how many are with us and against us."""

import collections
import concurrent.futures
import os
import pathlib
import re
import struct
import subprocess
import sys
import tempfile

import dns.zone

from dns_names_wire import read_zone

SOA = re.compile(rb"^[^;\n]*\bSOA\s+\S+\s+\S+", re.M | re.I)
# Files that quote zones: code, pages, scripts of tests.
NOT_A_ZONE = re.compile(r"\.(c|h|cc|hh|py|rst|pod|md|m4|cpp|pl|pm|sh|rs|go|html|xml|js|lua|ya?ml|rpl|tdir|good|post|pre|test|rb|txt|conf|after|dsc)$")
MOST_OCTETS, SECONDS, SHOWN = 2_000_000, 30, 3
# With these BIND reads what is in a file, and says nothing of the zone that it is.
BIND = ["named-compilezone", "-i", "none", *(word for flag in "knmMrST" for word in (f"-{flag}", "ignore")), "-F", "raw"]
NO_ZONE = re.compile(r"has no NS records|has \d+ SOA|CNAME and other|not at top|multiple RRs of singleton|below")
UPPER = re.compile(rb"[A-Z]")


def lower(octets):
    return UPPER.sub(lambda it: bytes([it[0][0] + 32]), octets)


def output(*command):
    try:
        done = subprocess.run(command, stdout=subprocess.PIPE, stderr=subprocess.STDOUT, timeout=SECONDS, check=False)
    except subprocess.TimeoutExpired:
        return f"error: more than {SECONDS} seconds"
    return done.stdout.decode("latin1")


def by_tool(tool, path, origin):
    """The records that a program prints, or its error."""
    records = []
    for line in output(tool, path, origin).splitlines():
        if line.startswith("error"):
            return line
        owner, record_type, record_class, ttl, data = line.split(" ")
        data = bytes.fromhex("" if data == "-" else data)
        records.append((lower(bytes.fromhex(owner)), int(record_type), int(record_class), int(ttl), lower(data)))
    return records


def by_bind(path, origin):
    """The records of BIND's own binary form of a zone, its error, or None if it is no zone."""
    with tempfile.TemporaryDirectory() as room:
        said = output(*BIND, "-w", os.path.dirname(path), "-o", f"{room}/raw", origin, path)
        if os.path.exists(f"{room}/raw"):
            return list(raw_records(pathlib.Path(room, "raw").read_bytes()))
    return None if NO_ZONE.search(said) else "error " + "; ".join(it for it in said.splitlines() if "no TTL specified" not in it)


def raw_records(octets):
    version = int.from_bytes(octets[4:8], "big")
    at = 24 if version == 1 else 12
    while at < len(octets):
        size, record_class, record_type, _, ttl, count = struct.unpack_from(">IHHHII", octets, at)
        owner, here = sized(octets, at + 18)
        for _ in range(count):
            data, here = sized(octets, here)
            yield lower(owner), record_type, record_class, ttl, lower(data)
        at += size


def sized(octets, at):
    end = at + 2 + int.from_bytes(octets[at : at + 2], "big")
    return octets[at + 2 : end], end


def by_dnspython(path, origin):
    try:
        zone = dns.zone.from_file(path, origin, relativize=False, check_origin=False, allow_include=False)
        return [(lower(name.to_wire()), it.rdtype, it.rdclass, ttl, lower(it.to_wire())) for name, ttl, it in zone.iterate_rdatas()]
    except Exception as error:  # pylint: disable=broad-except
        return f"error {type(error).__name__} {error}"


def by_ours(path, origin):
    try:
        return [parts(it.to_wire()) for it in read_zone(path, origin)]
    except (ValueError, OSError) as error:
        return f"error {error}"


def parts(wire):
    at = 0
    while wire[at]:
        at += wire[at] + 1
    record_type, record_class, ttl, _ = struct.unpack_from(">HHIH", wire, at + 1)
    return lower(wire[: at + 1]), record_type, record_class, ttl, lower(wire[at + 11 :])


def origin_of(octets):
    stated = re.search(rb"^\$ORIGIN\s+(\S+\.)\s", octets, re.M | re.I) or re.search(rb"^([^\s;@$]+\.)\s[^;\n]*\bSOA\b", octets, re.M | re.I)
    return stated[1].decode("latin1") if stated else "example."


def read_by_all(tools, path):
    origin = origin_of(path.read_bytes())
    others = {tool: by_tool(f"{tools}/{tool}", str(path), origin) for tool in ("knot", "ldns", "miekg")}
    return by_ours(str(path), origin), {"BIND": by_bind(str(path), origin), **others, "dnspython": by_dnspython(str(path), origin)}


def told(result):
    """What a reader made of a file, without times to live."""
    return "error" if isinstance(result, str) else frozenset((*it[:3], it[4]) for it in result)


def shown(result):
    return "no say" if result is None else result[:200] if isinstance(result, str) else f"{len(result)} records"


def report(path, ours, others, counts):
    mine, rest = told(ours), collections.Counter(told(it) for it in others.values() if it is not None)
    against, most = max(((it, count) for it, count in rest.items() if it != mine), key=lambda it: it[1], default=(None, 0))
    counts[f"{rest[mine]} with us, {most} against us"] += 1
    if most < 2:
        return
    print(f"{path}: {most} against us, {rest[mine]} with us\n    ours: {shown(ours)}")
    for name, result in others.items():
        print(f"    {name}: {shown(result)}")
    if mine != "error" and against != "error":
        for what, records in (("ours alone", mine - against), ("theirs alone", against - mine)):
            for owner, record_type, _, data in sorted(records)[:SHOWN]:
                print(f"    {what}: {owner.hex()} {record_type} {data.hex()[:120]}")


def files(folders):
    for path in sorted(it for folder in folders for it in pathlib.Path(folder).rglob("*")):
        if path.is_file() and not path.is_symlink() and not NOT_A_ZONE.search(path.name) and path.stat().st_size < MOST_OCTETS:
            octets = path.read_bytes()
            if SOA.search(octets) and b"\0" not in octets and not octets.startswith(b"#!"):
                yield path


def main():
    tools, paths, counts = sys.argv[1], list(files(sys.argv[2:])), collections.Counter()
    with concurrent.futures.ThreadPoolExecutor(os.cpu_count()) as pool:
        for path, (ours, others) in zip(paths, pool.map(lambda it: read_by_all(tools, it), paths)):
            report(path, ours, others, counts)
    print(f"{len(paths)} files: {'; '.join(f'{count} {it}' for it, count in counts.most_common())}")


if __name__ == "__main__":
    main()
