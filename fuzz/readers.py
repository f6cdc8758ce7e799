"""Exchanges messages with dnspython and ldns: `readers.py LIBRARY [MESSAGES]`.

Lists of random names are written by our library, and each name is read at its place by both. Packets with up to five
questions, which are lists of names too, are read by both as packets. Packets of dnspython, with names in the data of
records, are read by ours. Every name must be the same, octet for octet; without case in what dnspython wrote, since it
compresses without case.
"""

import ctypes
import random
import struct
import sys

import dns.message
import dns.name
import dns.rdata
import dns.rdataclass
import dns.rdatatype
import dns.rrset
import dns.version

OURS = ctypes.CDLL(sys.argv[1])
LDNS = ctypes.CDLL("libldns.so")
for call in ("ldns_rdf_data", "ldns_pkt_question", "ldns_rr_list_rr", "ldns_rr_owner"):
    getattr(LDNS, call).restype = ctypes.c_void_p
for call in ("ldns_rdf_size", "ldns_rr_list_rr_count"):
    getattr(LDNS, call).restype = ctypes.c_size_t

LABELS = [b"com", b"example", b"Example", b"www", b"net", b"a", b"b", b"_tcp", b"*"]
ROOT = (b"",)


class Pair(ctypes.Structure):
    """Two sizes: a length, and the end of a name or the number of names."""

    _fields_ = [("len", ctypes.c_size_t), ("other", ctypes.c_size_t)]


def check(fact, *what):
    if not fact:
        sys.exit(f"readers: failed: {what}"[:4000])


def form(labels):
    return b"".join(bytes([len(label)]) + label for label in labels)


def random_name(earlier):
    """The labels of a name, with the empty one at its end; often one that ends as an earlier name does."""
    labels = []
    for _ in range(random.randrange(random.choice([3, 3, 3, 30]))):
        size = random.choice([3, 8, 63])
        labels.append(random.choice(LABELS) if random.random() < 0.6 else random.randbytes(random.randint(1, size)))
    end = random.choice(earlier) if earlier and random.random() < 0.6 else ROOT
    name = (*labels, *end[random.randrange(len(end)) :])
    return name if len(form(name)) <= 255 else end


def random_names(count):
    names = []
    for _ in range(count):
        names.append(random_name(names))
    return names


def write(names):
    """The message of a list of names, by our library."""
    listed = b"".join(form(name) for name in names)
    out, written = ctypes.create_string_buffer(65535), Pair()
    answer = OURS.dnw_names_write(listed, ctypes.c_size_t(len(listed)), ctypes.c_uint16(65535), out,
                                  ctypes.c_size_t(len(out)), ctypes.byref(written))
    check(answer == 0 and written.other == len(names), "not written", answer, names)
    return out.raw[: written.len]


def labels_of(octets):
    labels, at = [], 0
    while at < len(octets):
        labels.append(octets[at + 1 : at + 1 + octets[at]])
        at += 1 + octets[at]
    return tuple(labels)


def read_ours(message, at):
    octets, read = ctypes.create_string_buffer(255), Pair()
    answer = OURS.dnw_name_read(message, ctypes.c_size_t(len(message)), ctypes.c_size_t(at), octets,
                                ctypes.c_size_t(len(octets)), ctypes.byref(read))
    check(answer == 0, "not read by ours", answer, message.hex(), at)
    return labels_of(octets.raw[: read.len]), read.other


def rdf_labels(rdf):
    rdf = ctypes.c_void_p(rdf) if isinstance(rdf, int) else rdf
    return labels_of(ctypes.string_at(LDNS.ldns_rdf_data(rdf), LDNS.ldns_rdf_size(rdf)))


def read_ldns(message, at):
    rdf, end = ctypes.c_void_p(), ctypes.c_size_t(at)
    status = LDNS.ldns_wire2dname(ctypes.byref(rdf), message, ctypes.c_size_t(len(message)), ctypes.byref(end))
    check(status == 0, "not read by ldns", status, message.hex(), at)
    labels = rdf_labels(rdf)
    LDNS.ldns_rdf_deep_free(rdf)
    return labels, end.value


def read_dnspython(message, at):
    name, size = dns.name.from_wire(message, at)
    return name.labels, at + size


def check_list(names):
    """Twelve zero octets are roots. They are where a header would be, since ldns refuses a pointer to the offset 0."""
    message, at = write([ROOT] * 12 + names), 12
    for name in names:
        ours = read_ours(message, at)
        check(ours[0] == name, "ours", name, message.hex(), at)
        check(read_ldns(message, at) == ours, "ldns", name, message.hex(), at)
        check(read_dnspython(message, at) == ours, "dnspython", name, message.hex(), at)
        at = ours[1]
    check(at == len(message), "bytes left", message.hex())


def check_questions(names):
    """Six zero octets, the number of questions, and again six are roots and a name whose label has some of the zeros; so are
    the type and the class of a question, if both are 0."""
    count = len(names)
    header = [ROOT] * 5 + [(bytes(count), b"")] + [ROOT] * (6 - count - 1)
    message = write(header + [part for name in names for part in (name, *[ROOT] * 4)])
    check(message[:12] == struct.pack("!6H", 0, 0, count, 0, 0, 0), "no header", message.hex())
    read = dns.message.from_wire(message)
    check([rrset.name.labels for rrset in read.question] == names, "dnspython", names, message.hex())
    packet = ctypes.c_void_p()
    status = LDNS.ldns_wire2pkt(ctypes.byref(packet), message, ctypes.c_size_t(len(message)))
    check(status == 0, "not read by ldns", status, message.hex())
    rrs = ctypes.c_void_p(LDNS.ldns_pkt_question(packet))
    owners = [ctypes.c_void_p(LDNS.ldns_rr_list_rr(rrs, ctypes.c_size_t(i))) for i in range(LDNS.ldns_rr_list_rr_count(rrs))]
    check([rdf_labels(LDNS.ldns_rr_owner(rr)) for rr in owners] == names, "ldns", names, message.hex())
    LDNS.ldns_pkt_free(packet)


# The offsets of the names in the data of records, after so many octets.
RECORDS = {"NS": 0, "CNAME": 0, "PTR": 0, "MX": 2, "SRV": 6, "SOA": 0}


def record(kind, owner, names):
    octets = bytes(RECORDS[kind]) + form(names[0])
    if kind == "SOA":
        octets += form(names[1]) + bytes(20)
    rdata = dns.rdata.from_wire(dns.rdataclass.IN, dns.rdatatype.from_text(kind), octets, 0, len(octets))
    return dns.rrset.from_rdata(dns.name.Name(owner), 3600, rdata)


def check_packet(names):
    """A packet of dnspython: a question, and records in the answer. Returns how many names it has."""
    packet, wanted = dns.message.Message(), [names[0]]
    packet.question.append(dns.rrset.RRset(dns.name.Name(names[0]), dns.rdataclass.IN, dns.rdatatype.A))
    for owner, first, second in zip(names[1:], names[2:], names[3:]):
        kind = random.choice(list(RECORDS))
        packet.answer.append(record(kind, owner, (first, second)))
        wanted += [owner, first, second] if kind == "SOA" else [owner, first]
    found = list(names_of(packet.to_wire(max_size=65535)))
    lower = [[tuple(label.lower() for label in name) for name in some] for some in (found, wanted)]
    check(lower[0] == lower[1], "dnspython's packet", wanted)
    return len(wanted)


def names_of(message):
    """The names of a packet with one question, and with records in the answer, as our library reads them."""
    name, at = read_ours(message, 12)
    yield name
    at += 4
    for _ in range(struct.unpack_from("!H", message, 6)[0]):
        name, at = read_ours(message, at)
        yield name
        kind, _, _, size = struct.unpack_from("!HHIH", message, at)
        kind = dns.rdatatype.to_text(kind)
        first, after = read_ours(message, at + 10 + RECORDS[kind])
        yield first
        if kind == "SOA":
            yield read_ours(message, after)[0]
        at += 10 + size
    check(at == len(message), "bytes left", message.hex())


def main():
    random.seed(1035)
    messages, counts = int(sys.argv[2]) if len(sys.argv) > 2 else 10000, [0, 0, 0]
    for number in range(messages):
        names = random_names(random.randint(1, 200 if number % 50 == 0 else 20))
        check_list(names)
        check_questions(names[:5])
        counts = [count + n for count, n in zip(counts, (len(names), len(names[:5]), check_packet(names)))]
    print(f"readers: {messages} lists with {counts[0]} names, and {messages} packets with {counts[1]} questions, written here:")
    LDNS.ldns_version.restype = ctypes.c_char_p
    print(f"readers: the same names for dnspython {dns.version.version} and ldns {LDNS.ldns_version().decode()}")
    print(f"readers: {messages} packets of dnspython with {counts[2]} names: the same names here")


if __name__ == "__main__":
    main()
