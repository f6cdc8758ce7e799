"""Exchanges whole messages with dnspython and ldns: `exchange.py LIBRARY [MESSAGES [SEED]]`.

dnspython writes random messages: questions, records in all three sections, and EDNS with options. Ours reads each of them:
its header and counts, its questions, what it says by EDNS, and each record's owner, type, class, time to live and data, names
whole; and, unless its names have odd octets, its text. All must be what dnspython reads in the same octets. Then ours writes the
message again from what it has read, and packs the message itself, and dnspython and ldns must read the same in both.
"""

import ctypes
import pathlib
import random
import struct
import sys

import dns.edns
import dns.exception
import dns.flags
import dns.message
import dns.name
import dns.opcode
import dns.rcode
import dns.rdata
import dns.rdataclass
import dns.rdatatype
import dns.rrset
import dns.version

DIFF = pathlib.Path(__file__).resolve().parent.parent / "diff"
sys.path.insert(0, str(DIFF / "servers"))
import record as texts  # noqa: E402

OURS = ctypes.CDLL(sys.argv[1])
LDNS = ctypes.CDLL("libldns.so")
MOST_POINTERS = ctypes.c_size_t(65536)
HEADER_SIZE = 12

# The kinds of items and of fields in dns_names_wire.h.
FIELD_END, FIELD_NAME = 0, 1
# The types of RFC 1035 whose data are a name: NS, MD, MF, CNAME, MB, MG, MR and PTR.
OPT, TSIG = 41, 250
LDNS_SECTION_ANSWER = 1
# The types that have a text of their own here, but not for dnspython: SIG and KEY.
OTHER_TEXTS = {24, 25}

LABELS = [b"com", b"example", b"Example", b"www", b"net", b"a", b"b", b"_tcp", b"mail", b"host-7", b"xn--bcher-kva"]
FLAGS = [dns.flags.QR, dns.flags.AA, dns.flags.TC, dns.flags.RD, dns.flags.RA, dns.flags.AD, dns.flags.CD]
# The data of these types are names and numbers, which are random: so many octets before, names, and octets after.
NAMED = {"NS": (0, 1, 0), "CNAME": (0, 1, 0), "PTR": (0, 1, 0), "DNAME": (0, 1, 0), "MX": (2, 1, 0), "AFSDB": (2, 1, 0), "KX": (2, 1, 0),
         "SRV": (6, 1, 0), "SOA": (0, 2, 20), "RP": (0, 2, 0)}


class Message(ctypes.Structure):
    _fields_ = [("id", ctypes.c_uint16), ("is_response", ctypes.c_bool), ("op_code", ctypes.c_uint8),
                *((flag, ctypes.c_bool) for flag in ("aa", "tc", "rd", "ra", "ad", "cd")), ("response_code", ctypes.c_uint16),
                ("counts", ctypes.c_uint16 * 4), ("sections", ctypes.c_size_t * 3), ("end", ctypes.c_size_t)]


class Edns(ctypes.Structure):
    _fields_ = [("is_present", ctypes.c_bool), ("dnssec_ok", ctypes.c_bool), ("version", ctypes.c_uint8),
                ("max_payload", ctypes.c_uint16), ("response_code", ctypes.c_uint16), ("start", ctypes.c_size_t),
                ("len", ctypes.c_size_t)]


class Record(ctypes.Structure):
    _fields_ = [("owner_len", ctypes.c_size_t), ("kind", ctypes.c_uint16), ("record_class", ctypes.c_uint16),
                ("ttl", ctypes.c_uint32), ("start", ctypes.c_size_t), ("len", ctypes.c_size_t), ("end", ctypes.c_size_t)]


class Field(ctypes.Structure):
    _fields_ = [("kind", ctypes.c_uint32), ("offset", ctypes.c_size_t), ("len", ctypes.c_size_t)]


class Pair(ctypes.Structure):
    """Two sizes."""

    _fields_ = [("len", ctypes.c_size_t), ("other", ctypes.c_size_t)]


def check(fact, *what):
    if not fact:
        sys.exit(f"exchange: failed: {what}"[:8000])


def call(function, *words):
    """Calls a function of ours with the octets of a message, numbers and structures. It must not fail."""
    given = []
    for word in words:
        if isinstance(word, bytes):
            given += [word, ctypes.c_size_t(len(word))]
        elif isinstance(word, int):
            given.append(ctypes.c_size_t(word))
        elif isinstance(word, ctypes.Array):
            given += [word, ctypes.c_size_t(len(word))]
        else:
            given.append(ctypes.byref(word) if isinstance(word, ctypes.Structure) else word)
    answer = getattr(OURS, function)(*given)
    check(answer == 0, function, answer, words[0].hex())


# ---- what ours reads

NAME_ROOM, TEXT_ROOM = ctypes.create_string_buffer(255), ctypes.create_string_buffer(400000)


def read_name(message, at):
    """A name's wire form, and the offset after its own octets."""
    read = Pair()
    call("dnw_name_read", message, at, NAME_ROOM, read)
    return NAME_ROOM.raw[: read.len], read.other


def whole_data(message, record):
    """The data of a record, names whole: field by field, with the octets between them."""
    octets, at, fields, field = b"", record.start, Pair(record.start, 0), Field()
    while True:
        answer = OURS.dnw_field_next(message, ctypes.c_size_t(record.end), ctypes.c_size_t(record.start),
                                     ctypes.c_uint16(record.kind), ctypes.c_uint16(record.record_class), ctypes.byref(fields),
                                     ctypes.byref(field))
        check(answer == 0, "field", answer, record.kind, message.hex())
        if field.kind == FIELD_END:
            return octets + message[at : record.end]
        if field.kind == FIELD_NAME:
            name, end = read_name(message, field.offset)
            octets, at = octets + message[at : field.offset] + name, end


def read_records(message, at, count, with_text):
    """The records from an offset on, and where they end."""
    found, read, printed = [], Record(), Pair()
    for _ in range(count):
        call("dnw_record_read", message, at, NAME_ROOM, read)
        owner, text = NAME_ROOM.raw[: read.owner_len], None
        if with_text and read.kind not in OTHER_TEXTS:
            call("dnw_record_print", message, at, TEXT_ROOM, printed)
            text = TEXT_ROOM.raw[: printed.len].decode()
        data = message[read.start : read.end] if read.kind == OPT else whole_data(message, read)
        found.append(((owner, read.kind, read.record_class, read.ttl, data), text))
        at = read.end
    return found, at


def read_ours(message, with_text):
    """The header, the questions and the sections of a message as ours reads them, and what it says by EDNS."""
    read, fault, edns = Message(), (ctypes.c_size_t * 4)(), Edns()
    answer = OURS.dnw_message_read(message, ctypes.c_size_t(len(message)), MOST_POINTERS, ctypes.byref(read), fault)
    check(answer == 0, "message", answer, message.hex())
    call("dnw_edns_read", message, MOST_POINTERS, edns)
    questions, at = [], HEADER_SIZE
    for _ in range(read.counts[0]):
        name, at = read_name(message, at)
        questions.append((name, *struct.unpack_from("!HH", message, at)))
        at += 4
    sections = []
    for start, count in zip(read.sections, read.counts[1:]):
        check(start == at, "a section begins elsewhere", start, at, message.hex())
        records, at = read_records(message, at, count, with_text)
        sections.append(records)
    check(at == read.end == len(message), "octets left", message.hex())
    flags = [read.is_response, read.aa, read.tc, read.rd, read.ra, read.ad, read.cd]
    header = (read.id, read.op_code, flags, edns.response_code)
    says = (edns.version, edns.dnssec_ok, edns.max_payload, message[edns.start : edns.start + edns.len]) if edns.is_present else None
    check(read.response_code == edns.response_code & 15, "response code", message.hex())
    return header, questions, sections, says


# ---- what dnspython reads

def wire_of(name):
    return b"".join(bytes([len(label)]) + label for label in name.labels)


def options_of(message):
    octets = b""
    for option in message.options:
        data = option.to_wire()
        octets += struct.pack("!HH", option.otype, len(data)) + data
    return octets


def line_of(rrset, data):
    words = (rrset.name, rrset.ttl, dns.rdataclass.to_text(rrset.rdclass), texts.type_text(rrset.rdtype), texts.data_text(data))
    return " ".join(str(word) for word in words)


def read_dnspython(wire, with_text):
    """The same of a message as dnspython reads it. It has the OPT record apart."""
    message = dns.message.from_wire(wire, one_rr_per_rrset=True)
    flags = [bool(message.flags & flag) for flag in FLAGS]
    header = (message.id, int(message.opcode()), flags, int(message.rcode()))
    questions = [(wire_of(rrset.name), int(rrset.rdtype), int(rrset.rdclass)) for rrset in message.question]
    sections = [
        [
            ((wire_of(rrset.name), int(rrset.rdtype), int(rrset.rdclass), rrset.ttl, data.to_wire()), line_of(rrset, data) if with_text and rrset.rdtype not in OTHER_TEXTS else None)
            for rrset in section
            for data in rrset
        ]
        for section in message.sections[1:]
    ]
    says = None
    if message.edns >= 0:
        says = (message.edns, bool(message.ednsflags & dns.flags.DO), max(512, message.payload), options_of(message))
    return header, questions, sections, says


# ---- what ldns reads

FLAG_CALLS = [LDNS.ldns_pkt_qr, LDNS.ldns_pkt_aa, LDNS.ldns_pkt_tc, LDNS.ldns_pkt_rd, LDNS.ldns_pkt_ra, LDNS.ldns_pkt_ad, LDNS.ldns_pkt_cd]
SECTION_CALLS = [LDNS.ldns_pkt_question, LDNS.ldns_pkt_answer, LDNS.ldns_pkt_authority, LDNS.ldns_pkt_additional]
BOOLS = [*FLAG_CALLS, LDNS.ldns_pkt_edns, LDNS.ldns_pkt_edns_do]
OCTETS = [LDNS.ldns_pkt_edns_extended_rcode, LDNS.ldns_pkt_edns_version]
SHORTS = [LDNS.ldns_pkt_id, LDNS.ldns_pkt_edns_udp_size]
SIZES = [LDNS.ldns_rr_list_rr_count, LDNS.ldns_rdf_size]
POINTERS = [*SECTION_CALLS, LDNS.ldns_rr_list_rr, LDNS.ldns_rr_owner, LDNS.ldns_rdf_data, LDNS.ldns_pkt_edns_data, LDNS.ldns_buffer_new]
for kind, functions in ((ctypes.c_bool, BOOLS), (ctypes.c_uint8, OCTETS), (ctypes.c_uint16, SHORTS), (ctypes.c_size_t, SIZES),
                        (ctypes.c_void_p, POINTERS), (ctypes.c_uint32, [LDNS.ldns_rr_ttl])):
    for function in functions:
        function.restype = kind
LDNS.ldns_version.restype = ctypes.c_char_p


class Buffer(ctypes.Structure):
    """The first fields of a buffer of ldns."""

    _fields_ = [("len", ctypes.c_size_t), ("limit", ctypes.c_size_t), ("capacity", ctypes.c_size_t), ("data", ctypes.c_void_p)]


BUFFER = ctypes.c_void_p(LDNS.ldns_buffer_new(ctypes.c_size_t(1 << 17)))


def pointer(function, *words):
    """What a function of ldns returns a pointer to."""
    return ctypes.c_void_p(function(*words))


def octets_of(rdf):
    return ctypes.string_at(LDNS.ldns_rdf_data(rdf), LDNS.ldns_rdf_size(rdf)) if rdf.value else b""


def data_ldns(rr):
    """The data of a record, names whole."""
    buffer = ctypes.cast(BUFFER, ctypes.POINTER(Buffer)).contents
    buffer.len, buffer.limit = 0, buffer.capacity
    check(LDNS.ldns_rr_rdata2buffer_wire(BUFFER, rr) == 0, "data that ldns does not write")
    return ctypes.string_at(buffer.data, buffer.len)


def records_ldns(packet, section):
    """The records of a section as ldns reads it, or its questions, without time to live and data."""
    found, listed = [], pointer(section, packet)
    for at in range(LDNS.ldns_rr_list_rr_count(listed)):
        rr = pointer(LDNS.ldns_rr_list_rr, listed, ctypes.c_size_t(at))
        one = octets_of(pointer(LDNS.ldns_rr_owner, rr)), LDNS.ldns_rr_get_type(rr), LDNS.ldns_rr_get_class(rr)
        found.append(one if section is LDNS.ldns_pkt_question else (*one, LDNS.ldns_rr_ttl(rr), data_ldns(rr)))
    return found


def is_read_by_ldns(kind, octets):
    """Whether it reads a record with these data, and to its end. It does not for each type: it takes the name of NSAP-PTR for a string."""
    wire = struct.pack("!xHHIH", kind, dns.rdataclass.IN, 0, len(octets)) + octets
    record, end, size = ctypes.c_void_p(), ctypes.c_size_t(0), ctypes.c_size_t(len(wire))
    status = LDNS.ldns_wire2rr(ctypes.byref(record), wire, size, ctypes.byref(end), LDNS_SECTION_ANSWER)
    if status == 0:
        LDNS.ldns_rr_free(record)
    return status == 0 and end.value == len(wire)


def read_ldns(wire):
    """The same of a message as ldns reads it. It has the OPT record apart."""
    packet = ctypes.c_void_p()
    status = LDNS.ldns_wire2pkt(ctypes.byref(packet), wire, ctypes.c_size_t(len(wire)))
    check(status == 0, "not read by ldns", status, wire.hex())
    code = LDNS.ldns_pkt_get_rcode(packet) + 16 * LDNS.ldns_pkt_edns_extended_rcode(packet)
    header = (LDNS.ldns_pkt_id(packet), LDNS.ldns_pkt_get_opcode(packet), [flag(packet) for flag in FLAG_CALLS], code)
    questions, *sections = (records_ldns(packet, section) for section in SECTION_CALLS)
    says = None
    if LDNS.ldns_pkt_edns(packet):
        size, options = max(512, LDNS.ldns_pkt_edns_udp_size(packet)), octets_of(pointer(LDNS.ldns_pkt_edns_data, packet))
        says = (LDNS.ldns_pkt_edns_version(packet), LDNS.ldns_pkt_edns_do(packet), size, options)
    LDNS.ldns_pkt_free(packet)
    return header, questions, sections, says


# ---- random messages

def pool():
    """Data of many types, from the RFCs' examples in diff/lists/data_texts.txt, that dnspython reads and writes as the same, and that
    ldns reads. dnspython reads a TSIG record only as the last of a message."""
    found = {}
    for line in (DIFF / "lists" / "data_texts.txt").read_text().splitlines():
        words = line.split()
        if not words or words[0] != "data-text" or int(words[1]) in (OPT, TSIG):
            continue
        kind, octets = int(words[1]), bytes.fromhex(words[2].strip("-"))
        try:
            data = dns.rdata.from_wire(dns.rdataclass.IN, kind, octets, 0, len(octets))
            if data.to_wire() == octets and is_read_by_ldns(kind, octets):
                found.setdefault(kind, []).append(data)
        except (dns.exception.DNSException, ValueError):
            pass
    return list(found.values())


def random_name(earlier, is_plain):
    labels = []
    for _ in range(random.randrange(random.choice([3, 3, 3, 20]))):
        size = random.choice([3, 8, 63])
        odd = random.randbytes(random.randint(1, size))
        labels.append(random.choice(LABELS) if is_plain or random.random() < 0.6 else odd)
    end = random.choice(earlier).labels if earlier and random.random() < 0.7 else (b"",)
    labels = (*labels, *end[random.randrange(len(end)) :])
    if sum(len(label) + 1 for label in labels) > 255:
        labels = end
    earlier.append(dns.name.Name(labels))
    return earlier[-1]


def random_data(earlier, is_plain, examples):
    """Random data of a type."""
    chance = random.random()
    if chance < 0.35:
        kind = random.choice(list(NAMED))
        before, names, after = NAMED[kind]
        octets = random.randbytes(before) + b"".join(wire_of(random_name(earlier, is_plain)) for _ in range(names)) + random.randbytes(after)
    elif chance < 0.65:
        return random.choice(random.choice(examples))
    else:
        kind, size = random.choice([("A", 4), ("AAAA", 16), ("TXT", None), ("HINFO", None), ("TYPE65280", 1), ("DHCID", 35), ("EUI48", 6)])
        octets = random.randbytes(size or 0)
        if size is None:
            parts = [random.randbytes(random.choice([0, 5, 255])) for _ in range(2 if kind == "HINFO" else random.randint(1, 4))]
            octets = b"".join(bytes([len(part)]) + part for part in parts)
    return dns.rdata.from_wire(dns.rdataclass.IN, dns.rdatatype.from_text(kind), octets, 0, len(octets))


def random_message(number, examples):
    """A message, and whether its names are plain, so that both libraries have the same texts of them."""
    is_plain = random.random() < 0.8
    message, earlier = dns.message.Message(id=random.getrandbits(16)), []
    message.flags = sum(flag for flag in FLAGS if random.random() < 0.5)
    message.set_opcode(random.choice([dns.opcode.QUERY] * 5 + [dns.opcode.NOTIFY, dns.opcode.STATUS]))
    code = random.choice([0, 0, 0, 3, random.randrange(16)])
    if random.random() < 0.7:
        options = [dns.edns.GenericOption(random.choice([3, 9, 10, 12, 65001]), random.randbytes(random.choice([0, 8, 40])))
                   for _ in range(random.choice([0, 0, 1, 3]))]
        flags = dns.flags.DO if random.random() < 0.5 else 0
        message.use_edns(random.choice([0, 0, 0, 1]), flags, random.choice([0, 512, 1232, 4096, 65535]), options=options)
        code = random.choice([code, code, random.randrange(4096)])
    message.set_rcode(code)
    for _ in range(random.choice([0, 1, 1, 1, 1, 1, 3])):
        name = random_name(earlier, is_plain)
        message.question.append(dns.rrset.RRset(name, dns.rdataclass.IN, random.choice([1, 2, 15, 16, 28, 255, 65280])))
    most = 150 if number % 50 == 0 else 6
    for section in message.sections[1:]:
        for _ in range(random.randint(0, most)):
            owner, ttl = random_name(earlier, is_plain), random.choice([0, 60, 86400, random.getrandbits(31)])
            section.append(dns.rrset.from_rdata(owner, ttl, random_data(earlier, is_plain, examples)))
    return message, is_plain


# ---- written again

def written_again(wire, read):
    """The message that ours writes from what it has read."""
    number, flags = struct.unpack("!HH", wire[:4])
    items = [b"\0" + name + struct.pack("!HH", kind, question_class) for name, kind, question_class in read[1]]
    high = 0
    for place, section in enumerate(read[2], 1):
        for (owner, kind, record_class, ttl, data), _ in section:
            fields = owner + struct.pack("!HHIH", kind, record_class, ttl, len(data)) + data
            items.append(bytes([place]) + fields)
            high = ttl >> 24 if kind == OPT else high
    listed, room, written = b"".join(items), ctypes.create_string_buffer(65535), Pair()
    answer = OURS.dnw_message_write(listed, ctypes.c_size_t(len(listed)), ctypes.c_size_t(65535), ctypes.c_uint16(number),
                                    ctypes.c_uint16(flags), ctypes.c_uint16(high << 4 | flags & 15), ctypes.c_bool(False), ctypes.c_uint16(0),
                                    room, ctypes.c_size_t(len(room)), ctypes.byref(written))
    check(answer == 0 and written.other & 255 == flags >> 9 & 1, "not written", answer, wire.hex())
    return room.raw[: written.len]


def packed(wire):
    """The message, packed by ours."""
    room, result = ctypes.create_string_buffer(65535), Pair()
    answer = OURS.dnw_message_pack(wire, ctypes.c_size_t(len(wire)), ctypes.c_uint16(65535), ctypes.c_uint16(0), room, ctypes.c_size_t(len(room)),
                                   ctypes.byref(result))
    check(answer == 0, "not packed", answer, wire.hex())
    return room.raw[: result.len]


def first_difference(mine, other):
    """The first of the parts of two readings that differ."""
    if isinstance(mine, (list, tuple)) and isinstance(other, (list, tuple)) and len(mine) == len(other):
        return next((first_difference(*both) for both in zip(mine, other) if both[0] != both[1]), (mine, other))
    return mine, other


def without_opt(read):
    header, questions, sections, says = read
    return header, questions, [[one for one in section if one[0][1] != OPT] for section in sections], says


def without_texts(read):
    header, questions, sections, says = read
    return header, questions, [[one for one, _ in section] for section in sections], says


def main():
    count, seed = [int(word) for word in sys.argv[2:4]] + [100000, 1035][len(sys.argv) - 2 :]
    random.seed(seed)
    examples, kinds, questions, records, lines, octets, again_octets = pool(), set(), 0, 0, 0, 0, 0
    for number in range(count):
        message, is_plain = random_message(number, examples)
        wire = message.to_wire(max_size=65535)
        ours, theirs = read_ours(wire, is_plain), read_dnspython(wire, is_plain)
        check(without_opt(ours) == theirs, "read", *first_difference(without_opt(ours), theirs), wire.hex())
        for what, again in (("written again", written_again(wire, ours)), ("packed", packed(wire))):
            there = read_dnspython(again, is_plain)
            check(there == theirs, what, *first_difference(there, theirs), wire.hex(), again.hex())
            there = read_ldns(again)
            check(there == without_texts(theirs), f"{what}, for ldns", *first_difference(there, without_texts(theirs)), again.hex())
        questions, records = questions + len(ours[1]), records + sum(map(len, ours[2]))
        kinds.update(record[1] for section in ours[2] for record, _ in section)
        lines += sum(line is not None for section in theirs[2] for _, line in section)
        octets, again_octets = octets + len(wire), again_octets + len(again)
    print(f"exchange: {count} messages of dnspython {dns.version.version} with {questions} questions and {records} records of "
          f"{len(kinds)} types, seed {seed}: the same here, and {lines} lines of text")
    print(f"exchange: written again, and packed, in {again_octets} octets for {octets}: the same for dnspython "
          f"and ldns {LDNS.ldns_version().decode()}")


if __name__ == "__main__":
    main()
