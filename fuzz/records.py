"""Exchanges records of each type with dnspython and ldns, in octets and in text: `records.py LIBRARY [RECORDS [SEED [TYPE..]]]`.

Random data of each type of docs/DATA.md, and of one that nobody knows, from the fields that stand there. Ours prints each record
and parses the line as the same octets. Each of the others reads the octets and writes them again; its line is parsed by ours, and
ours by it. All must be the same octets. Where another library has no text of a type, another one, or refuses data, DIFFERENCES
says so, and how often is printed.
"""

import collections
import ctypes
import pathlib
import random
import re
import struct
import sys
import time

import dns.dnssectypes
import dns.exception
import dns.name
import dns.rdata
import dns.rdatatype
import dns.version

ROOT = pathlib.Path(__file__).resolve().parent.parent
OURS = ctypes.CDLL(sys.argv[1])
LDNS = ctypes.CDLL("libldns.so")
LIBC = ctypes.CDLL(None)

IN = 1
UNKNOWN = 65280


class Refused(Exception):
    """A library does not take octets or a text."""


# ---- random data


def one_of(*values):
    return random.choice(values)


def number(size):
    most = 256**size - 1
    return one_of(0, 1, most, random.randint(0, most), random.randint(0, most), random.randint(0, min(most, 300))).to_bytes(size, "big")


def octets(*lengths):
    return random.randbytes(one_of(*lengths))


HOSTILE = b"\"\\;()@$ \t\n\r\0.,=#*09aZ\x7f\x80\xff"


def string():
    """A character string: letters, what means something to a reader of zone files, or any octets."""
    length = one_of(0, 1, 2, 7, 7, 7, 30, 255)
    alphabet = one_of(b"abcXYZ019-", HOSTILE, bytes(range(256)))
    return bytes(random.choices(alphabet, k=length))


def counted(part):
    return bytes([len(part)]) + part


def name():
    """A name: ordinary, with odd octets, long, or the root."""
    labels, left = [], one_of(1, 20, 40, 40, 255, 255)
    for _ in range(one_of(1, 2, 3, 3, 4, 127)):
        label = one_of(b"com", b"example", b"Example", b"www", b"a", b"xn--bcher-kva", b"*", b"_tcp")
        if random.random() < 0.4:
            label = bytes(random.choices(one_of(b"abcXYZ019-", HOSTILE, bytes(range(256))), k=one_of(1, 1, 2, 8, 63)))
        if len(label) + 1 > left - 1:
            break
        labels.append(label)
        left -= len(label) + 1
    return b"".join(map(counted, labels)) + b"\0"


# Those that stand in bitmaps, and any.
TYPES = [1, 2, 5, 6, 12, 15, 16, 28, 33, 35, 43, 44, 46, 47, 48, 50, 51, 52, 257]


def types():
    """A bitmap of types; at times with zeros at the end of a window."""
    codes = random.sample(TYPES, one_of(0, 1, 2, 5, 10))
    codes += [random.randint(1, 65535) for _ in range(one_of(0, 0, 0, 1, 3))]
    codes += random.choices([[], [0], list(range(1, 256))], [75, 5, 20])[0]
    windows = collections.defaultdict(bytearray)
    for code in codes:
        window = windows[code // 256]
        window.extend(bytes(max(0, code % 256 // 8 + 1 - len(window))))
        window[code % 256 // 8] |= 0x80 >> code % 8
    if random.random() < 0.05:
        window = windows[random.randint(0, 255)]
        window.extend(bytes(max(1, one_of(1, 32 - len(window)))))
    return b"".join(bytes([at]) + counted(bytes(windows[at][:32])) for at in sorted(windows))


def value_of(key, keys):
    """The value of a service parameter, of the form of its key."""
    if key == 0:
        wanted = sorted(random.sample(keys, random.randint(1, len(keys)))) if keys else [1]
        return b"".join(code.to_bytes(2, "big") for code in wanted)
    if key == 1:
        return b"".join(counted(one_of(b"h2", b"h3", string() or b"x")) for _ in range(one_of(1, 2, 3)))
    if key in (2, 3):
        return random.randbytes(2 if key == 3 else 0)
    if key in (4, 6):
        return random.randbytes(one_of(1, 2, 5) * (4 if key == 4 else 16))
    return octets(1, 2, 3, 50) if key == 5 else one_of(b"", string(), octets(0, 1, 300))


def params():
    """Service parameters; at times with values that have not the form of their key."""
    keys = random.sample(range(1, 7), one_of(0, 1, 2, 3, 6)) + [random.randint(7, 65535) for _ in range(one_of(0, 0, 1, 3))]
    keys = sorted({*keys, *([1] if 2 in keys and random.random() < 0.9 else [])})
    listed = ([0] if keys and random.random() < 0.3 else []) + keys
    made = b""
    for key in listed:
        value = octets(0, 1, 2, 3, 4, 16, 40) if random.random() < 0.05 else value_of(key, keys)
        made += struct.pack("!HH", key, len(value)) + value
    return made


def rest():
    """The octets up to the end."""
    return random.randbytes(random.choices([one_of(0, 1, 2, 3, 4), one_of(16, 20, 32, 48, 64, 130), 1000, 20000], [30, 60, 9.9, 0.1])[0])


def field(kind):
    """A random field, as the words of docs/DATA.md have it."""
    if kind[0] == "u" and kind[1:].isdigit():
        return number(int(kind[1:]) // 8)
    if kind == "tag":
        return counted(bytes(random.choices(b"abcXYZ019", k=one_of(1, 5, 9, 255)))) if random.random() < 0.9 else counted(string())
    makers = {
        "IPv4 address": lambda: octets(4),
        "IPv6 address": lambda: one_of(octets(16), bytes(10) + b"\xff\xff" + octets(4), bytes(12) + octets(4), *zeros_inside(2)),
        "type": lambda: one_of(one_of(*TYPES), random.randint(0, 65535)).to_bytes(2, "big"),
        "time": lambda: number(4),
        "name": name,
        "string": lambda: counted(string()),
        "strings": lambda: b"".join(counted(string()) for _ in range(one_of(1, 1, 2, 3, 20))),
        "counted octets": lambda: counted(octets(0, 1, 4, 8, 20, 20, 20, 255)),
        "types": types,
        "parameters": params,
        "octets": rest,
        "long time": lambda: number(6),
        "locator": lambda: number(8),
        "node number": lambda: number(8),
        "long octets": lambda: long_counted(octets(0, 1, 4, 16, 32, 64, 300)),
        "location": loc,
        "gateway": lambda: gateway(lambda kind: bytes([kind]) + number(1)),
        "relay": lambda: gateway(lambda kind: bytes([kind | one_of(0, 128)])),
        "host identity": identity,
        "address suffix and name unless the prefix is empty": suffix,
        "prefixes": prefixes,
        "names": lambda: b"".join(name() for _ in range(one_of(0, 0, 1, 3))),
    }
    return makers[kind]()


def zeros_inside(count):
    """IPv6 addresses with groups of zeros, of which one is left out in text."""
    return [b"".join(one_of(b"\0\0", b"\0\0", b"\0\1", octets(2)) for _ in range(8)) for _ in range(count)]


def with_digest(lengths):
    """Gives two of three digests the length that their type has."""

    def change(values):
        if random.random() < 0.67:
            kind = one_of(*lengths)
            values[2:] = [bytes([kind]), random.randbytes(lengths[kind])]
        return values

    return change


def loc():
    sizes = bytes(one_of(0, 0x10, 0x29, one_of(0, 1, 1, 1, 5, 5, 9, 9) * 16 + random.randint(0, 9)) for _ in range(3))
    places = (2**31 + random.randint(-most * 3600000, most * 3600000) for most in (90, 180))
    return b"\0" + sizes + struct.pack("!III", *places, one_of(10000000, random.getrandbits(32), random.getrandbits(24)))


def gateway(head):
    """A gateway or a relay, after what is before one of its type."""
    kind = one_of(0, 1, 2, 3, 3)
    return head(kind) + (b"", random.randbytes(4), random.randbytes(16), name())[kind]


def isdn():
    return b"".join(counted(string()) for _ in range(one_of(1, 2)))


def identity():
    hit, key = octets(1, 16, 16, 255), octets(1, 2, 3, 70, 300)
    return bytes([len(hit)]) + number(1) + struct.pack("!H", len(key)) + hit + key


def suffix():
    """The length of a prefix, the octets of an address with the other bits, and the name of the prefix if it has bits."""
    length = one_of(0, 1, 7, 8, 64, 127, 128, random.randint(0, 128))
    return bytes([length]) + random.randbytes((135 - length) // 8) + (name() if length else b"")


def prefixes():
    """Address prefixes, without zeros at their ends."""
    made = b""
    for _ in range(one_of(0, 1, 1, 2, 5)):
        family, most = one_of((1, 4), (2, 16))
        part = octets(*range(most + 1)).rstrip(b"\0")
        made += struct.pack("!HBB", family, random.randint(0, 8 * most), len(part) | one_of(0, 128)) + part
    return made


def long_counted(part):
    return struct.pack("!H", len(part)) + part


# What changes the data of types of which the others know more than docs/DATA.md says.
SHAPES = {
    "DS": with_digest({1: 20, 2: 32, 4: 48}),
    "DLV": with_digest({1: 20, 2: 32, 4: 48}),
    "ISDN": lambda values: [isdn()] if random.random() < 0.9 else values,
    "GPOS": lambda values: values if random.random() < 0.1 else [counted(one_of(b"-32.6882", b"0", b"10.0", b"89.999")) for _ in values],
    "CDS": with_digest({1: 20, 2: 32, 4: 48}),
    "ZONEMD": with_digest({1: 48, 2: 64}),
}


class Sample:
    """A random record: its type's code and name, its fields, its octets, and its line."""

    def __init__(self, code, kind, fields):
        self.code, self.kind = code, kind
        words = [re.sub(r" \([CL]\)", "", word) for word in fields]
        values = SHAPES.get(kind, list)([field(word) for word in words])
        self.fields, self.data = list(zip(words, values)), b"".join(values)
        self.owner = name() if random.random() < 0.3 else b"\1a\7Example\0"
        # a time to live has 31 bits (RFC 2181, section 8)
        self.ttl = one_of(0, 1, 3600, random.getrandbits(31))
        self.octets = self.owner + struct.pack("!HHIH", code, IN, self.ttl, len(self.data)) + self.data


def table():
    """The code, the name and the fields of each type of docs/DATA.md, and those of a type that nobody knows."""
    rows = re.findall(r"^\| (\d+) \| (\S+) \| ([^|]+) \|", (ROOT / "docs" / "DATA.md").read_text(), re.M)
    return [*((int(code), kind, fields.split(", ")) for code, kind, fields in rows), (UNKNOWN, f"TYPE{UNKNOWN}", ["octets"])]


# ---- ours

TEXT_ROOM, DATA_ROOM = ctypes.create_string_buffer(400000), ctypes.create_string_buffer(66000)
PRINTED, LENGTH = (ctypes.c_size_t * 2)(), ctypes.c_size_t()


def sized(word):
    return word, ctypes.c_size_t(len(word))


def printed(record):
    """The line that ours prints of a record."""
    answer = OURS.dnw_record_print(*sized(record), ctypes.c_size_t(0), *sized(TEXT_ROOM), PRINTED)
    if answer != 0 or PRINTED[1] != len(record):
        raise Refused(f"not printed: {answer}")
    return ctypes.string_at(TEXT_ROOM, PRINTED[0]).decode("ascii")


def made(function, *words):
    answer = function(*words, b"", ctypes.c_size_t(0), *sized(DATA_ROOM), ctypes.byref(LENGTH))
    if answer != 0:
        raise Refused(f"failure {answer}")
    return ctypes.string_at(DATA_ROOM, LENGTH.value)


def parsed_line(line):
    return made(OURS.dnw_record_parse, *sized(line.encode()))


def parsed_data(code, text):
    return made(OURS.dnw_data_parse, ctypes.c_uint16(code), ctypes.c_uint16(IN), *sized(text.encode()))


def type_text(code):
    """The name of a type as ours prints it."""
    OURS.dnw_type_print(ctypes.c_uint16(code), *sized(TEXT_ROOM), ctypes.byref(LENGTH))
    return ctypes.string_at(TEXT_ROOM, LENGTH.value).decode()


def type_code(text):
    code = ctypes.c_uint16()
    return code.value if OURS.dnw_type_parse(*sized(text.encode()), ctypes.byref(code)) == 0 else None


# ---- the others

# How many words are before the types of a bitmap.
BEFORE_TYPES = {"NSEC": 1, "NSEC3": 5, "CSYNC": 2}


def with_types(kind, text, change):
    """A text with its words that are types changed: the first of a signature, and those of a bitmap."""
    words = text.split()
    if text.startswith("\\#"):
        return text
    if kind in ("RRSIG", "SIG"):
        return " ".join([change(words[0]), *words[1:]])
    if kind in BEFORE_TYPES:
        at = BEFORE_TYPES[kind]
        return " ".join(words[:at] + [change(word) for word in words[at:]])
    return text


class Dnspython:
    """Reads and writes data with dnspython, and the names of owners."""

    name = f"dnspython {dns.version.version}"

    def like(self, code):
        """SIG and KEY have the fields and the text of RRSIG and DNSKEY, which dnspython has."""
        return {24: 46, 25: 48}.get(code, code)

    def read(self, sample):
        try:
            return dns.rdata.from_wire(IN, self.like(sample.code), sample.data, 0, len(sample.data))
        except (dns.exception.DNSException, ValueError) as error:
            raise Refused(f"not read: {error!r}") from error

    def again(self, sample):
        data = self.read(sample).to_wire()
        return dns.name.from_wire(sample.owner, 0)[0].to_wire() + head_of(sample, len(data)) + data

    def line(self, sample):
        try:
            text = self.read(sample).to_text()
        except ValueError as error:
            raise Refused(f"not printed: {error!r}") from error
        return f"{dns.name.from_wire(sample.owner, 0)[0]} {sample.ttl} IN {dns.rdatatype.to_text(sample.code)} {text}"

    def parse(self, sample, line):
        owner, ttl, record_class, kind, text = line.split(" ", 4)
        try:
            code = self.like(dns.rdatatype.from_text(kind))
            data = dns.rdata.from_text(record_class, code, text).to_wire()
        except (dns.exception.DNSException, ValueError) as error:
            raise Refused(f"not parsed: {error!r}") from error
        return dns.name.from_text(owner).to_wire() + struct.pack("!HHIH", sample.code, IN, int(ttl), len(data)) + data

    def has_type(self, word):
        return word in dns.rdatatype.RdataType.__members__ or word == "NSAP-PTR"


def head_of(sample, length):
    return struct.pack("!HHIH", sample.code, IN, sample.ttl, length)


LDNS.ldns_rr2str_fmt.restype = ctypes.c_void_p
LDNS.ldns_version.restype = LDNS.ldns_get_errorstr_by_id.restype = ctypes.c_char_p
LDNS.ldns_rr_free.argtypes = LIBC.free.argtypes = [ctypes.c_void_p]
LDNS.ldns_rr_free.restype = LIBC.free.restype = None
NO_COMMENTS = ctypes.c_void_p.in_dll(LDNS, "ldns_output_format_nocomments")
ANSWER = 1


class Ldns:
    """Reads and writes whole records with ldns."""

    name = f"ldns {LDNS.ldns_version().decode()}"

    def __init__(self):
        self.rr = ctypes.c_void_p()

    def must(self, status, what):
        if status != 0:
            raise Refused(f"{what}: {LDNS.ldns_get_errorstr_by_id(status).decode()}")

    def free(self):
        LDNS.ldns_rr_free(self.rr)
        self.rr = ctypes.c_void_p()

    def read(self, sample):
        at = ctypes.c_size_t()
        self.must(LDNS.ldns_wire2rr(ctypes.byref(self.rr), *sized(sample.octets), ctypes.byref(at), ANSWER), "not read")
        if at.value != len(sample.octets):
            raise Refused(f"read up to {at.value} of {len(sample.octets)}")

    def written(self):
        wire, size = ctypes.c_void_p(), ctypes.c_size_t()
        self.must(LDNS.ldns_rr2wire(ctypes.byref(wire), self.rr, ANSWER, ctypes.byref(size)), "not written")
        octets = ctypes.string_at(wire, size.value)
        LIBC.free(wire)
        self.free()
        return octets

    def again(self, sample):
        self.read(sample)
        return self.written()

    def line(self, sample):
        self.read(sample)
        text = LDNS.ldns_rr2str_fmt(NO_COMMENTS, self.rr)
        self.free()
        if not text:
            raise Refused("not printed")
        line = ctypes.string_at(text).decode("latin-1")
        LIBC.free(text)
        return " ".join(line.rstrip("\n").split("\t", 4))

    def parse(self, sample, line):
        self.must(LDNS.ldns_rr_new_frm_str(ctypes.byref(self.rr), line.encode(), 0, None, None), "not parsed")
        return self.written()

    def has_type(self, word):
        return LDNS.ldns_get_rr_type_by_name(word.encode()) != 0


# ---- what another library has otherwise


def names_of(sample):
    """The names of a record: its owner, and those in its data."""
    return [sample.owner, *(value for kind, value in sample.fields if kind == "name")]


def value_of_last(sample):
    return sample.fields[-1][1]


def has_mnemonic(sample):
    """A certificate's type or algorithm for which another library has a word."""
    kind, algorithm = int.from_bytes(sample.data[:2], "big"), sample.data[4]
    return kind in {1, 2, 3, 4, 5, 6, 7, 8, 253, 254} or algorithm in set(dns.dnssectypes.Algorithm)


def has_other_digest(lengths, reserved):
    """A digest of another length than that of its type, or one of these fields that is 0."""

    def holds(sample):
        values = [value for _, value in sample.fields]
        return any(values[at] == b"\0" for at in reserved) or len(values[3]) != lengths.get(values[2][0], len(values[3]))

    return holds


def is_no_loc(sample):
    """Not the octets of RFC 1876, section 2, or a place that does not exist, or a size that does not or has two forms, as 0 and 0 times 10."""
    data = sample.data
    if len(data) != 16 or data[0] != 0 or any(size >> 4 > 9 or size & 15 > 9 or 0 < size < 16 for size in data[1:4]):
        return True
    latitude, longitude = struct.unpack("!II", data[4:12])
    return abs(latitude - 2**31) > 90 * 3600000 or abs(longitude - 2**31) > 180 * 3600000


def loses_a_centimetre(sample):
    """The altitude of our text is less than 100 times its metres, as floats."""
    words = sample.line.split(" ")
    if words[4] == "\\#":
        return False
    metres = float(words[-4].rstrip("m"))
    return int(metres * 100.0) != round(metres * 100.0)


def name_ends(data, at):
    """Where a name without pointers ends, or nothing."""
    start = at
    while at < len(data) and 0 < data[at] < 64:
        at += 1 + data[at]
    return at + 1 if at < len(data) and data[at] == 0 and at + 1 - start <= 255 else None


def is_no_ipseckey(sample):
    data = sample.data
    if len(data) < 3 or data[1] > 3:
        return True
    end = name_ends(data, 3) if data[1] == 3 else 3 + (0, 4, 16)[data[1]]
    return end is None or end > len(data)


def has_no_key(sample):
    data = sample.data
    return len(data) == (name_ends(data, 3) if data[1] == 3 else 3 + (0, 4, 16)[data[1]])


def is_no_hip(sample):
    data = sample.data
    if len(data) < 4:
        return True
    at = 4 + data[0] + int.from_bytes(data[2:4], "big")
    while at is not None and at < len(data):
        at = name_ends(data, at)
    return at is None or at > len(data)


def values_of(sample):
    """The service parameters of a record: a value by each key."""
    left, found = value_of_last(sample), {}
    while left:
        key, size = struct.unpack("!HH", left[:4])
        found[key], left = left[4 : 4 + size], left[4 + size :]
    return found


def is_of_form(key, value):
    """A value of the form of its key (RFC 9460, sections 7 and 8)."""
    if key == 0:
        keys = [value[at : at + 2] for at in range(0, len(value), 2)]
        return value != b"" and len(value) % 2 == 0 and keys == sorted(set(keys)) and b"\0\0" not in keys
    if key == 1:
        left = value
        while left and 0 < left[0] < len(left):
            left = left[1 + left[0] :]
        return value != b"" and left == b""
    size = len(value)
    wanted = {2: size == 0, 3: size == 2, 4: size > 0 and size % 4 == 0, 5: size > 0, 6: size > 0 and size % 16 == 0}
    return wanted.get(key, True)


def has_other_value(sample):
    """A service parameter that is not of the form of its key."""
    return any(not is_of_form(key, value) for key, value in values_of(sample).items())


def lacks_a_key(sample):
    """Service parameters without one that `mandatory` lists (RFC 9460, section 8)."""
    values = values_of(sample)
    listed = values.get(0, b"")
    mandatory = [int.from_bytes(listed[at : at + 2], "big") for at in range(0, len(listed), 2)]
    return not set(mandatory) <= set(values)


def breaks_a_rule(sample):
    """Service parameters that are against a rule of RFC 9460, sections 2.4.2, 7.1.1 or 8."""
    values = values_of(sample)
    is_alias = sample.data[:2] == b"\0\0"
    return (is_alias and values != {}) or (2 in values and 1 not in values) or lacks_a_key(sample)


def has_odd_protocol(sample):
    """A protocol of `alpn` with an octet for which a list of values needs an escape (RFC 9460, appendix A.1)."""
    return any(octet < 33 or octet > 126 or octet in b'",\\' for octet in values_of(sample).get(1, b"")[1:])


def windows_of(sample):
    """The windows of a bitmap: their numbers, and their octets."""
    left = value_of_last(sample)
    while left:
        yield left[0], left[2 : 2 + left[1]]
        left = left[2 + left[1] :]


def is_longer(sample):
    """A bitmap with zeros at the end of a window, which no text says."""
    return any(window[-1] == 0 for _, window in windows_of(sample))


def is_no_bitmap(sample):
    """Octets that are no bitmap of ports, or could be fewer: with ports above 65535, or with zeros at the end."""
    return len(value_of_last(sample)) > 8192 or value_of_last(sample)[-1:] == b"\0"


def has_zero(sample):
    """A bitmap with type 0."""
    return any(number == 0 and window[0] > 127 for number, window in windows_of(sample))


def is_padded(sample):
    """A hashed name of which base 32 has padding, or none."""
    return sample.fields[4][1][0] % 5 != 0 or sample.fields[4][1][0] == 0


def is_late(sample):
    """A time for which another year than 1970 to 2106 is nearer to now (RFC 4034, section 3.1.5)."""
    times = [int.from_bytes(value, "big") for kind, value in sample.fields if kind == "time"]
    return any(at - time.time() > 2**31 - 86400 for at in times)


def has_high_octets(sample):
    """A string with an octet above 127."""
    return any(max(value, default=0) > 127 for kind, value in sample.fields if kind in ("string", "strings", "octets"))


def has_many_strings(sample):
    """More than two strings, or a second one without octets."""
    strings, left = [], sample.data
    while left:
        strings, left = [*strings, left[1 : 1 + left[0]]], left[1 + left[0] :]
    return len(strings) > 2 or strings[1:] == [b""]


def is_no_gpos(sample):
    """A string that is no latitude, longitude or altitude."""
    return not all(re.fullmatch(rb"-?\d{1,3}(\.\d+)?", value[1:]) for _, value in sample.fields)


def is_empty(sample):
    return value_of_last(sample) == b""


def begins_with_at(sample):
    return any(own[1:2] == b"@" for own in names_of(sample))


def has_quote(sample):
    return any(b'"' in own for own in names_of(sample))


def has_syntax(sample):
    """An octet that begins a comment, or that opens or closes a list, unless a backslash is before it."""
    return any(octet in b";()" for octet in sample.data)


def needs_escapes(sample):
    return any(not 32 <= octet < 127 or octet in b'"\\' for octet in value_of_last(sample))


def always(_):
    return True


ALL = OCTETS, THEIRS, OURS_THERE = "octets", "their text", "our text"
BASE = "SIG KEY CERT DS SSHFP RRSIG DNSKEY TLSA SMIMEA CDS CDNSKEY OPENPGPKEY ZONEMD"
SHA = {1: 20, 2: 32, 3: 32, 4: 48}
# Whose, in which ways, of which types, when, and what it is.
DIFFERENCES = [
    (Dnspython, ALL, "DS", has_other_digest(SHA, [2]), "refuses a digest of another length than its type's, and type 0"),
    (Dnspython, ALL, "DLV", has_other_digest(SHA, [2]), "refuses a digest of another length than its type's, and type 0"),
    (Dnspython, ALL, "ISDN", has_many_strings, "refuses more than two strings, or an empty second one"),
    (Dnspython, ALL, "GPOS", is_no_gpos, "refuses strings that are no numbers"),
    (Dnspython, ALL, "TSIG", always, "takes a TSIG for that of a message, and signs anew"),
    (Dnspython, ALL, "CDS", has_other_digest({**SHA, 0: 1}, []), "refuses a digest of another length than its type's"),
    (Dnspython, ALL, "ZONEMD", has_other_digest({1: 48, 2: 64}, [1, 2]), "refuses a digest of another length than its type's, scheme 0 and type 0"),
    (Dnspython, ALL, "LOC", is_no_loc, "refuses other octets than those of RFC 1876, or has one form of a size"),
    (Dnspython, ALL, "IPSECKEY", is_no_ipseckey, "refuses other octets than those of RFC 4025"),
    (Dnspython, ALL, "HIP", is_no_hip, "refuses other octets than those of RFC 8005"),
    (Dnspython, ALL, "SVCB HTTPS", has_other_value, "refuses a value that has not the form of its key"),
    (Dnspython, ALL, "SVCB HTTPS", breaks_a_rule, "refuses parameters in alias mode, and keys that others ask for and that are not there"),
    (Dnspython, ALL, "URI", is_empty, "refuses an empty target"),
    (Dnspython, ALL, "CAA", lambda sample: not sample.fields[1][1][1:].isalnum(), "refuses a tag with other characters than letters and digits"),
    (Dnspython, [THEIRS], "SVCB HTTPS", has_odd_protocol, "has other escapes in a list of protocols than RFC 9460"),
    (Dnspython, [THEIRS], "URI", needs_escapes, "prints a target without escapes"),
    (Dnspython, [THEIRS], "CERT", has_mnemonic, "prints mnemonics, and ours takes numbers"),
    (Dnspython, [THEIRS], "NSEC3", is_padded, "prints padding, or nothing for no hash"),
    (Dnspython, [THEIRS], "NSEC NSEC3 CSYNC", is_longer, "has no text for a bitmap with zeros at the end of a window"),
    (Dnspython, [THEIRS], "TKEY TSIG", always, "has a text, and ours has that of any data"),
    (Dnspython, [THEIRS], "WKS", is_no_bitmap, "prints ports above 65535, and loses zeros at the end of a bitmap"),
    (Dnspython, [THEIRS], "HIP", lambda sample: b"xn--" in sample.data.lower(), "prints labels in Punycode in Unicode"),
    (Dnspython, [OURS_THERE], "IPSECKEY", has_no_key, "wants a word for no octets"),
    (Dnspython, [OURS_THERE], "LOC", loses_a_centimetre, "reads an altitude as a float, and loses a centimetre"),
    (Dnspython, [OURS_THERE], "MD MF MB MG MR MINFO NXT", always, "has no text but that of any data"),
    (Dnspython, [OURS_THERE], "HINFO NAPTR CAA URI", has_high_octets, "takes an octet above 127 for a character, and writes that in UTF-8"),
    (Dnspython, [OURS_THERE], "NSEC NSEC3 CSYNC", has_zero, "refuses type 0 in a bitmap"),
    (Dnspython, [OURS_THERE], BASE, is_empty, "wants a word for no octets"),
    (Dnspython, [OURS_THERE], "NSEC3", is_padded, "wants padding"),
    (Ldns, ALL, "ISDN", has_many_strings, "refuses more than two strings, or an empty second one"),
    (Ldns, ALL, "NSAP-PTR", always, "takes the name for a string"),
    (Ldns, ALL, "HIP", is_no_hip, "refuses other octets than those of RFC 8005"),
    (Ldns, [THEIRS], "SVCB HTTPS", has_other_value, "has another text, or none, for a value that has not the form of its key"),
    (Ldns, [THEIRS, OURS_THERE], "SVCB HTTPS", has_odd_protocol, "has no escapes in a list of protocols"),
    (Ldns, [THEIRS], "SVCB HTTPS", has_syntax, "prints ; ( and ) in a value without a backslash"),
    (Ldns, [THEIRS], "CAA", lambda sample: not sample.fields[1][1][1:].isalnum(), "does not print a tag with other characters than letters and digits"),
    (Ldns, [THEIRS], None, has_quote, "prints a quote in a name without a backslash"),
    (Ldns, [THEIRS], "CERT", has_mnemonic, "prints mnemonics, and ours takes numbers"),
    (Ldns, [THEIRS], "NSEC3", is_padded, "prints padding, or nothing for no hash"),
    (Ldns, [THEIRS], "NSEC NSEC3 CSYNC", is_longer, "has no text for a bitmap with zeros at the end of a window"),
    (Ldns, [THEIRS], "SIG RRSIG", is_late, "prints a year before 1970 for a time that is nearer to now then"),
    (Ldns, [THEIRS], "CAA URI", is_empty, "prints nothing for an empty string"),
    (Ldns, [THEIRS], "LOC", is_no_loc, "prints zeros for 0 times a power of ten"),
    (Ldns, [THEIRS], "IPSECKEY HIP", lambda sample: b'"' in sample.data, "prints a quote in a name without a backslash"),
    (Ldns, [THEIRS, OURS_THERE], "IPSECKEY", has_no_key, "wants a word for no octets"),
    (Ldns, [OURS_THERE], "IPSECKEY HIP", lambda sample: b"@" in sample.data, "takes a name that begins with @ for the origin, with a backslash before it too"),
    (Ldns, [THEIRS], "TKEY TSIG", always, "has a text, and ours has that of any data"),
    (Ldns, [THEIRS], "NXT", always, "prints the bitmap in the form of any data"),
    (Ldns, [OURS_THERE], "NXT", always, "takes no types for the bitmap"),
    (Ldns, [THEIRS], "WKS", always, "prints protocols and ports by the names that the machine's files have"),
    (Ldns, [OURS_THERE], "WKS", is_empty, "wants a port"),
    (Ldns, [THEIRS], "SVCB HTTPS", lacks_a_key, "prints parameters without a key that `mandatory` lists, and ours wants it"),
    (Ldns, [OURS_THERE], None, lambda sample: len(sample.line.split(" ")[0]) > 254, "refuses an owner's text of more than 254 characters"),
    (Ldns, [OURS_THERE], None, begins_with_at, "takes a name that begins with @ for the origin, with a backslash before it too"),
    (Ldns, [OURS_THERE], "SVCB HTTPS", has_other_value, "refuses a value that has not the form of its key"),
    (Ldns, [OURS_THERE], BASE, is_empty, "wants a word for no octets"),
    (Ldns, [OURS_THERE], "CSYNC", is_empty, "wants a type"),
    (Ldns, [OURS_THERE], "CERT", lambda sample: sample.data[:2] == b"\0\0", "refuses type 0"),
    (Ldns, [OURS_THERE], "NSEC3", is_padded, "wants padding"),
]


def difference(peer, way, sample):
    """For which types, and what, another library has otherwise for this record, or nothing."""
    for whose, ways, kinds, when, what in DIFFERENCES:
        if isinstance(peer, whose) and way in ways and (kinds is None or sample.kind in kinds.split()) and when(sample):
            return sample.kind if kinds else "any type", what
    return None


# ---- the exchange


def ours_of(peer, sample):
    """The record that ours parses the line of another library as."""
    return parsed_line(peer.line(sample))


def theirs_of(peer, sample):
    """The record that another library parses our line as. Types whose name it does not know have their number there."""
    def known(word):
        return word if peer.has_type(word) else f"TYPE{type_code(word)}"

    owner, ttl, record_class, kind, text = sample.line.split(" ", 4)
    return peer.parse(sample, " ".join([owner, ttl, record_class, known(kind), with_types(sample.kind, text, known)]))


def tried(function, *words):
    """The octets that a function returns, or why it does not."""
    try:
        return function(*words)
    except Refused as error:
        return str(error)


def data_of(sample):
    """The record with the data that ours parses the text in its own line as."""
    data = parsed_data(sample.code, sample.line.split(" ", 4)[4])
    return sample.owner + head_of(sample, len(data)) + data


def results(peers, sample):
    """What should be the octets of a record, with whose way it is."""
    sample.line = printed(sample.octets)
    yield None, "line", tried(parsed_line, sample.line)
    yield None, "data", tried(data_of, sample)
    for peer in peers:
        yield peer, OCTETS, tried(peer.again, sample)
        yield peer, THEIRS, tried(ours_of, peer, sample)
        yield peer, OURS_THERE, tried(theirs_of, peer, sample)


class Tally:
    """How often octets were the same, what was otherwise by name, and what was by none."""

    def __init__(self):
        self.same, self.named, self.others = collections.Counter(), collections.Counter(), collections.Counter()

    def take(self, peer, way, sample, got):
        name = peer.name if peer else "ours"
        if got == sample.octets:
            self.same[name, way] += 1
            return
        what = difference(peer, way, sample)
        if what:
            self.named[(name, *what)] += 1
            return
        self.others[name, way, sample.kind] += 1
        if self.others[name, way, sample.kind] <= 3:
            got = got if isinstance(got, str) else got.hex()
            line = tried(peer.line, sample) if way == THEIRS else sample.line
            print(f"records: failed: {name}, {way}, {sample.kind}: {sample.octets.hex()}: {got}: {line}"[:4000], flush=True)


def main():
    count, seed = [int(word) for word in sys.argv[2:4]] + [10000, 3597][len(sys.argv[2:4]) :]
    peers, tally, octets_in_all = [Dnspython(), Ldns()], Tally(), 0
    rows = [row for row in table() if row[1] in sys.argv[4:] or len(sys.argv) < 5]
    for code, kind, fields in rows:
        random.seed(f"{seed} {kind}")
        for _ in range(count):
            sample = Sample(code, kind, fields)
            octets_in_all += len(sample.octets)
            for peer, way, got in results(peers, sample):
                tally.take(peer, way, sample, got)
    for (name, kind, what), times in sorted(tally.named.items()):
        print(f"records: {name}: {kind}: {what}: {times}")
    for (name, way), times in tally.same.items():
        print(f"records: {name}: {way}: the same {times} times")
    print(f"records: {count} of each of {len(rows)} types, seed {seed}, in {octets_in_all} octets: "
          f"{sum(tally.same.values())} the same, {sum(tally.named.values())} otherwise by name, {sum(tally.others.values())} failed")
    return 1 if tally.others else 0


if __name__ == "__main__":
    sys.exit(main())
