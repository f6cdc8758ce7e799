"""The sums that DNSSEC makes: key tags, digests of keys and of zones, hashed names, and which names a record covers."""

from ctypes import byref, c_bool, c_uint16
from typing import TYPE_CHECKING, Callable, Iterable, Union

from . import _header as dnw
from ._checks import Bytes, number, octets, wrong_type
from ._codes import RecordType
from ._data import Data, NameLike
from ._errors import check, stored
from ._library import library
from ._names import whole_name
from ._records import Record, own_record

if TYPE_CHECKING:
    from ._rdata import DS


class Key(Data):
    """Data that are the key of a zone, those of DNSKEY and CDNSKEY."""

    if TYPE_CHECKING:

        @property
        def algorithm(self) -> int: ...

    def key_tag(self) -> int:
        """Returns the key tag (RFC 4034, appendix B).

        >>> from dns_names_wire import DNSKEY
        >>> DNSKEY(256, 3, 8, b"").key_tag()
        1032
        """
        return key_tag(self)

    def ds(self, owner: NameLike, digest_type: int = 2) -> "DS":
        """Returns the data of the DS record for this key of an owner (RFC 4034, section 5.1). Digest type 1 is SHA-1, 2 is
        SHA-256 and 4 is SHA-384. Raises as `ds_digest`.

        >>> from dns_names_wire import DNSKEY
        >>> print(DNSKEY(256, 3, 8, b"").ds("example.net.", 1))
        1032 8 1 ADD4045BCCE79ED471D7F53FB71C12E48FB8B56E
        """
        from ._rdata import DS

        return DS(self.key_tag(), self.algorithm, digest_type, ds_digest(whole_name("owner", owner), self, digest_type))


# A key: the octets of its data, its data, or a record with them.
KeyLike = Union[Bytes, Key, Record]


def _key(what: str, key: KeyLike) -> bytes:
    """Returns the octets of the data of a key."""
    if isinstance(key, Key):
        return octets(what, key.to_wire())
    if not isinstance(key, Record):
        return octets(what, key)
    record = own_record(what, key)
    if record.record_type not in (RecordType.DNSKEY, RecordType.CDNSKEY):
        check(dnw.NOT_DNSKEY)
    return record.raw_data


def key_tag(dnskey: KeyLike) -> int:
    """Returns the key tag of a DNSKEY (RFC 4034, appendix B): of a record, or of its data, or of their octets.

    Raises `NotDnskey` if the record is of another type, if the data have fewer than 4 octets or more than 65535, or if
    the algorithm is 1 and they have fewer than 7.

    >>> key_tag(bytes.fromhex("01000308")), key_tag(Record.from_text("a. 60 IN DNSKEY 256 3 8 AQAB"))
    (1032, 1544)
    """
    own, tag = _key("dnskey", dnskey), c_uint16()
    check(library.dnw_key_tag(own, len(own), byref(tag)))
    return tag.value


def ds(dnskey: Record, digest_type: int = 2) -> "DS":
    """Returns the data of the DS record for a DNSKEY record (RFC 4034, section 5.1), as `DNSKEY.ds`.

    Raises `NotDnskey` if the record is of another type, and as `ds_digest`.

    >>> print(ds(Record.from_text("example.net. 60 IN DNSKEY 256 3 8 AQAB")))
    1544 8 2 A61240151E2A3749D35B1A1350C76E5F01EAE6100027A29E534E0426EBD1E114
    """
    record = own_record("dnskey", dnskey)
    data = record.data
    if not isinstance(data, Key):
        check(dnw.NOT_DNSKEY)
        raise wrong_type("dnskey", "a record of a key is", data)
    return data.ds(record.owner, digest_type)


def ds_digest(owner: NameLike, dnskey: KeyLike, digest_type: int) -> bytes:
    """Returns the digest of a DNSKEY that a DS record has, by its owner and its data (RFC 4034, section 5.1.4). Digest
    type 1 is SHA-1, 2 is SHA-256 and 4 is SHA-384.

    Raises `NotDnskey` if a record is of another type, or the data have fewer than 4 octets or more than 65535, and
    `UnknownAlgorithm` for another digest type.

    >>> ds_digest("example.net.", bytes.fromhex("01000308"), 1).hex()
    'add4045bcce79ed471d7f53fb71c12e48fb8b56e'
    """
    wire = whole_name("owner", owner).wire
    own, code = _key("dnskey", dnskey), number("digest_type", digest_type, 255)
    return stored(library.dnw_ds_digest, wire, len(wire), own, len(own), code)


def nsec3_hash(name: NameLike, iterations: int, salt: Bytes, max_iterations: int, algorithm: int = 1) -> bytes:
    """Returns a name as NSEC3 hashes it (RFC 5155, section 5). `iterations`, `salt` and `algorithm` are fields of an
    NSEC3 or NSEC3PARAM record. `max_iterations` is how many are allowed, since each takes time (RFC 9276, section 3.2).

    Raises `UnknownAlgorithm` if the algorithm is not 1 (SHA-1), and `TooManyIterations` if there are more iterations
    than are allowed.

    >>> nsec3_hash("example.", 12, bytes.fromhex("aabbccdd"), 100).hex()
    '065368abeed7ec6e9feba96b8c8bc3e8b791f716'
    """
    return _hashed(library.dnw_nsec3_hash, name, iterations, salt, max_iterations, algorithm)


def nsec3_label(name: NameLike, iterations: int, salt: Bytes, max_iterations: int, algorithm: int = 1) -> str:
    """Returns the first label of the owner of the NSEC3 record that a name is hashed to: the hash in base 32 with the
    extended hex alphabet, in lower case and without padding (RFC 5155, section 3).

    Raises as `nsec3_hash`.

    >>> nsec3_label("example.", 12, bytes.fromhex("aabbccdd"), 100)
    '0p9mhaveqvm6t7vbl5lop2u3t2rp3tom'
    """
    return _hashed(library.dnw_nsec3_label, name, iterations, salt, max_iterations, algorithm).decode("ascii")


def _hashed(call: Callable[..., int], name: NameLike, iterations: int, salt: Bytes, max_iterations: int, algorithm: int) -> bytes:
    """What a function of the library stores of a name that is hashed so."""
    wire = whole_name("name", name).wire
    most = number("max_iterations", max_iterations, 65535)
    own, rounds = octets("salt", salt), number("iterations", iterations, 65535)
    return stored(call, wire, len(wire), number("algorithm", algorithm, 255), rounds, own, len(own), most)


def nsec_covers(owner: NameLike, next_name: NameLike, name: NameLike) -> bool:
    """Returns whether the NSEC record of `owner` with the next name `next_name` covers a name: the name comes after the
    owner and before the next name in canonical order, so the zone has no such name (RFC 4034, section 4.1.1).

    The next name of the last record of a zone is the zone's apex; that record covers each name of the zone after its
    owner. A name that is not in the zone is never covered. The caller has to check that the owner is not a delegation
    above the name (RFC 6840, section 4.1).

    >>> nsec_covers("b.example.", "ns1.example.", "ml.example.")
    True
    """
    covers = c_bool()
    first, last = whole_name("owner", owner).wire, whole_name("next_name", next_name).wire
    own = whole_name("name", name).wire
    check(library.dnw_nsec_covers(first, len(first), last, len(last), own, len(own), byref(covers)))
    return covers.value


def nsec3_covers(own_hash: Bytes, next_hash: Bytes, name_hash: Bytes) -> bool:
    """Returns whether the NSEC3 record with the hash `own_hash` and the next hash `next_hash` covers a hash: it comes
    between them, or, for the last record of a zone, after its own or before the next one (RFC 5155, section 8.3).

    >>> nsec3_covers(b"2" * 20, b"5" * 20, b"3" * 20)
    True
    """
    covers = c_bool()
    own, following = octets("own_hash", own_hash), octets("next_hash", next_hash)
    given = octets("name_hash", name_hash)
    check(library.dnw_nsec3_covers(own, len(own), following, len(following), given, len(given), byref(covers)))
    return covers.value


def zone_digest(apex: NameLike, records: Iterable[Record], algorithm: int) -> bytes:
    """Returns the digest of a zone that a ZONEMD record has, by the scheme SIMPLE (RFC 8976, section 3.3.1), from
    records of one class in any order. Hash algorithm 1 is SHA-384, and 2 is SHA-512.

    The records of the zone are digested, glue and what is below a delegation too. Those whose owner is neither the apex
    nor below it are left out. Records that are the same but for the TTL count once, with the least TTL. The ZONEMD
    records at the apex, and the RRSIG records there that cover ZONEMD, are left out, so they may be given.

    Raises `UnknownAlgorithm` for another hash algorithm, `DataTooLong` if a record has more than 65535 octets of data
    once names are uncompressed, and as `Record.fields` for data that are not valid.

    >>> zone = [Record.from_text("a. 60 IN NS ns.a."), Record.from_text("ns.a. 60 IN A 192.0.2.1")]
    >>> zone_digest("a.", zone, 1) == zone_digest("a.", reversed(zone), 1)
    True
    """
    wire = whole_name("apex", apex).wire
    code = number("algorithm", algorithm, 255)
    whole = b"".join([own_record("records", record).to_wire() for record in records])
    return stored(library.dnw_zone_digest, wire, len(wire), whole, len(whole), code)
