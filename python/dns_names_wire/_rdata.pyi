# made by tools/types from crates/dnw_data/specs/Table.antt; change it there
"""The data of records: a class for each type."""

from dataclasses import dataclass
from ipaddress import IPv4Address, IPv6Address
from typing import Dict, Iterable, Tuple

from ._checks import Bytes
from ._codes import RecordType
from ._data import Data, IPv4Like, IPv6Like, NameLike, StringLike, StringsLike, TypeLike, TypesLike
from ._dnssec import Key
from ._names import Name
from ._table import Prefix
from ._types import TypeSet

NAMES: Dict[int, str]

@dataclass(frozen=True)
class A(Data):
    """An IPv4 address (RFC 1035, section 3.4.1)."""
    address: IPv4Address
    def __init__(self, address: IPv4Like) -> None: ...

@dataclass(frozen=True)
class NS(Data):
    """A name server of a zone (RFC 1035, section 3.3.11)."""
    target: Name
    def __init__(self, target: NameLike) -> None: ...

@dataclass(frozen=True)
class MD(Data):
    """A host that takes mail, which is obsolete (RFC 1035, section 3.3.4)."""
    target: Name
    def __init__(self, target: NameLike) -> None: ...

@dataclass(frozen=True)
class MF(Data):
    """A host that forwards mail, which is obsolete (RFC 1035, section 3.3.5)."""
    target: Name
    def __init__(self, target: NameLike) -> None: ...

@dataclass(frozen=True)
class CNAME(Data):
    """The canonical name of an alias (RFC 1035, section 3.3.1)."""
    target: Name
    def __init__(self, target: NameLike) -> None: ...

@dataclass(frozen=True)
class SOA(Data):
    """The start of a zone of authority (RFC 1035, section 3.3.13).

    mname: The primary name server of the zone.
    rname: The mailbox of the person responsible for the zone.
    serial: The version of the zone, a serial number (RFC 1982).
    refresh: The seconds until the zone should be refreshed.
    retry: The seconds until a failed refresh should be tried again.
    expire: The seconds after which the zone is no longer authoritative.
    minimum: The TTL of negative answers, in seconds (RFC 2308, section 4).
    """
    mname: Name
    rname: Name
    serial: int
    refresh: int
    retry: int
    expire: int
    minimum: int
    def __init__(
        self, mname: NameLike, rname: NameLike, serial: int, refresh: int, retry: int, expire: int, minimum: int
    ) -> None: ...

@dataclass(frozen=True)
class MB(Data):
    """A host of a mailbox (RFC 1035, section 3.3.3)."""
    target: Name
    def __init__(self, target: NameLike) -> None: ...

@dataclass(frozen=True)
class MG(Data):
    """A member of a group of mailboxes (RFC 1035, section 3.3.6)."""
    target: Name
    def __init__(self, target: NameLike) -> None: ...

@dataclass(frozen=True)
class MR(Data):
    """The new name of a mailbox (RFC 1035, section 3.3.8)."""
    target: Name
    def __init__(self, target: NameLike) -> None: ...

@dataclass(frozen=True)
class WKS(Data):
    """The services of a host by their ports, which is obsolete (RFC 1035, section 3.4.2).

    address: The address of the host.
    protocol: The protocol.
    bitmap: A bit for each port.
    """
    address: IPv4Address
    protocol: int
    bitmap: bytes
    def __init__(self, address: IPv4Like, protocol: int, bitmap: Bytes) -> None: ...

@dataclass(frozen=True)
class PTR(Data):
    """A pointer to another name (RFC 1035, section 3.3.12)."""
    target: Name
    def __init__(self, target: NameLike) -> None: ...

@dataclass(frozen=True)
class HINFO(Data):
    """The CPU and the operating system of a host (RFC 1035, section 3.3.2).

    cpu: The CPU.
    os: The operating system.
    """
    cpu: bytes
    os: bytes
    def __init__(self, cpu: StringLike, os: StringLike) -> None: ...

@dataclass(frozen=True)
class MINFO(Data):
    """A mailbox for requests and one for errors (RFC 1035, section 3.3.7).

    rmailbx: The mailbox for requests.
    emailbx: The mailbox for errors.
    """
    rmailbx: Name
    emailbx: Name
    def __init__(self, rmailbx: NameLike, emailbx: NameLike) -> None: ...

@dataclass(frozen=True)
class MX(Data):
    """A mail server for a domain (RFC 1035, section 3.3.9).

    preference: Lower values are preferred.
    exchange: The host.
    """
    preference: int
    exchange: Name
    def __init__(self, preference: int, exchange: NameLike) -> None: ...

@dataclass(frozen=True)
class TXT(Data):
    """Texts (RFC 1035, section 3.3.14)."""
    strings: Tuple[bytes, ...]
    def __init__(self, strings: StringsLike) -> None: ...

@dataclass(frozen=True)
class RP(Data):
    """The person responsible for a name, and the owner of a TXT record (RFC 1183, section 2.2).

    mbox: The mailbox of the person.
    txt: The owner of a TXT record about the person, or the root for none.
    """
    mbox: Name
    txt: Name
    def __init__(self, mbox: NameLike, txt: NameLike) -> None: ...

@dataclass(frozen=True)
class AFSDB(Data):
    """A server of an AFS or DCE cell (RFC 1183, section 1).

    subtype: 1 for AFS, 2 for DCE.
    hostname: The host.
    """
    subtype: int
    hostname: Name
    def __init__(self, subtype: int, hostname: NameLike) -> None: ...

@dataclass(frozen=True)
class X25(Data):
    """An address of X.25 (RFC 1183, section 3.1)."""
    address: bytes
    def __init__(self, address: StringLike) -> None: ...

@dataclass(frozen=True)
class ISDN(Data):
    """An address of ISDN, and a subaddress if there is one (RFC 1183, section 3.2)."""
    strings: Tuple[bytes, ...]
    def __init__(self, strings: StringsLike) -> None: ...

@dataclass(frozen=True)
class RT(Data):
    """A host that routes to another one (RFC 1183, section 3.3).

    preference: Lower values are preferred.
    exchange: The host.
    """
    preference: int
    exchange: Name
    def __init__(self, preference: int, exchange: NameLike) -> None: ...

@dataclass(frozen=True)
class NSAP(Data):
    """An address of OSI (RFC 1706, section 5)."""
    address: bytes
    def __init__(self, address: Bytes) -> None: ...

@dataclass(frozen=True)
class NSAP_PTR(Data):
    """The name of an address of OSI (RFC 1706, section 6)."""
    target: Name
    def __init__(self, target: NameLike) -> None: ...

@dataclass(frozen=True)
class SIG(Data):
    """A signature of records (RFC 2535, section 4.1) or, if it covers the type 0, of a message (RFC 2931).

    type_covered: The type of the records.
    algorithm: The algorithm.
    labels: The number of labels of the owner, without a `*` at the start.
    original_ttl: The TTL of the records in their zone.
    expiration: When the signature expires, in seconds since 1970, as a serial number (RFC 1982).
    inception: When the signature becomes valid, in the same form.
    key_tag: The tag of the key.
    signer: The zone of the key.
    signature: The signature.
    """
    type_covered: RecordType
    algorithm: int
    labels: int
    original_ttl: int
    expiration: int
    inception: int
    key_tag: int
    signer: Name
    signature: bytes
    def __init__(
        self, type_covered: TypeLike, algorithm: int, labels: int, original_ttl: int, expiration: int, inception: int,
        key_tag: int, signer: NameLike, signature: Bytes
    ) -> None: ...

@dataclass(frozen=True)
class KEY(Data):
    """A key of a host (RFC 2535, section 3.1).

    flags: 256 for a zone key, 257 for a zone key that is also a secure entry point.
    protocol: Always 3.
    algorithm: The algorithm.
    key: The key.
    """
    flags: int
    protocol: int
    algorithm: int
    key: bytes
    def __init__(self, flags: int, protocol: int, algorithm: int, key: Bytes) -> None: ...

@dataclass(frozen=True)
class PX(Data):
    """A mapping between mail addresses and those of X.400 (RFC 2163, section 4).

    preference: Lower values are preferred.
    map822: The part that is a domain name.
    mapx400: The part that is from an address of X.400.
    """
    preference: int
    map822: Name
    mapx400: Name
    def __init__(self, preference: int, map822: NameLike, mapx400: NameLike) -> None: ...

@dataclass(frozen=True)
class GPOS(Data):
    """Where a host is, in degrees and metres (RFC 1712, section 3).

    longitude: The longitude.
    latitude: The latitude.
    altitude: The altitude.
    """
    longitude: bytes
    latitude: bytes
    altitude: bytes
    def __init__(self, longitude: StringLike, latitude: StringLike, altitude: StringLike) -> None: ...

@dataclass(frozen=True)
class AAAA(Data):
    """An IPv6 address (RFC 3596, section 2.2)."""
    address: IPv6Address
    def __init__(self, address: IPv6Like) -> None: ...

@dataclass(frozen=True)
class LOC(Data):
    """A location: 16 octets if the first, the version, is 0 (RFC 1876, section 2)."""
    location: bytes
    def __init__(self, location: Bytes) -> None: ...

@dataclass(frozen=True)
class NXT(Data):
    """The next name in a zone and the types at this name, in an old form (RFC 2535, section 5.2).

    next: The next name.
    bitmap: A bit for each type below 128.
    """
    next: Name
    bitmap: bytes
    def __init__(self, next: NameLike, bitmap: Bytes) -> None: ...

@dataclass(frozen=True)
class SRV(Data):
    """The host and the port of a service (RFC 2782).

    priority: Lower values are tried first.
    weight: How often the host is chosen among those of the same priority.
    port: The port.
    target: The host.
    """
    priority: int
    weight: int
    port: int
    target: Name
    def __init__(self, priority: int, weight: int, port: int, target: NameLike) -> None: ...

@dataclass(frozen=True)
class NAPTR(Data):
    """A rule that rewrites a name (RFC 3403, section 4.1).

    order: The order in which rules are applied.
    preference: The preference among rules of the same order.
    flags: What to do after the rule.
    service: The service.
    regexp: A regular expression that makes the next name.
    replacement: The next name.
    """
    order: int
    preference: int
    flags: bytes
    service: bytes
    regexp: bytes
    replacement: Name
    def __init__(
        self, order: int, preference: int, flags: StringLike, service: StringLike, regexp: StringLike,
        replacement: NameLike
    ) -> None: ...

@dataclass(frozen=True)
class KX(Data):
    """A host that exchanges keys (RFC 2230, section 3).

    preference: Lower values are preferred.
    exchange: The host.
    """
    preference: int
    exchange: Name
    def __init__(self, preference: int, exchange: NameLike) -> None: ...

@dataclass(frozen=True)
class CERT(Data):
    """A certificate (RFC 4398, section 2).

    certificate_type: The type of the certificate.
    key_tag: The tag of its key.
    algorithm: The algorithm of its key.
    certificate: The certificate.
    """
    certificate_type: int
    key_tag: int
    algorithm: int
    certificate: bytes
    def __init__(self, certificate_type: int, key_tag: int, algorithm: int, certificate: Bytes) -> None: ...

@dataclass(frozen=True)
class DNAME(Data):
    """The name that a subtree is an alias of (RFC 6672, section 2.1)."""
    target: Name
    def __init__(self, target: NameLike) -> None: ...

@dataclass(frozen=True)
class APL(Data):
    """Address prefixes (RFC 3123, section 4).

    prefixes: Of each the family, the length in bits, whether it is negated, and the octets.
    """
    prefixes: Tuple[Prefix, ...]
    def __init__(self, prefixes: Iterable[Prefix]) -> None: ...

@dataclass(frozen=True)
class DS(Data):
    """The digest of a key of a child zone (RFC 4034, section 5.1).

    key_tag: The tag of the key.
    algorithm: The algorithm of the key.
    digest_type: The digest algorithm.
    digest: The digest.
    """
    key_tag: int
    algorithm: int
    digest_type: int
    digest: bytes
    def __init__(self, key_tag: int, algorithm: int, digest_type: int, digest: Bytes) -> None: ...

@dataclass(frozen=True)
class SSHFP(Data):
    """The fingerprint of an SSH key (RFC 4255, section 3.1).

    algorithm: The algorithm of the key.
    fp_type: The fingerprint algorithm.
    fingerprint: The fingerprint.
    """
    algorithm: int
    fp_type: int
    fingerprint: bytes
    def __init__(self, algorithm: int, fp_type: int, fingerprint: Bytes) -> None: ...

@dataclass(frozen=True)
class IPSECKEY(Data):
    """A gateway and its key for IPsec (RFC 4025, section 2.1).

    precedence: Lower values are preferred.
    gateway: The type of the gateway, the algorithm of the key, and the gateway.
    public_key: The key.
    """
    precedence: int
    gateway: bytes
    public_key: bytes
    def __init__(self, precedence: int, gateway: Bytes, public_key: Bytes) -> None: ...

@dataclass(frozen=True)
class RRSIG(Data):
    """A signature of records (RFC 4034, section 3.1).

    type_covered: The type of the records.
    algorithm: The algorithm.
    labels: The number of labels of the owner, without a `*` at the start.
    original_ttl: The TTL of the records in their zone.
    expiration: When the signature expires, in seconds since 1970, as a serial number (RFC 1982).
    inception: When the signature becomes valid, in the same form.
    key_tag: The tag of the key.
    signer: The zone of the key.
    signature: The signature.
    """
    type_covered: RecordType
    algorithm: int
    labels: int
    original_ttl: int
    expiration: int
    inception: int
    key_tag: int
    signer: Name
    signature: bytes
    def __init__(
        self, type_covered: TypeLike, algorithm: int, labels: int, original_ttl: int, expiration: int, inception: int,
        key_tag: int, signer: NameLike, signature: Bytes
    ) -> None: ...

@dataclass(frozen=True)
class NSEC(Data):
    """The next name in a zone, and the types at this name (RFC 4034, section 4.1).

    next: The next name.
    types: The types of the owner.
    """
    next: Name
    types: TypeSet
    def __init__(self, next: NameLike, types: TypesLike) -> None: ...

@dataclass(frozen=True)
class DNSKEY(Key):
    """A key of a zone (RFC 4034, section 2.1).

    flags: 256 for a zone key, 257 for a zone key that is also a secure entry point.
    protocol: Always 3.
    algorithm: The algorithm.
    key: The key.
    """
    flags: int
    protocol: int
    algorithm: int
    key: bytes
    def __init__(self, flags: int, protocol: int, algorithm: int, key: Bytes) -> None: ...

@dataclass(frozen=True)
class DHCID(Data):
    """Which client of DHCP owns a name (RFC 4701, section 3.1)."""
    identifier: bytes
    def __init__(self, identifier: Bytes) -> None: ...

@dataclass(frozen=True)
class NSEC3(Data):
    """The next hash in a zone, and the types at this name (RFC 5155, section 3.2).

    algorithm: The hash algorithm.
    flags: 1 for opt-out: unsigned delegations may be between the hashes.
    iterations: The number of additional iterations of the hash.
    salt: The salt, which is appended before each iteration.
    next: The next hash.
    types: The types of the owner.
    """
    algorithm: int
    flags: int
    iterations: int
    salt: bytes
    next: bytes
    types: TypeSet
    def __init__(
        self, algorithm: int, flags: int, iterations: int, salt: Bytes, next: Bytes, types: TypesLike
    ) -> None: ...

@dataclass(frozen=True)
class NSEC3PARAM(Data):
    """How the names of a zone are hashed (RFC 5155, section 4.2).

    algorithm: The hash algorithm.
    flags: Always 0.
    iterations: The number of additional iterations of the hash.
    salt: The salt, which is appended before each iteration.
    """
    algorithm: int
    flags: int
    iterations: int
    salt: bytes
    def __init__(self, algorithm: int, flags: int, iterations: int, salt: Bytes) -> None: ...

@dataclass(frozen=True)
class TLSA(Data):
    """A certificate of a TLS server (RFC 6698, section 2.1).

    usage: The certificate usage: what has to match.
    selector: The selector: the whole certificate, or its public key.
    mtype: The matching type: the selected content itself, or a hash of it.
    cert: The content or its hash.
    """
    usage: int
    selector: int
    mtype: int
    cert: bytes
    def __init__(self, usage: int, selector: int, mtype: int, cert: Bytes) -> None: ...

@dataclass(frozen=True)
class SMIMEA(Data):
    """A certificate for mail (RFC 8162, section 2).

    usage: The certificate usage: what has to match.
    selector: The selector: the whole certificate, or its public key.
    mtype: The matching type: the selected content itself, or a hash of it.
    cert: The content or its hash.
    """
    usage: int
    selector: int
    mtype: int
    cert: bytes
    def __init__(self, usage: int, selector: int, mtype: int, cert: Bytes) -> None: ...

@dataclass(frozen=True)
class HIP(Data):
    """The identity of a host, and its rendezvous servers (RFC 8005, section 5).

    identity: The length of the tag, the algorithm of the key, its length, the tag and the key.
    servers: The servers.
    """
    identity: bytes
    servers: Tuple[Name, ...]
    def __init__(self, identity: Bytes, servers: Iterable[NameLike]) -> None: ...

@dataclass(frozen=True)
class NINFO(Data):
    """The state of a zone (the template NINFO of IANA's registry)."""
    strings: Tuple[bytes, ...]
    def __init__(self, strings: StringsLike) -> None: ...

@dataclass(frozen=True)
class RKEY(Data):
    """A key for the encryption of NAPTR records (the template RKEY of IANA's registry).

    flags: 256 for a zone key, 257 for a zone key that is also a secure entry point.
    protocol: Always 3.
    algorithm: The algorithm.
    key: The key.
    """
    flags: int
    protocol: int
    algorithm: int
    key: bytes
    def __init__(self, flags: int, protocol: int, algorithm: int, key: Bytes) -> None: ...

@dataclass(frozen=True)
class TALINK(Data):
    """The links of a chain of trust anchors (the template TALINK of IANA's registry).

    previous: The name before.
    next: The name after.
    """
    previous: Name
    next: Name
    def __init__(self, previous: NameLike, next: NameLike) -> None: ...

@dataclass(frozen=True)
class CDS(Data):
    """The child's copy of a DS (RFC 7344, section 3.1).

    key_tag: The tag of the key.
    algorithm: The algorithm of the key.
    digest_type: The digest algorithm.
    digest: The digest.
    """
    key_tag: int
    algorithm: int
    digest_type: int
    digest: bytes
    def __init__(self, key_tag: int, algorithm: int, digest_type: int, digest: Bytes) -> None: ...

@dataclass(frozen=True)
class CDNSKEY(Key):
    """The child's copy of a DNSKEY (RFC 7344, section 3.2).

    flags: 256 for a zone key, 257 for a zone key that is also a secure entry point.
    protocol: Always 3.
    algorithm: The algorithm.
    key: The key.
    """
    flags: int
    protocol: int
    algorithm: int
    key: bytes
    def __init__(self, flags: int, protocol: int, algorithm: int, key: Bytes) -> None: ...

@dataclass(frozen=True)
class CSYNC(Data):
    """The types that a parent zone may copy from its child (RFC 7477, section 2.1.1).

    serial: The lowest serial number of the child at which the parent may copy.
    flags: Whether the parent may copy immediately (1), and whether the serial number is used (2).
    types: The types to copy.
    """
    serial: int
    flags: int
    types: TypeSet
    def __init__(self, serial: int, flags: int, types: TypesLike) -> None: ...

@dataclass(frozen=True)
class ZONEMD(Data):
    """The digest of a zone (RFC 8976, section 2.2).

    serial: The serial number of the zone.
    scheme: How the records are collated.
    hash_algorithm: The hash algorithm.
    digest: The digest.
    """
    serial: int
    scheme: int
    hash_algorithm: int
    digest: bytes
    def __init__(self, serial: int, scheme: int, hash_algorithm: int, digest: Bytes) -> None: ...

@dataclass(frozen=True)
class SVCB(Data):
    """How to reach a service (RFC 9460, section 2.2).

    priority: 0 for an alias. Of others, lower values are preferred.
    target: The host, or the root for the owner itself.
    params: The parameters, each a key and its value, in ascending order of the keys.
    """
    priority: int
    target: Name
    params: Tuple[Tuple[int, bytes], ...]
    def __init__(self, priority: int, target: NameLike, params: Iterable[Tuple[int, Bytes]]) -> None: ...

@dataclass(frozen=True)
class HTTPS(Data):
    """How to reach a service over HTTPS (RFC 9460, section 9).

    priority: 0 for an alias. Of others, lower values are preferred.
    target: The host, or the root for the owner itself.
    params: The parameters, each a key and its value, in ascending order of the keys.
    """
    priority: int
    target: Name
    params: Tuple[Tuple[int, bytes], ...]
    def __init__(self, priority: int, target: NameLike, params: Iterable[Tuple[int, Bytes]]) -> None: ...

@dataclass(frozen=True)
class DSYNC(Data):
    """Where to send notifications about a delegation (RFC 9859, section 2.1).

    notified_type: The type that a notification is about.
    scheme: How to notify.
    port: The port.
    target: The host.
    """
    notified_type: RecordType
    scheme: int
    port: int
    target: Name
    def __init__(self, notified_type: TypeLike, scheme: int, port: int, target: NameLike) -> None: ...

@dataclass(frozen=True)
class HHIT(Data):
    """The identity of a host, in a hierarchy (RFC 9886, section 5.1)."""
    identity: bytes
    def __init__(self, identity: Bytes) -> None: ...

@dataclass(frozen=True)
class BRID(Data):
    """The identity of an unmanned aircraft (RFC 9886, section 5.2)."""
    identity: bytes
    def __init__(self, identity: Bytes) -> None: ...

@dataclass(frozen=True)
class SPF(Data):
    """SPF texts (RFC 4408, section 3.1.1), now in TXT records (RFC 7208, section 3.1)."""
    strings: Tuple[bytes, ...]
    def __init__(self, strings: StringsLike) -> None: ...

@dataclass(frozen=True)
class NID(Data):
    """The identifier of a node (RFC 6742, section 2.1.1).

    preference: Lower values are preferred.
    node_id: The identifier.
    """
    preference: int
    node_id: int
    def __init__(self, preference: int, node_id: int) -> None: ...

@dataclass(frozen=True)
class L32(Data):
    """A locator of 32 bits (RFC 6742, section 2.2.1).

    preference: Lower values are preferred.
    locator: The locator.
    """
    preference: int
    locator: IPv4Address
    def __init__(self, preference: int, locator: IPv4Like) -> None: ...

@dataclass(frozen=True)
class L64(Data):
    """A locator of 64 bits (RFC 6742, section 2.3.1).

    preference: Lower values are preferred.
    locator: The locator.
    """
    preference: int
    locator: int
    def __init__(self, preference: int, locator: int) -> None: ...

@dataclass(frozen=True)
class LP(Data):
    """The name of locators (RFC 6742, section 2.4.1).

    preference: Lower values are preferred.
    fqdn: The name.
    """
    preference: int
    fqdn: Name
    def __init__(self, preference: int, fqdn: NameLike) -> None: ...

@dataclass(frozen=True)
class EUI48(Data):
    """An EUI-48 address (RFC 7043, section 3.1).

    eui: A number of 48 bits.
    """
    eui: int
    def __init__(self, eui: int) -> None: ...

@dataclass(frozen=True)
class EUI64(Data):
    """An EUI-64 address (RFC 7043, section 4.1).

    eui: A number of 64 bits.
    """
    eui: int
    def __init__(self, eui: int) -> None: ...

@dataclass(frozen=True)
class TKEY(Data):
    """The making of a key for TSIG (RFC 2930, section 2).

    algorithm: The algorithm.
    inception: When the key begins to be valid, in seconds since 1970, a serial number (RFC 1982).
    expiration: When it ends.
    mode: How the key is made.
    error: An error, or 0.
    key: The key, or what it is made from.
    other: Other data.
    """
    algorithm: Name
    inception: int
    expiration: int
    mode: int
    error: int
    key: bytes
    other: bytes
    def __init__(
        self, algorithm: NameLike, inception: int, expiration: int, mode: int, error: int, key: Bytes, other: Bytes
    ) -> None: ...

@dataclass(frozen=True)
class TSIG(Data):
    """The signature of a message (RFC 8945, section 4.2).

    algorithm: The algorithm.
    time_signed: The time, in seconds since 1970.
    fudge: The seconds that clocks may differ.
    mac: The signature.
    original_id: The identifier of the message that was signed.
    error: An error, or 0.
    other: Other data.
    """
    algorithm: Name
    time_signed: int
    fudge: int
    mac: bytes
    original_id: int
    error: int
    other: bytes
    def __init__(
        self, algorithm: NameLike, time_signed: int, fudge: int, mac: Bytes, original_id: int, error: int, other: Bytes
    ) -> None: ...

@dataclass(frozen=True)
class URI(Data):
    """The URI of a service (RFC 7553, section 4.2).

    priority: Lower values are tried first.
    weight: How often the URI is chosen among those of the same priority.
    target: The URI.
    """
    priority: int
    weight: int
    target: bytes
    def __init__(self, priority: int, weight: int, target: StringLike) -> None: ...

@dataclass(frozen=True)
class CAA(Data):
    """The authorities that may issue certificates for a domain (RFC 8659, section 4.1).

    flags: 128 if an authority that does not know the tag must not issue.
    tag: The tag of the property.
    value: The value of the property.
    """
    flags: int
    tag: bytes
    value: bytes
    def __init__(self, flags: int, tag: StringLike, value: StringLike) -> None: ...

@dataclass(frozen=True)
class AVC(Data):
    """What is known of an application (the template AVC of IANA's registry)."""
    strings: Tuple[bytes, ...]
    def __init__(self, strings: StringsLike) -> None: ...

@dataclass(frozen=True)
class DOA(Data):
    """A digital object (the template DOA of IANA's registry).

    enterprise: The number of the enterprise.
    object_type: The type of the object.
    location: Where the object is.
    media_type: Its media type.
    data: The object, or where it is.
    """
    enterprise: int
    object_type: int
    location: int
    media_type: bytes
    data: bytes
    def __init__(
        self, enterprise: int, object_type: int, location: int, media_type: StringLike, data: Bytes
    ) -> None: ...

@dataclass(frozen=True)
class AMTRELAY(Data):
    """A relay for multicast (RFC 8777, section 4.2).

    precedence: Lower values are preferred.
    relay: A bit and 7 bits of the type of the relay, and the relay.
    """
    precedence: int
    relay: bytes
    def __init__(self, precedence: int, relay: Bytes) -> None: ...

@dataclass(frozen=True)
class RESINFO(Data):
    """What a resolver says of itself (RFC 9606, section 4)."""
    strings: Tuple[bytes, ...]
    def __init__(self, strings: StringsLike) -> None: ...

@dataclass(frozen=True)
class WALLET(Data):
    """A public address of a wallet (the template WALLET of IANA's registry)."""
    strings: Tuple[bytes, ...]
    def __init__(self, strings: StringsLike) -> None: ...

@dataclass(frozen=True)
class CLA(Data):
    """The convergence layer adapters of a node of the Bundle Protocol (the template CLA of IANA's registry)."""
    strings: Tuple[bytes, ...]
    def __init__(self, strings: StringsLike) -> None: ...

@dataclass(frozen=True)
class IPN(Data):
    """A node of the Bundle Protocol (the template IPN of IANA's registry).

    node: The number of the node.
    """
    node: int
    def __init__(self, node: int) -> None: ...

@dataclass(frozen=True)
class TA(Data):
    """The digest of a key that is trusted (the reference of IANA's registry, as DS).

    key_tag: The tag of the key.
    algorithm: The algorithm of the key.
    digest_type: The digest algorithm.
    digest: The digest.
    """
    key_tag: int
    algorithm: int
    digest_type: int
    digest: bytes
    def __init__(self, key_tag: int, algorithm: int, digest_type: int, digest: Bytes) -> None: ...

@dataclass(frozen=True)
class DLV(Data):
    """The digest of a key of a zone that is looked up aside (RFC 4431, section 2).

    key_tag: The tag of the key.
    algorithm: The algorithm of the key.
    digest_type: The digest algorithm.
    digest: The digest.
    """
    key_tag: int
    algorithm: int
    digest_type: int
    digest: bytes
    def __init__(self, key_tag: int, algorithm: int, digest_type: int, digest: Bytes) -> None: ...
