# made by tools/types from crates/dnw_data/specs/Table.antt; change it there
"""The data of records: a class for each type, made when it is first used. Type checkers read _rdata.pyi."""

from typing import Dict, Type

from ._data import Data, class_of

# By the name of each class: the code of the type, the fields and the letters of their kinds, and what it is.
ROWS = {
    "A": (1, "address:i", "An IPv4 address (RFC 1035, section 3.4.1)."),
    "NS": (2, "target:n", "A name server of a zone (RFC 1035, section 3.3.11)."),
    "MD": (3, "target:n", "A host that takes mail, which is obsolete (RFC 1035, section 3.3.4)."),
    "MF": (4, "target:n", "A host that forwards mail, which is obsolete (RFC 1035, section 3.3.5)."),
    "CNAME": (5, "target:n", "The canonical name of an alias (RFC 1035, section 3.3.1)."),
    "SOA": (
        6, "mname:n rname:n serial:4 refresh:4 retry:4 expire:4 minimum:4",
        """The start of a zone of authority (RFC 1035, section 3.3.13).

mname: The primary name server of the zone.
rname: The mailbox of the person responsible for the zone.
serial: The version of the zone, a serial number (RFC 1982).
refresh: The seconds until the zone should be refreshed.
retry: The seconds until a failed refresh should be tried again.
expire: The seconds after which the zone is no longer authoritative.
minimum: The TTL of negative answers, in seconds (RFC 2308, section 4)."""
    ),
    "MB": (7, "target:n", "A host of a mailbox (RFC 1035, section 3.3.3)."),
    "MG": (8, "target:n", "A member of a group of mailboxes (RFC 1035, section 3.3.6)."),
    "MR": (9, "target:n", "The new name of a mailbox (RFC 1035, section 3.3.8)."),
    "WKS": (
        11, "address:i protocol:1 bitmap:o",
        """The services of a host by their ports, which is obsolete (RFC 1035, section 3.4.2).

address: The address of the host.
protocol: The protocol.
bitmap: A bit for each port."""
    ),
    "PTR": (12, "target:n", "A pointer to another name (RFC 1035, section 3.3.12)."),
    "HINFO": (
        13, "cpu:s os:s",
        """The CPU and the operating system of a host (RFC 1035, section 3.3.2).

cpu: The CPU.
os: The operating system."""
    ),
    "MINFO": (
        14, "rmailbx:n emailbx:n",
        """A mailbox for requests and one for errors (RFC 1035, section 3.3.7).

rmailbx: The mailbox for requests.
emailbx: The mailbox for errors."""
    ),
    "MX": (
        15, "preference:2 exchange:n",
        """A mail server for a domain (RFC 1035, section 3.3.9).

preference: Lower values are preferred.
exchange: The host."""
    ),
    "TXT": (16, "strings:S", "Texts (RFC 1035, section 3.3.14)."),
    "RP": (
        17, "mbox:n txt:n",
        """The person responsible for a name, and the owner of a TXT record (RFC 1183, section 2.2).

mbox: The mailbox of the person.
txt: The owner of a TXT record about the person, or the root for none."""
    ),
    "AFSDB": (
        18, "subtype:2 hostname:n",
        """A server of an AFS or DCE cell (RFC 1183, section 1).

subtype: 1 for AFS, 2 for DCE.
hostname: The host."""
    ),
    "X25": (19, "address:s", "An address of X.25 (RFC 1183, section 3.1)."),
    "ISDN": (20, "strings:S", "An address of ISDN, and a subaddress if there is one (RFC 1183, section 3.2)."),
    "RT": (
        21, "preference:2 exchange:n",
        """A host that routes to another one (RFC 1183, section 3.3).

preference: Lower values are preferred.
exchange: The host."""
    ),
    "NSAP": (22, "address:o", "An address of OSI (RFC 1706, section 5)."),
    "NSAP_PTR": (23, "target:n", "The name of an address of OSI (RFC 1706, section 6)."),
    "SIG": (
        24, "type_covered:t algorithm:1 labels:1 original_ttl:4 expiration:T inception:T key_tag:2 signer:n signature:o",
        """A signature of records (RFC 2535, section 4.1) or, if it covers the type 0, of a message (RFC 2931).

type_covered: The type of the records.
algorithm: The algorithm.
labels: The number of labels of the owner, without a `*` at the start.
original_ttl: The TTL of the records in their zone.
expiration: When the signature expires, in seconds since 1970, as a serial number (RFC 1982).
inception: When the signature becomes valid, in the same form.
key_tag: The tag of the key.
signer: The zone of the key.
signature: The signature."""
    ),
    "KEY": (
        25, "flags:2 protocol:1 algorithm:1 key:o",
        """A key of a host (RFC 2535, section 3.1).

flags: 256 for a zone key, 257 for a zone key that is also a secure entry point.
protocol: Always 3.
algorithm: The algorithm.
key: The key."""
    ),
    "PX": (
        26, "preference:2 map822:n mapx400:n",
        """A mapping between mail addresses and those of X.400 (RFC 2163, section 4).

preference: Lower values are preferred.
map822: The part that is a domain name.
mapx400: The part that is from an address of X.400."""
    ),
    "GPOS": (
        27, "longitude:s latitude:s altitude:s",
        """Where a host is, in degrees and metres (RFC 1712, section 3).

longitude: The longitude.
latitude: The latitude.
altitude: The altitude."""
    ),
    "AAAA": (28, "address:I", "An IPv6 address (RFC 3596, section 2.2)."),
    "LOC": (29, "location:g", "A location: 16 octets if the first, the version, is 0 (RFC 1876, section 2)."),
    "NXT": (
        30, "next:n bitmap:o",
        """The next name in a zone and the types at this name, in an old form (RFC 2535, section 5.2).

next: The next name.
bitmap: A bit for each type below 128."""
    ),
    "SRV": (
        33, "priority:2 weight:2 port:2 target:n",
        """The host and the port of a service (RFC 2782).

priority: Lower values are tried first.
weight: How often the host is chosen among those of the same priority.
port: The port.
target: The host."""
    ),
    "NAPTR": (
        35, "order:2 preference:2 flags:s service:s regexp:s replacement:n",
        """A rule that rewrites a name (RFC 3403, section 4.1).

order: The order in which rules are applied.
preference: The preference among rules of the same order.
flags: What to do after the rule.
service: The service.
regexp: A regular expression that makes the next name.
replacement: The next name."""
    ),
    "KX": (
        36, "preference:2 exchange:n",
        """A host that exchanges keys (RFC 2230, section 3).

preference: Lower values are preferred.
exchange: The host."""
    ),
    "CERT": (
        37, "certificate_type:2 key_tag:2 algorithm:1 certificate:o",
        """A certificate (RFC 4398, section 2).

certificate_type: The type of the certificate.
key_tag: The tag of its key.
algorithm: The algorithm of its key.
certificate: The certificate."""
    ),
    "DNAME": (39, "target:n", "The name that a subtree is an alias of (RFC 6672, section 2.1)."),
    "APL": (
        42, "prefixes:p",
        """Address prefixes (RFC 3123, section 4).

prefixes: Of each the family, the length in bits, whether it is negated, and the octets."""
    ),
    "DS": (
        43, "key_tag:2 algorithm:1 digest_type:1 digest:o",
        """The digest of a key of a child zone (RFC 4034, section 5.1).

key_tag: The tag of the key.
algorithm: The algorithm of the key.
digest_type: The digest algorithm.
digest: The digest."""
    ),
    "SSHFP": (
        44, "algorithm:1 fp_type:1 fingerprint:o",
        """The fingerprint of an SSH key (RFC 4255, section 3.1).

algorithm: The algorithm of the key.
fp_type: The fingerprint algorithm.
fingerprint: The fingerprint."""
    ),
    "IPSECKEY": (
        45, "precedence:1 gateway:g public_key:o",
        """A gateway and its key for IPsec (RFC 4025, section 2.1).

precedence: Lower values are preferred.
gateway: The type of the gateway, the algorithm of the key, and the gateway.
public_key: The key."""
    ),
    "RRSIG": (
        46, "type_covered:t algorithm:1 labels:1 original_ttl:4 expiration:T inception:T key_tag:2 signer:n signature:o",
        """A signature of records (RFC 4034, section 3.1).

type_covered: The type of the records.
algorithm: The algorithm.
labels: The number of labels of the owner, without a `*` at the start.
original_ttl: The TTL of the records in their zone.
expiration: When the signature expires, in seconds since 1970, as a serial number (RFC 1982).
inception: When the signature becomes valid, in the same form.
key_tag: The tag of the key.
signer: The zone of the key.
signature: The signature."""
    ),
    "NSEC": (
        47, "next:n types:B",
        """The next name in a zone, and the types at this name (RFC 4034, section 4.1).

next: The next name.
types: The types of the owner."""
    ),
    "DNSKEY": (
        48, "flags:2 protocol:1 algorithm:1 key:o",
        """A key of a zone (RFC 4034, section 2.1).

flags: 256 for a zone key, 257 for a zone key that is also a secure entry point.
protocol: Always 3.
algorithm: The algorithm.
key: The key."""
    ),
    "DHCID": (49, "identifier:o", "Which client of DHCP owns a name (RFC 4701, section 3.1)."),
    "NSEC3": (
        50, "algorithm:1 flags:1 iterations:2 salt:c next:c types:B",
        """The next hash in a zone, and the types at this name (RFC 5155, section 3.2).

algorithm: The hash algorithm.
flags: 1 for opt-out: unsigned delegations may be between the hashes.
iterations: The number of additional iterations of the hash.
salt: The salt, which is appended before each iteration.
next: The next hash.
types: The types of the owner."""
    ),
    "NSEC3PARAM": (
        51, "algorithm:1 flags:1 iterations:2 salt:c",
        """How the names of a zone are hashed (RFC 5155, section 4.2).

algorithm: The hash algorithm.
flags: Always 0.
iterations: The number of additional iterations of the hash.
salt: The salt, which is appended before each iteration."""
    ),
    "TLSA": (
        52, "usage:1 selector:1 mtype:1 cert:o",
        """A certificate of a TLS server (RFC 6698, section 2.1).

usage: The certificate usage: what has to match.
selector: The selector: the whole certificate, or its public key.
mtype: The matching type: the selected content itself, or a hash of it.
cert: The content or its hash."""
    ),
    "SMIMEA": (
        53, "usage:1 selector:1 mtype:1 cert:o",
        """A certificate for mail (RFC 8162, section 2).

usage: The certificate usage: what has to match.
selector: The selector: the whole certificate, or its public key.
mtype: The matching type: the selected content itself, or a hash of it.
cert: The content or its hash."""
    ),
    "HIP": (
        55, "identity:g servers:N",
        """The identity of a host, and its rendezvous servers (RFC 8005, section 5).

identity: The length of the tag, the algorithm of the key, its length, the tag and the key.
servers: The servers."""
    ),
    "NINFO": (56, "strings:S", "The state of a zone (the template NINFO of IANA's registry)."),
    "RKEY": (
        57, "flags:2 protocol:1 algorithm:1 key:o",
        """A key for the encryption of NAPTR records (the template RKEY of IANA's registry).

flags: 256 for a zone key, 257 for a zone key that is also a secure entry point.
protocol: Always 3.
algorithm: The algorithm.
key: The key."""
    ),
    "TALINK": (
        58, "previous:n next:n",
        """The links of a chain of trust anchors (the template TALINK of IANA's registry).

previous: The name before.
next: The name after."""
    ),
    "CDS": (
        59, "key_tag:2 algorithm:1 digest_type:1 digest:o",
        """The child's copy of a DS (RFC 7344, section 3.1).

key_tag: The tag of the key.
algorithm: The algorithm of the key.
digest_type: The digest algorithm.
digest: The digest."""
    ),
    "CDNSKEY": (
        60, "flags:2 protocol:1 algorithm:1 key:o",
        """The child's copy of a DNSKEY (RFC 7344, section 3.2).

flags: 256 for a zone key, 257 for a zone key that is also a secure entry point.
protocol: Always 3.
algorithm: The algorithm.
key: The key."""
    ),
    "CSYNC": (
        62, "serial:4 flags:2 types:B",
        """The types that a parent zone may copy from its child (RFC 7477, section 2.1.1).

serial: The lowest serial number of the child at which the parent may copy.
flags: Whether the parent may copy immediately (1), and whether the serial number is used (2).
types: The types to copy."""
    ),
    "ZONEMD": (
        63, "serial:4 scheme:1 hash_algorithm:1 digest:o",
        """The digest of a zone (RFC 8976, section 2.2).

serial: The serial number of the zone.
scheme: How the records are collated.
hash_algorithm: The hash algorithm.
digest: The digest."""
    ),
    "SVCB": (
        64, "priority:2 target:n params:P",
        """How to reach a service (RFC 9460, section 2.2).

priority: 0 for an alias. Of others, lower values are preferred.
target: The host, or the root for the owner itself.
params: The parameters, each a key and its value, in ascending order of the keys."""
    ),
    "HTTPS": (
        65, "priority:2 target:n params:P",
        """How to reach a service over HTTPS (RFC 9460, section 9).

priority: 0 for an alias. Of others, lower values are preferred.
target: The host, or the root for the owner itself.
params: The parameters, each a key and its value, in ascending order of the keys."""
    ),
    "DSYNC": (
        66, "notified_type:t scheme:1 port:2 target:n",
        """Where to send notifications about a delegation (RFC 9859, section 2.1).

notified_type: The type that a notification is about.
scheme: How to notify.
port: The port.
target: The host."""
    ),
    "HHIT": (67, "identity:o", "The identity of a host, in a hierarchy (RFC 9886, section 5.1)."),
    "BRID": (68, "identity:o", "The identity of an unmanned aircraft (RFC 9886, section 5.2)."),
    "SPF": (99, "strings:S", "SPF texts (RFC 4408, section 3.1.1), now in TXT records (RFC 7208, section 3.1)."),
    "NID": (
        104, "preference:2 node_id:8",
        """The identifier of a node (RFC 6742, section 2.1.1).

preference: Lower values are preferred.
node_id: The identifier."""
    ),
    "L32": (
        105, "preference:2 locator:i",
        """A locator of 32 bits (RFC 6742, section 2.2.1).

preference: Lower values are preferred.
locator: The locator."""
    ),
    "L64": (
        106, "preference:2 locator:8",
        """A locator of 64 bits (RFC 6742, section 2.3.1).

preference: Lower values are preferred.
locator: The locator."""
    ),
    "LP": (
        107, "preference:2 fqdn:n",
        """The name of locators (RFC 6742, section 2.4.1).

preference: Lower values are preferred.
fqdn: The name."""
    ),
    "EUI48": (
        108, "eui:6",
        """An EUI-48 address (RFC 7043, section 3.1).

eui: A number of 48 bits."""
    ),
    "EUI64": (
        109, "eui:8",
        """An EUI-64 address (RFC 7043, section 4.1).

eui: A number of 64 bits."""
    ),
    "TKEY": (
        249, "algorithm:n inception:T expiration:T mode:2 error:2 key:l other:l",
        """The making of a key for TSIG (RFC 2930, section 2).

algorithm: The algorithm.
inception: When the key begins to be valid, in seconds since 1970, a serial number (RFC 1982).
expiration: When it ends.
mode: How the key is made.
error: An error, or 0.
key: The key, or what it is made from.
other: Other data."""
    ),
    "TSIG": (
        250, "algorithm:n time_signed:6 fudge:2 mac:l original_id:2 error:2 other:l",
        """The signature of a message (RFC 8945, section 4.2).

algorithm: The algorithm.
time_signed: The time, in seconds since 1970.
fudge: The seconds that clocks may differ.
mac: The signature.
original_id: The identifier of the message that was signed.
error: An error, or 0.
other: Other data."""
    ),
    "URI": (
        256, "priority:2 weight:2 target:x",
        """The URI of a service (RFC 7553, section 4.2).

priority: Lower values are tried first.
weight: How often the URI is chosen among those of the same priority.
target: The URI."""
    ),
    "CAA": (
        257, "flags:1 tag:s value:x",
        """The authorities that may issue certificates for a domain (RFC 8659, section 4.1).

flags: 128 if an authority that does not know the tag must not issue.
tag: The tag of the property.
value: The value of the property."""
    ),
    "AVC": (258, "strings:S", "What is known of an application (the template AVC of IANA's registry)."),
    "DOA": (
        259, "enterprise:4 object_type:4 location:1 media_type:s data:o",
        """A digital object (the template DOA of IANA's registry).

enterprise: The number of the enterprise.
object_type: The type of the object.
location: Where the object is.
media_type: Its media type.
data: The object, or where it is."""
    ),
    "AMTRELAY": (
        260, "precedence:1 relay:g",
        """A relay for multicast (RFC 8777, section 4.2).

precedence: Lower values are preferred.
relay: A bit and 7 bits of the type of the relay, and the relay."""
    ),
    "RESINFO": (261, "strings:S", "What a resolver says of itself (RFC 9606, section 4)."),
    "WALLET": (262, "strings:S", "A public address of a wallet (the template WALLET of IANA's registry)."),
    "CLA": (
        263, "strings:S",
        """The convergence layer adapters of a node of the Bundle Protocol (the template CLA of IANA's registry)."""
    ),
    "IPN": (
        264, "node:8",
        """A node of the Bundle Protocol (the template IPN of IANA's registry).

node: The number of the node."""
    ),
    "TA": (
        32768, "key_tag:2 algorithm:1 digest_type:1 digest:o",
        """The digest of a key that is trusted (the reference of IANA's registry, as DS).

key_tag: The tag of the key.
algorithm: The algorithm of the key.
digest_type: The digest algorithm.
digest: The digest."""
    ),
    "DLV": (
        32769, "key_tag:2 algorithm:1 digest_type:1 digest:o",
        """The digest of a key of a zone that is looked up aside (RFC 4431, section 2).

key_tag: The tag of the key.
algorithm: The algorithm of the key.
digest_type: The digest algorithm.
digest: The digest."""
    ),
}
# The names, by the codes.
NAMES: Dict[int, str] = {row[0]: name for name, row in ROWS.items()}


def __getattr__(name: str) -> Type[Data]:
    if name not in ROWS:
        raise AttributeError(f"module {__name__!r} has no attribute {name!r}")
    made = globals()[name] = class_of(name, *ROWS[name])
    return made
