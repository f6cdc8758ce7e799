# made by tools/types from crates/dnw_data/specs/Table.antt and tools/codes.txt; change it there
"""The names of codes, and the constants of their classes, for type checkers."""

from __future__ import annotations

from typing import TYPE_CHECKING, ClassVar

if TYPE_CHECKING:
    from ._codes import OpCode, RecordType, ResponseCode

# The codes of types, by the names of their constants.
RECORD_TYPES = {
    "ZERO": 0,
    "A": 1,
    "NS": 2,
    "MD": 3,
    "MF": 4,
    "CNAME": 5,
    "SOA": 6,
    "MB": 7,
    "MG": 8,
    "MR": 9,
    "NULL": 10,
    "WKS": 11,
    "PTR": 12,
    "HINFO": 13,
    "MINFO": 14,
    "MX": 15,
    "TXT": 16,
    "RP": 17,
    "AFSDB": 18,
    "X25": 19,
    "ISDN": 20,
    "RT": 21,
    "NSAP": 22,
    "NSAP_PTR": 23,
    "SIG": 24,
    "KEY": 25,
    "PX": 26,
    "GPOS": 27,
    "AAAA": 28,
    "LOC": 29,
    "NXT": 30,
    "EID": 31,
    "NIMLOC": 32,
    "SRV": 33,
    "ATMA": 34,
    "NAPTR": 35,
    "KX": 36,
    "CERT": 37,
    "A6": 38,
    "DNAME": 39,
    "SINK": 40,
    "OPT": 41,
    "APL": 42,
    "DS": 43,
    "SSHFP": 44,
    "IPSECKEY": 45,
    "RRSIG": 46,
    "NSEC": 47,
    "DNSKEY": 48,
    "DHCID": 49,
    "NSEC3": 50,
    "NSEC3PARAM": 51,
    "TLSA": 52,
    "SMIMEA": 53,
    "HIP": 55,
    "NINFO": 56,
    "RKEY": 57,
    "TALINK": 58,
    "CDS": 59,
    "CDNSKEY": 60,
    "OPENPGPKEY": 61,
    "CSYNC": 62,
    "ZONEMD": 63,
    "SVCB": 64,
    "HTTPS": 65,
    "DSYNC": 66,
    "HHIT": 67,
    "BRID": 68,
    "SPF": 99,
    "UINFO": 100,
    "UID": 101,
    "GID": 102,
    "UNSPEC": 103,
    "NID": 104,
    "L32": 105,
    "L64": 106,
    "LP": 107,
    "EUI48": 108,
    "EUI64": 109,
    "NXNAME": 128,
    "TKEY": 249,
    "TSIG": 250,
    "IXFR": 251,
    "AXFR": 252,
    "MAILB": 253,
    "MAILA": 254,
    "ANY": 255,
    "URI": 256,
    "CAA": 257,
    "AVC": 258,
    "DOA": 259,
    "AMTRELAY": 260,
    "RESINFO": 261,
    "WALLET": 262,
    "CLA": 263,
    "IPN": 264,
    "TA": 32768,
    "DLV": 32769,
    "ANAME": 65305,
}

OP_CODES = {
    0: "QUERY",  # A standard query (RFC 1035, section 4.1.1)
    1: "IQUERY",  # An inverse query, which is obsolete (RFC 3425)
    2: "STATUS",  # A request for the status of a server (RFC 1035, section 4.1.1)
    4: "NOTIFY",  # A zone has changed (RFC 1996)
    5: "UPDATE",  # A request to change a zone (RFC 2136)
}

RESPONSE_CODES = {
    0: "NOERROR",  # No error (RFC 1035, section 4.1.1)
    1: "FORMERR",  # The server could not interpret the request (RFC 1035, section 4.1.1)
    2: "SERVFAIL",  # The server failed (RFC 1035, section 4.1.1)
    3: "NXDOMAIN",  # The name does not exist (RFC 1035, section 4.1.1)
    4: "NOTIMP",  # The server does not support this kind of request (RFC 1035, section 4.1.1)
    5: "REFUSED",  # The server refuses the request (RFC 1035, section 4.1.1)
    6: "YXDOMAIN",  # A name exists that should not (RFC 2136, section 2.2)
    7: "YXRRSET",  # Records exist that should not (RFC 2136, section 2.2)
    8: "NXRRSET",  # Records do not exist that should (RFC 2136, section 2.2)
    9: "NOTAUTH",  # The server is not authoritative, or the request is not authorized (RFC 2136, section 2.2; RFC 8945, section 5.2)
    10: "NOTZONE",  # A name is not in the zone (RFC 2136, section 2.2)
    11: "DSOTYPENI",  # The server does not support the DSO type (RFC 8490, section 10.2)
    16: "BADVERS",  # The server does not support the EDNS version (RFC 6891, section 9)
    17: "BADKEY",  # The key is not known (RFC 8945, section 3)
    18: "BADTIME",  # The time of the signature is out of range (RFC 8945, section 3)
    19: "BADMODE",  # The mode of TKEY is not known (RFC 2930, section 2.6)
    20: "BADNAME",  # The name of the key is taken (RFC 2930, section 2.6)
    21: "BADALG",  # The algorithm is not known (RFC 2930, section 2.6)
    22: "BADTRUNC",  # The signature was truncated too much (RFC 8945, section 3)
    23: "BADCOOKIE",  # The server cookie is bad or missing (RFC 7873, section 8)
}


class RecordTypes:
    """The constants of RecordType."""

    ZERO: ClassVar[RecordType]
    A: ClassVar[RecordType]
    NS: ClassVar[RecordType]
    MD: ClassVar[RecordType]
    MF: ClassVar[RecordType]
    CNAME: ClassVar[RecordType]
    SOA: ClassVar[RecordType]
    MB: ClassVar[RecordType]
    MG: ClassVar[RecordType]
    MR: ClassVar[RecordType]
    NULL: ClassVar[RecordType]
    WKS: ClassVar[RecordType]
    PTR: ClassVar[RecordType]
    HINFO: ClassVar[RecordType]
    MINFO: ClassVar[RecordType]
    MX: ClassVar[RecordType]
    TXT: ClassVar[RecordType]
    RP: ClassVar[RecordType]
    AFSDB: ClassVar[RecordType]
    X25: ClassVar[RecordType]
    ISDN: ClassVar[RecordType]
    RT: ClassVar[RecordType]
    NSAP: ClassVar[RecordType]
    NSAP_PTR: ClassVar[RecordType]
    SIG: ClassVar[RecordType]
    KEY: ClassVar[RecordType]
    PX: ClassVar[RecordType]
    GPOS: ClassVar[RecordType]
    AAAA: ClassVar[RecordType]
    LOC: ClassVar[RecordType]
    NXT: ClassVar[RecordType]
    EID: ClassVar[RecordType]
    NIMLOC: ClassVar[RecordType]
    SRV: ClassVar[RecordType]
    ATMA: ClassVar[RecordType]
    NAPTR: ClassVar[RecordType]
    KX: ClassVar[RecordType]
    CERT: ClassVar[RecordType]
    A6: ClassVar[RecordType]
    DNAME: ClassVar[RecordType]
    SINK: ClassVar[RecordType]
    OPT: ClassVar[RecordType]
    APL: ClassVar[RecordType]
    DS: ClassVar[RecordType]
    SSHFP: ClassVar[RecordType]
    IPSECKEY: ClassVar[RecordType]
    RRSIG: ClassVar[RecordType]
    NSEC: ClassVar[RecordType]
    DNSKEY: ClassVar[RecordType]
    DHCID: ClassVar[RecordType]
    NSEC3: ClassVar[RecordType]
    NSEC3PARAM: ClassVar[RecordType]
    TLSA: ClassVar[RecordType]
    SMIMEA: ClassVar[RecordType]
    HIP: ClassVar[RecordType]
    NINFO: ClassVar[RecordType]
    RKEY: ClassVar[RecordType]
    TALINK: ClassVar[RecordType]
    CDS: ClassVar[RecordType]
    CDNSKEY: ClassVar[RecordType]
    OPENPGPKEY: ClassVar[RecordType]
    CSYNC: ClassVar[RecordType]
    ZONEMD: ClassVar[RecordType]
    SVCB: ClassVar[RecordType]
    HTTPS: ClassVar[RecordType]
    DSYNC: ClassVar[RecordType]
    HHIT: ClassVar[RecordType]
    BRID: ClassVar[RecordType]
    SPF: ClassVar[RecordType]
    UINFO: ClassVar[RecordType]
    UID: ClassVar[RecordType]
    GID: ClassVar[RecordType]
    UNSPEC: ClassVar[RecordType]
    NID: ClassVar[RecordType]
    L32: ClassVar[RecordType]
    L64: ClassVar[RecordType]
    LP: ClassVar[RecordType]
    EUI48: ClassVar[RecordType]
    EUI64: ClassVar[RecordType]
    NXNAME: ClassVar[RecordType]
    TKEY: ClassVar[RecordType]
    TSIG: ClassVar[RecordType]
    IXFR: ClassVar[RecordType]
    AXFR: ClassVar[RecordType]
    MAILB: ClassVar[RecordType]
    MAILA: ClassVar[RecordType]
    ANY: ClassVar[RecordType]
    URI: ClassVar[RecordType]
    CAA: ClassVar[RecordType]
    AVC: ClassVar[RecordType]
    DOA: ClassVar[RecordType]
    AMTRELAY: ClassVar[RecordType]
    RESINFO: ClassVar[RecordType]
    WALLET: ClassVar[RecordType]
    CLA: ClassVar[RecordType]
    IPN: ClassVar[RecordType]
    TA: ClassVar[RecordType]
    DLV: ClassVar[RecordType]
    ANAME: ClassVar[RecordType]


class OpCodes:
    """The constants of OpCode."""

    QUERY: ClassVar[OpCode]
    IQUERY: ClassVar[OpCode]
    STATUS: ClassVar[OpCode]
    NOTIFY: ClassVar[OpCode]
    UPDATE: ClassVar[OpCode]


class ResponseCodes:
    """The constants of ResponseCode."""

    NOERROR: ClassVar[ResponseCode]
    FORMERR: ClassVar[ResponseCode]
    SERVFAIL: ClassVar[ResponseCode]
    NXDOMAIN: ClassVar[ResponseCode]
    NOTIMP: ClassVar[ResponseCode]
    REFUSED: ClassVar[ResponseCode]
    YXDOMAIN: ClassVar[ResponseCode]
    YXRRSET: ClassVar[ResponseCode]
    NXRRSET: ClassVar[ResponseCode]
    NOTAUTH: ClassVar[ResponseCode]
    NOTZONE: ClassVar[ResponseCode]
    DSOTYPENI: ClassVar[ResponseCode]
    BADVERS: ClassVar[ResponseCode]
    BADKEY: ClassVar[ResponseCode]
    BADTIME: ClassVar[ResponseCode]
    BADMODE: ClassVar[ResponseCode]
    BADNAME: ClassVar[ResponseCode]
    BADALG: ClassVar[ResponseCode]
    BADTRUNC: ClassVar[ResponseCode]
    BADCOOKIE: ClassVar[ResponseCode]
