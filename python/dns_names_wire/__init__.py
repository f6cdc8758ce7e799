"""DNS names, records and messages, read and written by a proved library.

The library is the shared C library of `dns-names-wire`, which the wheel has. Its reader accepts exactly the names of
RFC 1035, section 4.1.4, and no input makes it read outside the message, loop or crash. This package calls it by ctypes.
The package itself is not proved. It uses only Python's standard library.

>>> from dns_names_wire import A, Message, Record, make_query
>>> query = make_query("www.example.com", "A", max_payload=1232)
>>> reply = query.reply([Record("www.example.com.", 60, A("192.0.2.1"))], authoritative=True)
>>> message = Message.from_wire(reply.to_wire(query.max_payload))
>>> for record in message.answers:
...     print(record)
www.example.com. 60 IN A 192.0.2.1

`help(dns_names_wire.Message)`, or `pydoc dns_names_wire.Message`, explains a class or a function:

messages    Message, Header, Question, Edns, OpCode, ResponseCode; make_query, make_response;
            MessageWriter writes a message step by step; transfer, those of a zone
options     EdnsOption, OptionData, with a class for each option, as ClientSubnet or Cookie, and
            UnknownOption for any other
records     Record, RRset; rrsets, read_record, records, parse_ttl; RecordType, RecordClass, with
            type_text, type_code, class_text, class_code
data        Data, with a class for each type, as A, MX, SOA or TXT, and Unknown for any other;
            FieldValue, TypeSet; data_from_text, data_from_wire
zone files  read_zone, zone_lines, ZoneError; check_zone, ZoneFinding
names       Name, NameAt; read_name, names, sort_names; reverse_name, parse_reverse_name
DNSSEC      Record.signed_octets; key_tag, ds, ds_digest, zone_digest, nsec_covers, nsec3_covers,
            nsec3_hash, nsec3_label
serials     serial_add, serial_compare
errors      DnsError, with a subclass for each reason, and TextRule

Wrong input raises a subclass of `DnsError`, which is a `ValueError`: `reason` is what is wrong, and `offset` is where, if it
is known. An argument of a wrong type raises `TypeError`, and one that is out of bounds raises `ValueError`, with the
argument's name. `MemoryError` means that the library is out of memory.

The shared library is taken from the folder that the environment variable DNW_LIB_DIR names, or, if that is not set,
from the folder of this file. It is opened, and each module is imported, when a name of it is first used.
"""

from importlib import import_module as _imported

# What the package shows, by the modules that have it. tools/types makes __init__.pyi of this, for type checkers.
_PLACES = {
    "_codes": "OpCode RecordClass RecordType ResponseCode class_code class_text type_code type_text",
    "_data": "Data Unknown data_from_text data_from_wire",
    "_dnssec": "ds ds_digest key_tag nsec3_covers nsec3_hash nsec3_label nsec_covers zone_digest",
    "_errors": "DnsError TextRule",
    # made by tools/types from include/dns_names_wire.h
    "_failures":
        "BadBitmap BadData BadEscape BadFamily BadItem BadParams BadText BadTime BytesLeft ControlCharacter CutOption "
        "DataTooLong DuplicateEdns EmptyLabel IllegalCharacter LabelTooLong MessageCut MessageTooLong NameTooLong "
        "NotCovered NotDnskey NotOrdered NotReverse NotRrsig NotUtf8 OutsideAdditionals OwnerNotRoot PointerNotBack "
        "ReservedOctet SegmentsOverlap TextCut TooFewLabels TooManyIterations TooManyPointers UnclosedList "
        "UnclosedQuote UnknownAlgorithm UnknownEntry UnknownText WrongDataLength",
    # made until here
    "_messages": "Edns Header Message Question make_query make_response",
    "_names": "Name NameAt names read_name sort_names",
    "_options":
        "Chain ClientSubnet Cookie EdnsOption Expire ExtendedError Nsid OptionData Padding ReportChannel TcpKeepalive "
        "UnknownOption ZoneVersion",
    # made by tools/types from crates/dnw_data/specs/Table.antt
    "_rdata":
        "A AAAA AFSDB AMTRELAY APL AVC BRID CAA CDNSKEY CDS CERT CLA CNAME CSYNC DHCID DLV DNAME DNSKEY DOA DS DSYNC "
        "EUI48 EUI64 GPOS HHIT HINFO HIP HTTPS IPN IPSECKEY ISDN KEY KX L32 L64 LOC LP MB MD MF MG MINFO MR MX NAPTR "
        "NID NINFO NS NSAP NSAP_PTR NSEC NSEC3 NSEC3PARAM NXT PTR PX RESINFO RKEY RP RRSIG RT SIG SMIMEA SOA SPF SRV "
        "SSHFP SVCB TA TALINK TKEY TLSA TSIG TXT URI WALLET WKS X25 ZONEMD",
    # made until here
    "_records": "Record read_record records",
    "_reverse": "parse_reverse_name reverse_name",
    "_sets": "RRset rrsets",
    "_table": "FieldValue",
    "_text": "parse_ttl",
    "_types": "TypeSet serial_add serial_compare",
    "_writer": "MessageWriter transfer",
    "_zones": "ZoneError ZoneFinding check_zone read_zone zone_lines",
}  # fmt: skip
_MODULES = {name: module for module, names in _PLACES.items() for name in names.split()}
__all__ = sorted(_MODULES)


def __getattr__(name: str) -> object:
    if name in _MODULES:
        value = getattr(_imported(f"{__name__}.{_MODULES[name]}"), name)
    elif name == "__version__":
        value = _imported(f"{__name__}._version").VERSION
    else:
        raise AttributeError(f"module {__name__!r} has no attribute {name!r}")
    globals()[name] = value
    return value


def __dir__() -> "list[str]":
    return sorted({*globals(), *__all__})
