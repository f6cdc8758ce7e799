# made by tools/types from python/dns_names_wire/__init__.py; change it there
from ._codes import (
    OpCode as OpCode, RecordClass as RecordClass, RecordType as RecordType, ResponseCode as ResponseCode,
    class_code as class_code, class_text as class_text, type_code as type_code, type_text as type_text,
)
from ._data import Data as Data, Unknown as Unknown, data_from_text as data_from_text, data_from_wire as data_from_wire
from ._dnssec import (
    ds as ds, ds_digest as ds_digest, key_tag as key_tag, nsec3_covers as nsec3_covers, nsec3_hash as nsec3_hash,
    nsec3_label as nsec3_label, nsec_covers as nsec_covers, zone_digest as zone_digest,
)
from ._errors import DnsError as DnsError, TextRule as TextRule
from ._failures import (
    BadBitmap as BadBitmap, BadData as BadData, BadEscape as BadEscape, BadFamily as BadFamily, BadItem as BadItem,
    BadParams as BadParams, BadText as BadText, BadTime as BadTime, BytesLeft as BytesLeft,
    ControlCharacter as ControlCharacter, CutOption as CutOption, DataTooLong as DataTooLong,
    DuplicateEdns as DuplicateEdns, EmptyLabel as EmptyLabel, IllegalCharacter as IllegalCharacter,
    LabelTooLong as LabelTooLong, MessageCut as MessageCut, MessageTooLong as MessageTooLong,
    NameTooLong as NameTooLong, NotCovered as NotCovered, NotDnskey as NotDnskey, NotOrdered as NotOrdered,
    NotReverse as NotReverse, NotRrsig as NotRrsig, NotUtf8 as NotUtf8, OutsideAdditionals as OutsideAdditionals,
    OwnerNotRoot as OwnerNotRoot, PointerNotBack as PointerNotBack, ReservedOctet as ReservedOctet,
    SegmentsOverlap as SegmentsOverlap, TextCut as TextCut, TooFewLabels as TooFewLabels,
    TooManyIterations as TooManyIterations, TooManyPointers as TooManyPointers, UnclosedList as UnclosedList,
    UnclosedQuote as UnclosedQuote, UnknownAlgorithm as UnknownAlgorithm, UnknownEntry as UnknownEntry,
    UnknownText as UnknownText, WrongDataLength as WrongDataLength,
)
from ._messages import (
    Edns as Edns, Header as Header, Message as Message, Question as Question, make_query as make_query,
    make_response as make_response,
)
from ._names import Name as Name, NameAt as NameAt, names as names, read_name as read_name, sort_names as sort_names
from ._options import (
    Chain as Chain, ClientSubnet as ClientSubnet, Cookie as Cookie, EdnsOption as EdnsOption, Expire as Expire,
    ExtendedError as ExtendedError, Nsid as Nsid, OptionData as OptionData, Padding as Padding,
    ReportChannel as ReportChannel, TcpKeepalive as TcpKeepalive, UnknownOption as UnknownOption,
    ZoneVersion as ZoneVersion,
)
from ._rdata import (
    A as A, AAAA as AAAA, AFSDB as AFSDB, AMTRELAY as AMTRELAY, APL as APL, AVC as AVC, BRID as BRID, CAA as CAA,
    CDNSKEY as CDNSKEY, CDS as CDS, CERT as CERT, CLA as CLA, CNAME as CNAME, CSYNC as CSYNC, DHCID as DHCID,
    DLV as DLV, DNAME as DNAME, DNSKEY as DNSKEY, DOA as DOA, DS as DS, DSYNC as DSYNC, EUI48 as EUI48, EUI64 as EUI64,
    GPOS as GPOS, HHIT as HHIT, HINFO as HINFO, HIP as HIP, HTTPS as HTTPS, IPN as IPN, IPSECKEY as IPSECKEY,
    ISDN as ISDN, KEY as KEY, KX as KX, L32 as L32, L64 as L64, LOC as LOC, LP as LP, MB as MB, MD as MD, MF as MF,
    MG as MG, MINFO as MINFO, MR as MR, MX as MX, NAPTR as NAPTR, NID as NID, NINFO as NINFO, NS as NS, NSAP as NSAP,
    NSAP_PTR as NSAP_PTR, NSEC as NSEC, NSEC3 as NSEC3, NSEC3PARAM as NSEC3PARAM, NXT as NXT, PTR as PTR, PX as PX,
    RESINFO as RESINFO, RKEY as RKEY, RP as RP, RRSIG as RRSIG, RT as RT, SIG as SIG, SMIMEA as SMIMEA, SOA as SOA,
    SPF as SPF, SRV as SRV, SSHFP as SSHFP, SVCB as SVCB, TA as TA, TALINK as TALINK, TKEY as TKEY, TLSA as TLSA,
    TSIG as TSIG, TXT as TXT, URI as URI, WALLET as WALLET, WKS as WKS, X25 as X25, ZONEMD as ZONEMD,
)
from ._records import Record as Record, read_record as read_record, records as records
from ._reverse import parse_reverse_name as parse_reverse_name, reverse_name as reverse_name
from ._sets import RRset as RRset, rrsets as rrsets
from ._table import FieldValue as FieldValue
from ._text import parse_ttl as parse_ttl
from ._types import TypeSet as TypeSet, serial_add as serial_add, serial_compare as serial_compare
from ._writer import MessageWriter as MessageWriter, transfer as transfer
from ._zones import (
    ZoneError as ZoneError, ZoneFinding as ZoneFinding, check_zone as check_zone, read_zone as read_zone,
    zone_lines as zone_lines,
)
from ._version import VERSION as __version__
