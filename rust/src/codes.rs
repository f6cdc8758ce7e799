//! Record types, classes and serial numbers.
use crate::ffi::{self, CODE_SIZE};
use crate::Error;
use core::cmp::Ordering;
use core::fmt;
use core::ops::Add;
use core::str::FromStr;

/// A record type, by its code of 16 bits.
///
/// It is printed as its name in IANA's registry, or as `TYPE` and its code if it has none there (RFC 3597, section 5). Both
/// texts are parsed, in upper or lower case, so every code round-trips. `*` is parsed as `ANY`.
///
/// ```
/// use dns_names_wire::RecordType;
///
/// assert_eq!("aaaa".parse(), Ok(RecordType::AAAA));
/// assert_eq!("uri".parse(), Ok(RecordType::URI));
/// assert_eq!("TYPE65280".parse(), Ok(RecordType::from(65280)));
/// assert_eq!(RecordType::from(65280).to_string(), "TYPE65280");
/// match RecordType::from(28) {
///     RecordType::A | RecordType::AAAA => (),
///     other => panic!("{other} is no address"),
/// }
/// ```
#[derive(Clone, Copy, PartialEq, Eq, PartialOrd, Ord, Hash)]
pub struct RecordType(u16);

/// A class, by its code of 16 bits. It is printed and parsed as a [`RecordType`] is, with `CLASS` in place of `TYPE`.
///
/// ```
/// use dns_names_wire::Class;
///
/// assert_eq!(Class::IN.to_string(), "IN");
/// assert_eq!("class7".parse(), Ok(Class::from(7)));
/// ```
#[derive(Clone, Copy, PartialEq, Eq, PartialOrd, Ord, Hash)]
pub struct Class(u16);

/// Defines the constants of a code.
macro_rules! constants {
    ($code:ident { $($(#[doc = $doc:literal])* $name:ident = $number:literal,)* }) => {
        impl $code {
            $(
                $(#[doc = $doc])*
                pub const $name: $code = $code($number);
            )*

            /// All codes that have a name, in ascending order.
            pub const NAMED: &'static [$code] = &[$($code::$name),*];
        }
    };
}

constants! {
    RecordType {
        // made by tools/types from crates/dnw_data/specs/Table.antt
        /// An IPv4 address (RFC 1035, section 3.4.1).
        A = 1,
        /// A name server of a zone (RFC 1035, section 3.3.11).
        NS = 2,
        /// A host that takes mail, which is obsolete (RFC 1035, section 3.3.4).
        MD = 3,
        /// A host that forwards mail, which is obsolete (RFC 1035, section 3.3.5).
        MF = 4,
        /// The canonical name of an alias (RFC 1035, section 3.3.1).
        CNAME = 5,
        /// The start of a zone of authority (RFC 1035, section 3.3.13).
        SOA = 6,
        /// A host of a mailbox (RFC 1035, section 3.3.3).
        MB = 7,
        /// A member of a group of mailboxes (RFC 1035, section 3.3.6).
        MG = 8,
        /// The new name of a mailbox (RFC 1035, section 3.3.8).
        MR = 9,
        /// Any data (RFC 1035, section 3.3.10).
        NULL = 10,
        /// The services of a host by their ports, which is obsolete (RFC 1035, section 3.4.2).
        WKS = 11,
        /// A pointer to another name (RFC 1035, section 3.3.12).
        PTR = 12,
        /// The CPU and the operating system of a host (RFC 1035, section 3.3.2).
        HINFO = 13,
        /// A mailbox for requests and one for errors (RFC 1035, section 3.3.7).
        MINFO = 14,
        /// A mail server for a domain (RFC 1035, section 3.3.9).
        MX = 15,
        /// Texts (RFC 1035, section 3.3.14).
        TXT = 16,
        /// The person responsible for a name, and the owner of a TXT record (RFC 1183, section 2.2).
        RP = 17,
        /// A server of an AFS or DCE cell (RFC 1183, section 1).
        AFSDB = 18,
        /// An address of X.25 (RFC 1183, section 3.1).
        X25 = 19,
        /// An address of ISDN, and a subaddress if there is one (RFC 1183, section 3.2).
        ISDN = 20,
        /// A host that routes to another one (RFC 1183, section 3.3).
        RT = 21,
        /// An address of OSI (RFC 1706, section 5).
        NSAP = 22,
        /// The name of an address of OSI (RFC 1706, section 6).
        NSAP_PTR = 23,
        /// A signature of records (RFC 2535, section 4.1) or, if it covers the type 0, of a message (RFC 2931).
        SIG = 24,
        /// A key of a host (RFC 2535, section 3.1).
        KEY = 25,
        /// A mapping between mail addresses and those of X.400 (RFC 2163, section 4).
        PX = 26,
        /// Where a host is, in degrees and metres (RFC 1712, section 3).
        GPOS = 27,
        /// An IPv6 address (RFC 3596, section 2.2).
        AAAA = 28,
        /// A location: 16 octets if the first, the version, is 0 (RFC 1876, section 2).
        LOC = 29,
        /// The next name in a zone and the types at this name, in an old form (RFC 2535, section 5.2).
        NXT = 30,
        /// An identifier of Nimrod (IANA's registry).
        EID = 31,
        /// A locator of Nimrod (IANA's registry).
        NIMLOC = 32,
        /// The host and the port of a service (RFC 2782).
        SRV = 33,
        /// An address in ATM (IANA's registry).
        ATMA = 34,
        /// A rule that rewrites a name (RFC 3403, section 4.1).
        NAPTR = 35,
        /// A host that exchanges keys (RFC 2230, section 3).
        KX = 36,
        /// A certificate (RFC 4398, section 2).
        CERT = 37,
        /// An IPv6 address in parts, historic (RFC 2874, section 3.1.1).
        A6 = 38,
        /// The name that a subtree is an alias of (RFC 6672, section 2.1).
        DNAME = 39,
        /// A kitchen sink (IANA's registry).
        SINK = 40,
        /// The EDNS fields of a message (RFC 6891, section 6.1.1).
        OPT = 41,
        /// Address prefixes (RFC 3123, section 4).
        APL = 42,
        /// The digest of a key of a child zone (RFC 4034, section 5.1).
        DS = 43,
        /// The fingerprint of an SSH key (RFC 4255, section 3.1).
        SSHFP = 44,
        /// A gateway and its key for IPsec (RFC 4025, section 2.1).
        IPSECKEY = 45,
        /// A signature of records (RFC 4034, section 3.1).
        RRSIG = 46,
        /// The next name in a zone, and the types at this name (RFC 4034, section 4.1).
        NSEC = 47,
        /// A key of a zone (RFC 4034, section 2.1).
        DNSKEY = 48,
        /// Which client of DHCP owns a name (RFC 4701, section 3.1).
        DHCID = 49,
        /// The next hash in a zone, and the types at this name (RFC 5155, section 3.2).
        NSEC3 = 50,
        /// How the names of a zone are hashed (RFC 5155, section 4.2).
        NSEC3PARAM = 51,
        /// A certificate of a TLS server (RFC 6698, section 2.1).
        TLSA = 52,
        /// A certificate for mail (RFC 8162, section 2).
        SMIMEA = 53,
        /// The identity of a host, and its rendezvous servers (RFC 8005, section 5).
        HIP = 55,
        /// The state of a zone (the template NINFO of IANA's registry).
        NINFO = 56,
        /// A key for the encryption of NAPTR records (the template RKEY of IANA's registry).
        RKEY = 57,
        /// The links of a chain of trust anchors (the template TALINK of IANA's registry).
        TALINK = 58,
        /// The child's copy of a DS (RFC 7344, section 3.1).
        CDS = 59,
        /// The child's copy of a DNSKEY (RFC 7344, section 3.2).
        CDNSKEY = 60,
        /// An OpenPGP key (RFC 7929, section 2.1).
        OPENPGPKEY = 61,
        /// The types that a parent zone may copy from its child (RFC 7477, section 2.1.1).
        CSYNC = 62,
        /// The digest of a zone (RFC 8976, section 2.2).
        ZONEMD = 63,
        /// How to reach a service (RFC 9460, section 2.2).
        SVCB = 64,
        /// How to reach a service over HTTPS (RFC 9460, section 9).
        HTTPS = 65,
        /// Where to send notifications about a delegation (RFC 9859, section 2.1).
        DSYNC = 66,
        /// The identity of a host, in a hierarchy (RFC 9886, section 5.1).
        HHIT = 67,
        /// The identity of an unmanned aircraft (RFC 9886, section 5.2).
        BRID = 68,
        /// SPF texts (RFC 4408, section 3.1.1), now in TXT records (RFC 7208, section 3.1).
        SPF = 99,
        /// Reserved by IANA.
        UINFO = 100,
        /// Reserved by IANA.
        UID = 101,
        /// Reserved by IANA.
        GID = 102,
        /// Reserved by IANA.
        UNSPEC = 103,
        /// The identifier of a node (RFC 6742, section 2.1.1).
        NID = 104,
        /// A locator of 32 bits (RFC 6742, section 2.2.1).
        L32 = 105,
        /// A locator of 64 bits (RFC 6742, section 2.3.1).
        L64 = 106,
        /// The name of locators (RFC 6742, section 2.4.1).
        LP = 107,
        /// An EUI-48 address (RFC 7043, section 3.1).
        EUI48 = 108,
        /// An EUI-64 address (RFC 7043, section 4.1).
        EUI64 = 109,
        /// A name that does not exist, in bitmaps (RFC 9824).
        NXNAME = 128,
        /// The making of a key for TSIG (RFC 2930, section 2).
        TKEY = 249,
        /// The signature of a message (RFC 8945, section 4.2).
        TSIG = 250,
        /// A transfer of the changes of a zone, in a question (RFC 1995).
        IXFR = 251,
        /// A transfer of a whole zone, in a question (RFC 5936).
        AXFR = 252,
        /// Records of mailboxes, in a question, obsolete (RFC 1035, section 3.2.3).
        MAILB = 253,
        /// Records of mail, in a question, obsolete (RFC 1035, section 3.2.3).
        MAILA = 254,
        /// Any type, in a question (RFC 1035, section 3.2.3).
        ANY = 255,
        /// The URI of a service (RFC 7553, section 4.2).
        URI = 256,
        /// The authorities that may issue certificates for a domain (RFC 8659, section 4.1).
        CAA = 257,
        /// What is known of an application (the template AVC of IANA's registry).
        AVC = 258,
        /// A digital object (the template DOA of IANA's registry).
        DOA = 259,
        /// A relay for multicast (RFC 8777, section 4.2).
        AMTRELAY = 260,
        /// What a resolver says of itself (RFC 9606, section 4).
        RESINFO = 261,
        /// A public address of a wallet (the template WALLET of IANA's registry).
        WALLET = 262,
        /// The convergence layer adapters of a node of the Bundle Protocol (the template CLA of IANA's registry).
        CLA = 263,
        /// A node of the Bundle Protocol (the template IPN of IANA's registry).
        IPN = 264,
        /// The digest of a key that is trusted (the reference of IANA's registry, as DS).
        TA = 32768,
        /// The digest of a key of a zone that is looked up aside (RFC 4431, section 2).
        DLV = 32769,
        // made until here
    }
}

impl RecordType {
    // made by tools/types from crates/dnw_data/specs/Table.antt
    /// Code 0, which no record has as its type (RFC 6895, section 3.1).
    pub const ZERO: RecordType = RecordType(0);
    /// An alias at the top of a zone (draft-ietf-dnsop-aname). Its code was never assigned.
    pub const ANAME: RecordType = RecordType(65305);
    // made until here
}

constants! {
    Class {
        /// The Internet (RFC 1035, section 3.2.4).
        IN = 1,
        /// Chaosnet (RFC 1035, section 3.2.4).
        CH = 3,
        /// Hesiod (RFC 1035, section 3.2.4).
        HS = 4,
        /// No class, in an update (RFC 2136, section 2.4).
        NONE = 254,
        /// Any class, in a question (RFC 1035, section 3.2.5).
        ANY = 255,
    }
}

macro_rules! code {
    ($code:ident, $text:path, $parse:path) => {
        impl From<u16> for $code {
            fn from(code: u16) -> Self {
                $code(code)
            }
        }

        impl From<$code> for u16 {
            fn from(code: $code) -> u16 {
                code.0
            }
        }

        impl $code {
            #[doc = concat!("Returns the code.\n\n```\nassert_eq!(dns_names_wire::", stringify!($code))]
            #[doc = "::ANY.code(), 255);\n```"]
            pub const fn code(self) -> u16 {
                self.0
            }
        }

        /// Prints the name of the code in capitals, or the text of RFC 3597, section 5, if it has no name.
        impl fmt::Display for $code {
            fn fmt(&self, f: &mut fmt::Formatter<'_>) -> fmt::Result {
                let mut room = [0; CODE_SIZE];
                let len = $text(self.0, &mut room).map_err(|_| fmt::Error)?;
                f.pad(ffi::str_of(&room[..len]))
            }
        }

        impl fmt::Debug for $code {
            fn fmt(&self, f: &mut fmt::Formatter<'_>) -> fmt::Result {
                fmt::Display::fmt(self, f)
            }
        }

        /// Parses a name, or the text of RFC 3597, section 5, in upper or lower case. Fails with `UnknownText`.
        impl FromStr for $code {
            type Err = Error;

            fn from_str(text: &str) -> Result<Self, Error> {
                $parse(text.as_bytes()).map($code)
            }
        }

        /// The same as `str::parse`.
        impl TryFrom<&str> for $code {
            type Error = Error;

            fn try_from(text: &str) -> Result<Self, Error> {
                text.parse()
            }
        }
    };
}

code!(RecordType, ffi::type_print, ffi::type_parse);
code!(Class, ffi::class_print, ffi::class_parse);

/// A serial number of a zone, which wraps to 0 after 4294967295 (RFC 1982).
///
/// Two serial numbers that are 2^31 apart have no order. The order is not transitive.
///
/// ```
/// use dns_names_wire::SerialNumber;
///
/// let last = SerialNumber(u32::MAX);
/// assert!(last < last + SerialNumber(1));
/// assert_eq!(SerialNumber(0).partial_cmp(&SerialNumber(1 << 31)), None);
/// ```
#[derive(Clone, Copy, Debug, Default, PartialEq, Eq, Hash)]
pub struct SerialNumber(pub u32);

/// Prints the number in decimal.
impl fmt::Display for SerialNumber {
    fn fmt(&self, f: &mut fmt::Formatter<'_>) -> fmt::Result {
        fmt::Display::fmt(&self.0, f)
    }
}

impl From<u32> for SerialNumber {
    fn from(number: u32) -> Self {
        SerialNumber(number)
    }
}

impl From<SerialNumber> for u32 {
    fn from(serial: SerialNumber) -> u32 {
        serial.0
    }
}

impl PartialOrd for SerialNumber {
    fn partial_cmp(&self, other: &Self) -> Option<Ordering> {
        ffi::serial_compare(self.0, other.0).ok().map(|order| order.cmp(&0))
    }
}

impl Add for SerialNumber {
    type Output = Self;

    fn add(self, other: Self) -> Self {
        SerialNumber(ffi::serial_add(self.0, other.0))
    }
}
