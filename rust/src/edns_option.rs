//! EDNS options.
use crate::ffi;
use crate::{Error, Name};
use alloc::vec::Vec;
use core::fmt;

/// An EDNS option (RFC 6891, section 6.1.2): its code and its octets. [`Edns::options`](crate::Edns::options) has pairs of
/// both.
///
/// [`data`](Self::data) is what it says, as a typed value. It is printed as `dig` shows it. An option that `dig` does not know, or that breaks a rule of its format, is its code, its
/// octets in hexadecimal and these as characters. No control character is printed.
///
/// ```
/// use dns_names_wire::{EdnsOption, Message};
///
/// // an OPT record with the network of a client, an extended error, and an option of which nothing is known
/// let message = Message::read(
///     b"\0\0\0\0\0\0\0\0\0\0\0\x01\0\0\x29\x04\xD0\0\0\0\0\0\x1A\0\x08\0\x07\0\x01\x18\0\xC0\0\x02\0\x0F\0\x05\0\x0Fwhy\xFD\xE9\0\x02a\n",
/// )?;
/// let edns = message.edns()?.unwrap();
/// let shown: Vec<String> = edns.options().map(|option| EdnsOption::from(option).to_string()).collect();
/// assert_eq!(shown, ["CLIENT-SUBNET: 192.0.2.0/24/0", "EDE: 15 (Blocked): (why)", "OPT=65001: 61 0a (\"a.\")"]);
/// # Ok::<(), dns_names_wire::Error>(())
/// ```
#[derive(Clone, Copy, PartialEq, Eq, Hash)]
pub struct EdnsOption<'a> {
    /// The code, by IANA's registry "DNS EDNS0 Option Codes (OPT)".
    pub code: u16,
    /// The octets.
    pub octets: &'a [u8],
}

impl<'a> EdnsOption<'a> {
    /// Returns what the option says. An option of which nothing is known here may have any octets.
    ///
    /// ```
    /// use dns_names_wire::{EdnsOption, EdnsOptionData, ErrorKind};
    ///
    /// let option = EdnsOption { code: 15, octets: b"\0\x0Fwhy" };
    /// assert_eq!(option.data()?, EdnsOptionData::ExtendedError { code: 15, text: "why" });
    /// let cut = EdnsOption { code: 15, octets: b"\0" };
    /// assert_eq!(cut.data().unwrap_err().kind(), ErrorKind::BadData);
    /// # Ok::<(), dns_names_wire::Error>(())
    /// ```
    ///
    /// # Errors
    ///
    /// `BadData` if no option with its code has so many octets, or these are not the wire form of a name; `BadFamily` if a
    /// prefix is longer than an address of its family, or an address has a bit after its prefix that is not zero (RFC 7871,
    /// section 6); or `NotUtf8` if a text is not UTF-8 (RFC 8914, section 2).
    pub fn data(&self) -> Result<EdnsOptionData<'a>, Error> {
        let parts = ffi::option_read(self.code, self.octets)?;
        let own = &self.octets[parts.offset..][..parts.len];
        Ok(match self.code {
            EdnsOptionData::NSID => EdnsOptionData::Nsid(own),
            EdnsOptionData::CLIENT_SUBNET => EdnsOptionData::ClientSubnet {
                family: parts.family,
                source: parts.source,
                scope: parts.scope,
                address: own,
            },
            EdnsOptionData::EXPIRE => EdnsOptionData::Expire(parts.is_given.then_some(parts.seconds)),
            EdnsOptionData::COOKIE => EdnsOptionData::Cookie { client: parts.client, server: own },
            EdnsOptionData::TCP_KEEPALIVE => EdnsOptionData::TcpKeepalive(parts.is_given.then_some(parts.timeout)),
            EdnsOptionData::PADDING => EdnsOptionData::Padding(own),
            EdnsOptionData::CHAIN if parts.is_given => EdnsOptionData::Chain(Some(Name::from_wire(own)?)),
            EdnsOptionData::CHAIN => EdnsOptionData::Chain(None),
            EdnsOptionData::EXTENDED_ERROR => EdnsOptionData::ExtendedError {
                code: parts.info_code,
                text: core::str::from_utf8(own).expect("the C library read UTF-8"),
            },
            EdnsOptionData::REPORT_CHANNEL => EdnsOptionData::ReportChannel(Name::from_wire(own)?),
            EdnsOptionData::ZONE_VERSION => EdnsOptionData::ZoneVersion(parts.is_given.then_some(ZoneVersion {
                labels: parts.labels,
                version_type: parts.version_type,
                version: own,
            })),
            code => EdnsOptionData::Unknown { code, octets: own },
        })
    }
}

impl<'a> From<(u16, &'a [u8])> for EdnsOption<'a> {
    fn from((code, octets): (u16, &'a [u8])) -> Self {
        EdnsOption { code, octets }
    }
}

/// The option as `dig` of BIND 9.18 shows it, without the `; ` before it. It fails if memory ran out.
impl fmt::Display for EdnsOption<'_> {
    fn fmt(&self, f: &mut fmt::Formatter<'_>) -> fmt::Result {
        let text = ffi::text(ffi::USUAL_SIZE, |room| ffi::option_print(self.code, self.octets, room));
        f.write_str(&text.map_err(|_| fmt::Error)?)
    }
}

/// Prints the option, as `Display` does.
impl fmt::Debug for EdnsOption<'_> {
    fn fmt(&self, f: &mut fmt::Formatter<'_>) -> fmt::Result {
        f.debug_tuple("EdnsOption").field(&format_args!("{self}")).finish()
    }
}

/// What an EDNS option says. Octets and texts are borrowed from the option.
///
/// ```
/// use dns_names_wire::{EdnsOption, EdnsOptionData};
///
/// let subnet = EdnsOptionData::ClientSubnet { family: 1, source: 24, scope: 0, address: &[192, 0, 2] };
/// let octets = subnet.to_octets()?;
/// assert_eq!(octets, b"\0\x01\x18\0\xC0\0\x02");
/// assert_eq!(EdnsOption { code: subnet.code(), octets: &octets }.data()?, subnet);
/// # Ok::<(), dns_names_wire::Error>(())
/// ```
#[derive(Clone, Debug, PartialEq, Eq, Hash)]
#[non_exhaustive]
pub enum EdnsOptionData<'a> {
    /// The identifier of a server, any octets; empty in a query (RFC 5001, section 2.3).
    Nsid(&'a [u8]),
    /// The network of a client (RFC 7871, section 6).
    ClientSubnet {
        /// The family of the address: 1 for IPv4, and 2 for IPv6.
        family: u16,
        /// How many bits of the client's address are given.
        source: u8,
        /// How many bits of it the response is for; 0 in a query.
        scope: u8,
        /// The octets of these bits. The bits after them are zero.
        address: &'a [u8],
    },
    /// The time after which a zone expires, in seconds; none in a query (RFC 7314, section 2).
    Expire(Option<u32>),
    /// Cookies (RFC 7873, section 4).
    Cookie {
        /// The cookie of the client.
        client: [u8; 8],
        /// The cookie of the server, 8 to 32 octets, or none if the client has none yet.
        server: &'a [u8],
    },
    /// How long a connection is kept, in tenths of a second; none in a query (RFC 7828, section 3.1).
    TcpKeepalive(Option<u16>),
    /// Padding: any octets (RFC 7830, section 3).
    Padding(&'a [u8]),
    /// The closest trust point, or none to ask whether the server knows this option (RFC 7901, sections 4 and 5.1).
    Chain(Option<Name>),
    /// An extended DNS error (RFC 8914, section 2).
    ExtendedError {
        /// The code, by IANA's registry "Extended DNS Error Codes".
        code: u16,
        /// More about it, which may be empty.
        text: &'a str,
    },
    /// The domain of an agent that errors are reported to (RFC 9567, section 5).
    ReportChannel(Name),
    /// The version of a zone; none in a query (RFC 9660, section 2).
    ZoneVersion(Option<ZoneVersion<'a>>),
    /// An option of which nothing is known here.
    Unknown {
        /// Its code.
        code: u16,
        /// Its octets.
        octets: &'a [u8],
    },
}

/// The version of a zone (RFC 9660, section 2).
///
/// ```
/// use dns_names_wire::{EdnsOptionData, ZoneVersion};
///
/// let serial = 2026u32.to_be_bytes();
/// let version = EdnsOptionData::ZoneVersion(Some(ZoneVersion { labels: 2, version_type: 0, version: &serial }));
/// assert_eq!(version.to_octets()?, [2, 0, 0, 0, 0x07, 0xEA]);
/// # Ok::<(), dns_names_wire::Error>(())
/// ```
#[derive(Clone, Copy, Debug, PartialEq, Eq, Hash)]
pub struct ZoneVersion<'a> {
    /// How many labels of the name in the question are the zone's.
    pub labels: u8,
    /// What the version is: 0 for the serial number of the zone, which has four octets.
    pub version_type: u8,
    /// Its octets.
    pub version: &'a [u8],
}

/// The codes of options, by IANA's registry "DNS EDNS0 Option Codes (OPT)".
impl EdnsOptionData<'_> {
    // made by tools/types from tools/codes.txt
    /// The code of the identifier of a server (RFC 5001, section 2.3).
    pub const NSID: u16 = 3;
    /// The code of the network of a client (RFC 7871, section 6).
    pub const CLIENT_SUBNET: u16 = 8;
    /// The code of the time after which a zone expires (RFC 7314, section 2).
    pub const EXPIRE: u16 = 9;
    /// The code of cookies of a client and a server (RFC 7873, section 4).
    pub const COOKIE: u16 = 10;
    /// The code of how long a connection is kept (RFC 7828, section 3.1).
    pub const TCP_KEEPALIVE: u16 = 11;
    /// The code of octets that say nothing (RFC 7830, section 3).
    pub const PADDING: u16 = 12;
    /// The code of the closest trust point (RFC 7901, section 4).
    pub const CHAIN: u16 = 13;
    /// The code of an extended DNS error (RFC 8914, section 2).
    pub const EXTENDED_ERROR: u16 = 15;
    /// The code of the domain of an agent that errors are reported to (RFC 9567, section 5).
    pub const REPORT_CHANNEL: u16 = 18;
    /// The code of the version of a zone (RFC 9660, section 2).
    pub const ZONE_VERSION: u16 = 19;
    // made until here

    /// Returns the code of the option that says it.
    ///
    /// ```
    /// use dns_names_wire::EdnsOptionData;
    ///
    /// assert_eq!(EdnsOptionData::Padding(&[0; 8]).code(), EdnsOptionData::PADDING);
    /// ```
    pub fn code(&self) -> u16 {
        match self {
            EdnsOptionData::Nsid(_) => Self::NSID,
            EdnsOptionData::ClientSubnet { .. } => Self::CLIENT_SUBNET,
            EdnsOptionData::Expire(_) => Self::EXPIRE,
            EdnsOptionData::Cookie { .. } => Self::COOKIE,
            EdnsOptionData::TcpKeepalive(_) => Self::TCP_KEEPALIVE,
            EdnsOptionData::Padding(_) => Self::PADDING,
            EdnsOptionData::Chain(_) => Self::CHAIN,
            EdnsOptionData::ExtendedError { .. } => Self::EXTENDED_ERROR,
            EdnsOptionData::ReportChannel(_) => Self::REPORT_CHANNEL,
            EdnsOptionData::ZoneVersion(_) => Self::ZONE_VERSION,
            EdnsOptionData::Unknown { code, .. } => *code,
        }
    }

    /// Returns the octets of the option that says it.
    ///
    /// ```
    /// use dns_names_wire::{EdnsOptionData, ErrorKind};
    ///
    /// assert_eq!(EdnsOptionData::Expire(Some(3600)).to_octets()?, [0, 0, 14, 16]);
    /// let short = EdnsOptionData::Cookie { client: *b"12345678", server: b"1234567" };
    /// assert_eq!(short.to_octets().unwrap_err().kind(), ErrorKind::BadData);
    /// # Ok::<(), dns_names_wire::Error>(())
    /// ```
    ///
    /// # Errors
    ///
    /// As [`EdnsOption::data`] of such octets, if they break a rule; `RelativeName` if a name is not fully qualified; or
    /// `NoMemory`. `Unknown` with a code that has a name is
    /// what its octets are: so it fails if they break a rule of that option.
    pub fn to_octets(&self) -> Result<Vec<u8>, Error> {
        let mut parts = ffi::OptionParts::ZERO;
        let own: &[u8] = match self {
            EdnsOptionData::Unknown { code, octets } => {
                parts = ffi::option_read(*code, octets)?;
                &octets[parts.offset..]
            }
            EdnsOptionData::Nsid(octets) | EdnsOptionData::Padding(octets) => octets,
            EdnsOptionData::ClientSubnet { family, source, scope, address } => {
                (parts.family, parts.source, parts.scope) = (*family, *source, *scope);
                address
            }
            EdnsOptionData::Expire(seconds) => {
                (parts.is_given, parts.seconds) = (seconds.is_some(), seconds.unwrap_or(0));
                &[]
            }
            EdnsOptionData::Cookie { client, server } => {
                parts.client = *client;
                server
            }
            EdnsOptionData::TcpKeepalive(timeout) => {
                (parts.is_given, parts.timeout) = (timeout.is_some(), timeout.unwrap_or(0));
                &[]
            }
            EdnsOptionData::Chain(Some(name)) | EdnsOptionData::ReportChannel(name) => name.whole_wire()?,
            EdnsOptionData::ExtendedError { code, text } => {
                parts.info_code = *code;
                text.as_bytes()
            }
            EdnsOptionData::ZoneVersion(Some(version)) => {
                (parts.is_given, parts.labels, parts.version_type) = (true, version.labels, version.version_type);
                version.version
            }
            EdnsOptionData::Chain(None) | EdnsOptionData::ZoneVersion(None) => &[],
        };
        ffi::octets(ffi::USUAL_SIZE, |room| ffi::option_write(self.code(), &parts, own, room))
    }
}
