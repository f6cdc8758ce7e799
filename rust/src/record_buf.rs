//! Records that own their octets.
use crate::ffi;
use crate::octets::put_counted;
use crate::record::{record_traits, TEXT_PARTS};
use crate::{Class, Error, Name, NameRef, RData, Record, RecordType};
use alloc::string::String;
use alloc::vec::Vec;
use core::cmp::Ordering;
use core::fmt;
use core::hash::{Hash, Hasher};
use core::str::FromStr;

/// The offsets of the fields after the owner.
const CLASS: usize = 2;
const TTL: usize = 4;
const LENGTH: usize = 8;
const FIXED_SIZE: usize = 10;

/// A record that owns its octets, without compression. It is made from data by type, or parsed from a line of a master
/// file, and a [`MessageBuilder`](crate::MessageBuilder) writes it. [`Record`] is the borrowed form.
///
/// ```
/// use dns_names_wire::{rdata::MX, Name, RecordBuf};
///
/// let (owner, host): (Name, Name) = ("a.".parse()?, "b.a.".parse()?);
/// let record = RecordBuf::new(&owner, 60, MX { preference: 10, exchange: (&host).into() })?;
/// assert_eq!(record.to_string(), "a. 60 IN MX 10 b.a.");
/// assert_eq!(record, "a. 60 IN MX 10 b.a.".parse()?);
/// assert_eq!(record, RecordBuf::from_text("@ 1m MX 10 b", &owner)?);
/// # Ok::<(), dns_names_wire::Error>(())
/// ```
#[derive(Clone)]
pub struct RecordBuf {
    octets: Vec<u8>,
    /// the offset at which the owner ends
    fixed: usize,
}

impl RecordBuf {
    /// Returns a record of class IN with these data.
    ///
    /// # Errors
    ///
    /// `RelativeName` if the owner or a name in the data is not fully qualified; `DataTooLong` if the data have more than 65535 octets, or a character string in them more than 255; or
    /// `NoMemory`.
    ///
    /// ```
    /// use dns_names_wire::{Name, RecordBuf};
    ///
    /// let record = RecordBuf::new(&"a.".parse::<Name>()?, 60, std::net::Ipv4Addr::LOCALHOST)?;
    /// assert_eq!(record.to_string(), "a. 60 IN A 127.0.0.1");
    /// assert!(RecordBuf::new(&"a".parse::<Name>()?, 60, std::net::Ipv4Addr::LOCALHOST).is_err());
    /// # Ok::<(), dns_names_wire::Error>(())
    /// ```
    pub fn new<'n, 'd>(owner: impl Into<NameRef<'n>>, ttl: u32, data: impl Into<RData<'d>>) -> Result<Self, Error> {
        RecordBuf::of_data(owner.into(), ttl, &data.into())
    }

    fn of_data(owner: NameRef<'_>, ttl: u32, data: &RData<'_>) -> Result<Self, Error> {
        RecordBuf::made(owner, (data.record_type(), Class::IN, ttl), |octets| data.put(octets))
    }

    /// Returns the record whose data a function appends.
    fn made(
        owner: NameRef<'_>,
        fields: (RecordType, Class, u32),
        put_data: impl FnOnce(&mut Vec<u8>) -> Result<(), Error>,
    ) -> Result<Self, Error> {
        let mut octets = Vec::new();
        let fixed = put_record(&mut octets, owner, fields, put_data)?;
        Ok(RecordBuf { octets, fixed })
    }

    /// Returns the record with these octets, whose owner has so many of them.
    pub(crate) fn from_whole(octets: &[u8], owner_len: usize) -> Self {
        RecordBuf { octets: octets.to_vec(), fixed: owner_len }
    }

    /// Returns a record with these octets as its data. Names in them must not be compressed. They are not checked.
    ///
    /// # Errors
    ///
    /// `RelativeName` if the owner is not fully qualified; or `DataTooLong` if there are more than 65535 octets.
    ///
    /// ```
    /// use dns_names_wire::{Class, Name, RecordBuf, RecordType};
    ///
    /// let record = RecordBuf::from_octets(&Name::root(), RecordType::from(65280), Class::CH, 0, &[1, 2])?;
    /// assert_eq!(record.to_string(), ". 0 CH TYPE65280 \\# 2 0102");
    /// # Ok::<(), dns_names_wire::Error>(())
    /// ```
    pub fn from_octets<'n>(
        owner: impl Into<NameRef<'n>>,
        record_type: RecordType,
        class: Class,
        ttl: u32,
        data: &[u8],
    ) -> Result<Self, Error> {
        RecordBuf::made(owner.into(), (record_type, class, ttl), |octets| {
            octets.extend_from_slice(data);
            Ok(())
        })
    }

    /// Parses a line of a master file (RFC 1035, section 5.1): the owner, the TTL, the class, the type and the data.
    /// The class may be before the TTL, or be left out for IN. The origin is appended to names without a last dot, and
    /// `@` is the origin. The text may have comments, and parentheses in which the end of a line is white space. A string may
    /// have any octets as they are, so the line may be octets that are no UTF-8.
    ///
    /// `str::parse` does the same without an origin, and rejects such names.
    ///
    /// # Errors
    ///
    /// `BadText` if the first word is not a name, `BadTime` if there is no TTL, `UnknownText` if there is no type,
    /// `BadData` if the rest is not data of the type; `RelativeName` if the origin is not fully qualified; or `NoMemory`.
    ///
    /// ```
    /// use dns_names_wire::{ErrorKind, Name, RecordBuf};
    ///
    /// let origin: Name = "example.".parse()?;
    /// let record = RecordBuf::from_text("www 1h IN CNAME @", &origin)?;
    /// assert_eq!(record.to_string(), "www.example. 3600 IN CNAME example.");
    /// let error = RecordBuf::from_text("www 1h IN A 192.0.2", &origin).unwrap_err();
    /// assert_eq!(error.kind(), ErrorKind::BadData);
    /// # Ok::<(), dns_names_wire::Error>(())
    /// ```
    pub fn from_text(line: impl AsRef<[u8]>, origin: &Name) -> Result<Self, Error> {
        RecordBuf::parse(line.as_ref(), origin.whole_wire()?)
    }

    /// Returns a record of class IN, with data parsed from their text in master files. The origin is appended to names
    /// without a last dot.
    ///
    /// # Errors
    ///
    /// `BadData` if the text is not data of the type; `RelativeName` if the owner or the origin is not fully qualified; or
    /// `NoMemory`.
    ///
    /// ```
    /// use dns_names_wire::{Name, RecordBuf, RecordType};
    ///
    /// let name: Name = "a.".parse()?;
    /// let record = RecordBuf::from_data_text(&name, 60, RecordType::MX, "10 b", Some(&name))?;
    /// assert_eq!(record.to_string(), "a. 60 IN MX 10 b.a.");
    /// assert!(RecordBuf::from_data_text(&name, 60, RecordType::MX, "10 b", None).is_err());
    /// # Ok::<(), dns_names_wire::Error>(())
    /// ```
    pub fn from_data_text<'n>(
        owner: impl Into<NameRef<'n>>,
        ttl: u32,
        record_type: RecordType,
        text: impl AsRef<[u8]>,
        origin: Option<&Name>,
    ) -> Result<Self, Error> {
        let (class, text, origin) = (Class::IN, text.as_ref(), origin.map_or(Ok(&[][..]), Name::whole_wire)?);
        RecordBuf::made(owner.into(), (record_type, class, ttl), |octets| {
            ffi::append(octets, ffi::USUAL_SIZE, |room| ffi::data_parse(record_type, class, text, origin, room))
                .map_err(|error| error.at_fault_of(ffi::data_text_fault(record_type, class, text, origin)))
        })
    }

    fn parse(line: &[u8], origin: &[u8]) -> Result<Self, Error> {
        let parsed = ffi::octets(ffi::USUAL_SIZE, |room| ffi::record_parse(line, origin, room));
        let octets = parsed.map_err(|error| error.at_fault_of(ffi::record_text_fault(line, origin)))?;
        let fixed = Name::root().read_from(&octets, 0)?;
        Ok(RecordBuf { octets, fixed })
    }

    /// Returns the record with another class.
    ///
    /// ```
    /// use dns_names_wire::{Class, RecordBuf};
    ///
    /// let record = "a. 1 IN TXT b".parse::<RecordBuf>()?.with_class(Class::CH);
    /// assert_eq!(record.to_string(), "a. 1 CH TXT \"b\"");
    /// # Ok::<(), dns_names_wire::Error>(())
    /// ```
    pub fn with_class(mut self, class: Class) -> Self {
        self.octets[self.fixed + CLASS..self.fixed + TTL].copy_from_slice(&class.code().to_be_bytes());
        self
    }

    /// Returns the record with another TTL.
    ///
    /// ```
    /// let record = "a. 1 IN A 192.0.2.1".parse::<dns_names_wire::RecordBuf>()?.with_ttl(60);
    /// assert_eq!(record.ttl(), 60);
    /// # Ok::<(), dns_names_wire::Error>(())
    /// ```
    pub fn with_ttl(mut self, ttl: u32) -> Self {
        self.octets[self.fixed + TTL..self.fixed + LENGTH].copy_from_slice(&ttl.to_be_bytes());
        self
    }

    /// Returns the record as a [`Record`] that borrows its octets.
    ///
    /// ```
    /// let record: dns_names_wire::RecordBuf = "a. 1 IN A 192.0.2.1".parse()?;
    /// assert_eq!(record.as_record().end(), record.as_wire().len());
    /// # Ok::<(), dns_names_wire::Error>(())
    /// ```
    pub fn as_record(&self) -> Record<'_> {
        Record::of_whole(&self.octets, self.fixed)
    }

    /// Returns the octets of the record, without compression.
    ///
    /// ```
    /// let record: dns_names_wire::RecordBuf = "a. 1 IN A 192.0.2.1".parse()?;
    /// assert_eq!(record.as_wire(), b"\x01a\0\0\x01\0\x01\0\0\0\x01\0\x04\xC0\0\x02\x01");
    /// # Ok::<(), dns_names_wire::Error>(())
    /// ```
    pub fn as_wire(&self) -> &[u8] {
        &self.octets
    }

    /// Returns the name that owns the record.
    ///
    /// ```
    /// assert_eq!("a. 1 A 192.0.2.1".parse::<dns_names_wire::RecordBuf>()?.owner().to_string(), "a.");
    /// # Ok::<(), dns_names_wire::Error>(())
    /// ```
    pub fn owner(&self) -> NameRef<'_> {
        NameRef::with_len(&self.octets, 0, self.fixed, self.fixed)
    }

    /// Returns the type.
    ///
    /// ```
    /// use dns_names_wire::{RecordBuf, RecordType};
    ///
    /// assert_eq!("a. 1 A 192.0.2.1".parse::<RecordBuf>()?.record_type(), RecordType::A);
    /// # Ok::<(), dns_names_wire::Error>(())
    /// ```
    pub fn record_type(&self) -> RecordType {
        self.as_record().record_type()
    }

    /// Returns the class.
    ///
    /// ```
    /// use dns_names_wire::{Class, RecordBuf};
    ///
    /// assert_eq!("a. 1 A 192.0.2.1".parse::<RecordBuf>()?.class(), Class::IN);
    /// # Ok::<(), dns_names_wire::Error>(())
    /// ```
    pub fn class(&self) -> Class {
        self.as_record().class()
    }

    /// Returns the TTL, in seconds.
    ///
    /// ```
    /// assert_eq!("a. 1h A 192.0.2.1".parse::<dns_names_wire::RecordBuf>()?.ttl(), 3600);
    /// # Ok::<(), dns_names_wire::Error>(())
    /// ```
    pub fn ttl(&self) -> u32 {
        self.as_record().ttl()
    }

    /// Returns the data, by their type.
    ///
    /// # Errors
    ///
    /// The errors of [`Record::data`], if the record was made from octets that are not data of its type.
    ///
    /// ```
    /// use dns_names_wire::{RData, RecordBuf};
    ///
    /// let record: RecordBuf = "a. 1 A 192.0.2.1".parse()?;
    /// assert_eq!(record.data()?, RData::A([192, 0, 2, 1].into()));
    /// # Ok::<(), dns_names_wire::Error>(())
    /// ```
    pub fn data(&self) -> Result<RData<'_>, Error> {
        self.as_record().data()
    }

    /// Returns the octets of the data.
    ///
    /// ```
    /// assert_eq!("a. 1 MX 10 b.".parse::<dns_names_wire::RecordBuf>()?.raw_data(), b"\0\x0A\x01b\0");
    /// # Ok::<(), dns_names_wire::Error>(())
    /// ```
    pub fn raw_data(&self) -> &[u8] {
        &self.octets[self.fixed + FIXED_SIZE..]
    }
}

/// Appends a record, and returns the offset at which its owner ends. The function appends its data. If it fails,
/// nothing is appended.
pub(crate) fn put_record(
    octets: &mut Vec<u8>,
    owner: NameRef<'_>,
    (record_type, class, ttl): (RecordType, Class, u32),
    put_data: impl FnOnce(&mut Vec<u8>) -> Result<(), Error>,
) -> Result<usize, Error> {
    let start = octets.len();
    owner.put(octets)?;
    let fixed = octets.len();
    let ([t, u], [c, d]) = (record_type.code().to_be_bytes(), class.code().to_be_bytes());
    let [l0, l1, l2, l3] = ttl.to_be_bytes();
    octets.extend_from_slice(&[t, u, c, d, l0, l1, l2, l3]);
    let put = put_counted(octets, put_data);
    if put.is_err() {
        octets.truncate(start);
    }
    put.map(|()| fixed)
}

/// Returns the text of data in a master file.
pub(crate) fn data_text(data: &RData<'_>) -> Result<String, Error> {
    let line = RecordBuf::of_data((&Name::root()).into(), 0, data)?.as_record().line()?;
    // No owner, TTL, class or type has a space in its text.
    Ok(line.splitn(TEXT_PARTS, ' ').nth(TEXT_PARTS - 1).unwrap_or_default().into())
}

record_traits!(RecordBuf);

/// The same as [`RecordBuf::from_text`], without an origin.
impl FromStr for RecordBuf {
    type Err = Error;

    fn from_str(line: &str) -> Result<Self, Error> {
        RecordBuf::parse(line.as_bytes(), &[])
    }
}

/// The same as [`RecordBuf::from_text`], without an origin.
impl TryFrom<&str> for RecordBuf {
    type Error = Error;

    fn try_from(line: &str) -> Result<Self, Error> {
        line.parse()
    }
}

impl<'a> From<&'a RecordBuf> for Record<'a> {
    fn from(record: &'a RecordBuf) -> Self {
        record.as_record()
    }
}

/// Fails with the errors of [`Record::data`].
impl TryFrom<Record<'_>> for RecordBuf {
    type Error = Error;

    fn try_from(record: Record<'_>) -> Result<Self, Error> {
        let mut octets = Vec::new();
        let fixed = record.put(&mut octets)?;
        Ok(RecordBuf { octets, fixed })
    }
}

/// The same as [`RecordBuf::as_wire`].
impl AsRef<[u8]> for RecordBuf {
    fn as_ref(&self) -> &[u8] {
        self.as_wire()
    }
}
