//! Sets of records with the same owner, class and type.
use crate::octets::put_counted;
use crate::{Class, Error, ErrorKind, Fields, Name, NameRef, RData, Record, RecordBuf, RecordType};
use alloc::collections::BTreeMap;
use alloc::vec::Vec;
use core::fmt;
use core::iter::FusedIterator;

/// The octets of the length before each record's data.
const LENGTH_SIZE: usize = 2;

/// A set of records: they have the same owner, class and type, the same TTL, and different data (RFC 2181, section 5).
/// A message has all of them or none.
///
/// ```
/// use dns_names_wire::{Class, Name, RecordBuf, RecordSet, RecordType};
/// use std::net::Ipv4Addr;
///
/// let owner: Name = "www.example.".parse()?;
/// let mut set = RecordSet::new(&owner, RecordType::A, Class::IN, 60);
/// assert!(set.insert(Ipv4Addr::new(192, 0, 2, 1))? && set.insert(Ipv4Addr::new(192, 0, 2, 2))?);
/// // The same data in a record with a lower TTL, which the set then has
/// assert!(!set.insert_record(&"WWW.example. 30 A 192.0.2.1".parse::<RecordBuf>()?)?);
/// assert_eq!((set.len(), set.ttl()), (2, 30));
/// assert_eq!(set.to_string(), "www.example. 30 IN A 192.0.2.1\nwww.example. 30 IN A 192.0.2.2\n");
/// # Ok::<(), dns_names_wire::Error>(())
/// ```
#[derive(Clone)]
pub struct RecordSet {
    owner: Name,
    record_type: RecordType,
    class: Class,
    ttl: u32,
    len: usize,
    /// for each record two octets of length, and the data without compression
    octets: Vec<u8>,
}

impl RecordSet {
    /// Returns the empty set with this owner, type, class and TTL.
    ///
    /// ```
    /// use dns_names_wire::{Class, Name, RecordSet, RecordType};
    ///
    /// assert!(RecordSet::new(&Name::root(), RecordType::NS, Class::IN, 60).is_empty());
    /// ```
    pub fn new<'n>(owner: impl Into<NameRef<'n>>, record_type: RecordType, class: Class, ttl: u32) -> Self {
        RecordSet { owner: owner.into().to_name(), record_type, class, ttl, len: 0, octets: Vec::new() }
    }

    /// Returns the sets of these records, each at the place of its first record.
    ///
    /// # Errors
    ///
    /// The errors of [`Record::data`] if the data of a record are not valid.
    ///
    /// ```
    /// use dns_names_wire::{RecordBuf, RecordSet, RecordType};
    ///
    /// let lines = ["b. 60 A 192.0.2.1", "a. 60 NS b.", "B. 60 A 192.0.2.2"];
    /// let records = lines.map(|line| line.parse::<RecordBuf>().unwrap());
    /// let sets = RecordSet::group(&records)?;
    /// assert_eq!((sets.len(), sets[0].len(), sets[1].record_type()), (2, 2, RecordType::NS));
    /// # Ok::<(), dns_names_wire::Error>(())
    /// ```
    pub fn group<'r, I>(records: I) -> Result<Vec<Self>, Error>
    where
        I: IntoIterator,
        I::Item: Into<Record<'r>>,
    {
        let (mut sets, mut places) = (Vec::new(), BTreeMap::new());
        for record in records.into_iter().map(Into::into) {
            let place = (record.owner().sort_key(), record.record_type(), record.class());
            let at = *places.entry(place).or_insert(sets.len());
            if at == sets.len() {
                sets.push(RecordSet::new(record.owner(), record.record_type(), record.class(), record.ttl()));
            }
            sets[at].insert_record(record)?;
        }
        Ok(sets)
    }

    /// Adds data, and returns whether they are new in the set.
    ///
    /// # Errors
    ///
    /// `BadData` if the data are of another type; `RelativeName` if the owner is not fully qualified; or the errors of
    /// [`RData::to_wire`]. The set is then unchanged.
    ///
    /// ```
    /// use dns_names_wire::{Class, ErrorKind, Name, RecordSet, RecordType};
    ///
    /// let mut set = RecordSet::new(&Name::root(), RecordType::A, Class::IN, 60);
    /// assert_eq!(set.insert(std::net::Ipv6Addr::LOCALHOST).unwrap_err().kind(), ErrorKind::BadData);
    /// ```
    pub fn insert<'d>(&mut self, data: impl Into<RData<'d>>) -> Result<bool, Error> {
        let data = data.into();
        if data.record_type() != self.record_type {
            return Err(ErrorKind::BadData.into());
        }
        self.insert_put(|octets| data.put(octets))
    }

    /// Adds the data of a record, and returns whether they are new in the set. If the record has a lower TTL, it is the
    /// set's (RFC 2181, section 5.2).
    ///
    /// # Errors
    ///
    /// `BadItem` if the record has another owner, type or class; or the errors of [`Record::data`]. The set is then
    /// unchanged.
    ///
    /// ```
    /// use dns_names_wire::{Class, ErrorKind, Name, RecordBuf, RecordSet, RecordType};
    ///
    /// let mut set = RecordSet::new(&Name::root(), RecordType::A, Class::IN, 60);
    /// let record: RecordBuf = "a. 60 A 192.0.2.1".parse()?;
    /// assert_eq!(set.insert_record(&record).unwrap_err().kind(), ErrorKind::BadItem);
    /// # Ok::<(), dns_names_wire::Error>(())
    /// ```
    pub fn insert_record<'r>(&mut self, record: impl Into<Record<'r>>) -> Result<bool, Error> {
        let record = record.into();
        if (record.record_type(), record.class()) != (self.record_type, self.class) || record.owner() != self.owner {
            return Err(ErrorKind::BadItem.into());
        }
        let is_new = self.insert_put(|octets| record.put_data(octets))?;
        self.ttl = self.ttl.min(record.ttl());
        Ok(is_new)
    }

    /// Appends data, unless the set has them. The function appends their octets.
    fn insert_put(&mut self, put: impl FnOnce(&mut Vec<u8>) -> Result<(), Error>) -> Result<bool, Error> {
        self.owner.whole_wire()?;
        let start = self.octets.len();
        put_counted(&mut self.octets, put)?;
        let is_new = !self.has_twice(start);
        match is_new {
            true => self.len += 1,
            false => self.octets.truncate(start),
        }
        Ok(is_new)
    }

    /// Returns whether the data at an offset, the last ones, equal earlier ones.
    fn has_twice(&self, last: usize) -> bool {
        let new = &self.octets[last + LENGTH_SIZE..];
        let mut key = None;
        // Equal data have the same octets but for the case of letters.
        RawData(&self.octets[..last]).filter(|octets| octets.eq_ignore_ascii_case(new)).any(|octets| {
            let key = key.get_or_insert_with(|| self.record(new).as_record().order_key());
            octets == new || self.record(octets).as_record().order_key() == *key
        })
    }

    /// Returns the record with these data.
    fn record(&self, data: &[u8]) -> RecordBuf {
        RecordBuf::from_octets(&self.owner, self.record_type, self.class, self.ttl, data)
            .expect("data of at most 65535 octets")
    }

    /// Returns the owner.
    ///
    /// ```
    /// use dns_names_wire::{Class, Name, RecordSet, RecordType};
    ///
    /// assert!(RecordSet::new(&Name::root(), RecordType::NS, Class::IN, 60).owner().is_root());
    /// ```
    pub fn owner(&self) -> &Name {
        &self.owner
    }

    /// Returns the type.
    ///
    /// ```
    /// use dns_names_wire::{Class, Name, RecordSet, RecordType};
    ///
    /// let set = RecordSet::new(&Name::root(), RecordType::NS, Class::IN, 60);
    /// assert_eq!(set.record_type(), RecordType::NS);
    /// ```
    pub fn record_type(&self) -> RecordType {
        self.record_type
    }

    /// Returns the class.
    ///
    /// ```
    /// use dns_names_wire::{Class, Name, RecordSet, RecordType};
    ///
    /// assert_eq!(RecordSet::new(&Name::root(), RecordType::NS, Class::IN, 60).class(), Class::IN);
    /// ```
    pub fn class(&self) -> Class {
        self.class
    }

    /// Returns the TTL, in seconds.
    ///
    /// ```
    /// use dns_names_wire::{Class, Name, RecordSet, RecordType};
    ///
    /// assert_eq!(RecordSet::new(&Name::root(), RecordType::NS, Class::IN, 60).ttl(), 60);
    /// ```
    pub fn ttl(&self) -> u32 {
        self.ttl
    }

    /// Sets the TTL, in seconds.
    ///
    /// ```
    /// use dns_names_wire::{Class, Name, RecordSet, RecordType};
    ///
    /// let mut set = RecordSet::new(&Name::root(), RecordType::NS, Class::IN, 60);
    /// set.set_ttl(0);
    /// assert_eq!(set.ttl(), 0);
    /// ```
    pub fn set_ttl(&mut self, ttl: u32) {
        self.ttl = ttl;
    }

    /// Returns the number of records.
    ///
    /// ```
    /// use dns_names_wire::{Class, Name, RecordSet, RecordType};
    ///
    /// assert_eq!(RecordSet::new(&Name::root(), RecordType::NS, Class::IN, 60).len(), 0);
    /// ```
    pub fn len(&self) -> usize {
        self.len
    }

    /// Returns whether there are no records.
    ///
    /// ```
    /// use dns_names_wire::{Class, Name, RecordSet, RecordType};
    ///
    /// assert!(RecordSet::new(&Name::root(), RecordType::NS, Class::IN, 60).is_empty());
    /// ```
    pub fn is_empty(&self) -> bool {
        self.len == 0
    }

    /// Returns an iterator over the data of the records, by their type. They are valid, since they were read or made by
    /// type.
    ///
    /// ```
    /// use dns_names_wire::{RData, RecordBuf, RecordSet};
    ///
    /// let record: RecordBuf = "a. 60 A 192.0.2.1".parse()?;
    /// let sets = RecordSet::group(&[record])?;
    /// assert!(sets[0].data().eq([Ok(RData::A([192, 0, 2, 1].into()))]));
    /// # Ok::<(), dns_names_wire::Error>(())
    /// ```
    pub fn data(&self) -> impl FusedIterator<Item = Result<RData<'_>, Error>> + Clone {
        let (class, record_type) = (self.class, self.record_type);
        self.raw_data().map(move |octets| RData::take(class, record_type, Fields::new(octets, 0, class, record_type)))
    }

    /// Returns an iterator over the octets of the data of the records, without compression.
    ///
    /// ```
    /// use dns_names_wire::{Class, Name, RecordSet, RecordType};
    ///
    /// let mut set = RecordSet::new(&Name::root(), RecordType::A, Class::IN, 60);
    /// set.insert(std::net::Ipv4Addr::LOCALHOST)?;
    /// assert!(set.raw_data().eq([[127, 0, 0, 1]]));
    /// # Ok::<(), dns_names_wire::Error>(())
    /// ```
    pub fn raw_data(&self) -> impl FusedIterator<Item = &[u8]> + Clone {
        RawData(&self.octets)
    }

    /// Returns the data of the records, each after two octets of length.
    pub(crate) fn as_list(&self) -> &[u8] {
        &self.octets
    }

    /// Returns an iterator over the records.
    ///
    /// ```
    /// use dns_names_wire::{RecordBuf, RecordSet};
    ///
    /// let record: RecordBuf = "a. 60 A 192.0.2.1".parse()?;
    /// assert!(RecordSet::group(&[record.clone()])?[0].records().eq([record]));
    /// # Ok::<(), dns_names_wire::Error>(())
    /// ```
    pub fn records(&self) -> impl Iterator<Item = RecordBuf> + '_ {
        self.raw_data().map(move |octets| self.record(octets))
    }

    /// Returns whether the set has a record: one that equals it.
    ///
    /// ```
    /// use dns_names_wire::{RecordBuf, RecordSet};
    ///
    /// let records = ["a. 60 NS b.", "a. 60 NS c."].map(|line| line.parse::<RecordBuf>().unwrap());
    /// let set = &RecordSet::group(&records)?[0];
    /// assert!(set.contains(&"A. 9 NS B.".parse::<RecordBuf>()?) && !set.contains(&"a. 60 NS d.".parse::<RecordBuf>()?));
    /// # Ok::<(), dns_names_wire::Error>(())
    /// ```
    pub fn contains<'r>(&self, record: impl Into<Record<'r>>) -> bool {
        let record = record.into();
        self.records().any(|own| own.as_record() == record)
    }
}

/// The data of a list in which each has two octets of its length before it.
#[derive(Clone)]
struct RawData<'a>(&'a [u8]);

impl<'a> Iterator for RawData<'a> {
    type Item = &'a [u8];

    fn next(&mut self) -> Option<&'a [u8]> {
        let len = usize::from(u16::from_be_bytes([*self.0.first()?, *self.0.get(1)?]));
        let (data, rest) = self.0[LENGTH_SIZE..].split_at(len);
        self.0 = rest;
        Some(data)
    }
}

impl FusedIterator for RawData<'_> {}

/// Two sets are equal if they have the same records, in any order. The TTL makes no difference.
impl PartialEq for RecordSet {
    fn eq(&self, other: &Self) -> bool {
        let keys = |set: &RecordSet| {
            let mut keys: Vec<Vec<u8>> =
                set.raw_data().map(|octets| set.record(octets).as_record().order_key()).collect();
            keys.sort_unstable();
            keys
        };
        (self.record_type, self.class, self.len) == (other.record_type, other.class, other.len)
            && self.owner == other.owner
            && keys(self) == keys(other)
    }
}

impl Eq for RecordSet {}

/// Prints the records, each as a line of a master file with its end.
impl fmt::Display for RecordSet {
    fn fmt(&self, f: &mut fmt::Formatter<'_>) -> fmt::Result {
        self.records().try_for_each(|record| writeln!(f, "{record}"))
    }
}

/// Prints the records, each as its line.
impl fmt::Debug for RecordSet {
    fn fmt(&self, f: &mut fmt::Formatter<'_>) -> fmt::Result {
        f.write_str("RecordSet")?;
        f.debug_list().entries(self.records()).finish()
    }
}
