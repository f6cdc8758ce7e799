//! Zone files, read entry by entry (RFC 1035, section 5; RFC 2308, section 4).
use crate::ffi;
use crate::{Error, Name, NameRef, RecordBuf};
use alloc::string::{String, ToString};
use alloc::vec;
use alloc::vec::Vec;
use core::fmt;
use core::iter::FusedIterator;

mod error;
#[cfg(feature = "std")]
mod file;
mod findings;
#[cfg(feature = "std")]
mod stream;
mod writer;

pub use error::ZoneError;
#[cfg(feature = "std")]
pub use file::ZoneFile;
pub use findings::{check_zone, ZoneFinding};
#[cfg(feature = "std")]
pub use stream::ZoneStream;
pub use writer::ZoneWriter;

/// The entries of a zone file that is in memory: an iterator over its records and its `$INCLUDE`s.
///
/// What an entry leaves out, its owner, TTL or class, is that of an entry before it. `$ORIGIN` and `$TTL` change what the
/// entries after them mean, and are no items of their own. `$GENERATE` is an error, unless
/// [`generate_limit`](ZoneReader::generate_limit) is called.
///
/// After an entry that is not valid, the iterator goes on at the next one. It ends after the last entry, or if memory runs
/// out.
///
/// `ZoneFile` opens a file and follows `$INCLUDE`, and `ZoneStream` reads from any `std::io::Read`. Both need the feature
/// `std`.
///
/// ```
/// use dns_names_wire::{ZoneItem, ZoneReader};
///
/// let text = b"$TTL 1h\n@ NS ns\nns A 192.0.2.256\n   TXT ( hello ; the first\n   world )\n";
/// let (mut records, mut errors) = (Vec::new(), Vec::new());
/// for item in ZoneReader::new(text, &"example.".parse()?) {
///     match item {
///         Ok(ZoneItem::Record(record)) => records.push(record),
///         Ok(ZoneItem::Include(_)) => unreachable!("the text has no $INCLUDE"),
///         Err(error) => errors.push(error.to_string()),
///     }
/// }
/// assert_eq!(records, ["example. 3600 IN NS ns.example.".parse()?, "example. 3600 IN TXT hello world".parse()?]);
/// assert_eq!(errors, ["3:6: wanted an IPv4 address (field 0)"]);
/// # Ok::<(), dns_names_wire::Error>(())
/// ```
#[derive(Clone)]
pub struct ZoneReader<'a> {
    /// What is left of the text.
    text: &'a [u8],
    entries: Entries,
}

impl<'a> ZoneReader<'a> {
    /// Returns an iterator over the entries of a zone file. The origin is the name of the zone: it is appended to names
    /// without a last dot, until an `$ORIGIN` changes it. If it is not fully qualified itself, the one item is an error whose
    /// source is `RelativeName`.
    ///
    /// ```
    /// use dns_names_wire::{ErrorKind, ZoneReader};
    ///
    /// let text = b"$TTL 60\nwww A 192.0.2.1\n";
    /// assert!(ZoneReader::new(text, &"example.".parse()?).all(|item| item.is_ok()));
    /// let error = ZoneReader::new(text, &"example".parse()?).next().unwrap().unwrap_err();
    /// assert_eq!(error.sentence(), ErrorKind::RelativeName.to_string());
    /// # Ok::<(), dns_names_wire::Error>(())
    /// ```
    pub fn new(text: &'a [u8], origin: &Name) -> Self {
        ZoneReader { text, entries: Entries::new(origin) }
    }

    /// Sets the TTL of records for which the file states none: no TTL of their own, no `$TTL` and no TTL of a record before
    /// them, and no SOA record, whose minimum stands for its own TTL (RFC 1035, section 5.1; RFC 2308, section 4). Without
    /// it, such a record is an error. A TTL has at most 2147483647 seconds (RFC 2181, section 8).
    ///
    /// ```
    /// use dns_names_wire::{ZoneItem, ZoneReader};
    ///
    /// let mut zone = ZoneReader::new(b"www A 192.0.2.1\n", &"example.".parse()?).default_ttl(3600);
    /// match zone.next().transpose()? {
    ///     Some(ZoneItem::Record(record)) => assert_eq!(record.ttl(), 3600),
    ///     _ => panic!("the text has a record"),
    /// }
    /// # Ok::<(), Box<dyn std::error::Error>>(())
    /// ```
    pub fn default_ttl(mut self, ttl: u32) -> Self {
        self.entries.set_default_ttl(ttl);
        self
    }

    /// Sets how many records a `$GENERATE` may stand for: an entry of BIND's, which is in no RFC. Each of them is an item. With
    /// 0, and without a call, `$GENERATE` is an error.
    ///
    /// ```
    /// use dns_names_wire::{ZoneItem, ZoneReader};
    ///
    /// let text = b"$TTL 1h\n$GENERATE 9-11 host-${0,2} A 192.0.2.$\n";
    /// let mut owners = Vec::new();
    /// for item in ZoneReader::new(text, &"example.".parse()?).generate_limit(100) {
    ///     if let ZoneItem::Record(record) = item? {
    ///         owners.push(record.owner().to_string());
    ///     }
    /// }
    /// assert_eq!(owners, ["host-09.example.", "host-10.example.", "host-11.example."]);
    /// # Ok::<(), Box<dyn std::error::Error>>(())
    /// ```
    pub fn generate_limit(mut self, limit: u32) -> Self {
        self.entries.set_generate_limit(limit);
        self
    }

    /// Returns an iterator over the entries of the file that the last item, an `$INCLUDE`, names. Its first entry may leave
    /// out what an entry may leave out here. This iterator goes on as if the file were not there (RFC 1035, section 5.1).
    ///
    /// ```
    /// use dns_names_wire::{Name, RecordBuf, ZoneError, ZoneItem, ZoneReader};
    ///
    /// /// Appends the records of a text, and those of the files that it includes, which are all this one.
    /// fn read(zone: &mut ZoneReader<'_>, records: &mut Vec<RecordBuf>) -> Result<(), ZoneError> {
    ///     while let Some(item) = zone.next().transpose()? {
    ///         match item {
    ///             ZoneItem::Record(record) => records.push(record),
    ///             ZoneItem::Include(it) => read(&mut zone.include(b"mail A 192.0.2.25\n", it.origin()), records)?,
    ///         }
    ///     }
    ///     Ok(())
    /// }
    ///
    /// let text = b"$TTL 1h\nwww A 192.0.2.1\n$INCLUDE mail.zone sub\n  AAAA 2001:db8::1\n";
    /// let (mut zone, mut records) = (ZoneReader::new(text, &"example.".parse()?), Vec::new());
    /// read(&mut zone, &mut records)?;
    /// let owners: Vec<String> = records.iter().map(|record| record.owner().to_string()).collect();
    /// assert_eq!(owners, ["www.example.", "mail.sub.example.", "www.example."]);
    /// # Ok::<(), Box<dyn std::error::Error>>(())
    /// ```
    pub fn include<'t>(&self, text: &'t [u8], origin: &Name) -> ZoneReader<'t> {
        ZoneReader { text, entries: self.entries.include(origin) }
    }
}

impl Iterator for ZoneReader<'_> {
    type Item = Result<ZoneItem, ZoneError>;

    fn next(&mut self) -> Option<Self::Item> {
        if self.text.is_empty() {
            return None;
        }
        let (used, taken) = self.entries.take(self.text, false);
        let (before, left) = self.text.split_at(used);
        self.text = left;
        match taken {
            Taken::Item => Some(self.entries.item(before)),
            Taken::End | Taken::Part => None,
            Taken::Failure(error) => {
                self.text = &[];
                Some(Err(error))
            }
        }
    }
}

impl FusedIterator for ZoneReader<'_> {}

impl fmt::Debug for ZoneReader<'_> {
    fn fmt(&self, f: &mut fmt::Formatter<'_>) -> fmt::Result {
        f.debug_struct("ZoneReader").field("left", &self.text.len()).finish_non_exhaustive()
    }
}

/// What an entry of a zone file says: a record, or that another file should be read.
///
/// ```
/// use dns_names_wire::{ZoneItem, ZoneReader};
///
/// let mut zone = ZoneReader::new(b"$TTL 60\nwww A 192.0.2.1\n$INCLUDE other.zone\n", &"example.".parse()?);
/// assert!(matches!(zone.next(), Some(Ok(ZoneItem::Record(record))) if record.ttl() == 60));
/// assert!(matches!(zone.next(), Some(Ok(ZoneItem::Include(_)))));
/// # Ok::<(), dns_names_wire::Error>(())
/// ```
#[derive(Clone, Debug, PartialEq, Eq)]
pub enum ZoneItem {
    /// A record. What its entry leaves out is filled in.
    Record(RecordBuf),
    /// An `$INCLUDE`.
    Include(ZoneInclude),
}

/// An `$INCLUDE` of a zone file (RFC 1035, section 5.1): the entries of a file should be read next.
///
/// ```
/// use dns_names_wire::{ZoneItem, ZoneReader};
///
/// let mut zone = ZoneReader::new(b"$INCLUDE \"a file\" sub ; c\n", &"example.".parse()?);
/// match zone.next().transpose()? {
///     Some(ZoneItem::Include(include)) => {
///         assert_eq!(include.file(), b"a file");
///         assert_eq!(include.origin().to_string(), "sub.example.");
///     }
///     other => panic!("{other:?}"),
/// }
/// # Ok::<(), Box<dyn std::error::Error>>(())
/// ```
#[derive(Clone, PartialEq, Eq)]
pub struct ZoneInclude {
    file: Vec<u8>,
    origin: Name,
}

impl ZoneInclude {
    /// Returns the name of the file, without quotes and escapes. It has at least one octet, and none is zero.
    pub fn file(&self) -> &[u8] {
        &self.file
    }

    /// Returns the name of the file, as a path. Whether it may be read is for the caller to decide.
    ///
    /// ```
    /// use dns_names_wire::{ZoneItem, ZoneReader};
    ///
    /// match ZoneReader::new(b"$INCLUDE sub/mail.zone\n", &"example.".parse()?).next() {
    ///     Some(Ok(ZoneItem::Include(include))) => assert!(include.path().is_relative()),
    ///     other => panic!("{other:?}"),
    /// }
    /// # Ok::<(), dns_names_wire::Error>(())
    /// ```
    #[cfg(feature = "std")]
    pub fn path(&self) -> &std::path::Path {
        use std::os::unix::ffi::OsStrExt;
        std::ffi::OsStr::from_bytes(&self.file).as_ref()
    }

    /// Returns the origin of the file: that of the entry, or else that of the file that the entry is in.
    pub fn origin(&self) -> &Name {
        &self.origin
    }
}

impl fmt::Debug for ZoneInclude {
    fn fmt(&self, f: &mut fmt::Formatter<'_>) -> fmt::Result {
        let file = error::shown(&self.file);
        f.debug_struct("ZoneInclude").field("file", &file).field("origin", &self.origin).finish()
    }
}

/// What the entries so far say for later ones, and the last entry with its octets.
#[derive(Clone)]
struct Entries {
    zone: ffi::Zone,
    /// Why no entry can be taken.
    failure: Option<Error>,
    entry: ffi::ZoneEntry,
    octets: Vec<u8>,
    batch: Batch,
}

/// How many records are read at once, and the octets that there are for them beside those of the longest.
const ROWS: usize = 128;
const ROWS_SIZE: usize = 1 << 14;

/// Records that were read at once, of which so many were taken, and so many octets of their text.
#[derive(Clone)]
struct Batch {
    rows: Vec<ffi::ZoneRow>,
    read: ffi::RowsRead,
    taken: usize,
    passed: usize,
}

impl Batch {
    fn new() -> Self {
        Batch { rows: vec![ffi::ZoneRow::ZERO; ROWS], read: ffi::RowsRead::ZERO, taken: 0, passed: 0 }
    }

    /// Takes the next record, and returns how many octets its entry has, with what is before the one after it.
    fn take(&mut self) -> Option<usize> {
        if self.taken == self.read.row_count {
            return None;
        }
        self.taken += 1;
        let end = if self.taken < self.read.row_count { self.rows[self.taken].offset } else { self.read.used };
        let used = end - self.passed;
        self.passed = end;
        Some(used)
    }
}

/// What was taken from a text.
enum Taken {
    /// Nothing: the text is at its end.
    End,
    /// Nothing: the text ends within an entry.
    Part,
    /// An entry that has an item, or that is not valid.
    Item,
    /// Nothing, and no more can be taken.
    Failure(ZoneError),
}

impl Entries {
    fn new(origin: &Name) -> Self {
        let mut zone = ffi::Zone::ZERO;
        let begun = origin.whole_wire().and_then(|origin| ffi::zone_begin(origin, &mut zone));
        Entries::with_state(zone, begun.err())
    }

    /// Returns the entries of a file that is included after the last one.
    fn include(&self, origin: &Name) -> Self {
        let mut zone = self.zone.clone();
        let begun = origin.whole_wire().and_then(|origin| ffi::zone_include(origin, &mut zone));
        Entries::with_state(zone, self.failure.or_else(|| begun.err()))
    }

    /// Sets the TTL of records for which the file states none.
    fn set_default_ttl(&mut self, ttl: u32) {
        (self.zone.fallback_ttl, self.zone.has_fallback_ttl) = (ttl, 1);
    }

    /// Sets how many records a `$GENERATE` may stand for.
    fn set_generate_limit(&mut self, limit: u32) {
        self.zone.generate_limit = limit;
    }

    fn with_state(zone: ffi::Zone, failure: Option<Error>) -> Self {
        let octets = vec![0; ffi::ZONE_OCTETS_SIZE + ROWS_SIZE];
        Entries { zone, failure, entry: ffi::ZoneEntry::ZERO, octets, batch: Batch::new() }
    }

    /// Takes the first entry that has an item or is not valid, and those before it. Returns how many octets they have.
    fn take(&mut self, text: &[u8], more: bool) -> (usize, Taken) {
        let mut used = 0;
        loop {
            if let Some(own) = self.batch.take() {
                self.entry.kind = ffi::ZONE_RECORD;
                return (used + own, Taken::Item);
            }
            let left = &text[used..];
            if let Err(error) = self.read(left, more) {
                let left = &left[self.batch.read.used..];
                return (used, Taken::Failure(self.error_ahead(left, error.to_string()).caused_by(error)));
            }
            if self.batch.read.row_count > 0 {
                continue;
            }
            used += self.batch.read.used + self.entry.used;
            match self.entry.kind {
                ffi::ZONE_END => return (used, Taken::End),
                ffi::ZONE_MORE => return (used, Taken::Part),
                ffi::ZONE_NOTHING => {}
                _ => return (used, Taken::Item),
            }
        }
    }

    /// Reads the records that a text begins with, or the entry that it begins with if there are none.
    fn read(&mut self, text: &[u8], more: bool) -> Result<(), Error> {
        let (zone, batch) = (&mut self.zone, &mut self.batch);
        (batch.read, batch.taken, batch.passed) = (ffi::RowsRead::ZERO, 0, 0);
        if let Some(error) = self.failure {
            return Err(error);
        }
        batch.read = ffi::zone_read(text, more, zone, &mut batch.rows, &mut self.octets[..])?;
        if batch.read.row_count == 0 {
            self.entry = ffi::zone_next(&text[batch.read.used..], more, zone, &mut self.octets[..])?;
        }
        Ok(())
    }

    /// Returns the item of the entry that was taken, or why it is not valid. The text ends where the entry does.
    fn item(&self, text: &[u8]) -> Result<ZoneItem, ZoneError> {
        let (entry, octets) = (&self.entry, &self.octets[..self.entry.len]);
        match entry.kind {
            ffi::ZONE_RECORD => Ok(ZoneItem::Record(self.record())),
            ffi::ZONE_INCLUDE => {
                let origin = NameRef::checked(octets, 0, entry.name_len).to_name();
                Ok(ZoneItem::Include(ZoneInclude { file: octets[entry.name_len..].to_vec(), origin }))
            }
            _ => {
                // The sentence begins with the place, which is said in another way.
                let sentence = ffi::sentence(&entry.fault);
                let reason = sentence.split_once(": ").map_or("the entry is not valid", |(_, reason)| reason);
                Err(self.error(text, entry.fault.offset, reason.into()))
            }
        }
    }

    /// Returns the record that was taken.
    fn record(&self) -> RecordBuf {
        match self.batch.taken {
            0 => RecordBuf::from_whole(&self.octets[..self.entry.len], self.entry.name_len),
            taken => {
                let row = &self.batch.rows[taken - 1];
                RecordBuf::from_whole(&self.octets[row.start..row.start + row.len], row.name_len)
            }
        }
    }

    /// Returns an error at the place of the last entry, which is at an offset of it. The text ends where the entry does.
    fn error(&self, text: &[u8], offset: usize, sentence: String) -> ZoneError {
        let place = (self.entry.offset, self.entry.line, self.entry.column);
        ZoneError::new(place, &text[text.len() - self.entry.used..], offset, sentence)
    }

    /// Returns an error after the last entry, where this text is.
    fn error_ahead(&self, text: &[u8], sentence: String) -> ZoneError {
        let ffi::Zone { offset, line, column, .. } = self.zone;
        ZoneError::new((offset, line.saturating_add(1), column.saturating_add(1)), text, 0, sentence)
    }
}
