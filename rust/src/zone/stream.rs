//! Zone files, read in parts.
use super::{Entries, Taken, ZoneError, ZoneItem};
use crate::Name;
use std::fmt;
use std::io::{self, Read};
use std::iter::FusedIterator;

/// How many octets are read at once, if no entry is longer.
const USUAL_SIZE: usize = 1 << 16;

/// The entries of a zone file that is read from any [`Read`], such as a [`File`](std::fs::File) or standard input: the same
/// items as those of [`ZoneReader`](crate::ZoneReader).
///
/// The file is read in parts, so that a file of any size takes as much memory as its longest entry. No buffer is needed around
/// the reader. After an entry that is not valid, the iterator goes on at the next one. It ends after the last entry, after an
/// error of the reader, after an entry of more than [`MAX_ENTRY`](ZoneStream::MAX_ENTRY) octets, or if memory runs out.
///
/// ```
/// use dns_names_wire::{ZoneItem, ZoneStream};
/// use std::io::Read;
///
/// let file = b"$TTL 1h\nwww A 192.0.2.1\n".chain(&b"    A ( 192.0.2.2\n      ) ; no line feed"[..]);
/// let mut addresses = Vec::new();
/// for item in ZoneStream::new(file, &"example.".parse()?) {
///     if let ZoneItem::Record(record) = item? {
///         addresses.extend(record.data()?.ip_addr());
///     }
/// }
/// assert_eq!(addresses, [[192, 0, 2, 1], [192, 0, 2, 2]].map(std::net::IpAddr::from));
/// # Ok::<(), Box<dyn std::error::Error>>(())
/// ```
pub struct ZoneStream<R> {
    source: R,
    entries: Entries,
    /// What was read last. The octets from `start` to `end` are of entries that were not taken.
    window: Vec<u8>,
    start: usize,
    end: usize,
    /// Whether more may be read.
    more: bool,
    /// Why no more can be read, after what was read.
    cause: Option<io::Error>,
    is_over: bool,
}

impl<R> ZoneStream<R> {
    /// The most octets that an entry may have, with the line feed after it. That of a record has fewer, unless it is mostly
    /// white space and comments.
    pub const MAX_ENTRY: usize = 1 << 24;

    /// Returns an iterator over the entries of a zone file. The origin is the name of the zone: it is appended to names
    /// without a last dot, until an `$ORIGIN` changes it. If it is not fully qualified itself, the one item is an error, as
    /// that of [`ZoneReader::new`](crate::ZoneReader::new).
    ///
    /// ```
    /// let zone = dns_names_wire::ZoneStream::new(&b"@ 60 NS ns\n"[..], &"example.".parse()?);
    /// assert_eq!(zone.count(), 1);
    /// # Ok::<(), dns_names_wire::Error>(())
    /// ```
    pub fn new(source: R, origin: &Name) -> Self {
        ZoneStream::with_entries(source, Entries::new(origin))
    }

    /// Sets the TTL of records for which the file states none, as
    /// [`ZoneReader::default_ttl`](crate::ZoneReader::default_ttl) does.
    ///
    /// ```
    /// use dns_names_wire::ZoneStream;
    ///
    /// let mut zone = ZoneStream::new(&b"@ NS ns\n"[..], &"example.".parse()?).default_ttl(60);
    /// assert!(zone.next().unwrap().is_ok());
    /// # Ok::<(), dns_names_wire::Error>(())
    /// ```
    pub fn default_ttl(mut self, ttl: u32) -> Self {
        self.entries.set_default_ttl(ttl);
        self
    }

    /// Sets how many records a `$GENERATE` may stand for, as
    /// [`ZoneReader::generate_limit`](crate::ZoneReader::generate_limit) does.
    pub fn generate_limit(mut self, limit: u32) -> Self {
        self.entries.set_generate_limit(limit);
        self
    }

    /// Returns an iterator over the entries of the file that the last item, an `$INCLUDE`, names, as
    /// [`ZoneReader::include`](crate::ZoneReader::include) does.
    ///
    /// ```
    /// use dns_names_wire::{ZoneItem, ZoneStream};
    ///
    /// let mut zone = ZoneStream::new(&b"$TTL 60\n$INCLUDE mail.zone sub\n"[..], &"example.".parse()?);
    /// match zone.next() {
    ///     Some(Ok(ZoneItem::Include(it))) => assert_eq!(zone.include(&b"mx A 192.0.2.25\n"[..], it.origin()).count(), 1),
    ///     other => panic!("{other:?}"),
    /// }
    /// # Ok::<(), dns_names_wire::Error>(())
    /// ```
    pub fn include<S>(&self, source: S, origin: &Name) -> ZoneStream<S> {
        ZoneStream::with_entries(source, self.entries.include(origin))
    }

    fn with_entries(source: R, entries: Entries) -> Self {
        let (window, start, end, more, cause, is_over) = (vec![0; USUAL_SIZE], 0, 0, true, None, false);
        ZoneStream { source, entries, window, start, end, more, cause, is_over }
    }

    /// Returns an error at the start of the last item.
    pub(super) fn error(&self, sentence: String) -> ZoneError {
        self.entries.error(&self.window[..self.start], 0, sentence)
    }

    /// Returns an error at the start of what is left.
    fn error_ahead(&self, sentence: String) -> ZoneError {
        self.entries.error_ahead(&self.window[self.start..self.end], sentence)
    }
}

impl<R: Read> ZoneStream<R> {
    /// Reads more of the file after what is left: at least as many octets, so that no octet is looked at more than a few times,
    /// or up to the file's end.
    fn read_on(&mut self) -> io::Result<()> {
        if let Some(cause) = self.cause.take() {
            return Err(cause);
        }
        self.window.copy_within(self.start..self.end, 0);
        self.end -= self.start;
        self.start = 0;
        let wanted = (2 * self.end).min(Self::MAX_ENTRY);
        if self.window.len() < wanted.max(USUAL_SIZE) {
            self.window.resize(wanted.max(USUAL_SIZE), 0);
        }
        let left = self.end;
        while self.more && (self.end == left || self.end < wanted) {
            match self.source.read(&mut self.window[self.end..]) {
                Ok(0) => self.more = false,
                Ok(read) => self.end += read,
                Err(cause) if cause.kind() == io::ErrorKind::Interrupted => {}
                Err(cause) if self.end == left => return Err(cause),
                // The entries before come first.
                Err(cause) => {
                    self.cause = Some(cause);
                    break;
                }
            }
        }
        Ok(())
    }

    /// Reads until an entry can be taken that has an item or is not valid. Fails if none can be.
    fn take(&mut self) -> Result<Taken, ZoneError> {
        loop {
            let (used, taken) = self.entries.take(&self.window[self.start..self.end], self.more);
            self.start += used;
            match taken {
                Taken::End | Taken::Part if !self.more => return Ok(Taken::End),
                Taken::End | Taken::Part => {}
                Taken::Item => return Ok(Taken::Item),
                Taken::Failure(error) => return Err(error),
            }
            if self.end - self.start >= Self::MAX_ENTRY {
                return Err(self.error_ahead(format!("an entry has more than {} octets", Self::MAX_ENTRY)));
            }
            self.read_on()
                .map_err(|cause| self.error_ahead(format!("the file cannot be read: {cause}")).caused_by(cause))?;
        }
    }
}

impl<R: Read> Iterator for ZoneStream<R> {
    type Item = Result<ZoneItem, ZoneError>;

    fn next(&mut self) -> Option<Self::Item> {
        if self.is_over {
            return None;
        }
        let taken = self.take();
        self.is_over = !matches!(taken, Ok(Taken::Item));
        match taken {
            Ok(Taken::Item) => Some(self.entries.item(&self.window[..self.start])),
            Ok(_) => None,
            Err(error) => Some(Err(error)),
        }
    }
}

impl<R: Read> FusedIterator for ZoneStream<R> {}

impl<R: fmt::Debug> fmt::Debug for ZoneStream<R> {
    fn fmt(&self, f: &mut fmt::Formatter<'_>) -> fmt::Result {
        f.debug_struct("ZoneStream").field("source", &self.source).finish_non_exhaustive()
    }
}
