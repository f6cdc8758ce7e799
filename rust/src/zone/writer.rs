//! Zone files, written record by record.
use crate::ffi;
use crate::{Error, Name, Record};
use alloc::string::String;
use alloc::vec::Vec;
use core::{fmt, mem, str};

/// A zone file that is written record by record (RFC 1035, section 5.1; RFC 2308, section 4).
///
/// What the entries before a record say is left out of its line: its owner if it is that of the record before, the last labels
/// of another owner if they are those of the origin, and its TTL if it is that of the last `$TTL`. Capitals count. The class,
/// the type and the data are written in full. [`ZoneReader`](crate::ZoneReader) reads the same records if their data are valid
/// for their types, with any origin, since the text begins with an `$ORIGIN`.
///
/// ```
/// use dns_names_wire::{RecordBuf, ZoneReader, ZoneWriter};
///
/// let lines = ["example. 3600 IN NS ns.example.", "ns.example. 3600 IN A 192.0.2.1", "ns.example. 60 IN A 192.0.2.2"];
/// let mut zone = ZoneWriter::new(&"example.".parse()?)?;
/// zone.push_ttl(3600)?;
/// for line in lines {
///     zone.push(&line.parse::<RecordBuf>()?)?;
/// }
/// assert_eq!(zone.text(), "$ORIGIN example.\n$TTL 3600\n@ IN NS ns.example.\nns IN A 192.0.2.1\n 60 IN A 192.0.2.2\n");
/// assert_eq!(ZoneReader::new(zone.text().as_bytes(), &"other.".parse()?).count(), 3);
/// # Ok::<(), dns_names_wire::Error>(())
/// ```
#[derive(Clone)]
pub struct ZoneWriter {
    /// What the text says for later records.
    zone: ffi::Zone,
    /// The text that was not taken, in ASCII.
    text: Vec<u8>,
}

impl ZoneWriter {
    /// Begins a zone file with the `$ORIGIN` of this name.
    ///
    /// # Errors
    ///
    /// `RelativeName` if the name is not fully qualified; or `NoMemory`.
    ///
    /// ```
    /// use dns_names_wire::{ErrorKind, ZoneWriter};
    ///
    /// assert_eq!(ZoneWriter::new(&"example.".parse()?)?.text(), "$ORIGIN example.\n");
    /// assert_eq!(ZoneWriter::new(&"example".parse()?).unwrap_err().kind(), ErrorKind::RelativeName);
    /// # Ok::<(), dns_names_wire::Error>(())
    /// ```
    pub fn new(origin: &Name) -> Result<Self, Error> {
        let mut writer = ZoneWriter { zone: ffi::Zone::ZERO, text: Vec::new() };
        ffi::zone_begin(origin.whole_wire()?, &mut writer.zone)?;
        writer.push_origin(origin)?;
        Ok(writer)
    }

    /// Adds an `$ORIGIN`. Owners after it are written relative to this name.
    ///
    /// # Errors
    ///
    /// `RelativeName` if the name is not fully qualified; or `NoMemory`.
    ///
    /// ```
    /// use dns_names_wire::{RecordBuf, ZoneWriter};
    ///
    /// let mut zone = ZoneWriter::new(&"example.".parse()?)?;
    /// zone.push_origin(&"sub.example.".parse()?)?;
    /// zone.push(&"a.sub.example. 60 A 192.0.2.1".parse::<RecordBuf>()?)?;
    /// assert_eq!(zone.text(), "$ORIGIN example.\n$ORIGIN sub.example.\na 60 IN A 192.0.2.1\n");
    /// # Ok::<(), dns_names_wire::Error>(())
    /// ```
    pub fn push_origin(&mut self, origin: &Name) -> Result<(), Error> {
        let (origin, zone) = (origin.whole_wire()?, &mut self.zone);
        ffi::append(&mut self.text, ffi::USUAL_SIZE, |room| ffi::zone_put_origin(origin, zone, room))
    }

    /// Adds a `$TTL`. Records after it are written without their TTL if it is this one.
    ///
    /// # Errors
    ///
    /// `NoMemory`.
    ///
    /// ```
    /// use dns_names_wire::ZoneWriter;
    ///
    /// let mut zone = ZoneWriter::new(&"example.".parse()?)?;
    /// zone.push_ttl(60)?;
    /// assert_eq!(zone.text(), "$ORIGIN example.\n$TTL 60\n");
    /// # Ok::<(), dns_names_wire::Error>(())
    /// ```
    pub fn push_ttl(&mut self, ttl: u32) -> Result<(), Error> {
        let zone = &mut self.zone;
        ffi::append(&mut self.text, ffi::USUAL_SIZE, |room| ffi::zone_put_ttl(ttl, zone, room))
    }

    /// Adds a record. Data that are not those of their type are written in the form of any data (RFC 3597, section 5).
    ///
    /// # Errors
    ///
    /// `NoMemory`.
    ///
    /// ```
    /// use dns_names_wire::{RecordBuf, ZoneWriter};
    ///
    /// let mut zone = ZoneWriter::new(&"example.".parse()?)?;
    /// zone.push(&"b.example. 60 TXT x".parse::<RecordBuf>()?)?;
    /// assert_eq!(zone.take_text(), "$ORIGIN example.\nb 60 IN TXT \"x\"\n");
    /// # Ok::<(), dns_names_wire::Error>(())
    /// ```
    pub fn push<'r>(&mut self, record: impl Into<Record<'r>>) -> Result<(), Error> {
        let (message, start) = record.into().place();
        let zone = &mut self.zone;
        ffi::append(&mut self.text, ffi::USUAL_SIZE, |room| {
            ffi::zone_put_record(message, start, zone, room).map(|it| it.len)
        })
    }

    /// Returns the text that was not taken.
    ///
    /// ```
    /// assert_eq!(dns_names_wire::ZoneWriter::new(&"a.".parse()?)?.text(), "$ORIGIN a.\n");
    /// # Ok::<(), dns_names_wire::Error>(())
    /// ```
    pub fn text(&self) -> &str {
        str::from_utf8(&self.text).expect("the C library's texts are ASCII")
    }

    /// Takes the text, so that a large file can be written part by part. The lines after it go on from it.
    ///
    /// ```
    /// use dns_names_wire::{RecordBuf, ZoneWriter};
    ///
    /// let mut zone = ZoneWriter::new(&"a.".parse()?)?;
    /// assert_eq!(zone.take_text(), "$ORIGIN a.\n");
    /// zone.push(&"a. 60 A 192.0.2.1".parse::<RecordBuf>()?)?;
    /// assert_eq!(zone.take_text(), "@ 60 IN A 192.0.2.1\n");
    /// assert_eq!(zone.take_text(), "");
    /// # Ok::<(), dns_names_wire::Error>(())
    /// ```
    pub fn take_text(&mut self) -> String {
        String::from_utf8(mem::take(&mut self.text)).expect("the C library's texts are ASCII")
    }
}

impl fmt::Debug for ZoneWriter {
    fn fmt(&self, f: &mut fmt::Formatter<'_>) -> fmt::Result {
        f.debug_struct("ZoneWriter").field("text", &self.text()).finish_non_exhaustive()
    }
}
