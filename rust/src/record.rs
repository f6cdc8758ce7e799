//! The records of messages.
use crate::ffi::{self, FORM_SIZE};
use crate::items::consecutive;
use crate::record_buf::put_record;
use crate::{Class, Error, ErrorKind, Fields, Name, NameRef, RData, RecordType};
use alloc::string::String;
use alloc::vec::Vec;
use core::cmp::Ordering;
use core::fmt;
use core::hash::{Hash, Hasher};

/// The octets of a record between its owner and its data: type, class, TTL and data length.
const FIXED_SIZE: usize = 10;
/// The parts of a record's text: the owner, the TTL, the class, the type and the data.
pub(crate) const TEXT_PARTS: usize = 5;

/// A record that was read from a message (RFC 1035, section 4.1.3). Its owner and its data are borrowed from the
/// message. The data are not checked until [`data`](Record::data) or [`fields`](Record::fields) is called.
///
/// ```
/// use dns_names_wire::{RData, Record};
///
/// // b. NS a.b., the data compressed
/// let message = b"\x01b\0\0\x02\0\x01\0\0\0\x3C\0\x04\x01a\xC0\0";
/// let record = Record::read(message, 0)?;
/// assert_eq!(record.to_string(), "b. 60 IN NS a.b.");
/// assert_eq!(record.raw_data(), b"\x01a\xC0\0");
/// assert!(matches!(record.data()?, RData::NS(host) if host.to_string() == "a.b."));
/// assert_eq!(record.end(), message.len());
/// # Ok::<(), dns_names_wire::Error>(())
/// ```
#[derive(Clone, Copy)]
pub struct Record<'a> {
    /// in the message
    owner: NameRef<'a>,
    record_type: u16,
    class: u16,
    ttl: u32,
    end: usize,
}

impl<'a> Record<'a> {
    /// Reads the record at an offset of a message.
    ///
    /// # Errors
    ///
    /// The errors of [`Name::read`] for the owner, and `MessageCut` if the message ends before the record does.
    ///
    /// ```
    /// use dns_names_wire::{Error, ErrorKind, Record};
    ///
    /// let record = Record::read(b"\0\0\x01\0\x01\0\0\0\0\0\x04\xC0\0\x02\x01", 0)?;
    /// assert_eq!(record.raw_data(), [192, 0, 2, 1]);
    /// assert_eq!(Record::read(b"\0\0\x01", 0).unwrap_err().kind(), ErrorKind::MessageCut);
    /// # Ok::<(), Error>(())
    /// ```
    pub fn read(message: &'a [u8], start: usize) -> Result<Self, Error> {
        let read = ffi::record_read(message, start, &mut [0; FORM_SIZE]).map_err(|error| error.at_offset(start))?;
        let owner = NameRef::with_len(message, start, read.data_offset - FIXED_SIZE, read.owner_len);
        let (record_type, class) = (read.record_type, read.record_class);
        Ok(Record { owner, record_type, class, ttl: read.ttl, end: read.end })
    }

    /// Returns the record itself.
    fn as_record(&self) -> Self {
        *self
    }

    /// Returns the message, and the offset of the record there.
    pub(crate) fn place(&self) -> (&'a [u8], usize) {
        (self.message(), self.owner.start())
    }

    /// Returns the record with these octets, of which no name is compressed, and whose owner ends at an offset.
    #[inline]
    pub(crate) fn of_whole(octets: &'a [u8], fixed: usize) -> Self {
        let [t, u, c, d, l0, l1, l2, l3]: [u8; 8] = octets[fixed..fixed + 8].try_into().expect("a record is whole");
        Record {
            owner: NameRef::with_len(octets, 0, fixed, fixed),
            record_type: u16::from_be_bytes([t, u]),
            class: u16::from_be_bytes([c, d]),
            ttl: u32::from_be_bytes([l0, l1, l2, l3]),
            end: octets.len(),
        }
    }

    /// Returns the name that owns the record.
    ///
    /// ```
    /// // b. NS a.b., the data compressed
    /// let record = dns_names_wire::Record::read(b"\x01b\0\0\x02\0\x01\0\0\0\x3C\0\x04\x01a\xC0\0", 0)?;
    /// assert_eq!(record.owner().to_string(), "b.");
    /// # Ok::<(), dns_names_wire::Error>(())
    /// ```
    #[inline]
    pub fn owner(&self) -> NameRef<'a> {
        self.owner
    }

    /// Returns the type.
    ///
    /// ```
    /// // b. NS a.b., the data compressed
    /// let record = dns_names_wire::Record::read(b"\x01b\0\0\x02\0\x01\0\0\0\x3C\0\x04\x01a\xC0\0", 0)?;
    /// assert_eq!(record.record_type(), dns_names_wire::RecordType::NS);
    /// # Ok::<(), dns_names_wire::Error>(())
    /// ```
    pub fn record_type(&self) -> RecordType {
        self.record_type.into()
    }

    /// Returns the class.
    ///
    /// ```
    /// // b. NS a.b., the data compressed
    /// let record = dns_names_wire::Record::read(b"\x01b\0\0\x02\0\x01\0\0\0\x3C\0\x04\x01a\xC0\0", 0)?;
    /// assert_eq!(record.class(), dns_names_wire::Class::IN);
    /// # Ok::<(), dns_names_wire::Error>(())
    /// ```
    pub fn class(&self) -> Class {
        self.class.into()
    }

    /// Returns the TTL, in seconds.
    ///
    /// ```
    /// // b. NS a.b., the data compressed
    /// let record = dns_names_wire::Record::read(b"\x01b\0\0\x02\0\x01\0\0\0\x3C\0\x04\x01a\xC0\0", 0)?;
    /// assert_eq!(record.ttl(), 60);
    /// # Ok::<(), dns_names_wire::Error>(())
    /// ```
    pub fn ttl(&self) -> u32 {
        self.ttl
    }

    /// Returns the message.
    ///
    /// ```
    /// // b. NS a.b., the data compressed
    /// let record = dns_names_wire::Record::read(b"\x01b\0\0\x02\0\x01\0\0\0\x3C\0\x04\x01a\xC0\0", 0)?;
    /// assert_eq!(record.message().len(), 17);
    /// # Ok::<(), dns_names_wire::Error>(())
    /// ```
    #[inline]
    pub fn message(&self) -> &'a [u8] {
        self.owner.message()
    }

    /// Returns the data, by their type.
    ///
    /// # Errors
    ///
    /// The first error of [`fields`](Record::fields).
    ///
    /// ```
    /// use dns_names_wire::{RData, Record};
    ///
    /// let record = Record::read(b"\0\0\x01\0\x01\0\0\0\0\0\x04\xC0\0\x02\x01", 0)?;
    /// assert_eq!(record.data()?, RData::A([192, 0, 2, 1].into()));
    /// assert!(Record::read(b"\0\0\x01\0\x01\0\0\0\0\0\x03\xC0\0\x02", 0)?.data().is_err());
    /// # Ok::<(), dns_names_wire::Error>(())
    /// ```
    #[inline]
    pub fn data(&self) -> Result<RData<'a>, Error> {
        RData::take(self.class(), self.record_type(), self.fields())
    }

    /// Returns the octets of the data, in which names may be compressed.
    ///
    /// ```
    /// // b. NS a.b., the data compressed
    /// let record = dns_names_wire::Record::read(b"\x01b\0\0\x02\0\x01\0\0\0\x3C\0\x04\x01a\xC0\0", 0)?;
    /// assert_eq!(record.raw_data(), b"\x01a\xC0\0");
    /// # Ok::<(), dns_names_wire::Error>(())
    /// ```
    pub fn raw_data(&self) -> &'a [u8] {
        &self.message()[self.data_offset()..self.end]
    }

    /// Returns the offset of the data in the message.
    ///
    /// ```
    /// // b. NS a.b., the data compressed
    /// let record = dns_names_wire::Record::read(b"\x01b\0\0\x02\0\x01\0\0\0\x3C\0\x04\x01a\xC0\0", 0)?;
    /// assert_eq!(record.data_offset(), 13);
    /// # Ok::<(), dns_names_wire::Error>(())
    /// ```
    pub fn data_offset(&self) -> usize {
        self.owner.end() + FIXED_SIZE
    }

    /// Reads the data as a name, for types such as NS, CNAME and PTR.
    ///
    /// # Errors
    ///
    /// The errors of [`Name::read`], and `WrongDataLength` if the name does not end where the data do.
    ///
    /// ```
    /// // b. NS a.b., the data compressed
    /// let record = dns_names_wire::Record::read(b"\x01b\0\0\x02\0\x01\0\0\0\x3C\0\x04\x01a\xC0\0", 0)?;
    /// assert_eq!(record.data_name()?.to_string(), "a.b.");
    /// # Ok::<(), dns_names_wire::Error>(())
    /// ```
    pub fn data_name(&self) -> Result<Name, Error> {
        self.data_name_after(0)
    }

    /// Reads the data after the first `octets` octets as a name: after two for MX, after six for SRV.
    ///
    /// # Errors
    ///
    /// The errors of [`data_name`](Record::data_name), and `MessageCut` if the data have fewer octets.
    ///
    /// ```
    /// // the root, MX 10 a.
    /// let record = dns_names_wire::Record::read(b"\0\0\x0F\0\x01\0\0\0\0\0\x05\0\x0A\x01a\0", 0)?;
    /// assert_eq!(record.data_name_after(2)?.to_string(), "a.");
    /// # Ok::<(), dns_names_wire::Error>(())
    /// ```
    pub fn data_name_after(&self, octets: usize) -> Result<Name, Error> {
        let cut = || Error::from(ErrorKind::MessageCut).at_offset(self.end);
        let left = (self.end - self.data_offset()).checked_sub(octets).ok_or_else(cut)?;
        let (start, mut form) = (self.data_offset() + octets, [0; FORM_SIZE]);
        let len =
            ffi::record_data_name(self.message(), start, left, &mut form).map_err(|error| error.at_offset(start))?;
        Ok(Name::of_form(&form, len, true))
    }

    /// Returns an iterator over the fields of the data, by the record's class and type. Data of an unknown type are one
    /// field of octets, and so are those of a type that only IN has in another class. It ends after an error.
    ///
    /// ```
    /// use dns_names_wire::{Field, Record};
    ///
    /// // the root, MX 10 a.
    /// let record = Record::read(b"\0\0\x0F\0\x01\0\0\0\0\0\x05\0\x0A\x01a\0", 0)?;
    /// let mut fields = record.fields();
    /// assert!(matches!(fields.next(), Some(Ok(Field::Number(10)))));
    /// assert!(matches!(fields.next(), Some(Ok(Field::Name(name))) if name.to_string() == "a."));
    /// assert!(fields.next().is_none());
    /// # Ok::<(), dns_names_wire::Error>(())
    /// ```
    pub fn fields(&self) -> Fields<'a> {
        Fields::new(&self.message()[..self.end], self.data_offset(), self.class(), self.record_type())
    }

    /// Returns the octets that the signature of this RRSIG covers (RFC 4034, section 3.1.8.1): the bytes to verify or
    /// to sign.
    ///
    /// These are its data up to the signature, and the covered records: those of `records` with its owner, its class
    /// and the type covered, as a set in canonical form and order (RFC 4034, section 6), each once, with the original
    /// TTL. If the owner has more labels than the RRSIG counts, it is replaced by the wildcard that made the records
    /// (RFC 4035, section 5.3.2). It covers none if its signer is neither the owner nor a name that the owner is below
    /// (RFC 4035, section 5.3.1).
    ///
    /// To verify a signature, pass a section of a message, as [`Message::answers`](crate::Message::answers). To make
    /// one, pass the records to sign, and leave the signature of the RRSIG empty. The signature and its times are not
    /// checked.
    ///
    /// # Errors
    ///
    /// `NotRrsig` if this record is of another type; `NotCovered` if it covers none of the records; `TooFewLabels` if
    /// its owner has fewer labels than it counts; `DataTooLong` if the data of a record have more than 65535 octets
    /// once their names are uncompressed; the errors of [`data`](Record::data) for its own data and those of the
    /// covered records; or `NoMemory`.
    ///
    /// ```
    /// use dns_names_wire::RecordBuf;
    ///
    /// let rrsig: RecordBuf = "b.a. 60 IN RRSIG A 13 2 3600 20010909014640 20010909014640 7 a. AA==".parse()?;
    /// let records: [RecordBuf; 2] = ["B.A. 60 A 192.0.2.2".parse()?, "b.a. 9 A 192.0.2.1".parse()?];
    /// let signed = rrsig.as_record().signed_octets(&records)?;
    /// assert_eq!(signed[..21], *b"\0\x01\x0D\x02\0\0\x0E\x10\x3B\x9A\xCA\0\x3B\x9A\xCA\0\0\x07\x01a\0");
    /// let first = b"\x01b\x01a\0\0\x01\0\x01\0\0\x0E\x10\0\x04\xC0\0\x02\x01";
    /// assert!(signed[21..].starts_with(first) && signed.ends_with(&[192, 0, 2, 2]));
    /// # Ok::<(), dns_names_wire::Error>(())
    /// ```
    pub fn signed_octets<'r, I>(&self, records: I) -> Result<Vec<u8>, Error>
    where
        I: IntoIterator,
        I::Item: Into<Record<'r>>,
    {
        let covered = match self.data()? {
            RData::RRSIG(data) => data.type_covered,
            _ => return Err(ErrorKind::NotRrsig.into()),
        };
        let mut list = Vec::new();
        self.put(&mut list)?;
        let start = list.len();
        for record in records.into_iter().map(Into::into) {
            // The C library selects again. Other records are left out here, since their data may not be valid.
            if record.record_type() == covered && record.class == self.class && record.owner == self.owner {
                record.put(&mut list)?;
            }
        }
        ffi::octets(list.len(), |room| ffi::signed_octets(&list, start, 0, room))
    }

    /// Returns the sort key of the record. Keys compare as bytes as records do in canonical order (RFC 4034, section 6):
    /// by owner, type, class and data.
    ///
    /// # Errors
    ///
    /// The errors of [`data`](Record::data), or `NoMemory`.
    ///
    /// ```
    /// use dns_names_wire::RecordBuf;
    ///
    /// let record: RecordBuf = "b.A. 60 A 192.0.2.1".parse()?;
    /// assert_eq!(record.as_record().sort_key()?, b"a\0b\0\0\0\x01\0\x01\xC0\0\x02\x01");
    /// # Ok::<(), dns_names_wire::Error>(())
    /// ```
    pub fn sort_key(&self) -> Result<Vec<u8>, Error> {
        let (message, start) = self.place();
        ffi::octets(ffi::USUAL_SIZE, |room| ffi::record_sort_key(message, start, room))
    }

    /// Returns what records compare and hash by: the sort key, or, if the data are not the fields of their type, the
    /// same with the octets of the data as they are.
    pub(crate) fn order_key(&self) -> Vec<u8> {
        match self.sort_key() {
            Ok(key) => key,
            Err(error) if error.kind() == ErrorKind::NoMemory => panic!("{error}"),
            Err(_) => {
                let mut key = self.owner.sort_key();
                key.push(0);
                key.extend_from_slice(&self.record_type.to_be_bytes());
                key.extend_from_slice(&self.class.to_be_bytes());
                key.extend_from_slice(self.raw_data());
                key
            }
        }
    }

    /// Appends the octets, without compression, and returns the offset at which the owner ends. If it fails, nothing is
    /// appended.
    pub(crate) fn put(&self, octets: &mut Vec<u8>) -> Result<usize, Error> {
        let fields = (self.record_type(), self.class(), self.ttl);
        put_record(octets, self.owner, fields, |octets| self.put_data(octets))
    }

    /// Stores the octets of the data, with each name in its wire form, and returns their number.
    pub(crate) fn store_data<'b>(&self, room: impl Into<ffi::Buffer<'b>>) -> Result<usize, Error> {
        let (message, start) = self.place();
        ffi::record_data(&message[..self.end], start, room).map_err(|error| error.at_offset(start))
    }

    /// Appends the octets of the data, with each name in its wire form.
    pub(crate) fn put_data(&self, octets: &mut Vec<u8>) -> Result<(), Error> {
        ffi::append(octets, ffi::USUAL_SIZE, |room| self.store_data(room))
    }

    /// Returns the line of the record.
    pub(crate) fn line(&self) -> Result<String, Error> {
        let (message, start) = self.place();
        ffi::text(ffi::USUAL_SIZE, |room| ffi::record_print(message, start, room).map(|it| it.len))
    }

    /// Returns the offset after the record, where the next one begins.
    ///
    /// ```
    /// // b. NS a.b., the data compressed
    /// let record = dns_names_wire::Record::read(b"\x01b\0\0\x02\0\x01\0\0\0\x3C\0\x04\x01a\xC0\0", 0)?;
    /// assert_eq!(record.end(), 17);
    /// # Ok::<(), dns_names_wire::Error>(())
    /// ```
    pub fn end(&self) -> usize {
        self.end
    }
}

/// Implements them for a record that `as_record` borrows.
macro_rules! record_traits {
    ($name:ident $([$life:lifetime])?) => {
        /// Two records are equal if their owners, types, classes and data are (RFC 2136, section 1.1.1). The TTL makes no
        /// difference, and neither do compression and the case of the owner and of the names that canonical form lowers (RFC
        /// 4034, section 6.2).
        ///
        /// ```
        /// use dns_names_wire::RecordBuf;
        /// use std::collections::BTreeSet;
        ///
        /// let lines = ["b.a. 60 MX 1 c.a.", "a. 60 NS b.a.", "B.A. 5 MX 1 C.A.", "b.a. 60 A 192.0.2.1"];
        /// let records = lines.iter().map(|line| line.parse::<RecordBuf>()).collect::<Result<Vec<_>, _>>()?;
        /// assert_eq!(records[0], records[2]);
        /// let set: BTreeSet<_> = records.iter().collect();
        /// assert!(set.into_iter().eq([&records[1], &records[3], &records[0]]));
        /// # Ok::<(), dns_names_wire::Error>(())
        /// ```
        impl PartialEq for $name $(<$life>)? {
            fn eq(&self, other: &Self) -> bool {
                let (own, other) = (self.as_record(), other.as_record());
                (own.record_type(), own.class()) == (other.record_type(), other.class())
                    && own.owner() == other.owner()
                    && own.order_key() == other.order_key()
            }
        }

        impl Eq for $name $(<$life>)? {}

        impl PartialOrd for $name $(<$life>)? {
            fn partial_cmp(&self, other: &Self) -> Option<Ordering> {
                Some(self.cmp(other))
            }
        }

        /// Canonical order (RFC 4034, section 6): by owner, type, class and data.
        impl Ord for $name $(<$life>)? {
            fn cmp(&self, other: &Self) -> Ordering {
                self.as_record().order_key().cmp(&other.as_record().order_key())
            }
        }

        impl Hash for $name $(<$life>)? {
            fn hash<H: Hasher>(&self, state: &mut H) {
                self.as_record().order_key().hash(state);
            }
        }

        /// Prints a line of a master file, without its end (RFC 1035, section 5.1): the owner, the TTL, the class, the type and
        /// the data, with a space between them. Data without a text of their own are printed as `\# 4 0A000001` (RFC 3597, section
        /// 5). Escapes are decimal, as `\032`.
        impl fmt::Display for $name $(<$life>)? {
            fn fmt(&self, f: &mut fmt::Formatter<'_>) -> fmt::Result {
                f.write_str(&self.as_record().line().map_err(|_| fmt::Error)?)
            }
        }

        /// Prints the line, as `Display` does.
        impl fmt::Debug for $name $(<$life>)? {
            fn fmt(&self, f: &mut fmt::Formatter<'_>) -> fmt::Result {
                f.debug_tuple(stringify!($name)).field(&format_args!("{self}")).finish()
            }
        }
    };
}

pub(crate) use record_traits;

record_traits!(Record['_]);

consecutive! {
    /// An iterator over consecutive records in a message. See [`records`].
    ///
    /// ```
    /// let mut records = dns_names_wire::records(b"\0\0\x01\0\x01\0\0\0\0\0\0\x40", 0);
    /// assert!(records.next().unwrap().is_ok() && records.next().unwrap().is_err());
    /// assert!(records.next().is_none());
    /// ```
    Records: Record;
    /// Returns an iterator over the consecutive records in a message, from an offset to the end. It ends after an error.
    ///
    /// ```
    /// use dns_names_wire::{records, Error, Name};
    ///
    /// let message = b"\x12\x34\x84\0\0\x01\0\x01\0\0\0\0\x01b\0\0\x01\0\x01\xC0\x0C\0\x01\0\x01\0\0\0\0\0\x04\xC0\0\x02\x01";
    /// let (_question, end) = Name::read(message, 12)?;
    /// let data: Result<Vec<&[u8]>, Error> = records(message, end + 4).map(|record| Ok(record?.raw_data())).collect();
    /// assert_eq!(data?, [[192, 0, 2, 1]]);
    /// # Ok::<(), Error>(())
    /// ```
    records;
    /// Returns the offset in the message of the next record, or after an error the offset at which no valid record
    /// begins.
    ///
    /// ```
    /// let mut records = dns_names_wire::records(b"\0\0\x01\0\x01\0\0\0\0\0\0\x40", 0);
    /// assert!(records.next().unwrap().is_ok() && records.next().unwrap().is_err());
    /// assert_eq!(records.offset(), 11);
    /// ```
    offset
}
