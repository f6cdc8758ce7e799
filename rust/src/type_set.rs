//! Sets of record types, read from and written to bitmaps.
use crate::ffi;
use crate::{Error, RecordType};
use alloc::string::{String, ToString};
use alloc::vec::{self, Vec};
use core::fmt;
use core::iter::FusedIterator;

/// The octets of the longest data of a record.
const MOST_OCTETS: usize = 65535;

/// A set of record types, as in the bitmap of an NSEC or NSEC3 record (RFC 4034, section 4.1.2).
///
/// It is iterated and printed in ascending order of the codes.
///
/// ```
/// use dns_names_wire::{RecordType, TypeSet};
///
/// let set = TypeSet::from_bitmap(b"\x00\x06\x40\x01\x00\x00\x00\x03")?;
/// assert!(set.contains(RecordType::MX));
/// assert_eq!(set.to_string(), "A MX RRSIG NSEC");
/// let of_types = TypeSet::from([RecordType::MX, RecordType::NSEC, RecordType::A, RecordType::RRSIG]);
/// assert_eq!(of_types.to_bitmap()?, b"\x00\x06\x40\x01\x00\x00\x00\x03");
/// # Ok::<(), dns_names_wire::Error>(())
/// ```
#[derive(Clone, Debug, Default, PartialEq, Eq, Hash)]
pub struct TypeSet {
    /// in ascending order, each once
    types: Vec<RecordType>,
}

impl TypeSet {
    /// Returns the empty set.
    ///
    /// ```
    /// assert!(dns_names_wire::TypeSet::new().is_empty());
    /// ```
    pub fn new() -> Self {
        TypeSet::default()
    }

    /// Reads a bitmap. The last window may be cut anywhere.
    ///
    /// # Errors
    ///
    /// `BadBitmap` if an octet follows a window of length 0, if a bit is set after the 32nd octet of a window, or if
    /// the bitmap has more than 65535 octets; or `NoMemory`.
    ///
    /// ```
    /// use dns_names_wire::{Error, ErrorKind, TypeSet};
    ///
    /// assert_eq!(TypeSet::from_bitmap(b"\x00\x01\x40")?.len(), 1);
    /// assert_eq!(TypeSet::from_bitmap(b"\x00\x00\x01").unwrap_err().kind(), ErrorKind::BadBitmap);
    /// # Ok::<(), Error>(())
    /// ```
    pub fn from_bitmap(bitmap: &[u8]) -> Result<Self, Error> {
        // Each bit that is set is a code. A bitmap that is longer than data is refused before its room is used.
        let most = bitmap.iter().take(MOST_OCTETS).map(|octet| octet.count_ones() as usize).sum();
        let mut codes = alloc::vec![0; most];
        let count = ffi::types_read(bitmap, &mut codes)?;
        Ok(TypeSet { types: codes[..count].iter().copied().map(RecordType::from).collect() })
    }

    /// Returns the bitmap: windows in ascending order, none longer than needed.
    ///
    /// # Errors
    ///
    /// `NoMemory`.
    ///
    /// ```
    /// use dns_names_wire::{RecordType, TypeSet};
    ///
    /// assert_eq!(TypeSet::from([RecordType::A]).to_bitmap()?, b"\x00\x01\x40");
    /// # Ok::<(), dns_names_wire::Error>(())
    /// ```
    pub fn to_bitmap(&self) -> Result<Vec<u8>, Error> {
        let codes: Vec<u16> = self.types.iter().map(|record_type| record_type.code()).collect();
        // A window has at most 34 octets, and there is one for each first octet of a code.
        let windows = codes.windows(2).filter(|pair| pair[0] >> 8 != pair[1] >> 8).count() + 1;
        let mut bitmap = alloc::vec![0; 34 * windows];
        let len = ffi::types_write(&codes, &mut bitmap[..])?;
        bitmap.truncate(len);
        Ok(bitmap)
    }

    /// Returns whether a type is in the set.
    ///
    /// ```
    /// use dns_names_wire::{RecordType, TypeSet};
    ///
    /// assert!(!TypeSet::from([RecordType::A]).contains(RecordType::AAAA));
    /// ```
    pub fn contains(&self, record_type: RecordType) -> bool {
        self.types.binary_search(&record_type).is_ok()
    }

    /// Returns the number of types.
    ///
    /// ```
    /// use dns_names_wire::{RecordType, TypeSet};
    ///
    /// assert_eq!(TypeSet::from([RecordType::A, RecordType::A]).len(), 1);
    /// ```
    pub fn len(&self) -> usize {
        self.types.len()
    }

    /// Returns whether there are no types.
    ///
    /// ```
    /// use dns_names_wire::{RecordType, TypeSet};
    ///
    /// assert!(!TypeSet::from([RecordType::A]).is_empty());
    /// ```
    pub fn is_empty(&self) -> bool {
        self.types.is_empty()
    }

    /// Adds a type, and returns whether it is new in the set.
    ///
    /// ```
    /// use dns_names_wire::{RecordType, TypeSet};
    ///
    /// let mut set = TypeSet::new();
    /// assert!(set.insert(RecordType::A) && !set.insert(RecordType::A));
    /// ```
    pub fn insert(&mut self, record_type: RecordType) -> bool {
        match self.types.binary_search(&record_type) {
            Ok(_) => false,
            Err(at) => {
                self.types.insert(at, record_type);
                true
            }
        }
    }

    /// Removes a type, and returns whether it was in the set.
    ///
    /// ```
    /// use dns_names_wire::{RecordType, TypeSet};
    ///
    /// let mut set = TypeSet::from([RecordType::A]);
    /// assert!(set.remove(RecordType::A) && set.is_empty());
    /// ```
    pub fn remove(&mut self, record_type: RecordType) -> bool {
        let found = self.types.binary_search(&record_type);
        found.map(|at| self.types.remove(at)).is_ok()
    }

    /// Returns an iterator over the types, in ascending order of the codes.
    ///
    /// ```
    /// use dns_names_wire::{RecordType, TypeSet};
    ///
    /// let set = TypeSet::from([RecordType::AAAA, RecordType::A]);
    /// assert!(set.iter().eq([RecordType::A, RecordType::AAAA]));
    /// ```
    pub fn iter(&self) -> impl ExactSizeIterator<Item = RecordType> + DoubleEndedIterator + FusedIterator + Clone + '_ {
        self.types.iter().copied()
    }
}

/// Prints the types, with spaces between them.
impl fmt::Display for TypeSet {
    fn fmt(&self, f: &mut fmt::Formatter<'_>) -> fmt::Result {
        let texts: Vec<String> = self.iter().map(|record_type| record_type.to_string()).collect();
        f.pad(&texts.join(" "))
    }
}

impl Extend<RecordType> for TypeSet {
    fn extend<I: IntoIterator<Item = RecordType>>(&mut self, kinds: I) {
        self.types.extend(kinds);
        self.types.sort_unstable();
        self.types.dedup();
    }
}

impl<'a> Extend<&'a RecordType> for TypeSet {
    fn extend<I: IntoIterator<Item = &'a RecordType>>(&mut self, kinds: I) {
        self.extend(kinds.into_iter().copied());
    }
}

impl FromIterator<RecordType> for TypeSet {
    fn from_iter<I: IntoIterator<Item = RecordType>>(kinds: I) -> Self {
        let mut set = TypeSet::new();
        set.extend(kinds);
        set
    }
}

impl<const N: usize> From<[RecordType; N]> for TypeSet {
    fn from(kinds: [RecordType; N]) -> Self {
        kinds.into_iter().collect()
    }
}

impl IntoIterator for TypeSet {
    type Item = RecordType;
    type IntoIter = vec::IntoIter<RecordType>;

    fn into_iter(self) -> Self::IntoIter {
        self.types.into_iter()
    }
}

impl<'a> IntoIterator for &'a TypeSet {
    type Item = RecordType;
    type IntoIter = core::iter::Copied<core::slice::Iter<'a, RecordType>>;

    fn into_iter(self) -> Self::IntoIter {
        self.types.iter().copied()
    }
}
