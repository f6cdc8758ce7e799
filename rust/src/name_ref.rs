//! Names that are borrowed from a message.
use crate::ffi::{self, FORM_SIZE};
use crate::form;
use crate::items::consecutive;
use crate::octets::Sink;
use crate::{Error, ErrorKind, Labels, Name};
use alloc::vec::Vec;
use core::cmp::Ordering;
use core::fmt;
use core::hash::{Hash, Hasher};

/// A name that is borrowed from its message: the message and two offsets. A name of a message is fully qualified. One that is
/// borrowed from a [`Name`] is if that is; a message or a record takes no other.
///
/// Each print or comparison of a compressed name copies its labels to the stack. If that is done often, read a [`Name`].
///
/// ```
/// use dns_names_wire::NameRef;
///
/// let message = b"\x01b\0\x01a\xC0\0";
/// let name = NameRef::read(message, 3)?;
/// assert_eq!(name.end(), 7);
/// assert!(name.labels().eq([b"a", b"b"]));
/// assert_eq!(name.to_name(), "A.b.".parse()?);
/// # Ok::<(), dns_names_wire::Error>(())
/// ```
#[derive(Clone, Copy)]
pub struct NameRef<'a> {
    message: &'a [u8],
    start: usize,
    /// the number of its own octets
    len: u16,
    is_fqdn: bool,
    /// whether it is known that its own octets are its wire form
    is_whole: bool,
}

impl<'a> NameRef<'a> {
    /// Reads the name at an offset of a message, following compression pointers (RFC 1035, section 4.1.4).
    ///
    /// # Errors
    ///
    /// The errors of [`Name::read`].
    ///
    /// ```
    /// use dns_names_wire::{Error, ErrorKind, NameRef};
    ///
    /// assert_eq!(NameRef::read(b"\x01a\0", 0)?.to_string(), "a.");
    /// assert_eq!(NameRef::read(b"\x01a", 0).unwrap_err().kind(), ErrorKind::MessageCut);
    /// # Ok::<(), Error>(())
    /// ```
    pub fn read(message: &'a [u8], start: usize) -> Result<Self, Error> {
        let read = ffi::name_read(message, start, &mut [0; FORM_SIZE]).map_err(|error| error.at_offset(start))?;
        Ok(NameRef::with_len(message, start, read.end, read.len))
    }

    /// Returns the name at an offset of a message, where it was read before, with the offset after its own octets.
    #[inline]
    pub(crate) fn checked(message: &'a [u8], start: usize, end: usize) -> Self {
        // A name has at most 256 octets of its own.
        NameRef { message, start, len: (end - start) as u16, is_fqdn: true, is_whole: false }
    }

    /// Returns the same name, if its wire form has so many octets. It is what the name has itself if these are as many.
    #[inline]
    pub(crate) fn with_len(message: &'a [u8], start: usize, end: usize, len: usize) -> Self {
        NameRef { is_whole: end - start == len, ..NameRef::checked(message, start, end) }
    }

    /// Calls a function with the wire form, or fails with `RelativeName`.
    #[inline]
    pub(crate) fn with_form<T>(&self, use_form: impl FnOnce(&[u8]) -> Result<T, Error>) -> Result<T, Error> {
        match self.is_fqdn {
            true => self.with_labels(use_form),
            false => Err(ErrorKind::RelativeName.into()),
        }
    }

    /// Calls a function with the wire form of the labels.
    #[inline]
    fn with_labels<T>(&self, use_form: impl FnOnce(&[u8]) -> T) -> T {
        if self.is_whole {
            return use_form(&self.message[self.start..self.end()]);
        }
        let mut form = [0; FORM_SIZE];
        let read = ffi::name_read(self.message, self.start, &mut form).expect("a name that was read before");
        use_form(&form[..read.len])
    }

    /// Appends the wire form, or fails with `RelativeName`.
    #[inline]
    pub(crate) fn put(&self, octets: &mut impl Sink) -> Result<(), Error> {
        self.with_form(|form| {
            octets.extend_from_slice(form);
            Ok(())
        })
    }

    /// Returns the message.
    ///
    /// ```
    /// let name = dns_names_wire::NameRef::read(b"\x01b\0\x01a\xC0\0", 3)?;
    /// assert_eq!(name.message().len(), 7);
    /// # Ok::<(), dns_names_wire::Error>(())
    /// ```
    #[inline]
    pub fn message(&self) -> &'a [u8] {
        self.message
    }

    /// Returns the offset of the name.
    ///
    /// ```
    /// let name = dns_names_wire::NameRef::read(b"\x01b\0\x01a\xC0\0", 3)?;
    /// assert_eq!(name.start(), 3);
    /// # Ok::<(), dns_names_wire::Error>(())
    /// ```
    pub fn start(&self) -> usize {
        self.start
    }

    /// Returns the offset after the name's own octets, which end at its first pointer or its zero octet.
    ///
    /// ```
    /// let name = dns_names_wire::NameRef::read(b"\x01b\0\x01a\xC0\0", 3)?;
    /// assert_eq!(name.end(), 7);
    /// # Ok::<(), dns_names_wire::Error>(())
    /// ```
    pub fn end(&self) -> usize {
        self.start + usize::from(self.len)
    }

    /// Returns whether the name is fully qualified.
    ///
    /// ```
    /// use dns_names_wire::{Name, NameRef};
    ///
    /// assert!(NameRef::read(b"\x01a\0", 0)?.is_fqdn() && !NameRef::from(&Name::new()).is_fqdn());
    /// # Ok::<(), dns_names_wire::Error>(())
    /// ```
    pub fn is_fqdn(&self) -> bool {
        self.is_fqdn
    }

    /// Returns the labels, borrowed from the message.
    ///
    /// ```
    /// let name = dns_names_wire::NameRef::read(b"\x01b\0\x01a\xC0\0", 3)?;
    /// assert!(name.labels().eq([b"a", b"b"]));
    /// # Ok::<(), dns_names_wire::Error>(())
    /// ```
    pub fn labels(&self) -> Labels<'a> {
        Labels::new(self.message, self.start)
    }

    /// Returns the sort key of the name. See [`Name::sort_key`].
    ///
    /// ```
    /// let name = dns_names_wire::NameRef::read(b"\x01b\0\x01a\xC0\0", 3)?;
    /// assert_eq!(name.sort_key(), name.to_name().sort_key());
    /// # Ok::<(), dns_names_wire::Error>(())
    /// ```
    pub fn sort_key(&self) -> Vec<u8> {
        self.to_name().sort_key()
    }

    /// Returns a copy that owns its wire form.
    ///
    /// ```
    /// let name = dns_names_wire::NameRef::read(b"\x01b\0\x01a\xC0\0", 3)?;
    /// assert_eq!(name.to_name().as_wire(), b"\x01a\x01b\0");
    /// # Ok::<(), dns_names_wire::Error>(())
    /// ```
    pub fn to_name(&self) -> Name {
        let mut name = self.with_labels(Name::of_octets);
        name.set_fqdn(self.is_fqdn);
        name
    }
}

impl From<NameRef<'_>> for Name {
    fn from(name: NameRef<'_>) -> Name {
        name.to_name()
    }
}

/// The name in its own wire form.
impl<'a> From<&'a Name> for NameRef<'a> {
    fn from(name: &'a Name) -> Self {
        let form = name.as_wire();
        NameRef { is_fqdn: name.is_fqdn(), ..NameRef::with_len(form, 0, form.len(), form.len()) }
    }
}

impl PartialEq<Name> for NameRef<'_> {
    fn eq(&self, other: &Name) -> bool {
        *self == NameRef::from(other)
    }
}

/// The same as [`NameRef::labels`].
impl<'a> IntoIterator for &NameRef<'a> {
    type Item = &'a [u8];
    type IntoIter = Labels<'a>;

    fn into_iter(self) -> Labels<'a> {
        self.labels()
    }
}

form::name_traits!(NameRef<'_>);

consecutive! {
    /// An iterator over consecutive names in a message. See [`names`].
    ///
    /// ```
    /// let mut names = dns_names_wire::names(b"\x01b\0\x01a\xC0\0", 0);
    /// assert_eq!(names.by_ref().count(), 2);
    /// assert!(names.next().is_none());
    /// ```
    Names: NameRef;
    /// Returns an iterator over the consecutive names in a message, from an offset to the end. It ends after an error.
    ///
    /// ```
    /// use dns_names_wire::names;
    ///
    /// let texts: Vec<String> = names(b"\x01b\0\x01a\xC0\0\0", 0).map(|name| name.unwrap().to_string()).collect();
    /// assert_eq!(texts, ["b.", "a.b.", "."]);
    /// ```
    names;
    /// Returns the offset in the message of the next name, or after an error the offset at which no valid name begins.
    ///
    /// ```
    /// let mut names = dns_names_wire::names(b"\x01b\0\x40", 0);
    /// assert!(names.next().unwrap().is_ok() && names.next().unwrap().is_err());
    /// assert_eq!(names.offset(), 3);
    /// ```
    offset
}
