//! Names that own their wire form.
use crate::ffi::{self, FORM_SIZE, SORT_KEY_SIZE};
use crate::form::{self, VALID};
use crate::{Error, ErrorKind, IpAddr, Labels, TextFault, TextRule};
use alloc::boxed::Box;
use alloc::vec::Vec;
use core::cmp::Ordering;
use core::fmt;
use core::hash::{Hash, Hasher};
use core::mem;
use core::str::FromStr;

/// A domain name: at most 255 octets of wire form (RFC 1035, section 3.1), and whether it is fully qualified.
///
/// A name takes 40 bytes, which have a wire form of up to 37 octets; a longer one is in a box. Case is kept, and is
/// ignored when names are compared, ordered and hashed (RFC 4343). The order is canonical (RFC 4034, section 6.1); names
/// that are not fully qualified are before all others.
///
/// ```
/// use dns_names_wire::Name;
///
/// let name: Name = "www.Example.com.".parse()?;
/// let zone: Name = "example.com.".parse()?;
/// assert!(zone.zone_of(&name) && zone < name);
/// assert_eq!(name, "WWW.example.COM.".parse()?);
/// assert_eq!(name.to_string(), "www.Example.com.");
/// assert_eq!(zone.as_wire(), b"\x07example\x03com\0");
/// assert!(name.into_iter().rev().eq([&b"com"[..], b"Example", b"www"]));
/// # Ok::<(), dns_names_wire::Error>(())
/// ```
#[derive(Clone)]
pub struct Name(Form);

/// The octets of the longest wire form that is stored inline.
const INLINE_SIZE: usize = 37;

/// A wire form from the C library, and whether the name is fully qualified.
#[derive(Clone)]
enum Form {
    Inline { is_fqdn: bool, len: u8, octets: [u8; INLINE_SIZE] },
    Boxed { is_fqdn: bool, octets: Box<[u8]> },
}

impl Name {
    /// Returns the relative name without labels.
    ///
    /// ```
    /// assert_eq!(dns_names_wire::Name::new().to_string(), "@");
    /// ```
    pub fn new() -> Self {
        Name(Form::Inline { is_fqdn: false, len: 1, octets: [0; INLINE_SIZE] })
    }

    /// Returns the root, which has no labels and is fully qualified.
    ///
    /// ```
    /// assert_eq!(dns_names_wire::Name::root().to_string(), ".");
    /// ```
    pub fn root() -> Self {
        Name(Form::Inline { is_fqdn: true, len: 1, octets: [0; INLINE_SIZE] })
    }

    /// Returns the name with a wire form from the C library, which is the first `len` octets.
    #[inline]
    pub(crate) fn of_form(form: &[u8; FORM_SIZE], len: usize, is_fqdn: bool) -> Self {
        if len > INLINE_SIZE {
            return Name(Form::Boxed { is_fqdn, octets: form[..len].into() });
        }
        let mut octets = [0; INLINE_SIZE];
        octets.copy_from_slice(&form[..INLINE_SIZE]);
        Name(Form::Inline { is_fqdn, len: len as u8, octets })
    }

    /// Returns the fully qualified name with a wire form from the C library.
    #[inline]
    pub(crate) fn of_octets(form: &[u8]) -> Self {
        if form.len() > INLINE_SIZE {
            return Name(Form::Boxed { is_fqdn: true, octets: form.into() });
        }
        let mut octets = [0; INLINE_SIZE];
        octets[..form.len()].copy_from_slice(form);
        Name(Form::Inline { is_fqdn: true, len: form.len() as u8, octets })
    }

    /// Returns the name that a call of the C library stores. The call returns the length of its wire form.
    #[inline]
    fn made<E>(is_fqdn: bool, make: impl FnOnce(&mut [u8; FORM_SIZE]) -> Result<usize, E>) -> Result<Self, E> {
        let mut form = [0; FORM_SIZE];
        let len = make(&mut form)?;
        Ok(Name::of_form(&form, len, is_fqdn))
    }

    /// Returns the reverse name of an address, which owns its PTR records (RFC 1035, section 3.5; RFC 3596, section
    /// 2.5).
    ///
    /// ```
    /// use std::net::Ipv4Addr;
    ///
    /// let name = dns_names_wire::Name::from_ip(Ipv4Addr::new(192, 0, 2, 1).into());
    /// assert_eq!(name.to_string(), "1.2.0.192.in-addr.arpa.");
    /// ```
    pub fn from_ip(address: IpAddr) -> Self {
        let name = match address {
            IpAddr::V4(address) => Name::made(true, |form| ffi::reverse_name(&address.octets(), form)),
            IpAddr::V6(address) => Name::made(true, |form| ffi::reverse_name(&address.octets(), form)),
        };
        name.expect("an address of 4 or 16 bytes")
    }

    /// Reads the name at an offset of a message, following compression pointers (RFC 1035, section 4.1.4). Returns it
    /// and the offset after its own octets.
    ///
    /// # Errors
    ///
    /// `MessageCut` (also if `start` is past the message), `PointerNotBack`, `ReservedOctet`, `SegmentsOverlap` or
    /// `NameTooLong` if no valid name is there.
    ///
    /// ```
    /// use dns_names_wire::{Error, ErrorKind, Name};
    ///
    /// let message = b"\x01b\0\x01a\xC0\0";
    /// let (name, end) = Name::read(message, 3)?;
    /// assert_eq!((name.to_string().as_str(), end), ("a.b.", 7));
    /// let error = Name::read(b"\0\xC0\x05", 1).unwrap_err();
    /// assert_eq!((error.kind(), error.offset()), (ErrorKind::PointerNotBack, Some(1)));
    /// # Ok::<(), Error>(())
    /// ```
    #[inline]
    pub fn read(message: &[u8], start: usize) -> Result<(Self, usize), Error> {
        let mut form = [0; FORM_SIZE];
        let read = ffi::name_read(message, start, &mut form).map_err(|error| error.at_offset(start))?;
        Ok((Name::of_form(&form, read.len, true), read.end))
    }

    /// Replaces this name with the one at an offset of a message, and returns the offset after that name's own octets.
    ///
    /// # Errors
    ///
    /// The errors of [`Name::read`]. The name is then unchanged.
    ///
    /// ```
    /// use dns_names_wire::{Error, ErrorKind, Name};
    ///
    /// let message = b"\x01b\0\x01a\xC0\0";
    /// let (mut name, mut end) = (Name::root(), 0);
    /// while end < message.len() {
    ///     end = name.read_from(message, end)?;
    /// }
    /// assert_eq!(name.to_string(), "a.b.");
    /// assert_eq!(name.read_from(message, end).unwrap_err().kind(), ErrorKind::MessageCut);
    /// assert_eq!(name.to_string(), "a.b.");
    /// # Ok::<(), Error>(())
    /// ```
    #[inline]
    pub fn read_from(&mut self, message: &[u8], start: usize) -> Result<usize, Error> {
        let (name, end) = Name::read(message, start)?;
        *self = name;
        Ok(end)
    }

    /// Returns the fully qualified name with this wire form: the name at offset 0, up to the end. It may be compressed.
    ///
    /// # Errors
    ///
    /// The errors of [`Name::read`], and `BytesLeft` if bytes follow the name.
    ///
    /// ```
    /// use dns_names_wire::{Error, ErrorKind, Name};
    ///
    /// assert_eq!(Name::from_wire(b"\x01a\0")?.to_string(), "a.");
    /// assert_eq!(Name::from_wire(b"\x01a\0\0").unwrap_err().kind(), ErrorKind::BytesLeft);
    /// # Ok::<(), Error>(())
    /// ```
    pub fn from_wire(form: &[u8]) -> Result<Self, Error> {
        match Name::read(form, 0)? {
            (name, end) if end == form.len() => Ok(name),
            (_, end) => Err(Error::from(ErrorKind::BytesLeft).at_offset(end)),
        }
    }

    /// Parses a name (RFC 1035, section 5.1): labels with dots between them. Any octet stands for itself, but for a dot
    /// and a backslash: `\\DDD` in decimal is that octet, and a backslash before any other octet is that octet.
    ///
    /// A name with a dot at its end is fully qualified, and `.` is the root. Any other name is completed by the origin,
    /// if there is one, and is fully qualified then; else it is relative. `@` is the origin, or [`Name::new`].
    ///
    /// # Errors
    ///
    /// `EmptyLabel` (also for an empty text), `LabelTooLong`, `NameTooLong`, `BadEscape` or `TextCut` if the text is not
    /// a name, with the offset and the rule; or `RelativeName` if the origin is not fully qualified.
    ///
    /// ```
    /// use dns_names_wire::{Error, Name};
    ///
    /// let origin = Name::from_text("example.com.", None)?;
    /// assert_eq!(Name::from_text("www", Some(&origin))?.to_string(), "www.example.com.");
    /// assert_eq!(Name::from_text("0/25.2.0.192.in-addr.arpa.", None)?.as_wire()[..5], *b"\x040/25");
    /// assert!(!Name::from_text("a.bc", None)?.is_fqdn());
    /// let error = Name::from_text("a..bc", None).unwrap_err();
    /// assert_eq!(error.to_string(), "at offset 2: a label of the text is empty");
    /// # Ok::<(), Error>(())
    /// ```
    #[inline]
    pub fn from_text(text: &str, origin: Option<&Name>) -> Result<Self, Error> {
        let mut form = [0; FORM_SIZE];
        let origin = origin.map_or(Ok(&[][..]), Name::whole_wire)?;
        let parsed = ffi::name_parse(text.as_bytes(), origin, &mut form)
            .map_err(|error| fault(text, origin).map_or(error, |fault| error.at_fault(fault)))?;
        Ok(Name::of_form(&form, parsed.len, parsed.is_fqdn))
    }

    /// Returns where a text is wrong and the rule that it breaks there, or `None` if it is the text of a name.
    ///
    /// ```
    /// use dns_names_wire::{Name, TextFault, TextRule};
    ///
    /// assert_eq!(Name::text_fault("a.bc."), None);
    /// assert_eq!(Name::text_fault("a..bc"), Some(TextFault { offset: 2, rule: TextRule::EmptyLabel }));
    /// ```
    pub fn text_fault(text: &str) -> Option<TextFault> {
        fault(text, &[])
    }

    /// Returns the fully qualified name with these labels, each of any 1 to 63 octets.
    ///
    /// # Errors
    ///
    /// `BadText` if a label is empty, `LabelTooLong` if it has more than 63 octets, or `NameTooLong`: the error of the
    /// first label that does not fit.
    ///
    /// ```
    /// use dns_names_wire::{Error, ErrorKind, Name};
    ///
    /// assert_eq!(Name::from_labels(["www", "example", "com"])?.to_string(), "www.example.com.");
    /// assert_eq!(Name::from_labels(["a", ""]).unwrap_err().kind(), ErrorKind::BadText);
    /// # Ok::<(), Error>(())
    /// ```
    pub fn from_labels<I>(labels: I) -> Result<Self, Error>
    where
        I: IntoIterator,
        I::Item: AsRef<[u8]>,
    {
        let root = Name::root();
        labels.into_iter().try_fold(root.clone(), |name, label| name.append(&root.prepend_label(label.as_ref())?))
    }

    /// Returns the wire form, without compression: each label after its length octet, and a zero octet.
    ///
    /// ```
    /// let name: dns_names_wire::Name = "www.example.".parse()?;
    /// assert_eq!(name.as_wire(), b"\x03www\x07example\0");
    /// # Ok::<(), dns_names_wire::Error>(())
    /// ```
    #[inline]
    pub fn as_wire(&self) -> &[u8] {
        match &self.0 {
            Form::Inline { len, octets, .. } => &octets[..usize::from(*len)],
            Form::Boxed { octets, .. } => octets,
        }
    }

    /// Calls a function with the wire form of the labels.
    #[inline]
    fn with_labels<T>(&self, use_form: impl FnOnce(&[u8]) -> T) -> T {
        use_form(self.as_wire())
    }

    /// Returns the wire form, or fails with `RelativeName`.
    #[inline]
    pub(crate) fn whole_wire(&self) -> Result<&[u8], Error> {
        match self.is_fqdn() {
            true => Ok(self.as_wire()),
            false => Err(ErrorKind::RelativeName.into()),
        }
    }

    /// Returns whether the name is fully qualified.
    ///
    /// ```
    /// use dns_names_wire::Name;
    ///
    /// assert!(Name::from_text("a.", None)?.is_fqdn() && !Name::from_text("a", None)?.is_fqdn());
    /// # Ok::<(), dns_names_wire::Error>(())
    /// ```
    #[inline]
    pub fn is_fqdn(&self) -> bool {
        match self.0 {
            Form::Inline { is_fqdn, .. } | Form::Boxed { is_fqdn, .. } => is_fqdn,
        }
    }

    /// Sets whether the name is fully qualified.
    ///
    /// ```
    /// let mut name: dns_names_wire::Name = "www.example.com".parse()?;
    /// name.set_fqdn(true);
    /// assert_eq!(name.to_string(), "www.example.com.");
    /// # Ok::<(), dns_names_wire::Error>(())
    /// ```
    #[inline]
    pub fn set_fqdn(&mut self, is_fqdn: bool) {
        match &mut self.0 {
            Form::Inline { is_fqdn: own, .. } | Form::Boxed { is_fqdn: own, .. } => *own = is_fqdn,
        }
    }

    /// Returns whether the name has no labels and is fully qualified.
    ///
    /// ```
    /// use dns_names_wire::Name;
    ///
    /// assert!(Name::root().is_root() && !Name::new().is_root());
    /// ```
    #[inline]
    pub fn is_root(&self) -> bool {
        self.is_fqdn() && self.as_wire().len() == 1
    }

    /// Returns whether the first label is `*` (RFC 4592, section 2.1.1).
    ///
    /// ```
    /// use dns_names_wire::Name;
    ///
    /// assert!(Name::from_text("*.example.", None)?.is_wildcard() && !Name::from_text("a.*.example.", None)?.is_wildcard());
    /// # Ok::<(), dns_names_wire::Error>(())
    /// ```
    pub fn is_wildcard(&self) -> bool {
        self.as_wire().starts_with(b"\x01*")
    }

    /// Returns the number of labels, without a `*` at the start, as in the Labels field of an RRSIG record (RFC 4034,
    /// section 3.1.3). `labels().len()` is the number of all labels.
    ///
    /// ```
    /// use dns_names_wire::Name;
    ///
    /// assert_eq!(Name::from_text("www.example.com.", None)?.num_labels(), 3);
    /// assert_eq!(Name::from_text("*.example.com.", None)?.num_labels(), 2);
    /// # Ok::<(), dns_names_wire::Error>(())
    /// ```
    pub fn num_labels(&self) -> u8 {
        // A name has at most 127 labels.
        (self.labels().len() - usize::from(self.is_wildcard())) as u8
    }

    /// Returns an iterator over the labels, from the first to the one before the root, or from the other end.
    ///
    /// ```
    /// let name: dns_names_wire::Name = "www.example.com.".parse()?;
    /// let labels: Vec<&[u8]> = name.labels().collect();
    /// assert_eq!(labels, [b"www".as_slice(), b"example", b"com"]);
    /// assert_eq!(name.labels().next_back(), Some(&b"com"[..]));
    /// # Ok::<(), dns_names_wire::Error>(())
    /// ```
    pub fn labels(&self) -> Labels<'_> {
        Labels::new(self.as_wire(), 0)
    }

    /// Returns whether `name` is in this zone: its last labels are those of the zone, ignoring case (RFC 1034, section
    /// 4.2).
    ///
    /// ```
    /// use dns_names_wire::Name;
    ///
    /// let zone = Name::from_text("example.com.", None)?;
    /// assert!(zone.zone_of(&"www.Example.com.".parse()?) && zone.zone_of(&zone));
    /// assert!(!zone.zone_of(&"example.org.".parse()?));
    /// # Ok::<(), dns_names_wire::Error>(())
    /// ```
    pub fn zone_of(&self, name: &Name) -> bool {
        ffi::name_in_zone(name.as_wire(), self.as_wire()).expect(VALID)
    }

    /// Returns whether the labels are equal, ignoring case and whether the names are fully qualified.
    ///
    /// ```
    /// use dns_names_wire::Name;
    ///
    /// let (absolute, relative) = (Name::from_text("a.b.", None)?, Name::from_text("A.b", None)?);
    /// assert!(absolute.eq_ignore_root(&relative) && absolute != relative);
    /// # Ok::<(), dns_names_wire::Error>(())
    /// ```
    pub fn eq_ignore_root(&self, other: &Name) -> bool {
        form::are_equal(self.as_wire(), other.as_wire())
    }

    /// Returns a key of at most 504 octets. The order of keys as bytes is the canonical order of names (RFC 4034,
    /// section 6.1). The key does not depend on whether the name is fully qualified.
    ///
    /// Keys are equal exactly if the labels are, ignoring case. The keys of the names in a zone are those that begin
    /// with the zone's key. So a database that orders its keys by `memcmp` keeps names in canonical order.
    ///
    /// ```
    /// use dns_names_wire::Name;
    ///
    /// let mut names = ["z.example.", "example.", "Z.a.example.", "a.example."].map(|text| text.parse::<Name>().unwrap());
    /// names.sort_by_cached_key(Name::sort_key);
    /// assert_eq!(names.map(|name| name.to_string()), ["example.", "a.example.", "Z.a.example.", "z.example."]);
    /// ```
    pub fn sort_key(&self) -> Vec<u8> {
        let mut room = [0; SORT_KEY_SIZE];
        let len = ffi::name_sort_key(self.as_wire(), &mut room).expect(VALID);
        room[..len].to_vec()
    }

    /// Returns the name with its ASCII letters in lower case.
    ///
    /// ```
    /// use dns_names_wire::Name;
    ///
    /// assert_eq!(Name::from_text("WWW.Example.com.", None)?.to_lowercase().to_string(), "www.example.com.");
    /// # Ok::<(), dns_names_wire::Error>(())
    /// ```
    pub fn to_lowercase(&self) -> Name {
        Name::made(self.is_fqdn(), |form| ffi::name_to_lowercase(self.as_wire(), form)).expect(VALID)
    }

    /// Returns the name with the labels of another name after its own. It is fully qualified if the other is.
    ///
    /// # Errors
    ///
    /// `NameTooLong` if both together take more than 255 octets.
    ///
    /// ```
    /// use dns_names_wire::Name;
    ///
    /// let host: Name = "www".parse()?;
    /// assert_eq!(host.append(&"example.com.".parse()?)?.to_string(), "www.example.com.");
    /// # Ok::<(), dns_names_wire::Error>(())
    /// ```
    pub fn append(&self, suffix: &Name) -> Result<Name, Error> {
        Name::made(suffix.is_fqdn(), |form| ffi::name_append(self.as_wire(), suffix.as_wire(), form))
    }

    /// Returns the name with a label, of any octets, before its own labels.
    ///
    /// # Errors
    ///
    /// `BadText` if the label is empty, `LabelTooLong` if it has more than 63 octets, or `NameTooLong`.
    ///
    /// ```
    /// use dns_names_wire::Name;
    ///
    /// assert_eq!(Name::from_text("example.com.", None)?.prepend_label(b"www")?.to_string(), "www.example.com.");
    /// # Ok::<(), dns_names_wire::Error>(())
    /// ```
    pub fn prepend_label(&self, label: &[u8]) -> Result<Name, Error> {
        Name::made(self.is_fqdn(), |form| ffi::name_prepend_label(label, self.as_wire(), form))
    }

    /// Returns the name with only the last `labels` labels, or the whole name if it has fewer.
    ///
    /// ```
    /// let name: dns_names_wire::Name = "www.example.com.".parse()?;
    /// assert_eq!(name.trim_to(2).to_string(), "example.com.");
    /// # Ok::<(), dns_names_wire::Error>(())
    /// ```
    pub fn trim_to(&self, labels: usize) -> Name {
        Name::made(self.is_fqdn(), |form| ffi::name_trim(self.as_wire(), labels, form)).expect(VALID)
    }

    /// Returns the name without its first label: its parent. A name without labels is unchanged.
    ///
    /// ```
    /// use dns_names_wire::Name;
    ///
    /// assert_eq!(Name::from_text("www.example.com.", None)?.base_name().to_string(), "example.com.");
    /// assert!(Name::root().base_name().is_root());
    /// # Ok::<(), dns_names_wire::Error>(())
    /// ```
    pub fn base_name(&self) -> Name {
        self.trim_to(self.labels().len().saturating_sub(1))
    }

    /// Returns the name with `*` in place of its first label (RFC 4592, section 2.1.1). The root is unchanged.
    ///
    /// ```
    /// use dns_names_wire::Name;
    ///
    /// assert_eq!(Name::from_text("www.example.com.", None)?.to_wildcard().to_string(), "*.example.com.");
    /// # Ok::<(), dns_names_wire::Error>(())
    /// ```
    pub fn to_wildcard(&self) -> Name {
        Name::made(self.is_fqdn(), |form| ffi::name_to_wildcard(self.as_wire(), form)).expect(VALID)
    }

    /// Returns the net of a reverse name: its address and the length of its prefix in bits. For the reverse name of an
    /// address, the prefix is the whole address.
    ///
    /// # Errors
    ///
    /// `NotReverse` if the name is not fully qualified, is not below `in-addr.arpa.` or `ip6.arpa.`, has a label that
    /// is not an octet in decimal or a hexadecimal digit, or has more labels than an address.
    ///
    /// ```
    /// use dns_names_wire::Name;
    ///
    /// let name: Name = "168.192.in-addr.arpa.".parse()?;
    /// assert_eq!(name.parse_arpa_name()?, ([192, 168, 0, 0].into(), 16));
    /// # Ok::<(), dns_names_wire::Error>(())
    /// ```
    pub fn parse_arpa_name(&self) -> Result<(IpAddr, u8), Error> {
        if !self.is_fqdn() {
            return Err(ErrorKind::NotReverse.into());
        }
        let mut room = [0; 16];
        let net = ffi::reverse_parse(self.as_wire(), &mut room)?;
        match <[u8; 4]>::try_from(&room[..net.len]) {
            Ok(octets) => Ok((octets.into(), net.prefix_len)),
            Err(_) => Ok((room.into(), net.prefix_len)),
        }
    }
}

/// Returns where a text is not that of a name.
fn fault(text: &str, origin: &[u8]) -> Option<TextFault> {
    let (number, offset) = ffi::name_text_fault(text.as_bytes(), origin);
    TextRule::from_number(number).map(|rule| TextFault { offset, rule })
}

/// Sorts names as `names.sort()` does, but in one call of the C library, which is faster for many names.
///
/// Names that are not fully qualified are before those that are, both in canonical order (RFC 4034, section 6.1). Equal
/// names keep their order.
///
/// ```
/// use dns_names_wire::{sort_names, Name};
///
/// let mut names = ["z.example.", "example.", "Z.a.example.", "z", "a.example."].map(|text| text.parse::<Name>().unwrap());
/// sort_names(&mut names);
/// assert_eq!(names.map(|name| name.to_string()), ["z", "example.", "a.example.", "Z.a.example.", "z.example."]);
/// ```
pub fn sort_names(names: &mut [Name]) {
    let mut forms = Vec::with_capacity(names.iter().map(|name| name.as_wire().len()).sum());
    for name in names.iter() {
        forms.extend_from_slice(name.as_wire());
    }
    let mut order = alloc::vec![0; names.len()];
    if ffi::names_sort(&forms, &mut order).is_err() {
        // It ran out of memory: the names are valid, and there is room for the numbers.
        return names.sort();
    }
    let (absolute, relative): (Vec<_>, Vec<_>) = order.into_iter().partition(|&number| names[number].is_fqdn());
    let order = relative.into_iter().chain(absolute);
    let sorted: Vec<Name> = order.map(|number| mem::take(&mut names[number])).collect();
    names.iter_mut().zip(sorted).for_each(|(name, next)| *name = next);
}

impl Default for Name {
    fn default() -> Self {
        Name::new()
    }
}

/// The same as [`Name::from_ip`].
impl From<IpAddr> for Name {
    fn from(address: IpAddr) -> Name {
        Name::from_ip(address)
    }
}

impl FromStr for Name {
    type Err = Error;

    /// The same as [`Name::from_text`] without an origin.
    fn from_str(text: &str) -> Result<Self, Error> {
        Name::from_text(text, None)
    }
}

/// The same as [`Name::from_text`] without an origin.
impl TryFrom<&str> for Name {
    type Error = Error;

    fn try_from(text: &str) -> Result<Self, Error> {
        Name::from_text(text, None)
    }
}

/// The same as [`Name::as_wire`]. There is no `Borrow<[u8]>`, since names that differ in case are equal and their
/// octets are not.
impl AsRef<[u8]> for Name {
    fn as_ref(&self) -> &[u8] {
        self.as_wire()
    }
}

/// The same as [`Name::labels`].
impl<'a> IntoIterator for &'a Name {
    type Item = &'a [u8];
    type IntoIter = Labels<'a>;

    fn into_iter(self) -> Labels<'a> {
        self.labels()
    }
}

form::name_traits!(Name);
