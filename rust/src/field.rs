//! The fields of the data of records.
use crate::ffi;
use crate::octets::{shown, Octets};
use crate::value::{put_long, put_string, Value};
use crate::{Class, Error, ErrorKind, NameRef, RecordType, TypeSet};
use alloc::vec::Vec;
use core::fmt;
use core::iter::FusedIterator;

/// Defines `Field`: a variant for each kind of field of the C library, and how it is shown.
macro_rules! fields {
    ($(#[$head:meta])* Field { $($(#[$doc:meta])* $name:ident($value:ty) = $kind:ident: $shown:ident,)* }) => {
        $(#[$head])*
        #[derive(Clone, PartialEq, Eq)]
        #[non_exhaustive]
        pub enum Field<'a> {
            $($(#[$doc])* $name($value),)*
        }

        impl<'a> Field<'a> {
            fn read(message: &'a [u8], field: &ffi::Field) -> Result<Self, Error> {
                match field.kind {
                    $(ffi::$kind => Value::read(message, field).map(Field::$name),)*
                    _ => Value::read(message, field).map(Field::Octets),
                }
            }
        }

        impl fmt::Debug for Field<'_> {
            fn fmt(&self, f: &mut fmt::Formatter<'_>) -> fmt::Result {
                match self {
                    $(Field::$name(value) => f.debug_tuple(stringify!($name)).field(shown!($shown value)).finish(),)*
                }
            }
        }
    };
}

fields! {
    /// A field of the data of a record. All but `Types` borrow from the message.
    ///
    /// ```
    /// use dns_names_wire::{Field, RecordBuf};
    ///
    /// let record: RecordBuf = "a. 60 MX 10 b.".parse()?;
    /// let fields: Vec<Field<'_>> = record.as_record().fields().collect::<Result<_, _>>()?;
    /// assert!(matches!(fields[..], [Field::Number(10), Field::Name(host)] if host.to_string() == "b."));
    /// # Ok::<(), dns_names_wire::Error>(())
    /// ```
    Field {
        /// A name.
        Name(NameRef<'a>) = FIELD_NAME: shown,
        /// A number of 1, 2, 4, 6 or 8 octets.
        Number(u64) = FIELD_NUMBER: shown,
        /// An IPv4 address, as `Ipv4Addr::from` takes it.
        Ipv4([u8; 4]) = FIELD_IPV4: shown,
        /// An IPv6 address, as `Ipv6Addr::from` takes it.
        Ipv6([u8; 16]) = FIELD_IPV6: shown,
        /// A record type.
        Type(RecordType) = FIELD_TYPE: shown,
        /// A time, in seconds since 1970, as a serial number (RFC 4034, section 3.1.5).
        Time(u32) = FIELD_TIME: shown,
        /// A text: a character string without its length octet (RFC 1035, section 3.3), or the rest of the data if that is
        /// text.
        Text(&'a [u8]) = FIELD_TEXT: rest,
        /// Other octets.
        Octets(&'a [u8]) = FIELD_OCTETS: rest,
        /// Character strings up to the end of the data.
        Texts(Texts<'a>) = FIELD_TEXTS: shown,
        /// A type bitmap (RFC 4034, section 4.1.2).
        Types(TypeSet) = FIELD_TYPES: shown,
        /// Service parameters, each a key and its value (RFC 9460, section 2.2).
        Params(Pairs<'a>) = FIELD_PARAMS: shown,
        /// A location: 16 octets if the first, the version, is 0 (RFC 1876, section 2).
        Location(&'a [u8]) = FIELD_LOCATION: rest,
        /// The type of a gateway, an algorithm, and the gateway (RFC 4025, sections 2.3 to 2.5).
        Gateway(&'a [u8]) = FIELD_GATEWAY: rest,
        /// A bit and 7 bits of the type of a relay, and the relay (RFC 8777, section 4.2).
        Relay(&'a [u8]) = FIELD_RELAY: rest,
        /// The length of a tag, an algorithm, two octets of the length of a key, the tag and the key (RFC 8005, section 5).
        HostIdentity(&'a [u8]) = FIELD_HOST_IDENTITY: rest,
        /// Address prefixes (RFC 3123, section 4).
        Prefixes(Prefixes<'a>) = FIELD_PREFIXES: shown,
        /// Names in their wire form, one after another (RFC 8005, section 5).
        Names(WholeNames<'a>) = FIELD_NAMES: shown,
        /// The length of a prefix, and the octets of an IPv6 address with the other bits (RFC 2874, section 3.1.1).
        AddressSuffix(&'a [u8]) = FIELD_ADDRESS_SUFFIX: rest,
    }
}

/// An iterator over the fields of the data of a record. See [`Record::fields`](crate::Record::fields).
///
/// It ends after an error: one of [`NameRef::read`] if the field should be a name; `MessageCut` if the data end within
/// the field; `WrongDataLength` if octets are left after the last field; `BadBitmap`, `BadParams` or `BadFamily` if a type
/// bitmap, service parameters, or an address prefix or gateway are not valid; or `NoMemory` for a type bitmap.
///
/// ```
/// use dns_names_wire::{ErrorKind, Record};
///
/// // the root, A, with three octets of address
/// let record = Record::read(b"\0\0\x01\0\x01\0\0\0\0\0\x03\xC0\0\x02", 0)?;
/// assert_eq!(record.fields().next().unwrap().unwrap_err().kind(), ErrorKind::MessageCut);
/// # Ok::<(), dns_names_wire::Error>(())
/// ```
#[derive(Clone, Debug)]
pub struct Fields<'a> {
    /// the message up to the end of the data
    message: &'a [u8],
    /// where the data begin
    start: usize,
    class: Class,
    record_type: RecordType,
    next: ffi::Fields,
    has_ended: bool,
}

impl<'a> Fields<'a> {
    pub(crate) fn new(message: &'a [u8], start: usize, class: Class, record_type: RecordType) -> Self {
        let next = ffi::Fields { offset: start, number: 0 };
        Fields { message, start, class, record_type, next, has_ended: false }
    }

    /// Returns where the next field is, or that there is none.
    #[inline]
    fn step(&mut self) -> Result<ffi::Field, Error> {
        ffi::field_next(self.message, self.start, self.record_type, self.class, &mut self.next)
            .map_err(|error| error.at_offset(self.next.offset))
    }

    /// Reads the next field as a value of the kind that the type has there. See [`RData`](crate::RData).
    #[inline]
    pub(crate) fn value<V: Value<'a>>(&mut self) -> Result<V, Error> {
        match self.step()? {
            field if field.kind != ffi::FIELD_END => V::read(self.message, &field),
            _ => Err(Error::from(ErrorKind::MessageCut).at_offset(self.next.offset)),
        }
    }

    /// Returns whether the first field is the one that the type has in class IN: the data are not left out, and the type
    /// is not only IN's, or the class is one of updates (RFC 2136, sections 2.4 and 2.5).
    pub(crate) fn are_as_in(&self) -> bool {
        let first = |class| Fields { class, ..self.clone() }.step().map(|field| field.kind).map_err(Error::kind);
        first(self.class) == first(Class::IN)
    }

    /// Returns the octets that are left.
    #[inline]
    pub(crate) fn left(&self) -> &'a [u8] {
        &self.message[self.next.offset..]
    }

    /// Fails with `WrongDataLength` if octets are left.
    #[inline]
    pub(crate) fn end(&mut self) -> Result<(), Error> {
        self.step().map(|_| ())
    }
}

impl<'a> Iterator for Fields<'a> {
    type Item = Result<Field<'a>, Error>;

    fn next(&mut self) -> Option<Self::Item> {
        if self.has_ended {
            return None;
        }
        let field = match self.step() {
            Ok(field) if field.kind == ffi::FIELD_END => None,
            Ok(field) => Some(Field::read(self.message, &field)),
            Err(error) => Some(Err(error)),
        };
        self.has_ended = !matches!(field, Some(Ok(_)));
        field
    }
}

impl FusedIterator for Fields<'_> {}

/// Defines the lists, each with the item that its iterator returns, and how this is shown.
macro_rules! lists {
    ($($(#[$doc:meta])* $name:ident: $debug:ident, $item:expr;)*) => {$(
        $(#[$doc])*
        #[derive(Clone, PartialEq, Eq)]
        pub struct $name<'a>(&'a [u8]);

        impl<'a> $name<'a> {
            /// Returns the list in octets that were checked.
            pub(crate) fn checked(octets: &'a [u8]) -> Self {
                $name(octets)
            }

            /// Returns the octets of the items that are left.
            pub(crate) fn left(&self) -> &'a [u8] {
                self.0
            }
        }

        impl FusedIterator for $name<'_> {}

        impl fmt::Debug for $name<'_> {
            fn fmt(&self, f: &mut fmt::Formatter<'_>) -> fmt::Result {
                f.$debug().entries(self.clone().map($item)).finish()
            }
        }
    )*};
}

lists! {
    /// Character strings, each without its length octet.
    ///
    /// ```
    /// use dns_names_wire::{Field, Record};
    ///
    /// // the root, TXT "a" "bc"
    /// let record = Record::read(b"\0\0\x10\0\x01\0\0\0\0\0\x05\x01a\x02bc", 0)?;
    /// match record.fields().next() {
    ///     Some(Ok(Field::Texts(texts))) => assert!(texts.eq([&b"a"[..], b"bc"])),
    ///     other => panic!("{other:?}"),
    /// }
    /// # Ok::<(), dns_names_wire::Error>(())
    /// ```
    Texts: debug_list, Octets;

    /// Pairs of a number and octets: service parameters, each a key and its value, or EDNS options, each a code and its
    /// octets.
    ///
    /// ```
    /// use dns_names_wire::{Field, Record};
    ///
    /// // the root, SVCB 1 . port=53
    /// let record = Record::read(b"\0\0\x40\0\x01\0\0\0\0\0\x09\0\x01\0\0\x03\0\x02\0\x35", 0)?;
    /// match record.fields().last() {
    ///     Some(Ok(Field::Params(mut params))) => assert_eq!(params.next(), Some((3, &b"\0\x35"[..]))),
    ///     other => panic!("{other:?}"),
    /// }
    /// # Ok::<(), dns_names_wire::Error>(())
    /// ```
    Pairs: debug_map, |(number, octets)| (number, Octets(octets));

    /// Address prefixes up to the end of the data.
    ///
    /// ```
    /// use dns_names_wire::{Field, Record};
    ///
    /// // the root, APL !1:192.168.38.0/28
    /// let record = Record::read(b"\0\0\x2A\0\x01\0\0\0\0\0\x07\0\x01\x1C\x83\xC0\xA8\x26", 0)?;
    /// match record.fields().next() {
    ///     Some(Ok(Field::Prefixes(mut prefixes))) => {
    ///         let prefix = prefixes.next().unwrap();
    ///         assert_eq!((prefix.family, prefix.length, prefix.is_negated), (1, 28, true));
    ///         assert_eq!(prefix.octets, [192, 168, 38]);
    ///     }
    ///     other => panic!("{other:?}"),
    /// }
    /// # Ok::<(), dns_names_wire::Error>(())
    /// ```
    Prefixes: debug_list, |prefix| prefix;

    /// Names in their wire form up to the end of the data.
    ///
    /// ```
    /// use dns_names_wire::{Field, Record};
    ///
    /// // the root, HIP 1 00 00 a.
    /// let record = Record::read(b"\0\0\x37\0\x01\0\0\0\0\0\x09\x01\x01\0\x01\0\0\x01a\0", 0)?;
    /// match record.fields().last() {
    ///     Some(Ok(Field::Names(mut names))) => assert_eq!(names.next().unwrap().to_string(), "a."),
    ///     other => panic!("{other:?}"),
    /// }
    /// # Ok::<(), dns_names_wire::Error>(())
    /// ```
    WholeNames: debug_list, |name| name;
}

impl<'a> Texts<'a> {
    /// Returns the character strings in octets, where each has a length octet before it.
    ///
    /// # Errors
    ///
    /// `MessageCut` if the last one is cut, or there is none.
    ///
    /// ```
    /// use dns_names_wire::Texts;
    ///
    /// assert!(Texts::from_wire(b"\x01a\x02bc")?.eq([&b"a"[..], b"bc"]));
    /// assert!(Texts::from_wire(b"\x02b").is_err() && Texts::from_wire(b"").is_err());
    /// # Ok::<(), dns_names_wire::Error>(())
    /// ```
    pub fn from_wire(octets: &'a [u8]) -> Result<Self, Error> {
        let mut at = 0;
        while at < octets.len() {
            at += 1 + usize::from(octets[at]);
        }
        match at == octets.len() && at > 0 {
            true => Ok(Texts(octets)),
            false => Err(Error::from(ErrorKind::MessageCut).at_offset(octets.len())),
        }
    }

    /// Returns the octets of texts, each with a length octet before it. They round-trip through [`Texts::from_wire`].
    ///
    /// # Errors
    ///
    /// `DataTooLong` if one has more than 255 octets.
    ///
    /// ```
    /// use dns_names_wire::{RData, Texts};
    ///
    /// let octets = Texts::to_wire(["v=spf1", "-all"])?;
    /// assert_eq!(octets, b"\x06v=spf1\x04-all");
    /// assert_eq!(RData::TXT(Texts::from_wire(&octets)?).to_wire()?, octets);
    /// # Ok::<(), dns_names_wire::Error>(())
    /// ```
    pub fn to_wire<T: AsRef<[u8]>>(texts: impl IntoIterator<Item = T>) -> Result<Vec<u8>, Error> {
        let mut octets = Vec::new();
        texts.into_iter().try_for_each(|text| put_string(&mut octets, text.as_ref()))?;
        Ok(octets)
    }
}

impl<'a> Iterator for Texts<'a> {
    type Item = &'a [u8];

    fn next(&mut self) -> Option<&'a [u8]> {
        let (len, rest) = self.0.split_first()?;
        let len = usize::from(*len).min(rest.len());
        let (text, rest) = rest.split_at(len);
        self.0 = rest;
        Some(text)
    }
}

impl<'a> Pairs<'a> {
    /// Returns the pairs in octets. Each is two octets of number, two of length, and as many octets as that.
    ///
    /// # Errors
    ///
    /// `MessageCut` if the last one is cut.
    ///
    /// ```
    /// use dns_names_wire::Pairs;
    ///
    /// assert!(Pairs::from_wire(b"\0\x03\0\x02\0\x35")?.eq([(3, &b"\0\x35"[..])]));
    /// assert!(Pairs::from_wire(b"\0\x03\0\x02\0").is_err());
    /// # Ok::<(), dns_names_wire::Error>(())
    /// ```
    pub fn from_wire(octets: &'a [u8]) -> Result<Self, Error> {
        let mut left = octets;
        while !left.is_empty() {
            let cut = || Error::from(ErrorKind::MessageCut).at_offset(octets.len());
            let head = left.get(2..4).ok_or_else(cut)?;
            let len = usize::from(u16::from_be_bytes([head[0], head[1]]));
            left = left.get(4 + len..).ok_or_else(cut)?;
        }
        Ok(Pairs(octets))
    }

    /// Returns the octets of pairs. They round-trip through [`Pairs::from_wire`].
    ///
    /// # Errors
    ///
    /// `DataTooLong` if a value has more than 65535 octets.
    ///
    /// ```
    /// use dns_names_wire::Pairs;
    ///
    /// assert_eq!(Pairs::to_wire([(3, [0, 53])])?, b"\0\x03\0\x02\0\x35");
    /// # Ok::<(), dns_names_wire::Error>(())
    /// ```
    pub fn to_wire<T: AsRef<[u8]>>(pairs: impl IntoIterator<Item = (u16, T)>) -> Result<Vec<u8>, Error> {
        let mut octets = Vec::new();
        for (number, value) in pairs {
            number.put(&mut octets)?;
            put_long(&mut octets, value.as_ref())?;
        }
        Ok(octets)
    }
}

impl<'a> Iterator for Pairs<'a> {
    type Item = (u16, &'a [u8]);

    fn next(&mut self) -> Option<(u16, &'a [u8])> {
        let (head, rest) = (self.0.get(..4)?, &self.0[4..]);
        let len = usize::from(u16::from_be_bytes([head[2], head[3]])).min(rest.len());
        let (value, rest) = rest.split_at(len);
        self.0 = rest;
        Some((u16::from_be_bytes([head[0], head[1]]), value))
    }
}

/// An address prefix of a list (RFC 3123, section 4).
///
/// ```
/// use dns_names_wire::Prefix;
///
/// let prefix = Prefix { family: 1, length: 28, is_negated: true, octets: &[192, 168, 38] };
/// assert_eq!(format!("{prefix:?}"), "!1:0xC0A826/28");
/// ```
#[derive(Clone, Copy, PartialEq, Eq)]
pub struct Prefix<'a> {
    /// The family of the address: 1 for IPv4, 2 for IPv6.
    pub family: u16,
    /// The length of the prefix, in bits.
    pub length: u8,
    /// Whether the prefix is negated.
    pub is_negated: bool,
    /// The octets of the address, without zeros at the end.
    pub octets: &'a [u8],
}

impl<'a> Iterator for Prefixes<'a> {
    type Item = Prefix<'a>;

    fn next(&mut self) -> Option<Prefix<'a>> {
        let (head, rest) = (self.0.get(..4)?, &self.0[4..]);
        let (octets, rest) = rest.split_at(usize::from(head[3] & 127).min(rest.len()));
        self.0 = rest;
        let family = u16::from_be_bytes([head[0], head[1]]);
        Some(Prefix { family, length: head[2], is_negated: head[3] > 127, octets })
    }
}

impl fmt::Debug for Prefix<'_> {
    fn fmt(&self, f: &mut fmt::Formatter<'_>) -> fmt::Result {
        let sign = if self.is_negated { "!" } else { "" };
        write!(f, "{sign}{}:{:?}/{}", self.family, Octets(self.octets), self.length)
    }
}

impl<'a> Iterator for WholeNames<'a> {
    type Item = NameRef<'a>;

    fn next(&mut self) -> Option<NameRef<'a>> {
        // The names were checked, so none is there only at the end.
        let name = NameRef::read(self.0, 0).ok()?;
        self.0 = &self.0[name.end()..];
        Some(name)
    }
}
