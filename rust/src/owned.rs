//! The data of records with names and octets of their own, by type: what [`rdata`] has, but not borrowed.
//!
//! A program that keeps data, or that makes them from what it has, uses these. All calls take them by reference.
//!
//! ```
//! use dns_names_wire::{owned, Name, RecordBuf};
//!
//! let mail = owned::MX { preference: 10, exchange: "mail.example.".parse()? };
//! let record = RecordBuf::new(&"example.".parse::<Name>()?, 300, &mail)?;
//! assert_eq!(record.to_string(), "example. 300 IN MX 10 mail.example.");
//! assert_eq!(owned::RData::try_from(record.as_record())?, owned::RData::MX(mail));
//! # Ok::<(), dns_names_wire::Error>(())
//! ```
use crate::field;
use crate::rdata::{self, each_own_struct, each_struct, each_variant, from_value};
use crate::value::Value;
use crate::{Error, ErrorKind, IpAddr, Ipv4Addr, Ipv6Addr, Name, NameRef, Prefix, Record, RecordType, TypeSet};
use alloc::vec::Vec;
use core::fmt;

/// Defines the owned lists. Each has its octets, and its borrowed form is the iterator over it.
macro_rules! lists {
    ($($(#[$doc:meta])* $name:ident: $item:ty;)*) => {$(
        $(#[$doc])*
        #[derive(Clone, PartialEq, Eq, Hash)]
        pub struct $name(Vec<u8>);

        impl $name {
            /// Returns the list with octets that were checked.
            pub(crate) fn checked(octets: Vec<u8>) -> Self {
                $name(octets)
            }

            /// Returns an iterator over the items, which borrow from the list.
            pub fn iter(&self) -> field::$name<'_> {
                field::$name::checked(&self.0)
            }

            /// Returns the octets, as in the data of a record.
            pub fn as_wire(&self) -> &[u8] {
                &self.0
            }
        }

        impl<'a> IntoIterator for &'a $name {
            type Item = $item;
            type IntoIter = field::$name<'a>;

            fn into_iter(self) -> field::$name<'a> {
                self.iter()
            }
        }

        impl fmt::Debug for $name {
            fn fmt(&self, f: &mut fmt::Formatter<'_>) -> fmt::Result {
                fmt::Debug::fmt(&self.iter(), f)
            }
        }

        /// The same as [`as_wire`](Self::as_wire).
        impl AsRef<[u8]> for $name {
            fn as_ref(&self) -> &[u8] {
                &self.0
            }
        }

        impl From<field::$name<'_>> for $name {
            fn from(list: field::$name<'_>) -> Self {
                list.own()
            }
        }
    )*};
}

lists! {
    /// Character strings.
    ///
    /// ```
    /// use dns_names_wire::owned::{RData, Texts};
    ///
    /// let texts = Texts::new(["v=spf1", "-all"])?;
    /// assert!(texts.iter().eq([&b"v=spf1"[..], b"-all"]));
    /// assert_eq!(RData::TXT(texts).to_string(), r#""v=spf1" "-all""#);
    /// # Ok::<(), dns_names_wire::Error>(())
    /// ```
    Texts: &'a [u8];

    /// Pairs of a number and octets, as service parameters.
    ///
    /// ```
    /// use dns_names_wire::owned::{RData, Pairs, SVCB};
    /// use dns_names_wire::Name;
    ///
    /// let params = Pairs::new([(3, [0, 53])])?;
    /// let data = RData::SVCB(SVCB { priority: 1, target: Name::root(), params });
    /// assert_eq!(data.to_string(), "1 . port=53");
    /// # Ok::<(), dns_names_wire::Error>(())
    /// ```
    Pairs: (u16, &'a [u8]);

    /// Address prefixes.
    ///
    /// ```
    /// use dns_names_wire::owned::{Prefixes, RData};
    /// use dns_names_wire::Prefix;
    ///
    /// let prefix = Prefix { family: 1, length: 28, is_negated: true, octets: &[192, 168, 38] };
    /// assert_eq!(RData::APL(Prefixes::new([prefix])?).to_wire()?, b"\0\x01\x1C\x83\xC0\xA8\x26");
    /// # Ok::<(), dns_names_wire::Error>(())
    /// ```
    Prefixes: Prefix<'a>;

    /// Names, one after another.
    ///
    /// ```
    /// use dns_names_wire::owned::WholeNames;
    ///
    /// let names = WholeNames::new(&["a.".parse()?, "b.".parse()?])?;
    /// assert_eq!(names.as_wire(), b"\x01a\0\x01b\0");
    /// assert!(WholeNames::new(&["a".parse()?]).is_err());
    /// # Ok::<(), dns_names_wire::Error>(())
    /// ```
    WholeNames: NameRef<'a>;
}

impl Texts {
    /// Returns these texts.
    ///
    /// # Errors
    ///
    /// `DataTooLong` if one has more than 255 octets; or `MessageCut` if there is none.
    ///
    /// ```
    /// use dns_names_wire::owned::Texts;
    ///
    /// assert_eq!(Texts::new(["v=spf1", "-all"])?.as_wire(), b"\x06v=spf1\x04-all");
    /// assert!(Texts::new([[0; 256]]).is_err() && Texts::new([""; 0]).is_err());
    /// # Ok::<(), dns_names_wire::Error>(())
    /// ```
    pub fn new<T: AsRef<[u8]>>(texts: impl IntoIterator<Item = T>) -> Result<Self, Error> {
        let octets = field::Texts::to_wire(texts)?;
        field::Texts::from_wire(&octets)?;
        Ok(Texts(octets))
    }
}

impl Pairs {
    /// Returns these pairs.
    ///
    /// # Errors
    ///
    /// `DataTooLong` if a value has more than 65535 octets.
    ///
    /// ```
    /// use dns_names_wire::owned::Pairs;
    ///
    /// assert!(Pairs::new([(3, [0, 53])])?.iter().eq([(3, &[0, 53][..])]));
    /// # Ok::<(), dns_names_wire::Error>(())
    /// ```
    pub fn new<T: AsRef<[u8]>>(pairs: impl IntoIterator<Item = (u16, T)>) -> Result<Self, Error> {
        field::Pairs::to_wire(pairs).map(Pairs)
    }
}

impl Prefixes {
    /// Returns these prefixes. They are checked when a message with them is written.
    ///
    /// # Errors
    ///
    /// `DataTooLong` if one has more than 127 octets.
    ///
    /// ```
    /// use dns_names_wire::{owned::Prefixes, Prefix};
    ///
    /// let prefix = Prefix { family: 1, length: 8, is_negated: false, octets: &[10] };
    /// assert!(Prefixes::new([prefix])?.iter().eq([prefix]));
    /// # Ok::<(), dns_names_wire::Error>(())
    /// ```
    pub fn new<'p>(prefixes: impl IntoIterator<Item = Prefix<'p>>) -> Result<Self, Error> {
        let mut octets = Vec::new();
        for prefix in prefixes {
            let len = u8::try_from(prefix.octets.len()).ok().filter(|len| *len < 128).ok_or(ErrorKind::DataTooLong)?;
            octets.extend_from_slice(&prefix.family.to_be_bytes());
            octets.extend_from_slice(&[prefix.length, u8::from(prefix.is_negated) << 7 | len]);
            octets.extend_from_slice(prefix.octets);
        }
        Ok(Prefixes(octets))
    }
}

impl WholeNames {
    /// Returns these names.
    ///
    /// # Errors
    ///
    /// `RelativeName` if one is not fully qualified.
    ///
    /// ```
    /// use dns_names_wire::{owned::WholeNames, ErrorKind};
    ///
    /// assert_eq!(WholeNames::new(&["a.".parse()?])?.iter().count(), 1);
    /// assert_eq!(WholeNames::new(&["a".parse()?]).unwrap_err().kind(), ErrorKind::RelativeName);
    /// # Ok::<(), dns_names_wire::Error>(())
    /// ```
    pub fn new<'n, N: Into<NameRef<'n>>>(names: impl IntoIterator<Item = N>) -> Result<Self, Error> {
        let mut octets = Vec::new();
        names.into_iter().try_for_each(|name| name.into().put(&mut octets))?;
        Ok(WholeNames(octets))
    }
}

/// Defines the structs.
macro_rules! structs {
    ($($(#[$doc:meta])* $name:ident $(<$life:lifetime>)? {
        $($(#[$field_doc:meta])* $field:ident: $type:ty, $owned:ty = $kind:ident,)*
    })*) => {$(
        $(#[$doc])*
        #[derive(Clone, PartialEq, Eq, Hash)]
        pub struct $name {
            $($(#[$field_doc])* pub $field: $owned,)*
        }

        impl$(<$life>)? From<rdata::$name $(<$life>)?> for $name {
            fn from(data: rdata::$name $(<$life>)?) -> Self {
                $name { $($field: data.$field.own(),)* }
            }
        }

        impl<'a> From<&'a $name> for rdata::$name $(<$life>)? {
            fn from(data: &'a $name) -> Self {
                rdata::$name { $($field: Value::lend(&data.$field),)* }
            }
        }

        impl fmt::Debug for $name {
            fn fmt(&self, f: &mut fmt::Formatter<'_>) -> fmt::Result {
                fmt::Debug::fmt(&rdata::$name::from(self), f)
            }
        }
    )*};
}

each_struct!(structs);

/// Defines `RData`.
macro_rules! variants {
    (
        one { $($(#[$doc:meta])* $name:ident = $code:literal: $type:ty, $owned:ty = $kind:ident,)* }
        several { $($(#[$other_doc:meta])* $other:ident = $other_code:literal: $struct:ident $(<$life:lifetime>)?,)* }
    ) => {
        /// The data of a record, by its type, with names and octets of their own. [`crate::RData`] is the borrowed form.
        ///
        /// ```
        /// use dns_names_wire::{owned::RData, RecordBuf};
        ///
        /// let records = ["a. 60 NS b.", "a. 60 TXT \"text\""].map(|line| line.parse::<RecordBuf>().unwrap());
        /// let data: Vec<RData> = records.iter().map(|it| it.as_record().try_into()).collect::<Result<_, _>>()?;
        /// assert_eq!(data[0], RData::NS("b.".parse()?));
        /// assert_eq!(format!("{data:?}"), r#"[NS(Name("b.")), TXT(["text"])]"#);
        /// # Ok::<(), dns_names_wire::Error>(())
        /// ```
        #[derive(Clone, PartialEq, Eq, Hash)]
        #[non_exhaustive]
        pub enum RData {
            $($(#[$doc])* $name($owned),)*
            $($(#[$other_doc])* $other($struct),)*
            /// Data of any other type.
            Unknown {
                /// The type.
                record_type: RecordType,
                /// The octets of the data.
                octets: Vec<u8>,
            },
        }

        impl From<crate::RData<'_>> for RData {
            fn from(data: crate::RData<'_>) -> Self {
                match data {
                    $(crate::RData::$name(value) => RData::$name(value.own()),)*
                    $(crate::RData::$other(value) => RData::$other(value.into()),)*
                    crate::RData::Unknown { record_type, octets } => {
                        RData::Unknown { record_type, octets: octets.to_vec() }
                    }
                }
            }
        }

        impl<'a> From<&'a RData> for crate::RData<'a> {
            fn from(data: &'a RData) -> Self {
                match data {
                    $(RData::$name(value) => crate::RData::$name(Value::lend(value)),)*
                    $(RData::$other(value) => crate::RData::$other(value.into()),)*
                    RData::Unknown { record_type, octets } => {
                        crate::RData::Unknown { record_type: *record_type, octets }
                    }
                }
            }
        }
    };
}

each_variant!(variants);

impl RData {
    /// Returns the data in the borrowed form.
    ///
    /// ```
    /// let data = dns_names_wire::owned::RData::NS("a.".parse()?);
    /// assert_eq!(data.as_borrowed().record_type(), dns_names_wire::RecordType::NS);
    /// # Ok::<(), dns_names_wire::Error>(())
    /// ```
    pub fn as_borrowed(&self) -> crate::RData<'_> {
        self.into()
    }

    /// Returns the type.
    ///
    /// ```
    /// use dns_names_wire::{owned::RData, RecordType};
    ///
    /// assert_eq!(RData::X25(b"31".to_vec()).record_type(), RecordType::X25);
    /// ```
    pub fn record_type(&self) -> RecordType {
        self.as_borrowed().record_type()
    }

    /// Returns the octets of the data, without compression.
    ///
    /// # Errors
    ///
    /// The errors of [`RData::to_wire`](crate::RData::to_wire).
    ///
    /// ```
    /// assert_eq!(dns_names_wire::owned::RData::NS("a.".parse()?).to_wire()?, b"\x01a\0");
    /// # Ok::<(), dns_names_wire::Error>(())
    /// ```
    pub fn to_wire(&self) -> Result<Vec<u8>, Error> {
        self.as_borrowed().to_wire()
    }
}

/// Prints the data as in a master file.
impl fmt::Display for RData {
    fn fmt(&self, f: &mut fmt::Formatter<'_>) -> fmt::Result {
        fmt::Display::fmt(&self.as_borrowed(), f)
    }
}

impl fmt::Debug for RData {
    fn fmt(&self, f: &mut fmt::Formatter<'_>) -> fmt::Result {
        fmt::Debug::fmt(&self.as_borrowed(), f)
    }
}

/// Fails with the errors of [`Record::data`].
impl TryFrom<Record<'_>> for RData {
    type Error = Error;

    fn try_from(record: Record<'_>) -> Result<Self, Error> {
        record.data().map(RData::from)
    }
}

impl From<IpAddr> for RData {
    fn from(address: IpAddr) -> Self {
        crate::RData::from(address).into()
    }
}

macro_rules! from_struct {
    ($($name:ident $(<$life:lifetime>)?,)*) => {
        from_value! { RData; A: Ipv4Addr, AAAA: Ipv6Addr, $($name: $name,)* }

        $(impl<'a> From<&'a $name> for crate::RData<'a> {
            fn from(data: &'a $name) -> Self {
                crate::RData::$name(data.into())
            }
        })*
    };
}

each_own_struct!(from_struct);
