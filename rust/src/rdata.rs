//! The data of records, by type: a struct for each form of several fields, borrowed from a message or from the caller.
//!
//! [`RData`] is what [`Record::data`] returns and what [`RecordBuf::new`] takes. The module [`owned`] has the same types
//! with data of their own.
//!
//! ```
//! use dns_names_wire::rdata::{MX, SRV};
//! use dns_names_wire::{Name, RData, RecordBuf};
//!
//! let host: Name = "mail.example.".parse()?;
//! let data = RData::from(MX { preference: 10, exchange: (&host).into() });
//! assert_eq!(data.to_string(), "10 mail.example.");
//! let record: RecordBuf = "_sip._udp.example. 60 IN SRV 1 2 5060 sip.example.".parse()?;
//! let SRV { port, target, .. } = record.data()?.try_into().unwrap();
//! assert_eq!((port, target.to_string()), (5060, "sip.example.".into()));
//! # Ok::<(), dns_names_wire::Error>(())
//! ```
//!
//! [`Record::data`]: crate::Record::data
//! [`RecordBuf::new`]: crate::RecordBuf::new
//! [`owned`]: crate::owned
use crate::octets::{shown, Octets, Sink};
use crate::record_buf::data_text;
use crate::value::{put_long, put_string, put_u48, Value};
use crate::{
    owned, Class, Error, Fields, IpAddr, Ipv4Addr, Ipv6Addr, NameRef, Pairs, Prefixes, RecordType, Texts, TypeSet,
    WholeNames,
};
use alloc::vec::Vec;
use core::fmt;

mod table;

pub(crate) use table::{each_own_struct, each_struct, each_variant};

/// Appends a value of a kind.
#[rustfmt::skip]
macro_rules! put {
    (string $octets:ident $value:expr) => { put_string($octets, $value) };
    (long $octets:ident $value:expr) => { put_long($octets, $value) };
    (u48 $octets:ident $value:expr) => { put_u48($octets, $value) };
    ($kind:ident $octets:ident $value:expr) => { Value::put($value, $octets) };
}

/// Defines the structs. Each field is read, written and shown by its kind.
macro_rules! structs {
    ($($(#[$doc:meta])* $name:ident $(<$life:lifetime>)? {
        $($(#[$field_doc:meta])* $field:ident: $type:ty, $owned:ty = $kind:ident,)*
    })*) => {$(
        $(#[$doc])*
        #[derive(Clone, PartialEq, Eq)]
        pub struct $name $(<$life>)? {
            $($(#[$field_doc])* pub $field: $type,)*
        }

        impl$(<$life>)? fmt::Debug for $name $(<$life>)? {
            fn fmt(&self, f: &mut fmt::Formatter<'_>) -> fmt::Result {
                f.debug_struct(stringify!($name))$(.field(stringify!($field), shown!($kind &self.$field)))*.finish()
            }
        }

        impl<'a> $name $(<$life>)? {
            fn take(fields: &mut Fields<'a>) -> Result<Self, Error> {
                Ok($name { $($field: fields.value()?,)* })
            }

            fn put(&self, octets: &mut impl Sink) -> Result<(), Error> {
                $(put!($kind octets &self.$field)?;)*
                Ok(())
            }
        }
    )*};
}

each_struct!(structs);

/// Defines `RData`: a variant for each type, with its code, which has one value of a kind or a struct.
macro_rules! variants {
    (
        one { $($(#[$doc:meta])* $name:ident = $code:literal: $type:ty, $owned:ty = $kind:ident,)* }
        several { $($(#[$other_doc:meta])* $other:ident = $other_code:literal: $struct:ident $(<$life:lifetime>)?,)* }
    ) => {
        /// The data of a record, by its type. Names and octets are borrowed, from a message that was read or from the
        /// caller. [`owned::RData`] has names and octets of its own.
        ///
        /// ```
        /// use dns_names_wire::{rdata::MX, RData, Record};
        ///
        /// // the root, MX 10 a.
        /// let record = Record::read(b"\0\0\x0F\0\x01\0\0\0\0\0\x05\0\x0A\x01a\0", 0)?;
        /// match record.data()? {
        ///     RData::MX(MX { preference, exchange }) => assert_eq!((preference, exchange.to_string()), (10, "a.".into())),
        ///     other => panic!("{other:?}"),
        /// }
        /// # Ok::<(), dns_names_wire::Error>(())
        /// ```
        #[derive(Clone, PartialEq, Eq)]
        #[non_exhaustive]
        pub enum RData<'a> {
            $($(#[$doc])* $name($type),)*
            $($(#[$other_doc])* $other($struct $(<$life>)?),)*
            /// Data of any other type.
            Unknown {
                /// The type.
                record_type: RecordType,
                /// The octets of the data.
                octets: &'a [u8],
            },
        }

        impl<'a> RData<'a> {
            /// Returns the type.
            ///
            /// ```
            /// use dns_names_wire::{RData, RecordType};
            ///
            /// assert_eq!(RData::A([192, 0, 2, 1].into()).record_type(), RecordType::A);
            /// ```
            pub fn record_type(&self) -> RecordType {
                match self {
                    $(RData::$name(_) => $code.into(),)*
                    $(RData::$other(_) => $other_code.into(),)*
                    RData::Unknown { record_type, .. } => *record_type,
                }
            }

            /// Reads the data of a class and a type from their first field on.
            #[inline]
            pub(crate) fn take(class: Class, record_type: RecordType, mut fields: Fields<'a>) -> Result<Self, Error> {
                if class != Class::IN && !fields.are_as_in() {
                    return Ok(RData::Unknown { record_type, octets: fields.left() });
                }
                match record_type.code() {
                    $($code => {
                        let value = fields.value()?;
                        fields.end()?;
                        Ok(RData::$name(value))
                    })*
                    $($other_code => {
                        let value = $struct::take(&mut fields)?;
                        fields.end()?;
                        Ok(RData::$other(value))
                    })*
                    // Octets up to the end, which need not be parsed.
                    _ => Ok(RData::Unknown { record_type, octets: fields.left() }),
                }
            }

            /// Appends the octets, without compression.
            pub(crate) fn put(&self, octets: &mut impl Sink) -> Result<(), Error> {
                match self {
                    $(RData::$name(value) => put!($kind octets value),)*
                    $(RData::$other(value) => value.put(octets),)*
                    RData::Unknown { octets: own, .. } => Value::put(own, octets),
                }
            }
        }

        impl fmt::Debug for RData<'_> {
            fn fmt(&self, f: &mut fmt::Formatter<'_>) -> fmt::Result {
                match self {
                    $(RData::$name(value) => f.debug_tuple(stringify!($name)).field(shown!($kind value)).finish(),)*
                    $(RData::$other(value) => f.debug_tuple(stringify!($other)).field(value).finish(),)*
                    RData::Unknown { record_type, octets } => {
                        f.debug_tuple("Unknown").field(record_type).field(&Octets(octets)).finish()
                    }
                }
            }
        }
    };
}

each_variant!(variants);

impl<'a> RData<'a> {
    /// Returns the address of A or AAAA data. `IpAddr`, `Ipv4Addr` and `Ipv6Addr` implement `TryFrom` for the same.
    ///
    /// ```
    /// use std::net::{IpAddr, Ipv4Addr, Ipv6Addr};
    ///
    /// let data = dns_names_wire::RData::from(Ipv4Addr::new(192, 0, 2, 1));
    /// assert_eq!(data.ip_addr(), Some(Ipv4Addr::new(192, 0, 2, 1).into()));
    /// assert_eq!(Ipv4Addr::try_from(data.clone()), Ok(Ipv4Addr::new(192, 0, 2, 1)));
    /// assert_eq!(IpAddr::try_from(data.clone()), Ok(Ipv4Addr::new(192, 0, 2, 1).into()));
    /// assert_eq!(Ipv6Addr::try_from(data.clone()), Err(data));
    /// ```
    pub fn ip_addr(&self) -> Option<IpAddr> {
        match self {
            RData::A(address) => Some((*address).into()),
            RData::AAAA(address) => Some((*address).into()),
            _ => None,
        }
    }

    /// Returns the octets of the data, without compression.
    ///
    /// # Errors
    ///
    /// `DataTooLong` if a character string, or another field with a length octet, has more than 255 octets;
    /// `RelativeName` if a name is not fully qualified; or `NoMemory`.
    ///
    /// ```
    /// assert_eq!(dns_names_wire::RData::from(std::net::Ipv4Addr::LOCALHOST).to_wire()?, [127, 0, 0, 1]);
    /// # Ok::<(), dns_names_wire::Error>(())
    /// ```
    pub fn to_wire(&self) -> Result<Vec<u8>, Error> {
        let mut octets = Vec::new();
        self.put(&mut octets)?;
        Ok(octets)
    }

    /// Returns the data with names and octets of their own.
    ///
    /// ```
    /// use dns_names_wire::{owned, RecordBuf};
    ///
    /// let data: owned::RData = "a. 60 IN MX 10 b.".parse::<RecordBuf>()?.data()?.into_owned();
    /// assert_eq!(data, owned::MX { preference: 10, exchange: "b.".parse()? }.into());
    /// # Ok::<(), dns_names_wire::Error>(())
    /// ```
    pub fn into_owned(self) -> owned::RData {
        self.into()
    }
}

/// Prints the data as in a master file.
///
/// ```
/// use dns_names_wire::{rdata::CAA, RData};
///
/// let data = RData::CAA(CAA { flags: 0, tag: b"issue", value: b"ca.example" });
/// assert_eq!(data.to_string(), "0 issue \"ca.example\"");
/// assert_eq!(format!("{data:?}"), r#"CAA(CAA { flags: 0, tag: "issue", value: "ca.example" })"#);
/// ```
impl fmt::Display for RData<'_> {
    fn fmt(&self, f: &mut fmt::Formatter<'_>) -> fmt::Result {
        f.write_str(&data_text(self).map_err(|_| fmt::Error)?)
    }
}

impl From<IpAddr> for RData<'_> {
    fn from(address: IpAddr) -> Self {
        match address {
            IpAddr::V4(address) => RData::A(address),
            IpAddr::V6(address) => RData::AAAA(address),
        }
    }
}

/// Returns data of another type as the error.
impl<'a> TryFrom<RData<'a>> for IpAddr {
    type Error = RData<'a>;

    fn try_from(data: RData<'a>) -> Result<IpAddr, RData<'a>> {
        data.ip_addr().ok_or(data)
    }
}

/// Implements the conversions between `RData`, borrowed or owned, and the values of its variants.
macro_rules! from_value {
    ($data:ty; $($name:ident: $value:ty,)*) => {$(
        // Owned values have no lifetime.
        #[allow(clippy::extra_unused_lifetimes)]
        impl<'a> From<$value> for $data {
            fn from(data: $value) -> Self {
                RData::$name(data)
            }
        }

        /// Returns data of another type as the error.
        #[allow(clippy::extra_unused_lifetimes)]
        impl<'a> TryFrom<$data> for $value {
            type Error = $data;

            fn try_from(data: $data) -> Result<Self, $data> {
                match data {
                    RData::$name(data) => Ok(data),
                    other => Err(other),
                }
            }
        }
    )*};
}

pub(crate) use from_value;

macro_rules! from_struct {
    ($($name:ident $(<$life:lifetime>)?,)*) => {
        from_value! { RData<'a>; A: Ipv4Addr, AAAA: Ipv6Addr, $($name: $name $(<$life>)?,)* }
    };
}

each_own_struct!(from_struct);
