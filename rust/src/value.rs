//! The values of fields of data: how each is read from its octets, written, and owned.
use crate::ffi;
use crate::octets::Sink;
use crate::owned;
use crate::{
    Error, ErrorKind, Ipv4Addr, Ipv6Addr, Name, NameRef, Pairs, Prefixes, RecordType, Texts, TypeSet, WholeNames,
};
use alloc::vec::Vec;

/// A value of a field.
pub(crate) trait Value<'a>: Sized {
    /// The same value with octets of its own.
    type Owned: 'a;

    /// Returns the value of a field of a message.
    fn read(message: &'a [u8], field: &ffi::Field) -> Result<Self, Error>;

    /// Appends the octets that it is read from.
    fn put(&self, octets: &mut impl Sink) -> Result<(), Error>;

    /// Returns the same value with octets of its own.
    fn own(self) -> Self::Owned;

    /// Returns the value that borrows one with octets of its own.
    fn lend(owned: &'a Self::Owned) -> Self;
}

/// Returns the octets of a field.
#[inline]
fn octets_of<'a>(message: &'a [u8], field: &ffi::Field) -> &'a [u8] {
    &message[field.offset..field.offset + field.len]
}

/// Returns what makes a value of `N` octets, if there are so many.
#[inline]
fn of<const N: usize, T>(make: impl Fn([u8; N]) -> T) -> impl Fn(&[u8]) -> Option<T> {
    move |octets| octets.try_into().ok().map(&make)
}

/// Values that borrow nothing, each with what makes it of its octets, and what makes these of it.
macro_rules! plain {
    ($($value:ty: $read:expr, $octets:expr;)*) => {$(
        impl<'a> Value<'a> for $value {
            type Owned = $value;

            #[inline]
            fn read(message: &'a [u8], field: &ffi::Field) -> Result<Self, Error> {
                let cut = || Error::from(ErrorKind::MessageCut).at_offset(field.offset);
                $read(octets_of(message, field)).ok_or_else(cut)
            }

            #[inline]
            fn put(&self, octets: &mut impl Sink) -> Result<(), Error> {
                octets.extend_from_slice(&$octets(*self));
                Ok(())
            }

            fn own(self) -> Self {
                self
            }

            fn lend(owned: &'a Self) -> Self {
                *owned
            }
        }
    )*};
}

plain! {
    u8: of(u8::from_be_bytes), u8::to_be_bytes;
    u16: of(u16::from_be_bytes), u16::to_be_bytes;
    u32: of(u32::from_be_bytes), u32::to_be_bytes;
    // of 1 to 8 octets
    u64: |octets: &[u8]| Some(octets.iter().fold(0, |number, octet| number << 8 | u64::from(*octet))), u64::to_be_bytes;
    [u8; 4]: of(|octets: [u8; 4]| octets), <[u8; 4]>::from;
    [u8; 6]: of(|octets: [u8; 6]| octets), <[u8; 6]>::from;
    [u8; 8]: of(|octets: [u8; 8]| octets), <[u8; 8]>::from;
    [u8; 16]: of(|octets: [u8; 16]| octets), <[u8; 16]>::from;
    Ipv4Addr: of(<Ipv4Addr as From<[u8; 4]>>::from), |address: Ipv4Addr| address.octets();
    Ipv6Addr: of(<Ipv6Addr as From<[u8; 16]>>::from), |address: Ipv6Addr| address.octets();
    RecordType: of(|code| u16::from_be_bytes(code).into()), |code: RecordType| code.code().to_be_bytes();
}

/// Values that are octets, each with its owned form, what makes it of them, what they are, and what makes the owned form.
macro_rules! borrowed {
    ($($value:ty, $owned:ty: $of:expr, $octets:expr, $own:expr;)*) => {$(
        impl<'a> Value<'a> for $value {
            type Owned = $owned;

            #[inline]
            fn read(message: &'a [u8], field: &ffi::Field) -> Result<Self, Error> {
                Ok($of(octets_of(message, field)))
            }

            #[inline]
            fn put(&self, octets: &mut impl Sink) -> Result<(), Error> {
                octets.extend_from_slice($octets(self));
                Ok(())
            }

            fn own(self) -> $owned {
                $own($octets(&self).to_vec())
            }

            fn lend(owned: &'a $owned) -> Self {
                $of(owned.as_ref())
            }
        }
    )*};
}

borrowed! {
    &'a [u8], Vec<u8>: |octets| octets, |octets: &&'a [u8]| -> &'a [u8] { octets }, |octets| octets;
    Texts<'a>, owned::Texts: Texts::checked, Texts::left, owned::Texts::checked;
    Pairs<'a>, owned::Pairs: Pairs::checked, Pairs::left, owned::Pairs::checked;
    Prefixes<'a>, owned::Prefixes: Prefixes::checked, Prefixes::left, owned::Prefixes::checked;
    WholeNames<'a>, owned::WholeNames: WholeNames::checked, WholeNames::left, owned::WholeNames::checked;
}

impl<'a> Value<'a> for NameRef<'a> {
    type Owned = Name;

    #[inline]
    fn read(message: &'a [u8], field: &ffi::Field) -> Result<Self, Error> {
        Ok(NameRef::checked(message, field.offset, field.offset + field.len))
    }

    #[inline]
    fn put(&self, octets: &mut impl Sink) -> Result<(), Error> {
        NameRef::put(self, octets)
    }

    fn own(self) -> Name {
        self.to_name()
    }

    fn lend(owned: &'a Name) -> Self {
        owned.into()
    }
}

impl<'a> Value<'a> for TypeSet {
    type Owned = TypeSet;

    fn read(message: &'a [u8], field: &ffi::Field) -> Result<Self, Error> {
        TypeSet::from_bitmap(octets_of(message, field))
    }

    fn put(&self, octets: &mut impl Sink) -> Result<(), Error> {
        octets.extend_from_slice(&self.to_bitmap()?);
        Ok(())
    }

    fn own(self) -> Self {
        self
    }

    fn lend(owned: &'a Self) -> Self {
        owned.clone()
    }
}

/// Appends a length octet and octets.
pub(crate) fn put_string(octets: &mut impl Sink, value: &[u8]) -> Result<(), Error> {
    u8::try_from(value.len()).map_err(|_| ErrorKind::DataTooLong)?.put(octets)?;
    value.put(octets)
}

/// Appends the number of octets in two octets, and the octets.
pub(crate) fn put_long(octets: &mut impl Sink, value: &[u8]) -> Result<(), Error> {
    u16::try_from(value.len()).map_err(|_| ErrorKind::DataTooLong)?.put(octets)?;
    value.put(octets)
}

/// Appends a number of six octets.
pub(crate) fn put_u48(octets: &mut impl Sink, value: &u64) -> Result<(), Error> {
    match value.to_be_bytes() {
        [0, 0, number @ ..] => number.put(octets),
        _ => Err(ErrorKind::DataTooLong.into()),
    }
}
