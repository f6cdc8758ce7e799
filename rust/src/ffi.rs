//! The C library, and a safe function over each of its functions.
//!
//! Only this module and the one in it, which is made of `dns_names_wire.h`, have `unsafe`. Each call is safe for the same
//! reasons. A slice is passed as its pointer, which is never null, and its length; a [`Buffer`] is one that need not hold
//! anything, since it is written before it is read. A result is stored through a `&mut`, which overlaps nothing. The C
//! library keeps no pointer, and is proved to read and write nothing outside its arguments, whatever the bytes are.
use crate::{Error, ErrorKind};
use alloc::string::String;
use alloc::vec::Vec;
use core::marker::PhantomData;
use core::mem::MaybeUninit;

#[allow(dead_code, clippy::too_many_arguments)]
#[rustfmt::skip]
mod library;

pub(crate) use library::*;

/// The octets of room for what is appended, at first.
pub(crate) const USUAL_SIZE: usize = 512;

/// Room for what a call stores.
pub(crate) struct Buffer<'b> {
    first: *mut u8,
    size: usize,
    room: PhantomData<&'b mut [u8]>,
}

impl<'b> From<&'b mut [u8]> for Buffer<'b> {
    #[inline]
    fn from(room: &'b mut [u8]) -> Self {
        Buffer { first: room.as_mut_ptr(), size: room.len(), room: PhantomData }
    }
}

impl<'b, const N: usize> From<&'b mut [u8; N]> for Buffer<'b> {
    #[inline]
    fn from(room: &'b mut [u8; N]) -> Self {
        (&mut room[..]).into()
    }
}

impl<'b> From<&'b mut [MaybeUninit<u8>]> for Buffer<'b> {
    #[inline]
    fn from(room: &'b mut [MaybeUninit<u8>]) -> Self {
        Buffer { first: room.as_mut_ptr().cast(), size: room.len(), room: PhantomData }
    }
}

/// Returns the result of a call that returned a number.
#[inline]
fn outcome<T>(number: u32, result: T) -> Result<T, Error> {
    match number {
        0 => Ok(result),
        number => Err(Error::from_number(number)),
    }
}

/// Appends what a call stores, of which it returns the length, with `usual` octets of room, or more if it asks for more.
pub(crate) fn append(
    octets: &mut Vec<u8>,
    usual: usize,
    mut put: impl FnMut(Buffer<'_>) -> Result<usize, Error>,
) -> Result<(), Error> {
    octets.reserve(usual);
    loop {
        let room = octets.spare_capacity_mut();
        let size = room.len();
        match put(room.into()) {
            Ok(len) => {
                // SAFETY: a call stores as many octets in its buffer as it returns.
                unsafe { octets.set_len(octets.len() + len) };
                return Ok(());
            }
            Err(error) if error.kind() == ErrorKind::NoRoom => octets.reserve(USUAL_SIZE.max(4 * size)),
            Err(error) => return Err(error),
        }
    }
}

/// Returns what a call stores, with `usual` octets of room at first.
pub(crate) fn octets(usual: usize, put: impl FnMut(Buffer<'_>) -> Result<usize, Error>) -> Result<Vec<u8>, Error> {
    let mut octets = Vec::new();
    append(&mut octets, usual, put).map(|()| octets)
}

/// Returns the text that a call stores, with `usual` octets of room at first.
pub(crate) fn text(usual: usize, put: impl FnMut(Buffer<'_>) -> Result<usize, Error>) -> Result<String, Error> {
    octets(usual, put).map(|text| String::from_utf8(text).expect(TEXTS))
}

/// Why `expect` never fails.
const TEXTS: &str = "the C library's texts are UTF-8";

/// Returns the text at the start of a buffer.
#[inline]
pub(crate) fn str_of(octets: &[u8]) -> &str {
    core::str::from_utf8(octets).expect(TEXTS)
}

/// Returns the sentence about a fault. It is empty if memory ran out.
pub(crate) fn sentence(fault: &TextFault) -> String {
    text(SENTENCE_SIZE, |room| text_fault_print(fault, room)).unwrap_or_default()
}
