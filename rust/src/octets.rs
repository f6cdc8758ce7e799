//! Where octets are put together, and how they are shown.
use crate::{Error, ErrorKind};
use alloc::vec::Vec;
use core::fmt;

/// What octets are appended to.
pub(crate) trait Sink {
    /// Appends octets.
    fn extend_from_slice(&mut self, octets: &[u8]);
}

impl Sink for Vec<u8> {
    #[inline]
    fn extend_from_slice(&mut self, octets: &[u8]) {
        self.extend_from_slice(octets);
    }
}

/// Appends what a function appends, after two octets of its length. If it fails, nothing is appended.
pub(crate) fn put_counted<F>(octets: &mut Vec<u8>, put: F) -> Result<(), Error>
where
    F: FnOnce(&mut Vec<u8>) -> Result<(), Error>,
{
    let start = octets.len();
    octets.extend_from_slice(&[0; 2]);
    let put = put(octets).and_then(|()| {
        let len = u16::try_from(octets.len() - start - 2).map_err(|_| ErrorKind::DataTooLong)?;
        octets[start..start + 2].copy_from_slice(&len.to_be_bytes());
        Ok(())
    });
    if put.is_err() {
        octets.truncate(start);
    }
    put
}

/// How many octets are put together on the stack.
pub(crate) const STACK_SIZE: usize = 512;

/// Octets on the stack, or in a `Vec` if they are many.
pub(crate) struct Room {
    stack: [u8; STACK_SIZE],
    len: usize,
    heap: Vec<u8>,
}

impl Room {
    #[inline]
    pub(crate) fn new() -> Self {
        Room { stack: [0; STACK_SIZE], len: 0, heap: Vec::new() }
    }

    #[inline]
    pub(crate) fn as_slice(&self) -> &[u8] {
        match self.heap.is_empty() {
            true => &self.stack[..self.len],
            false => &self.heap,
        }
    }
}

impl Sink for Room {
    #[inline]
    fn extend_from_slice(&mut self, octets: &[u8]) {
        let end = self.len + octets.len();
        match self.stack.get_mut(self.len..end) {
            Some(room) if self.heap.is_empty() => {
                room.copy_from_slice(octets);
                self.len = end;
            }
            _ => {
                if self.heap.is_empty() {
                    self.heap.extend_from_slice(&self.stack[..self.len]);
                }
                self.heap.extend_from_slice(octets);
            }
        }
    }
}

/// What a value of a kind is shown by: octets by themselves are shown as text.
#[rustfmt::skip]
macro_rules! shown {
    (string $value:expr) => { &Octets($value) };
    (rest $value:expr) => { &Octets($value) };
    (long $value:expr) => { &Octets($value) };
    ($kind:ident $value:expr) => { $value };
}

pub(crate) use shown;

/// Octets that are shown as text if they are printable ASCII, and in hexadecimal otherwise.
pub(crate) struct Octets<'a>(pub(crate) &'a [u8]);

impl fmt::Debug for Octets<'_> {
    fn fmt(&self, f: &mut fmt::Formatter<'_>) -> fmt::Result {
        match core::str::from_utf8(self.0) {
            Ok(text) if text.bytes().all(|octet| octet == b' ' || octet.is_ascii_graphic()) => fmt::Debug::fmt(text, f),
            _ => {
                f.write_str("0x")?;
                self.0.iter().try_for_each(|octet| write!(f, "{octet:02X}"))
            }
        }
    }
}
