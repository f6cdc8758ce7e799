//! Responses to AXFR and IXFR, which are split into messages.
use crate::builder::USUAL_PAYLOAD;
use crate::ffi;
use crate::{Error, Message, RecordBuf};
use alloc::vec;
use alloc::vec::Vec;
use core::borrow::Borrow;

/// The messages of a response to AXFR or IXFR over TCP (RFC 5936, section 2.2; RFC 1995, section 4): each a reply to the
/// request, with AA and the question, and with as many of the records as it has room for. It is an iterator over them.
///
/// The records are those of the answer sections, in their order: of an AXFR the SOA record of the zone comes first and last.
/// A request that has to be refused, as [`MessageBuilder::reply_to`] says, gets one message without records.
///
/// [`MessageBuilder::reply_to`]: crate::MessageBuilder::reply_to
///
/// ```
/// use dns_names_wire::{Message, MessageBuilder, Name, RecordBuf, RecordType, Transfer};
///
/// let lines = ["a. 60 SOA a. a. 1 2 3 4 5", "a. 60 NS b.a.", "b.a. 60 A 192.0.2.1", "a. 60 SOA a. a. 1 2 3 4 5"];
/// let records = lines.map(|line| line.parse::<RecordBuf>().unwrap());
/// let query = MessageBuilder::query(7, &"a.".parse::<Name>()?, RecordType::AXFR).finish(512)?;
/// let messages = Transfer::new(&Message::read(&query)?, &records).max_size(100).collect::<Result<Vec<_>, _>>()?;
/// let answers: Vec<usize> = messages.iter().map(|octets| Message::read(octets).unwrap().answers().len()).collect();
/// assert_eq!(answers, [3, 1]);
/// # Ok::<(), dns_names_wire::Error>(())
/// ```
#[derive(Clone)]
pub struct Transfer {
    request: Vec<u8>,
    /// The records, each after its octet.
    items: Vec<u8>,
    /// The offset of the first that is not written.
    next: usize,
    max_size: u16,
    is_over: bool,
}

impl Transfer {
    /// Returns the messages, of at most 65535 octets, with these records.
    ///
    /// ```
    /// use dns_names_wire::{Message, MessageBuilder, Name, RecordBuf, RecordType, Transfer};
    ///
    /// let query = MessageBuilder::query(7, &Name::root(), RecordType::AXFR).finish(512)?;
    /// let records: [RecordBuf; 0] = [];
    /// assert_eq!(Transfer::new(&Message::read(&query)?, &records).count(), 1);
    /// # Ok::<(), dns_names_wire::Error>(())
    /// ```
    pub fn new<R: Borrow<RecordBuf>>(request: &Message<'_>, records: impl IntoIterator<Item = R>) -> Self {
        let mut items = Vec::new();
        for record in records {
            items.push(ffi::LIST_ANSWER);
            items.extend_from_slice(record.borrow().as_wire());
        }
        Transfer { request: request.octets().to_vec(), items, next: 0, max_size: u16::MAX, is_over: false }
    }

    /// Sets the size that each message has at most, in octets.
    ///
    /// If it has no room for a record beside the header and the question, the message fails with `MessageTooLong`, and is
    /// the last.
    ///
    /// ```
    /// use dns_names_wire::{ErrorKind, Message, MessageBuilder, Name, RecordBuf, RecordType, Transfer};
    ///
    /// let query = MessageBuilder::query(7, &Name::root(), RecordType::AXFR).finish(512)?;
    /// let records = [". 60 SOA . . 1 2 3 4 5".parse::<RecordBuf>()?];
    /// let mut messages = Transfer::new(&Message::read(&query)?, &records).max_size(40);
    /// assert_eq!(messages.next().unwrap().unwrap_err().kind(), ErrorKind::MessageTooLong);
    /// assert!(messages.next().is_none());
    /// # Ok::<(), dns_names_wire::Error>(())
    /// ```
    #[must_use]
    pub fn max_size(mut self, octets: u16) -> Self {
        self.max_size = octets;
        self
    }

    /// Returns the next message, and moves `next` past its records.
    fn message(&mut self) -> Result<Vec<u8>, Error> {
        let (mut room, mut writer) = (vec![0; self.max_size.into()], ffi::Writer::ZERO);
        let (most, flags) = (self.max_size.into(), ffi::FLAG_AUTHORITATIVE);
        let edns = ffi::writer_reply(&mut room, most, &self.request, flags, 0, &mut writer)?;
        self.next = match edns.takes_records {
            true => ffi::writer_fill(&mut room, &self.items, self.next, &mut writer)?,
            false => self.items.len(),
        };
        ffi::writer_reply_edns(&mut room, &edns, USUAL_PAYLOAD, &[], 0, &mut writer)?;
        room.truncate(writer.len);
        Ok(room)
    }
}

impl Iterator for Transfer {
    type Item = Result<Vec<u8>, Error>;

    fn next(&mut self) -> Option<Self::Item> {
        if self.is_over {
            return None;
        }
        let message = self.message();
        self.is_over = message.is_err() || self.next == self.items.len();
        Some(message)
    }
}
