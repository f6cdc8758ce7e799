//! Messages that are built section by section.
use crate::ffi::{self, HEADER_SIZE, LIST_ADDITIONAL, LIST_ANSWER, LIST_AUTHORITY, LIST_QUESTION};
use crate::octets::{Room, Sink};
use crate::record_buf::put_record;
use crate::{
    Class, Edns, Error, ErrorKind, Header, Message, NameRef, Need, RData, RecordBuf, RecordSet, RecordType,
    ResponseCode, Section,
};
use alloc::vec::Vec;
use core::borrow::Borrow;
use core::fmt;

/// The sections, in the order in which they are written: the octets of their items in the list of `dnw_message_write`.
const SECTIONS: usize = 4;

/// The initial capacity of a section, in octets.
const USUAL_SIZE: usize = 256;
/// The octets of the longest reply without records: a header and a question.
const REPLY_SIZE: usize = HEADER_SIZE + ffi::FORM_SIZE + 4;
/// The largest message that a reply accepts, in octets. It goes through most networks without fragmentation.
pub(crate) const USUAL_PAYLOAD: u16 = 1232;

/// Builds a message: a query, or a reply to one. Sections may be filled in any order.
/// [`finish`](MessageBuilder::finish) writes the message: compressed, within a size, with its counts, and with TC if
/// something did not fit.
///
/// ```
/// use dns_names_wire::{Edns, Message, MessageBuilder, Name, RData, RecordType};
/// use std::net::Ipv4Addr;
///
/// let name: Name = "www.example.".parse()?;
/// let query = MessageBuilder::query(0x1234, &name, RecordType::A).edns(&Edns::new(1232)).finish(512)?;
///
/// let request = Message::read(&query)?;
/// let mut reply = MessageBuilder::reply_to(&request);
/// reply.authoritative(true).answer(&name, 60, RData::A(Ipv4Addr::new(192, 0, 2, 1)))?;
/// let octets = reply.finish(request.edns()?.map_or(512, |edns| edns.max_payload))?;
/// assert_eq!(
///     Message::read(&octets)?.to_string(),
///     "\
/// ;; ->>HEADER<<- opcode: QUERY, status: NOERROR, id: 4660
/// ;; flags: qr aa rd; QUERY: 1, ANSWER: 1, AUTHORITY: 0, ADDITIONAL: 1
///
/// ;; OPT PSEUDOSECTION:
/// ; EDNS: version: 0, flags:; udp: 1232
/// ;; QUESTION SECTION:
/// ;www.example.\tIN\tA
///
/// ;; ANSWER SECTION:
/// www.example. 60 IN A 192.0.2.1"
/// );
/// # Ok::<(), dns_names_wire::Error>(())
/// ```
#[derive(Clone)]
pub struct MessageBuilder {
    header: Header,
    /// The request to which this is a reply, and what the library says of the reply that was begun.
    request: Option<(Vec<u8>, ffi::Edns)>,
    /// The items of each section, of which `dnw_message_write` takes a list, but for the OPT record.
    sections: [Vec<u8>; SECTIONS],
    /// The EDNS fields, and the options that they have.
    edns: Option<(Edns<'static>, Vec<u8>)>,
    /// The message is padded to a multiple of so many octets, if they are not 0.
    block: u16,
    /// Why there is no such reply.
    failure: Option<Error>,
}

impl MessageBuilder {
    /// Returns a message with this header, without questions and records. The counts of the header are not used.
    ///
    /// ```
    /// use dns_names_wire::{Header, MessageBuilder};
    ///
    /// assert_eq!(MessageBuilder::new(Header::default()).finish(512)?, [0; 12]);
    /// # Ok::<(), dns_names_wire::Error>(())
    /// ```
    pub fn new(header: Header) -> Self {
        MessageBuilder { header, request: None, sections: Default::default(), edns: None, block: 0, failure: None }
    }

    /// Returns a query for records of a name, of class IN, with RD set.
    ///
    /// The id should be random, so that a stranger cannot guess it (RFC 5452, section 9.2).
    ///
    /// ```
    /// use dns_names_wire::{MessageBuilder, Name, RecordType};
    ///
    /// let query = MessageBuilder::query(7, &Name::root(), RecordType::NS).finish(512)?;
    /// assert_eq!(query, b"\0\x07\x01\0\0\x01\0\0\0\0\0\0\0\0\x02\0\x01");
    /// # Ok::<(), dns_names_wire::Error>(())
    /// ```
    pub fn query<'n>(id: u16, name: impl Into<NameRef<'n>>, record_type: RecordType) -> Self {
        let mut query = MessageBuilder::new(Header::default());
        let (mut room, mut writer) = ([0; REPLY_SIZE], ffi::Writer::ZERO);
        let begun = name.into().with_form(|name| {
            ffi::writer_query(&mut room, REPLY_SIZE, id, true, name, record_type, Class::IN, 0, &mut writer)
        });
        query.failure = begun.and_then(|()| query.begin_as(&room[..writer.len])).err();
        query
    }

    /// Returns a reply to a request, as [`MessageWriter::reply_to`] begins it: with its id, operation code, RD, CD and
    /// question. It has EDNS if the request has, and only then (RFC 6891, sections 6.1.1 and 7): with the same DO (RFC
    /// 3225, section 3), version 0, and 1232 octets as the largest message that is accepted, or the size and the options of
    /// [`edns`](MessageBuilder::edns).
    ///
    /// [`MessageWriter::reply_to`]: crate::MessageWriter::reply_to
    ///
    /// The response code is `NoError`, or what [`response_code`](MessageBuilder::response_code) says. If the request is not
    /// one to answer, it is `BADVERS` or `FormErr`, whatever that says. If the request is itself a response,
    /// [`finish`](MessageBuilder::finish) fails with `BadItem`.
    ///
    /// ```
    /// use dns_names_wire::{Message, MessageBuilder, Name, RecordType};
    ///
    /// let query = MessageBuilder::query(7, &Name::root(), RecordType::NS).finish(512)?;
    /// let reply = MessageBuilder::reply_to(&Message::read(&query)?).finish(512)?;
    /// assert_eq!(reply, b"\0\x07\x81\0\0\x01\0\0\0\0\0\0\0\0\x02\0\x01");
    /// # Ok::<(), dns_names_wire::Error>(())
    /// ```
    pub fn reply_to(request: &Message<'_>) -> Self {
        let mut reply = MessageBuilder::new(Header::default());
        reply.edns(&Edns::new(USUAL_PAYLOAD));
        let (mut room, mut writer) = ([0; REPLY_SIZE], ffi::Writer::ZERO);
        let begun = ffi::writer_reply(&mut room, REPLY_SIZE, request.octets(), 0, 0, &mut writer).and_then(|asked| {
            reply.begin_as(&room[..writer.len])?;
            reply.header.response_code = asked.response_code.into();
            reply.request = Some((request.octets().to_vec(), asked));
            Ok(())
        });
        reply.failure = begun.err();
        reply
    }

    /// Takes the header and the question of a message that has begun: one or none, whose name is whole.
    fn begin_as(&mut self, begun: &[u8]) -> Result<(), Error> {
        let mut head = [0; HEADER_SIZE];
        head[..4].copy_from_slice(&begun[..4]);
        self.header = Message::read(&head)?.header();
        if begun.len() > HEADER_SIZE {
            let items = self.items(LIST_QUESTION);
            items.push(LIST_QUESTION);
            items.extend_from_slice(&begun[HEADER_SIZE..]);
        }
        Ok(())
    }

    /// Returns the header. Its counts are not used.
    ///
    /// ```
    /// use dns_names_wire::{MessageBuilder, Name, RecordType};
    ///
    /// assert!(MessageBuilder::query(7, &Name::root(), RecordType::NS).header().recursion_desired);
    /// ```
    pub fn header(&self) -> &Header {
        &self.header
    }

    /// Returns a mutable reference to the header. Its counts are not used.
    ///
    /// ```
    /// use dns_names_wire::{MessageBuilder, Name, RecordType};
    ///
    /// let mut query = MessageBuilder::query(7, &Name::root(), RecordType::NS);
    /// query.header_mut().recursion_desired = false;
    /// assert_eq!(query.finish(512)?[2], 0);
    /// # Ok::<(), dns_names_wire::Error>(())
    /// ```
    pub fn header_mut(&mut self) -> &mut Header {
        &mut self.header
    }

    /// Sets AA: the server is an authority for the name of the question.
    ///
    /// ```
    /// use dns_names_wire::{Header, MessageBuilder};
    ///
    /// assert_eq!(MessageBuilder::new(Header::default()).authoritative(true).finish(512)?[2], 4);
    /// # Ok::<(), dns_names_wire::Error>(())
    /// ```
    pub fn authoritative(&mut self, is_set: bool) -> &mut Self {
        self.header.authoritative = is_set;
        self
    }

    /// Sets RA: the server supports recursion.
    ///
    /// ```
    /// use dns_names_wire::{Header, MessageBuilder};
    ///
    /// assert_eq!(MessageBuilder::new(Header::default()).recursion_available(true).finish(512)?[3], 0x80);
    /// # Ok::<(), dns_names_wire::Error>(())
    /// ```
    pub fn recursion_available(&mut self, is_set: bool) -> &mut Self {
        self.header.recursion_available = is_set;
        self
    }

    /// Sets the response code. One above 15 needs EDNS (RFC 6891, section 6.1.3): without,
    /// [`finish`](MessageBuilder::finish) fails with `BadItem`.
    ///
    /// ```
    /// use dns_names_wire::{Edns, Header, Message, MessageBuilder, ResponseCode};
    ///
    /// let mut message = MessageBuilder::new(Header::default());
    /// let octets = message.response_code(ResponseCode::BADCOOKIE).edns(&Edns::new(1232)).finish(512)?;
    /// assert_eq!(Message::read(&octets)?.response_code()?, ResponseCode::BADCOOKIE);
    /// # Ok::<(), dns_names_wire::Error>(())
    /// ```
    pub fn response_code(&mut self, code: ResponseCode) -> &mut Self {
        self.header.response_code = code;
        self
    }

    /// Sets the EDNS fields, in place of those set before. `finish` writes the OPT record after the others, before a signature.
    /// A reply has them only if its request has EDNS (RFC 6891, section 7), with the DO of the request and version 0.
    ///
    /// ```
    /// use dns_names_wire::{Edns, Header, Message, MessageBuilder, Pairs};
    ///
    /// let cookie = Pairs::to_wire([(10, [1, 2, 3, 4, 5, 6, 7, 8])])?;
    /// let mut edns = Edns::new(1232).with_options(Pairs::from_wire(&cookie)?);
    /// edns.dnssec_ok = true;
    /// let octets = MessageBuilder::new(Header::default()).edns(&edns).finish(512)?;
    /// assert_eq!(Message::read(&octets)?.edns()?, Some(edns));
    /// # Ok::<(), dns_names_wire::Error>(())
    /// ```
    pub fn edns(&mut self, edns: &Edns<'_>) -> &mut Self {
        self.edns = Some((Edns { options: &[], ..*edns }, edns.options.to_vec()));
        self
    }

    /// Pads the message to a multiple of `block` octets, or of 512 if it is more, by an option of its OPT record (RFC 7830;
    /// RFC 8467). It is not padded without EDNS, or if there is no room for that.
    ///
    /// ```
    /// use dns_names_wire::{Edns, Header, MessageBuilder};
    ///
    /// let mut message = MessageBuilder::new(Header::default());
    /// assert_eq!(message.edns(&Edns::new(1232)).padded(128).finish(512)?.len(), 128);
    /// # Ok::<(), dns_names_wire::Error>(())
    /// ```
    pub fn padded(&mut self, block: u16) -> &mut Self {
        self.block = block;
        self
    }

    /// Adds a question.
    ///
    /// ```
    /// use dns_names_wire::{Class, Header, MessageBuilder, Name, RecordType};
    ///
    /// let mut message = MessageBuilder::new(Header::default());
    /// message.question(&Name::root(), RecordType::NS, Class::CH);
    /// assert!(message.finish(512)?.ends_with(b"\0\0\x02\0\x03"));
    /// # Ok::<(), dns_names_wire::Error>(())
    /// ```
    pub fn question<'n>(&mut self, name: impl Into<NameRef<'n>>, record_type: RecordType, class: Class) -> &mut Self {
        let items = self.items(LIST_QUESTION);
        items.push(LIST_QUESTION);
        let put = name.into().put(items);
        items.extend_from_slice(&record_type.code().to_be_bytes());
        items.extend_from_slice(&class.code().to_be_bytes());
        if let Err(error) = put {
            self.failure.get_or_insert(error);
        }
        self
    }

    /// Adds a record of class IN to the Answer section.
    ///
    /// # Errors
    ///
    /// The errors of [`RecordBuf::new`]. The message is then unchanged.
    ///
    /// ```
    /// use dns_names_wire::{rdata::MX, Header, Message, MessageBuilder, Name};
    ///
    /// let name: Name = "a.".parse()?;
    /// let mut message = MessageBuilder::new(Header::default());
    /// message
    ///     .answer(&name, 60, std::net::Ipv4Addr::LOCALHOST)?
    ///     .answer(&name, 60, MX { preference: 10, exchange: (&name).into() })?;
    /// assert_eq!(Message::read(&message.finish(512)?)?.answers().len(), 2);
    /// # Ok::<(), dns_names_wire::Error>(())
    /// ```
    pub fn answer<'n, 'd>(
        &mut self,
        name: impl Into<NameRef<'n>>,
        ttl: u32,
        data: impl Into<RData<'d>>,
    ) -> Result<&mut Self, Error> {
        self.data(LIST_ANSWER, name.into(), ttl, &data.into())
    }

    /// Adds a record of class IN to the Authority section.
    ///
    /// # Errors
    ///
    /// The errors of [`RecordBuf::new`]. The message is then unchanged.
    ///
    /// ```
    /// use dns_names_wire::{Header, Message, MessageBuilder, Name, RData};
    ///
    /// let name: Name = "a.".parse()?;
    /// let mut message = MessageBuilder::new(Header::default());
    /// message.authority(&name, 60, RData::NS((&name).into()))?;
    /// assert_eq!(Message::read(&message.finish(512)?)?.authorities().len(), 1);
    /// # Ok::<(), dns_names_wire::Error>(())
    /// ```
    pub fn authority<'n, 'd>(
        &mut self,
        name: impl Into<NameRef<'n>>,
        ttl: u32,
        data: impl Into<RData<'d>>,
    ) -> Result<&mut Self, Error> {
        self.data(LIST_AUTHORITY, name.into(), ttl, &data.into())
    }

    /// Adds a record of class IN to the Additional section.
    ///
    /// # Errors
    ///
    /// The errors of [`RecordBuf::new`]. The message is then unchanged.
    ///
    /// ```
    /// use dns_names_wire::{Header, Message, MessageBuilder, Name};
    ///
    /// let mut message = MessageBuilder::new(Header::default());
    /// message.additional(&"a.".parse::<Name>()?, 60, std::net::Ipv6Addr::LOCALHOST)?;
    /// assert_eq!(Message::read(&message.finish(512)?)?.additionals().len(), 1);
    /// # Ok::<(), dns_names_wire::Error>(())
    /// ```
    pub fn additional<'n, 'd>(
        &mut self,
        name: impl Into<NameRef<'n>>,
        ttl: u32,
        data: impl Into<RData<'d>>,
    ) -> Result<&mut Self, Error> {
        self.data(LIST_ADDITIONAL, name.into(), ttl, &data.into())
    }

    /// Adds records to the Answer section.
    ///
    /// ```
    /// use dns_names_wire::{Header, Message, MessageBuilder, RecordBuf};
    ///
    /// let table: [RecordBuf; 2] = ["a. 60 A 192.0.2.1".parse()?, "a. 60 A 192.0.2.2".parse()?];
    /// let octets = MessageBuilder::new(Header::default()).answers(&table).finish(512)?;
    /// assert_eq!(Message::read(&octets)?.answers().len(), 2);
    /// # Ok::<(), dns_names_wire::Error>(())
    /// ```
    pub fn answers<R: Borrow<RecordBuf>>(&mut self, records: impl IntoIterator<Item = R>) -> &mut Self {
        self.all(LIST_ANSWER, LIST_ANSWER, records)
    }

    /// Adds records to the Authority section.
    ///
    /// ```
    /// use dns_names_wire::{Header, Message, MessageBuilder, RecordBuf};
    ///
    /// let record: RecordBuf = "a. 60 NS ns.a.".parse()?;
    /// let octets = MessageBuilder::new(Header::default()).authorities([record]).finish(512)?;
    /// assert_eq!(Message::read(&octets)?.authorities().len(), 1);
    /// # Ok::<(), dns_names_wire::Error>(())
    /// ```
    pub fn authorities<R: Borrow<RecordBuf>>(&mut self, records: impl IntoIterator<Item = R>) -> &mut Self {
        self.all(LIST_AUTHORITY, LIST_AUTHORITY, records)
    }

    /// Adds records to the Additional section. A signature, TSIG (RFC 8945, section 5.1) or SIG(0), becomes the last record of
    /// the message, and is never left out.
    ///
    /// ```
    /// use dns_names_wire::{Edns, Header, Message, MessageBuilder, RecordBuf};
    ///
    /// let signature: RecordBuf = "a. 0 ANY TSIG \\# 19 00 00005F0F9043 012C 0002 491B DCC6 0000 0000".parse()?;
    /// let record: RecordBuf = "ns.a. 60 AAAA 2001:db8::1".parse()?;
    /// let mut message = MessageBuilder::new(Header::default());
    /// let octets = message.additionals([&signature, &record]).edns(&Edns::new(1232)).finish(512)?;
    /// assert_eq!(Message::read(&octets)?.additionals().last(), Some(signature.as_record()));
    /// # Ok::<(), dns_names_wire::Error>(())
    /// ```
    pub fn additionals<R: Borrow<RecordBuf>>(&mut self, records: impl IntoIterator<Item = R>) -> &mut Self {
        self.all(LIST_ADDITIONAL, LIST_ADDITIONAL, records)
    }

    /// Adds records to the Answer, Authority or Additional section, and says whether the message is truncated without
    /// them, whatever the RFCs say. In another section, [`finish`](MessageBuilder::finish) fails with `BadItem`.
    ///
    /// A referral needs the addresses of name servers that are below the zone (RFC 9471). A server may need others too:
    ///
    /// ```
    /// use dns_names_wire::{Message, MessageBuilder, Name, Need, RecordBuf, RecordType, Section};
    ///
    /// let records = ["a. 60 NS ns.b.", "ns.b. 60 A 192.0.2.1"].map(|line| line.parse::<RecordBuf>().unwrap());
    /// let query = MessageBuilder::query(7, &"b.a.".parse::<Name>()?, RecordType::A).finish(512)?;
    /// let mut reply = MessageBuilder::reply_to(&Message::read(&query)?);
    /// reply.authorities(&records[..1]).records(Section::Additionals, Need::Required, &records[1..]);
    /// assert!(Message::read(&reply.finish(45)?)?.header().truncation);
    /// # Ok::<(), dns_names_wire::Error>(())
    /// ```
    pub fn records<R: Borrow<RecordBuf>>(
        &mut self,
        section: Section,
        need: Need,
        records: impl IntoIterator<Item = R>,
    ) -> &mut Self {
        let section = match section {
            Section::Answers => LIST_ANSWER,
            Section::Authorities => LIST_AUTHORITY,
            Section::Additionals => LIST_ADDITIONAL,
            _ => {
                self.failure = Some(ErrorKind::BadItem.into());
                return self;
            }
        };
        let need = if need == Need::Optional { ffi::LIST_OPTIONAL } else { ffi::LIST_REQUIRED };
        self.all(section, section | need, records)
    }

    /// As [`records`](MessageBuilder::records), with the records of a set.
    ///
    /// ```
    /// use dns_names_wire::{Header, Message, MessageBuilder, Need, RecordBuf, RecordSet, Section};
    ///
    /// let records = ["a. 60 A 192.0.2.1", "a. 60 A 192.0.2.2"].map(|line| line.parse::<RecordBuf>().unwrap());
    /// let sets = RecordSet::group(&records)?;
    /// let octets = MessageBuilder::new(Header::default()).set(Section::Answers, Need::Required, &sets[0]).finish(512)?;
    /// assert_eq!(Message::read(&octets)?.answers().len(), 2);
    /// # Ok::<(), dns_names_wire::Error>(())
    /// ```
    pub fn set(&mut self, section: Section, need: Need, set: &RecordSet) -> &mut Self {
        self.records(section, need, set.records())
    }

    /// Returns the message in at most `max_size` octets: 512 over UDP without EDNS, what the requester accepts with
    /// EDNS, and 65535 over TCP.
    ///
    /// Successive records of a section with the same owner, type and class are a set, which is written whole or left out
    /// (RFC 2181, section 5); the signatures after NS records are of their set. If a set does not fit, it and the later ones
    /// of its section are left out. TC is set if one of them is required (RFC 2181, section 9): all answers are; all
    /// authorities, but for NS of a zone that has the answer; and the addresses of name servers below a cut (RFC 9471).
    /// [`records`](MessageBuilder::records) says otherwise. TC is also set if a part of a set is there, whose records stand
    /// apart. The questions, the OPT record and a signature are never left out, and nothing is left out of a request, or
    /// of a transfer. A reply with the code `FormErr`, `NotImp` or `BADVERS` is whole without other records, and has none.
    ///
    /// # Errors
    ///
    /// `MessageTooLong` if there is no room for the header and for what is never left out; `BadData`
    /// if the data of a record are not those of its type; or `BadItem` if this is a reply to a response, if records were
    /// added to no section of records, if there are two signatures, or if the response code is above 15 without EDNS.
    ///
    /// ```
    /// use dns_names_wire::{ErrorKind, Message, MessageBuilder, Name, RecordType, Texts, RData};
    ///
    /// let name: Name = "a.".parse()?;
    /// let query = MessageBuilder::query(7, &name, RecordType::TXT).finish(512)?;
    /// let mut message = MessageBuilder::reply_to(&Message::read(&query)?);
    /// let texts = Texts::to_wire([[b'a'; 255], [b'b'; 255]])?;
    /// message.answer(&name, 60, RData::TXT(Texts::from_wire(&texts)?))?;
    /// let (cut, whole) = (message.finish(512)?, message.finish(65535)?);
    /// assert!(Message::read(&cut)?.header().truncation && !Message::read(&whole)?.header().truncation);
    /// assert_eq!((cut.len(), whole.len()), (19, 19 + 2 + 10 + 512));
    /// assert_eq!(message.finish(18).unwrap_err().kind(), ErrorKind::MessageTooLong);
    /// # Ok::<(), dns_names_wire::Error>(())
    /// ```
    pub fn finish(&self, max_size: u16) -> Result<Vec<u8>, Error> {
        let mut message = Vec::new();
        self.finish_into(max_size, &mut message)?;
        Ok(message)
    }

    /// Replaces `message` with the result of [`finish`](MessageBuilder::finish), and returns whether its TC bit is set.
    /// Use it to write many messages into one allocation.
    ///
    /// # Errors
    ///
    /// The errors of [`finish`](MessageBuilder::finish).
    ///
    /// ```
    /// use dns_names_wire::{MessageBuilder, Name, RecordType};
    ///
    /// let mut message = Vec::new();
    /// assert!(!MessageBuilder::query(7, &Name::root(), RecordType::NS).finish_into(512, &mut message)?);
    /// assert_eq!(message.len(), 17);
    /// # Ok::<(), dns_names_wire::Error>(())
    /// ```
    pub fn finish_into(&self, max_size: u16, message: &mut Vec<u8>) -> Result<bool, Error> {
        if let Some(error) = self.failure {
            return Err(error);
        }
        let flags = self.header.flag_bits();
        let asked = self.asked(flags)?;
        let mut list = Room::new();
        self.sections.iter().for_each(|items| list.extend_from_slice(items));
        if let Some((edns, options)) = &self.edns {
            put_edns(&Edns { options, ..*edns }, asked.as_ref(), &mut list)?;
        }
        let code = asked.as_ref().map_or(self.header.response_code.into(), |asked| asked.response_code);
        let (items, id, is_reply, block) = (list.as_slice(), self.header.id, asked.is_some(), self.block);
        // An item takes no more octets in a message than in the list, but for padding.
        let (most, max_size) = (HEADER_SIZE + items.len(), usize::from(max_size));
        let room = HEADER_SIZE.max(if block == 0 { most.min(max_size) } else { max_size });
        let mut truncated = false;
        message.clear();
        ffi::append(message, room, |room| {
            let written = ffi::message_write(items, max_size, id, flags, code, is_reply, block, room)?;
            truncated = written.truncated;
            Ok(written.len)
        })?;
        Ok(truncated)
    }

    /// Returns what a reply with the response code of the header needs, if this is a reply.
    fn asked(&self, flags: u16) -> Result<Option<ffi::Edns>, Error> {
        let code = self.header.response_code.into();
        match &self.request {
            Some((request, asked)) if asked.response_code != code => {
                let (mut room, mut writer) = ([0; REPLY_SIZE], ffi::Writer::ZERO);
                ffi::writer_reply(&mut room, REPLY_SIZE, request, flags, code, &mut writer).map(Some)
            }
            request => Ok(request.as_ref().map(|(_, asked)| *asked)),
        }
    }

    fn data(&mut self, section: u8, name: NameRef<'_>, ttl: u32, data: &RData<'_>) -> Result<&mut Self, Error> {
        let items = self.items(section);
        let start = items.len();
        items.push(section);
        match put_record(items, name, (data.record_type(), Class::IN, ttl), |octets| data.put(octets)) {
            Ok(_) => Ok(self),
            Err(error) => {
                items.truncate(start);
                Err(error)
            }
        }
    }

    fn all<R: Borrow<RecordBuf>>(&mut self, section: u8, octet: u8, records: impl IntoIterator<Item = R>) -> &mut Self {
        let items = self.items(section);
        for record in records {
            items.push(octet);
            items.extend_from_slice(record.borrow().as_wire());
        }
        self
    }

    /// Returns the items of a section.
    #[inline]
    fn items(&mut self, section: u8) -> &mut Vec<u8> {
        let items = &mut self.sections[usize::from(section)];
        if items.capacity() == 0 {
            items.reserve(USUAL_SIZE);
        }
        items
    }
}

/// Shows the message that is written in as many octets as it takes, or why it cannot be.
impl fmt::Debug for MessageBuilder {
    fn fmt(&self, f: &mut fmt::Formatter<'_>) -> fmt::Result {
        let mut tuple = f.debug_tuple("MessageBuilder");
        match self.finish(u16::MAX) {
            Ok(octets) => tuple.field(&Message::read(&octets)).finish(),
            Err(error) => tuple.field(&error).finish(),
        }
    }
}

/// Appends the item of an OPT record, or none to a reply whose request has no EDNS.
fn put_edns(edns: &Edns<'_>, asked: Option<&ffi::Edns>, list: &mut Room) -> Result<(), Error> {
    let (mut few, mut many) = ([0; HEADER_SIZE + ffi::EDNS_SIZE], Vec::new());
    let message = match edns.options.len() {
        0 => &mut few[..],
        len => {
            many.resize(few.len() + len, 0);
            &mut many[..]
        }
    };
    let mut writer = ffi::Writer::ZERO;
    ffi::writer_begin(message, usize::MAX, 0, 0, &mut writer)?;
    edns.write(message, asked, 0, 0, &mut writer)?;
    if writer.len > HEADER_SIZE {
        list.extend_from_slice(&[LIST_ADDITIONAL]);
        list.extend_from_slice(&message[HEADER_SIZE..writer.len]);
    }
    Ok(())
}
