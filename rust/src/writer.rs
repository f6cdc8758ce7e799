//! Messages that are written item by item, into a buffer of the caller.
use crate::builder::USUAL_PAYLOAD;
use crate::ffi;
use crate::octets::{Room, STACK_SIZE};
use crate::{
    Class, Edns, Error, ErrorKind, Header, Message, NameRef, RData, Record, RecordBuf, RecordSet, RecordType,
    ResponseCode, Section,
};
use alloc::vec::Vec;
use core::fmt;

/// Whether a response is truncated if it has no room for an item (RFC 2181, section 9), by the word of the caller.
///
/// ```
/// use dns_names_wire::{Header, Message, MessageBuilder, Need, RecordBuf, Section};
///
/// let record: RecordBuf = "a. 60 A 192.0.2.1".parse()?;
/// let mut header = Header::default();
/// header.is_response = true;
/// for (need, is_truncated) in [(Need::Required, true), (Need::Optional, false)] {
///     let octets = MessageBuilder::new(header).records(Section::Answers, need, [&record]).finish(16)?;
///     assert_eq!(Message::read(&octets)?.header().truncation, is_truncated);
/// }
/// # Ok::<(), dns_names_wire::Error>(())
/// ```
#[derive(Clone, Copy, Debug, PartialEq, Eq, Hash)]
pub enum Need {
    /// The message is truncated without it: TC is set.
    Required,
    /// The message is whole without it.
    Optional,
}

/// Writes a message into a buffer, item by item: the questions, then the records of each section. Names are compressed
/// (RFC 1035, section 4.1.4; RFC 3597, section 4). Nothing is allocated, unless the data of a record have more than 512
/// octets.
///
/// Each item is added whole or not at all, and the message is complete after each call. An item that fails leaves the
/// message unchanged, but for TC in [`set`](MessageWriter::set). It fails with `MessageTooLong` if there is no room for
/// it, with `BadItem` if a later section has items already or if it comes after [`last`](MessageWriter::last), with
/// `DuplicateEdns` if it is a second OPT record (RFC 6891, section 6.1.1), and with `BadData` if its data are not those
/// of its type.
///
/// ```
/// use dns_names_wire::{Class, Header, Message, MessageWriter, Name, RData, RecordType, Section};
///
/// let (zone, host): (Name, Name) = ("example.com.".parse()?, "ns1.example.com.".parse()?);
/// let mut room = [0; 512];
/// let mut writer = MessageWriter::new(&mut room, 512, &Header::default())?;
/// writer.question(&zone, RecordType::NS, Class::IN)?;
/// writer.data(Section::Answers, &zone, 300, RData::NS((&host).into()))?;
/// let octets = writer.finish();
/// assert_eq!(octets.len(), 12 + 17 + 2 + 10 + 6);
/// assert_eq!(Message::read(octets)?.answers().next().unwrap().data_name()?, host);
/// # Ok::<(), dns_names_wire::Error>(())
/// ```
pub struct MessageWriter<'m> {
    message: &'m mut [u8],
    state: ffi::Writer,
    /// the response code
    code: u16,
    /// what the request of a reply asks by EDNS
    asked: Option<ffi::Edns>,
}

impl<'m> MessageWriter<'m> {
    /// Begins a message of at most `max_size` octets with this header, whose counts are not used. A response code above
    /// 15 is written by [`edns`](MessageWriter::edns).
    ///
    /// # Errors
    ///
    /// `NoRoom` if the buffer has fewer than 12 octets.
    ///
    /// ```
    /// use dns_names_wire::{Header, MessageWriter};
    ///
    /// let mut room = [0; 12];
    /// assert_eq!(MessageWriter::new(&mut room, 512, &Header::default())?.finish(), [0; 12]);
    /// # Ok::<(), dns_names_wire::Error>(())
    /// ```
    pub fn new(message: &'m mut [u8], max_size: usize, header: &Header) -> Result<Self, Error> {
        let (mut state, code) = (ffi::Writer::ZERO, header.response_code.into());
        ffi::writer_begin(message, max_size, header.id, header.flag_bits(), &mut state)?;
        Ok(MessageWriter { message, state, code, asked: None })
    }

    /// Begins a query for records of a name, of class IN, with RD set, in at most `max_size` octets. If `max_payload` is
    /// given, an OPT record says that the sender accepts messages of so many octets, or of 512 if it is less (RFC 6891,
    /// section 6.2.5). With `None`, [`edns`](MessageWriter::edns) may say more.
    ///
    /// The id should be random, so that a stranger cannot guess it (RFC 5452, section 9.2).
    ///
    /// # Errors
    ///
    /// `MessageTooLong` if there is no room for the header, the question or the OPT record.
    ///
    /// ```
    /// use dns_names_wire::{Message, MessageWriter, Name, RecordType};
    ///
    /// let mut room = [0; 512];
    /// let writer = MessageWriter::query(&mut room, 512, 7, &Name::root(), RecordType::NS, Some(1232))?;
    /// let octets = writer.finish();
    /// assert!(octets.starts_with(b"\0\x07\x01\0\0\x01\0\0\0\0\0\x01\0\0\x02\0\x01"));
    /// assert_eq!(Message::read(octets)?.edns()?.unwrap().max_payload, 1232);
    /// # Ok::<(), dns_names_wire::Error>(())
    /// ```
    pub fn query<'n>(
        message: &'m mut [u8],
        max_size: usize,
        id: u16,
        name: impl Into<NameRef<'n>>,
        record_type: RecordType,
        max_payload: Option<u16>,
    ) -> Result<Self, Error> {
        let (mut state, payload) = (ffi::Writer::ZERO, max_payload.map_or(0, |size| size.max(1)));
        name.into().with_form(|name| {
            ffi::writer_query(message, max_size, id, true, name, record_type, Class::IN, payload, &mut state)
        })?;
        Ok(MessageWriter { message, state, code: 0, asked: None })
    }

    /// Begins the reply to a request, in at most `max_size` octets.
    ///
    /// It has the id, the operation code, RD, CD and the question of the request (RFC 1035, section 4.1.1; RFC 4035,
    /// section 3.2.2), and AA, RA, AD and the response code of `header`. But [`response_code`] is `BADVERS` if the
    /// version of EDNS is above 0 (RFC 6891, section 6.1.3), and `FormErr`, without a question, if the request is not
    /// complete, its EDNS is not valid (RFC 6891, section 7), or it has more than one question (RFC 9619). A reply with
    /// one of these codes, or `NotImp`, is whole without a record: it takes OPT and a last record alone.
    ///
    /// If the request has EDNS, the size of the largest message that it accepts and DO are returned. Then the reply has an
    /// OPT record, whose octets are held back: [`edns`](MessageWriter::edns) writes it, or else [`last`](MessageWriter::last)
    /// or [`finish`](MessageWriter::finish). Over UDP, [`set_max_size`](MessageWriter::set_max_size) to that size.
    ///
    /// [`response_code`]: MessageWriter::response_code
    ///
    /// # Errors
    ///
    /// `BadItem` if the request has no whole header or is a response, or if the response code is above 15 and the request
    /// has no EDNS; or `MessageTooLong` if there is no room for the header or the question.
    ///
    /// ```
    /// use dns_names_wire::{Header, MessageBuilder, MessageWriter, Name, RecordType};
    ///
    /// let query = MessageBuilder::query(7, &Name::root(), RecordType::NS).finish(512)?;
    /// let mut room = [0; 512];
    /// let (reply, edns) = MessageWriter::reply_to(&mut room, 512, &query, &Header::default())?;
    /// assert_eq!(edns, None);
    /// assert_eq!(reply.finish(), b"\0\x07\x81\0\0\x01\0\0\0\0\0\0\0\0\x02\0\x01");
    /// # Ok::<(), dns_names_wire::Error>(())
    /// ```
    pub fn reply_to(
        message: &'m mut [u8],
        max_size: usize,
        request: &[u8],
        header: &Header,
    ) -> Result<(Self, Option<Edns<'static>>), Error> {
        let mut state = ffi::Writer::ZERO;
        let (flags, code) = (header.flag_bits(), header.response_code.into());
        let asked = ffi::writer_reply(message, max_size, request, flags, code, &mut state)?;
        let writer = MessageWriter { message, state, code: asked.response_code, asked: Some(asked) };
        Ok((writer, Edns::of(&asked, &[])))
    }

    /// Adds a question.
    ///
    /// # Errors
    ///
    /// See [`MessageWriter`].
    ///
    /// ```
    /// use dns_names_wire::{Class, ErrorKind, Header, MessageWriter, Name, RecordType};
    ///
    /// let mut room = [0; 512];
    /// let mut writer = MessageWriter::new(&mut room, 17, &Header::default())?;
    /// writer.question(&Name::root(), RecordType::NS, Class::IN)?;
    /// let error = writer.question(&Name::root(), RecordType::NS, Class::IN).map(drop).unwrap_err();
    /// assert_eq!((error.kind(), writer.octets().len()), (ErrorKind::MessageTooLong, 17));
    /// # Ok::<(), dns_names_wire::Error>(())
    /// ```
    pub fn question<'n>(
        &mut self,
        name: impl Into<NameRef<'n>>,
        record_type: RecordType,
        class: Class,
    ) -> Result<&mut Self, Error> {
        name.into().with_form(|name| ffi::writer_question(self.message, name, record_type, class, &mut self.state))?;
        Ok(self)
    }

    /// Adds a record of class IN with these data to a section.
    ///
    /// # Errors
    ///
    /// See [`MessageWriter`]; and `DataTooLong` as [`RecordBuf::new`].
    ///
    /// ```
    /// use dns_names_wire::{Header, Message, MessageWriter, Name, Section};
    ///
    /// let mut room = [0; 512];
    /// let mut writer = MessageWriter::new(&mut room, 512, &Header::default())?;
    /// writer.data(Section::Answers, &Name::root(), 60, std::net::Ipv4Addr::LOCALHOST)?;
    /// assert_eq!(Message::read(writer.octets())?.answers().next().unwrap().to_string(), ". 60 IN A 127.0.0.1");
    /// # Ok::<(), dns_names_wire::Error>(())
    /// ```
    pub fn data<'n, 'd>(
        &mut self,
        section: Section,
        owner: impl Into<NameRef<'n>>,
        ttl: u32,
        data: impl Into<RData<'d>>,
    ) -> Result<&mut Self, Error> {
        let (mut room, data) = (Room::new(), data.into());
        data.put(&mut room)?;
        self.raw_data(section, owner, (data.record_type(), Class::IN, ttl), room.as_slice())
    }

    /// Adds a record with these octets as its data, whose names are not compressed, and with this type, class and TTL.
    ///
    /// # Errors
    ///
    /// See [`MessageWriter`].
    ///
    /// ```
    /// use dns_names_wire::{Class, ErrorKind, Header, MessageWriter, Name, RecordType, Section};
    ///
    /// let mut room = [0; 512];
    /// let mut writer = MessageWriter::new(&mut room, 512, &Header::default())?;
    /// let fixed = (RecordType::A, Class::IN, 60);
    /// writer.raw_data(Section::Answers, &Name::root(), fixed, &[192, 0, 2, 1])?;
    /// let error = writer.raw_data(Section::Answers, &Name::root(), fixed, &[192, 0, 2]).map(drop).unwrap_err();
    /// assert_eq!(error.kind(), ErrorKind::BadData);
    /// # Ok::<(), dns_names_wire::Error>(())
    /// ```
    pub fn raw_data<'n>(
        &mut self,
        section: Section,
        owner: impl Into<NameRef<'n>>,
        (record_type, class, ttl): (RecordType, Class, u32),
        data: &[u8],
    ) -> Result<&mut Self, Error> {
        let (message, section, state) = (&mut *self.message, section as u32, &mut self.state);
        owner
            .into()
            .with_form(|owner| ffi::writer_record(message, section, owner, record_type, class, ttl, data, state))?;
        Ok(self)
    }

    /// Adds a copy of a record, of another message or owned, to a section.
    ///
    /// # Errors
    ///
    /// See [`MessageWriter`]; and the errors of [`Record::data`] for data that are not valid.
    ///
    /// ```
    /// use dns_names_wire::{Header, Message, MessageWriter, RecordBuf, Section};
    ///
    /// let record: RecordBuf = "a. 60 NS b.a.".parse()?;
    /// let mut room = [0; 512];
    /// let mut writer = MessageWriter::new(&mut room, 512, &Header::default())?;
    /// writer.record(Section::Answers, &record)?;
    /// let octets = writer.finish();
    /// assert!(octets.ends_with(b"\x01b\xC0\x0C"));
    /// assert_eq!(Message::read(octets)?.answers().next(), Some(record.as_record()));
    /// # Ok::<(), dns_names_wire::Error>(())
    /// ```
    pub fn record<'r>(&mut self, section: Section, record: impl Into<Record<'r>>) -> Result<&mut Self, Error> {
        let record = record.into();
        let fixed = (record.record_type(), record.class(), record.ttl());
        let mut room = [0; STACK_SIZE];
        match record.store_data(&mut room) {
            Ok(len) => self.raw_data(section, record.owner(), fixed, &room[..len]),
            Err(error) if error.kind() == ErrorKind::NoRoom => {
                let mut data = Vec::new();
                record.put_data(&mut data)?;
                self.raw_data(section, record.owner(), fixed, &data)
            }
            Err(error) => Err(error),
        }
    }

    /// Adds the records of a set to a section, or none of them (RFC 2181, section 5). If there is no room for them and
    /// they are required, TC is set.
    ///
    /// # Errors
    ///
    /// See [`MessageWriter`].
    ///
    /// ```
    /// use dns_names_wire::{ErrorKind, Header, Message, MessageWriter, Need, RecordBuf, RecordSet, Section};
    ///
    /// let records = ["a. 60 A 192.0.2.1", "a. 60 A 192.0.2.2"].map(|line| line.parse::<RecordBuf>().unwrap());
    /// let sets = RecordSet::group(&records)?;
    /// let mut room = [0; 32];
    /// let mut writer = MessageWriter::new(&mut room, 512, &Header::default())?;
    /// let error = writer.set(Section::Answers, Need::Required, &sets[0]).map(drop).unwrap_err();
    /// assert_eq!(error.kind(), ErrorKind::MessageTooLong);
    /// assert!(Message::read(writer.octets())?.header().truncation);
    /// # Ok::<(), dns_names_wire::Error>(())
    /// ```
    pub fn set(&mut self, section: Section, need: Need, set: &RecordSet) -> Result<&mut Self, Error> {
        let (required, owner, data) = (need == Need::Required, set.owner().whole_wire()?, set.as_list());
        let (message, section, state) = (&mut *self.message, section as u32, &mut self.state);
        let (record_type, class, ttl) = (set.record_type(), set.class(), set.ttl());
        ffi::writer_set(message, section, required, owner, record_type, class, ttl, data, state)?;
        Ok(self)
    }

    /// Holds back octets of the maximum, for items that come last.
    ///
    /// ```
    /// use dns_names_wire::{Header, MessageWriter, Name, Section};
    /// use std::net::Ipv4Addr;
    ///
    /// let mut room = [0; 27];
    /// let mut writer = MessageWriter::new(&mut room, 27, &Header::default())?;
    /// writer.hold(1);
    /// assert!(writer.data(Section::Answers, &Name::root(), 60, Ipv4Addr::LOCALHOST).is_err());
    /// writer.release(1);
    /// assert!(writer.data(Section::Answers, &Name::root(), 60, Ipv4Addr::LOCALHOST).is_ok());
    /// # Ok::<(), dns_names_wire::Error>(())
    /// ```
    pub fn hold(&mut self, octets: usize) -> &mut Self {
        // It never fails.
        let _ = ffi::writer_hold(octets, &mut self.state);
        self
    }

    /// Gives back octets that are held back, or all if there are fewer.
    ///
    /// ```
    /// use dns_names_wire::{Class, Header, MessageWriter, Name, RecordType};
    ///
    /// let mut room = [0; 17];
    /// let mut writer = MessageWriter::new(&mut room, 17, &Header::default())?;
    /// assert!(writer.hold(1).question(&Name::root(), RecordType::NS, Class::IN).is_err());
    /// assert!(writer.release(9).question(&Name::root(), RecordType::NS, Class::IN).is_ok());
    /// # Ok::<(), dns_names_wire::Error>(())
    /// ```
    pub fn release(&mut self, octets: usize) -> &mut Self {
        // It never fails.
        let _ = ffi::writer_release(octets, &mut self.state);
        self
    }

    /// Adds an OPT record with the response code (RFC 6891, section 6.1). A reply has it only if its request has EDNS
    /// (section 7), with the DO of the request (RFC 3225, section 3) and version 0; otherwise nothing is added.
    ///
    /// # Errors
    ///
    /// `CutOption` if the options end within an option; otherwise see [`MessageWriter`].
    ///
    /// ```
    /// use dns_names_wire::{Edns, Header, Message, MessageWriter, ResponseCode};
    ///
    /// let mut header = Header::default();
    /// header.response_code = ResponseCode::BADCOOKIE;
    /// let mut room = [0; 512];
    /// let mut writer = MessageWriter::new(&mut room, 512, &header)?;
    /// writer.edns(&Edns::new(1232))?;
    /// let message = Message::read(writer.finish())?;
    /// assert_eq!(message.response_code()?, ResponseCode::BADCOOKIE);
    /// # Ok::<(), dns_names_wire::Error>(())
    /// ```
    pub fn edns(&mut self, edns: &Edns<'_>) -> Result<&mut Self, Error> {
        self.padded_edns(edns, 0)
    }

    /// As [`edns`](MessageWriter::edns), with an option that pads the message to a multiple of `block` octets (RFC 7830;
    /// RFC 8467), or of 512 if it is more. No option is added if `block` is 0, or if there is no room for that.
    ///
    /// # Errors
    ///
    /// The errors of [`edns`](MessageWriter::edns).
    ///
    /// ```
    /// use dns_names_wire::{Edns, Header, MessageWriter};
    ///
    /// let mut room = [0; 512];
    /// let mut writer = MessageWriter::new(&mut room, 512, &Header::default())?;
    /// writer.padded_edns(&Edns::new(1232), 128)?;
    /// assert_eq!(writer.finish().len(), 128);
    /// # Ok::<(), dns_names_wire::Error>(())
    /// ```
    pub fn padded_edns(&mut self, edns: &Edns<'_>, block: u16) -> Result<&mut Self, Error> {
        edns.write(self.message, self.asked.as_ref(), self.code, block, &mut self.state)?;
        Ok(self)
    }

    /// Adds the OPT record that a reply owes, in the octets that are held back for it. If it is there, nothing changes.
    fn add_owed_edns(&mut self) {
        if self.asked.is_some() {
            let _ = self.edns(&Edns::new(USUAL_PAYLOAD)).is_ok();
        }
    }

    /// Adds a record to the Additional section after which no item may follow: TSIG (RFC 8945, section 5.1) or SIG(0).
    /// A reply gets its OPT record first. `held` octets are given back first.
    ///
    /// # Errors
    ///
    /// See [`MessageWriter`].
    ///
    /// ```
    /// use dns_names_wire::{Edns, ErrorKind, Header, MessageWriter, RecordBuf};
    ///
    /// let record: RecordBuf = "a. 0 ANY TSIG \\# 19 00 00005F0F9043 012C 0002 491B DCC6 0000 0000".parse()?;
    /// let mut room = [0; 512];
    /// let mut writer = MessageWriter::new(&mut room, 512, &Header::default())?;
    /// writer.last(0, &record)?;
    /// assert_eq!(writer.edns(&Edns::new(512)).map(drop).unwrap_err().kind(), ErrorKind::BadItem);
    /// # Ok::<(), dns_names_wire::Error>(())
    /// ```
    pub fn last(&mut self, held: usize, record: &RecordBuf) -> Result<&mut Self, Error> {
        self.add_owed_edns();
        let read = record.as_record();
        let (record_type, class, ttl, data) = (read.record_type(), read.class(), read.ttl(), read.raw_data());
        let (message, state) = (&mut *self.message, &mut self.state);
        read.owner().with_form(|owner| ffi::writer_last(message, held, owner, record_type, class, ttl, data, state))?;
        Ok(self)
    }

    /// Returns the response code: that of the header, or in a reply what the request makes of it. Its high bits are in
    /// the OPT record.
    ///
    /// ```
    /// use dns_names_wire::{Header, MessageWriter, ResponseCode};
    ///
    /// let mut room = [0; 12];
    /// let writer = MessageWriter::new(&mut room, 12, &Header::default())?;
    /// assert_eq!(writer.response_code(), ResponseCode::NoError);
    /// # Ok::<(), dns_names_wire::Error>(())
    /// ```
    pub fn response_code(&self) -> ResponseCode {
        self.code.into()
    }

    /// Sets the most octets that the message may have.
    ///
    /// ```
    /// use dns_names_wire::{Header, MessageWriter, Name, Section};
    ///
    /// let mut room = [0; 512];
    /// let mut writer = MessageWriter::new(&mut room, 512, &Header::default())?;
    /// writer.set_max_size(26);
    /// assert!(writer.data(Section::Answers, &Name::root(), 60, std::net::Ipv4Addr::LOCALHOST).is_err());
    /// # Ok::<(), dns_names_wire::Error>(())
    /// ```
    pub fn set_max_size(&mut self, max_size: usize) -> &mut Self {
        self.state.max_size = max_size;
        self
    }

    /// Returns the message so far, which is complete.
    ///
    /// ```
    /// use dns_names_wire::{Header, MessageWriter};
    ///
    /// assert_eq!(MessageWriter::new(&mut [0; 512], 512, &Header::default())?.octets(), [0; 12]);
    /// # Ok::<(), dns_names_wire::Error>(())
    /// ```
    pub fn octets(&self) -> &[u8] {
        &self.message[..self.state.len]
    }

    /// Returns the message. A reply gets its OPT record first, with 1232 octets as the largest message that is accepted, if it
    /// has none and its request has EDNS.
    ///
    /// ```
    /// use dns_names_wire::{Header, MessageWriter};
    ///
    /// assert_eq!(MessageWriter::new(&mut [0; 512], 512, &Header::default())?.finish(), [0; 12]);
    /// # Ok::<(), dns_names_wire::Error>(())
    /// ```
    pub fn finish(mut self) -> &'m mut [u8] {
        self.add_owed_edns();
        &mut self.message[..self.state.len]
    }
}

impl fmt::Debug for MessageWriter<'_> {
    fn fmt(&self, f: &mut fmt::Formatter<'_>) -> fmt::Result {
        f.debug_tuple("MessageWriter").field(&Message::read(self.octets())).finish()
    }
}
