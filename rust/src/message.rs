//! Whole messages, which are checked once.
use crate::ffi::{self, HEADER_SIZE, MAX_POINTERS};
use crate::items::counted;
use crate::{Class, Error, Header, NameRef, Pairs, Record, RecordType, ResponseCode, Section};
use alloc::string::String;
use alloc::vec::Vec;
use core::fmt;

/// A message that was checked as a whole (RFC 1035, section 4): its header, its questions and its records are all
/// there. It borrows the octets that it was read from.
///
/// ```
/// use dns_names_wire::{Field, Message, RecordType};
///
/// // b. A, and the answer 192.0.2.1
/// let octets = b"\x12\x34\x84\0\0\x01\0\x01\0\0\0\0\x01b\0\0\x01\0\x01\xC0\x0C\0\x01\0\x01\0\0\0\x3C\0\x04\xC0\0\x02\x01";
/// let message = Message::read(octets)?;
/// let header = message.header();
/// assert!(header.id == 0x1234 && header.is_response && header.authoritative && !header.truncation);
/// let question = message.questions().next().unwrap();
/// assert_eq!((question.name.to_string(), question.question_type), ("b.".into(), RecordType::A));
/// let answer = message.answers().next().unwrap();
/// assert_eq!((answer.owner().to_string(), answer.ttl()), ("b.".into(), 60));
/// assert_eq!(answer.fields().next(), Some(Ok(Field::Ipv4([192, 0, 2, 1]))));
/// assert_eq!(answer.to_string(), "b. 60 IN A 192.0.2.1");
/// # Ok::<(), dns_names_wire::Error>(())
/// ```
#[derive(Clone)]
pub struct Message<'a> {
    octets: &'a [u8],
    max_pointers: usize,
    read: ffi::Message,
}

impl<'a> Message<'a> {
    /// Reads the message at the start of these octets. More octets may follow. The data of records are not checked.
    ///
    /// # Errors
    ///
    /// The error of the first question or record that is wrong; [`Error::section`], [`Error::item`] and
    /// [`Error::offset`] return which it is. The errors are those of [`Name::read`](crate::Name::read) for its name,
    /// `MessageCut` if the octets end within it or within the header, and `TooManyPointers` if the names up to it
    /// follow more than 65,536 compression pointers in total.
    ///
    /// ```
    /// use dns_names_wire::{ErrorKind, Message, Section};
    ///
    /// let error = Message::read(b"\0\0\0\0\0\x01\0\0\0\0\0\0\x01b\0\0\x01").unwrap_err();
    /// assert_eq!((error.kind(), error.section()), (ErrorKind::MessageCut, Some(Section::Questions)));
    /// ```
    pub fn read(octets: &'a [u8]) -> Result<Self, Error> {
        Message::read_limited(octets, MAX_POINTERS)
    }

    /// Reads as [`read`](Message::read) does, with `max_pointers` as the most compression pointers that the names may
    /// follow in total.
    ///
    /// # Errors
    ///
    /// The errors of [`read`](Message::read).
    ///
    /// ```
    /// use dns_names_wire::{ErrorKind, Message};
    ///
    /// let octets = b"\0\0\0\0\0\x02\0\0\0\0\0\0\x01b\0\0\x01\0\x01\xC0\x0C\0\x01\0\x01";
    /// assert!(Message::read_limited(octets, 1).is_ok());
    /// assert_eq!(Message::read_limited(octets, 0).unwrap_err().kind(), ErrorKind::TooManyPointers);
    /// ```
    pub fn read_limited(octets: &'a [u8], max_pointers: usize) -> Result<Self, Error> {
        let mut fault = ffi::MessageFault::ZERO;
        match ffi::message_read(octets, max_pointers, &mut fault) {
            Ok(read) => Ok(Message { octets, max_pointers, read }),
            Err(error) => Err(error.at_item(Section::from_number(fault.section), fault.item, fault.offset)),
        }
    }

    /// Returns the header.
    ///
    /// ```
    /// let message = dns_names_wire::Message::read(b"\x12\x34\x01\0\0\0\0\0\0\0\0\0")?;
    /// assert!(message.header().recursion_desired && !message.header().is_response);
    /// # Ok::<(), dns_names_wire::Error>(())
    /// ```
    pub fn header(&self) -> Header {
        let read = &self.read;
        Header {
            id: read.id,
            is_response: read.is_response,
            op_code: read.op_code.into(),
            authoritative: read.authoritative,
            truncation: read.truncation,
            recursion_desired: read.recursion_desired,
            recursion_available: read.recursion_available,
            authentic_data: read.authentic_data,
            checking_disabled: read.checking_disabled,
            response_code: read.response_code.into(),
            question_count: read.question_count,
            answer_count: read.answer_count,
            authority_count: read.authority_count,
            additional_count: read.additional_count,
        }
    }

    /// Returns an iterator over the questions.
    ///
    /// ```
    /// let message = dns_names_wire::Message::read(b"\0\0\0\0\0\x01\0\0\0\0\0\0\0\0\x02\0\x01")?;
    /// assert_eq!(message.questions().next().unwrap().to_string(), ".\tIN\tNS");
    /// # Ok::<(), dns_names_wire::Error>(())
    /// ```
    pub fn questions(&self) -> Questions<'a> {
        Questions { message: self.octets, offset: HEADER_SIZE, left: self.read.question_count }
    }

    /// Returns an iterator over the records of the Answer section.
    ///
    /// ```
    /// let message = dns_names_wire::Message::read(b"\0\0\0\0\0\0\0\0\0\0\0\0")?;
    /// assert_eq!(message.answers().len(), 0);
    /// # Ok::<(), dns_names_wire::Error>(())
    /// ```
    pub fn answers(&self) -> SectionRecords<'a> {
        self.records_from(self.read.answers, self.read.answer_count)
    }

    /// Returns an iterator over the records of the Authority section.
    ///
    /// ```
    /// let message = dns_names_wire::Message::read(b"\0\0\0\0\0\0\0\0\0\0\0\0")?;
    /// assert_eq!(message.authorities().len(), 0);
    /// # Ok::<(), dns_names_wire::Error>(())
    /// ```
    pub fn authorities(&self) -> SectionRecords<'a> {
        self.records_from(self.read.authorities, self.read.authority_count)
    }

    /// Returns an iterator over the records of the Additional section. An OPT record is among them.
    ///
    /// ```
    /// let message = dns_names_wire::Message::read(b"\0\0\0\0\0\0\0\0\0\0\0\0")?;
    /// assert_eq!(message.additionals().len(), 0);
    /// # Ok::<(), dns_names_wire::Error>(())
    /// ```
    pub fn additionals(&self) -> SectionRecords<'a> {
        self.records_from(self.read.additionals, self.read.additional_count)
    }

    fn records_from(&self, offset: usize, left: u16) -> SectionRecords<'a> {
        SectionRecords { message: self.octets, offset, left }
    }

    /// Returns the EDNS fields of the message, or `None` if it has no OPT record (RFC 6891).
    ///
    /// # Errors
    ///
    /// `OutsideAdditionals` if an OPT record is in the Answer or Authority section; `DuplicateEdns` if there are two or
    /// more; `OwnerNotRoot` if the owner of the only one is not the root; and `CutOption` if its data end within an
    /// option.
    ///
    /// ```
    /// use dns_names_wire::Message;
    ///
    /// // an OPT record: 1232 octets, version 0, DO, and a cookie
    /// let message = Message::read(b"\0\0\0\0\0\0\0\0\0\0\0\x01\0\0\x29\x04\xD0\0\0\x80\0\0\x06\0\x0A\0\x02\xAB\xCD")?;
    /// let edns = message.edns()?.unwrap();
    /// assert!(edns.max_payload == 1232 && edns.version == 0 && edns.dnssec_ok);
    /// assert!(edns.options().eq([(10, &b"\xAB\xCD"[..])]));
    /// # Ok::<(), dns_names_wire::Error>(())
    /// ```
    pub fn edns(&self) -> Result<Option<Edns<'a>>, Error> {
        let read = self.read_edns()?;
        Ok(Edns::of(&read, &self.octets[read.options_offset..][..read.options_len]))
    }

    fn read_edns(&self) -> Result<ffi::Edns, Error> {
        ffi::edns_read(self.octets, self.max_pointers)
    }

    /// Returns the response code, with the high bits from the OPT record (RFC 6891, section 6.1.3).
    ///
    /// # Errors
    ///
    /// The errors of [`edns`](Message::edns).
    ///
    /// ```
    /// use dns_names_wire::{Message, ResponseCode};
    ///
    /// let message = Message::read(b"\0\0\x80\0\0\0\0\0\0\0\0\x01\0\0\x29\x02\0\x01\0\0\0\0\0")?;
    /// assert_eq!(message.response_code()?, ResponseCode::BADVERS);
    /// # Ok::<(), dns_names_wire::Error>(())
    /// ```
    pub fn response_code(&self) -> Result<ResponseCode, Error> {
        Ok(self.read_edns()?.response_code.into())
    }

    /// Returns whether the message is a response with the id, the operation code and the one question of a request, which
    /// is itself none (RFC 5452, section 9.1). Names are compared ignoring case. A response without a question is not.
    ///
    /// ```
    /// use dns_names_wire::{Message, MessageBuilder, Name, RecordType};
    ///
    /// let query = MessageBuilder::query(7, &Name::root(), RecordType::NS).finish(512)?;
    /// let request = Message::read(&query)?;
    /// let reply = MessageBuilder::reply_to(&request).finish(512)?;
    /// assert!(Message::read(&reply)?.is_reply_to(&request) && !request.is_reply_to(&request));
    /// # Ok::<(), dns_names_wire::Error>(())
    /// ```
    pub fn is_reply_to(&self, request: &Message<'_>) -> bool {
        // Both messages are complete, so the call does not fail.
        ffi::is_reply_to(request.octets(), self.octets()).unwrap_or(false)
    }

    /// Returns the message written again: compressed, and in at most `max_size` octets. A set of records that has no room
    /// is left out whole, and so are the later ones of its section (RFC 2181, section 5). If one is left out that is
    /// required, TC is set, and nothing is left out of a request: see [`MessageBuilder::finish`]. The OPT record and a
    /// signature of the message are never left out, and come last: TSIG, or SIG(0), which is a SIG that covers the type 0
    /// (RFC 2931, section 3).
    ///
    /// [`MessageBuilder::finish`]: crate::MessageBuilder::finish
    ///
    /// # Errors
    ///
    /// The errors of [`edns`](Message::edns); those of [`Record::fields`] if the data of a record are not valid;
    /// `MessageTooLong` if the header, the questions and the records that are never left out have more than `max_size`
    /// octets, or if a request has; `TooManyPointers` if the names in the data follow more than 65,536 compression
    /// pointers, or the others do, which [`read_limited`](Message::read_limited) may have allowed; or `NoMemory`.
    ///
    /// ```
    /// let octets = b"\0\0\x84\0\0\x01\0\x01\0\0\0\0\x01b\0\0\x05\0\x01\x01b\0\0\x05\0\x01\0\0\0\0\0\x05\x01a\x01b\0";
    /// let message = dns_names_wire::Message::read(octets)?;
    /// assert!(message.to_wire(512)?.ends_with(b"\xC0\x0C\0\x05\0\x01\0\0\0\0\0\x04\x01a\xC0\x0C"));
    /// assert_eq!(message.to_wire(19)?[..8], *b"\0\0\x86\0\0\x01\0\0");
    /// # Ok::<(), dns_names_wire::Error>(())
    /// ```
    pub fn to_wire(&self, max_size: u16) -> Result<Vec<u8>, Error> {
        self.to_padded_wire(max_size, 0)
    }

    /// Writes the message as [`to_wire`](Message::to_wire) does, padded to a multiple of `block` octets, or of 512 if it is
    /// more, by an option of its OPT record (RFC 7830; RFC 8467). It is not padded if it has no EDNS or that option already,
    /// or if there is no room.
    ///
    /// # Errors
    ///
    /// The errors of [`to_wire`](Message::to_wire).
    ///
    /// ```
    /// use dns_names_wire::{Edns, Header, Message, MessageBuilder};
    ///
    /// let octets = MessageBuilder::new(Header::default()).edns(&Edns::new(1232)).finish(512)?;
    /// assert_eq!(Message::read(&octets)?.to_padded_wire(512, 128)?.len(), 128);
    /// # Ok::<(), dns_names_wire::Error>(())
    /// ```
    pub fn to_padded_wire(&self, max_size: u16, block: u16) -> Result<Vec<u8>, Error> {
        // The buffer is a limit too: what has no room in it is left out.
        let room = HEADER_SIZE.max(max_size.into());
        let pack = |room: ffi::Buffer<'_>| ffi::message_pack(self.octets(), max_size, block, room).map(|it| it.len);
        let mut packed = ffi::octets(room, pack)?;
        packed.shrink_to_fit();
        Ok(packed)
    }

    /// Returns the message as a JSON object in one line (RFC 8427). Names and data are texts of master files, `RDATAHEX` has the
    /// octets of data, and `EDNS` what the message says by EDNS, each option as [`EdnsOption`] prints it, or the rule that it
    /// breaks.
    ///
    /// [`EdnsOption`]: crate::EdnsOption
    ///
    /// # Errors
    ///
    /// `NoMemory`.
    ///
    /// ```
    /// let message = dns_names_wire::Message::read(b"\0\x07\0\0\0\x01\0\0\0\0\0\0\x01b\0\0\x02\0\x01")?;
    /// let json = message.to_json()?;
    /// assert!(json.starts_with("{\"ID\":7,\"QR\":0,") && json.contains("\"QNAME\":\"b.\",\"QTYPE\":2,\"QTYPEname\":\"NS\","));
    /// # Ok::<(), dns_names_wire::Error>(())
    /// ```
    pub fn to_json(&self) -> Result<String, Error> {
        self.print(|message, most, start, room| ffi::message_json(message, most, start, room))
    }

    /// Returns the text of the message, which a call stores from an offset of it on.
    fn print<F>(&self, print: F) -> Result<String, Error>
    where
        F: Fn(&[u8], usize, usize, ffi::Buffer<'_>) -> Result<ffi::PrintedPart, Error>,
    {
        let (mut text, mut total) = (Vec::new(), ffi::USUAL_SIZE);
        while text.len() < total {
            let (start, left) = (text.len(), total - text.len());
            ffi::append(&mut text, left, |room| {
                let part = print(self.octets, self.max_pointers, start, room)?;
                total = part.total;
                Ok(part.len)
            })?;
        }
        Ok(String::from_utf8(text).expect("the C library's texts are UTF-8"))
    }

    /// Returns the octets of the message, without those that follow it.
    ///
    /// ```
    /// let message = dns_names_wire::Message::read(b"\0\0\0\0\0\0\0\0\0\0\0\0and more")?;
    /// assert_eq!((message.octets().len(), message.trailing()), (12, &b"and more"[..]));
    /// # Ok::<(), dns_names_wire::Error>(())
    /// ```
    pub fn octets(&self) -> &'a [u8] {
        &self.octets[..self.read.end]
    }

    /// Returns the octets that follow the message.
    ///
    /// ```
    /// assert!(dns_names_wire::Message::read(b"\0\0\0\0\0\0\0\0\0\0\0\0")?.trailing().is_empty());
    /// # Ok::<(), dns_names_wire::Error>(())
    /// ```
    pub fn trailing(&self) -> &'a [u8] {
        &self.octets[self.read.end..]
    }
}

/// Prints the message as `dig` does: the header, the EDNS fields and options, the questions, and the records of each section,
/// which are lines of master files. If the message breaks a rule of EDNS, a line says which. The text has no line feed at its
/// end, and no character for control but line feeds, and tabs in the lines of questions.
///
/// ```
/// use dns_names_wire::Message;
///
/// let octets = b"\x12\x34\x85\0\0\x01\0\x01\0\0\0\0\x01b\0\0\x01\0\x01\xC0\x0C\0\x01\0\x01\0\0\0\x3C\0\x04\xC0\0\x02\x01";
/// let text = "\
/// ;; ->>HEADER<<- opcode: QUERY, status: NOERROR, id: 4660
/// ;; flags: qr aa rd; QUERY: 1, ANSWER: 1, AUTHORITY: 0, ADDITIONAL: 0
///
/// ;; QUESTION SECTION:
/// ;b.\tIN\tA
///
/// ;; ANSWER SECTION:
/// b. 60 IN A 192.0.2.1";
/// assert_eq!(Message::read(octets)?.to_string(), text);
/// # Ok::<(), dns_names_wire::Error>(())
/// ```
impl fmt::Display for Message<'_> {
    fn fmt(&self, f: &mut fmt::Formatter<'_>) -> fmt::Result {
        let text = self.print(|message, most, start, room| ffi::message_print(message, most, start, room));
        f.write_str(&text.map_err(|_| fmt::Error)?)
    }
}

impl fmt::Debug for Message<'_> {
    fn fmt(&self, f: &mut fmt::Formatter<'_>) -> fmt::Result {
        let records = [self.answers(), self.authorities(), self.additionals()].map(Vec::from_iter);
        f.debug_struct("Message")
            .field("header", &self.header())
            .field("questions", &Vec::from_iter(self.questions()))
            .field("answers", &records[0])
            .field("authorities", &records[1])
            .field("additionals", &records[2])
            .finish()
    }
}

/// The same as [`Message::read`].
impl<'a> TryFrom<&'a [u8]> for Message<'a> {
    type Error = Error;

    fn try_from(octets: &'a [u8]) -> Result<Self, Error> {
        Message::read(octets)
    }
}

/// A question (RFC 1035, section 4.1.2). It is printed as its name, its class and its type, with tabs between them.
///
/// ```
/// use dns_names_wire::{Class, Message, RecordType};
///
/// let message = Message::read(b"\0\0\0\0\0\x01\0\0\0\0\0\0\x01b\0\0\x0F\0\x01")?;
/// let question = message.questions().next().unwrap();
/// assert_eq!((question.question_type, question.class), (RecordType::MX, Class::IN));
/// assert_eq!(question.to_string(), "b.\tIN\tMX");
/// # Ok::<(), dns_names_wire::Error>(())
/// ```
#[derive(Clone, Copy, PartialEq, Eq)]
#[non_exhaustive]
pub struct Question<'a> {
    /// The name that is asked for.
    pub name: NameRef<'a>,
    /// The type that is asked for.
    pub question_type: RecordType,
    /// The class that is asked for.
    pub class: Class,
}

impl<'a> Question<'a> {
    /// Reads the question at an offset of a message, and returns the offset after it.
    fn read(message: &'a [u8], start: usize) -> Option<(Self, usize)> {
        let name = NameRef::read(message, start).ok()?;
        let [t, u, c, d]: [u8; 4] = message.get(name.end()..name.end() + 4)?.try_into().ok()?;
        let (question_type, class) = (u16::from_be_bytes([t, u]).into(), u16::from_be_bytes([c, d]).into());
        Some((Question { name, question_type, class }, name.end() + 4))
    }
}

impl fmt::Display for Question<'_> {
    fn fmt(&self, f: &mut fmt::Formatter<'_>) -> fmt::Result {
        write!(f, "{}\t{}\t{}", self.name, self.class, self.question_type)
    }
}

impl fmt::Debug for Question<'_> {
    fn fmt(&self, f: &mut fmt::Formatter<'_>) -> fmt::Result {
        f.debug_tuple("Question").field(&format_args!("{self}")).finish()
    }
}

counted! {
    /// An iterator over the questions of a message. See [`Message::questions`].
    ///
    /// ```
    /// let message = dns_names_wire::Message::read(b"\0\0\0\0\0\x01\0\0\0\0\0\0\0\0\x02\0\x01")?;
    /// let mut questions = message.questions();
    /// assert_eq!(questions.len(), 1);
    /// assert!(questions.next().is_some() && questions.next().is_none());
    /// # Ok::<(), dns_names_wire::Error>(())
    /// ```
    Questions: Question, Question::read
}

counted! {
    /// An iterator over the records of a section of a message. See [`Message::answers`].
    ///
    /// ```
    /// let octets = b"\0\0\x80\0\0\0\0\x01\0\0\0\0\0\0\x01\0\x01\0\0\0\x3C\0\x04\xC0\0\x02\x01";
    /// let mut answers = dns_names_wire::Message::read(octets)?.answers();
    /// assert_eq!(answers.len(), 1);
    /// assert_eq!(answers.next().unwrap().to_string(), ". 60 IN A 192.0.2.1");
    /// # Ok::<(), dns_names_wire::Error>(())
    /// ```
    SectionRecords: Record, |message, offset| Record::read(message, offset).ok().map(|record| (record, record.end()))
}

/// The EDNS fields of a message (RFC 6891, section 6.1). See [`Message::edns`].
///
/// ```
/// use dns_names_wire::{Edns, Message, MessageBuilder, Name, RecordType};
///
/// let query = MessageBuilder::query(7, &Name::root(), RecordType::NS).edns(&Edns::new(1232)).finish(512)?;
/// let edns = Message::read(&query)?.edns()?.unwrap();
/// assert_eq!((edns.max_payload, edns.version, edns.dnssec_ok), (1232, 0, false));
/// # Ok::<(), dns_names_wire::Error>(())
/// ```
#[derive(Clone, Copy, PartialEq, Eq)]
#[non_exhaustive]
pub struct Edns<'a> {
    /// The size of the largest message that the sender accepts, at least 512 octets.
    pub max_payload: u16,
    /// The version: 0 for RFC 6891.
    pub version: u8,
    /// DO: the sender accepts DNSSEC records (RFC 3225, section 3).
    pub dnssec_ok: bool,
    pub(crate) options: &'a [u8],
}

impl<'a> Edns<'a> {
    /// Returns the EDNS fields of a sender that accepts messages of `max_payload` octets: version 0, DO not set, and no
    /// options.
    ///
    /// ```
    /// use dns_names_wire::Edns;
    ///
    /// let mut edns = Edns::new(1232);
    /// edns.dnssec_ok = true;
    /// assert_eq!((edns.max_payload, edns.version, edns.options().count()), (1232, 0, 0));
    /// ```
    pub fn new(max_payload: u16) -> Self {
        Edns { max_payload, version: 0, dnssec_ok: false, options: &[] }
    }

    /// Returns the same fields with these options in place of the former ones. Each is a code and its octets.
    ///
    /// ```
    /// use dns_names_wire::{Edns, Pairs};
    ///
    /// let octets = Pairs::to_wire([(3, "")])?;
    /// let edns = Edns::new(1232).with_options(Pairs::from_wire(&octets)?);
    /// assert_eq!(edns.options().next(), Some((3, &[][..])));
    /// # Ok::<(), dns_names_wire::Error>(())
    /// ```
    pub fn with_options(self, options: Pairs<'a>) -> Self {
        Edns { options: options.left(), ..self }
    }

    /// Returns the fields that a message has, if it has any.
    pub(crate) fn of(read: &ffi::Edns, options: &'a [u8]) -> Option<Self> {
        let ffi::Edns { max_payload, version, dnssec_ok, .. } = *read;
        Some(Edns { max_payload, version, dnssec_ok, options }).filter(|_| read.is_present)
    }

    /// Writes these fields, or in a reply those that its request has it say, with the high bits of a response code.
    pub(crate) fn write(
        &self,
        message: &mut [u8],
        asked: Option<&ffi::Edns>,
        code: u16,
        block: u16,
        state: &mut ffi::Writer,
    ) -> Result<(), Error> {
        let Edns { max_payload, version, dnssec_ok, options } = *self;
        match asked {
            Some(asked) => ffi::writer_reply_edns(message, asked, max_payload, options, block, state),
            None => {
                let high = (code >> 4) as u8;
                ffi::writer_edns(message, 0, max_payload, high, version, dnssec_ok, options, block, state)
            }
        }
    }

    /// Returns the options, each a code and its octets. [`EdnsOption`](crate::EdnsOption) prints one.
    ///
    /// ```
    /// let message = dns_names_wire::Message::read(b"\0\0\0\0\0\0\0\0\0\0\0\x01\0\0\x29\x02\0\0\0\0\0\0\0")?;
    /// assert_eq!(message.edns()?.unwrap().options().next(), None);
    /// # Ok::<(), dns_names_wire::Error>(())
    /// ```
    pub fn options(&self) -> Pairs<'a> {
        Pairs::checked(self.options)
    }
}

impl fmt::Debug for Edns<'_> {
    fn fmt(&self, f: &mut fmt::Formatter<'_>) -> fmt::Result {
        f.debug_struct("Edns")
            .field("max_payload", &self.max_payload)
            .field("version", &self.version)
            .field("dnssec_ok", &self.dnssec_ok)
            .field("options", &self.options())
            .finish()
    }
}
