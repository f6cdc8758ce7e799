//! Why a call fails.
use crate::ffi;
use core::fmt;

/// Why a call fails, and where: [`kind`](Error::kind) and [`offset`](Error::offset). It is printed as a sentence.
///
/// ```
/// use dns_names_wire::{ErrorKind, Name};
///
/// let error = Name::read(b"\0\0\0\xC0\x05", 3).unwrap_err();
/// assert_eq!((error.kind(), error.offset()), (ErrorKind::PointerNotBack, Some(3)));
/// assert_eq!(error.to_string(), "at offset 3: a compression pointer does not point back");
/// assert_eq!(format!("{error:?}"), format!("Error(PointerNotBack: {error})"));
/// ```
#[derive(Clone, Copy, PartialEq, Eq, Hash)]
pub struct Error {
    kind: ErrorKind,
    place: Option<Place>,
}

/// Where a call fails.
#[derive(Clone, Copy, Debug, PartialEq, Eq, Hash)]
enum Place {
    Offset(usize),
    Text(TextFault),
    Master(ffi::TextFault),
    Item(Section, u16, usize),
}

impl Error {
    /// Returns the error with a number of `dns_names_wire.h` other than 0.
    pub(crate) fn from_number(number: u32) -> Self {
        ErrorKind::from_number(number).into()
    }

    /// Returns the same error at an offset of the message or the text.
    pub(crate) fn at_offset(self, offset: usize) -> Self {
        Error { place: Some(Place::Offset(offset)), ..self }
    }

    /// Returns the same error at the fault of the text.
    pub(crate) fn at_fault(self, fault: TextFault) -> Self {
        Error { place: Some(Place::Text(fault)), ..self }
    }

    /// Returns the same error at the fault of a text of a master file, if there is one.
    pub(crate) fn at_fault_of(self, fault: Result<ffi::TextFault, Error>) -> Self {
        match fault {
            Ok(fault) if fault.reason != 0 => Error { place: Some(Place::Master(fault)), ..self },
            _ => self,
        }
    }

    /// Returns the same error at an item of a message.
    pub(crate) fn at_item(self, section: Section, item: u16, offset: usize) -> Self {
        Error { place: Some(Place::Item(section, item, offset)), ..self }
    }

    /// Returns what is wrong.
    ///
    /// ```
    /// use dns_names_wire::{ErrorKind, Name};
    ///
    /// assert_eq!(Name::read(b"\x01a", 0).unwrap_err().kind(), ErrorKind::MessageCut);
    /// ```
    pub fn kind(self) -> ErrorKind {
        self.kind
    }

    /// Returns the offset in octets at which the input is wrong, if it is known:
    ///
    /// - in a message, the start of the name, question, record or field that cannot be read; or the end of a record
    ///   whose data have fewer octets than were to be skipped;
    /// - in a wire form, the end of its name, for `BytesLeft`;
    /// - in the text of a name, the first octet that is against the rule, or the end of the text;
    /// - in the text of a record or of data, the first word that is not as it should be, or the end if one lacks;
    /// - in a master file, the offset after which no valid token is next.
    ///
    /// ```
    /// use dns_names_wire::{Name, TextRule};
    ///
    /// let error = Name::from_text("www.exa\\256mple.", None).unwrap_err();
    /// assert_eq!((error.offset(), error.rule()), (Some(10), Some(TextRule::BadEscape)));
    /// assert_eq!(error.to_string(), "at offset 10: an escape of the text is not three digits up to 255");
    ///
    /// let error = "a. 300 IN MX 1 b".parse::<dns_names_wire::RecordBuf>().unwrap_err();
    /// assert_eq!(error.offset(), Some(15));
    /// assert_eq!(error.to_string(), "at offset 15: wanted a name (field 1)");
    /// ```
    pub fn offset(self) -> Option<usize> {
        match self.place? {
            Place::Offset(offset) => Some(offset),
            Place::Text(fault) => Some(fault.offset),
            Place::Master(fault) => Some(fault.offset),
            Place::Item(_, _, offset) => Some(offset),
        }
    }

    /// Returns the rule that the text of a name breaks, if such a text is wrong.
    ///
    /// ```
    /// let error = dns_names_wire::Name::from_text("a..bc", None).unwrap_err();
    /// assert_eq!(error.rule(), Some(dns_names_wire::TextRule::EmptyLabel));
    /// ```
    pub fn rule(self) -> Option<TextRule> {
        match self.place? {
            Place::Text(fault) => Some(fault.rule),
            _ => None,
        }
    }

    /// Returns the section of the first question or record that is wrong, if a whole message was read.
    ///
    /// ```
    /// use dns_names_wire::{Message, Section};
    ///
    /// // one answer, cut after its owner
    /// let error = Message::read(b"\0\0\x80\0\0\0\0\x01\0\0\0\0\0").unwrap_err();
    /// assert_eq!((error.section(), error.item(), error.offset()), (Some(Section::Answers), Some(0), Some(12)));
    /// assert_eq!(error.to_string(), "answer 0, at offset 12: the message ends within the name");
    /// ```
    pub fn section(self) -> Option<Section> {
        match self.place? {
            Place::Item(section, _, _) => Some(section),
            _ => None,
        }
    }

    /// Returns the index of that question or record in its section.
    ///
    /// ```
    /// assert_eq!(dns_names_wire::Message::read(b"").unwrap_err().item(), Some(0));
    /// ```
    pub fn item(self) -> Option<u16> {
        match self.place? {
            Place::Item(_, item, _) => Some(item),
            _ => None,
        }
    }

    /// Returns the number of the kind in `dns_names_wire.h`.
    ///
    /// ```
    /// assert_eq!(dns_names_wire::Name::read(b"", 0).unwrap_err().number(), 3);
    /// ```
    pub fn number(self) -> u32 {
        self.kind.number()
    }
}

/// Defines the kinds, each with its number in `dns_names_wire.h`.
macro_rules! kinds {
    ($($(#[$doc:meta])* $kind:ident = $number:literal,)*) => {
        /// What is wrong. It is printed as the C library's text for it.
        ///
        /// ```
        /// use dns_names_wire::ErrorKind;
        ///
        /// assert_eq!(ErrorKind::MessageCut.to_string(), "the message ends within the name");
        /// ```
        #[derive(Clone, Copy, Debug, PartialEq, Eq, Hash)]
        #[non_exhaustive]
        pub enum ErrorKind {
            $($(#[$doc])* $kind,)*
            /// A name that is not fully qualified, for a message, a record, a zone or an origin:
            /// [`Name::set_fqdn`](crate::Name::set_fqdn) makes it so, or an origin completes it. The C library takes none, so
            /// it has no number.
            RelativeName,
            /// Another error, by its number in `dns_names_wire.h`.
            Other(u32),
        }

        impl ErrorKind {
            /// Returns its number in `dns_names_wire.h`, or 0 if it has none.
            ///
            /// ```
            /// assert_eq!(dns_names_wire::ErrorKind::NameTooLong.number(), 7);
            /// ```
            pub fn number(self) -> u32 {
                match self {
                    $(ErrorKind::$kind => $number,)*
                    ErrorKind::RelativeName => 0,
                    ErrorKind::Other(number) => number,
                }
            }

            /// Returns the kind with a number of `dns_names_wire.h` other than 0.
            fn from_number(number: u32) -> Self {
                match number {
                    $($number => ErrorKind::$kind,)*
                    number => ErrorKind::Other(number),
                }
            }
        }
    };
}

kinds! {
    /// The C library is out of memory.
    NoMemory = 1,
    /// A buffer of the caller is too short.
    NoRoom = 2,
    /// The message ends within the name, or before it.
    MessageCut = 3,
    /// A compression pointer does not point backwards, to before the segment that it ends. A segment is a run of labels
    /// and the pointer or zero octet after it.
    PointerNotBack = 4,
    /// An octet from 64 to 191 at the start of a label or a pointer.
    ReservedOctet = 5,
    /// A segment of the name runs into the one that points to it.
    SegmentsOverlap = 6,
    /// A name takes more than 255 octets.
    NameTooLong = 7,
    /// A label takes more than 63 octets.
    LabelTooLong = 8,
    /// A label that is empty, or a line of a master file that does not begin with a name.
    BadText = 9,
    /// The text of an EDNS option is not UTF-8.
    NotUtf8 = 10,
    /// Bytes follow a name that should end the input.
    BytesLeft = 11,
    /// The message would be longer than its maximum.
    MessageTooLong = 12,
    /// A text that is not the name of a type or class.
    UnknownText = 14,
    /// A type bitmap that is not valid, or longer than 65535 octets.
    BadBitmap = 16,
    /// A text that is not a TTL, or a TTL above 4294967295 seconds.
    BadTime = 17,
    /// A text that ends within an escape, or after a carriage return.
    TextCut = 18,
    /// A label of a text is empty.
    EmptyLabel = 28,
    /// An escape of a text is not three decimal digits up to 255.
    BadEscape = 29,
    /// A character that is not allowed there.
    IllegalCharacter = 19,
    /// A control character that is not white space.
    ControlCharacter = 20,
    /// A text that ends within a list, before its `)`.
    UnclosedList = 21,
    /// A text that ends within a quoted text, before its closing quote.
    UnclosedQuote = 22,
    /// A `$` that is not the start of `$INCLUDE`, `$ORIGIN` or `$TTL`.
    UnknownEntry = 23,
    /// The fields of a record's data do not end where the data do.
    WrongDataLength = 24,
    /// A name that is not the reverse name of an address or a net.
    NotReverse = 26,
    /// An item that may not be there: in a message after one of a later section or after the last one, or in a set of
    /// records one with another owner, type or class.
    BadItem = 27,
    /// The names of a message follow more compression pointers than the caller allows.
    TooManyPointers = 30,
    /// A message with more than one OPT record.
    DuplicateEdns = 31,
    /// An OPT record whose owner is not the root.
    OwnerNotRoot = 32,
    /// An option of an OPT record that is cut.
    CutOption = 33,
    /// Service parameters that are not in ascending order.
    BadParams = 34,
    /// A text or octets that are not data of the record type or of an option, or more than 65535 octets of data.
    BadData = 35,
    /// A record that should be an RRSIG and is of another type.
    NotRrsig = 36,
    /// An RRSIG that covers none of the records.
    NotCovered = 37,
    /// An RRSIG whose owner has fewer labels than it counts.
    TooFewLabels = 38,
    /// Data of more than 65535 octets, or a character string of more than 255, that should be written.
    DataTooLong = 39,
    /// An OPT record in the Answer or Authority section of a message.
    OutsideAdditionals = 40,
    /// Octets that are not the data of a DNSKEY.
    NotDnskey = 41,
    /// An unknown digest type or hash algorithm.
    UnknownAlgorithm = 42,
    /// More iterations of a hash than the caller allows.
    TooManyIterations = 43,
    /// An address, a prefix or a gateway that its family or type does not allow.
    BadFamily = 44,
}

/// An error without a place.
impl From<ErrorKind> for Error {
    fn from(kind: ErrorKind) -> Self {
        Error { kind, place: None }
    }
}

/// Where a text is not that of a name, and the rule that it breaks there. See [`Name::text_fault`].
///
/// [`Name::text_fault`]: crate::Name::text_fault
///
/// ```
/// let fault = dns_names_wire::Name::text_fault("a..bc").unwrap();
/// assert_eq!((fault.offset, fault.to_string()), (2, "at offset 2: a label of the text is empty".into()));
/// ```
#[derive(Clone, Copy, Debug, PartialEq, Eq, Hash)]
pub struct TextFault {
    /// The offset of the first octet that is against the rule, or the length of the text if it ends too early.
    pub offset: usize,
    /// The rule that is broken there.
    pub rule: TextRule,
}

/// A rule for the text of a name. It is printed as the C library's text for it.
///
/// ```
/// assert_eq!(dns_names_wire::TextRule::EmptyLabel.to_string(), "a label of the text is empty");
/// ```
#[derive(Clone, Copy, Debug, PartialEq, Eq, Hash)]
#[non_exhaustive]
pub enum TextRule {
    /// A label has at least one octet.
    EmptyLabel = 28,
    /// A label has at most 63 octets.
    LabelTooLong = 8,
    /// A name has at most 255 octets.
    NameTooLong = 7,
    /// An escape that begins with a digit has three, and its number is at most 255.
    BadEscape = 29,
    /// The text does not end within an escape.
    UnfinishedEscape = 18,
}

impl TextRule {
    /// Returns the rule with a number of `dns_names_wire.h`, if there is one.
    pub(crate) fn from_number(number: u32) -> Option<Self> {
        use TextRule::*;
        [EmptyLabel, LabelTooLong, NameTooLong, BadEscape, UnfinishedEscape].into_iter().find(|it| *it as u32 == number)
    }
}

/// A section of a message (RFC 1035, section 4.1). It is printed as the word for one of its items.
///
/// ```
/// assert_eq!(dns_names_wire::Section::Authorities.to_string(), "authority");
/// ```
#[derive(Clone, Copy, Debug, PartialEq, Eq, Hash)]
pub enum Section {
    /// The header.
    Header,
    /// The Question section.
    Questions,
    /// The Answer section.
    Answers,
    /// The Authority section.
    Authorities,
    /// The Additional section.
    Additionals,
}

impl Section {
    /// Returns the section with a number of `dns_names_wire.h`.
    pub(crate) fn from_number(number: u32) -> Self {
        let named = Section::WORDS.into_iter().find(|(section, _)| *section as u32 == number);
        named.map_or(Section::Header, |(section, _)| section)
    }

    const WORDS: [(Section, &'static str); 5] = [
        (Section::Header, "header"),
        (Section::Questions, "question"),
        (Section::Answers, "answer"),
        (Section::Authorities, "authority"),
        (Section::Additionals, "additional"),
    ];
}

impl fmt::Display for Section {
    fn fmt(&self, f: &mut fmt::Formatter<'_>) -> fmt::Result {
        f.pad(Section::WORDS[*self as usize].1)
    }
}

/// The bytes of the longest text of an error.
const ERROR_TEXT_SIZE: usize = 64;

/// Prints the C library's text for a number.
fn show(number: u32, f: &mut fmt::Formatter<'_>) -> fmt::Result {
    let mut room = [0; ERROR_TEXT_SIZE];
    let len = ffi::error_text(number, &mut room);
    match ffi::str_of(&room[..len]) {
        "" => write!(f, "failure {number}"),
        text => f.pad(text),
    }
}

impl fmt::Display for Error {
    fn fmt(&self, f: &mut fmt::Formatter<'_>) -> fmt::Result {
        match self.place {
            Some(Place::Offset(offset)) => write!(f, "at offset {offset}: {}", self.kind),
            Some(Place::Text(fault)) => fmt::Display::fmt(&fault, f),
            Some(Place::Master(fault)) => match ffi::sentence(&fault).as_str() {
                "" => write!(f, "at offset {}: {}", fault.offset, self.kind),
                sentence => f.pad(sentence),
            },
            Some(Place::Item(section, item, offset)) => {
                write!(f, "{section} {item}, at offset {offset}: {}", self.kind)
            }
            None => fmt::Display::fmt(&self.kind, f),
        }
    }
}

/// Prints the kind and the sentence, since a `main` that fails prints its error so.
impl fmt::Debug for Error {
    fn fmt(&self, f: &mut fmt::Formatter<'_>) -> fmt::Result {
        write!(f, "Error({:?}: {self})", self.kind)
    }
}

impl fmt::Display for ErrorKind {
    fn fmt(&self, f: &mut fmt::Formatter<'_>) -> fmt::Result {
        match self {
            ErrorKind::RelativeName => {
                f.pad("a name is not fully qualified: `Name::set_fqdn` or an origin makes it so")
            }
            kind => show(kind.number(), f),
        }
    }
}

impl fmt::Display for TextFault {
    fn fmt(&self, f: &mut fmt::Formatter<'_>) -> fmt::Result {
        write!(f, "at offset {}: {}", self.offset, self.rule)
    }
}

impl fmt::Display for TextRule {
    fn fmt(&self, f: &mut fmt::Formatter<'_>) -> fmt::Result {
        show(*self as u32, f)
    }
}

/// It has no source: [`kind`](Error::kind) and [`offset`](Error::offset) are all that is known.
impl crate::StdError for Error {}

/// Returns an error of kind `InvalidData`, or `OutOfMemory` for `NoMemory`, with this error inside.
///
/// ```
/// let error: std::io::Error = dns_names_wire::Name::read(b"", 0).unwrap_err().into();
/// assert_eq!(error.kind(), std::io::ErrorKind::InvalidData);
/// assert_eq!(error.to_string(), "at offset 0: the message ends within the name");
/// ```
#[cfg(feature = "std")]
impl From<Error> for std::io::Error {
    fn from(error: Error) -> Self {
        let kind = match error.kind {
            ErrorKind::NoMemory => std::io::ErrorKind::OutOfMemory,
            _ => std::io::ErrorKind::InvalidData,
        };
        std::io::Error::new(kind, error)
    }
}
