//! The headers of messages, and the codes in them.
use crate::ffi;
use core::fmt;

/// Defines an enum for a code of a header, with a variant for codes without a name.
macro_rules! codes {
    ($(#[$doc:meta])* $code:ident($number:ty) { $($(#[$variant_doc:meta])* $name:ident = $value:literal $text:literal,)* }) => {
        $(#[$doc])*
        #[derive(Clone, Copy, Debug, PartialEq, Eq, Hash)]
        #[non_exhaustive]
        pub enum $code {
            $($(#[$variant_doc])* $name,)*
            /// A code without a name.
            Unknown($number),
        }

        impl From<$number> for $code {
            fn from(code: $number) -> Self {
                match code {
                    $($value => $code::$name,)*
                    code => $code::Unknown(code),
                }
            }
        }

        /// The code 0.
        impl Default for $code {
            fn default() -> Self {
                $code::from(0)
            }
        }

        impl From<$code> for $number {
            fn from(code: $code) -> $number {
                match code {
                    $($code::$name => $value,)*
                    $code::Unknown(code) => code,
                }
            }
        }

        /// Prints the code as `dig` does. A code without a name is `RESERVED` and its number.
        impl fmt::Display for $code {
            fn fmt(&self, f: &mut fmt::Formatter<'_>) -> fmt::Result {
                match self {
                    $($code::$name => f.pad($text),)*
                    $code::Unknown(code) => write!(f, "RESERVED{code}"),
                }
            }
        }
    };
}

codes! {
    /// The operation code of a message, four bits (RFC 1035, section 4.1.1).
    ///
    /// ```
    /// use dns_names_wire::OpCode;
    ///
    /// assert_eq!((OpCode::from(4), u8::from(OpCode::Update)), (OpCode::Notify, 5));
    /// assert_eq!((OpCode::Query.to_string(), OpCode::from(7).to_string()), ("QUERY".into(), "RESERVED7".into()));
    /// ```
    OpCode(u8) {
        // made by tools/types from tools/codes.txt
        /// A standard query (RFC 1035, section 4.1.1).
        Query = 0 "QUERY",
        /// An inverse query, which is obsolete (RFC 3425).
        IQuery = 1 "IQUERY",
        /// A request for the status of a server (RFC 1035, section 4.1.1).
        Status = 2 "STATUS",
        /// A zone has changed (RFC 1996).
        Notify = 4 "NOTIFY",
        /// A request to change a zone (RFC 2136).
        Update = 5 "UPDATE",
        // made until here
    }
}

codes! {
    /// The response code of a message, four bits, or twelve with EDNS (RFC 1035, section 4.1.1; RFC 6891, section
    /// 6.1.3).
    ///
    /// ```
    /// use dns_names_wire::ResponseCode;
    ///
    /// assert_eq!((ResponseCode::from(3), u16::from(ResponseCode::Refused)), (ResponseCode::NXDomain, 5));
    /// assert_eq!(ResponseCode::NXDomain.to_string(), "NXDOMAIN");
    /// ```
    ResponseCode(u16) {
        // made by tools/types from tools/codes.txt
        /// No error (RFC 1035, section 4.1.1).
        NoError = 0 "NOERROR",
        /// The server could not interpret the request (RFC 1035, section 4.1.1).
        FormErr = 1 "FORMERR",
        /// The server failed (RFC 1035, section 4.1.1).
        ServFail = 2 "SERVFAIL",
        /// The name does not exist (RFC 1035, section 4.1.1).
        NXDomain = 3 "NXDOMAIN",
        /// The server does not support this kind of request (RFC 1035, section 4.1.1).
        NotImp = 4 "NOTIMP",
        /// The server refuses the request (RFC 1035, section 4.1.1).
        Refused = 5 "REFUSED",
        /// A name exists that should not (RFC 2136, section 2.2).
        YXDomain = 6 "YXDOMAIN",
        /// Records exist that should not (RFC 2136, section 2.2).
        YXRRSet = 7 "YXRRSET",
        /// Records do not exist that should (RFC 2136, section 2.2).
        NXRRSet = 8 "NXRRSET",
        /// The server is not authoritative, or the request is not authorized (RFC 2136, section 2.2; RFC 8945, section
        /// 5.2).
        NotAuth = 9 "NOTAUTH",
        /// A name is not in the zone (RFC 2136, section 2.2).
        NotZone = 10 "NOTZONE",
        /// The server does not support the DSO type (RFC 8490, section 10.2).
        DsoTypeNI = 11 "DSOTYPENI",
        /// The server does not support the EDNS version (RFC 6891, section 9).
        BADVERS = 16 "BADVERS",
        /// The key is not known (RFC 8945, section 3).
        BADKEY = 17 "BADKEY",
        /// The time of the signature is out of range (RFC 8945, section 3).
        BADTIME = 18 "BADTIME",
        /// The mode of TKEY is not known (RFC 2930, section 2.6).
        BADMODE = 19 "BADMODE",
        /// The name of the key is taken (RFC 2930, section 2.6).
        BADNAME = 20 "BADNAME",
        /// The algorithm is not known (RFC 2930, section 2.6).
        BADALG = 21 "BADALG",
        /// The signature was truncated too much (RFC 8945, section 3).
        BADTRUNC = 22 "BADTRUNC",
        /// The server cookie is bad or missing (RFC 7873, section 8).
        BADCOOKIE = 23 "BADCOOKIE",
        // made until here
    }
}

/// The fields of a header (RFC 1035, section 4.1.1; RFC 4035, section 3.2). See [`Message::header`].
///
/// [`Message::header`]: crate::Message::header
///
/// ```
/// use dns_names_wire::{Header, OpCode, ResponseCode};
///
/// let header = Header::default();
/// assert_eq!((header.id, header.op_code, header.response_code), (0, OpCode::Query, ResponseCode::NoError));
/// ```
#[derive(Clone, Copy, Debug, Default, PartialEq, Eq, Hash)]
#[non_exhaustive]
pub struct Header {
    /// The id of a request, which its response repeats.
    pub id: u16,
    /// QR: whether the message is a response.
    pub is_response: bool,
    /// The operation code.
    pub op_code: OpCode,
    /// AA: the server is an authority for the name of the question.
    pub authoritative: bool,
    /// TC: the message was truncated to fit the maximum size.
    pub truncation: bool,
    /// RD: the requester asks for recursion.
    pub recursion_desired: bool,
    /// RA: the server supports recursion.
    pub recursion_available: bool,
    /// AD: the server considers the data authentic.
    pub authentic_data: bool,
    /// CD: the requester verifies the data itself.
    pub checking_disabled: bool,
    /// The low four bits of the response code. [`Message::response_code`](crate::Message::response_code) has all bits.
    pub response_code: ResponseCode,
    /// The number of questions.
    pub question_count: u16,
    /// The number of records in the Answer section.
    pub answer_count: u16,
    /// The number of records in the Authority section.
    pub authority_count: u16,
    /// The number of records in the Additional section, including an OPT record.
    pub additional_count: u16,
}

impl Header {
    /// Returns the 16 bits after the id.
    pub(crate) fn flag_bits(&self) -> u16 {
        let codes = u16::from(u8::from(self.op_code) & 15) << 11 | u16::from(self.response_code) & 15;
        let flag = |is_set: bool, flag: u16| if is_set { flag } else { 0 };
        codes
            | flag(self.is_response, ffi::FLAG_RESPONSE)
            | flag(self.authoritative, ffi::FLAG_AUTHORITATIVE)
            | flag(self.truncation, ffi::FLAG_TRUNCATION)
            | flag(self.recursion_desired, ffi::FLAG_RECURSION_DESIRED)
            | flag(self.recursion_available, ffi::FLAG_RECURSION_AVAILABLE)
            | flag(self.authentic_data, ffi::FLAG_AUTHENTIC_DATA)
            | flag(self.checking_disabled, ffi::FLAG_CHECKING_DISABLED)
    }
}
