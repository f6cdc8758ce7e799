//! Why an entry of a zone file is not valid, and where.
#[cfg(feature = "std")]
use crate::Error;
use crate::StdError;
use alloc::boxed::Box;
use alloc::format;
use alloc::string::String;
use core::fmt;
#[cfg(feature = "std")]
use std::io;
#[cfg(feature = "std")]
use std::path::{Path, PathBuf};

/// How many octets of a line are shown before and after what is wrong.
const SHOWN: usize = 500;

/// Why an entry of a zone file is not valid or cannot be read, and where. It is printed as compilers do, as
/// `FILE:LINE:COLUMN: SENTENCE`, without `FILE:` if the file has no path. Octets of a path that are not printable ASCII are printed
/// as `\DDD`.
///
/// ```
/// use dns_names_wire::ZoneReader;
///
/// let mut zone = ZoneReader::new(b"; a comment\n\twww A 192.0.2.1 ; another\n", &"example.".parse()?);
/// let error = zone.next().unwrap().unwrap_err();
/// assert_eq!((error.line(), error.column(), error.offset()), (2, 2, 13));
/// assert_eq!(error.text(), "\twww A 192.0.2.1 ; another");
/// assert_eq!(error.to_string(), format!("2:2: {}", error.sentence()));
/// # Ok::<(), dns_names_wire::Error>(())
/// ```
pub struct ZoneError(Box<Fault>);

#[derive(Default)]
struct Fault {
    #[cfg(feature = "std")]
    path: Option<PathBuf>,
    offset: usize,
    line: usize,
    column: usize,
    sentence: String,
    text: String,
    /// what it comes from, if it is not the text
    cause: Option<Box<dyn StdError + Send + Sync>>,
}

impl ZoneError {
    /// Returns the error at an offset of a text, which has this offset, line and column in the file.
    pub(super) fn new(place: (usize, usize, usize), text: &[u8], offset: usize, sentence: String) -> Self {
        let ((offset, line, column), text) = (place, line_at(text, offset));
        ZoneError(Box::new(Fault { offset, line, column, sentence, text, ..Fault::default() }))
    }

    /// Returns the same error with what it comes from.
    pub(super) fn caused_by(mut self, cause: impl StdError + Send + Sync + 'static) -> Self {
        self.0.cause = Some(Box::new(cause));
        self
    }

    /// Returns the same error in a file, without its line if that may not be shown.
    #[cfg(feature = "std")]
    pub(super) fn in_file(mut self, path: &Path, shows_line: bool) -> Self {
        self.0.path = Some(path.into());
        if !shows_line {
            self.0.text.clear();
        }
        self
    }

    /// Returns the path of the file, if it was opened by its path.
    #[cfg(feature = "std")]
    pub fn path(&self) -> Option<&Path> {
        self.0.path.as_deref()
    }

    /// Returns the offset in the file, in octets.
    pub fn offset(&self) -> usize {
        self.0.offset
    }

    /// Returns the line, from 1.
    pub fn line(&self) -> usize {
        self.0.line
    }

    /// Returns the column, in octets from 1.
    pub fn column(&self) -> usize {
        self.0.column
    }

    /// Returns what is wrong: what was wanted, or what is there and may not be.
    pub fn sentence(&self) -> &str {
        &self.0.sentence
    }

    /// Returns the line that is wrong. Octets that are not printable ASCII are shown as `\DDD`, and a long line is cut. Of a file
    /// that a `ZoneFile` includes it is empty before the first record of that file.
    pub fn text(&self) -> &str {
        &self.0.text
    }
}

impl fmt::Display for ZoneError {
    fn fmt(&self, f: &mut fmt::Formatter<'_>) -> fmt::Result {
        #[cfg(feature = "std")]
        if let Some(path) = &self.0.path {
            write!(f, "{}:", shown_path(path))?;
        }
        write!(f, "{}:{}: {}", self.0.line, self.0.column, self.0.sentence)
    }
}

/// Prints the sentence with its place, since a `main` that fails prints its error so.
impl fmt::Debug for ZoneError {
    fn fmt(&self, f: &mut fmt::Formatter<'_>) -> fmt::Result {
        write!(f, "ZoneError({self})")
    }
}

/// Its source is the `std::io::Error` of a file that cannot be read, or the [`Error`] if memory runs out. An entry that is not
/// valid has no source.
impl StdError for ZoneError {
    fn source(&self) -> Option<&(dyn StdError + 'static)> {
        self.0.cause.as_deref().map(|cause| cause as &(dyn StdError + 'static))
    }
}

/// Returns an error with this error inside. Its kind is that of the `std::io::Error` that this one comes from, `OutOfMemory` if
/// memory ran out, or else `InvalidData`.
///
/// ```
/// use dns_names_wire::ZoneReader;
///
/// let error = ZoneReader::new(b"$FOO\n", &".".parse()?).next().unwrap().unwrap_err();
/// assert_eq!(std::io::Error::from(error).kind(), std::io::ErrorKind::InvalidData);
/// # Ok::<(), dns_names_wire::Error>(())
/// ```
#[cfg(feature = "std")]
impl From<ZoneError> for io::Error {
    fn from(error: ZoneError) -> Self {
        let cause = error.source();
        let of_file = cause.and_then(|cause| cause.downcast_ref::<io::Error>()).map(io::Error::kind);
        let of_library =
            cause.and_then(|cause| cause.downcast_ref::<Error>()).map(|error| io::Error::from(*error).kind());
        io::Error::new(of_file.or(of_library).unwrap_or(io::ErrorKind::InvalidData), error)
    }
}

/// Returns the line of a text that an offset is in.
fn line_at(text: &[u8], offset: usize) -> String {
    let (before, after) = text.split_at(offset.min(text.len()));
    let before = &before[before.len().saturating_sub(SHOWN)..];
    let start = before.iter().rposition(|octet| *octet == b'\n').map_or(0, |feed| feed + 1);
    let after = &after[..after.len().min(SHOWN)];
    let rest = &after[..after.iter().position(|octet| *octet == b'\n').unwrap_or(after.len())];
    let mut line = shown(&before[start..]);
    line += &shown(rest.strip_suffix(b"\r").unwrap_or(rest));
    line
}

/// Returns octets as text, in which those that are not printable ASCII are escaped.
pub(super) fn shown(octets: &[u8]) -> String {
    octets.iter().fold(String::with_capacity(octets.len()), |mut text, octet| {
        match octet {
            b'\t' | b' '..=b'~' => text.push(char::from(*octet)),
            _ => text += &format!("\\{octet:03}"),
        }
        text
    })
}

/// Returns a path as text, in which octets that are not printable ASCII are escaped.
#[cfg(feature = "std")]
pub(super) fn shown_path(path: &Path) -> String {
    shown(std::os::unix::ffi::OsStrExt::as_bytes(path.as_os_str())).replace('\t', "\\009")
}
