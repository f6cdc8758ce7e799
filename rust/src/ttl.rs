//! Times to live, as texts.
use crate::ffi;
use crate::Error;

/// Parses a TTL, and returns its seconds: groups of digits, each with a unit of `s`, `m`, `h`, `d` or `w`. The last
/// group may have no unit.
///
/// # Errors
///
/// `BadTime`, also above 4294967295 seconds; or `NoMemory` in its place.
///
/// ```
/// use dns_names_wire::{parse_ttl, ErrorKind};
///
/// assert_eq!(parse_ttl("1h30m"), Ok(5400));
/// assert_eq!(parse_ttl("300"), Ok(300));
/// assert_eq!(parse_ttl("h").unwrap_err().kind(), ErrorKind::BadTime);
/// ```
pub fn parse_ttl(text: &str) -> Result<u32, Error> {
    ffi::ttl_parse(text.as_bytes())
}
