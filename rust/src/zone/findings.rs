//! What zones are found to have that the standards forbid or advise against.
use crate::ffi;
use crate::{Error, Name, Record};
use alloc::vec;
use alloc::vec::Vec;
use core::fmt;

/// What a zone is found to have. It is printed as a kind and a sentence.
///
/// ```
/// use dns_names_wire::{check_zone, RecordBuf};
///
/// let zone = ["a. 60 SOA ns.b. h.b. 1 2 3 4 5".parse::<RecordBuf>()?];
/// let found = check_zone(&"a.".parse()?, &zone)?;
/// assert!(found[0].is_error() && found[0].record().is_none() && found[0].other().is_none());
/// assert_eq!((found[0].check(), found[0].sentence()), (2, "no NS record is at the apex"));
/// # Ok::<(), dns_names_wire::Error>(())
/// ```
#[derive(Clone, Copy, Debug, PartialEq, Eq, Hash)]
pub struct ZoneFinding {
    check: u32,
    is_error: bool,
    record: Option<usize>,
    other: Option<usize>,
}

impl ZoneFinding {
    /// Returns the number of the check, which `dns_names_wire.h` names.
    pub fn check(&self) -> u32 {
        self.check
    }

    /// Returns `true` if servers refuse such a zone, or serve it wrong, and `false` if it is a warning.
    pub fn is_error(&self) -> bool {
        self.is_error
    }

    /// Returns the number of the record that it is about, from 0, as it was passed, if it is about one.
    pub fn record(&self) -> Option<usize> {
        self.record
    }

    /// Returns the number of another record that this one is not right beside, if there is one.
    pub fn other(&self) -> Option<usize> {
        self.other
    }

    /// Returns what is found, as a sentence.
    pub fn sentence(&self) -> &'static str {
        match self.check {
            1 => "no SOA record is at the apex",
            2 => "no NS record is at the apex",
            3 => "the owner is not in the zone",
            4 => "the class is not that of the first record",
            5 => "a SOA record is not at the apex",
            6 => "the owner has two records of a type of which there is one",
            7 => "the time to live is not that of the set's first record",
            8 => "the owner of a CNAME record has other data",
            9 => "a DS record is not at a delegation",
            10 => "the owner is below that of a DNAME record",
            11 => "the owner is below a delegation, and the record is no address",
            12 => "the owner is no name that hosts have",
            13 => "the name of a server is an alias",
            14 => "the name of a server has no address in the zone",
            15 => "a DNAME record is beside NS records",
            16 => "the owner of an NS record is a wildcard",
            17 => "the digest does not have the length of its type",
            18 => "the tag has other octets than letters and digits, or none",
            19 => "the name of a server is the text of an address",
            20 => "the name of a server, of another delegation, has no address in the zone",
            21 => "the name of a host has no address in the zone",
            _ => "the zone is not right",
        }
    }
}

impl fmt::Display for ZoneFinding {
    fn fmt(&self, f: &mut fmt::Formatter) -> fmt::Result {
        let kind = if self.is_error { "error" } else { "warning" };
        write!(f, "{kind}: {}", self.sentence())
    }
}

/// Returns what a zone has that the standards forbid or advise against, by its records, in any order: first what its apex lacks,
/// and then what is found of each record, in canonical order of the owners (RFC 4034, section 6.1).
///
/// Errors are what servers refuse, such as a CNAME record beside other data (RFC 2181, section 10.1), a name server of the zone
/// without an address, or an owner that is not in the zone; warnings are, for one, different TTLs in a set (RFC 2181, section
/// 5.2). What DNSSEC asks of a zone is not checked.
///
/// # Errors
///
/// `RelativeName` if the name of the zone is not fully qualified; `NoMemory`; and `TooManyPointers` if the owners of all
/// records follow more than 65536 compression pointers.
///
/// ```
/// use dns_names_wire::{check_zone, RecordBuf};
///
/// let lines = ["a. 60 SOA ns.a. h.a. 1 2 3 4 5", "a. 60 NS ns.a.", "b.a. 60 TXT x", "b.a. 60 CNAME a."];
/// let zone = lines.iter().map(|line| line.parse()).collect::<Result<Vec<RecordBuf>, _>>()?;
/// let found = check_zone(&"a.".parse()?, &zone)?;
/// assert_eq!(found[0].to_string(), "error: the name of a server has no address in the zone");
/// assert_eq!(found[0].record(), Some(1));
/// assert_eq!(found[1].to_string(), "error: the owner of a CNAME record has other data");
/// assert_eq!((found[1].record(), found[1].other()), (Some(3), Some(2)));
/// assert_eq!(found.len(), 2);
/// # Ok::<(), dns_names_wire::Error>(())
/// ```
pub fn check_zone<'r, I>(zone: &Name, records: I) -> Result<Vec<ZoneFinding>, Error>
where
    I: IntoIterator,
    I::Item: Into<Record<'r>>,
{
    let mut order: Vec<(usize, Record)> = records.into_iter().map(Into::into).enumerate().collect();
    order.sort_by(|(_, record), (_, other)| record.owner().cmp(&other.owner()));
    let mut list = Vec::new();
    for (_, record) in &order {
        record.put(&mut list)?;
    }
    let given = |number: usize| order.get(number).map(|(given, _)| *given);
    // No record has more than ten findings, and the zone two.
    let mut found = vec![ffi::ZoneFinding::ZERO; order.len().saturating_mul(10).saturating_add(2)];
    let count = ffi::zone_check(zone.whole_wire()?, &list, &mut found)?;
    Ok(found[..count]
        .iter()
        .map(|it| ZoneFinding {
            check: it.check,
            is_error: it.is_error,
            record: given(it.number),
            other: given(it.other),
        })
        .collect())
}
