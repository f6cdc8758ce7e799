//! The sums that DNSSEC makes: key tags, digests of keys and of zones, hashed names, and which names a record covers.
//!
//! No signature is checked here: see [`Record::signed_octets`].
//!
//! ```
//! use dns_names_wire::{dnssec, Name, RData, RecordBuf};
//!
//! // The NSEC record of a.example. says that there is no b.example.
//! let nsec: RecordBuf = "a.example. 60 IN NSEC ns1.example. A RRSIG NSEC".parse()?;
//! match nsec.data()? {
//!     RData::NSEC(data) => {
//!         let (owner, next) = (nsec.owner().to_name(), data.next.to_name());
//!         assert!(dnssec::nsec_covers(&owner, &next, &"b.example.".parse::<Name>()?));
//!     }
//!     other => panic!("{other:?}"),
//! }
//! # Ok::<(), dns_names_wire::Error>(())
//! ```
//!
//! [`Record::signed_octets`]: crate::Record::signed_octets
use crate::ffi;
use crate::{Error, Name, Record};
use alloc::string::String;
use alloc::vec::Vec;

/// Returns the key tag of a DNSKEY, by its data (RFC 4034, appendix B).
///
/// # Errors
///
/// `NotDnskey` if the data have fewer than 4 octets or more than 65535, or if the algorithm is 1 and they have fewer
/// than 7.
///
/// ```
/// use dns_names_wire::{dnssec, RecordBuf};
///
/// let key: RecordBuf = "example.net. 3600 IN DNSKEY 257 3 13 \
///     GojIhhXUN/u4v54ZQqGSnyhWJwaubCvTmeexv7bR6edbkrSqQpF64cYbcB7wNcP+e+MAnLr+Wi9xMWyQLc8NAA==".parse()?;
/// assert_eq!(dnssec::key_tag(key.as_record().raw_data())?, 55648);
/// # Ok::<(), dns_names_wire::Error>(())
/// ```
pub fn key_tag(dnskey: &[u8]) -> Result<u16, Error> {
    ffi::key_tag(dnskey)
}

/// Returns the digest of a DNSKEY that a DS record has, by its owner and its data (RFC 4034, section 5.1.4). Digest type
/// 1 is SHA-1, 2 is SHA-256 and 4 is SHA-384.
///
/// # Errors
///
/// `NotDnskey` if the data have fewer than 4 octets or more than 65535; `UnknownAlgorithm` for another digest type; or
/// `RelativeName` if the owner is not fully qualified.
///
/// ```
/// use dns_names_wire::{dnssec, Name};
///
/// let owner = "example.net.".parse::<Name>()?;
/// assert_eq!(dnssec::ds_digest(&owner, &[1, 1, 3, 13, 7, 7], 2)?.len(), 32);
/// # Ok::<(), dns_names_wire::Error>(())
/// ```
pub fn ds_digest(owner: &Name, dnskey: &[u8], digest_type: u8) -> Result<Vec<u8>, Error> {
    let owner = owner.whole_wire()?;
    ffi::octets(ffi::DIGEST_SIZE, |room| ffi::ds_digest(owner, dnskey, digest_type, room))
}

/// How NSEC3 hashes names: fields of an NSEC3 or NSEC3PARAM record, and how many iterations the caller allows.
///
/// ```
/// use dns_names_wire::dnssec::Nsec3Params;
/// use dns_names_wire::Name;
///
/// let params = Nsec3Params { algorithm: 1, iterations: 12, salt: b"\xaa\xbb\xcc\xdd", max_iterations: 100 };
/// let name = "example.".parse::<Name>()?;
/// assert_eq!(params.label(&name)?, "0p9mhaveqvm6t7vbl5lop2u3t2rp3tom");
/// # Ok::<(), dns_names_wire::Error>(())
/// ```
#[derive(Clone, Copy, Debug, PartialEq, Eq)]
pub struct Nsec3Params<'a> {
    /// The hash algorithm. 1 is SHA-1, and the only one.
    pub algorithm: u8,
    /// How often a name is hashed again.
    pub iterations: u16,
    /// The salt.
    pub salt: &'a [u8],
    /// How many iterations are allowed, since each takes time (RFC 9276, section 3.2).
    pub max_iterations: u16,
}

impl Nsec3Params<'_> {
    /// Returns the hash of a name (RFC 5155, section 5).
    ///
    /// # Errors
    ///
    /// `UnknownAlgorithm` if the algorithm is not 1; `TooManyIterations` if there are more than are allowed; or
    /// `RelativeName` if the name is not fully qualified.
    ///
    /// ```
    /// use dns_names_wire::{dnssec::Nsec3Params, ErrorKind, Name};
    ///
    /// let params = Nsec3Params { algorithm: 1, iterations: 12, salt: b"\xaa\xbb\xcc\xdd", max_iterations: 12 };
    /// assert_eq!(params.hash(&"example.".parse::<Name>()?)?[..4], [0x06, 0x53, 0x68, 0xAB]);
    /// let few = Nsec3Params { max_iterations: 11, ..params };
    /// assert_eq!(few.hash(&Name::root()).unwrap_err().kind(), ErrorKind::TooManyIterations);
    /// # Ok::<(), dns_names_wire::Error>(())
    /// ```
    pub fn hash(&self, name: &Name) -> Result<[u8; 20], Error> {
        let mut hash = [0; ffi::NSEC3_HASH_SIZE];
        let Nsec3Params { algorithm, iterations, salt, max_iterations } = *self;
        ffi::nsec3_hash(name.whole_wire()?, algorithm, iterations, salt, max_iterations, &mut hash)?;
        Ok(hash)
    }

    /// Returns the first label of the owner of the NSEC3 record that a name is hashed to: the hash in base 32 with the
    /// extended hex alphabet, in lower case and without padding (RFC 5155, section 3).
    ///
    /// # Errors
    ///
    /// The errors of [`hash`](Nsec3Params::hash).
    ///
    /// ```
    /// use dns_names_wire::{dnssec::Nsec3Params, Name};
    ///
    /// // RFC 5155, appendix A
    /// let params = Nsec3Params { algorithm: 1, iterations: 12, salt: b"\xaa\xbb\xcc\xdd", max_iterations: 12 };
    /// assert_eq!(params.label(&"a.example.".parse::<Name>()?)?, "35mthgpgcu1qg68fab165klnsnk3dpvl");
    /// # Ok::<(), dns_names_wire::Error>(())
    /// ```
    pub fn label(&self, name: &Name) -> Result<String, Error> {
        let (name, Nsec3Params { algorithm, iterations, salt, max_iterations }) = (name.whole_wire()?, *self);
        ffi::text(ffi::NSEC3_LABEL_SIZE, |room| {
            ffi::nsec3_label(name, algorithm, iterations, salt, max_iterations, room)
        })
    }
}

/// Returns `true` if the NSEC record of `owner` with the next name `next` covers a name: the name comes after the owner
/// and before the next name in canonical order, so the zone has no such name (RFC 4034, section 4.1.1).
///
/// The next name of the last record of a zone is the zone's apex; that record covers each name of the zone after its
/// owner. A name that is not in the zone is never covered. The caller has to check that the owner is not a delegation
/// above the name (RFC 6840, section 4.1).
///
/// ```
/// use dns_names_wire::{dnssec, Name};
///
/// let [owner, next, name] = ["b.example.", "ns1.example.", "ml.example."].map(|text| text.parse::<Name>().unwrap());
/// assert!(dnssec::nsec_covers(&owner, &next, &name));
/// assert!(!dnssec::nsec_covers(&owner, &next, &next));
/// ```
pub fn nsec_covers(owner: &Name, next: &Name, name: &Name) -> bool {
    // All three are wire forms, so the call does not fail.
    ffi::nsec_covers(owner.as_wire(), next.as_wire(), name.as_wire()).unwrap_or(false)
}

/// Returns `true` if the NSEC3 record with the hash `own` and the next hash `next` covers a hash: it comes between them,
/// or, for the last record of a zone, after its own or before the next one (RFC 5155, section 8.3).
///
/// ```
/// use dns_names_wire::dnssec::nsec3_covers;
///
/// assert!(nsec3_covers(&[2; 20], &[5; 20], &[3; 20]));
/// assert!(nsec3_covers(&[5; 20], &[2; 20], &[6; 20]));
/// ```
pub fn nsec3_covers(own: &[u8], next: &[u8], hash: &[u8]) -> bool {
    // Any octets are hashes, so the call does not fail.
    ffi::nsec3_covers(own, next, hash).unwrap_or(false)
}

/// Returns the digest of a zone that a ZONEMD record has, by the scheme SIMPLE (RFC 8976, section 3.3.1), from records of
/// one class in any order. Hash algorithm 1 is SHA-384, and 2 is SHA-512.
///
/// The records of the zone are digested, glue and what is below a delegation too. Those whose owner is neither the apex
/// nor below it are left out. Records that are the same but for the TTL count once, with the least TTL. The ZONEMD
/// records at the apex, and the RRSIG records there that cover ZONEMD, are left out, so they may be given.
///
/// # Errors
///
/// `UnknownAlgorithm` for another hash algorithm; `DataTooLong` if a record has more than 65535 octets of data once
/// names are uncompressed; `RelativeName` if the apex is not fully qualified; the errors of [`Record::data`] for data that
/// are not valid; or `NoMemory`.
///
/// ```
/// use dns_names_wire::{dnssec, Name, RecordBuf};
///
/// let apex = "example.".parse::<Name>()?;
/// let zone: [RecordBuf; 2] = ["example. 60 NS ns.example.".parse()?, "ns.example. 60 A 192.0.2.1".parse()?];
/// let digest = dnssec::zone_digest(&apex, &zone, 1)?;
/// assert_eq!(digest.len(), 48);
/// assert_eq!(dnssec::zone_digest(&apex, zone.iter().rev(), 1)?, digest);
/// # Ok::<(), dns_names_wire::Error>(())
/// ```
pub fn zone_digest<'r, I>(apex: &Name, records: I, algorithm: u8) -> Result<Vec<u8>, Error>
where
    I: IntoIterator,
    I::Item: Into<Record<'r>>,
{
    let mut list = Vec::new();
    for record in records {
        record.into().put(&mut list)?;
    }
    let apex = apex.whole_wire()?;
    ffi::octets(ffi::DIGEST_SIZE, |room| ffi::zone_digest(apex, &list, algorithm, room))
}
