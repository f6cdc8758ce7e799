//! Bindings to a proved library that reads and writes DNS names, records and messages, and reads master files.
//!
//! The library is the static archive of the C library of `dns-names-wire`, whose every function is proved. Its reader
//! accepts exactly the names of RFC 1035, section 4.1.4, and no input makes it read outside the message, loop or panic.
//! This crate itself is not proved: it is small, has no dependency, and its only `unsafe` is in the module of the C
//! functions, which is made of their header.
//!
//! ```
//! use dns_names_wire::{Error, Name};
//!
//! // The question of a message: a name at offset 12, a type and a class.
//! let message = b"\x12\x34\x01\0\0\x01\0\0\0\0\0\0\x03www\x07example\x03com\0\0\x01\0\x01";
//! let (name, end) = Name::read(message, 12)?;
//! assert_eq!(name.to_string(), "www.example.com.");
//! assert_eq!(message[end..], [0, 1, 0, 1]);
//! # Ok::<(), Error>(())
//! ```
//!
//! | to | use |
//! |---|---|
//! | read a name from a message, a text or a wire form | [`Name::read`], [`Name::from_text`] or `str::parse`, [`Name::from_wire`] |
//! | skip names, or iterate over their labels, without a copy | [`NameRef`], [`names()`] |
//! | make names from names and labels | [`Name::from_labels`], [`Name::append`], [`Name::prepend_label`], [`Name::base_name`], [`Name::trim_to`], [`Name::to_wildcard`] |
//! | print, compare, sort, hash | `Display`, `Ord`, `Hash`, [`sort_names`], [`Name::sort_key`], [`Name::zone_of`], [`Name::to_lowercase`] |
//! | check a whole message, and read its header, its sections and its EDNS | [`Message`] |
//! | read what EDNS options say, and make options that say it | [`EdnsOption`], [`EdnsOptionData`] |
//! | read the records of a message, and their data by type or field by field | [`Record`], [`records()`], [`Record::data`] and [`RData`], [`Record::fields`] |
//! | print records as lines of master files, and messages as `dig` does | `Display` of [`Record`] and [`Message`] |
//! | build queries and replies, section by section, and write them within a size | [`MessageBuilder`] |
//! | write messages item by item into a buffer, without an allocation | [`MessageWriter`] |
//! | make records from data by type, or parse them from lines of master files | [`RecordBuf`] |
//! | read zone files, with the place of each error | [`ZoneReader`]; with `std`, `ZoneFile`, which follows `$INCLUDE`, and `ZoneStream` |
//! | write zone files | [`ZoneWriter`] |
//! | check zones | [`check_zone`] |
//! | keep data by type, and sets of records | [`owned`], [`RecordSet`] |
//! | verify signatures, or make them | [`Record::signed_octets`] |
//! | make key tags and digests of keys and zones, hash names, and check denials | [`dnssec`] |
//! | convert addresses to reverse names, and back | [`Name::from_ip`], [`Name::parse_arpa_name`] |
//! | name types and classes, read and write type bitmaps, compare serial numbers | [`RecordType`], [`Class`], [`TypeSet`], [`SerialNumber`] |
//! | parse times to live | [`parse_ttl`] |
//!
//! All types are `Send` and `Sync`. A call that fails returns an [`Error`], which has what is wrong and where. No input
//! makes a call panic.
//!
//! The feature `std` is on by default. Without it, the crate does not make a `std::io::Error`, has no `ZoneFile` and no
//! `ZoneStream`, and needs `core`, `alloc` and the system's C library alone. Before Rust 1.81, whose `core` has addresses
//! and `Error`, it takes these from `std`.
//!
//! `build.rs` takes the archive from the folder that the environment variable `DNW_LIB_DIR` names, or from `lib` in
//! this crate. In a checkout of the repository it builds the archive, if the Rattle toolchain is there.
#![cfg_attr(core_alone, no_std)]
#![deny(unsafe_code, missing_docs)]
#![warn(clippy::undocumented_unsafe_blocks)]

extern crate alloc;

#[allow(unsafe_code)]
mod ffi;

#[cfg(core_alone)]
use core as base;
#[cfg(not(core_alone))]
use std as base;

use base::error::Error as StdError;
use base::net::{IpAddr, Ipv4Addr, Ipv6Addr};

mod builder;
mod codes;
pub mod dnssec;
mod edns_option;
mod error;
mod field;
mod form;
mod header;
mod items;
mod labels;
mod message;
mod name;
mod name_ref;
mod octets;
pub mod owned;
pub mod rdata;
mod record;
mod record_buf;
mod record_set;
mod transfer;
mod ttl;
mod type_set;
mod value;
mod writer;
mod zone;

pub use builder::MessageBuilder;
pub use codes::{Class, RecordType, SerialNumber};
pub use edns_option::{EdnsOption, EdnsOptionData, ZoneVersion};
pub use error::{Error, ErrorKind, Section, TextFault, TextRule};
pub use field::{Field, Fields, Pairs, Prefix, Prefixes, Texts, WholeNames};
pub use header::{Header, OpCode, ResponseCode};
pub use labels::Labels;
pub use message::{Edns, Message, Question, Questions, SectionRecords};
pub use name::{sort_names, Name};
pub use name_ref::{names, NameRef, Names};
pub use rdata::RData;
pub use record::{records, Record, Records};
pub use record_buf::RecordBuf;
pub use record_set::RecordSet;
pub use transfer::Transfer;
pub use ttl::parse_ttl;
pub use type_set::TypeSet;
pub use writer::{MessageWriter, Need};
pub use zone::{check_zone, ZoneError, ZoneFinding, ZoneInclude, ZoneItem, ZoneReader, ZoneWriter};
#[cfg(feature = "std")]
pub use zone::{ZoneFile, ZoneStream};

/// Makes the program in the README a test.
#[cfg(doctest)]
#[doc = include_str!("../README.md")]
struct Page;
