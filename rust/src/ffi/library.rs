// made by tools/types from include/dns_names_wire.h; change it there
//! The C library: its structs and functions, and a safe function over each. See the module `ffi`.
use super::{outcome, Buffer};
use crate::codes::{Class, RecordType};
use crate::error::Error;

pub(crate) const FORM_SIZE: usize = 255;
pub(crate) const SORT_KEY_SIZE: usize = 504;
pub(crate) const TEXT_SIZE: usize = 1004;
pub(crate) const CODE_SIZE: usize = 10;
pub(crate) const SENTENCE_SIZE: usize = 160;
pub(crate) const NSEC3_HASH_SIZE: usize = 20;
pub(crate) const NSEC3_LABEL_SIZE: usize = 32;
pub(crate) const DIGEST_SIZE: usize = 64;
pub(crate) const HEADER_SIZE: usize = 12;
pub(crate) const MAX_POINTERS: usize = 65536;
pub(crate) const ZONE_OCTETS_SIZE: usize = 65800;
pub(crate) const EDNS_SIZE: usize = 11;
pub(crate) const FLAG_RESPONSE: u16 = 0x8000;
pub(crate) const FLAG_AUTHORITATIVE: u16 = 0x0400;
pub(crate) const FLAG_TRUNCATION: u16 = 0x0200;
pub(crate) const FLAG_RECURSION_DESIRED: u16 = 0x0100;
pub(crate) const FLAG_RECURSION_AVAILABLE: u16 = 0x0080;
pub(crate) const FLAG_AUTHENTIC_DATA: u16 = 0x0020;
pub(crate) const FLAG_CHECKING_DISABLED: u16 = 0x0010;
pub(crate) const ZONE_END: u32 = 0;
pub(crate) const ZONE_MORE: u32 = 1;
pub(crate) const ZONE_NOTHING: u32 = 2;
pub(crate) const ZONE_RECORD: u32 = 3;
pub(crate) const ZONE_INCLUDE: u32 = 4;
pub(crate) const ZONE_ERROR: u32 = 5;
pub(crate) const LIST_QUESTION: u8 = 0;
pub(crate) const LIST_ANSWER: u8 = 1;
pub(crate) const LIST_AUTHORITY: u8 = 2;
pub(crate) const LIST_ADDITIONAL: u8 = 3;
pub(crate) const LIST_REQUIRED: u8 = 0x20;
pub(crate) const LIST_OPTIONAL: u8 = 0x80;
pub(crate) const FIELD_END: u32 = 0;
pub(crate) const FIELD_NAME: u32 = 1;
pub(crate) const FIELD_NUMBER: u32 = 2;
pub(crate) const FIELD_IPV4: u32 = 3;
pub(crate) const FIELD_IPV6: u32 = 4;
pub(crate) const FIELD_TYPE: u32 = 5;
pub(crate) const FIELD_TIME: u32 = 6;
pub(crate) const FIELD_TEXT: u32 = 7;
pub(crate) const FIELD_OCTETS: u32 = 8;
pub(crate) const FIELD_TEXTS: u32 = 9;
pub(crate) const FIELD_TYPES: u32 = 10;
pub(crate) const FIELD_PARAMS: u32 = 11;
pub(crate) const FIELD_LOCATION: u32 = 12;
pub(crate) const FIELD_GATEWAY: u32 = 13;
pub(crate) const FIELD_RELAY: u32 = 14;
pub(crate) const FIELD_HOST_IDENTITY: u32 = 15;
pub(crate) const FIELD_PREFIXES: u32 = 16;
pub(crate) const FIELD_NAMES: u32 = 17;
pub(crate) const FIELD_ADDRESS_SUFFIX: u32 = 18;

/// `struct dnw_read_name`
#[repr(C)]
#[derive(Clone, Copy, Debug, PartialEq, Eq, Hash)]
pub(crate) struct ReadName {
    pub(crate) len: usize,
    pub(crate) end: usize,
}

impl ReadName {
    /// It before a call has stored it.
    pub(crate) const ZERO: Self = Self { len: 0, end: 0 };
}

/// `struct dnw_parsed_name`
#[repr(C)]
#[derive(Clone, Copy, Debug, PartialEq, Eq, Hash)]
pub(crate) struct ParsedName {
    pub(crate) len: usize,
    pub(crate) is_fqdn: bool,
}

impl ParsedName {
    /// It before a call has stored it.
    pub(crate) const ZERO: Self = Self { len: 0, is_fqdn: false };
}

/// `struct dnw_written_names`
#[repr(C)]
#[derive(Clone, Copy, Debug, PartialEq, Eq, Hash)]
pub(crate) struct WrittenNames {
    pub(crate) len: usize,
    pub(crate) count: usize,
}

impl WrittenNames {
    /// It before a call has stored it.
    pub(crate) const ZERO: Self = Self { len: 0, count: 0 };
}

/// `struct dnw_record`
#[repr(C)]
#[derive(Clone, Copy, Debug, PartialEq, Eq, Hash)]
pub(crate) struct Record {
    pub(crate) owner_len: usize,
    pub(crate) record_type: u16,
    pub(crate) record_class: u16,
    pub(crate) ttl: u32,
    pub(crate) data_offset: usize,
    pub(crate) data_len: usize,
    pub(crate) end: usize,
}

impl Record {
    /// It before a call has stored it.
    pub(crate) const ZERO: Self = Self { owner_len: 0, record_type: 0, record_class: 0, ttl: 0, data_offset: 0, data_len: 0, end: 0 };
}

/// `struct dnw_message`
#[repr(C)]
#[derive(Clone, Copy, Debug, PartialEq, Eq, Hash)]
pub(crate) struct Message {
    pub(crate) id: u16,
    pub(crate) is_response: bool,
    pub(crate) op_code: u8,
    pub(crate) authoritative: bool,
    pub(crate) truncation: bool,
    pub(crate) recursion_desired: bool,
    pub(crate) recursion_available: bool,
    pub(crate) authentic_data: bool,
    pub(crate) checking_disabled: bool,
    pub(crate) response_code: u16,
    pub(crate) question_count: u16,
    pub(crate) answer_count: u16,
    pub(crate) authority_count: u16,
    pub(crate) additional_count: u16,
    pub(crate) answers: usize,
    pub(crate) authorities: usize,
    pub(crate) additionals: usize,
    pub(crate) end: usize,
}

impl Message {
    /// It before a call has stored it.
    pub(crate) const ZERO: Self = Self { id: 0, is_response: false, op_code: 0, authoritative: false, truncation: false, recursion_desired: false, recursion_available: false, authentic_data: false, checking_disabled: false, response_code: 0, question_count: 0, answer_count: 0, authority_count: 0, additional_count: 0, answers: 0, authorities: 0, additionals: 0, end: 0 };
}

/// `struct dnw_message_fault`
#[repr(C)]
#[derive(Clone, Copy, Debug, PartialEq, Eq, Hash)]
pub(crate) struct MessageFault {
    pub(crate) section: u32,
    pub(crate) item: u16,
    pub(crate) offset: usize,
}

impl MessageFault {
    /// It before a call has stored it.
    pub(crate) const ZERO: Self = Self { section: 0, item: 0, offset: 0 };
}

/// `struct dnw_edns`
#[repr(C)]
#[derive(Clone, Copy, Debug, PartialEq, Eq, Hash)]
pub(crate) struct Edns {
    pub(crate) is_present: bool,
    pub(crate) dnssec_ok: bool,
    pub(crate) version: u8,
    pub(crate) takes_records: bool,
    pub(crate) max_payload: u16,
    pub(crate) response_code: u16,
    pub(crate) options_offset: usize,
    pub(crate) options_len: usize,
}

impl Edns {
    /// It before a call has stored it.
    pub(crate) const ZERO: Self = Self { is_present: false, dnssec_ok: false, version: 0, takes_records: false, max_payload: 0, response_code: 0, options_offset: 0, options_len: 0 };
}

/// `struct dnw_option`
#[repr(C)]
#[derive(Clone, Copy, Debug, PartialEq, Eq, Hash)]
pub(crate) struct OptionParts {
    pub(crate) is_given: bool,
    pub(crate) source: u8,
    pub(crate) scope: u8,
    pub(crate) labels: u8,
    pub(crate) version_type: u8,
    pub(crate) family: u16,
    pub(crate) timeout: u16,
    pub(crate) info_code: u16,
    pub(crate) seconds: u32,
    pub(crate) client: [u8; 8],
    pub(crate) offset: usize,
    pub(crate) len: usize,
}

impl OptionParts {
    /// It before a call has stored it.
    pub(crate) const ZERO: Self = Self { is_given: false, source: 0, scope: 0, labels: 0, version_type: 0, family: 0, timeout: 0, info_code: 0, seconds: 0, client: [0; 8], offset: 0, len: 0 };
}

/// `struct dnw_packed`
#[repr(C)]
#[derive(Clone, Copy, Debug, PartialEq, Eq, Hash)]
pub(crate) struct Packed {
    pub(crate) len: usize,
    pub(crate) truncated: bool,
}

impl Packed {
    /// It before a call has stored it.
    pub(crate) const ZERO: Self = Self { len: 0, truncated: false };
}

/// `struct dnw_fields`
#[repr(C)]
#[derive(Clone, Copy, Debug, PartialEq, Eq, Hash)]
pub(crate) struct Fields {
    pub(crate) offset: usize,
    pub(crate) number: usize,
}

impl Fields {
    /// It before a call has stored it.
    pub(crate) const ZERO: Self = Self { offset: 0, number: 0 };
}

/// `struct dnw_field`
#[repr(C)]
#[derive(Clone, Copy, Debug, PartialEq, Eq, Hash)]
pub(crate) struct Field {
    pub(crate) kind: u32,
    pub(crate) offset: usize,
    pub(crate) len: usize,
}

impl Field {
    /// It before a call has stored it.
    pub(crate) const ZERO: Self = Self { kind: 0, offset: 0, len: 0 };
}

/// `struct dnw_row`
#[repr(C)]
#[derive(Clone, Copy, Debug, PartialEq, Eq, Hash)]
pub(crate) struct Row {
    pub(crate) section: u32,
    pub(crate) kind: u32,
    pub(crate) record_type: u16,
    pub(crate) record_class: u16,
    pub(crate) number: u32,
    pub(crate) offset: usize,
    pub(crate) len: usize,
    pub(crate) name: usize,
    pub(crate) name_len: usize,
}

impl Row {
    /// It before a call has stored it.
    pub(crate) const ZERO: Self = Self { section: 0, kind: 0, record_type: 0, record_class: 0, number: 0, offset: 0, len: 0, name: 0, name_len: 0 };
}

/// `struct dnw_table`
#[repr(C)]
#[derive(Clone, Copy, Debug, PartialEq, Eq, Hash)]
pub(crate) struct Table {
    pub(crate) row_count: usize,
    pub(crate) names_len: usize,
}

impl Table {
    /// It before a call has stored it.
    pub(crate) const ZERO: Self = Self { row_count: 0, names_len: 0 };
}

/// `struct dnw_printed_record`
#[repr(C)]
#[derive(Clone, Copy, Debug, PartialEq, Eq, Hash)]
pub(crate) struct PrintedRecord {
    pub(crate) len: usize,
    pub(crate) end: usize,
}

impl PrintedRecord {
    /// It before a call has stored it.
    pub(crate) const ZERO: Self = Self { len: 0, end: 0 };
}

/// `struct dnw_printed_part`
#[repr(C)]
#[derive(Clone, Copy, Debug, PartialEq, Eq, Hash)]
pub(crate) struct PrintedPart {
    pub(crate) len: usize,
    pub(crate) total: usize,
}

impl PrintedPart {
    /// It before a call has stored it.
    pub(crate) const ZERO: Self = Self { len: 0, total: 0 };
}

/// `struct dnw_text_fault`
#[repr(C)]
#[derive(Clone, Copy, Debug, PartialEq, Eq, Hash)]
pub(crate) struct TextFault {
    pub(crate) offset: usize,
    pub(crate) len: usize,
    pub(crate) field: usize,
    pub(crate) reason: u32,
}

impl TextFault {
    /// It before a call has stored it.
    pub(crate) const ZERO: Self = Self { offset: 0, len: 0, field: 0, reason: 0 };
}

/// `struct dnw_zone`
#[repr(C)]
#[derive(Clone, Debug, PartialEq, Eq, Hash)]
pub(crate) struct Zone {
    pub(crate) offset: usize,
    pub(crate) line: usize,
    pub(crate) column: usize,
    pub(crate) default_ttl: u32,
    pub(crate) last_ttl: u32,
    pub(crate) fallback_ttl: u32,
    pub(crate) generate_limit: u32,
    pub(crate) generate_next: u32,
    pub(crate) record_class: u16,
    pub(crate) has_default_ttl: u8,
    pub(crate) has_last_ttl: u8,
    pub(crate) has_fallback_ttl: u8,
    pub(crate) has_generate_next: u8,
    pub(crate) origin_len: u8,
    pub(crate) owner_len: u8,
    pub(crate) origin: [u8; 255],
    pub(crate) owner: [u8; 255],
}

impl Zone {
    /// It before a call has stored it.
    pub(crate) const ZERO: Self = Self { offset: 0, line: 0, column: 0, default_ttl: 0, last_ttl: 0, fallback_ttl: 0, generate_limit: 0, generate_next: 0, record_class: 0, has_default_ttl: 0, has_last_ttl: 0, has_fallback_ttl: 0, has_generate_next: 0, origin_len: 0, owner_len: 0, origin: [0; 255], owner: [0; 255] };
}

/// `struct dnw_zone_entry`
#[repr(C)]
#[derive(Clone, Copy, Debug, PartialEq, Eq, Hash)]
pub(crate) struct ZoneEntry {
    pub(crate) kind: u32,
    pub(crate) used: usize,
    pub(crate) offset: usize,
    pub(crate) line: usize,
    pub(crate) column: usize,
    pub(crate) fault: TextFault,
    pub(crate) len: usize,
    pub(crate) name_len: usize,
    pub(crate) data_len: usize,
    pub(crate) ttl: u32,
    pub(crate) record_type: u16,
    pub(crate) record_class: u16,
}

impl ZoneEntry {
    /// It before a call has stored it.
    pub(crate) const ZERO: Self = Self { kind: 0, used: 0, offset: 0, line: 0, column: 0, fault: TextFault::ZERO, len: 0, name_len: 0, data_len: 0, ttl: 0, record_type: 0, record_class: 0 };
}

/// `struct dnw_zone_row`
#[repr(C)]
#[derive(Clone, Copy, Debug, PartialEq, Eq, Hash)]
pub(crate) struct ZoneRow {
    pub(crate) offset: usize,
    pub(crate) start: usize,
    pub(crate) len: usize,
    pub(crate) name_len: usize,
    pub(crate) data_len: usize,
    pub(crate) ttl: u32,
    pub(crate) record_type: u16,
    pub(crate) record_class: u16,
}

impl ZoneRow {
    /// It before a call has stored it.
    pub(crate) const ZERO: Self = Self { offset: 0, start: 0, len: 0, name_len: 0, data_len: 0, ttl: 0, record_type: 0, record_class: 0 };
}

/// `struct dnw_rows_read`
#[repr(C)]
#[derive(Clone, Copy, Debug, PartialEq, Eq, Hash)]
pub(crate) struct RowsRead {
    pub(crate) used: usize,
    pub(crate) row_count: usize,
    pub(crate) octets_len: usize,
    pub(crate) next: u32,
}

impl RowsRead {
    /// It before a call has stored it.
    pub(crate) const ZERO: Self = Self { used: 0, row_count: 0, octets_len: 0, next: 0 };
}

/// `struct dnw_zone_finding`
#[repr(C)]
#[derive(Clone, Copy, Debug, PartialEq, Eq, Hash)]
pub(crate) struct ZoneFinding {
    pub(crate) check: u32,
    pub(crate) is_error: bool,
    pub(crate) number: usize,
    pub(crate) other: usize,
}

impl ZoneFinding {
    /// It before a call has stored it.
    pub(crate) const ZERO: Self = Self { check: 0, is_error: false, number: 0, other: 0 };
}

/// `struct dnw_writer`
#[repr(C)]
#[derive(Clone, Debug, PartialEq, Eq, Hash)]
pub(crate) struct Writer {
    pub(crate) len: usize,
    pub(crate) max_size: usize,
    pub(crate) reserved: usize,
    pub(crate) owner: u16,
    pub(crate) rank: u8,
    pub(crate) has_opt: u8,
    pub(crate) hints: [u16; 512],
}

impl Writer {
    /// It before a call has stored it.
    pub(crate) const ZERO: Self = Self { len: 0, max_size: 0, reserved: 0, owner: 0, rank: 0, has_opt: 0, hints: [0; 512] };
}

/// `struct dnw_net`
#[repr(C)]
#[derive(Clone, Copy, Debug, PartialEq, Eq, Hash)]
pub(crate) struct Net {
    pub(crate) len: usize,
    pub(crate) prefix_len: u8,
}

impl Net {
    /// It before a call has stored it.
    pub(crate) const ZERO: Self = Self { len: 0, prefix_len: 0 };
}

/// `struct dnw_lexer`
#[repr(C)]
#[derive(Clone, Copy, Debug, PartialEq, Eq, Hash)]
pub(crate) struct Lexer {
    pub(crate) offset: usize,
    pub(crate) at_line_start: bool,
}

impl Lexer {
    /// It before a call has stored it.
    pub(crate) const ZERO: Self = Self { offset: 0, at_line_start: false };
}

/// `struct dnw_token`
#[repr(C)]
#[derive(Clone, Copy, Debug, PartialEq, Eq, Hash)]
pub(crate) struct Token {
    pub(crate) kind: u32,
    pub(crate) len: usize,
    pub(crate) count: usize,
}

impl Token {
    /// It before a call has stored it.
    pub(crate) const ZERO: Self = Self { kind: 0, len: 0, count: 0 };
}

extern "C" {
    fn dnw_name_read(message: *const u8, message_len: usize, start: usize, form: *mut u8, form_size: usize, read: *mut ReadName) -> u32;
    fn dnw_name_read_text(message: *const u8, message_len: usize, start: usize, text: *mut u8, text_size: usize, read: *mut ReadName) -> u32;
    fn dnw_name_parse(text: *const u8, text_len: usize, origin: *const u8, origin_len: usize, form: *mut u8, form_size: usize, parsed: *mut ParsedName) -> u32;
    fn dnw_name_text_fault(text: *const u8, text_len: usize, origin: *const u8, origin_len: usize, offset: *mut usize) -> u32;
    fn dnw_name_print(form: *const u8, form_len: usize, is_fqdn: bool, text: *mut u8, text_size: usize, len: *mut usize) -> u32;
    fn dnw_names_write(names: *const u8, names_len: usize, max_size: u16, out: *mut u8, out_size: usize, written: *mut WrittenNames) -> u32;
    fn dnw_record_read(message: *const u8, message_len: usize, start: usize, owner: *mut u8, owner_size: usize, record: *mut Record) -> u32;
    fn dnw_record_data_name(message: *const u8, message_len: usize, data_offset: usize, data_len: usize, form: *mut u8, form_size: usize, len: *mut usize) -> u32;
    fn dnw_message_read(message: *const u8, message_len: usize, max_pointers: usize, read: *mut Message, fault: *mut MessageFault) -> u32;
    fn dnw_is_reply_to(request: *const u8, request_len: usize, response: *const u8, response_len: usize, is_reply: *mut bool) -> u32;
    fn dnw_edns_read(message: *const u8, message_len: usize, max_pointers: usize, edns: *mut Edns) -> u32;
    fn dnw_option_print(code: u16, data: *const u8, data_len: usize, text: *mut u8, text_size: usize, text_len: *mut usize) -> u32;
    fn dnw_option_read(code: u16, data: *const u8, data_len: usize, option: *mut OptionParts) -> u32;
    fn dnw_option_write(code: u16, option: *const OptionParts, rest: *const u8, rest_len: usize, data: *mut u8, data_size: usize, data_len: *mut usize) -> u32;
    fn dnw_message_pack(message: *const u8, message_len: usize, max_size: u16, block: u16, packed: *mut u8, packed_size: usize, result: *mut Packed) -> u32;
    fn dnw_field_next(message: *const u8, data_end: usize, data_offset: usize, record_type: u16, record_class: u16, fields: *mut Fields, field: *mut Field) -> u32;
    fn dnw_message_table(message: *const u8, message_len: usize, max_pointers: usize, rows: *mut Row, rows_size: usize, names: *mut u8, names_size: usize, table: *mut Table) -> u32;
    fn dnw_record_data(message: *const u8, message_len: usize, start: usize, data: *mut u8, data_size: usize, len: *mut usize) -> u32;
    fn dnw_record_print(message: *const u8, message_len: usize, start: usize, text: *mut u8, text_size: usize, printed: *mut PrintedRecord) -> u32;
    fn dnw_message_print(message: *const u8, message_len: usize, max_pointers: usize, start: usize, text: *mut u8, text_size: usize, printed: *mut PrintedPart) -> u32;
    fn dnw_message_json(message: *const u8, message_len: usize, max_pointers: usize, start: usize, text: *mut u8, text_size: usize, printed: *mut PrintedPart) -> u32;
    fn dnw_data_parse(record_type: u16, record_class: u16, text: *const u8, text_len: usize, origin: *const u8, origin_len: usize, data: *mut u8, data_size: usize, len: *mut usize) -> u32;
    fn dnw_record_parse(text: *const u8, text_len: usize, origin: *const u8, origin_len: usize, record: *mut u8, record_size: usize, len: *mut usize) -> u32;
    fn dnw_record_text_fault(text: *const u8, text_len: usize, origin: *const u8, origin_len: usize, fault: *mut TextFault) -> u32;
    fn dnw_data_text_fault(record_type: u16, record_class: u16, text: *const u8, text_len: usize, origin: *const u8, origin_len: usize, fault: *mut TextFault) -> u32;
    fn dnw_text_fault_print(fault: *const TextFault, text: *mut u8, text_size: usize, len: *mut usize) -> u32;
    fn dnw_zone_begin(origin: *const u8, origin_len: usize, zone: *mut Zone) -> u32;
    fn dnw_zone_include(origin: *const u8, origin_len: usize, zone: *mut Zone) -> u32;
    fn dnw_zone_next(text: *const u8, text_len: usize, more: bool, zone: *mut Zone, octets: *mut u8, octets_size: usize, entry: *mut ZoneEntry) -> u32;
    fn dnw_zone_read(text: *const u8, text_len: usize, more: bool, zone: *mut Zone, rows: *mut ZoneRow, rows_size: usize, octets: *mut u8, octets_size: usize, read: *mut RowsRead) -> u32;
    fn dnw_zone_put_record(message: *const u8, message_len: usize, start: usize, zone: *mut Zone, text: *mut u8, text_size: usize, printed: *mut PrintedRecord) -> u32;
    fn dnw_zone_put_origin(origin: *const u8, origin_len: usize, zone: *mut Zone, text: *mut u8, text_size: usize, len: *mut usize) -> u32;
    fn dnw_zone_put_ttl(ttl: u32, zone: *mut Zone, text: *mut u8, text_size: usize, len: *mut usize) -> u32;
    fn dnw_zone_check(zone: *const u8, zone_len: usize, records: *const u8, records_len: usize, findings: *mut ZoneFinding, findings_size: usize, count: *mut usize) -> u32;
    fn dnw_signed_octets(message: *const u8, section_end: usize, start: usize, rrsig: usize, octets: *mut u8, octets_size: usize, len: *mut usize) -> u32;
    fn dnw_record_sort_key(message: *const u8, message_len: usize, start: usize, key: *mut u8, key_size: usize, len: *mut usize) -> u32;
    fn dnw_key_tag(dnskey: *const u8, dnskey_len: usize, tag: *mut u16) -> u32;
    fn dnw_ds_digest(owner: *const u8, owner_len: usize, dnskey: *const u8, dnskey_len: usize, digest_type: u8, digest: *mut u8, digest_size: usize, len: *mut usize) -> u32;
    fn dnw_nsec3_hash(name: *const u8, name_len: usize, algorithm: u8, iterations: u16, salt: *const u8, salt_len: usize, most: u16, hash: *mut u8, hash_size: usize, len: *mut usize) -> u32;
    fn dnw_nsec3_label(name: *const u8, name_len: usize, algorithm: u8, iterations: u16, salt: *const u8, salt_len: usize, most: u16, label: *mut u8, label_size: usize, len: *mut usize) -> u32;
    fn dnw_nsec_covers(owner: *const u8, owner_len: usize, next: *const u8, next_len: usize, name: *const u8, name_len: usize, covers: *mut bool) -> u32;
    fn dnw_nsec3_covers(own: *const u8, own_len: usize, next: *const u8, next_len: usize, hash: *const u8, hash_len: usize, covers: *mut bool) -> u32;
    fn dnw_zone_digest(apex: *const u8, apex_len: usize, records: *const u8, records_len: usize, algorithm: u8, digest: *mut u8, digest_size: usize, len: *mut usize) -> u32;
    fn dnw_writer_begin(message: *mut u8, message_size: usize, max_size: usize, id: u16, flags: u16, writer: *mut Writer) -> u32;
    fn dnw_writer_reply(message: *mut u8, message_size: usize, max_size: usize, request: *const u8, request_len: usize, flags: u16, response_code: u16, writer: *mut Writer, edns: *mut Edns) -> u32;
    fn dnw_writer_reply_edns(message: *mut u8, message_size: usize, asked: *const Edns, max_payload: u16, options: *const u8, options_len: usize, block: u16, writer: *mut Writer) -> u32;
    fn dnw_writer_query(message: *mut u8, message_size: usize, max_size: usize, id: u16, recursion_desired: bool, name: *const u8, name_len: usize, query_type: u16, record_class: u16, max_payload: u16, writer: *mut Writer) -> u32;
    fn dnw_writer_question(message: *mut u8, message_size: usize, name: *const u8, name_len: usize, query_type: u16, record_class: u16, writer: *mut Writer) -> u32;
    fn dnw_writer_record(message: *mut u8, message_size: usize, section: u32, owner: *const u8, owner_len: usize, record_type: u16, record_class: u16, ttl: u32, data: *const u8, data_len: usize, writer: *mut Writer) -> u32;
    fn dnw_writer_set(message: *mut u8, message_size: usize, section: u32, required: bool, owner: *const u8, owner_len: usize, record_type: u16, record_class: u16, ttl: u32, set: *const u8, set_len: usize, writer: *mut Writer) -> u32;
    fn dnw_writer_hold(octets: usize, writer: *mut Writer) -> u32;
    fn dnw_writer_release(octets: usize, writer: *mut Writer) -> u32;
    fn dnw_writer_edns(message: *mut u8, message_size: usize, held: usize, max_payload: u16, rcode_high: u8, version: u8, dnssec_ok: bool, options: *const u8, options_len: usize, block: u16, writer: *mut Writer) -> u32;
    fn dnw_writer_last(message: *mut u8, message_size: usize, held: usize, owner: *const u8, owner_len: usize, record_type: u16, record_class: u16, ttl: u32, data: *const u8, data_len: usize, writer: *mut Writer) -> u32;
    fn dnw_writer_fill(message: *mut u8, message_size: usize, items: *const u8, items_len: usize, start: usize, writer: *mut Writer, next: *mut usize) -> u32;
    fn dnw_message_write(items: *const u8, items_len: usize, max_size: usize, id: u16, flags: u16, response_code: u16, is_reply: bool, block: u16, message: *mut u8, message_size: usize, result: *mut Packed) -> u32;
    fn dnw_reverse_name(address: *const u8, address_len: usize, form: *mut u8, form_size: usize, len: *mut usize) -> u32;
    fn dnw_reverse_parse(form: *const u8, form_len: usize, address: *mut u8, address_size: usize, net: *mut Net) -> u32;
    fn dnw_name_compare(left: *const u8, left_len: usize, right: *const u8, right_len: usize, order: *mut i32) -> u32;
    fn dnw_name_equal(left: *const u8, left_len: usize, right: *const u8, right_len: usize, is_equal: *mut bool) -> u32;
    fn dnw_name_in_zone(name: *const u8, name_len: usize, zone: *const u8, zone_len: usize, is_in_zone: *mut bool) -> u32;
    fn dnw_name_to_lowercase(form: *const u8, form_len: usize, lowered: *mut u8, lowered_size: usize, len: *mut usize) -> u32;
    fn dnw_name_sort_key(form: *const u8, form_len: usize, key: *mut u8, key_size: usize, len: *mut usize) -> u32;
    fn dnw_names_sort(names: *const u8, names_len: usize, order: *mut usize, order_len: usize) -> u32;
    fn dnw_name_append(name: *const u8, name_len: usize, suffix: *const u8, suffix_len: usize, form: *mut u8, form_size: usize, len: *mut usize) -> u32;
    fn dnw_name_prepend_label(label: *const u8, label_len: usize, name: *const u8, name_len: usize, form: *mut u8, form_size: usize, len: *mut usize) -> u32;
    fn dnw_name_trim(name: *const u8, name_len: usize, labels: usize, form: *mut u8, form_size: usize, len: *mut usize) -> u32;
    fn dnw_name_to_wildcard(name: *const u8, name_len: usize, form: *mut u8, form_size: usize, len: *mut usize) -> u32;
    fn dnw_type_print(code: u16, text: *mut u8, text_size: usize, len: *mut usize) -> u32;
    fn dnw_type_parse(text: *const u8, text_len: usize, code: *mut u16) -> u32;
    fn dnw_class_print(code: u16, text: *mut u8, text_size: usize, len: *mut usize) -> u32;
    fn dnw_class_parse(text: *const u8, text_len: usize, code: *mut u16) -> u32;
    fn dnw_serial_compare(left: u32, right: u32, order: *mut i32) -> u32;
    fn dnw_serial_add(serial: u32, other: u32) -> u32;
    fn dnw_types_read(bitmap: *const u8, bitmap_len: usize, codes: *mut u16, codes_size: usize, count: *mut usize) -> u32;
    fn dnw_types_write(codes: *const u16, codes_count: usize, bitmap: *mut u8, bitmap_size: usize, len: *mut usize) -> u32;
    fn dnw_ttl_parse(text: *const u8, text_len: usize, seconds: *mut u32) -> u32;
    fn dnw_token_next(text: *const u8, text_len: usize, lexer: *mut Lexer, words: *mut u8, words_size: usize, token: *mut Token) -> u32;
    fn dnw_error_text(number: u32, text: *mut u8, text_size: usize) -> usize;
    fn dnw_version() -> u32;
}

/// Calls `dnw_name_read`.
#[inline]
pub(crate) fn name_read<'b>(message: &[u8], start: usize, form: impl Into<Buffer<'b>>) -> Result<ReadName, Error> {
    let form = form.into();
    let mut read = ReadName::ZERO;
    // SAFETY: as the module `ffi` says of each call.
    let number = unsafe { dnw_name_read(message.as_ptr(), message.len(), start, form.first, form.size, &mut read) };
    outcome(number, read)
}

/// Calls `dnw_name_read_text`.
#[inline]
pub(crate) fn name_read_text<'b>(message: &[u8], start: usize, text: impl Into<Buffer<'b>>) -> Result<ReadName, Error> {
    let text = text.into();
    let mut read = ReadName::ZERO;
    // SAFETY: as the module `ffi` says of each call.
    let number = unsafe { dnw_name_read_text(message.as_ptr(), message.len(), start, text.first, text.size, &mut read) };
    outcome(number, read)
}

/// Calls `dnw_name_parse`.
#[inline]
pub(crate) fn name_parse<'b>(text: &[u8], origin: &[u8], form: impl Into<Buffer<'b>>) -> Result<ParsedName, Error> {
    let form = form.into();
    let mut parsed = ParsedName::ZERO;
    // SAFETY: as the module `ffi` says of each call.
    let number = unsafe { dnw_name_parse(text.as_ptr(), text.len(), origin.as_ptr(), origin.len(), form.first, form.size, &mut parsed) };
    outcome(number, parsed)
}

/// Calls `dnw_name_text_fault`.
#[inline]
pub(crate) fn name_text_fault(text: &[u8], origin: &[u8]) -> (u32, usize) {
    let mut offset = 0;
    // SAFETY: as the module `ffi` says of each call.
    let number = unsafe { dnw_name_text_fault(text.as_ptr(), text.len(), origin.as_ptr(), origin.len(), &mut offset) };
    (number, offset)
}

/// Calls `dnw_name_print`.
#[inline]
pub(crate) fn name_print<'b>(form: &[u8], is_fqdn: bool, text: impl Into<Buffer<'b>>) -> Result<usize, Error> {
    let text = text.into();
    let mut len = 0;
    // SAFETY: as the module `ffi` says of each call.
    let number = unsafe { dnw_name_print(form.as_ptr(), form.len(), is_fqdn, text.first, text.size, &mut len) };
    outcome(number, len)
}

/// Calls `dnw_names_write`.
#[inline]
pub(crate) fn names_write<'b>(names: &[u8], max_size: u16, out: impl Into<Buffer<'b>>) -> Result<WrittenNames, Error> {
    let out = out.into();
    let mut written = WrittenNames::ZERO;
    // SAFETY: as the module `ffi` says of each call.
    let number = unsafe { dnw_names_write(names.as_ptr(), names.len(), max_size, out.first, out.size, &mut written) };
    outcome(number, written)
}

/// Calls `dnw_record_read`.
#[inline]
pub(crate) fn record_read<'b>(message: &[u8], start: usize, owner: impl Into<Buffer<'b>>) -> Result<Record, Error> {
    let owner = owner.into();
    let mut record = Record::ZERO;
    // SAFETY: as the module `ffi` says of each call.
    let number = unsafe { dnw_record_read(message.as_ptr(), message.len(), start, owner.first, owner.size, &mut record) };
    outcome(number, record)
}

/// Calls `dnw_record_data_name`.
#[inline]
pub(crate) fn record_data_name<'b>(message: &[u8], data_offset: usize, data_len: usize, form: impl Into<Buffer<'b>>) -> Result<usize, Error> {
    let form = form.into();
    let mut len = 0;
    // SAFETY: as the module `ffi` says of each call.
    let number = unsafe { dnw_record_data_name(message.as_ptr(), message.len(), data_offset, data_len, form.first, form.size, &mut len) };
    outcome(number, len)
}

/// Calls `dnw_message_read`.
#[inline]
pub(crate) fn message_read(message: &[u8], max_pointers: usize, fault: &mut MessageFault) -> Result<Message, Error> {
    let mut read = Message::ZERO;
    // SAFETY: as the module `ffi` says of each call.
    let number = unsafe { dnw_message_read(message.as_ptr(), message.len(), max_pointers, &mut read, fault) };
    outcome(number, read)
}

/// Calls `dnw_is_reply_to`.
#[inline]
pub(crate) fn is_reply_to(request: &[u8], response: &[u8]) -> Result<bool, Error> {
    let mut is_reply = false;
    // SAFETY: as the module `ffi` says of each call.
    let number = unsafe { dnw_is_reply_to(request.as_ptr(), request.len(), response.as_ptr(), response.len(), &mut is_reply) };
    outcome(number, is_reply)
}

/// Calls `dnw_edns_read`.
#[inline]
pub(crate) fn edns_read(message: &[u8], max_pointers: usize) -> Result<Edns, Error> {
    let mut edns = Edns::ZERO;
    // SAFETY: as the module `ffi` says of each call.
    let number = unsafe { dnw_edns_read(message.as_ptr(), message.len(), max_pointers, &mut edns) };
    outcome(number, edns)
}

/// Calls `dnw_option_print`.
#[inline]
pub(crate) fn option_print<'b>(code: u16, data: &[u8], text: impl Into<Buffer<'b>>) -> Result<usize, Error> {
    let text = text.into();
    let mut text_len = 0;
    // SAFETY: as the module `ffi` says of each call.
    let number = unsafe { dnw_option_print(code, data.as_ptr(), data.len(), text.first, text.size, &mut text_len) };
    outcome(number, text_len)
}

/// Calls `dnw_option_read`.
#[inline]
pub(crate) fn option_read(code: u16, data: &[u8]) -> Result<OptionParts, Error> {
    let mut option = OptionParts::ZERO;
    // SAFETY: as the module `ffi` says of each call.
    let number = unsafe { dnw_option_read(code, data.as_ptr(), data.len(), &mut option) };
    outcome(number, option)
}

/// Calls `dnw_option_write`.
#[inline]
pub(crate) fn option_write<'b>(code: u16, option: &OptionParts, rest: &[u8], data: impl Into<Buffer<'b>>) -> Result<usize, Error> {
    let data = data.into();
    let mut data_len = 0;
    // SAFETY: as the module `ffi` says of each call.
    let number = unsafe { dnw_option_write(code, option, rest.as_ptr(), rest.len(), data.first, data.size, &mut data_len) };
    outcome(number, data_len)
}

/// Calls `dnw_message_pack`.
#[inline]
pub(crate) fn message_pack<'b>(message: &[u8], max_size: u16, block: u16, packed: impl Into<Buffer<'b>>) -> Result<Packed, Error> {
    let packed = packed.into();
    let mut result = Packed::ZERO;
    // SAFETY: as the module `ffi` says of each call.
    let number = unsafe { dnw_message_pack(message.as_ptr(), message.len(), max_size, block, packed.first, packed.size, &mut result) };
    outcome(number, result)
}

/// Calls `dnw_field_next`.
#[inline]
pub(crate) fn field_next(message: &[u8], data_offset: usize, record_type: RecordType, record_class: Class, fields: &mut Fields) -> Result<Field, Error> {
    let mut field = Field::ZERO;
    // SAFETY: as the module `ffi` says of each call.
    let number = unsafe { dnw_field_next(message.as_ptr(), message.len(), data_offset, record_type.code(), record_class.code(), fields, &mut field) };
    outcome(number, field)
}

/// Calls `dnw_message_table`.
#[inline]
pub(crate) fn message_table<'b>(message: &[u8], max_pointers: usize, rows: &mut [Row], names: impl Into<Buffer<'b>>) -> Result<Table, Error> {
    let names = names.into();
    let mut table = Table::ZERO;
    // SAFETY: as the module `ffi` says of each call.
    let number = unsafe { dnw_message_table(message.as_ptr(), message.len(), max_pointers, rows.as_mut_ptr(), rows.len(), names.first, names.size, &mut table) };
    outcome(number, table)
}

/// Calls `dnw_record_data`.
#[inline]
pub(crate) fn record_data<'b>(message: &[u8], start: usize, data: impl Into<Buffer<'b>>) -> Result<usize, Error> {
    let data = data.into();
    let mut len = 0;
    // SAFETY: as the module `ffi` says of each call.
    let number = unsafe { dnw_record_data(message.as_ptr(), message.len(), start, data.first, data.size, &mut len) };
    outcome(number, len)
}

/// Calls `dnw_record_print`.
#[inline]
pub(crate) fn record_print<'b>(message: &[u8], start: usize, text: impl Into<Buffer<'b>>) -> Result<PrintedRecord, Error> {
    let text = text.into();
    let mut printed = PrintedRecord::ZERO;
    // SAFETY: as the module `ffi` says of each call.
    let number = unsafe { dnw_record_print(message.as_ptr(), message.len(), start, text.first, text.size, &mut printed) };
    outcome(number, printed)
}

/// Calls `dnw_message_print`.
#[inline]
pub(crate) fn message_print<'b>(message: &[u8], max_pointers: usize, start: usize, text: impl Into<Buffer<'b>>) -> Result<PrintedPart, Error> {
    let text = text.into();
    let mut printed = PrintedPart::ZERO;
    // SAFETY: as the module `ffi` says of each call.
    let number = unsafe { dnw_message_print(message.as_ptr(), message.len(), max_pointers, start, text.first, text.size, &mut printed) };
    outcome(number, printed)
}

/// Calls `dnw_message_json`.
#[inline]
pub(crate) fn message_json<'b>(message: &[u8], max_pointers: usize, start: usize, text: impl Into<Buffer<'b>>) -> Result<PrintedPart, Error> {
    let text = text.into();
    let mut printed = PrintedPart::ZERO;
    // SAFETY: as the module `ffi` says of each call.
    let number = unsafe { dnw_message_json(message.as_ptr(), message.len(), max_pointers, start, text.first, text.size, &mut printed) };
    outcome(number, printed)
}

/// Calls `dnw_data_parse`.
#[inline]
pub(crate) fn data_parse<'b>(record_type: RecordType, record_class: Class, text: &[u8], origin: &[u8], data: impl Into<Buffer<'b>>) -> Result<usize, Error> {
    let data = data.into();
    let mut len = 0;
    // SAFETY: as the module `ffi` says of each call.
    let number = unsafe { dnw_data_parse(record_type.code(), record_class.code(), text.as_ptr(), text.len(), origin.as_ptr(), origin.len(), data.first, data.size, &mut len) };
    outcome(number, len)
}

/// Calls `dnw_record_parse`.
#[inline]
pub(crate) fn record_parse<'b>(text: &[u8], origin: &[u8], record: impl Into<Buffer<'b>>) -> Result<usize, Error> {
    let record = record.into();
    let mut len = 0;
    // SAFETY: as the module `ffi` says of each call.
    let number = unsafe { dnw_record_parse(text.as_ptr(), text.len(), origin.as_ptr(), origin.len(), record.first, record.size, &mut len) };
    outcome(number, len)
}

/// Calls `dnw_record_text_fault`.
#[inline]
pub(crate) fn record_text_fault(text: &[u8], origin: &[u8]) -> Result<TextFault, Error> {
    let mut fault = TextFault::ZERO;
    // SAFETY: as the module `ffi` says of each call.
    let number = unsafe { dnw_record_text_fault(text.as_ptr(), text.len(), origin.as_ptr(), origin.len(), &mut fault) };
    outcome(number, fault)
}

/// Calls `dnw_data_text_fault`.
#[inline]
pub(crate) fn data_text_fault(record_type: RecordType, record_class: Class, text: &[u8], origin: &[u8]) -> Result<TextFault, Error> {
    let mut fault = TextFault::ZERO;
    // SAFETY: as the module `ffi` says of each call.
    let number = unsafe { dnw_data_text_fault(record_type.code(), record_class.code(), text.as_ptr(), text.len(), origin.as_ptr(), origin.len(), &mut fault) };
    outcome(number, fault)
}

/// Calls `dnw_text_fault_print`.
#[inline]
pub(crate) fn text_fault_print<'b>(fault: &TextFault, text: impl Into<Buffer<'b>>) -> Result<usize, Error> {
    let text = text.into();
    let mut len = 0;
    // SAFETY: as the module `ffi` says of each call.
    let number = unsafe { dnw_text_fault_print(fault, text.first, text.size, &mut len) };
    outcome(number, len)
}

/// Calls `dnw_zone_begin`.
#[inline]
pub(crate) fn zone_begin(origin: &[u8], zone: &mut Zone) -> Result<(), Error> {
    // SAFETY: as the module `ffi` says of each call.
    let number = unsafe { dnw_zone_begin(origin.as_ptr(), origin.len(), zone) };
    outcome(number, ())
}

/// Calls `dnw_zone_include`.
#[inline]
pub(crate) fn zone_include(origin: &[u8], zone: &mut Zone) -> Result<(), Error> {
    // SAFETY: as the module `ffi` says of each call.
    let number = unsafe { dnw_zone_include(origin.as_ptr(), origin.len(), zone) };
    outcome(number, ())
}

/// Calls `dnw_zone_next`.
#[inline]
pub(crate) fn zone_next<'b>(text: &[u8], more: bool, zone: &mut Zone, octets: impl Into<Buffer<'b>>) -> Result<ZoneEntry, Error> {
    let octets = octets.into();
    let mut entry = ZoneEntry::ZERO;
    // SAFETY: as the module `ffi` says of each call.
    let number = unsafe { dnw_zone_next(text.as_ptr(), text.len(), more, zone, octets.first, octets.size, &mut entry) };
    outcome(number, entry)
}

/// Calls `dnw_zone_read`.
#[inline]
pub(crate) fn zone_read<'b>(text: &[u8], more: bool, zone: &mut Zone, rows: &mut [ZoneRow], octets: impl Into<Buffer<'b>>) -> Result<RowsRead, Error> {
    let octets = octets.into();
    let mut read = RowsRead::ZERO;
    // SAFETY: as the module `ffi` says of each call.
    let number = unsafe { dnw_zone_read(text.as_ptr(), text.len(), more, zone, rows.as_mut_ptr(), rows.len(), octets.first, octets.size, &mut read) };
    outcome(number, read)
}

/// Calls `dnw_zone_put_record`.
#[inline]
pub(crate) fn zone_put_record<'b>(message: &[u8], start: usize, zone: &mut Zone, text: impl Into<Buffer<'b>>) -> Result<PrintedRecord, Error> {
    let text = text.into();
    let mut printed = PrintedRecord::ZERO;
    // SAFETY: as the module `ffi` says of each call.
    let number = unsafe { dnw_zone_put_record(message.as_ptr(), message.len(), start, zone, text.first, text.size, &mut printed) };
    outcome(number, printed)
}

/// Calls `dnw_zone_put_origin`.
#[inline]
pub(crate) fn zone_put_origin<'b>(origin: &[u8], zone: &mut Zone, text: impl Into<Buffer<'b>>) -> Result<usize, Error> {
    let text = text.into();
    let mut len = 0;
    // SAFETY: as the module `ffi` says of each call.
    let number = unsafe { dnw_zone_put_origin(origin.as_ptr(), origin.len(), zone, text.first, text.size, &mut len) };
    outcome(number, len)
}

/// Calls `dnw_zone_put_ttl`.
#[inline]
pub(crate) fn zone_put_ttl<'b>(ttl: u32, zone: &mut Zone, text: impl Into<Buffer<'b>>) -> Result<usize, Error> {
    let text = text.into();
    let mut len = 0;
    // SAFETY: as the module `ffi` says of each call.
    let number = unsafe { dnw_zone_put_ttl(ttl, zone, text.first, text.size, &mut len) };
    outcome(number, len)
}

/// Calls `dnw_zone_check`.
#[inline]
pub(crate) fn zone_check(zone: &[u8], records: &[u8], findings: &mut [ZoneFinding]) -> Result<usize, Error> {
    let mut count = 0;
    // SAFETY: as the module `ffi` says of each call.
    let number = unsafe { dnw_zone_check(zone.as_ptr(), zone.len(), records.as_ptr(), records.len(), findings.as_mut_ptr(), findings.len(), &mut count) };
    outcome(number, count)
}

/// Calls `dnw_signed_octets`.
#[inline]
pub(crate) fn signed_octets<'b>(message: &[u8], start: usize, rrsig: usize, octets: impl Into<Buffer<'b>>) -> Result<usize, Error> {
    let octets = octets.into();
    let mut len = 0;
    // SAFETY: as the module `ffi` says of each call.
    let number = unsafe { dnw_signed_octets(message.as_ptr(), message.len(), start, rrsig, octets.first, octets.size, &mut len) };
    outcome(number, len)
}

/// Calls `dnw_record_sort_key`.
#[inline]
pub(crate) fn record_sort_key<'b>(message: &[u8], start: usize, key: impl Into<Buffer<'b>>) -> Result<usize, Error> {
    let key = key.into();
    let mut len = 0;
    // SAFETY: as the module `ffi` says of each call.
    let number = unsafe { dnw_record_sort_key(message.as_ptr(), message.len(), start, key.first, key.size, &mut len) };
    outcome(number, len)
}

/// Calls `dnw_key_tag`.
#[inline]
pub(crate) fn key_tag(dnskey: &[u8]) -> Result<u16, Error> {
    let mut tag = 0;
    // SAFETY: as the module `ffi` says of each call.
    let number = unsafe { dnw_key_tag(dnskey.as_ptr(), dnskey.len(), &mut tag) };
    outcome(number, tag)
}

/// Calls `dnw_ds_digest`.
#[inline]
pub(crate) fn ds_digest<'b>(owner: &[u8], dnskey: &[u8], digest_type: u8, digest: impl Into<Buffer<'b>>) -> Result<usize, Error> {
    let digest = digest.into();
    let mut len = 0;
    // SAFETY: as the module `ffi` says of each call.
    let number = unsafe { dnw_ds_digest(owner.as_ptr(), owner.len(), dnskey.as_ptr(), dnskey.len(), digest_type, digest.first, digest.size, &mut len) };
    outcome(number, len)
}

/// Calls `dnw_nsec3_hash`.
#[inline]
pub(crate) fn nsec3_hash<'b>(name: &[u8], algorithm: u8, iterations: u16, salt: &[u8], most: u16, hash: impl Into<Buffer<'b>>) -> Result<usize, Error> {
    let hash = hash.into();
    let mut len = 0;
    // SAFETY: as the module `ffi` says of each call.
    let number = unsafe { dnw_nsec3_hash(name.as_ptr(), name.len(), algorithm, iterations, salt.as_ptr(), salt.len(), most, hash.first, hash.size, &mut len) };
    outcome(number, len)
}

/// Calls `dnw_nsec3_label`.
#[inline]
pub(crate) fn nsec3_label<'b>(name: &[u8], algorithm: u8, iterations: u16, salt: &[u8], most: u16, label: impl Into<Buffer<'b>>) -> Result<usize, Error> {
    let label = label.into();
    let mut len = 0;
    // SAFETY: as the module `ffi` says of each call.
    let number = unsafe { dnw_nsec3_label(name.as_ptr(), name.len(), algorithm, iterations, salt.as_ptr(), salt.len(), most, label.first, label.size, &mut len) };
    outcome(number, len)
}

/// Calls `dnw_nsec_covers`.
#[inline]
pub(crate) fn nsec_covers(owner: &[u8], next: &[u8], name: &[u8]) -> Result<bool, Error> {
    let mut covers = false;
    // SAFETY: as the module `ffi` says of each call.
    let number = unsafe { dnw_nsec_covers(owner.as_ptr(), owner.len(), next.as_ptr(), next.len(), name.as_ptr(), name.len(), &mut covers) };
    outcome(number, covers)
}

/// Calls `dnw_nsec3_covers`.
#[inline]
pub(crate) fn nsec3_covers(own: &[u8], next: &[u8], hash: &[u8]) -> Result<bool, Error> {
    let mut covers = false;
    // SAFETY: as the module `ffi` says of each call.
    let number = unsafe { dnw_nsec3_covers(own.as_ptr(), own.len(), next.as_ptr(), next.len(), hash.as_ptr(), hash.len(), &mut covers) };
    outcome(number, covers)
}

/// Calls `dnw_zone_digest`.
#[inline]
pub(crate) fn zone_digest<'b>(apex: &[u8], records: &[u8], algorithm: u8, digest: impl Into<Buffer<'b>>) -> Result<usize, Error> {
    let digest = digest.into();
    let mut len = 0;
    // SAFETY: as the module `ffi` says of each call.
    let number = unsafe { dnw_zone_digest(apex.as_ptr(), apex.len(), records.as_ptr(), records.len(), algorithm, digest.first, digest.size, &mut len) };
    outcome(number, len)
}

/// Calls `dnw_writer_begin`.
#[inline]
pub(crate) fn writer_begin(message: &mut [u8], max_size: usize, id: u16, flags: u16, writer: &mut Writer) -> Result<(), Error> {
    // SAFETY: as the module `ffi` says of each call.
    let number = unsafe { dnw_writer_begin(message.as_mut_ptr(), message.len(), max_size, id, flags, writer) };
    outcome(number, ())
}

/// Calls `dnw_writer_reply`.
#[inline]
pub(crate) fn writer_reply(message: &mut [u8], max_size: usize, request: &[u8], flags: u16, response_code: u16, writer: &mut Writer) -> Result<Edns, Error> {
    let mut edns = Edns::ZERO;
    // SAFETY: as the module `ffi` says of each call.
    let number = unsafe { dnw_writer_reply(message.as_mut_ptr(), message.len(), max_size, request.as_ptr(), request.len(), flags, response_code, writer, &mut edns) };
    outcome(number, edns)
}

/// Calls `dnw_writer_reply_edns`.
#[inline]
pub(crate) fn writer_reply_edns(message: &mut [u8], asked: &Edns, max_payload: u16, options: &[u8], block: u16, writer: &mut Writer) -> Result<(), Error> {
    // SAFETY: as the module `ffi` says of each call.
    let number = unsafe { dnw_writer_reply_edns(message.as_mut_ptr(), message.len(), asked, max_payload, options.as_ptr(), options.len(), block, writer) };
    outcome(number, ())
}

/// Calls `dnw_writer_query`.
#[inline]
pub(crate) fn writer_query(message: &mut [u8], max_size: usize, id: u16, recursion_desired: bool, name: &[u8], query_type: RecordType, record_class: Class, max_payload: u16, writer: &mut Writer) -> Result<(), Error> {
    // SAFETY: as the module `ffi` says of each call.
    let number = unsafe { dnw_writer_query(message.as_mut_ptr(), message.len(), max_size, id, recursion_desired, name.as_ptr(), name.len(), query_type.code(), record_class.code(), max_payload, writer) };
    outcome(number, ())
}

/// Calls `dnw_writer_question`.
#[inline]
pub(crate) fn writer_question(message: &mut [u8], name: &[u8], query_type: RecordType, record_class: Class, writer: &mut Writer) -> Result<(), Error> {
    // SAFETY: as the module `ffi` says of each call.
    let number = unsafe { dnw_writer_question(message.as_mut_ptr(), message.len(), name.as_ptr(), name.len(), query_type.code(), record_class.code(), writer) };
    outcome(number, ())
}

/// Calls `dnw_writer_record`.
#[inline]
pub(crate) fn writer_record(message: &mut [u8], section: u32, owner: &[u8], record_type: RecordType, record_class: Class, ttl: u32, data: &[u8], writer: &mut Writer) -> Result<(), Error> {
    // SAFETY: as the module `ffi` says of each call.
    let number = unsafe { dnw_writer_record(message.as_mut_ptr(), message.len(), section, owner.as_ptr(), owner.len(), record_type.code(), record_class.code(), ttl, data.as_ptr(), data.len(), writer) };
    outcome(number, ())
}

/// Calls `dnw_writer_set`.
#[inline]
pub(crate) fn writer_set(message: &mut [u8], section: u32, required: bool, owner: &[u8], record_type: RecordType, record_class: Class, ttl: u32, set: &[u8], writer: &mut Writer) -> Result<(), Error> {
    // SAFETY: as the module `ffi` says of each call.
    let number = unsafe { dnw_writer_set(message.as_mut_ptr(), message.len(), section, required, owner.as_ptr(), owner.len(), record_type.code(), record_class.code(), ttl, set.as_ptr(), set.len(), writer) };
    outcome(number, ())
}

/// Calls `dnw_writer_hold`.
#[inline]
pub(crate) fn writer_hold(octets: usize, writer: &mut Writer) -> Result<(), Error> {
    // SAFETY: as the module `ffi` says of each call.
    let number = unsafe { dnw_writer_hold(octets, writer) };
    outcome(number, ())
}

/// Calls `dnw_writer_release`.
#[inline]
pub(crate) fn writer_release(octets: usize, writer: &mut Writer) -> Result<(), Error> {
    // SAFETY: as the module `ffi` says of each call.
    let number = unsafe { dnw_writer_release(octets, writer) };
    outcome(number, ())
}

/// Calls `dnw_writer_edns`.
#[inline]
pub(crate) fn writer_edns(message: &mut [u8], held: usize, max_payload: u16, rcode_high: u8, version: u8, dnssec_ok: bool, options: &[u8], block: u16, writer: &mut Writer) -> Result<(), Error> {
    // SAFETY: as the module `ffi` says of each call.
    let number = unsafe { dnw_writer_edns(message.as_mut_ptr(), message.len(), held, max_payload, rcode_high, version, dnssec_ok, options.as_ptr(), options.len(), block, writer) };
    outcome(number, ())
}

/// Calls `dnw_writer_last`.
#[inline]
pub(crate) fn writer_last(message: &mut [u8], held: usize, owner: &[u8], record_type: RecordType, record_class: Class, ttl: u32, data: &[u8], writer: &mut Writer) -> Result<(), Error> {
    // SAFETY: as the module `ffi` says of each call.
    let number = unsafe { dnw_writer_last(message.as_mut_ptr(), message.len(), held, owner.as_ptr(), owner.len(), record_type.code(), record_class.code(), ttl, data.as_ptr(), data.len(), writer) };
    outcome(number, ())
}

/// Calls `dnw_writer_fill`.
#[inline]
pub(crate) fn writer_fill(message: &mut [u8], items: &[u8], start: usize, writer: &mut Writer) -> Result<usize, Error> {
    let mut next = 0;
    // SAFETY: as the module `ffi` says of each call.
    let number = unsafe { dnw_writer_fill(message.as_mut_ptr(), message.len(), items.as_ptr(), items.len(), start, writer, &mut next) };
    outcome(number, next)
}

/// Calls `dnw_message_write`.
#[inline]
pub(crate) fn message_write<'b>(items: &[u8], max_size: usize, id: u16, flags: u16, response_code: u16, is_reply: bool, block: u16, message: impl Into<Buffer<'b>>) -> Result<Packed, Error> {
    let message = message.into();
    let mut result = Packed::ZERO;
    // SAFETY: as the module `ffi` says of each call.
    let number = unsafe { dnw_message_write(items.as_ptr(), items.len(), max_size, id, flags, response_code, is_reply, block, message.first, message.size, &mut result) };
    outcome(number, result)
}

/// Calls `dnw_reverse_name`.
#[inline]
pub(crate) fn reverse_name<'b>(address: &[u8], form: impl Into<Buffer<'b>>) -> Result<usize, Error> {
    let form = form.into();
    let mut len = 0;
    // SAFETY: as the module `ffi` says of each call.
    let number = unsafe { dnw_reverse_name(address.as_ptr(), address.len(), form.first, form.size, &mut len) };
    outcome(number, len)
}

/// Calls `dnw_reverse_parse`.
#[inline]
pub(crate) fn reverse_parse<'b>(form: &[u8], address: impl Into<Buffer<'b>>) -> Result<Net, Error> {
    let address = address.into();
    let mut net = Net::ZERO;
    // SAFETY: as the module `ffi` says of each call.
    let number = unsafe { dnw_reverse_parse(form.as_ptr(), form.len(), address.first, address.size, &mut net) };
    outcome(number, net)
}

/// Calls `dnw_name_compare`.
#[inline]
pub(crate) fn name_compare(left: &[u8], right: &[u8]) -> Result<i32, Error> {
    let mut order = 0;
    // SAFETY: as the module `ffi` says of each call.
    let number = unsafe { dnw_name_compare(left.as_ptr(), left.len(), right.as_ptr(), right.len(), &mut order) };
    outcome(number, order)
}

/// Calls `dnw_name_equal`.
#[inline]
pub(crate) fn name_equal(left: &[u8], right: &[u8]) -> Result<bool, Error> {
    let mut is_equal = false;
    // SAFETY: as the module `ffi` says of each call.
    let number = unsafe { dnw_name_equal(left.as_ptr(), left.len(), right.as_ptr(), right.len(), &mut is_equal) };
    outcome(number, is_equal)
}

/// Calls `dnw_name_in_zone`.
#[inline]
pub(crate) fn name_in_zone(name: &[u8], zone: &[u8]) -> Result<bool, Error> {
    let mut is_in_zone = false;
    // SAFETY: as the module `ffi` says of each call.
    let number = unsafe { dnw_name_in_zone(name.as_ptr(), name.len(), zone.as_ptr(), zone.len(), &mut is_in_zone) };
    outcome(number, is_in_zone)
}

/// Calls `dnw_name_to_lowercase`.
#[inline]
pub(crate) fn name_to_lowercase<'b>(form: &[u8], lowered: impl Into<Buffer<'b>>) -> Result<usize, Error> {
    let lowered = lowered.into();
    let mut len = 0;
    // SAFETY: as the module `ffi` says of each call.
    let number = unsafe { dnw_name_to_lowercase(form.as_ptr(), form.len(), lowered.first, lowered.size, &mut len) };
    outcome(number, len)
}

/// Calls `dnw_name_sort_key`.
#[inline]
pub(crate) fn name_sort_key<'b>(form: &[u8], key: impl Into<Buffer<'b>>) -> Result<usize, Error> {
    let key = key.into();
    let mut len = 0;
    // SAFETY: as the module `ffi` says of each call.
    let number = unsafe { dnw_name_sort_key(form.as_ptr(), form.len(), key.first, key.size, &mut len) };
    outcome(number, len)
}

/// Calls `dnw_names_sort`.
#[inline]
pub(crate) fn names_sort(names: &[u8], order: &mut [usize]) -> Result<(), Error> {
    // SAFETY: as the module `ffi` says of each call.
    let number = unsafe { dnw_names_sort(names.as_ptr(), names.len(), order.as_mut_ptr(), order.len()) };
    outcome(number, ())
}

/// Calls `dnw_name_append`.
#[inline]
pub(crate) fn name_append<'b>(name: &[u8], suffix: &[u8], form: impl Into<Buffer<'b>>) -> Result<usize, Error> {
    let form = form.into();
    let mut len = 0;
    // SAFETY: as the module `ffi` says of each call.
    let number = unsafe { dnw_name_append(name.as_ptr(), name.len(), suffix.as_ptr(), suffix.len(), form.first, form.size, &mut len) };
    outcome(number, len)
}

/// Calls `dnw_name_prepend_label`.
#[inline]
pub(crate) fn name_prepend_label<'b>(label: &[u8], name: &[u8], form: impl Into<Buffer<'b>>) -> Result<usize, Error> {
    let form = form.into();
    let mut len = 0;
    // SAFETY: as the module `ffi` says of each call.
    let number = unsafe { dnw_name_prepend_label(label.as_ptr(), label.len(), name.as_ptr(), name.len(), form.first, form.size, &mut len) };
    outcome(number, len)
}

/// Calls `dnw_name_trim`.
#[inline]
pub(crate) fn name_trim<'b>(name: &[u8], labels: usize, form: impl Into<Buffer<'b>>) -> Result<usize, Error> {
    let form = form.into();
    let mut len = 0;
    // SAFETY: as the module `ffi` says of each call.
    let number = unsafe { dnw_name_trim(name.as_ptr(), name.len(), labels, form.first, form.size, &mut len) };
    outcome(number, len)
}

/// Calls `dnw_name_to_wildcard`.
#[inline]
pub(crate) fn name_to_wildcard<'b>(name: &[u8], form: impl Into<Buffer<'b>>) -> Result<usize, Error> {
    let form = form.into();
    let mut len = 0;
    // SAFETY: as the module `ffi` says of each call.
    let number = unsafe { dnw_name_to_wildcard(name.as_ptr(), name.len(), form.first, form.size, &mut len) };
    outcome(number, len)
}

/// Calls `dnw_type_print`.
#[inline]
pub(crate) fn type_print<'b>(code: u16, text: impl Into<Buffer<'b>>) -> Result<usize, Error> {
    let text = text.into();
    let mut len = 0;
    // SAFETY: as the module `ffi` says of each call.
    let number = unsafe { dnw_type_print(code, text.first, text.size, &mut len) };
    outcome(number, len)
}

/// Calls `dnw_type_parse`.
#[inline]
pub(crate) fn type_parse(text: &[u8]) -> Result<u16, Error> {
    let mut code = 0;
    // SAFETY: as the module `ffi` says of each call.
    let number = unsafe { dnw_type_parse(text.as_ptr(), text.len(), &mut code) };
    outcome(number, code)
}

/// Calls `dnw_class_print`.
#[inline]
pub(crate) fn class_print<'b>(code: u16, text: impl Into<Buffer<'b>>) -> Result<usize, Error> {
    let text = text.into();
    let mut len = 0;
    // SAFETY: as the module `ffi` says of each call.
    let number = unsafe { dnw_class_print(code, text.first, text.size, &mut len) };
    outcome(number, len)
}

/// Calls `dnw_class_parse`.
#[inline]
pub(crate) fn class_parse(text: &[u8]) -> Result<u16, Error> {
    let mut code = 0;
    // SAFETY: as the module `ffi` says of each call.
    let number = unsafe { dnw_class_parse(text.as_ptr(), text.len(), &mut code) };
    outcome(number, code)
}

/// Calls `dnw_serial_compare`.
#[inline]
pub(crate) fn serial_compare(left: u32, right: u32) -> Result<i32, Error> {
    let mut order = 0;
    // SAFETY: as the module `ffi` says of each call.
    let number = unsafe { dnw_serial_compare(left, right, &mut order) };
    outcome(number, order)
}

/// Calls `dnw_serial_add`.
#[inline]
pub(crate) fn serial_add(serial: u32, other: u32) -> u32 {
    // SAFETY: as the module `ffi` says of each call.
    unsafe { dnw_serial_add(serial, other) }
}

/// Calls `dnw_types_read`.
#[inline]
pub(crate) fn types_read(bitmap: &[u8], codes: &mut [u16]) -> Result<usize, Error> {
    let mut count = 0;
    // SAFETY: as the module `ffi` says of each call.
    let number = unsafe { dnw_types_read(bitmap.as_ptr(), bitmap.len(), codes.as_mut_ptr(), codes.len(), &mut count) };
    outcome(number, count)
}

/// Calls `dnw_types_write`.
#[inline]
pub(crate) fn types_write<'b>(codes: &[u16], bitmap: impl Into<Buffer<'b>>) -> Result<usize, Error> {
    let bitmap = bitmap.into();
    let mut len = 0;
    // SAFETY: as the module `ffi` says of each call.
    let number = unsafe { dnw_types_write(codes.as_ptr(), codes.len(), bitmap.first, bitmap.size, &mut len) };
    outcome(number, len)
}

/// Calls `dnw_ttl_parse`.
#[inline]
pub(crate) fn ttl_parse(text: &[u8]) -> Result<u32, Error> {
    let mut seconds = 0;
    // SAFETY: as the module `ffi` says of each call.
    let number = unsafe { dnw_ttl_parse(text.as_ptr(), text.len(), &mut seconds) };
    outcome(number, seconds)
}

/// Calls `dnw_token_next`.
#[inline]
pub(crate) fn token_next<'b>(text: &[u8], lexer: &mut Lexer, words: impl Into<Buffer<'b>>) -> Result<Token, Error> {
    let words = words.into();
    let mut token = Token::ZERO;
    // SAFETY: as the module `ffi` says of each call.
    let number = unsafe { dnw_token_next(text.as_ptr(), text.len(), lexer, words.first, words.size, &mut token) };
    outcome(number, token)
}

/// Calls `dnw_error_text`.
#[inline]
pub(crate) fn error_text<'b>(number: u32, text: impl Into<Buffer<'b>>) -> usize {
    let text = text.into();
    // SAFETY: as the module `ffi` says of each call.
    unsafe { dnw_error_text(number, text.first, text.size) }
}

/// Calls `dnw_version`.
#[inline]
pub(crate) fn version() -> u32 {
    // SAFETY: as the module `ffi` says of each call.
    unsafe { dnw_version() }
}
