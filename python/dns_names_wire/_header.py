# made by tools/types from include/dns_names_wire.h; change it there
"""The constants, structs and functions of the C library, as its header declares them."""

from ctypes import POINTER, Structure, c_bool, c_char_p, c_int32, c_size_t, c_uint8, c_uint16, c_uint32, c_void_p

VERSION = 0x000100
FORM_SIZE = 255
SORT_KEY_SIZE = 504
TEXT_SIZE = 1004
CODE_SIZE = 10
SENTENCE_SIZE = 160
NSEC3_HASH_SIZE = 20
NSEC3_LABEL_SIZE = 32
DIGEST_SIZE = 64
HEADER_SIZE = 12
MAX_POINTERS = 65536
ZONE_OCTETS_SIZE = 65800
EDNS_SIZE = 11
DONE = 0
NO_MEMORY = 1
NO_ROOM = 2
MESSAGE_CUT = 3
POINTER_NOT_BACK = 4
RESERVED_OCTET = 5
SEGMENTS_OVERLAP = 6
NAME_TOO_LONG = 7
LABEL_TOO_LONG = 8
BAD_TEXT = 9
NOT_UTF8 = 10
BYTES_LEFT = 11
MESSAGE_TOO_LONG = 12
OTHER = 13
UNKNOWN_TEXT = 14
NOT_ORDERED = 15
BAD_BITMAP = 16
BAD_TIME = 17
TEXT_CUT = 18
ILLEGAL_CHARACTER = 19
CONTROL_CHARACTER = 20
UNCLOSED_LIST = 21
UNCLOSED_QUOTE = 22
UNKNOWN_ENTRY = 23
WRONG_DATA_LENGTH = 24
BAD_ADDRESS = 25
NOT_REVERSE = 26
BAD_ITEM = 27
EMPTY_LABEL = 28
BAD_ESCAPE = 29
TOO_MANY_POINTERS = 30
DUPLICATE_EDNS = 31
OWNER_NOT_ROOT = 32
CUT_OPTION = 33
BAD_PARAMS = 34
BAD_DATA = 35
NOT_RRSIG = 36
NOT_COVERED = 37
TOO_FEW_LABELS = 38
DATA_TOO_LONG = 39
OUTSIDE_ADDITIONALS = 40
NOT_DNSKEY = 41
UNKNOWN_ALGORITHM = 42
TOO_MANY_ITERATIONS = 43
BAD_FAMILY = 44
SECTION_HEADER = 0
SECTION_QUESTIONS = 1
SECTION_ANSWERS = 2
SECTION_AUTHORITIES = 3
SECTION_ADDITIONALS = 4
LIST_QUESTION = 0
LIST_ANSWER = 1
LIST_AUTHORITY = 2
LIST_ADDITIONAL = 3
LIST_REQUIRED = 0x20
LIST_OPTIONAL = 0x80
ZONE_END = 0
ZONE_MORE = 1
ZONE_NOTHING = 2
ZONE_RECORD = 3
ZONE_INCLUDE = 4
ZONE_ERROR = 5


class ReadName(Structure):
    _fields_ = [
        ("len", c_size_t), ("end", c_size_t),
    ]


class ParsedName(Structure):
    _fields_ = [
        ("len", c_size_t), ("is_fqdn", c_bool),
    ]


class WrittenNames(Structure):
    _fields_ = [
        ("len", c_size_t), ("count", c_size_t),
    ]


class Record(Structure):
    _fields_ = [
        ("owner_len", c_size_t), ("record_type", c_uint16), ("record_class", c_uint16), ("ttl", c_uint32),
        ("data_offset", c_size_t), ("data_len", c_size_t), ("end", c_size_t),
    ]


class Message(Structure):
    _fields_ = [
        ("id", c_uint16), ("is_response", c_bool), ("op_code", c_uint8), ("authoritative", c_bool),
        ("truncation", c_bool), ("recursion_desired", c_bool), ("recursion_available", c_bool),
        ("authentic_data", c_bool), ("checking_disabled", c_bool), ("response_code", c_uint16),
        ("question_count", c_uint16), ("answer_count", c_uint16), ("authority_count", c_uint16),
        ("additional_count", c_uint16), ("answers", c_size_t), ("authorities", c_size_t), ("additionals", c_size_t),
        ("end", c_size_t),
    ]


class MessageFault(Structure):
    _fields_ = [
        ("section", c_uint32), ("item", c_uint16), ("offset", c_size_t),
    ]


class Edns(Structure):
    _fields_ = [
        ("is_present", c_bool), ("dnssec_ok", c_bool), ("version", c_uint8), ("takes_records", c_bool),
        ("max_payload", c_uint16), ("response_code", c_uint16), ("options_offset", c_size_t), ("options_len", c_size_t),
    ]


class Option(Structure):
    _fields_ = [
        ("is_given", c_bool), ("source", c_uint8), ("scope", c_uint8), ("labels", c_uint8), ("version_type", c_uint8),
        ("family", c_uint16), ("timeout", c_uint16), ("info_code", c_uint16), ("seconds", c_uint32),
        ("client", c_uint8 * 8), ("offset", c_size_t), ("len", c_size_t),
    ]


class Packed(Structure):
    _fields_ = [
        ("len", c_size_t), ("truncated", c_bool),
    ]


class Fields(Structure):
    _fields_ = [
        ("offset", c_size_t), ("number", c_size_t),
    ]


class Field(Structure):
    _fields_ = [
        ("kind", c_uint32), ("offset", c_size_t), ("len", c_size_t),
    ]


class Row(Structure):
    _fields_ = [
        ("section", c_uint32), ("kind", c_uint32), ("record_type", c_uint16), ("record_class", c_uint16),
        ("number", c_uint32), ("offset", c_size_t), ("len", c_size_t), ("name", c_size_t), ("name_len", c_size_t),
    ]


class Table(Structure):
    _fields_ = [
        ("row_count", c_size_t), ("names_len", c_size_t),
    ]


class PrintedRecord(Structure):
    _fields_ = [
        ("len", c_size_t), ("end", c_size_t),
    ]


class PrintedPart(Structure):
    _fields_ = [
        ("len", c_size_t), ("total", c_size_t),
    ]


class TextFault(Structure):
    _fields_ = [
        ("offset", c_size_t), ("len", c_size_t), ("field", c_size_t), ("reason", c_uint32),
    ]


class Zone(Structure):
    _fields_ = [
        ("offset", c_size_t), ("line", c_size_t), ("column", c_size_t), ("default_ttl", c_uint32),
        ("last_ttl", c_uint32), ("fallback_ttl", c_uint32), ("generate_limit", c_uint32), ("generate_next", c_uint32),
        ("record_class", c_uint16), ("has_default_ttl", c_uint8), ("has_last_ttl", c_uint8),
        ("has_fallback_ttl", c_uint8), ("has_generate_next", c_uint8), ("origin_len", c_uint8), ("owner_len", c_uint8),
        ("origin", c_uint8 * FORM_SIZE), ("owner", c_uint8 * FORM_SIZE),
    ]


class ZoneEntry(Structure):
    _fields_ = [
        ("kind", c_uint32), ("used", c_size_t), ("offset", c_size_t), ("line", c_size_t), ("column", c_size_t),
        ("fault", TextFault), ("len", c_size_t), ("name_len", c_size_t), ("data_len", c_size_t), ("ttl", c_uint32),
        ("record_type", c_uint16), ("record_class", c_uint16),
    ]


class ZoneRow(Structure):
    _fields_ = [
        ("offset", c_size_t), ("start", c_size_t), ("len", c_size_t), ("name_len", c_size_t), ("data_len", c_size_t),
        ("ttl", c_uint32), ("record_type", c_uint16), ("record_class", c_uint16),
    ]


class RowsRead(Structure):
    _fields_ = [
        ("used", c_size_t), ("row_count", c_size_t), ("octets_len", c_size_t), ("next", c_uint32),
    ]


class ZoneFinding(Structure):
    _fields_ = [
        ("check", c_uint32), ("is_error", c_bool), ("number", c_size_t), ("other", c_size_t),
    ]


class Writer(Structure):
    _fields_ = [
        ("len", c_size_t), ("max_size", c_size_t), ("reserved", c_size_t), ("owner", c_uint16), ("rank", c_uint8),
        ("has_opt", c_uint8), ("hints", c_uint16 * 512),
    ]


class Net(Structure):
    _fields_ = [
        ("len", c_size_t), ("prefix_len", c_uint8),
    ]


class Lexer(Structure):
    _fields_ = [
        ("offset", c_size_t), ("at_line_start", c_bool),
    ]


class Token(Structure):
    _fields_ = [
        ("kind", c_uint32), ("len", c_size_t), ("count", c_size_t),
    ]


# What each function takes. It returns the number of a failure, or the length of a text.
FUNCTIONS = {
    "dnw_name_read": (c_char_p, c_size_t, c_size_t, c_char_p, c_size_t, POINTER(ReadName)),
    "dnw_name_read_text": (c_char_p, c_size_t, c_size_t, c_char_p, c_size_t, POINTER(ReadName)),
    "dnw_name_parse": (c_char_p, c_size_t, c_char_p, c_size_t, c_char_p, c_size_t, POINTER(ParsedName)),
    "dnw_name_text_fault": (c_char_p, c_size_t, c_char_p, c_size_t, POINTER(c_size_t)),
    "dnw_name_print": (c_char_p, c_size_t, c_bool, c_char_p, c_size_t, POINTER(c_size_t)),
    "dnw_names_write": (c_char_p, c_size_t, c_uint16, c_char_p, c_size_t, POINTER(WrittenNames)),
    "dnw_record_read": (c_char_p, c_size_t, c_size_t, c_char_p, c_size_t, POINTER(Record)),
    "dnw_record_data_name": (c_char_p, c_size_t, c_size_t, c_size_t, c_char_p, c_size_t, POINTER(c_size_t)),
    "dnw_message_read": (c_char_p, c_size_t, c_size_t, POINTER(Message), POINTER(MessageFault)),
    "dnw_is_reply_to": (c_char_p, c_size_t, c_char_p, c_size_t, POINTER(c_bool)),
    "dnw_edns_read": (c_char_p, c_size_t, c_size_t, POINTER(Edns)),
    "dnw_option_print": (c_uint16, c_char_p, c_size_t, c_char_p, c_size_t, POINTER(c_size_t)),
    "dnw_option_read": (c_uint16, c_char_p, c_size_t, POINTER(Option)),
    "dnw_option_write": (c_uint16, POINTER(Option), c_char_p, c_size_t, c_char_p, c_size_t, POINTER(c_size_t)),
    "dnw_message_pack": (c_char_p, c_size_t, c_uint16, c_uint16, c_char_p, c_size_t, POINTER(Packed)),
    "dnw_field_next": (c_char_p, c_size_t, c_size_t, c_uint16, c_uint16, POINTER(Fields), POINTER(Field)),
    "dnw_message_table": (c_char_p, c_size_t, c_size_t, c_void_p, c_size_t, c_char_p, c_size_t, POINTER(Table)),
    "dnw_record_data": (c_char_p, c_size_t, c_size_t, c_char_p, c_size_t, POINTER(c_size_t)),
    "dnw_record_print": (c_char_p, c_size_t, c_size_t, c_char_p, c_size_t, POINTER(PrintedRecord)),
    "dnw_message_print": (c_char_p, c_size_t, c_size_t, c_size_t, c_char_p, c_size_t, POINTER(PrintedPart)),
    "dnw_message_json": (c_char_p, c_size_t, c_size_t, c_size_t, c_char_p, c_size_t, POINTER(PrintedPart)),
    "dnw_data_parse": (
        c_uint16, c_uint16, c_char_p, c_size_t, c_char_p, c_size_t, c_char_p, c_size_t, POINTER(c_size_t),
    ),
    "dnw_record_parse": (c_char_p, c_size_t, c_char_p, c_size_t, c_char_p, c_size_t, POINTER(c_size_t)),
    "dnw_record_text_fault": (c_char_p, c_size_t, c_char_p, c_size_t, POINTER(TextFault)),
    "dnw_data_text_fault": (c_uint16, c_uint16, c_char_p, c_size_t, c_char_p, c_size_t, POINTER(TextFault)),
    "dnw_text_fault_print": (POINTER(TextFault), c_char_p, c_size_t, POINTER(c_size_t)),
    "dnw_zone_begin": (c_char_p, c_size_t, POINTER(Zone)),
    "dnw_zone_include": (c_char_p, c_size_t, POINTER(Zone)),
    "dnw_zone_next": (c_char_p, c_size_t, c_bool, POINTER(Zone), c_char_p, c_size_t, POINTER(ZoneEntry)),
    "dnw_zone_read": (
        c_char_p, c_size_t, c_bool, POINTER(Zone), c_void_p, c_size_t, c_char_p, c_size_t, POINTER(RowsRead),
    ),
    "dnw_zone_put_record": (c_char_p, c_size_t, c_size_t, POINTER(Zone), c_char_p, c_size_t, POINTER(PrintedRecord)),
    "dnw_zone_put_origin": (c_char_p, c_size_t, POINTER(Zone), c_char_p, c_size_t, POINTER(c_size_t)),
    "dnw_zone_put_ttl": (c_uint32, POINTER(Zone), c_char_p, c_size_t, POINTER(c_size_t)),
    "dnw_zone_check": (c_char_p, c_size_t, c_char_p, c_size_t, c_void_p, c_size_t, POINTER(c_size_t)),
    "dnw_signed_octets": (c_char_p, c_size_t, c_size_t, c_size_t, c_char_p, c_size_t, POINTER(c_size_t)),
    "dnw_record_sort_key": (c_char_p, c_size_t, c_size_t, c_char_p, c_size_t, POINTER(c_size_t)),
    "dnw_key_tag": (c_char_p, c_size_t, POINTER(c_uint16)),
    "dnw_ds_digest": (c_char_p, c_size_t, c_char_p, c_size_t, c_uint8, c_char_p, c_size_t, POINTER(c_size_t)),
    "dnw_nsec3_hash": (
        c_char_p, c_size_t, c_uint8, c_uint16, c_char_p, c_size_t, c_uint16, c_char_p, c_size_t, POINTER(c_size_t),
    ),
    "dnw_nsec3_label": (
        c_char_p, c_size_t, c_uint8, c_uint16, c_char_p, c_size_t, c_uint16, c_char_p, c_size_t, POINTER(c_size_t),
    ),
    "dnw_nsec_covers": (c_char_p, c_size_t, c_char_p, c_size_t, c_char_p, c_size_t, POINTER(c_bool)),
    "dnw_nsec3_covers": (c_char_p, c_size_t, c_char_p, c_size_t, c_char_p, c_size_t, POINTER(c_bool)),
    "dnw_zone_digest": (c_char_p, c_size_t, c_char_p, c_size_t, c_uint8, c_char_p, c_size_t, POINTER(c_size_t)),
    "dnw_writer_begin": (c_char_p, c_size_t, c_size_t, c_uint16, c_uint16, POINTER(Writer)),
    "dnw_writer_reply": (
        c_char_p, c_size_t, c_size_t, c_char_p, c_size_t, c_uint16, c_uint16, POINTER(Writer), POINTER(Edns),
    ),
    "dnw_writer_reply_edns": (
        c_char_p, c_size_t, POINTER(Edns), c_uint16, c_char_p, c_size_t, c_uint16, POINTER(Writer),
    ),
    "dnw_writer_query": (
        c_char_p, c_size_t, c_size_t, c_uint16, c_bool, c_char_p, c_size_t, c_uint16, c_uint16, c_uint16,
        POINTER(Writer),
    ),
    "dnw_writer_question": (c_char_p, c_size_t, c_char_p, c_size_t, c_uint16, c_uint16, POINTER(Writer)),
    "dnw_writer_record": (
        c_char_p, c_size_t, c_uint32, c_char_p, c_size_t, c_uint16, c_uint16, c_uint32, c_char_p, c_size_t,
        POINTER(Writer),
    ),
    "dnw_writer_set": (
        c_char_p, c_size_t, c_uint32, c_bool, c_char_p, c_size_t, c_uint16, c_uint16, c_uint32, c_char_p, c_size_t,
        POINTER(Writer),
    ),
    "dnw_writer_hold": (c_size_t, POINTER(Writer)),
    "dnw_writer_release": (c_size_t, POINTER(Writer)),
    "dnw_writer_edns": (
        c_char_p, c_size_t, c_size_t, c_uint16, c_uint8, c_uint8, c_bool, c_char_p, c_size_t, c_uint16, POINTER(Writer),
    ),
    "dnw_writer_last": (
        c_char_p, c_size_t, c_size_t, c_char_p, c_size_t, c_uint16, c_uint16, c_uint32, c_char_p, c_size_t,
        POINTER(Writer),
    ),
    "dnw_writer_fill": (c_char_p, c_size_t, c_char_p, c_size_t, c_size_t, POINTER(Writer), POINTER(c_size_t)),
    "dnw_message_write": (
        c_char_p, c_size_t, c_size_t, c_uint16, c_uint16, c_uint16, c_bool, c_uint16, c_char_p, c_size_t,
        POINTER(Packed),
    ),
    "dnw_reverse_name": (c_char_p, c_size_t, c_char_p, c_size_t, POINTER(c_size_t)),
    "dnw_reverse_parse": (c_char_p, c_size_t, c_char_p, c_size_t, POINTER(Net)),
    "dnw_name_compare": (c_char_p, c_size_t, c_char_p, c_size_t, POINTER(c_int32)),
    "dnw_name_equal": (c_char_p, c_size_t, c_char_p, c_size_t, POINTER(c_bool)),
    "dnw_name_in_zone": (c_char_p, c_size_t, c_char_p, c_size_t, POINTER(c_bool)),
    "dnw_name_to_lowercase": (c_char_p, c_size_t, c_char_p, c_size_t, POINTER(c_size_t)),
    "dnw_name_sort_key": (c_char_p, c_size_t, c_char_p, c_size_t, POINTER(c_size_t)),
    "dnw_names_sort": (c_char_p, c_size_t, c_void_p, c_size_t),
    "dnw_name_append": (c_char_p, c_size_t, c_char_p, c_size_t, c_char_p, c_size_t, POINTER(c_size_t)),
    "dnw_name_prepend_label": (c_char_p, c_size_t, c_char_p, c_size_t, c_char_p, c_size_t, POINTER(c_size_t)),
    "dnw_name_trim": (c_char_p, c_size_t, c_size_t, c_char_p, c_size_t, POINTER(c_size_t)),
    "dnw_name_to_wildcard": (c_char_p, c_size_t, c_char_p, c_size_t, POINTER(c_size_t)),
    "dnw_type_print": (c_uint16, c_char_p, c_size_t, POINTER(c_size_t)),
    "dnw_type_parse": (c_char_p, c_size_t, POINTER(c_uint16)),
    "dnw_class_print": (c_uint16, c_char_p, c_size_t, POINTER(c_size_t)),
    "dnw_class_parse": (c_char_p, c_size_t, POINTER(c_uint16)),
    "dnw_serial_compare": (c_uint32, c_uint32, POINTER(c_int32)),
    "dnw_serial_add": (c_uint32, c_uint32),
    "dnw_types_read": (c_char_p, c_size_t, c_void_p, c_size_t, POINTER(c_size_t)),
    "dnw_types_write": (c_void_p, c_size_t, c_char_p, c_size_t, POINTER(c_size_t)),
    "dnw_ttl_parse": (c_char_p, c_size_t, POINTER(c_uint32)),
    "dnw_token_next": (c_char_p, c_size_t, POINTER(Lexer), c_char_p, c_size_t, POINTER(Token)),
    "dnw_error_text": (c_uint32, c_char_p, c_size_t),
    "dnw_version": (),
}
