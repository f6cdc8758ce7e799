"""Calls each function of include/dns_names_wire.h with null pointers for inputs and buffers of no octets: `check_null.py LIBRARY`.

The compiled functions take a null pointer to no octets as any other, which no proof says: their types know no such pointer. Each
function is called with arguments by which it succeeds. Then each of its pointers with a length or a size is given the size 0, once
with a pointer to octets and once null: what the function returns and stores must be the same."""

import ctypes
import pathlib
import re
import sys

HEADER = pathlib.Path(__file__).parent.parent / "include/dns_names_wire.h"
ROOM = 70000
NAME = b"\3www\7example\0"
ZONE = b"\7example\0"


def record(owner, code, data, ttl=60):
    return owner + code.to_bytes(2, "big") + b"\0\1" + ttl.to_bytes(4, "big") + len(data).to_bytes(2, "big") + data


QUERY = bytes.fromhex("04d2010000010000000000000000"[:24]) + NAME + b"\0\1\0\1"
ADDRESS = record(NAME, 1, b"\xc0\0\2\1")
MESSAGE = bytes.fromhex("04d2850000010001") + b"\0\0\0\1" + QUERY[12:] + ADDRESS + bytes.fromhex("00002904d0000080000000")
RRSIG = record(NAME, 46, b"\0\1\x0d\2" + (60).to_bytes(4, "big") + b"\x60\0\0\0\x50\0\0\0\0\7" + ZONE)
SIGNED = bytes.fromhex("04d285000000000200000000") + RRSIG + ADDRESS
SOA = record(ZONE, 6, b"\0\0" + bytes(20))
KEY = b"\1\1\3\x0d" + bytes(64)
# What the pointers of a function lead to if they are no names, and what its numbers are if they are not 0, by function and parameter.
SAMPLES = {
    "dnw_name_read": {"message": MESSAGE, "start": 12},
    "dnw_name_read_text": {"message": MESSAGE, "start": 12},
    "dnw_name_parse": {"text": b"www"},
    "dnw_name_text_fault": {"text": b"a..b"},
    "dnw_names_write": {"names": NAME + ZONE, "max_size": 512},
    "dnw_record_read": {"message": MESSAGE, "start": 29},
    "dnw_record_data_name": {"message": QUERY, "data_offset": 12, "data_len": 13},
    "dnw_message_read": {"message": MESSAGE, "max_pointers": 100},
    "dnw_is_reply_to": {"request": QUERY, "response": MESSAGE},
    "dnw_edns_read": {"message": MESSAGE, "max_pointers": 100},
    "dnw_option_print": {"code": 3, "data": b"ns1"},
    "dnw_option_read": {"code": 15, "data": b"\0\1why"},
    "dnw_option_write": {"code": 15, "rest": b"why"},
    "dnw_message_pack": {"message": MESSAGE, "max_size": 512},
    "dnw_field_next": {"message": QUERY, "data_offset": 12, "data_end": 25, "record_class": 1, "record_type": 2},
    "dnw_message_table": {"message": MESSAGE, "max_pointers": 100},
    "dnw_record_data": {"message": MESSAGE, "start": 29},
    "dnw_record_print": {"message": MESSAGE, "start": 29},
    "dnw_message_print": {"message": MESSAGE, "max_pointers": 100},
    "dnw_message_json": {"message": MESSAGE, "max_pointers": 100},
    "dnw_data_parse": {"record_class": 1, "record_type": 15, "text": b"10 mail"},
    "dnw_record_parse": {"text": b"www 60 IN MX 10 mail"},
    "dnw_record_text_fault": {"text": b"www 60 IN MX mail"},
    "dnw_data_text_fault": {"record_class": 1, "record_type": 15, "text": b"mail"},
    "dnw_text_fault_print": {"fault": b"\1"},
    "dnw_zone_next": {"text": b"www 60 IN MX 10 mail\n"},
    "dnw_zone_read": {"text": b"www 60 IN MX 10 mail\n"},
    "dnw_zone_put_record": {"message": MESSAGE, "start": 29},
    "dnw_zone_check": {"zone": ZONE, "records": SOA + ADDRESS},
    "dnw_signed_octets": {"message": SIGNED, "section_end": len(SIGNED), "start": 12, "rrsig": 12},
    "dnw_record_sort_key": {"message": MESSAGE, "start": 29},
    "dnw_key_tag": {"dnskey": KEY},
    "dnw_ds_digest": {"dnskey": KEY, "digest_type": 2},
    "dnw_nsec3_hash": {"algorithm": 1, "salt": b"\xaa"},
    "dnw_nsec3_label": {"algorithm": 1, "salt": b"\xaa"},
    "dnw_nsec3_covers": {"own": bytes(20), "next": b"\xff" * 20, "hash": b"\1" * 20},
    "dnw_zone_digest": {"records": SOA + ADDRESS, "algorithm": 1},
    "dnw_writer_begin": {"max_size": 512},
    "dnw_writer_reply": {"max_size": 512, "request": QUERY},
    "dnw_writer_reply_edns": {"asked": b"\1", "options": b"\0\3\0\0"},
    "dnw_writer_query": {"max_size": 512},
    "dnw_writer_record": {"section": 2, "record_type": 1, "record_class": 1, "data": b"\xc0\0\2\1"},
    "dnw_writer_set": {"section": 2, "record_type": 1, "record_class": 1, "set": b"\0\4\xc0\0\2\1"},
    "dnw_writer_fill": {"items": b"\1" + ADDRESS},
    "dnw_writer_edns": {"options": b"\0\3\0\0"},
    "dnw_writer_last": {"record_type": 1, "record_class": 1, "data": b"\xc0\0\2\1"},
    "dnw_message_write": {"items": b"\1" + ADDRESS, "max_size": 512},
    "dnw_reverse_name": {"address": b"\xc0\0\2\1"},
    "dnw_reverse_parse": {"form": b"\x011\x012\x010\x03192\7in-addr\4arpa\0"},
    "dnw_name_prepend_label": {"label": b"a"},
    "dnw_type_parse": {"text": b"MX"},
    "dnw_class_parse": {"text": b"IN"},
    "dnw_types_read": {"bitmap": b"\0\1\x40"},
    "dnw_types_write": {"codes": b"\1\0\2\0"},
    "dnw_ttl_parse": {"text": b"1h"},
    "dnw_token_next": {"text": b"a b"},
    "dnw_error_text": {"number": 1},
}


# What finds a fault returns its number, and dnw_error_text the length of a text.
NOT_DONE = ("dnw_name_text_fault", "dnw_error_text")
# What pointers with a number after them lead to.
COUNTED = ("uint8_t", "uint16_t", "size_t", "struct dnw_row", "struct dnw_zone_finding", "struct dnw_zone_row")
SCALARS = {
    "bool": ctypes.c_bool,
    "uint8_t": ctypes.c_uint8,
    "uint16_t": ctypes.c_uint16,
    "uint32_t": ctypes.c_uint32,
    "size_t": ctypes.c_size_t,
}


class Parameter:
    """A parameter of a function: a number, or a pointer, which may have a number of items after it."""

    def __init__(self, text):
        self.name = re.search(r"\w+$", text)[0]
        self.is_pointer, self.is_input = "*" in text, text.startswith("const")
        self.type = text[: -len(self.name)].replace("const", "").replace("*", "").strip()
        self.has_length = False

    def follows(self, pointer):
        """Returns True if this is the number of items that the pointer before it leads to."""
        return pointer.is_pointer and pointer.type in COUNTED and self.type == "size_t" and not self.is_pointer


def functions():
    """The functions of the header, each with its parameters."""
    text = re.sub(r"/\*.*?\*/", "", HEADER.read_text(), flags=re.S)
    for name, listed in re.findall(r"\b(dnw_\w+)\(([^;{]*?)\);", text, re.S):
        parameters = [Parameter(" ".join(it.split())) for it in listed.split(",") if it != "void"]
        for pointer, number in zip(parameters, parameters[1:]):
            pointer.has_length = number.follows(pointer)
        yield name, parameters


def octets_of(name, parameter):
    """What a pointer leads to before a call: a sample or a name if it is read, else octets that are 0."""
    given = SAMPLES.get(name, {}).get(parameter.name, NAME if parameter.has_length else b"")
    return (given if parameter.is_input else b"").ljust(0 if parameter.is_input and parameter.has_length else ROOM, b"\0")


def begun(library, name, rooms):
    """Fills in the state that a writer or a reader of zones begins with."""
    size = ctypes.c_size_t
    if "writer" in rooms and name != "dnw_writer_begin":
        library.dnw_writer_begin(rooms["message"], size(ROOM), size(512), 1, 0, rooms["writer"])
    if isinstance(rooms.get("zone"), ctypes.Array) and name not in ("dnw_zone_begin", "dnw_zone_check", "dnw_name_in_zone"):
        library.dnw_zone_begin(ZONE, size(len(ZONE)), rooms["zone"])


def called(library, name, parameters, emptied=None, is_null=False):
    """What a function returns, and what all that its pointers lead to is then. One pointer may be emptied, and null."""
    before = {it.name: octets_of(name, it) for it in parameters if it.is_pointer}
    rooms = {which: ctypes.create_string_buffer(octets, max(len(octets), 1)) for which, octets in before.items()}
    begun(library, name, rooms)
    arguments, length = [], None
    for it in parameters:
        if it.is_pointer:
            length = None
            if it.has_length:
                unit = {"uint8_t": 1, "uint16_t": 2, "size_t": 8}.get(it.type, 64)
                length = 0 if it is emptied else len(octets_of(name, it)) // unit
            arguments.append(None if it is emptied and is_null else rooms[it.name])
        else:
            value = length if length is not None else SAMPLES.get(name, {}).get(it.name, 0)
            arguments.append(SCALARS[it.type](value))
            length = None
    result = getattr(library, name)(*arguments)
    return result, [room.raw for room in rooms.values()]


def main():
    library, count = ctypes.CDLL(sys.argv[1]), 0
    for name, parameters in functions():
        if not any(it.has_length for it in parameters):
            continue
        result, _ = called(library, name, parameters)
        if (result != 0) != (name in NOT_DONE):
            sys.exit(f"{name} returns {result}")
        for it in (it for it in parameters if it.has_length):
            if called(library, name, parameters, it) != called(library, name, parameters, it, is_null=True):
                sys.exit(f"{name} returns or stores something else if {it.name} is null")
            count += 1
    print(f"check_null: {count} pointers of the functions of the header")


if __name__ == "__main__":
    main()
