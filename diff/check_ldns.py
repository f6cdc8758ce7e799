"""Compares the rows of texts of the types that dnspython does not know with ldns (Debian's libldns-dev): `python3 diff/check_ldns.py`.

MD, MF, MB, MG, MR and MINFO (RFC 1035, section 3.3) and NULL: ldns parses each row's text as the row's octets, and prints them as that
text."""

import ctypes
import pathlib
import re
import sys

LDNS = ctypes.CDLL("libldns.so")
for function in (LDNS.ldns_rr2str, LDNS.ldns_buffer_new):
    function.restype = ctypes.c_void_p
TYPES = {3: "MD", 4: "MF", 7: "MB", 8: "MG", 9: "MR", 10: "NULL", 14: "MINFO"}
FILES = [pathlib.Path(__file__).resolve().parent / path for path in ("rows/data_texts.txt", "lists/data_texts.txt")]


class Buffer(ctypes.Structure):
    """The first fields of a buffer of ldns."""

    _fields_ = [("len", ctypes.c_size_t), ("limit", ctypes.c_size_t), ("capacity", ctypes.c_size_t), ("data", ctypes.c_void_p)]


def of_ldns(kind, text):
    """The octets that ldns parses a text as, and the text that it prints for them."""
    rr, line = ctypes.c_void_p(), f". 0 IN {TYPES[kind]} {text}".encode()
    status = LDNS.ldns_rr_new_frm_str(ctypes.byref(rr), line, 0, None, None)
    if status != 0:
        sys.exit(f"check_ldns: {line}: status {status}")
    buffer = ctypes.c_void_p(LDNS.ldns_buffer_new(ctypes.c_size_t(1 << 16)))
    LDNS.ldns_rr_rdata2buffer_wire(buffer, rr)
    made = ctypes.cast(buffer, ctypes.POINTER(Buffer)).contents
    printed = ctypes.string_at(LDNS.ldns_rr2str(rr)).decode()
    return ctypes.string_at(made.data, made.len), printed.split(None, 4)[4].strip()


def main():
    counts = dict.fromkeys(TYPES, 0)
    for line in (line for file in FILES for line in file.read_text().splitlines()):
        row = re.fullmatch(r"data-text (\d+) ([0-9a-f]+) = (.*)", line)
        if row and int(row[1]) in TYPES:
            kind, octets, text = int(row[1]), bytes.fromhex(row[2]), row[3]
            if of_ldns(kind, text) != (octets, text):
                sys.exit(f"check_ldns: {line}: {of_ldns(kind, text)}")
            counts[kind] += 1
    print("check_ldns: the same for ldns: " + ", ".join(f"{count} of {TYPES[kind]}" for kind, count in counts.items()))


if __name__ == "__main__":
    main()
