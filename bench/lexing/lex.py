"""Lexes the file that is named, and prints the sum over its tokens: 1 and the bytes of its texts for each.

It calls the C function by ctypes, as the package calls others. The folder DNW_LIB_DIR has the shared library.
"""

import ctypes
import os
import pathlib
import sys


class Lexer(ctypes.Structure):
    _fields_ = [("offset", ctypes.c_size_t), ("at_line_start", ctypes.c_bool)]


class Token(ctypes.Structure):
    _fields_ = [("kind", ctypes.c_uint32), ("len", ctypes.c_size_t), ("count", ctypes.c_size_t)]


def tokens(text):
    """The texts of each token, in UTF-8; those of a list have a zero byte after each."""
    library = ctypes.CDLL(str(pathlib.Path(os.environ["DNW_LIB_DIR"]) / "libdns_names_wire.so"))
    written = ctypes.c_char_p, ctypes.c_size_t
    library.dnw_token_next.argtypes = (*written, ctypes.POINTER(Lexer), *written, ctypes.POINTER(Token))
    lexer, token, room = Lexer(0, True), Token(), (ctypes.c_char * max(len(text), 1))()
    while True:
        failure = library.dnw_token_next(text, len(text), ctypes.byref(lexer), room, len(room), ctypes.byref(token))
        if failure:
            sys.exit(f"lex: failure {failure} after {lexer.offset} bytes")
        if token.kind == 0:
            return
        yield token.kind, room[: token.len]


LIST = 2
with open(sys.argv[1], "rb") as file:
    octets = file.read()
# The zero bytes of a list are not part of its texts.
print(sum(1 + len(own) - (own.count(b"\0") if kind == LIST else 0) for kind, own in tokens(octets)))
