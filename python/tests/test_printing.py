"""Messages as text and as JSON: those of diff/dnw.txt, which has what the program prints, and of diff/servers/replies.txt, which has what
`dig` does."""

import json
import re
import unicodedata
import unittest
from pathlib import Path

from dns_names_wire import Edns, ExtendedError, Message, Name, Nsid, RecordType

DIFF = Path(__file__).resolve().parents[2] / "diff"
# Characters that end a line, or that turn the direction of text.
TURNS = "\u061c\u200e\u200f\u2028\u2029\u202a\u202b\u202c\u202d\u202e\u2066\u2067\u2068\u2069"


def lines(name):
    return [line for line in (DIFF / name).read_text(encoding="utf-8").split("\n") if line and line[0] != "#"]


def is_plain(text):
    """Whether no character is for control but line feed and tab, or turns the direction of text."""
    return all(it in "\n\t" or (unicodedata.category(it) != "Cc" and it not in TURNS) for it in text)


class Printing(unittest.TestCase):
    @unittest.skipUnless(DIFF.is_dir(), "only the repository has the rows")
    def test_messages_are_printed_as_the_program_prints_them(self):
        rows = 0
        for line in lines("dnw.txt"):
            found = re.fullmatch(r"message (--json )?([0-9a-f]+)( --json)? = 0 (.*)", line)
            if found:
                message, text = Message.from_wire(bytes.fromhex(found[2])), found[4].replace("//", "\n")
                printed = message.to_json() if found[1] or found[3] else str(message)
                self.assertEqual(printed, text)
                self.assertTrue(is_plain(printed), line)
                rows += 1
        self.assertGreaterEqual(rows, 10)

    @unittest.skipUnless(DIFF.is_dir(), "only the repository has the rows")
    def test_replies_are_printed_as_dig_prints_them(self):
        for line in lines("servers/replies.txt"):
            _, digits, text = line.split(" ", 2)
            self.assertEqual(str(Message.from_wire(bytes.fromhex(digits))), text.replace("|", "\n"))

    def test_what_is_printed_has_no_control_characters(self):
        for text in [*TURNS, "\x1b[31m\r\n\t\x7f\x9b", "\0"]:
            octets = bytes(range(1, 50)) + bytes(range(127, 141))
            options = [ExtendedError(6, text), Nsid(octets)]
            message = Message.query(Name.from_labels([octets]), RecordType.A, id=7, edns=Edns(options=options))
            self.assertTrue(is_plain(str(message)), str(message))
            self.assertTrue(is_plain(message.to_json()), message.to_json())
            self.assertEqual(json.loads(message.to_json())["EDNS"]["options"][0], str(message).split("\n")[5][2:])

    def test_what_follows_a_message_is_printed(self):
        octets = Message.query("a.", RecordType.A, id=7).to_wire()
        self.assertTrue(str(Message.from_wire(octets + b"ab")).endswith("\n\n;; WARNING: Message has 2 extra bytes at end"))
