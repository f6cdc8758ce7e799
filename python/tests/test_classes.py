"""Records by class (RFC 2136), with names in their data, and their order."""

import unittest

import dns_names_wire as dnw
from dns_names_wire import Name, Record, RecordClass

FIXED = bytes.fromhex("0000003c")


def record(code: int, record_class: int, data: bytes) -> Record:
    """Returns a record of the name `a.` in a message that begins with the name `b.`"""
    fields = code.to_bytes(2, "big") + record_class.to_bytes(2, "big") + FIXED + len(data).to_bytes(2, "big")
    return dnw.read_record(b"\x01b\0\x01a\0" + fields + data, 3)


class Classes(unittest.TestCase):
    def test_names_in_data_are_written_whole(self) -> None:
        address = record(38, 1, b"\x40" + bytes(8) + b"\xc0\0")
        self.assertEqual(address.to_wire()[3:], bytes.fromhex("0026 0001 0000003c 000c 40") + bytes(8) + b"\x01b\0")
        chaos = record(1, 3, b"\xc0\0\x01\x02")
        self.assertEqual(chaos.to_wire()[3:], bytes.fromhex("0001 0003 0000003c 0005") + b"\x01b\0\x01\x02")
        self.assertEqual(chaos.fields(), (Name("b."), 258))

    def test_data_may_be_left_out(self) -> None:
        for record_class in (RecordClass.NONE, RecordClass.ANY):
            for code in (1, 2, 15, 46, 65280):
                empty = record(code, record_class, b"")
                self.assertEqual(empty.fields(), ())
                self.assertEqual(Record.from_text(str(empty)), empty)
                self.assertEqual(Record.from_text(str(empty)).to_wire(), empty.to_wire())

    def test_types_of_in_are_octets_elsewhere(self) -> None:
        self.assertEqual(record(28, 3, b"\x01\x02").fields(), (b"\x01\x02",))

    def test_a_set_has_each_record_once(self) -> None:
        lines = ["b.a. 60 IN MX 1 c.a.", "a. 60 IN NS b.a.", "B.A. 5 IN MX 1 C.A.", "b.a. 60 IN A 192.0.2.1"]
        records = [Record.from_text(line) for line in lines]
        self.assertEqual(len(set(records)), 3)
        self.assertEqual([str(it) for it in sorted(set(records))], [lines[1], lines[3], str(records[0])])
        # Data that are not the fields of their type compare as octets.
        self.assertEqual(record(1, 1, b"\x01"), record(1, 1, b"\x01"))
        self.assertNotEqual(record(1, 1, b"\x01"), record(1, 1, b"\x02"))


if __name__ == "__main__":
    unittest.main()
