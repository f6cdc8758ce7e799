"""When TC is set, as name servers set it: the lines of diff/servers/cuts.txt, which the tests in C and Rust read too."""

import pathlib
import unittest
from typing import Set

from dns_names_wire import Edns, Message, RecordType, make_query

FILE = pathlib.Path(__file__).resolve().parents[2] / "diff" / "servers" / "cuts.txt"


def sizes_of(ranges: str) -> Set[int]:
    """The sizes in ranges as `512-660,662`; `-` is none."""
    ends = [one.split("-") for one in ranges.split(",") if one != "-"]
    return {size for end in ends for size in range(int(end[0]), int(end[-1]) + 1)}


class Cuts(unittest.TestCase):
    @unittest.skipUnless(FILE.is_file(), "an installed test has no such file")
    def test_tc_is_set_where_servers_set_it(self) -> None:
        for line in FILE.read_text(encoding="ascii").splitlines():
            what, server, ranges, octets = line.split(" ")
            message = Message.from_wire(bytes.fromhex(octets))
            parts = message.answers, message.authorities, message.additionals
            others = [record for record in message.additionals if record.record_type != RecordType.OPT]
            built = Message.build(message.header, message.questions, *parts)
            asked, code = message.questions[0], message.response_code
            query = make_query(asked.name, asked.question_type, dnssec_ok=True, max_payload=65535, id=7)
            aa = message.header.authoritative
            reply = query.reply(*parts[:2], others, authoritative=aa, response_code=code, edns=Edns(1232))
            # It may have fewer octets than the server's, with names compressed that the server wrote whole.
            own_len = len(message.to_wire(65535))
            self.assertLessEqual(own_len, len(message.wire))
            cut = {size for size in sizes_of(ranges) if size < own_len}
            # every seventh, and those where something changes
            ends = {size + by for size in (own_len, *cut) for by in (-1, 0, 1) if (size - 1 in cut) != (size + 1 in cut)}
            for size in sorted({*range(512, own_len + 1, 7), *ends, own_len} & {*range(512, own_len + 1)}):
                for written in (message.to_wire(size), built.to_wire(size), reply.to_wire(size)):
                    read = Message.from_wire(written)
                    self.assertLessEqual(len(written), size)
                    self.assertEqual(read.header.truncation, size in cut, (what, server, size))
                    self.assertTrue(read.edns is not None and read.edns.dnssec_ok)


if __name__ == "__main__":
    unittest.main()
