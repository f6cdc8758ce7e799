"""The package as Python's users expect it. Expected values are from the sections that are named, or worked out by hand."""

import doctest
import importlib
import os
import pathlib
import pickle
import pydoc
import re
import shutil
import subprocess
import tempfile
import time
import unittest
import warnings
from ipaddress import IPv4Address
from typing import Callable

import dns_names_wire as dnw
from dns_names_wire import (
    A,
    AAAA,
    MX,
    NS,
    RRSIG,
    SOA,
    TXT,
    Edns,
    Message,
    Name,
    NSEC,
    Question,
    Record,
    RecordClass,
    RecordType,
    RRset,
    Unknown,
    make_query,
    rrsets,
)
from dns_names_wire._failures import CLASSES

PACKAGE = pathlib.Path(dnw.__file__).resolve().parent
# A reply to www.example.com. A
REPLY = bytes.fromhex("000781000001000100000000 0377777707 6578616d706c6503636f6d00 0001 0001 c00c 0001 0001 0000003c 0004 c0000201")


class RelativeNames(unittest.TestCase):
    def test_a_name_without_a_last_dot_is_relative_and_can_be_completed(self) -> None:
        first = (Name.__doc__ or "").splitlines()[0]
        self.assertIn('`Name("a.b")` is relative and equals no name of a message', first)
        self.assertIn('Name.absolute("a.b")', first)
        owner = Message.from_wire(REPLY).answers[0].owner
        self.assertNotEqual(Name("www.example.com"), owner)
        self.assertEqual(Name.absolute("www.example.com"), owner)
        self.assertEqual(Name.absolute("www.example.com."), owner)
        self.assertEqual(Name("www.example.com").absolute(), owner)
        self.assertEqual(Name("www", Name("example.com.")), owner)
        self.assertEqual(Name("www.example.com.", origin=Name("a.")), owner)
        self.assertEqual((Name("@", Name("a.")), Name.absolute("@"), Name.absolute(".")), (Name("a."), Name("."), Name(".")))
        self.assertEqual(list(map(Name.absolute, ["a", "b."])), [Name("a."), Name("b.")])
        with self.assertRaises(dnw.EmptyLabel):
            Name.absolute("a..b")
        for wrong in [1, None, b"a"]:
            with self.assertRaises((TypeError, AttributeError)):
                Name.absolute(wrong)  # type: ignore[arg-type]

    def test_a_relative_name_in_a_record_is_an_error(self) -> None:
        relative, address = Name("www.example"), A("192.0.2.1")
        for make in [
            lambda: Record(relative, 60, address),
            lambda: Record("www.example", 60, address),
            lambda: MX(10, relative),
            lambda: MX(10, "mail"),
            lambda: SOA(Name("a."), relative, 1, 2, 3, 4, 5),
            lambda: NSEC(relative, []),
            lambda: dnw.HIP(b"\0\1\0\0", [relative]),
            lambda: Question(relative, 1),
            lambda: Message.query(relative, 1),
            lambda: RRset.of(relative, 60, [address]),
            lambda: Name("www", relative),
            lambda: Record.from_text("a 60 A 192.0.2.1", relative),
            lambda: MX.from_text("10 a", relative),
            lambda: dnw.ds_digest(relative, b"\1\0\3\1", 2),
            lambda: dnw.nsec3_hash("www.example", 0, b"", 0),
            lambda: dnw.nsec_covers(relative, "a.", "b."),
            lambda: dnw.zone_digest(relative, [], 1),
        ]:
            with self.assertRaisesRegex(ValueError, "is relative; Name.absolute or an origin completes it$"):
                make()
        self.assertEqual(Record.from_text("www 60 IN MX 10 mail", Name("a.")).data, MX(10, "mail.a."))

    def test_a_query_by_text_is_completed_by_the_root(self) -> None:
        self.assertEqual(make_query("www.example.com", "A", id=7), make_query("www.example.com.", "A", id=7))
        with self.assertRaises(ValueError):
            make_query(Name("www.example.com"), "A")

    def test_names_below_an_origin(self) -> None:
        zone = Name("Example.com.")
        for text, relative in [("www.example.COM.", "www"), ("a.b.example.com.", "a.b"), ("example.com.", "@")]:
            self.assertEqual(Name(text).relativize(zone), Name(relative))
            self.assertEqual(Name(text).relativize(zone).derelativize(zone), Name(text))
            self.assertEqual(Name(text).relativize(Name(".")).derelativize(Name(".")), Name(text))
        self.assertEqual(Name("www.example.com.").relativize(zone)._wire, b"\3www\0")
        for name in [Name("example.net."), Name("com."), Name("www"), Name("www.example.com")]:
            self.assertIs(name.relativize(zone), name)
        self.assertEqual(Name("a.").derelativize(zone), Name("a."))
        with self.assertRaises(dnw.NameTooLong):
            Name(".".join(["a" * 63] * 3 + ["b" * 50])).derelativize(zone)
        for call in [Name("a").relativize, Name("a.").derelativize]:
            with self.assertRaises(TypeError):
                call("a.")  # type: ignore[arg-type]


class Names(unittest.TestCase):
    def test_a_name_is_not_compared_with_a_text(self) -> None:
        name = Name("a.")
        for compare in [lambda: name == "a.", lambda: "a." == name, lambda: name == b"\1a\0", lambda: not name != "a."]:
            with self.assertWarnsRegex(RuntimeWarning, "a Name is never equal to (str|bytes): "):
                self.assertFalse(compare())
        with self.assertWarns(RuntimeWarning) as caught:
            bool(name == "a.")
        self.assertEqual(pathlib.Path(caught.filename).name, "test_use.py")
        with warnings.catch_warnings():
            warnings.simplefilter("error")
            self.assertRaises(RuntimeWarning, lambda: name == "a.")
            self.assertFalse(name == 1 or name is None or name == Name("b."))

    def test_the_root_has_no_parent(self) -> None:
        for name in [Name("."), Name("@")]:
            with self.assertRaisesRegex(ValueError, "has no parent$"):
                name.parent
        self.assertEqual((Name("a.b.").parent, Name("b.").parent, Name("b").parent), (Name("b."), Name("."), Name("@")))

    def test_labels_by_index(self) -> None:
        name = Name("www.Example.com.")
        self.assertEqual((name[0], name[1], name[-1], name[-3]), (b"www", b"Example", b"com", b"www"))
        for index in [3, -4]:
            with self.assertRaises(IndexError):
                name[index]
        self.assertEqual((name[1:], name[-1:], name[:], name[3:]), (Name("Example.com."), Name("com."), name, Name(".")))
        self.assertEqual((name[:1], name[:-1], name[0:0], name[1:2]), (Name("www"), Name("www.Example"), Name("@"), Name("example")))
        self.assertEqual((name[::2], name[::-1], Name("a.b")[1:]), (Name("www.com"), Name("com.Example.www"), Name("b")))
        self.assertEqual(list(reversed(name)), [b"com", b"Example", b"www"])
        with self.assertRaises(TypeError):
            name["www"]  # type: ignore[call-overload]

    def test_sorted_is_as_fast_as_sort_names(self) -> None:
        texts = [f"Host{i * 7919 % 4000}.zone{i % 7}.example." for i in range(4000)]

        def timed(sort: Callable[[], object]) -> float:
            start = time.process_time()
            sort()
            return time.process_time() - start

        names = list(map(Name, texts))
        self.assertEqual(sorted(names), dnw.sort_names(names))
        rounds = [(timed(lambda: sorted(names)), timed(lambda: dnw.sort_names(names))) for _ in range(15)]
        ours, at_once = (min(column) for column in zip(*rounds))
        self.assertLess(ours, 2 * at_once)
        self.assertEqual(names[0].sort_key(), Name(texts[0].upper()).sort_key())

    def test_the_kept_key_is_not_copied_with_a_wrong_flag(self) -> None:
        name, same = Name("b.a."), Name("b.a")
        self.assertLess(same, name)
        for one in [name, same]:
            copied = pickle.loads(pickle.dumps(one))
            self.assertEqual((copied, copied < name, copied <= one <= copied), (one, one < name, True))


class Data(unittest.TestCase):
    def test_names_and_addresses_may_be_texts(self) -> None:
        self.assertEqual(MX(10, "mail."), MX(10, Name("mail.")))
        self.assertEqual(MX(10, "mail.").exchange, Name("mail."))
        self.assertEqual(A("192.0.2.1").address, IPv4Address("192.0.2.1"))
        self.assertEqual(AAAA("2001:db8::1").to_wire().hex(), "20010db8000000000000000000000001")
        self.assertEqual(Record("a.", 60, NS("b.")), Record(Name("a."), 60, NS(Name("b."))))
        self.assertEqual(NSEC("b.", [1, 15]).types, dnw.TypeSet([1, 15]))
        self.assertEqual(NSEC("b.", ["A", "mx", "TYPE65280"]).types, dnw.TypeSet([1, 15, 65280]))
        self.assertEqual(dnw.data_from_text("MX", "10 mail."), MX(10, "mail."))
        self.assertEqual(dnw.data_from_wire("A", bytes([192, 0, 2, 1])), A("192.0.2.1"))
        self.assertEqual(Record("a.", 60, TXT((b"x",)), "CH").record_class, RecordClass.CH)
        rrsig = RRSIG("MX", 13, 1, 60, 2, 1, 7, "a.", b"")
        self.assertEqual((rrsig.type_covered, rrsig.signer), (RecordType.MX, Name("a.")))
        self.assertEqual(Question("a.", "MX", "CH"), Question(Name("a."), RecordType.MX, RecordClass.CH))
        self.assertEqual(Unknown(65280, b"a").record_type, 65280)
        self.assertEqual(dnw.SVCB(1, ".", [(1, bytearray(b"a"))]).params, ((1, b"a"),))  # type: ignore[arg-type]

    def test_what_is_wrong_fails_at_once(self) -> None:
        for make, error in [
            (lambda: MX("10", "mail."), TypeError),
            (lambda: MX(10, b"mail."), TypeError),
            (lambda: MX(10, None), TypeError),
            (lambda: MX(65536, "mail."), ValueError),
            (lambda: MX(10, "a..b."), dnw.EmptyLabel),
            (lambda: A("192.0.2"), ValueError),
            (lambda: TXT(7), TypeError),
            (lambda: TXT((7,)), TypeError),
            (lambda: TXT("half a pair: \ud800"), dnw.NotUtf8),
            (lambda: TXT("\u00e9" * 128), dnw.DataTooLong),
            (lambda: TXT((bytes(256),)), dnw.DataTooLong),
            (lambda: dnw.NSEC3PARAM(1, 0, 0, "aabb"), TypeError),
            (lambda: dnw.TSIG("a.", 2**48, 0, b"", 0, 0, b""), ValueError),
            (lambda: dnw.TSIG("a.", 0, 0, bytes(65536), 0, 0, b""), dnw.DataTooLong),
            (lambda: dnw.APL([(1, 256, False, b"")]), ValueError),
            (lambda: dnw.SVCB(1, ".", [(65536, b"")]), ValueError),
            (lambda: NSEC("a.", [65536]), ValueError),
            (lambda: NSEC("a.", ["NOTYPE"]), dnw.UnknownText),
            (lambda: RRSIG("NOTYPE", 13, 1, 60, 2, 1, 7, "a.", b""), dnw.UnknownText),
            (lambda: Unknown(65536, b""), ValueError),
            (lambda: Unknown(1, "a"), TypeError),
        ]:
            with self.assertRaises(error):
                make()


class Sets(unittest.TestCase):
    def records(self) -> "list[Record]":
        lines = ["a. 60 IN NS b.a.", "b.a. 60 IN A 192.0.2.1", "A. 5 IN NS c.a.", "b.a. 60 IN A 192.0.2.1", "a. 60 CH TXT x"]
        return list(map(Record.from_text, lines))

    def test_records_of_one_owner_class_and_type(self) -> None:
        servers, addresses, chaos = rrsets(self.records())
        self.assertEqual((servers.owner, servers.record_type, servers.record_class), (Name("a."), RecordType.NS, RecordClass.IN))
        self.assertEqual((len(servers), servers.ttl, servers.data), (2, 5, (NS("b.a."), NS("c.a."))))
        self.assertEqual((len(addresses), chaos.record_class), (1, RecordClass.CH))
        self.assertEqual((servers[1], servers[:1], list(servers)), (self.records()[2], (servers[0],), [servers[0], servers[1]]))
        self.assertEqual(str(servers), "a. 60 IN NS b.a.\nA. 5 IN NS c.a.")
        self.assertEqual(repr(servers), "<RRset a. IN NS [2]>")
        self.assertEqual(RRset.of("A.", 9, [NS("c.a."), NS("B.a.")]), servers)
        self.assertEqual(len({servers, RRset(reversed(servers)), addresses}), 2)
        self.assertNotEqual(servers, list(servers))
        self.assertIn(Record("a.", 0, NS("B.a.")), servers)
        self.assertEqual(pickle.loads(pickle.dumps(servers)), servers)
        for wrong in [[], self.records()]:
            with self.assertRaises(ValueError):
                RRset(wrong)
        with self.assertRaises(TypeError):
            RRset(["a. 60 IN NS b.a."])  # type: ignore[list-item]

    def test_sets_of_messages(self) -> None:
        reply = make_query("a.", "NS", id=7).reply(*[[record] for record in self.records()[:3]])
        self.assertEqual(reply.answer_sets, rrsets(reply.answers))
        self.assertEqual([len(sets) for sets in (reply.answer_sets, reply.authority_sets, reply.additional_sets)], [1, 1, 1])
        servers, addresses, _ = rrsets(self.records())
        self.assertEqual(len(make_query("a.", "NS").reply(servers, additionals=addresses).answers), 2)

    def test_equal_records_are_one(self) -> None:
        records = self.records()
        self.assertEqual((records[1], hash(records[1])), (records[3], hash(records[3])))
        self.assertEqual(len(set(records)), 4)


class Replies(unittest.TestCase):
    def test_ad_can_be_set(self) -> None:
        query = make_query("a.", "A", id=7)
        self.assertEqual(query.reply(authentic_data=True).flags, ("QR", "RD", "AD"))
        self.assertEqual(query.reply().flags, ("QR", "RD"))

    def test_what_the_requester_accepts(self) -> None:
        self.assertEqual([make_query("a.", "A", max_payload=size).max_payload for size in (None, 100, 512, 1232)], [512, 512, 512, 1232])


class Texts(unittest.TestCase):
    def test_options(self) -> None:
        option = dnw.EdnsOption(3, b"ab")
        self.assertEqual((str(option), option, option.code, option.octets), ('NSID: 61 62 ("ab")', (3, b"ab"), 3, b"ab"))
        self.assertEqual(Edns(options=[(3, b"ab")]).options, (option,))
        self.assertEqual(Message.from_wire(Message.build(edns=Edns(options=[option])).to_wire()).edns, Edns(options=(option,)))
        self.assertEqual(len(str(dnw.EdnsOption(65535, bytes(65535)))), 4 * 65535 + 15)
        for code, octets, error in [(65536, b"", ValueError), (-1, b"", ValueError), ("3", b"", TypeError), (3, "", TypeError)]:
            self.assertRaises(error, str, dnw.EdnsOption(code, octets))  # type: ignore[arg-type]

    def test_what_options_say(self) -> None:
        """Both ways, at the limits of each."""
        name = Name("a.")
        for octets, data in [
            (b"", dnw.Nsid()), (b"ns1", dnw.Nsid(b"ns1")), (b"\0\0", dnw.Padding(b"\0\0")),
            (b"\0\1\x18\x10\xc0\0\2", dnw.ClientSubnet(1, 24, 16, b"\xc0\0\2")), (b"\0\2\1\x80\x80", dnw.ClientSubnet(2, 1, 128, b"\x80")),
            (b"\xff\xff\xff\xff", dnw.ClientSubnet(65535, 255, 255, bytes(31) + b"\xfe")), (b"", dnw.Expire()),
            (b"\xff\xff\xff\xfe", dnw.Expire(4294967294)), (b"\0" * 4, dnw.Expire(0)), (b"12345678", dnw.Cookie(b"12345678")),
            (b"12345678abcdefgh", dnw.Cookie(b"12345678", b"abcdefgh")), (b"", dnw.TcpKeepalive()), (b"\xff\xfe", dnw.TcpKeepalive(65534)),
            (b"", dnw.Chain()), (b"\0", dnw.Chain(Name("."))), (b"\1a\0", dnw.Chain(name)), (b"\1a\0", dnw.ReportChannel(name)),
            (b"\xff\xfe", dnw.ExtendedError(65534)), (b"\0\x0f\xc3\xa9", dnw.ExtendedError(15, "\u00e9")), (b"", dnw.ZoneVersion()),
            (b"\2\0abcd", dnw.ZoneVersion(2, 0, b"abcd")), (b"\xff\xff", dnw.ZoneVersion(255, 255)), (b"ab", dnw.UnknownOption(65001, b"ab")),
        ]:  # fmt: skip
            wanted = octets + data.address if isinstance(data, dnw.ClientSubnet) and data.family == 65535 else octets
            self.assertEqual((data.option(), data.option().data, hash(data)), ((data.code, wanted), data, hash(data.option().data)))
        self.assertEqual(dnw.ReportChannel("a.").option().data, dnw.ReportChannel(name))

    def test_what_no_option_says(self) -> None:
        for code, octets, error in [
            (8, b"\0\1\x18", dnw.BadData), (8, b"\0\1\x18\0\xc0\0", dnw.BadData), (8, b"\0\1\x21\0\xc0\0\2\1\0", dnw.BadFamily),
            (8, b"\0\1\x17\0\xc0\0\3", dnw.BadFamily), (9, b"\0\0\0", dnw.BadData), (10, b"1234567", dnw.BadData), (11, b"\0", dnw.BadData),
            (13, b"\1a", dnw.BadData), (15, b"\0\1\xff", dnw.NotUtf8), (18, b"", dnw.BadData), (19, b"\1\0abc", dnw.BadData),
            (65536, b"", ValueError), (3, "", TypeError),
        ]:  # fmt: skip
            self.assertRaises(error, lambda: dnw.EdnsOption(code, octets).data)  # type: ignore[arg-type]
        for data, error in [
            (dnw.ClientSubnet(1, 24, 0, b"\xc0"), dnw.BadData), (dnw.ClientSubnet(1, 33, 0, bytes(5)), dnw.BadFamily),
            (dnw.ClientSubnet(65536, 0, 0, b""), ValueError), (dnw.ClientSubnet(1, 256, 0, b""), ValueError), (dnw.Expire(2**32), ValueError),
            (dnw.Cookie(b"1234567"), ValueError), (dnw.Cookie(b"12345678", b"1234567"), dnw.BadData), (dnw.TcpKeepalive(65536), ValueError),
            (dnw.ExtendedError(1, "\ud800"), dnw.NotUtf8), (dnw.Chain("a"), ValueError), (dnw.ZoneVersion(1, 0, b"abc"), dnw.BadData),
            (dnw.UnknownOption(9, b"a"), dnw.BadData), (dnw.Nsid("a"), TypeError),  # type: ignore[arg-type]
        ]:  # fmt: skip
            self.assertRaises(error, data.option)

    def test_a_message_is_shown_as_dig_shows_it(self) -> None:
        """Lines of dig 9.18, with spaces for tabs in records."""
        options = ((65001, b"ab\0"), (65002, b""), (8, b"\0\1\x18\0\xc0\0\2"), (15, b"\0\6" + "\u00e9\x1b".encode()), (10, b"a"))
        query = Message.query("a.", 1, id=7, edns=Edns(1232, options=options))
        lines = str(query).splitlines()
        shown = ["; EDNS: version: 0, flags:; udp: 1232", '; OPT=65001: 61 62 00 ("ab.")', "; OPT=65002:"]
        shown += ["; CLIENT-SUBNET: 192.0.2.0/24/0", "; EDE: 6 (DNSSEC Bogus): (\u00e9.)", '; OPT=10: 61 ("a")']
        self.assertEqual(lines[lines.index(";; OPT PSEUDOSECTION:") + 1 :][:6], shown)
        gone, added = Record("a.", 0, Unknown("A", b""), RecordClass.NONE), Record("a.", 60, A("192.0.2.1"))
        header = dnw.Header(7, op_code=dnw.OpCode.UPDATE)
        self.assertEqual(
            str(Message.build(header, [Question("a.", "SOA")], [gone], [added])).splitlines(),
            [
                ";; ->>HEADER<<- opcode: UPDATE, status: NOERROR, id: 7",
                ";; flags:; QUERY: 1, ANSWER: 1, AUTHORITY: 1, ADDITIONAL: 0",
                "",
                ";; ZONE SECTION:",
                ";a.\tIN\tSOA",
                "",
                ";; PREREQUISITE SECTION:",
                "a. 0 NONE A",
                "",
                ";; UPDATE SECTION:",
                "a. 60 IN A 192.0.2.1",
            ],
        )

    def test_the_page_of_the_package_fits_on_a_screen(self) -> None:
        self.assertLess(len(pydoc.getdoc(dnw).splitlines()), 60)
        names = set(dnw.__all__)
        shown = set(re.findall(r"\w+", dnw.__doc__ or ""))
        hidden = {name for name in names - shown if not isinstance(getattr(dnw, name), type)}
        self.assertEqual(hidden, set())
        kinds = {name for name in names - shown if not issubclass(getattr(dnw, name), (dnw.Data, dnw.OptionData, dnw.DnsError))}
        self.assertEqual(kinds, set())

    def test_the_version_is_the_one_of_the_package(self) -> None:
        self.assertRegex(dnw.__version__, r"^\d+\.\d+\.\d+")

    def test_each_error_of_the_library_is_an_exception(self) -> None:
        header = PACKAGE.parents[1] / "include" / "dns_names_wire.h"
        if not header.is_file():
            self.skipTest("this is no checkout")
        listed = re.search(r"enum dnw_failure \{(.*?)\n\};", header.read_text(encoding="utf-8"), re.S)
        assert listed is not None
        numbers = {int(number): name for name, number in re.findall(r"DNW_(\w+) = (\d+)", listed[1])}
        # success, out of memory, no room, no error of its own, and an address that `ipaddress` does not make
        for number in (0, 1, 2, 13, 25):
            numbers.pop(number)
        classes = {one.number: one.__name__ for one in CLASSES.values()}
        self.assertEqual({n: name.replace("_", "").lower() for n, name in numbers.items()}, {n: name.lower() for n, name in classes.items()})

    def test_the_lexer_is_not_shown(self) -> None:
        for name in ["tokens", "Token", "TokenKind"]:
            self.assertFalse(hasattr(dnw, name))


def snippets(page: pathlib.Path) -> "list[str]":
    """The blocks of Python in a page."""
    return re.findall(r"^```python\n(.*?)^```", page.read_text(encoding="utf-8"), re.S | re.M)


def examples(module: pathlib.Path) -> "list[str]":
    """What the examples of a module run, each docstring as a program."""
    tests = doctest.DocTestFinder().find(importlib.import_module(f"dns_names_wire.{module.stem}"))
    programs = ["".join(example.source for example in test.examples) for test in tests]
    return ["from dns_names_wire import *\n" + program for program in programs if program]


class TypeCheckers(unittest.TestCase):
    def test_every_snippet_is_typed(self) -> None:
        if shutil.which("mypy") is None:
            self.skipTest("mypy is not installed")
        pages = [page for page in (PACKAGE.parent / "README.md", PACKAGE.parents[1] / "README.md") if page.is_file()]
        programs = [program for page in pages for program in snippets(page)]
        self.assertEqual(len(programs) > 0, len(pages) > 0)
        programs += [program for module in sorted(PACKAGE.glob("*.py")) for program in examples(module)]
        self.assertGreater(len(programs), 50)
        with tempfile.TemporaryDirectory() as room:
            files = [pathlib.Path(room, f"program{number}.py") for number in range(len(programs))]
            for file, program in zip(files, programs):
                file.write_text(program, encoding="utf-8")
            environment = {**os.environ, "MYPYPATH": str(PACKAGE.parent)}
            command = ["mypy", "--strict", "--cache-dir", os.path.join(room, "cache"), *map(str, files)]
            ran = subprocess.run(command, env=environment, capture_output=True, text=True, cwd=room)
            self.assertEqual(ran.returncode, 0, ran.stdout + ran.stderr)


if __name__ == "__main__":
    unittest.main()
