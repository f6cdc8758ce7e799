"""The package as its users call it. Expected values are from RFC 1035, section 4.1.4, RFC 4034, section 6.1, or counted
by hand."""

import copy
import doctest
import os
import pathlib
import pickle
import signal
import subprocess
import sys
import tempfile
import unittest
from importlib import import_module

import dns_names_wire as dnw
from dns_names_wire import Name, TextRule, names, read_name

# F.ISI.ARPA at 20, FOO.F.ISI.ARPA at 40, ARPA at 64, the root at 92
MESSAGE = b"".join([
    b"\xff" * 20, b"\x01F\x03ISI\x04ARPA\x00", b"\xff" * 8, b"\x03FOO\xc0\x14", b"\xff" * 18, b"\xc0\x1a", b"\xff" * 26, b"\x00",
])

ORDER = [
    b"\x07example\x00",
    b"\x01a\x07example\x00",
    b"\x08yljkjljk\x01a\x07example\x00",
    b"\x01Z\x01a\x07example\x00",
    b"\x04zABC\x01a\x07EXAMPLE\x00",
    b"\x01z\x07example\x00",
    b"\x01\x01\x01z\x07example\x00",
    b"\x01*\x01z\x07example\x00",
    b"\x01\xc8\x01z\x07example\x00",
]


class Reading(unittest.TestCase):
    def test_the_names_of_the_rfc(self):
        for start, text, end in [(20, "F.ISI.ARPA.", 32), (40, "FOO.F.ISI.ARPA.", 46), (64, "ARPA.", 66), (92, ".", 93)]:
            read = read_name(MESSAGE, start)
            self.assertEqual((str(read.name), read.end), (text, end))
            self.assertEqual(read_name(bytearray(MESSAGE), start), read)
            self.assertEqual(read_name(memoryview(MESSAGE), start), read)

    def test_each_fault_is_its_exception(self):
        rows = [
            (b"", 0, dnw.MessageCut),
            (b"\x00", 2, dnw.MessageCut),
            (b"\x00", 2**64, dnw.MessageCut),
            (b"\x05abc", 0, dnw.MessageCut),
            (b"\xc0\x00", 0, dnw.PointerNotBack),
            (b"\x40", 0, dnw.ReservedOctet),
            (b"\x01a\xc0\x00", 2, dnw.SegmentsOverlap),
            (b"\x01a" * 128 + b"\x00", 0, dnw.NameTooLong),
        ]
        for message, start, error in rows:
            with self.subTest(message=message), self.assertRaises(error) as raised:
                read_name(message, start)
            self.assertTrue(str(raised.exception))
            self.assertIsInstance(raised.exception, dnw.DnsError)
        self.assertEqual(len(read_name(b"\x01a" * 127 + b"\x00").name.labels), 127)
        with self.assertRaises(ValueError):
            read_name(b"\x00", -1)
        with self.assertRaises(dnw.BytesLeft):
            Name.from_wire(b"\x00\x00")

    def test_names_in_turn(self):
        read = names(b"\x01a\x00\x40")
        self.assertEqual(next(read), (Name("a."), 3))
        with self.assertRaises(dnw.ReservedOctet):
            next(read)
        with self.assertRaises(dnw.MessageCut):
            list(names(b"\x00", 2))


class Subclasses(unittest.TestCase):
    """Subclasses of bytes, str, int and Name whose methods return wrong values: only the octets of the object are
    used."""

    class Long(bytes):
        def __len__(self):
            return 1 << 40

        def __bytes__(self):
            return b"\x3f"

        def __iter__(self):
            return iter([63])

        def __getitem__(self, at):
            return 63

    class Other(str):
        def encode(self, *arguments):
            return Subclasses.Long(b"b.")

        def __len__(self):
            return 1 << 40

    class Far(int):
        def __index__(self):
            return 1 << 40

        def __le__(self, other):
            return True

        __ge__ = __lt__ = __gt__ = __le__

    def test_bytes(self):
        self.assertEqual(read_name(self.Long(b"\x01a\x00")), read_name(b"\x01a\x00"))
        with self.assertRaises(dnw.MessageCut):
            read_name(self.Long(b"\x02a"))
        self.assertEqual(Name.from_wire(self.Long(b"\x01a\x00")), Name("a."))
        self.assertEqual(Name(".").prepend_label(self.Long(b"a")), Name("a."))
        record = dnw.read_record(self.Long(bytes.fromhex("00 0010 0001 00000000 0002 0161")))
        self.assertEqual((record.data, record.end), (dnw.TXT((b"a",)), 13))
        self.assertEqual(dnw.TXT((self.Long(b"a"),)).to_wire(), b"\x01a")
        self.assertEqual(dnw.Message.from_wire(self.Long(bytes(12))).wire, bytes(12))
        self.assertEqual(dnw.data_from_wire(16, self.Long(b"\x01a")), dnw.TXT((b"a",)))
        self.assertEqual(list(dnw.TypeSet.from_bitmap(self.Long(b"\x00\x01\x40"))), [dnw.RecordType.A])

    def test_texts(self):
        self.assertEqual(Name(self.Other("a.")), Name("a."))
        self.assertEqual(dnw.Record.from_text(self.Other("a. 60 IN A 192.0.2.1")).owner, Name("a."))
        self.assertEqual(dnw.RecordType.from_text(self.Other("MX")), dnw.RecordType.MX)

    def test_numbers(self):
        self.assertEqual(Name("b.a.").trim_to(self.Far(1)), Name("a."))
        self.assertEqual(read_name(b"\x00\x01a\x00", self.Far(1)).name, Name("a."))
        with self.assertRaises(ValueError):
            dnw.MX(self.Far(65536), Name("a.")).to_wire()

    def test_names(self):
        class Wide(Name):
            _wire = b"\x3f"

            def _slice(self):
                return b"", 1 << 40

        name = Wide("a.b.")
        self.assertTrue(name.is_in(Name("b.")))
        self.assertEqual(str(name), "a.b.")
        self.assertEqual(Name("www").append(name), Name("www.a.b."))


class Interrupted(unittest.TestCase):
    def test_a_signal_handler_reads_names_too(self):
        """A read between two steps of another read does not change it."""
        texts = [bytes([65 + number]) * 9 for number in range(20)]
        message = b"".join(b"\x09" + text + b"\x00" for text in texts)
        wrong = []

        def handler(signum, frame):
            wrong.extend(it for it in (dnw.read_record(b"\x01z" + bytes(11)).owner,) if it != Name("z."))

        before = signal.signal(signal.SIGALRM, handler)
        signal.setitimer(signal.ITIMER_REAL, 0.0001, 0.0001)
        try:
            for _ in range(300):
                self.assertEqual([read.name.labels[0] for read in names(message)], texts)
                self.assertEqual(dnw.data_from_wire(2, b"\x09" + texts[3] + b"\x00").target.labels[0], texts[3])
        finally:
            signal.setitimer(signal.ITIMER_REAL, 0)
            signal.signal(signal.SIGALRM, before)
        self.assertEqual(wrong, [])


class Texts(unittest.TestCase):
    def test_texts_are_read_and_shown(self):
        for text in ["a.bc.", "a.bc", ".", "@", "*.a.", "_443._tcp.a.", "0/25.2.0.192.in-addr.arpa.", "-dash.a!b.example.", "_sip._tcp.x."]:
            self.assertEqual(str(Name(text)), text)
            self.assertEqual(Name(text).is_fqdn, text.endswith("."))
        self.assertEqual(Name("\\065\\.b.").wire, b"\x03A.b\x00")
        self.assertEqual(Name("sp ace.\\195\\164\\ a").wire, b"\x06sp ace\x04\xc3\xa4 a\x00")
        self.assertEqual(str(Name.from_wire(b"\x03a\x80.\x01/\x00")), "a\\128\\../.")
        self.assertEqual(repr(Name("a.")), "Name('a.')")

    def test_what_is_no_text(self):
        rows = [
            ("a..b", dnw.EmptyLabel),
            ("", dnw.EmptyLabel),
            ("\\", dnw.TextCut),
            ("\\256", dnw.BadEscape),
            ("\udc80", dnw.NotUtf8),
            ("a" * 64, dnw.LabelTooLong),
            (".".join(["a" * 63] * 4), dnw.NameTooLong),
        ]
        for text, error in rows:
            with self.subTest(text=text), self.assertRaises(error):
                Name(text)

    def test_a_text_goes_wrong_where_no_name_begins_so(self):
        rows = [
            ("a..b", 2, TextRule.EMPTY_LABEL),
            (".a", 0, TextRule.EMPTY_LABEL),
            ("", 0, TextRule.EMPTY_LABEL),
            ("a\\256", 4, TextRule.BAD_ESCAPE),
            ("u\\1x", 3, TextRule.BAD_ESCAPE),
            ("a\\1", 3, TextRule.UNFINISHED_ESCAPE),
            ("a" * 64, 63, TextRule.LABEL_TOO_LONG),
            (".".join(["a" * 63] * 4), 255, TextRule.NAME_TOO_LONG),
            ("ab\udc80", 2, "the text is not UTF-8"),
            ("b\u00fccher.example.", 1, "a name has ASCII characters; a label of others has to be given as an A-label"),
        ]
        for text, offset, rule in rows:
            with self.subTest(text=text), self.assertRaises(dnw.DnsError) as raised:
                Name(text)
            error = raised.exception
            self.assertEqual((error.offset, error.rule), (offset, rule if isinstance(rule, TextRule) else None))
            self.assertEqual(str(error), f"at offset {offset}: {rule}")


class Order(unittest.TestCase):
    def test_the_order_is_canonical(self):
        ordered = [Name.from_wire(form) for form in ORDER]
        self.assertEqual(sorted(reversed(ordered)), ordered)
        for i, left in enumerate(ordered):
            for j, right in enumerate(ordered):
                self.assertEqual((left < right, left <= right, left > right, left >= right), (i < j, i <= j, i > j, i >= j))
                self.assertEqual((left == right, left != right), (i == j, i != j))
        self.assertLess(Name("z"), Name("a."))
        self.assertNotEqual(Name("a"), Name("a."))
        self.assertNotEqual(Name("a."), 1)
        with self.assertRaises(TypeError):
            Name("a.") < "b."

    def test_sort_keys_are_in_the_order_of_names(self):
        ordered = [Name.from_wire(form) for form in ORDER]
        self.assertEqual(sorted(reversed(ordered), key=Name.sort_key), ordered)
        for left in ordered:
            for right in ordered:
                self.assertEqual(left.sort_key() < right.sort_key(), left < right)
                self.assertEqual(left.sort_key().startswith(right.sort_key()), left in right)
        self.assertEqual((Name("A.b.").sort_key(), Name("a.B").sort_key(), Name(".").sort_key()), (b"b\x00a\x00",) * 2 + (b"",))
        self.assertEqual(Name.from_labels([b"\0\1\2"]).sort_key(), b"\1\1\1\2\2\0")
        longest = Name.from_labels([b"\0" * 63, b"\1" * 63, b"\0" * 63, b"\1" * 61])
        self.assertEqual((len(longest.wire), len(longest.sort_key())), (255, 504))

    def test_names_are_sorted_at_once(self):
        ordered = [Name.from_wire(form) for form in ORDER]
        self.assertEqual([name.wire for name in dnw.sort_names(reversed(ordered))], [name.wire for name in ordered])
        texts = ["b.a.", "a", "B.A.", ".", "A", "b.a", "a.b.", "b.A.", "@"]
        in_order = ["@", "a", "A", "b.a", ".", "b.a.", "B.A.", "b.A.", "a.b."]
        self.assertEqual([str(name) for name in dnw.sort_names(map(Name, texts))], in_order)
        self.assertEqual([str(name) for name in sorted(map(Name, texts))], in_order)
        self.assertEqual((dnw.sort_names([]), dnw.sort_names([Name("a.")])), ([], [Name("a.")]))
        many = [Name(f"Host{i * 7919 % 2000}.zone{i % 3}.") for i in range(2000)]
        self.assertEqual(dnw.sort_names(many), sorted(many))
        with self.assertRaisesRegex(TypeError, "^names: a Name is wanted, not str$"):
            dnw.sort_names(["a."])

    def test_equal_names_have_one_hash(self):
        self.assertEqual({Name("WWW.a."): 1}[Name("www.A.")], 1)
        self.assertEqual(len({Name("WWW.a."), Name("www.A."), Name("www.a"), Name("b.")}), 3)

    def test_zones_and_lower_case(self):
        self.assertTrue(Name("a.EXAMPLE.").is_in(Name("example.")))
        self.assertTrue(Name("a.").is_in(Name(".")))
        self.assertFalse(Name("example.").is_in(Name("a.example.")))
        self.assertFalse(Name("example.").is_in(Name("ple.")))
        self.assertEqual(Name.from_wire(b"\x01A\x03Bc\xc0\x00").lower().wire, b"\x01a\x03bc\xc0\x00")
        self.assertFalse(Name("A").lower().is_fqdn)


class Values(unittest.TestCase):
    def test_a_name_does_not_change(self):
        name = Name("a.")
        for attribute in ["wire", "_wire", "other"]:
            with self.assertRaises(AttributeError):
                setattr(name, attribute, b"")
        with self.assertRaises(AttributeError):
            del name._wire

    def test_copies_are_equal(self):
        for name in [Name("a.b"), Name("a.b.")]:
            self.assertEqual(copy.deepcopy(name), name)
            for protocol in range(pickle.HIGHEST_PROTOCOL + 1):
                self.assertEqual(pickle.loads(pickle.dumps(name, protocol)), name)

    def test_what_is_shown_is_an_expression(self):
        forms = [b"\x00", b"\x01a\x00", b"\x01\xe4\x00", b"\x02a.\x01-\x00", b"\x01*\x01*\x00", b"\x01'\x01\\\x00"]
        for name in [Name.from_wire(form, is_fqdn=is_fqdn) for form in forms for is_fqdn in (True, False)]:
            back = eval(repr(name), {"Name": Name})
            self.assertEqual((back.wire, back.is_fqdn), (name.wire, name.is_fqdn))
        self.assertEqual(repr(Name.from_wire(b"\x01\xe4\x00")), "Name('\\\\228.')")
        self.assertEqual(eval(repr(read_name(b"\x00")), {"Name": Name, "NameAt": dnw.NameAt}), (Name("."), 1))

    def test_its_items_are_its_labels(self):
        name = Name("www.example.com.")
        self.assertEqual((len(name), list(name), bytes(name)), (3, [b"www", b"example", b"com"], name.wire))
        self.assertEqual((len(Name(".")), list(Name("@")), bool(Name("."))), (0, [], True))
        self.assertEqual((name in Name("EXAMPLE.com."), Name("com.") in name, name in name), (True, False, True))
        self.assertEqual((name.parent, Name("a").parent), (Name("example.com."), Name("@")))
        self.assertEqual((Name("www") + Name("a."), f"{Name('a.'):>4}|{Name('a.')}"), (Name("www.a."), "  a.|a."))
        self.assertTrue(Name(".").is_root and not Name("@").is_root and not name.is_root)
        self.assertTrue(Name("*.a.").is_wildcard and not Name("a.*.").is_wildcard and not Name.from_wire(b"\x02.*\x00").is_wildcard)

    def test_names_of_labels(self):
        self.assertEqual(Name.from_labels([b"b.", bytearray(b"\xff")]).wire, b"\x02b.\x01\xff\x00")
        self.assertEqual((Name.from_labels([]), Name.from_labels([b"a"] * 127).wire), (Name("."), b"\x01a" * 127 + b"\x00"))
        for labels, error in [([b"a", b""], dnw.BadText), ([b"a" * 64], dnw.LabelTooLong), ([b"a"] * 128, dnw.NameTooLong)]:
            with self.assertRaises(error):
                Name.from_labels(labels)

    def test_other_types_are_not_compared(self):
        name = Name("a.")
        for other in [None, 1]:
            self.assertFalse(name == other)
            self.assertTrue(name != other)
            self.assertIs(name.__eq__(other), NotImplemented)
        for other in ["a.", b"\x01a\x00", None, 1]:
            for method in ["__lt__", "__le__", "__gt__", "__ge__", "__add__"]:
                self.assertIs(getattr(name, method)(other), NotImplemented)
        with self.assertRaises(TypeError):
            name + "b."

    def test_exceptions_say_where_and_cross_processes(self):
        with self.assertRaises(dnw.PointerNotBack) as raised:
            read_name(b"\x00\xc0\x01", 1)
        for error in [raised.exception, pickle.loads(pickle.dumps(raised.exception))]:
            self.assertEqual((error.offset, error.number), (1, 4))
            self.assertEqual(str(error), f"at offset 1: {error.reason}")
        with self.assertRaises(dnw.EmptyLabel) as raised:
            Name("a..b")
        again = pickle.loads(pickle.dumps(raised.exception))
        self.assertEqual((again.offset, again.rule, str(again)), (2, TextRule.EMPTY_LABEL, str(raised.exception)))
        with self.assertRaises(dnw.BadText) as raised:
            Name("a.").prepend_label(b"")
        self.assertEqual((raised.exception.offset, str(raised.exception)), (None, raised.exception.reason))


class Arguments(unittest.TestCase):
    def test_a_wrong_argument_is_named(self):
        name = Name("a.")
        record = dnw.read_record(bytes.fromhex("00 0001 0001 00000000 0000"))
        rows = [
            (lambda: Name(b"a."), "text: a str is wanted, not bytes"),
            (lambda: Name(name), "text: a str is wanted, not Name"),
            (lambda: Name.from_wire("a."), "wire: bytes are wanted, not str"),
            (lambda: Name.from_labels(["a"]), "label: bytes are wanted, not str"),
            (lambda: name.is_in("a."), "zone: a Name is wanted, not str"),
            (lambda: "a." in name, "name: a Name is wanted, not str"),
            (lambda: name.append("a."), "suffix: a Name is wanted, not str"),
            (lambda: name.compare("a."), "other: a Name is wanted, not str"),
            (lambda: name.prepend_label("a"), "label: bytes are wanted, not str"),
            (lambda: name.trim_to("a"), "labels: an int is wanted, not str"),
            (lambda: name.trim_to(-1), "labels: -1 is negative"),
            (lambda: read_name("a."), "message: bytes are wanted, not str"),
            (lambda: read_name(b"", None), "start: an int is wanted, not NoneType"),
            (lambda: read_name(b"", -1), "start: -1 is negative"),
            (lambda: list(names(3)), "message: bytes are wanted, not int"),
            (lambda: list(names(b"", 1.5)), "start: an int is wanted, not float"),
            (lambda: dnw.read_record(None), "message: bytes are wanted, not NoneType"),
            (lambda: list(dnw.records("", 0)), "message: bytes are wanted, not str"),
            (lambda: record.data_name("2"), "skip: an int is wanted, not str"),
            (lambda: dnw.parse_reverse_name("a."), "name: a Name is wanted, not str"),
            (lambda: dnw.parse_ttl(300), "text: a str is wanted, not int"),
            (lambda: dnw.type_code(1), "text: a str is wanted, not int"),
            (lambda: dnw.class_text("IN"), "code: an int is wanted, not str"),
            (lambda: dnw.TypeSet([b"A"]), "codes: an int is wanted, not bytes"),
            (lambda: dnw.TypeSet.from_bitmap(""), "bitmap: bytes are wanted, not str"),
            (lambda: dnw.serial_add(0, 2**32), "other: 4294967296 is not from 0 to 4294967295"),
            (lambda: dnw.serial_compare("0", 0), "left: an int is wanted, not str"),
        ]
        for call, text in rows:
            with self.subTest(text=text), self.assertRaises((TypeError, ValueError)) as raised:
                call()
            self.assertEqual(str(raised.exception), text)
            self.assertIs(type(raised.exception), TypeError if "wanted" in text else ValueError)

    def test_a_missing_library_says_where_it_was_looked_for(self):
        package = pathlib.Path(dnw.__file__).resolve().parent
        with tempfile.TemporaryDirectory() as folder:
            environment = {**os.environ, "DNW_LIB_DIR": folder, "PYTHONPATH": str(package.parent)}
            for write, text in [(False, "there is no "), (True, "cannot be loaded")]:
                if write:
                    pathlib.Path(folder, "libdns_names_wire.so").write_text("no library")
                ran = subprocess.run(
                    [sys.executable, "-c", "from dns_names_wire import Name"], env=environment, capture_output=True, text=True
                )
                self.assertIn("ImportError: ", ran.stderr)
                for part in [text, folder, "DNW_LIB_DIR", "tools/c-library", "wheel"]:
                    self.assertIn(part, ran.stderr)


def load_tests(loader, tests, pattern):
    for module in ["_errors", "_names"]:
        tests.addTests(doctest.DocTestSuite(import_module(f"dns_names_wire.{module}")))
    tests.addTests(doctest.DocTestSuite(dnw))
    return tests
