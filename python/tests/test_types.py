"""Types, classes, bitmaps, serial numbers, master files, and names made from names. Expected values are from RFC 4034,
section 4.3, RFC 1982, section 5, RFC 1035, section 5.1, or counted by hand."""

import copy
import doctest
import pickle
import unittest
from importlib import import_module

import dns_names_wire as dnw
from dns_names_wire import Name, RecordClass, RecordType, TypeSet, parse_ttl

BITMAP = bytes.fromhex("0006400100000003041b") + bytes(26) + b"\x20"


class Edits(unittest.TestCase):
    def test_names_of_names(self):
        self.assertEqual(str(Name("a.b").append(Name("c."))), "a.b.c.")
        self.assertEqual(str(Name("a.").append(Name("c"))), "a.c")
        self.assertEqual(Name("a.").prepend_label(b"b.\xff").wire, b"\x03b.\xff\x01a\x00")
        long = Name(".".join(["a" * 63] * 3 + ["a" * 61]) + ".")
        for label, name, error in [
            (b"", Name("a."), dnw.BadText),
            (b"a" * 64, Name("a."), dnw.LabelTooLong),
            (b"a", long, dnw.NameTooLong),
        ]:
            with self.assertRaises(error):
                name.prepend_label(label)
        with self.assertRaises(dnw.NameTooLong):
            long.append(long)
        self.assertEqual([str(Name("a.b.c").trim_to(n)) for n in [0, 1, 2, 3, 2**70]], ["@", "c", "b.c", "a.b.c", "a.b.c"])
        with self.assertRaises(ValueError):
            Name("a").trim_to(-1)
        self.assertEqual([str(Name(text).to_wildcard()) for text in ["a.b.", "."]], ["*.b.", "."])


class Types(unittest.TestCase):
    def test_codes_have_texts(self):
        for code, text in [(1, "A"), (28, "AAAA"), (46, "RRSIG"), (65, "HTTPS"), (255, "ANY"), (1234, "TYPE1234"), (0, "TYPE0"),
                           (17, "RP"), (23, "NSAP-PTR"), (29, "LOC"), (256, "URI"), (32769, "DLV"), (65305, "TYPE65305")]:
            self.assertEqual((dnw.type_text(code), dnw.type_code(text)), (text, code))
        for code, text in [(1, "IN"), (3, "CH"), (4, "HS"), (254, "NONE"), (255, "ANY"), (7, "CLASS7")]:
            self.assertEqual((dnw.class_text(code), dnw.class_code(text)), (text, code))
        self.assertEqual((dnw.type_code("*"), dnw.class_code("*"), dnw.type_code("type00001")), (255, 255, 1))
        for text in ["", "TYPE", "TYPE65536", "TYPE+1", "TYPE\u0661", "CLASS1", "NOTHING", "ZERO", "ANAME", "NSAP_PTR", "\u00e4", "\u0131xfr"]:
            with self.subTest(text=text), self.assertRaises(dnw.UnknownText):
                dnw.type_code(text)
        for text in ["", "CLASS65536", "TYPE1", "CLA\u017fS1"]:
            with self.subTest(text=text), self.assertRaises(dnw.UnknownText):
                dnw.class_code(text)
        with self.assertRaises(ValueError):
            dnw.type_text(65536)

    def test_every_code_is_parsed_from_what_is_shown(self):
        for code in range(65536):
            kind, klass = dnw.type_text(code), dnw.class_text(code)
            self.assertEqual((dnw.type_code(kind), dnw.class_code(klass)), (code, code))
            self.assertEqual((dnw.type_code(kind.lower()), dnw.class_code(klass.lower())), (code, code))

    def test_every_name_has_a_constant(self):
        for kind, text, prefix in [(RecordType, dnw.type_text, "TYPE"), (RecordClass, dnw.class_text, "CLASS")]:
            named = {text(code): code for code in range(65536) if not text(code).startswith(prefix)}
            constants = {name.replace("-", "_"): code for name, code in named.items()}
            constants.update({"ZERO": 0, "ANAME": 65305} if kind is RecordType else {})
            declared = {name for base in kind.__mro__ for name in vars(base).get("__annotations__", {}) if name.isupper()}
            self.assertEqual({name: int(getattr(kind, name)) for name in declared}, constants)
            for name, code in named.items():
                self.assertEqual((str(kind(code)), kind.from_text(name.lower())), (name, code))

    def test_codes_are_ints(self):
        kind = RecordType.MX
        self.assertIsInstance(kind, int)
        self.assertEqual((kind, kind + 1, {15: "x"}[kind], sorted([kind, 1])), (15, 16, "x", [1, 15]))
        self.assertEqual((f"{kind:>4}", f"{RecordClass.IN}", f"{int(kind)}"), ("  MX", "IN", "15"))
        for value in [kind, RecordType(1234), RecordClass.ANY, RecordClass(7)]:
            self.assertEqual(eval(repr(value), {"RecordType": RecordType, "RecordClass": RecordClass}), value)
            for copied in [pickle.loads(pickle.dumps(value)), copy.deepcopy(value)]:
                self.assertEqual((copied, type(copied), repr(copied)), (value, type(value), repr(value)))
        for code in [-1, 65536]:
            with self.assertRaisesRegex(ValueError, "^code: .* is not from 0 to 65535$"):
                RecordType(code)
        with self.assertRaisesRegex(TypeError, "^code: an int is wanted, not str$"):
            RecordType("A")

    def test_sets_are_bitmaps(self):
        types = TypeSet(dnw.type_code(text) for text in ["A", "MX", "RRSIG", "NSEC", "TYPE1234"])
        self.assertEqual(types.to_bitmap(), BITMAP)
        self.assertEqual(TypeSet.from_bitmap(BITMAP), types)
        self.assertEqual(list(types), [1, 15, 46, 47, 1234])
        self.assertEqual((types, hash(types)), (TypeSet([1234, 1, 1, 47, 46, 15]), hash(TypeSet(types))))
        self.assertEqual(types & {1, 2}, TypeSet([1]))
        self.assertEqual((TypeSet().to_bitmap(), TypeSet.from_bitmap(b"")), (b"", TypeSet()))
        for bitmap in [b"\x00\x00\x01", b"\x00\x21" + bytes(32) + b"\x01"]:
            with self.assertRaises(dnw.BadBitmap):
                TypeSet.from_bitmap(bitmap)
        self.assertEqual((eval(repr(types), {"TypeSet": TypeSet}), pickle.loads(pickle.dumps(types))), (types, types))
        self.assertEqual((RecordType.MX in types, "MX" in types, len(types)), (True, False, 5))
        every = TypeSet(range(65536))
        self.assertEqual(TypeSet.from_bitmap(every.to_bitmap()), every)
        with self.assertRaises(ValueError):
            TypeSet([65536])

    def test_serial_numbers_go_round(self):
        self.assertEqual(dnw.serial_add(4294967295, 2), 1)
        self.assertEqual([dnw.serial_compare(*pair) for pair in [(0, 4294967295), (7, 7), (1, 2**31)]], [1, 0, -1])
        with self.assertRaises(dnw.NotOrdered):
            dnw.serial_compare(7, 7 + 2**31)
        with self.assertRaises(ValueError):
            dnw.serial_add(-1, 0)


class Texts(unittest.TestCase):
    def test_times_are_sums(self):
        for text, seconds in [("0", 0), ("1w2d3h4m5s", 788645), ("4294967295", 4294967295)]:
            self.assertEqual(parse_ttl(text), seconds)
        for text in ["", "h", "4294967296", "1x"]:
            with self.subTest(text=text), self.assertRaises(dnw.BadTime):
                parse_ttl(text)


def load_tests(loader, tests, pattern):
    for module in ["_codes", "_text", "_types"]:
        tests.addTests(doctest.DocTestSuite(import_module(f"dns_names_wire.{module}")))
    return tests
