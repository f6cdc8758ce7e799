"""The classes of values, as Python's users expect of frozen dataclasses. Expected values are from the RFCs that are named, or are
dnspython's."""

import copy
import dataclasses
import inspect
import itertools
import pickle
import subprocess
import sys
import unittest
from typing import Any, Callable, List, Set, Tuple

import dns_names_wire as dnw
from dns_names_wire import CDS, DNSKEY, DS, MX, TXT, Data, Name, Record, RRset

# RFC 4034, section 5.4, with the digest of RFC 4509, section 2.3.
KEY = """dskey.example.com. 86400 IN DNSKEY 256 3 5 (
    AQOeiiR0GOMYkDshWoSKz9Xz fwJr1AYtsmx3TGkJaNXVbfi/ 2pHm822aJ5iI9BMzNXxeYCmZ DRD99WYwYqUSdjMmmAphXdvx
    egXd/M5+X7OrzKBaMbCVdFLU Uh6DhweJBjEVv5f2wwjM9Xzc nOf+EPbtG9DMBmADjFDc2w/r ljwvFw== )"""
SHA1 = "60485 5 1 2BB183AF5F22588179A53B0A98631FAD1A292118"
SHA256 = "60485 5 2 D4B7D520E7BB5F0F67674A0CCEB1E3E0614B93C4F9E99B8383F6A1E4469DA50A"


class Classes(unittest.TestCase):
    def test_no_class_of_a_type_is_one_of_another(self) -> None:
        shown = [getattr(dnw, name) for name in dnw.__all__]
        kinds = [kind for kind in shown if isinstance(kind, type) and issubclass(kind, Data) and kind._code]
        self.assertEqual(len(kinds), 79)
        for one, other in itertools.permutations(kinds, 2):
            self.assertFalse(issubclass(one, other), (one, other))
        self.assertNotIsInstance(CDS(1, 8, 2, b"a"), DS)
        self.assertNotEqual(CDS(1, 8, 2, b"a"), DS(1, 8, 2, b"a"))

    def test_they_are_as_dataclasses(self) -> None:
        data = MX(10, exchange="a.")
        self.assertEqual((repr(data), str(data), f"{data}"), ("MX(preference=10, exchange=Name('a.'))", "10 a.", "10 a."))
        self.assertEqual([field.name for field in dataclasses.fields(MX)], ["preference", "exchange"])
        self.assertEqual(dataclasses.replace(data, preference=5), MX(5, "a."))
        self.assertEqual(dataclasses.asdict(data), {"preference": 10, "exchange": Name("a.")})
        self.assertEqual(list(inspect.signature(MX).parameters), ["preference", "exchange"])
        self.assertEqual(list(inspect.signature(dnw.Nsid).parameters), ["octets"])
        self.assertEqual((MX.__match_args__, dnw.Nsid.__match_args__), (("preference", "exchange"), ("octets",)))
        for change in (lambda: setattr(data, "preference", 1), lambda: delattr(data, "preference"), lambda: setattr(data, "other", 1)):
            self.assertRaises(dataclasses.FrozenInstanceError, change)
        wrong: Tuple[Callable[[], Any], ...] = (
            lambda: MX(10), lambda: MX(10, "a.", 1), lambda: MX(10, preference=1), lambda: MX(10, "a.", other=1), lambda: dnw.Cookie(),
        )  # type: ignore[call-arg, misc] # fmt: skip
        for make in wrong:
            self.assertRaises(TypeError, make)

    def test_a_subclass_is_of_its_type(self) -> None:
        class Mail(MX):
            pass

        mail = Mail(10, "a.")
        self.assertEqual((mail.to_wire(), repr(mail).split("(")[0], mail.record_type), (MX(10, "a.").to_wire(), mail.__class__.__qualname__, 15))
        self.assertNotEqual(mail, MX(10, "a."))

    def test_a_star_import_has_every_public_name(self) -> None:
        room: dict = {}
        exec("from dns_names_wire import *", room)
        self.assertEqual({name for name in vars(dnw) if name[0] != "_"}, {name for name in room if name != "__builtins__"})
        self.assertEqual(sorted(dnw.__all__), sorted(name for name in dir(dnw) if name[0] != "_"))
        self.assertRaises(AttributeError, getattr, dnw, "NOTHING")

    def test_only_what_is_used_is_imported(self) -> None:
        def imported(used: str) -> Set[str]:
            shown = "print(*[it for it in sys.modules if it.startswith('dns_names_wire.')])"
            words = [sys.executable, "-c", f"import sys, dns_names_wire as dnw; {used}; {shown}"]
            ran = subprocess.run(words, capture_output=True, text=True)
            self.assertEqual(ran.returncode, 0, ran.stderr)
            return {it[len("dns_names_wire.") :] for it in ran.stdout.split()}

        self.assertEqual(imported("dnw.__all__, dir(dnw)"), set())
        self.assertEqual(imported("dnw.Message, dnw.Record") & {"_rdata", "_dnssec", "_failures", "_writer", "_zones"}, set())
        made = "import dns_names_wire._rdata as made; dnw.MX; assert 'MX' in vars(made) and 'TXT' not in vars(made)"
        self.assertEqual(imported(made) & {"_messages", "_dnssec"}, set())


class Texts(unittest.TestCase):
    def test_strings_may_be_texts(self) -> None:
        spf = b"\6v=spf1"
        for strings in ("v=spf1", b"v=spf1", bytearray(b"v=spf1"), ["v=spf1"], (b"v=spf1",)):
            self.assertEqual(TXT(strings).to_wire(), spf)
        self.assertEqual(TXT(["a", b"b"]).strings, (b"a", b"b"))
        self.assertEqual(TXT("\u00e9").strings, (b"\xc3\xa9",))
        self.assertEqual(dnw.CAA(0, "issue", "ca.example"), dnw.CAA(0, b"issue", b"ca.example"))
        self.assertEqual(str(dnw.URI(10, 1, "ftp://ftp1.example.com/public")), '10 1 "ftp://ftp1.example.com/public"')
        self.assertEqual(str(dnw.HINFO("PC", "Linux")), '"PC" "Linux"')

    def test_names_of_other_letters_are_refused(self) -> None:
        """They are A-labels (RFC 5890, section 2.3.2.1), and not UTF-8. A character string has any octets."""
        text, name = "b\u00fccher.example.", Name("xn--bcher-kva.example.")
        calls: Tuple[Callable[[], Any], ...] = (
            lambda: Name(text), lambda: Name.absolute(text), lambda: MX(10, text), lambda: Record(text, 60, TXT("a")),
            lambda: dnw.make_query(text, "A"), lambda: dnw.Question(text, "A"), lambda: Record.from_text(f"{text} 60 TXT a"),
            lambda: Record.from_text(f"a. 60 NS {text}"), lambda: MX.from_text(f"10 {text}"), lambda: dnw.data_from_text("NS", text),
            lambda: dnw.Chain(text).option(), lambda: Record.from_text("b\u00fccher 60 TXT \u00e9", name),
        )  # fmt: skip
        for call in calls:
            with self.assertRaises(dnw.IllegalCharacter):
                call()
        self.assertEqual(Record.from_text("a. 60 TXT \u00e9 \"\u4e2d\"").data, TXT(["\u00e9", "\u4e2d"]))
        self.assertEqual(Name("b\\195\\188cher.").labels, ("b\u00fccher".encode(),))
        self.assertEqual(Record.from_text(f"a 60 TXT \u00e9", Name("\\195\\188.")).data, TXT("\u00e9"))

    def test_the_longest_time_to_live(self) -> None:
        """RFC 2181, section 8."""
        self.assertEqual(Record("a.", 2**31 - 1, TXT("a")).ttl, 2**31 - 1)
        for make in (lambda: Record("a.", 2**31, TXT("a")), lambda: RRset.of("a.", 2**31, [TXT("a")])):
            with self.assertRaisesRegex(ValueError, "^ttl: 2147483648 is not from 0 to 2147483647$"):
                make()


class Options(unittest.TestCase):
    def test_options_may_be_what_they_say(self) -> None:
        own = dnw.Edns(options=[dnw.Cookie(b"12345678"), (3, b""), dnw.EdnsOption(12, b"\0")])
        self.assertEqual(own.options, ((10, b"12345678"), (3, b""), (12, b"\0")))
        self.assertEqual(dnw.Message.from_wire(dnw.Message.build(edns=own).to_wire()).edns, own)
        self.assertRaises(dnw.BadData, dnw.Edns, options=[dnw.Cookie(b"12345678", b"1234567")])
        self.assertRaises(TypeError, dnw.Edns, options=[7])


class Keys(unittest.TestCase):
    def test_key_tags_and_digests(self) -> None:
        record = Record.from_text(KEY)
        data = record.data
        assert isinstance(data, DNSKEY)
        for key in (record, data, record.raw_data, dnw.CDNSKEY.from_wire(record.raw_data)):
            self.assertEqual(dnw.key_tag(key), 60485)
            self.assertEqual(dnw.ds_digest(record.owner, key, 1), DS.from_text(SHA1).digest)
        self.assertEqual((data.key_tag(), str(data.ds(record.owner, 1)), str(data.ds("dskey.example.com."))), (60485, SHA1, SHA256))
        self.assertEqual((str(dnw.ds(record, 1)), str(dnw.ds(record))), (SHA1, SHA256))
        self.assertRaises(dnw.UnknownAlgorithm, dnw.ds, record, 3)
        for call in (dnw.key_tag, dnw.ds):
            self.assertRaises(dnw.NotDnskey, call, Record.from_text("a. 60 KEY 256 3 8 AQAB"))
            self.assertRaises(TypeError, call, TXT("a"))


class Copies(unittest.TestCase):
    def values(self) -> List[Any]:
        """A value of each public class that has some."""
        message = dnw.make_query("a.", "MX", id=7).reply([Record("a.", 60, MX(10, "b.a."))])
        read = dnw.Message.from_wire(message.to_wire())
        data = [Record.from_text(KEY).data, TXT("a"), dnw.Unknown(65280, b"a"), dnw.SVCB(1, ".", [(3, b"\0\x35")]), dnw.A("192.0.2.1")]
        own = [Name("a."), Name("a"), read.answers[0], Record("a.", 60, TXT("a")), RRset(read.answers), dnw.TypeSet([1, 15])]
        codes = [dnw.RecordType.MX, dnw.RecordClass.IN, dnw.OpCode.QUERY, dnw.ResponseCode.NXDOMAIN, dnw.TextRule.BAD_ESCAPE]
        options = [dnw.EdnsOption(3, b"a"), dnw.Nsid(b"a"), dnw.Cookie(b"12345678"), dnw.Chain("a."), dnw.UnknownOption(65001, b"a")]
        others = [dnw.Question("a.", "MX"), dnw.Edns(), dnw.Header(7), dnw.NameAt(Name("a."), 7), read]
        return [*data, *own, *codes, *options, *others]

    def test_copies_are_equal(self) -> None:
        for value in self.values():
            for copied in (copy.copy(value), copy.deepcopy(value), *(pickle.loads(pickle.dumps(value, way)) for way in range(2, 6))):
                self.assertIs(type(copied), type(value))
                self.assertEqual((copied, repr(copied), str(copied), hash(copied)), (value, repr(value), str(value), hash(value)))

    def test_a_writer_is_not_copied(self) -> None:
        for make in (copy.copy, copy.deepcopy, pickle.dumps):
            with self.assertRaisesRegex(TypeError, "a MessageWriter is not copied"):
                make(dnw.MessageWriter())

    def test_copies_of_errors_say_the_same(self) -> None:
        for text in ("a..b", "\\256", "b\u00fccher."):
            with self.assertRaises(dnw.DnsError) as raised:
                Name(text)
            error = raised.exception
            for copied in (copy.copy(error), copy.deepcopy(error), pickle.loads(pickle.dumps(error))):
                self.assertIs(type(copied), type(error))
                self.assertEqual((str(copied), vars(copied)), (str(error), vars(error)))


if __name__ == "__main__":
    unittest.main()
