"""Messages of records, and reverse names. Expected bytes are worked out by hand from RFC 1035, sections 3.5 and 4.1.1
to 4.1.4, and RFC 3596, section 2.5."""

import doctest
import ipaddress
import pickle
import unittest
from importlib import import_module

import dns_names_wire as dnw
from dns_names_wire import Name, read_record, records

# A referral with glue: ns.example.com is the server for www.example.com. The name of the question is at offset 12, so
# example.com is at 16; the records begin at 33 and 50, and ns.example.com is at 45.
REFERRAL = bytes.fromhex(
    "1234 8000 0001 0000 0001 0001 03777777 07 6578616d706c65 03636f6d 00 0001 0001"
    "c010 0002 0001 0002a300 0005 026e73 c010 c02d 0001 0001 0002a300 0004 c0000201"
)


class Messages(unittest.TestCase):
    def test_a_referral_is_read(self):
        for message in [REFERRAL, bytearray(REFERRAL), memoryview(REFERRAL)]:
            ns, a = records(message, 33)
            self.assertEqual((ns.owner, ns.record_type, ns.record_class, ns.ttl), (Name("example.com."), 2, 1, 172800))
            self.assertEqual((ns.data_offset, ns.raw_data, ns.end), (45, REFERRAL[45:50], 50))
            self.assertEqual(ns.data_name(), Name("ns.example.com."))
            self.assertEqual((a.owner, a.raw_data, a.end), (Name("ns.example.com."), bytes([192, 0, 2, 1]), 66))
            self.assertEqual((repr(ns.record_type), str(a.record_class)), ("RecordType.NS", "IN"))
            copied = pickle.loads(pickle.dumps(ns))
            self.assertEqual((repr(copied), copied.data_name()), (repr(ns), ns.data_name()))

    def test_each_fault_of_a_record_is_its_exception(self):
        for message, start, error in [
            (REFERRAL, 66, dnw.MessageCut),
            (REFERRAL[:65], 50, dnw.MessageCut),
            (REFERRAL, 2**64, dnw.MessageCut),
            (REFERRAL, 2, dnw.ReservedOctet),
        ]:
            with self.subTest(start=start), self.assertRaises(error) as raised:
                read_record(message, start)
            self.assertEqual(raised.exception.offset, start)
        with self.assertRaises(ValueError):
            read_record(REFERRAL, -1)
        mx = read_record(bytes.fromhex("00 000f 0001 00000000 0003 000a 00"))
        self.assertEqual(mx.data_name(2), Name("."))
        for skip, error in [(0, dnw.WrongDataLength), (4, dnw.MessageCut), (-1, ValueError)]:
            with self.subTest(skip=skip), self.assertRaises(error):
                mx.data_name(skip)


class Reverse(unittest.TestCase):
    def test_reverse_names_go_and_come_back(self):
        nibbles = "b.a.9.8.7.6.5.0.4.0.0.0.3.0.0.0.2.0.0.0.1.0.0.0.0.0.0.0.1.2.3.4.ip6.arpa."
        for text, name in [("192.0.2.1", "1.2.0.192.in-addr.arpa."), ("4321:0:1:2:3:4:567:89ab", nibbles)]:
            address = ipaddress.ip_address(text)
            self.assertEqual([dnw.reverse_name(text), dnw.reverse_name(address)], [Name(name)] * 2)
            self.assertEqual(str(dnw.reverse_name(text)), address.reverse_pointer + ".")
            self.assertEqual(dnw.parse_reverse_name(Name(name)), ipaddress.ip_network(address))
        self.assertEqual(dnw.parse_reverse_name(Name("4.3.2.1.IP6.ARPA.")), ipaddress.ip_network("1234::/16"))
        for text in ["1.in-addr.arpa", "arpa.", "256.in-addr.arpa.", "g.ip6.arpa.", "1.2.3.4.5.in-addr.arpa.", "."]:
            with self.subTest(text=text), self.assertRaises(dnw.NotReverse):
                dnw.parse_reverse_name(Name(text))
        with self.assertRaises(ValueError):
            dnw.reverse_name("192.0.2")


def load_tests(loader, tests, pattern):
    for module in ["_data", "_messages", "_records", "_reverse", "_sets"]:
        tests.addTests(doctest.DocTestSuite(import_module(f"dns_names_wire.{module}")))
    return tests
