"""Zone files: what RFC 1035, section 5, says of them, errors with their places, files that include others, and dnspython's records."""

import gzip
import io
import os
import pathlib
import random
import re
import tempfile
import threading
import tracemalloc
import unittest

import dns_names_wire as dnw
from dns_names_wire import Name, Record, ZoneError, check_zone, read_zone, zone_lines

try:
    import dns.exception
    import dns.zone
except ImportError:
    dns = None

ROOT = pathlib.Path(__file__).resolve().parents[2]


def lines(*arguments, **named):
    return [str(record) for record in read_zone(*arguments, **named)]


def error_of(zone, **named):
    try:
        list(read_zone(zone, "o.", **named))
    except ZoneError as error:
        return error
    raise AssertionError("no error")


class Zones(unittest.TestCase):
    def test_records(self):
        zone = b"$TTL 1h\n@ IN SOA ns root (\n 1 2h 3 4 5 ) ; c\n NS ns\nns 5 A 192.0.2.1\n$ORIGIN sub\nx TXT \"a b\" c\\059\n"
        self.assertEqual(
            lines(zone, "example."),
            [
                "example. 3600 IN SOA ns.example. root.example. 1 7200 3 4 5",
                "example. 3600 IN NS ns.example.",
                "ns.example. 5 IN A 192.0.2.1",
                'x.sub.example. 3600 IN TXT "a b" "c;"',
            ],
        )
        record = list(read_zone(bytearray(zone), Name("example.")))[2]
        self.assertEqual((record.owner, record.ttl, record.data), (Name("ns.example."), 5, dnw.A("192.0.2.1")))
        self.assertEqual(record, Record("NS.example.", 60, dnw.A("192.0.2.1")))
        self.assertEqual(record.to_wire().hex(), "026e73076578616d706c65000001000100000005" + "0004c0000201")
        self.assertEqual(list(read_zone(b"", ".")), [])

    def test_lines(self):
        zone = b"$TTL 1h\n@ SOA ns root 1 2 3 4 5\n NS ns\nns A 192.0.2.1\nNS 5 A 192.0.2.2\na\\.b.c TXT x\nexample.o. A 192.0.2.3\n"
        records = list(read_zone(zone, "example."))
        written = "".join(zone_lines(records, "example.", 3600))
        self.assertEqual(
            written,
            "$ORIGIN example.\n$TTL 3600\n@ IN SOA ns.example. root.example. 1 2 3 4 5\n IN NS ns.example.\nns IN A 192.0.2.1\n"
            'NS 5 IN A 192.0.2.2\na\\.b.c IN TXT "x"\nexample.o. IN A 192.0.2.3\n',
        )
        self.assertEqual([it.to_wire() for it in read_zone(written.encode(), "other.")], [it.to_wire() for it in records])
        self.assertEqual("".join(zone_lines(records[3:4], ".")), "$ORIGIN .\nNS.example. 5 IN A 192.0.2.2\n")
        large = Record("a.", 1, dnw.TXT([b"x"] * 30000))
        self.assertEqual(list(zone_lines([large], "a."))[1], "@ 1 IN TXT" + ' "x"' * 30000 + "\n")
        self.assertRaises(ValueError, zone_lines, [], "relative")
        self.assertRaises(ValueError, zone_lines, [], "a.", 2**31)
        self.assertRaises(TypeError, list, zone_lines(["a. 1 IN A 192.0.2.1"], "a."))

    @unittest.skipIf(dns is None, "dnspython is not there")
    def test_dnspython_reads_lines(self):
        records = list(read_zone(b"@ 60 SOA ns root 1 2 3 4 5\n@ 60 NS ns\nns 60 A 192.0.2.1\nx.ns 5 MX 1 @\n", "o."))
        theirs = dns.zone.from_text("".join(zone_lines(records, "o.", 60)), "o.", relativize=False)
        found = sorted(f"{name} {ttl} IN {dns.rdatatype.to_text(data.rdtype)} {data}" for name, ttl, data in theirs.iterate_rdatas())
        self.assertEqual(found, sorted(map(str, records)))

    def test_arguments(self):
        self.assertRaises(TypeError, read_zone, 7, ".")
        self.assertRaises(TypeError, read_zone, b"", 7)
        self.assertRaises(ValueError, read_zone, b"", "relative")
        self.assertRaises(FileNotFoundError, read_zone, "/nowhere/zone", ".")

    def test_errors(self):
        error = error_of(b"$TTL 1\na A 192.0.2.1\na MX x mail ; \xff\x1b\n")
        self.assertEqual(str(error), "<bytes>:3:6: wanted a number of at most 65535 (field 0)")
        self.assertEqual((error.file, error.line, error.column, error.offset), ("<bytes>", 3, 6, 26))
        self.assertEqual(error.text, "a MX x mail ; \\255\\027")
        self.assertIsInstance(error, dnw.DnsError)
        self.assertEqual(error_of(b"a A 1.2.3.4").reason, "no time to live is there, nor in an entry before")
        self.assertEqual(str(error_of(b"$TTL 1\n$GENERATE 1-2 a$ A 1.2.3.$\n")), "<bytes>:2:1: $GENERATE is not read")
        long = error_of(b"a 1 TXT " + b"x" * 3000 + b" \\# " + b"y" * 3000)
        self.assertEqual((long.column, len(long.text)), (9, 8 + 500))

    def test_reading_on(self):
        found = []
        zone = b"x A 1.2.3.4\n$TTL 1\nb A 1.2.3\na A 1.2.3.4\n TXT \"\n$FOO\n A 1.2.3.5"
        self.assertEqual(lines(zone, "o.", errors=found.append), ["a.o. 1 IN A 1.2.3.4", "a.o. 1 IN A 1.2.3.5"])
        self.assertEqual([(error.line, error.column) for error in found], [(1, 3), (3, 5), (5, 6), (6, 1)])
        self.assertRaises(ZeroDivisionError, lines, zone, "o.", errors=lambda error: 1 // 0)

    def test_times_to_live(self):
        # as named-checkzone and dnspython
        zone = b"@ SOA ns h 1 2 3 4 300\n@ NS ns\nns 60 A 192.0.2.1\nb A 192.0.2.2\n"
        self.assertEqual([it.ttl for it in read_zone(zone, "o.")], [300, 300, 60, 300])
        self.assertEqual([it.ttl for it in read_zone(b"a A 192.0.2.1\nb 7 A 192.0.2.1\nc A 192.0.2.1", "o.", default_ttl=9)], [9, 7, 7])
        self.assertEqual(error_of(b"a 2147483648 A 192.0.2.1").reason, "the time is too large")
        self.assertRaises(ValueError, read_zone, b"", ".", default_ttl=2**31)

    def test_generates(self):
        # as named-compilezone (BIND 9.18)
        zone = b"$TTL 60\na A 192.0.2.9\n$GENERATE 1-6/2 a${10,3} MX \"$ m${0,0,x}\"\nb A 192.0.2.1\n"
        made = [f"a0{n + 10}.o. 60 IN MX {n} m{n}.o." for n in (1, 3, 5)]
        self.assertEqual(lines(zone, "o.", generate_limit=3), ["a.o. 60 IN A 192.0.2.9", *made, "b.o. 60 IN A 192.0.2.1"])
        self.assertRaises(dnw.ZoneError, lines, zone, "o.", generate_limit=2)
        found = []
        lines(zone + b"$GENERATE 1-300 c$ A 192.0.2.$", "o.", generate_limit=300, errors=found.append)
        self.assertEqual([str(error) for error in found], ["<bytes>:5:22: wanted an IPv4 address (field 0)"])
        reverse = lines(b"$GENERATE 16-17 ${0,4,n}0 7 PTR h$.", "ip6.arpa.", generate_limit=9)
        self.assertEqual(reverse, ["0.1.0.ip6.arpa. 7 IN PTR h16.", "1.1.0.ip6.arpa. 7 IN PTR h17."])
        self.assertRaises(ValueError, read_zone, b"", ".", generate_limit=-1)

    def test_open_files(self):
        zone = b"$TTL 1\na A 192.0.2.1\n" * 5000
        stream = gzip.GzipFile(fileobj=io.BytesIO(gzip.compress(zone)))
        self.assertEqual(sum(1 for _ in read_zone(stream, "o.")), 5000)
        self.assertFalse(stream.closed)
        self.assertRaisesRegex(ZoneError, "<stream>:1:3: ", list, read_zone(io.BytesIO(b"a B"), "o."))

    def test_hostile_octets(self):
        for zone, reason in {
            b"(" * 10**6: "more than 255 parentheses are open",
            b"(" + b"\n" * 10**6: "the text ends within parentheses",
            b")" * 10**6: "no parenthesis is open",
            b'"' + b"a" * 10**6: "the line ends within a quoted string",
            b"\\": "the line ends after a backslash",
            b"\0" * 10**6: "the owner is no name",
            b"\r" * 10: "wanted a record type",
        }.items():
            with self.subTest(zone[:9]):
                found = []
                self.assertEqual(lines(zone, "o.", errors=found.append), [])
                self.assertEqual([error.reason for error in found][:1] or [reason], [reason])
        self.assertRegex(str(error_of(b"(" + b"a " * 10**7)), "<bytes>:1:1: an entry has more than 16777216 octets")
        found = []
        self.assertEqual(lines(b"(" + b"a " * 10**7, "o.", errors=found.append), [])
        self.assertEqual(len(found), 1)


class Files(unittest.TestCase):
    def setUp(self):
        folder = tempfile.TemporaryDirectory()
        self.addCleanup(folder.cleanup)
        self.folder = folder.name

    def write(self, name, octets):
        path = os.path.join(self.folder, name)
        os.makedirs(os.path.dirname(path), exist_ok=True)
        with open(path, "wb") as file:
            file.write(octets)
        return path

    def test_include(self):
        path = self.write("zone", b"$TTL 7\na A 1.2.3.4\n$INCLUDE sub/f sub\n A 1.2.3.6\nlast A 1.2.3.7\n")
        self.write("sub/f", b" A 1.2.3.5\nb A 1.2.3.8\n$TTL 8\n$INCLUDE g\n$ORIGIN c.\n")
        self.write("sub/g", b"@ TXT x")
        wanted = [
            "a.o. 7 IN A 1.2.3.4", "a.o. 7 IN A 1.2.3.5", "b.sub.o. 7 IN A 1.2.3.8", 'sub.o. 8 IN TXT "x"',
            "a.o. 7 IN A 1.2.3.6", "last.o. 7 IN A 1.2.3.7",
        ]  # fmt: skip
        self.assertEqual(lines(path, "o."), wanted)
        self.assertEqual(lines(pathlib.Path(path), Name("o.")), wanted)
        with open(path, "rb") as file:
            octets = file.read()
        self.assertEqual(lines(octets, "o.", folder=self.folder), wanted)
        self.assertEqual(str(error_of(octets)), "<bytes>:3:1: $INCLUDE is not followed here: no folder is given")
        with open(path, "rb") as file:
            self.assertEqual(str(error_of(file)), f"{path}:3:1: $INCLUDE is not followed here: no folder is given")
        with open(path, "rb") as file:
            self.assertEqual(lines(file, "o.", folder=pathlib.Path(self.folder)), wanted)

    def including(self, file, given=None):
        """The records of a zone in the folder `sub` that includes a file, and what its errors say."""
        zone, found = self.write("sub/zone", b'$TTL 7\n$INCLUDE "%s"\n' % os.fsencode(file)), []
        folder = None if given is None else os.path.join(self.folder, given)
        return lines(zone, "o.", folder=folder, errors=found.append) + [error.reason for error in found]

    def test_folders(self):
        """Which files are included: those below the folder of the zone file, and below one that is given."""
        for file, text in {"g": b"out TXT x", "sub/g": b"near TXT x", "sub/deep/f": b"$INCLUDE g", "sub/deep/g": b"deep TXT x"}.items():
            self.write(file, text)
        for link, target in {"sub/out": "../g", "sub/lost": "../none", "in": "sub/g", "sub/up": ".."}.items():
            os.symlink(target, os.path.join(self.folder, link))
        near, out = ['near.o. 7 IN TXT "x"'], ['out.o. 7 IN TXT "x"']
        self.assertEqual(self.including("deep/f"), ['deep.o. 7 IN TXT "x"'])
        for file in ["g", "./g", "../sub/g", "deep/../g", "../in", "up/sub/g", f"{self.folder}/sub/g", f"{self.folder}/in"]:
            self.assertEqual(self.including(file), near, file)
        # the same error, whether the file is there or not
        outside = ["../g", "../none", "../none/g", "out", "lost", "up/g", "up/none", "/etc/passwd", "/etc/none", "/", ".."]
        for file in [*outside, f"{self.folder}/g", f"{self.folder}/none"]:
            for given in (None, "sub", "sub/deep", "nowhere", "s"):
                self.assertEqual(self.including(file, given), [f"'{file}' is outside the folders to include from"])
        for file in ["../g", "out", "up/g", f"{self.folder}/g"]:
            self.assertEqual(self.including(file, "."), out, file)
        # A folder that is given is not where relative paths of a file begin.
        self.assertEqual(self.including("g", "."), near)

    @unittest.skipUnless(hasattr(os, "mkfifo"), "the system has no named pipes")
    def test_pipes(self):
        pipe = os.path.join(self.folder, "pipe")
        os.mkfifo(pipe)
        self.write("f", b"a 1 A 192.0.2.1\n")
        for folder, wanted in {None: "$INCLUDE is not followed here: no folder is given", self.folder: "a.o. 1 IN A 192.0.2.1"}.items():
            writer = threading.Thread(target=self.write, args=("pipe", b"$INCLUDE f\n"))
            writer.start()
            found = []
            self.assertEqual(lines(pipe, "o.", folder=folder, errors=found.append) + [error.reason for error in found], [wanted])
            writer.join()
        self.assertEqual(self.including("../pipe", "."), ["'../pipe' is not a file"])

    def test_lines_are_hidden(self):
        """No line of an included file is shown before a record of it."""
        for before in (0, 1, 300):
            self.write("f", b"root:x:0\n$INCLUDE none\n\"\n" + b"a 1 A 192.0.2.1\n" * before + b"root:x:0\n$INCLUDE none\n")
            found = []
            self.assertEqual(len(lines(self.write("zone", b"$INCLUDE f\nx:\n"), "o.", errors=found.append)), before)
            shown = ["root:x:0", "$INCLUDE none"] if before else ["", ""]
            self.assertEqual([error.text for error in found], ["", "", "", *shown, "x:"])

    def test_names_are_escaped(self):
        escaped = r"x\027[31m\010\009\195\169"
        self.assertEqual(self.including(escaped), [f"'{escaped}' cannot be read: No such file or directory"])
        self.write(b"sub/x\x1b[31m\n\t\xc3\xa9".decode(), b"x")
        zone = self.write("sub/zone", b'$INCLUDE "%s"' % escaped.encode())
        self.assertRegex(str(error_of(zone)), f"^{re.escape(self.folder)}/sub/{re.escape(escaped)}:1:2: ")

    def test_errors_in_files(self):
        path = self.write("zone", b"\n\n$INCLUDE f\n")
        inner = self.write("f", b"a 1 A 1.2.3.4\n$x\n")
        error = error_of(path)
        self.assertEqual((error.file, error.line, error.text), (inner, 2, "$x"))
        self.assertEqual(str(error), f"{inner}:2:1: {error.reason}")
        for name, reason in {
            "none": "'none' cannot be read: No such file or directory", ".": "'.' is not a file", "/dev/zero": "'/dev/zero' is outside the folders to include from",
            "zone": "'zone' includes itself", "link": "'link' includes itself", '""': "no file is there", '"a\\000"': "no file is there",
        }.items():  # fmt: skip
            with self.subTest(name):
                path = self.write("zone", b"$INCLUDE " + name.encode() + b"\n$TTL 1\na A 1.2.3.4\n")
                if name == "link":
                    os.symlink(path, os.path.join(self.folder, "link"))
                found = []
                self.assertEqual(lines(path, "o.", errors=found.append), ["a.o. 1 IN A 1.2.3.4"])
                self.assertEqual([(error.reason, error.line) for error in found], [(reason, 1)])

    def test_depth(self):
        for n in range(12):
            self.write(f"f{n}", b"$INCLUDE f%d\n%d 1 A 1.2.3.4\n" % (n + 1, n))
        found = []
        self.assertEqual(len(lines(os.path.join(self.folder, "f0"), "o.", errors=found.append)), 10)
        self.assertEqual([str(it) for it in found], [f"{self.folder}/f9:1:1: 10 files include one another already"])
        path = self.write("many", b"$INCLUDE f11\n" * 1002)
        found = []
        self.assertEqual(lines(path, "o.", errors=found.append)[1:], ["11.o. 1 IN A 1.2.3.4"] * 999)
        self.assertEqual([str(it) for it in found][-1:], [f"{path}:1002:1: 1000 files are included already"])
        # two files that include one another
        self.write("a", b"$INCLUDE b\n")
        self.write("b", b"$INCLUDE a\n")
        self.assertEqual(error_of(os.path.join(self.folder, "a")).reason, "'a' includes itself")

    def test_windows(self):
        """Entries of every length, at every offset of the parts that are read."""
        entries = [b"a%d 1 TXT (%s\n) ; %s\n" % (n, b" x" * (1 + n % 97), b"c" * (n * 31 % 999)) for n in range(3000)]
        path = self.write("zone", b"".join(entries))
        self.assertGreater(os.path.getsize(path), 20 << 16)
        found = list(read_zone(path, "."))
        self.assertEqual([len(record.raw_data) for record in found], [2 + n % 97 * 2 for n in range(3000)])

    def test_memory(self):
        path = self.write("zone", b"$TTL 1\n" + b"a A 192.0.2.1\n" * 200_000)
        tracemalloc.start()
        count = sum(1 for _ in read_zone(path, "example."))
        _, peak = tracemalloc.get_traced_memory()
        tracemalloc.stop()
        self.assertEqual(count, 200_000)
        self.assertLess(peak, 1 << 20)

    def test_files_are_closed(self):
        path = self.write("zone", b"a 1 A 1.2.3.4\nb 1 A 1.2.3.4\n")
        zone = read_zone(path, "o.")
        next(zone)
        frame = zone.gi_frame.f_locals["file"]
        zone.close()
        self.assertTrue(frame.stream.closed)


@unittest.skipIf(dns is None, "dnspython is not installed")
class Dnspython(unittest.TestCase):
    def theirs(self, octets, origin):
        """The records that dnspython reads, in wire form."""
        text = octets.decode("latin-1")
        txn_zone = dns.zone.from_text(text, origin, relativize=False, check_origin=False, allow_include=False)
        return self.sets(
            ((name.to_wire().lower(), int(rdata.rdtype)), ttl, rdata.to_wire(origin=txn_zone.origin).lower())
            for name, ttl, rdata in txn_zone.iterate_rdatas()
        )

    def ours(self, source, origin):
        """The records that we read, in wire form."""
        return self.sets(((it.owner.wire.lower(), int(it.record_type)), it.ttl, it.raw_data.lower()) for it in read_zone(source, origin))

    def sets(self, records):
        """The data of each set of records, and its least TTL, which dnspython gives to all of them."""
        found = {}
        for key, ttl, data in records:
            least, datas = found.get(key, (ttl, set()))
            found[key] = min(least, ttl), datas | {data}
        return found

    def test_files(self):
        files = {"/usr/share/dns/root.hints": "."}
        files.update({str(path): "localhost." for path in pathlib.Path("/etc/bind").glob("db.*")})
        files.update({str(path): "example." for path in (ROOT / "diff/zones").glob("*.zone")})
        files[str(ROOT / "diff/zones/signed.zone")] = "example.org."
        compared = 0
        for path, origin in sorted(files.items()):
            with self.subTest(path):
                if not os.path.isfile(path):
                    continue
                octets = pathlib.Path(path).read_bytes()
                if b"$INCLUDE" in octets:
                    continue
                compared += 1
                try:
                    ours = self.ours(path, origin)
                except ZoneError:
                    # a string with the end of a line in it
                    self.assertRaises(dns.exception.SyntaxError, self.theirs, octets, origin)
                else:
                    self.assertEqual(ours, self.theirs(octets, origin))
        self.assertGreaterEqual(compared, 3)

    def test_random_zones(self):
        made = random.Random(1)
        for number in range(200):
            zone = self.random_zone(made)
            with self.subTest(number):
                self.assertEqual(self.ours(zone, "example."), self.theirs(zone, "example."))

    def random_zone(self, made):
        """A zone in which owners, TTLs and classes are left out, with parentheses, comments, escapes and directives."""
        lines = ["$TTL %d" % made.randrange(1, 10**6), "@ IN SOA ns root ( 1", " 2 3 ; c", "4 5 )"]
        for _ in range(made.randrange(1, 40)):
            kind = made.randrange(12)
            if kind == 0:
                lines.append(made.choice(["", " ; (", "; \"", "$ORIGIN example.", "$TTL 1h30m"]))
                continue
            owner = made.choice(["", "", "@", "a", "b.c", "x\\.y", "\\065b", "*", "deep.er.example."])
            head = made.choice(["", "IN", "7", "9 IN"])  # dnspython reads no TTL after a class
            data = made.choice(
                ["A 192.0.2.%d" % made.randrange(256), "MX ( 10\n mail )", "TXT \"a;b\" c\\\"d", "NS @", "CNAME x", "AAAA 2001:db8::%x" % made.randrange(999),
                 "TYPE65280 \\# 2 ( 00\n ff )", "SRV 1 2 3 host.", "CAA 0 issue \"ca.example\"", "PTR deep\\046name.example."]
            )  # fmt: skip
            if "CNAME" in data:
                owner = "c%d" % len(lines)
            lines.append(f"{owner} {head} {data}{made.choice(['', ' ; comment', chr(9)])}")
            if "CNAME" in data:
                lines.append("@ TXT x")
        return ("\n".join(lines) + made.choice(["", "\n"])).encode()


class Checks(unittest.TestCase):
    """What zones are found to have; the expected findings are worked by hand from the RFCs, and `named-checkzone` has them."""

    ZONE = [
        "a. 60 SOA ns.a. h.a. 1 2 3 4 5", "a. 60 NS ns.a.", "A. 60 NS lost.a.", "b. 60 TXT x", "c.a. 60 CNAME ns.a.",
        "c.a. 60 TXT x", "ns.a. 60 A 192.0.2.1", "ns.a. 61 A 192.0.2.2", "m.a. 60 MX 5 c.a.",
    ]  # fmt: skip

    def test_findings(self):
        zone = [Record.from_text(line) for line in self.ZONE]
        found = [(it.check, it.is_error, it.record, it.other) for it in check_zone(iter(zone[::-1]), "A.")]
        wanted = [
            (14, True, zone[2], None), (8, True, zone[4], zone[5]), (13, True, zone[8], zone[4]), (7, False, zone[6], zone[7]),
            (3, True, zone[3], None),
        ]  # fmt: skip
        self.assertEqual(found, wanted)
        self.assertEqual(str(check_zone(zone, "a.")[1]), f"error: the owner of a CNAME record has other data: {zone[4]}; {zone[5]}")

    SERVED = [
        "a. 60 SOA ns.a. h.a. 1 2 3 4 5",
        "A. 60 SOA NS.a. h.A. 1 2 3 4 5",
        "a. 60 NS ns.a.",
        "a. 60 MX 1 192.0.2.9.",
        "a. 60 MX 1 any.deep.w.a.",
        "a. 60 MX 1 w.a.",
        "c.a. 60 CAA \\# 6 0003612d6278",
        "d.a. 60 DNAME b.",
        "d.a. 60 NS ns.a.",
        "ns.a. 60 A 192.0.2.1",
        "s.a. 60 NS ns.t.a.",
        "s.a. 60 DS 1 13 2 aa",
        "t.a. 60 NS ns.t.a.",
        "*.w.a. 60 A 192.0.2.2",
        "*.x.a. 60 NS ns.a.",
    ]

    def test_servers_and_data(self):
        zone = [Record.from_text(line) for line in self.SERVED]
        found = [(it.check, it.is_error, zone.index(it.record), it.other and zone.index(it.other)) for it in check_zone(zone, "a.")]
        wanted = [
            (19, False, 3, None),
            (21, False, 5, None),
            (18, True, 6, None),
            (15, True, 7, 8),
            (20, False, 10, None),
            (17, True, 11, None),
            (14, True, 12, None),
            (16, False, 14, None),
        ]
        self.assertEqual(found, wanted)

    def test_no_records(self):
        found = check_zone([], "a.")
        self.assertEqual([(it.check, it.record) for it in found], [(1, None), (2, None)])
        self.assertEqual(str(found[0]), "error: no SOA record is at the apex")

    def test_wrong_arguments(self):
        with self.assertRaises(ValueError):
            check_zone([], "a")
        with self.assertRaises(TypeError):
            check_zone(["a. 60 TXT x"], "a.")


if __name__ == "__main__":
    unittest.main()
