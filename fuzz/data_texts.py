"""Compares how texts of data are read with dnspython, BIND, Knot and NSD: `data_texts.py LIBRARY SCANNER [TEXTS [SEED [TYPE..]]]`.

For each type, random texts: the fields of an example, with white space, quotes, escapes, units, comments, parentheses and mnemonics as a
reader of master files may meet them, and each once more with one octet changed. Ours, dnspython and Knot's scanner read them, which SCANNER
is: the same octets, or all refuse. Where they differ, `named-rrchecker` and `nsd-checkzone` are asked too, and ours must be as two of the four,
or DIFFERENCES says why not. They are asked for some of the others as well. How often each came is printed."""

import collections
import ctypes
import random
import re
import subprocess
import sys
import tempfile

import dns.exception
import dns.name
import dns.rdata
import dns.rdatatype

HOSTILE = '"\\;()@$ \t.,=#*09aZ-/+:'
MORE = {
    "AAAA": ["::", "2001:db8::1", "::ffff:192.0.2.1", "1:2:3:4:5:6:7:8"],
    "CAA": ["0 issue \"ca.example; policy=ev\"", "128 tbs Unknown", "1 a1 \"\""],
    "TXT": ["one \"two words\" \"\"", "a\\;b \"a;b\" \\\"", "\\000\\255 \"\\\\\"", "\u00e9 \"\u00e9\""],
    "SPF": ["\"v=spf1 -all\""],
}
# Types whose text has more than one word for a field, or a form of its own.
OWN_FORMS = {
    "LOC": [
        "52 22 23 N 4 53 32 E -2m",
        "42 21 54 N 71 06 18 W -24m 30m",
        "42 21 43.952 N 71 5 6.344 W -24m 1m 200m",
        "52 14 05 N 00 08 50 E 10m",
        "32 7 19 S 116 2 25 E 10m",
        "0 N 0 E 0",
        "90 S 180 0 0.000 W 42849672.95m 90000000.00m 0m 0.01m",
        "89 59 59.999 N 179 59 59.999 W -100000.00m 0.5m 12.34 99",
    ],
    "APL": ["1:192.168.32.0/21 !1:192.168.38.0/28", "1:192.168.42.0/26 1:192.168.42.64/26 !1:192.168.42.128/25", "1:224.0.0.0/4 2:FF00:0:0:0:0:0:0:0/8", "1:0.0.0.0/0 2:::/0", "2:2001:db8::1/128"],
    "NSAP": ["0x47.0005.80.005a00.0000.0001.e133.ffffff000161.00", "0x47000580005a0000000001e133ffffff00016100", "0x00"],
    "NID": ["10 0014:4fff:ff20:ee64", "65535 ffff:FFFF:0000:0001"],
    "L64": ["10 2001:0DB8:1140:1000", "0 0000:0000:0000:0000"],
    "IPSECKEY": [
        "10 1 2 192.0.2.38 AQNRU3mG7TVTO2BkR47usntb102uFJtugbo6BSGvgqt4AQ==",
        "10 0 2 . AQNRU3mG7TVTO2BkR47usntb102uFJtugbo6BSGvgqt4AQ==",
        "10 2 2 2001:0DB8:0:8002::2000:1 AQNRU3mG7TVTO2BkR47usntb102uFJtugbo6BSGvgqt4AQ==",
        "10 3 2 mygateway.example.com. AQNRU3mG7TVTO2BkR47usntb102uFJtugbo6BSGvgqt4AQ==",
    ],
    "HIP": [
        "2 200100107B1A74DF365639CC39F1D578 AwEAAbdxyhNuSutc5EMzxTs9LBPCIkOFH8cIvM4p9+LrV4e19WzK00+CI6zBCQTdtWsuxKbWIy87UOoJTwkUs7lBu+Upr1gsNrut79ryra+bSRGQ",
        "2 200100107b1a74df365639cc39f1d578 AwEAAbdx rvs.example.com.",
        "255 00 AA== rvs1.example.com. rvs2.example.com.",
    ],
    "AMTRELAY": ["10 0 1 203.0.113.15", "10 0 2 2001:db8::15", "128 1 3 amtrelays.example.com.", "255 0 0 ."],
    "DSYNC": ["CDS NOTIFY 5359 cds-scanner.example.net.", "CSYNC 1 5360 .", "A 255 0 a."],
}
EXAMPLES = {
    "A": ["192.0.2.1", "0.0.0.0", "255.255.255.255"],
    "NS": ["a.example.", "@.", "a\\.b.c.", "."],
    "CNAME": ["a\\032b.example."],
    "PTR": ["0/25.2.0.192.in-addr.arpa."],
    "DNAME": ["frobozz.example."],
    "SOA": ["a. b. 1 2h 1h 2w 5m", "ns.example. host\\.master.example. 2026112701 86400 7200 3600000 172800", "a. b. 0 1w2d3h4m5s 0 1 4294967295"],
    "HINFO": ["PDP-11 TOPS20", "\"a b\" \"c\"", "a\"b\""],
    "MX": ["10 mail.example.", "0 .", "65535 \\@\\;\\(.example."],
    "RP": ["louie.example. .", ". a.b."],
    "AFSDB": ["1 a.", "65535 b.c."],
    "X25": ["311061700956"],
    "RT": ["2 relay.prime.com."],
    "SIG": ["A RSASHA1 2 3600 20030322173103 20030220173103 2642 example.com. AQID"],
    "KEY": ["256 3 RSASHA1 AQPS"],
    "PX": ["50 ab.net2.it. o-ab.it."],
    "SRV": ["0 1 9 old.example.", "65535 65535 65535 ."],
    "NAPTR": ["100 50 \"a\" \"z3950+N2L+N2C\" \"\" cidserver.example.", "1 2 \"U\" \"E2U\" \"!^.*$!mailto:a@b!\" ."],
    "KX": ["2 rt1.example."],
    "CERT": ["PKIX 65535 RSASHA256 AQID", "3 0 0 AQIDBA==", "254 1 PRIVATEOID AQ=="],
    "DS": ["60485 RSASHA1 1 2BB183AF5F22588179A53B0A98631FAD1A292118", "1 8 2 " + "00" * 32],
    "SSHFP": ["2 1 123456789abcdef67890123456789abcdef67890", "1 2 " + "ab" * 32],
    "RRSIG": ["A 5 3 86400 20030322173103 20030220173103 2642 example.com. AQID", "TYPE65534 ED25519 0 0 0 4294967295 1 . AQIDBA=="],
    "NSEC": ["host.example. A MX RRSIG NSEC TYPE1234", ". TYPE65535"],
    "DNSKEY": ["256 3 5 AQPS", "257 3 ECDSAP256SHA256 AQIDBA=="],
    "NSEC3": ["1 1 12 aabbccdd 2t7b4g4vsa5smi47k61mv5bv1a22bojr MX DNSKEY NS SOA", "1 0 0 - 2t7b4g4vsa5smi47k61mv5bv1a22bojr"],
    "NSEC3PARAM": ["1 0 12 aabbccdd", "1 0 0 -"],
    "TLSA": ["3 1 1 " + "ab" * 32, "0 0 0 00"],
    "SMIMEA": ["3 1 1 " + "ab" * 32],
    "CDS": ["1 ED448 2 " + "00" * 32],
    "CDNSKEY": ["257 3 ECDSAP384SHA384 AQIDBA=="],
    "OPENPGPKEY": ["AQIDBA=="],
    "CSYNC": ["66 3 A NS AAAA"],
    "ZONEMD": ["2018031900 1 1 " + "ab" * 48],
    "SVCB": ["1 . alpn=\"h2,h3\" port=53", "16 foo.example. mandatory=ipv4hint,alpn alpn=h2 ipv4hint=192.0.2.1", "1 a. key667=\"a b\" no-default-alpn alpn=a", "1 . mandatory=port,alpn port=53 alpn=h2"],
    "HTTPS": ["0 foo.example.", "1 . ipv6hint=2001:db8::1,:: ech=AEX+DQ=="],
    "EUI48": ["00-00-5e-00-53-2a"],
    "EUI64": ["00-00-5e-ef-10-00-00-2a"],
    "URI": ["10 1 \"ftp://ftp1.example/public\""],
    "LP": ["10 l64.example."],
    "L32": ["10 10.1.2.0"],
    **MORE,
    **OWN_FORMS,
}
# Why ours is as fewer than two of them: of which type and text, by the octets of ours and of each, None for those that refuse.
DIFFERENCES = {
    "read: SIG and KEY in the forms of RRSIG and DNSKEY, as BIND alone (RFC 4034, sections 2.2 and 3.2)": lambda kind, text, own, said: (
        kind in ("SIG", "KEY") and own is not None and own == said["BIND"]
    ),
    "read: X25 of any character string, where servers want digits (RFC 1183, section 3.1)": lambda kind, text, own, said: kind == "X25" and own,
    "read: a digest of another length than its type's, which validators reject (RFC 4034, section 5.1.3)": lambda kind, text, own, said: (
        kind in ("DS", "CDS", "ZONEMD", "SSHFP") and own is not None and len(own) > 8
    ),
    "refused: a tag with an escape or in quotes, as BIND and ldns (RFC 8659, section 4.1.1)": lambda kind, text, own, said: (
        kind == "CAA" and own is None and said["BIND"] is None
    ),
    "read: no key of IPSECKEY, which is optional (RFC 4025, section 3.1), and no octets of NSAP": lambda kind, text, own, said: (
        own is not None and kind in ("IPSECKEY", "NSAP")
    ),
    "read: DSYNC, which of the four BIND alone knows (RFC 9859, section 2.1)": lambda kind, text, own, said: (
        kind == "DSYNC" and own is not None and own == said["BIND"]
    ),
    "refused: DSYNC, which of the four BIND alone knows (RFC 9859, section 2.1)": lambda kind, text, own, said: (
        kind == "DSYNC" and own is None and said["BIND"] is None
    ),
    "read: a hashed name of another length than SHA-1's, whose length octet says it (RFC 5155, section 3.3)": lambda kind, text, own, said: (
        kind == "NSEC3" and own is not None
    ),
    "read: a service parameter with escapes, which no server undoes (RFC 9460, section 2.1)": lambda kind, text, own, said: (
        kind in ("SVCB", "HTTPS") and "\\" in text and own
    ),
    "refused: a second line, which is blank; a record is one line": lambda kind, text, own, said: (
        own is None and re.search(r'"[^"\n]*\([^"\n]*"[^"\n]*("?)\n[^"]*$', text) is not None
    ),
    "refused: an identifier with an escape, of which BIND leaves digits out (RFC 7043, section 3.2)": lambda kind, text, own, said: (
        kind in ("EUI48", "EUI64") and "\\" in text and not own
    ),
}


def changed(text):
    """A text with one octet put in, left out, or in place of another."""
    at = random.randrange(len(text) + 1)
    return text[:at] + random.choice(["", *HOSTILE]) + text[at + random.randint(0, 1) :]


def spaced(text):
    """A text with more white space, of which some is at its ends."""
    return random.choice(["", " ", "\t"]) + text.replace(" ", random.choice([" ", "  ", " \t "])) + random.choice(["", "", " "])


def grouped(text):
    """A text in parentheses, maybe over lines and with a comment."""
    words = text.split(" ")
    at = random.randrange(len(words))
    between = random.choice([" ", "\n\t", " ; a comment ) \"\n "])
    return " ".join(words[:at]) + " (" + " ".join(words[at : at + 1]) + between + " ".join(words[at + 1 :]) + random.choice([")", " )", " ) ; end"])


def escaped(text):
    """A text with one letter written as an escape."""
    letters = [at for at, c in enumerate(text) if c.isalpha() and text[at - 1 : at] != "\\"]
    if not letters:
        return text
    at = random.choice(letters)
    return text[:at] + random.choice([f"\\{ord(text[at]):03}", "\\" + text[at]]) + text[at + 1 :]


def texts(kind, count):
    """So many texts for a type, half of them changed."""
    for _ in range(count // 2):
        text = random.choice(EXAMPLES[kind])
        for change in random.sample([spaced, escaped, grouped, str.lower, str.upper], k=random.choice([0, 1, 2])):
            text = change(text)
        yield text
        yield changed(text)


def by_dnspython(kind, text):
    try:
        data = dns.rdata.from_text("IN", kind, text, origin=dns.name.root, relativize=False)
        return data.to_wire(origin=dns.name.root).hex()
    except Exception:
        return None


def by_bind(kind, text):
    ran = subprocess.run(["named-rrchecker", "-u", "-o", "."], input=f"IN {kind} {text}\n".encode(), capture_output=True)
    if ran.returncode:
        return None
    words = ran.stdout.decode().partition("\\#")[2].split()
    return "".join(words[1:]).lower()


def by_knot(scanner, kind, text):
    zone, data = f". 60 IN {kind} {text}\n".encode(), ctypes.create_string_buffer(65536)
    length = scanner.scanned(zone, ctypes.c_size_t(len(zone)), data)
    return None if length < 0 else data.raw[:length].hex()


def by_nsd(kind, text):
    """What NSD prints of a zone with the record, read by BIND, since dnspython has `\\255` as a character that takes two octets."""
    with tempfile.NamedTemporaryFile("w", suffix=".zone") as file:
        file.write(f"@ 60 IN SOA a. b. 1 2 3 4 5\n@ 60 IN NS a.\nx 60 IN {kind} {text}\n")
        file.flush()
        ran = subprocess.run(["nsd-checkzone", "-p", ".", file.name], capture_output=True)
    lines = [line.split("\t", 4) for line in ran.stdout.decode("latin-1").split("\n") if line.startswith("x\t")]
    if ran.returncode or len(lines) != 1 or len(lines[0]) != 5:
        return None
    if lines[0][4].startswith("\\#"):
        return "".join(lines[0][4].split()[2:]).lower()
    return by_bind(kind, lines[0][4]) or "what BIND does not read"


def by_ours(library, kind, text):
    line, record, length = f". 60 IN {kind} {text}\n".encode(), ctypes.create_string_buffer(65800), ctypes.c_size_t()
    failed = library.dnw_record_parse(
        line, ctypes.c_size_t(len(line)), b"\0", ctypes.c_size_t(1), record, ctypes.c_size_t(65800), ctypes.byref(length)
    )
    return None if failed else record.raw[11 : length.value].hex()


def judged(scanner, kind, text, own, found):
    """Counts what came of a text; returns why ours is wrong, if it is."""
    said = {"dnspython": by_dnspython(kind, text), "Knot": by_knot(scanner, kind, text)}
    alike = [who for who, what in said.items() if what == own]
    if len(alike) == 2 and random.random() > 0.05:
        found["read alike by ours, dnspython and Knot" if own is not None else "refused by ours, dnspython and Knot"] += 1
        return None
    said.update({"BIND": by_bind(kind, text), "NSD": by_nsd(kind, text)})
    alike = [who for who, what in said.items() if what == own]
    known = [why for why, holds in DIFFERENCES.items() if len(alike) < 2 and holds(kind, text, own, said)]
    if len(alike) < 2 and not known:
        return f"{kind} {text}: ours {own}, {said}"
    does = "read" if own is not None else "refused"
    found[known[0] if known else f"{does} as {', '.join(alike)}" + (", all" if len(alike) == 4 else "")] += 1
    return None


def main():
    library, scanner = ctypes.CDLL(sys.argv[1]), ctypes.CDLL(sys.argv[2])
    count = int(sys.argv[3]) if len(sys.argv) > 3 else 1000
    random.seed(int(sys.argv[4]) if len(sys.argv) > 4 else 1035)
    found, wrong = collections.Counter(), []
    for kind in sys.argv[5:] or EXAMPLES:
        for text in texts(kind, count):
            why = judged(scanner, kind, text, by_ours(library, kind, text), found)
            if why:
                wrong.append(why)
    for said, times in sorted(found.items()):
        print(f"{said}: {times}")
    print(*wrong[:50], sep="\n")
    sys.exit(1 if wrong else 0)


if __name__ == "__main__":
    main()
