#!/usr/bin/env python3
"""Writes rows of `data-text` and `data-parse` requests to standard output: the data of records that dnspython 2.3 makes of texts,
and its texts of them, in the layout of diff/servers/record.py.

usage: diff/make_texts.py > diff/lists/data_texts.txt

The texts are those of diff/make_fields.py, and a few more.
"""

import dns.name
import dns.rdata
import dns.rdatatype
import make_fields

from servers import record

ORIGIN = dns.name.from_text("example.")

# The types that the program reads without a text of their own here: their texts are not parsed.
GENERIC = {"TKEY", "TSIG", "TYPE10", "TYPE731"}
MORE = [
    ("RFC 1035, section 5.1", 'TXT "a\\"b\\\\c\\007\\255"', "NS a\\.b\\032c\\200.example.", "MX 10 \\@\\;\\(.example."),
    ("RFC 4034, section 4.2", "NSEC . A NS SOA MX TXT AAAA SRV RRSIG NSEC DNSKEY CAA", "NSEC a.example. TYPE65535"),
    ("RFC 5155, section 3.3", "NSEC3 1 0 10 - 0p9mhaveqvm6t7vbl5lop2u3t2rp3tom NS DS RRSIG"),
    ("RFC 5952, section 4", "AAAA 2001:db8::1:0:0:1", "AAAA ::ffff:192.0.2.1", "AAAA 2001:db8:0:1:1:1:1:1"),
    ("RFC 8659, section 4.1.1", "CAA 0 issue " + "v" * 300, "CAA 255 a1 \"\""),
    (
        "RFC 9460, appendix D and sections 7 and 8",
        "SVCB 16 foo.example.org. alpn=\"f\\\\\\\\oo\\\\,bar,h2\"",
        "SVCB 16 foo.example.org. alpn=f\\\\\\092oo\\092,bar,h2",
        "HTTPS 1 . mandatory=port,alpn no-default-alpn port=8443 alpn=h3 ech=AEX+DQ== ipv4hint=192.0.2.1,198.51.100.7 ipv6hint=::",
        "HTTPS 1 . key65535 key7=/q{?dns} key667=\"a,b \\\"c\\\" d\"",
        "HTTPS 1 . mandatory=key667,ipv6hint key667=1 ipv6hint=::1,::ffff:192.0.2.1 alpn=\"h2, x\"",
    ),
    ("RFC 7553, section 4.4", "URI 1 2 " + "u" * 300),
]


def rows(text):
    kind, text = text.split(" ", 1)
    named = dns.rdatatype.from_text(kind)
    code = dns.rdatatype.from_text(make_fields.LIKE.get(kind, kind))
    data = dns.rdata.from_text("IN", code, text, origin=ORIGIN, relativize=False)
    wire = data.to_wire(origin=ORIGIN)
    digits = wire.hex()
    if kind == "IPSECKEY":
        # dnspython keeps the text of an address
        data = dns.rdata.from_wire("IN", code, wire, 0, len(wire))
    yield f"data-text {int(named)} {digits or '-'} = {record.data_text(data)}"
    if kind not in GENERIC:
        # dnspython has mnemonics in a CERT
        text = record.data_text(data) if kind == "CERT" else data.to_text()
        yield f"data-parse {int(named)} {text} = {digits or '-'}"


def main():
    print("# The texts of the data of records, as dnspython has them: `diff/make_texts.py`.")
    for source, *texts in [*make_fields.TEXTS, *MORE]:
        print(f"\n# {source}.")
        for text in texts:
            print(*rows(text), sep="\n")


if __name__ == "__main__":
    main()
