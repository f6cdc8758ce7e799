#!/usr/bin/env python3
"""Makes the responses in this folder, and what has to be printed for them, with dnspython (python3-dnspython).

    /usr/bin/python3 examples/responses/make.py

Each response is NAME.hex, and its text NAME.txt, from dnspython's reader and its texts of names and data. So the texts do not
come from the programs that are tested with them. Types that the programs do not decode are printed as in RFC 3597.
"""

import pathlib

import dns.flags
import dns.message
import dns.opcode
import dns.rcode
import dns.rdataclass
import dns.rdatatype
import dns.rdtypes.ANY.CAA  # noqa: F401

HERE = pathlib.Path(__file__).resolve().parent
DECODED = {"A", "NS", "CNAME", "SOA", "PTR", "MX", "TXT", "AAAA", "SRV", "DNAME", "DS", "CAA", "NSEC"}
FLAGS = [dns.flags.QR, dns.flags.AA, dns.flags.TC, dns.flags.RD, dns.flags.RA, dns.flags.AD, dns.flags.CD]

RESPONSES = {
    "www": """id 4660
opcode QUERY
rcode NOERROR
flags QR RD RA
;QUESTION
www.Example.com. IN A
;ANSWER
www.Example.com. 300 IN CNAME web.cdn.example.net.
web.cdn.example.net. 60 IN CNAME edge-7.web.cdn.example.net.
edge-7.web.cdn.example.net. 20 IN A 192.0.2.17
edge-7.web.cdn.example.net. 20 IN A 192.0.2.18
;AUTHORITY
cdn.example.net. 86400 IN NS ns1.cdn.example.net.
cdn.example.net. 86400 IN NS ns2.cdn.example.net.
;ADDITIONAL
ns1.cdn.example.net. 86400 IN A 198.51.100.1
ns1.cdn.example.net. 86400 IN AAAA 2001:db8::53
ns2.cdn.example.net. 86400 IN AAAA 2001:db8:0:0:1:0:0:53
""",
    "mail": """id 7
opcode QUERY
rcode NOERROR
edns 0
eflags DO
payload 1232
flags QR AA
;QUESTION
example.org. IN ANY
;ANSWER
example.org. 3600 IN MX 10 mx-a.example.org.
example.org. 3600 IN MX 20 mx-b.mail.example.org.
example.org. 3600 IN TXT "v=spf1 include:_spf.example.org -all" "a \\"quoted\\" \\\\ \\200 part" ""
example.org. 3600 IN CAA 0 issue "letsencrypt.org"
example.org. 3600 IN CAA 128 iodef "mailto:hostmaster@example.org"
_imaps._tcp.example.org. 3600 IN SRV 0 5 993 mx-a.example.org.
;AUTHORITY
;ADDITIONAL
mx-a.example.org. 3600 IN A 203.0.113.25
""",
    "nxdomain": """id 65535
opcode QUERY
rcode NXDOMAIN
edns 0
payload 4096
flags QR RD RA AD CD
;QUESTION
nothing.here.Example. IN AAAA
;ANSWER
;AUTHORITY
example. 900 IN SOA ns1.example. hostmaster.example. 2026112301 7200 3600 1209600 900
example. 900 IN NSEC a.example. NS SOA RRSIG NSEC DNSKEY
;ADDITIONAL
""",
    "reverse": """id 53
opcode QUERY
rcode NOERROR
flags QR RD RA
;QUESTION
25.2.0.192.in-addr.arpa. IN PTR
;ANSWER
25.2.0.192.in-addr.arpa. 86400 IN PTR host-25.example.net.
25.2.0.192.in-addr.arpa. 86400 IN PTR .
_dmarc.old.example. 0 IN DNAME _dmarc.new.example.
new.example. 3600 IN DS 60485 5 1 2bb183af5f22588179a53b0a98631fad1a292118
b.new.example. 2147483647 CH TYPE65280 \\# 3 abcdef
new.example. 5 IN TYPE65281 \\# 0
""",
    "refused": """id 0
opcode NOTIFY
rcode REFUSED
flags QR TC
;QUESTION
. IN SOA
""",
}


def data_text(record):
    kind = dns.rdatatype.to_text(record.rdtype)
    if kind in DECODED and record.rdclass == dns.rdataclass.IN:
        return record.to_text()
    octets = record.to_wire()
    return f"\\# {len(octets)} {octets.hex()}".rstrip()


def sections(message):
    return zip(["QUESTION", "ANSWER", "AUTHORITY", "ADDITIONAL"], message.sections)


def text_of(wire, data_text=data_text, type_text=dns.rdatatype.to_text):
    message = dns.message.from_wire(wire, one_rr_per_rrset=True)
    counts = [len(section) for section in message.sections]
    counts[3] += message.edns >= 0
    flags = "".join(" " + dns.flags.to_text(flag).lower() for flag in FLAGS if message.flags & flag)
    lines = [
        f";; ->>HEADER<<- opcode: {dns.opcode.to_text(message.opcode())}, "
        f"status: {dns.rcode.to_text(message.rcode())}, id: {message.id}",
        f";; flags:{flags}; QUERY: {counts[0]}, ANSWER: {counts[1]}, AUTHORITY: {counts[2]}, ADDITIONAL: {counts[3]}",
    ]
    for (title, section), count in zip(sections(message), counts):
        if count:
            lines += ["", f";; {title} SECTION:"]
        for rrset in section:
            kind, klass = type_text(rrset.rdtype), dns.rdataclass.to_text(rrset.rdclass)
            if title == "QUESTION":
                lines.append(f";{rrset.name}\t{klass}\t{kind}")
            for record in rrset:
                lines.append(f"{rrset.name}\t{rrset.ttl}\t{klass}\t{kind}\t{data_text(record)}")
        if title == "ADDITIONAL" and message.edns >= 0:
            do = " do" if message.ednsflags & dns.flags.DO else ""
            lines.append(f"; EDNS: version: {message.edns}, flags:{do}; udp: {message.payload}")
    return "\n".join(lines) + "\n"


def main():
    for name, text in RESPONSES.items():
        wire = dns.message.from_text(text, one_rr_per_rrset=True).to_wire()
        digits = wire.hex()
        rows = [digits[i : i + 64] for i in range(0, len(digits), 64)]
        (HERE / f"{name}.hex").write_text("\n".join(rows) + "\n")
        (HERE / f"{name}.txt").write_text(text_of(wire))


if __name__ == "__main__":
    main()
