#!/usr/bin/env python3
"""Prints rows of diff/dnw.txt: messages that dnspython makes, as JSON (RFC 8427) of what it reads: diff/make_json.py

It needs Debian's python3-dnspython. A text of data is dnspython's, which for these is ours.
"""

import json
import struct

import dns.edns
import dns.message
import dns.rdatatype
import dns.rrset

FLAGS = {"QR": 15, "AA": 10, "TC": 9, "RD": 8, "RA": 7, "AD": 5, "CD": 4}
COUNTS = ["QDCOUNT", "ANCOUNT", "NSCOUNT", "ARCOUNT"]


def messages():
    """A query with EDNS, and a response to it."""
    cookie = dns.edns.GenericOption(dns.edns.OptionType.COOKIE, bytes(range(8)))
    query = dns.message.make_query("www.example.com.", "MX", use_edns=0, payload=4096, want_dnssec=True, options=[cookie])
    query.id = 77
    response = dns.message.make_response(query)
    response.use_edns(0, payload=1232)
    for section, owner, *words in [
        (response.answer, "www", "MX", "10 mail.example.com.", "20 mail2.example.com."),
        (response.answer, "www", "TXT", '"a\\"b\\\\c" "x\\009y"'),
        (response.additional, "mail", "A", "192.0.2.1"),
        (response.additional, "mail", "TYPE65280", "\\# 3 010203"),
    ]:
        section.append(dns.rrset.from_text(f"{owner}.example.com.", 300, "IN", *words))
    return query.to_wire(), response.to_wire()


def record(owner, code, class_code, class_name, ttl, text, octets):
    name = dns.rdatatype.to_text(code)
    head = {"NAME": owner, "TYPE": int(code), "TYPEname": name, "CLASS": class_code, "CLASSname": class_name, "TTL": ttl}
    return {**head, f"rdata{name}": text, "RDLENGTH": len(octets), "RDATAHEX": octets.hex().upper()}


def records(section):
    return [record(str(it.name), it.rdtype, 1, "IN", it.ttl, data.to_text(), data.to_wire()) for it in section for data in it]


def opt_of(message):
    """The OPT record and what it says."""
    octets = b"".join(struct.pack("!HH", it.otype, len(it.to_wire())) + it.to_wire() for it in message.options)
    text = f"\\# {len(octets)} {octets.hex().upper()}".rstrip()
    options = [f"COOKIE: {it.to_wire().hex()}" for it in message.options]
    says = {"version": message.edns, "DO": message.ednsflags >> 15 & 1, "payload": message.payload, "options": options}
    return record(".", 41, message.payload, f"CLASS{message.payload}", message.ednsflags, text, octets), says


def object_of(octets):
    """A message with one question and an OPT record as an object of RFC 8427."""
    message = dns.message.from_wire(octets)
    ident, word, *counts = struct.unpack("!6H", octets[:12])
    flags = {name: word >> bit & 1 for name, bit in FLAGS.items()}
    head = {"ID": ident, "QR": flags.pop("QR"), "Opcode": word >> 11 & 15, **flags, "RCODE": word & 15, **dict(zip(COUNTS, counts))}
    [asked] = message.question
    name = dns.rdatatype.to_text(asked.rdtype)
    question = {"QNAME": str(asked.name), "QTYPE": int(asked.rdtype), "QTYPEname": name, "QCLASS": 1, "QCLASSname": "IN"}
    opt, says = opt_of(message)
    sections = {"answerRRs": records(message.answer), "authorityRRs": records(message.authority)}
    return {**head, **question, **sections, "additionalRRs": [*records(message.additional), opt], "EDNS": says}


if __name__ == "__main__":
    for octets in messages():
        print(f"message --json {octets.hex()} = 0 {json.dumps(object_of(octets), separators=(',', ':'))}")
