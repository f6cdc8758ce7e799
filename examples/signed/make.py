#!/usr/bin/env python3
"""Makes the signed response in this folder, and what has to be printed for it, with dnspython (python3-dnspython).

    /usr/bin/python3 examples/signed/make.py

response.hex is a response with signatures by a new key, which is in key.txt. Its records are in any order, with letters in either
case and decreased TTLs, and a wildcard made one of the sets. response.octets has a line for each RRSIG: the owner, the type
covered, the tag of the key and the signed octets. dnspython makes these and verifies the signatures over them, so they do not come
from the programs that are tested with them.
"""

import pathlib

import dns.dnssec
import dns.flags
import dns.message
import dns.name
import dns.rdataset
import dns.rdatatype
import dns.renderer
import dns.rrset
from cryptography.hazmat.primitives import hashes
from cryptography.hazmat.primitives.asymmetric import ec
from cryptography.hazmat.primitives.asymmetric.utils import decode_dss_signature
from dns.rdtypes.ANY.RRSIG import RRSIG

HERE = pathlib.Path(__file__).resolve().parent
ZONE = dns.name.from_text("Example.")
QUESTION = "a.z.W.Example."
LEFT = 1234

# For each section: the number of labels in the RRSIG, the owner, the type and the data.
ANSWERS = [
    (2, QUESTION, "MX", ["10 MAIL.w.example.", "10 a.mail.example.", "1 ai.Example."]),
    (2, "AI.example.", "A", ["192.0.2.99", "192.0.2.9", "10.0.0.255"]),
]
AUTHORITIES = [
    (1, "Example.", "NS", ["NS2.example.", "ns1.Example."]),
    (4, "x.y.W.example.", "NSEC", ["XX.example. MX RRSIG NSEC"]),
    (1, "Example.", "SOA", ["NS1.example. Bugs.X.w.example. 1081539377 3600 300 3600000 3600"]),
    (2, "sub.Example.", "DS", ["60485 13 2 " + "AB" * 32]),
]
ADDITIONALS = [
    (2, "ns1.example.", "TXT", ['"b" "a"', '"B"', '""']),
    (3, "_dns.NS1.example.", "SVCB", ["1 NS1.Example. alpn=dot"]),
]


def signature_of(name, labels, rdataset, private, key):
    """Returns an RRSIG of a set of a name, with this number of labels."""
    fields = dict(algorithm=key.algorithm, labels=labels, original_ttl=3600, expiration=4000000000, inception=1700000000)
    template = RRSIG(1, dns.rdatatype.RRSIG, rdataset.rdtype, **fields, key_tag=dns.dnssec.key_id(key), signer=ZONE, signature=b"")
    octets = dns.dnssec._make_rrsig_signature_data((name, rdataset), template)
    numbers = decode_dss_signature(private.sign(octets, ec.ECDSA(hashes.SHA256())))
    rrsig = template.replace(signature=b"".join(number.to_bytes(32, "big") for number in numbers))
    dns.dnssec.validate_rrsig((name, rdataset), rrsig, {ZONE: dns.rrset.from_rdata(ZONE, 1, key)})
    return rrsig


def signed(entries, private, key):
    """Returns the sets of a section, each with its RRSIG."""
    for labels, owner, kind, texts in entries:
        name, data = dns.name.from_text(owner), dns.rdataset.from_text("IN", kind, LEFT, *texts)
        rrsig = signature_of(name, labels, data, private, key)
        yield dns.rrset.from_rdata_list(name, LEFT, data)
        yield dns.rrset.from_rdata(name, LEFT, rrsig)


def lines(wire):
    """Returns what has to be printed for each RRSIG of a response."""
    sets, each = dns.message.from_wire(wire), dns.message.from_wire(wire, one_rr_per_rrset=True)
    for section, records in zip(sets.sections, each.sections):
        for owner, rrsig in ((it.name, it[0]) for it in records if it.rdtype == dns.rdatatype.RRSIG):
            covered = sets.find_rrset(section, owner, 1, rrsig.type_covered)
            octets = dns.dnssec._make_rrsig_signature_data(covered, rrsig)
            yield f"{owner} {dns.rdatatype.to_text(rrsig.type_covered)} {rrsig.key_tag} {octets.hex()}\n"


def main():
    private = ec.generate_private_key(ec.SECP256R1())
    key = dns.dnssec.make_dnskey(private.public_key(), dns.dnssec.ECDSAP256SHA256)
    renderer = dns.renderer.Renderer(id=4660, flags=dns.flags.QR | dns.flags.AA, max_size=65535)
    renderer.add_question(dns.name.from_text(QUESTION), dns.rdatatype.MX)
    sections = (dns.renderer.ANSWER, ANSWERS), (dns.renderer.AUTHORITY, AUTHORITIES), (dns.renderer.ADDITIONAL, ADDITIONALS)
    for section, entries in sections:
        for rrset in signed(entries, private, key):
            renderer.add_rrset(section, rrset)
    renderer.write_header()
    wire = renderer.get_wire()
    digits = wire.hex()
    (HERE / "response.hex").write_text("".join(digits[i : i + 64] + "\n" for i in range(0, len(digits), 64)))
    (HERE / "response.octets").write_text("".join(lines(wire)))
    (HERE / "key.txt").write_text(f"{ZONE} 3600 IN DNSKEY {key}\n")


if __name__ == "__main__":
    main()
