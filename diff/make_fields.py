#!/usr/bin/env python3
"""Writes rows of `fields` and `record` requests to standard output: the data of records that dnspython 2.3 makes of texts, the
fields that it has them as, and what it writes them as, as they are and in canonical form.

usage: diff/make_fields.py > diff/lists/fields.txt

A text is an example of the RFC that is named, or else made for its type.
"""

import io

import dns.name
import dns.rdata
import dns.rdatatype

ORIGIN = dns.name.from_text("example.")

# The attributes of dnspython's record data that are the fields, in their order on the wire, and what each is.
FIELDS = {
    "A": "ipv4:address",
    "AAAA": "ipv6:address",
    "AFSDB": "u16:subtype name:hostname",
    "AMTRELAY": "u8:precedence relay:",
    "APL": "prefixes:items",
    "AVC": "texts:strings",
    "CAA": "u8:flags counted:tag octets:value",
    "CDNSKEY": "u16:flags u8:protocol u8:algorithm octets:key",
    "CDS": "u16:key_tag u8:algorithm u8:digest_type octets:digest",
    "CERT": "u16:certificate_type u16:key_tag u8:algorithm octets:certificate",
    "CNAME": "name:target",
    "CSYNC": "u32:serial u16:flags types:windows",
    "DHCID": "octets:data",
    "DLV": "u16:key_tag u8:algorithm u8:digest_type octets:digest",
    "DNAME": "name:target",
    "DNSKEY": "u16:flags u8:protocol u8:algorithm octets:key",
    "DS": "u16:key_tag u8:algorithm u8:digest_type octets:digest",
    "EUI48": "u48:eui",
    "EUI64": "u64:eui",
    "GPOS": "counted:latitude counted:longitude counted:altitude",
    "HINFO": "counted:cpu counted:os",
    "HIP": "identity: names:servers",
    "HTTPS": "u16:priority name:target params:params",
    "IPSECKEY": "u8:precedence gateway: octets:key",
    "ISDN": "texts:",
    "KX": "u16:preference name:exchange",
    "L32": "u16:preference ipv4:locator32",
    "L64": "u16:preference hex64:locator64",
    "LOC": "location:",
    "LP": "u16:preference name:fqdn",
    "MX": "u16:preference name:exchange",
    "NAPTR": "u16:order u16:preference counted:flags counted:service counted:regexp name:replacement",
    "NID": "u16:preference hex64:nodeid",
    "NINFO": "texts:strings",
    "NS": "name:target",
    "NSAP": "octets:address",
    "NSAP-PTR": "name:target",
    "NSEC": "name:next types:windows",
    "NSEC3": "u8:algorithm u8:flags u16:iterations counted:salt counted:next types:windows",
    "NSEC3PARAM": "u8:algorithm u8:flags u16:iterations counted:salt",
    "OPENPGPKEY": "octets:key",
    "PTR": "name:target",
    "PX": "u16:preference name:map822 name:mapx400",
    "RP": "name:mbox name:txt",
    "RRSIG": "type:type_covered u8:algorithm u8:labels u32:original_ttl time:expiration time:inception u16:key_tag name:signer"
    " octets:signature",
    "RT": "u16:preference name:exchange",
    "SMIMEA": "u8:usage u8:selector u8:mtype octets:cert",
    "SOA": "name:mname name:rname u32:serial u32:refresh u32:retry u32:expire u32:minimum",
    "SPF": "texts:strings",
    "SRV": "u16:priority u16:weight u16:port name:target",
    "SSHFP": "u8:algorithm u8:fp_type octets:fingerprint",
    "SVCB": "u16:priority name:target params:params",
    "TLSA": "u8:usage u8:selector u8:mtype octets:cert",
    "TSIG": "name:algorithm u48:time_signed u16:fudge long:mac u16:original_id u16:error long:other",
    "TKEY": "name:algorithm time:inception time:expiration u16:mode u16:error long:key long:other",
    "TXT": "texts:strings",
    "URI": "u16:priority u16:weight octets:target",
    "WKS": "ipv4:address u8:protocol octets:bitmap",
    "X25": "counted:address",
    "ZONEMD": "u32:serial u8:scheme u8:hash_algorithm octets:digest",
    # Types without a table are octets.
    "TYPE10": "all",
    "TYPE731": "all",
}

# RFC 9460, appendix D, gives both the text and the octets of these.
GIVEN = {
    "0 foo.example.com.": "000003666f6f076578616d706c6503636f6d00",
    "1 .": "000100",
    "16 foo.example.com. port=53": "001003666f6f076578616d706c6503636f6d00000300020035",
    "1 foo.example.com. key667=hello": "000103666f6f076578616d706c6503636f6d00029b000568656c6c6f",
    '1 foo.example.com. key667="hello\\210qoo"': "000103666f6f076578616d706c6503636f6d00029b000968656c6c6fd2716f6f",
    '1 foo.example.com. ipv6hint="2001:db8::1,2001:db8::53:1"': "000103666f6f076578616d706c6503636f6d00"
    "0006002020010db800000000000000000000000120010db8000000000000000000530001",
    "16 foo.example.org. alpn=h2,h3-19 mandatory=ipv4hint,alpn ipv4hint=192.0.2.1": "001003666f6f076578616d706c65036f726700"
    "0000000400010004000100090268320568332d313900040004c0000201",
}

TEXTS = [
    ("RFC 1035, section 5.3", "A 10.1.0.52", "MX 10 VENERA", "SOA VENERA Action\\.domains 20 7200 600 3600000 60"),
    ("RFC 1035, section 3.3", "NS a.isi.edu.", "CNAME USC-ISIC.ARPA.", "PTR ADDRESS.ARPA.", "HINFO PDP-11 TOPS20"),
    ("RFC 1035, section 3.3", "TXT one two \"\"", "TXT \"printer=lpr5\"", "A 255.0.255.1", "NS .", "MX 65535 ."),
    ("RFC 1183, sections 1 and 2.2", "AFSDB 1 toaster.toaster.com.", "AFSDB 2 bigbird", "RP louie.trantor.umd.edu. LAM1.people.umd.edu.", "RP . ."),
    ("RFC 1035, section 3.4.2", "WKS 10.0.0.1 6 25", "WKS 128.8.1.14 17 53 69"),
    ("RFC 1183, sections 3.1 and 3.2", "X25 311061700956", 'ISDN "150862028003217" "004"', 'ISDN "150862028003217"'),
    ("RFC 1183, section 3.3", "RT 2 Relay.Prime.COM.", "RT 65535 ."),
    ("RFC 1706, sections 5.1 and 6", "NSAP 0x47.0005.80.005a00.0000.0001.e133.ffffff000161.00", "NSAP-PTR foo.bar.com."),
    ("RFC 1712, section 3", "GPOS -32.6882 116.8652 10.0"),
    ("RFC 1876, section 4", "LOC 42 21 54 N 71 06 18 W -24m 30m", "LOC 32 7 19 S 116 2 25 E 10m"),
    ("RFC 2163, section 4", "PX 50 ab.net2.it. O-ab.PRMD-net2.ADMDb.C-it.", "PX 0 . ."),
    ("RFC 2230, section 3.1", "KX 2 rt1.example.com.", "KX 0 ."),
    ("RFC 2782", "SRV 0 1 9 old-slow-box.example.com.", "SRV 0 0 0 ."),
    ("RFC 2930, section 2", "TKEY gss-tsig. 1594203795 1594206664 3 0 a2V5 b3RoZXI="),
    ("RFC 3123, section 5", "APL 1:192.168.32.0/21 !1:192.168.38.0/28", "APL 1:192.168.42.0/26 1:192.168.42.64/26 !1:192.168.42.128/25", "APL 1:127.0.0.1/32 1:172.16.64.0/22", "APL 1:224.0.0.0/4 2:FF00:0:0:0:0:0:0:0/8", "APL 1:0.0.0.0/0 2:::/0"),
    ("RFC 3403, section 6.1", 'NAPTR 100 50 "a" "z3950+N2L+N2C" "" cidserver.example.com.', 'NAPTR 100 10 "" "" "!^urn:cid:.+@([^\\\\.]+\\\\.)(.*)$!\\\\2!i" .'),
    ("RFC 3596, section 2", "AAAA 4321:0:1:2:3:4:567:89ab", "AAAA ::"),
    ("RFC 4025, section 3.2", "IPSECKEY 10 1 2 192.0.2.38 AQNRU3mG7TVTO2BkR47usntb102uFJtugbo6BSGvgqt4AQ==", "IPSECKEY 10 0 2 . AQNRU3mG7TVTO2BkR47usntb102uFJtugbo6BSGvgqt4AQ==", "IPSECKEY 10 3 2 mygateway.Example.com. AQNRU3mG7TVTO2BkR47usntb102uFJtugbo6BSGvgqt4AQ==", "IPSECKEY 10 2 2 2001:0DB8:0:8002::2000:1 AQNRU3mG7TVTO2BkR47usntb102uFJtugbo6BSGvgqt4AQ==", "IPSECKEY 10 1 2 192.0.2.3 AA=="),
    ("RFC 4034, section 2.3", "DNSKEY 256 3 5 AQPSKmynfzW4kyBv015MUG2DeIQ3Cbl+BBZH4b/0PY1kxkmvHjcZc8nokfzj31GajIQKY+5CptLr3buXA10hWqTkF7H6RfoRqXQeogmMHfpftf6zMv1LyBUgia7za6ZEzOJBOztyvhjL742iU/TpPSEDhm2SNKLijfUppn1UaNvv4w=="),
    ("RFC 4034, section 3.3", "RRSIG A 5 3 86400 20030322173103 20030220173103 2642 example.com. oJB1W6WNGv+ldvQ3WDG0MQkg5IEhjRip8WTrPYGv07h108dUKGMeDPKijVCHX3DDKdfb+v6oB9wfuh3DTJXUAfI/M0zmO/zz8bW0Rznl8O3tGNazPwQKkRN20XPXV6nwwfoXmJQbsLNrLfkGJ5D6fwFm8nN+6pBzeDQfsS3Ap3o="),
    ("RFC 4034, section 4.3", "NSEC host.example.com. A MX RRSIG NSEC TYPE1234", "NSEC a. NSEC"),
    ("RFC 4034, section 5.4", "DS 60485 5 1 2BB183AF5F22588179A53B0A98631FAD1A292118", "DS 60485 5 2 D4B7D520E7BB5F0F67674A0CCEB1E3E0614B93C4F9E99B8383F6A1E4469DA50A"),
    ("RFC 4255, section 3.2", "SSHFP 2 1 123456789abcdef67890123456789abcdef67890", "SSHFP 4 2 00"),
    ("RFC 4398, section 2", "CERT PKIX 0 RSASHA1 AQID", "CERT 65534 65535 254 AA=="),
    ("RFC 4431, section 2", "DLV 60485 5 1 2BB183AF5F22588179A53B0A98631FAD1A292118"),
    ("RFC 4701, section 3.6", "DHCID AAIBY2/AuCccgoJbsaxcQc9TUapptP69lOjxfNuVAA2kjEA=", "DHCID AAEBOSD+XR3Os/0LozeXVqcNc7FwCfQdWL3b/NaiUDlW2No="),
    ("RFC 5155, appendix A", "NSEC3PARAM 1 0 12 aabbccdd", "NSEC3 1 1 12 aabbccdd 2t7b4g4vsa5smi47k61mv5bv1a22bojr MX DNSKEY NS SOA NSEC3PARAM RRSIG", "NSEC3 1 1 12 aabbccdd 2vptu5timamqttgl4luu9kg21e0aor3s A RRSIG", "NSEC3PARAM 1 0 0 -", "NSEC3 1 0 0 - 2vptu5timamqttgl4luu9kg21e0aor3s"),
    ("RFC 6672, section 2.3", "DNAME frobozz-division.acme.example.", "DNAME ."),
    ("RFC 6742, sections 2.1.2 to 2.4.2", "NID 10 0014:4fff:ff20:ee64", "NID 65535 ffff:ffff:ffff:ffff", "L32 10 10.1.2.0", "L64 10 2001:0DB8:1140:1000", "LP 10 l64-subnet1.example.com."),
    ("RFC 6698, section 2.3", "TLSA 0 0 1 d2abde240d7cd3ee6b4b28c54df034b97983a1d16e8a410e4561cb106618e971", "TLSA 3 1 0 00"),
    ("RFC 7043, sections 3.2 and 4.2", "EUI48 00-00-5e-00-53-2a", "EUI64 00-00-5e-ef-10-00-00-2a", "EUI48 ff-ff-ff-ff-ff-ff", "EUI64 ff-ff-ff-ff-ff-ff-ff-ff"),
    ("RFC 7344, section 3", "CDS 60485 5 1 2BB183AF5F22588179A53B0A98631FAD1A292118", "CDS 0 0 0 00", "CDNSKEY 256 3 5 AQPSKmyn", "CDNSKEY 0 3 0 AA=="),
    ("RFC 7477, section 2.1.2", "CSYNC 66 3 A NS AAAA", "CSYNC 0 0"),
    ("RFC 7553, section 4", 'URI 10 1 "ftp://ftp1.example.com/public"', 'URI 0 0 "a:"'),
    ("RFC 7929, section 2.1", "OPENPGPKEY mQCNAzIG", "OPENPGPKEY AA=="),
    ("RFC 8005, section 6", "HIP 2 200100107B1A74DF365639CC39F1D578 AwEAAbdxyhNuSutc5EMzxTs9LBPCIkOFH8cIvM4p9+LrV4e19WzK00+CI6zBCQTdtWsuxKbWIy87UOoJTwkUs7lBu+Upr1gsNrut79ryra+bSRGQb1slImA8YVJyuIDsj7kwzG7jnERNqnWxZ48AWkskmdHaVDP4BcelrTI3rMXdXF5D", "HIP 2 00 AA== rvs.example.com."),
    ("RFC 8162, section 2", "SMIMEA 3 1 1 d2abde240d7cd3ee6b4b28c54df034b97983a1d16e8a410e4561cb106618e971", "SMIMEA 0 0 0 00"),
    ("RFC 8777, section 4.3.1", "AMTRELAY 10 0 1 203.0.113.15", "AMTRELAY 10 0 2 2001:db8::15", "AMTRELAY 128 1 3 amtrelays.Example.com.", "AMTRELAY 10 0 0 .", "AMTRELAY 10 1 0 ."),
    ("RFC 8945, section 4.2", "TSIG hmac-sha256. 1594855491 300 32 SRvHC1zhxlKNpUDtk2YrEJeSx6MS32XNbxPUdUVbTLE= 56518 NOERROR 0", "TSIG HMAC-MD5.SIG-ALG.REG.INT. 1594855491 300 16 CIrL0wGRAzDcqEqIJgeOvw== 56518 BADTIME 6 AAAAAAAA"),
    ("RFC 8659, section 4", 'CAA 0 issue "ca1.example.net"', 'CAA 0 iodef "mailto:security@example.com"', 'CAA 128 tbs "Unknown"', 'CAA 0 issue ""'),
    ("RFC 8976, section 2", "ZONEMD 2018031500 1 1 FEBE3D4CE2EC2FFA4BA99D46CD69D6D29711E55217057BEE7EB1A7B641A47BA7FED2DD5B97AE499FAFA4F22C6BD647DE", "ZONEMD 1 1 1 000000000000000000000000000000000000000000000000000000000000000000000000000000000000000000000000"),
    ("RFC 9460, appendix D", *(f"SVCB {text}" for text in GIVEN), *(f"HTTPS {text}" for text in GIVEN)),
    ("The templates of the registry", "AVC \"app-name:WOLFGANG|app-class:OAM\"", "NINFO foo bar"),
    ("RFC 3597, section 5", "TYPE731 \\# 6 abcdef012345", "TYPE731 \\# 0", "TYPE10 \\# 3 010203", "TYPE10 \\# 0"),
    ("RFC 7208, section 3.1", 'SPF "v=spf1 +mx a:colo.example.com/28 -all"', 'SPF a b'),
    ("RFC 1035, section 3.3", "CNAME .", "SOA . . 0 0 0 0 4294967295", "PTR a\\.b.example.", 'HINFO "" ""'),
    ("RFC 4034, sections 2.2 and 3.2", "DNSKEY 0 0 255 AA==", "RRSIG TYPE1234 253 127 4294967295 21060207062815 19700101000000 65535 . AA=="),
    ("RFC 2535, section 7.1", "KEY 256 3 5 AQPSKmyn", "KEY 49408 3 1 AA=="),
    ("RFC 2535, section 7.2", "SIG A 5 3 86400 20030322173103 20030220173103 2642 example.com. oJB1W6WN", "SIG NS 1 0 0 19700101000000 20300101000000 1 . AA=="),
]

# Types with the fields and the text of another one, which dnspython knows (RFC 2535, sections 3.1 and 4.1).
LIKE = {"KEY": "DNSKEY", "SIG": "RRSIG"}


def name_word(name):
    return "name=" + "".join(label.hex() + "." for label in name.derelativize(ORIGIN).labels if label)


def octets_of(value):
    return value.encode() if isinstance(value, str) else value


def listed(items):
    return "".join(f"{tag}:{octets.hex() or '-'}," for tag, octets in items)


def param_octets(value, origin):
    if value is None:
        return b""
    file = io.BytesIO()
    value.to_wire(file, origin)
    return file.getvalue()


def octets_after_family(item):
    file = io.BytesIO()
    item.to_wire(file)
    return file.getvalue()[2:]


def shaped_octets(kind, data):
    """Returns the octets of a field whose first octets say what follows them: what dnspython has less its other fields."""
    wire = data.to_wire(origin=ORIGIN)
    if kind == "gateway":
        return wire[1 : len(wire) - len(data.key)]
    if kind == "relay":
        return wire[1:]
    if kind == "identity":
        return wire[: 4 + len(data.hit) + len(data.key)]
    return wire


def word(kind, data, attribute):
    if kind in ("gateway", "relay", "identity", "location"):
        return f"{kind}={shaped_octets(kind, data).hex()}"
    if kind == "texts" and not attribute:
        return "texts=" + listed((0, text) for text in (data.address, data.subaddress) if text or text is data.address)
    value = getattr(data, attribute)
    if kind == "name":
        return name_word(value)
    if kind == "counted" or kind == "octets":
        return f"{kind}={octets_of(value).hex() or '-'}"
    if kind == "long":
        return f"long={value.hex() or '-'}"
    if kind == "texts":
        return "texts=" + listed((0, text) for text in value)
    if kind == "names":
        return "names=" + listed((0, name.to_wire()) for name in value)
    if kind == "prefixes":
        return "prefixes=" + listed((item.family, octets_after_family(item)) for item in value)
    if kind == "hex64":
        return f"u64={int(value.replace(':', ''), 16)}"
    if kind == "types":
        return "types=" + listed(value)
    if kind == "params":
        return "params=" + listed((int(key), param_octets(value[key], ORIGIN)) for key in sorted(value))
    if kind in ("u48", "u64"):
        return f"{kind}={value if isinstance(value, int) else int.from_bytes(value, 'big')}"
    return f"{kind}={int(value) if kind not in ('ipv4', 'ipv6') else value}"


def rows(text):
    kind, text = text.split(" ", 1)
    code, known = dns.rdatatype.from_text(kind), LIKE.get(kind, kind)
    data = dns.rdata.from_text("IN", dns.rdatatype.from_text(known), text, origin=ORIGIN, relativize=False)
    wire = data.to_wire(origin=ORIGIN)
    if kind in ("SVCB", "HTTPS"):
        assert wire.hex() == GIVEN[text], text
    if FIELDS[known] == "all":
        words = [f"octets={wire.hex() or '-'}"]
    else:
        words = [word(of, data, attribute) for of, attribute in (field.split(":") for field in FIELDS[known].split())]
    canonical = data.to_digestable(origin=ORIGIN)
    yield f"fields {int(code)} 0 {wire.hex() or '-'} = {' '.join(words)}"
    yield f"record {int(code)} {wire.hex() or '-'} = {wire.hex() or '-'} {canonical.hex() or '-'}"


def main():
    print("# The data of records, made of texts by dnspython, and the fields that it has them as: `diff/make_fields.py`.")
    for source, *texts in TEXTS:
        print(f"\n# {source}.")
        for text in texts:
            print(*rows(text), sep="\n")


if __name__ == "__main__":
    main()
