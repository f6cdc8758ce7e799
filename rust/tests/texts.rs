//! Texts of data in the forms of their RFCs: parsed, printed, and in a zone file. The texts are examples of RFC 1876, RFC 3123, RFC
//! 1706, RFC 6742, RFC 4025 and RFC 8777; the octets are those that dnspython 2.3.0 makes of them.
use dns_names_wire::rdata::{AMTRELAY, IPSECKEY, NID};
use dns_names_wire::{Name, RData, RecordBuf, ZoneItem, ZoneReader};

/// The type, the data as they are printed, and their octets.
const TEXTS: [(&str, &str, &str); 9] = [
    ("LOC", "52 22 23.000 N 4 53 32.000 E -2.00m 0.00m 10000m 10m", "000016138b3cf018810cbce0009895b8"),
    ("APL", "1:192.168.32.0/21 !1:192.168.38.0/28", "00011503c0a82000011c83c0a826"),
    ("NSAP", "0x47000580005a0000000001e133ffffff00016100", "47000580005a0000000001e133ffffff00016100"),
    ("NID", "10 0014:4fff:ff20:ee64", "000a00144fffff20ee64"),
    ("L64", "10 2001:0db8:1140:1000", "000a20010db811401000"),
    (
        "IPSECKEY",
        "10 1 2 192.0.2.38 AQNRU3mG7TVTO2BkR47usntb102uFJtugbo6BSGvgqt4AQ==",
        "0a0102c0000226010351537986ed35533b6064478eeeb27b5bd74dae149b6e81ba3a0521af82ab7801",
    ),
    (
        "IPSECKEY",
        "10 0 2 . AQNRU3mG7TVTO2BkR47usntb102uFJtugbo6BSGvgqt4AQ==",
        "0a0002010351537986ed35533b6064478eeeb27b5bd74dae149b6e81ba3a0521af82ab7801",
    ),
    ("AMTRELAY", "10 0 1 203.0.113.15", "0a01cb00710f"),
    ("AMTRELAY", "128 1 3 amtrelays.example.com.", "808309616d7472656c617973076578616d706c6503636f6d00"),
];

fn hex(octets: &[u8]) -> String {
    octets.iter().map(|it| format!("{it:02x}")).collect()
}

#[test]
fn texts_are_parsed_and_printed() {
    for (kind, text, octets) in TEXTS {
        let record: RecordBuf = format!("a. 60 IN {kind} {text}").parse().unwrap();
        assert_eq!(hex(record.raw_data()), octets, "{kind}");
        // Of a relay many servers know no text, so it is printed in the form of any data (RFC 3597, section 5).
        let shown = match kind {
            "AMTRELAY" => format!("a. 60 IN AMTRELAY \\# {} {}", octets.len() / 2, octets.to_uppercase()),
            _ => format!("a. 60 IN {kind} {text}"),
        };
        assert_eq!(record.to_string(), shown);
    }
}

#[test]
fn texts_have_fields() {
    let data = |text: &str| text.parse::<RecordBuf>().unwrap();
    let (node, key) = (data("h. 60 NID 10 0014:4fff:ff20:ee64"), data("k. 60 IPSECKEY 10 1 2 192.0.2.38 AQID"));
    let relay = data("a. 60 AMTRELAY 10 0 1 203.0.113.15");
    assert_eq!(node.data(), Ok(RData::NID(NID { preference: 10, node_id: 0x0014_4fff_ff20_ee64 })));
    let gateway = &[1, 2, 192, 0, 2, 38];
    assert_eq!(key.data(), Ok(RData::IPSECKEY(IPSECKEY { precedence: 10, gateway, public_key: &[1, 2, 3] })));
    assert_eq!(relay.data(), Ok(RData::AMTRELAY(AMTRELAY { precedence: 10, relay: &[1, 203, 0, 113, 15] })));
}

#[test]
fn a_zone_has_them() {
    let zone: String = TEXTS.iter().map(|(kind, text, _)| format!("a 60 IN {kind} {text}\n")).collect();
    let origin: Name = "example.".parse().unwrap();
    for (item, (kind, _, octets)) in ZoneReader::new(zone.as_bytes(), &origin).zip(TEXTS) {
        match item.unwrap() {
            ZoneItem::Record(record) => assert_eq!(hex(record.raw_data()), octets, "{kind}"),
            ZoneItem::Include(_) => panic!("{kind}"),
        }
    }
    assert_eq!(ZoneReader::new(zone.as_bytes(), &origin).count(), TEXTS.len());
}

#[test]
fn a_wrong_text_says_what_was_wanted() {
    for (line, sentence) in [
        ("a. 60 LOC 91 0 0 N 4 0 0 E 0m", "wanted a location: latitude, longitude and altitude (field 0)"),
        ("a. 60 APL 1:192.168.32.0/33", "wanted address prefixes, each as 1:192.0.2.0/24 (field 0)"),
        ("a. 60 L64 10 ::1", "wanted four groups of hexadecimal digits with colons between them (field 1)"),
    ] {
        let error = line.parse::<RecordBuf>().unwrap_err().to_string();
        assert!(error.ends_with(sentence), "{error}");
    }
}
