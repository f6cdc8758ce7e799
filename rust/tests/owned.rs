//! Data that own what they have, sets of records, and what is printed for people who debug. Expected texts are those of the
//! master files that the records are parsed from.
use dns_names_wire::{owned, rdata, Class, ErrorKind, Message, Name, Prefix, RData, RecordBuf, RecordSet, RecordType};

/// Records of the types whose data have fields.
const LINES: [&str; 70] = [
    "A 192.0.2.1",
    "NS b.",
    "MD b.",
    "MF b.",
    "CNAME b.",
    "SOA b. c. 1 2 3 4 5",
    "MB b.",
    "MG b.",
    "MR b.",
    "WKS \\# 9 C0000201 06 00000040",
    "PTR b.",
    "HINFO \"x y\" \"z\"",
    "MINFO b. c.",
    "MX 10 b.",
    "TXT \"v=spf1\" \"-all\"",
    "RP b. c.",
    "AFSDB 1 b.",
    "X25 \"311061700956\"",
    "ISDN \"150862028003217\" \"004\"",
    "RT 2 b.",
    "NSAP \\# 3 470005",
    "NSAP-PTR b.",
    "SIG NS 1 3 3600 20010909014640 20010909014640 7 b. AA==",
    "KEY 256 3 5 AA==",
    "PX 10 b. c.",
    "GPOS \"-32.6882\" \"116.8652\" \"10.0\"",
    "AAAA 2001:db8::1",
    "LOC 42 21 54.000 N 71 6 18.000 W -24.00m 1m 10000m 10m",
    "NXT \\# 4 01620002",
    "SRV 1 2 53 b.",
    "NAPTR 1 2 \"U\" \"E2U+sip\" \"!^.*$!sip:a@b!\" .",
    "KX 1 b.",
    "CERT 1 2 3 AA==",
    "DNAME b.",
    "APL \\# 7 00011C83C0A826",
    "DS 60485 5 1 2BB1",
    "SSHFP 2 1 1234",
    "IPSECKEY 10 1 2 192.0.2.38 AQID",
    "RRSIG A 13 2 3600 20010909014640 20010909014640 7 b. AA==",
    "NSEC b. A MX",
    "DNSKEY 257 3 13 AQNR",
    "DHCID AAIB",
    "NSEC3 1 1 12 AABBCCDD 2t7b4g4vsa5smi47k61mv5bv1a22bojr MX",
    "NSEC3PARAM 1 0 12 AABBCCDD",
    "TLSA 3 1 1 0D",
    "SMIMEA 3 1 1 0D",
    "HIP 1 00 AA== a.",
    "CDS 60485 5 1 2BB1",
    "CDNSKEY 257 3 13 AQNR",
    "CSYNC 66 3 A NS",
    "ZONEMD 1 1 1 2BB1",
    "SVCB 1 b. port=53",
    "HTTPS 1 . alpn=h2",
    "DSYNC CDS NOTIFY 5359 b.",
    "SPF \"v=spf1\"",
    "NID \\# 10 000A00144FFFFF20EE64",
    "L32 10 10.1.2.0",
    "L64 \\# 10 000A20010DB811401000",
    "LP 10 b.",
    "EUI48 00-00-5E-00-53-2A",
    "URI 10 1 \"http://x\"",
    "CAA 128 issue \"ca.net\"",
    "HHIT \\# 2 0102",
    "BRID \\# 2 0102",
    "IPN \\# 8 0000000000000102",
    "TA 60485 5 1 2BB1",
    "DLV 60485 5 1 2BB1",
    "DOA \\# 11 0000000100000002030000",
    "AMTRELAY 10 0 1 203.0.113.15",
    "TALINK b. c.",
];

fn record(line: &str) -> RecordBuf {
    line.parse().unwrap_or_else(|error| panic!("{line}: {error}"))
}

fn name(text: &str) -> Name {
    text.parse().unwrap()
}

#[test]
fn data_are_owned_and_lent() {
    for line in LINES {
        let record = record(&format!("a. 60 IN {line}"));
        let borrowed = record.data().unwrap();
        assert!(!matches!(borrowed, RData::Unknown { .. }), "{line}");
        let own = borrowed.clone().into_owned();
        assert_eq!((own.as_borrowed(), own.record_type()), (borrowed.clone(), record.record_type()), "{line}");
        assert_eq!(owned::RData::try_from(record.as_record()), Ok(own.clone()));
        assert_eq!(own.to_wire().unwrap(), record.raw_data(), "{line}");
        assert_eq!((own.to_string(), format!("{own:?}")), (borrowed.to_string(), format!("{borrowed:?}")));
        assert_eq!(record.to_string(), format!("a. 60 IN {} {own}", record.record_type()));
        assert_eq!(RecordBuf::new(&name("a."), 60, &own).unwrap(), record);
    }
}

/// The owned form of data that nobody has a type for.
#[test]
fn octets_are_owned() {
    let record = record("a. 60 CLASS7 TYPE65280 \\# 2 0001");
    let own: owned::RData = record.as_record().try_into().unwrap();
    assert_eq!(own, owned::RData::Unknown { record_type: RecordType::from(65280), octets: vec![0, 1] });
    assert_eq!((own.to_string(), format!("{own:?}")), ("\\# 2 0001".into(), "Unknown(TYPE65280, 0x0001)".into()));
}

#[test]
fn structs_are_data_and_come_back() {
    let mx = owned::MX { preference: 10, exchange: name("b.") };
    let data = owned::RData::from(mx.clone());
    assert_eq!(owned::MX::try_from(data.clone()), Ok(mx.clone()));
    assert_eq!(owned::SRV::try_from(data.clone()), Err(data));
    let borrowed = RData::from(&mx);
    assert_eq!(rdata::MX::try_from(borrowed.clone()), Ok(rdata::MX::from(&mx)));
    assert_eq!(rdata::SRV::try_from(borrowed.clone()), Err(borrowed));
    assert_eq!(owned::MX::from(rdata::MX::from(&mx)), mx);
    let text: Vec<u8> = "http://x".into();
    let uri = owned::URI { priority: 1, weight: 2, target: text };
    assert_eq!(owned::RData::from(uri).to_string(), "1 2 \"http://x\"");
}

#[test]
fn lists_are_made_of_their_items() {
    let texts = owned::Texts::new(["a", "bc"]).unwrap();
    assert_eq!((texts.as_wire(), format!("{texts:?}")), (&b"\x01a\x02bc"[..], "[\"a\", \"bc\"]".into()));
    assert_eq!((&texts).into_iter().count(), 2);
    assert_eq!(owned::Texts::new(["a".repeat(256)]).unwrap_err().kind(), ErrorKind::DataTooLong);
    assert_eq!(owned::Texts::new([""; 0]).unwrap_err().kind(), ErrorKind::MessageCut);
    let pairs = owned::Pairs::new([(3, [0, 53])]).unwrap();
    assert_eq!((pairs.iter().next(), format!("{pairs:?}")), (Some((3, &[0, 53][..])), "{3: 0x0035}".into()));
    let prefix = Prefix { family: 1, length: 28, is_negated: true, octets: &[192, 168, 38] };
    let prefixes = owned::Prefixes::new([prefix, prefix]).unwrap();
    assert!(prefixes.iter().eq([prefix; 2]));
    assert_eq!(format!("{prefix:?}"), "!1:0xC0A826/28");
    let long = Prefix { octets: &[1; 128], ..prefix };
    assert_eq!(owned::Prefixes::new([long]).unwrap_err().kind(), ErrorKind::DataTooLong);
    let names = owned::WholeNames::new(&[name("a."), name("b.")]).unwrap();
    assert!(names.iter().map(|name| name.to_name()).eq([name("a."), name("b.")]));
}

fn sets(lines: &[&str]) -> Vec<RecordSet> {
    RecordSet::group(&lines.iter().map(|line| record(line)).collect::<Vec<_>>()).unwrap()
}

#[test]
fn records_are_grouped() {
    let lines = ["a. 9 NS b.", "a. 60 A 192.0.2.1", "A. 5 NS C.", "a. 7 CH NS b.", "a. 60 A 192.0.2.1", "b. 1 NS b."];
    let sets = sets(&lines);
    let seen: Vec<_> = sets.iter().map(|set| (set.owner().to_string(), set.len(), set.ttl(), set.class())).collect();
    let wanted = [("a.", 2, 5, Class::IN), ("a.", 1, 60, Class::IN), ("a.", 1, 7, Class::CH), ("b.", 1, 1, Class::IN)];
    assert!(seen.iter().map(|(owner, len, ttl, class)| (&owner[..], *len, *ttl, *class)).eq(wanted));
    assert_eq!(format!("{:?}", sets[1]), "RecordSet[RecordBuf(a. 60 IN A 192.0.2.1)]");
    assert!(sets[0].records().eq([record("a. 5 NS b."), record("a. 5 NS c.")]));
    // Names are equal ignoring case, and texts are not.
    let mut texts = RecordSet::new(&name("a."), RecordType::TXT, Class::IN, 60);
    for (text, is_new) in [("x", true), ("X", true), ("x", false), ("y", true)] {
        let data = owned::RData::TXT(owned::Texts::new([text]).unwrap());
        assert_eq!(texts.insert(&data), Ok(is_new), "{text}");
    }
    assert_eq!(texts.data().collect::<Result<Vec<_>, _>>().unwrap().len(), 3);
}

#[test]
fn sets_are_equal_in_any_order() {
    let one = sets(&["a. 9 NS b.", "a. 9 NS c."]);
    let other = sets(&["A. 5 NS C.", "a. 5 NS b."]);
    assert_eq!(one, other);
    assert!(one[0].contains(&record("A. 1 NS B.")) && !one[0].contains(&record("a. 9 CH NS b.")));
    assert_ne!(one, sets(&["a. 9 NS b."]));
    assert_ne!(one, sets(&["a. 9 NS b.", "a. 9 NS d."]));
    assert_ne!(one, sets(&["b. 9 NS b.", "b. 9 NS c."]));
}

#[test]
fn what_is_no_part_of_a_set_changes_nothing() {
    let mut set = RecordSet::new(&name("a."), RecordType::A, Class::IN, 60);
    set.insert(std::net::Ipv4Addr::LOCALHOST).unwrap();
    let before = set.clone();
    for line in ["b. 1 A 127.0.0.2", "a. 1 CH A b. 1", "a. 1 NS b."] {
        let error = line.parse::<RecordBuf>().map(|record| set.insert_record(&record).unwrap_err());
        assert!(error.map_or(true, |error| error.kind() == ErrorKind::BadItem), "{line}");
    }
    assert_eq!(set.insert(std::net::Ipv6Addr::LOCALHOST).unwrap_err().kind(), ErrorKind::BadData);
    let cut = RecordBuf::from_octets(&name("a."), RecordType::A, Class::IN, 1, &[1, 2, 3]).unwrap();
    assert_eq!(set.insert_record(&cut).unwrap_err().kind(), ErrorKind::MessageCut);
    assert_eq!((set.len(), set.ttl(), set.raw_data().count()), (1, 60, 1));
    assert_eq!(set, before);
}

#[test]
fn debug_shows_text() {
    let line = record("a. 60 MX 10 b.");
    assert_eq!(format!("{line:?}"), "RecordBuf(a. 60 IN MX 10 b.)");
    assert_eq!(format!("{:?}", line.as_record()), "Record(a. 60 IN MX 10 b.)");
    assert_eq!(format!("{:?}", line.data().unwrap()), "MX(MX { preference: 10, exchange: Name(\"b.\") })");
    let caa = record("a. 60 CAA 128 issue \"ca.net\"");
    assert_eq!(format!("{:?}", caa.data().unwrap()), "CAA(CAA { flags: 128, tag: \"issue\", value: \"ca.net\" })");
    assert_eq!(format!("{:?}", caa.as_record().fields().last().unwrap().unwrap()), "Text(\"ca.net\")");
    let ds = record("a. 60 DS 60485 5 1 2BB1");
    assert!(format!("{:?}", ds.data().unwrap()).ends_with("digest: 0x2BB1 })"));
    let message = b"\0\0\0\0\0\x01\0\0\0\0\0\x01\0\0\x02\0\x01\0\0\x29\x04\xD0\0\0\x80\0\0\x06\0\x0A\0\x02\xAB\xCD";
    let message = Message::try_from(&message[..]).unwrap();
    let shown = format!("{message:?}");
    assert!(shown.contains("questions: [Question(.\tIN\tNS)], answers: [],") && shown.starts_with("Message { header:"));
    let edns = message.edns().unwrap().unwrap();
    let wanted = "Edns { max_payload: 1232, version: 0, dnssec_ok: true, options: {10: 0xABCD} }";
    assert_eq!(format!("{edns:?}"), wanted);
    let error = Name::from_text("a..b", None).unwrap_err();
    assert_eq!(format!("{error:?}"), "Error(EmptyLabel: at offset 2: a label of the text is empty)");
    assert_eq!(RecordBuf::try_from("a. 60 MX 10 b."), Ok(line));
}
