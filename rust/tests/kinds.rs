//! Types, classes, bitmaps, serial numbers, times to live, and names made from names. Expected values are from RFC 4034,
//! section 4.3, RFC 1982, section 5, or counted by hand.
use dns_names_wire::{parse_ttl, Class, ErrorKind, Name, RecordType, SerialNumber, TypeSet};
use std::cmp::Ordering;

fn name(text: &str) -> Name {
    text.parse().unwrap_or_else(|e| panic!("{text}: {e}"))
}

#[test]
fn names_of_names() {
    assert_eq!(name("a.b").append(&name("c.")).unwrap().to_string(), "a.b.c.");
    assert_eq!(name("a.").append(&name("c")).unwrap().to_string(), "a.c");
    assert_eq!(name("a.").prepend_label(b"b.\xFF").unwrap().as_wire(), b"\x03b.\xFF\x01a\0");
    assert_eq!(name("a.").prepend_label(b"").unwrap_err().kind(), ErrorKind::BadText);
    assert_eq!(name("a.").prepend_label(&[b'a'; 64]).unwrap_err().kind(), ErrorKind::LabelTooLong);
    let long = name(&format!("{0}.{0}.{0}.{1}.", "a".repeat(63), "a".repeat(61)));
    assert_eq!(long.prepend_label(b"a").unwrap_err().kind(), ErrorKind::NameTooLong);
    assert_eq!(long.append(&long).unwrap_err().kind(), ErrorKind::NameTooLong);
    assert_eq!(long.append(&Name::root()), Ok(long.clone()));
    assert_eq!(name("a.b.c").trim_to(2).to_string(), "b.c");
    assert_eq!((name("a.b.").trim_to(0), name("a.b.").trim_to(usize::MAX)), (Name::root(), name("a.b.")));
    assert_eq!(
        (name("a.b").base_name(), name("a.").base_name(), name("@").base_name()),
        (name("b"), name("."), name("@"))
    );
    assert_eq!(Name::from_labels([&b"b."[..], b"\xFF"]).unwrap().as_wire(), b"\x02b.\x01\xFF\0");
    assert_eq!(Name::from_labels(long.labels()), Ok(long.clone()));
    assert_eq!(Name::from_labels(std::iter::empty::<&str>()), Ok(Name::root()));
    assert_eq!(Name::from_labels(["a", &"b".repeat(64), ""]).unwrap_err().kind(), ErrorKind::LabelTooLong);
    assert_eq!(Name::from_labels(long.labels().chain([&b"c"[..], b""])).unwrap_err().kind(), ErrorKind::NameTooLong);
    assert_eq!(name("a.b.").to_wildcard().to_string(), "*.b.");
    assert_eq!(Name::root().to_wildcard(), Name::root());
}

#[test]
fn codes_have_texts() {
    for (code, text) in [(1, "A"), (28, "AAAA"), (46, "RRSIG"), (65, "HTTPS"), (255, "ANY"), (1234, "TYPE1234")] {
        assert_eq!(RecordType::from(code).to_string(), text);
        assert_eq!(text.parse(), Ok(RecordType::from(code)));
    }
    for (code, text) in [(1, "IN"), (3, "CH"), (4, "HS"), (254, "NONE"), (255, "ANY"), (7, "CLASS7")] {
        assert_eq!(Class::from(code).to_string(), text);
        assert_eq!(text.parse(), Ok(Class::from(code)));
    }
    assert_eq!((RecordType::try_from("*"), Class::try_from("*")), (Ok(RecordType::ANY), Ok(Class::ANY)));
    assert_eq!("type00001".parse(), Ok(RecordType::A));
    for text in
        ["", "TYPE", "TYPE65536", "TYPE+1", "TYPE 1", "CLASS1", "NOTHING", "NSEC3PARAMS", "\u{e4}", "TYP\u{e4}1"]
    {
        assert_eq!(text.parse::<RecordType>().unwrap_err().kind(), ErrorKind::UnknownText, "{text}");
    }
    for text in ["", "CLASS", "CLASS65536", "TYPE1", "INN"] {
        assert_eq!(text.parse::<Class>().unwrap_err().kind(), ErrorKind::UnknownText, "{text}");
    }
    assert!(RecordType::from(1) < RecordType::from(2));
}

/// RFC 3597, section 5: also codes without a name.
#[test]
fn every_code_is_parsed_from_what_is_shown() {
    for code in 0..=u16::MAX {
        let (kind, class) = (RecordType::from(code), Class::from(code));
        let (kind_text, class_text) = (kind.to_string(), class.to_string());
        assert_eq!((kind_text.parse(), class_text.parse()), (Ok(kind), Ok(class)));
        assert_eq!((kind_text.to_lowercase().parse(), class_text.to_lowercase().parse()), (Ok(kind), Ok(class)));
        assert_eq!((format!("TYPE{code}").parse(), format!("class{code}").parse()), (Ok(kind), Ok(class)));
    }
}

/// The constants are the codes that the C library has names for, in the same order.
#[test]
fn every_name_has_a_constant() {
    let is_named = |text: String, prefix: &str| !text.starts_with(prefix);
    let kinds = (0..=u16::MAX).map(RecordType::from).filter(|kind| is_named(kind.to_string(), "TYPE"));
    assert!(kinds.eq(RecordType::NAMED.iter().copied()));
    let classes = (0..=u16::MAX).map(Class::from).filter(|class| is_named(class.to_string(), "CLASS"));
    assert!(classes.eq(Class::NAMED.iter().copied()));
    for (kind, text) in [
        (RecordType::IXFR, "IXFR"),
        (RecordType::NSEC3PARAM, "NSEC3PARAM"),
        (RecordType::NSAP_PTR, "NSAP-PTR"),
        (RecordType::ZERO, "TYPE0"),
        (RecordType::ANAME, "TYPE65305"),
    ] {
        assert_eq!(kind.to_string(), text);
    }
    assert_eq!((Class::IN.code(), Class::CH.code(), Class::HS.code(), Class::NONE.code()), (1, 3, 4, 254));
}

#[test]
fn sets_grow_and_shrink() {
    let mut set: TypeSet = [RecordType::MX, RecordType::A].into();
    set.extend([RecordType::NS, RecordType::A]);
    set.extend(&[RecordType::from(1234)]);
    assert_eq!((set.len(), set.to_string().as_str()), (4, "A NS MX TYPE1234"));
    assert!(set.insert(RecordType::TXT) && !set.insert(RecordType::TXT) && set.remove(RecordType::A));
    assert!(!set.remove(RecordType::A) && !set.contains(RecordType::A));
    assert!((&set).into_iter().eq(set.iter()));
    assert_eq!(set.into_iter().map(u16::from).collect::<Vec<_>>(), [2, 15, 16, 1234]);
    assert!(TypeSet::new().is_empty() && TypeSet::new().to_string().is_empty());
}

#[test]
fn sets_are_bitmaps() {
    let mut bitmap = b"\x00\x06\x40\x01\x00\x00\x00\x03\x04\x1B".to_vec();
    bitmap.extend([0; 26]);
    bitmap.push(0x20);
    let set: TypeSet = ["A", "MX", "RRSIG", "NSEC", "TYPE1234"].map(|text| text.parse().unwrap()).into_iter().collect();
    assert_eq!(set.to_bitmap().unwrap(), bitmap);
    assert_eq!(TypeSet::from_bitmap(&bitmap), Ok(set.clone()));
    assert!(set.contains(RecordType::from(1234)) && !set.contains(RecordType::from(2)));
    assert_eq!(set.iter().rev().map(u16::from).collect::<Vec<_>>(), [1234, 47, 46, 15, 1]);
    assert_eq!(TypeSet::from_bitmap(b"\x00\x00\x01").unwrap_err().kind(), ErrorKind::BadBitmap);
    assert_eq!(TypeSet::from_bitmap(b""), Ok(TypeSet::default()));
    assert_eq!(TypeSet::default().to_bitmap(), Ok(vec![]));
    let all: TypeSet = (0..=u16::MAX).map(RecordType::from).collect();
    let bitmap = all.to_bitmap().unwrap();
    assert_eq!(bitmap.len(), 34 * 256);
    assert_eq!(TypeSet::from_bitmap(&bitmap), Ok(all));
}

#[test]
fn serial_numbers_go_round() {
    let serial = SerialNumber;
    assert_eq!(serial(u32::MAX) + serial(2), serial(1));
    assert!(serial(0) > serial(u32::MAX) && serial(100) > serial(0) && serial(1 << 31) > serial(1));
    assert_eq!(serial(7).partial_cmp(&serial(7)), Some(Ordering::Equal));
    assert_eq!(serial(7).partial_cmp(&serial(7 + (1 << 31))), None);
}

#[test]
fn times_are_sums() {
    for (text, seconds) in [("0", 0), ("1w2d3h4m5s", 788_645), ("4294967295", u32::MAX)] {
        assert_eq!(parse_ttl(text), Ok(seconds));
    }
    for text in ["", "h", "4294967296", "1x"] {
        assert_eq!(parse_ttl(text).unwrap_err().kind(), ErrorKind::BadTime, "{text}");
    }
}
