//! The crate as its users call it. Expected values are from RFC 1035, section 4.1.4, RFC 4034, section 6.1, or counted
//! by hand.
use dns_names_wire::{
    names, owned, records, sort_names, Class, Error, ErrorKind, Labels, Name, NameRef, Names, RData, Record, RecordBuf,
    RecordSet, RecordType, Records, SerialNumber, TextFault, TextRule, TypeSet,
};
use std::cmp::Ordering;
use std::collections::hash_map::DefaultHasher;
use std::collections::{BTreeSet, HashSet};
use std::hash::{Hash, Hasher};

fn name(text: &str) -> Name {
    text.parse().unwrap_or_else(|e| panic!("{text}: {e}"))
}

/// The names of RFC 1035, section 4.1.4: F.ISI.ARPA at 20, FOO.F.ISI.ARPA at 40, ARPA at 64, the root at 92.
fn message() -> Vec<u8> {
    let mut message = vec![0xFF; 93];
    message[20..32].copy_from_slice(b"\x01F\x03ISI\x04ARPA\0");
    message[40..46].copy_from_slice(b"\x03FOO\xC0\x14");
    message[64..66].copy_from_slice(b"\xC0\x1A");
    message[92] = 0;
    message
}

#[test]
fn reads_the_names_of_the_rfc() {
    let message = message();
    for (start, text, end) in [(20, "F.ISI.ARPA.", 32), (40, "FOO.F.ISI.ARPA.", 46), (64, "ARPA.", 66), (92, ".", 93)] {
        let (read, after) = Name::read(&message, start).unwrap();
        assert_eq!((read.to_string().as_str(), after), (text, end));
        let borrowed = NameRef::read(&message, start).unwrap();
        assert_eq!((borrowed.start(), borrowed.end(), borrowed.to_string().as_str()), (start, end, text));
        assert!(borrowed.labels().eq(read.labels()));
        assert_eq!(borrowed, read);
        assert_eq!(Name::from(borrowed).as_wire(), read.as_wire());
    }
}

#[test]
fn each_fault_is_its_error() {
    let many = [&b"\x01a".repeat(127)[..], b"\0"].concat();
    let one_more = [&b"\x01a".repeat(128)[..], b"\0"].concat();
    assert_eq!(Name::read(&many, 0).map(|(name, end)| (name.labels().count(), end)), Ok((127, 255)));
    let rows: [(&[u8], usize, ErrorKind); 7] = [
        (b"", 0, ErrorKind::MessageCut),
        (b"\0", 2, ErrorKind::MessageCut),
        (b"\x05abc", 0, ErrorKind::MessageCut),
        (b"\xC0\0", 0, ErrorKind::PointerNotBack),
        (b"\x40", 0, ErrorKind::ReservedOctet),
        (b"\x01a\xC0\0", 2, ErrorKind::SegmentsOverlap),
        (&one_more, 0, ErrorKind::NameTooLong),
    ];
    for (message, start, kind) in rows {
        let error = Name::read(message, start).unwrap_err();
        assert_eq!((error.kind(), error.offset(), error.rule()), (kind, Some(start), None));
        assert_eq!(error.to_string(), format!("at offset {start}: {kind}"));
        assert_eq!((NameRef::read(message, start), Name::root().read_from(message, start)), (Err(error), Err(error)));
    }
    assert_eq!(Name::read(b"\0", usize::MAX).unwrap_err().offset(), Some(usize::MAX));
    let faults = [(&b"\x01a\0\0"[..], ErrorKind::BytesLeft, 3), (b"", ErrorKind::MessageCut, 0)];
    for (form, kind, offset) in faults {
        let error = Name::from_wire(form).unwrap_err();
        assert_eq!((error.kind(), error.offset()), (kind, Some(offset)));
    }
}

#[test]
fn texts_are_read_and_shown() {
    let strange = ["0/25.2.0.192.in-addr.arpa.", "-dash.a!b.example.", "_sip._tcp.x.", "sp\\032ace.a\\.b."];
    for text in ["a.bc.", "a.bc", ".", "@", "*.a.", "_443._tcp.a."].into_iter().chain(strange) {
        let read = name(text);
        assert_eq!(read.to_string(), text);
        assert_eq!(read.is_fqdn(), text.ends_with('.'));
    }
    assert_eq!(name("\\065\\.b.").as_wire(), b"\x03A.b\0");
    assert_eq!(name("sp ace.\u{e4}\\ a").as_wire(), b"\x06sp ace\x04\xc3\xa4 a\0");
    assert_eq!(Name::from_wire(b"\x03a\x80.\x01/\0").unwrap().to_string(), "a\\128\\../.");
    assert!(name(".").is_root() && !name("@").is_root() && name("@") == Name::new() && name(".") == Name::root());
    let root = Name::root();
    let origin = Some(&root);
    assert_eq!(Name::from_text("a", origin).unwrap(), name("a."));
    assert_eq!(Name::from_text("@", Some(&name("b."))).unwrap(), name("b."));
    assert_eq!(format!("{:>6}|{:<4}|{:?}", name("a."), name("."), name("a.b.")), "    a.|.   |Name(\"a.b.\")");
    let label = "a".repeat(64);
    let long = [&"a".repeat(63)[..]; 4].join(".");
    for (text, kind) in [(&label, ErrorKind::LabelTooLong), (&long, ErrorKind::NameTooLong)] {
        assert_eq!(text.parse::<Name>().unwrap_err().kind(), kind, "{text}");
    }
}

#[test]
fn texts_go_wrong_where_no_name_begins_so() {
    let label = "a".repeat(64);
    let long = [&"a".repeat(63)[..]; 4].join(".");
    let rows = [
        ("a..b", 2, TextRule::EmptyLabel),
        (".a", 0, TextRule::EmptyLabel),
        ("", 0, TextRule::EmptyLabel),
        ("a\\256", 4, TextRule::BadEscape),
        ("a\\1x", 3, TextRule::BadEscape),
        ("a\\1", 3, TextRule::UnfinishedEscape),
        ("\\", 1, TextRule::UnfinishedEscape),
        (&label, 63, TextRule::LabelTooLong),
        (&long, 255, TextRule::NameTooLong),
    ];
    for (text, offset, rule) in rows {
        let fault = TextFault { offset, rule };
        assert_eq!(Name::text_fault(text), Some(fault), "{text}");
        let error = text.parse::<Name>().unwrap_err();
        let kind = match rule {
            TextRule::LabelTooLong => ErrorKind::LabelTooLong,
            TextRule::NameTooLong => ErrorKind::NameTooLong,
            TextRule::EmptyLabel => ErrorKind::EmptyLabel,
            TextRule::BadEscape => ErrorKind::BadEscape,
            _ => ErrorKind::TextCut,
        };
        assert_eq!((error.kind(), error.offset(), error.rule()), (kind, Some(offset), Some(rule)), "{text}");
        assert_eq!(error.to_string(), fault.to_string());
        assert_eq!(fault.to_string(), format!("at offset {offset}: {rule}"));
        assert!(!rule.to_string().starts_with("failure"), "{rule:?}");
    }
    assert_eq!((Name::text_fault("a.bc."), Name::text_fault("@"), Name::text_fault(".")), (None, None, None));
}

/// The order of RFC 4034, section 6.1.
const ORDER: [&[u8]; 9] = [
    b"\x07example\0",
    b"\x01a\x07example\0",
    b"\x08yljkjljk\x01a\x07example\0",
    b"\x01Z\x01a\x07example\0",
    b"\x04zABC\x01a\x07EXAMPLE\0",
    b"\x01z\x07example\0",
    b"\x01\x01\x01z\x07example\0",
    b"\x01*\x01z\x07example\0",
    b"\x01\xC8\x01z\x07example\0",
];

#[test]
fn the_order_is_canonical() {
    let ordered: Vec<Name> = ORDER.iter().map(|form| Name::from_wire(form).unwrap()).collect();
    for (i, left) in ordered.iter().enumerate() {
        for (j, right) in ordered.iter().enumerate() {
            assert_eq!(left.cmp(right), i.cmp(&j), "{left} {right}");
            assert_eq!(left == right, i == j);
        }
    }
    let mut sorted = ordered.clone();
    sorted.reverse();
    sorted.sort();
    assert_eq!(sorted, ordered);
    assert_eq!(name("A.b.").cmp(&name("a.B.")), Ordering::Equal);
    assert!(name("z") < name("a.") && name("a") != name("a."));
    assert!(name("a").eq_ignore_root(&name("A.")) && !name("a.").eq_ignore_root(&name("b.")));
}

#[test]
fn sort_keys_are_in_the_order_of_names() {
    let ordered: Vec<Name> = ORDER.iter().map(|form| Name::from_wire(form).unwrap()).collect();
    for (i, left) in ordered.iter().enumerate() {
        for (j, right) in ordered.iter().enumerate() {
            assert_eq!(left.sort_key().cmp(&right.sort_key()), i.cmp(&j), "{left} {right}");
            assert_eq!(left.sort_key().starts_with(&right.sort_key()), right.zone_of(left), "{left} {right}");
        }
    }
    assert_eq!(name("A.b.").sort_key(), b"b\0a\0");
    assert_eq!((name("a.B").sort_key(), Name::root().sort_key()), (name("A.b.").sort_key(), vec![]));
    assert_eq!(Name::from_labels([[0, 1, 2]]).unwrap().sort_key(), b"\x01\x01\x01\x02\x02\0");
    let longest = Name::from_labels([&[0; 63][..], &[1; 63], &[0; 63], &[1; 61]]).unwrap();
    assert_eq!((longest.as_wire().len(), longest.sort_key().len()), (255, 504));
}

#[test]
fn names_are_sorted_at_once() {
    let ordered: Vec<Name> = ORDER.iter().map(|form| Name::from_wire(form).unwrap()).collect();
    let mut sorted = ordered.clone();
    sorted.reverse();
    sort_names(&mut sorted);
    assert_eq!(sorted, ordered);

    let texts = ["b.a.", "a", "B.A.", ".", "A", "b.a", "a.b.", "b.A.", "@"];
    let mut sorted = texts.map(name);
    let mut slowly = sorted.clone();
    sort_names(&mut sorted);
    slowly.sort();
    assert_eq!(sorted.map(|name| name.to_string()), ["@", "a", "A", "b.a", ".", "b.a.", "B.A.", "b.A.", "a.b."]);
    assert_eq!(slowly.map(|name| name.to_string()), ["@", "a", "A", "b.a", ".", "b.a.", "B.A.", "b.A.", "a.b."]);

    sort_names(&mut []);
    let mut one = [name("a.")];
    sort_names(&mut one);
    assert_eq!(one, [name("a.")]);

    let mut many: Vec<Name> = (0..2000u32).map(|i| name(&format!("Host{}.zone{}.", i * 7919 % 2000, i % 3))).collect();
    let mut slowly = many.clone();
    sort_names(&mut many);
    slowly.sort();
    assert_eq!(many, slowly);
}

#[test]
fn equal_names_have_one_hash() {
    let set: HashSet<Name> = ["WWW.a.", "www.A.", "b."].into_iter().map(name).collect();
    assert_eq!(set.len(), 2);
    assert!(set.contains(&name("www.a.")) && !set.contains(&name("www.a")));
    let tree: BTreeSet<Name> = ORDER.iter().map(|form| Name::from_wire(form).unwrap()).collect();
    assert_eq!(tree.len(), ORDER.len());
}

#[test]
fn zones_and_lower_case() {
    assert!(name("example.").zone_of(&name("a.EXAMPLE.")) && name("example.").zone_of(&name("example.")));
    assert!(!name("a.example.").zone_of(&name("example.")) && name(".").zone_of(&name("a.")));
    assert!(!name("ple.").zone_of(&name("example.")));
    let lowered = Name::from_wire(b"\x01A\x03Bc\xC0\0").unwrap().to_lowercase();
    assert_eq!(lowered.as_wire(), b"\x01a\x03bc\xC0\0");
    assert!(lowered.is_fqdn() && !name("A").to_lowercase().is_fqdn());
}

#[test]
fn names_of_a_message_end_after_an_error() {
    let mut read = names(b"\x01a\0\x40\0", 0);
    assert_eq!(read.next().unwrap().unwrap().to_name(), name("a."));
    let error = read.next().unwrap().unwrap_err();
    assert_eq!((error.kind(), error.offset(), read.next()), (ErrorKind::ReservedOctet, Some(3), None));
    let error = names(b"\0", 2).next().unwrap().unwrap_err();
    assert_eq!((error.kind(), error.offset()), (ErrorKind::MessageCut, Some(2)));
}

#[test]
fn errors_have_texts_and_numbers() {
    assert_eq!(ErrorKind::NoMemory.to_string(), "out of memory");
    assert_eq!(ErrorKind::Other(99).to_string(), "failure 99");
    let error = Error::from(ErrorKind::BadTime);
    assert_eq!(
        (error.kind(), error.number(), error.offset(), error.rule(), error.section()),
        (ErrorKind::BadTime, 17, None, None, None)
    );
    assert_eq!(error.to_string(), ErrorKind::BadTime.to_string());
    assert!(std::error::Error::source(&error).is_none());
    let source: Box<dyn std::error::Error + Send + Sync> = error.into();
    assert!(source.to_string().contains("text"));
    let error = Name::read(b"", 0).unwrap_err();
    let wrapped: std::io::Error = error.into();
    assert_eq!(wrapped.get_ref().unwrap().downcast_ref(), Some(&error));
    assert_eq!(std::io::Error::from(Error::from(ErrorKind::NoMemory)).kind(), std::io::ErrorKind::OutOfMemory);
}

#[test]
fn values_cross_threads() {
    fn is_shared<T: Send + Sync + Unpin + std::panic::UnwindSafe + 'static>() {}
    is_shared::<Name>();
    is_shared::<(Error, ErrorKind)>();
    is_shared::<(NameRef<'static>, Names<'static>, Labels<'static>)>();
    is_shared::<(Record<'static>, Records<'static>)>();
    is_shared::<(RData<'static>, owned::RData, RecordBuf, RecordSet)>();
    is_shared::<(RecordType, Class, SerialNumber, TypeSet)>();
}

#[test]
fn labels_are_walked_from_both_ends() {
    let message = message();
    for name in [Name::read(&message, 40).unwrap().0, name("foo.f.isi.arpa")] {
        let mut labels = name.labels();
        assert_eq!(
            (labels.len(), labels.next_back().map(<[u8]>::len), labels.next().map(<[u8]>::len)),
            (4, Some(4), Some(3))
        );
        assert_eq!((labels.len(), labels.next_back().map(<[u8]>::len)), (2, Some(3)));
        assert_eq!((labels.next_back().map(<[u8]>::len), labels.next_back(), labels.next()), (Some(1), None, None));
    }
    let borrowed = NameRef::read(&message, 40).unwrap();
    assert!(borrowed.labels().rev().eq([&b"ARPA"[..], b"ISI", b"F", b"FOO"]));
    assert_eq!((borrowed.labels().len(), NameRef::read(&message, 92).unwrap().labels().len()), (4, 0));
    let mut count = 0;
    for label in &name("a.b") {
        count += label.len();
    }
    assert_eq!((count, (&borrowed).into_iter().count()), (2, 4));
    let longest = Name::from_labels(std::iter::repeat("a").take(127)).unwrap();
    assert_eq!((longest.num_labels(), longest.labels().rev().count()), (127, 127));
    assert_eq!((Name::root().num_labels(), name("*").num_labels(), name("*.a").num_labels()), (0, 0, 1));
    assert!(name("*.a").is_wildcard() && !name("a").is_wildcard() && !name("\\.").is_wildcard());
}

#[test]
fn names_are_made_of_texts_and_lent_as_octets() {
    assert_eq!(Name::try_from("a.b."), Ok(name("a.b.")));
    assert_eq!(Name::try_from("a..b").unwrap_err().offset(), Some(2));
    assert_eq!(AsRef::<[u8]>::as_ref(&name("a.")), b"\x01a\0");
}

#[test]
fn iterators_say_where_they_stand() {
    let mut read = names(b"\0\x40", 0);
    assert_eq!((read.next().map(|name| name.is_ok()), read.offset()), (Some(true), 1));
    assert_eq!((read.next().map(|name| name.is_ok()), read.offset(), read.next()), (Some(false), 1, None));
    let mut read = records(b"\0", 0);
    assert_eq!((read.next().unwrap().unwrap_err().offset(), read.offset()), (Some(0), 0));
}

/// Names of each length, on both sides of the longest that is stored inline.
#[test]
fn names_of_all_lengths_are_kept() {
    let mut seen = vec![Name::root()];
    for len in 2..=255 {
        let labels: Vec<Vec<u8>> = match len {
            2 => continue,
            len => {
                vec![b'a'; len - 1].chunks(64).map(|chunk| chunk[1..].to_vec()).filter(|it| !it.is_empty()).collect()
            }
        };
        let name = Name::from_labels(&labels).unwrap();
        let (mut copy, mut relative) = (Name::root(), name.clone());
        assert_eq!(copy.read_from(name.as_wire(), 0), Ok(name.as_wire().len()));
        relative.set_fqdn(false);
        assert!(copy == name && name.is_fqdn() && !relative.is_fqdn() && relative.eq_ignore_root(&name));
        assert!(hash(&copy) == hash(&name) && copy.cmp(&relative) == Ordering::Greater);
        assert_eq!(name.to_string().parse(), Ok(copy));
        assert_eq!(name.to_lowercase().as_wire(), name.as_wire());
        seen.push(name);
    }
    let mut sorted = seen.clone();
    sorted.reverse();
    sort_names(&mut sorted);
    seen.sort();
    assert_eq!(sorted, seen);
}

/// A linear congruential generator.
struct Random(u64);

impl Random {
    fn below(&mut self, n: usize) -> usize {
        self.0 = self.0.wrapping_mul(6364136223846793005).wrapping_add(1442695040888963407);
        (self.0 >> 33) as usize % n
    }
}

fn hash(name: &Name) -> u64 {
    let mut state = DefaultHasher::new();
    name.hash(&mut state);
    state.finish()
}

/// What the crate does itself (iterating over labels, hashes and equality) agrees with the C library.
#[test]
fn random_messages() {
    let (mut random, mut last, mut accepted, mut equal) = (Random(1), Name::root(), 0, 0);
    for _ in 0..50_000 {
        let len = 1 + random.below(16);
        let message: Vec<u8> = (0..len).map(|_| [0, 0, 1, 2, b'a', b'A', b'b', 0xC0][random.below(8)]).collect();
        let start = random.below(len);
        let borrowed = NameRef::read(&message, start);
        let (name, end) = match Name::read(&message, start) {
            Ok(read) => read,
            Err(error) => {
                assert_eq!(borrowed, Err(error));
                continue;
            }
        };
        let borrowed = borrowed.unwrap();
        assert_eq!((borrowed.end(), &borrowed.to_name()), (end, &name));
        assert!(borrowed.labels().eq(name.labels()));
        let octets: Vec<u8> =
            name.labels().flat_map(|label| [&[label.len() as u8], label].concat()).chain([0]).collect();
        assert_eq!(octets, name.as_wire());
        let same = name.to_lowercase().as_wire() == last.to_lowercase().as_wire();
        assert_eq!((name == last, name.cmp(&last) == Ordering::Equal), (same, same));
        assert!(!same || hash(&name) == hash(&last));
        assert_eq!(name.cmp(&last), last.cmp(&name).reverse());
        assert_eq!(name.cmp(&last), name.sort_key().cmp(&last.sort_key()));
        (accepted, equal, last) = (accepted + 1, equal + usize::from(same), name);
    }
    assert!(accepted > 10_000 && equal > 1_000, "{accepted} {equal}");
}
