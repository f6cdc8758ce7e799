//! A name that is not fully qualified is never completed by the root in silence (RFC 1034, section 3.1: relative names are
//! completed by an origin, or are an error).

use dns_names_wire::rdata::{HIP, MX, SOA};
use dns_names_wire::{
    check_zone, dnssec, owned, Class, EdnsOptionData, Error, ErrorKind, Header, MessageBuilder, MessageWriter, Name,
    NameRef, RData, RecordBuf, RecordSet, RecordType, Section, ZoneItem, ZoneReader, ZoneWriter,
};
#[cfg(feature = "std")]
use dns_names_wire::{ZoneFile, ZoneStream};
use std::net::Ipv4Addr;

fn name(text: &str) -> Name {
    text.parse().unwrap()
}

fn kind<T: std::fmt::Debug>(result: Result<T, Error>) -> ErrorKind {
    result.unwrap_err().kind()
}

#[test]
fn a_borrowed_name_is_what_the_name_is() {
    let (relative, whole) = (name("www.example"), name("www.example."));
    assert!(!NameRef::from(&relative).is_fqdn() && NameRef::from(&whole).is_fqdn());
    assert_eq!(NameRef::from(&relative).to_name(), relative);
    assert_eq!(NameRef::from(&relative).to_string(), "www.example");
    assert_eq!(NameRef::from(&relative), relative);
    assert_ne!(NameRef::from(&relative), whole);
    assert!(NameRef::from(&relative) < NameRef::from(&whole));
    let long = name(&["a"; 40].join("."));
    assert_eq!(NameRef::from(&long).to_name(), long);
}

#[test]
fn no_record_takes_one() {
    let (relative, whole) = (name("www.example"), name("example."));
    let address = Ipv4Addr::LOCALHOST;
    assert_eq!(kind(RecordBuf::new(&relative, 60, address)), ErrorKind::RelativeName);
    let soa = |mname, rname| SOA { mname, rname, serial: 1, refresh: 2, retry: 3, expire: 4, minimum: 5 };
    for data in [
        RData::NS((&relative).into()),
        MX { preference: 10, exchange: (&relative).into() }.into(),
        soa((&whole).into(), (&relative).into()).into(),
    ] {
        assert_eq!(kind(RecordBuf::new(&whole, 60, data.clone())), ErrorKind::RelativeName);
        assert_eq!(kind(data.to_wire()), ErrorKind::RelativeName);
    }
    assert_eq!(kind(RecordBuf::new(&whole, 60, &owned::RData::CNAME(relative.clone()))), ErrorKind::RelativeName);
    assert_eq!(kind(owned::WholeNames::new(&[whole.clone(), relative.clone()])), ErrorKind::RelativeName);
    assert_eq!(kind(RecordBuf::from_octets(&relative, 1.into(), Class::IN, 0, &[])), ErrorKind::RelativeName);
    assert_eq!(kind(RecordBuf::from_text("a 60 NS b", &relative)), ErrorKind::RelativeName);
    assert_eq!(
        kind(RecordBuf::from_data_text(&whole, 60, RecordType::NS, "b", Some(&relative))),
        ErrorKind::RelativeName
    );
    assert_eq!(kind(Name::from_text("a", Some(&relative))), ErrorKind::RelativeName);
    let mut set = RecordSet::new(&relative, RecordType::A, Class::IN, 60);
    assert_eq!(kind(set.insert(address)), ErrorKind::RelativeName);
    assert!(set.is_empty());
    let hip = "a. 60 HIP 1 00 AA== b.".parse::<RecordBuf>().unwrap();
    match hip.data().unwrap() {
        RData::HIP(HIP { servers, .. }) => assert_eq!(owned::WholeNames::new(servers).unwrap().as_wire(), b"\x01b\0"),
        other => panic!("{other:?}"),
    }
}

#[test]
fn no_message_takes_one() {
    let (relative, address) = (name("www.example"), Ipv4Addr::LOCALHOST);
    assert_eq!(kind(MessageBuilder::query(7, &relative, RecordType::A).finish(512)), ErrorKind::RelativeName);
    let mut message = MessageBuilder::new(Header::default());
    assert_eq!(kind(message.question(&relative, RecordType::A, Class::IN).finish(512)), ErrorKind::RelativeName);
    let mut message = MessageBuilder::new(Header::default());
    assert_eq!(kind(message.answer(&relative, 60, address)), ErrorKind::RelativeName);
    let mut room = [0; 512];
    let mut writer = MessageWriter::new(&mut room, 512, &Header::default()).unwrap();
    assert_eq!(kind(writer.question(&relative, RecordType::A, Class::IN).map(|_| ())), ErrorKind::RelativeName);
    assert_eq!(kind(writer.data(Section::Answers, &relative, 60, address).map(|_| ())), ErrorKind::RelativeName);
    assert_eq!(writer.finish().len(), 12);
    assert_eq!(
        kind(MessageWriter::query(&mut room, 512, 7, &relative, RecordType::A, None).map(|_| ())),
        ErrorKind::RelativeName
    );
}

#[test]
fn no_zone_takes_one() {
    let (relative, whole) = (name("example"), name("example."));
    let text = b"$TTL 60\n@ NS ns\n";
    let mut zone = ZoneReader::new(text, &relative);
    let error = zone.next().unwrap().unwrap_err();
    assert_eq!(error.to_string(), format!("1:1: {}", ErrorKind::RelativeName));
    assert!(zone.next().is_none());
    let mut zone = ZoneReader::new(b"$TTL 60\n$INCLUDE other\n@ NS ns\n", &whole);
    assert!(matches!(zone.next(), Some(Ok(ZoneItem::Include(_)))));
    assert!(zone.include(text, &relative).next().unwrap().is_err());
    assert!(zone.include(text, &whole).next().unwrap().is_ok());
    assert!(zone.next().unwrap().is_ok());
    assert_eq!(kind(ZoneWriter::new(&relative)), ErrorKind::RelativeName);
    let mut file = ZoneWriter::new(&whole).unwrap();
    assert_eq!(kind(file.push_origin(&relative)), ErrorKind::RelativeName);
    assert_eq!(file.text(), "$ORIGIN example.\n");
    let records: [RecordBuf; 0] = [];
    assert_eq!(kind(check_zone(&relative, &records)), ErrorKind::RelativeName);
    assert_eq!(kind(dnssec::zone_digest(&relative, &records, 1)), ErrorKind::RelativeName);
}

#[cfg(feature = "std")]
#[test]
fn no_file_takes_one() {
    let mut zone = ZoneStream::new(&b"@ 60 NS ns\n"[..], &name("example"));
    let error = zone.next().unwrap().unwrap_err();
    let source = std::error::Error::source(&error).and_then(|source| source.downcast_ref::<Error>()).copied();
    assert_eq!(source.map(Error::kind), Some(ErrorKind::RelativeName));
    assert!(zone.next().is_none());
    let path = concat!(env!("CARGO_MANIFEST_DIR"), "/tests/zones/example.zone");
    let error = ZoneFile::open(path, &name("example")).unwrap_err();
    assert_eq!(error.kind(), std::io::ErrorKind::InvalidData);
    assert_eq!(error.to_string(), ErrorKind::RelativeName.to_string());
}

#[test]
fn no_sum_and_no_option_takes_one() {
    let relative = name("example");
    assert_eq!(kind(dnssec::ds_digest(&relative, &[1, 1, 3, 13, 7, 7], 2)), ErrorKind::RelativeName);
    let params = dnssec::Nsec3Params { algorithm: 1, iterations: 0, salt: &[], max_iterations: 0 };
    assert_eq!(kind(params.hash(&relative)), ErrorKind::RelativeName);
    assert_eq!(kind(params.label(&relative)), ErrorKind::RelativeName);
    assert_eq!(kind(EdnsOptionData::ReportChannel(relative.clone()).to_octets()), ErrorKind::RelativeName);
    assert_eq!(kind(EdnsOptionData::Chain(Some(relative)).to_octets()), ErrorKind::RelativeName);
}

#[test]
fn it_is_said_in_words() {
    let words = "a name is not fully qualified: `Name::set_fqdn` or an origin makes it so";
    assert_eq!(ErrorKind::RelativeName.to_string(), words);
    assert_eq!(ErrorKind::RelativeName.number(), 0);
}
