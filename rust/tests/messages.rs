//! Messages of records, and reverse names. Expected bytes are worked out by hand from RFC 1035, sections 3.5 and 4.1.1
//! to 4.1.4, and RFC 3596, section 2.5.
use dns_names_wire::{
    records, Class, Edns, Error, ErrorKind, Header, Message, MessageBuilder, MessageWriter, Name, Need, Pairs, RData,
    Record, RecordBuf, RecordSet, RecordType, ResponseCode, Section,
};
use std::net::{IpAddr, Ipv4Addr, Ipv6Addr};

/// A referral with glue: ns.example.com is the server for www.example.com. The name of the question is at offset 12, so
/// example.com is at 16; the records begin at 33 and 50, and ns.example.com is at 45.
const REFERRAL: &[u8] = b"\x12\x34\x80\0\0\x01\0\0\0\x01\0\x01\x03www\x07example\x03com\0\0\x01\0\x01\
    \xC0\x10\0\x02\0\x01\0\x02\xA3\0\0\x05\x02ns\xC0\x10\xC0\x2D\0\x01\0\x01\0\x02\xA3\0\0\x04\xC0\0\x02\x01";

fn name(text: &str) -> Name {
    text.parse().unwrap_or_else(|e| panic!("{text}: {e}"))
}

/// Writes the referral up to the first item that has no room, and returns the message and the number of its items.
fn referral(room: &mut [u8], max_size: usize) -> (&[u8], usize) {
    let (question, zone, server) = (name("www.example.com."), name("example.com."), name("ns.example.com."));
    let mut header = Header::default();
    (header.id, header.is_response) = (0x1234, true);
    let mut writer = MessageWriter::new(room, max_size, &header).unwrap();
    let written = [
        writer.question(&question, RecordType::A, Class::IN).map(drop),
        writer.data(Section::Authorities, &zone, 172_800, RData::NS((&server).into())).map(drop),
        writer.data(Section::Additionals, &server, 172_800, Ipv4Addr::new(192, 0, 2, 1)).map(drop),
    ];
    for error in written.iter().filter_map(|written| written.err()) {
        assert_eq!(error.kind(), ErrorKind::MessageTooLong);
    }
    (writer.finish(), written.iter().take_while(|written| written.is_ok()).count())
}

#[test]
fn a_referral_is_written_and_read() {
    for max_size in [66, 512, 65535, usize::MAX] {
        assert_eq!(referral(&mut [0xFF; 512], max_size), (REFERRAL, 3));
    }
    let read = records(REFERRAL, 33).collect::<Result<Vec<Record>, Error>>().unwrap();
    assert_eq!(read.len(), 2);
    let (ns, a) = (&read[0], &read[1]);
    assert_eq!((ns.ttl(), ns.raw_data(), ns.end()), (172_800, &REFERRAL[45..50], 50));
    assert_eq!(ns.owner(), name("example.com."));
    assert_eq!(a.owner(), name("ns.example.com."));
    assert_eq!((ns.record_type().to_string(), ns.class().to_string()), ("NS".into(), "IN".into()));
    assert_eq!((ns.data_name(), ns.data_offset()), (Ok(name("ns.example.com.")), 45));
    assert_eq!((a.raw_data(), a.end()), (&[192, 0, 2, 1][..], 66));
    assert_eq!(format!("{a}"), "ns.example.com. 172800 IN A 192.0.2.1");
}

/// At every maximum, by the number or by the buffer, as many items as have room, each whole; and the message is complete.
#[test]
fn what_does_not_fit_is_left_out_whole() {
    for (max_size, len, items) in [(65, 50, 2), (59, 50, 2), (50, 50, 2), (49, 33, 1), (33, 33, 1)] {
        for (message, written) in [referral(&mut [0; 512], max_size), referral(&mut vec![0; max_size], 512)] {
            assert_eq!((message.len(), written), (len, items), "{max_size}");
            assert_eq!(message[12..], REFERRAL[12..len]);
            let read = Message::read(message).unwrap();
            let counts = (read.questions().len(), read.authorities().len(), read.additionals().len());
            assert_eq!(counts, (1, usize::from(items > 1), 0));
        }
    }
    for max_size in 12..33 {
        let mut room = [0; 512];
        let (message, items) = referral(&mut room, max_size);
        assert_eq!(items, 0);
        assert!(Message::read(message).is_ok() && message.len() <= max_size);
    }
    let error = MessageWriter::new(&mut [0; 11], 512, &Header::default()).map(drop).unwrap_err();
    assert_eq!(error.kind(), ErrorKind::NoRoom);
}

/// An item after one of a later section, or after the last one, changes nothing.
#[test]
fn items_are_in_order() {
    let (root, four) = (Name::root(), Ipv4Addr::LOCALHOST);
    let bad = |written: Result<&mut MessageWriter, Error>| written.map(drop).map_err(Error::kind);
    let mut room = [0; 512];
    let mut writer = MessageWriter::new(&mut room, 512, &Header::default()).unwrap();
    writer.data(Section::Authorities, &root, 0, four).unwrap();
    let before = writer.octets().to_vec();
    assert_eq!(bad(writer.question(&root, RecordType::A, Class::IN)), Err(ErrorKind::BadItem));
    for section in [Section::Header, Section::Questions, Section::Answers] {
        assert_eq!(bad(writer.data(section, &root, 0, four)), Err(ErrorKind::BadItem), "{section}");
    }
    assert_eq!(writer.octets(), before);
    writer.data(Section::Authorities, &root, 0, four).unwrap().data(Section::Additionals, &root, 0, four).unwrap();
    let tsig: RecordBuf = "a. 0 ANY TSIG \\# 19 00 00005F0F9043 012C 0002 491B DCC6 0000 0000".parse().unwrap();
    writer.last(0, &tsig).unwrap();
    assert_eq!(bad(writer.data(Section::Additionals, &root, 0, four)), Err(ErrorKind::BadItem));
    assert_eq!(bad(writer.edns(&Edns::new(512))), Err(ErrorKind::BadItem));
    assert_eq!(bad(writer.last(0, &tsig)), Err(ErrorKind::BadItem));
    let message = Message::read(writer.finish()).unwrap();
    assert_eq!((message.authorities().len(), message.additionals().len()), (2, 2));
    assert_eq!(message.additionals().last(), Some(tsig.as_record()));
}

fn sets(lines: &[&str]) -> Vec<RecordSet> {
    let records: Vec<RecordBuf> = lines.iter().map(|line| line.parse().unwrap()).collect();
    RecordSet::group(&records).unwrap()
}

/// A set is there whole or not at all, and only one that is required sets TC (RFC 2181, sections 5 and 9).
#[test]
fn sets_are_whole() {
    let sets = sets(&["a. 60 A 192.0.2.1", "a. 60 A 192.0.2.2", "a. 60 A 192.0.2.3"]);
    // The header, a. and three records, of which two have a pointer as their owner
    let len = 12 + 17 + 2 * 16;
    for need in [Need::Required, Need::Optional] {
        for max_size in 12..100 {
            let mut room = [0; 512];
            let mut writer = MessageWriter::new(&mut room, max_size, &Header::default()).unwrap();
            let written = writer.set(Section::Answers, need, &sets[0]).map(drop);
            let message = Message::read(writer.finish()).unwrap();
            let fits = max_size >= len;
            assert_eq!((written.is_ok(), message.answers().len()), (fits, if fits { 3 } else { 0 }), "{max_size}");
            assert_eq!(message.header().truncation, !fits && need == Need::Required, "{max_size}");
        }
    }
}

/// The names of NS, DNAME and a private type (RFC 3597, section 4).
#[test]
fn types_decide_how_their_names_are_written() {
    let write = |record: &RecordBuf| {
        let mut room = [0; 512];
        let mut writer = MessageWriter::new(&mut room, 512, &Header::default()).unwrap();
        writer.record(Section::Answers, record).unwrap();
        writer.finish()[25..].to_vec()
    };
    assert_eq!(write(&"A. 0 NS B.A.".parse().unwrap()), b"\x01B\xC0\x0C");
    assert_eq!(write(&"A. 0 DNAME B.A.".parse().unwrap()), b"\x01B\x01A\0");
    assert_eq!(write(&"A. 0 TYPE65280 \\# 5 0142014100".parse().unwrap()), b"\x01B\x01A\0");
}

/// A record is copied with the names that its message has, and compressed again.
#[test]
fn records_of_messages_are_copied() {
    let read = Message::read(REFERRAL).unwrap();
    let mut room = [0; 512];
    let mut writer = MessageWriter::new(&mut room, 512, &Header::default()).unwrap();
    for record in read.authorities().chain(read.additionals()) {
        writer.record(Section::Answers, record).unwrap();
    }
    let copy = Message::read(writer.finish()).unwrap();
    assert!(copy.answers().eq(read.authorities().chain(read.additionals())));
    assert_eq!(copy.octets().len(), 12 + 13 + 10 + 5 + 2 + 10 + 4);
    // Data that are not valid
    let cut = Record::read(b"\0\0\x01\0\x01\0\0\0\0\0\x03\xC0\0\x02", 0).unwrap();
    let mut room = [0; 512];
    let mut writer = MessageWriter::new(&mut room, 512, &Header::default()).unwrap();
    assert_eq!(writer.record(Section::Answers, cut).map(drop).unwrap_err().kind(), ErrorKind::MessageCut);
    assert_eq!(writer.finish(), [0; 12]);
}

/// What a request says decides how its reply begins (RFC 6891, sections 6.1 and 7; RFC 9619).
#[test]
fn replies_are_begun() {
    let query = MessageBuilder::query(7, &name("a."), RecordType::NS).edns(&Edns::new(1232)).finish(512).unwrap();
    let mut header = Header::default();
    (header.authoritative, header.recursion_available) = (true, true);
    header.response_code = ResponseCode::NXDomain;
    let mut room = [0; 512];
    let (mut reply, edns) = MessageWriter::reply_to(&mut room, 30, &query, &header).unwrap();
    assert_eq!((reply.response_code(), edns), (ResponseCode::NXDomain, Some(Edns::new(1232))));
    // The octets of OPT are held back.
    assert!(reply.data(Section::Answers, &name("a."), 0, Ipv4Addr::LOCALHOST).is_err());
    reply.edns(&Edns::new(512)).unwrap();
    assert_eq!(reply.octets(), b"\0\x07\x85\x83\0\x01\0\0\0\0\0\x01\x01a\0\0\x02\0\x01\0\0\x29\x02\0\0\0\0\0\0\0");
    let begin = |request: &[u8]| {
        let mut room = [0; 512];
        let (mut reply, edns) = MessageWriter::reply_to(&mut room, 512, request, &Header::default())?;
        if edns.is_some() {
            reply.edns(&Edns::new(512))?;
        }
        let message = Message::read(reply.finish())?;
        Ok::<_, Error>((message.response_code()?, message.questions().len(), edns.is_some()))
    };
    let mut later = query.clone();
    later[25] = 1;
    assert_eq!(begin(&query), Ok((ResponseCode::NoError, 1, true)));
    assert_eq!(begin(&later), Ok((ResponseCode::BADVERS, 1, true)));
    let mut two = MessageBuilder::query(7, &name("a."), RecordType::NS);
    let two = two.question(&name("b."), RecordType::NS, Class::IN).finish(512).unwrap();
    assert_eq!(begin(&two), Ok((ResponseCode::FormErr, 0, false)));
    assert_eq!(begin(&query[..20]), Ok((ResponseCode::FormErr, 0, false)));
    assert_eq!(begin(&query[..11]).unwrap_err().kind(), ErrorKind::BadItem);
    let mut response = query;
    response[2] |= 0x80;
    assert_eq!(begin(&response).unwrap_err().kind(), ErrorKind::BadItem);
    let message = Message::read(&response).unwrap();
    assert_eq!(MessageBuilder::reply_to(&message).finish(512).unwrap_err().kind(), ErrorKind::BadItem);
}

/// Padding fills the message to a multiple of the block if there is room (RFC 7830; RFC 8467).
#[test]
fn queries_say_what_they_ask_and_what_they_accept() {
    let (name, mut room): (Name, _) = ("www.example.com.".parse().unwrap(), [0; 512]);
    let query = MessageWriter::query(&mut room, 512, 0x1234, &name, RecordType::A, Some(1232)).unwrap();
    let mut built = MessageBuilder::query(0x1234, &name, RecordType::A);
    assert_eq!(query.finish(), built.edns(&Edns::new(1232)).finish(512).unwrap());
    let query = MessageWriter::query(&mut room, 512, 0x1234, &name, RecordType::A, None).unwrap();
    assert_eq!(query.finish(), MessageBuilder::query(0x1234, &name, RecordType::A).finish(512).unwrap());
    let query = MessageWriter::query(&mut room, 512, 0x1234, &name, RecordType::A, Some(0)).unwrap();
    assert_eq!(Message::read(query.finish()).unwrap().edns().unwrap().unwrap().max_payload, 512);
    let error = MessageWriter::query(&mut room, 43, 0x1234, &name, RecordType::A, Some(1232)).map(drop).unwrap_err();
    assert_eq!(error.kind(), ErrorKind::MessageTooLong);
}

#[test]
fn messages_are_padded() {
    for (max_size, block, len) in [(512, 128, 128), (512, 1, 27), (127, 128, 23), (26, 128, 23), (512, 0, 23)] {
        let mut room = [0; 512];
        let mut writer = MessageWriter::new(&mut room, max_size, &Header::default()).unwrap();
        writer.padded_edns(&Edns::new(1232), block).unwrap();
        let message = Message::read(writer.finish()).unwrap();
        assert_eq!(message.octets().len(), len, "{max_size} {block}");
        let edns = message.edns().unwrap().unwrap();
        assert!(edns.options().all(|(code, octets)| code == 12 && octets.iter().all(|octet| *octet == 0)));
    }
    let options = Pairs::to_wire([(10, [7; 8])]).unwrap();
    let mut room = [0; 512];
    let mut writer = MessageWriter::new(&mut room, 512, &Header::default()).unwrap();
    writer.padded_edns(&Edns::new(1232).with_options(Pairs::from_wire(&options).unwrap()), 64).unwrap();
    assert_eq!(writer.octets().len(), 64);
}

/// The octets that are held back are there for what comes last.
#[test]
fn octets_are_held_back() {
    let tsig: RecordBuf = "a. 0 ANY TSIG \\# 19 00 00005F0F9043 012C 0002 491B DCC6 0000 0000".parse().unwrap();
    let held = tsig.as_wire().len();
    let mut room = [0; 512];
    let mut writer = MessageWriter::new(&mut room, 12 + held + 30, &Header::default()).unwrap();
    writer.hold(held);
    let mut count = 0;
    while writer.data(Section::Answers, &Name::root(), 0, Ipv4Addr::LOCALHOST).is_ok() {
        count += 1;
    }
    writer.last(held, &tsig).unwrap();
    let message = Message::read(writer.finish()).unwrap();
    assert_eq!((count, message.answers().len(), message.additionals().len()), (2, 2, 1));
}

/// The error of a record has the offset of its start; that of its data has the offset of the name in them, or of their
/// end.
#[test]
fn each_fault_of_a_record_is_its_error() {
    fn fault<T>(read: Result<T, Error>) -> Option<(ErrorKind, usize)> {
        read.err().map(|error| (error.kind(), error.offset().unwrap()))
    }
    let cut = |offset| Some((ErrorKind::MessageCut, offset));
    assert_eq!(fault(Record::read(REFERRAL, 66)), cut(66));
    assert_eq!(fault(Record::read(&REFERRAL[..65], 50)), cut(50));
    assert_eq!(fault(Record::read(REFERRAL, usize::MAX)), cut(usize::MAX));
    assert_eq!(fault(Record::read(REFERRAL, 2)), Some((ErrorKind::ReservedOctet, 2)));
    let mx = b"\0\0\x0F\0\x01\0\0\0\0\0\x04\0\x0A\x01a";
    assert_eq!(fault(Record::read(mx, 0).unwrap().data_name_after(2)), cut(13));
    let mx = b"\0\0\x0F\0\x01\0\0\0\0\0\x03\0\x0A\0";
    let record = Record::read(mx, 0).unwrap();
    assert_eq!(record.data_name_after(2), Ok(Name::root()));
    assert_eq!(fault(record.data_name()), Some((ErrorKind::WrongDataLength, 11)));
    assert_eq!(fault(record.data_name_after(4)), cut(14));
    let read: Vec<_> =
        records(&REFERRAL[..65], 33).map(|record| (record.as_ref().ok().map(Record::end), fault(record))).collect();
    assert_eq!(read, [(Some(50), None), (None, cut(50))]);
}

#[test]
fn reverse_names_go_and_come_back() {
    let v4: IpAddr = Ipv4Addr::new(192, 0, 2, 1).into();
    let v6: IpAddr = Ipv6Addr::new(0x4321, 0, 1, 2, 3, 4, 0x567, 0x89AB).into();
    let v6_text = "b.a.9.8.7.6.5.0.4.0.0.0.3.0.0.0.2.0.0.0.1.0.0.0.0.0.0.0.1.2.3.4.ip6.arpa.";
    assert_eq!((Name::from(v4), Name::from(v6)), (name("1.2.0.192.in-addr.arpa."), name(v6_text)));
    assert_eq!((Name::from(v4).parse_arpa_name(), Name::from(v6).parse_arpa_name()), (Ok((v4, 32)), Ok((v6, 128))));
    assert_eq!(
        name("4.3.2.1.IP6.ARPA.").parse_arpa_name(),
        Ok((Ipv6Addr::new(0x1234, 0, 0, 0, 0, 0, 0, 0).into(), 16))
    );
    for text in ["1.2.0.192.in-addr.arpa", "arpa.", "256.in-addr.arpa.", "g.ip6.arpa.", "1.2.3.4.5.in-addr.arpa.", "."]
    {
        assert_eq!(name(text).parse_arpa_name().unwrap_err().kind(), ErrorKind::NotReverse, "{text}");
    }
}
