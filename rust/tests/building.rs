//! Messages and records that are built. Expected octets are what dnspython 2.3.0 writes for the same, or are worked out
//! by hand from RFC 1035, sections 4.1 and 5.1, RFC 6891, section 6.1, and RFC 2181, section 9.
use dns_names_wire::rdata::{AMTRELAY, CSYNC, L32, L64, MX, NID, SOA, SRV, TSIG};
use dns_names_wire::{
    Class, Edns, Error, ErrorKind, Header, Message, MessageBuilder, MessageWriter, Name, Need, OpCode, Pairs, RData,
    Record, RecordBuf, RecordSet, RecordType, ResponseCode, Section, Texts, Transfer, TypeSet,
};
use std::net::{IpAddr, Ipv4Addr, Ipv6Addr};
use std::slice::from_ref;

const QUERY: &str = "12340100000100000000000103777777076578616d706c6503636f6d000001000100002904d0000000000000";
const REPLY: &str = "\
    12348500000100050002000203777777076578616d706c6503636f6d0000010001c00c000500010000012c000603776562c010c02d00\
    0100010000003c0004c0000201c02d001c00010000003c001020010db8000000000000000000000001c010000f00010000003c000900\
    0a046d61696cc010c010001000010000003c000d0b763d73706631202d616c6c00c0100006000100000e100026026e73c0100a686f73\
    746d6173746572c01078a3f17500001c2000000e100012750000000e10c0100002000100000e100002c099c0990001000100000e1000\
    04c000023500002904d0000000000000";

fn octets(hex: &str) -> Vec<u8> {
    let digits: Vec<char> = hex.chars().filter(|c| !c.is_whitespace()).collect();
    digits.chunks(2).map(|two| u8::from_str_radix(&String::from_iter(two), 16).unwrap()).collect()
}

fn name(text: &str) -> Name {
    text.parse().unwrap()
}

fn record(line: &str) -> RecordBuf {
    line.parse().unwrap_or_else(|error| panic!("{line}: {error}"))
}

fn query() -> Vec<u8> {
    MessageBuilder::query(0x1234, &name("www.example.com."), RecordType::A).edns(&Edns::new(1232)).finish(512).unwrap()
}

/// Adds the records of the reply, starting with the last section.
fn fill(reply: &mut MessageBuilder) -> Result<(), Error> {
    let names = ["example.com.", "www.example.com.", "web.example.com.", "mail.example.com.", "ns.example.com."];
    let [zone, www, web, mail, ns] = names.map(name);
    let hostmaster = name("hostmaster.example.com.");
    let texts = Texts::to_wire(["v=spf1 -all", ""])?;
    let (serial, refresh, retry, expire, minimum) = (2_024_010_101, 7200, 3600, 1_209_600, 3600);
    let soa = SOA { mname: (&ns).into(), rname: (&hostmaster).into(), serial, refresh, retry, expire, minimum };
    reply
        .authoritative(true)
        .additional(&ns, 3600, Ipv4Addr::new(192, 0, 2, 53))?
        .authority(&zone, 3600, soa)?
        .answer(&www, 300, RData::CNAME((&web).into()))?
        .answer(&web, 60, Ipv4Addr::new(192, 0, 2, 1))?
        .answer(&web, 60, IpAddr::from(Ipv6Addr::new(0x2001, 0xdb8, 0, 0, 0, 0, 0, 1)))?
        .authority(&zone, 3600, RData::NS((&ns).into()))?
        .answer(&zone, 60, MX { preference: 10, exchange: (&mail).into() })?
        .answer(&zone, 60, RData::TXT(Texts::from_wire(&texts)?))?;
    Ok(())
}

#[test]
fn a_query_and_its_reply_are_written() {
    assert_eq!(query(), octets(QUERY));
    let octets_of_query = query();
    let request = Message::read(&octets_of_query).unwrap();
    let mut reply = MessageBuilder::reply_to(&request);
    fill(&mut reply).unwrap();
    let whole = reply.finish(u16::MAX).unwrap();
    assert_eq!(whole, octets(REPLY));
    let read = Message::read(&whole).unwrap();
    assert!(read.is_reply_to(&request) && !request.is_reply_to(&request));
    assert_eq!(read.to_wire(u16::MAX), Ok(whole.clone()));
    assert_eq!((read.answers().len(), read.authorities().len(), read.additionals().len()), (5, 2, 2));
    let other = MessageBuilder::query(0x1235, &name("www.example.com."), RecordType::A).finish(512).unwrap();
    assert!(!read.is_reply_to(&Message::read(&other).unwrap()));
    let other = MessageBuilder::query(0x1234, &name("www.example.com."), RecordType::AAAA).finish(512).unwrap();
    assert!(!read.is_reply_to(&Message::read(&other).unwrap()));
    let mut other = MessageBuilder::query(0x1234, &name("www.example.com."), RecordType::A);
    other.header_mut().op_code = OpCode::Notify;
    assert!(!read.is_reply_to(&Message::read(&other.finish(512).unwrap()).unwrap()));
    let upper = MessageBuilder::query(0x1234, &name("WWW.example.com."), RecordType::A).finish(512).unwrap();
    assert!(read.is_reply_to(&Message::read(&upper).unwrap()));
}

/// With fewer octets, fewer sets of records fit. TC is set if one of the Answer section is left out, or the SOA; the NS are
/// not required beside an answer. The question and OPT always fit.
#[test]
fn a_reply_has_no_more_than_the_size() {
    let octets_of_query = query();
    let mut reply = MessageBuilder::reply_to(&Message::read(&octets_of_query).unwrap());
    fill(&mut reply).unwrap();
    let whole = reply.finish(u16::MAX).unwrap();
    let all = Message::read(&whole).unwrap();
    let (mut message, mut before) = (Vec::new(), usize::MAX);
    for size in (44..=whole.len() as u16).rev() {
        let is_cut = reply.finish_into(size, &mut message).unwrap();
        assert!(message.len() <= size.into());
        let read = Message::read(&message).unwrap();
        let (answers, authorities) = (read.answers().len(), read.authorities().len());
        let lacks_one = answers < 5 || authorities < 1;
        assert_eq!((is_cut, read.header().truncation), (lacks_one, lacks_one), "{size}");
        assert!(read.answers().eq(all.answers().take(answers)), "{size}");
        assert!(read.authorities().eq(all.authorities().take(authorities)), "{size}");
        assert!(answers <= before, "{size}");
        before = answers;
        assert_eq!(read.questions().len(), 1);
        assert_eq!(read.edns().unwrap().map(|edns| edns.max_payload), Some(1232));
        assert_eq!(read.additionals().last().map(|record| record.record_type()), Some(RecordType::OPT));
        let copy = all.to_wire(size).unwrap();
        let copy = Message::read(&copy).unwrap();
        assert!(copy.octets().len() <= size.into() && copy.questions().eq(all.questions()), "{size}");
    }
    // The address of ns.example.com. is not required, so TC is not set without it.
    let without = whole.len() as u16 - 1;
    assert!(!reply.finish_into(without, &mut message).unwrap());
    assert_eq!(Message::read(&message).unwrap().additionals().len(), 1);
    for size in 12..44 {
        let error = reply.finish(size).unwrap_err();
        assert_eq!(error.to_string(), "the message would be longer than its maximum", "{size}");
    }
    assert_eq!(MessageBuilder::new(Header::default()).finish(11).unwrap_err().kind(), ErrorKind::MessageTooLong);
    assert_eq!(MessageBuilder::new(Header::default()).finish(12).unwrap(), [0; 12]);
}

/// A response to a question for this type.
fn response(owner: &str, record_type: RecordType) -> MessageBuilder {
    let mut message = MessageBuilder::query(7, &name(owner), record_type);
    message.header_mut().is_response = true;
    message
}

/// What is required by default, and otherwise (RFC 2181, section 9; RFC 9471).
#[test]
fn what_is_required_decides_on_tc() {
    let (soa, address) = (record("a. 60 SOA a. a. 1 2 3 4 5"), record("a. 60 A 192.0.2.1"));
    let is_cut = |add: &dyn Fn(&mut MessageBuilder)| {
        let mut message = response("a.", RecordType::A);
        add(&mut message);
        let written = message.finish(19 + 16).unwrap();
        Message::read(&written).unwrap().header().truncation
    };
    assert!(is_cut(&|it| {
        it.authorities([&soa]);
    }));
    assert!(is_cut(&|it| {
        it.authorities([&soa]).answers([&address]);
    }));
    assert!(!is_cut(&|it| {
        it.additionals([&soa]);
    }));
    assert!(is_cut(&|it| {
        it.answers([&soa]);
    }));
    for (need, cut) in [(Need::Required, true), (Need::Optional, false)] {
        for section in [Section::Answers, Section::Authorities, Section::Additionals] {
            assert_eq!(
                is_cut(&|it| {
                    it.records(section, need, [&soa]);
                }),
                cut,
                "{section}"
            );
            assert_eq!(
                is_cut(&|it| {
                    it.answers([&address]).records(section, need, [&soa]);
                }),
                cut,
                "{section}"
            );
        }
        for section in [Section::Header, Section::Questions] {
            let mut message = MessageBuilder::new(Header::default());
            let error = message.records(section, need, [&soa]).finish(512).unwrap_err();
            assert_eq!(error.kind(), ErrorKind::BadItem);
        }
    }
}

/// A message that is cut says so by TC exactly if it lacks what the RFCs require. Written again, it is the same.
#[test]
fn what_is_left_out_is_not_missing() {
    const SIGNATURE: &str = "8 2 60 20300101000000 20200101000000 1 a. AAAA";
    let signed = |owner: &str, covered: &str| record(&format!("{owner} 60 RRSIG {covered} {SIGNATURE}"));
    let (soa, ns) = (record("a. 60 SOA a. a. 1 2 3 4 5"), record("a. 60 NS ns.a."));
    let (address, glue) = (record("b.a. 60 A 192.0.2.1"), record("NS.A. 60 AAAA 2001:db8::1"));
    let (nsec, alias) = (record("c.a. 60 NSEC d.a. A RRSIG NSEC"), record("b.a. 60 CNAME x.a."));
    let sections: [(&str, [&[RecordBuf]; 3], bool); 12] = [
        // A wildcard's answer has to have its proof (RFC 4035, sections 3.1.1 and 3.1.3.3).
        ("a wildcard", [from_ref(&address), &[nsec.clone(), signed("c.a.", "NSEC")], &[]], true),
        ("a proof", [from_ref(&address), &[signed("c.a.", "NSEC"), nsec], &[]], true),
        // The name that an alias stands for does not exist (RFC 2308, section 2.1).
        ("an alias", [from_ref(&alias), from_ref(&soa), &[]], true),
        ("no data", [&[], from_ref(&soa), &[]], true),
        // A referral needs its servers, and their addresses at the cut or below it, but no signatures of these (RFC 9471; RFC
        // 4035, section 3.1.1).
        ("a referral", [&[], from_ref(&ns), &[]], true),
        ("glue", [&[], from_ref(&ns), from_ref(&glue)], true),
        ("a signature of glue", [&[], from_ref(&ns), &[signed("ns.a.", "AAAA")]], false),
        // Beside data NS is extra information (RFC 2181, section 9).
        ("servers", [from_ref(&address), from_ref(&ns), from_ref(&glue)], false),
        // Servers that are there have to be signed (RFC 4035, section 3.1.1), so they go with their signatures.
        ("signed servers", [from_ref(&address), &[ns.clone(), signed("a.", "NS")], &[]], false),
        (
            "servers signed later",
            [from_ref(&address), &[ns.clone(), record("b. 60 NS ns.b."), signed("a.", "NS")], &[]],
            true,
        ),
        ("signed servers and others", [from_ref(&address), &[ns.clone(), signed("a.", "NS")], from_ref(&glue)], false),
        ("others", [from_ref(&address), &[], from_ref(&glue)], false),
    ];
    for (what, [answers, authorities, additionals], is_required) in sections {
        let mut message = response("b.a.", RecordType::A);
        message.answers(answers).authorities(authorities).additionals(additionals);
        let whole = message.finish(u16::MAX).unwrap();
        assert!(!Message::read(&whole).unwrap().header().truncation);
        let cut = message.finish(whole.len() as u16 - 1).unwrap();
        assert!(cut.len() < whole.len());
        assert_eq!(Message::read(&cut).unwrap().header().truncation, is_required, "{what}");
        for size in 12 + 9..whole.len() as u16 {
            assert_eq!(Message::read(&whole).unwrap().to_wire(size), message.finish(size), "{what} {size}");
        }
    }
}

/// Data that lead below a cut are no answer: the message refers to the cut, and needs its servers and their addresses (RFC
/// 6672, section 3.2; RFC 9471). Data of the zone of the servers are one.
#[test]
fn data_above_a_cut_are_no_answer() {
    let alias = record("a. 60 DNAME b.");
    for (owner, is_required) in [("b.", true), ("c.a.", true), ("a.", false), (".", false)] {
        let mut message = response("w.a.", RecordType::DNAME);
        let server = format!("ns.{}", owner.trim_start_matches('.'));
        message.answers([&alias]).authorities([record(&format!("{owner} 60 NS {server}"))]);
        message.additionals([record(&format!("{server} 60 A 192.0.2.1"))]);
        let whole = message.finish(u16::MAX).unwrap();
        assert!(!Message::read(&whole).unwrap().header().truncation);
        for size in whole.len() - 16..whole.len() {
            let cut = message.finish(size as u16).unwrap();
            assert_eq!(Message::read(&cut).unwrap().header().truncation, is_required, "{owner} {size}");
            assert_eq!(Message::read(&whole).unwrap().to_wire(size as u16).unwrap(), cut);
        }
    }
}

/// The records of a set may stand apart in their section, and differ in the case of their owners. If TC is clear, they are all
/// there, or none (RFC 2181, sections 5 and 9). A signature is never there without its set (RFC 4035, section 3.1.1).
#[test]
fn sets_that_stand_apart_are_whole() {
    const SIGNATURE: &str = "8 2 60 20300101000000 20200101000000 1 a. AAAA";
    let signature = format!("a.b. 60 RRSIG A {SIGNATURE}");
    let (a, other, more) = ("a.b. 60 A 192.0.2.1", "a.b. 60 AAAA 2001:db8::1", "A.b. 60 A 192.0.2.2");
    let orders: [&[&str]; 6] = [
        // Nothing of a set is missing if what is left out is there already.
        &[a, other, a],
        &[a, more, a],
        &[a, other, more],
        &[more, other, "c. 60 A 192.0.2.1", other, a],
        &[&signature, a],
        &[&signature, other, a],
    ];
    for lines in orders {
        let mut message = response("x.", RecordType::A);
        message.answers([record("x. 60 A 192.0.2.1")]).additionals(lines.iter().map(|line| record(line)));
        let whole = message.finish(u16::MAX).unwrap();
        for size in 35..=whole.len() as u16 {
            let cut = message.finish(size).unwrap();
            let read = Message::read(&cut).unwrap();
            assert_eq!(Message::read(&whole).unwrap().to_wire(size).unwrap(), cut);
            let there = read.additionals().len();
            let half = lines[..there].iter().any(|line| {
                let (own, signs) = (record(line), line.contains("RRSIG"));
                let kind = if signs { RecordType::A } else { own.record_type() };
                let missing = lines[there..].iter().filter(|line| !lines[..there].contains(line));
                let mut left = missing.map(|line| record(line));
                left.any(|left| left.record_type() == kind && left.as_record().owner() == own.as_record().owner())
            });
            assert_eq!(read.header().truncation, half, "{lines:?} {size}");
        }
    }
}

/// As many octets are held back for a SIG(0) as it is written with: its signer whole, also if it stands as a pointer (RFC
/// 3597, section 4). So no size fails if a smaller one does not.
#[test]
fn a_signer_is_held_back_for_whole() {
    let head = "0007 8000 0001 0001 0000 0001 03777777 01610000010001 c00c 0001 0001 0000003c 0004 c0000201";
    let signed = |len: &str, signer: &str| {
        octets(&format!("{head} 00 0018 00ff 00000000 {len} 0000 08 00 00000000 00000002 00000001 0007 {signer} 73"))
    };
    let (by_pointer, by_name) = (signed("0015", "c00c"), signed("001a", "03777777016100"));
    let least = by_name.len() - 16;
    for size in 0..by_name.len() + 5 {
        match Message::read(&by_pointer).unwrap().to_wire(size as u16) {
            Ok(written) => {
                assert!(size >= least && written.len() <= size);
                assert_eq!(written.len(), if size < by_name.len() { least } else { by_name.len() });
                assert_eq!(Message::read(&written).unwrap().header().truncation, size < by_name.len());
            }
            Err(error) => assert!(size < least && error.kind() == ErrorKind::MessageTooLong, "{size}"),
        }
    }
}

/// The sections of an UPDATE have titles of their own, as dig and nsupdate print them (RFC 2136, section 2).
#[test]
fn an_update_has_its_titles() {
    let mut header = Header::default();
    (header.id, header.op_code) = (7, OpCode::Update);
    let mut update = MessageBuilder::new(header);
    update.question(&name("example."), RecordType::SOA, Class::IN);
    update.answers([record("a.example. 0 NONE ANY \\# 0")]).authorities([record("b.example. 60 A 192.0.2.1")]);
    let octets = update.finish(512).unwrap();
    let lines = "\
;; ->>HEADER<<- opcode: UPDATE, status: NOERROR, id: 7
;; flags:; QUERY: 1, ANSWER: 1, AUTHORITY: 1, ADDITIONAL: 0

;; ZONE SECTION:
;example.\tIN\tSOA

;; PREREQUISITE SECTION:
a.example. 0 NONE ANY

;; UPDATE SECTION:
b.example. 60 IN A 192.0.2.1";
    assert_eq!(Message::read(&octets).unwrap().to_string(), lines);
}

/// A request is whole or fails: half an UPDATE is another UPDATE (RFC 2136, section 3.4.2). So is a transfer.
#[test]
fn a_request_is_never_cut() {
    let added: Vec<RecordBuf> = (0..30).map(|i| record(&format!("host-{i}.example. 60 A 192.0.2.{i}"))).collect();
    let used = record("a.example. 0 ANY ANY \\# 0");
    let mut update = MessageBuilder::query(7, &name("example."), RecordType::SOA);
    update.header_mut().op_code = OpCode::Update;
    update.answers([&used]).authorities(&added);
    let mut transfer = response("example.", RecordType::AXFR);
    transfer.answers(&added);
    for message in [update, transfer] {
        let whole = message.finish(u16::MAX).unwrap();
        for size in [12, 29, 100, 512, whole.len() as u16 - 1] {
            assert_eq!(message.finish(size).unwrap_err().kind(), ErrorKind::MessageTooLong, "{size}");
            let error = Message::read(&whole).unwrap().to_wire(size).unwrap_err();
            assert_eq!(error.kind(), ErrorKind::MessageTooLong, "{size}");
        }
        assert_eq!(Message::read(&whole).unwrap().to_wire(whole.len() as u16).unwrap(), whole);
    }
}

/// A set is written whole or not at all, and a later one of the section is not written without it.
#[test]
fn sets_are_whole() {
    let lines = ["a. 60 A 192.0.2.1", "a. 60 A 192.0.2.2", "a. 60 NS a."];
    let records = lines.map(record);
    for size in 19..100 {
        let written = response("a.", RecordType::A).answers(&records).finish(size).unwrap();
        let message = Message::read(&written).unwrap();
        let wanted = if size < 19 + 32 {
            0
        } else if size < 19 + 32 + 14 {
            2
        } else {
            3
        };
        assert_eq!((message.answers().len(), message.header().truncation), (wanted, wanted < 3), "{size}");
    }
    let sets = RecordSet::group(&records).unwrap();
    let mut message = MessageBuilder::query(7, &name("a."), RecordType::A);
    for set in &sets {
        message.set(Section::Answers, Need::Required, set);
    }
    let written = message.finish(512).unwrap();
    assert!(Message::read(&written).unwrap().answers().eq(records.iter().map(RecordBuf::as_record)));
}

/// Signatures come last wherever they stand, and a message has one at most (RFC 8945, section 5.1; RFC 2931, section 3). A SIG
/// that covers a type is a record like others.
#[test]
fn signatures_come_last() {
    let tsig = record("key. 0 ANY TSIG \\# 19 00 00005F0F9043 012C 0002 491B DCC6 0000 0000");
    let sig = |covered| record(&format!(". 0 ANY SIG \\# 20 {covered} 08 00 00000000 00000002 00000001 0007 00 73"));
    let (sig0, other, glue) = (sig("0000"), sig("0001"), record("a. 60 A 192.0.2.1"));
    for signature in [&tsig, &sig0] {
        for list in [[signature, &other, &glue], [&other, signature, &glue], [&other, &glue, signature]] {
            let written = response("a.", RecordType::A).additionals(list).edns(&Edns::new(1232)).finish(512).unwrap();
            let read = Message::read(&written).unwrap();
            let opt = read.additionals().nth(2).unwrap();
            assert_eq!(opt.record_type(), RecordType::OPT);
            let wanted = [other.as_record(), glue.as_record(), opt, signature.as_record()];
            assert!(read.additionals().eq(wanted));
        }
    }
    for two in [[&tsig, &tsig], [&tsig, &sig0], [&sig0, &tsig], [&sig0, &sig0]] {
        let written = response("a.", RecordType::A).additionals(two).finish(512);
        assert_eq!(written.unwrap_err().kind(), ErrorKind::BadItem);
    }
}

/// A response code above 15 needs EDNS, whatever the message (RFC 6891, section 6.1.3).
#[test]
fn long_codes_need_edns() {
    for code in [15, 16, 23, 4095, 4096].map(ResponseCode::from) {
        let mut message = MessageBuilder::new(Header::default());
        let plain = message.response_code(code).finish(512).map_err(|error| error.kind());
        let by_edns = message.edns(&Edns::new(1232)).finish(512).map_err(|error| error.kind());
        assert_eq!(plain.err(), if u16::from(code) > 15 { Some(ErrorKind::BadItem) } else { None });
        match by_edns {
            Ok(octets) => assert_eq!(Message::read(&octets).unwrap().response_code(), Ok(code)),
            Err(kind) => assert_eq!((u16::from(code), kind), (4096, ErrorKind::BadItem)),
        }
    }
}

/// The last record is after OPT, and there at every size that has room for what is never left out.
#[test]
fn the_last_record_is_last() {
    let tsig = record("a. 0 ANY TSIG \\# 19 00 00005F0F9043 012C 0002 491B DCC6 0000 0000");
    let least = 19 + 11 + tsig.as_wire().len() as u16;
    let mut message = response("a.", RecordType::A);
    message.additionals([&tsig]).edns(&Edns::new(1232)).answers([record("a. 60 A 192.0.2.1")]);
    for size in least..least + 40 {
        let written = message.finish(size).unwrap();
        let read = Message::read(&written).unwrap();
        let types: Vec<_> = read.additionals().map(|record| record.record_type()).collect();
        assert_eq!(types, [RecordType::OPT, RecordType::TSIG]);
        assert_eq!(read.additionals().last(), Some(tsig.as_record()));
        assert_eq!(read.header().truncation, read.answers().len() == 0);
    }
    assert_eq!(message.finish(least - 1).unwrap_err().kind(), ErrorKind::MessageTooLong);
}

/// Its owner is not compressed, so it has as many octets as are held back, and the message is padded to a block.
#[test]
fn the_last_record_is_as_long_as_what_is_held() {
    let tsig = record("key.a. 0 ANY TSIG \\# 19 00 00005F0F9043 012C 0002 491B DCC6 0000 0000");
    let held = tsig.as_wire().len();
    for block in [1, 32, 128, 468] {
        let mut room = [0; 1024];
        let mut writer = MessageWriter::new(&mut room, 1024, &Header::default()).unwrap();
        writer.question(&name("key.a."), RecordType::A, Class::IN).unwrap();
        writer.hold(held).padded_edns(&Edns::new(1232), block).unwrap();
        writer.last(held, &tsig).unwrap();
        assert_eq!(writer.finish().len() % usize::from(block), 0);
    }
}

/// A message is padded with the last record after its OPT record, whose names are whole.
#[test]
fn built_messages_are_padded() {
    let tsig = record("key.a. 0 ANY TSIG \\# 19 00 00005F0F9043 012C 0002 491B DCC6 0000 0000");
    for block in [1, 32, 128, 468, 512, 600] {
        let mut message = response("key.a.", RecordType::A);
        message.answers([record("key.a. 60 A 192.0.2.1")]).padded(block);
        let plain = message.finish(1300).unwrap().len();
        message.edns(&Edns::new(1232));
        let padded = message.finish(1300).unwrap();
        assert_eq!((plain, padded.len() % usize::from(block.min(512))), (12 + 11 + 16, 0));
        let signed = message.additionals([&tsig]).finish(1300).unwrap();
        assert_eq!(signed.len() % usize::from(block.min(512)), 0);
        assert_eq!(Message::read(&signed).unwrap().additionals().last(), Some(tsig.as_record()));
        // a message that was read is padded like one that is built, and once (RFC 7830, section 3)
        let bare = message.padded(0).finish(1300).unwrap();
        assert_eq!(Message::read(&bare).unwrap().to_padded_wire(1300, block).unwrap(), signed);
        assert_eq!(Message::read(&signed).unwrap().to_padded_wire(1300, 468).unwrap(), signed);
        message.padded(block);
        // no padding without room
        let least = plain + 11 + tsig.as_wire().len();
        assert_eq!(message.finish(least as u16).unwrap().len(), least);
    }
}

/// A reply has EDNS if its request has (RFC 6891, sections 6.1.1 and 7), and a code above 15 only with it.
#[test]
fn a_reply_has_edns_only_if_the_request_has() {
    let plain = MessageBuilder::query(7, &name("a."), RecordType::A).finish(512).unwrap();
    let by_edns = MessageBuilder::query(7, &name("a."), RecordType::A).edns(&Edns::new(512)).finish(512).unwrap();
    let mut two = MessageBuilder::query(7, &name("a."), RecordType::A);
    let two = two.question(&name("b."), RecordType::A, Class::IN).edns(&Edns::new(512)).finish(512).unwrap();
    let [plain, by_edns, two] = [&plain, &by_edns, &two].map(|octets| Message::read(octets).unwrap());
    for code in [15, 16, 23, 4095].map(ResponseCode::from) {
        let written = MessageBuilder::reply_to(&plain).response_code(code).edns(&Edns::new(1232)).finish(512);
        let mut header = Header::default();
        header.response_code = code;
        let mut room = [0; 512];
        let begun = MessageWriter::reply_to(&mut room, 512, plain.octets(), &header).map(drop);
        if u16::from(code) < 16 {
            let written = written.unwrap();
            assert_eq!(Message::read(&written).unwrap().edns(), Ok(None));
            assert_eq!((Message::read(&written).unwrap().response_code(), begun), (Ok(code), Ok(())));
        } else {
            assert_eq!(
                (written.unwrap_err().kind(), begun.unwrap_err().kind()),
                (ErrorKind::BadItem, ErrorKind::BadItem)
            );
        }
        let written = MessageBuilder::reply_to(&by_edns).response_code(code).finish(512).unwrap();
        assert_eq!(Message::read(&written).unwrap().response_code(), Ok(code));
    }
    // A refusal is whole without a record, and keeps its code. So are others that the server chooses.
    let address = record("a. 60 A 192.0.2.1");
    for code in (0..32).map(ResponseCode::from) {
        let mut reply = MessageBuilder::reply_to(&by_edns);
        let written = reply.response_code(code).answers([&address]).additionals([&address]).finish(512).unwrap();
        let read = Message::read(&written).unwrap();
        let is_bare = [ResponseCode::FormErr, ResponseCode::NotImp, ResponseCode::BADVERS].contains(&code);
        assert_eq!((read.answers().len(), read.additionals().len()), if is_bare { (0, 1) } else { (1, 2) }, "{code}");
        assert_eq!(read.response_code(), Ok(code));
    }
    let written =
        MessageBuilder::reply_to(&two).response_code(ResponseCode::Refused).answers([&address]).finish(512).unwrap();
    let read = Message::read(&written).unwrap();
    assert_eq!((read.response_code(), read.questions().len(), read.answers().len()), (Ok(ResponseCode::FormErr), 0, 0));
    assert_eq!(read.edns(), Ok(Some(Edns::new(1232))));
    assert!(read.is_reply_to(&plain));
}

/// What a request asks by EDNS decides what its reply says, whatever the server asks for: BADVERS for another version (RFC 6891,
/// section 6.1.3), without records, and DO as the request has it (RFC 3225, section 3).
#[test]
fn a_reply_says_what_its_request_asks() {
    let asks = |version, dnssec_ok| {
        let mut edns = Edns::new(1232);
        (edns.version, edns.dnssec_ok) = (version, dnssec_ok);
        MessageBuilder::query(7, &name("a."), RecordType::A).edns(&edns).finish(512).unwrap()
    };
    let (address, cookie) = (record("a. 60 A 192.0.2.1"), Pairs::to_wire([(10, [7; 8])]).unwrap());
    for (version, dnssec_ok) in [(0, false), (0, true), (1, false), (255, true)] {
        let request = asks(version, dnssec_ok);
        let mut own = Edns::new(4096).with_options(Pairs::from_wire(&cookie).unwrap());
        (own.version, own.dnssec_ok) = (7, !dnssec_ok);
        let mut reply = MessageBuilder::reply_to(&Message::read(&request).unwrap());
        reply.answers([&address]).response_code(ResponseCode::NXDomain).edns(&own);
        reply.header_mut().response_code = ResponseCode::NXDomain;
        let written = reply.finish(512).unwrap();
        (own.version, own.dnssec_ok) = (0, dnssec_ok);
        let (code, count) = if version == 0 { (ResponseCode::NXDomain, 1) } else { (ResponseCode::BADVERS, 0) };
        let read = Message::read(&written).unwrap();
        assert_eq!((read.response_code(), read.answers().len(), read.edns()), (Ok(code), count, Ok(Some(own))));
        // So does one that is written item by item, also if nobody writes its OPT record.
        let mut header = Header::default();
        header.response_code = ResponseCode::NXDomain;
        for asks in [true, false] {
            let mut room = [0; 512];
            let (mut writer, _) = MessageWriter::reply_to(&mut room, 512, &request, &header).unwrap();
            if asks {
                let mut other = own;
                (other.version, other.dnssec_ok) = (7, !dnssec_ok);
                writer.edns(&other).unwrap();
            }
            let read = Message::read(writer.finish()).unwrap();
            let mut bare = Edns::new(1232);
            bare.dnssec_ok = dnssec_ok;
            assert_eq!((read.response_code(), read.edns()), (Ok(code), Ok(Some(if asks { own } else { bare }))));
        }
    }
}

/// A reply that is written item by item has no OPT record if its request has none (RFC 6891, section 7), and one before its
/// signature if it has (RFC 8945, section 5.1).
#[test]
fn a_signature_is_after_what_a_reply_owes() {
    let tsig = record("key. 0 ANY TSIG \\# 19 00 00005F0F9043 012C 0002 491B DCC6 0000 0000");
    for has_edns in [false, true] {
        let mut query = MessageBuilder::query(7, &name("a."), RecordType::A);
        if has_edns {
            query.edns(&Edns::new(512));
        }
        let request = query.finish(512).unwrap();
        let mut room = [0; 512];
        let (mut writer, _) = MessageWriter::reply_to(&mut room, 512, &request, &Header::default()).unwrap();
        if !has_edns {
            assert_eq!(writer.edns(&Edns::new(4096)).unwrap().octets().len(), 19);
        }
        writer.last(0, &tsig).unwrap();
        let types: Vec<_> = Message::read(writer.finish()).unwrap().additionals().map(|it| it.record_type()).collect();
        assert_eq!(types, if has_edns { vec![RecordType::OPT, RecordType::TSIG] } else { vec![RecordType::TSIG] });
    }
}

/// A reply may lack the question if none was asked (RFC 7873, section 5.4), if it is to an UPDATE (RFC 2136, section 3.8), or if
/// its code says that the request was not read or taken.
#[test]
fn replies_may_lack_the_question() {
    let header = |is_response, op_code: u8, code: u16| {
        let mut header = Header::default();
        (header.id, header.is_response) = (7, is_response);
        (header.op_code, header.response_code) = (op_code.into(), code.into());
        header
    };
    let written = |header: Header, asked: Option<&str>| {
        let mut message = MessageBuilder::new(header);
        if let Some(owner) = asked {
            message.question(&name(owner), RecordType::SOA, Class::IN);
        }
        message.finish(512).unwrap()
    };
    let rows = [
        (0, 0, false),
        (0, 1, true),
        (0, 2, true),
        (0, 3, false),
        (0, 4, true),
        (0, 5, true),
        (0, 9, false),
        (5, 0, true),
    ];
    for (op_code, code, is_reply) in rows {
        let (asked, none_asked) =
            (written(header(false, op_code, 0), Some("a.")), written(header(false, op_code, 0), None));
        let request = Message::read(&asked).unwrap();
        for (owner, wanted) in [(None, is_reply), (Some("a."), true), (Some("b."), false)] {
            let reply = written(header(true, op_code, code), owner);
            assert_eq!(Message::read(&reply).unwrap().is_reply_to(&request), wanted, "{op_code} {code} {owner:?}");
        }
        let bare = written(header(true, op_code, code), None);
        assert!(Message::read(&bare).unwrap().is_reply_to(&Message::read(&none_asked).unwrap()));
    }
}

/// No message is shorter than its header, whoever begins it.
#[test]
fn a_maximum_below_the_header_is_too_small() {
    let request = MessageBuilder::query(7, &name("a."), RecordType::A).finish(512).unwrap();
    for size in 0..12 {
        let mut room = [0; 512];
        let header = Header::default();
        let begun = [
            MessageWriter::new(&mut room, size, &header).map(drop),
            MessageWriter::reply_to(&mut room, size, &request, &header).map(drop),
            MessageWriter::query(&mut room, size, 7, &name("a."), RecordType::A, None).map(drop),
        ];
        for result in begun {
            assert_eq!(result.unwrap_err().kind(), ErrorKind::MessageTooLong);
        }
        let short = MessageBuilder::new(header).finish(size as u16);
        assert_eq!(short.unwrap_err().kind(), ErrorKind::MessageTooLong);
    }
}

/// A transfer is split into messages that have all records in their order.
#[test]
fn a_transfer_is_split() {
    let soa = record("a. 60 SOA a. a. 1 2 3 4 5");
    let mut records = vec![soa.clone()];
    records.extend((0..3000).map(|i| record(&format!("host-{i}.a. 60 A 192.0.2.1"))));
    records.push(soa);
    let query = |edns: bool| {
        let mut query = MessageBuilder::query(7, &name("a."), RecordType::AXFR);
        if edns {
            query.edns(&Edns::new(1232));
        }
        query.finish(512).unwrap()
    };
    for (edns, size) in [(false, 65535), (true, 65535), (false, 512), (true, 512), (false, 100)] {
        let query = query(edns);
        let request = Message::read(&query).unwrap();
        let messages = Transfer::new(&request, &records).max_size(size).collect::<Result<Vec<_>, _>>().unwrap();
        let read: Vec<_> = messages.iter().map(|octets| Message::read(octets).unwrap()).collect();
        assert!(read.iter().flat_map(Message::answers).eq(records.iter().map(RecordBuf::as_record)));
        for (message, octets) in read.iter().zip(&messages) {
            assert!(message.is_reply_to(&request) && message.header().authoritative && octets.len() <= size.into());
            assert_eq!(message.edns().unwrap().is_some(), edns);
        }
    }
    let query = query(false);
    let mut short = Transfer::new(&Message::read(&query).unwrap(), &records).max_size(40);
    assert_eq!(short.next().unwrap().unwrap_err().kind(), ErrorKind::MessageTooLong);
    assert!(short.next().is_none());
}

#[test]
fn a_reply_has_what_its_request_says() {
    // id, RD, CD and NOTIFY; and EDNS with DO
    let mut asked = Header::default();
    asked.id = 0xABCD;
    asked.op_code = OpCode::Notify;
    (asked.recursion_desired, asked.checking_disabled, asked.authoritative) = (true, true, true);
    let mut edns = Edns::new(4096);
    edns.dnssec_ok = true;
    let mut request = MessageBuilder::new(asked);
    request.question(&name("a."), RecordType::SOA, Class::CH).edns(&edns);
    let request = request.finish(512).unwrap();
    let reply = MessageBuilder::reply_to(&Message::read(&request).unwrap()).finish(512).unwrap();
    assert_eq!(reply, octets("abcd a110 0001 0000 0000 0001 016100 0006 0003 00 0029 04d0 00008000 0000"));
    // A later version, and one OPT record too many
    let later = octets("0001 0000 0000 0000 0000 0001 00 0029 0200 00010000 0000");
    let two = octets("0001 0000 0000 0000 0000 0002 00 0029 0200 00000000 0000 00 0029 0200 00000000 0000");
    let reply = MessageBuilder::reply_to(&Message::read(&later).unwrap()).finish(512).unwrap();
    assert_eq!(reply, octets("0001 8000 0000 0000 0000 0001 00 0029 04d0 01000000 0000"));
    let reply = MessageBuilder::reply_to(&Message::read(&two).unwrap()).finish(512).unwrap();
    assert_eq!(reply, octets("0001 8001 0000 0000 0000 0000"));
}

#[test]
fn headers_and_edns_are_written() {
    let mut header = Header::default();
    (header.id, header.op_code, header.response_code) = (0xFFFF, OpCode::from(15), ResponseCode::from(4095));
    (header.is_response, header.authoritative, header.truncation, header.recursion_desired) = (true, true, true, true);
    (header.recursion_available, header.authentic_data, header.checking_disabled) = (true, true, true);
    (header.question_count, header.answer_count, header.authority_count, header.additional_count) = (9, 9, 9, 9);
    let message = MessageBuilder::new(header).edns(&Edns::new(1232)).finish(512).unwrap();
    // All but Z, and a response code of twelve bits, of which OPT has eight
    assert_eq!(message, octets("ffff ffbf 0000 0000 0000 0001 00 0029 04d0 ff000000 0000"));
    let options = Pairs::to_wire([(10, &b"12345678"[..]), (3, b"")]).unwrap();
    let mut edns = Edns::new(512).with_options(Pairs::from_wire(&options).unwrap());
    let mut message = MessageBuilder::new(Header::default());
    edns.version = 1;
    let written = message.edns(&Edns::new(4096)).edns(&edns).finish(512).unwrap();
    assert_eq!(Message::read(&written).unwrap().edns(), Ok(Some(edns)));
    message.header_mut().id = 7;
    assert_eq!((message.header().id, &message.finish(512).unwrap()[..2]), (7, &[0, 7][..]));
    // Options of 65536 octets, and of 65535
    for (len, most) in [(65532, 65535), (65531, 65535), (65508, 65534)] {
        let long = Pairs::to_wire([(3, vec![0; len])]).unwrap();
        message.edns(&Edns::new(512).with_options(Pairs::from_wire(&long).unwrap()));
        assert_eq!(message.finish(most).unwrap_err().kind(), ErrorKind::MessageTooLong);
    }
    let long = Pairs::to_wire([(3, vec![0; 65508])]).unwrap();
    message.edns(&Edns::new(512).with_options(Pairs::from_wire(&long).unwrap()));
    assert_eq!(message.finish(65535).unwrap().len(), 65535);
}

#[test]
fn what_fails_leaves_a_message_unchanged() {
    let (root, long) = (Name::root(), vec![0; 65536]);
    let mut message = MessageBuilder::new(Header::default());
    message.answer(&root, 0, Ipv4Addr::LOCALHOST).unwrap().additional(&root, 0, Ipv4Addr::LOCALHOST).unwrap();
    let before = message.finish(512).unwrap();
    let data = RData::Unknown { record_type: RecordType::from(65280), octets: &long };
    let text = "the data of a record, or a text in them, are too long";
    assert_eq!(message.answer(&root, 0, data.clone()).unwrap_err().to_string(), text);
    assert_eq!(message.authority(&root, 0, data.clone()).unwrap_err().kind(), ErrorKind::DataTooLong);
    assert_eq!(message.additional(&root, 0, data.clone()).unwrap_err().kind(), ErrorKind::DataTooLong);
    assert_eq!(RecordBuf::new(&root, 0, data).unwrap_err().number(), 39);
    assert_eq!(message.finish(512), Ok(before));
    // Octets that are not data of their type are found when the message is written.
    let wrong = RecordBuf::from_octets(&root, RecordType::A, Class::IN, 0, &[1, 2, 3]).unwrap();
    assert_eq!(message.clone().answers([&wrong]).finish(512).unwrap_err().kind(), ErrorKind::BadData);
}

/// More records than a section can count fit in no message: a response is cut, and a request is not written.
#[test]
fn a_section_counts_no_more_than_65535() {
    let record = RecordBuf::from_octets(&Name::root(), RecordType::from(65280), Class::IN, 0, b"").unwrap();
    let mut message = MessageBuilder::new(Header::default());
    message.answers(std::iter::repeat(&record).take(70_000)).edns(&Edns::new(512));
    assert_eq!(message.finish(u16::MAX).unwrap_err().kind(), ErrorKind::MessageTooLong);
    message.header_mut().is_response = true;
    let written = message.finish(u16::MAX).unwrap();
    let read = Message::read(&written).unwrap();
    assert_eq!((read.answers().len(), read.header().truncation, read.edns().unwrap().is_some()), (0, true, true));
}

const LINES: [(&str, &str); 10] = [
    ("a.example. 60 IN A 192.0.2.1", "0161076578616d706c6500000100010000003c0004c0000201"),
    ("a.example. 3600 CH TXT \"abc\" \"d e\"", "0161076578616d706c65000010000300000e1000080361626303642065"),
    (
        "a.example. 0 IN SRV 1 2 53 host.example.",
        "0161076578616d706c65000021000100000000001400010002003504686f7374076578616d706c6500",
    ),
    (
        "a.example. 1 IN CAA 128 issue \"ca.net\"",
        "0161076578616d706c65000101000100000001000d8005697373756563612e6e6574",
    ),
    (
        "a.example. 1 IN DS 60485 5 1 2bb183af5f22588179a53b0a98631fad1a292118",
        "0161076578616d706c6500002b0001000000010018ec4505012bb183af5f22588179a53b0a98631fad1a292118",
    ),
    ("a.example. 1 IN TYPE65280 \\# 3 010203", "0161076578616d706c6500ff000001000000010003010203"),
    (
        "a.example. 1 IN SOA ns.example. h.example. 1 2 3 4 5",
        "0161076578616d706c65000006000100000001002b026e73076578616d706c65000168076578616d706c650000000001000000020000\
        00030000000400000005",
    ),
    (
        "a.example. 1 IN NSEC b.example. A MX TYPE1234",
        "0161076578616d706c6500002f000100000001002c0162076578616d706c650000024001041b00000000000000000000000000000000\
        0000000000000000000020",
    ),
    (
        "a.example. 1 IN SSHFP 2 1 123456789abcdef67890123456789abcdef67890",
        "0161076578616d706c6500002c00010000000100160201123456789abcdef67890123456789abcdef67890",
    ),
    (
        "a.example. 1 IN RRSIG A 5 3 86400 20030322173103 20030220173103 2642 example. \
         oJB1W6WNGv+ldvQ3WDG0MQkg5IEhjRip8WTr",
        "0161076578616d706c6500002e000100000001003600010503000151803e7c9dd73e5510d70a52076578616d706c6500a090755ba58d\
        1affa576f4375831b4310920e481218d18a9f164eb",
    ),
];

#[test]
fn records_are_parsed_and_shown() {
    let zone = name("example.");
    for (line, hex) in LINES {
        let parsed = record(line);
        assert_eq!(parsed.as_wire(), octets(hex), "{line}");
        // Hexadecimal digits are printed in lower or upper case.
        assert_eq!(parsed.to_string().to_lowercase(), line.to_lowercase());
        assert_eq!(record(&parsed.to_string()), parsed);
        let again = RecordBuf::new(parsed.owner(), parsed.ttl(), parsed.data().unwrap()).unwrap();
        assert_eq!(again.with_class(parsed.class()), parsed);
        assert_eq!(Record::from(&parsed).raw_data(), parsed.raw_data());
        // Relative names, with the origin
        assert_eq!(RecordBuf::from_text(line.replace(".example.", ""), &zone).unwrap(), parsed, "{line}");
        let [owner, ttl, class, kind, text]: [&str; 5] = line.splitn(5, ' ').collect::<Vec<_>>().try_into().unwrap();
        let of_text = RecordBuf::from_data_text(&name(owner), ttl.parse().unwrap(), kind.parse().unwrap(), text, None);
        assert_eq!(of_text.unwrap().with_class(class.parse().unwrap()), parsed);
    }
    assert_eq!(record("a.example. IN 1m A 192.0.2.1"), record(LINES[0].0));
    assert_eq!(record("a.example. 60 A 192.0.2.1"), record(LINES[0].0));
    let at = RecordBuf::from_text("@ 1 NS @", &zone).unwrap();
    assert_eq!((at.owner() == zone, at.raw_data()), (true, zone.as_wire()));
    assert_eq!(record(LINES[0].0).with_ttl(u32::MAX).ttl(), u32::MAX);
    let (owner, host) = (name("a.example."), name("host.example."));
    let data = SRV { priority: 1, weight: 2, port: 53, target: (&host).into() };
    assert_eq!(RecordBuf::new(&owner, 0, data).unwrap(), record(LINES[2].0));
    assert_eq!(
        RecordBuf::new(&owner, 0, CSYNC { serial: 66, flags: 3, types: TypeSet::from([RecordType::A]) })
            .unwrap()
            .raw_data(),
        octets("00000042 0003 000140")
    );
}

/// RFC 1035, section 3.3: strings are binary.
#[test]
fn strings_of_any_octets() {
    for text in [&b"\"\xe9\" \x80"[..], b"\xe9 \x80", b"\"\\233\" \\128"] {
        let line = [b"a. 60 TXT ", text].concat();
        let whole = RecordBuf::from_text(&line, &Name::root()).unwrap();
        assert_eq!(whole.raw_data(), b"\x01\xe9\x01\x80");
        let of_text = RecordBuf::from_data_text(&name("a."), 60, RecordType::TXT, text, None);
        assert_eq!(of_text.unwrap(), whole);
    }
}

/// RFC 9460, section 8; and `*` is no type (RFC 1035, section 3.2.3).
#[test]
fn keys_that_are_mandatory() {
    assert_eq!(
        record("a. 1 SVCB 1 . mandatory=alpn alpn=h2").raw_data(),
        octets("0001 00 0000 0002 0001 0001 0003 026832")
    );
    for line in
        ["a. 1 SVCB 1 . mandatory=alpn", "a. 1 SVCB 1 . key0=\"\\000\\001\"", "a. 1 NSEC b. *", "a. 1 * A 192.0.2.1"]
    {
        assert!(line.parse::<RecordBuf>().is_err(), "{line}");
    }
    let wrong = record("a. 1 SVCB \\# 9 000100000000020001");
    assert_eq!(record(&wrong.to_string()), wrong);
}

#[test]
fn texts_that_are_no_records() {
    let (owner, time, data) = (ErrorKind::BadText, ErrorKind::BadTime, ErrorKind::BadData);
    for (line, kind, offset, sentence) in [
        ("", owner, 0, "wanted an owner"),
        ("a 1 IN A 192.0.2.1", owner, 0, "wanted an owner"),
        ("a. IN A 192.0.2.1", time, 3, "wanted a time to live"),
        ("a. 4294967296 IN A 192.0.2.1", time, 3, "wanted a time to live"),
        ("a. 1 IN NOTYPE 192.0.2.1", ErrorKind::UnknownText, 8, "wanted a record type"),
        ("a. 1 IN", ErrorKind::UnknownText, 7, "wanted a record type"),
        ("a. 1 IN A", data, 9, "wanted an IPv4 address (field 0)"),
        ("a. 1 IN A 192.0.2.1 1", data, 20, "wanted the end of the data (field 1)"),
        ("a. 1 IN MX 65536 a.", data, 11, "wanted a number of at most 65535 (field 0)"),
        ("a. 1 IN MX 1 a", data, 13, "wanted a name (field 1)"),
        ("a. 1 IN MX ( 1 ; a.\n a )", data, 21, "wanted a name (field 1)"),
        ("a. 1 IN TYPE65280 01", data, 18, "wanted the form of any data, which begins with \\# (field 0)"),
        ("a. 1 IN A ( 192.0.2.1", ErrorKind::UnclosedList, 10, "the text ends within parentheses"),
    ] {
        let error = line.parse::<RecordBuf>().unwrap_err();
        assert_eq!((error.kind(), error.offset()), (kind, Some(offset)), "{line}");
        assert_eq!(error.to_string(), format!("at offset {offset}: {sentence}"));
    }
    let error = RecordBuf::from_data_text(&Name::root(), 0, RecordType::A, "192.0.2", None).unwrap_err();
    assert_eq!((error.kind(), error.number()), (ErrorKind::BadData, 35));
    assert_eq!(error.to_string(), "at offset 0: wanted an IPv4 address (field 0)");
    // Data of 65535 octets, and of one more
    let generic = |len: usize| format!(". 1 IN TYPE65280 \\# {len} {}", "00".repeat(len));
    assert_eq!(record(&generic(65535)).raw_data().len(), 65535);
    let long = format!("{0}.{0}.{0}.{1}", "a".repeat(63), "b".repeat(61));
    assert_eq!(record(&(long + &generic(65535))).as_wire().len(), 255 + 10 + 65535);
    assert_eq!(generic(65536).parse::<RecordBuf>().unwrap_err().kind(), ErrorKind::BadData);
    let texts = |count: usize| format!(". 1 IN TXT{}", format!(" \"{}\"", "a".repeat(255)).repeat(count));
    assert_eq!(record(&texts(255)).raw_data().len(), 255 * 256);
    assert_eq!(texts(256).parse::<RecordBuf>().unwrap_err().kind(), ErrorKind::BadData);
}

/// A record of a message, with its names uncompressed.
#[test]
fn records_are_taken_from_messages() {
    let reply = octets(REPLY);
    let message = Message::read(&reply).unwrap();
    let taken: Vec<RecordBuf> = message.answers().map(|record| record.try_into().unwrap()).collect();
    assert_eq!(taken[0], record("www.example.com. 300 IN CNAME web.example.com."));
    assert_eq!(taken[3], record("example.com. 60 IN MX 10 mail.example.com."));
    let mut again = MessageBuilder::reply_to(&Message::read(&query()).unwrap());
    let others = |records: dns_names_wire::SectionRecords| -> Vec<RecordBuf> {
        records.filter(|it| it.record_type() != RecordType::OPT).map(|it| it.try_into().unwrap()).collect()
    };
    again
        .authoritative(true)
        .answers(&taken)
        .authorities(others(message.authorities()))
        .additionals(others(message.additionals()));
    assert_eq!(again.finish(u16::MAX), Ok(reply));
    let other = record("a. 9 CH TXT b");
    assert_eq!(RecordBuf::try_from(other.as_record()), Ok(other));
    let cut = Record::read(b"\0\0\x01\0\x01\0\0\0\0\0\x03\xC0\0\x02", 0).unwrap();
    assert_eq!(RecordBuf::try_from(cut).unwrap_err().kind(), ErrorKind::MessageCut);
}

#[test]
fn addresses_are_converted() {
    let (four, six) = (Ipv4Addr::new(192, 0, 2, 1), Ipv6Addr::LOCALHOST);
    for address in [IpAddr::from(four), six.into()] {
        let record = RecordBuf::new(&Name::root(), 0, address).unwrap();
        assert_eq!(IpAddr::try_from(record.data().unwrap()), Ok(address));
        assert_eq!(Ipv4Addr::try_from(record.data().unwrap()).ok(), if address.is_ipv4() { Some(four) } else { None });
        assert_eq!(Ipv6Addr::try_from(record.data().unwrap()).ok(), if address.is_ipv6() { Some(six) } else { None });
    }
    let other = record(". 1 TXT a");
    assert_eq!(IpAddr::try_from(other.data().unwrap()), Err(other.data().unwrap()));
}

/// The octets are those of `diff/lists/fields.txt`, by dnspython.
#[test]
fn data_of_more_types_have_their_octets() {
    let (algorithm, locators) = (name("hmac-sha256."), name("l64-subnet1.example.com."));
    let signature = TSIG {
        algorithm: (&algorithm).into(),
        time_signed: 1594855491,
        fudge: 300,
        mac: &[0x49, 0x1b],
        original_id: 56518,
        error: 0,
        other: b"",
    };
    for (data, wire) in [
        (RData::X25(b"311061700956"), "0c333131303631373030393536"),
        (RData::L32(L32 { preference: 10, locator: Ipv4Addr::new(10, 1, 2, 0) }), "000a0a010200"),
        (RData::NID(NID { preference: 10, node_id: 0x0014_4fff_ff20_ee64 }), "000a00144fffff20ee64"),
        (RData::L64(L64 { preference: 10, locator: 0x2001_0db8_1140_1000 }), "000a20010db811401000"),
        (
            RData::LP(MX { preference: 10, exchange: (&locators).into() }),
            "000a0b6c36342d7375626e657431076578616d706c6503636f6d00",
        ),
        (RData::AMTRELAY(AMTRELAY { precedence: 10, relay: &[1, 203, 0, 113, 15] }), "0a01cb00710f"),
        (RData::TSIG(signature.clone()), "0b686d61632d7368613235360000005f0f9043012c0002491bdcc600000000"),
    ] {
        assert_eq!(data.to_wire().unwrap(), octets(wire));
    }
    let late = TSIG { time_signed: 1 << 48, ..signature };
    assert_eq!(RData::TSIG(late).to_wire().unwrap_err().kind(), ErrorKind::DataTooLong);
}

#[test]
fn texts_have_comments_and_parentheses() {
    let record: RecordBuf = "a. 60 TXT ( \"v=DKIM1; k=rsa; \" ; the key\n \"p=ab\" )\n".parse().unwrap();
    assert_eq!(record.to_string(), "a. 60 IN TXT \"v=DKIM1; k=rsa; \" \"p=ab\"");
    for (text, kind) in [
        ("( b", ErrorKind::UnclosedList),
        ("b )", ErrorKind::IllegalCharacter),
        ("\"b", ErrorKind::UnclosedQuote),
        ("b\\", ErrorKind::TextCut),
        ("b\nb. 60 TXT c", ErrorKind::BadData),
    ] {
        assert_eq!(format!("a. 60 TXT {text}").parse::<RecordBuf>().unwrap_err().kind(), kind, "{text}");
    }
}
