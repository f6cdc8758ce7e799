//! Whole messages. Expected values are what dnspython 2.3.0 wrote the message from, or are worked out by hand from RFC
//! 1035, section 4.1, and RFC 6891, section 6.1.
use dns_names_wire::rdata::{CAA, DS, MX, NSEC3, RRSIG, SOA, SRV, SVCB, TLSA};
use dns_names_wire::{
    EdnsOption, EdnsOptionData, Error, ErrorKind, Field, Message, Name, NameRef, OpCode, Pairs, RData, Record,
    RecordType, ResponseCode, Section, Texts, TypeSet, ZoneVersion,
};

/// A response with thirteen records, each of another type, and an OPT record.
const RESPONSE: &str = "\
    123485a7000100090004000103777777076578616d706c6503636f6d0000010001c00c000500010000012c000603776562c010c02d00\
    0100010000003c0004c0000201c02d001c00010000003c001020010db8000000000000000000000001c010000f00010000003c000900\
    0a046d61696cc010c010001000010000003c000f0b763d73706631202d616c6c000162c010010100010000003c001580056973737565\
    63612e6578616d706c652e6e6574c010004100010000003c0010000100000100030268320003000220fbc010006c00010000003c0006\
    00005e00532ac010ff0000010000003c0003010203c0100006000100000e100026026e73c0100a686f73746d6173746572c01078a3f1\
    7500001c2000000e100012750000000e10c010002f000100000e1000340161076578616d706c6503636f6d000006400100000003041b\
    000000000000000000000000000000000000000000000000000020c010002e000100000e10003a00010803000151803e7c9dd73e5510\
    d70a52076578616d706c6503636f6d00a090755ba58d1affa576f4375831b4310920e481218d18a9f164eb203070396d686176657176\
    6d36743776626c356c6f703275337432727033746f6dc0100032000100000e1000270101000c04aabbccdd14174eb2409fe28bcb4887\
    a1836f957f0a8425e27b00072201000000029000002904d001008000000c000a00080102030405060708";

fn octets(hex: &str) -> Vec<u8> {
    let digits: Vec<char> = hex.chars().filter(|c| !c.is_whitespace()).collect();
    digits.chunks(2).map(|two| u8::from_str_radix(&String::from_iter(two), 16).unwrap()).collect()
}

fn fields<'a>(records: &[Record<'a>], record_type: RecordType) -> Vec<Field<'a>> {
    let record = records.iter().find(|record| record.record_type() == record_type).unwrap();
    record.fields().collect::<Result<_, Error>>().unwrap()
}

fn names(fields: &[Field]) -> Vec<String> {
    fields
        .iter()
        .filter_map(|field| if let Field::Name(name) = field { Some(name.to_string()) } else { None })
        .collect()
}

#[test]
fn a_response_is_read() {
    let response = octets(RESPONSE);
    let message = Message::read(&response).unwrap();
    let header = message.header();
    assert_eq!((header.id, header.op_code, header.response_code), (0x1234, OpCode::Query, ResponseCode::YXRRSet));
    assert_eq!((header.question_count, header.answer_count), (1, 9));
    assert_eq!((header.authority_count, header.additional_count), (4, 1));
    assert!(header.is_response && header.authoritative && header.recursion_desired && header.recursion_available);
    assert!(header.authentic_data && !header.truncation && !header.checking_disabled);
    let questions: Vec<String> = message.questions().map(|question| question.to_string()).collect();
    assert_eq!(questions, ["www.example.com.\tIN\tA"]);
    assert_eq!((message.answers().len(), message.authorities().len(), message.additionals().len()), (9, 4, 1));
    let owners: Vec<String> = message.answers().map(|record| record.owner().to_string()).collect();
    assert_eq!(owners[..3], ["www.example.com.", "web.example.com.", "web.example.com."]);
    assert!(owners[3..].iter().all(|owner| owner == "example.com."));
    assert!(message.answers().skip(1).all(|record| record.ttl() == 60));
    assert!(message.authorities().all(|record| record.ttl() == 3600));
    // two lines of the header; EDNS, nine answers and four authorities, each after an empty line and a title; one question
    // after a title alone, as `dig` has it after EDNS
    let text = message.to_string();
    assert_eq!(text.lines().count(), 2 + 4 + 2 + 11 + 6);
    assert_eq!(text.lines().nth(5), Some("; COOKIE: 0102030405060708"));
    assert_eq!((message.octets(), message.trailing().len()), (&response[..], 0));
    let edns = message.edns().unwrap().unwrap();
    assert_eq!((edns.max_payload, edns.version, edns.dnssec_ok), (1232, 0, true));
    assert!(edns.options().eq([(10, &[1, 2, 3, 4, 5, 6, 7, 8][..])]));
    assert_eq!(message.response_code(), Ok(ResponseCode::BADCOOKIE));
}

#[test]
fn fields_are_read() {
    let response = octets(RESPONSE);
    let message = Message::read(&response).unwrap();
    let records: Vec<Record> = message.answers().chain(message.authorities()).collect();
    assert_eq!(names(&fields(&records, RecordType::CNAME)), ["web.example.com."]);
    assert_eq!(fields(&records, RecordType::A), [Field::Ipv4([192, 0, 2, 1])]);
    let address = std::net::Ipv6Addr::new(0x2001, 0xdb8, 0, 0, 0, 0, 0, 1);
    assert_eq!(fields(&records, RecordType::AAAA), [Field::Ipv6(address.octets())]);
    let mx = fields(&records, RecordType::MX);
    assert_eq!((&mx[0], names(&mx)), (&Field::Number(10), vec!["mail.example.com.".to_string()]));
    match &fields(&records, RecordType::TXT)[..] {
        [Field::Texts(texts)] => assert!(texts.clone().eq([&b"v=spf1 -all"[..], b"", b"b"])),
        other => panic!("{other:?}"),
    }
    let caa = fields(&records, RecordType::CAA);
    assert_eq!(caa, [Field::Number(128), Field::Text(b"issue"), Field::Text(b"ca.example.net")]);
    match &fields(&records, RecordType::HTTPS)[..] {
        [Field::Number(1), Field::Name(target), Field::Params(params)] => {
            assert_eq!(target.to_string(), ".");
            assert!(params.clone().eq([(1, &b"\x02h2"[..]), (3, &[0x20, 0xFB])]));
        }
        other => panic!("{other:?}"),
    }
    assert_eq!(fields(&records, RecordType::from(108)), [Field::Number(0x5E00_532A)]);
    assert_eq!(fields(&records, RecordType::from(65280)), [Field::Octets(&[1, 2, 3])]);
    let soa = fields(&records, RecordType::SOA);
    assert_eq!(names(&soa), ["ns.example.com.", "hostmaster.example.com."]);
    assert_eq!(soa[2..], [2_024_010_101, 7200, 3600, 1_209_600, 3600].map(Field::Number));
    let nsec = fields(&records, RecordType::NSEC);
    let types = [RecordType::A, RecordType::MX, RecordType::RRSIG, RecordType::NSEC, RecordType::from(1234)];
    assert_eq!((names(&nsec), &nsec[1]), (vec!["a.example.com.".into()], &Field::Types(TypeSet::from(types))));
    let rrsig = fields(&records, RecordType::RRSIG);
    assert_eq!(rrsig[..3], [Field::Type(RecordType::A), Field::Number(8), Field::Number(3)]);
    assert_eq!(rrsig[4..7], [Field::Time(1_048_354_263), Field::Time(1_045_762_263), Field::Number(2642)]);
    assert_eq!((rrsig.len(), names(&rrsig)), (9, vec!["example.com.".to_string()]));
    let nsec3 = fields(&records, RecordType::NSEC3);
    assert_eq!(nsec3[2..4], [Field::Number(12), Field::Octets(&[0xAA, 0xBB, 0xCC, 0xDD])]);
    assert!(matches!(nsec3[4], Field::Octets(hash) if hash.len() == 20));
}

fn name(text: &str) -> Name {
    text.parse().unwrap()
}

/// The data by type, as they were written.
#[test]
fn data_are_read_by_type() {
    let response = octets(RESPONSE);
    let message = Message::read(&response).unwrap();
    let data: Vec<RData> =
        message.answers().chain(message.authorities()).map(|record| record.data().unwrap()).collect();
    let names = ["web.example.com.", "mail.example.com.", ".", "ns.example.com.", "hostmaster.example.com."].map(name);
    let [web, mail, root, ns, hostmaster] = [0, 1, 2, 3, 4].map(|i: usize| NameRef::from(&names[i]));
    assert_eq!(data[0], RData::CNAME(web));
    assert_eq!(data[1], std::net::Ipv4Addr::new(192, 0, 2, 1).into());
    assert_eq!(data[2], std::net::Ipv6Addr::new(0x2001, 0xdb8, 0, 0, 0, 0, 0, 1).into());
    assert_eq!(data[1].ip_addr(), Some(std::net::IpAddr::from([192, 0, 2, 1])));
    assert_eq!(data[3], RData::MX(MX { preference: 10, exchange: mail }));
    let texts = Texts::to_wire(["v=spf1 -all", "", "b"]).unwrap();
    assert_eq!(data[4], RData::TXT(Texts::from_wire(&texts).unwrap()));
    assert_eq!(data[5], RData::CAA(CAA { flags: 128, tag: b"issue", value: b"ca.example.net" }));
    let params = Pairs::to_wire([(1, &b"\x02h2"[..]), (3, &[0x20, 0xFB])]).unwrap();
    let params = Pairs::from_wire(&params).unwrap();
    assert_eq!(data[6], RData::HTTPS(SVCB { priority: 1, target: root, params }));
    assert_eq!(data[7], RData::EUI48([0, 0, 0x5E, 0, 0x53, 0x2A]));
    assert_eq!(data[8], RData::Unknown { record_type: RecordType::from(65280), octets: &[1, 2, 3] });
    let (serial, refresh, retry, expire, minimum) = (2_024_010_101, 7200, 3600, 1_209_600, 3600);
    assert_eq!(data[9], SOA { mname: ns, rname: hostmaster, serial, refresh, retry, expire, minimum }.into());
    match &data[10..] {
        [RData::NSEC(nsec), RData::RRSIG(signature), RData::NSEC3(hashed)] => {
            let RRSIG { type_covered, expiration, inception, key_tag, signer, .. } = signature;
            let NSEC3 { salt, next, .. } = hashed;
            assert_eq!((nsec.next.to_string().as_str(), nsec.types.len()), ("a.example.com.", 5));
            assert_eq!((*type_covered, *expiration, *inception), (RecordType::A, 1_048_354_263, 1_045_762_263));
            assert_eq!((*key_tag, signer.to_string().as_str()), (2642, "example.com."));
            assert_eq!((*salt, next.len()), (&[0xAA, 0xBB, 0xCC, 0xDD][..], 20));
        }
        other => panic!("{other:?}"),
    }
}

/// Data that were read and are written again have the same octets, without compression, and read back as the same.
#[test]
fn data_are_written_as_they_are_read() {
    let response = octets(RESPONSE);
    let message = Message::read(&response).unwrap();
    for record in message.answers().chain(message.authorities()) {
        let data = record.data().unwrap();
        let wire = data.to_wire().unwrap();
        assert_eq!(data.record_type(), record.record_type());
        let mut own = octets("00");
        own.extend(record.record_type().code().to_be_bytes());
        own.extend([0, 1, 0, 0, 0, 0]);
        own.extend((wire.len() as u16).to_be_bytes());
        own.extend(&wire);
        assert_eq!(Record::read(&own, 0).unwrap().data(), Ok(data));
    }
    let (host, long) = (name("a."), [0; 256]);
    let written = |data: RData| data.to_wire().map_err(Error::kind);
    let srv = SRV { priority: 1, weight: 2, port: 53, target: (&host).into() };
    assert_eq!(written(srv.into()), Ok(octets("0001 0002 0035 016100")));
    let ds = DS { key_tag: 60485, algorithm: 5, digest_type: 1, digest: &[0x2B, 0xB1] };
    assert_eq!(written(ds.into()), Ok(octets("ec45 05 01 2bb1")));
    let tlsa = TLSA { usage: 3, selector: 1, mtype: 1, cert: &[1] };
    assert_eq!(written(RData::SMIMEA(tlsa)), Ok(octets("03 01 01 01")));
    assert_eq!(written(CAA { flags: 0, tag: &long, value: b"" }.into()), Err(ErrorKind::DataTooLong));
    assert_eq!(Texts::to_wire([long]).unwrap_err().kind(), ErrorKind::DataTooLong);
}

#[test]
fn each_beginning_of_a_message_fails_at_its_item() {
    let response = octets(RESPONSE);
    let starts: Vec<usize> = {
        let message = Message::read(&response).unwrap();
        let records = message.answers().chain(message.authorities()).chain(message.additionals());
        [12, 33].into_iter().chain(records.map(|record| record.end())).collect()
    };
    for len in 0..response.len() {
        let error = Message::read(&response[..len]).unwrap_err();
        assert_eq!(error.kind(), ErrorKind::MessageCut);
        // Offset 12 begins the question, and offset 33 the first answer.
        let number = starts.iter().filter(|start| **start <= len).count();
        let wanted = match number {
            0 => (Section::Header, 0, 0),
            1 => (Section::Questions, 0, 12),
            2..=10 => (Section::Answers, number - 2, starts[number - 1]),
            11..=14 => (Section::Authorities, number - 11, starts[number - 1]),
            _ => (Section::Additionals, number - 15, starts[number - 1]),
        };
        let found = (error.section().unwrap(), error.item().unwrap().into(), error.offset().unwrap());
        assert_eq!(found, wanted, "{len}");
    }
}

#[test]
fn pointers_are_counted() {
    let response = octets(RESPONSE);
    // The owners of A and AAAA follow two pointers, the root none, and the others one each.
    assert!(Message::read_limited(&response, 15).is_ok());
    let error = Message::read_limited(&response, 14).unwrap_err();
    assert_eq!(
        (error.kind(), error.section(), error.item()),
        (ErrorKind::TooManyPointers, Some(Section::Authorities), Some(3))
    );
}

#[test]
fn edns_breaks_its_rules() {
    let opt = |owner: &str, data: &str| format!("{owner} 0029 0100 00000000 {:04x} {data}", data.len() / 2);
    let message =
        |records: &[String]| octets(&format!("0000 8000 0000 0000 0000 {:04x} {}", records.len(), records.concat()));
    let kind = |records: &[String]| Message::read(&message(records)).unwrap().edns().map(|_| ()).map_err(Error::kind);
    assert_eq!(kind(&[]), Ok(()));
    assert_eq!(kind(&[opt("00", "")]), Ok(()));
    assert_eq!(kind(&[opt("00", ""), opt("00", "")]), Err(ErrorKind::DuplicateEdns));
    // An OPT record in the Answer or Authority section.
    for counts in ["0001 0000 0000", "0000 0001 0000", "0001 0000 0001", "0000 0001 0001"] {
        let octets = octets(&format!("0000 8000 0000 {counts} {}", [opt("00", ""), opt("00", "")].concat()));
        let message = Message::read(&octets).unwrap();
        assert_eq!(message.edns().map(|_| ()).map_err(Error::kind), Err(ErrorKind::OutsideAdditionals));
        assert_eq!(message.response_code().unwrap_err().number(), 40);
        assert_eq!(message.to_wire(512).unwrap_err().kind(), ErrorKind::OutsideAdditionals);
    }
    assert_eq!(kind(&[opt("016100", "")]), Err(ErrorKind::OwnerNotRoot));
    assert_eq!(kind(&[opt("00", "00030001")]), Err(ErrorKind::CutOption));
    // A size below 512 counts as 512 (RFC 6891, section 6.2.3).
    let octets = message(&[opt("00", "")]);
    assert_eq!(Message::read(&octets).unwrap().edns().unwrap().unwrap().max_payload, 512);
}

#[test]
fn fields_that_are_none() {
    let read = |record_type: u16, data: &str| {
        let record = octets(&format!("00 {record_type:04x} 0001 00000000 {:04x} {data}", data.len() / 2));
        let read: Vec<_> =
            Record::read(&record, 0).unwrap().fields().map(|it| it.map(|_| ()).map_err(Error::kind)).collect();
        read
    };
    assert_eq!(read(1, "c00002"), [Err(ErrorKind::MessageCut)]);
    assert_eq!(read(1, "c000020100"), [Ok(()), Err(ErrorKind::WrongDataLength)]);
    assert_eq!(read(15, "000a40"), [Ok(()), Err(ErrorKind::ReservedOctet)]);
    assert_eq!(read(16, ""), [Err(ErrorKind::MessageCut)]);
    assert_eq!(read(47, "00 0000".replace(' ', "").as_str()), [Ok(()), Err(ErrorKind::BadBitmap)]);
    assert_eq!(
        read(64, "000100 00030000 00010000".replace(' ', "").as_str()),
        [Ok(()), Ok(()), Err(ErrorKind::BadParams)]
    );
    assert_eq!(read(0xFF00, ""), [Ok(())]);
    let name = NameRef::read(b"\x01a\0", 0).unwrap();
    assert_eq!(Field::Name(name), Field::Name(NameRef::read(b"\x01A\0", 0).unwrap()));
}

#[test]
fn a_record_is_a_line() {
    // . CH TXT, of 250 strings of 255 octets, each printed as four characters
    let data: Vec<u8> = [&[255][..], &[0; 255]].concat().repeat(250);
    let octets = [&b"\0\0\x10\0\x03\0\0\0\x09\xFA\0"[..], &data].concat();
    let line = format!(". 9 CH TXT {}", vec![format!("\"{}\"", "\\000".repeat(255)); 250].join(" "));
    assert_eq!(Record::read(&octets, 0).unwrap().to_string(), line);
    for (octets, line) in [
        (&b"\0\0\x0F\0\x01\0\0\0\0\0\x01\x05"[..], ". 0 IN MX \\# 1 05"),
        (b"\x02a \0\x00\x01\0\x01\0\0\0\0\0\x04\xC0\0\x02\x01", "a\\032. 0 IN A 192.0.2.1"),
        (b"\0\xFF\0\0\xFE\0\0\0\0\0\0", ". 0 NONE TYPE65280"),
    ] {
        assert_eq!(Record::read(octets, 0).unwrap().to_string(), line);
    }
}

#[test]
fn a_message_is_shown_with_edns_or_with_what_is_none() {
    let opt = b"\0\0\x29\x04\xD0\x01\0\x80\0\0\0";
    let head = b"\0\x07\x20\0\0\0\0\0\0\0\0";
    let one = [&head[..], &[1], opt].concat();
    let lines = |status, count| {
        format!(
            ";; ->>HEADER<<- opcode: NOTIFY, status: {status}, id: 7\n\
             ;; flags:; QUERY: 0, ANSWER: 0, AUTHORITY: 0, ADDITIONAL: {count}\n"
        )
    };
    assert_eq!(
        Message::read(&one).unwrap().to_string(),
        lines("BADVERS", 1) + "\n;; OPT PSEUDOSECTION:\n; EDNS: version: 0, flags: do; udp: 1232"
    );
    let options = b"\0\0\x29\x04\xD0\0\0\0\0\0\x15\0\x0F\0\x05\0\x06\xC3\xA9\x1B\0\x08\0\x04\0\0\0\0\xFF\xFF\0\0";
    assert_eq!(
        Message::read(&[&head[..], &[1], options].concat()).unwrap().to_string(),
        lines("NOERROR", 1)
            + "\n;; OPT PSEUDOSECTION:\n; EDNS: version: 0, flags:; udp: 1232\n"
            + "; EDE: 6 (DNSSEC Bogus): (\u{E9}.)\n; CLIENT-SUBNET: 0/0/0\n; OPT=65535:"
    );
    assert_eq!(EdnsOption { code: u16::MAX, octets: &[0; 65535] }.to_string().len(), 4 * 65535 + 15);
    let two = [&head[..], &[2], opt, opt].concat();
    let line = "\n. 16809984 CLASS1232 OPT \\# 0";
    assert_eq!(
        Message::read(&two).unwrap().to_string(),
        lines("NOERROR", 2)
            + "\n;; WARNING: EDNS breaks a rule: more than one EDNS record\n\n;; ADDITIONAL SECTION:"
            + line
            + line
    );
}

/// Random data, often with a fault: the data by type fail as the first wrong field does, or have the same octets as the
/// fields.
/// What each option says, both ways, at its limits; by the RFC of each.
#[test]
fn options_say() {
    let name: Name = "a.".parse().unwrap();
    let version = |labels, version_type, version| {
        EdnsOptionData::ZoneVersion(Some(ZoneVersion { labels, version_type, version }))
    };
    let subnet = |family, source, scope, address| EdnsOptionData::ClientSubnet { family, source, scope, address };
    let cookie = |server| EdnsOptionData::Cookie { client: *b"12345678", server };
    for (octets, data) in [
        (&b""[..], EdnsOptionData::Nsid(b"")),
        (b"ns1", EdnsOptionData::Nsid(b"ns1")),
        (b"\0\x01\x18\x10\xC0\0\x02", subnet(1, 24, 16, b"\xC0\0\x02")),
        (b"\0\x02\x01\x80\x80", subnet(2, 1, 128, b"\x80")),
        (b"", EdnsOptionData::Expire(None)),
        (b"\xFF\xFF\xFF\xFE", EdnsOptionData::Expire(Some(u32::MAX - 1))),
        (b"\0\0\0\0", EdnsOptionData::Expire(Some(0))),
        (b"12345678", cookie(b"")),
        (b"12345678abcdefgh", cookie(b"abcdefgh")),
        (b"", EdnsOptionData::TcpKeepalive(None)),
        (b"\xFF\xFE", EdnsOptionData::TcpKeepalive(Some(u16::MAX - 1))),
        (b"\0\0", EdnsOptionData::Padding(b"\0\0")),
        (b"", EdnsOptionData::Chain(None)),
        (b"\x01a\0", EdnsOptionData::Chain(Some(name.clone()))),
        (b"\xFF\xFE", EdnsOptionData::ExtendedError { code: u16::MAX - 1, text: "" }),
        (b"\0\x0F\xC3\xA9", EdnsOptionData::ExtendedError { code: 15, text: "\u{E9}" }),
        (b"\x01a\0", EdnsOptionData::ReportChannel(name)),
        (b"", EdnsOptionData::ZoneVersion(None)),
        (b"\x02\0abcd", version(2, 0, b"abcd")),
        (b"\xFF\xFF", version(255, 255, b"")),
        (b"ab", EdnsOptionData::Unknown { code: 65001, octets: b"ab" }),
    ] {
        assert_eq!(data.to_octets().unwrap(), octets, "{data:?}");
        assert_eq!(EdnsOption { code: data.code(), octets }.data().unwrap(), data);
    }
    for (data, kind) in [
        (subnet(1, 24, 0, b"\xC0"), ErrorKind::BadData),
        (subnet(1, 33, 0, &[0; 5]), ErrorKind::BadFamily),
        (subnet(1, 23, 0, b"\xC0\0\x03"), ErrorKind::BadFamily),
        (cookie(b"1234567"), ErrorKind::BadData),
        (version(1, 0, b"abc"), ErrorKind::BadData),
        (EdnsOptionData::Unknown { code: 9, octets: b"a" }, ErrorKind::BadData),
    ] {
        assert_eq!(data.to_octets().unwrap_err().kind(), kind, "{data:?}");
    }
    for (code, octets, kind) in [
        (9, &b"\0\0\0"[..], ErrorKind::BadData),
        (13, b"\x01a", ErrorKind::BadData),
        (15, b"\0\x01\xFF", ErrorKind::NotUtf8),
        (18, b"", ErrorKind::BadData),
    ] {
        assert_eq!(EdnsOption { code, octets }.data().unwrap_err().kind(), kind);
    }
}

#[test]
fn data_fail_as_their_fields_do() {
    let mut state = 1035_u32;
    let mut chance = |below: u32| {
        state ^= state << 13;
        state ^= state >> 17;
        state ^= state << 5;
        state % below
    };
    let (mut whole, mut broken) = (0, 0);
    for _ in 0..40_000 {
        // a name, and a record that it owns
        let code = [1, 2, 6, 13, 15, 16, 17, 28, 33, 35, 43, 46, 47, 50, 51, 62, 64, 99, 108, 109, 257, 65280]
            [chance(22) as usize];
        let mut octets = b"\x01a\x01b\0\xC0\0".to_vec();
        octets.extend([(code >> 8) as u8, code as u8, 0, 1, 0, 0, 0, 0, 0, 0]);
        let start = octets.len();
        for _ in 0..chance(12) {
            match chance(5) {
                0 => octets.extend([1, b'c', 0xC0, 2]),
                1 => octets.extend([0xC0, chance(4) as u8]),
                2 => octets.extend([0; 4]),
                3 => octets.extend([0, 1, 0x40]),
                _ => octets.push(chance(256) as u8),
            }
        }
        let len = octets.len() - start;
        octets[start - 1] = len as u8;
        let record = Record::read(&octets, 5).unwrap();
        let first = record.fields().find_map(Result::err);
        assert_eq!(record.data().err(), first, "{octets:?}");
        match record.data().map(|data| data.to_wire().unwrap()) {
            Ok(wire) if record.fields().any(|field| matches!(field, Ok(Field::Name(_) | Field::Types(_)))) => {
                whole += usize::from(!wire.is_empty());
            }
            Ok(wire) => {
                assert_eq!(wire, record.raw_data());
                whole += 1;
            }
            Err(_) => broken += 1,
        }
    }
    assert!(whole > 2000 && broken > 2000, "{whole} {broken}");
}
