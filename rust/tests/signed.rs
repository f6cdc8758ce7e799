//! The octets that signatures cover. Expected octets are worked out by hand from RFC 4034, sections 3.1.8.1 and 6, RFC
//! 4035, section 5.3.2, and RFC 6840, section 5.1.
use dns_names_wire::{Class, ErrorKind, Message, MessageBuilder, Name, Record, RecordBuf, RecordType};

/// An RRSIG of `a.B.` that covers a type and counts `labels` labels, and its fields up to the signature in hexadecimal.
fn rrsig(covered: &str, labels: u8) -> (RecordBuf, String) {
    let text = format!("a.B. 5 IN RRSIG {covered} 13 {labels} 3600 20010909014640 20010909014640 7 B. c2ln");
    let code = covered.parse::<RecordType>().unwrap().code();
    let fields = format!("{code:04x} 0d {labels:02x} 00000e10 3b9aca00 3b9aca00 0007 016200");
    (text.parse().unwrap(), fields)
}

fn records<const N: usize>(lines: [&str; N]) -> [RecordBuf; N] {
    lines.map(|line| line.parse().unwrap_or_else(|error| panic!("{line}: {error}")))
}

fn octets(hex: &str) -> Vec<u8> {
    let digits: Vec<char> = hex.chars().filter(|c| !c.is_whitespace()).collect();
    digits.chunks(2).map(|two| u8::from_str_radix(&String::from_iter(two), 16).unwrap()).collect()
}

fn kind_of(rrsig: &RecordBuf, others: &[RecordBuf]) -> ErrorKind {
    rrsig.as_record().signed_octets(others).unwrap_err().kind()
}

const FIRST: &str = "0161016200 0001 0001 00000e10 0004 c0000201";
const SECOND: &str = "0161016200 0001 0001 00000e10 0004 c0000202";

#[test]
fn a_set_is_signed_in_order_and_once() {
    let (rrsig, fields) = rrsig("A", 2);
    let set = records([
        "A.b. 9 A 192.0.2.2",
        "a.b. 8 A 192.0.2.1",
        "a.b. 5 A 192.0.2.2",
        "a.b. 5 AAAA ::1",
        "b. 5 A 192.0.2.3",
    ]);
    let wanted = octets(&format!("{fields} {FIRST} {SECOND}"));
    assert_eq!(rrsig.as_record().signed_octets(&set), Ok(wanted.clone()));
    let [first, .., other] = set.clone();
    let chaos = other.with_class(Class::CH);
    assert_eq!(rrsig.as_record().signed_octets(set[..2].iter().chain([&chaos, &first, &rrsig])), Ok(wanted));
    assert_eq!(rrsig.as_record().signed_octets([&set[1]]), Ok(octets(&format!("{fields} {FIRST}"))));
}

#[test]
fn wildcards_are_signed_for_what_they_made() {
    for (labels, owner) in [(1, "012a 016200"), (0, "012a 00")] {
        let (rrsig, fields) = rrsig("A", labels);
        let wanted = octets(&format!("{fields} {owner} 0001 0001 00000e10 0004 c0000201"));
        assert_eq!(rrsig.as_record().signed_octets(&records(["A.B. 5 A 192.0.2.1"])), Ok(wanted));
    }
}

#[test]
fn names_in_data_are_lowered_by_type() {
    for (line, data) in [
        ("a.b. 5 MX 10 X.B.", "0007 000a 0178016200"),
        ("a.b. 5 NSEC X.B. A", "0008 0158014200 000140"),
        ("a.b. 5 SVCB 1 X.B.", "0007 0001 0158014200"),
    ] {
        let [record] = records([line]);
        let (rrsig, fields) = rrsig(&record.record_type().to_string(), 2);
        let wanted = format!("{fields} 0161016200 {:04x} 0001 00000e10 {data}", record.record_type().code());
        assert_eq!(rrsig.as_record().signed_octets([&record]), Ok(octets(&wanted)), "{line}");
    }
}

#[test]
fn sections_of_messages_are_read() {
    let (rrsig, fields) = rrsig("A", 2);
    let query = MessageBuilder::query(7, &"a.b.".parse::<Name>().unwrap(), RecordType::A).finish(512).unwrap();
    let mut reply = MessageBuilder::reply_to(&Message::read(&query).unwrap());
    let wrong = RecordBuf::from_octets(&"b.".parse::<Name>().unwrap(), RecordType::A, Class::IN, 0, &[1]).unwrap();
    reply.answers(records(["a.b. 5 A 192.0.2.2", "a.b. 5 A 192.0.2.1"])).answers([&rrsig]);
    let octets_of_reply = reply.finish(512).unwrap();
    let message = Message::read(&octets_of_reply).unwrap();
    let read = message.answers().last().unwrap();
    let wanted = octets(&format!("{fields} {FIRST} {SECOND}"));
    assert_eq!(read.signed_octets(message.answers()), Ok(wanted.clone()));
    // The data of records that are not covered are not checked.
    let others = message.answers().chain([wrong.as_record()]);
    assert_eq!(read.signed_octets(others), Ok(wanted));
}

#[test]
fn what_is_not_signed() {
    let (own, _) = rrsig("A", 2);
    let set = records(["a.b. 5 A 192.0.2.1"]);
    assert_eq!(kind_of(&own, &[]), ErrorKind::NotCovered);
    assert_eq!(kind_of(&own, &records(["a.b. 5 AAAA ::1", "b.b. 5 A 192.0.2.1"])), ErrorKind::NotCovered);
    assert_eq!(kind_of(&rrsig("A", 3).0, &set), ErrorKind::TooFewLabels);
    assert_eq!(kind_of(&set[0], &set), ErrorKind::NotRrsig);
    let cut = RecordBuf::from_octets(own.owner(), RecordType::RRSIG, Class::IN, 0, &own.raw_data()[..17]).unwrap();
    assert_eq!(kind_of(&cut, &set), ErrorKind::MessageCut);
    let wrong = RecordBuf::from_octets(own.owner(), RecordType::A, Class::IN, 0, &[1, 2, 3, 4, 5]).unwrap();
    assert_eq!(kind_of(&own, &[wrong]), ErrorKind::WrongDataLength);
    let numbers = [ErrorKind::NotRrsig, ErrorKind::NotCovered, ErrorKind::TooFewLabels]
        .map(|kind| (kind.number(), kind.to_string()));
    let texts = [
        "the record is no RRSIG",
        "the RRSIG covers none of the records",
        "the owner has fewer labels than the RRSIG counts",
    ];
    assert_eq!(numbers, [(36, texts[0].into()), (37, texts[1].into()), (38, texts[2].into())]);
    assert_eq!(Record::from(&own).signed_octets(&set).unwrap().len(), 21 + 19);
}
