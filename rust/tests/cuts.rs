//! When TC is set, as name servers set it: the lines of `diff/servers/cuts.txt`, which the tests in C and Python read too.
use dns_names_wire::{Edns, Message, MessageBuilder, RecordBuf, RecordType, SectionRecords};

fn octets(hex: &str) -> Vec<u8> {
    (0..hex.len()).step_by(2).map(|at| u8::from_str_radix(&hex[at..at + 2], 16).unwrap()).collect()
}

/// Returns whether a size is in ranges as `512-660,662`; `-` is none.
fn is_in(ranges: &str, size: u16) -> bool {
    ranges.split(',').any(|range| {
        let (first, last) = range.split_once('-').unwrap_or((range, range));
        match (first.parse::<u16>(), last.parse::<u16>()) {
            (Ok(first), Ok(last)) => (first..=last).contains(&size),
            _ => false,
        }
    })
}

fn owned(records: SectionRecords<'_>) -> Vec<RecordBuf> {
    records.map(|record| record.try_into().unwrap()).collect()
}

/// Returns a builder with the header and the items of a message.
fn built(message: &Message<'_>) -> MessageBuilder {
    let mut built = MessageBuilder::new(message.header());
    for question in message.questions() {
        built.question(question.name, question.question_type, question.class);
    }
    let [answers, authorities, additionals] =
        [message.answers(), message.authorities(), message.additionals()].map(owned);
    built.answers(answers).authorities(authorities).additionals(additionals);
    built
}

/// Returns a reply to the query of a message, with its records. The reply has an OPT record of its own.
fn reply(message: &Message<'_>) -> MessageBuilder {
    let question = message.questions().next().unwrap();
    let mut edns = Edns::new(u16::MAX);
    edns.dnssec_ok = true;
    let query = MessageBuilder::query(7, question.name, question.question_type).edns(&edns).finish(512).unwrap();
    let mut reply = MessageBuilder::reply_to(&Message::read(&query).unwrap());
    let mut additionals = owned(message.additionals());
    additionals.retain(|record| record.record_type() != RecordType::OPT);
    reply.authoritative(message.header().authoritative).response_code(message.header().response_code);
    reply.answers(owned(message.answers())).authorities(owned(message.authorities())).additionals(additionals);
    reply
}

/// A message may have fewer octets than the server's, with names compressed that the server wrote whole. The packed crate has no
/// such file.
#[test]
fn tc_is_set_where_servers_set_it() {
    let file = std::path::Path::new(env!("CARGO_MANIFEST_DIR")).join("../diff/servers/cuts.txt");
    let text = std::fs::read_to_string(file).unwrap_or_default();
    for line in text.lines() {
        let [what, server, ranges, hex]: [&str; 4] = line.split(' ').collect::<Vec<_>>().try_into().unwrap();
        let whole = octets(hex);
        let message = Message::read(&whole).unwrap();
        let (built, reply) = (built(&message), reply(&message));
        let own_len = message.to_wire(u16::MAX).unwrap().len();
        assert!(own_len <= whole.len());
        for size in 512..=own_len as u16 {
            let is_cut = usize::from(size) < own_len && is_in(ranges, size);
            for written in [message.to_wire(size), built.finish(size), reply.finish(size)].map(Result::unwrap) {
                let read = Message::read(&written).unwrap();
                assert!(written.len() <= size.into());
                assert_eq!(read.header().truncation, is_cut, "{what} {server} {size}");
                assert!(read.edns().unwrap().unwrap().dnssec_ok);
            }
        }
    }
}
