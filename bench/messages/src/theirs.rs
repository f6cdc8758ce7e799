//! trust-dns-proto 0.22, by the same rules.
use crate::{black_box, repeat, Task};
use trust_dns_proto::op::{Edns, Message};
use trust_dns_proto::rr::{Name, RData, Record};

pub fn run(task: &Task, octets: &[u8], count: u64) -> u64 {
    let message = with_edns(Message::from_vec(octets).expect("a message"));
    match task {
        Task::Read => repeat(count, || read(black_box(octets))),
        Task::Write => repeat(count, || written(black_box(&message))),
        Task::Make => repeat(count, || written(&make(black_box(&message)))),
    }
}

/// The message with the EDNS that ours has.
fn with_edns(mut message: Message) -> Message {
    let mut edns = Edns::new();
    edns.set_max_payload(1232);
    message.set_edns(edns);
    message
}

fn read(octets: &[u8]) -> u64 {
    let message = Message::from_vec(octets).expect("a message");
    let records = message.answers().iter().chain(message.name_servers()).chain(message.additionals());
    records
        .map(|record| name_size(record.name()) + u64::from(record.ttl()) + data_size(record.data().expect("data")))
        .sum()
}

/// The octets of a name's wire form, whose labels are looked at.
fn name_size(name: &Name) -> u64 {
    name.iter().map(|label| label.len() as u64 + 1).sum::<u64>() + 1
}

fn data_size(data: &RData) -> u64 {
    match data {
        RData::A(_) => 4,
        RData::AAAA(_) => 16,
        RData::NS(name) | RData::CNAME(name) | RData::PTR(name) => name_size(name),
        RData::MX(mx) => 2 + name_size(mx.exchange()),
        RData::SOA(soa) => 20 + name_size(soa.mname()) + name_size(soa.rname()),
        RData::SRV(srv) => 6 + name_size(srv.target()),
        RData::TXT(txt) => txt.iter().map(|text| text.len() as u64 + 1).sum(),
        _ => 0,
    }
}

fn written(message: &Message) -> u64 {
    message.to_vec().expect("room").len() as u64
}

/// A message made of names and data as a caller has them, which it takes.
fn make(parts: &Message) -> Message {
    let mut message = Message::new();
    message.set_header(*parts.header());
    message.add_query(parts.queries()[0].clone());
    let copy = |record: &Record| {
        let mut made = Record::with(record.name().clone(), record.rr_type(), record.ttl());
        made.set_data(Some(record.data().expect("data").clone()));
        made
    };
    message.add_answers(parts.answers().iter().map(copy));
    message.add_name_servers(parts.name_servers().iter().map(copy));
    message.add_additionals(parts.additionals().iter().map(copy));
    with_edns(message)
}
