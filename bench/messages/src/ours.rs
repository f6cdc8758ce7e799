//! The Rust crate.
use crate::{black_box, repeat, Task};
use dns_names_wire::rdata::{CAA, MX, SOA, SRV};
use dns_names_wire::{
    Edns, Message, MessageBuilder, Name, NameRef, RData, RecordBuf, RecordType, SectionRecords, Texts,
};

pub fn run(task: &Task, octets: &[u8], count: u64) -> u64 {
    let message = Message::read(octets).expect("a message");
    match task {
        Task::Read => repeat(count, || read(black_box(octets))),
        Task::Write => {
            let builder = build(&message);
            repeat(count, || written(black_box(&builder)))
        }
        Task::Make => {
            let parts = Parts::of(&message);
            repeat(count, || written(&black_box(&parts).build()))
        }
    }
}

fn read(octets: &[u8]) -> u64 {
    let message = Message::read(octets).expect("a message");
    let mut sum = 0;
    for record in message.answers().chain(message.authorities()).chain(message.additionals()) {
        if record.record_type() != RecordType::OPT {
            sum += name_size(&record.owner()) + u64::from(record.ttl()) + data_size(&record.data().expect("data"));
        }
    }
    sum
}

/// The octets of a name's wire form, whose labels are looked at.
fn name_size(name: &NameRef) -> u64 {
    name.labels().map(|label| label.len() as u64 + 1).sum::<u64>() + 1
}

fn data_size(data: &RData) -> u64 {
    match data {
        RData::A(_) => 4,
        RData::AAAA(_) => 16,
        RData::NS(name) | RData::CNAME(name) | RData::PTR(name) => name_size(name),
        RData::MX(MX { exchange, .. }) => 2 + name_size(exchange),
        RData::SOA(SOA { mname, rname, .. }) => 20 + name_size(mname) + name_size(rname),
        RData::SRV(SRV { target, .. }) => 6 + name_size(target),
        RData::TXT(texts) => texts.clone().map(|text| text.len() as u64 + 1).sum(),
        RData::CAA(CAA { tag, value, .. }) => 2 + (tag.len() + value.len()) as u64,
        _ => 0,
    }
}

fn records(records: SectionRecords) -> Vec<RecordBuf> {
    let not_opt = records.filter(|record| record.record_type() != RecordType::OPT);
    not_opt.map(|record| RecordBuf::try_from(record).expect("data")).collect()
}

/// A message without its EDNS.
fn build(message: &Message) -> MessageBuilder {
    let mut builder = MessageBuilder::new(message.header());
    message.questions().for_each(|it| drop(builder.question(it.name, it.question_type, it.class)));
    builder.answers(records(message.answers())).authorities(records(message.authorities()));
    builder.additionals(records(message.additionals())).edns(&Edns::new(1232));
    builder
}

fn written(builder: &MessageBuilder) -> u64 {
    builder.finish(u16::MAX).expect("room").len() as u64
}

/// What a message is made of: names and data as a caller has them.
struct Parts {
    header: dns_names_wire::Header,
    question: (Name, RecordType, dns_names_wire::Class),
    sections: [Vec<(Name, u32, Owned)>; 3],
}

/// Data that own what they have.
enum Owned {
    Address(std::net::IpAddr),
    Name(RecordType, Name),
    MX(u16, Name),
    SOA(Name, Name, [u32; 5]),
    SRV([u16; 3], Name),
    TXT(Vec<Vec<u8>>),
    CAA(u8, Vec<u8>, Vec<u8>),
}

impl Parts {
    fn of(message: &Message) -> Self {
        let question = message.questions().next().expect("a question");
        let sections = [message.answers(), message.authorities(), message.additionals()].map(|records| {
            let not_opt = records.filter(|record| record.record_type() != RecordType::OPT);
            not_opt.map(|it| (it.owner().to_name(), it.ttl(), Owned::of(it.data().expect("data")))).collect()
        });
        Parts {
            header: message.header(),
            question: (question.name.to_name(), question.question_type, question.class),
            sections,
        }
    }

    fn build(&self) -> MessageBuilder {
        let mut builder = MessageBuilder::new(self.header);
        let (name, record_type, class) = &self.question;
        builder.question(name, *record_type, *class).edns(&Edns::new(1232));
        let [answers, authorities, additionals] = &self.sections;
        for (owner, ttl, data) in answers {
            data.with(|data| drop(builder.answer(owner, *ttl, data).expect("room")));
        }
        for (owner, ttl, data) in authorities {
            data.with(|data| drop(builder.authority(owner, *ttl, data).expect("room")));
        }
        for (owner, ttl, data) in additionals {
            data.with(|data| drop(builder.additional(owner, *ttl, data).expect("room")));
        }
        builder
    }
}

impl Owned {
    fn of(data: RData) -> Self {
        let record_type = data.record_type();
        match data {
            RData::A(address) => Owned::Address(address.into()),
            RData::AAAA(address) => Owned::Address(address.into()),
            RData::NS(name) | RData::CNAME(name) | RData::PTR(name) => Owned::Name(record_type, name.to_name()),
            RData::MX(MX { preference, exchange }) => Owned::MX(preference, exchange.to_name()),
            RData::SOA(it) => {
                let numbers = [it.serial, it.refresh, it.retry, it.expire, it.minimum];
                Owned::SOA(it.mname.to_name(), it.rname.to_name(), numbers)
            }
            RData::SRV(it) => Owned::SRV([it.priority, it.weight, it.port], it.target.to_name()),
            RData::TXT(texts) => Owned::TXT(texts.map(<[u8]>::to_vec).collect()),
            RData::CAA(it) => Owned::CAA(it.flags, it.tag.to_vec(), it.value.to_vec()),
            other => panic!("{other:?}"),
        }
    }

    fn with(&self, add: impl FnOnce(RData<'_>)) {
        match self {
            Owned::Address(address) => add((*address).into()),
            Owned::Name(RecordType::NS, name) => add(RData::NS(name.into())),
            Owned::Name(RecordType::CNAME, name) => add(RData::CNAME(name.into())),
            Owned::Name(_, name) => add(RData::PTR(name.into())),
            Owned::MX(preference, name) => add(MX { preference: *preference, exchange: name.into() }.into()),
            Owned::SOA(mname, rname, [serial, refresh, retry, expire, minimum]) => add(SOA {
                mname: mname.into(),
                rname: rname.into(),
                serial: *serial,
                refresh: *refresh,
                retry: *retry,
                expire: *expire,
                minimum: *minimum,
            }
            .into()),
            Owned::SRV([priority, weight, port], target) => {
                add(SRV { priority: *priority, weight: *weight, port: *port, target: target.into() }.into())
            }
            Owned::TXT(texts) => {
                let octets = Texts::to_wire(texts).expect("texts");
                add(RData::TXT(Texts::from_wire(&octets).expect("texts")));
            }
            Owned::CAA(flags, tag, value) => add(CAA { flags: *flags, tag, value }.into()),
        }
    }
}
