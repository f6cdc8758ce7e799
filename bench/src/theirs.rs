//! trust-dns-proto 0.22, by the same rules.
use crate::black_box;
use crate::inputs::{Kind, Task};
use std::collections::hash_map::DefaultHasher;
use std::hash::{Hash, Hasher};
use trust_dns_proto::op::Message;
use trust_dns_proto::rr::{Name, RData, Record, RecordType};
use trust_dns_proto::serialize::binary::{BinDecodable, BinDecoder, BinEncodable, BinEncoder, Restrict};

const REFUSED: u64 = 1 << 40;

pub fn run(task: &Task, count: u64) -> u64 {
    match task.kind {
        Kind::Read => repeat(count, || read_each(black_box(&task.bytes), &task.starts)),
        Kind::ReadOver => {
            let mut name = Name::root();
            repeat(count, || read_each_over(&mut name, black_box(&task.bytes), &task.starts))
        }
        Kind::Emit => {
            let names = names_of(&task.bytes);
            repeat(count, || emit_each(black_box(&names), false))
        }
        Kind::EmitLower => {
            let names = names_of(&task.bytes);
            repeat(count, || emit_each(black_box(&names), true))
        }
        Kind::Parse => {
            let texts: Vec<&str> = std::str::from_utf8(&task.bytes).expect("UTF-8").lines().collect();
            repeat(count, || sum(black_box(&texts), |t| Name::from_ascii(t).map_or(REFUSED, |n| encoded(&n))))
        }
        Kind::Print => {
            let names = names_of(&task.bytes);
            repeat(count, || sum(black_box(&names), |n| black_box(n.to_ascii()).len() as u64))
        }
        // It has no table, so a vector stands for it.
        Kind::Clone | Kind::TableBuild => {
            let names = names_of(&task.bytes);
            repeat(count, || clone_each(black_box(&names)).len() as u64)
        }
        Kind::CopyOver => {
            let (names, mut copy) = (names_of(&task.bytes), Name::root());
            repeat(count, || copy_each_over(&mut copy, black_box(&names)))
        }
        Kind::Collect => repeat(count, || black_box(names_of(black_box(&task.bytes))).len() as u64),
        Kind::Compare => {
            let names = names_of(&task.bytes);
            repeat(count, || black_box(&names).windows(2).map(|pair| (1 + pair[0].cmp(&pair[1]) as i64) as u64).sum())
        }
        Kind::Sort => {
            let names = names_of(&task.bytes);
            repeat(count, || sort_all(black_box(&names)))
        }
        Kind::Hash => {
            let names = names_of(&task.bytes);
            repeat(count, || sum(black_box(&names), hash))
        }
        Kind::Find | Kind::TableFind => {
            let names = names_of(&task.bytes);
            repeat(count, || find_each(black_box(&names)))
        }
        Kind::List | Kind::TableList => {
            let names = names_of(&task.bytes);
            repeat(count, || sum(black_box(&names), encoded))
        }
        Kind::ReadRecords => repeat(count, || after_header(black_box(&task.bytes)).map(|r| size(&r)).sum()),
        Kind::EmitRecords => {
            let records: Vec<Record> = after_header(&task.bytes).collect();
            repeat(count, || emit_records(black_box(&records)))
        }
        Kind::ReadMessage => repeat(count, || read_message(black_box(&task.bytes))),
        Kind::ReadFields => {
            let places = data_places(&task.bytes);
            repeat(count, || read_fields(black_box(&task.bytes), black_box(&places)))
        }
        Kind::WriteMessage => {
            let message = Message::from_vec(&task.bytes).expect("a message");
            repeat(count, || black_box(black_box(&message).to_vec().expect("room")).len() as u64)
        }
    }
}

fn repeat(count: u64, mut once: impl FnMut() -> u64) -> u64 {
    (0..count).fold(0, |all, _| all.wrapping_add(once()))
}

fn sum<T>(items: &[T], value: impl Fn(&T) -> u64) -> u64 {
    items.iter().fold(0, |all, item| all.wrapping_add(value(item)))
}

fn read_each(message: &[u8], starts: &[u32]) -> u64 {
    sum(starts, |start| {
        let mut decoder = BinDecoder::new(message);
        decoder.read_slice(*start as usize).expect("an offset of the message");
        match Name::read(&mut decoder) {
            Ok(name) => decoder.index() as u64 + 65536 * encoded(black_box(&name)),
            Err(_) => REFUSED,
        }
    })
}

fn read_each_over(name: &mut Name, message: &[u8], starts: &[u32]) -> u64 {
    sum_mut(starts, |start| {
        let mut decoder = BinDecoder::new(message);
        decoder.read_slice(*start as usize).expect("an offset of the message");
        match Name::read(&mut decoder) {
            Ok(read) => *name = read,
            Err(_) => return REFUSED,
        }
        decoder.index() as u64 + 65536 * encoded(black_box(name))
    })
}

fn copy_each_over(copy: &mut Name, names: &[Name]) -> u64 {
    sum_mut(names, |name| {
        copy.clone_from(name);
        encoded(black_box(copy))
    })
}

fn emit_each(names: &[Name], canonical: bool) -> u64 {
    let mut message = Vec::new();
    let mut encoder = BinEncoder::new(&mut message);
    encoder.set_canonical_names(canonical);
    let refused = sum_mut(names, |name| if name.emit(&mut encoder).is_err() { REFUSED } else { 0 });
    drop(encoder);
    refused + black_box(&message).len() as u64
}

fn sum_mut<T>(items: &[T], mut value: impl FnMut(&T) -> u64) -> u64 {
    items.iter().fold(0, |all, item| all.wrapping_add(value(item)))
}

fn clone_each(names: &[Name]) -> Vec<Name> {
    let mut copies = Vec::with_capacity(names.len());
    copies.extend(names.iter().cloned());
    black_box(copies)
}

fn sort_all(names: &[Name]) -> u64 {
    let mut sorted: Vec<&Name> = names.iter().collect();
    sorted.sort();
    sorted.iter().zip(1..).fold(0, |all, (name, rank)| all.wrapping_add(rank * encoded(name)))
}

fn find_each(names: &[Name]) -> u64 {
    sum(names, |name| names.binary_search(name).map_or(REFUSED, |index| index as u64 + 1))
}

fn hash(name: &Name) -> u64 {
    let mut state = DefaultHasher::new();
    name.hash(&mut state);
    state.finish()
}

fn names_of(list: &[u8]) -> Vec<Name> {
    let mut decoder = BinDecoder::new(list);
    let mut names = vec![];
    while !decoder.is_empty() {
        names.push(Name::read(&mut decoder).expect("a name"));
    }
    names
}

/// The records of a message after its header.
fn after_header(message: &[u8]) -> impl Iterator<Item = Record> + '_ {
    let mut decoder = BinDecoder::new(message);
    decoder.read_slice(12).expect("a header");
    std::iter::from_fn(move || {
        (!decoder.is_empty()).then(|| Record::read(&mut decoder).expect("a record"))
    })
}

/// The octets of a record's names, or of its address, and its time to live.
fn size(record: &Record) -> u64 {
    let data = match record.data() {
        Some(RData::NS(name) | RData::CNAME(name) | RData::PTR(name)) => encoded(name),
        Some(RData::A(address)) => address.octets().len() as u64,
        _ => REFUSED,
    };
    encoded(record.name()) + data + u64::from(record.ttl())
}

fn emit_records(records: &[Record]) -> u64 {
    let mut message = Vec::new();
    let mut encoder = BinEncoder::new(&mut message);
    encoder.emit_vec(&[0; 12]).expect("room");
    let refused = sum_mut(records, |record| if record.emit(&mut encoder).is_err() { REFUSED } else { 0 });
    drop(encoder);
    refused + black_box(&message).len() as u64
}

/// What `dnw_read_message` returns.
fn read_message(octets: &[u8]) -> u64 {
    let message = Message::from_vec(octets).expect("a message");
    let counts = message.queries().len() + message.answers().len() + message.name_servers().len();
    let header = u64::from(message.id()) + counts as u64;
    let queries = message.queries().iter().fold(0, |all, query| {
        all + name_size(query.name()) + u64::from(u16::from(query.query_type())) + u64::from(u16::from(query.query_class()))
    });
    let records = message.answers().iter().chain(message.name_servers()).chain(message.additionals());
    header + queries + records.map(record_size).sum::<u64>()
}

/// Where the data of each record of a message begin, their type, and how many octets they have.
fn data_places(octets: &[u8]) -> Vec<(u16, RecordType, u16)> {
    let mut decoder = BinDecoder::new(octets);
    decoder.read_slice(12).expect("a header");
    Name::read(&mut decoder).expect("a question");
    decoder.read_slice(4).expect("its type and class");
    let mut places = vec![];
    while !decoder.is_empty() {
        Name::read(&mut decoder).expect("an owner");
        let kind = RecordType::read(&mut decoder).expect("a type");
        decoder.read_slice(6).expect("a class and a time to live");
        let len = decoder.read_u16().expect("a length").unverified();
        places.push((decoder.index() as u16, kind, len));
        decoder.read_slice(len as usize).expect("data");
    }
    places
}

fn read_fields(octets: &[u8], places: &[(u16, RecordType, u16)]) -> u64 {
    let message = BinDecoder::new(octets);
    sum(places, |(start, kind, len)| {
        RData::read(&mut message.clone(*start), *kind, Restrict::new(*len)).map_or(REFUSED, |data| data_size(&data))
    })
}

fn record_size(record: &Record) -> u64 {
    name_size(record.name())
        + u64::from(u16::from(record.rr_type()))
        + u64::from(u16::from(record.dns_class()))
        + u64::from(record.ttl())
        + record.data().map_or(1, data_size)
}

/// Each field, one of no octets if there are no data: a number, an address as one, or what names and texts have.
fn data_size(data: &RData) -> u64 {
    match data {
        RData::A(address) => u64::from(u32::from_be_bytes(address.octets())),
        RData::AAAA(address) => u64::from(address.octets()[0]) + u64::from(address.octets()[15]),
        RData::NS(name) | RData::CNAME(name) | RData::PTR(name) => name_size(name),
        RData::MX(mx) => u64::from(mx.preference()) + name_size(mx.exchange()),
        RData::SOA(soa) => {
            let numbers = [soa.serial(), soa.refresh() as u32, soa.retry() as u32, soa.expire() as u32, soa.minimum()];
            numbers.iter().map(|number| u64::from(*number)).sum::<u64>() + name_size(soa.mname()) + name_size(soa.rname())
        }
        RData::TXT(texts) => texts.iter().map(|text| octets_size(text)).sum(),
        RData::Unknown { rdata, .. } => octets_size(rdata.anything()),
        _ => REFUSED,
    }
}

/// For each label of a name its last octet, and one more than its length; and one.
fn name_size(name: &Name) -> u64 {
    1 + name.iter().map(octets_size).sum::<u64>()
}

/// One more than the number of octets, and the last octet.
fn octets_size(octets: &[u8]) -> u64 {
    1 + octets.len() as u64 + octets.last().map_or(0, |octet| u64::from(*octet))
}

/// The octets of a name's wire form.
fn encoded(name: &Name) -> u64 {
    if name.is_root() {
        1
    } else {
        name.len() as u64 + 1
    }
}
