//! The tasks through the Rust crate.
use crate::inputs::{Kind, Task};
use crate::{repeat, sum, FAILED};
use dns_names_wire::{names, records, sort_names, Header, MessageWriter, Name, Record, Section};
use std::collections::hash_map::DefaultHasher;
use std::hash::{Hash, Hasher};
use std::hint::black_box;

pub fn run(task: &Task, count: u64) -> Option<u64> {
    let owned = || -> Vec<Name> { names(&task.bytes, 0).map(|name| name.expect("a name").into()).collect() };
    Some(match task.kind {
        Kind::Read => repeat(count, || sum(&task.starts, |start| read(black_box(&task.bytes), *start as usize))),
        Kind::Parse => {
            let texts: Vec<&str> = std::str::from_utf8(&task.bytes).expect("UTF-8").lines().collect();
            repeat(count, || sum(black_box(&texts), |text| Name::from_text(text, None).map_or(FAILED, |name| size(&name))))
        }
        Kind::Print => {
            let names = owned();
            repeat(count, || sum(black_box(&names), |name| black_box(name.to_string()).len() as u64))
        }
        Kind::Clone => {
            let names = owned();
            repeat(count, || copy(black_box(&names)))
        }
        Kind::Compare => {
            let names = owned();
            repeat(count, || sum(black_box(&names).windows(2), |pair| (1 + pair[0].cmp(&pair[1]) as i64) as u64))
        }
        Kind::Sort => {
            let names = owned();
            repeat(count, || sort(black_box(&names)))
        }
        Kind::Hash => {
            let names = owned();
            repeat(count, || sum(black_box(&names), hash))
        }
        Kind::ReadRecords => repeat(count, || {
            sum(records(black_box(&task.bytes), HEADER_SIZE), |record| record.map_or(FAILED, |record| record_size(&record)))
        }),
        Kind::EmitRecords => {
            let records: Vec<(Record, Name, Option<Name>)> = records(&task.bytes, HEADER_SIZE)
                .map(|record| record.expect("a record"))
                .map(|record| {
                    let name = has_name(&record).then(|| record.data_name().expect("a name"));
                    (record, record.owner().to_name(), name)
                })
                .collect();
            let mut room = vec![0; u16::MAX.into()];
            repeat(count, || write_records(black_box(&records), &mut room))
        }
        _ => return None,
    })
}

/// Reads each name over the one before.
pub fn run_reusing(task: &Task, count: u64) -> Option<u64> {
    match task.kind {
        Kind::Read => {
            let mut name = Name::root();
            let mut read = |start| {
                let end = name.read_from(black_box(&task.bytes), start as usize);
                end.map_or(FAILED, |end| end as u64 + 65536 * size(&name))
            };
            Some(repeat(count, || sum(&task.starts, |start| read(*start))))
        }
        _ => None,
    }
}

/// A message begins with its header.
const HEADER_SIZE: usize = 12;

/// The types whose data are a name, in the records of this task: NS, CNAME and PTR.
const TYPES_OF_NAMES: [u16; 3] = [2, 5, 12];

fn has_name(record: &Record) -> bool {
    TYPES_OF_NAMES.contains(&record.record_type().into())
}

fn record_size(record: &Record) -> u64 {
    let data = match has_name(record) {
        true => record.data_name().map_or(FAILED, |name| size(&name)),
        false => black_box(record.raw_data()).len() as u64,
    };
    size(&record.owner().to_name()) + data + u64::from(record.ttl())
}

fn write_records(records: &[(Record, Name, Option<Name>)], room: &mut [u8]) -> u64 {
    let mut writer = MessageWriter::new(room, u16::MAX.into(), &Header::default()).expect("room");
    for (record, owner, name) in records {
        let fixed = (record.record_type(), record.class(), record.ttl());
        let data = name.as_ref().map_or(record.raw_data(), Name::as_wire);
        if writer.raw_data(Section::Answers, owner, fixed, data).is_err() {
            return FAILED;
        }
    }
    black_box(writer.finish()).len() as u64
}

fn size(name: &Name) -> u64 {
    black_box(name).as_wire().len() as u64
}

fn read(message: &[u8], start: usize) -> u64 {
    Name::read(message, start).map_or(FAILED, |(name, end)| end as u64 + 65536 * size(&name))
}

fn copy(names: &[Name]) -> u64 {
    let mut copies = Vec::with_capacity(names.len());
    copies.extend(names.iter().cloned());
    black_box(copies).len() as u64
}

fn sort(names: &[Name]) -> u64 {
    let mut sorted = names.to_vec();
    sort_names(&mut sorted);
    sum(sorted.iter().zip(1..), |(name, rank)| rank * size(name))
}

fn hash(name: &Name) -> u64 {
    let mut state = DefaultHasher::new();
    name.hash(&mut state);
    state.finish()
}
