//! Prints the names of a zone in the order of its NSEC records, each with the next: `nsec FILE`
//!
//! FILE has one name a line, in any order. Names are sorted by their sort keys, which are in canonical order (RFC 4034,
//! section 6.1). The first name follows the last (section 4.1.1).
use dns_names_wire::Name;
use std::collections::BTreeMap;
use std::{env, error, fs, process};

fn nsec() -> Result<(), Box<dyn error::Error>> {
    let file = env::args().nth(1).ok_or("usage: nsec FILE")?;
    let mut names = BTreeMap::new();
    for line in fs::read_to_string(file)?.lines() {
        let name: Name = line.parse()?;
        names.insert(name.sort_key(), name);
    }
    let next = names.values().skip(1).chain(names.values().take(1));
    for (name, next) in names.values().zip(next) {
        println!("{name} NSEC {next}");
    }
    Ok(())
}

fn main() {
    if let Err(error) = nsec() {
        eprintln!("nsec: {error}");
        process::exit(1);
    }
}
