//! Prints the octets that each signature of a DNS message covers: `signed [FILE]`. The message is binary, in a file or
//! on standard input.
//!
//! Each line has the owner of an RRSIG, the type that it covers, the tag of its key, and the octets in hexadecimal. A
//! validator verifies the signature over these octets with the key (RFC 4035, section 5.3).
use dns_names_wire::{Message, RData, RecordType};
use std::io::Read;
use std::{env, error, fs, io, process};

fn read(file: Option<String>) -> io::Result<Vec<u8>> {
    let mut octets = Vec::new();
    match file {
        Some(file) => return fs::read(file),
        None => io::stdin().read_to_end(&mut octets)?,
    };
    Ok(octets)
}

fn signed() -> Result<(), Box<dyn error::Error>> {
    let octets = read(env::args().nth(1))?;
    let message = Message::read(&octets)?;
    for section in [message.answers(), message.authorities(), message.additionals()] {
        for record in section.clone().filter(|record| record.record_type() == RecordType::RRSIG) {
            let signed = record.signed_octets(section.clone())?;
            if let RData::RRSIG(rrsig) = record.data()? {
                let digits: String = signed.iter().map(|octet| format!("{octet:02x}")).collect();
                println!("{} {} {} {digits}", record.owner(), rrsig.type_covered, rrsig.key_tag);
            }
        }
    }
    Ok(())
}

fn main() {
    if let Err(error) = signed() {
        eprintln!("signed: {error}");
        process::exit(1);
    }
}
