//! Prints a DNS message as dig does: `dump [FILE]`. The message is binary, in a file or on standard input.
use dns_names_wire::Message;
use std::io::Read;
use std::{env, error, fs, io, process};

fn read(file: Option<String>) -> io::Result<Vec<u8>> {
    let mut octets = Vec::new();
    match file {
        Some(file) => return fs::read(file),
        None => io::stdin().read_to_end(&mut octets)?,
    };
    Ok(octets)
}

fn dump() -> Result<(), Box<dyn error::Error>> {
    let octets = read(env::args().nth(1))?;
    let message = Message::read(&octets)?;
    println!("{message}");
    Ok(())
}

fn main() {
    if let Err(error) = dump() {
        eprintln!("dump: {error}");
        process::exit(1);
    }
}
