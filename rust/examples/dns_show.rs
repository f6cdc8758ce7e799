//! Prints a DNS message as dig does, or sorts names, with the Rust crate.
//!
//! ```text
//! dns_show [FILE]          prints the message in a file or on standard input, in binary or in hexadecimal
//! dns_show --sort [FILE]   prints the names in a file, one a line, in canonical order (RFC 4034, section 6.1)
//! ```
//!
//! It exits with 1 if the input is rejected, and with 2 on a usage error. In the folder of the crate, run it with
//! `cargo run --example dns_show`.
use dns_names_wire::{Class, Name, Record, RecordType, TypeSet};
use std::fmt::Write as _;
use std::io::{Read, Write};
use std::net::{Ipv4Addr, Ipv6Addr};
use std::process::exit;

/// Why input is rejected, and the offset.
struct Rejected(usize, String);

const CUT: &str = "the message or the record ends too early";

/// A cursor over a part of a message, up to `end`.
struct Cursor<'a> {
    message: &'a [u8],
    at: usize,
    end: usize,
}

impl<'a> Cursor<'a> {
    fn take(&mut self, len: usize) -> Result<&'a [u8], Rejected> {
        if self.end - self.at < len {
            return Err(Rejected(self.at, CUT.into()));
        }
        self.at += len;
        Ok(&self.message[self.at - len..self.at])
    }

    fn array<const N: usize>(&mut self) -> Result<[u8; N], Rejected> {
        Ok(self.take(N)?.try_into().expect("as many as were taken"))
    }

    fn take_u8(&mut self) -> Result<u8, Rejected> {
        Ok(u8::from_be_bytes(self.array()?))
    }

    fn take_u16(&mut self) -> Result<u16, Rejected> {
        Ok(u16::from_be_bytes(self.array()?))
    }

    fn take_u32(&mut self) -> Result<u32, Rejected> {
        Ok(u32::from_be_bytes(self.array()?))
    }

    fn name(&mut self) -> Result<Name, Rejected> {
        match Name::read(self.message, self.at) {
            Ok((name, end)) if end <= self.end => {
                self.at = end;
                Ok(name)
            }
            Ok(_) => Err(Rejected(self.at, CUT.into())),
            Err(error) => Err(Rejected(self.at, error.kind().to_string())),
        }
    }

    fn rest(&mut self) -> &'a [u8] {
        let rest = &self.message[self.at..self.end];
        self.at = self.end;
        rest
    }
}

/// The fields of the data of a type: n is a name; 1, 2 and 4 are a number of as many octets; a is the address of A, and
/// 6 that of AAAA; s is strings, t a tag and a value, x octets in hexadecimal, and b a type bitmap.
const FIELDS: [(&str, &str); 13] = [
    ("A", "a"),
    ("NS", "n"),
    ("CNAME", "n"),
    ("SOA", "nn44444"),
    ("PTR", "n"),
    ("MX", "2n"),
    ("TXT", "s"),
    ("AAAA", "6"),
    ("SRV", "222n"),
    ("DNAME", "n"),
    ("DS", "211x"),
    ("NSEC", "nb"),
    ("CAA", "1t"),
];
const OPCODES: [(u16, &str); 5] = [(0, "QUERY"), (1, "IQUERY"), (2, "STATUS"), (4, "NOTIFY"), (5, "UPDATE")];
const STATUSES: [(u16, &str); 11] = [
    (0, "NOERROR"),
    (1, "FORMERR"),
    (2, "SERVFAIL"),
    (3, "NXDOMAIN"),
    (4, "NOTIMP"),
    (5, "REFUSED"),
    (6, "YXDOMAIN"),
    (7, "YXRRSET"),
    (8, "NXRRSET"),
    (9, "NOTAUTH"),
    (10, "NOTZONE"),
];
const FLAGS: [(u16, &str); 7] =
    [(0x8000, "qr"), (0x0400, "aa"), (0x0200, "tc"), (0x0100, "rd"), (0x0080, "ra"), (0x0020, "ad"), (0x0010, "cd")];

/// Returns the text of a code, or `other` and the code.
fn code_text(texts: &[(u16, &str)], other: &str, code: u16) -> String {
    match texts.iter().find(|(known, _)| *known == code) {
        Some((_, text)) => text.to_string(),
        None => format!("{other}{code}"),
    }
}

fn hex(octets: &[u8]) -> String {
    octets.iter().map(|octet| format!("{octet:02x}")).collect()
}

fn string_text(octets: &[u8]) -> String {
    let mut text = String::from("\"");
    for octet in octets {
        match octet {
            b'"' | b'\\' => text.extend(['\\', char::from(*octet)]),
            b' '..=b'~' => text.push(char::from(*octet)),
            _ => write!(text, "\\{octet:03}").expect("a String takes all"),
        }
    }
    text + "\""
}

fn strings_text(data: &mut Cursor) -> Result<String, Rejected> {
    let mut texts = vec![];
    while texts.is_empty() || data.at < data.end {
        let len = data.take_u8()?;
        texts.push(string_text(data.take(len.into())?));
    }
    Ok(texts.join(" "))
}

fn tagged_text(data: &mut Cursor) -> Result<String, Rejected> {
    let len = data.take_u8()?;
    let tag: String = data.take(len.into())?.iter().copied().map(char::from).collect();
    Ok(format!("{tag} {}", string_text(data.rest())))
}

fn types_text(data: &mut Cursor) -> Result<String, Rejected> {
    let at = data.at;
    let types = TypeSet::from_bitmap(data.rest()).map_err(|error| Rejected(at, error.kind().to_string()))?;
    Ok(types.iter().map(|kind| kind.to_string()).collect::<Vec<_>>().join(" "))
}

fn field_text(data: &mut Cursor, field: char) -> Result<String, Rejected> {
    Ok(match field {
        'n' => data.name()?.to_string(),
        '1' => data.take_u8()?.to_string(),
        '2' => data.take_u16()?.to_string(),
        '4' => data.take_u32()?.to_string(),
        'a' => Ipv4Addr::from(data.array::<4>()?).to_string(),
        '6' => Ipv6Addr::from(data.array::<16>()?).to_string(),
        'b' => types_text(data)?,
        's' => strings_text(data)?,
        't' => tagged_text(data)?,
        _ => hex(data.rest()),
    })
}

/// Returns the text of a record's data: by its type, or as in RFC 3597.
fn data_text(mut data: Cursor, kind: &str) -> Result<String, Rejected> {
    let fields = FIELDS.iter().find(|(known, _)| *known == kind).map_or("", |(_, fields)| fields);
    if fields.is_empty() {
        let octets = data.rest();
        return Ok(format!("\\# {} {}", octets.len(), hex(octets)).trim_end().into());
    }
    let texts: Result<Vec<String>, Rejected> = fields.chars().map(|field| field_text(&mut data, field)).collect();
    let text = texts?.join(" ");
    match data.at == data.end {
        true => Ok(text),
        false => Err(Rejected(data.at, "octets are left in a record".into())),
    }
}

fn record_text(cursor: &mut Cursor) -> Result<String, Rejected> {
    let record =
        Record::read(cursor.message, cursor.at).map_err(|error| Rejected(cursor.at, error.kind().to_string()))?;
    cursor.at = record.end();
    let (kind, class, ttl) = (record.record_type().to_string(), record.class(), record.ttl());
    if kind == "OPT" {
        // RFC 6891: the class is a size, and the TTL has the version and the flags.
        let flags = if ttl & 0x8000 != 0 { " do" } else { "" };
        return Ok(format!("; EDNS: version: {}, flags:{flags}; udp: {}", ttl >> 16 & 255, u16::from(class)));
    }
    let data = Cursor { message: cursor.message, at: record.data_offset(), end: record.end() };
    let owner = record.owner();
    Ok(format!("{owner}\t{ttl}\t{class}\t{kind}\t{}", data_text(data, &kind)?))
}

fn question_text(cursor: &mut Cursor) -> Result<String, Rejected> {
    let name = cursor.name()?;
    let (kind, class) = (RecordType::from(cursor.take_u16()?), Class::from(cursor.take_u16()?));
    Ok(format!(";{name}\t{class}\t{kind}"))
}

fn header_text(id: u16, word: u16, counts: [u16; 4]) -> String {
    let (opcode, status) = (code_text(&OPCODES, "OPCODE", word >> 11 & 15), code_text(&STATUSES, "RCODE", word & 15));
    let flags: String = FLAGS.iter().filter(|(mask, _)| word & mask != 0).map(|(_, text)| format!(" {text}")).collect();
    let [questions, answers, authorities, additionals] = counts;
    format!(
        ";; ->>HEADER<<- opcode: {opcode}, status: {status}, id: {id}\n;; flags:{flags}; QUERY: {questions}, \
         ANSWER: {answers}, AUTHORITY: {authorities}, ADDITIONAL: {additionals}"
    )
}

/// Adds the lines of a message.
fn show_message(message: &[u8], out: &mut String) -> Result<(), Rejected> {
    let mut cursor = Cursor { message, at: 0, end: message.len() };
    let (id, word) = (cursor.take_u16()?, cursor.take_u16()?);
    let counts = [cursor.take_u16()?, cursor.take_u16()?, cursor.take_u16()?, cursor.take_u16()?];
    *out += &header_text(id, word, counts);
    for (section, count) in ["QUESTION", "ANSWER", "AUTHORITY", "ADDITIONAL"].iter().zip(counts) {
        if count > 0 {
            *out += &format!("\n\n;; {section} SECTION:");
        }
        for _ in 0..count {
            *out += "\n";
            *out += &if *section == "QUESTION" { question_text(&mut cursor)? } else { record_text(&mut cursor)? };
        }
    }
    *out += "\n";
    match cursor.at == cursor.end {
        true => Ok(()),
        false => Err(Rejected(cursor.at, "octets are left after the message".into())),
    }
}

/// Adds the names of a text, sorted.
fn show_sorted(text: &str, out: &mut String) -> Result<(), Rejected> {
    let (mut names, mut at) = (Vec::new(), 0);
    for line in text.split_inclusive('\n') {
        let mut name: Name = line.trim_end_matches('\n').parse().map_err(|e| Rejected(at, format!("{e}")))?;
        name.set_fqdn(true);
        names.push(name);
        at += line.len();
    }
    names.sort();
    names.iter().for_each(|name| *out += &format!("{name}\n"));
    Ok(())
}

/// Returns the octets; or, if they are hexadecimal digits and white space, the octets that they encode.
fn message_of(octets: Vec<u8>) -> Result<Vec<u8>, Rejected> {
    if !octets.iter().all(|octet| octet.is_ascii_hexdigit() || octet.is_ascii_whitespace()) {
        return Ok(octets);
    }
    let digits: Vec<u8> = octets.into_iter().filter(u8::is_ascii_hexdigit).collect();
    if digits.len() % 2 != 0 {
        return Err(Rejected(digits.len() / 2, "half an octet in hexadecimal".into()));
    }
    let value = |digit: u8| char::from(digit).to_digit(16).expect("a hexadecimal digit") as u8;
    Ok(digits.chunks(2).map(|pair| value(pair[0]) << 4 | value(pair[1])).collect())
}

fn run(sorts: bool, octets: Vec<u8>, out: &mut String) -> Result<(), Rejected> {
    if sorts {
        let text = std::str::from_utf8(&octets).map_err(|e| Rejected(e.valid_up_to(), e.to_string()))?;
        show_sorted(text, out)
    } else {
        show_message(&message_of(octets)?, out)
    }
}

fn main() {
    let words: Vec<String> = std::env::args().skip(1).collect();
    let sorts = words.first().map_or(false, |word| word == "--sort");
    let octets = match &words[usize::from(sorts)..] {
        [] => {
            let mut all = vec![];
            std::io::stdin().read_to_end(&mut all).map(|_| all)
        }
        [file] if !file.starts_with('-') => std::fs::read(file),
        _ => {
            eprintln!("usage: dns_show [--sort] [FILE]");
            exit(2);
        }
    };
    let octets = octets.unwrap_or_else(|error| {
        eprintln!("dns_show: {error}");
        exit(2);
    });
    let mut out = String::new();
    let outcome = run(sorts, octets, &mut out);
    // Write errors are ignored, since the reader may close the pipe.
    let _ = std::io::stdout().write_all(out.as_bytes());
    if let Err(Rejected(offset, why)) = outcome {
        eprintln!("dns_show: at offset {offset}: {why}");
        exit(1);
    }
}
