//! Asks a name server for records over UDP, and over TCP if the reply is truncated: `resolve ADDRESS PORT NAME TYPE`
use dns_names_wire::{Edns, Message, MessageBuilder, Name, RecordType};
use std::collections::hash_map::RandomState;
use std::hash::{BuildHasher, Hasher};
use std::io::{self, Read, Write};
use std::net::{SocketAddr, TcpStream, UdpSocket};
use std::time::Duration;
use std::{env, error, process};

type Outcome<T> = Result<T, Box<dyn error::Error>>;

/// The size of a message that goes through most networks without fragmentation.
const PAYLOAD: u16 = 1232;
const TRIES: u32 = 3;
const WAIT: Duration = Duration::from_secs(2);

/// Returns the first message that is a reply to the query. Others are ignored: they are late, or not from the server.
fn over_udp(server: SocketAddr, query: &Message) -> Outcome<Vec<u8>> {
    let socket = UdpSocket::bind(if server.is_ipv4() { "0.0.0.0:0" } else { "[::]:0" })?;
    socket.connect(server)?;
    socket.set_read_timeout(Some(WAIT))?;
    let mut room = [0; PAYLOAD as usize];
    for _ in 0..TRIES {
        socket.send(query.octets())?;
        while let Ok(len) = socket.recv(&mut room) {
            if Message::read(&room[..len]).map_or(false, |reply| reply.is_reply_to(query)) {
                return Ok(room[..len].to_vec());
            }
        }
    }
    Err(io::Error::from(io::ErrorKind::TimedOut).into())
}

/// Each message has two octets of its length before it (RFC 1035, section 4.2.2).
fn over_tcp(server: SocketAddr, query: &Message) -> Outcome<Vec<u8>> {
    let mut stream = TcpStream::connect_timeout(&server, WAIT)?;
    stream.set_read_timeout(Some(WAIT))?;
    let octets = query.octets();
    stream.write_all(&[&(octets.len() as u16).to_be_bytes(), octets].concat())?;
    let mut len = [0; 2];
    stream.read_exact(&mut len)?;
    let mut reply = vec![0; u16::from_be_bytes(len).into()];
    stream.read_exact(&mut reply)?;
    match Message::read(&reply)?.is_reply_to(query) {
        true => Ok(reply),
        false => Err("this is no reply".into()),
    }
}

fn resolve() -> Outcome<()> {
    let words: Vec<String> = env::args().skip(1).collect();
    if words.len() != 4 {
        return Err("usage: resolve ADDRESS PORT NAME TYPE".into());
    }
    let server = SocketAddr::new(words[0].parse()?, words[1].parse()?);
    let (mut name, record_type): (Name, RecordType) = (words[2].parse()?, words[3].parse()?);
    // As it is typed, with or without its last dot.
    name.set_fqdn(true);
    // An id that a stranger cannot guess.
    let id = RandomState::new().build_hasher().finish() as u16;
    let octets = MessageBuilder::query(id, &name, record_type).edns(&Edns::new(PAYLOAD)).finish(512)?;
    let query = Message::read(&octets)?;
    let mut reply = over_udp(server, &query)?;
    if Message::read(&reply)?.header().truncation {
        reply = over_tcp(server, &query)?;
    }
    let reply = Message::read(&reply)?;
    println!(";; rcode: {}", u16::from(reply.response_code()?));
    reply.answers().for_each(|record| println!("{record}"));
    Ok(())
}

fn main() {
    if let Err(error) = resolve() {
        eprintln!("resolve: {error}");
        process::exit(1);
    }
}
