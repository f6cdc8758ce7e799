//! Answers queries from a table of records, over UDP and TCP on 127.0.0.1: `serve PORT FILE`
//!
//! FILE has one record of a zone a line, the SOA record first. Names without a last dot are rejected. With port 0, any
//! free port is used. The port is printed. A response that is longer than the requester accepts is truncated, with TC
//! (RFC 2181, section 9).
use dns_names_wire::{Class, Message, MessageBuilder, OpCode, RecordBuf, RecordType, ResponseCode};
use std::io::{Read, Write};
use std::net::{Ipv4Addr, TcpListener, TcpStream, UdpSocket};
use std::{env, error, fs, io, thread};

/// The size of a message that goes through most networks without fragmentation.
const PAYLOAD: u16 = 1232;

/// Returns the records that a request asks for, or the response code of an error.
fn answers<'t>(table: &'t [RecordBuf], request: &Message) -> Result<Vec<&'t RecordBuf>, ResponseCode> {
    let mut questions = request.questions();
    let question = questions.next().filter(|_| questions.len() == 0).ok_or(ResponseCode::FormErr)?;
    let (name, zone) = (question.name.to_name(), table[0].owner().to_name());
    if request.header().op_code != OpCode::Query {
        return Err(ResponseCode::NotImp);
    }
    if question.class != Class::IN || !zone.zone_of(&name) {
        return Err(ResponseCode::Refused);
    }
    // A name exists if it owns records, or if a name below it does (RFC 8020).
    if !table.iter().any(|record| name.zone_of(&record.owner().to_name())) {
        return Err(ResponseCode::NXDomain);
    }
    let wanted = [question.question_type, RecordType::CNAME];
    let is_wanted = |kind| wanted.contains(&kind) || wanted[0] == RecordType::ANY;
    Ok(table.iter().filter(|it| is_wanted(it.record_type()) && it.owner() == name).collect())
}

/// Returns the response to a request, or `None` if the octets are not a request.
fn respond(table: &[RecordBuf], octets: &[u8], most: Option<u16>) -> Option<Vec<u8>> {
    let request = Message::read(octets).ok().filter(|request| !request.header().is_response)?;
    let accepted = request.edns().ok().flatten().map_or(512, |edns| edns.max_payload.min(PAYLOAD));
    let (mut reply, soa) = (MessageBuilder::reply_to(&request), &table[..1]);
    // If the EDNS of the request is not valid, or its version is not supported, the response code is set already.
    if reply.header().response_code == ResponseCode::NoError {
        match answers(table, &request) {
            Ok(records) if records.is_empty() => reply.authoritative(true).authorities(soa),
            Ok(records) => reply.authoritative(true).answers(records),
            Err(ResponseCode::NXDomain) => {
                reply.authoritative(true).response_code(ResponseCode::NXDomain).authorities(soa)
            }
            Err(code) => reply.response_code(code),
        };
    }
    reply.finish(most.unwrap_or(accepted)).ok()
}

fn serve_stream(table: &[RecordBuf], mut stream: TcpStream) -> io::Result<()> {
    loop {
        let mut len = [0; 2];
        stream.read_exact(&mut len)?;
        let mut octets = vec![0; u16::from_be_bytes(len).into()];
        stream.read_exact(&mut octets)?;
        let response = respond(table, &octets, Some(u16::MAX)).ok_or(io::ErrorKind::InvalidData)?;
        stream.write_all(&[&(response.len() as u16).to_be_bytes(), &response[..]].concat())?;
    }
}

fn main() -> Result<(), Box<dyn error::Error>> {
    let words: Vec<String> = env::args().skip(1).collect();
    let table = fs::read_to_string(&words[1])?.lines().map(str::parse).collect::<Result<Vec<RecordBuf>, _>>()?;
    let udp = UdpSocket::bind((Ipv4Addr::LOCALHOST, words[0].parse()?))?;
    let (tcp, copy) = (TcpListener::bind(udp.local_addr()?)?, table.clone());
    thread::spawn(move || tcp.incoming().flatten().for_each(|stream| drop(serve_stream(&copy, stream))));
    println!("serving on port {}", udp.local_addr()?.port());
    let mut room = [0; u16::MAX as usize];
    loop {
        let (len, from) = udp.recv_from(&mut room)?;
        respond(&table, &room[..len], None).map(|response| udp.send_to(&response, from));
    }
}
