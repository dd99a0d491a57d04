//! What the tests share: the page's call, messages built field by field, a small generator.
#![allow(dead_code, unused_imports)]

pub use second::drafts::{call, call_with, with_crlf as crlf, Dice};
pub use second::{none_held, Table};
use second::{screen, Verdict};

pub type Fields = Vec<(String, Vec<u8>)>;

/// What the page's call gives on side 1.
pub const HIDDEN: &str = "INVITE sip:+33123456789@gw.example SIP/2.0
Via: SIP/2.0/UDP relay.example;branch=z9hG4bK7
Max-Forwards: 69
From: \"Anonymous\" <sip:anonymous@anonymous.invalid>;tag=a1
To: <sip:+33123456789@gw.example>
Call-ID: 9x@relay.example
CSeq: 1 INVITE
Contact: <sip:relay.example>
Allow: INVITE, ACK, BYE
Privacy: id
Content-Length: 0

";

/// What it gives on side 0.
pub const SHOWN: &str = "INVITE sip:+33123456789@gw.example SIP/2.0
Via: SIP/2.0/UDP relay.example;branch=z9hG4bK7
Max-Forwards: 69
From: <sip:+33187654321@relay.example>;tag=a1
To: <sip:+33123456789@gw.example>
Call-ID: 9x@relay.example
CSeq: 1 INVITE
Contact: <sip:relay.example>
Allow: INVITE, ACK, BYE
P-Asserted-Identity: <sip:+33187654321@relay.example>
Privacy: id
Content-Length: 0

";

/// A message of the method that is accepted: its mandatory fields, long names.
pub fn base(method: &str) -> Fields {
    let cseq = format!("1 {method}");
    let mut pairs = vec![
        ("Via", "SIP/2.0/UDP relay.example;branch=z9hG4bK7"),
        ("Max-Forwards", "70"),
        ("From", "<sip:a@relay.example>;tag=a1"),
        ("To", "<sip:b@gw.example>"),
        ("Call-ID", "9x@relay.example"),
        ("CSeq", cseq.as_str()),
    ];
    if method == "INVITE" {
        pairs.push(("Contact", "<sip:relay.example>"));
        pairs.push(("Allow", "INVITE, ACK, BYE"));
        pairs.push(("P-Asserted-Identity", "<sip:+33187654321@relay.example>"));
    }
    pairs.iter().map(|(n, v)| (n.to_string(), v.as_bytes().to_vec())).collect()
}

/// A response to the method that is accepted with every status from 100 to 699: its mandatory fields, long names.
pub fn response_base(method: &str) -> Fields {
    let mut fields = base(method);
    fields.retain(|(name, _)| !["Max-Forwards", "Allow", "P-Asserted-Identity"].contains(&name.as_str()));
    fields
}

/// Gives the named field this value; adds it at the end where it is not there.
pub fn set(fields: &mut Fields, name: &str, value: &[u8]) {
    match fields.iter_mut().find(|(n, _)| n == name) {
        Some(field) => field.1 = value.to_vec(),
        None => fields.push((name.to_string(), value.to_vec())),
    }
}

pub fn add(fields: &mut Fields, name: &str, value: &[u8]) {
    fields.push((name.to_string(), value.to_vec()));
}

pub fn build(method: &str, uri: &str, fields: &Fields, body: &[u8]) -> Vec<u8> {
    build_from(&format!("{method} {uri} SIP/2.0"), fields, body)
}

/// The message with this start line.
pub fn build_from(start: &str, fields: &Fields, body: &[u8]) -> Vec<u8> {
    let mut out = format!("{start}\r\n").into_bytes();
    for (name, value) in fields {
        out.extend(name.as_bytes());
        out.extend(b": ");
        out.extend(value);
        out.extend(b"\r\n");
    }
    out.extend(b"\r\n");
    out.extend(body);
    out
}

pub const URI: &str = "sip:+33123456789@gw.example";

/// The five numbers and the output, room 9,216; checks that all other bytes stay.
pub fn run(message: &[u8], side: u64) -> ([u64; 5], Vec<u8>) {
    run_in(message, side, 9216)
}

/// The same with so much room and none held.
pub fn run_in(message: &[u8], side: u64, room: usize) -> ([u64; 5], Vec<u8>) {
    run_with(&mut none_held(), message, side, room)
}

/// The same with this table before; checks that no refusal and nothing on side 0 changes it.
pub fn run_with(table: &mut Table, message: &[u8], side: u64, room: usize) -> ([u64; 5], Vec<u8>) {
    let mut buffer = vec![0xA5; room];
    let before = *table;
    let verdict = screen(message, side, table, &mut buffer);
    let numbers = verdict.numbers();
    let length = match verdict {
        Verdict::Accepted(length) => length,
        Verdict::Refused(_) => 0,
    };
    assert!(buffer[length..].iter().all(|&byte| byte == 0xA5), "bytes past the length stay");
    assert!(*table == before || (side == 1 && numbers[0] == 0), "a refusal and side 0 leave the table");
    (numbers, buffer[..length].to_vec())
}

/// Reason, reply, detail, missing on side 1.
pub fn numbers(message: &[u8]) -> [u64; 4] {
    let n = run(message, 1).0;
    [n[0], n[1], n[2], n[3]]
}

/// The numbers of a message whose field has this value instead.
pub fn with_value(method: &str, name: &str, value: &[u8]) -> [u64; 4] {
    let mut fields = base(method);
    set(&mut fields, name, value);
    numbers(&build(method, URI, &fields, b""))
}
