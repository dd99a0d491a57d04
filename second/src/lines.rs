//! The page's section "Lines": start line, fields, empty line, and the canonical value.

use crate::classes::{after_blanks, is_blank, is_space, is_token, is_value, span};
use crate::start::Start;

/// "over 8,192 bytes" (reason 2).
pub const MOST_BYTES: usize = 8192;
/// "over 96 fields" (reason 5).
pub const MOST_FIELDS: usize = 96;

/// A canonical value: a copy of its bytes, and for each of them its place in the message.
#[derive(Clone, Debug, PartialEq)]
pub struct Canonical {
    pub bytes: Vec<u8>,
    pub places: Vec<usize>,
}

/// One field: its name as written, the bounds of its value in the message (from past the colon
/// to before the last CRLF), and its canonical value.
#[derive(Clone, Debug)]
pub struct Field {
    pub name: Vec<u8>,
    pub value_start: usize,
    pub value_end: usize,
    pub value: Canonical,
}

/// A message whose lines are well shaped.
#[derive(Clone, Debug)]
pub struct Lines {
    pub start: Start,
    pub fields: Vec<Field>,
    /// All bytes after the empty line.
    pub rest: Vec<u8>,
}

/// Reads a message into lines, or says its reason, 2 to 5, "first that applies".
pub fn read(message: &[u8]) -> Result<Lines, u64> {
    if message.len() > MOST_BYTES {
        return Err(2);
    }
    let (start, after_start) = start_line(message).ok_or(3u64)?;
    let (fields, after_empty) = all_fields(message, after_start).ok_or(4u64)?;
    if fields.len() > MOST_FIELDS {
        return Err(5);
    }
    let rest = message[after_empty..].to_vec();
    Ok(Lines { start, fields, rest })
}

/// The start line up to the first CRLF, and the place past that.
fn start_line(message: &[u8]) -> Option<(Start, usize)> {
    let end = message.windows(2).position(|pair| pair == b"\r\n")?;
    Start::read(&message[..end]).map(|start| (start, end + 2))
}

/// All fields from `place` on, and the place past the empty line. None is bad shape or no empty line.
fn all_fields(message: &[u8], place: usize) -> Option<(Vec<Field>, usize)> {
    let mut fields = Vec::new();
    let mut place = place;
    while !message[place..].starts_with(b"\r\n") {
        let (field, next) = one_field(message, place)?;
        fields.push(field);
        place = next;
    }
    Some((fields, place + 2))
}

/// "name (token), any spaces or tabs, colon, value, CRLF": the field and the place past its CRLF.
fn one_field(message: &[u8], place: usize) -> Option<(Field, usize)> {
    let (name, after_name) = span(&message[place..], is_token);
    let at_colon = after_blanks(after_name);
    if name.is_empty() || at_colon.first() != Some(&b':') {
        return None;
    }
    let value_start = message.len() - at_colon.len() + 1;
    let value_end = end_of_value(message, value_start)?;
    let value = canonical(message, value_start, value_end);
    Some((Field { name: name.to_vec(), value_start, value_end, value }, value_end + 2))
}

/// The place of the CRLF that ends the value: the first one that no space or tab follows.
fn end_of_value(message: &[u8], value_start: usize) -> Option<usize> {
    let mut place = value_start;
    loop {
        let byte = *message.get(place)?;
        if byte == b'\r' {
            if message.get(place + 1) != Some(&b'\n') {
                return None;
            }
            match message.get(place + 2) {
                Some(&next) if is_blank(next) => place += 2,
                _ => return Some(place),
            }
        } else if is_value(byte) {
            place += 1;
        } else {
            return None;
        }
    }
}

/// "each maximal run of spaces, tabs and CRLFs that holds a CRLF becomes one space; then spaces
/// and tabs go from both ends".
fn canonical(message: &[u8], start: usize, end: usize) -> Canonical {
    let mut value = Canonical { bytes: Vec::new(), places: Vec::new() };
    let mut place = start;
    while place < end {
        let run = span(&message[place..end], is_space).0;
        if run.contains(&b'\r') {
            value.bytes.push(b' ');
            value.places.push(place);
            place += run.len();
        } else {
            let length = run.len().max(1);
            value.bytes.extend(&message[place..place + length]);
            value.places.extend(place..place + length);
            place += length;
        }
    }
    trim(value)
}

fn trim(value: Canonical) -> Canonical {
    let first = span(&value.bytes, is_blank).0.len();
    let mut end = value.bytes.len();
    while end > first && is_blank(value.bytes[end - 1]) {
        end -= 1;
    }
    Canonical { bytes: value.bytes[first..end].to_vec(), places: value.places[first..end].to_vec() }
}
