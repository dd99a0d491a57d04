//! Messages put together from parts, for the recorded cases and the comparison: start line, whole fields, body.

use crate::profile::{self, Column, COLUMNS, ROWS};
use crate::start::Start;
use std::ops::Range;

/// A small deterministic generator of numbers (xorshift64).
#[derive(Clone, Debug)]
pub struct Dice(u64);

impl Dice {
    /// Any seed will do: 0 and neighbours too.
    pub fn new(seed: u64) -> Dice {
        let mut dice = Dice(seed.wrapping_mul(0x9E37_79B9_7F4A_7C15) ^ 0x2545_F491_4F6C_DD1D);
        if dice.0 == 0 {
            dice.0 = 1;
        }
        for _ in 0..8 {
            dice.number();
        }
        dice
    }

    pub fn number(&mut self) -> u64 {
        self.0 ^= self.0 << 13;
        self.0 ^= self.0 >> 7;
        self.0 ^= self.0 << 17;
        self.0
    }

    /// A number from 0 up to but not including the bound, which is at least 1.
    pub fn below(&mut self, bound: usize) -> usize {
        ((self.number() >> 11) % bound as u64) as usize
    }

    pub fn one_in(&mut self, bound: usize) -> bool {
        self.below(bound) == 0
    }

    pub fn pick<'a, T>(&mut self, list: &'a [T]) -> &'a T {
        &list[self.below(list.len())]
    }
}

/// A whole field: its name, and every byte after the name up to past its last CRLF.
#[derive(Clone, Debug, PartialEq)]
pub struct Whole {
    pub name: Vec<u8>,
    pub rest: Vec<u8>,
}

impl Whole {
    pub fn new(name: &[u8], value: &[u8]) -> Whole {
        Whole { name: name.to_vec(), rest: [b": ", value, b"\r\n"].concat() }
    }

    /// The number of the name, 0 where it is not listed.
    pub fn number(&self) -> u64 {
        profile::number_of_name(&self.name)
    }
}

/// A message in parts. Nothing keeps it well shaped.
#[derive(Clone, Debug)]
pub struct Draft {
    pub start: Start,
    pub fields: Vec<Whole>,
    pub body: Vec<u8>,
}

/// The nine columns of the profile by their place in the table, each with a method.
pub const COLUMN_METHODS: [&str; 9] = ["INVITE", "INVITE", "ACK", "BYE", "CANCEL", "OPTIONS", "INVITE", "CANCEL", "BYE"];

/// The places of the columns of requests and of responses.
pub const REQUESTS: Range<usize> = 0..6;
pub const RESPONSES: Range<usize> = 6..9;

/// A Request-URI whose called number is good.
pub const GOOD_URI: &str = "sip:+331234567@g";

/// A good value of a field in a column, by the field's number.
pub fn good_value(number: u64, column: usize) -> Vec<u8> {
    let text = match number {
        1 => "SIP/2.0/UDP a;branch=z9",
        2 => "70",
        3 => "<sip:+331876543@a>;tag=a1",
        4 if column == 1 || RESPONSES.contains(&column) => "<sip:+331234567@g>;tag=b2",
        4 => "<sip:+331234567@g>",
        5 => "9x@a",
        6 => return format!("1 {}", COLUMN_METHODS[column]).into_bytes(),
        7 => "<sip:a>",
        8 => "0",
        9 => "a/sdp",
        10 => "<sip:r;lr>",
        11 => "Q.850;cause=16",
        12 => "ACK, BYE",
        13 => "timer",
        14 => "100rel",
        15 => "<sip:+331876543@a>",
        16 => "none",
        17 => "a/b",
        _ => "<sip:rr>",
    };
    text.as_bytes().to_vec()
}

impl Draft {
    /// A request line and no fields.
    pub fn bare(method: &str, uri: &str) -> Draft {
        Draft { start: Start::Request { method: method.into(), uri: uri.into() }, fields: Vec::new(), body: Vec::new() }
    }

    /// A status line and no fields.
    pub fn bare_status(code: &str, phrase: &str) -> Draft {
        Draft { start: Start::Status { code: code.into(), phrase: phrase.into() }, fields: Vec::new(), body: Vec::new() }
    }

    /// The start line of a column and no fields.
    fn start_of(column: usize) -> Draft {
        if RESPONSES.contains(&column) {
            Draft::bare_status("200", "OK")
        } else {
            Draft::bare(COLUMN_METHODS[column], GOOD_URI)
        }
    }

    /// The mandatory fields of a column, without a body: accepted.
    pub fn least(column: usize) -> Draft {
        let mut draft = Draft::start_of(column);
        for row in ROWS.iter().filter(|row| profile::letter(row, COLUMNS[column]) == b'M') {
            draft.add(row.name, &good_value(row.number, column));
        }
        draft
    }

    /// All 18 fields with good values: accepted in every column.
    pub fn full(column: usize) -> Draft {
        let mut draft = Draft::start_of(column);
        for row in &ROWS {
            draft.add(row.name, &good_value(row.number, column));
        }
        draft
    }

    /// The shortest accepted message of a method outside INVITE.
    pub fn short(method: &str) -> Draft {
        let mut draft = Draft::bare(method, "sip:h");
        let cseq = format!("1 {method}");
        for (name, value) in [("v", "x"), ("Max-Forwards", "9"), ("f", "<sip:h>;tag=1"), ("t", "sip:h"), ("i", "x"), ("CSeq", &cseq)] {
            draft.fields.push(Whole { name: name.into(), rest: [b":", value.as_bytes(), b"\r\n"].concat() });
        }
        draft
    }

    /// A short accepted response to a method.
    pub fn short_response(code: &str, method: &str) -> Draft {
        let mut draft = Draft::short(method).without(2);
        draft.start = Start::Status { code: code.into(), phrase: Vec::new() };
        if profile::column_of_response(code.parse().unwrap_or(0), method.as_bytes()) == Some(Column::InviteSuccess) {
            draft.fields.push(Whole { name: b"m".to_vec(), rest: b":x\r\n".to_vec() });
        }
        draft
    }

    pub fn add(&mut self, name: &str, value: &[u8]) {
        self.fields.push(Whole::new(name.as_bytes(), value));
    }

    /// Gives the first field of this number the value; adds it at the end where there is none.
    pub fn set(&mut self, number: u64, value: &[u8]) {
        match self.fields.iter_mut().find(|field| field.number() == number) {
            Some(field) => field.rest = [b": ", value, b"\r\n"].concat(),
            None => {
                let name = profile::row_of_number(number).map_or("X", |row| row.name);
                self.add(name, value);
            }
        }
    }

    /// The same with another value.
    pub fn with(&self, number: u64, value: &[u8]) -> Draft {
        let mut changed = self.clone();
        changed.set(number, value);
        changed
    }

    /// Gives a request line another method; a status line stays.
    pub fn set_method(&mut self, name: &[u8]) {
        if let Start::Request { method, .. } = &mut self.start {
            *method = name.to_vec();
        }
    }

    /// Gives a request line another Request-URI; a status line stays.
    pub fn set_uri(&mut self, text: &[u8]) {
        if let Start::Request { uri, .. } = &mut self.start {
            *uri = text.to_vec();
        }
    }

    /// The same with another Request-URI.
    pub fn to(&self, uri: &[u8]) -> Draft {
        let mut changed = self.clone();
        changed.set_uri(uri);
        changed
    }

    /// The same with this status line.
    pub fn status(&self, code: &str, phrase: &[u8]) -> Draft {
        Draft { start: Start::Status { code: code.into(), phrase: phrase.to_vec() }, ..self.clone() }
    }

    /// The same with one more field at the end.
    pub fn and(&self, name: &str, value: &[u8]) -> Draft {
        let mut changed = self.clone();
        changed.add(name, value);
        changed
    }

    /// The same without the fields of this number.
    pub fn without(&self, number: u64) -> Draft {
        let mut changed = self.clone();
        changed.fields.retain(|field| field.number() != number);
        changed
    }

    /// The same with this body.
    pub fn carrying(&self, body: &[u8]) -> Draft {
        Draft { body: body.to_vec(), ..self.clone() }
    }

    pub fn bytes(&self) -> Vec<u8> {
        let mut out = [&self.start.written()[..], b"\r\n"].concat();
        for field in &self.fields {
            out.extend(&field.name);
            out.extend(&field.rest);
        }
        out.extend(b"\r\n");
        out.extend(&self.body);
        out
    }
}

/// The text with its line ends as CRLF.
pub fn with_crlf(text: &str) -> Vec<u8> {
    text.replace('\n', "\r\n").into_bytes()
}

/// "A call in full".
pub fn call() -> Vec<u8> {
    with_crlf(CALL)
}

/// The call with one text, which must stand in it, replaced by another.
pub fn call_with(old: &str, new: &str) -> Vec<u8> {
    assert!(CALL.contains(old), "{old}");
    with_crlf(&CALL.replacen(old, new, 1))
}

const CALL: &str = "INVITE sip:+33123456789@gw.example SIP/2.0
v: SIP/2.0/UDP relay.example;branch=z9hG4bK7
Max-Forwards: 70
f: <sip:+33187654321@relay.example>;tag=a1
t: <sip:+33123456789@gw.example>
i: 9x@relay.example
CSeq: 1 INVITE
m: <sip:relay.example>
Allow: INVITE, ACK, BYE
X-Relay-Mode: text
P-Asserted-Identity: <sip:+33187654321@relay.example>
Privacy: id
l: 0

";

/// The name with each letter in a case drawn at random.
pub fn in_any_case(dice: &mut Dice, name: &[u8]) -> Vec<u8> {
    name.iter().map(|byte| if dice.one_in(2) { byte.to_ascii_uppercase() } else { byte.to_ascii_lowercase() }).collect()
}

/// Another form of a name, long or compact, in any letter case.
pub fn renamed(dice: &mut Dice, name: &[u8]) -> Vec<u8> {
    let form = match profile::row_of_number(profile::number_of_name(name)) {
        Some(row) if !row.compact.is_empty() && dice.one_in(2) => row.compact.as_bytes(),
        Some(row) => row.name.as_bytes(),
        None => name,
    };
    in_any_case(dice, form)
}
