//! "Refusal numbers, first that applies": reasons 1 to 5, and those that requests and responses share, one small question after another.

use crate::identity::{self, Identity};
use crate::lines::{self, Canonical, Lines};
use crate::profile::{self, Column, ROWS};
use crate::start::Start;
use crate::values;
use crate::{request, response, Refusal};

/// A field not ignored.
#[derive(Clone, Debug)]
pub struct Kept {
    pub number: u64,
    pub value: Canonical,
}

/// A message for which none of the reasons applies that look at it alone: all but 16 and 18.
#[derive(Clone, Debug)]
pub struct Passed {
    pub start: Start,
    /// The column it was judged by: for an INVITE whose To has a tag "re".
    pub column: Column,
    pub fields: Vec<Kept>,
    /// The bytes after the empty line, cut to Content-Length where that is given.
    pub body: Vec<u8>,
}

impl Passed {
    /// The value of the first field with this number.
    pub fn first(&self, number: u64) -> Option<&Canonical> {
        first_value(&self.fields, number)
    }

    /// CR 2: "Withheld exactly if Privacy is not ignored and holds any of the three".
    pub fn is_withheld(&self) -> bool {
        self.first(16).is_some_and(|value| values::asks_to_withhold(&value.bytes))
    }
}

/// Reason, detail and missing count of a refusal; the reply follows from the reason and the start line.
pub struct Found {
    pub reason: u64,
    pub detail: u64,
    pub missing: u64,
}

pub fn found(reason: u64, detail: u64) -> Found {
    Found { reason, detail, missing: 0 }
}

/// Judges a message for a side by all reasons but 16 and 18, which ask for the room and for the table.
pub fn judge(message: &[u8], side: u64) -> Result<Passed, Refusal> {
    if side != 0 && side != 1 {
        return Err(silent(1));
    }
    let lines = lines::read(message).map_err(silent)?;
    let start = lines.start.clone();
    let judged = match &start {
        Start::Request { method, uri } => request::judge(lines, method, uri),
        Start::Status { code, .. } => response::judge(lines, code),
    };
    judged.map_err(|found| refusal(found, &start))
}

/// A refusal with its reason alone: 1 to 5, "Reply 0 means send nothing", and those of the parameter (CR 7), "each is 0 where not said".
pub fn silent(reason: u64) -> Refusal {
    Refusal { reason, reply: 0, detail: 0, missing: 0 }
}

/// The Reply column, where the message may be answered at all.
pub fn refusal(found: Found, start: &Start) -> Refusal {
    let Found { reason, detail, missing } = found;
    let reply = match reason {
        _ if start.is_never_answered() => 0,
        6 => 405,
        7 => 416,
        8..=12 => 400,
        13 => 483,
        14 => 420,
        15 => 484,
        16 => 500,
        18 => 503,
        _ => 0,
    };
    Refusal { reason, reply, detail, missing }
}

/// The column that says what a message ignores, where it has one. "Both INVITE columns ignore the same."
pub fn column(lines: &Lines) -> Option<Column> {
    match &lines.start {
        Start::Request { method, .. } => profile::column_of_request(method),
        Start::Status { code, .. } => response::column(lines, code),
    }
}

/// "Reasons 9 to 14 look only at fields not ignored."
pub fn kept_fields(lines: &Lines, column: Column) -> Vec<Kept> {
    let mut kept = Vec::new();
    for field in &lines.fields {
        let number = profile::number_of_name(&field.name);
        if !profile::is_ignored(number, column) {
            kept.push(Kept { number, value: field.value.clone() });
        }
    }
    kept
}

pub fn first_value(fields: &[Kept], number: u64) -> Option<&Canonical> {
    fields.iter().find(|field| field.number == number).map(|field| &field.value)
}

/// Reason 9: "a field without "yes" comes again"; detail "the number of the first field that
/// repeats an earlier one".
pub fn repeats(fields: &[Kept]) -> Result<(), Found> {
    for (place, field) in fields.iter().enumerate() {
        let may = profile::row_of_number(field.number).is_some_and(|row| row.repeats);
        let again = first_value(&fields[..place], field.number).is_some();
        if again && !may {
            return Err(found(9, field.number));
        }
    }
    Ok(())
}

/// Reason 10: "a value malformed"; detail the number "of the first malformed one". CR 6: "a third identity, or two of one scheme, is 10
/// with detail 15 at the field that brings it".
pub fn malformed(fields: &[Kept], method: &[u8]) -> Result<(), Found> {
    for (place, field) in fields.iter().enumerate() {
        let by_itself = values::is_well_formed(field.number, &field.value.bytes, method);
        let with_earlier = field.number != 15 || identity::are_allowed(&asserted(&fields[..=place]));
        if !by_itself || !with_earlier {
            return Err(found(10, field.number));
        }
    }
    Ok(())
}

/// The identities of all P-Asserted-Identity fields in message order, the start of each counted in the message. Digits hold no fold, so
/// they stand there in one piece. A malformed field adds none.
pub fn asserted(fields: &[Kept]) -> Vec<Identity> {
    let mut all = Vec::new();
    for field in fields.iter().filter(|field| field.number == 15) {
        for identity in identity::identities(&field.value.bytes).unwrap_or_default() {
            all.push(Identity { start: field.value.places[identity.start], ..identity });
        }
    }
    all
}

/// Reason 11: "Content-Length exceeds the bytes there"; else the body after cutting.
pub fn cut_body(fields: &[Kept], rest: &[u8]) -> Result<Vec<u8>, Found> {
    let given = first_value(fields, 8).and_then(|value| values::content_length(&value.bytes));
    let length = given.unwrap_or(rest.len() as u64);
    if length > rest.len() as u64 {
        return Err(found(11, 0));
    }
    Ok(rest[..length as usize].to_vec())
}

/// Reason 12: detail "the lowest missing number, and the missing count says how many numbers are
/// missing".
pub fn missing(fields: &[Kept], column: Column, body_empty: bool) -> Result<(), Found> {
    let mut numbers = Vec::new();
    for row in &ROWS {
        if profile::is_mandatory(row, column, body_empty) && first_value(fields, row.number).is_none() {
            numbers.push(row.number);
        }
    }
    match numbers.first() {
        Some(&lowest) => Err(Found { reason: 12, detail: lowest, missing: numbers.len() as u64 }),
        None => Ok(()),
    }
}
