//! How recorded cases are stored and answered. A step is a byte for its kind, one for the side, two for the room, two for the length of the
//! bytes (high byte first), and the bytes. The kinds:
//!
//! - 0: the bytes are a message, screened with a table of all zeros before.
//! - 1: a message, screened with the table that the step before left.
//! - 2: the bytes are put at the front of the table, the rest of it is zeros. Side and room are 0.
//! - 3: an explicit end (CR 8) in the table that the step before left: the bytes are Call-ID and tag, one after the other, and the room is the
//!   length of the Call-ID. The side is 0.
//!
//! Its line has for a message reason, reply, detail, missing count, length, the Adler-32 sum of the whole buffer, which was filled with A5 (hex)
//! before, and that of the table afterwards; for an end its answer and that sum; for kind 2 that sum alone. Before the first step none is held.

use super::{Case, MOST, ROOM};
use crate::calls::TABLE;
use crate::{end_call, none_held, screen, Table};

/// What a buffer holds before a message is screened.
pub const FILLING: u8 = 0xA5;

#[derive(Clone, Debug, PartialEq)]
pub enum Step {
    Fresh(Case),
    Next(Case),
    Table(Vec<u8>),
    End { call_id: Vec<u8>, tag: Vec<u8> },
}

impl Step {
    /// The message next in a history, with room enough.
    pub fn next(side: u8, message: Vec<u8>) -> Step {
        Step::Next(Case::new(side, message))
    }

    pub fn end(call_id: &[u8], tag: &[u8]) -> Step {
        Step::End { call_id: call_id.to_vec(), tag: tag.to_vec() }
    }

    pub fn encoded(&self) -> Vec<u8> {
        let (kind, side, room, bytes) = match self {
            Step::Fresh(case) => (0, case.side, case.room, case.message.clone()),
            Step::Next(case) => (1, case.side, case.room, case.message.clone()),
            Step::Table(bytes) => (2, 0, 0, bytes.clone()),
            Step::End { call_id, tag } => (3, 0, call_id.len() as u16, [&call_id[..], tag].concat()),
        };
        [&[kind, side][..], &room.to_be_bytes(), &(bytes.len() as u16).to_be_bytes(), &bytes].concat()
    }

    /// The step at the front of the file, and what follows it. None where it is cut short or is no such step.
    pub fn read(file: &[u8]) -> Option<(Step, &[u8])> {
        let (head, rest) = file.split_at_checked(6)?;
        let number = |place: usize| u16::from_be_bytes([head[place], head[place + 1]]);
        let (side, room) = (head[1], number(2));
        let (bytes, rest) = rest.split_at_checked(usize::from(number(4)))?;
        let message = || Case { side, room, message: bytes.to_vec() };
        let step = match (head[0], side, room) {
            (0, ..) => Step::Fresh(message()),
            (1, ..) => Step::Next(message()),
            (2, 0, 0) if bytes.len() <= TABLE => Step::Table(bytes.to_vec()),
            (3, 0, _) => {
                let (call_id, tag) = bytes.split_at_checked(usize::from(room))?;
                Step::end(call_id, tag)
            }
            _ => return None,
        };
        Some((step, rest))
    }

    /// What is printed for it; the table is the one before, and afterwards the one that it leaves.
    pub fn line(&self, table: &mut Table) -> String {
        let answer = match self {
            Step::Fresh(case) => {
                *table = none_held();
                screened(case, table)
            }
            Step::Next(case) => screened(case, table),
            Step::Table(bytes) => {
                *table = none_held();
                table[..bytes.len()].copy_from_slice(bytes);
                String::new()
            }
            Step::End { call_id, tag } => format!("{} ", end_call(table, call_id, tag)),
        };
        format!("{answer}{}\n", digest(table))
    }

    pub(super) fn keeps_to_its_sizes(&self) -> bool {
        match self {
            Step::Fresh(case) | Step::Next(case) => case.message.len() <= MOST && case.room <= ROOM,
            Step::Table(bytes) => bytes.len() <= TABLE,
            Step::End { call_id, tag } => call_id.len() + tag.len() <= MOST,
        }
    }
}

/// The numbers of a line that come before the sum of the table, each with a space behind it.
fn screened(case: &Case, table: &mut Table) -> String {
    let mut buffer = vec![FILLING; usize::from(case.room)];
    let numbers = screen(&case.message, u64::from(case.side), table, &mut buffer).numbers();
    numbers.into_iter().chain([digest(&buffer)]).map(|number| format!("{number} ")).collect()
}

/// Adler-32, as RFC 1950 has it.
fn digest(bytes: &[u8]) -> u64 {
    let (mut low, mut high) = (1, 0);
    for &byte in bytes {
        low = (low + u64::from(byte)) % 65521;
        high = (high + low) % 65521;
    }
    high * 65536 + low
}

/// The lines of a file of steps, or the place of the first step that is cut short or none.
pub fn lines(file: &[u8]) -> Result<String, usize> {
    let mut out = String::new();
    let mut table = none_held();
    let mut rest = file;
    while !rest.is_empty() {
        let (step, next) = Step::read(rest).ok_or(file.len() - rest.len())?;
        out += &step.line(&mut table);
        rest = next;
    }
    Ok(out)
}
