//! A second, plain implementation of the screen, written from the build description ("the page"), the change requests ("CR") and
//! docs/DECISIONS.md, not from the proved one.
//! It works value by value on canonical copies, allocates freely, and serves as a check of the proved one.
//!
//! Standard library only. From the repository:
//!
//! - `cargo test --manifest-path second/Cargo.toml` runs its own tests and holds the stored cases to what it answers today.
//! - `second screen [side] [room]` screens one message from standard input, with no call held, and prints what the page's screening program
//!   prints.
//! - `second record` writes the recorded cases, `second cases` reads such cases and prints one line for each; `recorded::steps` says how both are
//!   written.
//! - `second isup-record` writes the recorded cases of the box for the old exchange (CR 7), `second isup-cases` reads such cases and prints one
//!   line for each; `recorded::isup` says how both are written.
//! - `second replay` reads records (CR 3) from standard input and prints the report that the replay program prints.
//! - `second history` writes a file of records with every line and reason of such a report; `second history SEED [COUNT]` one with COUNT
//!   drawn records among those (2,000 where it is not given).
//! - `second causes` reads standard input and prints what the program `cause_map` prints for it (CR 4).
//! - `second worked DIR` writes the worked texts of second/reviewed/replay.txt there, each with its reader's report.
//! - `second/regenerate` stores the cases and their lines as crates/vectors/stdin and crates/vectors/stdout, those of CR 7 in
//!   crates/isup_vectors, and the records and their report as crates/replay/stdin and crates/replay/stdout; and what `second causes` prints as
//!   the stdout of crates/cause_map and crates/cause_table.
//!
//! `drafts` and `recorded` make messages; all other modules are the implementation.

pub mod address;
pub mod calls;
pub mod causes;
pub mod classes;
pub mod drafts;
pub mod identity;
pub mod isup;
pub mod judge;
pub mod lines;
pub mod output;
pub mod profile;
pub mod readings;
pub mod recorded;
pub mod replay;
pub mod request;
pub mod response;
pub mod start;
pub mod uri;
pub mod values;

pub use calls::{end_call, none_held, Table};
pub use causes::{cause_of_status, status_of_cause};
pub use readings::{calling_number, count, reading};

/// "The verdict is a choice: accepted with its length, or refused with those numbers."
#[derive(Clone, Copy, Debug, PartialEq, Eq)]
pub enum Verdict {
    Accepted(usize),
    Refused(Refusal),
}

#[derive(Clone, Copy, Debug, PartialEq, Eq)]
pub struct Refusal {
    pub reason: u64,
    pub reply: u64,
    pub detail: u64,
    pub missing: u64,
}

impl Verdict {
    /// "The answer has reason, reply, detail, missing count and length; each is 0 where not said."
    pub fn numbers(&self) -> [u64; 5] {
        match self {
            Verdict::Accepted(length) => [0, 0, 0, 0, *length as u64],
            Verdict::Refused(r) => [r.reason, r.reply, r.detail, r.missing, 0],
        }
    }
}

/// A part of the message or of the trunk number. An empty one is (false, 0, 0).
#[derive(Clone, Copy, Debug, PartialEq, Eq)]
pub struct Part {
    pub from_trunk: bool,
    pub start: usize,
    pub length: usize,
}

/// "The job": accepts or refuses, and writes the outgoing message into the lent buffer; the lent table is kept by CR 8.
/// "No refusal writes to the buffer"; "Buffer bytes past the length stay"; "A refused request changes nothing."
pub fn screen(message: &[u8], side: u64, table: &mut Table, out: &mut [u8]) -> Verdict {
    match screened(message, side, table, out.len()) {
        Ok((outgoing, after)) => {
            out[..outgoing.len()].copy_from_slice(&outgoing);
            *table = after;
            Verdict::Accepted(outgoing.len())
        }
        Err(refusal) => Verdict::Refused(refusal),
    }
}

/// What goes out and the table afterwards. CR 8: "18 .. after 15, before 16".
fn screened(message: &[u8], side: u64, table: &Table, room: usize) -> Result<(Vec<u8>, Table), Refusal> {
    let passed = judge::judge(message, side)?;
    let refused = |reason: u64, detail: u64| judge::refusal(judge::found(reason, detail), &passed.start);
    let after = calls::after(&passed, side, table).ok_or_else(|| refused(18, 0))?;
    let outgoing = output::message(&passed, calls::is_hidden(&passed, side, table));
    if outgoing.len() > room {
        return Err(refused(16, outgoing.len() as u64));
    }
    Ok((outgoing, after))
}

/// `reading` as a slice of the message.
pub fn reading_slice(message: &[u8], number: u64, place: u64) -> &[u8] {
    let (start, length) = reading(message, number, place);
    &message[start..start + length]
}

/// `calling_number` as a slice of the message or of the trunk number.
pub fn calling_slice<'a>(message: &'a [u8], trunk: &'a [u8]) -> &'a [u8] {
    let part = calling_number(message, trunk);
    let whole = if part.from_trunk { trunk } else { message };
    &whole[part.start..part.start + part.length]
}
