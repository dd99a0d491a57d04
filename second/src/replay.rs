//! CR 3, "The regulator's quarter": the records of a text, what the screen says of each of them, and the report.
//!
//! The whole history is made first, one group and one reason for each record, and each number of the report is counted from it.

use crate::classes::same_in_any_case;
use crate::{lines, none_held, screen, Table};
use std::collections::BTreeSet;

/// "before each record the two-byte mark 53 4E (hex)"
const MARK: [u8; 2] = [0x53, 0x4E];

/// "a record after 1,000,000" is refused.
pub const MOST_RECORDS: usize = 1_000_000;

/// "through the screen with room enough": a message has at most 8,192 bytes where it is accepted, and "The output is always fewer than
/// 1,024 bytes longer than the message".
const ROOM: usize = 9216;

/// The field that a relay caller's message has.
const RELAY_MODE: &[u8] = b"X-Relay-Mode";

/// "a side byte, a two-byte length (high byte first) and the message"
#[derive(Clone, Copy, Debug, PartialEq, Eq)]
pub struct Record<'a> {
    pub side: u8,
    pub message: &'a [u8],
}

/// The whole records of a text in their order, and how it ends. "at any of them the report covers the whole records before it"
pub fn records(text: &[u8]) -> (Vec<Record<'_>>, u64) {
    let mut all = Vec::new();
    let mut left = text;
    loop {
        match next(left, all.len()) {
            Ok((record, rest)) => {
                all.push(record);
                left = rest;
            }
            Err(end) => return (all, end),
        }
    }
}

/// The record that starts here and what follows it, or how the text ends here: nothing left is 0. "Refusals: bad mark 31, record cut
/// short 32, a record after 1,000,000 33, in that order". "A lone 53 at the end is 32."
fn next(left: &[u8], before: usize) -> Result<(Record<'_>, &[u8]), u64> {
    if left.is_empty() {
        return Err(0);
    }
    if left.iter().zip(MARK).any(|(&byte, mark)| byte != mark) {
        return Err(31);
    }
    let whole = whole_record(left).ok_or(32u64)?;
    if before >= MOST_RECORDS {
        return Err(33);
    }
    Ok(whole)
}

/// The record and what follows it; None where it is cut short. The mark has been looked at.
fn whole_record(left: &[u8]) -> Option<(Record<'_>, &[u8])> {
    let side = *left.get(2)?;
    let (high, low) = (*left.get(3)?, *left.get(4)?);
    let end = 5 + usize::from(high) * 256 + usize::from(low);
    let message = left.get(5..end)?;
    Some((Record { side, message }, &left[end..]))
}

/// "a line each for callers with `X-Relay-Mode` (any case, at least once), for the others, and for messages with reasons 1 to 5, which
/// stand in no other line"
#[derive(Clone, Copy, Debug, PartialEq, Eq)]
pub enum Group {
    Relay,
    Other,
    Unread,
}

/// The groups in the order of their lines, each with its line's first word.
pub const GROUPS: [(Group, &str); 3] = [(Group::Relay, "relay"), (Group::Other, "other"), (Group::Unread, "unread")];

/// The group of a message and its reason, 0 where it is accepted; the table is kept (CR 8).
pub fn judged(message: &[u8], side: u64, table: &mut Table) -> (Group, u64) {
    let reason = screen(message, side, table, &mut [0; ROOM]).numbers()[0];
    let group = match reason {
        1..=5 => Group::Unread,
        _ if has_relay_mode(message) => Group::Relay,
        _ => Group::Other,
    };
    (group, reason)
}

/// "Names match in any letter case, whole".
fn has_relay_mode(message: &[u8]) -> bool {
    lines::read(message).is_ok_and(|lines| lines.fields.iter().any(|field| same_in_any_case(&field.name, RELAY_MODE)))
}

/// What became of each record: its group and its reason, in the order of the records.
pub type History = Vec<(Group, u64)>;

/// The history of a text, and how the text ends. CR 8: "A replay starts with none held."
pub fn history(text: &[u8]) -> (History, u64) {
    let (records, end) = records(text);
    let mut table = none_held();
    (records.iter().map(|record| judged(record.message, u64::from(record.side), &mut table)).collect(), end)
}

/// One line of the report in numbers: how many were accepted, and for each reason how many were refused with it, the reasons rising.
#[derive(Clone, Debug, PartialEq, Eq)]
pub struct Line {
    pub accepted: u64,
    pub refused: Vec<(u64, u64)>,
}

impl Line {
    /// "Each count is the history's".
    pub fn of(history: &History, group: Group) -> Line {
        let count = |reason: u64| history.iter().filter(|&&one| one == (group, reason)).count() as u64;
        let reasons: BTreeSet<u64> = history.iter().filter(|one| one.0 == group && one.1 != 0).map(|one| one.1).collect();
        Line { accepted: count(0), refused: reasons.into_iter().map(|reason| (reason, count(reason))).collect() }
    }

    /// "how many came, how many were accepted, the refusals per 10,000 rounded down (0 when none came), then `reason=count` for each
    /// count above 0, rising"; "accepted and refused make what came".
    pub fn written(&self, name: &str) -> String {
        let refused: u64 = self.refused.iter().map(|pair| pair.1).sum();
        let came = self.accepted + refused;
        let rate = if came == 0 { 0 } else { refused * 10_000 / came };
        let mut words = vec![name.to_string(), came.to_string(), self.accepted.to_string(), rate.to_string()];
        words.extend(self.refused.iter().filter(|pair| pair.1 > 0).map(|(reason, count)| format!("{reason}={count}")));
        words.join(" ") + "\n"
    }
}

/// The lines of the three groups; "The last line has the records read and the refusal or 0.".
pub fn written(lines: &[Line; 3], read: u64, end: u64) -> String {
    let mut text = String::new();
    for (line, (_, name)) in lines.iter().zip(GROUPS) {
        text += &line.written(name);
    }
    text + &format!("end {read} {end}\n")
}

/// The report of a history.
pub fn report_of(history: &History, end: u64) -> String {
    let lines = GROUPS.map(|(group, _)| Line::of(history, group));
    written(&lines, history.len() as u64, end)
}

/// What the program prints for this input.
pub fn report(text: &[u8]) -> String {
    let (history, end) = history(text);
    report_of(&history, end)
}
