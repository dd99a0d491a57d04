//! The page's section "Causes" with CR 4, "A cause table people can read": both tables as lists of pairs, looked up from the front, and
//! what the program `cause_map` prints. Where the page is silent about the program, docs/DECISIONS.md is quoted.

/// "Cause to status": the entries of the page, one status with its causes.
const STATUS_ENTRIES: [(u64, &[u64]); 8] = [
    (404, &[5, 91, 1]),
    (486, &[17]),
    (480, &[18, 19, 20, 21, 25, 31, 34, 102]),
    (410, &[22]),
    (502, &[27]),
    (484, &[28]),
    (503, &[2, 3, 4, 29, 38, 41, 42, 43, 44, 47, 50, 57, 58, 63, 65, 70, 79, 88, 95, 97, 99]),
    (500, &[111, 127]),
];

/// "the row of its class end"
const CLASS_ENDS: [u64; 7] = [31, 47, 63, 79, 95, 111, 127];

/// "Status to cause (RFC 3398)": the entries of the page, one cause with its statuses.
const CAUSE_ENTRIES: [(u64, &[u64]); 12] = [
    (1, &[404, 485, 604]),
    (17, &[486, 600]),
    (18, &[480]),
    (21, &[401, 402, 403, 407, 603]),
    (22, &[410]),
    (25, &[482, 483]),
    (28, &[484]),
    (38, &[502]),
    (41, &[400, 481, 500, 503]),
    (63, &[405]),
    (79, &[406, 415, 501]),
    (102, &[408, 504]),
];

fn named(entries: &[(u64, &[u64])], wanted: u64) -> Option<u64> {
    entries.iter().find(|(_, members)| members.contains(&wanted)).map(|(answer, _)| *answer)
}

/// "hand back beside it the cause whose row gave it (0 at 21)"
#[derive(Clone, Copy, Debug, PartialEq, Eq)]
pub struct Answer {
    pub status: u64,
    pub row: u64,
    pub refusal: u64,
}

/// The status of a cause, with its row, or the refusal. "work it out from the listed causes and the class-end rule"
pub fn status_of_cause(cause: u64) -> Answer {
    let row = row_of(cause);
    let status = row.and_then(|row| named(&STATUS_ENTRIES, row));
    match (row, status) {
        (Some(row), Some(status)) => Answer { status, row, refusal: 0 },
        _ => Answer { status: 0, row: 0, refusal: 21 },
    }
}

/// The cause whose row gives the status. A listed one is its own: "Any other takes the row of its class end: 31, 47, 63, 79, 95, 111,
/// 127, whichever is next above." None for those of which the page says "Over 127: refusal 21, status 0."
fn row_of(cause: u64) -> Option<u64> {
    if cause > 127 {
        return None;
    }
    let listed = named(&STATUS_ENTRIES, cause).is_some();
    if listed { Some(cause) } else { CLASS_ENDS.into_iter().find(|&end| end > cause) }
}

/// The cause of a status, and the refusal: "Outside: refusal 22, cause 0."
pub fn cause_of_status(status: u64) -> (u64, u64) {
    if !(400..=699).contains(&status) {
        return (0, 22);
    }
    (named(&CAUSE_ENTRIES, status).unwrap_or(127), 0)
}

/// What the program `cause_map` prints for its whole input: the table for no byte at all, the answer for one cause, else that it is none.
pub fn printed(input: &[u8]) -> String {
    if input.is_empty() {
        return (0..=127).map(table_line).collect();
    }
    match cause_in(input).map(status_of_cause) {
        Some(Answer { status, row, refusal }) => format!("{status} {row} {refusal}\n"),
        None => "not a number of 1 to 19 digits\n".to_string(),
    }
}

/// Cause, status and row, "each right-aligned in three places and parted by a space", then ` *` where the cause has a row of its own.
fn table_line(cause: u64) -> String {
    let Answer { status, row, .. } = status_of_cause(cause);
    let own = if row == cause { " *" } else { "" };
    format!("{cause:>3} {status:>3} {row:>3}{own}\n")
}

/// "A line of 1 to 19 decimal digits, ended by LF or by nothing, is a cause": no such number is too large for 64 bits.
fn cause_in(input: &[u8]) -> Option<u64> {
    let digits = input.strip_suffix(b"\n").unwrap_or(input);
    let is_cause = (1..=19).contains(&digits.len()) && digits.iter().all(u8::is_ascii_digit);
    is_cause.then(|| digits.iter().fold(0, |number, digit| number * 10 + u64::from(digit - b'0')))
}
