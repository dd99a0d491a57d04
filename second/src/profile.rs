//! The page's section "The profile", with the columns of responses (CR 1): the table row by row, and the column of a message.

use crate::classes::same_in_any_case;

/// One row of the table. `requests` holds one letter for each of INVITE, re, ACK, BYE, CANCEL, OPTIONS, and `responses` one for those to
/// INVITE from 200 to 299, to CANCEL, and all others.
pub struct Row {
    pub number: u64,
    pub name: &'static str,
    pub compact: &'static str,
    pub requests: &'static str,
    pub responses: &'static str,
    pub repeats: bool,
}

type Text = &'static str;

const fn row(number: u64, name: Text, compact: Text, requests: Text, responses: Text, repeats: bool) -> Row {
    Row { number, name, compact, requests, responses, repeats }
}

/// The 18 rows. An empty compact form means that there is none. P-Asserted-Identity repeats since CR 6: "reason 9 never names 15".
pub const ROWS: [Row; 18] = [
    row(1, "Via", "v", "MMMMMM", "MMM", true),
    row(2, "Max-Forwards", "", "MMMMMM", "---", false),
    row(3, "From", "f", "MMMMMM", "MMM", false),
    row(4, "To", "t", "MMMMMM", "MMM", false),
    row(5, "Call-ID", "i", "MMMMMM", "MMM", false),
    row(6, "CSeq", "", "MMMMMM", "MMM", false),
    row(7, "Contact", "m", "MMS--S", "M-S", false),
    row(8, "Content-Length", "l", "SSSSSS", "SSS", false),
    row(9, "Content-Type", "c", "BBBB-B", "B-B", false),
    row(10, "Route", "", "SSSSSS", "---", true),
    row(11, "Reason", "", "---SS-", "S-S", true),
    row(12, "Allow", "", "MS-S-S", "S-S", true),
    row(13, "Supported", "k", "SS-S-S", "S-S", true),
    row(14, "Require", "", "SS-S-S", "S-S", true),
    row(15, "P-Asserted-Identity", "", "MS----", "---", true),
    row(16, "Privacy", "", "SS----", "---", false),
    row(17, "Accept", "", "SS---S", "S-S", true),
    row(18, "Record-Route", "", "SS----", "S-S", true),
];

/// The columns, in the order of the table.
#[derive(Clone, Copy, Debug, PartialEq)]
pub enum Column {
    Invite,
    Re,
    Ack,
    Bye,
    Cancel,
    Options,
    InviteSuccess,
    CancelResponse,
    OtherResponse,
}

/// "Methods match exactly." An INVITE starts in its first column; `request` moves it to "re".
pub fn column_of_request(method: &[u8]) -> Option<Column> {
    match method {
        b"INVITE" => Some(Column::Invite),
        b"ACK" => Some(Column::Ack),
        b"BYE" => Some(Column::Bye),
        b"CANCEL" => Some(Column::Cancel),
        b"OPTIONS" => Some(Column::Options),
        _ => None,
    }
}

/// CR 1: "for INVITE, Contact is mandatory from 200 to 299"; ACK is unknown here.
pub fn column_of_response(status: u64, method: &[u8]) -> Option<Column> {
    match method {
        b"INVITE" if (200..=299).contains(&status) => Some(Column::InviteSuccess),
        b"CANCEL" => Some(Column::CancelResponse),
        b"INVITE" | b"BYE" | b"OPTIONS" => Some(Column::OtherResponse),
        _ => None,
    }
}

/// "Names match in any letter case, whole, in long or compact form." 0 is a name not listed.
pub fn number_of_name(name: &[u8]) -> u64 {
    for row in &ROWS {
        let long = same_in_any_case(name, row.name.as_bytes());
        let short = !row.compact.is_empty() && same_in_any_case(name, row.compact.as_bytes());
        if long || short {
            return row.number;
        }
    }
    0
}

/// The row of a number from 1 to 18.
pub fn row_of_number(number: u64) -> Option<&'static Row> {
    ROWS.iter().find(|row| row.number == number)
}

/// All columns, in the order of the table: six of requests, then three of responses.
pub const COLUMNS: [Column; 9] = [
    Column::Invite,
    Column::Re,
    Column::Ack,
    Column::Bye,
    Column::Cancel,
    Column::Options,
    Column::InviteSuccess,
    Column::CancelResponse,
    Column::OtherResponse,
];

/// The letter of a row in a column: M, S, B or -.
pub fn letter(row: &Row, column: Column) -> u8 {
    let (letters, place) = match column {
        Column::Invite => (row.requests, 0),
        Column::Re => (row.requests, 1),
        Column::Ack => (row.requests, 2),
        Column::Bye => (row.requests, 3),
        Column::Cancel => (row.requests, 4),
        Column::Options => (row.requests, 5),
        Column::InviteSuccess => (row.responses, 0),
        Column::CancelResponse => (row.responses, 1),
        Column::OtherResponse => (row.responses, 2),
    };
    letters.as_bytes()[place]
}

/// "- ignored. Names not listed are ignored too."
pub fn is_ignored(number: u64, column: Column) -> bool {
    match row_of_number(number) {
        Some(row) => letter(row, column) == b'-',
        None => true,
    }
}

/// M, or B where the body after cutting is not empty.
pub fn is_mandatory(row: &Row, column: Column, body_empty: bool) -> bool {
    match letter(row, column) {
        b'M' => true,
        b'B' => !body_empty,
        _ => false,
    }
}
