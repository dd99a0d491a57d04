//! Messages drawn at random so that every rule is reached, accepted ones too: good parts first, then at most a few faults, then maybe
//! damaged bytes. Half of them are requests, half are responses.

mod callers;
mod change;
mod damage;
mod faults;
mod folds;
mod identities;
mod odd;
mod pairs;
pub mod parameters;
mod relay;
mod steps;
mod tables;
pub mod texts;
mod values;

pub use callers::{shown, two_callers};
pub use change::harmless;
pub use damage::{cut_in_a_name, damage, noise};
pub use odd::{carrying, phrased, CARRIERS, ODD_BYTES};
pub use pairs::Pool;
pub use steps::{step, Step};
pub use tables::{before, drawn as table};
pub use values::is_token;

use second::drafts::{renamed, Dice, Draft, Whole, COLUMN_METHODS, REQUESTS, RESPONSES};
use second::profile::{self, COLUMNS, ROWS};
use second::start::Start;
use values::{called, pick, privacy, uri, value};

/// A message whose parts are known, for demand 3.
pub fn draft(dice: &mut Dice) -> Draft {
    let columns = if dice.one_in(2) { REQUESTS } else { RESPONSES };
    let column = columns.start + dice.below(columns.len());
    let draft = plain(dice, column);
    with_faults(dice, draft, column)
}

/// A message of the column, whose parts are good or nearly.
fn plain(dice: &mut Dice, column: usize) -> Draft {
    let mut draft = if REQUESTS.contains(&column) { request_line(dice, column) } else { status_line(dice, column) };
    all_fields(dice, &mut draft, column);
    body(dice, &mut draft);
    caller_fields(dice, &mut draft, column);
    if dice.one_in(3) {
        relay::strew(dice, &mut draft);
    }
    draft
}

/// The same with at most a few faults.
fn with_faults(dice: &mut Dice, mut draft: Draft, column: usize) -> Draft {
    for _ in 0..if dice.one_in(2) { 1 + dice.below(2) } else { 0 } {
        if REQUESTS.contains(&column) {
            faults::of_request(dice, &mut draft, column);
        } else {
            faults::of_response(dice, &mut draft, column);
        }
    }
    oddities(dice, draft)
}

fn request_line(dice: &mut Dice, column: usize) -> Draft {
    let mut draft = Draft::bare(COLUMN_METHODS[column], "");
    let text = if dice.one_in(3) { uri(dice) } else { called(dice) };
    draft.set_uri(&text);
    draft
}

/// A status that leads to the column, where the method does too.
fn status_line(dice: &mut Dice, column: usize) -> Draft {
    let any = *dice.pick(&[100, 180, 199, 200, 299, 300, 486, 699]);
    let code = match dice.below(3) {
        _ if column == RESPONSES.start => 200 + if dice.one_in(2) { 0 } else { dice.below(100) },
        0 => 100 + dice.below(600),
        _ => any,
    };
    let phrase = *dice.pick(&["OK", "", " ", "Busy Here", "\t a  b ", "SIP/2.0", "200 OK SIP/2.0", "\u{e9}\u{ff}~!\"\\", "a phrase of more than sixteen bytes, to be copied by words"]);
    Draft::bare_status(&code.to_string(), phrase)
}

fn all_fields(dice: &mut Dice, draft: &mut Draft, column: usize) {
    for row in &ROWS {
        let mandatory = profile::letter(row, COLUMNS[column]) == b'M';
        // How often P-Asserted-Identity comes again is drawn in `identities`.
        let again = row.repeats && row.number != 15 && dice.one_in(8);
        let times = if mandatory { 1 } else { usize::from(dice.one_in(3)) } + if again { 1 + dice.below(3) } else { 0 };
        for _ in 0..times {
            let field = field(dice, row.number, column);
            let place = if dice.one_in(3) { dice.below(draft.fields.len() + 1) } else { draft.fields.len() };
            draft.fields.insert(place, field);
        }
    }
    let listed = change::ignored_names(draft);
    for _ in 0..dice.below(3) {
        let place = dice.below(draft.fields.len() + 1);
        draft.fields.insert(place, change::ignored(dice, &listed));
    }
}

/// What an INVITE is masked by and what its caller is called by; elsewhere neither counts.
fn caller_fields(dice: &mut Dice, draft: &mut Draft, column: usize) {
    let invite = COLUMN_METHODS[column] == "INVITE";
    if invite && dice.one_in(2) {
        let value = privacy(dice);
        draft.set(16, &value);
    }
    if invite && dice.one_in(10) {
        folds::withhold(dice, draft);
    }
    if dice.one_in(if invite { 3 } else { 12 }) {
        identities::fields(dice, draft);
    }
    if invite && dice.one_in(10) {
        let value = folds::folded_identity(dice);
        draft.set(15, &value);
    }
}

/// Names that nearly are listed, odd bytes, and values as long as a message can hold.
fn oddities(dice: &mut Dice, mut draft: Draft) -> Draft {
    if dice.one_in(12) {
        damage::near_miss(dice, &mut draft);
    }
    if dice.one_in(40) {
        let (length, place) = odd::odd_place(dice);
        let carrier = dice.pick(&CARRIERS);
        draft = carrying(&draft, carrier, length, place, *dice.pick(&ODD_BYTES), dice.below(BLANKS.len()));
    }
    if dice.one_in(60) {
        stretch(dice, &mut draft);
    }
    draft
}

fn field(dice: &mut Dice, number: u64, column: usize) -> Whole {
    let value = value(dice, number, column);
    with_value(dice, number, &value)
}

/// A field of this number and value, its name and the blanks around its value in any form.
fn with_value(dice: &mut Dice, number: u64, value: &[u8]) -> Whole {
    let name = profile::row_of_number(number).map_or("X", |row| row.name).as_bytes();
    let name = if dice.one_in(3) { renamed(dice, name) } else { name.to_vec() };
    let mut rest = if dice.one_in(3) { pick(dice, &[" :", "\t: \t", ":\r\n ", ": \r\n\t\r\n "]) } else { pick(dice, &BLANKS) };
    rest.extend(value);
    rest.extend(if dice.one_in(3) { pick(dice, &[" \r\n", "  \r\n", "\t\r\n", " \t\r\n", "\r\n \r\n"]) } else { b"\r\n".to_vec() });
    Whole { name, rest }
}

/// A colon and the blanks that mostly follow it.
pub const BLANKS: [&str; 4] = [":", ": ", ":  ", ":\t"];

/// A body and its fields, mostly agreeing.
fn body(dice: &mut Dice, draft: &mut Draft) {
    if dice.one_in(2) {
        return;
    }
    let length = if dice.one_in(30) { dice.below(7000) } else { dice.below(60) };
    draft.body = (0..length).map(|_| dice.number() as u8).collect();
    if !dice.one_in(12) {
        draft.set(9, b"application/sdp");
    }
    match dice.below(6) {
        0 => *draft = draft.without(8),
        1 => draft.set(8, dice.below(length + 2).to_string().as_bytes()),
        2 => draft.set(8, format!("{length:05}").as_bytes()),
        _ => draft.set(8, length.to_string().as_bytes()),
    }
}

/// One value, or the phrase, made long: up to the most that a message may have and a little over.
fn stretch(dice: &mut Dice, draft: &mut Draft) {
    let number = *dice.pick(&[1, 3, 4, 10, 14, 15, 16, 17]);
    let (front, piece, back) = match number {
        3 | 4 => *dice.pick(&[("\"", "\\\"", "\" <sip:h>;tag=1"), ("<sip:h;", "%41", ">;tag=1"), ("<sip:h>;tag=1", ";a=\"b\"", ""), ("", "a ", "<sip:h>;tag=1"), ("<sip:h>", " ", ";tag=1")]),
        14 => ("", "timer , ", *dice.pick(&["timer", "x"])),
        15 => *dice.pick(&[
            ("", "a ", "<sip:+1234567@h>"), ("<tel:+1234567>", " ", ",<sip:+1234567@h>"), ("<tel:+1234567>,", "\r\n ", "sip:+1234567@h"), ("\"", ",", "\"<tel:+1234567>,<sip:+1234567@h>"),
            ("<tel:+1234567>,<sip:+1234567@h;", "a", ">"), ("<sip:+1234567@h>", ",<tel:+1234567>", ""),
        ]),
        16 => *dice.pick(&[("", "x ;\t", "id"), ("", "none;", "USER"), ("none", "\r\n ;x", ";Header"), ("header", ";x", ""), ("User\t", ";\r\n none", ""), ("", "users;", "username")]),
        _ => *dice.pick(&[("", "a", ""), ("", "\r\n ", "x"), ("", "x\r\n\t", "x"), ("", " ", "x"), ("x", " ", "")]),
    };
    let room = 8192usize.saturating_sub(draft.bytes().len());
    if let (Start::Status { phrase, .. }, true) = (&mut draft.start, dice.one_in(4)) {
        phrase.resize(phrase.len() + dice.below(room + 3), b'p');
        return;
    }
    let times = dice.below(room / piece.len() + 3);
    draft.set(number, format!("{front}{}{back}", piece.repeat(times)).as_bytes());
}
