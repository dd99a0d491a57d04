//! `screen` and `end_call`, library against second implementation. Each keeps a table of its own from call to call, and every byte of both
//! tables is compared after each call.

use crate::counts::{Call, Counts};
use crate::differences::{differs, escaped, same, same_bytes};
use crate::guarded::{Against, Guarded};
use crate::library;
use crate::remembered::Shown;
use crate::watch::NOW;
use second::calls::{Pair, TABLE};
use second::drafts::Dice;
use second::{none_held, Table};
use std::fmt::{self, Display, Formatter};

const MOST_MESSAGE: usize = 70_000;
pub const MOST_ROOM: usize = 12_288;
/// The longest text of an explicit end.
pub const MOST_TEXT: usize = 4096;
/// Room enough for every message.
pub const ROOM: usize = 9216;

/// The memory lent to the library, and the second implementation's table.
pub struct Screening {
    message: Guarded,
    out: Guarded,
    calls: Guarded,
    call_id: Guarded,
    tag: Guarded,
    against: Against,
    table: Table,
}

/// One call of `screen`: what goes in beside the message and the table.
#[derive(Clone, Copy, Debug)]
pub struct Lent {
    pub side: u64,
    pub room: usize,
    pub filling: u8,
    pub against: Against,
}

/// All that a call answers: the five numbers, the buffer, and "the table after is part of the answer". Of an end it is one number and the table.
#[derive(Clone, PartialEq)]
pub struct Answer {
    pub numbers: [u64; 5],
    pub out: Vec<u8>,
    pub after: Table,
}

impl Answer {
    /// The message that goes out.
    pub fn outgoing(&self) -> &[u8] {
        &self.out[..self.numbers[4] as usize]
    }
}

impl Lent {
    /// A room that is enough, exact, one byte short, or anything; with this table before.
    pub fn drawn(dice: &mut Dice, side: u64, message: &[u8], table: &Table) -> Lent {
        let need = |table: &Table| second::screen(message, side, &mut table.clone(), &mut [0; MOST_ROOM]).numbers()[4] as usize;
        let room = match dice.below(8) {
            0 => need(table),
            1 if dice.one_in(2) => need(table).saturating_sub(1),
            // What would do for a caller whom the table does not hide, or one byte less.
            1 if dice.one_in(2) => need(&none_held()).saturating_sub(dice.below(2)),
            2 if dice.one_in(4) => dice.below(MOST_ROOM),
            3 if dice.one_in(8) => dice.below(3),
            _ => ROOM,
        };
        Lent { side, room, filling: dice.number() as u8, against: Against::drawn(dice) }
    }
}

/// What was lent, and the table before, for a difference.
pub struct Said<'a>(pub &'a dyn fmt::Debug, pub &'a Table);

impl Display for Said<'_> {
    fn fmt(&self, to: &mut Formatter) -> fmt::Result {
        write!(to, "{:?}\ntable before:{}", self.0, Shown(self.1))
    }
}

impl Screening {
    pub fn new() -> Screening {
        let [message, out, calls, call_id, tag] = [MOST_MESSAGE, MOST_ROOM, TABLE, MOST_TEXT, MOST_TEXT].map(Guarded::new);
        Screening { message, out, calls, call_id, tag, against: Against::End, table: none_held() }
    }

    /// Both begin anew with this table.
    pub fn start(&mut self, table: &Table, against: Against) {
        self.calls.copy(table, against);
        self.against = against;
        self.table = *table;
    }

    /// The table as it stands.
    pub fn table(&self) -> &Table {
        &self.table
    }

    /// A message that comes alone, with this table before.
    pub fn alone(&mut self, met: &mut Counts, message: &[u8], lent: Lent, table: &Table) -> Answer {
        self.start(table, lent.against);
        self.next(met, message, lent)
    }

    /// The next message: the library's answer, held to that of the second implementation.
    pub fn next(&mut self, met: &mut Counts, message: &[u8], lent: Lent) -> Answer {
        met.call(Call::Screen);
        let before = self.table;
        let guarded = self.message.copy(message, lent.against);
        let calls = self.calls.part(TABLE, self.against);
        let out = self.out.part(lent.room, lent.against);
        out.fill(lent.filling);
        NOW.set("screen", guarded);
        let numbers = library::screen(guarded, lent.side, calls, out);
        let mut wanted_out = vec![lent.filling; lent.room];
        let wanted = second::screen(message, lent.side, &mut self.table, &mut wanted_out).numbers();
        let said = Said(&lent, &before);
        same("screen (reason, reply, detail, missing, length)", &numbers, &wanted, message, &said);
        same_bytes("screen, the buffer", out, &wanted_out, message, &said);
        same_table("screen", calls, &self.table, message, &said);
        same_bytes("screen, the message lent to it", guarded, message, message, &said);
        Answer { numbers, out: wanted_out, after: self.table }
    }

    /// An explicit end: the library's answer, held to that of the second implementation.
    pub fn end(&mut self, met: &mut Counts, pair: &Pair, against: Against) -> Answer {
        met.call(Call::EndCall);
        let before = self.table;
        let call_id = self.call_id.copy(&pair.call_id, against);
        let tag = self.tag.copy(&pair.tag, against);
        let calls = self.calls.part(TABLE, self.against);
        NOW.set("end_call", call_id);
        let number = library::end_call(calls, call_id, tag);
        let wanted = second::end_call(&mut self.table, &pair.call_id, &pair.tag);
        let texts = [&pair.call_id, &pair.tag].map(|text| escaped(text));
        let said = Said(&texts, &before);
        same("end_call", &number, &wanted, &pair.call_id, &said);
        same_table("end_call", calls, &self.table, &pair.call_id, &said);
        same_bytes("end_call, the Call-ID lent to it", call_id, &pair.call_id, &pair.call_id, &said);
        same_bytes("end_call, the tag lent to it", tag, &pair.tag, &pair.call_id, &said);
        Answer { numbers: [number, 0, 0, 0, 0], out: Vec::new(), after: self.table }
    }

    /// Both messages with the same table before have the same answer, library against library, and the second implementation too. Hands it back.
    pub fn same_answer(&mut self, met: &mut Counts, what: &str, [message, changed]: [&[u8]; 2], lent: Lent, table: &Table) -> Answer {
        let answer = self.alone(met, message, lent, table);
        let other = self.alone(met, changed, lent, table);
        hold_same(what, &other, &answer, [message, changed], table);
        answer
    }
}

/// The answers to two messages, or to two ends, are the same.
pub fn hold_same(what: &str, answer: &Answer, wanted: &Answer, [message, changed]: [&[u8]; 2], table: &Table) {
    if answer == wanted {
        return;
    }
    let from = escaped(message);
    let said = Said(&from, table);
    same(what, &answer.numbers, &wanted.numbers, changed, &said);
    same_bytes(&format!("{what}, the buffer"), &answer.out, &wanted.out, changed, &said);
    same_table(what, &answer.after, &wanted.after, changed, &said);
}

/// Every byte of both tables is the same.
pub fn same_table(what: &str, library: &[u8], second: &Table, message: &[u8], said: impl Display) {
    if library != second {
        let place = library.iter().zip(second).position(|(a, b)| a != b).unwrap_or(TABLE);
        let whole: Table = library.try_into().expect("a whole table");
        let [library, second] = [&whole, second].map(|table| Shown(table).to_string());
        differs(&format!("{what}, the table, first other byte {place}"), &library, &second, message, &said.to_string());
    }
}
