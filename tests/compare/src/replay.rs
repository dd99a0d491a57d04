//! The replay (CR 3): single records, texts of records whole and damaged, and reports, library against second implementation. The table of
//! remembered calls (CR 8) goes from record to record.

use crate::counts::{Call, Counts, Met};
use crate::differences::{same, same_bytes};
use crate::guarded::{Against, Guarded};
use crate::library::{self, COUNTS};
use crate::messages::texts;
use crate::screening::{same_table, Lent, Said};
use crate::tally::{place, Tally};
use crate::watch::NOW;
use second::calls::TABLE;
use second::drafts::Dice;
use second::recorded::history::fixed_file;
use second::replay::{self, Group, Record, MOST_RECORDS};
use second::{none_held, Table};

/// A text has the records of so many messages.
const RECORDS: usize = 50;
/// "4,096 bytes are enough for any counts."
const ROOM: usize = 4096;
const MOST_TEXT: usize = 5 * (MOST_RECORDS + 2) + 70_000;

/// The memory lent to the library, and what was drawn since the last text.
pub struct Replay {
    text: Guarded,
    counts: Guarded,
    calls: Guarded,
    out: Guarded,
    drawn: Vec<(u8, Vec<u8>)>,
}

impl Replay {
    pub fn new() -> Replay {
        let [text, counts, calls, out] = [MOST_TEXT, 4 * COUNTS, TABLE, ROOM].map(Guarded::new);
        Replay { text, counts, calls, out, drawn: Vec::new() }
    }

    /// All that is not drawn.
    pub fn fixed(&mut self, met: &mut Counts) {
        for text in texts::short().into_iter().chain([fixed_file()]) {
            self.text(met, &text, Against::End);
            self.text(met, &text, Against::Start);
        }
        for text in texts::small() {
            self.at_every_place(met, &text);
        }
        self.million(met);
    }

    /// The text cut at every place, and damaged there.
    fn at_every_place(&mut self, met: &mut Counts, text: &[u8]) {
        for place in 0..=text.len() {
            self.text(met, &text[..place], Against::End);
            self.text(met, &text[..place], Against::Start);
        }
        for place in 0..text.len() {
            for byte in [0, 0xFF, 0x53, 0x4E, text[place] ^ 1, text[place] ^ 0x20] {
                let mut changed = text.to_vec();
                changed[place] = byte;
                self.text(met, &changed, Against::End);
            }
        }
    }

    /// A million records exactly, and what may stand behind them; with one more also one by one.
    fn million(&mut self, met: &mut Counts) {
        let shortest = b"SN\x01\0\0";
        let mut text = shortest.repeat(MOST_RECORDS);
        let whole = text.len();
        for behind in [&b""[..], shortest, b"S", b"N", b"SN\x01\0", b"SM\x01\0\0", b"SN\x00\0\x01x", b"SN\x01\0\x02x"] {
            text.truncate(whole);
            text.extend(behind);
            let tally = self.replay(met, &text, Against::End);
            if behind == shortest {
                self.one_by_one(met, &text, &tally, Against::End);
            }
        }
    }

    /// One drawn message as a record, and after each fiftieth a text of them.
    pub fn one(&mut self, met: &mut Counts, dice: &mut Dice, message: &[u8], lent: Lent, table: &Table) {
        self.take(met, dice, message, lent, table);
        let side = if dice.one_in(60) { dice.number() } else { lent.side };
        self.drawn.push(kept(side, message));
        if self.drawn.len() == RECORDS {
            let drawn = std::mem::take(&mut self.drawn);
            let text = texts::damaged(dice, &drawn);
            self.text(met, &text, lent.against);
        }
    }

    /// The messages of a history as a text.
    pub fn history(&mut self, met: &mut Counts, dice: &mut Dice, messages: &[(u64, Vec<u8>)], against: Against) {
        let records: Vec<(u8, Vec<u8>)> = messages.iter().map(|(side, message)| kept(*side, message)).collect();
        let text = texts::damaged(dice, &records);
        self.text(met, &text, against);
    }

    /// One record from any numbers and any table: the library's numbers and table afterwards, and now and then their report.
    fn take(&mut self, met: &mut Counts, dice: &mut Dice, message: &[u8], Lent { side, against, .. }: Lent, table: &Table) {
        let mut screened = *table;
        let judged = replay::judged(message, side, &mut screened);
        let before = Tally::drawn(dice, judged);
        let wanted = before.with(judged);
        // Where a record is not counted nothing changes, the table neither.
        let wanted_table = if wanted.read == before.read { *table } else { screened };
        self.calls.copy(table, against);
        let after = self.taken(met, &before, side, message, against);
        let lent = (side, &before);
        let said = Said(&lent, table);
        same("take_record (counts, read, end)", &after, &wanted, message, &said);
        same_table("take_record", self.calls.part(TABLE, against), &wanted_table, message, &said);
        met_taken(met, message, judged, &before, &wanted);
        met_table(met, message, judged.1, [table, &screened, &wanted_table]);
        if dice.one_in(8) {
            let most = *dice.pick(&[ROOM, 400]);
            let room = dice.below(most);
            self.report(met, &after, room, dice.number() as u8, against);
        }
    }

    /// What the library leaves of these numbers and one record more. Its table stays where it is for the next one.
    fn taken(&mut self, met: &mut Counts, before: &Tally, side: u64, message: &[u8], against: Against) -> Tally {
        met.call(Call::TakeRecord);
        let guarded = self.text.copy(message, against);
        let counts = self.counts.numbers(COUNTS, against);
        counts.copy_from_slice(&before.counts);
        NOW.set("take_record", guarded);
        let (read, end) = library::take_record(counts, (before.read, before.end), self.calls.part(TABLE, against), side, guarded);
        same_bytes("take_record, the message lent to it", guarded, message, message, "");
        Tally { counts: counts.to_vec(), read, end }
    }

    /// A text whole, and the same records one by one.
    fn text(&mut self, met: &mut Counts, text: &[u8], against: Against) {
        let tally = self.replay(met, text, against);
        self.one_by_one(met, text, &tally, against);
    }

    /// A text whole: what it counts, and its report.
    fn replay(&mut self, met: &mut Counts, text: &[u8], against: Against) -> Tally {
        let (history, end) = replay::history(text);
        let wanted = Tally::of(&history, end);
        let tally = self.replayed(met, text, against);
        same("replay (counts, read, end)", &tally, &wanted, text, &format!("{against:?}"));
        let written = replay::report_of(&history, end).into_bytes();
        self.report(met, &tally, 0, 0xA5, against);
        same_bytes("report, by the history", &wanted.written(), &written, text, "");
        met_text(met, &history, end);
        tally
    }

    fn replayed(&mut self, met: &mut Counts, text: &[u8], against: Against) -> Tally {
        met.call(Call::Replay);
        let guarded = self.text.copy(text, against);
        let counts = self.counts.numbers(COUNTS, against);
        counts.fill(0xDEAD_BEEF);
        NOW.set("replay", guarded);
        let (read, end) = library::replay(guarded, counts);
        same_bytes("replay, the text lent to it", guarded, text, text, "");
        Tally { counts: counts.to_vec(), read, end }
    }

    /// The records of a text, with one more where it ended with 33, leave the same counts, and after each of them the table that the second
    /// implementation has. Only that end is seen by them.
    fn one_by_one(&mut self, met: &mut Counts, text: &[u8], whole: &Tally, against: Against) {
        let (records, _) = replay::records(text);
        let mut tally = Tally::new();
        let mut table = none_held();
        self.calls.copy(&table, against);
        let more = records.last().filter(|_| whole.end == 33);
        for &Record { side, message } in records.iter().chain(more) {
            tally = self.taken(met, &tally, u64::from(side), message, against);
            if tally.end == 0 {
                replay::judged(message, u64::from(side), &mut table);
            }
            same_table("take_record, one by one", self.calls.part(TABLE, against), &table, message, "");
        }
        let end = if whole.end == 33 { 33 } else { 0 };
        same("take_record, one by one", &tally, &Tally { end, ..whole.clone() }, text, "");
    }

    /// The report of these numbers: room enough, exactly enough, one byte less, and this room.
    fn report(&mut self, met: &mut Counts, tally: &Tally, room: usize, filling: u8, against: Against) {
        let wanted = tally.written();
        for room in [ROOM, wanted.len(), wanted.len() - 1, room] {
            met.call(Call::Report);
            let counts = self.counts.numbers(COUNTS, against);
            counts.copy_from_slice(&tally.counts);
            let out = self.out.part(room, against);
            out.fill(filling);
            NOW.set("report", &[]);
            let length = library::report(counts, tally.read, tally.end, out);
            let enough = room >= wanted.len();
            let lent = format!("{tally:?}, room {room}");
            same("report, the length", &length, &if enough { wanted.len() } else { 0 }, &[], &lent);
            let mut after = vec![filling; room];
            if enough {
                after[..wanted.len()].copy_from_slice(&wanted);
            }
            same_bytes("report, the buffer", out, &after, &[], &lent);
            same("report, the counts lent to it", &counts.to_vec(), &tally.counts, &[], &lent);
        }
    }
}

/// What a record keeps of a side and a message.
fn kept(side: u64, message: &[u8]) -> (u8, Vec<u8>) {
    (side as u8, message[..message.len().min(65_535)].to_vec())
}

/// Counts what a record did to the table, and what it would have done.
fn met_table(met: &mut Counts, message: &[u8], reason: u64, [before, screened, after]: [&Table; 3]) {
    met.met(Met::TakenEntered, after != before && message.starts_with(b"INVITE "));
    met.met(Met::TakenRemoved, after != before && message.starts_with(b"BYE "));
    met.met(Met::TakenMeets32, reason == 18);
    met.met(Met::TakenNoMore, screened != before && after == before);
}

/// Counts what a record met that is seldom.
fn met_taken(met: &mut Counts, message: &[u8], (group, reason): (Group, u64), before: &Tally, after: &Tally) {
    let holds = |name: &[u8]| message.windows(name.len()).any(|part| part.eq_ignore_ascii_case(name));
    met.met(Met::TakenRelay, group == Group::Relay && reason == 0);
    met.met(Met::TakenRelayRefused, group == Group::Relay && reason != 0);
    met.met(Met::TakenNear, group == Group::Other && holds(b"X-Relay-Mod"));
    met.met(Met::TakenUnread, group == Group::Unread && holds(b"X-Relay-Mode:"));
    met.met(Met::TakenEnded, before.end != 0);
    met.met(Met::TakenOver, after.end != before.end);
    met.met(Met::TakenFull, after.read != before.read && before.counts[place((group, reason))] == u32::MAX);
}

/// Counts how a text ended, and the records of each line; a million would hide the others.
fn met_text(met: &mut Counts, history: &replay::History, end: u64) {
    for (ending, number) in [(Met::EndedWith0, 0), (Met::EndedWith31, 31), (Met::EndedWith32, 32), (Met::EndedWith33, 33)] {
        met.met(ending, end == number);
    }
    if history.len() == MOST_RECORDS {
        return;
    }
    met.met_often(Met::Read, history.len() as u64);
    met.met_often(Met::ReadMeets32, history.iter().filter(|one| one.1 == 18).count() as u64);
    for (line, group) in [(Met::ReadRelay, Group::Relay), (Met::ReadOther, Group::Other), (Met::ReadUnread, Group::Unread)] {
        met.met_often(line, history.iter().filter(|one| one.0 == group).count() as u64);
    }
}
