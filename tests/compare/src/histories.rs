//! Histories of calls (CR 8), library against second implementation: 20 to 200 messages and explicit ends that come to one table.

use crate::counts::{Call, Counts, Kind, Met};
use crate::differences::same;
use crate::guarded::Against;
use crate::messages::{self, Pool, Step};
use crate::remembered::{ill_formed, is_well_formed, looks_held, Remembered, Screened, Shown};
use crate::screening::{hold_same, Answer, Screening};
use second::calls::{Pair, PLACES};
use second::drafts::Dice;
use second::{none_held, Table};

/// A step that was taken: the table before, and the answer.
struct Taken {
    step: Step,
    before: Table,
    answer: Answer,
}

/// Takes a drawn history, and now and then the same with other names and more fields. Hands back its messages with their sides.
pub fn one(met: &mut Counts, screening: &mut Screening, dice: &mut Dice) -> Vec<(u64, Vec<u8>)> {
    let pool = Pool::drawn(dice);
    let table = if dice.one_in(2) { none_held() } else { messages::table(dice, &|dice| pool.pair(dice)) };
    let against = Against::drawn(dice);
    met.call(Call::History);
    count_table(met, &table);
    screening.start(&table, against);
    let more = *dice.pick(&[20, 60, 181]);
    let taken: Vec<Taken> = (0..20 + dice.below(more)).map(|_| take(met, screening, dice, &pool)).collect();
    met.met(Met::HistoryFills, table == none_held() && taken.iter().any(|taken| taken.answer.numbers[0] == 18));
    if dice.one_in(3) {
        screening.start(&table, against);
        met.call(Call::ChangedHistory);
        for taken in &taken {
            take_changed(met, screening, dice, taken);
        }
    }
    taken.into_iter().filter_map(message).collect()
}

fn message(taken: Taken) -> Option<(u64, Vec<u8>)> {
    match taken.step {
        Step::Message { message, lent, .. } => Some((lent.side, message)),
        Step::End { .. } => None,
    }
}

/// Counts what a history starts from.
fn count_table(met: &mut Counts, table: &Table) {
    let held = Remembered::of(table);
    met.met(Met::HistoryFromNone, *table == none_held());
    met.met(Met::HistoryFromFull, held.is_full());
    met.met(Met::HistoryFromCopies, held.has_copies());
    met.met(Met::HistoryFromIllFormed, ill_formed(table) > 0);
    met.met(Met::HistoryFromAny, ill_formed(table) > PLACES / 2);
}

/// One more step.
fn take(met: &mut Counts, screening: &mut Screening, dice: &mut Dice, pool: &Pool) -> Taken {
    let before = *screening.table();
    let step = messages::step(dice, pool, &before);
    met.call(Call::Step);
    let answer = match &step {
        Step::Message { message, lent, .. } => {
            let answer = screening.next(met, message, *lent);
            met.reason_alone(Kind::Step, answer.numbers[0]);
            if let Some(screened) = Screened::of(message, *lent, &before, &answer) {
                screened.hold_to_the_page();
                screened.count(met);
            }
            answer
        }
        Step::End { pair, against } => {
            let answer = screening.end(met, pair, *against);
            met.reason_alone(Kind::End, answer.numbers[0]);
            hold_end_to_the_page(pair, &before, &answer);
            count_end(met, pair, &before);
            answer
        }
    };
    Taken { step, before, answer }
}

/// The same step of the same history with harmless fields and other names (demand 3): the same answer, buffer and table.
fn take_changed(met: &mut Counts, screening: &mut Screening, dice: &mut Dice, Taken { step, before, answer }: &Taken) {
    match step {
        Step::End { pair, against } => {
            let other = screening.end(met, pair, *against);
            hold_same("end_call, names and extra fields of a history changed", &other, answer, [&pair.call_id; 2], before);
        }
        Step::Message { draft, message, lent } => {
            let changed = draft.as_ref().and_then(|draft| messages::harmless(dice, draft, message)).unwrap_or(message.clone());
            let other = screening.next(met, &changed, *lent);
            hold_same("screen, names and extra fields of a history changed", &other, answer, [message, &changed], before);
            met.met(Met::ChangedHistoryTable, changed != *message && answer.after != *before);
        }
    }
}

/// "an explicit end removes it"; "Ending an unknown pair: 19".
fn hold_end_to_the_page(pair: &Pair, table: &Table, answer: &Answer) {
    let before = Remembered::of(table);
    let hold = |what: &str, really: bool| same(&format!("end_call, {what}"), &really, &true, &pair.call_id, Shown(table));
    let mut pairs = before.pairs();
    let wanted = if pairs.remove(pair) { 0 } else { 19 };
    hold("0 where the pair is held, else 19", answer.numbers[0] == wanted);
    hold("the pairs held afterwards", Remembered::of(&answer.after).pairs() == pairs);
    hold("19 changes nothing", wanted == 0 || answer.after == *table);
}

/// Counts what was ended.
fn count_end(met: &mut Counts, pair: &Pair, table: &Table) {
    let before = Remembered::of(table);
    let Pair { call_id, tag } = pair;
    let copies = before.copies(pair);
    met.met(Met::EndedOne, copies == 1);
    met.met(Met::EndedCopies, copies > 1);
    let [shortest, longest] = [call_id.len().min(tag.len()), call_id.len().max(tag.len())];
    let well_formed = is_well_formed(call_id, tag);
    met.met(Met::EndedUnknown, copies == 0 && well_formed);
    met.met(Met::EndedNear, copies == 0 && well_formed && before.has_near(pair));
    met.met(Met::EndedEmpty, shortest == 0);
    met.met(Met::EndedLong, shortest > 0 && (call_id.len() == 129 || tag.len() == 65));
    met.met(Met::EndedOver255, longest > 255);
    met.met(Met::EndedOtherByte, shortest > 0 && call_id.len() <= 128 && tag.len() <= 64 && !well_formed);
    met.met(Met::EndedLooksHeld, copies == 0 && looks_held(table, pair));
}
