//! Causes and statuses (CR 4), and the trunk's causes (CR 7), libraries against second implementation.

use crate::counts::{Call, Counts, Met};
use crate::differences::same;
use crate::isup_library;
use crate::library::{self, BEFORE};
use crate::watch::NOW;
use second::causes::Answer;
use second::drafts::Dice;

/// What stands where row and refusal go before a call that is not drawn: what no answer has, and what only another answer has.
const STOOD: [[u64; 2]; 4] = [[BEFORE, BEFORE], [0, 0], [31, 21], [u64::MAX, 22]];
/// A number that is cut to so many bits could be a cause or a status.
const WIDTHS: [u32; 7] = [7, 8, 10, 16, 31, 32, 63];

/// All that is not drawn.
pub fn fixed(met: &mut Counts) {
    let far = WIDTHS.into_iter().flat_map(|width| beside(1 << width));
    for number in (0..2000).chain(far).chain(u64::MAX - 300..=u64::MAX) {
        for before in STOOD {
            both(met, number, before);
        }
    }
}

/// A power of two, its neighbours, and what is a telling cause or status above it.
fn beside(edge: u64) -> [u64; 9] {
    [edge - 2, edge - 1, edge, edge + 1, edge + 17, edge + 26, edge + 127, edge + 128, edge + 404]
}

/// A drawn number, over what is drawn too.
pub fn one(met: &mut Counts, dice: &mut Dice) {
    let number = drawn(dice);
    let before = [stood(dice), stood(dice)];
    let answer = both(met, number, before);
    met.met(Met::CauseListed, answer.row == number && answer.refusal == 0);
    met.met(Met::CauseOfClass, answer.row > number && answer.refusal == 0);
    met.met(Met::CauseOver, (128..400).contains(&number) && answer.refusal == 21);
    met.met(Met::CauseCut, number > 1 << 32 && number as u32 <= 127 && answer.refusal == 21);
    met.met(Met::RowStood, (1..=127).contains(&before[0]) && answer.row != before[0]);
    met.met(Met::RefusalStood, before[1] == 21 && answer.refusal == 0);
}

/// Causes, statuses, numbers of every length, and those that would be a cause or a status with fewer bits.
fn drawn(dice: &mut Dice) -> u64 {
    let small = if dice.one_in(2) { dice.below(128) } else { dice.below(800) } as u64;
    match dice.below(10) {
        0 => dice.number() >> dice.below(64),
        1 => (dice.number() << *dice.pick(&WIDTHS)) | small,
        _ => small,
    }
}

/// What may stand in an answer, or anything.
fn stood(dice: &mut Dice) -> u64 {
    if dice.one_in(2) { dice.below(128) as u64 } else { dice.number() }
}

/// One number as a cause, as a status, and as a cause from the trunk.
fn both(met: &mut Counts, number: u64, before: [u64; 2]) -> Answer {
    met.call(Call::StatusOfCause);
    met.call(Call::CauseOfStatus);
    NOW.set("status_of_cause", b"");
    let answer = library::status_of_cause(number, before);
    same("status_of_cause", &answer, &second::status_of_cause(number), &[], &format!("cause {number}, before row and refusal {before:?}"));
    NOW.set("cause_of_status", b"");
    let cause = library::cause_of_status(number, before[1]);
    same("cause_of_status (cause, refusal)", &cause, &second::cause_of_status(number), &[], &format!("status {number}, before {}", before[1]));
    met.call(Call::IsupStatus);
    NOW.set("isup_status", b"");
    let status = isup_library::status(number, before[1]);
    same("isup_status (status, refusal)", &status, &second::isup::status(number), &[], &format!("cause {number}, before {}", before[1]));
    answer
}
