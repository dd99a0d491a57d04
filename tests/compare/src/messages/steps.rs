//! The steps of a history (CR 8): messages of calls that meet, in every spelling, some with faults, and explicit ends.

use super::callers::{allowed, from};
use super::folds::withholding;
use super::pairs::{ill_formed, near, Pool};
use super::values::{blanks, privacy, way};
use super::{damage, plain, with_faults, with_value};
use crate::guarded::Against;
use crate::remembered::Remembered;
use crate::screening::Lent;
use second::calls::{Pair, LONGEST_CALL_ID, LONGEST_TAG, PLACE};
use second::drafts::{Dice, Draft, REQUESTS, RESPONSES};
use second::Table;

/// The places of the columns of INVITE and BYE, as `drafts` counts them.
const INVITES: usize = 2;
const BYE: usize = 3;

pub enum Step {
    /// The draft is there where the message has its bytes.
    Message { draft: Option<Draft>, message: Vec<u8>, lent: Lent },
    End { pair: Pair, against: Against },
}

/// What comes next, with this table before.
pub fn step(dice: &mut Dice, pool: &Pool, table: &Table) -> Step {
    let opens = pool.opens(dice);
    if !opens && dice.one_in(8) {
        return Step::End { pair: ended(dice, pool, table), against: Against::drawn(dice) };
    }
    let drafted = of_call(dice, pool, opens);
    let (mut draft, mut message) = (None, drafted.bytes());
    if dice.one_in(20) {
        damage(dice, &mut message);
    } else {
        draft = Some(drafted);
    }
    let side = match dice.below(60) {
        0 => *dice.pick(&[2, 256, 257, 1 << 32, u64::MAX]),
        1..=10 => 0,
        _ => 1,
    };
    let lent = Lent::drawn(dice, side, &message, table);
    Step::Message { draft, message, lent }
}

/// A message of one of the calls, which may open it.
fn of_call(dice: &mut Dice, pool: &Pool, opens: bool) -> Draft {
    let column = if opens { dice.below(INVITES) } else { any_column(dice) };
    let mut draft = match dice.below(8) {
        0 => plain(dice, column),
        1..=3 => Draft::full(column),
        _ => Draft::least(column),
    };
    let asked = if opens { way(dice) } else { any_privacy(dice) };
    if !asked.is_empty() {
        put(dice, &mut draft, 16, &asked);
    }
    if column < INVITES && dice.one_in(4) {
        let identities = allowed(dice, 1).concat();
        put(dice, &mut draft, 15, &identities);
    }
    let Pair { call_id, tag } = pool.pair(dice);
    let from = if dice.one_in(2) { from(dice, &tag) } else { [b"<sip:+331876543@a>;tag=", &tag[..]].concat() };
    put(dice, &mut draft, 3, &from);
    let call_id = [blanks(dice), call_id, blanks(dice)].concat();
    put(dice, &mut draft, 5, &call_id);
    if dice.one_in(6) { with_faults(dice, draft, column) } else { draft }
}

/// Often INVITE and BYE, else any request or response.
fn any_column(dice: &mut Dice) -> usize {
    match dice.below(16) {
        0..=6 => dice.below(INVITES),
        7..=9 => BYE,
        10..=12 => REQUESTS.start + dice.below(REQUESTS.len()),
        _ => RESPONSES.start + dice.below(RESPONSES.len()),
    }
}

/// A Privacy, often one that withholds; empty for none.
fn any_privacy(dice: &mut Dice) -> Vec<u8> {
    match dice.below(8) {
        0..=2 => way(dice),
        3 => withholding(dice),
        4 => privacy(dice),
        _ => Vec::new(),
    }
}

/// Gives the first field of this number another value, in any form; adds it where there is none.
fn put(dice: &mut Dice, draft: &mut Draft, number: u64, value: &[u8]) {
    let field = with_value(dice, number, value);
    match draft.fields.iter_mut().find(|field| field.number() == number) {
        Some(old) => *old = field,
        None => draft.fields.push(field),
    }
}

/// A pair to be ended: one that is held, one of the history, one that nearly is it, or texts that are no pair.
fn ended(dice: &mut Dice, pool: &Pool, table: &Table) -> Pair {
    let held: Vec<Pair> = Remembered::of(table).pairs().into_iter().cloned().collect();
    let pair = if held.is_empty() || dice.one_in(2) { pool.pair(dice) } else { dice.pick(&held).clone() };
    match dice.below(8) {
        0 => near(dice, &pair),
        1 | 2 => ill_formed(dice, &pair),
        3 => written(dice, table),
        _ => pair,
    }
}

/// The texts of any place, well formed or not.
fn written(dice: &mut Dice, table: &Table) -> Pair {
    let place = &table[PLACE * dice.below(table.len() / PLACE)..];
    let text = |start: usize, most: usize| &place[start + 1..][..usize::from(place[start]).min(most)];
    Pair::new(text(0, LONGEST_CALL_ID), text(1 + LONGEST_CALL_ID, LONGEST_TAG))
}
