//! Histories drawn at random, from fixed seeds: more calls than the table holds, from none held and from tables drawn place by place.

use super::tables::{raw, Place, FREE};
use super::{end, of_call, withheld, BYE, LATER};
use crate::calls::{LONGEST_CALL_ID, PLACES};
use crate::drafts::{Dice, Draft};
use crate::recorded::strewn::{damage, strewn};
use crate::recorded::{Case, Step, ROOM};

const HISTORIES: usize = 16;
const LONG: usize = 40;

/// Where a place has the length byte of its tag.
const TAG_LENGTH: usize = 1 + LONGEST_CALL_ID;

pub fn steps() -> Vec<Step> {
    let mut all = none_held_first();
    for seed in 0..HISTORIES as u64 {
        let mut dice = Dice::new(800 + seed);
        all.push(Step::Table((0..PLACES).flat_map(|_| place(&mut dice)).collect()));
        all.extend((0..LONG).map(|_| step(&mut dice)));
    }
    all
}

/// A long history.
fn none_held_first() -> Vec<Step> {
    let mut dice = Dice::new(8);
    let steps = (0..12 * LONG).map(|_| step(&mut dice));
    [Step::Table(Vec::new())].into_iter().chain(steps).collect()
}

/// One of 42 pairs: 21 Call-IDs with two tags that differ in the case of a letter.
fn pair(dice: &mut Dice) -> (String, &'static str) {
    (format!("{}@d", dice.below(21)), *dice.pick(&["q", "Q"]))
}

/// Mostly a withheld INVITE; else a BYE or any other message.
pub fn of_some_call(dice: &mut Dice) -> Draft {
    let (call_id, tag) = pair(dice);
    match dice.below(11) {
        0..=5 => withheld(&call_id, tag),
        6 => of_call(LATER, &call_id, tag).with(16, b"none;user"),
        7 => of_call(BYE, &call_id, tag),
        _ => of_call(dice.below(9), &call_id, tag),
    }
}

/// An end, or a message to either side, seldom with little room or damaged.
fn step(dice: &mut Dice) -> Step {
    if dice.one_in(12) {
        let (call_id, tag) = pair(dice);
        return end(&call_id, tag);
    }
    let draft = of_some_call(dice);
    let mut message = spelled(dice, &draft).bytes();
    if dice.one_in(25) {
        damage(dice, &mut message);
    }
    let room = if dice.one_in(25) { dice.below(400) as u16 } else { ROOM };
    Step::Next(Case { side: u8::from(!dice.one_in(8)), room, message })
}

/// The same, or with other names and more fields.
fn spelled(dice: &mut Dice, draft: &Draft) -> Draft {
    if dice.one_in(4) {
        strewn(dice, draft)
    } else {
        draft.clone()
    }
}

/// A place of a table: mostly one of the pairs, with zeros or junk behind its texts; else nearly one, all junk, or zeros.
fn place(dice: &mut Dice) -> Place {
    let filling = if dice.one_in(2) { 0 } else { dice.number() as u8 };
    let (call_id, tag) = pair(dice);
    let mut place = raw(call_id.len() as u8, call_id.as_bytes(), tag.len() as u8, tag.as_bytes(), filling);
    match dice.below(16) {
        0 => place = FREE,
        1 => place[0] = 0,
        2 => place[0] = dice.number() as u8,
        3 => place[TAG_LENGTH] = dice.number() as u8,
        4 => place[1 + dice.below(3)] = dice.number() as u8,
        5 => place[TAG_LENGTH + 1] = dice.number() as u8,
        6 => place.fill_with(|| dice.number() as u8),
        _ => {}
    }
    place
}
