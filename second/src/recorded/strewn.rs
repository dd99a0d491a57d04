//! Messages drawn at random, from a fixed seed: several fields and faults at once, and damaged bytes.

use super::{Case, ROOM};
use crate::drafts::{in_any_case, renamed, Dice, Draft, Whole};
use crate::profile::ROWS;

const MANY: usize = 600;

pub fn cases() -> Vec<Case> {
    let mut dice = Dice::new(2024);
    (0..MANY).map(|_| one(&mut dice)).collect()
}

fn one(dice: &mut Dice) -> Case {
    let plain = if dice.one_in(2) { Draft::least(dice.below(6)) } else { Draft::full(dice.below(6)) };
    let mut message = strewn(dice, &plain).bytes();
    if dice.one_in(3) {
        damage(dice, &mut message);
    }
    let room = if dice.one_in(20) { dice.below(600) as u16 } else { ROOM };
    Case { side: dice.below(2) as u8, room, message }
}

/// The same with names rewritten, fields strewn in, maybe a body, maybe a field less.
pub fn strewn(dice: &mut Dice, plain: &Draft) -> Draft {
    let mut draft = plain.clone();
    for field in draft.fields.iter_mut() {
        field.name = renamed(dice, &field.name);
    }
    for _ in 0..dice.below(6) {
        let place = dice.below(draft.fields.len() + 1);
        let field = extra(dice);
        draft.fields.insert(place, field);
    }
    if dice.one_in(3) {
        draft.body = b"v=0\r\n".repeat(dice.below(5));
    }
    if dice.one_in(12) {
        draft.fields.swap_remove(dice.below(draft.fields.len().max(1)));
    }
    draft
}

/// A field that may or may not be listed, mostly one that the column lets repeat or ignores. Require and P-Asserted-Identity, which repeat
/// too, have forms that none of the values here has.
fn extra(dice: &mut Dice) -> Whole {
    let repeating: Vec<&str> = ROWS.iter().filter(|row| row.repeats && !matches!(row.number, 14 | 15)).map(|row| row.name).collect();
    let name = match dice.below(4) {
        0 => ROWS[dice.below(18)].name,
        1 => *dice.pick(&repeating),
        _ => *dice.pick(&["X-Relay-Mode", "Subject", "s", "Via-Extra", "User-Agent", "Date", "o"]),
    };
    let value = *dice.pick(&["x", "a b", "a\r\n b", "\"q\\\"\" <sip:h>;tag=1", "", "\t", "timer", "id", "1 BYE", "\u{e9}"]);
    Whole::new(&in_any_case(dice, name.as_bytes()), value.as_bytes())
}

pub fn damage(dice: &mut Dice, message: &mut Vec<u8>) {
    for _ in 0..1 + dice.below(3) {
        if message.is_empty() {
            return;
        }
        let place = dice.below(message.len());
        match dice.below(4) {
            0 => message[place] = dice.number() as u8,
            1 => {
                message.remove(place);
            }
            2 => message.truncate(place.max(1)),
            _ => message.insert(place, *dice.pick(b"\r\n \t:;<>\"\\%@+0,=\x00\x7f\xff")),
        }
    }
}
