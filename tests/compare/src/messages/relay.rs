//! Relay callers, and what only looks like them.

use super::values::{is_token, pick};
use super::BLANKS;
use second::drafts::{in_any_case, Dice, Draft, Whole};

const NAME: &[u8] = b"X-Relay-Mode";

/// Once or more the field, or what nearly is it, anywhere in the message.
pub fn strew(dice: &mut Dice, draft: &mut Draft) {
    for _ in 0..1 + if dice.one_in(6) { dice.below(4) } else { 0 } {
        let field = match dice.below(6) {
            0 => {
                let name = near_name(dice);
                named(dice, &name)
            }
            1 => Whole { name: b"Subject".to_vec(), rest: pick(dice, &[": X-Relay-Mode: text\r\n", ": a\r\n X-Relay-Mode: text\r\n", ":\r\n\tX-Relay-Mode\r\n :\r\n"]) },
            2 if !draft.body.is_empty() => {
                draft.body.extend(b"\r\nX-Relay-Mode: text\r\n\r\n");
                continue;
            }
            3 => {
                let name = in_any_case(dice, NAME);
                named(dice, &name)
            }
            _ => named(dice, NAME),
        };
        let place = dice.below(draft.fields.len() + 1);
        draft.fields.insert(place, field);
    }
}

/// A field of that name with any value, which is not looked at.
fn named(dice: &mut Dice, name: &[u8]) -> Whole {
    let front = if dice.one_in(4) { pick(dice, &[" :", "\t: ", " \t \t:", ":\r\n "]) } else { pick(dice, &BLANKS) };
    let value = pick(dice, &["text", "voice", "", "", "a\r\n b", "X-Relay-Mode", "\u{e9};=\""]);
    Whole { name: name.to_vec(), rest: [front, value, b"\r\n".to_vec()].concat() }
}

/// Longer, shorter, or one byte other; the same name again where the byte is its letter in another case.
fn near_name(dice: &mut Dice) -> Vec<u8> {
    let mut name = NAME.to_vec();
    let place = dice.below(name.len());
    let byte = loop {
        let byte = dice.number() as u8;
        if is_token(byte) {
            break byte;
        }
    };
    match dice.below(6) {
        0 => name.truncate(place.max(1)),
        1 => name.extend(pick(dice, &["-2", "s", ".", "-", "-Mode"])),
        2 => name.insert(place, byte),
        3 => {
            name.remove(place);
        }
        4 => name[place] ^= 0x20 * u8::from(name[place].is_ascii_alphabetic()),
        _ => name[place] = byte,
    }
    name
}
