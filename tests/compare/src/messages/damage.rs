//! Messages that lost their shape.

use second::drafts::{Dice, Draft, Whole};
use second::profile::ROWS;

/// The message with its end in the name of a listed field, or directly behind it.
pub fn cut_in_a_name(dice: &mut Dice, message: &mut Vec<u8>) {
    let line_ends: Vec<usize> = (2..=message.len()).filter(|&end| message[..end].ends_with(b"\r\n")).collect();
    if line_ends.is_empty() {
        return;
    }
    message.truncate(*dice.pick(&line_ends));
    let row = dice.pick(&ROWS);
    let name = if row.compact.is_empty() || !dice.one_in(4) { row.name } else { row.compact };
    let behind = *dice.pick(&["", "", "", ":", " ", ": ", "\r", ":\r", ":\r\n"]);
    let whole = [name, behind].concat();
    let length = if dice.one_in(2) { whole.len() } else { 1 + dice.below(whole.len()) };
    message.extend(&whole.as_bytes()[..length]);
}

/// The bytes with a few of them damaged.
pub fn damage(dice: &mut Dice, message: &mut Vec<u8>) {
    for _ in 0..1 + dice.below(3) {
        if message.is_empty() {
            return;
        }
        let place = dice.below(message.len());
        match dice.below(6) {
            0 => message[place] = dice.number() as u8,
            1 => {
                message.remove(place);
            }
            2 => message[place] ^= 1 << dice.below(8),
            3 if dice.one_in(4) => message.truncate(place),
            4 => {
                let end = (place + dice.below(40)).min(message.len());
                let copy = message[place..end].to_vec();
                let at = dice.below(message.len() + 1);
                message.splice(at..at, copy);
            }
            _ => message.insert(place, *dice.pick(b"\r\n \t:;<>\"\\%@+0,=\x00\x7f\x80\xff")),
        }
    }
}

/// A message of bytes that owe nothing to the rules.
pub fn noise(dice: &mut Dice) -> Vec<u8> {
    let length = dice.below(200);
    let front = *dice.pick(&["", "INVITE sip:1 SIP/2.0\r\n", "BYE ", "SIP/2.0 200 OK\r\n", "SIP/2.0 "]);
    let mut message = front.as_bytes().to_vec();
    for _ in 0..length {
        message.push(if dice.one_in(3) { *dice.pick(b"\r\n\r\n: ;<>\"") } else { dice.number() as u8 });
    }
    message
}

/// Names that are nearly those of listed fields, or listed ones that nearly are not.
pub fn near_miss(dice: &mut Dice, draft: &mut Draft) {
    if draft.fields.is_empty() {
        return;
    }
    let place = dice.below(draft.fields.len());
    let near = near_name(dice, &draft.fields[place]);
    if dice.one_in(2) {
        draft.fields[place] = near;
    } else {
        draft.fields.insert(place, near);
    }
}

fn near_name(dice: &mut Dice, field: &Whole) -> Whole {
    let (mut name, mut rest) = (field.name.clone(), field.rest.clone());
    let place = dice.below(name.len());
    match dice.below(7) {
        0 => rest.insert(0, *dice.pick(b" \t")),
        1 => name[place] ^= 32,
        2 => name.push(*dice.pick(b"xX-s")),
        3 => name.insert(0, *dice.pick(b"xX-")),
        4 => {
            name.remove(place);
        }
        5 => rest.retain(|&byte| byte != b':'),
        _ => name[place] = *dice.pick(b"xe-o\x00\x80"),
    }
    if name.is_empty() {
        name.push(b'x');
    }
    Whole { name, rest }
}
