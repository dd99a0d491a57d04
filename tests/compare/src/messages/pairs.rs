//! Pairs of Call-ID and From tag (CR 8) that meet again, and pairs that nearly are one another.

use super::values::{is_token, text};
use second::calls::{Pair, LONGEST_CALL_ID, LONGEST_TAG};
use second::drafts::Dice;

/// The Call-IDs and tags of a history.
pub struct Pool {
    call_ids: Vec<Vec<u8>>,
    tags: Vec<Vec<u8>>,
    busy: bool,
}

impl Pool {
    /// A few pairs, or in a busy history more than a table holds.
    pub fn drawn(dice: &mut Dice) -> Pool {
        let busy = dice.one_in(3);
        let (call_ids, tags) = if busy { *dice.pick(&[(60, 1), (25, 2)]) } else { *dice.pick(&[(1, 1), (1, 3), (3, 2), (6, 2), (20, 2)]) };
        Pool { call_ids: texts(dice, call_ids, call_id), tags: texts(dice, tags, tag), busy }
    }

    /// Whether the next step is one of the many of a busy history that open calls.
    pub fn opens(&self, dice: &mut Dice) -> bool {
        self.busy && !dice.one_in(4)
    }

    pub fn pair(&self, dice: &mut Dice) -> Pair {
        Pair { call_id: dice.pick(&self.call_ids).clone(), tag: dice.pick(&self.tags).clone() }
    }
}

fn call_id(dice: &mut Dice) -> Vec<u8> {
    let most = *dice.pick(&[1, LONGEST_CALL_ID, LONGEST_CALL_ID]);
    text(dice, most, |byte| byte.is_ascii_graphic())
}

fn tag(dice: &mut Dice) -> Vec<u8> {
    let most = *dice.pick(&[1, LONGEST_TAG, LONGEST_TAG]);
    text(dice, most, is_token)
}

/// So many texts, of which some nearly are others.
fn texts(dice: &mut Dice, many: usize, draw: fn(&mut Dice) -> Vec<u8>) -> Vec<Vec<u8>> {
    let mut all = vec![draw(dice)];
    while all.len() < many {
        let other = dice.pick(&all).clone();
        all.push(if dice.one_in(3) { near_text(dice, &other) } else { draw(dice) });
    }
    all
}

/// A letter in the other case, a byte more or less at either end, or another byte.
fn near_text(dice: &mut Dice, text: &[u8]) -> Vec<u8> {
    let mut near = text.to_vec();
    let place = dice.below(text.len());
    match dice.below(6) {
        0 => near.push(*dice.pick(b"a-1")),
        1 => near.insert(0, *dice.pick(b"a-1")),
        2 if text.len() > 1 => {
            near.remove(*dice.pick(&[0, text.len() - 1]));
        }
        3 => near[text.len() - 1] = *dice.pick(b"a-1"),
        4 => near[place] = *dice.pick(b"a-1"),
        _ => near.iter_mut().for_each(|byte| *byte ^= 0x20 * u8::from(byte.is_ascii_alphabetic())),
    }
    near
}

/// A pair that nearly is this one: one text is another, the border between them is moved, or they are changed over.
pub fn near(dice: &mut Dice, pair: &Pair) -> Pair {
    let Pair { call_id, tag } = pair;
    match dice.below(6) {
        0 | 1 => Pair::new(&near_text(dice, call_id), tag),
        2 | 3 => Pair::new(call_id, &near_text(dice, tag)),
        4 if tag.len() > 1 => Pair::new(&[&call_id[..], &tag[..1]].concat(), &tag[1..]),
        _ => Pair::new(tag, call_id),
    }
}

/// Texts that are no pair: empty, too long, with a byte of neither; some have the length of this pair's texts in its lowest byte.
pub fn ill_formed(dice: &mut Dice, pair: &Pair) -> Pair {
    let mut pair = pair.clone();
    let most = if dice.one_in(2) { LONGEST_CALL_ID } else { LONGEST_TAG };
    let text = if most == LONGEST_CALL_ID { &mut pair.call_id } else { &mut pair.tag };
    match dice.below(6) {
        0 => text.clear(),
        1 => text.resize(most + 1, b'x'),
        2 => text.resize(*dice.pick(&[200, 255, 256, 257, 300, 3000]), b'x'),
        3 => text.resize(256 + text.len(), b'x'),
        4 => text.extend(dice.pick(&[&b"\0"[..], b" ", b"\x7f", b"\xe9", b"\r\n"]).iter()),
        _ => {
            let place = dice.below(text.len());
            text[place] = *dice.pick(&[0, 9, 32, 127, 128, 255]);
        }
    }
    pair
}
