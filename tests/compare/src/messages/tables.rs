//! Tables of remembered calls (CR 8): few places hold a pair or all 32 do, each another one; then some places get the pair that comes, one that
//! nearly is it, that of another place, what makes a place free, or any bytes.

use super::pairs;
use crate::remembered::pair_of;
use second::calls::{Pair, LONGEST_CALL_ID, LONGEST_TAG, PLACE, PLACES};
use second::drafts::Dice;
use second::recorded::calls::{raw, Place, FREE};
use second::{none_held, Table};

/// Where a place has the length of its tag.
const TAG: usize = 1 + LONGEST_CALL_ID;

/// The table before a single message: mostly none is held, else the message's own pair is among what is drawn.
pub fn before(dice: &mut Dice, message: &[u8]) -> Table {
    if !dice.one_in(3) {
        return none_held();
    }
    let own = pair_of(message).filter(|pair| !pair.call_id.is_empty()).unwrap_or_else(|| stranger(99));
    drawn(dice, &|_| own.clone())
}

/// Any table; the pairs that come to it are drawn by this.
pub fn drawn(dice: &mut Dice, pair: &dyn Fn(&mut Dice) -> Pair) -> Table {
    if dice.one_in(16) {
        return uniform(dice, pair);
    }
    let many = *dice.pick(&[0, 3, 31, 32, 32, 32]);
    let mut places: Vec<Place> = (0..PLACES).map(|number| if number < many { holding(dice, &stranger(number)) } else { FREE }).collect();
    for _ in 0..*dice.pick(&[0, 1, 1, 2, 3, 8]) {
        let number = if dice.one_in(3) { *dice.pick(&[0, 1, 30, 31]) } else { dice.below(PLACES) };
        let pair = fitting(pair(dice));
        places[number] = match dice.below(8) {
            0..=2 => holding(dice, &pair),
            3 => {
                let near = pairs::near(dice, &pair);
                holding(dice, &fitting(near))
            }
            4 => *dice.pick(&places),
            5 => FREE,
            _ => free(dice, &pair),
        };
    }
    whole(&places)
}

/// All places hold one pair, or all bytes are drawn or the same.
fn uniform(dice: &mut Dice, pair: &dyn Fn(&mut Dice) -> Pair) -> Table {
    let filling = dice.number() as u8;
    let pair = fitting(pair(dice));
    match dice.below(3) {
        0 => whole(&(0..PLACES).map(|_| holding(dice, &pair)).collect::<Vec<Place>>()),
        1 => std::array::from_fn(|_| dice.number() as u8),
        _ => [filling; PLACE * PLACES],
    }
}

fn whole(places: &[Place]) -> Table {
    places.concat().try_into().expect("32 places")
}

/// A pair of no message that is drawn.
fn stranger(number: usize) -> Pair {
    Pair::new(format!("{number}@stranger").as_bytes(), format!("s{number}").as_bytes())
}

/// The pair with no more bytes than a place has for it.
fn fitting(mut pair: Pair) -> Pair {
    pair.call_id.truncate(LONGEST_CALL_ID);
    pair.tag.truncate(LONGEST_TAG);
    pair
}

/// A place that holds the pair, with zeros or other bytes behind its texts.
fn holding(dice: &mut Dice, pair: &Pair) -> Place {
    let filling = if dice.one_in(3) { dice.number() as u8 } else { 0 };
    raw(pair.call_id.len() as u8, &pair.call_id, pair.tag.len() as u8, &pair.tag, filling)
}

/// A place that looks like the pair and mostly is free: a length or a byte is none of a pair's.
fn free(dice: &mut Dice, pair: &Pair) -> Place {
    let mut place = holding(dice, pair);
    match dice.below(9) {
        0 | 8 => place[0] = 0,
        1 => place[0] = *dice.pick(&[129, 130, 192, 194, 255]),
        2 => place[TAG] = 0,
        3 => place[TAG] = *dice.pick(&[65, 66, 128, 255]),
        4 => place[1 + dice.below(pair.call_id.len())] = *dice.pick(&[0, 9, 32, 127, 128, 255]),
        5 => place[TAG + 1 + dice.below(pair.tag.len())] = *dice.pick(b"\0 @;=\"\x7f\x80\xff"),
        6 => place[*dice.pick(&[0, TAG])] += 1,
        _ => place.fill_with(|| dice.number() as u8),
    }
    place
}
