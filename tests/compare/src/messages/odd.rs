//! Odd bytes at every place of a value.

use super::BLANKS;
use second::drafts::{Dice, Draft, Whole};
use second::profile;

/// What carries a value with an odd byte: the number of the field, 0 for one that is not listed, and what stands around the value.
pub const CARRIERS: [(u64, &str, &str); 11] = [
    (0, "", ""), (1, "", ""), (3, "\"", "\" <sip:h>;tag=1"), (3, "<sip:h>;tag=1;a=", ""), (5, "", ""), (14, "timer,", ""), (15, "\"", "\" <sip:+1234567@h>"), (16, "Header;", ""),
    (16, "", ";uSER"), (15, "\"", "\" <tel:+1234567>, <sip:+1234568@h>"), (15, "<tel:+1234567>,\"", "\"<sip:+1234568@h>"),
];

/// Bytes at the borders of what a value may hold.
pub const ODD_BYTES: [u8; 5] = [0, 31, 127, 128, 255];

/// A length at or beside a multiple of 16, and a place in it.
pub fn odd_place(dice: &mut Dice) -> (usize, usize) {
    let times = if dice.one_in(4) { 1 + dice.below(450) } else { 1 + dice.below(20) };
    let length = times * 16 + dice.below(3) - 1;
    (length, dice.below(length))
}

/// The same, with a last field that carries a value of so many bytes, the one at the place odd.
pub fn carrying(draft: &Draft, &(number, front, back): &(u64, &str, &str), length: usize, place: usize, odd: u8, blanks: usize) -> Draft {
    let mut value = vec![b'a'; length];
    value[place] = odd;
    let mut out = if number == 0 { draft.clone() } else { draft.without(number) };
    let name = profile::row_of_number(number).map_or("X-Odd", |row| row.name);
    out.fields.push(Whole { name: name.into(), rest: [BLANKS[blanks].as_bytes(), front.as_bytes(), &value, back.as_bytes(), b"\r\n"].concat() });
    out
}

/// The response with a phrase of so many bytes, the one at the place odd.
pub fn phrased(draft: &Draft, length: usize, place: usize, odd: u8) -> Draft {
    let mut phrase = vec![b'a'; length];
    phrase[place] = odd;
    draft.status("200", &phrase)
}
