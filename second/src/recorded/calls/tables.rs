//! Tables made by hand: copies, free places of every kind, texts with other bytes in them and behind them, and where a new pair is entered.

use super::{end, of_call, then, withheld, ACK, BYE};
use crate::calls::{LONGEST_CALL_ID, LONGEST_TAG, PLACE, PLACES, TABLE};
use crate::recorded::Step;

pub fn steps() -> Vec<Step> {
    [copies(), lengths(), every_byte(), junk_behind(), free_places(), no_empty_place(), fillings()].concat()
}

/// The bytes of a place.
pub type Place = [u8; PLACE];

/// A place with these length bytes and texts; what they leave is filled with one byte.
pub fn raw(call_id_length: u8, call_id: &[u8], tag_length: u8, tag: &[u8], filling: u8) -> Place {
    let mut place = [filling; PLACE];
    let (front, back) = place.split_at_mut(1 + LONGEST_CALL_ID);
    for (part, length, text) in [(front, call_id_length, call_id), (back, tag_length, tag)] {
        part[0] = length;
        part[1..=text.len()].copy_from_slice(text);
    }
    place
}

/// A place that holds this pair and zeros.
pub fn place(call_id: impl AsRef<[u8]>, tag: impl AsRef<[u8]>) -> Place {
    let (call_id, tag) = (call_id.as_ref(), tag.as_ref());
    raw(call_id.len() as u8, call_id, tag.len() as u8, tag, 0)
}

pub const FREE: Place = [0; PLACE];

/// 32 places with different pairs; the pair of place 7 is (`7@t`, `t7`).
fn full() -> [Place; PLACES] {
    std::array::from_fn(|number| place(format!("{number}@t"), format!("t{number}")))
}

/// The same with these at their places.
fn full_but(others: &[(usize, Place)]) -> Vec<Place> {
    let mut places = full().to_vec();
    for (number, other) in others {
        places[*number] = *other;
    }
    places
}

/// The table of these places, the rest of it zeros.
fn table(places: &[Place]) -> Step {
    stored(&places.concat())
}

/// The table with these bytes at its front; zeros at its end need not be stored.
pub fn stored(bytes: &[u8]) -> Step {
    let kept = bytes.iter().rposition(|&byte| byte != 0).map_or(0, |last| last + 1);
    Step::Table(bytes[..kept].to_vec())
}

/// Whether this pair is held, by a message and by an end that come to the table; and how it is entered where it is not.
fn asked(places: &[Place], call_id: &str, tag: &str) -> Vec<Step> {
    vec![table(places), then(&of_call(ACK, call_id, tag)), then(&withheld(call_id, tag)), end(call_id, tag), table(places), then(&of_call(BYE, call_id, tag)), end(call_id, tag)]
}

/// New pairs come to the table until it is full, and one of them goes again.
fn entered(places: &[Place]) -> Vec<Step> {
    let new = |number: usize| then(&withheld(&format!("new{number}@a"), "n1"));
    vec![table(places), new(0), new(1), new(2), new(0), end("new1@a", "n1"), new(3)]
}

/// One pair in two places, in three, and in all: it counts once, and all of its places go.
fn copies() -> Vec<Step> {
    let (one, other) = (place("c@t", "c"), place("d@t", "d"));
    let few = [[one, one, FREE, FREE].to_vec(), [one, other, one, one].to_vec(), [FREE, one, other, one].to_vec(), [one; PLACES].to_vec(), [[one; 16], [other; 16]].concat()];
    let mut all: Vec<Step> = few.iter().flat_map(|places| [asked(places, "c@t", "c"), entered(places)].concat()).collect();
    for (first, second) in [(0, 1), (0, 31), (30, 31), (5, 9)] {
        let places = full_but(&[(second, full()[first])]);
        all.extend([entered(&places), asked(&places, &format!("{first}@t"), &format!("t{first}"))].concat());
    }
    // 30 and 29 held, with copies of one pair and of two.
    all.extend(entered(&full_but(&[(8, full()[3]), (20, full()[3])])));
    all.extend(entered(&full_but(&[(8, full()[3]), (20, full()[4]), (21, full()[20])])));
    all.extend(entered(&full()));
    all.extend(asked(&full(), "31@t", "t31"));
    all
}

/// Every length byte at its edges, alone and in a table that is full otherwise.
fn lengths() -> Vec<Step> {
    let (call_id, tag) = ([b'c'; LONGEST_CALL_ID], [b't'; LONGEST_TAG]);
    let mut all = Vec::new();
    for length in [0, 1, 2, 64, 65, 127, 128, 129, 130, 192, 255] {
        let one = raw(length, &call_id, 1, &tag, 0);
        all.extend(asked(&[one], &"c".repeat(usize::from(length.clamp(1, 128))), "t"));
        all.extend(entered(&full_but(&[(17, one)])));
    }
    for length in [0, 1, 2, 63, 64, 65, 66, 127, 128, 255] {
        let one = raw(1, &call_id, length, &tag, 0);
        all.extend(asked(&[one], "c", &"t".repeat(usize::from(length.clamp(1, 64)))));
        all.extend(entered(&full_but(&[(17, one)])));
    }
    all
}

/// Every byte as the last one of a Call-ID and of a tag, and those at the edges of their classes as the first and as the only one: an end
/// finds the pair, or the place is free.
fn every_byte() -> Vec<Step> {
    let ended = |call_id: &[u8], tag: &[u8]| {
        let one = raw(call_id.len() as u8, call_id, tag.len() as u8, tag, 0);
        [table(&[FREE, one]), Step::end(call_id, tag)]
    };
    let mut all = Vec::new();
    for byte in 0..=255 {
        all.extend([ended(&[b'c', byte], b"t"), ended(b"c", &[b't', byte])].concat());
    }
    for byte in [0, 9, 10, 13, 31, 32, 33, 34, 37, 39, 40, 44, 45, 47, 48, 58, 64, 65, 91, 94, 95, 96, 123, 126, 127, 128, 233, 255] {
        all.extend([ended(&[byte, b'c'], b"t"), ended(&[byte], b"t"), ended(b"c", &[byte, b't']), ended(b"c", &[byte])].concat());
    }
    all
}

/// What stands behind the texts is not looked at, and goes where the pair goes.
fn junk_behind() -> Vec<Step> {
    let mut all = Vec::new();
    for filling in [1, 32, b'x', 255] {
        let one = raw(3, b"c@t", 1, b"c", filling);
        all.extend(asked(&[place("d@t", "d"), one], "c@t", "c"));
        all.extend(asked(&[place("c@t", "c"), one, raw(3, b"c@t", 1, b"c", 7)], "c@t", "c"));
        all.extend(entered(&full_but(&[(2, one), (6, place("c@t", "c"))])));
    }
    all
}

/// Free places: a new pair goes to the first whose first byte is 0, over all that stands there, and not to one that is free in another way.
fn free_places() -> Vec<Step> {
    let junk = raw(0, b"c@t", 1, b"c", 0xEE);
    let (long, bad_byte, no_tag, copy) = (raw(129, b"c@t", 1, b"c", 0), raw(3, b"c t", 1, b"c", 0), raw(3, b"c@t", 0, b"c", 0), place("0@t", "t0"));
    let mut all = Vec::new();
    for front in [long, bad_byte, no_tag, copy, junk] {
        all.extend(entered(&[full()[0], front, full()[2]]));
        all.extend(entered(&full_but(&[(1, front), (9, junk), (31, FREE)])));
        all.extend(entered(&full_but(&[(30, junk), (31, front)])));
        all.extend(asked(&[full()[0], front, full()[2]], "c@t", "c"));
    }
    // A pair that is held is not entered at an empty place before it.
    all.extend(asked(&[FREE, junk, place("c@t", "c")], "c@t", "c"));
    all
}

/// No first byte is 0: the first place that is free in another way or holds an earlier place's pair, whichever is first.
fn no_empty_place() -> Vec<Step> {
    let (long, no_tag) = (raw(255, b"c@t", 1, b"c", 0x5A), raw(3, b"c@t", 65, b"c", 0));
    let copy = full()[0];
    let mut all = Vec::new();
    for (first, second) in [(long, copy), (copy, long), (no_tag, long), (copy, no_tag), (copy, copy), (long, long)] {
        for (place, other) in [(1, 2), (3, 30), (30, 31)] {
            all.extend(entered(&full_but(&[(place, first), (other, second)])));
        }
    }
    for only in [long, no_tag, copy] {
        all.extend([entered(&full_but(&[(31, only)])), entered(&full_but(&[(12, only)]))].concat());
    }
    all
}

/// The whole table filled with one byte: a place of 33 or 46 such bytes is a pair, and all hold the same.
fn fillings() -> Vec<Step> {
    let mut all = Vec::new();
    for byte in [1, b'!', b'.', b'@', 126, 128, 255] {
        let text = String::from_utf8(vec![byte & 0x7F; usize::from(byte.min(64))]).expect("ASCII");
        let whole = Step::Table(vec![byte; TABLE]);
        all.extend([whole.clone(), end(&text, &text), whole, then(&withheld("new@a", "n1")), then(&withheld("newer@a", "n1")), end("new@a", "n1"), end(&text, &text)]);
    }
    all
}
