//! Texts of records, whole and damaged.

use second::drafts::{call, Dice, Draft};
use second::recorded::history::record;

/// Every byte where a mark would start, alone and with the other byte of a mark, as a whole text and behind a record.
pub fn short() -> Vec<Vec<u8>> {
    let mut all = Vec::new();
    for byte in 0..=255 {
        for text in [vec![byte], vec![0x53, byte], vec![byte, 0x4E], vec![0x53, 0x4E, byte], vec![0x53, 0x4E, 1, 0, byte]] {
            all.push([record(1, b""), text.clone()].concat());
            all.push(text);
        }
    }
    all
}

/// Small texts of several records, to be cut and damaged at every place.
pub fn small() -> Vec<Vec<u8>> {
    let relay = Draft::short("BYE").and("x-relay-mode", b"").bytes();
    let answer = Draft::short_response("180", "INVITE").bytes();
    vec![
        [record(1, &call()), record(78, b"SN"), record(0, &Draft::short("BYE").with(8, b"1").bytes())].concat(),
        [record(1, b""), record(0, b"S"), record(2, b"SN\x01\0\0"), record(1, b"")].concat(),
        [record(0, &relay), record(1, &answer), record(83, &answer)].concat(),
    ]
}

/// The records of these messages one after the other, mostly with something wrong.
pub fn damaged(dice: &mut Dice, drawn: &[(u8, Vec<u8>)]) -> Vec<u8> {
    let mut text = Vec::new();
    let mut starts = Vec::new();
    for (side, message) in drawn {
        starts.push(text.len());
        text.extend(record(*side, message));
    }
    let start = *dice.pick(&starts);
    match dice.below(10) {
        0 | 1 => {}
        2 => text.truncate(dice.below(text.len() + 1)),
        // In a head.
        3 => text.truncate(start + dice.below(6)),
        4 => text[start + dice.below(2)] ^= 1 << dice.below(8),
        5 => text[start + 3 + dice.below(2)] = dice.number() as u8,
        6 => swap(dice, &mut text, start),
        7 => text.extend(more(dice)),
        8 => anywhere(dice, &mut text),
        _ => text[start + 2] = dice.number() as u8,
    }
    text
}

/// Two bytes in each other's place: of a mark, of a length, beside one another in a head, or any two.
fn swap(dice: &mut Dice, text: &mut [u8], start: usize) {
    let (one, other) = match dice.below(4) {
        0 => (start, start + 1),
        1 => (start + 3, start + 4),
        2 => (start + 1, start + 2),
        _ => (dice.below(text.len()), dice.below(text.len())),
    };
    text.swap(one, other);
}

/// What may stand behind the last record.
fn more(dice: &mut Dice) -> Vec<u8> {
    let ends: [&[u8]; 10] = [b"S", b"N", b"\0", b"SN", b"S\0", b"SN\x01", b"SN\x01\0", b"SN\x01\0\x01", b"\r\n", b"SN\x01\xFF\xFFx"];
    let mut end = dice.pick(&ends).to_vec();
    if dice.one_in(4) {
        end.extend((0..dice.below(20)).map(|_| dice.number() as u8));
    }
    end
}

/// A byte changed, put in or taken away at any place.
fn anywhere(dice: &mut Dice, text: &mut Vec<u8>) {
    let place = dice.below(text.len());
    match dice.below(3) {
        0 => text[place] = dice.number() as u8,
        1 => text.insert(place, *dice.pick(b"SN\0\x01\r")),
        _ => {
            text.remove(place);
        }
    }
}
