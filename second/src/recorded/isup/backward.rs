//! Backward: every octet in both places of the front, every filler and digit code, every length and every country code; two faults at once.

use super::{longest_code, Case, BAD_CODES, MOST};
use crate::drafts::Dice;

const FIRST: [u8; 4] = [0x03, 0x04, 0x83, 0x84];
const SECOND: [u8; 2] = [0x13, 0x17];

pub fn cases() -> Vec<Case> {
    let groups = [first_octets(), second_octets(), fillers(), digit_codes(), lengths(), long(), sums(), codes(), orders(), drawn()];
    groups.concat()
}

fn ours(bytes: &[u8]) -> Case {
    Case::backward(b"33", bytes)
}

/// All first octets with good ones behind, and some without an address byte.
fn first_octets() -> Vec<Case> {
    let whole = (0..=255).map(|first| ours(&[first, 0x13, 0x21, 0x43, 0x65, 0x07]));
    let cut = (0..=255).step_by(8).chain(FIRST).map(|first| ours(&[first, 0x17]));
    whole.chain(cut).collect()
}

/// All second octets with each good first one.
fn second_octets() -> Vec<Case> {
    let pairs = (0..=255).flat_map(|second| FIRST.map(|first| [first, second]));
    pairs.map(|front| ours(&[&front[..], &[0x81, 0x67, 0x45, 0x23, 0x01]].concat())).collect()
}

/// Every value of the last half, as filler and as digit, behind one to eight address bytes.
fn fillers() -> Vec<Case> {
    let mut all = Vec::new();
    for half in 0..16 {
        for bytes in [1, 4, 8] {
            let address = [vec![0x21; bytes - 1], vec![half * 16 + 3]].concat();
            all.extend(FIRST.map(|first| ours(&[&[first, 0x13][..], &address].concat())));
        }
    }
    all
}

/// Every digit code in each half of each byte: of a national number of 12 digits and of an international one of 15.
fn digit_codes() -> Vec<Case> {
    let mut all = Vec::new();
    for digit in 0..16 {
        for place in 0..12 {
            all.push(ours(&changed(&[0x03, 0x17, 0x21, 0x43, 0x65, 0x87, 0x09, 0x21], place, digit)));
        }
        for place in 0..15 {
            all.push(ours(&changed(&[0x84, 0x13, 0x21, 0x43, 0x65, 0x87, 0x09, 0x21, 0x43, 0x05], place, digit)));
        }
    }
    all
}

/// The parameter with this code in place of a digit.
fn changed(parameter: &[u8], place: usize, digit: u8) -> Vec<u8> {
    let mut bytes = parameter.to_vec();
    let byte = &mut bytes[2 + place / 2];
    *byte = if place % 2 == 0 { *byte / 16 * 16 + digit } else { *byte % 16 + digit * 16 };
    bytes
}

/// Bytes of so many octets, the last half 0 where their number of digits is odd.
fn of_length(first: u8, second: u8, length: usize) -> Vec<u8> {
    let mut bytes = [&[first, second][..], &vec![0x11; length]].concat();
    bytes.truncate(length);
    if first >= 128 && length > 2 {
        bytes[length - 1] = 0x01;
    }
    bytes
}

/// Every length from 0 to 12, of good and of bad fronts.
fn lengths() -> Vec<Case> {
    let mut all = Vec::new();
    for length in 0..=12 {
        for (first, second) in [(0x03, 0x13), (0x83, 0x17), (0x04, 0x17), (0x84, 0x13), (0x05, 0x13), (0x85, 0x13), (0x84, 0x93), (0xff, 0xff)] {
            let bytes = of_length(first, second, length);
            all.extend([&b"1"[..], b"590"].map(|code| Case::backward(code, &bytes)));
        }
        all.extend([0, 0x11, 0x99, 0xff].map(|byte| ours(&vec![byte; length])));
    }
    all
}

/// Far too many digits: 47 where all are digits, 46 where one is not, wherever it stands; 45 where the filler is not 0.
fn long() -> Vec<Case> {
    let mut all = Vec::new();
    for length in [13, 16, 17, 100, 1000, 8999, MOST] {
        for first in if length < 1000 { &FIRST[..] } else { &FIRST[2..3] } {
            let bytes = of_length(*first, 0x13, length);
            all.push(ours(&bytes));
            for (place, byte) in [(2, 0x1f), (length / 2, 0xc1), (length - 1, 0x0a), (length - 1, 0x1b), (length - 1, 0x11)] {
                let mut damaged = bytes.clone();
                damaged[place] = byte;
                all.push(ours(&damaged));
            }
        }
    }
    all
}

/// National: codes of every length with so many digits behind them. International: so many digits, the first 0 and not.
fn sums() -> Vec<Case> {
    let mut all = Vec::new();
    for digits in 0..=17usize {
        let address = |front: u8| -> Vec<u8> {
            let mut halves = vec![front];
            halves.extend([1, 2, 3, 4, 5, 6, 7, 8, 9, 0].iter().cycle().take(digits));
            halves.truncate(digits);
            halves.chunks(2).map(|pair| pair[0] + 16 * pair.get(1).unwrap_or(&0)).collect()
        };
        let odd = (digits % 2) as u8 * 128;
        for front in [0, 9] {
            let national = [&[odd + 3, 0x17][..], &address(front)].concat();
            all.extend([&b"7"[..], b"33", b"999"].map(|code| Case::backward(code, &national)));
            all.push(ours(&[&[odd + 4, 0x13][..], &address(front)].concat()));
        }
    }
    all
}

/// Every country code that there is with a national number, and codes that are none with good and bad bytes.
fn codes() -> Vec<Case> {
    let mut all: Vec<Case> = (1..=999).map(|code| Case::backward(code.to_string().as_bytes(), &[0x83, 0x13, 0x81, 0x67, 0x05])).collect();
    let national = [0x83, 0x13, 0x81, 0x67, 0x45, 0x23, 0x01];
    let others: [&[u8]; 3] = [&[0x84, 0x17, 0x33, 0x81, 0x67, 0x45, 0x23, 0x01], &[], &[0x85, 0x13]];
    for (code, other) in BAD_CODES.into_iter().chain([&longest_code()[..]]).zip(others.iter().cycle()) {
        all.extend([Case::backward(code, &national), Case::backward(code, other)]);
    }
    all.extend((0..=255).map(|byte| Case::backward(&[byte], &national)));
    all
}

/// Two faults at once: each refusal with those after it.
fn orders() -> Vec<Case> {
    let bytes: [&[u8]; 22] = [
        // 43 with a front that would be 44; 44 with a filler, a code over 9, too few digits.
        &[0x85], &[0x85, 0x13], &[0x83, 0x93], &[0x85, 0x13, 0x11], &[0x84, 0x93, 0x11], &[0x05, 0x13, 0xcc], &[0x04, 0x10, 0x0c], &[0x05, 0x13],
        &[0x03, 0x03],
        // 45 with a code over 9, before it and beside it, and with too few digits.
        &[0x84, 0x13, 0x1c], &[0x84, 0x13, 0xcc, 0x10], &[0x83, 0x13, 0x11], &[0x83, 0x13, 0xf1], &[0x84, 0x13, 0x21, 0x43, 0x65, 0xcc],
        // 46 with too few digits, too many, a 0 in front.
        &[0x84, 0x13, 0x0c], &[0x04, 0x13, 0xc0], &[0x03, 0x13, 0xa1], &[0x04, 0x13, 0x11, 0x11, 0x11, 0x11, 0x11, 0x11, 0x11, 0x11, 0x1f],
        // 47 alone: the code alone, nothing, too few, too many.
        &[0x03, 0x13], &[0x04, 0x13], &[0x84, 0x13, 0x11, 0x11, 0x01], &[0x04, 0x17, 0x11, 0x11, 0x11, 0x11, 0x11, 0x11, 0x11, 0x11],
    ];
    bytes.iter().flat_map(|bytes| [&b"33"[..], b"033", b"331"].map(|code| Case::backward(code, bytes))).collect()
}

/// Good parameters with a byte or two damaged, and any bytes.
fn drawn() -> Vec<Case> {
    let mut dice = Dice::new(763);
    let mut all = Vec::new();
    for _ in 0..300 {
        let mut bytes = vec![*dice.pick(&FIRST), *dice.pick(&SECOND)];
        for _ in 0..1 + dice.below(8) {
            bytes.push((dice.below(10) * 16 + dice.below(10)) as u8);
        }
        if let (128.., Some(last)) = (bytes[0], bytes.last_mut()) {
            *last %= 16;
        }
        for _ in 0..dice.below(3) {
            let place = dice.below(bytes.len());
            bytes[place] = dice.number() as u8;
        }
        all.push(Case::backward((1 + dice.below(999)).to_string().as_bytes(), &bytes));
    }
    for _ in 0..40 {
        let length = dice.below(13);
        all.push(ours(&(0..length).map(|_| dice.number() as u8).collect::<Vec<u8>>()));
    }
    all
}
