//! Files of records for the replay (CR 3). `second history` writes the fixed one, which `second/regenerate` stores in crates/replay: every
//! line of the report, every reason that a replay can meet in each line where it can stand, withheld calls and their BYEs (CR 8), and a record
//! cut short at the end.
//! `second history SEED [COUNT]` strews drawn records among those, from the recorded cases and anew.

use super::calls::{of_call, of_some_call, withheld, ACK, BYE};
use super::sizes::filled;
use super::strewn::{damage, strewn};
use super::{Case, MOST};
use crate::drafts::{call, call_with, good_value, in_any_case, Dice, Draft, Whole, GOOD_URI};

/// How many records are drawn where nothing else is asked for.
pub const DRAWN: usize = 2000;

/// A side byte and a message.
pub type Pair = (u8, Vec<u8>);

/// "before each record the two-byte mark 53 4E (hex), then a side byte, a two-byte length (high byte first) and the message"
pub fn record(side: u8, message: &[u8]) -> Vec<u8> {
    let length = u16::try_from(message.len()).expect("a record's message has at most 65,535 bytes");
    [b"SN", &[side][..], &length.to_be_bytes(), message].concat()
}

fn joined(pairs: &[Pair]) -> Vec<u8> {
    pairs.iter().flat_map(|(side, message)| record(*side, message)).collect()
}

/// The fixed file: its last record lacks its last byte.
pub fn fixed_file() -> Vec<u8> {
    let mut file = joined(&fixed());
    file.extend(record(1, &call()));
    file.pop();
    file
}

/// So many drawn records strewn among the fixed ones, and an end that is a record cut short where the seed is even, else a bad mark.
pub fn drawn_file(seed: u64, count: usize) -> Vec<u8> {
    let mut dice = Dice::new(seed);
    let recorded = super::cases();
    let mut all = fixed();
    for _ in 0..count {
        let place = dice.below(all.len() + 1);
        let pair = drawn(&mut dice, &recorded);
        all.push(pair);
        let last = all.len() - 1;
        all.swap(place, last);
    }
    let mut file = joined(&all);
    file.extend(ending(&mut dice, seed % 2 == 0));
    file
}

/// All records but the last of the fixed file.
fn fixed() -> Vec<Pair> {
    [relay(), near(), refused(), unread(), sides(), hidden()].concat()
}

/// On each side in turn.
fn in_turn(messages: Vec<Vec<u8>>) -> Vec<Pair> {
    messages.into_iter().enumerate().map(|(place, message)| (1 - place as u8 % 2, message)).collect()
}

const FIELD: &str = "X-Relay-Mode: text";

/// Relay callers: the name in several letter cases, twice, with blanks before the colon, with an empty and with a folded value, first and
/// last, in an ACK and a BYE and in responses.
fn relay() -> Vec<Pair> {
    let mut all = vec![call(), call()];
    for line in [
        "x-relay-mode: text", "X-RELAY-MODE:TEXT", "x-RELAY-mODE: voice", "X-Relay-Mode:", "X-Relay-Mode \t : text", "X-Relay-Mode:\n text\n\tand\n voice",
        "X-Relay-Mode: text\nX-Relay-Mode: voice", "X-Relay-Mod: a\nX-relay-mode: b\nX-Relay-Mode-2: c",
    ] {
        all.push(call_with(FIELD, line));
    }
    for column in [2, 6] {
        let mut first = Draft::least(column);
        first.fields.insert(0, Whole::new(b"X-relay-Mode", b"text"));
        all.push(first.bytes());
    }
    all.extend([3, 7].map(|column| relayed(&Draft::least(column)).bytes()));
    in_turn(all)
}

/// The same with the field behind all others.
fn relayed(draft: &Draft) -> Draft {
    draft.and("X-Relay-Mode", b"text")
}

/// What only looks like a relay caller's: other names, and the name in a value, behind a fold, in the body, cut off with it, in a phrase.
fn near() -> Vec<Pair> {
    let mut all: Vec<Vec<u8>> = [
        "X-Relay-Mode-2: text", "X-Relay-Mod: text", "-X-Relay-Mode: text", "X_Relay_Mode: text", "X-Relay-Mode.: text", "Subject: X-Relay-Mode: text",
        "Subject: a\n X-Relay-Mode: text", "Subject:\n\tX-Relay-Mode\n :text",
    ]
    .map(|line| call_with(FIELD, line))
    .to_vec();
    let body = Draft::least(0).and("Content-Type", b"x").and("Content-Length", b"20");
    all.push(body.carrying(b"X-Relay-Mode: text\r\n").bytes());
    all.push(body.with(8, b"0").carrying(b"X-Relay-Mode: text\r\n\r\n").bytes());
    all.push(Draft::least(8).status("200", b"X-Relay-Mode: text").bytes());
    in_turn(all)
}

/// Each reason from 6 on, once by a relay caller and once by another: mostly requests there, responses here.
fn refused() -> Vec<Pair> {
    let (invite, bye, answer) = (Draft::least(0), Draft::least(3), Draft::least(6));
    let mut info = bye.clone();
    info.set_method(b"INFO");
    let (without_hops, lacking, called) = (bye.with(2, b"000"), bye.with(14, b"timer, x"), invite.to(b"sip:+331234@h"));
    let by_relay = [
        info, bye.to(b"http://h"), bye.to(b"*"), invite.and("f", &good_value(3, 0)), bye.with(2, b"256"), bye.with(8, b"1"), invite.without(15),
        without_hops.clone(), lacking.clone(), called.clone(), answer.status("700", b"x"),
    ];
    let by_others = [
        answer.with(6, b"1 ACK"), invite.to(b"urn:a:b"), invite.to(b"sip:h:0"), answer.and("CSeq", b"x"), answer.with(14, b";"), answer.with(8, b"00001"), answer.without(7),
        without_hops, lacking, called, Draft::bare_status("099", ""),
    ];
    let mut all = in_turn(by_relay.iter().map(|draft| relayed(draft).bytes()).collect());
    all.extend(in_turn(by_others.iter().map(Draft::bytes).collect()));
    all
}

/// Reasons 2 to 5, most of them in a message that has the field: over 8,192 bytes, no start line, a field's shape, over 96 fields.
fn unread() -> Vec<Pair> {
    let long = relayed(&Draft::least(3).and("Content-Type", b"x"));
    let spare = MOST - long.bytes().len();
    let whole = call();
    in_turn(vec![
        long.carrying(&vec![b'b'; spare]).bytes(), Vec::new(), whole[7..].to_vec(), whole[..whole.len() - 2].to_vec(), call_with("v: ", " v: "), call_with(FIELD, "X-Relay-Mode\n : text"),
        filled(&Draft::short("BYE"), "X-Relay-Mode", b"", 97).bytes(),
    ])
}

/// Reason 1, whatever else is wrong; the longest message that may be accepted, and the most fields.
fn sides() -> Vec<Pair> {
    let long = Draft::least(3).and("Content-Type", b"x");
    let spare = MOST - 1 - long.bytes().len();
    vec![
        (2, call()), (7, Draft::least(3).bytes()), (0x4E, Vec::new()), (255, Draft::bare("INFO", GOOD_URI).bytes()), (0, long.carrying(&vec![b'b'; spare]).bytes()),
        (1, filled(&Draft::short("BYE"), "X-Relay-Mode", b"", 96).bytes()),
    ]
}

/// Withheld calls to side 1 (CR 8), 31 beside the page's, which the relay callers above have opened, and one more. An ACK, a BYE to side 0 and a
/// refused one make no room for it; two other BYEs do, for it and for another.
fn hidden() -> Vec<Pair> {
    let call = |number: usize| withheld(&format!("{number}@hidden"), "h1");
    let by_both = |number: usize| [(1, call(number).bytes()), (1, relayed(&call(number)).bytes())];
    let (ack, bye) = (of_call(ACK, "3@hidden", "h1"), of_call(BYE, "3@hidden", "h1"));
    let mut all: Vec<Pair> = (0..31).map(|number| (1, call(number).bytes())).collect();
    all.extend(by_both(31));
    all.extend([(1, ack.bytes()), (0, bye.bytes()), (1, bye.with(2, b"0").bytes())]);
    all.extend(by_both(31));
    all.extend([(1, relayed(&bye).bytes()), (1, of_call(BYE, "9x@relay.example", "a1").bytes())]);
    all.extend([by_both(31), by_both(32), by_both(33)].concat());
    all
}

/// Lines that bring the field, and lines that nearly do.
const LINES: [&str; 16] = [
    "X-Relay-Mode: text\r\n", "X-Relay-Mode:\r\n", "X-Relay-Mode \t:x\r\n", "X-Relay-Mode:\r\n x\r\n", "X-Relay-Mode: a\r\nX-Relay-Mode: b\r\n", "X-Relay-Mode-2: text\r\n",
    "X-Relay-Mod: text\r\n", "XX-Relay-Mode: text\r\n", "X-Relay_Mode: text\r\n", "s: X-Relay-Mode: text\r\n", "s:\r\n X-Relay-Mode: text\r\n", " X-Relay-Mode: text\r\n",
    "X-Relay-Mode text\r\n", "X-Relay-Mode\r\n : text\r\n", "\r\nX-Relay-Mode: text\r\n", "X-Relay-Mode: \u{7f}\r\n",
];

/// A recorded case, a message put together anew or one of a call that may be hidden, maybe with one of those lines, maybe on an odd side,
/// seldom far too long.
fn drawn(dice: &mut Dice, recorded: &[Case]) -> Pair {
    let (side, mut message) = match dice.below(4) {
        0 => (dice.below(2) as u8, put_together(dice)),
        1 => (u8::from(!dice.one_in(8)), of_some_call(dice).bytes()),
        _ => {
            let case = dice.pick(recorded);
            (case.side, case.message.clone())
        }
    };
    if dice.one_in(2) {
        put_line(dice, &mut message);
    }
    if dice.one_in(1000) {
        message.resize(MOST + dice.below(65_536 - MOST), b'x');
    }
    (if dice.one_in(40) { dice.number() as u8 } else { side }, message)
}

/// A request or a response with fields strewn in, maybe damaged.
fn put_together(dice: &mut Dice) -> Vec<u8> {
    let column = dice.below(9);
    let plain = if dice.one_in(2) { Draft::least(column) } else { Draft::full(column) };
    let mut message = strewn(dice, &plain).bytes();
    if dice.one_in(4) {
        damage(dice, &mut message);
    }
    message
}

/// One of the lines, in letters of any case, where a line of the message starts: a field's, a body's, or a continued one.
fn put_line(dice: &mut Dice, message: &mut Vec<u8>) {
    let starts: Vec<usize> = (2..=message.len()).filter(|&end| message[..end].ends_with(b"\r\n")).collect();
    if let Some(&first) = starts.first() {
        let place = if dice.one_in(2) { first } else { *dice.pick(&starts) };
        let text = dice.pick(&LINES).as_bytes();
        let line = if dice.one_in(2) { in_any_case(dice, text) } else { text.to_vec() };
        message.splice(place..place, line);
    }
}

/// A record cut short anywhere, or one whose mark is wrong, with more behind it.
fn ending(dice: &mut Dice, cut: bool) -> Vec<u8> {
    let mut last = record(dice.below(2) as u8, &call());
    if cut {
        last.truncate(1 + dice.below(last.len() - 1));
    } else {
        let place = dice.below(2);
        last[place] ^= 1 << dice.below(8);
        last.extend(record(1, &call()));
    }
    last
}
