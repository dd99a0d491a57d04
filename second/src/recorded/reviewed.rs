//! Edge calls that readers of the pages alone wrote, with the answers: second/reviewed/calls.txt, responses.txt for CR 1, privacy.txt
//! for CR 2, callers.txt for CR 5, in which two calls that follow one another are a pair, and identities.txt for CR 6, which ends with such
//! pairs.

use super::Case;

const FILES: [&str; 5] = [
    include_str!("../../reviewed/calls.txt"),
    include_str!("../../reviewed/responses.txt"),
    include_str!("../../reviewed/privacy.txt"),
    include_str!("../../reviewed/callers.txt"),
    include_str!("../../reviewed/identities.txt"),
];

/// A call and what its writer says of it: reason, reply, detail, missing count and length, and the outgoing message.
pub struct Reviewed {
    pub name: String,
    pub case: Case,
    pub answer: [u64; 5],
    pub output: Vec<u8>,
}

pub fn cases() -> Vec<Case> {
    calls().into_iter().map(|call| call.case).collect()
}

pub fn calls() -> Vec<Reviewed> {
    files().into_iter().flatten().collect()
}

/// Each call is a paragraph; the first one of a file says what it has.
pub fn files() -> [Vec<Reviewed>; 5] {
    FILES.map(|file| file.split("\n\n").skip(1).map(call).collect())
}

fn call(paragraph: &str) -> Reviewed {
    let mut call = Reviewed { name: String::new(), case: Case::new(0, Vec::new()), answer: [0; 5], output: Vec::new() };
    for line in paragraph.lines() {
        match line.split_at(1) {
            ("#", name) if call.name.is_empty() => call.name = name.trim().to_string(),
            ("#", _) => {}
            (">", text) => call.case.message.extend(bytes(text)),
            ("<", text) => call.output.extend(bytes(text)),
            ("=", numbers) => call.answer = five(numbers),
            _ => (call.case.side, call.case.room) = side_and_room(line),
        }
    }
    call
}

pub(super) fn side_and_room(line: &str) -> (u8, u16) {
    let words: Vec<&str> = line.split(' ').collect();
    assert!(words.len() == 4 && words[0] == "side" && words[2] == "room", "{line}");
    (words[1].parse().expect("a side"), words[3].parse().expect("a room"))
}

pub(super) fn five(numbers: &str) -> [u64; 5] {
    let all: Vec<u64> = numbers.split_whitespace().map(|word| word.parse().expect("a number")).collect();
    all.try_into().expect("five numbers")
}

/// The bytes that a line stands for.
pub(super) fn bytes(text: &str) -> Vec<u8> {
    let mut out = Vec::new();
    let mut rest = text.bytes();
    while let Some(byte) = rest.next() {
        out.push(if byte == b'\\' { escaped(&mut rest) } else { byte });
    }
    out
}

fn escaped(rest: &mut std::str::Bytes) -> u8 {
    match rest.next() {
        Some(b'r') => b'\r',
        Some(b'n') => b'\n',
        Some(b't') => b'\t',
        Some(b'\\') => b'\\',
        Some(b'x') => hex(rest) * 16 + hex(rest),
        other => panic!("no such escape: {other:?}"),
    }
}

fn hex(rest: &mut std::str::Bytes) -> u8 {
    let digit = rest.next().and_then(|byte| char::from(byte).to_digit(16));
    digit.expect("a hex digit") as u8
}
