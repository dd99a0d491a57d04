//! Worked texts of records (CR 3) that a reader of the pages alone wrote, with the reports: second/reviewed/replay.txt.
//!
//! `second worked DIR` writes them for the proved program (tests/replay/run).

use super::history::record;
use super::reviewed::bytes;

const FILE: &str = include_str!("../../reviewed/replay.txt");

/// A text and what its writer says that a replay of it prints. The name begins with the number, three digits.
pub struct Worked {
    pub name: String,
    pub report: String,
    parts: Vec<Part>,
}

/// What a text is made of, one after another. A record is open for further bytes while it is the last part and stands there once.
enum Part {
    Bytes(Vec<u8>),
    Records { side: u8, message: Vec<u8>, times: usize },
}

/// Each text is a paragraph; the first one of the file says what it has.
pub fn texts() -> Vec<Worked> {
    FILE.trim_end().split("\n\n").skip(1).map(worked).collect()
}

impl Worked {
    /// The three digits of its name.
    pub fn number(&self) -> &str {
        &self.name[..3]
    }

    /// The text itself, up to 30 MB.
    pub fn text(&self) -> Vec<u8> {
        let mut text = Vec::new();
        for part in &self.parts {
            match part {
                Part::Bytes(bytes) => text.extend(bytes),
                Part::Records { side, message, times } => text.extend(record(*side, message).repeat(*times)),
            }
        }
        text
    }
}

fn worked(paragraph: &str) -> Worked {
    let mut lines = paragraph.lines();
    let comments: Vec<&str> = lines.by_ref().take_while(|line| *line != "text").collect();
    assert!(comments.iter().all(|line| line.starts_with("# ")), "{comments:?}");
    let mut parts = Vec::new();
    for line in lines.by_ref().take_while(|line| *line != "=") {
        take(&mut parts, line);
    }
    let report = lines.map(|line| line.strip_prefix('<').expect("a line of the report").to_string() + "\n").collect();
    Worked { name: comments[0][2..].to_string(), report, parts }
}

/// One line of a text.
fn take(parts: &mut Vec<Part>, line: &str) {
    let (kind, rest) = line.split_at(1);
    let words: Vec<&str> = rest.split_whitespace().collect();
    match (kind, &words[..]) {
        (">", _) => extend(parts, bytes(rest)),
        ("x", codes) => parts.push(Part::Bytes(codes.iter().map(|code| hex(code)).collect())),
        ("P", [count, code]) => extend(parts, vec![hex(code); number(count)]),
        ("S", [side]) => parts.push(Part::Records { side: side.parse().expect("a side byte"), message: Vec::new(), times: 1 }),
        ("R", [more]) => repeat(parts, number(more)),
        _ => panic!("no such line: {line}"),
    }
}

/// Bytes of the open record, or where none is open of the text.
fn extend(parts: &mut Vec<Part>, bytes: Vec<u8>) {
    match parts.last_mut() {
        Some(Part::Records { message, times: 1, .. }) => message.extend(bytes),
        _ => parts.push(Part::Bytes(bytes)),
    }
}

fn repeat(parts: &mut [Part], more: usize) {
    let Some(Part::Records { times, .. }) = parts.last_mut() else { panic!("no record to repeat") };
    assert!(more > 0, "a record is repeated at least once");
    *times += more;
}

fn number(word: &str) -> usize {
    word.parse().expect("a number")
}

fn hex(code: &str) -> u8 {
    assert!(code.len() == 2, "two hex digits: {code}");
    u8::from_str_radix(code, 16).expect("two hex digits")
}
