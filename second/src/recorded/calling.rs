//! Calling numbers that a reader of the pages alone wrote (CR 6): second/reviewed/identities-calling.txt.

use super::reviewed::bytes;
use crate::Part;

const FILE: &str = include_str!("../../reviewed/identities-calling.txt");

/// A message, a trunk number and what the writer says of them: the calling number's place, its digits, and the same in words.
pub struct Called {
    pub name: String,
    pub trunk: Vec<u8>,
    pub message: Vec<u8>,
    pub part: Part,
    pub digits: String,
    pub words: String,
}

/// Each case is a paragraph; the first one of the file says what it has.
pub fn cases() -> Vec<Called> {
    FILE.split("\n\n").skip(1).map(called).collect()
}

/// Its lines: the name, the sentence, the trunk number, the message, the answer, the answer in words.
fn called(paragraph: &str) -> Called {
    let lines: Vec<&str> = paragraph.lines().collect();
    let [name, sentence, trunk, message @ .., answer, words] = &lines[..] else { panic!("too few lines: {paragraph}") };
    assert!(sentence.starts_with("# \""), "{sentence}");
    let (part, digits) = answered(after(answer, "= "));
    Called {
        name: after(name, "# ").to_string(),
        trunk: bytes(after(trunk, "trunk ")),
        message: message.iter().flat_map(|line| bytes(after(line, ">"))).collect(),
        part,
        digits,
        words: after(words, "# calling number: ").to_string(),
    }
}

fn after<'a>(line: &'a str, start: &str) -> &'a str {
    line.strip_prefix(start).unwrap_or_else(|| panic!("not {start:?} at the start: {line}"))
}

fn answered(answer: &str) -> (Part, String) {
    let number = |word: &str| word.parse().expect("a number");
    match answer.split(' ').collect::<Vec<&str>>()[..] {
        ["empty"] => (Part { from_trunk: false, start: 0, length: 0 }, String::new()),
        [whole @ ("message" | "trunk"), start, length, digits] => {
            (Part { from_trunk: whole == "trunk", start: number(start), length: number(length) }, digits.to_string())
        }
        _ => panic!("no such answer: {answer}"),
    }
}
