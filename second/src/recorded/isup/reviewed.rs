//! Worked cases of CR 7 that a reader of the pages wrote, with the answers: second/reviewed/isup-forward.txt and isup-back.txt.

use super::Case;
use crate::recorded::reviewed::bytes;

const FILES: [&str; 2] = [include_str!("../../../reviewed/isup-forward.txt"), include_str!("../../../reviewed/isup-back.txt")];

/// A case and what its writer says of it, as `Case::line` prints it.
pub struct Reviewed {
    pub name: String,
    pub case: Case,
    pub line: String,
}

/// Those that are no longer than a recorded case can be.
pub fn cases() -> Vec<Case> {
    all().into_iter().map(|reviewed| reviewed.case).filter(Case::keeps_to_its_sizes).collect()
}

/// Each case is a paragraph; the first one of a file says what it has.
pub fn all() -> Vec<Reviewed> {
    FILES.iter().flat_map(|file| file.split("\n\n").skip(1)).map(reviewed).collect()
}

/// Its lines: the name and the sentence; the code, the flag and the message, or the code and the parameter, or the cause; the answer.
fn reviewed(paragraph: &str) -> Reviewed {
    let (comments, lines): (Vec<&str>, Vec<&str>) = paragraph.lines().partition(|line| line.starts_with('#'));
    assert!(comments.len() >= 2 && comments[1].starts_with("# \""), "{paragraph}");
    let (case, line) = match lines[..] {
        [cause, answer] => (Case::Cause(number(after(cause, "cause "))), status_line(after(answer, "= "))),
        [code, parameter, answer] => (Case::backward(&lent(code), &octets(parameter)), caller_line(after(answer, "= "))),
        [code, home, ref message @ .., answer] => {
            let message: Vec<u8> = message.iter().flat_map(|line| bytes(after(line, ">"))).collect();
            (Case::forward(flag(after(home, "home ")), &lent(code), &message), parameter_line(after(answer, "= ")))
        }
        _ => panic!("too few lines: {paragraph}"),
    };
    Reviewed { name: after(comments[0], "# ").to_string(), case, line }
}

fn after<'a>(line: &'a str, start: &str) -> &'a str {
    line.strip_prefix(start).unwrap_or_else(|| panic!("not {start:?} at the start: {line}"))
}

fn number(word: &str) -> u64 {
    word.parse().unwrap_or_else(|_| panic!("not a number: {word}"))
}

fn flag(word: &str) -> bool {
    assert!(["0", "1"].contains(&word), "no flag: {word}");
    word == "1"
}

fn hex(word: &str) -> u8 {
    assert!(word.len() == 2, "two hex digits: {word}");
    u8::from_str_radix(word, 16).expect("two hex digits")
}

/// The country code; an empty one has no space before it.
fn lent(line: &str) -> Vec<u8> {
    match after(line, "code") {
        "" => Vec::new(),
        code => bytes(after(code, " ")),
    }
}

/// The parameter: bytes in hex, or HH*n.
fn octets(line: &str) -> Vec<u8> {
    let times = |word: &str| match word.split_once('*') {
        Some((byte, count)) => vec![hex(byte); number(count) as usize],
        None => vec![hex(word)],
    };
    after(line, "bytes").split_whitespace().flat_map(times).collect()
}

/// Reason, reply, detail and missing count, and the parameter's bytes where the reason is 0.
fn parameter_line(answer: &str) -> String {
    let words: Vec<&str> = answer.split(' ').collect();
    let [reason, reply, detail, missing] = [0, 1, 2, 3].map(|place| number(words[place]));
    let parameter: String = words[4..].iter().map(|word| format!(" {}", hex(word))).collect();
    assert_eq!(reason == 0, words.len() > 4, "{answer}");
    format!("{reason} {reply} {detail} {missing} {}{parameter}\n", words.len() - 4)
}

/// Refusal and `id`, and the number where the refusal is 0.
fn caller_line(answer: &str) -> String {
    match answer.split(' ').collect::<Vec<&str>>()[..] {
        ["0", id, digits] => format!("0 {} {} {digits}\n", number(id), digits.len()),
        [refusal, id] if refusal != "0" => format!("{} {} 0\n", number(refusal), number(id)),
        _ => panic!("no such answer: {answer}"),
    }
}

fn status_line(answer: &str) -> String {
    match answer.split(' ').collect::<Vec<&str>>()[..] {
        [status, refusal] => format!("{} {}\n", number(status), number(refusal)),
        _ => panic!("no such answer: {answer}"),
    }
}
