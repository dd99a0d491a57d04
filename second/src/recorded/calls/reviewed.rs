//! Histories that a reader of the pages wrote, with the answers: second/reviewed/hidden-calls.txt. Its first paragraph says how they are written.

use super::tables::{place, raw, stored, Place, FREE};
use crate::calls::{Pair, PLACE, TABLE};
use crate::recorded::reviewed::{bytes, five, side_and_room};
use crate::recorded::{Case, Step};
use crate::{none_held, Table};
use std::collections::BTreeSet;
use std::ops::RangeInclusive;

const FILE: &str = include_str!("../../../reviewed/hidden-calls.txt");

/// The table before, and what comes to it.
pub struct History {
    pub name: String,
    pub before: Table,
    pub steps: Vec<Reviewed>,
}

/// A screening or an end and what its writer says of it: the numbers of its answer, the outgoing message, and what else holds afterwards.
pub struct Reviewed {
    pub step: Step,
    pub answer: Vec<u64>,
    pub output: Vec<u8>,
    pub said: Vec<Said>,
}

/// What is said of the table as it stands after a step.
pub enum Said {
    /// "the pairs held are exactly these, as a set"
    Held(BTreeSet<Pair>),
    /// "the last screening or end before it changed no byte of the table"
    Kept,
    /// "all 194 bytes of place K"
    Place(usize, Place),
    /// "as they were before the first screening or end of the history"
    AsSet(usize),
}

pub fn steps() -> Vec<Step> {
    histories().into_iter().flat_map(History::recorded).collect()
}

/// Each history is a paragraph; the first one of the file says what it has.
pub fn histories() -> Vec<History> {
    FILE.split("\n\n").skip(1).map(history).collect()
}

impl History {
    fn recorded(self) -> Vec<Step> {
        let steps = self.steps.into_iter().map(|reviewed| reviewed.step);
        [stored(&self.before)].into_iter().chain(steps).collect()
    }

    /// A line behind `none held`; notes say nothing.
    fn take(&mut self, line: &str) {
        match line.split_at(1) {
            ("#", _) => {}
            (">", text) => self.last().message().extend(bytes(text)),
            ("<", text) => self.last().output.extend(bytes(text)),
            ("=", numbers) => self.last().answer = five(numbers).to_vec(),
            ("s", _) => self.steps.push(Reviewed::new(screening(line), Vec::new())),
            _ => self.take_words(&words(line)),
        }
    }

    fn take_words(&mut self, words: &[Word]) {
        let plain: Vec<&str> = words.iter().map(|word| word.plain).collect();
        match plain[..] {
            ["fill", range] => self.set(numbers(range).map(filled)),
            ["place", place, call_id_length, _, tag_length, _] => {
                let whole = raw(number(call_id_length) as u8, &words[3].bytes, number(tag_length) as u8, &words[5].bytes, 0);
                self.set([(number(place.trim_end_matches(':')), whole)]);
            }
            ["end", _, _, "=", answer] => self.steps.push(Reviewed::new(Step::end(&words[1].bytes, &words[2].bytes), vec![number(answer) as u64])),
            _ => self.last().said.push(said(words, &plain)),
        }
    }

    /// Gives places their bytes: "Only before the first screening or end of the history."
    fn set(&mut self, places: impl IntoIterator<Item = (usize, Place)>) {
        assert!(self.steps.is_empty(), "a place is set before the first step: {}", self.name);
        for (number, place) in places {
            self.before[PLACE * number..PLACE * (number + 1)].copy_from_slice(&place);
        }
    }

    fn last(&mut self) -> &mut Reviewed {
        self.steps.last_mut().expect("a screening or an end")
    }
}

impl Reviewed {
    fn new(step: Step, answer: Vec<u64>) -> Reviewed {
        Reviewed { step, answer, output: Vec::new(), said: Vec::new() }
    }

    fn message(&mut self) -> &mut Vec<u8> {
        let Step::Next(case) = &mut self.step else { panic!("no message of an end") };
        &mut case.message
    }
}

fn history(paragraph: &str) -> History {
    let mut lines = paragraph.lines();
    let notes: Vec<&str> = lines.by_ref().take_while(|line| *line != "none held").collect();
    assert!(notes.len() >= 2 && notes.iter().all(|line| line.starts_with("# ")), "{notes:?}");
    let mut history = History { name: notes[0][2..].to_string(), before: none_held(), steps: Vec::new() };
    lines.for_each(|line| history.take(line));
    history
}

fn screening(line: &str) -> Step {
    let (side, room) = side_and_room(line);
    Step::Next(Case { side, room, message: Vec::new() })
}

fn said(words: &[Word], plain: &[&str]) -> Said {
    match plain {
        ["held", "-"] => Said::Held(BTreeSet::new()),
        ["held", ..] => Said::Held(words[1..].split(|word| word.plain == "|").flat_map(item).collect()),
        ["table", "kept"] => Said::Kept,
        ["place", place, "is", "free"] => Said::Place(number(place), FREE),
        ["place", place, "is", _, _] => Said::Place(number(place), place_of(&words[3].pair(&words[4]))),
        ["place", place, "as", "set"] => Said::AsSet(number(place)),
        _ => panic!("no such line: {plain:?}"),
    }
}

/// The pairs of an item of a line that begins with `held`.
fn item(words: &[Word]) -> Vec<Pair> {
    match words {
        [Word { plain: "fill", .. }, range] => numbers(range.plain).map(shorthand).collect(),
        [call_id, tag] => vec![call_id.pair(tag)],
        _ => panic!("no pair: {:?}", words.iter().map(|word| word.plain).collect::<Vec<_>>()),
    }
}

/// "the well-formed pair of Call-ID `ck@full` and tag `tk`"
fn shorthand(k: usize) -> Pair {
    Pair::new(format!("c{k}@full").as_bytes(), format!("t{k}").as_bytes())
}

fn filled(k: usize) -> (usize, Place) {
    (k, place_of(&shorthand(k)))
}

fn place_of(pair: &Pair) -> Place {
    place(&pair.call_id, &pair.tag)
}

/// A word of a line, as it is written and the bytes that it stands for. "where it is empty, has a space in it or begins with " it stands
/// between double quotes"
struct Word<'a> {
    plain: &'a str,
    bytes: Vec<u8>,
}

impl Word<'_> {
    fn pair(&self, tag: &Word) -> Pair {
        Pair::new(&self.bytes, &tag.bytes)
    }
}

/// The words of a line, parted by single spaces.
fn words(line: &str) -> Vec<Word<'_>> {
    let mut all = Vec::new();
    let mut rest = line;
    while !rest.is_empty() {
        let end = match rest.strip_prefix('"') {
            Some(text) => 2 + text.find('"').expect("a closing quote"),
            None => rest.find(' ').unwrap_or(rest.len()),
        };
        let (plain, after) = rest.split_at(end);
        let text = if plain.starts_with('"') { &plain[1..end - 1] } else { plain };
        all.push(Word { plain, bytes: bytes(text) });
        rest = after.strip_prefix(' ').unwrap_or(after);
    }
    all
}

fn number(word: &str) -> usize {
    word.parse().unwrap_or_else(|_| panic!("not a number: {word}"))
}

/// K..L, "both included"
fn numbers(range: &str) -> RangeInclusive<usize> {
    let (first, last) = range.split_once("..").expect("a range");
    let range = number(first)..=number(last);
    assert!(*range.end() < TABLE / PLACE && !range.is_empty(), "{range:?}");
    range
}
