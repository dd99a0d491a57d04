//! "Hidden for the whole call" (CR 8): the table of remembered calls. Its layout stands in docs/DECISIONS.md, "Readings of calls that stay
//! hidden". It is read as a list of places, each with a pair or free, and every change is a new table.

use crate::address;
use crate::classes::is_whole_token;
use crate::judge::Passed;
use crate::profile::Column;
use crate::start::Start;
use crate::values;
use std::collections::BTreeSet;

/// "Remember up to 32 calls".
pub const PLACES: usize = 32;

/// The most bytes of a Call-ID and of a tag.
pub const LONGEST_CALL_ID: usize = 128;
pub const LONGEST_TAG: usize = 64;

/// A place: the length of the Call-ID, the Call-ID, the length of the tag, the tag.
pub const PLACE: usize = 1 + LONGEST_CALL_ID + 1 + LONGEST_TAG;

pub const TABLE: usize = PLACES * PLACE;

/// The bytes that the caller lends. Any content is a table.
pub type Table = [u8; TABLE];

/// "Starting from none held".
pub fn none_held() -> Table {
    [0; TABLE]
}

/// "calls by Call-ID and From tag", "compared byte by byte"
#[derive(Clone, Debug, PartialEq, Eq, PartialOrd, Ord)]
pub struct Pair {
    pub call_id: Vec<u8>,
    pub tag: Vec<u8>,
}

impl Pair {
    pub fn new(call_id: &[u8], tag: &[u8]) -> Pair {
        Pair { call_id: call_id.to_vec(), tag: tag.to_vec() }
    }

    /// Both texts have the forms of the page.
    fn is_well_formed(&self) -> bool {
        values::is_call_id(&self.call_id) && self.tag.len() <= LONGEST_TAG && is_whole_token(&self.tag)
    }

    /// The canonical Call-ID and From's tag of a request that passed; a response has no pair here: "Any accepted request".
    fn of(passed: &Passed) -> Option<Pair> {
        let Start::Request { .. } = passed.start else { return None };
        let tag = address::address(&passed.first(3)?.bytes)?.tag()?.to_vec();
        Some(Pair { call_id: passed.first(5)?.bytes.clone(), tag })
    }

    /// The pair of a place. "a place without a well-formed pair is free": None.
    fn at(place: &[u8]) -> Option<Pair> {
        let (call_id, tag) = place.split_at(1 + LONGEST_CALL_ID);
        let pair = Pair::new(text(call_id)?, text(tag)?);
        pair.is_well_formed().then_some(pair)
    }

    /// A whole place that holds the pair: what the texts do not fill is 0.
    fn written(&self) -> [u8; PLACE] {
        let mut place = [0; PLACE];
        let (call_id, tag) = place.split_at_mut(1 + LONGEST_CALL_ID);
        for (part, text) in [(call_id, &self.call_id), (tag, &self.tag)] {
            part[0] = text.len() as u8;
            part[1..=text.len()].copy_from_slice(text);
        }
        place
    }
}

/// The text behind its length byte; None where the length goes beyond the bytes there.
fn text(part: &[u8]) -> Option<&[u8]> {
    part.get(1..1 + usize::from(part[0]))
}

fn places(table: &Table) -> Vec<Option<Pair>> {
    table.chunks(PLACE).map(Pair::at).collect()
}

/// "In any other table equal pairs count once".
pub fn held(table: &Table) -> BTreeSet<Pair> {
    places(table).into_iter().flatten().collect()
}

/// Whether a message that passed goes out with its caller hidden: "with the caller withheld", or "with a remembered pair"; to side 1 alone.
pub fn is_hidden(passed: &Passed, side: u64, table: &Table) -> bool {
    let remembered = || Pair::of(passed).is_some_and(|pair| held(table).contains(&pair));
    side == 1 && (passed.is_withheld() || remembered())
}

/// The table after a message that passed and goes out: "an accepted, withheld INVITE to side 1 enters its pair once; an accepted BYE to side 1
/// with the pair .. removes it". None is reason 18.
pub fn after(passed: &Passed, side: u64, table: &Table) -> Option<Table> {
    match Pair::of(passed) {
        Some(pair) if side == 1 && passed.is_withheld() => entered(table, &pair),
        Some(pair) if side == 1 && passed.column == Column::Bye => Some(removed(table, &pair)),
        _ => Some(*table),
    }
}

/// The table with the pair entered; the same where it is held. None "exactly when a new pair meets 32 held ones".
fn entered(table: &Table, pair: &Pair) -> Option<Table> {
    let held = held(table);
    if held.contains(pair) {
        return Some(*table);
    }
    if held.len() == PLACES {
        return None;
    }
    let start = PLACE * place_for_a_new_pair(table);
    let mut after = *table;
    after[start..start + PLACE].copy_from_slice(&pair.written());
    Some(after)
}

/// The first place whose first byte is 0; where there is none, the first that is free in any other way or holds the pair of an earlier place.
/// There is one where fewer than 32 pairs are held.
fn place_for_a_new_pair(table: &Table) -> usize {
    let places = places(table);
    let empty = |place: &usize| table[PLACE * place] == 0;
    let spare = |place: &usize| places[*place].is_none() || places[..*place].contains(&places[*place]);
    (0..PLACES).find(empty).or((0..PLACES).find(spare)).expect("a place is spare where fewer than 32 pairs are held")
}

/// The table with zeros over every place that holds the pair.
fn removed(table: &Table, pair: &Pair) -> Table {
    let mut after = *table;
    for (place, found) in after.chunks_mut(PLACE).zip(places(table)) {
        if found.as_ref() == Some(pair) {
            place.fill(0);
        }
    }
    after
}

/// "an explicit end removes it"; "Ending an unknown pair: 19", which changes no byte. Texts that are no well-formed pair are not held.
pub fn end_call(table: &mut Table, call_id: &[u8], tag: &[u8]) -> u64 {
    let pair = Pair::new(call_id, tag);
    if !held(table).contains(&pair) {
        return 19;
    }
    *table = removed(table, &pair);
    0
}
