//! The recorded cases: messages for every rule of the page and of the change requests on both sides of its edge.
//!
//! `second record` writes them, `second cases` says their answers; `steps` says how both are written, and `second/regenerate` stores both in
//! crates/vectors of the repository. First come messages that are each screened with none held, then the histories of `calls` (CR 8). Those of
//! the box for the old exchange (CR 7) are other ones: see `isup`.

pub mod callers;
pub mod calling;
pub mod calls;
mod columns;
mod edges;
pub mod history;
pub mod identities;
pub mod isup;
mod outside;
mod outside_responses;
mod privacy;
mod responses;
pub mod reviewed;
mod sizes;
pub mod steps;
mod strewn;
pub mod worked;

use crate::{none_held, screen};
pub use steps::Step;

/// The room of the page's screening program, and the most that a case has.
pub const ROOM: u16 = 9216;

/// The longest recorded message: one byte more than a message may have.
pub const MOST: usize = 8193;

/// A message with its side and room.
#[derive(Clone, Debug, PartialEq, Eq, Hash)]
pub struct Case {
    pub side: u8,
    pub room: u16,
    pub message: Vec<u8>,
}

impl Case {
    fn new(side: u8, message: Vec<u8>) -> Case {
        Case { side, room: ROOM, message }
    }
}

/// All messages that are screened with none held before, in their order, each once.
pub fn cases() -> Vec<Case> {
    let mut seen = std::collections::HashSet::new();
    let from_others = [outside::cases(), outside_responses::cases(), reviewed::cases()];
    let own = [columns::cases(), edges::cases(), sizes::cases(), strewn::cases(), responses::cases()];
    let of_callers = [privacy::cases(), callers::cases(), identities::cases()];
    let mut all: Vec<Case> = from_others.into_iter().chain(own).chain(of_callers).flatten().collect();
    all.retain(|case| seen.insert(case.clone()));
    all
}

/// Those messages, and the histories of calls.
pub fn steps() -> Vec<Step> {
    let all: Vec<Step> = cases().into_iter().map(Step::Fresh).chain(calls::steps()).collect();
    assert!(all.iter().all(Step::keeps_to_its_sizes), "a recorded case is too long");
    all
}

/// The file of recorded cases.
pub fn file() -> Vec<u8> {
    steps().iter().flat_map(Step::encoded).collect()
}

/// The bytes that go out for a message with none held and room enough.
fn length_out(message: &[u8], side: u8) -> u16 {
    screen(message, u64::from(side), &mut none_held(), &mut [0; ROOM as usize]).numbers()[4] as u16
}

/// Both sides of each message.
fn both_sides(messages: Vec<Vec<u8>>) -> Vec<Case> {
    messages.into_iter().flat_map(|message| [Case::new(0, message.clone()), Case::new(1, message)]).collect()
}

/// Each message on one side, the untrusted one.
fn untrusted(messages: Vec<Vec<u8>>) -> Vec<Case> {
    messages.into_iter().map(|message| Case::new(1, message)).collect()
}
