//! Calls that stay hidden (CR 8): histories of messages and explicit ends over one table, a reader's among them, tables made by hand, and
//! histories drawn at random.

mod drawn;
mod histories;
pub mod reviewed;
mod tables;

use super::{Case, Step};
use crate::drafts::Draft;
pub use drawn::of_some_call;
pub use tables::{raw, Place, FREE};

pub fn steps() -> Vec<Step> {
    [reviewed::steps(), histories::steps(), tables::steps(), drawn::steps()].concat()
}

/// The places of the columns, as `drafts` counts them, of an initial and a later INVITE, of ACK and of BYE.
const INITIAL: usize = 0;
const LATER: usize = 1;
pub const ACK: usize = 2;
pub const BYE: usize = 3;

/// The least message of a column with this Call-ID and this From tag.
pub fn of_call(column: usize, call_id: &str, tag: &str) -> Draft {
    let from = format!("<sip:+331876543@a>;tag={tag}");
    Draft::least(column).with(5, call_id.as_bytes()).with(3, from.as_bytes())
}

/// An initial INVITE of a withheld caller.
pub fn withheld(call_id: &str, tag: &str) -> Draft {
    of_call(INITIAL, call_id, tag).with(16, b"id")
}

/// The first message of a history, to side 1.
fn first(draft: &Draft) -> Step {
    Step::Fresh(Case::new(1, draft.bytes()))
}

/// A later one, to side 1.
fn then(draft: &Draft) -> Step {
    Step::next(1, draft.bytes())
}

/// A later one, to side 0.
fn then_trusted(draft: &Draft) -> Step {
    Step::next(0, draft.bytes())
}

/// A later one to side 1 with so much room.
fn then_in(room: u16, draft: &Draft) -> Step {
    Step::Next(Case { side: 1, room, message: draft.bytes() })
}

fn end(call_id: &str, tag: &str) -> Step {
    Step::end(call_id.as_bytes(), tag.as_bytes())
}
