//! Sizes: 96 and 97 fields, 8,192 and 8,193 bytes, the room one byte short and exact, and the longest outputs.

use super::{length_out, Case, ROOM};
use crate::drafts::{call, Draft, Whole};

pub fn cases() -> Vec<Case> {
    let mut all = Vec::new();
    all.extend(field_counts());
    all.extend(lengths());
    all.extend(rooms());
    all
}

/// The draft with fields of this name and value in front until it has so many.
pub fn filled(draft: &Draft, name: &str, value: &[u8], many: usize) -> Draft {
    let mut out = draft.clone();
    while out.fields.len() < many {
        out.fields.insert(0, Whole { name: name.into(), rest: [b":", value, b"\r\n"].concat() });
    }
    out
}

fn field_counts() -> Vec<Case> {
    let mut all = Vec::new();
    for many in [95, 96, 97, 200] {
        for column in 0..6 {
            if many == 95 || many == 200 {
                continue;
            }
            all.push(Case::new(1, filled(&Draft::least(column), "X", b"y", many).bytes()));
            all.push(Case::new(1, filled(&Draft::least(column), "v", b"y", many).bytes()));
        }
        // Over 96 fields comes before the method; bad shape comes before both.
        all.push(Case::new(1, filled(&Draft::bare("INFO", "x"), "k", b"", many).bytes()));
        let mut bad = filled(&Draft::least(0), "X", b"", many).bytes();
        bad.truncate(bad.len() - 2);
        all.push(Case::new(1, bad));
    }
    all
}

/// Messages of exact lengths: by a body, by one long value of each kind, by an unlisted field.
fn lengths() -> Vec<Case> {
    let mut all = Vec::new();
    for length in [8191, 8192, 8193] {
        let base = Draft::least(0).and("Content-Type", b"x");
        let spare = length - base.bytes().len();
        all.push(Case::new(1, base.carrying(&vec![b'b'; spare]).bytes()));
        if length < 8192 {
            continue;
        }
        for (front, piece, back, number) in [
            ("", "a", "", 1), ("", " \r\n ", "x", 10), ("", "x\r\n ", "x", 17), ("\"", "\\\"", "\" <sip:h>;tag=1", 3), ("<sip:h;", "%41", ">;tag=1", 3),
            ("<sip:h>;tag=1", ";a=\"b\"", "", 3), ("", "timer,", "x", 14), ("", "id ;", "x", 16), ("", "\t", "", 0), ("", "\u{e9}", "", 0),
        ] {
            all.push(Case::new(1, stretched(number, front, piece, back, length)));
        }
    }
    let long = Draft::least(0).carrying(&[b'x'; 8000]).bytes();
    all.push(Case::new(7, vec![0; 8193]));
    all.push(Case::new(1, vec![b'A'; 8192]));
    all.push(Case::new(1, vec![b'A'; 8193]));
    all.push(Case::new(1, long[..long.len().min(8192)].to_vec()));
    all
}

/// An INVITE of exactly this length whose one value is made long by repeating a piece.
fn stretched(number: u64, front: &str, piece: &str, back: &str, length: usize) -> Vec<u8> {
    let with = |times: usize, fill: usize| {
        let value = format!("{front}{}{back}", piece.repeat(times));
        let draft = Draft::least(0).with(number, value.as_bytes());
        draft.and("X", &vec![b'f'; fill]).bytes()
    };
    let mut times = 0;
    while with(times + 1, 0).len() <= length {
        times += 1;
    }
    let fill = length - with(times, 0).len();
    with(times, fill)
}

/// The room at the edge of the length needed, for messages of every column; and what the page says of growth.
fn rooms() -> Vec<Case> {
    let mut messages: Vec<Vec<u8>> = (0..6).flat_map(|column| [Draft::least(column).bytes(), Draft::full(column).bytes()]).collect();
    messages.push(call());
    messages.push(Draft::full(0).with(16, b"id").with(3, b"sip:h;tag=1").bytes());
    messages.push(Draft::full(0).with(8, b"5").carrying(b"\xa5\xa5\xa5\xa5\xa5").bytes());
    messages.push(filled(&Draft::least(3), "k", b"", 96).bytes());
    messages.push(growing(96).bytes());
    let grown = growing(96);
    messages.push(grown.carrying(&vec![b'x'; 8192 - grown.bytes().len()]).bytes());
    let mut all: Vec<Case> = messages.into_iter().flat_map(room_edges).collect();
    // A refusal does not look at the room.
    for room in [0, 1, 100] {
        all.push(Case { side: 1, room, message: Draft::least(0).without(7).bytes() });
        all.push(Case { side: 2, room, message: call() });
        all.push(Case { side: 1, room, message: Vec::new() });
    }
    all
}

/// The room exact, one byte short, one byte more, and far too small; only the first two for a long message.
pub fn room_edges(message: Vec<u8>) -> Vec<Case> {
    let mut all = Vec::new();
    for side in [0, 1] {
        let need = length_out(&message, side);
        let rooms = [need, need.saturating_sub(1), need.saturating_add(1).min(ROOM), 0, 1, need / 2];
        for &room in &rooms[..if need > 5000 { 2 } else { 6 }] {
            all.push(Case { side, room, message: message.clone() });
        }
    }
    all
}

/// A later INVITE, the caller withheld, that grows by as much as compact names and From can give.
fn growing(many: usize) -> Draft {
    let mut draft = Draft::bare("INVITE", "sip:h");
    for (name, value) in [
        ("v", "x"), ("Max-Forwards", "9"), ("f", "sip:h;tag=1"), ("t", "sip:h;tag=2"), ("i", "x"), ("CSeq", "1 INVITE"), ("m", "x"), ("c", "x"),
        ("Privacy", "id"),
    ] {
        draft.fields.push(Whole { name: name.into(), rest: [b":", value.as_bytes(), b"\r\n"].concat() });
    }
    filled(&draft, "k", b"", many)
}
