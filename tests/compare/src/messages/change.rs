//! "What demand 3 compares": harmless fields and other names.

use super::values::privacy;
use second::drafts::{in_any_case, renamed, Dice, Draft, Whole};
use second::profile::{self, ROWS};
use second::{judge, lines};

/// The names that the column of a message ignores: by its kind, its method and its status. None where it has no column.
pub fn ignored_names(draft: &Draft) -> Vec<&'static str> {
    let column = lines::read(&draft.bytes()).ok().and_then(|lines| judge::column(&lines));
    let rows = ROWS.iter().filter(|row| column.is_some_and(|column| profile::is_ignored(row.number, column)));
    rows.flat_map(|row| [row.name, row.compact]).filter(|name| !name.is_empty()).collect()
}

/// A well-shaped field with one of these names, or with a name that is not listed.
pub fn ignored(dice: &mut Dice, listed: &[&str]) -> Whole {
    let unlisted = ["X-Relay-Mode", "Via-Extra", "Vi", "Subject", "s", "e", "a", "P-Asserted-Identit", "Privacys", "Privac", "re", "!%*_+`'~", "0", "Fro", "Tos"];
    let name = if listed.is_empty() || dice.one_in(2) { *dice.pick(&unlisted) } else { *dice.pick(listed) };
    let mut rest = dice.pick(&[":", " :", "\t: "]).as_bytes().to_vec();
    // In a Privacy that counts, some lists would withhold the caller.
    rest.extend(if dice.one_in(6) { privacy(dice) } else { any_value(dice) });
    rest.extend(b"\r\n");
    Whole { name: in_any_case(dice, name.as_bytes()), rest }
}

fn any_value(dice: &mut Dice) -> Vec<u8> {
    let mut out = Vec::new();
    for _ in 0..dice.below(16) {
        match dice.below(10) {
            0 => out.extend(b"\r\n "),
            1 => out.extend(b";tag=1"),
            2 => out.push(*dice.pick(&[9, 128, 255])),
            3 => out.extend(b"\r\n\t\r\n "),
            _ => out.push(32 + dice.below(95) as u8),
        }
    }
    out
}

/// The message of the draft with harmless fields added and names rewritten. None where one of the two has its empty line elsewhere than the
/// draft: a fault can leave one inside a drafted field; what comes after it is body, and no longer a field to be renamed.
pub fn harmless(dice: &mut Dice, draft: &Draft, message: &[u8]) -> Option<Vec<u8>> {
    let changed = changed(dice, draft).bytes();
    let as_drafted = |bytes: &[u8]| lines::read(bytes).is_ok_and(|lines| lines.rest == draft.body);
    (as_drafted(message) && as_drafted(&changed)).then_some(changed)
}

/// The same message with harmless fields added anywhere and names rewritten: each original field keeps every byte after its name.
fn changed(dice: &mut Dice, draft: &Draft) -> Draft {
    let listed = ignored_names(draft);
    let mut out = draft.clone();
    for field in out.fields.iter_mut() {
        if dice.one_in(2) {
            field.name = renamed(dice, &field.name);
        }
    }
    let most = 96usize.saturating_sub(out.fields.len());
    let many = if dice.one_in(50) { most } else { dice.below(7) };
    for _ in 0..many {
        let added = ignored(dice, &listed);
        let place = dice.below(out.fields.len() + 1);
        out.fields.insert(place, added);
    }
    out
}
