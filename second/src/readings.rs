//! The page's section "Fields and the calling number".

use crate::classes::is_space;
use crate::identity::Identity;
use crate::judge::{self, Passed};
use crate::lines::{self, Field};
use crate::profile;
use crate::uri::{self, Scheme};
use crate::Part;

/// All fields with this number in a well shaped message; none at reason 2 to 5 or where the number
/// is not listed.
fn occurrences(message: &[u8], number: u64) -> Vec<Field> {
    if profile::row_of_number(number).is_none() {
        return Vec::new();
    }
    match lines::read(message) {
        Ok(lines) => lines.fields.into_iter().filter(|f| profile::number_of_name(&f.name) == number).collect(),
        Err(_) => Vec::new(),
    }
}

/// "a count says how often it occurs"
pub fn count(message: &[u8], number: u64) -> usize {
    occurrences(message, number).len()
}

/// "the value as a part of the message itself, from its first byte that is no space, tab or line
/// break to its last". An empty part is (0, 0).
pub fn reading(message: &[u8], number: u64, place: u64) -> (usize, usize) {
    let fields = occurrences(message, number);
    if place < 1 || place > fields.len() as u64 {
        return (0, 0);
    }
    let field = &fields[place as usize - 1];
    trimmed(message, field.value_start, field.value_end)
}

fn trimmed(message: &[u8], start: usize, end: usize) -> (usize, usize) {
    let (mut start, mut end) = (start, end);
    while start < end && is_space(message[start]) {
        start += 1;
    }
    while start < end && is_space(message[end - 1]) {
        end -= 1;
    }
    if start == end {
        (0, 0)
    } else {
        (start, end - start)
    }
}

const EMPTY: Part = Part { from_trunk: false, start: 0, length: 0 };

/// "the P-Asserted-Identity digits with their `+` where the message has that field not ignored, else
/// the trunk number"; empty "exactly if the trunk number lacks the P-Asserted-Identity form or the
/// message has a reason of 2 to 15 on side 0". CR 1: "At 17 the calling number is empty."
pub fn calling_number(message: &[u8], trunk: &[u8]) -> Part {
    if !uri::is_full_number(trunk) {
        return EMPTY;
    }
    let passed = match judge::judge(message, 0) {
        Ok(passed) => passed,
        Err(_) => return EMPTY,
    };
    match calling_identity(&passed) {
        None => Part { from_trunk: true, start: 0, length: trunk.len() },
        Some(identity) => Part { from_trunk: false, start: identity.start, length: identity.length },
    }
}

/// CR 6: "The calling number comes from the sip one .. in either order"; else from the only one. Its start is counted in the message.
pub fn calling_identity(passed: &Passed) -> Option<Identity> {
    let all = judge::asserted(&passed.fields);
    let sip = all.iter().find(|identity| identity.scheme == Scheme::Sip);
    sip.or(all.first()).copied()
}
