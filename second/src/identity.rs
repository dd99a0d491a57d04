//! P-Asserted-Identity: the identities of one value, and those of all fields together (CR 6).

use crate::address;
use crate::classes::after_blanks;
use crate::uri::{self, Scheme};

/// One asserted identity: the scheme of its URI, and start and length in the value of the digits with `+`.
#[derive(Clone, Copy, Debug, PartialEq)]
pub struct Identity {
    pub scheme: Scheme,
    pub start: usize,
    pub length: usize,
}

/// The identities of a whole canonical value, in their order: "in one field parted by a comma (spaces or tabs free around it)", "each of
/// the old form". None where the value has no such form. How many there may be is asked in `are_allowed`.
pub fn identities(value: &[u8]) -> Option<Vec<Identity>> {
    let mut found = Vec::new();
    let mut rest = value;
    loop {
        let (identity, after) = one_identity(rest, value.len() - rest.len())?;
        found.push(identity);
        if after.is_empty() {
            return Some(found);
        }
        rest = after_blanks(after_blanks(after).strip_prefix(b",")?);
    }
}

/// "an address without parameters after it", its number in the full form, at the front of the text, which starts at `place` in the value;
/// and what follows it. The digits stand right after the four bytes of `sip:` or `tel:`.
fn one_identity(text: &[u8], place: usize) -> Option<(Identity, &[u8])> {
    let (uri_start, uri, rest) = address::without_parameters(text)?;
    let number = uri.dialled();
    let identity = Identity { scheme: uri.scheme, start: place + uri_start + 4, length: number.len() };
    uri::is_full_number(number).then_some((identity, rest))
}

/// CR 6: "Allow one or two": "if two, one sip and one tel".
pub fn are_allowed(all: &[Identity]) -> bool {
    match all {
        [_] => true,
        [one, other] => one.scheme != other.scheme,
        _ => false,
    }
}
