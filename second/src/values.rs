//! "Values that are read": each field's own rule over its canonical value.

use crate::address;
use crate::classes::{is_blank, is_digit, is_visible, is_whole_token, number_of_digits, same_in_any_case};
use crate::classes::{span, trim_blanks};
use crate::identity;

/// Whether the canonical value of the field with this number is well formed by itself. What the P-Asserted-Identity fields of a message may
/// be together is asked in `judge`.
pub fn is_well_formed(number: u64, value: &[u8], method: &[u8]) -> bool {
    match number {
        1 | 7 | 9 | 10 | 11 | 18 => !value.is_empty(),
        2 => max_forwards(value).is_some(),
        3 => address::address(value).is_some_and(|from| from.tag().is_some()),
        4 => address::address(value).is_some(),
        5 => is_call_id(value),
        6 => is_cseq(value, method),
        8 => content_length(value).is_some(),
        14 => require(value).is_some(),
        15 => identity::identities(value).is_some_and(|all| identity::are_allowed(&all)),
        16 => privacy(value).is_some(),
        // "Supported, Accept and Allow may be empty", and nothing else is said of them.
        _ => true,
    }
}

/// "1 to 3 digits, at most 255"
pub fn max_forwards(value: &[u8]) -> Option<u64> {
    number_of_digits(value, 3).filter(|&number| number <= 255)
}

/// "1 to 5 digits"
pub fn content_length(value: &[u8]) -> Option<u64> {
    number_of_digits(value, 5)
}

/// "1 to 128 bytes, each 33 to 126"
pub fn is_call_id(value: &[u8]) -> bool {
    (1..=128).contains(&value.len()) && value.iter().all(|&byte| is_visible(byte))
}

/// CSeq: "1 to 10 digits, below 2,147,483,648, then one or more spaces or tabs, then the method of the
/// start line"
pub fn is_cseq(value: &[u8], method: &[u8]) -> bool {
    after_sequence_number(value) == Some(method)
}

/// CR 1: "The method is the token that ends the CSeq value."
pub fn method_of_cseq(value: &[u8]) -> Option<&[u8]> {
    after_sequence_number(value).filter(|name| is_whole_token(name))
}

/// What follows the number and the spaces or tabs of a CSeq.
fn after_sequence_number(value: &[u8]) -> Option<&[u8]> {
    let (digits, rest) = span(value, is_digit);
    let (blanks, name) = span(rest, is_blank);
    let number = number_of_digits(digits, 10)?;
    (number < 2_147_483_648 && !blanks.is_empty()).then_some(name)
}

/// Privacy: "one or more tokens parted by `;`, spaces or tabs free around it".
pub fn privacy(value: &[u8]) -> Option<Vec<Vec<u8>>> {
    tokens_parted_by(value, b';')
}

/// Require: "one or more tokens parted by commas, spaces or tabs free around them".
pub fn require(value: &[u8]) -> Option<Vec<Vec<u8>>> {
    tokens_parted_by(value, b',')
}

fn tokens_parted_by(value: &[u8], mark: u8) -> Option<Vec<Vec<u8>>> {
    let mut tokens = Vec::new();
    for piece in value.split(|&byte| byte == mark) {
        let token = trim_blanks(piece);
        if !is_whole_token(token) {
            return None;
        }
        tokens.push(token.to_vec());
    }
    Some(tokens)
}

/// CR 2: "holds any of the three", whatever stands beside it.
pub fn asks_to_withhold(value: &[u8]) -> bool {
    match privacy(value) {
        Some(tokens) => tokens.iter().any(|token| is_way_to_hide(token)),
        None => false,
    }
}

/// CR 2: "`header`, `user` and `id`", "letter case free". A whole token: `identity` is none of them.
fn is_way_to_hide(token: &[u8]) -> bool {
    same_in_any_case(token, b"header") || same_in_any_case(token, b"user") || same_in_any_case(token, b"id")
}

/// "We have `100rel` and `timer` (any case)."
pub fn is_tag_we_have(tag: &[u8]) -> bool {
    same_in_any_case(tag, b"100rel") || same_in_any_case(tag, b"timer")
}
