//! "Values that are read", the item Address.

use crate::classes::{after_blanks, is_blank, is_token, is_value, same_in_any_case, span};
use crate::uri::{self, Uri};

/// An address that was read. `uri_start` is the place of its URI in the value. `tags` holds the value of each parameter `tag`, None where it is
/// no token of 1 to 64 bytes.
#[derive(Clone, Debug, PartialEq)]
pub struct Address<'a> {
    pub uri_start: usize,
    pub uri: Uri<'a>,
    pub parameters: usize,
    pub tags: Vec<Option<&'a [u8]>>,
}

impl<'a> Address<'a> {
    /// "`tag` (any case) stands at most once, its value a token of 1 to 64 bytes."
    fn tags_are_good(&self) -> bool {
        self.tags.len() <= 1 && self.tags.iter().all(|tag| tag.is_some())
    }

    /// The tag, where there is a good one.
    pub fn tag(&self) -> Option<&'a [u8]> {
        self.tags.first().copied().flatten()
    }
}

/// A whole canonical value as From and To have it. "From needs it" is asked in `values`.
pub fn address(value: &[u8]) -> Option<Address<'_>> {
    let read = any_address(value)?;
    if read.tags_are_good() {
        Some(read)
    } else {
        None
    }
}

/// Either form of address, then any number of parameters to the end.
fn any_address(value: &[u8]) -> Option<Address<'_>> {
    let (uri_start, uri, rest) = without_parameters(value)?;
    parameters(uri_start, uri, rest)
}

/// Either form of address at the front of the text, without parameters after it: the place of its URI, its URI, and what follows. The text
/// starts with no space or tab.
pub fn without_parameters(text: &[u8]) -> Option<(usize, Uri<'_>, &[u8])> {
    if let Some(read) = in_brackets(text) {
        return Some(read);
    }
    let (uri, rest) = uri::without_tail(text)?;
    Some((0, uri, rest))
}

/// "an optional display name, `<`, URI, `>`". No URI holds a `>`, so the first one closes it.
fn in_brackets(value: &[u8]) -> Option<(usize, Uri<'_>, &[u8])> {
    let after_name = after_display_name(value)?;
    let inside = after_name.strip_prefix(b"<")?;
    let close = inside.iter().position(|&byte| byte == b'>')?;
    let uri_start = value.len() - inside.len();
    Some((uri_start, uri::whole(&inside[..close])?, &inside[close + 1..]))
}

/// "a quoted string, or tokens with spaces or tabs between, then any spaces or tabs". An address
/// never starts with a space or tab, so token bytes and blanks up to `<` are such tokens.
fn after_display_name(value: &[u8]) -> Option<&[u8]> {
    if value.first() == Some(&b'"') {
        let (_, rest) = quoted_string(value)?;
        Some(after_blanks(rest))
    } else {
        Some(span(value, is_token_or_blank).1)
    }
}

fn is_token_or_blank(byte: u8) -> bool {
    is_token(byte) || is_blank(byte)
}

/// "A quoted string closes at the first `"` that no backslash escapes." The string, and what follows.
pub fn quoted_string(text: &[u8]) -> Option<(&[u8], &[u8])> {
    if text.first() != Some(&b'"') {
        return None;
    }
    let mut place = 1;
    while place < text.len() {
        match text[place] {
            b'"' => return Some(text.split_at(place + 1)),
            b'\\' => place += 2,
            byte if is_value(byte) => place += 1,
            _ => return None,
        }
    }
    None
}

/// "Then any number of parameters", one after the other until nothing is left.
fn parameters<'a>(uri_start: usize, uri: Uri<'a>, rest: &'a [u8]) -> Option<Address<'a>> {
    let mut address = Address { uri_start, uri, parameters: 0, tags: Vec::new() };
    let mut rest = rest;
    while !rest.is_empty() {
        let (name, value, next) = parameter(rest)?;
        address.parameters += 1;
        if same_in_any_case(name, b"tag") {
            address.tags.push(value.filter(|text| is_good_tag(text)));
        }
        rest = next;
    }
    Some(address)
}

fn is_good_tag(text: &[u8]) -> bool {
    text.len() <= 64 && text.first() != Some(&b'"')
}

/// Name, value and what follows of one parameter.
type Parameter<'a> = (&'a [u8], Option<&'a [u8]>, &'a [u8]);

/// "`;`, token, optionally `=` and a token or quoted string, with spaces or tabs free around `;` and `=`".
fn parameter(text: &[u8]) -> Option<Parameter<'_>> {
    let after_semicolon = after_blanks(text).strip_prefix(b";")?;
    let (name, after_name) = span(after_blanks(after_semicolon), is_token);
    if name.is_empty() {
        return None;
    }
    match after_blanks(after_name).strip_prefix(b"=") {
        None => Some((name, None, after_name)),
        Some(after_equals) => {
            let (value, rest) = token_or_quoted_string(after_blanks(after_equals))?;
            Some((name, Some(value), rest))
        }
    }
}

fn token_or_quoted_string(text: &[u8]) -> Option<(&[u8], &[u8])> {
    let (token, rest) = span(text, is_token);
    if token.is_empty() {
        quoted_string(text)
    } else {
        Some((token, rest))
    }
}
