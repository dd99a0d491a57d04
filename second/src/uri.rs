//! "Values that are read", the item URI, with the two forms of number that stand in one.

use crate::classes::{is_digit, is_hex, is_host, is_parameter, is_user, number_of_digits, same_in_any_case, span};

#[derive(Clone, Copy, Debug, PartialEq)]
pub enum Scheme {
    Sip,
    Tel,
}

/// A URI that was read. `user` is empty where a sip URI has none, and in a tel URI.
/// `text` is all of the URI after its colon.
#[derive(Clone, Copy, Debug, PartialEq)]
pub struct Uri<'a> {
    pub scheme: Scheme,
    pub user: &'a [u8],
    pub text: &'a [u8],
}

impl<'a> Uri<'a> {
    /// "The sip user, or all of a tel URI after its colon": where a number is looked for.
    pub fn dialled(&self) -> &'a [u8] {
        match self.scheme {
            Scheme::Sip => self.user,
            Scheme::Tel => self.text,
        }
    }
}

/// A whole URI: the part without a tail, then optionally a tail, then nothing.
pub fn whole(text: &[u8]) -> Option<Uri<'_>> {
    let (uri, rest) = without_tail(text)?;
    if !rest.is_empty() && !is_tail(rest) {
        return None;
    }
    Some(Uri { text: &text[4..], ..uri })
}

/// A URI without a tail at the front of the text, and what follows it.
pub fn without_tail(text: &[u8]) -> Option<(Uri<'_>, &[u8])> {
    let scheme = scheme_at_front(text)?;
    let after_colon = &text[4..];
    let (user, rest) = match scheme {
        Scheme::Sip => sip_part(after_colon)?,
        Scheme::Tel => (&after_colon[..0], tel_part(after_colon)?),
    };
    let length = after_colon.len() - rest.len();
    Some((Uri { scheme, user, text: &after_colon[..length] }, rest))
}

/// "`sip:` or `tel:` in any case"
fn scheme_at_front(text: &[u8]) -> Option<Scheme> {
    let front = text.get(..4)?;
    if same_in_any_case(front, b"sip:") {
        Some(Scheme::Sip)
    } else if same_in_any_case(front, b"tel:") {
        Some(Scheme::Tel)
    } else {
        None
    }
}

/// "optionally user (1 to 64 bytes) and `@`; host; optionally `:` and a port". The user, and what
/// follows. No byte of a host, port or tail is `@`, so user bytes before an `@` can only be a user.
fn sip_part(text: &[u8]) -> Option<(&[u8], &[u8])> {
    let (front, after_front) = escaped_span(text, is_user);
    if after_front.first() == Some(&b'@') {
        if front.is_empty() || front.len() > 64 {
            return None;
        }
        Some((front, host_and_port(&after_front[1..])?))
    } else {
        Some((&text[..0], host_and_port(text)?))
    }
}

/// "host (1 to 253 letters, digits, `-`, `.`); optionally `:` and a port". What follows.
fn host_and_port(text: &[u8]) -> Option<&[u8]> {
    let (host, rest) = span(text, is_host);
    if host.is_empty() || host.len() > 253 {
        return None;
    }
    if rest.first() != Some(&b':') {
        return Some(rest);
    }
    let (port, rest) = span(&rest[1..], is_digit);
    let port = number_of_digits(port, 5)?;
    if (1..=65535).contains(&port) {
        Some(rest)
    } else {
        None
    }
}

/// "optional `+`, 1 to 15 digits". What follows.
fn tel_part(text: &[u8]) -> Option<&[u8]> {
    let text = text.strip_prefix(b"+").unwrap_or(text);
    let (digits, rest) = span(text, is_digit);
    if (1..=15).contains(&digits.len()) {
        Some(rest)
    } else {
        None
    }
}

/// "A tail is `;` and any number of parameter bytes".
fn is_tail(text: &[u8]) -> bool {
    text.first() == Some(&b';') && escaped_span(&text[1..], is_parameter).1.is_empty()
}

/// The longest front part of bytes of the class and of "`%` and two hex digits", and what follows.
fn escaped_span(text: &[u8], class: fn(u8) -> bool) -> (&[u8], &[u8]) {
    let mut length = 0;
    loop {
        let here = &text[length..];
        if is_escape(here) {
            length += 3;
        } else if !here.is_empty() && class(here[0]) {
            length += 1;
        } else {
            return text.split_at(length);
        }
    }
}

fn is_escape(text: &[u8]) -> bool {
    text.len() >= 3 && text[0] == b'%' && is_hex(text[1]) && is_hex(text[2])
}

/// The form of P-Asserted-Identity: "`+`, a digit 1 to 9, then 6 to 14 digits".
pub fn is_full_number(text: &[u8]) -> bool {
    match text.strip_prefix(b"+") {
        Some(digits) => {
            (7..=15).contains(&digits.len()) && digits[0] != b'0' && digits.iter().all(|&byte| is_digit(byte))
        }
        None => false,
    }
}

/// "A number has the form of P-Asserted-Identity's, or is 2 to 6 digits."
pub fn is_number(text: &[u8]) -> bool {
    let short = (2..=6).contains(&text.len()) && text.iter().all(|&byte| is_digit(byte));
    short || is_full_number(text)
}

/// "Called number": "a number alone or a number, `;` and any bytes or none".
pub fn is_called_number(uri: &Uri) -> bool {
    let text = uri.dialled();
    let front = text.split(|&byte| byte == b';').next().unwrap_or(text);
    is_number(front)
}
