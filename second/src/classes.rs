//! Byte classes: RFC 3261 section 25.1 as the page's "Lines" and "Values that are read" use them.
//! Every class is one plain question about one byte; the special bytes are spelled out.

/// A space or a tab.
pub fn is_blank(byte: u8) -> bool {
    byte == b' ' || byte == b'\t'
}

/// A space, a tab or a byte of a line break.
pub fn is_space(byte: u8) -> bool {
    is_blank(byte) || byte == b'\r' || byte == b'\n'
}

pub fn is_digit(byte: u8) -> bool {
    byte.is_ascii_digit()
}

pub fn is_letter(byte: u8) -> bool {
    byte.is_ascii_alphabetic()
}

pub fn is_letter_or_digit(byte: u8) -> bool {
    is_letter(byte) || is_digit(byte)
}

pub fn is_hex(byte: u8) -> bool {
    is_digit(byte) || (b'a'..=b'f').contains(&byte) || (b'A'..=b'F').contains(&byte)
}

/// "each 33 to 126": Request-URI and Call-ID.
pub fn is_visible(byte: u8) -> bool {
    (33..=126).contains(&byte)
}

/// "Value bytes are tab, 32 to 126 and 128 to 255."
pub fn is_value(byte: u8) -> bool {
    byte == 9 || (32..=126).contains(&byte) || byte >= 128
}

/// RFC 3261: token.
pub fn is_token(byte: u8) -> bool {
    is_letter_or_digit(byte) || b"-.!%*_+`'~".contains(&byte)
}

/// RFC 3261: unreserved (letters, digits and mark).
pub fn is_unreserved(byte: u8) -> bool {
    is_letter_or_digit(byte) || b"-_.!~*'()".contains(&byte)
}

/// RFC 3261: unreserved and user-unreserved. The escape is read apart, see `uri`.
pub fn is_user(byte: u8) -> bool {
    is_unreserved(byte) || b"&=+$,;?/".contains(&byte)
}

/// A tail's bytes: RFC 3261's param-unreserved and unreserved, then `;` and `=`.
/// The escape is read apart, see `uri`.
pub fn is_parameter(byte: u8) -> bool {
    is_unreserved(byte) || b"[]/:&+$".contains(&byte) || byte == b';' || byte == b'='
}

/// "host (1 to 253 letters, digits, `-`, `.`)".
pub fn is_host(byte: u8) -> bool {
    is_letter_or_digit(byte) || byte == b'-' || byte == b'.'
}

/// The longest front part whose bytes are all of the class, and what follows it.
pub fn span(text: &[u8], class: fn(u8) -> bool) -> (&[u8], &[u8]) {
    let mut length = 0;
    while length < text.len() && class(text[length]) {
        length += 1;
    }
    text.split_at(length)
}

/// The text after any spaces and tabs.
pub fn after_blanks(text: &[u8]) -> &[u8] {
    span(text, is_blank).1
}

/// The text without spaces and tabs at either end.
pub fn trim_blanks(text: &[u8]) -> &[u8] {
    let text = after_blanks(text);
    let mut end = text.len();
    while end > 0 && is_blank(text[end - 1]) {
        end -= 1;
    }
    &text[..end]
}

/// A whole token: at least one byte, each of the class.
pub fn is_whole_token(text: &[u8]) -> bool {
    !text.is_empty() && text.iter().all(|&byte| is_token(byte))
}

/// Equal in any letter case.
pub fn same_in_any_case(one: &[u8], other: &[u8]) -> bool {
    one.eq_ignore_ascii_case(other)
}

/// The number that 1 to `most` digits write, nothing else beside them.
pub fn number_of_digits(text: &[u8], most: usize) -> Option<u64> {
    if text.is_empty() || text.len() > most || !text.iter().all(|&byte| is_digit(byte)) {
        return None;
    }
    let mut number = 0;
    for &byte in text {
        number = number * 10 + u64::from(byte - b'0');
    }
    Some(number)
}
