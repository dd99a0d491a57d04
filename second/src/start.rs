//! Start lines: a request line (the page's "Lines") or a status line (CR 1).

use crate::classes::{is_digit, is_value, is_visible, is_whole_token, same_in_any_case};

const VERSION: &[u8] = b"SIP/2.0";

/// What a message starts with: it is a request or a response.
#[derive(Clone, Debug, PartialEq)]
pub enum Start {
    Request { method: Vec<u8>, uri: Vec<u8> },
    Status { code: Vec<u8>, phrase: Vec<u8> },
}

impl Start {
    /// Reads a line that has no CRLF. No line is both: a status line starts with `SIP/2.0`, and a method holds no `/`.
    pub fn read(line: &[u8]) -> Option<Start> {
        request_line(line).or_else(|| status_line(line))
    }

    /// The line as it goes out: the version in capitals, all else as it came.
    pub fn written(&self) -> Vec<u8> {
        match self {
            Start::Request { method, uri } => [method, &b" "[..], uri, b" ", VERSION].concat(),
            Start::Status { code, phrase } => [VERSION, b" ", code, b" ", phrase].concat(),
        }
    }

    /// "For ACK it is always 0." For responses: "reply always 0".
    pub fn is_never_answered(&self) -> bool {
        match self {
            Start::Request { method, .. } => method == b"ACK",
            Start::Status { .. } => true,
        }
    }
}

/// "method (token, 1 to 32 bytes), one space, Request-URI (1 to 256 bytes, each 33 to 126), one
/// space, `SIP/2.0`"
fn request_line(line: &[u8]) -> Option<Start> {
    let pieces: Vec<&[u8]> = line.split(|&byte| byte == b' ').collect();
    if pieces.len() != 3 {
        return None;
    }
    let (method, uri, version) = (pieces[0], pieces[1], pieces[2]);
    let method_good = is_whole_token(method) && method.len() <= 32;
    let uri_good = !uri.is_empty() && uri.len() <= 256 && uri.iter().all(|&byte| is_visible(byte));
    let version_good = same_in_any_case(version, VERSION);
    (method_good && uri_good && version_good).then(|| Start::Request { method: method.to_vec(), uri: uri.to_vec() })
}

/// "`SIP/2.0` as before, a space, three digits, a space, a phrase of value bytes (maybe none)"
fn status_line(line: &[u8]) -> Option<Start> {
    let mut pieces = line.splitn(3, |&byte| byte == b' ');
    let (version, code, phrase) = (pieces.next()?, pieces.next()?, pieces.next()?);
    let version_good = same_in_any_case(version, VERSION);
    let code_good = code.len() == 3 && code.iter().all(|&byte| is_digit(byte));
    let phrase_good = phrase.iter().all(|&byte| is_value(byte));
    (version_good && code_good && phrase_good).then(|| Start::Status { code: code.to_vec(), phrase: phrase.to_vec() })
}
