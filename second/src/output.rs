//! The page's section "The outgoing message".

use crate::address;
use crate::judge::{Kept, Passed};
use crate::profile;
use crate::values;

/// From's value up to the old tag, where the caller is hidden.
const ANONYMOUS: &[u8] = b"\"Anonymous\" <sip:anonymous@anonymous.invalid>;tag=";

/// "Start line, then the fields not ignored in message order; then the empty line and the body."
pub fn message(passed: &Passed, hide: bool) -> Vec<u8> {
    let mut out = passed.start.written();
    out.extend(b"\r\n");
    for field in &passed.fields {
        // "P-Asserted-Identity is dropped"; CR 6: "all of them go".
        if !(hide && field.number == 15) {
            out.extend(line(field, passed, hide));
        }
    }
    out.extend(b"\r\n");
    out.extend(&passed.body);
    out
}

/// "long name as listed, colon, one space, canonical value, CRLF"
fn line(field: &Kept, passed: &Passed, hide: bool) -> Vec<u8> {
    let mut out = Vec::new();
    if let Some(row) = profile::row_of_number(field.number) {
        out.extend(row.name.as_bytes());
    }
    out.extend(b": ");
    out.extend(value(field, passed, hide));
    out.extend(b"\r\n");
    out
}

fn value(field: &Kept, passed: &Passed, hide: bool) -> Vec<u8> {
    match field.number {
        2 => one_less(&field.value.bytes),
        3 if hide => anonymous(&field.value.bytes),
        8 => passed.body.len().to_string().into_bytes(),
        _ => field.value.bytes.clone(),
    }
}

/// "Max-Forwards is one less", "without leading zeros". Reason 13 kept 0 out.
fn one_less(value: &[u8]) -> Vec<u8> {
    let number = values::max_forwards(value).unwrap_or(1);
    (number - 1).to_string().into_bytes()
}

/// The anonymous address "and the old tag".
fn anonymous(value: &[u8]) -> Vec<u8> {
    let mut out = ANONYMOUS.to_vec();
    if let Some(tag) = address::address(value).and_then(|from| from.tag()) {
        out.extend(tag);
    }
    out
}
