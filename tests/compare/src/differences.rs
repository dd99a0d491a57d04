//! Ends the run at the first difference, with all that is needed to see it again.

use std::fmt::{Debug, Display};
use std::process::exit;

/// A part that is handed out must lie inside the whole.
pub fn within(what: &str, (start, length): (usize, usize), whole: &[u8], message: &[u8]) {
    if start.checked_add(length).is_none_or(|end| end > whole.len()) {
        differs(&format!("{what}: the part is not inside"), &format!("{start} and {length}"), &format!("at most {}", whole.len()), message, "");
    }
}

pub fn same<T: PartialEq + Debug>(what: &str, library: &T, second: &T, message: &[u8], lent: impl Display) {
    if library != second {
        differs(what, &format!("{library:?}"), &format!("{second:?}"), message, &lent.to_string());
    }
}

pub fn same_bytes(what: &str, library: &[u8], second: &[u8], message: &[u8], lent: impl Display) {
    if library != second {
        let place = library.iter().zip(second).position(|(a, b)| a != b).unwrap_or(library.len().min(second.len()));
        let lent = format!("{lent}\nfirst other byte: {place}");
        differs(what, &escaped(library), &escaped(second), message, &lent);
    }
}

pub fn differs(what: &str, library: &str, second: &str, message: &[u8], lent: &str) -> ! {
    eprintln!();
    println!("difference in {what}\nlent: {lent}\nlibrary: {library}\nsecond:  {second}\nmessage ({} bytes):\n{}", message.len(), escaped(message));
    exit(1)
}

/// The bytes as text: a line break after each CRLF, all that is not plain as \xNN.
pub fn escaped(bytes: &[u8]) -> String {
    let mut out = String::new();
    for &byte in bytes {
        match byte {
            b'\r' => out.push_str("\\r"),
            b'\n' => out.push_str("\\n\n"),
            b'\t' => out.push_str("\\t"),
            b'\\' => out.push_str("\\\\"),
            32..=126 => out.push(char::from(byte)),
            _ => out.push_str(&format!("\\x{byte:02x}")),
        }
    }
    out
}
