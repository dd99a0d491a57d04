//! The recorded cases of CR 7, "A box for the old exchange": parameters made of messages, numbers read out of bytes, and causes.
//!
//! `second isup-record` writes them, `second isup-cases` says their answers. A case is a byte for its kind (0 forward, 1 backward, 2 a cause),
//! one for the flag that the next node is at home (0 or 1, and 0 for the other kinds), one for the length of the country code, the code, two
//! for the length of the bytes (high byte first), and the bytes: the message, the parameter, or the cause as 8 bytes, high byte first.
//! `second/regenerate` stores both in crates/isup_vectors of the repository. Those of a reader of the pages come first: see `reviewed`.

mod backward;
mod causes;
mod forward;
pub mod reviewed;

use crate::isup::{self, Caller};
use crate::Refusal;

/// The most bytes of a message or of a parameter that a case has.
pub const MOST: usize = 9000;

#[derive(Clone, Debug, PartialEq, Eq, Hash)]
pub enum Case {
    Forward { home: bool, code: Vec<u8>, message: Vec<u8> },
    Backward { code: Vec<u8>, bytes: Vec<u8> },
    Cause(u64),
}

impl Case {
    fn forward(home: bool, code: &[u8], message: &[u8]) -> Case {
        Case::Forward { home, code: code.to_vec(), message: message.to_vec() }
    }

    fn backward(code: &[u8], bytes: &[u8]) -> Case {
        Case::Backward { code: code.to_vec(), bytes: bytes.to_vec() }
    }

    pub fn encoded(&self) -> Vec<u8> {
        let (kind, home, code, bytes) = match self {
            Case::Forward { home, code, message } => (0, u8::from(*home), &code[..], message.clone()),
            Case::Backward { code, bytes } => (1, 0, &code[..], bytes.clone()),
            Case::Cause(cause) => (2, 0, &b""[..], cause.to_be_bytes().to_vec()),
        };
        let length = (bytes.len() as u16).to_be_bytes();
        [&[kind, home, code.len() as u8][..], code, &length, &bytes].concat()
    }

    /// The case at the front of the file, and what follows it. None where it is cut short or is no such case.
    pub fn read(file: &[u8]) -> Option<(Case, &[u8])> {
        let (head, rest) = file.split_at_checked(3)?;
        let (code, rest) = rest.split_at_checked(usize::from(head[2]))?;
        let (length, rest) = rest.split_at_checked(2)?;
        let (bytes, rest) = rest.split_at_checked(usize::from(length[0]) * 256 + usize::from(length[1]))?;
        let case = match (head[0], head[1]) {
            (0, 0 | 1) => Case::forward(head[1] == 1, code, bytes),
            (1, 0) => Case::backward(code, bytes),
            (2, 0) if code.is_empty() => Case::Cause(u64::from_be_bytes(bytes.try_into().ok()?)),
            _ => return None,
        };
        Some((case, rest))
    }

    /// What is printed for it. Forward: reason, reply, detail, missing count, length, and each byte of the parameter. Backward: refusal, 1 where
    /// a Privacy `id` goes with the number else 0, the number's length, and the number where there is one. Cause: status and refusal.
    pub fn line(&self) -> String {
        match self {
            Case::Forward { home, code, message } => match isup::parameter(message, code, *home) {
                Ok(bytes) => format!("0 0 0 0 {}{}\n", bytes.len(), bytes.iter().map(|byte| format!(" {byte}")).collect::<String>()),
                Err(Refusal { reason, reply, detail, missing }) => format!("{reason} {reply} {detail} {missing} 0\n"),
            },
            Case::Backward { code, bytes } => match isup::caller(bytes, code) {
                Ok(Caller { number, id }) => format!("0 {} {} {}\n", u8::from(id), number.len(), String::from_utf8_lossy(&number)),
                Err(refusal) => format!("{refusal} 0 0\n"),
            },
            Case::Cause(cause) => {
                let (status, refusal) = isup::status(*cause);
                format!("{status} {refusal}\n")
            }
        }
    }

    fn keeps_to_its_sizes(&self) -> bool {
        match self {
            Case::Forward { code, message, .. } => code.len() <= 255 && message.len() <= MOST,
            Case::Backward { code, bytes } => code.len() <= 255 && bytes.len() <= MOST,
            Case::Cause(_) => true,
        }
    }
}

/// All cases in their order, each once.
pub fn cases() -> Vec<Case> {
    let mut seen = std::collections::HashSet::new();
    let mut all: Vec<Case> = [reviewed::cases(), forward::cases(), backward::cases(), causes::cases()].concat();
    assert!(all.iter().all(Case::keeps_to_its_sizes), "a recorded case is too long");
    all.retain(|case| seen.insert(case.clone()));
    all
}

/// The file of recorded cases.
pub fn file() -> Vec<u8> {
    cases().iter().flat_map(Case::encoded).collect()
}

/// The lines of a file of cases, or the place of the first case that is cut short or none.
pub fn lines(file: &[u8]) -> Result<String, usize> {
    let mut out = String::new();
    let mut rest = file;
    while !rest.is_empty() {
        let (case, next) = Case::read(rest).ok_or(file.len() - rest.len())?;
        out += &case.line();
        rest = next;
    }
    Ok(out)
}

/// Codes that are none: empty, with a 0 in front, too long, with other bytes than digits.
const BAD_CODES: [&[u8]; 52] = [
    b"", b"0", b"00", b"000", b"01", b"033", b"0330", b"1234", b"3333", b"33187", b"33187654321",
    b"9999", b"10000000000", b"a", b"x3", b"3x", b"33x", b"x33", b"fra", b"FR", b"+", b"+3", b"+33", b"+331", b"3+", b"33+",
    b" ", b" 33", b"33 ", b"3 3", b"\t3", b"3\t", b"33\r\n", b"\n33", b"-33", b"3.3", b"3-3", b"\0", b"\0\0\0", b"33\0",
    b"\x0033", b"3\x003", b"/", b":", b"3/", b"3:", b"33/", b"33:", b"\xb2\xb3", b"\xff", b"33\xff", b"3\xb9",
];

/// A code of 255 bytes, the longest that a case can have: digits alone.
fn longest_code() -> Vec<u8> {
    b"33".iter().cycle().take(255).copied().collect()
}
