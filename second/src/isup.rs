//! "A box for the old exchange" (CR 7): the calling party number parameter of ITU-T Q.763, made of an initial INVITE and read back. The
//! octets of Q.763 stand in docs/DECISIONS.md, "Readings of the box for the old exchange". Bits are counted there from 1, the lowest.

use crate::causes;
use crate::judge::{self, Passed};
use crate::profile::Column;
use crate::readings;
use crate::uri;
use crate::Refusal;

/// The most bytes that a parameter has: two, and 15 digits two to a byte.
pub const MOST: usize = 10;

/// "nature of address 3 national or 4 international"
const NATIONAL: u8 = 3;
const INTERNATIONAL: u8 = 4;

/// "numbering plan 1", "screening 3", "number complete": bit 8 of the second octet is 0.
const COMPLETE: u8 = 0;
const PLAN: u8 = 1;
const SCREENING: u8 = 3;

/// What a parameter says.
struct Said {
    nature: u8,
    presentation: u8,
    /// The numbers 0 to 9 of a good one, the first first.
    digits: Vec<u8>,
}

/// "Backwards it gives the `+` number, and whether a Privacy `id` goes with it".
#[derive(Clone, Debug, PartialEq, Eq)]
pub struct Caller {
    pub number: Vec<u8>,
    pub id: bool,
}

/// The parameter of an initial INVITE that is accepted on side 0. "Refusals: the screen's own first, then no initial INVITE 42, bad
/// country code 41".
pub fn parameter(message: &[u8], code: &[u8], home: bool) -> Result<Vec<u8>, Refusal> {
    let passed = judge::judge(message, 0)?;
    if passed.column != Column::Invite {
        return Err(judge::silent(42));
    }
    if !is_country_code(code) {
        return Err(judge::silent(41));
    }
    Ok(written(&said_of(&passed, message, code, home)))
}

/// "Country code: 1 to 3 digits, not starting with 0."
fn is_country_code(code: &[u8]) -> bool {
    (1..=3).contains(&code.len()) && code.iter().all(u8::is_ascii_digit) && code[0] != b'0'
}

/// "National exactly when the number starts with our country code and a lent flag says that the next node is at home; the code is then
/// left out."
fn said_of(passed: &Passed, message: &[u8], code: &[u8], home: bool) -> Said {
    let identity = readings::calling_identity(passed).expect("P-Asserted-Identity is mandatory in an initial INVITE");
    let number = &message[identity.start + 1..identity.start + identity.length];
    let (nature, left) = match number.strip_prefix(code) {
        Some(left) if home => (NATIONAL, left),
        _ => (INTERNATIONAL, number),
    };
    Said { nature, presentation: u8::from(passed.is_withheld()), digits: left.iter().map(|digit| digit - b'0').collect() }
}

/// The octets: "two to a byte, the first in the low half, zero filler if odd".
fn written(said: &Said) -> Vec<u8> {
    let odd = said.digits.len() % 2;
    let mut out = vec![odd as u8 * 128 + said.nature, COMPLETE * 128 + PLAN * 16 + said.presentation * 4 + SCREENING];
    for pair in said.digits.chunks(2) {
        let filler = 0;
        out.push(pair[0] + 16 * pair.get(1).unwrap_or(&filler));
    }
    out
}

/// Back, "from any lent bytes", or the refusal: "backwards 41, then cut short 43, field outside those named 44, filler not zero 45, digit
/// code over 9 46, result not a `+` number of the profile 47".
pub fn caller(bytes: &[u8], code: &[u8]) -> Result<Caller, u64> {
    if !is_country_code(code) {
        return Err(41);
    }
    let said = read(bytes)?;
    let digits: Vec<u8> = said.digits.iter().map(|digit| digit + b'0').collect();
    let front = if said.nature == NATIONAL { code } else { b"" };
    let number = [b"+", front, &digits].concat();
    if !uri::is_full_number(&number) {
        return Err(47);
    }
    Ok(Caller { number, id: said.presentation == 1 })
}

/// What the octets say, or the first of 43 to 46 that applies.
fn read(bytes: &[u8]) -> Result<Said, u64> {
    let (first, second, address) = match bytes {
        [first, second, address @ ..] => (first, second, address),
        _ => return Err(43),
    };
    let odd = first / 128 == 1;
    // "odd with no address byte"
    if odd && address.is_empty() {
        return Err(43);
    }
    let (nature, presentation) = (first % 128, second / 4 % 4);
    let known_nature = nature == NATIONAL || nature == INTERNATIONAL;
    let around = [second / 128, second / 16 % 8, second % 4] == [COMPLETE, PLAN, SCREENING];
    if !known_nature || !around || presentation > 1 {
        return Err(44);
    }
    Ok(Said { nature, presentation, digits: signals(address, odd)? })
}

/// The address digits; 45 where the filler, the last half of an odd number of them, is not 0, then 46 where one is over 9.
fn signals(address: &[u8], odd: bool) -> Result<Vec<u8>, u64> {
    let mut halves: Vec<u8> = address.iter().flat_map(|byte| [byte % 16, byte / 16]).collect();
    if odd && halves.pop() != Some(0) {
        return Err(45);
    }
    if halves.iter().any(|&digit| digit > 9) {
        return Err(46);
    }
    Ok(halves)
}

/// "A cause from the trunk becomes a reply's status through the cause map": the status, and the refusal 21 or 0.
pub fn status(cause: u64) -> (u64, u64) {
    let answer = causes::status_of_cause(cause);
    (answer.status, answer.refusal)
}
