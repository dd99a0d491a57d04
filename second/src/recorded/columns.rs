//! "The profile": each of the 18 fields present, absent, malformed, empty, repeated or ignored in each of the six columns of requests; all
//! names. `responses` has the other columns.

use super::{both_sides, untrusted, Case};
use crate::drafts::{in_any_case, Dice, Draft, REQUESTS};
use crate::profile::ROWS;

pub fn cases() -> Vec<Case> {
    let mut all = both_sides(REQUESTS.flat_map(|column| [Draft::least(column).bytes(), Draft::full(column).bytes()]).collect());
    all.extend(untrusted(REQUESTS.flat_map(one_column).collect()));
    all.extend(untrusted(REQUESTS.flat_map(bodies).collect()));
    all.extend(untrusted(REQUESTS.flat_map(missing_numbers).collect()));
    // An INVITE without a To is an initial one.
    all.extend(untrusted(vec![Draft::full(1).without(4).without(12).bytes()]));
    all.extend(untrusted(names()));
    all.extend(both_sides(withheld()));
    all
}

/// A malformed value; for Allow, Supported and Accept, which have none, an odd one.
fn bad_value(number: u64) -> &'static [u8] {
    match number {
        1 | 7 | 9 | 10 | 11 | 18 => b"",
        2 => b"256",
        3 => b"<sip:a.example>",
        4 => b"<sip:a.example",
        5 => b"x y",
        6 => b"1 PRACK",
        8 => b"123456",
        14 => b"timer,,timer",
        15 => b"<sip:33187654321@a.example>",
        16 => b"id;",
        _ => b";;,\x80\"",
    }
}

/// Each field: one more after the others, left out, malformed, empty, come again at the end and at the front.
pub fn one_column(column: usize) -> Vec<Vec<u8>> {
    let full = Draft::full(column);
    let least = Draft::least(column);
    let mut out = Vec::new();
    for row in &ROWS {
        let good = crate::drafts::good_value(row.number, column);
        out.push(least.with(row.number, &good).bytes());
        out.push(full.without(row.number).bytes());
        out.push(least.without(row.number).bytes());
        out.push(full.with(row.number, bad_value(row.number)).bytes());
        out.push(full.with(row.number, b"").bytes());
        out.push(full.and(row.name, &good).bytes());
        let mut front = full.clone();
        let again = front.fields[row.number as usize - 1].clone();
        front.fields.insert(0, again);
        out.push(front.bytes());
        // A repeated field whose second value is malformed: reason 9 where it may not repeat, else 10.
        out.push(full.and(row.name, bad_value(row.number)).bytes());
    }
    out
}

/// Content-Type with and without a body, and a body cut away or cut short.
pub fn bodies(column: usize) -> Vec<Vec<u8>> {
    let mut out = Vec::new();
    let least = Draft::least(column);
    let full = Draft::full(column);
    for draft in [least.clone(), full.clone(), full.without(9)] {
        out.push(draft.carrying(b"xyz").bytes());
        for length in ["0", "000", "1", "00002", "3", "4", "99999"] {
            out.push(draft.with(8, length.as_bytes()).carrying(b"xyz").bytes());
        }
    }
    out.push(least.carrying(b"\r\n\r\n").bytes());
    out.push(least.and("c", b"x").carrying(b"\r\nVia: y\r\n\r\n").bytes());
    out
}

/// Every number as the lowest one missing, and every missing count.
fn missing_numbers(column: usize) -> Vec<Vec<u8>> {
    let mut out = Vec::new();
    // From the lowest number up, fields stay away one after another; then from the highest one down.
    let (mut rising, mut falling) = (Draft::least(column).carrying(b"x"), Draft::least(column).carrying(b"x"));
    for number in 1..=18 {
        rising = rising.without(number);
        out.push(rising.bytes());
        falling = falling.without(19 - number);
        out.push(falling.bytes());
    }
    // Only two are missing.
    for number in [1, 4, 6, 7, 9, 12] {
        out.push(Draft::least(column).without(number).without(2).bytes());
    }
    out
}

/// All 18 names in long and compact form and several letter cases, and names that only look like them.
fn names() -> Vec<Vec<u8>> {
    let mut dice = Dice::new(18);
    let mut out = Vec::new();
    for row in &ROWS {
        let column = if row.requests.as_bytes()[3] == b'-' { 0 } else { 3 };
        let full = Draft::full(column);
        let place = row.number as usize - 1;
        let mut named = |name: &[u8]| {
            let mut draft = full.clone();
            draft.fields[place].name = name.to_vec();
            out.push(draft.bytes());
        };
        for form in [row.name, row.compact].into_iter().filter(|form| !form.is_empty()) {
            named(form.as_bytes());
            named(form.to_ascii_uppercase().as_bytes());
            named(form.to_ascii_lowercase().as_bytes());
            named(&in_any_case(&mut dice, form.as_bytes()));
            named(format!("{form} ").as_bytes());
            named(format!("{form} \t ").as_bytes());
            named(format!("{form}-Extra").as_bytes());
            named(format!("{form}x").as_bytes());
            named(format!("x{form}").as_bytes());
            named(&form.as_bytes()[..form.len() - 1]);
            named(&form.as_bytes()[1..]);
            named(form.replace('-', "_").as_bytes());
        }
    }
    // Every single letter as a name, in either case; a listed one comes again and is refused where it may not.
    for letter in b'a'..=b'z' {
        for byte in [letter, letter.to_ascii_uppercase()] {
            let mut draft = Draft::least(0);
            draft.fields.push(crate::drafts::Whole::new(&[byte], b"y"));
            out.push(draft.bytes());
        }
    }
    out
}

/// The caller withheld or not, in all columns, with tags of every place and form.
fn withheld() -> Vec<Vec<u8>> {
    let mut out = Vec::new();
    for column in REQUESTS {
        for privacy in ["id", "ID", "Id", "none;id", "id ; user", "user\t;\tiD", "identity", "i;d", "none", "id-x", "xid", "id,x", "id id", "\r\n id"] {
            out.push(Draft::full(column).with(16, privacy.as_bytes()).bytes());
        }
    }
    for from in [
        "sip:h;tag=1", "SIP:h ; TAG = z", "\"a;tag=no\" <sip:u@h;tag=no>;x=\"tag=no\";Tag=yes;y", "<tel:+1;tag=2>;a;b=c;tAG=!%*_+`'~-.;d",
        "A B <sip:h>\t;\ttag\t=\tq", "<sip:h>;tag=\r\n a\r\n ;x", "<sip:h>;xtag=1;tag=2;tagx=3",
    ] {
        out.push(Draft::full(0).with(16, b"id").with(3, from.as_bytes()).bytes());
        out.push(Draft::full(1).with(16, b"id").with(3, from.as_bytes()).bytes());
    }
    // P-Asserted-Identity first, last, folded, and absent in a later INVITE.
    let mut first = Draft::full(0).with(16, b"id");
    first.fields.rotate_right(4);
    out.push(first.bytes());
    out.push(Draft::full(1).with(16, b"id").without(15).bytes());
    out.push(Draft::full(0).with(16, b"id").with(15, b"\r\n \r\n <sip:+33187654321@a.example>\r\n\t").bytes());
    out
}
