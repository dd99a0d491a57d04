//! Values that are good, as odd as the rules allow, and sometimes just over an edge.

use super::identities;
use second::drafts::{good_value, in_any_case, Dice, COLUMN_METHODS, RESPONSES};

pub fn pick(dice: &mut Dice, list: &[&str]) -> Vec<u8> {
    dice.pick(list).as_bytes().to_vec()
}

/// A good value, plain or as odd as the rules allow.
pub fn value(dice: &mut Dice, number: u64, column: usize) -> Vec<u8> {
    if dice.one_in(3) {
        return good_value(number, column);
    }
    match number {
        2 => (1 + dice.below(255)).to_string().into_bytes(),
        3 => address(dice, true),
        4 => {
            let tag = column == 1 || RESPONSES.contains(&column) && dice.one_in(2);
            address(dice, tag)
        }
        5 => text(dice, 128, |byte| (33..=126).contains(&byte)),
        6 => sequence(dice, column),
        8 => pick(dice, &["0", "00", "00000"]),
        14 => tokens(dice, &["timer", "100rel", "Timer", "100REL"], ","),
        15 => identities::value(dice),
        16 => privacy(dice),
        12 | 13 | 17 => pick(dice, &["", "INVITE, ACK", "a/b;q=\"x\"", ",,;", "timer\r\n ,100rel", "\u{e9}\t\""]),
        _ => pick(dice, &["x", "SIP/2.0/UDP h;branch=z9hG4bK1", "<sip:a@h;lr>,\r\n <sip:b>", "a\t b  c", "\"\\\"", "\u{ff}"]),
    }
}

/// CSeq: a number, blanks, and the method of the column.
fn sequence(dice: &mut Dice, column: usize) -> Vec<u8> {
    let method = if column == RESPONSES.end - 1 { *dice.pick(&["BYE", "OPTIONS", "INVITE"]) } else { COLUMN_METHODS[column] };
    let blanks = pick(dice, &[" ", "\t", "  ", "\r\n ", " \r\n\t\t"]);
    let number = match dice.below(8) {
        0 => pick(dice, &["0", "0000000001", "2147483647"]),
        _ => (dice.number() % 2_147_483_648).to_string().into_bytes(),
    };
    [number, blanks, method.into()].concat()
}

pub fn text(dice: &mut Dice, most: usize, class: fn(u8) -> bool) -> Vec<u8> {
    let length = if dice.one_in(8) { most } else { 1 + dice.below(most.min(12)) };
    let mut out = Vec::new();
    while out.len() < length {
        let byte = dice.number() as u8;
        if class(byte) {
            out.push(byte);
        }
    }
    out
}

pub fn is_token(byte: u8) -> bool {
    byte.is_ascii_alphanumeric() || b"-.!%*_+`'~".contains(&byte)
}

pub fn tokens(dice: &mut Dice, words: &[&str], mark: &str) -> Vec<u8> {
    let more = dice.below(4);
    list(dice, more, mark, |dice| pick(dice, words))
}

/// A token and so many more, with blanks and folds around the marks.
fn list(dice: &mut Dice, more: usize, mark: &str, token: impl Fn(&mut Dice) -> Vec<u8>) -> Vec<u8> {
    let mut out = token(dice);
    for _ in 0..more {
        out.extend(dice.pick(&["", " ", "\t", "\r\n ", " \r\n\t ", "  ", "\r\n \r\n\t"]).as_bytes());
        out.extend(mark.as_bytes());
        out.extend(dice.pick(&["", " ", "\t ", "\r\n ", " \r\n \r\n "]).as_bytes());
        out.extend(token(dice));
    }
    out
}

/// Privacy: the ways to hide, what only looks like them, and what else may stand there.
pub fn privacy(dice: &mut Dice) -> Vec<u8> {
    let more = if dice.one_in(16) { dice.below(40) } else { dice.below(4) };
    list(dice, more, ";", |dice| match dice.below(3) {
        0 => way(dice),
        1 => near_way(dice),
        _ => pick(dice, &["none", "none", "None", "session", "critical", "history", "x"]),
    })
}

/// One of the three ways to hide, in any letter case.
pub fn way(dice: &mut Dice) -> Vec<u8> {
    let way = *dice.pick(&["header", "user", "id"]);
    in_any_case(dice, way.as_bytes())
}

/// One byte more, less or other than a way to hide has, or a longer word that holds one.
fn near_way(dice: &mut Dice) -> Vec<u8> {
    let mut token = way(dice);
    let place = dice.below(token.len());
    match dice.below(6) {
        0 => token.insert(place, *dice.pick(b"xX-.%")),
        1 => token.push(*dice.pick(b"sSdD-.")),
        2 => {
            token.remove(place);
        }
        3 => token[place] = *dice.pick(b"xX_0"),
        4 => {
            // A capital less 32 is no letter, and often no token.
            let other = token[place].to_ascii_uppercase() - 32;
            token[place] = if is_token(other) { other } else { b'x' };
        }
        _ => return pick(dice, &["username", "identity", "Identity", "user-id", "headers", "userid", "x-header"]),
    }
    token
}

pub fn digits(dice: &mut Dice, length: usize) -> String {
    (0..length).map(|_| char::from(b'0' + dice.below(10) as u8)).collect()
}

/// `+`, a digit 1 to 9, 6 to 14 digits; sometimes one too few or too many.
pub fn full_number(dice: &mut Dice) -> String {
    let length = if dice.one_in(12) { *dice.pick(&[5, 15]) } else { 6 + dice.below(9) };
    format!("+{}{}", 1 + dice.below(9), digits(dice, length))
}

fn called_text(dice: &mut Dice) -> String {
    let length = 1 + dice.below(7);
    if dice.one_in(3) { digits(dice, length) } else { full_number(dice) }
}

/// A Request-URI, mostly with a good called number.
pub fn called(dice: &mut Dice) -> Vec<u8> {
    let number = called_text(dice);
    let uri = match dice.below(5) {
        0 => format!("tel:{number}"),
        1 => format!("tel:{number};a=b"),
        2 => format!("sip:{number};npdi;rn=+1@h"),
        3 => format!("SIP:{number}@gw.example:5060;user=phone"),
        _ => format!("sip:{number}@gw.example"),
    };
    uri.into_bytes()
}

/// A good URI of at most 256 bytes, or nearly.
pub fn uri(dice: &mut Dice) -> Vec<u8> {
    let mut out = base_uri(dice);
    if dice.one_in(2) {
        out.extend(tail(dice));
    }
    out
}

fn tail(dice: &mut Dice) -> Vec<u8> {
    pick(dice, &[";", ";lr", ";a=b;c", ";%41%2f", ";tag=no", ";[]/:&+$-_.!~*'()=;", ";;", ";user=phone;x=%"])
}

/// A URI without a tail.
fn base_uri(dice: &mut Dice) -> Vec<u8> {
    let scheme = pick(dice, &["sip:", "sip:", "SIP:", "sIp:", "tel:", "TEL:"]);
    if scheme.eq_ignore_ascii_case(b"tel:") {
        let plus = pick(dice, &["", "+"]);
        let length = 1 + dice.below(16);
        return [scheme, plus, digits(dice, length).into_bytes()].concat();
    }
    let user = match dice.below(6) {
        0 => Vec::new(),
        1 => b"%41&=+$,;?/-_.!~*'()@".to_vec(),
        2 => [vec![b'u'; *dice.pick(&[1, 63, 64, 65])], b"@".to_vec()].concat(),
        3 => [full_number(dice).into_bytes(), b"@".to_vec()].concat(),
        _ => b"a;tag=x@".to_vec(),
    };
    let host = match dice.below(10) {
        0 => vec![b'h'; *dice.pick(&[1, 170, 252, 253, 254])],
        _ => pick(dice, &["h", "gw.example", "1.2.3.4", "-", "a-b.c"]),
    };
    let port = pick(dice, &["", "", "", ":5060", ":1", ":65535", ":65536", ":00001", ":0"]);
    [scheme, user, host, port].concat()
}

pub fn blanks(dice: &mut Dice) -> Vec<u8> {
    pick(dice, &["", "", "", " ", "\t", "  ", "\r\n ", " \r\n\t\r\n "])
}

fn quoted(dice: &mut Dice) -> Vec<u8> {
    let mut out = b"\"".to_vec();
    for _ in 0..dice.below(6) {
        out.extend(dice.pick(&["a", " ", "\\\"", "\\\\", ";tag=no", "<sip:x>", "\t", "\u{e9}", "\r\n ", "\\a", ">", ", "]).as_bytes());
    }
    out.push(b'"');
    out
}

pub fn display(dice: &mut Dice) -> Vec<u8> {
    match dice.below(4) {
        0 => Vec::new(),
        1 => [quoted(dice), blanks(dice)].concat(),
        2 => pick(dice, &["A ", "A B\t", "tag\r\n x ", "-.!%*_+`'~"]),
        _ => pick(dice, &["Alice ", "\"Anonymous\" "]),
    }
}

fn parameters(dice: &mut Dice, tag: bool) -> Vec<u8> {
    let mut out = Vec::new();
    let many = dice.below(4) + usize::from(tag);
    let tag_place = if many == 0 { 0 } else { dice.below(many) };
    for place in 0..many {
        out.extend(blanks(dice));
        out.push(b';');
        out.extend(blanks(dice));
        if tag && place == tag_place {
            let name = in_any_case(dice, b"tag");
            let value = if dice.one_in(10) { vec![b't'; *dice.pick(&[63, 64, 65])] } else { text(dice, 64, is_token) };
            out.extend([name, blanks(dice), b"=".to_vec(), blanks(dice), value].concat());
        } else {
            out.extend(pick(dice, &["a", "xtag", "tagx", "lr", "!"]));
            if dice.one_in(2) {
                let value = if dice.one_in(2) { quoted(dice) } else { text(dice, 20, is_token) };
                out.extend([blanks(dice), b"=".to_vec(), blanks(dice), value].concat());
            }
        }
    }
    out
}

fn address(dice: &mut Dice, tag: bool) -> Vec<u8> {
    if dice.one_in(3) {
        return [base_uri(dice), parameters(dice, tag)].concat();
    }
    [display(dice), b"<".to_vec(), uri(dice), b">".to_vec(), parameters(dice, tag)].concat()
}
