//! For the box for the old exchange (CR 7): initial INVITEs that are mostly accepted, country codes, flags, and bytes to be read as a
//! calling party number: good ones, then mostly a few of them damaged.

use super::callers::allowed;
use super::values::{digits, pick, privacy};
use super::{plain, with_value};
use second::drafts::{good_value, Dice, Draft};

/// An initial INVITE, mostly accepted.
pub fn initial(dice: &mut Dice) -> Draft {
    let mut draft = plain(dice, 0);
    draft.set_uri(&pick(dice, &["sip:+331234567@g", "sip:3600;npdi@h:5060;lr", "tel:112"]));
    let to = pick(dice, &["<sip:h;tag=1>", "\";tag=1\" <sip:h>", "tel:112;x\r\n ;xtag=1", "<sip:h>\r\n ;a=\"b;tag=1\""]);
    draft.set(4, &if dice.one_in(2) { good_value(4, 0) } else { to });
    draft = draft.without(15);
    let fields = 1 + dice.below(2);
    for value in allowed(dice, fields) {
        let field = with_value(dice, 15, &value);
        draft.fields.insert(dice.below(draft.fields.len() + 1), field);
    }
    if dice.one_in(2) {
        let value = privacy(dice);
        draft.set(16, &value);
    }
    draft
}

/// The draft's To with a tag: a later INVITE.
pub fn later(dice: &mut Dice, draft: &Draft) -> Draft {
    let to = pick(dice, &["<sip:h>;tag=1", "sip:h\r\n ;\r\n TAG\r\n =\r\n 1", "\"A\r\n B\" <sip:h;tag=0>;x=\";\";Tag=1;y", "<tel:1> ;tag=!"]);
    draft.with(4, &to)
}

/// A flag: 0 is away from home, everything else at home.
pub fn home(dice: &mut Dice) -> u64 {
    match dice.below(8) {
        0..=2 => 0,
        3..=5 => 1,
        6 => *dice.pick(&[2, 255, 256, 1 << 32, 1 << 63, u64::MAX]),
        _ => dice.number() >> dice.below(64),
    }
}

/// A country code: mostly the front of the number, or nearly, where there is one; else any good one, or one that is none.
pub fn code(dice: &mut Dice, number: &[u8]) -> Vec<u8> {
    let ours = number.get(1..1 + 1 + dice.below(3)).filter(|_| !dice.one_in(3));
    match (ours, dice.below(8)) {
        (_, 0) => bad_code(dice),
        (Some(front), 1) => {
            let (last, more) = (front.len() - 1, 1 + dice.below(9) as u8);
            let other = (front[last] - b'0' + more) % 10;
            [&front[..last], &[b'0' + other]].concat()
        }
        (Some(front), _) => front.to_vec(),
        (None, _) => (1 + dice.below(999)).to_string().into_bytes(),
    }
}

fn bad_code(dice: &mut Dice) -> Vec<u8> {
    let length = 1 + dice.below(3);
    let mut code = digits(dice, length).into_bytes();
    match dice.below(8) {
        0 => code.clear(),
        1 => code[0] = b'0',
        2 => {
            let most = *dice.pick(&[2, 20, 250]);
            let more = 4 + dice.below(most);
            code = digits(dice, more).into_bytes();
        }
        3 => code.insert(dice.below(length + 1), *dice.pick(b"+ \t\r\n-.\0/:")),
        4 => code[dice.below(length)] = dice.number() as u8,
        5 => code[dice.below(length)] = *dice.pick(b"/:;\xb2a"),
        6 => code[dice.below(length)] ^= 1 << dice.below(8),
        _ => code = (0..dice.below(6)).map(|_| dice.number() as u8).collect(),
    }
    code
}

/// Bytes to be read back with this code.
pub fn bytes(dice: &mut Dice, code: &[u8]) -> Vec<u8> {
    if dice.one_in(10) {
        let length = dice.below(13);
        return (0..length).map(|_| dice.number() as u8).collect();
    }
    let mut bytes = if dice.one_in(20) { long(dice) } else { good(dice, code) };
    for _ in 0..*dice.pick(&[0, 0, 1, 1, 2]) {
        damage(dice, &mut bytes);
    }
    bytes
}

/// A number of the profile, mostly; some have a digit too few or too many, some start with 0.
fn good(dice: &mut Dice, code: &[u8]) -> Vec<u8> {
    let many = if dice.one_in(12) { *dice.pick(&[6, 16]) } else { 7 + dice.below(9) };
    let national = dice.one_in(2);
    let many = if national { many - code.len().min(3) } else { many };
    let mut digits: Vec<u8> = (0..many).map(|_| dice.below(10) as u8).collect();
    if !national && !dice.one_in(20) {
        digits[0] = digits[0].max(1);
    }
    packed(dice, if national { 3 } else { 4 }, &digits)
}

/// Far more digits than a number has.
fn long(dice: &mut Dice) -> Vec<u8> {
    let most = *dice.pick(&[40, 300]);
    let digits: Vec<u8> = (0..16 + dice.below(2 * most)).map(|_| dice.below(10) as u8).collect();
    let nature = *dice.pick(&[3, 4]);
    packed(dice, nature, &digits)
}

/// Two digits to a byte behind the two octets of the front, shown or restricted.
fn packed(dice: &mut Dice, nature: u8, digits: &[u8]) -> Vec<u8> {
    let odd = if digits.len() % 2 == 1 { 0x80 } else { 0 };
    let mut bytes = vec![odd | nature, *dice.pick(&[0x13, 0x17])];
    bytes.extend(digits.chunks(2).map(|pair| pair[0] | pair.get(1).unwrap_or(&0) << 4));
    bytes
}

fn damage(dice: &mut Dice, bytes: &mut Vec<u8>) {
    if bytes.is_empty() {
        return;
    }
    let place = dice.below(bytes.len());
    let last = bytes.len() - 1;
    match dice.below(10) {
        0 => bytes[0] ^= 1 << dice.below(8),
        1 => bytes[1.min(last)] ^= 1 << dice.below(8),
        2 => bytes[dice.below(2).min(last)] = dice.number() as u8,
        3 => bytes[last] |= (dice.below(16) as u8) << 4,
        4 => bytes[place] |= *dice.pick(&[0x0a, 0xa0, 0x0f, 0xf0, 0x0c, 0xb0]),
        5 => bytes[place] ^= 1 << dice.below(8),
        6 => bytes.truncate(dice.below(4).min(last)),
        7 => bytes.push(dice.number() as u8),
        8 => {
            bytes.pop();
        }
        _ => bytes[0] ^= 0x80,
    }
}
