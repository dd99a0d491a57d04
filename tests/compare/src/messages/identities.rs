//! P-Asserted-Identity (CR 6): one to four identities in a value, in either order, and none to three such fields in a message. Most are
//! allowed; the others have a third one, two of one scheme, an empty member or something else that is malformed.

use super::values::{blanks, display, full_number, pick};
use super::with_value;
use second::drafts::{Dice, Draft};
use second::uri::Scheme;

/// A value, mostly with one identity or two that are allowed.
pub fn value(dice: &mut Dice) -> Vec<u8> {
    let scheme = any_scheme(dice);
    match dice.below(10) {
        0..=4 => identity(dice, scheme),
        5..=7 => parted(dice, &[scheme, other(scheme)]),
        8 => {
            let many = *dice.pick(&[2, 2, 3, 4]);
            let schemes: Vec<Scheme> = (0..many).map(|_| any_scheme(dice)).collect();
            parted(dice, &schemes)
        }
        _ => malformed(dice, scheme),
    }
}

/// None to three fields in place of those that are there, mostly two with one identity each.
pub fn fields(dice: &mut Dice, draft: &mut Draft) {
    *draft = draft.without(15);
    let mut scheme = any_scheme(dice);
    for _ in 0..*dice.pick(&[0, 1, 2, 2, 2, 2, 2, 3]) {
        let value = if dice.one_in(6) { value(dice) } else { identity(dice, scheme) };
        let field = with_value(dice, 15, &value);
        let place = dice.below(draft.fields.len() + 1);
        draft.fields.insert(place, field);
        scheme = if dice.one_in(8) { scheme } else { other(scheme) };
    }
}

pub fn any_scheme(dice: &mut Dice) -> Scheme {
    *dice.pick(&[Scheme::Sip, Scheme::Tel])
}

pub fn other(scheme: Scheme) -> Scheme {
    match scheme {
        Scheme::Sip => Scheme::Tel,
        Scheme::Tel => Scheme::Sip,
    }
}

/// Identities of these schemes, parted by commas.
fn parted(dice: &mut Dice, schemes: &[Scheme]) -> Vec<u8> {
    let mut out = identity(dice, schemes[0]);
    for &scheme in &schemes[1..] {
        out.extend(comma(dice));
        out.extend(identity(dice, scheme));
    }
    out
}

/// A comma with blanks and folds around it.
pub fn comma(dice: &mut Dice) -> Vec<u8> {
    [blanks(dice), b",".to_vec(), blanks(dice)].concat()
}

/// One identity, whose number is sometimes too short or too long.
fn identity(dice: &mut Dice, scheme: Scheme) -> Vec<u8> {
    let number = full_number(dice);
    match (scheme, dice.below(3)) {
        (Scheme::Tel, 0) => format!("{}{number}", dice.pick(&["tel:", "TEL:", "tEl:"])).into_bytes(),
        (Scheme::Tel, _) => [display(dice), format!("<{}{number}>", dice.pick(&["tel:", "Tel:"])).into_bytes()].concat(),
        (Scheme::Sip, 0) => format!("{}{number}@h{}", dice.pick(&["sip:", "SIP:"]), dice.pick(&["", ":5060", "-.1"])).into_bytes(),
        (Scheme::Sip, _) => [display(dice), format!("<{}{number}@h{}>", dice.pick(&["sip:", "SIP:"]), dice.pick(&["", ";x=y", ";user=phone", ":1;;"])).into_bytes()].concat(),
    }
}

/// Two identities that would be allowed, and something too much or too little.
fn malformed(dice: &mut Dice, scheme: Scheme) -> Vec<u8> {
    let [one, two] = [scheme, other(scheme)].map(|scheme| identity(dice, scheme));
    let comma = comma(dice);
    let front = pick(dice, &[",", "x,", "A, B ", "\"", ";", ",\r\n ,"]);
    let between = pick(dice, &["", " ", "\r\n ", ",,", ", ,", ";", ";x,", " ; x=y ,", ";user=phone , ", ",x,", "\u{a0},", ",\u{a0}", "\",\"", "/"]);
    let back = pick(dice, &[",", " ,\t", "\r\n ,", ";x", " ; x=y", ",x", ",,", ">", " A", "\u{e9}"]);
    match dice.below(5) {
        0 => [one, back].concat(),
        1 => [front, one].concat(),
        2 => [one, between, two].concat(),
        3 => [front, one, comma, two].concat(),
        _ => [one, comma, two, back].concat(),
    }
}
