//! One thing that is wrong, or nearly.

use super::change::{ignored, ignored_names};
use super::{field, identities};
use super::values::{pick, privacy, tokens, way};
use second::drafts::{Dice, Draft, Whole};
use second::start::Start;

/// In a request.
pub fn of_request(dice: &mut Dice, draft: &mut Draft, column: usize) {
    match dice.below(14) {
        0 => draft.set_method(&pick(dice, &["INFO", "invite", "REGISTER", "ACKX", "B", "-.!%*_+`'~"])),
        1 => draft.set_uri(&pick(dice, &["http://h", "sips:h", "x:y", "urn:a:b", "mailto:a@b", "s.p:h", "sip%3a:x"])),
        2 => draft.set_uri(&pick(dice, &["sip:", "h", ":", "sip:h:0", "tel:", "sip:@h", "a/b:c", "sip:h;%4", "tel:1234567890123456", "sip:h?x", "*", "<sip:h>"])),
        3 => draft.set(2, dice.pick(&["0", "00", "000"]).as_bytes()),
        4 => {
            let value = tokens(dice, &["timer", "100rel", "lacking"], ",");
            draft.add("Require", &value);
        }
        5 => {
            let value = malformed_privacy(dice);
            draft.set(16, &value);
        }
        6 => {
            // Behind another one it comes again.
            let value = privacy(dice);
            draft.add("Privacy", &value);
        }
        7 => draft.set_uri(&pick(dice, &["sip:h", "sip:alice@h", "tel:1", "sip:1234567@h", "sip:+0123456789@h", "tel:+1", "sip:+331234@h", "sip:12a@h"])),
        8 => {
            // Beside the others it may be allowed, a second of its scheme, or a third.
            let value = identities::value(dice);
            draft.add("P-Asserted-Identity", &value);
        }
        _ => of_either(dice, draft, column),
    }
}

/// A Privacy in which a way to hide stands, and which is refused.
fn malformed_privacy(dice: &mut Dice) -> Vec<u8> {
    let forms = [("", ";"), (";", ""), ("", ";;id"), ("", "; ;id"), ("", ",id"), ("", " none"), ("none\r\n ", ""), ("\"", "\""), ("", "=1"), ("<", ">"), ("", "\u{e9}")];
    let (front, back) = *dice.pick(&forms);
    [front.as_bytes(), &way(dice), back.as_bytes()].concat()
}

/// In a response.
pub fn of_response(dice: &mut Dice, draft: &mut Draft, column: usize) {
    match dice.below(14) {
        0 => status(dice, draft, &["099", "700", "000", "999", "701", "098"]),
        1 => status(dice, draft, &["20", "2000", "", "2x0", "+20", " 20", "20 ", "2147483848", "20\u{b2}", "\u{b2}"]),
        2 => status(dice, draft, &["100", "199", "200", "299", "300", "699"]),
        3 => phrase(dice, draft),
        4 | 5 => sequence(dice, draft),
        6 => {
            // A second CSeq: behind the first it comes again, in front of it, it names the method.
            let value = pick(dice, &["1 INVITE", "1 CANCEL", "1 BYE", "1 ACK", "x", "", "9\r\n OPTIONS"]);
            let place = dice.below(draft.fields.len() + 1);
            draft.fields.insert(place, Whole::new(b"CSeq", &value));
        }
        7 => *draft = draft.without(*dice.pick(&[1, 3, 4, 5, 7, 9])),
        8 => draft.set(14, dice.pick(&["lacking", "", ";", ",", "a,,b", "a b", "\"a\""]).as_bytes()),
        _ => of_either(dice, draft, column),
    }
}

fn status(dice: &mut Dice, draft: &mut Draft, codes: &[&str]) {
    if let Start::Status { code, .. } = &mut draft.start {
        *code = pick(dice, codes);
    }
}

/// One byte put into the phrase.
fn phrase(dice: &mut Dice, draft: &mut Draft) {
    if let Start::Status { phrase, .. } = &mut draft.start {
        let place = dice.below(phrase.len() + 1);
        phrase.insert(place, *dice.pick(b"\r\n\x00\x1f\x7f\x80\xff \t"));
    }
}

/// A first CSeq that names no known method, or nearly.
fn sequence(dice: &mut Dice, draft: &mut Draft) {
    if dice.one_in(4) {
        *draft = draft.without(6);
        return;
    }
    let value = match dice.below(4) {
        0 => pick(dice, &["1 ACK", "1 INFO", "1 invite", "1 INVITEX", "1 INVIT", "1 Cancel", "1 PRACK", "1 re", "1 -.!%*_+`'~"]),
        1 => pick(dice, &["2147483648 BYE", "2147483647 BYE", "0000000001 BYE", "00000000001 BYE", "9999999999 INVITE", "12345678901 CANCEL", "4294967297 BYE"]),
        2 => pick(dice, &["", "1", "1 ", "BYE", "1BYE", "1 BYE x", "1 BYE;", "x BYE", "1 B\r\n YE", "1 \"BYE\"", "-1 BYE", "1\u{a0}BYE"]),
        _ => [&b"1 "[..], &b"INVITE".repeat(1 + dice.below(40))].concat(),
    };
    draft.set(6, &value);
}

/// What both kinds can have.
fn of_either(dice: &mut Dice, draft: &mut Draft, column: usize) {
    let number = 1 + dice.below(18) as u64;
    match dice.below(8) {
        0 => {
            let again = field(dice, number, column);
            draft.fields.push(again);
        }
        1 => draft.set(number, dice.pick(&["", "\"", ";", "x y", "<sip:h", "256", "999999", "id;;", "\u{80}", "1 X", "sip:h;tag=\"", "<sip:h>;tag=1;tag=2"]).as_bytes()),
        2 => draft.set(8, (draft.body.len() + 1 + dice.below(3)).to_string().as_bytes()),
        3 | 4 => *draft = draft.without(number),
        5 => many_fields(dice, draft),
        6 => bad_byte(dice, draft),
        _ => draft.body.resize(7000 + dice.below(1400), b'x'),
    }
}

/// Fields until there are 80 to 109.
fn many_fields(dice: &mut Dice, draft: &mut Draft) {
    let count = 80 + dice.below(30);
    let listed = ignored_names(draft);
    while draft.fields.len() < count {
        let extra = if dice.one_in(2) { ignored(dice, &listed) } else { Whole { name: b"k".to_vec(), rest: b":\r\n".to_vec() } };
        draft.fields.insert(0, extra);
    }
}

fn bad_byte(dice: &mut Dice, draft: &mut Draft) {
    let place = dice.below(draft.fields.len().max(1));
    if let Some(field) = draft.fields.get_mut(place) {
        let at = dice.below(field.rest.len());
        field.rest.insert(at, *dice.pick(b"\r\n\x00\x7f"));
    }
}
