//! Two INVITEs that are equal but for their caller, who is withheld (CR 5): the values of From, with one tag, and of the identities are drawn
//! anew. They are well formed in every form that the rules allow; the identities of both are allowed, in other numbers, orders and schemes
//! (CR 6), or they are the same in both, whatever they are.

use super::folds::withholding;
use super::identities::{any_scheme, comma, other};
use super::values::{blanks, digits, is_token, pick, text, way};
use super::{field, plain, with_faults};
use second::drafts::{good_value, in_any_case, Dice, Draft, Whole};
use second::lines::{MOST_BYTES, MOST_FIELDS};
use second::uri::Scheme;

/// Mostly as CR 5 takes them; a few are too long, lost their shape or are the same twice.
pub fn two_callers(dice: &mut Dice) -> [Draft; 2] {
    let one = withheld(dice);
    let mut pair = [one.clone(), one];
    for place in places(&pair[0], 3) {
        let tag = text(dice, 64, is_token);
        let values = two(dice, |dice| vec![from(dice, &tag)]);
        put_two(dice, &mut pair, &[place], values);
    }
    let fields = places(&pair[0], 15);
    // Else both keep those they have, allowed or not.
    if fields.len() <= 2 && !dice.one_in(8) {
        let values = two(dice, |dice| allowed(dice, fields.len()));
        put_two(dice, &mut pair, &fields, values);
    }
    // The first, the second, both, and mostly none.
    let full: &[usize] = if dice.one_in(20) { *dice.pick(&[&[0][..], &[1], &[0, 1]]) } else { &[] };
    for (place, draft) in pair.iter_mut().enumerate() {
        if full.contains(&place) {
            fill(dice, draft);
        }
    }
    pair
}

/// The places of the fields of this number.
fn places(draft: &Draft, number: u64) -> Vec<usize> {
    (0..draft.fields.len()).filter(|&place| draft.fields[place].number() == number).collect()
}

/// The same message, whose Privacy hides nobody: each of the three ways to hide has a `d` or an `e`.
pub fn shown(mut draft: Draft) -> Draft {
    for field in draft.fields.iter_mut().filter(|field| field.number() == 16) {
        let open = |byte: &u8| if b"dDeE".contains(byte) { b'x' } else { *byte };
        field.rest = field.rest.iter().map(open).collect();
    }
    draft
}

/// An INVITE whose Privacy withholds its caller: mostly one that is accepted, else one with faults.
fn withheld(dice: &mut Dice) -> Draft {
    let column = dice.below(2);
    let mut draft = plain(dice, column);
    if dice.one_in(4) {
        draft = with_faults(dice, draft, column);
    } else {
        draft.set_uri(&pick(dice, &["sip:+331234567@g", "sip:3600;npdi@h:5060;lr", "tel:112", "TEL:+33123456789;x"]));
        draft.set(4, &good_value(4, column));
    }
    draft.set(16, &if dice.one_in(4) { withholding(dice) } else { way(dice) });
    let number = *dice.pick(&[3, 15]);
    match dice.below(30) {
        0 | 1 => {
            let again = field(dice, number, column);
            draft.fields.insert(dice.below(draft.fields.len() + 1), again);
        }
        2 => draft = draft.without(15),
        3 => crowd(dice, &mut draft),
        _ => {}
    }
    draft
}

/// As many fields as a message may have, or one more.
fn crowd(dice: &mut Dice, draft: &mut Draft) {
    let many = MOST_FIELDS + dice.below(2);
    while draft.fields.len() < many {
        draft.fields.insert(0, Whole { name: b"k".to_vec(), rest: b":\r\n".to_vec() });
    }
}

/// Values for each of two messages: mostly each for itself, else with other digits alone, or the same.
fn two(dice: &mut Dice, draw: impl Fn(&mut Dice) -> Vec<Vec<u8>>) -> [Vec<Vec<u8>>; 2] {
    let one = draw(dice);
    let other = match dice.below(8) {
        0 => one.clone(),
        1 => one.iter().map(|value| other_digits(dice, value)).collect(),
        _ => draw(dice),
    };
    [one, other]
}

/// Gives the fields at these places their values in both messages; some are of one length.
fn put_two(dice: &mut Dice, pair: &mut [Draft; 2], places: &[usize], [one, other]: [Vec<Vec<u8>>; 2]) {
    for ((&place, one), other) in places.iter().zip(one).zip(other) {
        let most = if dice.one_in(4) { one.len().max(other.len()) } else { 0 };
        for (draft, value) in pair.iter_mut().zip([one, other]) {
            put(&mut draft.fields[place], &padded(dice, value, most));
        }
    }
}

/// The value with other digits in its first full number.
fn other_digits(dice: &mut Dice, value: &[u8]) -> Vec<u8> {
    let is_number = |part: &[u8]| part[0] == b'+' && part[1..].iter().all(u8::is_ascii_digit);
    let mut other = value.to_vec();
    if let Some(place) = value.windows(8).position(is_number) {
        for digit in other[place + 1..].iter_mut().take_while(|byte| byte.is_ascii_digit()) {
            *digit = b'1' + dice.below(9) as u8;
        }
    }
    other
}

/// The value with so many bytes, where it has fewer: letters in its first quoted string, or blanks at an end.
fn padded(dice: &mut Dice, mut value: Vec<u8>, length: usize) -> Vec<u8> {
    let quote = value.iter().position(|&byte| byte == b'"');
    let (place, byte) = match quote {
        Some(quote) if dice.one_in(2) => (quote + 1, b'a'),
        _ => (*dice.pick(&[0, value.len()]), *dice.pick(b" \t")),
    };
    let more = length.saturating_sub(value.len());
    value.splice(place..place, vec![byte; more]);
    value
}

/// As long as a message may be, by bytes of From or of the identity that do not count.
fn fill(dice: &mut Dice, draft: &mut Draft) {
    let more = MOST_BYTES.saturating_sub(draft.bytes().len());
    let mut callers: Vec<&mut Whole> = draft.fields.iter_mut().filter(|field| [3, 15].contains(&field.number())).collect();
    if callers.is_empty() {
        return;
    }
    let place = dice.below(callers.len());
    let field = &mut *callers[place];
    let value = field.rest[colon(field)..field.rest.len() - 2].to_vec();
    let length = value.len() + more;
    put(field, &padded(dice, value, length));
}

/// The place past the colon of a field, or 0.
fn colon(field: &Whole) -> usize {
    field.rest.iter().position(|&byte| byte == b':').map_or(0, |colon| colon + 1)
}

/// Gives the field another value; its name and what stands before the colon stay.
fn put(field: &mut Whole, value: &[u8]) {
    field.rest = [&field.rest[..colon(field)], value, b"\r\n"].concat();
}

/// From with this tag, anywhere among other parameters.
pub fn from(dice: &mut Dice, tag: &[u8]) -> Vec<u8> {
    let user = user(dice);
    let uri = if dice.one_in(4) { telephone(dice) } else { sip(dice, &user) };
    let address = if dice.one_in(4) { uri } else { in_brackets(dice, uri) };
    let name = in_any_case(dice, b"tag");
    let equals = [blanks(dice), b"=".to_vec(), blanks(dice)].concat();
    let tag = [mark(dice), name, equals, tag.to_vec()].concat();
    [blanks(dice), address, parameters(dice), tag, parameters(dice), blanks(dice)].concat()
}

/// Identities that CR 6 allows, for so many fields: in one field one or two, in two fields one in each, the first of either scheme.
pub fn allowed(dice: &mut Dice, fields: usize) -> Vec<Vec<u8>> {
    let first = any_scheme(dice);
    let [one, two] = [first, other(first)].map(|scheme| identity(dice, scheme));
    let all = match fields {
        1 if dice.one_in(2) => vec![[one, comma(dice), two].concat()],
        1 => vec![one],
        _ => vec![one, two],
    };
    all.into_iter().map(|value| [blanks(dice), value, blanks(dice)].concat()).collect()
}

/// One identity of this scheme: a full number in every form of address.
fn identity(dice: &mut Dice, scheme: Scheme) -> Vec<u8> {
    let number = full_number(dice);
    match (scheme, dice.below(3)) {
        (Scheme::Tel, 0) => [pick(dice, &["tel:", "TEL:", "tEl:"]), number].concat(),
        (Scheme::Tel, _) => [display(dice), pick(dice, &["<tel:", "<Tel:"]), number, b">".to_vec()].concat(),
        (Scheme::Sip, 0) => sip(dice, &number),
        (Scheme::Sip, _) => {
            let uri = sip(dice, &number);
            in_brackets(dice, uri)
        }
    }
}

fn in_brackets(dice: &mut Dice, uri: Vec<u8>) -> Vec<u8> {
    [display(dice), b"<".to_vec(), uri, tail(dice), b">".to_vec()].concat()
}

/// How often a piece comes: mostly a few times, else up to thousands of bytes of it.
fn times(dice: &mut Dice, piece: usize) -> usize {
    if dice.one_in(24) { dice.below(3000 / piece) } else { dice.below(4) }
}

fn display(dice: &mut Dice) -> Vec<u8> {
    match dice.below(3) {
        0 => Vec::new(),
        1 => [quoted(dice), blanks(dice)].concat(),
        _ => {
            let word = [pick(dice, &["A", "tag", "sip", "-.!%*_+`'~"]), pick(dice, &[" ", "\t", "  ", "\r\n ", " \r\n\t\r\n "])].concat();
            let words = word.repeat(times(dice, word.len()));
            [words, b"Bob".to_vec(), blanks(dice)].concat()
        }
    }
}

fn quoted(dice: &mut Dice) -> Vec<u8> {
    let pieces = ["a", "Doe, J", " ", "\\\"", "\\\\", ";tag=no", "<sip:x>", "\t", "\u{e9}", "\r\n ", "\\a", ">", "\r\n\t\r\n "];
    let mut out = b"\"".to_vec();
    for _ in 0..times(dice, 4) {
        out.extend(dice.pick(&pieces).as_bytes());
    }
    out.push(b'"');
    out
}

fn full_number(dice: &mut Dice) -> Vec<u8> {
    let more = 6 + dice.below(9);
    format!("+{}{}", 1 + dice.below(9), digits(dice, more)).into_bytes()
}

fn user(dice: &mut Dice) -> Vec<u8> {
    match dice.below(6) {
        0 => Vec::new(),
        1 => vec![b'u'; *dice.pick(&[1, 64])],
        2 => pick(dice, &["a;tag=in", "%41&=+$,;?/-_.!~*'()", "alice", "?"]),
        _ => full_number(dice),
    }
}

/// A sip URI without a tail.
fn sip(dice: &mut Dice, user: &[u8]) -> Vec<u8> {
    let host = if dice.one_in(20) { vec![b'h'; *dice.pick(&[252, 253])] } else { pick(dice, &["h", "relay.example", "192.0.2.1", "-", "a-b.c"]) };
    let port = pick(dice, &["", "", "", ":5060", ":1", ":65535", ":00001"]);
    let at: &[u8] = if user.is_empty() { b"" } else { b"@" };
    [&pick(dice, &["sip:", "SIP:", "sIp:"])[..], user, at, &host, &port].concat()
}

/// A tel URI without a tail.
fn telephone(dice: &mut Dice) -> Vec<u8> {
    let many = 1 + dice.below(15);
    [pick(dice, &["tel:", "TEL:"]), pick(dice, &["", "+"]), digits(dice, many).into_bytes()].concat()
}

fn tail(dice: &mut Dice) -> Vec<u8> {
    let piece = pick(dice, &[";", ";lr", ";tag=in", ";user=phone;TAG=in", ";;=", ";[]/:&+$-_.!~*'()=;", ";%41%2f"]);
    if dice.one_in(2) { piece.repeat(times(dice, piece.len())) } else { Vec::new() }
}

/// A `;` with blanks and folds around it.
fn mark(dice: &mut Dice) -> Vec<u8> {
    [blanks(dice), b";".to_vec(), blanks(dice)].concat()
}

/// Parameters that are no tag.
fn parameters(dice: &mut Dice) -> Vec<u8> {
    let mut out = Vec::new();
    for _ in 0..if dice.one_in(2) { times(dice, 16) } else { 0 } {
        out.extend([mark(dice), pick(dice, &["a", "xtag", "tagx", "ta", "tag-", "!"])].concat());
        if dice.one_in(2) {
            let value = if dice.one_in(2) { quoted(dice) } else { text(dice, 20, is_token) };
            out.extend([blanks(dice), b"=".to_vec(), blanks(dice), value].concat());
        }
    }
    out
}
