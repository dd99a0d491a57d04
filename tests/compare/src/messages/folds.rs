//! Values with folds in them, short and long, where a caller is masked or called.

use super::values::{blanks, full_number, is_token, pick, privacy, text, way};
use second::drafts::{in_any_case, Dice, Draft};

fn fold(dice: &mut Dice) -> Vec<u8> {
    pick(dice, &["\r\n ", "\r\n\t", " \r\n ", "\t\r\n \r\n  "])
}

/// Letters with at least one fold in them, of so many bytes or a few more.
fn folded_text(dice: &mut Dice, length: usize) -> Vec<u8> {
    let often = *dice.pick(&[2, 5, 50, 5000]);
    let mut out = b"a".to_vec();
    let folded_at = dice.below(length.max(1));
    let mut folded = false;
    while out.len() < length || !folded {
        if dice.one_in(often) || (!folded && out.len() >= folded_at) {
            out.extend(fold(dice));
            folded = true;
        }
        out.push(b'a');
    }
    out
}

/// Short, at 256 bytes, at 2,048 bytes, or anything up to 5,000.
fn folded_length(dice: &mut Dice) -> usize {
    match dice.below(6) {
        0 => 240 + dice.below(24),
        1 => 2030 + dice.below(24),
        2 => dice.below(5000),
        _ => dice.below(60),
    }
}

/// An identity with a fold before its number, behind it, or in its display name; or two with folds beside their comma.
pub fn folded_identity(dice: &mut Dice) -> Vec<u8> {
    let number = full_number(dice);
    let length = folded_length(dice);
    let text = folded_text(dice, length);
    let [folds, more] = [(); 2].map(|_| fold(dice).repeat(1 + length / 8));
    match dice.below(8) {
        0 => [&text[..], b" <tel:", number.as_bytes(), b">"].concat(),
        1 => [&folds[..], b"sip:", number.as_bytes(), b"@h"].concat(),
        2 => [&b"<sip:"[..], number.as_bytes(), b"@h>", &folds].concat(),
        3 => [&b"a"[..], &folds, b"<sip:", number.as_bytes(), b"@h>"].concat(),
        4 => [&b"tel:+1234567"[..], &folds, b",", &more, b"sip:", number.as_bytes(), b"@h"].concat(),
        5 => [&text[..], b"<tel:+1234567>,\"", &text, b"\"", &fold(dice), b"<sip:", number.as_bytes(), b"@h;x>"].concat(),
        6 => [&b"<sip:"[..], number.as_bytes(), b"@h>,", &folds, b"<tel:+1234567>"].concat(),
        _ => [&b"\""[..], &text, b"\"", &fold(dice), b"<sip:", number.as_bytes(), b"@h;x>"].concat(),
    }
}

/// A caller who is withheld, with folds in From before, around or behind its tag.
pub fn withhold(dice: &mut Dice, draft: &mut Draft) {
    let length = folded_length(dice);
    let display = if dice.one_in(2) { [&b"\""[..], &folded_text(dice, length), b"\" "].concat() } else { Vec::new() };
    let more = if dice.one_in(2) { [fold(dice), b";a".to_vec()].concat().repeat(dice.below(1 + length / 6)) } else { Vec::new() };
    let tag = [fold(dice), b";".to_vec(), blanks(dice), in_any_case(dice, b"tag"), blanks(dice), b"=".to_vec(), blanks(dice), text(dice, 64, is_token)].concat();
    let parameters = if dice.one_in(2) { [tag, more] } else { [more, tag] }.concat();
    draft.set(3, &[display, b"<sip:a@h>".to_vec(), parameters].concat());
    let privacy = withholding(dice);
    draft.set(16, &privacy);
}

/// A Privacy that holds one of the ways to hide, mostly beside others and folded; some are long.
pub fn withholding(dice: &mut Dice) -> Vec<u8> {
    let mark = [fold(dice), b";".to_vec(), fold(dice)].concat();
    match dice.below(5) {
        0 => way(dice),
        1 => [b"none".to_vec(), mark, way(dice)].concat(),
        2 => [way(dice), mark, b"none".to_vec()].concat(),
        3 => [[b"x".to_vec(), mark].concat().repeat(dice.below(500)), way(dice)].concat(),
        _ => [privacy(dice), mark, way(dice)].concat(),
    }
}
