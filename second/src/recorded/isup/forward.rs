//! Forward: messages with every refusal of the screen, those that are no initial INVITE, codes that are none, and initial INVITEs with every
//! length of number, kind of identity, Privacy and To; at home and abroad.

use super::{longest_code, Case, BAD_CODES, MOST};
use crate::drafts::{call, in_any_case, renamed, Dice, Draft, Whole, GOOD_URI, REQUESTS, RESPONSES};
use crate::profile::{Column, COLUMNS};
use crate::recorded::strewn::{damage, strewn};
use crate::recorded::{self, identities};
use crate::{judge, lines, Refusal};
use std::collections::BTreeMap;

pub fn cases() -> Vec<Case> {
    let recorded = recorded::cases();
    let from_recorded = [refused(&recorded), some_recorded(&recorded)];
    let own = [worked(), no_initial_invite(), bad_codes(), numbers(), digits(), asserted(), hidden(), called(), strewn_about(), sizes(), drawn()];
    [from_recorded.concat(), own.concat()].concat()
}

/// With our code at home and abroad.
fn both_ways(message: &[u8]) -> [Case; 2] {
    [true, false].map(|home| Case::forward(home, b"33", message))
}

/// An initial INVITE of this number.
fn invite(number: &str) -> Draft {
    Draft::least(0).with(15, format!("<sip:{number}@a>").as_bytes())
}

fn withheld(number: &str) -> Draft {
    invite(number).with(16, b"id")
}

/// The page's call and three more whose parameters second/tests/isup.rs writes out.
fn worked() -> Vec<Case> {
    let messages = [call(), withheld("+33187654321").bytes(), invite("+33187654321").bytes(), invite("+331234567890").bytes()];
    messages.iter().flat_map(|message| both_ways(message)).collect()
}

/// What a refusal of the screen tells on side 0, and the place of the message's column.
type Told = ([u64; 4], Option<usize>);

/// Recorded messages that the screen refuses on side 0: of all that are told the same in the same column the shortest, with a good code and
/// a bad one.
fn refused(recorded: &[recorded::Case]) -> Vec<Case> {
    let mut shortest: BTreeMap<Told, &[u8]> = BTreeMap::new();
    for message in recorded.iter().map(|case| &case.message[..]) {
        let Some(told) = told(message) else { continue };
        let kept = shortest.entry(told).or_insert(message);
        if message.len() < kept.len() {
            *kept = message;
        }
    }
    shortest.values().flat_map(|message| [Case::forward(true, b"33", message), Case::forward(false, b"0", message)]).collect()
}

/// None where it is accepted. Of the places of a required tag, which go far over 40, the first ones are enough; what is missing has so many
/// numbers that its columns are not told apart.
fn told(message: &[u8]) -> Option<Told> {
    let Refusal { reason, reply, detail, missing } = judge::judge(message, 0).err()?;
    let column = lines::read(message).ok().and_then(|lines| judge::column(&lines));
    let place = COLUMNS.iter().position(|&one| Some(one) == column && reason != 12);
    Some(([reason, reply, if reason == 14 { detail.min(5) } else { detail }, missing], place))
}

/// Short recorded messages of every kind, some at home and some abroad.
fn some_recorded(recorded: &[recorded::Case]) -> Vec<Case> {
    let short = recorded.iter().map(|case| &case.message).filter(|message| message.len() <= 600);
    short.step_by(67).enumerate().map(|(place, message)| Case::forward(place % 2 == 0, b"33", message)).collect()
}

/// Every other column, an INVITE whose To has a tag in every place and form: with good and bad codes.
fn no_initial_invite() -> Vec<Case> {
    let others = REQUESTS.skip(1).chain(RESPONSES);
    let mut messages: Vec<Vec<u8>> = others.flat_map(|column| [Draft::least(column).bytes(), Draft::full(column).bytes()]).collect();
    messages.extend(["100", "180", "299", "486", "699"].map(|code| Draft::least(6).status(code, b"x").bytes()));
    for to in [
        "<sip:h>;tag=1", "sip:h;tag=1", "<sip:h>;TAG=1", "<sip:h>\r\n ;tag=1", "<sip:h>;\r\n\ttag=1", "<sip:h> ; tAg\r\n =\r\n 1",
        "\"A\r\n B\"\r\n <sip:h>;x=\"\r\n \"\r\n ;y;Tag=1", "<sip:h;tag=0>;tag=1", "\";tag=0\" <tel:1;tag=0>;tag=1",
    ] {
        messages.push(invite("+33187654321").with(4, to.as_bytes()).bytes());
    }
    let with_a_bad_code = |message: &Vec<u8>| [both_ways(message).to_vec(), vec![Case::forward(true, b"033", message)]].concat();
    messages.iter().flat_map(with_a_bad_code).collect()
}

/// Codes that are none with an INVITE that is accepted, beside one that is refused and one that is later.
fn bad_codes() -> Vec<Case> {
    let [shown, hidden] = [invite("+33187654321"), withheld("+33187654321")].map(|draft| draft.bytes());
    let others = [invite("+33187654321").with(2, b"0").bytes(), Draft::least(1).bytes()];
    let mut all = Vec::new();
    for code in BAD_CODES.into_iter().map(|code| code.to_vec()).chain([longest_code()]) {
        all.extend([Case::forward(true, &code, &shown), Case::forward(false, &code, &hidden)]);
        if code.len() < 3 {
            all.extend(others.iter().map(|message| Case::forward(true, &code, message)));
        }
    }
    all
}

/// Every length of number with codes that it starts with, codes that it starts with in part and others, shown and withheld.
fn numbers() -> Vec<Case> {
    let codes: [&[u8]; 9] = [b"3", b"33", b"330", b"331", b"34", b"332", b"13", b"1", b"999"];
    let mut all = Vec::new();
    for length in 7..=15 {
        let [shown, hidden] = [invite, withheld].map(|draft| draft(&format!("+{}", &"330123456789012"[..length])).bytes());
        for (place, code) in codes.iter().enumerate() {
            all.extend([&shown, &hidden].map(|message| Case::forward(true, code, message)));
            all.push(Case::forward(false, code, if place % 2 == 0 { &shown } else { &hidden }));
        }
    }
    for (number, code) in [
        ("3333333", "33"), ("3333333", "333"), ("3333333", "3"), ("13318765432", "33"), ("1234567", "123"), ("12345678", "123"),
        ("123456789012345", "1"), ("999999999999999", "999"), ("5900000000", "590"), ("1000000", "100"),
        ("1000000", "10"), ("9000000000", "9"), ("9000000000", "99"),
    ] {
        all.extend([true, false].map(|home| Case::forward(home, code.as_bytes(), &invite(&format!("+{number}")).bytes())));
    }
    all
}

/// Every digit at every place, and every country code's first digit.
fn digits() -> Vec<Case> {
    let mut all = Vec::new();
    for turn in 1..=9 {
        let number: String = (0..15).map(|place| char::from(b'0' + ((turn + place) % 10) as u8)).collect();
        for code in [&number[..1], &number[..2], &number[..3]] {
            let home = [15, 14].map(|length| Case::forward(true, code.as_bytes(), &withheld(&format!("+{}", &number[..length])).bytes()));
            all.extend(home);
        }
    }
    all
}

/// Identities of every kind: sip and tel, both orders, one field and two, folded and quoted.
fn asserted() -> Vec<Case> {
    let mut all: Vec<Case> = identities::callings().iter().flat_map(|(message, _)| both_ways(message)).collect();
    for (sip, tel) in [("+33187654321", "+44111111111"), ("+44111111111", "+33187654321")] {
        for value in [format!("<sip:{sip}@a>,<tel:{tel}>"), format!("<tel:{tel}>\r\n , \"<sip:+1234567@h>\"\r\n <sip:{sip}@a>")] {
            all.extend(both_ways(&Draft::least(0).with(15, value.as_bytes()).with(16, b"user").bytes()));
        }
        let [first, second] = [format!("tel:{tel}"), format!("\r\n A\r\n\tB <sip:{sip}@a>")];
        all.extend(both_ways(&Draft::least(0).with(15, first.as_bytes()).and("p-asserted-identity", second.as_bytes()).bytes()));
    }
    // From, To and the Request-URI have another number of our country.
    let ours = Draft::least(0).to(b"sip:+33222222222@g").with(3, b"<sip:+33333333333@a>;tag=1").with(4, b"tel:+33444444444");
    all.extend(both_ways(&ours.with(15, b"tel:+44111111111").bytes()));
    all
}

/// Every kind of Privacy.
fn hidden() -> Vec<Case> {
    let mut all = Vec::new();
    for value in [
        "id", "user", "header", "ID", "uSeR", "HEADER", "none", "None", "session", "critical", "history", "identity", "username",
        "headers", "head", "i", "none;id", "id;none", "none ; user", "user;header;id", "session\r\n ;\r\n\tHeader", "\r\n id\r\n ",
        "none;identity", "x;y;z;User", "users;ids", "-.!%*_+`'~",
    ] {
        all.extend(both_ways(&invite("+33187654321").with(16, value.as_bytes()).bytes()));
    }
    // Refused for it, and not asked for it.
    for value in ["id;", "", "id,user", "id\r\nPrivacy: id"] {
        all.push(Case::forward(true, b"33", &invite("+33187654321").with(16, value.as_bytes()).bytes()));
    }
    all.extend(both_ways(&Draft::full(0).without(16).and("Privacys", b"id").bytes()));
    all
}

/// To without a tag in every form, and every kind of called number.
fn called() -> Vec<Case> {
    let mut all = Vec::new();
    for to in [
        "sip:h", "<sip:h;tag=1>", "\";tag=1\" <sip:h>", "<sip:h>;x=\";tag=1\"", "<sip:h>\r\n ;tagx=1\r\n ;xtag=2",
        "\r\n \"tag\r\n =1\"\r\n <tel:1;tag=1>\r\n ", "tel:112;x", "sip:a;tag=1@h",
    ] {
        all.extend(both_ways(&withheld("+33187654321").with(4, to.as_bytes()).bytes()));
    }
    for uri in ["sip:112@h", "tel:112", "tel:+33123456789;x", "sip:+33123456789;npdi@h:5060;user=phone", "SIP:123456;@h"] {
        all.extend(both_ways(&invite("+33187654321").to(uri.as_bytes()).bytes()));
    }
    all
}

/// Names in other forms and ignored fields anywhere give the same parameter.
fn strewn_about() -> Vec<Case> {
    let mut dice = Dice::new(3);
    let mut all = Vec::new();
    for turn in 0..20 {
        let mut draft = withheld("+33187654321");
        for field in draft.fields.iter_mut() {
            field.name = renamed(&mut dice, &field.name);
        }
        draft.fields.rotate_left(turn % 10);
        let near = ("P-Asserted-Identit", "<sip:+44111111111@a>");
        for (name, value) in [near, ("X-Relay-Mode", "a\r\n b"), ("Reason", ""), ("Privac", "none"), ("Subject", "\t")] {
            let place = dice.below(draft.fields.len() + 1);
            draft.fields.insert(place, Whole::new(&in_any_case(&mut dice, name.as_bytes()), value.as_bytes()));
        }
        all.extend(both_ways(&draft.bytes()));
    }
    all
}

/// 96 and 97 fields, 8,192 bytes and more, an identity behind a long fold.
fn sizes() -> Vec<Case> {
    let mut all = Vec::new();
    for many in [96, 97] {
        all.extend(both_ways(&recorded::sizes::filled(&withheld("+33187654321"), "k", b"", many).bytes()));
    }
    let body = |length: usize| {
        let base = withheld("+33187654321").and("c", b"x");
        base.carrying(&vec![b'b'; length - base.bytes().len()]).bytes()
    };
    all.extend([8191, 8192, 8193, MOST].map(|length| Case::forward(true, b"33", &body(length))));
    all.push(Case::forward(true, b"0", &body(8193)));
    all.push(Case::forward(true, b"33", &vec![0; MOST]));
    for folds in [80, 2500] {
        let value = format!("\"a\"{}<tel:+44111111111>{},<sip:+33187654321@a>", "\r\n ".repeat(folds), "\t".repeat(folds / 10));
        all.extend(both_ways(&Draft::least(0).with(15, value.as_bytes()).bytes()));
    }
    all
}

/// Drawn messages, mostly initial INVITEs, with drawn codes.
fn drawn() -> Vec<Case> {
    let mut dice = Dice::new(1989);
    let mut all = Vec::new();
    for _ in 0..250 {
        let column = if dice.one_in(5) { dice.below(COLUMNS.len()) } else { 0 };
        let number = format!("+{}{:06}", 1 + dice.below(99), dice.below(1_000_000));
        let mut draft = Draft::least(column);
        if COLUMNS[column] == Column::Invite {
            draft = invite(&number).to(GOOD_URI.as_bytes());
        }
        if dice.one_in(2) {
            draft.set(16, *dice.pick(&[&b"id"[..], b"none", b"none;USER", b"users"]));
        }
        let mut message = strewn(&mut dice, &draft).bytes();
        if dice.one_in(5) {
            damage(&mut dice, &mut message);
        }
        let length = 1 + dice.below(3);
        let code = if dice.one_in(2) { number[1..1 + length].to_string() } else { dice.below(1200).to_string() };
        all.push(Case::forward(dice.one_in(2), code.as_bytes(), &message));
    }
    all
}
