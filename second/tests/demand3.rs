//! "What demand 3 compares": ignored fields added anywhere and names rewritten to another form or
//! letter case change neither the numbers, the buffer nor the table (CR 8), where both messages keep within the sizes.
mod common;
use common::*;

const METHODS: [&str; 7] = ["INVITE", "INVITE", "ACK", "BYE", "CANCEL", "OPTIONS", "INFO"];
const COMPACT: [(&str, &str); 8] = [
    ("Via", "v"), ("From", "f"), ("To", "t"), ("Call-ID", "i"), ("Contact", "m"), ("Content-Length", "l"),
    ("Content-Type", "c"), ("Supported", "k"),
];
const NOT_LISTED: [&str; 12] = [
    "X-Relay-Mode", "Via-Extra", "Vi", "Subject", "s", "e", "a", "P-Asserted-Identit", "Privacys", "re", "!%*_+`'~", "0",
];
const STATUSES: [&str; 12] = ["200 OK", "200 ", "299 x", "199 x", "300 x", "100 Trying", "180 \t", "404 a  b", "699 x", "099 x", "700 ", "000 x"];

/// Names that the column of the message ignores: by its kind, and by its method.
fn ignored_by(start: &str, method: &str) -> &'static [&'static str] {
    if start.starts_with("SIP/2.0 ") { ignored_in_response(method) } else { ignored_in_request(method) }
}

/// At 17 too these are the fields of the method that the first CSeq names; where it names none known, only names not listed are ignored.
fn ignored_in_response(method: &str) -> &'static [&'static str] {
    match method {
        "INVITE" | "BYE" | "OPTIONS" => &["Max-Forwards", "Route", "P-Asserted-Identity", "Privacy"],
        "CANCEL" => &["Max-Forwards", "Route", "P-Asserted-Identity", "Privacy", "Contact", "m", "Content-Type", "c", "Reason", "Allow",
            "Supported", "k", "Require", "Accept", "Record-Route"],
        _ => &[],
    }
}

fn ignored_in_request(method: &str) -> &'static [&'static str] {
    match method {
        "INVITE" => &["Reason"],
        "ACK" => &["Reason", "Allow", "Supported", "k", "Require", "P-Asserted-Identity", "Privacy", "Accept", "Record-Route"],
        "BYE" => &["Contact", "m", "P-Asserted-Identity", "Privacy", "Accept", "Record-Route"],
        "CANCEL" => &["Contact", "m", "Content-Type", "c", "Allow", "Supported", "k", "Require", "P-Asserted-Identity",
            "Privacy", "Accept", "Record-Route"],
        "OPTIONS" => &["Reason", "P-Asserted-Identity", "Privacy", "Record-Route"],
        _ => &[],
    }
}

/// A whole field: its name, and every byte after the name up to past the last CRLF.
type Whole = (String, Vec<u8>);

const VALUES: [(&str, &[&str]); 18] = [
    ("Via", &["x", "x", "", "a \r\n b"]),
    ("Max-Forwards", &["70", "1", "070", "0", "256", "\r\n 9"]),
    ("From", &["<sip:a@h>;tag=1", "sip:a@h ; TAG = z", "\"A\r\n B\" <tel:1>;tag=q", "<sip:a@h>"]),
    ("To", &["<sip:b@h>", "sip:b@h", "<sip:b@h>;tag=7", "<sip:b@h>;tag"]),
    ("Call-ID", &["#@y", "#", "x y"]),
    ("CSeq", &["1 M", "007\tM", "1  M", "1\r\n M", "1 m"]),
    ("Contact", &["<sip:c>", "x", ""]),
    ("Content-Length", &["0", "000", "3", "003", "9", "x"]),
    ("Content-Type", &["a/b", "c", ""]),
    ("Route", &["<sip:r>", "r", ""]),
    ("Allow", &["INVITE", ""]),
    ("Supported", &["timer", ""]),
    ("Require", &["timer", "TIMER,100rel", "100rel, x", "y", ","]),
    ("P-Asserted-Identity", &["<sip:+1234567@h>", "tel:+1234567", "tel:+1234567\r\n , <sip:+1234567@h>", "<sip:1@h>"]),
    ("Privacy", &["user", "id", "none", "Header;none", ";"]),
    ("Reason", &["x", "y", ""]),
    ("Accept", &["a/b", ""]),
    ("Record-Route", &["<sip:r>", "r", ""]),
];

/// A value for the field: mostly one of the first two, which are good. A Call-ID is often one of a few that come again, else one of so many that
/// the table does not hold them all.
fn value(dice: &mut Dice, list: &[&str], method: &str) -> String {
    let value = if dice.one_in(40) { *dice.pick(list) } else { list[dice.below(2.min(list.len()))] };
    let calls = if dice.one_in(2) { 4 } else { 400 };
    let call = dice.below(calls);
    if value.ends_with('M') { value.replace('M', method) } else { value.replace('#', &call.to_string()) }
}

fn random_fields(dice: &mut Dice, method: &str) -> Vec<Whole> {
    let mut fields = Vec::new();
    for (place, (name, list)) in VALUES.into_iter().enumerate() {
        let wanted = place < 6 || ["Contact", "Allow", "P-Asserted-Identity"].contains(&name);
        // Two identities may come in two fields (CR 6).
        let twice = if name == "P-Asserted-Identity" { 6 } else { 100 };
        let times = if dice.one_in(twice) { 2 } else if wanted { usize::from(!dice.one_in(60)) } else { dice.below(2) };
        for _ in 0..times {
            let text = format!("{}:{}{}\r\n", dice.pick(&["", " ", "\t"]), dice.pick(&["", " "]), value(dice, list, method));
            fields.insert(dice.below(fields.len() + 1), (name.to_string(), text.into_bytes()));
        }
    }
    fields
}

fn added_field(dice: &mut Dice, listed: &[&str]) -> Whole {
    let name = if listed.is_empty() || dice.one_in(2) { *dice.pick(&NOT_LISTED) } else { *dice.pick(listed) };
    let mut text = dice.pick(&[":", " :", "\t: "]).as_bytes().to_vec();
    for _ in 0..dice.below(20) {
        match dice.below(12) {
            0 => text.extend(b"\r\n "),
            1 => text.extend(b";tag="),
            2 => text.push(*dice.pick(&[9, 128, 255])),
            _ => text.push(32 + dice.below(95) as u8),
        }
    }
    text.extend(b"\r\n");
    (any_case(dice, name), text)
}

fn any_case(dice: &mut Dice, name: &str) -> String {
    let turned = name.chars().map(|c| if dice.one_in(2) { c.to_ascii_uppercase() } else { c.to_ascii_lowercase() });
    turned.collect()
}

/// Another form of the name, in any letter case.
fn rewritten(dice: &mut Dice, name: &str) -> String {
    let short = COMPACT.iter().find(|(long, _)| *long == name).map(|(_, short)| *short);
    let form = match short {
        Some(short) if dice.one_in(2) => short,
        _ => name,
    };
    any_case(dice, form)
}

fn joined(start: &[u8], fields: &[Whole], rest: &[u8]) -> Vec<u8> {
    let mut out = start.to_vec();
    for (name, text) in fields {
        out.extend(name.as_bytes());
        out.extend(text);
    }
    out.extend(b"\r\n");
    out.extend(rest);
    out
}

fn change(dice: &mut Dice, fields: &[Whole], listed: &[&str]) -> Vec<Whole> {
    let mut changed = fields.to_vec();
    for field in changed.iter_mut() {
        if dice.one_in(2) {
            field.0 = rewritten(dice, &field.0.clone());
        }
    }
    for _ in 0..dice.below(8) {
        let added = added_field(dice, listed);
        changed.insert(dice.below(changed.len() + 1), added);
    }
    changed
}

/// Draws a message and a changed one for some rounds, both with the same table before; how often each reason was met, and how often the
/// table decided. A history has 5,000 rounds from the first table, so that it is often full and often not.
fn compared(dice: &mut Dice, start_line: impl Fn(&mut Dice, &str) -> String, first_table: Table) -> ([u32; 19], u32) {
    let (mut seen, mut table, mut decided) = ([0; 19], first_table, 0);
    for round in 0..20_000 {
        if round % 5000 == 0 {
            table = first_table;
        }
        let method = *dice.pick(&METHODS);
        let start = start_line(dice, method);
        let fields = random_fields(dice, method);
        let rest = dice.pick(&["", "", "abc", " \r\nX: y\r\n\r\n"]).as_bytes();
        let listed = ignored_by(&start, first_method(&start, &fields, method));
        let one = joined(start.as_bytes(), &fields, rest);
        let other = joined(start.as_bytes(), &change(dice, &fields, listed), rest);
        let side = if dice.one_in(40) { 2 } else { dice.below(2) as u64 };
        let room = if dice.one_in(20) { 40 } else { 9216 };
        let before = table;
        let answer = run_with(&mut table, &one, side, room);
        let mut other_table = before;
        assert_eq!(answer, run_with(&mut other_table, &other, side, room), "{}\n{}", String::from_utf8_lossy(&one), String::from_utf8_lossy(&other));
        assert!(table == other_table, "{}\n{}", String::from_utf8_lossy(&one), String::from_utf8_lossy(&other));
        seen[answer.0[0] as usize] += 1;
        decided += u32::from(answer != run_in(&one, side, room));
    }
    (seen, decided)
}

/// The method of a request; for a response that of its first CSeq, or none that is known.
fn first_method<'a>(start: &str, fields: &[Whole], method: &'a str) -> &'a str {
    let first = fields.iter().find(|(name, _)| name == "CSeq");
    let names_it = first.is_some_and(|(_, text)| text.trim_ascii_end().ends_with(method.as_bytes()));
    if start.starts_with("SIP/2.0 ") && !names_it { "" } else { method }
}

#[test]
fn insertions_and_renamings_change_nothing_in_requests() {
    let start = |dice: &mut Dice, method: &str| {
        let uri = if dice.one_in(8) { *dice.pick(&["sip:h", "x:y", "*", "sip:1@h"]) } else { URI };
        format!("{method} {uri} SIP/2.0\r\n")
    };
    let (seen, decided) = compared(&mut Dice::new(3), start, none_held());
    assert!(decided - seen[18] > 100, "{decided}");
    // The messages reach acceptance and every reason that well shaped lines within the sizes can have.
    for reason in [0, 1, 6, 7, 8, 9, 10, 11, 12, 13, 14, 15, 16, 18] {
        assert!(seen[reason] > 20, "reason {reason}: {seen:?}");
    }
}

#[test]
fn insertions_and_renamings_change_nothing_in_responses() {
    let start = |dice: &mut Dice, _: &str| {
        let status = if dice.one_in(2) { "200 OK" } else { *dice.pick(&STATUSES) };
        format!("SIP/2.0 {status}\r\n")
    };
    let mut table = none_held();
    for call_id in ["0@y", "1@y", "2@y", "3@y", "0", "1", "2", "3"] {
        let withheld = call_with("tag=a1\nt: <sip:+33123456789@gw.example>\ni: 9x@relay.example\n", &format!("tag=1\nt: sip:h\ni: {call_id}\n"));
        assert_eq!(run_with(&mut table, &withheld, 1, 9216).0[0], 0);
    }
    let (seen, decided) = compared(&mut Dice::new(4), start, table);
    assert_eq!(decided, 0, "no response asks for the table");
    for reason in [0, 1, 6, 9, 10, 11, 12, 16, 17] {
        assert!(seen[reason] > 20, "reason {reason}: {seen:?}");
    }
}

/// What one column ignores another one does not: the sets go by kind and method.
#[test]
fn the_sets_go_by_kind_and_method() {
    let sent = |start: &str, method: &str, name: &str| {
        let mut fields = response_base(method);
        add(&mut fields, "Max-Forwards", b"9");
        fields.retain(|(own, _)| own != name);
        add(&mut fields, name, b"x");
        let out = run(&build_from(start, &fields, b""), 1).1;
        String::from_utf8(out).unwrap().contains(&format!("\r\n{name}: x\r\n"))
    };
    for name in ["Contact", "Route", "Reason", "Allow", "Supported", "Accept", "Record-Route", "Content-Type"] {
        for method in ["INVITE", "BYE", "CANCEL", "OPTIONS"] {
            assert_eq!(sent("SIP/2.0 200 OK", method, name), !ignored_in_response(method).contains(&name), "{name} {method}");
            if method != "INVITE" {
                assert_eq!(sent(&format!("{method} sip:h SIP/2.0"), method, name), !ignored_in_request(method).contains(&name), "{name} {method}");
            }
        }
    }
}

/// The first CSeq decides what is ignored, so no CSeq may be added before it: no column ignores CSeq.
#[test]
fn cseq_is_ignored_nowhere() {
    let mut fields = response_base("INVITE");
    let plain = run(&build_from("SIP/2.0 200 OK", &fields, b""), 1);
    fields.insert(0, ("CSeqs".into(), b"1 CANCEL".to_vec()));
    assert_eq!(run(&build_from("SIP/2.0 200 OK", &fields, b""), 1), plain);
    fields[0].0 = "CSeq".into();
    assert_eq!(numbers(&build_from("SIP/2.0 200 OK", &fields, b"")), [9, 0, 6, 0]);
}

#[test]
fn the_96th_and_97th_field() {
    let mut message = String::from_utf8(call()).unwrap();
    let plain = run(message.as_bytes(), 1);
    while message.matches("\r\n").count() < 96 + 2 {
        message = message.replacen("\r\nv:", "\r\nX: y\r\nv:", 1);
    }
    assert_eq!(run(message.as_bytes(), 1), plain);
    message = message.replacen("\r\nv:", "\r\nX: y\r\nv:", 1);
    assert_eq!(numbers(message.as_bytes()), [5, 0, 0, 0]);
}
