//! The regulator's quarter (CR 3): how a text is read as records and how it ends, who stands in which line, and the numbers of the lines.
mod common;
use common::*;
use second::drafts::{Draft, Whole};
use second::recorded::history::{drawn_file, fixed_file, record};
use second::replay::{self, history, records, report, Group, Line, MOST_RECORDS};
use std::collections::BTreeSet;

/// The group and the reason of a message with none held before.
fn judged(message: &[u8], side: u64) -> (Group, u64) {
    replay::judged(message, side, &mut none_held())
}

const NOTHING: &str = "relay 0 0 0\nother 0 0 0\nunread 0 0 0\n";

/// One line of a report: how many came, how many were accepted, the rate, and the pairs of reason and count.
#[derive(Debug, PartialEq)]
struct Numbers {
    came: u64,
    accepted: u64,
    rate: u64,
    pairs: Vec<(u64, u64)>,
}

fn number(word: &str) -> u64 {
    let number: u64 = word.parse().unwrap_or_else(|_| panic!("no number: {word:?}"));
    assert_eq!(number.to_string(), word, "no leading zeros");
    number
}

fn line(text: &str, name: &str) -> Numbers {
    let words: Vec<&str> = text.split(' ').collect();
    assert_eq!(words[0], name, "{text}");
    let pair = |word: &&str| word.split_once('=').map(|(reason, count)| (number(reason), number(count))).expect("a pair");
    Numbers { came: number(words[1]), accepted: number(words[2]), rate: number(words[3]), pairs: words[4..].iter().map(pair).collect() }
}

/// The lines of a report, the records read and the refusal. What must hold of every report is held to it.
fn numbers_of(text: &str) -> ([Numbers; 3], u64, u64) {
    let lines: Vec<&str> = text.strip_suffix('\n').expect("LF ends the last line").split('\n').collect();
    assert_eq!(lines.len(), 4, "{text}");
    let three = [line(lines[0], "relay"), line(lines[1], "other"), line(lines[2], "unread")];
    let last: Vec<&str> = lines[3].split(' ').collect();
    assert!(last.len() == 3 && last[0] == "end", "{text}");
    let (read, end) = (number(last[1]), number(last[2]));
    for one in &three {
        let refused: u64 = one.pairs.iter().map(|pair| pair.1).sum();
        assert_eq!(one.came, one.accepted + refused, "accepted and refused make what came: {text}");
        assert_eq!(one.rate, if one.came == 0 { 0 } else { refused * 10_000 / one.came }, "{text}");
        assert!(one.pairs.windows(2).all(|two| two[0].0 < two[1].0) && one.pairs.iter().all(|pair| pair.1 > 0), "{text}");
    }
    let allowed = |one: &Numbers, least: u64| one.pairs.iter().all(|pair| pair.0 >= least && ![0, 16].contains(&pair.0) && pair.0 <= 18);
    assert!(allowed(&three[0], 6) && allowed(&three[1], 6) && three[2].accepted == 0 && three[2].pairs.iter().all(|pair| (1..=5).contains(&pair.0)), "{text}");
    assert_eq!(three.iter().map(|one| one.came).sum::<u64>(), read, "{text}");
    (three, read, end)
}

/// The records read and the refusal.
fn end_of(text: &[u8]) -> (u64, u64) {
    let (_, read, end) = numbers_of(&report(text));
    (read, end)
}

fn recorded(messages: &[Vec<u8>]) -> Vec<u8> {
    messages.iter().flat_map(|message| record(1, message)).collect()
}

/// A message of each line: a relay caller's, another's, and one that is not read.
fn one_of_each() -> [Vec<u8>; 3] {
    [call(), call_with("X-Relay-Mode: text\n", ""), b"x".to_vec()]
}

#[test]
fn the_pages_record() {
    for side in [1, 0] {
        assert_eq!(report(&record(side, &call())), "relay 1 1 0\nother 0 0 0\nunread 0 0 0\nend 1 0\n");
    }
}

#[test]
fn no_records() {
    assert_eq!(report(b""), format!("{NOTHING}end 0 0\n"));
}

#[test]
fn where_a_record_would_start() {
    let starts: [(&[u8], u64); 22] = [
        (&[], 0), (&[0x00], 31), (&[0x4E], 31), (&[0x52], 31), (&[0x54], 31), (&[0x73], 31), (&[0xFF], 31), (&[0x53], 32), (&[0x53, 0x00], 31), (&[0x53, 0x53], 31), (&[0x53, 0x4D], 31),
        (&[0x53, 0x6E], 31), (&[0x4E, 0x53], 31), (&[0x00, 0x4E], 31), (&[0x53, 0x4E], 32), (&[0x53, 0x4E, 0], 32), (&[0x53, 0x4E, 0, 0], 32), (&[0x53, 0x4E, 0xFF, 0xFF], 32),
        (&[0x53, 0x4E, 1, 0, 1], 32), (&[0x53, 0x4E, 1, 1, 0], 32), (&[0x53, 0x4E, 1, 0, 2, 0x53], 32), (&[0x53, 0x4D, 1, 0, 9], 31),
    ];
    for (start, end) in starts {
        assert_eq!(report(start), format!("{NOTHING}end 0 {end}\n"), "{start:02x?}");
        let behind = [record(1, &call()), start.to_vec()].concat();
        assert_eq!(report(&behind), format!("relay 1 1 0\nother 0 0 0\nunread 0 0 0\nend 1 {end}\n"), "{start:02x?}");
    }
}

#[test]
fn every_byte_of_a_mark() {
    for byte in 0..=255u8 {
        let message = record(1, &call());
        let other = |place: usize| {
            let mut changed = [message.clone(), message.clone()].concat();
            changed[message.len() + place] = byte;
            end_of(&changed)
        };
        assert_eq!(other(0), if byte == 0x53 { (2, 0) } else { (1, 31) }, "{byte:02x}");
        assert_eq!(other(1), if byte == 0x4E { (2, 0) } else { (1, 31) }, "{byte:02x}");
    }
}

#[test]
fn after_a_refusal_nothing_is_read() {
    let good = record(1, &call());
    for bad in [&b"SM\x01\0\0"[..], b"\0", b"NS", b"sn\x01\0\0", b" "] {
        assert_eq!(end_of(&[&good[..], bad, &good, &good].concat()), (1, 31), "{bad:02x?}");
    }
    // A record that says too much takes the next one in, and what comes then is no mark.
    let mut long = good.clone();
    long[4] += 1;
    assert_eq!(end_of(&[&good[..], &long, &good].concat()), (2, 31));
    assert_eq!(end_of(&[&good[..], &long].concat()), (1, 32));
    let mut short = good.clone();
    short[4] -= 1;
    assert_eq!(end_of(&[&good[..], &short, &good].concat()), (2, 31));
}

/// Some records and the places where each of them ends.
fn several() -> (Vec<u8>, Vec<usize>) {
    let (mut file, mut borders) = (Vec::new(), vec![0]);
    for (side, message) in [(1, call()), (0, Draft::short("BYE").bytes()), (1, Vec::new()), (7, b"SN".to_vec()), (1, Draft::least(6).with(8, b"1").bytes())] {
        file.extend(record(side, &message));
        borders.push(file.len());
    }
    (file, borders)
}

#[test]
fn cut_at_every_place() {
    let (file, borders) = several();
    for length in 0..=file.len() {
        let before = borders.iter().filter(|&&border| border > 0 && border <= length).count() as u64;
        let end = if borders.contains(&length) { 0 } else { 32 };
        assert_eq!(end_of(&file[..length]), (before, end), "{length} bytes");
    }
}

#[test]
fn damaged_at_every_place() {
    let (file, _) = several();
    for place in 0..file.len() {
        for byte in [0, 0xFF, 0x53, 0x4E, file[place] ^ 1, file[place] ^ 0x20, file[place].wrapping_add(1)] {
            let mut changed = file.clone();
            changed[place] = byte;
            let (read, end) = end_of(&changed);
            assert!(read <= 5 && [0, 31, 32].contains(&end), "byte {byte:02x} at {place}");
            // What lies before the place is read as before.
            let (before, _) = records(&file[..place]);
            assert!(records(&changed).0.starts_with(&before));
        }
        for changed in [[&file[..place], &file[place + 1..]].concat(), [&file[..place], b"S", &file[place..]].concat()] {
            end_of(&changed);
        }
    }
}

#[test]
fn the_high_byte_of_a_length_comes_first() {
    let message = [0x4E; 0x0102];
    assert_eq!(end_of(&[b"SN\x01\x01\x02", &message[..]].concat()), (1, 0));
    assert_eq!(end_of(&[b"SN\x01\x02\x01", &message[..]].concat()), (0, 32));
    assert_eq!(end_of(&[b"SN\x01\x00\xFF", &message[..]].concat()), (1, 31));
    let whole = [b"SN\x01\xFF\xFF", &[0x53; 65_535][..]].concat();
    assert_eq!(report(&whole), "relay 0 0 0\nother 0 0 0\nunread 1 0 10000 2=1\nend 1 0\n");
    assert_eq!(end_of(&whole[..whole.len() - 1]), (0, 32));
    let (found, end) = records(b"SN\x05\x00\x03abcSN\xFF\x00\x00");
    let found: Vec<(u8, &[u8])> = found.iter().map(|record| (record.side, record.message)).collect();
    assert_eq!((found, end), (vec![(5, &b"abc"[..]), (255, b"")], 0));
}

#[test]
fn a_side_is_the_number_of_its_byte() {
    for side in 0..=255 {
        let wanted = if side < 2 { "relay 1 1 0\nother 0 0 0\nunread 0 0 0\nend 1 0\n" } else { "relay 0 0 0\nother 0 0 0\nunread 1 0 10000 1=1\nend 1 0\n" };
        assert_eq!(report(&record(side, &call())), wanted, "side {side}");
    }
    assert_eq!(report(b"SN7\0\0"), "relay 0 0 0\nother 0 0 0\nunread 1 0 10000 1=1\nend 1 0\n");
}

#[test]
fn no_message_and_too_long_a_message() {
    assert_eq!(report(b"SN\x01\0\0"), "relay 0 0 0\nother 0 0 0\nunread 1 0 10000 3=1\nend 1 0\n");
    let bye = Draft::least(3).and("X-Relay-Mode", b"text").and("Content-Type", b"x");
    let sized = |length: usize| bye.carrying(&vec![b'b'; length - bye.bytes().len()]).bytes();
    assert_eq!(report(&recorded(&[sized(8192)])), "relay 1 1 0\nother 0 0 0\nunread 0 0 0\nend 1 0\n");
    assert_eq!(report(&recorded(&[sized(8193), sized(60_000)])), "relay 0 0 0\nother 0 0 0\nunread 2 0 10000 2=2\nend 2 0\n");
}

#[test]
fn there_is_room_enough() {
    // A later INVITE that grows by over 800 bytes and is as long as a message may be.
    let mut draft = Draft::bare("INVITE", "sip:h");
    for (name, value) in [("v", "x"), ("Max-Forwards", "9"), ("f", "sip:h;tag=1"), ("t", "sip:h;tag=2"), ("i", "x"), ("CSeq", "1 INVITE"), ("m", "x"), ("c", "x"), ("Privacy", "id")] {
        draft.add(name, value.as_bytes());
    }
    while draft.fields.len() < 96 {
        draft.fields.push(Whole { name: b"k".to_vec(), rest: b":\r\n".to_vec() });
    }
    let message = draft.carrying(&vec![b'x'; 8192 - draft.bytes().len()]).bytes();
    assert!(run(&message, 1).0[4] > 8192 + 800);
    assert_eq!(report(&recorded(&[message])), "relay 0 0 0\nother 1 1 0\nunread 0 0 0\nend 1 0\n");
}

fn group_of(field: &str) -> Group {
    judged(&call_with("X-Relay-Mode: text", field), 1).0
}

#[test]
fn relay_callers_by_the_whole_name() {
    for field in [
        "X-Relay-Mode: text", "x-relay-mode: text", "X-RELAY-MODE: text", "x-rELAY-mOdE:", "X-Relay-Mode:", "X-Relay-Mode: \t ", "X-Relay-Mode :text", "X-Relay-Mode \t \t: text",
        "X-Relay-Mode: a\nX-Relay-Mode: b", "X-Relay-Mode:\n text", "X-Relay-Mode: a\n \n\tb", "X-Relay-Mod: a\nX-Relay-Mode: b\nX-Relay-Mode-2: c", "X-Relay-Mode:::",
        "X-Relay-Mode: \u{e9}",
    ] {
        assert_eq!(group_of(field), Group::Relay, "{field:?}");
    }
    for field in [
        "X: text", "X-Relay-Mode-2: text", "X-Relay-Mod: text", "X-Relay-Modes: text", "-X-Relay-Mode: text", "XX-Relay-Mode: text", "Relay-Mode: text", "X-Relay: Mode: text",
        "X_Relay_Mode: text", "X-Relay-Mode.: text", "X.Relay-Mode: text", "X-Relay-Mode%: text", "X-Re1ay-Mode: text", "XRelayMode: text", "8-Relay-Mode: text", "xmRelay-Mode: text",
        "Subject: X-Relay-Mode: text", "Subject: a\n X-Relay-Mode: text", "Subject:\n\tX-Relay-Mode:\n text", "r: x", "X-Relay-Mode-: a",
    ] {
        assert_eq!(group_of(field), Group::Other, "{field:?}");
    }
}

#[test]
fn the_field_first_last_and_in_the_body() {
    let bye = Draft::least(3).and("Content-Type", b"x");
    let body = bye.carrying(b"X-Relay-Mode: text\r\n\r\n");
    assert_eq!(judged(&body.bytes(), 1), (Group::Other, 0));
    assert_eq!(judged(&body.with(8, b"0").bytes(), 1), (Group::Other, 0));
    for place in 0..=bye.fields.len() {
        let mut draft = body.clone();
        draft.fields.insert(place, Whole::new(b"X-Relay-Mode", b"text"));
        assert_eq!(judged(&draft.bytes(), 1), (Group::Relay, 0), "{place}");
    }
}

#[test]
fn requests_and_responses_of_every_column_count() {
    for column in 0..9 {
        let plain = Draft::least(column);
        for side in [0, 1] {
            assert_eq!(judged(&plain.bytes(), side), (Group::Other, 0));
            assert_eq!(judged(&plain.and("X-Relay-Mode", b"").bytes(), side), (Group::Relay, 0));
        }
    }
    // The same message again is one more.
    assert_eq!(report(&record(1, &call()).repeat(12)), "relay 12 12 0\nother 0 0 0\nunread 0 0 0\nend 12 0\n");
}

#[test]
fn reasons_1_to_5_stand_in_the_third_line_alone() {
    let bye = Draft::least(3).and("X-Relay-Mode", b"text");
    let mut many = bye.clone();
    while many.fields.len() < 97 {
        many.add("X-Relay-Mode", b"");
    }
    let whole = bye.bytes();
    let cut = &whole[..whole.len() - 1];
    let long = bye.carrying(&[b'x'; 8192]).bytes();
    let start = [b" ", &whole[..]].concat();
    assert_eq!(judged(&whole, 2), (Group::Unread, 1));
    assert_eq!([&long[..], &start, cut, &many.bytes()].map(|message| judged(message, 1)), [2, 3, 4, 5].map(|reason| (Group::Unread, reason)));
    // 1 goes before all others, 17 and 6 are not among them.
    assert_eq!(judged(b"", 9), (Group::Unread, 1));
    let answer = Draft::least(6).and("X-Relay-Mode", b"text");
    assert_eq!(judged(&answer.status("700", b"").bytes(), 1), (Group::Relay, 17));
    assert_eq!(judged(&answer.with(6, b"x").bytes(), 1), (Group::Relay, 6));
    assert_eq!(judged(&Draft::bare_status("099", "").bytes(), 0), (Group::Other, 17));
}

/// Messages of one line, so many accepted and so many refused.
fn rate_of(accepted: usize, refused: usize) -> u64 {
    let [good, bad] = [Draft::short("BYE"), Draft::short("BYE").with(2, b"0")].map(|draft| record(1, &draft.bytes()));
    let (lines, _, _) = numbers_of(&report(&[bad.repeat(refused), good.repeat(accepted)].concat()));
    lines[1].rate
}

#[test]
fn rates_are_rounded_down() {
    for (accepted, refused, rate) in [
        (2, 1, 3333), (1, 2, 6666), (0, 1, 10000), (1, 0, 0), (0, 0, 0), (1, 1, 5000), (6, 1, 1428), (1, 6, 8571), (10_000, 1, 0), (9_999, 1, 1), (1, 10_000, 9999),
    ] {
        assert_eq!(rate_of(accepted, refused), rate, "{refused} of {}", accepted + refused);
    }
    assert_eq!(report(&record(1, &call_with("70", "0")).repeat(3)), "relay 3 0 10000 13=3\nother 0 0 0\nunread 0 0 0\nend 3 0\n");
    let three = [call(), call(), call_with("70", "0")].map(|message| record(0, &message)).concat();
    assert_eq!(report(&three), "relay 3 2 3333 13=1\nother 0 0 0\nunread 0 0 0\nend 3 0\n");
}

#[test]
fn large_counts_make_a_line() {
    let most = u64::from(u32::MAX);
    let line = Line { accepted: most, refused: (1..20).map(|reason| (reason, most)).collect() };
    assert!(line.written("relay").starts_with("relay 85899345900 4294967295 9500 1=4294967295 2="));
    assert_eq!(Line { accepted: 5, refused: vec![(3, 0), (9, 1), (16, 0)] }.written("other"), "other 6 5 1666 9=1\n");
}

#[test]
fn reasons_rise_by_number() {
    let (invite, bye) = (Draft::least(0), Draft::least(3));
    let drafts = [
        Draft::least(6).status("700", b""), invite.to(b"sip:1@h"), bye.with(14, b"x"), bye.with(2, b"0"), bye.without(5), bye.with(8, b"9"), bye.with(5, b""), bye.and("t", b"sip:h"),
        bye.to(b"*"), bye.to(b"x:y"), Draft::bare("INFO", "sip:h"), bye.clone(),
    ];
    let file: Vec<u8> = drafts.iter().enumerate().flat_map(|(place, draft)| record(1, &draft.bytes()).repeat(place + 1)).collect();
    let pairs = "6=11 7=10 8=9 9=8 10=7 11=6 12=5 13=4 14=3 15=2 17=1";
    assert_eq!(report(&file), format!("relay 0 0 0\nother 78 12 8461 {pairs}\nunread 0 0 0\nend 78 0\n"));
    let relay: Vec<u8> = drafts.iter().enumerate().flat_map(|(place, draft)| record(0, &draft.and("x-relay-mode", b"").bytes()).repeat(place + 1)).collect();
    let unread = [&b"SN\x03\0\0"[..], b"SN\x01\0\0SN\x00\0\x01x"].concat();
    assert_eq!(report(&[unread, file, relay].concat()), format!("relay 78 12 8461 {pairs}\nother 78 12 8461 {pairs}\nunread 3 0 10000 1=1 3=2\nend 159 0\n"));
}

/// Where no pair meets 32 held ones (CR 8), each record is counted by itself.
#[test]
fn the_order_of_the_records_does_not_matter() {
    let [relay, other, unread] = one_of_each().map(|message| record(1, &message));
    let wanted = "relay 2 2 0\nother 1 1 0\nunread 3 0 10000 3=3\nend 6 0\n";
    assert_eq!(report(&[&unread[..], &relay, &unread, &other, &relay, &unread].concat()), wanted);
    assert_eq!(report(&[&relay[..], &relay, &other, &unread, &unread, &unread].concat()), wanted);
}

/// A withheld INVITE of the call with this number.
fn hidden(number: usize) -> Vec<u8> {
    call_with("9x@relay.example", &format!("{number}@relay.example"))
}

/// CR 8: "A replay starts with none held", and the table goes from record to record.
#[test]
fn the_33rd_hidden_call_is_counted() {
    let calls: Vec<Vec<u8>> = (0..33).map(hidden).collect();
    let line = |came: u64, accepted: u64, more: &str| format!("relay {came} {accepted} {}{more}\nother 0 0 0\nunread 0 0 0\nend {came} 0\n", (came - accepted) * 10_000 / came);
    assert_eq!(report(&recorded(&calls[..32])), line(32, 32, ""));
    assert_eq!(report(&recorded(&calls)), line(33, 32, " 18=1"));
    // To side 0 none is held; the same calls again are held already, and the 33rd is refused again.
    let trusted: Vec<u8> = calls.iter().flat_map(|message| record(0, message)).collect();
    assert_eq!(report(&trusted), line(33, 33, ""));
    assert_eq!(report(&[trusted, recorded(&calls), recorded(&calls)].concat()), line(99, 97, " 18=2"));
    // The next replay knows nothing of the one before.
    assert_eq!(report(&recorded(&calls[32..])), line(1, 1, ""));
}

#[test]
fn a_bye_makes_room_for_the_33rd() {
    let (calls, last) = (recorded(&(0..32).map(hidden).collect::<Vec<_>>()), record(1, &hidden(32)));
    let bye = |tag: &str| Draft::least(3).with(5, b"5@relay.example").with(3, format!("<sip:h>;tag={tag}").as_bytes()).and("X-Relay-Mode", b"");
    let with = |side: u8, draft: Draft| report(&[&calls[..], &record(side, &draft.bytes()), &last].concat());
    let counted = |accepted: u64, more: &str| format!("relay 34 {accepted} {}{more}\nother 0 0 0\nunread 0 0 0\nend 34 0\n", (34 - accepted) * 10_000 / 34);
    assert_eq!(with(1, bye("a1")), counted(34, ""));
    assert_eq!(with(0, bye("a1")), counted(33, " 18=1"));
    assert_eq!(with(1, bye("A1")), counted(33, " 18=1"));
    assert_eq!(with(1, bye("a1").with(14, b"x")), counted(32, " 14=1 18=1"));
    assert_eq!(with(1, bye("a1").without(2).status("200", b"OK")), counted(33, " 18=1"));
}

#[test]
fn a_million_records_and_what_comes_after() {
    let shortest = b"SN\x01\0\0";
    let mut file = shortest.repeat(MOST_RECORDS);
    let whole = file.len();
    let wanted = |end: u64| format!("relay 0 0 0\nother 0 0 0\nunread 1000000 0 10000 3=1000000\nend 1000000 {end}\n");
    assert_eq!(report(&file), wanted(0));
    let behind: [(&[u8], u64); 9] = [
        (shortest, 33), (b"SN\x01\0\0SN\x01\0\0", 33), (b"SN\x01\0\0x", 33), (b"S", 32), (b"SN\x01\0", 32), (b"SN\x01\0\x01", 32), (b"x", 31), (b"SM\x01\0\0", 31), (b"\0\0", 31),
    ];
    for (bytes, end) in behind {
        file.truncate(whole);
        file.extend(bytes);
        assert_eq!(report(&file), wanted(end), "{bytes:02x?}");
    }
    // One record fewer, and the millionth is read as any other.
    file.truncate(whole - shortest.len());
    assert_eq!(end_of(&file), (999_999, 0));
    file.extend(record(1, &call()));
    assert_eq!(report(&file), "relay 1 1 0\nother 0 0 0\nunread 999999 0 10000 3=999999\nend 1000000 0\n");
}

#[test]
fn the_fixed_records_have_it_all() {
    let file = fixed_file();
    let (found, end) = records(&file);
    assert!(end == 32 && (60..=110).contains(&found.len()) && file.len() < 60_000);
    let (history, _) = history(&file);
    let seen: BTreeSet<(bool, bool, u64)> = history.iter().map(|(group, reason)| (*group == Group::Relay, *group == Group::Unread, *reason)).collect();
    for reason in [0, 6, 7, 8, 9, 10, 11, 12, 13, 14, 15, 17, 18] {
        assert!(seen.contains(&(true, false, reason)) && seen.contains(&(false, false, reason)), "{reason}");
    }
    assert!((1..=5).all(|reason| seen.contains(&(false, true, reason))));
    for side in [0, 1] {
        assert!(found.iter().zip(&history).filter(|(record, one)| record.side == side && one.1 == 0).count() >= 10);
    }
    assert!([0, 8192, 8193].iter().all(|&length| found.iter().any(|record| record.message.len() == length)));
    assert!(found.iter().filter(|record| record.message.starts_with(b"SIP/2.0 ")).count() >= 8);
}

#[test]
fn drawn_records_have_it_all() {
    for seed in 0..4 {
        let file = drawn_file(seed, 300);
        let (lines, read, end) = numbers_of(&report(&file));
        assert_eq!(read, 300 + records(&fixed_file()).0.len() as u64);
        let reasons: BTreeSet<u64> = lines.iter().flat_map(|line| line.pairs.iter().map(|pair| pair.0)).collect();
        assert!(reasons.len() == 17 && lines[0].came > 40 && lines[1].came > 100 && lines[2].came > 40, "{lines:?}");
        assert_eq!(end, 32 - seed % 2);
    }
    assert!(drawn_file(1, 300) == drawn_file(1, 300) && drawn_file(1, 300) != drawn_file(2, 300));
}
