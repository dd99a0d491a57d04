//! Responses (CR 1): status lines and statuses, the methods of CSeq, every column, reasons that meet, sizes, and messages drawn at random.

use super::columns::{bodies, one_column};
use super::sizes::{filled, room_edges};
use super::strewn::{damage, strewn};
use super::{both_sides, untrusted, Case, ROOM};
use crate::drafts::{Dice, Draft, COLUMN_METHODS, RESPONSES};

const MANY: usize = 250;

pub fn cases() -> Vec<Case> {
    let mut all = both_sides(RESPONSES.flat_map(|column| [Draft::least(column).bytes(), Draft::full(column).bytes()]).collect());
    let groups = [statuses(), status_lines(), each_byte(), sequence_numbers(), methods(), two_sequence_numbers(), missing(), precedence(), in_message_order(), cut_and_folded()];
    all.extend(groups.into_iter().flat_map(untrusted));
    all.extend(untrusted(RESPONSES.flat_map(one_column).collect()));
    all.extend(untrusted(RESPONSES.flat_map(bodies).collect()));
    all.extend(both_sides(never_masked()));
    all.extend(untrusted(field_counts()));
    all.extend(untrusted(lengths()));
    all.extend(rooms());
    all.extend(drawn());
    all
}

/// The edges of what a status may be, of Contact's duty, and of what a method needs.
fn statuses() -> Vec<Vec<u8>> {
    let mut out = Vec::new();
    for code in ["000", "099", "100", "180", "199", "200", "299", "300", "486", "699", "700", "999"] {
        for method in ["INVITE", "CANCEL", "BYE", "OPTIONS", "ACK", "INFO"] {
            let draft = Draft::short_response(code, method);
            out.push(draft.bytes());
            out.push(draft.without(7).bytes());
        }
        out.push(Draft::short_response(code, "INVITE").without(6).bytes());
        out.push(Draft::bare_status(code, "x").bytes());
        out.push(Draft::full(8).status(code, b"x").with(6, b"1 INVITE").bytes());
    }
    out
}

/// The status line, the rest of the message being good.
fn status_lines() -> Vec<Vec<u8>> {
    let after = &Draft::short_response("200", "BYE").bytes()["SIP/2.0 200 \r\n".len()..];
    let lines = [
        "SIP/2.0 200 OK\r\n", "sip/2.0 200 OK\r\n", "sIp/2.0 200 OK\r\n", "Sip/2.0 200 \r\n", "SIP/2.0 200 \r\n", "SIP/2.0 200  \r\n", "SIP/2.0 200 \t\r\n", "SIP/2.0 200  OK \r\n",
        "SIP/2.0 200 \tOK\t\r\n", "SIP/2.0 200 two  words\r\n", "SIP/2.0 200 SIP/2.0\r\n", "SIP/2.0 200 a SIP/2.0\r\n", "SIP/2.0 200 BYE sip:h SIP/2.0\r\n", "SIP/2.0 200 200\r\n",
        "SIP/2.0 200 \u{e9}\u{ff}\r\n", "SIP/2.0 200 \"<>;:\\\r\n", "SIP/2.0 200\r\n", "SIP/2.0 200OK\r\n", "SIP/2.0 200\tOK\r\n", "SIP/2.0  200 OK\r\n", "SIP/2.0\t200 OK\r\n",
        "SIP/2.0 \r\n", "SIP/2.0\r\n", "SIP/2.0  \r\n", "SIP/2.0   \r\n", "SIP/2.0 OK\r\n", "SIP/2.0 OK 200\r\n", "SIP/2.0 2 OK\r\n", "SIP/2.0 20 OK\r\n", "SIP/2.0 2000 OK\r\n",
        "SIP/2.0 0200 OK\r\n", "SIP/2.0 2x0 OK\r\n", "SIP/2.0 +20 OK\r\n", "SIP/2.0 -20 OK\r\n", "SIP/2.0 2.0 OK\r\n", "SIP/2.0 20\u{b2} OK\r\n", "SIP/2.0 4294967496 OK\r\n",
        " SIP/2.0 200 OK\r\n", "SIP/2.1 200 OK\r\n", "SIP/3.0 200 OK\r\n", "SIP/2.00 200 OK\r\n", "SIP/2. 200 OK\r\n", "SIP/2,0 200 OK\r\n", "SIP 200 OK\r\n", "SIPS/2.0 200 OK\r\n",
        "HTTP/1.1 200 OK\r\n", "SIP/2.0 SIP/2.0 SIP/2.0\r\n", "SIP/2.0 sip:h SIP/2.0\r\n", "200 OK SIP/2.0\r\n", "SIP sip:h SIP/2.0\r\n", "BYE 200 SIP/2.0\r\n", "SIP/2.0 200 OK\n",
        "SIP/2.0 200 OK\r", "SIP/2.0 200 OK\r\r\n", "SIP/2.0 200 O\rK\r\n", "SIP/2.0 200 O\nK\r\n", "SIP/2.0 200 OK\r\n \r\n", "SIP/2.0 200 O\r\n K\r\n", "SIP/2.0\r\n 200 OK\r\n",
        "\r\nSIP/2.0 200 OK\r\n", "SIP/2.0 200 OK\r\n\r\n", "SIP/2.0 200 OK",
    ];
    let mut out: Vec<Vec<u8>> = lines.iter().map(|line| [line.as_bytes(), after].concat()).collect();
    out.extend(lines.iter().take(2).map(|line| line.as_bytes().to_vec()));
    for byte in [0, 9, 10, 13, 31, 32, 47, 48, 49, 54, 55, 57, 58, 65, 127, 128, 178, 255] {
        for (front, back) in [("SIP/2.0 ", "00 x\r\n"), ("SIP/2.0 1", "0 x\r\n"), ("SIP/2.0 10", " x\r\n"), ("SIP/2.0", "200 x\r\n"), ("SIP/2.0 200", "x\r\n"), ("SIP/2", "0 200 x\r\n")] {
            out.push([front.as_bytes(), &[byte], back.as_bytes(), after].concat());
        }
    }
    out
}

/// Every byte in the phrase and behind the method, and those that could part a number from its method.
fn each_byte() -> Vec<Vec<u8>> {
    let bye = Draft::short_response("200", "BYE");
    let mut out = Vec::new();
    for byte in 0..=255u8 {
        let put = |front: &str, back: &str| [front.as_bytes(), &[byte], back.as_bytes()].concat();
        out.push(bye.status("404", &put("a", "")).bytes());
        out.push(bye.with(6, &put("1 BYE", "")).bytes());
        if byte <= 33 || byte >= 126 && byte.is_multiple_of(16) {
            out.push(bye.with(6, &put("1", "BYE")).bytes());
        }
    }
    out
}

/// CSeq's number and what stands around it.
fn sequence_numbers() -> Vec<Vec<u8>> {
    let values = [
        "", " ", "1", "1 ", "BYE", " BYE", "1BYE", "1 BYE", "1  BYE", "1\tBYE", "1 \t BYE", "1\r\n BYE", "\r\n 1 BYE\r\n ", "1 BYE x", "1 BYE;x", "1 BYE,", "1, BYE", "1 B YE", "1 B\r\n YE",
        "1 \"BYE\"", "1 (", "1 BYE\u{80}", "1 1", "1 1 BYE", "0 BYE", "00 BYE", "000000000 BYE", "0000000001 BYE", "00000000001 BYE", "00000000000 BYE", "2147483646 BYE", "2147483647 BYE",
        "2147483648 BYE", "2147483649 BYE", "2147483650 BYE", "2200000000 BYE", "3000000000 BYE", "4294967295 BYE", "4294967296 BYE", "4294967297 BYE", "9999999999 BYE", "10000000000 BYE",
        "02147483647 BYE", "12345678901 BYE", "18446744073709551617 BYE", "-1 BYE", "+1 BYE", "1. BYE", "1a BYE", "a BYE", "0x1 BYE", "1\u{a0}BYE", "1 \u{a0}BYE", "1\u{b2} BYE",
    ];
    values.iter().map(|value| Draft::short_response("200", "BYE").with(6, value.as_bytes()).bytes()).collect()
}

/// Methods that are known, nearly known and unknown, with fields that INVITE and CANCEL read otherwise.
fn methods() -> Vec<Vec<u8>> {
    let long: Vec<String> = [31, 32, 33, 64, 300].map(|length| "M".repeat(length)).to_vec();
    let names = [
        "INVITE", "BYE", "CANCEL", "OPTIONS", "ACK", "INFO", "PRACK", "UPDATE", "REGISTER", "SUBSCRIBE", "invite", "Invite", "INVITe", "bye", "cancel", "Options", "ack", "re", "INVIT", "INVITEX",
        "XINVITE", "BY", "BYEX", "CANCE", "CANCELX", "OPTION", "OPTIONSX", "-.!%*_+`'~", "1", "INVITE/BYE", "SIP/2.0",
    ];
    let mut out = Vec::new();
    for name in names.into_iter().chain(long.iter().map(String::as_str)) {
        let cseq = format!("1 {name}");
        for column in RESPONSES {
            out.push(Draft::full(column).with(6, cseq.as_bytes()).bytes());
        }
        out.push(Draft::least(8).with(6, cseq.as_bytes()).bytes());
        out.push(Draft::least(8).with(6, cseq.as_bytes()).and("Contact", b"").and("Require", b";").bytes());
    }
    out
}

/// The first CSeq decides: good or bad, before or behind another one.
fn two_sequence_numbers() -> Vec<Vec<u8>> {
    let values = ["1 INVITE", "2 CANCEL", "1 BYE", "1 ACK", "x", "", "2147483648 BYE"];
    let mut out = Vec::new();
    for one in values {
        for two in values {
            let draft = Draft::short_response("200", "INVITE").with(6, one.as_bytes()).and("cseq", two.as_bytes());
            out.push(draft.bytes());
            out.push(draft.and("m", b"").status("700", b"").bytes());
        }
    }
    // Names that only look like CSeq, before it.
    for name in ["CSeqs", "CSe", "C-Seq", "Seq", "X"] {
        let mut draft = Draft::short_response("200", "INVITE").and(name, b"1 ACK");
        draft.fields.rotate_right(1);
        out.push(draft.bytes());
    }
    out
}

/// Every number as the lowest one missing, and every missing count, with and without a body.
fn missing() -> Vec<Vec<u8>> {
    let mut out = Vec::new();
    for (column, body) in RESPONSES.flat_map(|column| [(column, &b""[..]), (column, b"x")]) {
        let (mut rising, mut falling) = (Draft::least(column).carrying(body), Draft::least(column).carrying(body));
        for number in [1, 3, 4, 5, 7] {
            out.push(Draft::least(column).carrying(body).without(number).bytes());
            rising = rising.without(number);
            out.push(rising.bytes());
        }
        for number in [7, 5, 4, 3, 1] {
            falling = falling.without(number);
            out.push(falling.bytes());
        }
        out.push(Draft::bare_status("200", "OK").and("CSeq", format!("1 {}", COLUMN_METHODS[column]).as_bytes()).carrying(body).bytes());
    }
    out
}

/// "first that applies": messages with one fault, and with two at once.
fn precedence() -> Vec<Vec<u8>> {
    type Fault = fn(&mut Draft);
    let faults: [Fault; 10] = [
        |d| *d = d.status("099", b"x"),
        |d| *d = d.status("700", b""),
        |d| *d = d.without(6),
        |d| d.set(6, b"1 ACK"),
        |d| d.add("f", b"<sip:h>;tag=1"),
        |d| d.add("CSeq", b""),
        |d| d.set(5, b"x y"),
        |d| d.set(14, b";"),
        |d| d.set(8, b"9"),
        |d| *d = d.without(1),
    ];
    let mut out = Vec::new();
    for column in RESPONSES {
        for (i, first) in faults.iter().enumerate() {
            let mut one = Draft::least(column);
            first(&mut one);
            out.push(one.bytes());
            for second in &faults[i + 1..] {
                let mut two = one.clone();
                second(&mut two);
                out.push(two.bytes());
            }
        }
    }
    out
}

/// Reasons 9 and 10 name the first in message order, not the lowest number.
fn in_message_order() -> Vec<Vec<u8>> {
    let mut out = Vec::new();
    for column in RESPONSES {
        let mut backwards = Draft::full(column);
        backwards.fields.reverse();
        out.push(backwards.bytes());
        for (a, b) in [(3, 5), (6, 3), (4, 8), (7, 9), (2, 4), (14, 7), (18, 11)] {
            let mut again = backwards.clone();
            for number in [a, b] {
                let field = backwards.fields.iter().find(|field| field.number() == number).cloned();
                again.fields.extend(field);
            }
            out.push(again.bytes());
            if a != 6 {
                out.push(backwards.with(a, b"").with(b, b"").bytes());
            }
        }
    }
    out
}

/// Every front part of a short response, and a fold put between any two of its bytes.
fn cut_and_folded() -> Vec<Vec<u8>> {
    let mut draft = Draft::short_response("200", "INVITE").and("Require", b"x, y").carrying(b"abc");
    draft.add("c", b"z");
    let message = draft.bytes();
    let mut out: Vec<Vec<u8>> = (0..message.len()).map(|length| message[..length].to_vec()).collect();
    for place in 0..message.len() {
        let fold: &[u8] = if place % 3 == 0 { b" \r\n \t\r\n " } else { b"\r\n " };
        out.push([&message[..place], fold, &message[place..]].concat());
    }
    out
}

/// What would be masked, refused or counted down in a request: Privacy, an identity, a tag that we lack, Max-Forwards of 0.
fn never_masked() -> Vec<Vec<u8>> {
    let mut out = Vec::new();
    for column in RESPONSES {
        for code in ["180", "200", "486"] {
            let full = Draft::full(column).status(code, b"x").with(16, b"id");
            out.push(full.bytes());
            out.push(full.with(2, b"0").with(14, b"lacking, timer").bytes());
            out.push(full.with(3, b"\"A\" <sip:+33187654321@a.example;tag=no>\r\n ; TAG = z;x").with(15, b"<tel:+33187654321>").bytes());
        }
    }
    out
}

fn field_counts() -> Vec<Vec<u8>> {
    let mut out = Vec::new();
    for many in [95, 96, 97] {
        for column in RESPONSES {
            out.push(filled(&Draft::least(column), "X", b"y", many).bytes());
            out.push(filled(&Draft::least(column), "v", b"y", many).bytes());
        }
        // Over 96 fields comes before the status and before the method; bad shape comes before all three.
        out.push(filled(&Draft::bare_status("700", ""), "k", b"", many).bytes());
        out.push(filled(&Draft::bare_status("200", ""), "k", b"", many).bytes());
        let mut bad = filled(&Draft::bare_status("099", ""), "X", b"", many).bytes();
        bad.truncate(bad.len() - 2);
        out.push(bad);
    }
    out
}

/// Messages of exact lengths: by the phrase, by a body, by an ignored field.
fn lengths() -> Vec<Vec<u8>> {
    let mut out = Vec::new();
    for length in [8191, 8192, 8193] {
        let plain = Draft::least(6).and("Content-Type", b"x");
        let spare = length - plain.bytes().len();
        out.push(plain.status("200", &vec![b'p'; spare + 2]).bytes());
        out.push(plain.carrying(&vec![b'b'; spare]).bytes());
        if length > 8191 {
            out.push(plain.status("700", &vec![b' '; spare + 2]).bytes());
            out.push(plain.and("Route", &vec![b'r'; spare - "Route: \r\n".len()]).bytes());
        }
    }
    out
}

/// The room at the edge of the length needed.
fn rooms() -> Vec<Case> {
    let mut all: Vec<Case> = RESPONSES.flat_map(|column| [Draft::least(column).bytes(), Draft::full(column).bytes()]).flat_map(room_edges).collect();
    all.extend(room_edges(Draft::short_response("699", "OPTIONS").status("699", b" a phrase ").bytes()));
    let growing = filled(&Draft::short_response("200", "INVITE").and("l", b"0").and("c", b"x"), "k", b"", 96);
    all.extend(room_edges(growing.bytes()));
    all.extend(room_edges(growing.without(8).carrying(&[b'x'; 7600]).bytes()));
    // A refusal does not look at the room.
    for room in [0, 1, 100] {
        for message in [Draft::least(6).without(7), Draft::least(6).without(6), Draft::least(6).status("700", b"")] {
            all.push(Case { side: 1, room, message: message.bytes() });
        }
        all.push(Case { side: 2, room, message: Draft::least(6).bytes() });
    }
    all
}

/// Drawn at random, from a fixed seed: several fields and faults at once, and damaged bytes.
fn drawn() -> Vec<Case> {
    let mut dice = Dice::new(2026);
    (0..MANY).map(|_| one(&mut dice)).collect()
}

fn one(dice: &mut Dice) -> Case {
    let column = RESPONSES.start + dice.below(RESPONSES.len());
    let plain = if dice.one_in(2) { Draft::least(column) } else { Draft::full(column) };
    let code = *dice.pick(&["200", "200", "100", "180", "199", "299", "300", "404", "699", "700", "099"]);
    let mut draft = strewn(dice, &plain).status(code, dice.pick(&["OK", "", " a\tb "]).as_bytes());
    if dice.one_in(6) {
        draft.set(6, dice.pick(&["1 INVITE", "1 CANCEL", "7 OPTIONS", "1 ACK", "x"]).as_bytes());
    }
    let mut message = draft.bytes();
    if dice.one_in(3) {
        damage(dice, &mut message);
    }
    let room = if dice.one_in(20) { dice.below(600) as u16 } else { ROOM };
    Case { side: dice.below(2) as u8, room, message }
}
