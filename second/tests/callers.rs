//! The digits cannot show (CR 5): two withheld INVITEs on side 1, "equal except for the values of P-Asserted-Identity and the part of From
//! outside its tag parameter", with "the same tag": "The whole answer and the buffer afterwards are then the same."
//!
//! All callers of a list are held to one answer; so any two of them, in either order, have the same.
mod common;
use common::*;
use second::recorded::callers::pairs;
use std::collections::BTreeSet;

/// A value as it is written, line breaks as LF, and its canonical form.
type Written = (&'static str, &'static str);

/// From with the tag q7.
const FROMS: [Written; 22] = [
    ("<sip:+33187654321@relay.example>;tag=q7", "<sip:+33187654321@relay.example>;tag=q7"),
    ("<sip:+33611111111@relay.example>;tag=q7", "<sip:+33611111111@relay.example>;tag=q7"),
    ("sip:+33187654321@h;tag=q7", "sip:+33187654321@h;tag=q7"),
    ("sip:h;tag=q7", "sip:h;tag=q7"),
    ("tel:+33187654321;tag=q7", "tel:+33187654321;tag=q7"),
    ("<TEL:112;x=y>;TAG=q7", "<TEL:112;x=y>;TAG=q7"),
    ("\"Alice\" <sip:a@h>;tag=q7", "\"Alice\" <sip:a@h>;tag=q7"),
    ("Alice B\t<sip:a@h>;tag=q7", "Alice B\t<sip:a@h>;tag=q7"),
    ("\"Doe, J; tag=no <sip:x>\" <sip:a@h;tag=no>;tag=q7", "\"Doe, J; tag=no <sip:x>\" <sip:a@h;tag=no>;tag=q7"),
    ("\"\\\"\\\\\"<sip:h>;tag=q7", "\"\\\"\\\\\"<sip:h>;tag=q7"),
    ("\"\" <sip:h:5060>;x=\"tag=no\";Tag=q7;y", "\"\" <sip:h:5060>;x=\"tag=no\";Tag=q7;y"),
    ("<sip:a@h>\t;\ttAg\t=\tq7", "<sip:a@h>\t;\ttAg\t=\tq7"),
    ("\n <sip:a@h>\n ;\n tag\n =\n q7\n ", "<sip:a@h> ; tag = q7"),
    ("\"A\n\t\n B\"\n\t<sip:a@h>;tag=q7;z=1", "\"A B\" <sip:a@h>;tag=q7;z=1"),
    (" \t <sip:b@h>;tag=q7 \t ", "<sip:b@h>;tag=q7"),
    ("<sip:a;tag=in@h>;xtag=1;tag=q7;tagx=2", "<sip:a;tag=in@h>;xtag=1;tag=q7;tagx=2"),
    ("sip:a;tag=in@h;tag=q7", "sip:a;tag=in@h;tag=q7"),
    ("<SIP:%41&=+$,;?/-_.!~*'()@h:65535;;=%41>;tag=q7", "<SIP:%41&=+$,;?/-_.!~*'()@h:65535;;=%41>;tag=q7"),
    ("tel:1 ; tag=q7 ; a = \"b\" ; c", "tel:1 ; tag=q7 ; a = \"b\" ; c"),
    ("-.!%*_+`'~ <sip:-;[]/:&+$>;tag=q7", "-.!%*_+`'~ <sip:-;[]/:&+$>;tag=q7"),
    ("\"\u{e9}\" <sip:a@h>;tag-=x;tag=q7", "\"\u{e9}\" <sip:a@h>;tag-=x;tag=q7"),
    ("tag\n tag <sip:a@h>;a;b;c;d;tag=q7", "tag tag <sip:a@h>;a;b;c;d;tag=q7"),
];

const IDENTITIES: [Written; 20] = [
    ("<sip:+33187654321@relay.example>", "<sip:+33187654321@relay.example>"),
    ("<sip:+33611111111@relay.example>", "<sip:+33611111111@relay.example>"),
    ("sip:+33187654321@h", "sip:+33187654321@h"),
    ("sip:+1234567@h:5060", "sip:+1234567@h:5060"),
    ("tel:+33187654321", "tel:+33187654321"),
    ("TEL:+123456789012345", "TEL:+123456789012345"),
    ("<tel:+1234567>", "<tel:+1234567>"),
    ("\"Alice\" <sip:+33187654321@h>", "\"Alice\" <sip:+33187654321@h>"),
    ("Alice B\t<tel:+33187654321>", "Alice B\t<tel:+33187654321>"),
    ("\"Doe, J <sip:x>;tag=no\" <sip:+33187654321@h;user=phone>", "\"Doe, J <sip:x>;tag=no\" <sip:+33187654321@h;user=phone>"),
    ("\"\\\"\\\\\"<sip:+33187654321@h>", "\"\\\"\\\\\"<sip:+33187654321@h>"),
    ("<sip:+33187654321@h;tag=no;x=%41>", "<sip:+33187654321@h;tag=no;x=%41>"),
    ("\n <sip:+33187654321@1.2.3.4>\n ", "<sip:+33187654321@1.2.3.4>"),
    ("\"A\n\t\n B\"\n <tel:+33187654322>", "\"A B\" <tel:+33187654322>"),
    (" \tsip:+33187654322@h \t", "sip:+33187654322@h"),
    ("<SIP:+99999999@-:00001;>", "<SIP:+99999999@-:00001;>"),
    ("tag <sip:+33187654321@h>", "tag <sip:+33187654321@h>"),
    ("A\n B\n\tC <sip:+12345678@h>", "A B C <sip:+12345678@h>"),
    ("\"\u{e9}\" <sip:+33187654323@h>", "\"\u{e9}\" <sip:+33187654323@h>"),
    ("-.!%*_+`'~<tel:+33187654324>", "-.!%*_+`'~<tel:+33187654324>"),
];

const INITIAL: &str = "INVITE sip:+33123456789@gw.example SIP/2.0
v: x
Max-Forwards: 70
f:{from}
t: <sip:+33123456789@gw.example>
i: 9x@relay.example
CSeq: 1 INVITE
m: <sip:relay.example>
Allow: INVITE, ACK, BYE
P-Asserted-Identity:{identity}
Privacy: id
l: 0

";

/// What an initial one gives on side 1.
const HIDDEN_INITIAL: &str = "INVITE sip:+33123456789@gw.example SIP/2.0
Via: x
Max-Forwards: 69
From: \"Anonymous\" <sip:anonymous@anonymous.invalid>;tag=q7
To: <sip:+33123456789@gw.example>
Call-ID: 9x@relay.example
CSeq: 1 INVITE
Contact: <sip:relay.example>
Allow: INVITE, ACK, BYE
Privacy: id
Content-Length: 0

";

const LATER: &str = "INVITE sip:h SIP/2.0
Privacy: none ; User
P-Asserted-Identity:{identity}
m: <sip:relay.example>
CSeq: 2 INVITE
i: 9x@relay.example
t: <sip:b@h>;tag=7
From :{from}
Max-Forwards: 9
v: x
c: a/b
l: 3

abcd";

const HIDDEN_LATER: &str = "INVITE sip:h SIP/2.0
Privacy: none ; User
Contact: <sip:relay.example>
CSeq: 2 INVITE
Call-ID: 9x@relay.example
To: <sip:b@h>;tag=7
From: \"Anonymous\" <sip:anonymous@anonymous.invalid>;tag=q7
Max-Forwards: 8
Via: x
Content-Type: a/b
Content-Length: 3

abc";

fn message(text: &str, from: &str, identity: &str) -> Vec<u8> {
    crlf(&text.replace("{from}", from).replace("{identity}", identity))
}

/// The text with each From and each identity.
fn every_caller(text: &str) -> Vec<Vec<u8>> {
    FROMS.iter().flat_map(|(from, _)| IDENTITIES.iter().map(|(identity, _)| message(text, from, identity))).collect()
}

/// Every caller has this answer and output on side 1.
fn all_give(text: &str, room: usize, numbers: [u64; 5], output: &[u8]) {
    for message in every_caller(text) {
        let (own, out) = run_in(&message, 1, room);
        assert_eq!(own, numbers, "room {room}:\n{}", String::from_utf8_lossy(&message));
        assert!(out == output, "room {room}:\n{}", String::from_utf8_lossy(&message));
    }
}

#[test]
fn any_two_callers_go_out_alike_whatever_the_room() {
    for (text, hidden) in [(INITIAL, HIDDEN_INITIAL), (LATER, HIDDEN_LATER)] {
        let output = crlf(hidden);
        let need = output.len();
        for room in [9216, need + 1, need] {
            all_give(text, room, [0, 0, 0, 0, need as u64], &output);
        }
        for room in [need - 1, 100, 1, 0] {
            all_give(text, room, [16, 500, need as u64, 0, 0], b"");
        }
    }
}

#[test]
fn a_later_invite_without_an_identity() {
    let output = crlf(HIDDEN_LATER);
    all_give(&LATER.replace("P-Asserted-Identity:{identity}\n", ""), 9216, [0, 0, 0, 0, output.len() as u64], &output);
}

#[test]
fn any_two_callers_are_refused_alike() {
    let line = "INVITE sip:+33123456789@gw.example SIP";
    let crowd = format!("{}v:", "k:\n".repeat(86));
    let faults: [(&str, &str, [u64; 5]); 17] = [
        ("v:", &crowd, [5, 0, 0, 0, 0]),
        (line, "INVITE http:x SIP", [7, 416, 0, 0, 0]),
        (line, "INVITE sip: SIP", [8, 400, 0, 0, 0]),
        ("t:", "From:{from}\nt:", [9, 400, 3, 0, 0]),
        ("P-Asserted-Identity:{identity}", "P-Asserted-Identity: <tel:+1234567>\nP-Asserted-Identity: tel:+1234568", [10, 400, 15, 0, 0]),
        ("v:", "privacy: user\nv:", [9, 400, 16, 0, 0]),
        ("Max-Forwards: 70", "Max-Forwards: 256", [10, 400, 2, 0, 0]),
        ("t: <", "t: <<", [10, 400, 4, 0, 0]),
        ("i: 9x", "i: 9 x", [10, 400, 5, 0, 0]),
        ("l: 0", "l: 1", [11, 400, 0, 0, 0]),
        ("v: x\n", "", [12, 400, 1, 1, 0]),
        ("i: 9x@relay.example\nCSeq: 1 INVITE\n", "", [12, 400, 5, 2, 0]),
        ("f:{from}\n", "", [12, 400, 3, 1, 0]),
        ("P-Asserted-Identity:{identity}\n", "", [12, 400, 15, 1, 0]),
        ("Max-Forwards: 70", "Max-Forwards: 0", [13, 483, 0, 0, 0]),
        ("m:", "Require: timer,100rel, x\nm:", [14, 420, 3, 0, 0]),
        (line, "INVITE sip:+331234@gw.example SIP", [15, 484, 0, 0, 0]),
    ];
    for (old, new, numbers) in faults {
        assert!(INITIAL.contains(old), "{old}");
        for room in [9216, 0] {
            all_give(&INITIAL.replacen(old, new, 1), room, numbers, b"");
        }
    }
}

/// Each caller goes out as it came where nobody is hidden, and no two of them alike.
fn all_are_shown(text: &str, hidden: &str, side: u64) {
    let mut seen = BTreeSet::new();
    let shown = hidden.replace("\"Anonymous\" <sip:anonymous@anonymous.invalid>;tag=q7", "{from}");
    for (from, canonical_from) in FROMS {
        for (identity, canonical_identity) in IDENTITIES {
            let out = run(&message(text, from, identity), side).1;
            assert!(out == message(&shown, canonical_from, canonical_identity), "{from}, {identity}");
            seen.insert(out);
        }
    }
    assert_eq!(seen.len(), FROMS.len() * IDENTITIES.len());
}

#[test]
fn where_nobody_is_hidden_any_two_callers_differ() {
    let initial = HIDDEN_INITIAL.replace("Privacy: id", "P-Asserted-Identity: {identity}\nPrivacy: id");
    let later = HIDDEN_LATER.replace("Contact", "P-Asserted-Identity: {identity}\nContact");
    all_are_shown(INITIAL, &initial, 0);
    all_are_shown(LATER, &later, 0);
    let [other_token, other_tokens] = ["Privacy: identity", "Privacy: none ; Users"];
    all_are_shown(&INITIAL.replace("Privacy: id", other_token), &initial.replace("Privacy: id", other_token), 1);
    all_are_shown(&LATER.replace("Privacy: none ; User", other_tokens), &later.replace("Privacy: none ; User", other_tokens), 1);
    all_are_shown(&INITIAL.replace("Privacy: id\n", ""), &initial.replace("Privacy: id\n", ""), 1);
}

#[test]
fn tags_of_1_to_64_bytes() {
    for tag in ["1".to_string(), "-.!%*_+`'~".to_string(), "Q7".to_string(), "t".repeat(63), "t".repeat(64)] {
        let output = crlf(&HIDDEN_INITIAL.replace("q7", &tag));
        for (from, _) in FROMS {
            let one = message(INITIAL, &from.replace("q7", &tag), IDENTITIES[0].0);
            assert!(run(&one, 1).1 == output, "{from} {tag}");
        }
    }
}

/// An initial INVITE with so many bytes, by a piece again and again in From.
fn of_length(length: usize, front: &str, piece: &str, back: &str) -> Vec<u8> {
    let with = |times: usize| message(INITIAL, &format!("{front}{}{back}", piece.repeat(times)), IDENTITIES[0].0);
    let [none, one] = [0, 1].map(|times| with(times).len());
    let mut out = with((length - none) / (one - none));
    let colon = out.windows(4).position(|part| part == b"\r\nf:").expect("From") + 4;
    let blanks = vec![b' '; length - out.len()];
    out.splice(colon..colon, blanks);
    out
}

#[test]
fn up_to_8192_bytes_the_length_does_not_show() {
    let output = crlf(HIDDEN_INITIAL);
    let forms = [("\"", "\\\"", "\" <sip:h>;tag=q7"), ("<sip:h;", "%41", ">;tag=q7"), ("<sip:h>;tag=q7", ";a=\"b\"", ""), ("x", " y", "<sip:h>;tag=q7"), ("<sip:h>", "\n\t", ";tag=q7")];
    for (front, piece, back) in forms {
        for length in [500, 2048, 8191, 8192] {
            let one = of_length(length, front, piece, back);
            assert_eq!(one.len(), length);
            assert!(run(&one, 1).1 == output, "{length} {piece}");
        }
        // One byte more is the premise broken: the length alone decides.
        assert_eq!(numbers(&of_length(8193, front, piece, back)), [2, 0, 0, 0]);
    }
}

/// Identities that CR 6 allows, in one field: one or two, in either order.
const ONE_FIELD: [&str; 8] = [
    "<sip:+33187654321@relay.example>", "tel:+33611111111", "<sip:+33187654321@h>, <tel:+33187654321>", "tel:+1234567,sip:+12345678@h:5060", "\"Doe, J\" <TEL:+33187654322>\t,\tA B <sip:+33187654322@h;user=phone>",
    "\n \"A\n B\" <sip:+123456789012345@h>\n ,\n\t<tel:+1234567>\n ", "SIP:+33187654323@h ,tel:+33187654324", "\", <sip:x>\"<tel:+33187654325>,\"\\\"\" <sip:+33187654325@h>",
];

/// The same in two fields.
const TWO_FIELDS: [[&str; 2]; 6] = [
    ["<sip:+33187654321@relay.example>", "<tel:+33187654321>"], ["<tel:+33187654321>", "<sip:+33611111111@relay.example>"], ["sip:+1234567@h", "\n TEL:+123456789012345\n "],
    ["\"Doe, J\" <tel:+33187654322>", "SIP:+33187654322@h:5060"], ["A B\t<sip:+33187654323@h;x=y>", "\"\\\"\"<tel:+33187654323>"], ["tel:+33187654324", "\"A\n B\"\n <sip:+33187654324@h>"],
];

/// The text with each of these lists of identities, one for each field, and every third From.
fn asserting<const FIELDS: usize>(text: &str, lists: &[[&str; FIELDS]]) -> Vec<Vec<u8>> {
    let with = |list: &[&str; FIELDS], from: &str| {
        let text = list.iter().fold(text.to_string(), |text, identity| text.replacen("{identity}", identity, 1));
        message(&text, from, "")
    };
    lists.iter().flat_map(|list| FROMS.iter().step_by(3).map(move |(from, _)| with(list, from))).collect()
}

/// All of them have one answer and buffer on side 1, whatever the room; the buffers on side 0 are counted.
fn all_alike(messages: &[Vec<u8>]) -> ([u64; 5], usize) {
    let need = run(&messages[0], 1).0[4] as usize;
    for room in [9216, need, need.saturating_sub(1), 0] {
        let first = run_in(&messages[0], 1, room);
        for message in messages {
            assert!(run_in(message, 1, room) == first, "room {room}:\n{}", String::from_utf8_lossy(message));
        }
    }
    let shown: BTreeSet<Vec<u8>> = messages.iter().map(|message| run(message, 0).1).collect();
    (run(&messages[0], 1).0, shown.len())
}

/// The text with a second P-Asserted-Identity field at this place of its header.
fn with_second_field(text: &str, before: &str) -> String {
    assert!(text.contains(before));
    text.replacen(before, &format!("p-asserted-identity :{{identity}}\n{before}"), 1)
}

#[test]
fn identities_may_differ_in_number_order_and_scheme() {
    for (text, hidden) in [(INITIAL, HIDDEN_INITIAL), (LATER, HIDDEN_LATER)] {
        let need = crlf(hidden).len() as u64;
        let one = asserting(text, &ONE_FIELD.map(|identity| [identity]));
        assert_eq!(all_alike(&one), ([0, 0, 0, 0, need], one.len()));
        for before in ["v:", "P-Asserted-Identity:", "Privacy:", "l:"] {
            let two = asserting(&with_second_field(text, before), &TWO_FIELDS);
            assert_eq!(all_alike(&two), ([0, 0, 0, 0, need], two.len()), "{before}");
            assert!(run(&two[0], 1).1 == crlf(hidden));
        }
    }
}

#[test]
fn with_two_identities_refused_alike() {
    for (old, new, numbers) in [
        ("t: <", "t: <<", [10, 400, 4, 0, 0]),
        ("l: 0", "l: 1", [11, 400, 0, 0, 0]),
        ("v: x\n", "", [12, 400, 1, 1, 0]),
        ("Max-Forwards: 70", "Max-Forwards: 0", [13, 483, 0, 0, 0]),
        ("m:", "Require: x\nm:", [14, 420, 1, 0, 0]),
        ("i:", "Privacy: none\ni:", [9, 400, 16, 0, 0]),
    ] {
        let text = INITIAL.replacen(old, new, 1);
        assert_eq!(all_alike(&asserting(&text, &ONE_FIELD.map(|identity| [identity]))).0, numbers, "{new}");
        assert_eq!(all_alike(&asserting(&with_second_field(&text, "l:"), &TWO_FIELDS)).0, numbers, "{new}");
    }
}

#[test]
fn the_same_identities_need_not_be_allowed() {
    let lists = [["tel:+1234567", "tel:+1234567"], ["", ""], ["sip:+1234567@h", ","], ["sip:+1234567@h,tel:+1234567", "tel:+1234567"]];
    for list in lists {
        assert_eq!(all_alike(&asserting(&with_second_field(INITIAL, "i:"), &[list])).0, [10, 400, 15, 0, 0], "{list:?}");
    }
    // Three fields are never allowed, since each has an identity or is malformed.
    let three = with_second_field(&with_second_field(INITIAL, "i:"), "l:");
    assert_eq!(all_alike(&asserting(&three, &[["sip:+1234567@h", "tel:+1234567", "tel:+1234568"]])).0, [10, 400, 15, 0, 0]);
}

#[test]
fn identities_that_are_not_allowed_may_show() {
    let text = with_second_field(INITIAL, "l:");
    let answers = [["sip:+1234567@h", "tel:+1234567"], ["tel:+1234568", "tel:+1234567"]].map(|list| numbers(&asserting(&text, &[list])[0]));
    assert_eq!(answers, [[0, 0, 0, 0], [10, 400, 15, 0]]);
}

#[test]
fn another_tag_or_an_identity_in_one_message_alone_may_show() {
    let plain = message(INITIAL, FROMS[0].0, IDENTITIES[0].0);
    let tagged = message(INITIAL, &FROMS[0].0.replace("q7", "Q7"), IDENTITIES[0].0);
    let without = message(&INITIAL.replace("P-Asserted-Identity:{identity}\n", ""), FROMS[0].0, "");
    assert_eq!(run(&plain, 1).0, run(&tagged, 1).0);
    assert_ne!(run(&plain, 1).1, run(&tagged, 1).1);
    assert_eq!(numbers(&without), [12, 400, 15, 1]);
}

#[test]
fn recorded_pairs_are_answered_alike() {
    let all = pairs();
    assert!(all.len() >= 80);
    for [one, other] in &all {
        assert!(one != other);
        let need = run(one, 1).0[4] as usize;
        for room in [9216, need, need.saturating_sub(1), 0] {
            assert_eq!(run_in(one, 1, room), run_in(other, 1, room), "{}\n{}", String::from_utf8_lossy(one), String::from_utf8_lossy(other));
        }
    }
    let reasons: BTreeSet<u64> = all.iter().map(|[one, _]| run(one, 1).0[0]).collect();
    assert_eq!(reasons, BTreeSet::from([0, 5, 7, 8, 9, 10, 11, 12, 13, 14, 15]));
    let differ = all.iter().filter(|[one, other]| run(one, 0).1 != run(other, 0).1).count();
    assert!(differ >= 50, "{differ}");
}
