//! Two asserted identities (CR 6): one or two in one field and in two, in both orders, with blanks, folds and quoted commas around the comma;
//! a third one, two of one scheme, empty members and whatever else is malformed, in one field and over several; which field brings it, beside
//! other faults; on both sides, withheld and not; and where P-Asserted-Identity is ignored.

use super::{length_out, Case};
use crate::drafts::{Draft, Whole, REQUESTS, RESPONSES};

/// What {s} and {t} stand for below.
const SIP: &str = "<sip:+331876543@a>";
const TEL: &str = "<tel:+332222222>";

/// Values of one field that are allowed, and the digits of the calling number.
const IN_ONE_FIELD: [(&str, &str); 34] = [
    ("{s}", "+331876543"), ("{t}", "+332222222"), ("\", \" {t}", "+332222222"), ("\"{s}, {t}\"{s}", "+331876543"),
    ("{s},{t}", "+331876543"), ("{t},{s}", "+331876543"), ("{s} , {t}", "+331876543"), ("{t}\t,\t{s}", "+331876543"), ("{s} \t ,{t}", "+331876543"), ("{t},\t \t{s}", "+331876543"),
    ("{s}\r\n ,{t}", "+331876543"), ("{t},\r\n\t{s}", "+331876543"), ("{s} \r\n\t,\t\r\n  {t}", "+331876543"), ("{t}\r\n \r\n\t\r\n ,\r\n \r\n {s}", "+331876543"), ("\r\n {t}, {s}\r\n ", "+331876543"),
    ("sip:+331876543@a,tel:+332222222", "+331876543"), ("tel:+332222222,sip:+331876543@a", "+331876543"), ("tel:+332222222 ,\tsip:+331876543@1.2.3.4:5060", "+331876543"), ("sip:+331876543@-:1\r\n ,\r\n {t}", "+331876543"),
    ("\"Doe, J\" {s},\"Doe, J\" {t}", "+331876543"), ("\"<sip:+1111111@x>, \"{t} , \",\" {s}", "+331876543"), ("\"\\\", \\\\\" {s},\"\\\\\"{t}", "+331876543"), ("\"A,\r\n B\"\r\n {t}\r\n , \"C\r\n\t\" {s}", "+331876543"),
    ("A B\t{s},C{t}", "+331876543"), ("sip {t}, tel\r\n tel {s}", "+331876543"), ("tel:+332222222, -.!%*_+`'~ {s}", "+331876543"),
    ("<sip:+331876543@a;user=phone>,{t}", "+331876543"), ("{t},<sip:+331876543@a:65535;;=%2c;tel:+1111111>", "+331876543"),
    ("<SIP:+331876543@a>,<TEL:+332222222>", "+331876543"), ("tEl:+332222222,sIp:+331876543@a", "+331876543"),
    ("<sip:+1234567@h>,<tel:+123456789012345>", "+1234567"), ("tel:+1234567,sip:+123456789012345@h", "+123456789012345"), ("<tel:+331876543>,{s}", "+331876543"), ("\"\u{e9},\" {s},\"\" {t}", "+331876543"),
];

/// The same for two fields.
const IN_TWO_FIELDS: [([&str; 2], &str); 10] = [
    (["{s}", "{t}"], "+331876543"), (["{t}", "{s}"], "+331876543"), (["sip:+331876543@a", "tel:+332222222"], "+331876543"), (["TEL:+332222222", "SIP:+331876543@a:5060"], "+331876543"),
    (["\"Doe, J\" {t}", "\"Doe, J\" <sip:+331876543@a;user=phone>"], "+331876543"), (["\r\n {s}", "A\r\n B {t}\r\n "], "+331876543"), (["\"A\r\n\t\r\n B\"\r\n {t}", "\t\r\n sip:+331876543@a \t"], "+331876543"),
    (["<sip:+1234567@h>", "tel:+123456789012345"], "+1234567"), (["tel:+1234567", "\"<sip:+1111111@h>\" <sip:+123456789012345@h>"], "+123456789012345"), (["<tel:+331876543>", "{s}"], "+331876543"),
];

const MALFORMED: [&str; 58] = [
    // Empty members.
    ",", "{s},", ",{s}", "{t} ,\t", "\r\n ,{t}", "{s},,{t}", "{s}, ,{t}", "{s},{t},", ",{t},{s}", "{s}\r\n ,\r\n ", "{s},\r\n ,{t}",
    // Two of one scheme.
    "{s},{s}", "{t},{t}", "<SIP:+331876543@a> , sip:+331111111@b", "tel:+331876543,<TEL:+332222222>", "{s}\r\n ,\r\n {s}",
    // A third one.
    "{s},{t},{s}", "{t},{s},{t}", "{s},{s},{t}", "{s},{t},x", "{s},{t},\"\"", "{s}, {t}, {s}, {t}",
    // Something else between them, or nothing.
    "{s}{t}", "{s} {t}", "{s}\r\n {t}", "{s};{t}", "{s},;{t}", "{s};,{t}", "{s}/{t}", "{s}\u{a0},{t}", "{s}\",\"{t}",
    // A part is not of the old form.
    "{s},x", "x,{s}", "{s},<sip:h>", "<tel:332222222>,{s}", "{s},<tel:+123456>", "{s},<tel:+1234567890123456>", "<sip:+0234567@a>,{t}", "{s},<tel:+332222222;x>", "{s},<sips:+331876543@a>", "{s},<http:x>",
    "<sip:+331876543,1@a>,{t}", "<sip:+331876543\r\n @a>,{t}", "tel:+3322,2222", "{s},tel:+332222222>", "<sip:+331876543@a,{t}",
    // Parameters after an address, a tail after a bare URI.
    "{s};x,{t}", "{s},{t};x", "{t} ; x=y , {s}", "sip:+331876543@a;user=phone,{t}", "tel:+332222222;x=y,{s}", "{t},sip:+331876543@a;user=phone",
    // A comma outside a quoted name.
    "A, B {s}", "A, B {s},{t}", "\"A {s},{t}", "\"A\\\" {s},{t}", "{s},\"A\" B {t}", "{s},A sip:+331876543@a",
];

/// Fields that together are not allowed. The last one brings it.
const OVER_FIELDS: [&[&str]; 25] = [
    &["{s}", "{s}"], &["{t}", "{t}"], &["{s}", "SIP:+331111111@b"], &["TEL:+331876543", "{t}"], &["{s}", "{t}", "{s}"], &["{s}", "{t}", "{t}"], &["{t}", "{s}", "{s}"], &["{t}", "{s}", "{t}"],
    &["{s},{t}", "{t}"], &["{t},{s}", "{t}"], &["{s},{t}", "{s}"], &["{s}", "{s},{t}"], &["{s}", "{t},{s}"], &["{t}", "{s} , {t}"], &["{s},{t}", "{t},{s}"], &["{s},{t}", ""],
    &["{s}", ""], &["{t}", "x"], &["{s}", ","], &["{s}", "{t},"], &["{t}", ",{s}"], &["{s}", "{t}", ""], &["{s}", "{t}", ","], &["{s}", "{t};x"], &["{t}", "{s},{t},{s}"],
];

/// The first of the fields is malformed, whatever follows.
const FIRST_OF_FIELDS: [&[&str]; 6] = [&["", "{s}"], &["", ""], &["{s},", "{t}"], &["{s},{s}", "{t}"], &["x", "{t}"], &["{s};x", "{t}", "{t}"]];

pub fn cases() -> Vec<Case> {
    let mut all = Vec::new();
    for list in allowed_lists() {
        all.extend(shown_and_hidden(&initial(&list)));
    }
    for list in allowed_lists().iter().step_by(5) {
        all.extend(shown_and_hidden(&later(list)));
    }
    for list in malformed_lists() {
        all.push(Case::new(0, initial(&list).bytes()));
        all.push(Case::new(1, initial(&list).with(16, b"id").bytes()));
    }
    for list in malformed_lists().iter().step_by(7) {
        all.push(Case::new(1, later(list).with(16, b"none;USER").bytes()));
    }
    let others = [beside_other_faults(), later_reasons(), ignored(), places(), long()];
    all.extend(others.into_iter().flatten().map(|message| Case::new(1, message)));
    all.extend(rooms());
    all
}

/// INVITEs with identities that are allowed, and the digits of the calling number of each.
pub fn callings() -> Vec<(Vec<u8>, &'static str)> {
    let digits = IN_ONE_FIELD.iter().map(|(_, digits)| *digits).chain(IN_TWO_FIELDS.iter().map(|(_, digits)| *digits));
    allowed_lists().iter().map(|list| initial(list).bytes()).zip(digits).collect()
}

/// Lists of values, one for each field.
fn allowed_lists() -> Vec<Vec<String>> {
    let one = IN_ONE_FIELD.iter().map(|(value, _)| written(&[value]));
    one.chain(IN_TWO_FIELDS.iter().map(|(values, _)| written(values))).collect()
}

fn malformed_lists() -> Vec<Vec<String>> {
    let lists = OVER_FIELDS.into_iter().chain(FIRST_OF_FIELDS);
    MALFORMED.iter().map(|value| written(&[value])).chain(lists.map(written)).collect()
}

fn written(values: &[&str]) -> Vec<String> {
    values.iter().map(|value| value.replace("{s}", SIP).replace("{t}", TEL)).collect()
}

fn initial(list: &[String]) -> Draft {
    asserting(&Draft::least(0), list)
}

fn later(list: &[String]) -> Draft {
    asserting(&Draft::least(1), list)
}

/// The draft with these P-Asserted-Identity fields and no others.
fn asserting(draft: &Draft, list: &[String]) -> Draft {
    list.iter().fold(draft.without(15), |draft, value| draft.and("P-Asserted-Identity", value.as_bytes()))
}

/// On side 0 withheld, which shows them, on side 1 not withheld and withheld.
fn shown_and_hidden(draft: &Draft) -> [Case; 3] {
    let with = |side: u8, privacy: &[u8]| Case::new(side, draft.with(16, privacy).bytes());
    [with(0, b"id"), with(1, b"none"), with(1, b"id")]
}

/// Reason 9 by another field goes before, and of all malformed values the first in message order counts.
fn beside_other_faults() -> Vec<Vec<u8>> {
    let lists: [&[(&str, &str)]; 16] = [
        &[("P", "{s}"), ("Max-Forwards", "x"), ("P", "{s}")], &[("P", "{s}"), ("P", "{s}"), ("Max-Forwards", "x")], &[("P", "{s}"), ("Max-Forwards", "x"), ("P", "{t}")],
        &[("P", "{s},{t}"), ("Privacy", ";"), ("P", "{t}")], &[("P", "{s},{t}"), ("P", "{t}"), ("Privacy", ";")], &[("P", "{s},{s}"), ("Max-Forwards", "x")],
        &[("Max-Forwards", "x"), ("P", "{s},{s}")], &[("P", "{s}"), ("P", "{t}"), ("Max-Forwards", "x"), ("P", "{s}")], &[("P", "{t}"), ("P", "{s}"), ("Max-Forwards", "x")],
        &[("P", "{s}"), ("P", "{s}"), ("From", "")], &[("From", ""), ("From", ""), ("P", ""), ("P", "")], &[("P", ""), ("P", ""), ("CSeq", "1 INVITE"), ("Cseq", "1 INVITE")],
        &[("P", "{s}"), ("Privacy", "id"), ("P", "{t}"), ("privacy", "id")], &[("P", "{s}"), ("P", "{t}"), ("Via", "")], &[("Via", ""), ("P", "{s}"), ("P", "{s}")], &[("P", "{s}"), ("Reason", ""), ("P", "{t}")],
    ];
    lists.map(faulty).to_vec()
}

/// An INVITE whose last fields are these, P for P-Asserted-Identity; its own Max-Forwards goes where they have one.
fn faulty(list: &[(&str, &str)]) -> Vec<u8> {
    let mut draft = Draft::least(0).without(15);
    if list.iter().any(|(name, _)| *name == "Max-Forwards") {
        draft = draft.without(2);
    }
    for (name, value) in list {
        let name = if *name == "P" { "P-Asserted-Identity" } else { name };
        draft.add(name, written(&[value])[0].as_bytes());
    }
    draft.bytes()
}

/// Two identities that are allowed, and a fault for each reason after 10.
fn later_reasons() -> Vec<Vec<u8>> {
    let mut out = Vec::new();
    for list in [written(&["{t}", "{s}"]), written(&["{t},{s}"])] {
        let draft = initial(&list).with(16, b"id");
        out.extend([draft.with(8, b"1"), draft.without(1), draft.carrying(b"x"), draft.with(2, b"0"), draft.and("Require", b"timer,x"), draft.to(b"sip:h")].map(|draft| draft.bytes()));
    }
    // One field is missing, whatever it may hold.
    out.push(Draft::least(0).without(15).bytes());
    out
}

/// Where P-Asserted-Identity is ignored none of this is judged.
fn ignored() -> Vec<Vec<u8>> {
    let lists = [written(&["{s}", "{t}"]), written(&["{t},{s}"]), written(&["{s}", "{s},{s},{t}", ",", ""])];
    let columns = REQUESTS.skip(2).chain(RESPONSES);
    let mut out: Vec<Vec<u8>> = columns.flat_map(|column| lists.each_ref().map(|list| asserting(&Draft::least(column), list).with(16, b"id").bytes())).collect();
    // Nor is it for a method with no column.
    let mut info = initial(&lists[2]);
    info.set_method(b"INFO");
    out.push(info.bytes());
    out.push(asserting(&Draft::least(6).with(6, b"1 INFO"), &lists[2]).bytes());
    out
}

/// Two fields side by side and apart, first and last, in every order with Privacy and From, under other spellings of their name.
fn places() -> Vec<Vec<u8>> {
    let mut out = Vec::new();
    for (values, privacy) in [(["{s}", "{t}"], "id"), (["{t}", "{s}"], "none"), (["{s}", "{s}"], "id")] {
        let [first, second] = [0, 1].map(|place| written(&values)[place].clone());
        let rest = Draft::least(0).without(15).with(16, privacy.as_bytes());
        let last = rest.fields.len();
        for (one, other) in [(0, 0), (0, last + 1), (2, 4), (last, last + 1), (last - 1, last + 1)] {
            let mut draft = rest.clone();
            draft.fields.insert(one, Whole { name: b"p-asserted-identity \t".to_vec(), rest: format!(":{first}\r\n").into_bytes() });
            draft.fields.insert(other, Whole { name: b"P-ASSERTED-IDENTITY".to_vec(), rest: format!(": {second}\t\r\n").into_bytes() });
            out.push(draft.bytes());
        }
    }
    out
}

/// Long values: the name before either identity, the blanks around the comma, with folds and without, up to 8,192 bytes of message.
fn long() -> Vec<Vec<u8>> {
    let mut out = Vec::new();
    for many in [240, 300, 7000] {
        let (name, blanks, folds) = ("n, ".repeat(many / 3), " \t".repeat(many / 2), "\r\n ".repeat(many / 3));
        for value in [format!("\"{name}\" {{t}},{{s}}"), format!("{{t}},\"{name}\"\r\n {{s}}"), format!("{{t}}{blanks},{{s}}"), format!("{{t}},{folds}{{s}}"), format!("{{t}}{folds},{{s}},{{s}}")] {
            let draft = initial(&written(&[&value]));
            out.extend([b"none", &b"id"[..]].map(|privacy| draft.with(16, privacy).bytes()));
        }
    }
    let host = "h".repeat(253);
    out.extend(["", "h"].map(|more| initial(&written(&[&format!("sip:+331876543@{host}{more},{{t}}")])).bytes()));
    out
}

/// The room of what goes out, and one byte less, where both are shown and where both are hidden.
fn rooms() -> Vec<Case> {
    let mut all = Vec::new();
    for list in [written(&["{s}", "{t}"]), written(&["{t} ,\t{s}"]), written(&["{t}\r\n ,\r\n {s}"])] {
        for case in shown_and_hidden(&initial(&list)) {
            let need = length_out(&case.message, case.side);
            all.extend([need, need - 1].map(|room| Case { room, ..case.clone() }));
        }
    }
    all
}
