//! Two asserted identities (CR 6): "Allow one or two, in one field parted by a comma (spaces or tabs free around it) or in two fields: if
//! two, one sip and one tel, each of the old form."
mod common;
use common::*;
use second::recorded::identities::callings;
use second::{calling_number, calling_slice, count, reading_slice, Part};

const NAME: &str = "P-Asserted-Identity";
const TRUNK: &[u8] = b"+33999999999";
const SIP: &str = "<sip:+33111111111@h>";
const TEL: &str = "<tel:+33222222222>";
const REFUSED: [u64; 4] = [10, 400, 15, 0];

/// An INVITE with these P-Asserted-Identity fields and no other one, after this change.
fn changed(identities: &[&str], change: impl Fn(&mut Fields)) -> Vec<u8> {
    let mut fields = base("INVITE");
    fields.retain(|(name, _)| name != NAME);
    for identity in identities {
        add(&mut fields, NAME, identity.as_bytes());
    }
    change(&mut fields);
    build("INVITE", URI, &fields, b"")
}

fn invite(identities: &[&str]) -> Vec<u8> {
    changed(identities, |_| ())
}

/// Reason, reply, detail and missing count, which both sides and withheld callers must share.
fn judged(identities: &[&str]) -> [u64; 4] {
    let all = ["none", "id"].map(|privacy| changed(identities, |fields| add(fields, "Privacy", privacy.as_bytes())));
    let answers: Vec<[u64; 5]> = all.iter().flat_map(|message| [run(message, 0).0, run(message, 1).0]).collect();
    for answer in &answers {
        assert_eq!(answer[..4], answers[0][..4], "{identities:?}");
    }
    numbers(&all[0])
}

fn calling(message: &[u8]) -> String {
    String::from_utf8(calling_slice(message, TRUNK).to_vec()).unwrap()
}

#[test]
fn two_in_one_field_in_either_order() {
    for gap in [",", " ,", ", ", " , ", "\t,\t", " \t ,\t \t", "\r\n ,", ",\r\n ", "\r\n\t,\r\n ", " \r\n  ,\t\r\n\t", "\r\n \r\n ,"] {
        for (first, second) in [(SIP, TEL), (TEL, SIP)] {
            let value = format!("{first}{gap}{second}");
            assert_eq!(judged(&[&value]), [0; 4], "{value:?}");
            assert_eq!(calling(&invite(&[&value])), "+33111111111", "{value:?}");
        }
    }
}

#[test]
fn two_in_two_fields_in_either_order() {
    for identities in [[SIP, TEL], [TEL, SIP], ["sip:+33111111111@h", "tel:+33222222222"], ["TEL:+33222222222", "A <SIP:+33111111111@h>"]] {
        assert_eq!(judged(&identities), [0; 4], "{identities:?}");
        assert_eq!(calling(&invite(&identities)), "+33111111111", "{identities:?}");
    }
}

#[test]
fn one_identity_as_before() {
    for (value, digits) in [(SIP, "+33111111111"), (TEL, "+33222222222"), ("\"a, b\" <sip:+1234567@h;user=phone>", "+1234567"), ("tel:+1234567", "+1234567")] {
        assert_eq!(judged(&[value]), [0; 4], "{value}");
        assert_eq!(calling(&invite(&[value])), digits, "{value}");
    }
}

/// Forms of a sip identity, all with one number.
const SIPS: [&str; 8] = [
    "<sip:+33111111111@h>", "sip:+33111111111@h", "SIP:+33111111111@h:5060", "<sIp:+33111111111@h;user=phone>", "\"Doe, J\" <sip:+33111111111@h;a=b;c>", "A B\t<sip:+33111111111@1.2.3.4:1>",
    "\"<tel:+1234567>, \\\"\\\\\"<sip:+33111111111@h>", "tel <sip:+33111111111@h;tel:+1234567;>",
];

/// Forms of a tel identity, all with another number.
const TELS: [&str; 6] = [
    "<tel:+33222222222>", "tel:+33222222222", "TEL:+33222222222", "\"Doe, J, sip:+1234567@h\" <tEl:+33222222222>", "sip \t sip<tel:+33222222222>", "\"\" <tel:+33222222222>",
];

#[test]
fn each_of_the_old_form() {
    for sip in SIPS {
        for tel in TELS {
            for value in [format!("{sip},{tel}"), format!("{tel} ,\t{sip}")] {
                assert_eq!(judged(&[&value]), [0; 4], "{value}");
                assert_eq!(calling(&invite(&[&value])), "+33111111111", "{value}");
            }
            assert_eq!((judged(&[sip, tel]), judged(&[tel, sip])), ([0; 4], [0; 4]), "{sip} {tel}");
            assert_eq!(calling(&invite(&[tel, sip])), "+33111111111", "{sip} {tel}");
        }
    }
}

#[test]
fn neither_may_lack_the_old_form() {
    for bad in [
        "", " ", "x", "<sip:h>", "<sip:1234567@h>", "<sip:+0234567@h>", "<sip:+123456@h>", "<tel:+1234567890123456>", "<tel:1234567>", "<tel:+1234567;x>", "tel:+1234567;x", "sip:+1234567@h;user=phone",
        "<sip:+1234567@h>;x", "<tel:+1234567> ;x=y", "<sip:+1234567;x@h>", "<sip:%2B1234567@h>", "<sips:+1234567@h>", "<http:+1234567>", "<sip:+1234567@h", "sip:+1234567@h>", "\"A <sip:+1234567@h>",
        "A, B <sip:+1234567@h>", "A sip:+1234567@h", "<sip:+1234567@h,x>", "<tel:+1234567,>",
    ] {
        for good in [SIP, TEL] {
            for value in [format!("{good},{bad}"), format!("{bad},{good}"), format!("{good} , {bad}"), format!("{bad} , {good}")] {
                assert_eq!(judged(&[&value]), REFUSED, "{value}");
            }
            assert_eq!((judged(&[good, bad]), judged(&[bad, good])), (REFUSED, REFUSED), "{good} {bad}");
        }
    }
}

#[test]
fn nothing_but_one_comma_between() {
    for gap in ["", " ", "\t", "\r\n ", ",,", ", ,", ";", " ; ", ",;", ";,", "|", "\",\"", ",\u{a0}", ".", "<,>", ">,"] {
        assert_eq!(judged(&[&format!("{SIP}{gap}{TEL}")]), REFUSED, "{gap:?}");
        assert_eq!(judged(&[&format!("{TEL}{gap}{SIP}")]), REFUSED, "{gap:?}");
    }
    for value in [",", ", ,", &format!("{SIP},"), &format!(",{SIP}"), &format!("{SIP} ,\t"), &format!("{SIP},{TEL},"), &format!(",{SIP},{TEL}"), &format!("{SIP},,{TEL}")] {
        assert_eq!(judged(&[value]), REFUSED, "{value}");
    }
}

#[test]
fn a_comma_in_a_quoted_name_parts_nothing() {
    for name in ["\",\"", "\"Doe, J\"", "\"<sip:+1234567@h>,<tel:+1234567>,\"", "\"\\\",\\\\\""] {
        assert_eq!(judged(&[&format!("{name} {SIP}")]), [0; 4], "{name}");
        assert_eq!(judged(&[&format!("{name}{SIP},{name}{TEL}")]), [0; 4], "{name}");
        assert_eq!(judged(&[&format!("{name}{SIP}"), &format!("{name}{TEL}")]), [0; 4], "{name}");
        assert_eq!(judged(&[&format!("{name}{SIP},{name}")]), REFUSED, "{name}");
    }
    // A backslash keeps the quoted string open, so that its end is missing.
    assert_eq!(judged(&[&format!("\"a\\\" {SIP},{TEL}")]), REFUSED);
}

#[test]
fn two_of_one_scheme() {
    for (one, other) in [(SIP, SIP), (TEL, TEL), (SIP, "SIP:+1234567@h"), ("TEL:+1234567", TEL), ("sip:+1234567@a", "sip:+7654321@b")] {
        assert_eq!(judged(&[&format!("{one},{other}")]), REFUSED, "{one} {other}");
        assert_eq!(judged(&[one, other]), REFUSED, "{one} {other}");
    }
}

#[test]
fn a_third_identity() {
    for first in [SIP, TEL] {
        for second in [SIP, TEL] {
            for third in [SIP, TEL] {
                assert_eq!(judged(&[&format!("{first},{second},{third}")]), REFUSED);
                assert_eq!(judged(&[&format!("{first},{second}"), third]), REFUSED);
                assert_eq!(judged(&[first, &format!("{second},{third}")]), REFUSED);
                assert_eq!(judged(&[first, second, third]), REFUSED);
            }
        }
    }
    let many = [SIP, TEL].repeat(20);
    assert_eq!((judged(&many), judged(&[&many.join(",")])), (REFUSED, REFUSED));
}

/// The detail of reason 10 where these fields follow one another.
fn first_malformed(fields: &[(&str, &str)]) -> u64 {
    let message = changed(&[], |all| {
        all.retain(|(name, _)| !fields.iter().any(|(other, _)| name == other));
        fields.iter().for_each(|(name, value)| add(all, name, value.as_bytes()));
    });
    let [reason, reply, detail, missing] = numbers(&message);
    assert_eq!([reason, reply, missing], [10, 400, 0], "{fields:?}");
    detail
}

#[test]
fn at_the_field_that_brings_it() {
    let (hops, call) = (("Max-Forwards", "x"), ("Call-ID", "a b"));
    let (sip, tel) = ((NAME, SIP), (NAME, TEL));
    let two = format!("{TEL}, {SIP}");
    let both = (NAME, two.as_str());
    assert_eq!(first_malformed(&[sip, hops, sip]), 2);
    assert_eq!(first_malformed(&[sip, sip, hops]), 15);
    assert_eq!(first_malformed(&[sip, tel, hops, sip]), 2);
    assert_eq!(first_malformed(&[sip, hops, tel]), 2);
    assert_eq!(first_malformed(&[both, hops, call]), 2);
    assert_eq!(first_malformed(&[both, hops, tel]), 2);
    assert_eq!(first_malformed(&[both, call, hops, tel]), 5);
    assert_eq!(first_malformed(&[both, tel, call, hops]), 15);
    assert_eq!(first_malformed(&[hops, sip, sip]), 2);
    assert_eq!(first_malformed(&[(NAME, "x"), hops, sip]), 15);
    assert_eq!(first_malformed(&[sip, tel, ("Privacy", ";"), (NAME, "x")]), 16);
    assert_eq!(first_malformed(&[sip, tel, (NAME, ""), ("Privacy", ";")]), 15);
}

#[test]
fn reason_9_never_names_15() {
    let answer = |identities: &[&str], name: &str, value: &str| numbers(&changed(identities, |fields| add(fields, name, value.as_bytes())));
    // Another field that comes again is still found first, wherever it stands.
    for identities in [&[SIP, SIP][..], &[SIP, TEL, TEL], &["", ""], &["x", SIP], &[SIP, TEL]] {
        assert_eq!(answer(identities, "From", ""), [9, 400, 3, 0], "{identities:?}");
        let front = changed(identities, |fields| fields.insert(0, ("CSeq".into(), b"".to_vec())));
        assert_eq!(numbers(&front), [9, 400, 6, 0], "{identities:?}");
    }
    assert_eq!(answer(&[SIP, SIP], "Via", ""), REFUSED);
    assert_eq!(answer(&[SIP, TEL], "Via", ""), [10, 400, 1, 0]);
}

#[test]
fn later_reasons_stay() {
    let after = |change: &dyn Fn(&mut Fields)| numbers(&changed(&[TEL, SIP], change));
    assert_eq!(after(&|fields| add(fields, "l", b"1")), [11, 400, 0, 0]);
    assert_eq!(after(&|fields| { fields.remove(0); }), [12, 400, 1, 1]);
    assert_eq!(after(&|fields| set(fields, "Max-Forwards", b"0")), [13, 483, 0, 0]);
    assert_eq!(after(&|fields| add(fields, "Require", b"timer,x")), [14, 420, 2, 0]);
    // The field is missing once, however many there may be.
    assert_eq!(numbers(&invite(&[])), [12, 400, 15, 1]);
    let uri = String::from_utf8(invite(&[SIP, TEL])).unwrap().replacen(URI, "sip:h", 1);
    assert_eq!(numbers(uri.as_bytes()), [15, 484, 0, 0]);
    let need = run(&invite(&[SIP, TEL]), 1).0[4];
    assert_eq!(run_in(&invite(&[SIP, TEL]), 1, need as usize - 1).0, [16, 500, need, 0, 0]);
}

/// What goes out to a side, as text.
fn out(message: &[u8], side: u64) -> String {
    let (numbers, out) = run(message, side);
    assert_eq!(numbers[0], 0);
    String::from_utf8(out).unwrap()
}

/// The output's lines with this name.
fn lines<'a>(text: &'a str, name: &str) -> Vec<&'a str> {
    text.split("\r\n").filter_map(|line| line.strip_prefix(name)?.strip_prefix(": ")).collect()
}

#[test]
fn they_go_out_as_they_came_or_all_go() {
    let folded = format!("\r\n {TEL}\r\n , \t\"A,\r\n\tB\" {SIP} ");
    let canonical = format!("{TEL} , \t\"A, B\" {SIP}");
    for to in ["<sip:b@h>", "<sip:b@h>;tag=2"] {
        for (identities, shown) in [(&[SIP, TEL][..], &[SIP, TEL][..]), (&[TEL, SIP], &[TEL, SIP]), (&[&folded], &[&canonical])] {
            let with = |privacy: &str| changed(identities, |fields| { set(fields, "To", to.as_bytes()); add(fields, "Privacy", privacy.as_bytes()) });
            for (privacy, side) in [("id", 0), ("header;user", 0), ("none", 0), ("none", 1), ("identity", 1)] {
                let text = out(&with(privacy), side);
                assert_eq!(lines(&text, NAME), shown, "{privacy} {side}");
                assert_eq!(lines(&text, "From"), ["<sip:a@relay.example>;tag=a1"]);
            }
            for privacy in ["id", "user", "none;HEADER"] {
                let text = out(&with(privacy), 1);
                assert_eq!(lines(&text, NAME), [""; 0], "{privacy}");
                assert_eq!(lines(&text, "From"), ["\"Anonymous\" <sip:anonymous@anonymous.invalid>;tag=a1"]);
                assert!(!text.contains("+33111111111") && !text.contains("+33222222222"), "{text}");
            }
        }
    }
}

#[test]
fn two_fields_keep_their_places() {
    let message = changed(&[], |fields| {
        fields.insert(0, (NAME.to_uppercase(), TEL.into()));
        fields.insert(3, ("p-asserted-identity ".into(), SIP.into()));
    });
    let names: Vec<String> = out(&message, 1).split("\r\n").skip(1).take(5).map(|line| line.split(':').next().unwrap().to_string()).collect();
    assert_eq!(names, [NAME, "Via", "Max-Forwards", NAME, "From"]);
}

#[test]
fn a_later_invite_judges_them_too() {
    let later = |identities: &[&str]| numbers(&changed(identities, |fields| set(fields, "To", b"<sip:b@h>;tag=1")));
    let two = format!("{SIP},{TEL}");
    for identities in [&[][..], &[SIP], &[TEL, SIP], &[&two]] {
        assert_eq!(later(identities), [0; 4], "{identities:?}");
    }
    for identities in [&[SIP, SIP][..], &[SIP, TEL, TEL], &[&two, TEL], &[""]] {
        assert_eq!(later(identities), REFUSED, "{identities:?}");
    }
}

/// Values that an INVITE would be refused with, together.
const RUBBISH: [&str; 5] = [SIP, SIP, ",", "<sip:+1234567@h>,<sip:+1234567@h>,<tel:+1234567>", ""];

#[test]
fn ignored_outside_invites() {
    let trunk = Part { from_trunk: true, start: 0, length: TRUNK.len() };
    let messages = |method: &str| {
        let mut fields = base(method);
        fields.retain(|(name, _)| name != NAME);
        RUBBISH.iter().for_each(|value| add(&mut fields, NAME, value.as_bytes()));
        let response = build_from("SIP/2.0 200 OK", &fields, b"");
        if method == "INVITE" { vec![response] } else if method == "ACK" { vec![build(method, URI, &fields, b"")] } else { vec![build(method, URI, &fields, b""), response] }
    };
    for message in ["INVITE", "ACK", "BYE", "CANCEL", "OPTIONS"].into_iter().flat_map(messages) {
        for side in [0, 1] {
            assert!(!out(&message, side).contains(NAME));
        }
        assert_eq!(calling_number(&message, TRUNK), trunk);
        assert_eq!(count(&message, 15), RUBBISH.len());
    }
}

#[test]
fn counts_and_readings_are_of_fields() {
    let two = format!("{TEL}\r\n ,\t{SIP}");
    for (identities, wanted) in [(&[two.as_str()][..], 1), (&[TEL, SIP], 2), (&[SIP, SIP, &two], 3), (&[], 0)] {
        let message = invite(identities);
        assert_eq!(count(&message, 15), wanted);
        for (place, identity) in identities.iter().enumerate() {
            assert_eq!(reading_slice(&message, 15, place as u64 + 1), identity.as_bytes());
        }
        assert_eq!(reading_slice(&message, 15, wanted as u64 + 1), b"");
    }
}

/// The place of the last occurrence of a text.
fn last(message: &[u8], text: &str) -> usize {
    message.windows(text.len()).rposition(|part| part == text.as_bytes()).unwrap()
}

#[test]
fn the_calling_number_stands_in_the_message() {
    let name = "\"+33111111111 <sip:+33111111111@h>, \"";
    let folded = format!("{name}{TEL}\r\n , \r\n\t A\r\n B\r\n <sip:+33111111111@h>");
    for identities in [&[SIP, TEL][..], &[TEL, SIP], &[&format!("{TEL},{SIP}")], &[&folded], &[&format!("{name} {TEL}"), "\r\n SIP:+33111111111@h\r\n "]] {
        let message = invite(identities);
        let part = calling_number(&message, TRUNK);
        assert_eq!((part.from_trunk, part.start, part.length), (false, last(&message, "+33111111111"), 12), "{identities:?}");
    }
    // One tel identity alone, in which a sip URI stands as text.
    let message = invite(&["\"<sip:+33111111111@h>\" <tel:+33222222222>"]);
    assert_eq!(calling(&message), "+33222222222");
    for identities in [&[SIP, SIP][..], &[TEL, TEL], &[SIP, TEL, TEL], &[&format!("{SIP},{TEL},{TEL}")], &[&format!("{SIP},")]] {
        assert_eq!(calling(&invite(identities)), "", "{identities:?}");
    }
    assert_eq!(calling_slice(&invite(&[TEL, SIP]), b"+123456"), b"");
}

#[test]
fn recorded_identities_are_called_by_their_number() {
    let all = callings();
    assert_eq!(all.len(), 44);
    for (message, digits) in all {
        assert_eq!(calling(&message), digits, "{}", String::from_utf8_lossy(&message));
    }
}

/// Pieces of which values are put together. No two of them that touch make another piece.
const PIECES: [&str; 8] = ["<sip:+1111111@h>", "<tel:+2222222>", "sip:+3333333@h", "tel:+4444444", ",", " \t", "\"a, b\"", "!"];

/// What the page's grammar makes of the pieces of one value: the place of each identity in `PIECES`. None is malformed.
fn grammar(pieces: &[usize]) -> Option<Vec<usize>> {
    let mut found = Vec::new();
    // What stands before: 0 nothing or a comma, 1 a quoted name, 2 tokens, 3 an identity.
    let mut before = 0;
    for &piece in pieces {
        before = match (piece, before) {
            (0 | 1, 0..=2) | (2 | 3, 0) => {
                found.push(piece);
                3
            }
            (4, 3) => 0,
            (5, before) => before,
            (6, 0) => 1,
            (7, 0 | 2) => 2,
            _ => return None,
        };
    }
    (before == 3).then_some(found)
}

/// Reason and detail, and the calling number, of an INVITE with these values by the page.
fn by_the_page(values: &[Vec<usize>]) -> ([u64; 2], &'static str) {
    let refused = ([10, 15], "");
    let mut all = Vec::new();
    for pieces in values {
        match grammar(pieces) {
            Some(found) => all.extend(found),
            None => return refused,
        }
    }
    let digits = |piece: usize| ["+1111111", "+2222222", "+3333333", "+4444444"][piece];
    match all[..] {
        [one] => ([0, 0], digits(one)),
        [sip, tel] | [tel, sip] if sip % 2 == 0 && tel % 2 == 1 => ([0, 0], digits(sip)),
        _ => refused,
    }
}

fn is_as_the_page_says(values: &[Vec<usize>]) -> bool {
    let texts: Vec<String> = values.iter().map(|pieces| pieces.iter().map(|&piece| PIECES[piece]).collect()).collect();
    let message = invite(&texts.iter().map(String::as_str).collect::<Vec<&str>>());
    let [reason, _, detail, _] = numbers(&message);
    let (wanted, digits) = by_the_page(values);
    assert_eq!(([reason, detail], calling(&message).as_str()), (wanted, digits), "{texts:?}");
    reason == 0
}

#[test]
fn every_value_of_up_to_five_pieces() {
    let mut values: Vec<Vec<usize>> = vec![Vec::new()];
    let mut accepted = 0;
    for _ in 0..5 {
        values = values.iter().flat_map(|front| (0..PIECES.len()).map(move |piece| [&front[..], &[piece]].concat())).collect();
        accepted += values.iter().filter(|value| is_as_the_page_says(std::slice::from_ref(value))).count();
    }
    assert!(accepted > 400, "{accepted}");
}

#[test]
fn drawn_values_in_one_to_three_fields() {
    let mut dice = Dice::new(6);
    let mut accepted = [0; 4];
    for _ in 0..30_000 {
        let fields = 1 + dice.below(3);
        let values: Vec<Vec<usize>> = (0..fields).map(|_| drawn_value(&mut dice)).collect();
        accepted[fields] += usize::from(is_as_the_page_says(&values));
    }
    assert!(accepted[1] > 3_000 && accepted[2] > 1_000 && accepted[3] == 0, "{accepted:?}");
}

/// An identity or several, mostly parted well.
fn drawn_value(dice: &mut Dice) -> Vec<usize> {
    let mut value = vec![dice.below(4)];
    while dice.one_in(3) {
        value.extend(*dice.pick(&[&[4][..], &[4], &[5, 4], &[4, 5], &[5, 4, 5], &[4, 6], &[4, 7, 5], &[5], &[4, 4]]));
        value.push(dice.below(4));
    }
    if dice.one_in(6) {
        let place = dice.below(value.len() + 1);
        value.insert(place, dice.below(PIECES.len()));
    }
    value
}
