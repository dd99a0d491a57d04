//! The other ways to hide (CR 2): "Withheld exactly if Privacy is not ignored and holds any of the three, letter case free."
mod common;
use common::*;
use second::{calling_slice, count, reading_slice};

/// The page's call with this Privacy; line breaks are given as LF.
fn call_asking(value: &str) -> Vec<u8> {
    call_with("Privacy: id", &format!("Privacy: {value}"))
}

/// What the page's call gives, with this Privacy in place of its own.
fn with_privacy(text: &str, canonical: &str) -> String {
    text.replace("Privacy: id", &format!("Privacy: {canonical}"))
}

/// An accepted call on a side goes out as this text, with this canonical Privacy.
fn goes_out(message: &[u8], side: u64, text: &str, canonical: &str) {
    let wanted = crlf(&with_privacy(text, canonical));
    let (numbers, out) = run(message, side);
    assert_eq!(numbers, [0, 0, 0, 0, wanted.len() as u64], "{canonical:.40} on side {side}");
    assert!(out == wanted, "{canonical:.40} on side {side}");
}

#[test]
fn each_of_the_three_hides() {
    for value in [
        "header", "HEADER", "Header", "hEADER", "headeR", "hEaDeR", "user", "USER", "User", "uSER", "useR", "UsEr", "id", "ID", "Id", "iD", "user;id", "id;user", "header;user;id",
        "id ; user\t;\tHEADER", "user;user", "Id;iD", "session;user", "user;session", "critical;history;header", "a;b;c;user", "user;a;b;c", "a;b;Header;c", "identity;id", "id;identity",
        "username;user", "headers ; header",
    ] {
        goes_out(&call_asking(value), 1, HIDDEN, value);
        goes_out(&call_asking(value), 0, SHOWN, value);
    }
}

#[test]
fn none_beside_them_does_not_help() {
    for value in ["none;id", "id;none", "none;user", "user;none", "none;header", "header;none", "NONE ; User", "none;none;user;none", "none;header;user;id"] {
        goes_out(&call_asking(value), 1, HIDDEN, value);
    }
}

#[test]
fn blanks_and_folds_around_the_mark() {
    for (value, canonical) in [
        ("none ; user", "none ; user"), ("user\t;\tnone", "user\t;\tnone"), ("header  \t ;none", "header  \t ;none"), ("none;\n user", "none; user"), ("user\n ;none", "user ;none"),
        ("none\n\t ;\n  header", "none ; header"), ("none \n \n\t\n ; \tuser", "none ; \tuser"), ("\n user", "user"), ("user\n \t", "user"), (" \t user \t ", "user"), ("\n \n\tId\n ", "Id"),
    ] {
        goes_out(&call_asking(value), 1, HIDDEN, canonical);
        goes_out(&call_asking(value), 0, SHOWN, canonical);
    }
}

#[test]
fn a_way_to_hide_first_in_the_middle_and_last_in_a_list() {
    let with = |many: usize, place: usize, way: &'static str| {
        let mut tokens = vec!["x"; many];
        tokens.insert(place, way);
        tokens.join(";")
    };
    for way in ["header", "user", "id"] {
        for list in [1, 7, 100, 1900].into_iter().flat_map(|many| [0, many / 2, many].map(|place| with(many, place, way))) {
            goes_out(&call_asking(&list), 1, HIDDEN, &list);
        }
    }
    for others in [1, 7, 100, 1900].map(|many| with(many, many / 2, "use")) {
        goes_out(&call_asking(&others), 1, SHOWN, &others);
    }
}

#[test]
fn what_only_looks_like_them_is_shown() {
    for value in [
        "none", "session", "critical", "history", "none;session", "username", "identity", "user-id", "userid", "headers", "head", "header.", "-header", "use", "users", "xuser", "ser", "i", "d",
        "idd", "ids", "id.", "-id", "xid", "i;d", "us;er", "head;er", "u_er", "us%r", "5ser", "he!der", "h%ader", "USERNAME", "Identity", "none;identity;username;headers", "user+id", "id'",
    ] {
        goes_out(&call_asking(value), 1, SHOWN, value);
        goes_out(&call_asking(value), 0, SHOWN, value);
    }
}

#[test]
fn without_privacy_nobody_is_withheld() {
    goes_out(&call_with("Privacy: id\n", ""), 1, &SHOWN.replace("Privacy: id\n", ""), "");
    for name in ["Privacys", "Privac", "X-Privacy", "Privacy-Id"] {
        let near = call_with("Privacy: id", &format!("{name}: user"));
        goes_out(&near, 1, &SHOWN.replace("Privacy: id\n", ""), "");
        let beside = call_with("Privacy: id", &format!("{name}: user\nPrivacy: none"));
        goes_out(&beside, 1, SHOWN, "none");
    }
    // The second line continues Subject.
    goes_out(&call_with("Privacy: id", "Subject: x\n Privacy: user"), 1, &SHOWN.replace("Privacy: id\n", ""), "");
}

#[test]
fn the_name_in_any_case() {
    for name in ["privacy", "PRIVACY", "pRIVACY", "Privacy\t "] {
        goes_out(&call_with("Privacy: id", &format!("{name}:user")), 1, HIDDEN, "user");
    }
}

#[test]
fn malformed_values_are_refused_as_before() {
    for value in [
        "", ";", "user;", ";user", "user;;id", "user; ;id", "user,id", "user id", "user\tid", "user\n id", "\"user\"", "user=1", "user;x=y", "header;", "header,none", "header none", "us/er",
        "hea$er", "(header)", "<user>", "user;\u{e9}",
    ] {
        for side in [0, 1] {
            assert_eq!(run(&call_asking(value), side).0, [10, 400, 16, 0, 0], "{value}");
        }
    }
}

#[test]
fn two_fields_are_refused_as_before() {
    for (first, second) in [("user", "none"), ("none", "user"), ("header", "header"), ("id", "user"), ("user", ";"), (";", "user")] {
        let twice = call_asking(&format!("{first}\nprivacy: {second}"));
        assert_eq!(run(&twice, 1).0, [9, 400, 16, 0, 0], "{first}, {second}");
    }
}

const LATER: &str = "INVITE sip:h SIP/2.0
v: x
Max-Forwards: 9
f: \"Alice; tag=no\" <sip:a@h;tag=no> ; x=\"tag=no\" ; TAG = q1;y
t: <sip:b@h>;tag=2
i: y
CSeq: 2 INVITE
m: <sip:a>
Privacy: none ; User

";

#[test]
fn a_later_invite_without_an_identity() {
    let wanted = "INVITE sip:h SIP/2.0\nVia: x\nMax-Forwards: 8\nFrom: \"Anonymous\" <sip:anonymous@anonymous.invalid>;tag=q1\nTo: <sip:b@h>;tag=2\nCall-ID: y\nCSeq: 2 INVITE\n\
        Contact: <sip:a>\nPrivacy: none ; User\n\n";
    assert_eq!(run(&crlf(LATER), 1).1, crlf(wanted));
    // With one it goes, wherever it stands.
    for front in ["v: x\n", "f: ", "Privacy: ", "m: "] {
        let identity = format!("P-Asserted-Identity: \"A\" <tel:+33187654321>\n{front}");
        assert_eq!(run(&crlf(&LATER.replacen(front, &identity, 1)), 1).1, crlf(wanted));
    }
    let shown = LATER.replace("User", "users").replacen("Privacy: ", "P-Asserted-Identity: tel:+33187654321\nPrivacy: ", 1);
    let text = String::from_utf8(run(&crlf(&shown), 1).1).unwrap();
    assert!(text.contains("\r\nFrom: \"Alice; tag=no\" <sip:a@h;tag=no> ; x=\"tag=no\" ; TAG = q1;y\r\n"));
    assert!(text.contains("\r\nP-Asserted-Identity: tel:+33187654321\r\nPrivacy: none ; users\r\n"));
}

#[test]
fn a_masked_from_keeps_its_tag_alone() {
    let callers = [
        ("sip:+33187654321@h;tag=1", "1"), ("Alice B <sip:a@h>;tag=2;x", "2"), ("\"A \\\" <x>\" <sip:a@h>;x=\"tag=no\";TaG=3", "3"), ("<tel:+33187654321>\t;\ttag\t=\t4", "4"),
        ("tel:+33187654321;a=b;TAG=!%*_+`'~-.", "!%*_+`'~-."), ("<sip:h>;xtag=1;tag=\n 5\n ;tagx=2", "5"),
    ];
    for value in ["header", "User", "ID"] {
        for (from, tag) in callers {
            let message = call_asking(value);
            let text = String::from_utf8(message).unwrap().replace("\r\n", "\n").replace("<sip:+33187654321@relay.example>;tag=a1", from);
            goes_out(&crlf(&text), 1, &HIDDEN.replace("tag=a1", &format!("tag={tag}")), value);
        }
    }
}

#[test]
fn where_privacy_is_ignored_nobody_is_withheld() {
    for method in ["ACK", "BYE", "CANCEL", "OPTIONS"] {
        let mut sent = base(method);
        set(&mut sent, "Max-Forwards", b"69");
        let wanted = build(method, URI, &sent, b"");
        for value in ["header", "user", "id", "none;USER", "user;", ";header", "\"user\"", "", "user\r\nPrivacy: header"] {
            let mut fields = base(method);
            add(&mut fields, "Privacy", value.as_bytes());
            add(&mut fields, "P-Asserted-Identity", b"<sip:+33187654321@relay.example>");
            assert!(run(&build(method, URI, &fields, b""), 1).1 == wanted, "{method} {value}");
        }
    }
}

#[test]
fn in_a_response_nobody_is_withheld() {
    for (status, method) in [("180 x", "INVITE"), ("200 OK", "INVITE"), ("200 OK", "CANCEL"), ("200 OK", "BYE"), ("486 x", "OPTIONS")] {
        let start = format!("SIP/2.0 {status}");
        let mut sent = response_base(method);
        set(&mut sent, "From", b"\"A\" <sip:a@relay.example>;x;tag=a1");
        let wanted = build_from(&start, &sent, b"");
        for value in ["header", "user", "id", "none;USER", "user;", "", "user\r\nPrivacy: header"] {
            let mut fields = sent.clone();
            add(&mut fields, "Privacy", value.as_bytes());
            add(&mut fields, "P-Asserted-Identity", b"<sip:+33187654321@relay.example>");
            assert!(run(&build_from(&start, &fields, b""), 1).1 == wanted, "{status} {method} {value}");
        }
    }
}

#[test]
fn the_room_of_what_goes_out_counts() {
    for value in ["user", "Header", "ID"] {
        let hidden = with_privacy(HIDDEN, value);
        let shown = with_privacy(SHOWN, value);
        for (side, text) in [(1, hidden), (0, shown)] {
            let wanted = crlf(&text);
            let need = wanted.len();
            assert_eq!(run_in(&call_asking(value), side, need), ([0, 0, 0, 0, need as u64], wanted));
            assert_eq!(run_in(&call_asking(value), side, need - 1).0, [16, 500, need as u64, 0, 0]);
        }
    }
}

#[test]
fn calling_number_count_and_reading_do_not_ask() {
    for value in ["user", "header", "none;ID"] {
        let message = call_asking(value);
        assert_eq!(calling_slice(&message, b"+33999999999"), b"+33187654321");
        assert_eq!((count(&message, 15), count(&message, 16)), (1, 1));
        assert_eq!(reading_slice(&message, 15, 1), b"<sip:+33187654321@relay.example>");
        assert_eq!(reading_slice(&message, 16, 1), value.as_bytes());
    }
}
