//! CR 1: responses, each reason with every detail, the order of the reasons, and what goes out.
mod common;
use common::*;

/// A response to the method, after one change, on side 1.
fn after(status: &str, method: &str, body: &[u8], change: impl Fn(&mut Fields)) -> [u64; 4] {
    let mut fields = response_base(method);
    change(&mut fields);
    numbers(&build_from(&format!("SIP/2.0 {status}"), &fields, body))
}

const METHODS: [&str; 4] = ["INVITE", "BYE", "CANCEL", "OPTIONS"];
const ACCEPTED: [u64; 4] = [0, 0, 0, 0];

const ANSWER: &str = "sip/2.0 200  All\tright\x20
v: SIP/2.0/UDP relay.example;branch=z9hG4bK7
Max-Forwards: 0
f: \"A\" <sip:+33187654321@relay.example>;tag=a1
t: <sip:+33123456789@gw.example>;tag=b2
i: 9x@relay.example
CSeq:  1\t INVITE
m: <sip:gw.example>
Require: foo,
\tbar
Route: x
P-Asserted-Identity: rubbish
Privacy: id
X-Relay-Mode: text
k: timer
Record-Route: <sip:r>
c: application/sdp
l: 003

v=0 and more";

const SENT: &str = "SIP/2.0 200  All\tright\x20
Via: SIP/2.0/UDP relay.example;branch=z9hG4bK7
From: \"A\" <sip:+33187654321@relay.example>;tag=a1
To: <sip:+33123456789@gw.example>;tag=b2
Call-ID: 9x@relay.example
CSeq: 1\t INVITE
Contact: <sip:gw.example>
Require: foo, bar
Supported: timer
Record-Route: <sip:r>
Content-Type: application/sdp
Content-Length: 3

v=0";

#[test]
fn an_answer_in_full_on_both_sides() {
    for side in [0, 1] {
        assert_eq!(run(&crlf(ANSWER), side), ([0, 0, 0, 0, crlf(SENT).len() as u64], crlf(SENT)));
    }
}

#[test]
fn an_answer_to_cancel_has_six_fields() {
    let message = String::from_utf8(crlf(ANSWER)).unwrap().replace("INVITE", "CANCEL");
    let sent = "SIP/2.0 200  All\tright \nVia: SIP/2.0/UDP relay.example;branch=z9hG4bK7\nFrom: \"A\" <sip:+33187654321@relay.example>;tag=a1\nTo: \
        <sip:+33123456789@gw.example>;tag=b2\nCall-ID: 9x@relay.example\nCSeq: 1\t CANCEL\nContent-Length: 3\n\nv=0";
    assert_eq!(run(message.as_bytes(), 1).1, crlf(sent));
}

#[test]
fn reasons_1_to_5_as_before() {
    for side in [2, 255, 1 << 32, u64::MAX] {
        assert_eq!(run(&crlf(ANSWER), side).0, [1, 0, 0, 0, 0]);
        assert_eq!(run(b"SIP/2.0 999 x\r\n\r\n", side).0, [1, 0, 0, 0, 0]);
    }
    let mut long = crlf(ANSWER);
    long.resize(8192, b'x');
    assert_eq!(numbers(&long), ACCEPTED);
    long.push(b'x');
    assert_eq!(numbers(&long), [2, 0, 0, 0]);
    assert_eq!(numbers(b"SIP/2.0 2000 x\r\n\r\n"), [3, 0, 0, 0]);
    assert_eq!(numbers(b"SIP/2.0 200 OK\r\n"), [4, 0, 0, 0]);
    assert_eq!(numbers(b"SIP/2.0 700 x\r\nX: a\rb\r\n\r\n"), [4, 0, 0, 0]);
    let many = |n: usize| numbers(format!("SIP/2.0 700 x\r\n{}\r\n", "X:\r\n".repeat(n)).as_bytes());
    assert_eq!((many(96), many(97)), ([17, 0, 0, 0], [5, 0, 0, 0]));
}

#[test]
fn reason_17_status() {
    for status in 0..1000 {
        let good = (100..=699).contains(&status);
        for method in METHODS {
            let wanted = if good { ACCEPTED } else { [17, 0, 0, 0] };
            assert_eq!(after(&format!("{status:03} x"), method, b"", |_| ()), wanted, "{status} {method}");
        }
        // 17 comes before 6, and before all that follows.
        let none = format!("SIP/2.0 {status:03} \r\n\r\n");
        assert_eq!(numbers(none.as_bytes()), [if good { 6 } else { 17 }, 0, 0, 0]);
    }
    assert_eq!(after("099 x", "INVITE", b"", |f| { add(f, "CSeq", b""); add(f, "l", b"9") }), [17, 0, 0, 0]);
    assert_eq!(run_in(b"SIP/2.0 099 x\r\n\r\n", 1, 0).0, [17, 0, 0, 0, 0]);
}

#[test]
fn reason_6_no_cseq_or_an_unknown_method() {
    let cseq = |value: &str| after("200 OK", "INVITE", b"", |f| set(f, "CSeq", value.as_bytes()));
    for method in METHODS {
        assert_eq!(cseq(&format!("1 {method}")), ACCEPTED);
        assert_eq!(after("200 OK", method, b"", |f| f.retain(|(name, _)| name != "CSeq")), [6, 0, 0, 0]);
    }
    for method in ["ACK", "invite", "Bye", "re", "INFO", "PRACK", "UPDATE", "REGISTER", "INVITEX", "INVIT", "-.!%*_+`'~", &"M".repeat(32), &"M".repeat(33)] {
        assert_eq!(cseq(&format!("1 {method}")), [6, 0, 0, 0], "{method}");
    }
    for value in [
        "", "1", "1 ", "INVITE", " INVITE", "1INVITE", "a INVITE", "-1 INVITE", "+1 INVITE", "1 INVITE x", "1 INVITE;", "1 INV ITE", "1 (", "1 \u{e9}",
        "1,INVITE", "1 2 INVITE", "2147483648 INVITE", "9999999999 INVITE", "00000000001 INVITE", "12345678901 INVITE", "1 I\r\n NVITE", "1\u{a0}INVITE",
    ] {
        assert_eq!(cseq(value), [6, 0, 0, 0], "{value}");
    }
    for value in ["0 INVITE", "2147483647 INVITE", "0000000001 INVITE", "1\tINVITE", "1 \t INVITE", "1\r\n INVITE", "\r\n 1 INVITE \t\r\n "] {
        assert_eq!(cseq(value), ACCEPTED, "{value}");
    }
}

#[test]
fn the_first_cseq_names_the_method() {
    let twice = |one: &str, two: &str| after("200 OK", "INVITE", b"", |f| { set(f, "CSeq", one.as_bytes()); add(f, "cseq", two.as_bytes()) });
    assert_eq!(twice("x", "1 INVITE"), [6, 0, 0, 0]);
    assert_eq!(twice("1 ACK", "1 INVITE"), [6, 0, 0, 0]);
    for two in ["1 INVITE", "1 BYE", "1 ACK", "x", ""] {
        assert_eq!(twice("1 INVITE", two), [9, 0, 6, 0], "{two}");
    }
    // By the first CSeq this answers a CANCEL, which has no Contact; by the second one Contact would come again first.
    let change = |f: &mut Fields| { set(f, "CSeq", b"1 CANCEL"); add(f, "m", b""); add(f, "CSeq", b"1 INVITE") };
    assert_eq!(after("200 OK", "INVITE", b"", change), [9, 0, 6, 0]);
}

#[test]
fn reason_9_each_field_without_yes() {
    for (name, number) in [("From", 3), ("To", 4), ("Call-ID", 5), ("CSeq", 6), ("Contact", 7), ("Content-Length", 8), ("Content-Type", 9)] {
        // 9 comes before 10: the empty values do not matter, but for CSeq.
        let twice = |f: &mut Fields| {
            if number != 6 {
                set(f, name, b"");
            }
            add(f, name, b"");
        };
        for (status, method) in [("200 OK", "INVITE"), ("180 x", "INVITE"), ("200 OK", "BYE"), ("404 ", "OPTIONS")] {
            assert_eq!(after(status, method, b"", twice), [9, 0, number, 0], "{name} {method}");
        }
        let wanted = if number == 7 || number == 9 { ACCEPTED } else { [9, 0, number, 0] };
        assert_eq!(after("200 OK", "CANCEL", b"", twice), wanted, "{name}");
    }
    for name in ["Via", "Reason", "Allow", "Supported", "Require", "Accept", "Record-Route"] {
        let thrice = |f: &mut Fields| { set(f, name, b"x"); add(f, name, b"x"); add(f, name, b"x") };
        assert_eq!(after("200 OK", "INVITE", b"", thrice), ACCEPTED, "{name}");
    }
    for name in ["Max-Forwards", "Route", "P-Asserted-Identity", "Privacy"] {
        let twice = |f: &mut Fields| { add(f, name, b""); add(f, name, b"\"") };
        for method in METHODS {
            assert_eq!(after("200 OK", method, b"", twice), ACCEPTED, "{name}");
        }
    }
    let both = |f: &mut Fields| { add(f, "m", b"x"); add(f, "f", b"x") };
    assert_eq!(after("200 OK", "INVITE", b"", both), [9, 0, 7, 0]);
    assert_eq!(after("200 OK", "CANCEL", b"", |f| { add(f, "m", b"x"); both(f) }), [9, 0, 3, 0]);
}

#[test]
fn reason_10_each_value() {
    let bad: [(&str, &str, u64); 17] = [
        ("Via", "", 1), ("From", "<sip:h>", 3), ("From", "", 3), ("To", "<sip:h", 4), ("To", "<sip:h>;tag", 4), ("Call-ID", "x y", 5), ("Contact", "", 7),
        ("Content-Length", "x", 8), ("Content-Length", "000000", 8), ("Content-Type", " ", 9), ("Reason", "\t", 11), ("Require", "", 14), ("Require", ";", 14),
        ("Require", "timer,,timer", 14), ("Require", "a b", 14), ("Record-Route", "\r\n ", 18), ("Call-ID", "", 5),
    ];
    let in_cancel = [1, 3, 4, 5, 8];
    for (name, value, number) in bad {
        let change = |f: &mut Fields| set(f, name, value.as_bytes());
        for (status, method) in [("200 OK", "INVITE"), ("100 x", "INVITE"), ("200 OK", "BYE"), ("500 ", "OPTIONS")] {
            assert_eq!(after(status, method, b"", change), [10, 0, number, 0], "{name} {method}");
        }
        let wanted = if in_cancel.contains(&number) { [10, 0, number, 0] } else { ACCEPTED };
        assert_eq!(after("200 OK", "CANCEL", b"", change), wanted, "{name}");
    }
    for (name, value) in [("Require", "foo"), ("Require", "foo , bar"), ("Allow", ""), ("Supported", ""), ("Accept", ""), ("To", "sip:h")] {
        assert_eq!(after("200 OK", "INVITE", b"", |f| set(f, name, value.as_bytes())), ACCEPTED, "{name}");
    }
    let both = |f: &mut Fields| { set(f, "To", b""); set(f, "From", b"") };
    assert_eq!(after("200 OK", "BYE", b"", both), [10, 0, 3, 0]);
    assert_eq!(after("200 OK", "BYE", b"", |f| { both(f); f.reverse() }), [10, 0, 4, 0]);
}

#[test]
fn reason_11_after_10_and_before_12() {
    let change = |f: &mut Fields| { f.remove(0); add(f, "l", b"4") };
    for method in METHODS {
        assert_eq!(after("200 OK", method, b"abc", change), [11, 0, 0, 0]);
        assert_eq!(after("200 OK", method, b"abc", |f| { change(f); set(f, "To", b"") }), [10, 0, 4, 0]);
    }
    assert_eq!(after("200 OK", "INVITE", b"abcd", change), [12, 0, 1, 2]);
    assert_eq!(after("200 OK", "CANCEL", b"abcd", change), [12, 0, 1, 1]);
}

#[test]
fn reason_12_numbers_and_counts() {
    let only = |status: &str, method: &str, body: &[u8]| {
        numbers(&build_from(&format!("SIP/2.0 {status}"), &vec![("CSeq".into(), format!("1 {method}").into_bytes())], body))
    };
    assert_eq!(only("200 OK", "INVITE", b""), [12, 0, 1, 5]);
    assert_eq!(only("200 OK", "INVITE", b"x"), [12, 0, 1, 6]);
    assert_eq!(only("180 x", "INVITE", b"x"), [12, 0, 1, 5]);
    assert_eq!(only("200 OK", "CANCEL", b"x"), [12, 0, 1, 4]);
    assert_eq!(only("200 OK", "BYE", b""), [12, 0, 1, 4]);
    assert_eq!(after("200 OK", "OPTIONS", b"x", |_| ()), [12, 0, 9, 1]);
    for (place, number) in [(0, 1), (1, 3), (2, 4), (3, 5)] {
        for method in METHODS {
            assert_eq!(after("200 OK", method, b"", |f| { f.remove(place); }), [12, 0, number, 1]);
        }
    }
}

#[test]
fn contact_is_due_for_invite_from_200_to_299() {
    let without = |f: &mut Fields| f.retain(|(name, _)| name != "Contact");
    for status in 100..700 {
        let wanted = if (200..=299).contains(&status) { [12, 0, 7, 1] } else { ACCEPTED };
        assert_eq!(after(&format!("{status} x"), "INVITE", b"", without), wanted, "{status}");
        for method in ["BYE", "CANCEL", "OPTIONS"] {
            assert_eq!(after(&format!("{status} x"), method, b"", without), ACCEPTED, "{status} {method}");
        }
    }
}

#[test]
fn reason_16_buffer() {
    let need = run(&crlf(ANSWER), 1).0[4];
    assert_eq!(run_in(&crlf(ANSWER), 1, need as usize).0, [0, 0, 0, 0, need]);
    for room in [0, 1, need as usize - 1] {
        assert_eq!(run_in(&crlf(ANSWER), 0, room).0, [16, 0, need, 0, 0]);
    }
    // 12 comes before 16.
    assert_eq!(run_in(b"SIP/2.0 200 \r\nCSeq: 1 BYE\r\n\r\n", 1, 0).0, [12, 0, 1, 4, 0]);
}

#[test]
fn nothing_else_of_requests_is_asked() {
    // Max-Forwards 0, a required tag that we lack, no called number, and a caller who would be withheld.
    let change = |f: &mut Fields| {
        add(f, "Max-Forwards", b"0");
        add(f, "Require", b"lacking");
        add(f, "Privacy", b"header;user;id");
        add(f, "P-Asserted-Identity", b"<sip:+33187654321@relay.example>");
    };
    for (status, method) in [("200 OK", "INVITE"), ("100 Trying", "INVITE"), ("200 OK", "OPTIONS")] {
        let mut fields = response_base(method);
        change(&mut fields);
        let out = String::from_utf8(run(&build_from(&format!("SIP/2.0 {status}"), &fields, b""), 1).1).unwrap();
        assert!(out.starts_with(&format!("SIP/2.0 {status}\r\nVia: ")) && out.contains("\r\nFrom: <sip:a@relay.example>;tag=a1\r\n"));
        assert!(out.contains("\r\nRequire: lacking\r\n"));
        assert!(!out.contains("Privacy") && !out.contains("Asserted") && !out.contains("Max-Forwards"));
    }
}

#[test]
fn the_phrase_goes_out_as_it_came() {
    for phrase in ["", " ", "\t", "  two  words\t ", "OK", "\u{e9}\u{ff}", "SIP/2.0 200 OK", ":;\"<>\\"] {
        let message = build_from(&format!("siP/2.0 604 {phrase}"), &response_base("BYE"), b"");
        let sent = build_from(&format!("SIP/2.0 604 {phrase}"), &response_base("BYE"), b"");
        assert_eq!(run(&message, 1), ([0, 0, 0, 0, sent.len() as u64], sent));
    }
}

#[test]
fn output_is_fewer_than_1024_bytes_longer() {
    let mut text = "SIP/2.0 200 \r\nv:x\r\nf:sip:h;tag=1\r\nt:sip:h\r\ni:x\r\nCSeq:1 INVITE\r\nm:x\r\nc:x\r\nl:0\r\n".to_string();
    text += &"k:\r\n".repeat(88);
    text += "\r\n";
    let length = run(text.as_bytes(), 1).0[4] as usize;
    assert!(length > text.len() + 800 && length < text.len() + 1024, "{length}");
}
