//! "Refusal numbers, first that applies": each reason, its reply, its detail, and the order.
mod common;
use common::*;

/// A message as the fields say it, after one change, on side 1.
fn after(method: &str, uri: &str, body: &[u8], change: impl Fn(&mut Fields)) -> [u64; 4] {
    let mut fields = base(method);
    change(&mut fields);
    numbers(&build(method, uri, &fields, body))
}

#[test]
fn reason_1_side() {
    for side in [2, 3, 255, 1 << 32, u64::MAX] {
        assert_eq!(run(&call(), side).0, [1, 0, 0, 0, 0]);
        assert_eq!(run(&[0; 9000], side).0, [1, 0, 0, 0, 0]);
    }
    assert_eq!((run(&call(), 0).0[0], run(&call(), 1).0[0]), (0, 0));
}

#[test]
fn reasons_2_to_5_have_no_reply() {
    assert_eq!(numbers(&[b'x'; 8193]), [2, 0, 0, 0]);
    assert_eq!(numbers(b"INVITE sip:h SIP/3.0\r\n\r\n"), [3, 0, 0, 0]);
    assert_eq!(numbers(b"INFO sip:h SIP/2.0\r\n"), [4, 0, 0, 0]);
    let many = format!("INFO sip:h SIP/2.0\r\n{}\r\n", "X:\r\n".repeat(97));
    assert_eq!(numbers(many.as_bytes()), [5, 0, 0, 0]);
}

#[test]
fn reason_6_method() {
    for method in ["INFO", "invite", "ack", "re", "Bye", "INVITEX", "INVIT", "REGISTER", "PRACK", "UPDATE", "M"] {
        assert_eq!(numbers(&build(method, "x:", &vec![], b"")), [6, 405, 0, 0], "{method}");
    }
}

#[test]
fn reasons_7_and_8_request_uri() {
    assert_eq!(numbers(&build("BYE", "sips:a@b", &vec![], b"")), [7, 416, 0, 0]);
    assert_eq!(numbers(&build("BYE", "*", &vec![], b"")), [8, 400, 0, 0]);
    assert_eq!(numbers(&build("ACK", "sips:a@b", &vec![], b"")), [7, 0, 0, 0]);
    assert_eq!(numbers(&build("ACK", "*", &vec![], b"")), [8, 0, 0, 0]);
}

#[test]
fn reason_9_each_field_without_yes() {
    for (name, number) in [("Max-Forwards", 2), ("From", 3), ("To", 4), ("Call-ID", 5), ("CSeq", 6), ("Contact", 7),
        ("Content-Length", 8), ("Content-Type", 9), ("Privacy", 16)] {
        // 9 comes before 10: the empty values do not matter.
        let twice = |fields: &mut Fields| { set(fields, name, b""); add(fields, name, b"") };
        assert_eq!(after("INVITE", URI, b"", twice), [9, 400, number, 0], "{name}");
    }
    for name in ["Via", "Route", "Allow", "Supported", "Require", "Accept", "Record-Route"] {
        let thrice = |f: &mut Fields| { set(f, name, b"timer"); add(f, name, b"timer"); add(f, name, b"timer") };
        assert_eq!(after("INVITE", URI, b"", thrice), [0, 0, 0, 0], "{name}");
    }
    assert_eq!(after("BYE", URI, b"", |f| { add(f, "Reason", b"x"); add(f, "Reason", b"x") })[0], 0);
}

#[test]
fn reason_9_first_in_message_order() {
    let change = |f: &mut Fields| {
        add(f, "m", b"x");
        add(f, "f", b"x");
        add(f, "Via", b"x");
    };
    assert_eq!(after("INVITE", URI, b"", change), [9, 400, 7, 0]);
    // Contact is ignored in BYE, so From is the first there.
    assert_eq!(after("BYE", URI, b"", |f| { change(f); add(f, "Contact", b"") }), [9, 400, 3, 0]);
    assert_eq!(after("ACK", URI, b"", |f| add(f, "T", b"")), [9, 0, 4, 0]);
}

#[test]
fn reason_10_first_in_message_order() {
    let change = |f: &mut Fields| {
        set(f, "Call-ID", b"");
        set(f, "From", b"");
        set(f, "CSeq", b"");
    };
    assert_eq!(after("BYE", URI, b"", change), [10, 400, 3, 0]);
    let moved = |f: &mut Fields| { change(f); f.reverse() };
    assert_eq!(after("BYE", URI, b"", moved), [10, 400, 6, 0]);
}

#[test]
fn reason_11_before_12_and_after_10() {
    let change = |f: &mut Fields| { f.remove(0); add(f, "l", b"4") };
    assert_eq!(after("BYE", URI, b"abc", change), [11, 400, 0, 0]);
    assert_eq!(after("BYE", URI, b"abcd", change), [12, 400, 1, 2]);
    assert_eq!(after("BYE", URI, b"abc", |f| { change(f); set(f, "To", b"") }), [10, 400, 4, 0]);
    assert_eq!(after("ACK", URI, b"", |f| add(f, "l", b"1")), [11, 0, 0, 0]);
}

#[test]
fn reason_12_counts_numbers() {
    assert_eq!(numbers(&build("INVITE", URI, &vec![], b"")), [12, 400, 1, 9]);
    assert_eq!(numbers(&build("INVITE", URI, &vec![], b"x")), [12, 400, 1, 10]);
    assert_eq!(numbers(&build("ACK", URI, &vec![], b"")), [12, 0, 1, 6]);
    assert_eq!(numbers(&build("CANCEL", URI, &vec![], b"x")), [12, 400, 1, 6]);
    assert_eq!(after("BYE", URI, b"x", |_| ()), [12, 400, 9, 1]);
    let to = vec![("To".to_string(), b"<sip:h>;tag=1".to_vec())];
    assert_eq!(numbers(&build("INVITE", URI, &to, b"")), [12, 400, 1, 6]);
    // 12 comes before 13, 14 and 15.
    let change = |f: &mut Fields| { f.remove(5); set(f, "Max-Forwards", b"0"); add(f, "Require", b"x") };
    assert_eq!(after("INVITE", "sip:h", b"", change), [12, 400, 6, 1]);
}

#[test]
fn reasons_13_14_15_in_order() {
    let change = |f: &mut Fields| { set(f, "Max-Forwards", b"000"); add(f, "Require", b"x") };
    assert_eq!(after("INVITE", "sip:h", b"", change), [13, 483, 0, 0]);
    assert_eq!(after("INVITE", "sip:h", b"", |f| add(f, "Require", b"x")), [14, 420, 1, 0]);
    assert_eq!(after("INVITE", "sip:h", b"", |_| ()), [15, 484, 0, 0]);
    assert_eq!(after("ACK", "sip:h", b"", |f| set(f, "Max-Forwards", b"0")), [13, 0, 0, 0]);
    // Require is ignored in ACK and CANCEL.
    assert_eq!(after("ACK", "sip:h", b"", |f| add(f, "Require", b"x")), [0, 0, 0, 0]);
    assert_eq!(after("CANCEL", "sip:h", b"", |f| add(f, "Require", b"x")), [0, 0, 0, 0]);
}

#[test]
fn reason_14_place_over_all_require_fields() {
    let place = |values: &[&str]| {
        after("OPTIONS", "sip:h", b"", |f| values.iter().for_each(|v| add(f, "Require", v.as_bytes())))
    };
    assert_eq!(place(&["timer", "100REL,TIMER"]), [0, 0, 0, 0]);
    assert_eq!(place(&["x"]), [14, 420, 1, 0]);
    assert_eq!(place(&["timer, 100rel", "timer , foo, bar", "x"]), [14, 420, 4, 0]);
    assert_eq!(place(&["timer", "time"]), [14, 420, 2, 0]);
    assert_eq!(place(&["timers", "timer"]), [14, 420, 1, 0]);
}

#[test]
fn reason_16_buffer() {
    let need = run(&call(), 1).0[4];
    assert_eq!(run_in(&call(), 1, need as usize).0, [0, 0, 0, 0, need]);
    for room in [0, 1, need as usize - 1] {
        assert_eq!(run_in(&call(), 1, room).0, [16, 500, need, 0, 0]);
    }
    let ack = build("ACK", URI, &base("ACK"), b"");
    assert_eq!(run_in(&ack, 1, 7).0, [16, 0, run(&ack, 1).0[4], 0, 0]);
    // 15 comes before 16.
    assert_eq!(run_in(&build("INVITE", "sip:h", &base("INVITE"), b""), 1, 0).0, [15, 484, 0, 0, 0]);
}
