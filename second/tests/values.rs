//! "Values that are read", without URIs and addresses: each rule on both sides of its edge.
mod common;
use common::*;

/// Whether the value is well formed in this field; a refusal must be 10 with the field's number.
fn good(method: &str, name: &str, number: u64, value: &str) -> bool {
    let answer = with_value(method, name, value.as_bytes());
    if answer[0] == 10 {
        let reply = if method == "ACK" { 0 } else { 400 };
        assert_eq!(answer, [10, reply, number, 0]);
    }
    answer[0] != 10
}

fn check(method: &str, name: &str, number: u64, goods: &[&str], bads: &[&str]) {
    for value in goods {
        assert!(good(method, name, number, value), "{name}: {value}");
    }
    for value in bads {
        assert!(!good(method, name, number, value), "{name}: {value}");
    }
}

#[test]
fn not_empty() {
    for (name, number) in [("Via", 1), ("Contact", 7), ("Content-Type", 9), ("Route", 10), ("Record-Route", 18)] {
        check("INVITE", name, number, &["x", "<", "\"", ",;"], &["", " \t", "\r\n "]);
    }
    check("BYE", "Reason", 11, &["x"], &[""]);
}

#[test]
fn may_be_empty() {
    for (name, number) in [("Allow", 12), ("Supported", 13), ("Accept", 17)] {
        check("INVITE", name, number, &["", "x", ",,", "\"", "\r\n "], &[]);
    }
}

#[test]
fn max_forwards() {
    let goods = ["1", "0", "00", "000", "001", "70", "254", "255"];
    let bads = ["", "256", "999", "0001", "1000", "-1", "+1", "7 0", "7,", "0x7", "1.0"];
    check("INVITE", "Max-Forwards", 2, &goods, &bads);
}

#[test]
fn content_length() {
    let goods = ["0", "00000", "1", "12345", "99999"];
    let bads = ["", "000000", "100000", "-1", "+1", "0 0", "0,0", "a"];
    check("INVITE", "Content-Length", 8, &goods, &bads);
}

#[test]
fn cseq() {
    let goods = ["1 BYE", "0 BYE", "2147483647 BYE", "0000000001 BYE", "1 \t  BYE", "1\tBYE"];
    let bads = [
        "", "1", "BYE", "1BYE", "2147483648 BYE", "4294967296 BYE", "9999999999 BYE", "00000000001 BYE", "1 bye", "1 BYEX",
        "1 BY", "1 BYE x", "-1 BYE", "+1 BYE", "1 ACK", "1, BYE", " BYE", "a BYE",
    ];
    check("BYE", "CSeq", 6, &goods, &bads);
}

#[test]
fn call_id() {
    let longest = "x".repeat(128);
    let too_long = "x".repeat(129);
    check("BYE", "Call-ID", 5, &["a", "!\"<>@;,~", &longest], &["", "a b", "a\tb", "é", &too_long]);
}

#[test]
fn privacy() {
    let goods = ["id", "id;user", "id ;\t user", "none", "a;b;c;d", "id;id", "!%*_+`'~-."];
    let bads = ["", ";", "id;", ";id", "id;;user", "id user", "id,user", "\"id\"", "id; ;user", "i/d", "id=1"];
    check("INVITE", "Privacy", 16, &goods, &bads);
}

#[test]
fn require() {
    let goods = ["timer", "100rel,timer", "100REL \t,\t Timer", "x", "a,b,c", "!%*_+`'~-."];
    let bads = ["", ",", "timer,", ",timer", "timer,,timer", "timer 100rel", "timer;100rel", "\"timer\"", "a, ,b"];
    check("INVITE", "Require", 14, &goods, &bads);
}

#[test]
fn ignored_fields_may_hold_anything() {
    // Privacy, Require, P-Asserted-Identity and Contact are ignored in CANCEL; Reason in INVITE.
    for name in ["Privacy", "Require", "P-Asserted-Identity", "Contact", "Content-Type", "Record-Route"] {
        assert_eq!(with_value("CANCEL", name, b""), [0, 0, 0, 0]);
    }
    assert_eq!(with_value("INVITE", "Reason", b""), [0, 0, 0, 0]);
}
