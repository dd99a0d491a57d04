//! "A call in full", its changes, and "Slips to shut out".
mod common;
use common::*;
use second::causes::Answer;
use second::{cause_of_status, status_of_cause};

#[test]
fn call_in_full() {
    let (numbers, out) = run(&call(), 1);
    assert_eq!(numbers, [0, 0, 0, 0, crlf(HIDDEN).len() as u64]);
    assert_eq!(out, crlf(HIDDEN));
}

#[test]
fn call_in_full_on_the_trusted_side() {
    assert_eq!(run(&call(), 0).1, crlf(SHOWN));
}

#[test]
fn listed_changes() {
    assert_eq!(numbers(b""), [3, 0, 0, 0]);
    let no_fields = b"INVITE sip:+33123456789@gw.example SIP/2.0\r\n\r\n";
    assert_eq!(numbers(no_fields), [12, 400, 1, 9]);
    let empty = call_with("P-Asserted-Identity: <sip:+33187654321@relay.example>", "P-Asserted-Identity: ");
    assert_eq!(numbers(&empty), [10, 400, 15, 0]);
    let twice = call_with("\nt: ", "\nFrom: <sip:+33187654321@relay.example>;tag=a1\nt: ");
    assert_eq!(numbers(&twice), [9, 400, 3, 0]);
    assert_eq!(numbers(&call_with("Forwards: 70", "Forwards: 0")), [13, 483, 0, 0]);
    assert_eq!(numbers(&call_with("Forwards: 70", "Forwards: 256")), [10, 400, 2, 0]);
    assert_eq!(numbers(&call_with("l: 0", "l: 1")), [11, 400, 0, 0]);
    assert_eq!(numbers(&call_with("INVITE sip:+33123456789", "INVITE sip:+3312345")), [0, 0, 0, 0]);
    assert_eq!(numbers(&call_with("INVITE sip:+33123456789", "INVITE sip:+331234")), [15, 484, 0, 0]);
    assert_eq!(numbers(&call_with("INVITE sip:", "INFO sip:")), [6, 405, 0, 0]);
    let inside = call_with("f: <sip:+33187654321@relay.example>;tag=a1", "f: <sip:+33187654321@relay.example;tag=a1>");
    assert_eq!(numbers(&inside), [10, 400, 3, 0]);
    assert_eq!(status_of_cause(26), Answer { status: 480, row: 31, refusal: 0 });
    assert_eq!(cause_of_status(606), (127, 0));
}

#[test]
fn the_accepted_short_number_goes_out() {
    let (numbers, out) = run(&call_with("INVITE sip:+33123456789", "INVITE sip:+3312345"), 1);
    assert_eq!(numbers[0], 0);
    assert_eq!(out, crlf(&HIDDEN.replace("INVITE sip:+33123456789", "INVITE sip:+3312345")));
}

#[test]
fn slip_names_by_prefix() {
    // A `Via-Extra` alone leaves Via missing, and beside Via it is dropped.
    assert_eq!(numbers(&call_with("\nv: ", "\nVia-Extra: ")), [12, 400, 1, 1]);
    assert_eq!(run(&call_with("\nv: ", "\nVia-Extra: x\nv: "), 1).1, crlf(HIDDEN));
    assert_eq!(run(&call_with("\nv: ", "\nVi: x\nFro: x\nv: "), 1).1, crlf(HIDDEN));
}

#[test]
fn slip_tag_in_brackets() {
    // In To such a tag does not make the INVITE a re-INVITE.
    let inside = call_with("t: <sip:+33123456789@gw.example>", "t: <sip:+33123456789@gw.example;tag=x>");
    assert_eq!(numbers(&inside), [0, 0, 0, 0]);
    let no_allow = String::from_utf8(inside).unwrap().replace("Allow: INVITE, ACK, BYE\r\n", "");
    assert_eq!(numbers(no_allow.as_bytes()), [12, 400, 12, 1]);
}

#[test]
fn slip_identity_is_not_id() {
    let out = run(&call_with("Privacy: id", "Privacy: identity"), 1).1;
    let text = String::from_utf8(out).unwrap();
    assert!(text.contains("P-Asserted-Identity: <sip:+33187654321@relay.example>\r\n"));
    assert!(text.contains("From: <sip:+33187654321@relay.example>;tag=a1\r\n"));
    assert!(text.contains("Privacy: identity\r\n"));
}

#[test]
fn slip_ack_is_never_answered() {
    let mut fields = base("ACK");
    set(&mut fields, "Max-Forwards", b"x");
    assert_eq!(numbers(&build("ACK", URI, &fields, b"")), [10, 0, 2, 0]);
}

#[test]
fn slip_fold_keeps_its_space() {
    let folded = call_with("Allow: INVITE, ACK, BYE", "Allow: INVITE,\n\t ACK,\n BYE");
    assert_eq!(run(&folded, 1).1, crlf(HIDDEN));
}
