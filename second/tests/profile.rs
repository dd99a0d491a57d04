//! "The profile" with CR 1's columns: every row in every column, and "The outgoing message".
mod common;
use common::*;

/// The page's table once more: number, field, a good value, the six columns, then responses to INVITE with 200, to CANCEL, and others.
const TABLE: [(u64, &str, &str, &str); 18] = [
    (1, "Via", "x", "M M M M M M M M M"),
    (2, "Max-Forwards", "9", "M M M M M M - - -"),
    (3, "From", "<sip:a@h>;tag=1", "M M M M M M M M M"),
    (4, "To", "<sip:a@h>", "M M M M M M M M M"),
    (5, "Call-ID", "x", "M M M M M M M M M"),
    (6, "CSeq", "1 METHOD", "M M M M M M M M M"),
    (7, "Contact", "x", "M M S - - S M - S"),
    (8, "Content-Length", "0", "S S S S S S S S S"),
    (9, "Content-Type", "x", "B B B B - B B - B"),
    (10, "Route", "x", "S S S S S S - - -"),
    (11, "Reason", "x", "- - - S S - S - S"),
    (12, "Allow", "x", "M S - S - S S - S"),
    (13, "Supported", "x", "S S - S - S S - S"),
    (14, "Require", "timer", "S S - S - S S - S"),
    (15, "P-Asserted-Identity", "<tel:+1234567>", "M S - - - - - - -"),
    (16, "Privacy", "x", "S S - - - - - - -"),
    (17, "Accept", "x", "S S - - - S S - S"),
    (18, "Record-Route", "x", "S S - - - - S - S"),
];

/// Each column with a start line that leads to it, and the method that its CSeq names. From the seventh on they are of responses.
const COLUMNS: [(&str, &str, &str); 13] = [
    ("INVITE", "INVITE sip:12@h SIP/2.0", "INVITE"),
    ("re", "INVITE sip:h SIP/2.0", "INVITE"),
    ("ACK", "ACK sip:h SIP/2.0", "ACK"),
    ("BYE", "BYE sip:h SIP/2.0", "BYE"),
    ("CANCEL", "CANCEL sip:h SIP/2.0", "CANCEL"),
    ("OPTIONS", "OPTIONS sip:h SIP/2.0", "OPTIONS"),
    ("to INVITE", "SIP/2.0 200 OK", "INVITE"),
    ("to CANCEL", "SIP/2.0 200 OK", "CANCEL"),
    ("other", "SIP/2.0 200 OK", "BYE"),
    ("other", "SIP/2.0 199 ", "INVITE"),
    ("other", "SIP/2.0 300  x\t ", "INVITE"),
    ("other", "SIP/2.0 299 \u{e9}", "OPTIONS"),
    ("to CANCEL", "SIP/2.0 699 no", "CANCEL"),
];

/// The place of a column among the table's nine.
fn letters_at(column: usize) -> usize {
    match column {
        9..=11 => 8,
        12 => 7,
        _ => column,
    }
}

/// The reply of a refusal that a request would have with 400.
fn reply(column: usize) -> u64 {
    if column == 2 || column > 5 { 0 } else { 400 }
}

/// All fields of the table but one, for a column.
fn all_but(column: usize, left_out: u64) -> Fields {
    let mut fields = Vec::new();
    for (number, name, value, _) in TABLE {
        let value = value.replace("METHOD", COLUMNS[column].2);
        let value = if number == 4 && column == 1 { format!("{value};tag=2") } else { value };
        if number != left_out {
            fields.push((name.to_string(), value.into_bytes()));
        }
    }
    fields
}

fn letter(columns: &str, column: usize) -> &str {
    columns.split(' ').nth(letters_at(column)).unwrap()
}

#[test]
fn ignored_fields_are_dropped_and_the_others_kept() {
    for (column, (name, start, _)) in COLUMNS.iter().enumerate() {
        let message = build_from(start, &all_but(column, 0), b"");
        let (numbers, out) = run(&message, 1);
        assert_eq!(numbers[0], 0, "{name}");
        let mut wanted = format!("{start}\r\n").into_bytes();
        for ((_, name, _, columns), (_, value)) in TABLE.iter().zip(all_but(column, 0)) {
            let value = if *name == "Max-Forwards" { b"8".to_vec() } else { value };
            if letter(columns, column) != "-" {
                wanted.extend([name.as_bytes(), b": ", &value, b"\r\n"].concat());
            }
        }
        wanted.extend(b"\r\n");
        assert_eq!(out, wanted, "{name}");
    }
}

#[test]
fn each_field_missing_in_each_column() {
    for (column, (name, start, _)) in COLUMNS.iter().enumerate() {
        for (number, _, _, columns) in TABLE {
            // Without its To an INVITE is an initial one; the table's To has no tag there.
            let message = build_from(start, &all_but(column, number), b"");
            let wanted = match letter(columns, column) {
                // Without CSeq a response has no method.
                "M" if number == 6 && column > 5 => [6, 0, 0, 0],
                "M" => [12, reply(column), number, 1],
                _ => [0, 0, 0, 0],
            };
            assert_eq!(numbers(&message), wanted, "{name} {number}");
        }
    }
}

#[test]
fn content_type_is_due_with_a_body_after_cutting() {
    for (column, (name, start, _)) in COLUMNS.iter().enumerate() {
        let due = letter(TABLE[8].3, column) == "B";
        let mut fields = all_but(column, 9);
        set(&mut fields, "Content-Length", b"1");
        let wanted = if due { [12, reply(column), 9, 1] } else { [0, 0, 0, 0] };
        assert_eq!(numbers(&build_from(start, &fields, b"xy")), wanted, "{name}");
        set(&mut fields, "Content-Length", b"0");
        assert_eq!(numbers(&build_from(start, &fields, b"xy")), [0, 0, 0, 0], "{name}");
    }
}

#[test]
fn output_keeps_message_order() {
    let mut fields = base("INVITE");
    fields.reverse();
    add(&mut fields, "Via", b"second");
    let out = run(&build("INVITE", URI, &fields, b""), 1).1;
    set(&mut fields, "Max-Forwards", b"69");
    assert_eq!(out, build("INVITE", URI, &fields, b""));
}

#[test]
fn max_forwards_is_one_less_without_zeros() {
    for (value, wanted) in [("1", "0"), ("001", "0"), ("010", "9"), ("10", "9"), ("100", "99"), ("101", "100"), ("255", "254")] {
        let mut fields = base("BYE");
        set(&mut fields, "Max-Forwards", value.as_bytes());
        let out = run(&build("BYE", URI, &fields, b""), 1).1;
        set(&mut fields, "Max-Forwards", wanted.as_bytes());
        assert_eq!(out, build("BYE", URI, &fields, b""));
    }
}

#[test]
fn start_line_goes_out_in_capitals_with_its_uri_as_written() {
    let message = build("BYE", "SIP:A%2f@H", &base("BYE"), b"");
    let text = String::from_utf8(message).unwrap().replacen("SIP/2.0\r\n", "sIp/2.0\r\n", 1);
    assert!(run(text.as_bytes(), 1).1.starts_with(b"BYE SIP:A%2f@H SIP/2.0\r\nVia: "));
}

#[test]
fn withheld_on_side_1_only_and_in_both_invite_columns() {
    for to in ["<sip:b@h>", "<sip:b@h>;tag=2"] {
        let mut fields = base("INVITE");
        set(&mut fields, "To", to.as_bytes());
        set(&mut fields, "From", b"\"A;tag=no\" <sip:+331@h;tag=no> ; x=\"tag=no\" ; TAG\t=\r\n Yes ;y");
        add(&mut fields, "Privacy", b"user ; ID");
        let message = build("INVITE", URI, &fields, b"");
        let trusted = String::from_utf8(run(&message, 0).1).unwrap();
        assert!(trusted.contains("From: \"A;tag=no\" <sip:+331@h;tag=no> ; x=\"tag=no\" ; TAG\t= Yes ;y\r\n"));
        assert!(trusted.contains("\r\nP-Asserted-Identity: "));
        let untrusted = String::from_utf8(run(&message, 1).1).unwrap();
        assert!(untrusted.contains("From: \"Anonymous\" <sip:anonymous@anonymous.invalid>;tag=Yes\r\nTo: "));
        assert!(!untrusted.contains("P-Asserted-Identity"));
        assert!(untrusted.contains("\r\nPrivacy: user ; ID\r\n"));
    }
}

#[test]
fn output_is_fewer_than_1024_bytes_longer() {
    let mut text = "INVITE sip:12@h SIP/2.0\r\nv:x\r\nMax-Forwards:9\r\nf:sip:h;tag=1\r\nt:sip:h\r\ni:x\r\nCSeq:1 INVITE\r\n".to_string();
    text += "m:x\r\nAllow:\r\nP-Asserted-Identity:tel:+1234567\r\nPrivacy:id\r\nl:0\r\nc:x\r\n";
    text += &"k:\r\n".repeat(84);
    text += "\r\n";
    for side in [0, 1] {
        let length = run(text.as_bytes(), side).0[4] as usize;
        assert!(length > text.len() + 700 && length < text.len() + 1024, "{length}");
    }
}
