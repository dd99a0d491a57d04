//! "Fields and the calling number".
mod common;
use common::*;
use second::{calling_number, calling_slice, count, reading, reading_slice, Part};

const EMPTY: Part = Part { from_trunk: false, start: 0, length: 0 };
const TRUNK: &[u8] = b"+33999999999";
const NAMES: [&str; 18] = [
    "Via", "Max-Forwards", "From", "To", "Call-ID", "CSeq", "Contact", "Content-Length", "Content-Type", "Route", "Reason",
    "Allow", "Supported", "Require", "P-Asserted-Identity", "Privacy", "Accept", "Record-Route",
];

#[test]
fn counts_of_the_call() {
    let counts: Vec<usize> = (0..=20).map(|n| count(&call(), n)).collect();
    assert_eq!(counts, [0, 1, 1, 1, 1, 1, 1, 1, 1, 0, 0, 0, 1, 0, 0, 1, 1, 0, 0, 0, 0]);
    assert_eq!(count(&call(), u64::MAX), 0);
    assert_eq!(reading_slice(&call(), 12, 1), b"INVITE, ACK, BYE");
    assert_eq!(reading_slice(&call(), 8, 1), b"0");
}

#[test]
fn every_number_in_every_method_also_where_ignored() {
    for method in ["INVITE", "ACK", "BYE", "CANCEL", "OPTIONS", "INFO"] {
        for (place, name) in NAMES.iter().enumerate() {
            let number = place as u64 + 1;
            let fields = vec![(name.to_string(), b"a".to_vec()), ("X".into(), b"b".to_vec()), (name.to_uppercase(), b"c".to_vec())];
            let message = build(method, "?", &fields, b"");
            assert_eq!(count(&message, number), 2);
            assert_eq!(reading_slice(&message, number, 1), b"a");
            assert_eq!(reading_slice(&message, number, 2), b"c");
            for k in [0, 3, u64::MAX] {
                assert_eq!(reading(&message, number, k), (0, 0));
            }
        }
    }
}

#[test]
fn reading_is_trimmed_and_keeps_folds() {
    let message = b"X y SIP/2.0\r\nRoute :\r\n\t a \r\n b\t\r\n \r\nRoute:\r\nRoute: \r\n \r\nroute:c\r\n\r\nRoute: d\r\n";
    assert_eq!(count(message, 10), 4);
    assert_eq!(reading_slice(message, 10, 1), b"a \r\n b");
    let (start, length) = reading(message, 10, 1);
    assert_eq!(&message[start..start + length], b"a \r\n b");
    assert_eq!((reading(message, 10, 2), reading(message, 10, 3)), ((0, 0), (0, 0)));
    assert_eq!(reading_slice(message, 10, 4), b"c");
}

#[test]
fn nothing_at_reasons_2_to_5() {
    let good = b"X y SIP/2.0\r\nRoute: a\r\n\r\n".to_vec();
    assert_eq!(count(&good, 10), 1);
    let mut long = good.clone();
    long.resize(8192, b'x');
    assert_eq!(count(&long, 10), 1);
    long.push(b'x');
    let many = format!("X y SIP/2.0\r\n{}\r\n", "Route: a\r\n".repeat(97)).into_bytes();
    let most = format!("X y SIP/2.0\r\n{}\r\n", "Route: a\r\n".repeat(96)).into_bytes();
    assert_eq!((count(&most, 10), reading_slice(&most, 10, 96)), (96, &b"a"[..]));
    for bad in [long, many, good[1..].to_vec(), good[..good.len() - 1].to_vec(), Vec::new()] {
        assert_eq!((count(&bad, 10), reading(&bad, 10, 1)), (0, (0, 0)));
    }
}

#[test]
fn calling_number_of_the_call() {
    let message = call();
    let part = calling_number(&message, TRUNK);
    assert!(!part.from_trunk);
    assert_eq!(calling_slice(&message, TRUNK), b"+33187654321");
    let field = message.windows(20).position(|w| w == b"P-Asserted-Identity:").unwrap();
    assert_eq!((part.start, part.length), (field + 26, 12));
}

#[test]
fn calling_number_in_all_forms_of_identity() {
    for value in [
        "<sip:+1234567@h>", "sip:+1234567@h", "tel:+1234567", "<TEL:+1234567>", "\r\n \"+9999999 <sip:+8888888@h>\"\r\n <sip:+1234567@h;x=+1234567> ",
        "\"a \t\r\n \t b\\\" <\"\r\n\t<tel:+1234567>\r\n ", "A\r\n B \r\n C<sip:+1234567@h>",
    ] {
        let mut fields = base("INVITE");
        set(&mut fields, "P-Asserted-Identity", value.as_bytes());
        let message = build("INVITE", URI, &fields, b"");
        assert_eq!(calling_slice(&message, TRUNK), b"+1234567", "{value}");
        assert!(!calling_number(&message, TRUNK).from_trunk);
    }
}

#[test]
fn trunk_where_no_identity_counts() {
    let trunk = Part { from_trunk: true, start: 0, length: TRUNK.len() };
    let mut again = base("INVITE");
    set(&mut again, "To", b"<sip:b@h>;tag=1");
    let with_identity = build("INVITE", URI, &again, b"");
    assert_eq!(calling_slice(&with_identity, TRUNK), b"+33187654321");
    again.retain(|(name, _)| name != "P-Asserted-Identity");
    assert_eq!(calling_number(&build("INVITE", URI, &again, b""), TRUNK), trunk);
    for method in ["ACK", "BYE", "CANCEL", "OPTIONS"] {
        let mut fields = base(method);
        assert_eq!(calling_number(&build(method, URI, &fields, b""), TRUNK), trunk);
        add(&mut fields, "P-Asserted-Identity", b"<sip:+1234567@h>");
        add(&mut fields, "P-Asserted-Identity", b"rubbish");
        assert_eq!(calling_number(&build(method, URI, &fields, b""), TRUNK), trunk);
        assert_eq!(calling_slice(&build(method, URI, &fields, b""), TRUNK), TRUNK);
    }
}

#[test]
fn empty_for_a_bad_trunk_or_a_refused_message() {
    for trunk in [&b""[..], b"+", b"33999999999", b"+0333333333", b"+123456", b"+1234567890123456", b"+123456a", b" +1234567"] {
        assert_eq!(calling_number(&call(), trunk), EMPTY);
    }
    for trunk in [&b"+1234567"[..], b"+123456789012345"] {
        assert_ne!(calling_number(&call(), trunk), EMPTY);
    }
    let no_called = call_with("INVITE sip:+33123456789", "INVITE sip:+331234");
    for message in [Vec::new(), no_called, call_with("70", "0"), call_with("l: 0", "l: 1"), call_with("INVITE sip", "INFO sip")] {
        assert_eq!(calling_number(&message, TRUNK), EMPTY);
        assert_eq!(calling_slice(&message, TRUNK), b"");
    }
}

#[test]
fn every_number_in_responses_also_where_ignored_or_refused() {
    for start in ["SIP/2.0 200 OK", "SIP/2.0 180 ", "SIP/2.0 099 x", "SIP/2.0 700 x", "sip/2.0 000 "] {
        for method in ["INVITE", "CANCEL", "BYE", "ACK", "?"] {
            for (place, name) in NAMES.iter().enumerate() {
                let number = place as u64 + 1;
                let cseq = format!("1 {method}").into_bytes();
                let fields = vec![(name.to_string(), b"a".to_vec()), ("X".into(), b"b".to_vec()), (name.to_uppercase(), b"c".to_vec()), ("CSEQ".into(), cseq.clone())];
                let message = build_from(start, &fields, b"");
                assert_eq!(count(&message, number), if number == 6 { 3 } else { 2 });
                assert_eq!((reading_slice(&message, number, 1), reading_slice(&message, number, 2)), (&b"a"[..], &b"c"[..]));
                assert_eq!(reading_slice(&message, 6, count(&message, 6) as u64), cseq);
                assert_eq!(reading(&message, number, 4), (0, 0));
            }
        }
    }
    for bad in [&b"SIP/2.0 200\r\nVia: x\r\n\r\n"[..], b"SIP/2.0 200 OK\r\nVia: x\r\n", b"SIP/2.0 2000 OK\r\nVia: x\r\n\r\n"] {
        assert_eq!((count(bad, 1), reading(bad, 1, 1)), (0, (0, 0)));
    }
}

#[test]
fn calling_number_of_responses() {
    let trunk = Part { from_trunk: true, start: 0, length: TRUNK.len() };
    for method in ["INVITE", "BYE", "CANCEL", "OPTIONS"] {
        let mut fields = response_base(method);
        let message = |start: &str, fields: &Fields| build_from(start, fields, b"");
        assert_eq!(calling_number(&message("SIP/2.0 200 OK", &fields), TRUNK), trunk);
        assert_eq!(calling_number(&message("SIP/2.0 200 OK", &fields), b"+123456"), EMPTY);
        add(&mut fields, "P-Asserted-Identity", b"<sip:+1234567@h>");
        for start in ["SIP/2.0 200 OK", "SIP/2.0 100 ", "SIP/2.0 699 x"] {
            assert_eq!(calling_number(&message(start, &fields), TRUNK), trunk, "{start}");
        }
        for start in ["SIP/2.0 099 x", "SIP/2.0 700 x", "SIP/2.0 200"] {
            assert_eq!(calling_number(&message(start, &fields), TRUNK), EMPTY, "{start}");
        }
        for (name, value) in [("CSeq", "1 ACK"), ("CSeq", "x"), ("From", ""), ("Content-Length", "1"), ("via", "")] {
            let mut refused = fields.clone();
            set(&mut refused, name, value.as_bytes());
            assert_eq!(calling_number(&message("SIP/2.0 200 OK", &refused), TRUNK), EMPTY, "{name}");
        }
        add(&mut fields, "f", b"");
        assert_eq!(calling_number(&message("SIP/2.0 200 OK", &fields), TRUNK), EMPTY);
    }
}
