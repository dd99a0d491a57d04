//! "Lines": start line, fields, folds, empty line, each on both sides of its edge.
mod common;
use common::*;

fn start(line: &[u8]) -> u64 {
    let mut message = line.to_vec();
    message.extend(b"\r\n\r\n");
    numbers(&message)[0]
}

/// The reason of an INVITE whose only field text is this (12: its lines are well shaped).
fn fields(text: &[u8]) -> u64 {
    let mut message = b"INVITE sip:12@h SIP/2.0\r\n".to_vec();
    message.extend(text);
    numbers(&message)[0]
}

#[test]
fn start_line_good() {
    for line in [&b"INVITE sip:12@h SIP/2.0"[..], b"INVITE sip:12@h sip/2.0", b"INVITE sip:12@h sIp/2.0"] {
        assert_eq!(start(line), 12);
    }
    assert_eq!(start(b"!%*_+`'~-.aZ09 sip:12@h SIP/2.0"), 6);
}

#[test]
fn start_line_bad() {
    let bad: [&[u8]; 15] = [
        b"", b" ", b"INVITE", b"INVITE sip:12@h", b"INVITE  sip:12@h SIP/2.0", b"INVITE sip:12@h  SIP/2.0",
        b" INVITE sip:12@h SIP/2.0", b"INVITE sip:12@h SIP/2.0 ", b"INVITE sip:12@h SIP/2.1", b"INVITE\tsip:12@h SIP/2.0",
        b"INVITE sip:12@h SIP/2.0\r", b"INVITE sip:12@h SIP/2.0\n", b"INV(TE sip:12@h SIP/2.0", b"INVITE sip:\x7f@h SIP/2.0",
        b"INVITE sip:\x80@h SIP/2.0",
    ];
    for line in bad {
        assert_eq!(start(line), 3, "{}", String::from_utf8_lossy(line));
    }
    assert_eq!(numbers(b"INVITE sip:12@h SIP/2.0")[0], 3);
    assert_eq!(numbers(b"INVITE sip:12@h SIP/2.0\n\n")[0], 3);
    assert_eq!(numbers(b"\r\nINVITE sip:12@h SIP/2.0\r\n\r\n")[0], 3);
    assert_eq!(numbers(b"INVITE sip:12@h SIP/2.0\r")[0], 3);
}

#[test]
fn start_line_lengths() {
    let method = |n: usize| start(format!("{} sip:12@h SIP/2.0", "A".repeat(n)).as_bytes());
    assert_eq!((method(0), method(1), method(32), method(33)), (3, 6, 6, 3));
    let uri = |n: usize| start(format!("INVITE {} SIP/2.0", "!".repeat(n)).as_bytes());
    assert_eq!((uri(0), uri(1), uri(256), uri(257)), (3, 8, 8, 3));
}

#[test]
fn status_line_good() {
    let good: [&[u8]; 10] = [
        b"SIP/2.0 200 OK", b"sip/2.0 200 OK", b"sIp/2.0 100 Trying", b"SIP/2.0 200 ", b"SIP/2.0 699  ", b"SIP/2.0 200 \t", b"SIP/2.0 486 Busy Here ",
        b"SIP/2.0 404 \xff\x80~!\"\\", b"SIP/2.0 200 SIP/2.0", b"SIP/2.0 300 a SIP/2.0",
    ];
    for line in good {
        // No CSeq: the line was read, and its status is one of 100 to 699.
        assert_eq!(start(line), 6, "{}", String::from_utf8_lossy(line));
    }
    for line in [&b"SIP/2.0 099 x"[..], b"SIP/2.0 000 x", b"SIP/2.0 700 ", b"SIP/2.0 999 x"] {
        assert_eq!(start(line), 17);
    }
}

#[test]
fn status_line_bad() {
    let bad: [&[u8]; 28] = [
        b"SIP/2.0", b"SIP/2.0 ", b"SIP/2.0 200", b"SIP/2.0  200 OK", b"SIP/2.0\t200 OK", b"SIP/2.0 200\tOK", b"SIP/2.0 20 OK", b"SIP/2.0 2000 OK",
        b"SIP/2.0 2 0 OK", b"SIP/2.0 2x0 OK", b"SIP/2.0 +20 OK", b"SIP/2.0 -20 OK", b"SIP/2.0 OK 200", b"SIP/2.1 200 OK", b"SIP/20 200 OK", b"SIP2.0 200 OK",
        b"SIP/2.0x200 OK", b"SIP/2.00 200 OK", b" SIP/2.0 200 OK", b"HTTP/1.1 200 OK", b"SIP/2.0 200 \x7f", b"SIP/2.0 200 \x00", b"SIP/2.0 200 a\rb",
        b"SIP/2.0 200 a\nb", b"SIP/2.0 200 OK\r", b"SIP/2.0 \xb2\xb2\xb2 OK", b"SIP/2.0 SIP/2.0 SIP/2.0", b"200 OK SIP/2.0 x",
    ];
    for line in bad {
        assert_eq!(start(line), 3, "{}", String::from_utf8_lossy(line));
    }
    assert_eq!(numbers(b"SIP/2.0 200 OK")[0], 3);
    assert_eq!(numbers(b"SIP/2.0 200 OK\n\n")[0], 3);
    assert_eq!(numbers(b"\r\nSIP/2.0 200 OK\r\n\r\n")[0], 3);
    // A request whose method is `200`.
    assert_eq!(start(b"200 OK SIP/2.0"), 6);
    assert_eq!(numbers(b"200 OK SIP/2.0\r\n\r\n"), [6, 405, 0, 0]);
}

#[test]
fn every_byte_of_a_status_line() {
    for byte in 0..=255u8 {
        let line = |front: &[u8], back: &[u8]| start(&[front, &[byte], back].concat());
        let good = byte == 9 || (32..=126).contains(&byte) || byte >= 128;
        assert_eq!(line(b"SIP/2.0 200 a", b"b"), if good { 6 } else { 3 }, "byte {byte}");
        assert_eq!(line(b"SIP/2.0 200 ", b""), if good { 6 } else { 3 }, "byte {byte}");
        for (front, back) in [(&b"SIP/2.0 "[..], &b"00 x"[..]), (b"SIP/2.0 2", b"0 x"), (b"SIP/2.0 20", b" x")] {
            assert_eq!(line(front, back) != 3, byte.is_ascii_digit(), "byte {byte}");
        }
        assert_eq!(line(b"SIP/2.0", b"200 x") != 3, byte == b' ');
        assert_eq!(line(b"SIP/2.0 200", b"x") != 3, byte == b' ');
    }
}

#[test]
fn field_shapes_good() {
    let good: [&[u8]; 13] = [
        b"\r\n", b"X:\r\n\r\n", b"X: \r\n\r\n", b"X \t :a\r\n\r\n", b"X:a\r\n b\r\n\r\n", b"X:\r\n\ta\r\n\r\n",
        b"X:a\r\n \r\n\r\n", b"X:a\r\n \r\n \r\n\t\r\n\r\n", b"X:\x80\xff\t~\r\n\r\n", b"!%*_+`'~-.9: :\r\n\r\n",
        b"X:\"unclosed\r\n\r\n", b"X:a\r\nY:b\r\n\r\n", b"\r\n \x00\r\n",
    ];
    for text in good {
        assert_eq!(fields(text), 12, "{}", String::from_utf8_lossy(text));
    }
}

#[test]
fn field_shapes_bad() {
    let bad: [&[u8]; 24] = [
        b"", b"\r", b"\n", b"X", b"X:", b"X:a", b"X:a\r", b"X:a\r\n", b"X:a\r\n\r", b"X:a\r\n ", b"X:a\r\n b",
        b" X:a\r\n\r\n", b"\tX:a\r\n\r\n", b" \r\n\r\n", b":a\r\n\r\n", b"X\r\n\r\n", b"X\r\n :a\r\n\r\n",
        b"X Y:a\r\n\r\n", b"X(:a\r\n\r\n", b"X:a\rb\r\n\r\n", b"X:a\nb\r\n\r\n", b"X:a\r\r\n\r\n", b"X:\x7f\r\n\r\n",
        b"X:a\n\r\n\r\n",
    ];
    for text in bad {
        assert_eq!(fields(text), 4, "{}", String::from_utf8_lossy(text));
    }
}

#[test]
fn every_byte_as_a_value_byte() {
    for byte in 0..=255u8 {
        let good = byte == 9 || (32..=126).contains(&byte) || byte >= 128;
        let reason = fields(&[b"X:a", &[byte][..], b"b\r\n\r\n"].concat());
        assert_eq!(reason, if good { 12 } else { 4 }, "byte {byte}");
    }
}

#[test]
fn number_of_fields() {
    let many = |n: usize| fields(format!("{}\r\n", "X:\r\n".repeat(n)).as_bytes());
    assert_eq!((many(96), many(97), many(1500)), (12, 5, 5));
    // 4 comes before 5.
    assert_eq!(fields("X:\r\n".repeat(97).as_bytes()), 4);
    assert_eq!(fields(format!("{}X\r\n\r\n", "X:\r\n".repeat(97)).as_bytes()), 4);
}

#[test]
fn size_of_the_message() {
    let mut message = call();
    message.resize(8192, 0);
    assert_eq!(numbers(&message)[0], 0);
    message.push(0);
    assert_eq!(numbers(&message), [2, 0, 0, 0]);
    // 2 comes before 3.
    assert_eq!((numbers(&[b'x'; 8192])[0], numbers(&[b'x'; 8193])[0]), (3, 2));
}

fn canonical(value: &[u8]) -> Vec<u8> {
    let mut fields = base("OPTIONS");
    add(&mut fields, "Accept", value);
    let (numbers, out) = run(&build("OPTIONS", URI, &fields, b""), 1);
    assert_eq!(numbers[0], 0);
    let mark = b"\r\nAccept: ";
    let at = out.windows(mark.len()).position(|part| part == mark).unwrap() + mark.len();
    out[at..out.len() - 4].to_vec()
}

#[test]
fn canonical_values() {
    let pairs: [(&[u8], &[u8]); 13] = [
        (b"", b""),
        (b" \t ", b""),
        (b"a  b\t\tc", b"a  b\t\tc"),
        (b"\t a \t", b"a"),
        (b"a\r\n b", b"a b"),
        (b"a \t\r\n \t b", b"a b"),
        (b"a\r\n \r\n\t\r\n b", b"a b"),
        (b"a \r\n b  c\t\r\n\td", b"a b  c d"),
        (b"\r\n a", b"a"),
        (b"a\r\n ", b"a"),
        (b"\r\n \r\n ", b""),
        (b"\"x \r\n y\"", b"\"x y\""),
        (b"\xff\r\n \x80", b"\xff \x80"),
    ];
    for (value, wanted) in pairs {
        assert_eq!(canonical(value), wanted, "{}", String::from_utf8_lossy(value));
    }
}

#[test]
fn folds_are_joined_before_values_are_read() {
    assert_eq!(with_value("BYE", "CSeq", b"1\r\n BYE")[0], 0);
    assert_eq!(with_value("BYE", "CSeq", b"\r\n 1 BYE\r\n ")[0], 0);
    assert_eq!(with_value("BYE", "CSeq", b"1 B\r\n YE"), [10, 400, 6, 0]);
    assert_eq!(with_value("BYE", "Max-Forwards", b"\r\n 7\r\n ")[0], 0);
    assert_eq!(with_value("BYE", "Max-Forwards", b"7\r\n 0"), [10, 400, 2, 0]);
}

#[test]
fn names_in_any_case_whole_and_compact() {
    let mut message = b"BYE sip:12@h SIP/2.0\r\n".to_vec();
    message.extend(b"V:x\r\nmAX-fORWARDS:1\r\nF:<sip:h>;tag=1\r\nT:<sip:h>\r\nI:a\r\ncseq\t:1 BYE\r\nK:\r\nL:0\r\nC:x\r\n\r\n");
    let (numbers, out) = run(&message, 1);
    assert_eq!(numbers[0], 0);
    let text = String::from_utf8(out).unwrap();
    for name in ["Via: x", "Max-Forwards: 0", "From: <sip:h>;tag=1", "To: <sip:h>", "Call-ID: a", "CSeq: 1 BYE"] {
        assert!(text.contains(&format!("\r\n{name}\r\n")), "{name}");
    }
    assert!(text.ends_with("Supported: \r\nContent-Length: 0\r\nContent-Type: x\r\n\r\n"));
}

#[test]
fn body_and_cutting() {
    let with = |length: Option<&str>, body: &[u8]| {
        let mut fields = base("CANCEL");
        if let Some(length) = length {
            add(&mut fields, "Content-Length", length.as_bytes());
        }
        run(&build("CANCEL", URI, &fields, body), 1)
    };
    assert!(with(None, b" \x00\r\n\r\n").1.ends_with(b"CANCEL\r\n\r\n \x00\r\n\r\n"));
    assert!(with(Some("0002"), b"abc").1.ends_with(b"Content-Length: 2\r\n\r\nab"));
    assert!(with(Some("3"), b"abc").1.ends_with(b"Content-Length: 3\r\n\r\nabc"));
    assert_eq!(with(Some("4"), b"abc").0, [11, 400, 0, 0, 0]);
    assert_eq!(with(Some("99999"), b"abc").0[0], 11);
}
