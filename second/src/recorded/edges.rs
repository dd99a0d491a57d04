//! "Lines" and "Values that are read": each rule just kept and just broken, every byte in every kind of place, folds everywhere.

use super::{both_sides, untrusted, Case};
use crate::drafts::{call, call_with, Draft, Whole};

pub fn cases() -> Vec<Case> {
    let mut all = Vec::new();
    for side in 0..=255 {
        // Every number of a side that a byte can hold.
        all.push(Case::new(side, Draft::short("BYE").bytes()));
    }
    let groups = [start_lines(), shapes(), truncated(), each_byte(), folds(), numbers(), identifiers(), uris(), addresses(), tokens(), precedence()];
    all.extend(groups.into_iter().flat_map(untrusted));
    all.extend(both_sides(asserted()));
    all
}

fn text(pieces: &[&str]) -> Vec<u8> {
    pieces.concat().into_bytes()
}

/// The start line, the rest of the message being good.
fn start_lines() -> Vec<Vec<u8>> {
    let after = "Via: x\r\nMax-Forwards: 9\r\nFrom: <sip:h>;tag=1\r\nTo: sip:h\r\nCall-ID: x\r\nCSeq: 1 BYE\r\n\r\n";
    let long_uri = |length: usize| format!("sip:{}", "h".repeat(length - 4));
    let with_tail = |length: usize| format!("sip:h;{}", "p".repeat(length - 6));
    let mut lines: Vec<String> = [
        "BYE sip:h SIP/2.0\r\n", "BYE sip:h sip/2.0\r\n", "BYE sip:h sIp/2.0\r\n", "BYE sip:h SIP/2.1\r\n", "BYE sip:h SIP/3.0\r\n",
        "BYE sip:h SIP/2.00\r\n", "BYE sip:h SIP/2.\r\n", "BYE sip:h SIP/2,0\r\n", "BYE sip:h SIP/2.0 \r\n", "BYE sip:h  SIP/2.0\r\n",
        "BYE  sip:h SIP/2.0\r\n", " BYE sip:h SIP/2.0\r\n", "BYE\tsip:h SIP/2.0\r\n", "BYE sip:h\tSIP/2.0\r\n", "BYE sip:h SIP/2.0\n",
        "BYE sip:h SIP/2.0\r", "BYE sip:h SIP/2.0\r\r\n", "BYE sip:h SIP/2.0", "BYE sip:h\r\n", "BYE SIP/2.0\r\n", "BYE\r\n", " \r\n",
        "\r\nBYE sip:h SIP/2.0\r\n", "\r\n", "", "bye sip:h SIP/2.0\r\n", "Bye sip:h SIP/2.0\r\n", "BYEX sip:h SIP/2.0\r\n", "BY sip:h SIP/2.0\r\n",
        "INFO sip:h SIP/2.0\r\n", "REGISTER sip:h SIP/2.0\r\n", "PRACK sip:h SIP/2.0\r\n", "UPDATE sip:h SIP/2.0\r\n", "invite sip:h SIP/2.0\r\n",
        "ACKX sip:h SIP/2.0\r\n", "CANCEL1 sip:h SIP/2.0\r\n", "OPTION sip:h SIP/2.0\r\n", "-.!%*_+`'~ sip:h SIP/2.0\r\n", "BYE sip:h sip:h SIP/2.0\r\n",
        "SIP/2.0 200 OK\r\n", "BYE h SIP/2.0\r\n", "BYE * SIP/2.0\r\n", "BYE : SIP/2.0\r\n", "BYE \x7f SIP/2.0\r\n", "BYE sip:h\x7f SIP/2.0\r\n",
        "BYE sip:h~ SIP/2.0\r\n", "BYE sip:h\r\n SIP/2.0\r\n", "BYE sip:h\r SIP/2.0\r\n", "BYE sip:h SIP/2.0\r\n\r\n",
    ]
    .map(String::from)
    .to_vec();
    for length in [1, 31, 32, 33, 34, 64] {
        lines.push(format!("{} sip:h SIP/2.0\r\n", "M".repeat(length)));
        lines.push(format!("{} SIP/2.0\r\n", "B".repeat(length)));
    }
    for length in [255, 256, 257, 258, 300] {
        lines.push(format!("BYE {} SIP/2.0\r\n", long_uri(length)));
        lines.push(format!("BYE {} SIP/2.0\r\n", with_tail(length)));
        lines.push(format!("BYE {} SIP/2.0\r\n", "!".repeat(length)));
    }
    let mut out: Vec<Vec<u8>> = lines.iter().map(|line| text(&[line, after])).collect();
    out.extend(lines.iter().take(4).map(|line| text(&[line])));
    for byte in [0, 9, 10, 13, 31, 32, 127, 128, 255] {
        out.push([b"B", &[byte][..], b"E sip:h SIP/2.0\r\n", after.as_bytes()].concat());
        out.push([b"BYE sip:", &[byte][..], b"h SIP/2.0\r\n", after.as_bytes()].concat());
        out.push([b"BYE sip:h SIP/2", &[byte][..], b"0\r\n", after.as_bytes()].concat());
    }
    out
}

/// A field's shape and the empty line.
fn shapes() -> Vec<Vec<u8>> {
    let start = "BYE sip:h SIP/2.0\r\n";
    let good = "v:x\r\nMax-Forwards:9\r\nf:<sip:h>;tag=1\r\nt:sip:h\r\ni:x\r\nCSeq:1 BYE\r\n";
    let mut out = Vec::new();
    for line in [
        "X: y\r\n", "X:y\r\n", "X :y\r\n", "X\t \t:\t \ty \t\r\n", "X:\r\n", "X: \r\n", "X:\t\r\n", "X\r\n", "X y\r\n", ":y\r\n", " :y\r\n", " X: y\r\n",
        "\tX: y\r\n", "X: y\n", "X: y\r", "X: y\r\r\n", "X: y\n\r\n", "X: \r\ry\r\n", "X: \ny\r\n", "X: a\rb\r\n", "X: a\nb\r\n", "X: a\r\n\nb\r\n",
        "X: a\r\n b\r\n", "X: a\r\n\tb\r\n", "X:\r\n a\r\n", "X:\r\n \r\n \r\n", "X: a\r\n \r\n\r\n", "X: a\r\n  \r\n\t\r\n b\r\n", "X\r\n : y\r\n",
        "X \r\n: y\r\n", "X: \0\r\n", "X: \x01\r\n", "X: \x08\r\n", "X: \x0b\r\n", "X: \x1f\r\n", "X: \x7f\r\n", "X: \u{80}\u{ff}\r\n", "X@: y\r\n",
        "X(: y\r\n", "X/: y\r\n", "X\": y\r\n", "X\u{e9}: y\r\n", "-.!%*_+`'~09azAZ: y\r\n", "X::\r\n", "X:: y:\r\n", "X: y\r\n: z\r\n", "\r\nX: y\r\n",
        "X: y\r\n\r\n", "X: a\r\n\r\n b\r\n", "X: a \r\nb: c\r\n", "X: a\r\nb\r\n",
    ] {
        out.push(text(&[start, line, good, "\r\n"]));
        out.push(text(&[start, good, line, "\r\n"]));
        out.push(text(&[start, good, line]));
    }
    for end in ["", "\r", "\n", "\n\r\n", "\r\r\n", " \r\n", "\t\r\n\r\n", "\r\n", "\r\n\r\n", "\r\n ", "\r\n \r\n", "\r\nX", "\r\n\0\r\n\x7f"] {
        out.push(text(&[start, good, end]));
        out.push(text(&[start, end]));
        out.push(text(&[start, good, "Content-Type: x\r\n", end]));
    }
    out
}

/// Every front part of a short message and of the call's first lines.
fn truncated() -> Vec<Vec<u8>> {
    let short = Draft::short("CANCEL").carrying(b"abc").bytes();
    let mut out: Vec<Vec<u8>> = (0..short.len()).map(|length| short[..length].to_vec()).collect();
    let call = call();
    out.extend((0..call.len()).step_by(7).map(|length| call[..length].to_vec()));
    out.extend((0..call.len()).step_by(11).map(|start| call[start..].to_vec()));
    out
}

/// Every byte in each kind of place.
fn each_byte() -> Vec<Vec<u8>> {
    let bye = Draft::short("BYE");
    let mut out = Vec::new();
    for byte in 0..=255u8 {
        let one = [byte];
        let put = |front: &str, back: &str| [front.as_bytes(), &one, back.as_bytes()].concat();
        let mut name = bye.clone();
        name.fields.insert(0, Whole { name: put("X", "Y"), rest: b": z\r\n".to_vec() });
        out.push(name.bytes());
        out.push(bye.and("Route", &put("a", "b")).bytes());
        out.push(bye.to(&put("sip:a", "b@h")).bytes());
        out.push(bye.to(&put("sip:a", "b")).bytes());
        out.push(bye.to(&put("sip:h;a", "b")).bytes());
        out.push(bye.to(&put("x", ":y")).bytes());
        out.push(bye.with(5, &put("a", "b")).bytes());
        out.push(bye.with(3, &put("<sip:h>;tag=a", "")).bytes());
        out.push(bye.with(4, &put("\"a", "b\" <sip:h>")).bytes());
        out.push(bye.with(4, &put("\"\\", "\" <sip:h>")).bytes());
        out.push(bye.with(4, &put("a", "b <sip:h>")).bytes());
        out.push(bye.with(4, &put("<sip:a", "b@h>")).bytes());
        out.push(bye.with(4, &put("sip:h", "")).bytes());
        out.push(bye.with(4, &put("<sip:h>", ";a")).bytes());
        out.push(bye.with(14, &put("timer", "")).bytes());
    }
    out
}

/// A fold put between any two bytes of the fields, and longer ones at the ends of values.
fn folds() -> Vec<Vec<u8>> {
    let mut short = Draft::short("BYE");
    short.add("Require", b"timer, x");
    short.add("X", b"a b");
    let message = short.bytes();
    let mut out = Vec::new();
    for place in 0..message.len() {
        let fold: &[u8] = match place % 4 {
            0 => b"\r\n\t",
            1 => b" \r\n \t\r\n ",
            _ => b"\r\n ",
        };
        out.push([&message[..place], fold, &message[place..]].concat());
    }
    let full = Draft::full(0);
    for place in 0..full.fields.len() {
        for fold in ["\r\n ", "\t \r\n\t \r\n \t", "\r\n \r\n\t\r\n "] {
            let rest = full.fields[place].rest.clone();
            let mut draft = full.clone();
            draft.fields[place].rest = [&b":"[..], fold.as_bytes(), &rest[1..]].concat();
            out.push(draft.bytes());
            draft.fields[place].rest = [&rest[..rest.len() - 2], fold.as_bytes(), b"\r\n"].concat();
            out.push(draft.bytes());
            let spaced = String::from_utf8_lossy(&rest).replacen(' ', fold, 2).replacen([';', ','], &format!("{fold};{fold}"), 1);
            draft.fields[place].rest = spaced.into_bytes();
            out.push(draft.bytes());
        }
    }
    out
}

/// Max-Forwards, Content-Length and CSeq.
fn numbers() -> Vec<Vec<u8>> {
    let bye = Draft::short("BYE").and("c", b"x").carrying(b"0123456789ab");
    let mut out = Vec::new();
    for value in [
        "", "0", "00", "000", "0000", "1", "01", "001", "0001", "2", "9", "10", "010", "99", "100", "101", "199", "200", "249", "250", "254", "255",
        "256", "257", "260", "300", "999", "1000", "-1", "+1", "1 ", " 1", "1 1", "1a", "a", "1.", "\u{b2}", "0x1", "1\r\n ", "\r\n 70", "7\r\n 0",
    ] {
        out.push(bye.with(2, value.as_bytes()).bytes());
    }
    for value in [
        "", "0", "00", "00000", "000000", "1", "9", "10", "11", "12", "012", "00012", "000012", "13", "14", "99", "100", "65535", "65536", "99999",
        "100000", "-1", "+1", "1 2", "1a", " 3 ", "\r\n 3", "1\r\n 2", "3;", "4294967296",
    ] {
        out.push(bye.with(8, value.as_bytes()).bytes());
    }
    for value in [
        "", "1", "1 ", "1BYE", " 1 BYE", "1 BYE", "1  BYE", "1\tBYE", "1 \t BYE", "1\r\n BYE", "1 BYE ", "1 BYE x", "1 bye", "1 ByE", "1 BYEX", "1 BY",
        "1 INVITE", "0 BYE", "00 BYE", "0000000001 BYE", "00000000001 BYE", "2147483646 BYE", "2147483647 BYE", "2147483648 BYE", "2147483649 BYE",
        "2147483650 BYE", "3000000000 BYE", "4294967295 BYE", "4294967296 BYE", "4294967297 BYE", "9999999999 BYE", "10000000000 BYE", "12345678901 BYE",
        "-1 BYE", "+1 BYE", "1a BYE", "a BYE", "BYE 1", "1\u{a0}BYE", "1 \u{a0}BYE", "18446744073709551617 BYE",
    ] {
        out.push(bye.with(6, value.as_bytes()).bytes());
    }
    out
}

/// Call-ID, and the fields that need only be there.
fn identifiers() -> Vec<Vec<u8>> {
    let bye = Draft::short("BYE");
    let mut out = Vec::new();
    for length in [0, 1, 2, 127, 128, 129, 130, 200] {
        out.push(bye.with(5, &vec![b'x'; length]).bytes());
        out.push(bye.with(5, &[&b" \t"[..], &vec![b'~'; length], b"\r\n "].concat()).bytes());
    }
    for value in ["a b", "a\tb", "a\r\n b", "a\u{80}", "!", "~", "a@b", "<>\"\\{}[]", "a,b"] {
        out.push(bye.with(5, value.as_bytes()).bytes());
    }
    for column in [0, 3] {
        for number in [1, 7, 9, 10, 11, 12, 13, 17, 18] {
            for value in ["", " ", "\t", "\r\n ", "\r\n \r\n\t", ".", "\u{80}", "\r\n .", "a  b\tc", "a \r\n\t b", ",", "\""] {
                out.push(Draft::full(column).with(number, value.as_bytes()).bytes());
            }
        }
    }
    out
}

/// URIs at their edges, with and without a tail.
fn uri_texts() -> Vec<String> {
    let mut all: Vec<String> = [
        "sip:h", "SIP:h", "sIp:h", "sip:", "sip", "si", "sip:@h", "sip:a@", "sip:a@h", "sip:a@b@h", "sip:a:b@h", "sip:h:", "sip:h:0", "sip:h:1", "sip:h:00001",
        "sip:h:65535", "sip:h:65536", "sip:h:99999", "sip:h:065535", "sip:h:00000", "sip:h:000001", "sip:h:5a", "sip:h:-1", "sip:h;", "sip:h;;=", "sip:h;a=b;c",
        "sip:h;lr:5060", "sip:h:5060;lr", "sip:h?a=b", "sip:h;a?b", "sip:h;a@b", "sip:h;a,b", "sip:h;[]/:&+$-_.!~*'()=;", "sip:h;%41", "sip:h;%4", "sip:h;%", "sip:h;%g1",
        "sip:h;%1g", "sip:h;%%41", "sip:%41@h", "sip:%4@h", "sip:%@h", "sip:%zz@h", "sip:%aF@h", "sip:%41", "sip:&=+$,;?/@h", "sip:-_.!~*'()@h", "sip:a;b=c@h", "sip:a#b@h",
        "sip:a\"b@h", "sip:h_x", "sip:h/x", "sip:-.-", "sip:.", "sip:1.2.3.4", "sip:[::1]", "sip:a b@h", "sips:h", "sips:a@h", "tel:1", "tel:+1", "TEL:1", "Tel:+1", "tel:",
        "tel:+", "tel:++1", "tel:1+", "tel:1;", "tel:1;a=b;c", "tel:+1;phone-context=x", "tel:1-2", "tel:1@h", "tel:1?a", "tel:1;%4", "tel:1;%41", "tel:1:2", "tel:*1", "tel:a",
        "tel:123456789012345", "tel:1234567890123456", "tel:+123456789012345", "tel:+1234567890123456", "tel:000", "http://h", "mailto:a@h", "x:y", "x:", ":", ":y", "::", "a/b:c",
        "urn:x:sip:h", "sip.:h", "+:y", "sip;:h", "h", "*", "sip%3ah", "<sip:h>", "sip:h>", "sipx:h", "si:h", "telx:1", "te:1", "-.!%*_+`'~:y", "s(p:h",
    ]
    .map(String::from)
    .to_vec();
    for length in [1, 2, 63, 64, 65, 66, 128] {
        all.push(format!("sip:{}@h", "u".repeat(length)));
    }
    for triples in [21, 22] {
        all.push(format!("sip:{}@h", "%41".repeat(triples)));
        all.push(format!("sip:{}u@h", "%41".repeat(triples)));
    }
    for length in [251, 252, 253, 254] {
        all.push(format!("sip:{}", "h".repeat(length)));
        all.push(format!("tel:1;{}", "p".repeat(length - 6)));
    }
    all
}

/// Each URI as Request-URI, in brackets and bare in To, in From and in P-Asserted-Identity; and called numbers.
fn uris() -> Vec<Vec<u8>> {
    let bye = Draft::short("BYE");
    let mut out = Vec::new();
    for uri in uri_texts() {
        out.push(bye.to(uri.as_bytes()).bytes());
        out.push(bye.with(4, uri.as_bytes()).bytes());
        out.push(bye.with(4, format!("<{uri}>").as_bytes()).bytes());
        out.push(bye.with(3, format!("{uri};tag=1").as_bytes()).bytes());
        out.push(bye.with(3, format!("x <{uri}> ;tag=1").as_bytes()).bytes());
    }
    for length in [253, 254] {
        out.push(bye.with(4, format!("sip:{}", "h".repeat(length)).as_bytes()).bytes());
        out.push(bye.with(4, format!("<sip:u@{}:5060;lr>", "h".repeat(length)).as_bytes()).bytes());
    }
    let invite = Draft::least(0);
    for number in number_texts() {
        for uri in [format!("sip:{number}@h"), format!("sip:{number};a=b@h"), format!("sip:{number};@h"), format!("sip:{number}=;x@h"), format!("tel:{number}")] {
            out.push(invite.to(uri.as_bytes()).bytes());
        }
        out.push(invite.to(format!("tel:{number};a").as_bytes()).bytes());
        out.push(Draft::least(1).to(format!("sip:{number}@h").as_bytes()).bytes());
    }
    for uri in ["sip:h", "sip:+33123456789", "sip:h;user=+33123456789", "sip:;12@h", "sip:12;;@h", "sip:12;%41;?/@h", "sip:12,;@h", "tel:12;;", "tel:12;", "SIP:12@h", "Tel:12"] {
        out.push(invite.to(uri.as_bytes()).bytes());
    }
    out
}

fn number_texts() -> Vec<String> {
    let mut all: Vec<String> = ["", "+", "1", "01", "12", "00", "012345", "123456", "1234567", "12345678", "a12", "12a", "1a2", "%31%32", "*21", "1-2", "(12)", "++1234567", "+1+234567", "3bd10942411234", "1d42504577501234"]
        .map(String::from)
        .to_vec();
    for digits in [1, 2, 5, 6, 7, 8, 14, 15, 16, 17] {
        all.push(format!("+{}", &"12345678901234567"[..digits]));
        all.push(format!("+0{}", &"12345678901234567"[..digits]));
        all.push("98765432109876543"[..digits].to_string());
    }
    all
}

/// From and To.
fn addresses() -> Vec<Vec<u8>> {
    let bye = Draft::short("BYE");
    let tag = |length: usize| format!("<sip:h>;tag={}", "t".repeat(length));
    let mut texts: Vec<String> = [
        "", "<sip:h>", "sip:h", "<sip:h", "sip:h>", "<<sip:h>>", "< sip:h>", "<sip:h >", "<>", "\"\" <sip:h>", "\"\"<sip:h>", "\"a\" \t <sip:h>", "\"a <sip:h>", "\"a\\\" <sip:h>",
        "\"a\\\\\" <sip:h>", "\"a\\\"b\" <sip:h>", "\"\\\u{e9}\" <sip:h>", "\"a\" b <sip:h>", "b \"a\" <sip:h>", "\"a\"", "\"a\" sip:h", "a<sip:h>", "a b c <sip:h>", "a\tb <sip:h>", "a, b <sip:h>",
        "a@b <sip:h>", "a: <sip:h>", "A. B. <sip:h>", "(a) <sip:h>", "a sip:h", "<sip:h> ", "<sip:h>x", "<sip:h> x", "<sip:h>,<sip:i>", "<sip:h>;", "<sip:h>;;", "<sip:h>;a;", "<sip:h>;a", "<sip:h> ; a",
        "<sip:h>;a=", "<sip:h>;a=;b", "<sip:h>;=b", "<sip:h>;a==b", "<sip:h>;a=b=c", "<sip:h>;a=b c", "<sip:h>;a b", "<sip:h>;a = b ; c", "<sip:h>\t;\ta\t=\tb\t", "<sip:h>;a=\"b\"", "<sip:h>;a=\"\"",
        "<sip:h>;a=\"b", "<sip:h>;a=\"b\"c", "<sip:h>;a=\"b\" ;c", "<sip:h>;a=\"\\\"\";c", "<sip:h>;a=\"b\"=c", "<sip:h>;\"a\"=b", "<sip:h>;a=[::1]", "<sip:h>;a=b;a=c", "sip:h;a=b", "sip:h ;a", "sip:h; a = b",
        "sip:u@h:5060;a", "sip:h:;a", "tel:12;a=b", "sip:h?a", "<sip:h;tag=1>", "<sip:h;tag=1>;tag=2", "<sip:h>;tag=1", "<sip:h>;TAG=1", "<sip:h>;tAg = 1", "<sip:h>;tag=1;tag=1", "<sip:h>;tag=1;x;TAG=2",
        "<sip:h>;tag", "<sip:h>;tag;tag=1", "<sip:h>;tag=", "<sip:h>;tag=\"1\"", "<sip:h>;tag=\"\"", "<sip:h>;tag=a\"b\"", "<sip:h>;tag=a@b", "<sip:h>;tag=-.!%*_+`'~", "<sip:h>;tagx=1", "<sip:h>;xtag=1",
        "<sip:h>;x=\"tag=1\"", "<sip:h>;x=tag", "\"tag=1\" <sip:h>", "tag <sip:h>", "sip:h;tag=1", "sip:u;tag=9@h", "sip:u;tag=9@h;tag=1", "<sip:u;tag=9@h>", "tel:1;tag=1", "tel:1 ; tag=1", "<tel:1;tag=1>",
        "a\r\n b <sip:h>", "\"a\r\n b\" <sip:h>", "<sip:h>\r\n ;a", "<sip:\r\n h>", "<sip:h>;a\r\n =\r\n b", "<sip:h>;a=\"b\r\n c\"", "\"\\\r\n a\" <sip:h>", "*", "<*>", "<http://h>", "http://h", "mailto:x",
    ]
    .map(String::from)
    .to_vec();
    texts.extend([1, 2, 63, 64, 65, 66, 200].map(tag));
    texts.push(format!("\"{}\" <sip:h>;tag=1", "q".repeat(300)));
    texts.push(format!("<sip:h>{};tag=1", ";p=\"q\"".repeat(60)));
    let mut out = Vec::new();
    for value in texts {
        out.push(bye.with(4, value.as_bytes()).bytes());
        out.push(bye.with(3, value.as_bytes()).bytes());
        out.push(bye.with(3, format!("{value};tag=1").as_bytes()).bytes());
        // In an INVITE the tag of To chooses the column: called number, Allow and P-Asserted-Identity show it.
        out.push(Draft::least(0).without(12).with(4, value.as_bytes()).bytes());
    }
    out
}

/// P-Asserted-Identity.
fn asserted() -> Vec<Vec<u8>> {
    let invite = Draft::least(0);
    let mut out = Vec::new();
    for number in number_texts() {
        for value in [format!("<sip:{number}@h>"), format!("sip:{number}@h"), format!("<tel:{number}>"), format!("tel:{number}")] {
            out.push(invite.with(15, value.as_bytes()).bytes());
        }
    }
    for value in [
        "", "<sip:+1234567@h;a=b>", "<sip:+1234567;a@h>", "<tel:+1234567;a>", "<sip:+1234567@h>;a", "<sip:+1234567@h> ", "sip:+1234567@h;a", "\"A\" <sip:+1234567@h>", "A B <tel:+1234567>", "<SIP:+1234567@h:5060>",
        "<sip:+1234567@h>,<tel:+1234567>", "<sip:%2B1234567@h>", "<sip:+1234567>", "sip:+1234567", "<tel:+1234567@h>", "\r\n <sip:+1234567@h>", "\"A\r\n B\"\r\n <sip:+1234567@h>", "<sip:+1234567\r\n @h>", "<sip:+1234567@h>;tag=1",
    ] {
        out.push(invite.with(15, value.as_bytes()).bytes());
        out.push(invite.with(16, b"id").with(15, value.as_bytes()).bytes());
    }
    out
}

/// Privacy and Require.
fn tokens() -> Vec<Vec<u8>> {
    let mut out = Vec::new();
    let lists = ["", "X", "x X", "xXy", "x X y", "x\tX\ty", "x X", "Xx", "x  X  y", "xXXy", "xX", "xXyXz", "x\r\n X\r\n y", "x/X", "\"x\"Xy", "x=yXz", "x y", " x ", "x\u{80}"];
    for list in lists {
        out.push(Draft::least(0).with(16, list.replace('X', ";").replace('x', "id").as_bytes()).bytes());
        out.push(Draft::least(0).with(16, list.replace('X', ",").as_bytes()).bytes());
        for (x, y) in [("timer", "100rel"), ("timer", "q"), ("q", "timer")] {
            let value = list.replace('X', ",").replace('x', x).replace('y', y).replace('z', "replaces");
            out.push(Draft::least(3).and("Require", value.as_bytes()).bytes());
        }
    }
    for tag in ["100rel", "100REL", "100Rel", "timer", "TIMER", "tImEr", "100rels", "00rel", "100re", "100 rel", "timers", "time", "atimer", "timer-", "replaces", "-.!%*_+`'~", "100rel;", "100rel=1"] {
        out.push(Draft::least(1).and("Require", tag.as_bytes()).bytes());
        out.push(Draft::least(5).and("REQUIRE", format!("timer ,\t{tag}").as_bytes()).bytes());
        out.push(Draft::least(2).and("Require", tag.as_bytes()).bytes());
    }
    // The place of the first lacking tag over all Require fields.
    for place in 1..=40 {
        let mut draft = Draft::least(0);
        let mut left = place - 1;
        while left > 0 {
            let here = left.min(place % 7 + 1);
            draft.add("Require", vec!["Timer"; here].join(if place % 2 == 0 { "," } else { " ,\t" }).as_bytes());
            draft.add("Supported", b"x");
            left -= here;
        }
        draft.add("Require", b"x-lacking, y-lacking");
        draft.add("Require", b"z-lacking");
        out.push(draft.bytes());
    }
    for many in [100, 1000, 1200] {
        out.push(Draft::least(0).and("Require", format!("{}x", "timer,".repeat(many)).as_bytes()).bytes());
        out.push(Draft::least(0).and("Require", format!("{}timer", "timer,".repeat(many)).as_bytes()).bytes());
    }
    out
}

/// "first that applies": messages with two and more faults at once, each pair of reasons that can meet, and the page's own changes.
fn precedence() -> Vec<Vec<u8>> {
    type Fault = fn(&mut Draft);
    let faults: [Fault; 9] = [
        |d| d.set_method(b"INFO"),
        |d| d.set_uri(b"http://h"),
        |d| d.set_uri(b"sip:"),
        |d| d.add("CSeq", b"1 INVITE"),
        |d| d.set(5, b"x y"),
        |d| d.set(8, b"9"),
        |d| *d = d.without(7),
        |d| d.set(2, b"0"),
        |d| d.add("Require", b"x"),
    ];
    let mut out = Vec::new();
    for column in 0..6 {
        for (i, first) in faults.iter().enumerate() {
            let mut one = Draft::least(column);
            first(&mut one);
            out.push(one.bytes());
            for second in &faults[i + 1..] {
                let mut two = one.clone();
                second(&mut two);
                out.push(two.bytes());
                out.push(two.to(b"sip:x@h").bytes());
            }
        }
    }
    // Reasons 9 and 10 name the first in message order, not the lowest number.
    for column in 0..6 {
        let mut backwards = Draft::full(column);
        backwards.fields.reverse();
        out.push(backwards.bytes());
        for (a, b) in [(3, 5), (2, 6), (4, 8), (7, 15), (9, 16), (16, 2), (6, 3)] {
            let mut again = backwards.clone();
            for number in [a, b] {
                let field = backwards.fields.iter().find(|field| field.number() == number).cloned();
                again.fields.extend(field);
            }
            out.push(again.bytes());
            out.push(backwards.with(a, b"\"").with(b, b"\"").bytes());
        }
    }
    let empty_line = "\r\n\r\n".to_string();
    out.extend([
        call(),
        Vec::new(),
        text(&["INVITE sip:+33123456789@gw.example SIP/2.0", &empty_line]),
        call_with("P-Asserted-Identity: <sip:+33187654321@relay.example>", "P-Asserted-Identity:"),
        call_with("f: <", "From: <sip:h>;tag=2\nf: <"),
        call_with("Max-Forwards: 70", "Max-Forwards: 0"),
        call_with("Max-Forwards: 70", "Max-Forwards: 256"),
        call_with("l: 0", "l: 1"),
        call_with("INVITE sip:+33123456789", "INVITE sip:+3312345"),
        call_with("INVITE sip:+33123456789", "INVITE sip:+331234"),
        call_with("INVITE sip", "INFO sip"),
        call_with("relay.example>;tag=a1", "relay.example;tag=a1>"),
        call_with("v: SIP", "Via-Extra: SIP"),
        call_with("Privacy: id", "Privacy: identity"),
        call_with("INVITE sip", "ACK sip"),
    ]);
    out
}
