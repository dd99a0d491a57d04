//! URI, Address, P-Asserted-Identity and called number: each rule on both sides of its edge.
mod common;
use common::*;

/// The reason for this Request-URI in an OPTIONS (no called number there).
fn request_uri(uri: &str) -> u64 {
    numbers(&build("OPTIONS", uri, &base("OPTIONS"), b""))[0]
}

fn all_request_uris(uris: &[&str], reason: u64) {
    for uri in uris {
        assert_eq!(request_uri(uri), reason, "{uri}");
    }
}

#[test]
fn schemes() {
    all_request_uris(&["sip:h", "SIP:h", "sIp:h", "tel:1", "TEL:1", "tEl:+1"], 0);
    all_request_uris(&["sips:a@b", "http:x", "gw.example:5060", "x:", "sipp:h", "si:h", "%:h", "tels:1"], 7);
    all_request_uris(&["*", "gw", ":x", ":", "si@p:h", "a/b:c", "sip", "tel", "<sip:h>", "sip;x:h"], 8);
}

#[test]
fn sip_users() {
    let user = |user: &str| request_uri(&format!("sip:{user}@h"));
    assert_eq!((user(""), user("a"), user(&"a".repeat(64)), user(&"a".repeat(65))), (8, 0, 0, 8));
    assert_eq!((user(&"%4a".repeat(21)), user(&format!("{}a", "%4A".repeat(21))), user(&"%4a".repeat(22))), (0, 0, 8));
    for good in ["-_.!~*'()", "&=+$,;?/", "%00", "%fF", "a;b?c,d", "%2B331234567"] {
        assert_eq!(user(good), 0, "{good}");
    }
    for bad in ["a:b", "a@b", "%", "%4", "%g0", "%0g", "a%", "[a]", "a<b", "a\"b", "a#b", "a|b", "a\\b", "a^b", "a`b", "a{b"] {
        assert_eq!(user(bad), 8, "{bad}");
    }
}

#[test]
fn sip_hosts_and_ports() {
    assert_eq!((request_uri(&format!("sip:{}", "h".repeat(252))), request_uri("sip:")), (0, 8));
    let host = |n: usize| with_value("BYE", "To", format!("<sip:{}>", "h".repeat(n)).as_bytes())[0];
    assert_eq!((host(0), host(1), host(253), host(254)), (10, 0, 0, 10));
    all_request_uris(&["sip:-.", "sip:a.B-9", "sip:u@h:1", "sip:h:00080", "sip:h:65535", "sip:h:5060;x"], 0);
    all_request_uris(&["sip:h:", "sip:h:0", "sip:h:00000", "sip:h:65536", "sip:h:99999", "sip:h:005060", "sip:h:+1"], 8);
    all_request_uris(&["sip:h_", "sip:[::1]", "sip:h?a=b", "sip:h/", "sip:u@", "sip:@h", "sip:h:1:2", "sip:h%41"], 8);
}

#[test]
fn tails() {
    all_request_uris(&["sip:h;", "sip:h;;=", "sip:h;a=b;c", "sip:h;[]/:&+$", "sip:h;-_.!~*'()", "sip:h;%4f"], 0);
    all_request_uris(&["sip:h;%", "sip:h;%4", "sip:h;%zz", "sip:u@h;a@b", "sip:h;a?b", "sip:h;\"a\"", "sip:h;a,b"], 8);
    // `sip:h;a@b` has no tail: its user is `h;a`.
    all_request_uris(&["tel:1;", "tel:+123;ext=5", "tel:1;%00", "sip:h;a@b"], 0);
    all_request_uris(&["tel:1;%", "tel:1;a?b", "sip:h;`", "sip:h;a|b", "sip:h;<"], 8);
}

#[test]
fn tel_numbers() {
    all_request_uris(&["tel:1", "tel:+1", "tel:+0", "tel:123456789012345", "tel:+123456789012345"], 0);
    all_request_uris(&["tel:", "tel:+", "tel:1234567890123456", "tel:++1", "tel:1-2", "tel:a", "tel:1@h", "tel:+;x"], 8);
}

fn to(value: &str) -> bool {
    let answer = with_value("BYE", "To", value.as_bytes());
    assert!(answer == [0, 0, 0, 0] || answer == [10, 400, 4, 0], "{value}");
    answer[0] == 0
}

fn all_to(goods: &[&str], bads: &[&str]) {
    for value in goods {
        assert!(to(value), "{value}");
    }
    for value in bads {
        assert!(!to(value), "{value}");
    }
}

#[test]
fn display_names() {
    let goods = [
        "<sip:h>", "Bob <sip:h>", "Bob<sip:h>", "Bob \t B. Smith\t<sip:h>", "\"\"<sip:h>", "\"Bob\" \t <sip:h>",
        "\"a\\\"b\" <sip:h>", "\"x\\\\\\\\\" <sip:h>", "\"<sip:z>\" <sip:h>", "\"é\t,;\" <sip:h>", "!%*_+`'~-. <tel:1>",
    ];
    let bads = [
        "", "Bob", "\"Bob\"", "\"Bob <sip:h>", "\"a\"b\" <sip:h>", "\"a\" b <sip:h>", "a \"b\" <sip:h>", "B,b <sip:h>",
        "\"x\\\" <sip:h>", "\"x\\\\\\\" <sip:h>", "\"a\"\"b\" <sip:h>", "Bob: <sip:h>", "é <sip:h>", "\"", "\"\\",
    ];
    all_to(&goods, &bads);
}

#[test]
fn brackets_and_bare() {
    let goods = ["<sip:h;a=b>", "<sip:u@h:5;a>;x", "<tel:1;a>", "sip:h", "tel:+12", "sip:u@h:5", "SIP:h;x", "sip:h ; x",
        "sip:a;b@h;tag=1", "sip:a?b,c@h", "tel:1;x=y", "sip:h:5;lr"];
    let bads = ["<sip:h", "sip:h>", "< sip:h>", "<sip:h >", "<<sip:h>>", "<sip:h>>", "<>", "<sips:h>", "<h>", "sip:h;a/b",
        "sip:h;", "sip:h;;x", "sip:h x", "sip:h,sip:h", "<sip:h>,<sip:h>", "sip:a;b@h@i", "Bob sip:h", "<sip:h?x=y>", "tel:1;x:y",
        "<sip:h\r\n >", "sip:h;[x]", "sip:h:", "tel:1234567890123456"];
    all_to(&goods, &bads);
}

#[test]
fn parameters() {
    let goods = [
        "<sip:h>;a", "<sip:h> ; a", "<sip:h>\t;\ta\t=\tb\t;\tc", "<sip:h>;a=b;a=c", "<sip:h>;a=\"b;c\"", "<sip:h>;a=\"\"",
        "<sip:h>;a=\"\\\"\";b", "<sip:h>;%=%", "<sip:h>;a=\"tag=1;tag=2\"", "sip:h;x=\"a@b\"", "<sip:h>;a=%zz",
    ];
    let bads = [
        "<sip:h>;", "<sip:h>;;a", "<sip:h>;a;", "<sip:h>;a=", "<sip:h>;=b", "<sip:h>;a=b=c", "<sip:h>a", "<sip:h>;a b",
        "<sip:h>;a=b c", "<sip:h>;a=\"b", "<sip:h>;a=\"b\"c", "<sip:h>;a=b\"c\"", "<sip:h>;\"a\"", "<sip:h>;a@b", "<sip:h>,a",
        "<sip:h>;a==b", "<sip:h>;a=[b]", "<sip:h>;a=\"b\\\"",
    ];
    all_to(&goods, &bads);
}

#[test]
fn tags() {
    let longest = format!("<sip:h>;tag={}", "x".repeat(64));
    let too_long = format!("<sip:h>;tag={}", "x".repeat(65));
    all_to(
        &["<sip:h>;tag=1", "<sip:h>;TAG = 1", "<sip:h>;x;tAg=!%*_+`'~-.;y", "<sip:h>;tags=\"\";atag", &longest],
        &["<sip:h>;tag", "<sip:h>;tag=", "<sip:h>;tag=\"1\"", "<sip:h>;tag=1;tag=1", "<sip:h>;tag=1;x;TAG=2", &too_long],
    );
    let from = |value: &str| with_value("BYE", "From", value.as_bytes());
    for value in ["<sip:h>;tag=1", "sip:h;Tag=1", "sip:a;tag=2@h;tag=1", longest.as_str()] {
        assert_eq!(from(value), [0, 0, 0, 0], "{value}");
    }
    for value in ["<sip:h>", "sip:h", "<sip:h;tag=1>", "<sip:h>;x=\";tag=1\"", "<sip:h>;tags=1", "sip:a;tag=1@h"] {
        assert_eq!(from(value), [10, 400, 3, 0], "{value}");
    }
}

#[test]
fn asserted_identity() {
    let asserted = |value: &str| with_value("INVITE", "P-Asserted-Identity", value.as_bytes());
    for value in [
        "<sip:+1234567@h>", "<sip:+123456789012345@h>", "sip:+1234567@h:5", "<tel:+1234567>", "tel:+123456789012345",
        "\"A\" <sip:+9000000@h;user=phone>", "A B <TEL:+1234567>",
    ] {
        assert_eq!(asserted(value), [0, 0, 0, 0], "{value}");
    }
    for value in [
        "", "<sip:+123456@h>", "<sip:+1234567890123456@h>", "<sip:+0234567@h>", "<sip:1234567@h>", "<sip:h>", "<sip:+@h>",
        "<sip:+1234567;x@h>", "<tel:+1234567;x>", "<tel:1234567>", "<sip:+1234567@h>;x", "sip:+1234567@h;user=phone",
        "tel:+1234567;x", "<sip:%2B1234567@h>", "<sip:+123456a@h>", "<sip:++123456@h>", "<sip:+1234567@h>,<sip:+1234567@h>",
    ] {
        assert_eq!(asserted(value), [10, 400, 15, 0], "{value}");
    }
}

#[test]
fn called_numbers() {
    let called = |uri: &str| numbers(&build("INVITE", uri, &base("INVITE"), b""));
    for uri in [
        "sip:12@h", "sip:123456@h", "sip:00@h", "sip:+1234567@h", "sip:+123456789012345@h", "sip:12;@h", "sip:12;a=b;c@h",
        "tel:12", "tel:123456;x", "tel:+1234567", "tel:+123456789012345;", "sip:+3312345;npdi;rn=5@h;user=phone",
    ] {
        assert_eq!(called(uri), [0, 0, 0, 0], "{uri}");
    }
    for uri in [
        "sip:h", "sip:1@h", "sip:1234567@h", "sip:+123456@h", "sip:+1234567890123456@h", "sip:+0123456@h", "sip:a@h", "sip:;12@h",
        "sip:12a@h", "sip:12,3@h", "sip:%31%32@h", "sip:%2B1234567@h", "tel:1", "tel:1234567", "tel:+123456", "tel:+0123456",
        "sip:h;12", "sip:3bd10942411234@h", "sip:12=;@h",
    ] {
        assert_eq!(called(uri), [15, 484, 0, 0], "{uri}");
    }
    // Only the initial INVITE has a called number.
    let mut again = base("INVITE");
    set(&mut again, "To", b"<sip:b@h>;tag=2");
    assert_eq!(numbers(&build("INVITE", "sip:h", &again, b"")), [0, 0, 0, 0]);
}
