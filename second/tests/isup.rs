//! "A box for the old exchange" (CR 7): the calling party number parameter forward and backward, there and back, and the trunk's causes.
mod common;
use common::*;
use second::isup::{caller, parameter, status, Caller, MOST};
use second::recorded::identities::callings;
use second::{screen, Refusal};

const CODES: [&str; 12] = ["1", "3", "9", "33", "10", "99", "44", "100", "331", "330", "999", "590"];

const BAD_CODES: [&[u8]; 36] = [
    b"", b"0", b"00", b"000", b"01", b"033", b"0333", b"1234", b"3333", b"33333333333333333333",
    b"a", b"3a", b"a3", b"33a", b"fra", b"+", b"+3", b"+33", b"+331",
    b" ", b" 33", b"33 ", b"3 3", b"\t33", b"33\r\n", b"-33", b"3.3", b"\0", b"33\0", b"\x0033", b"/", b":", b"3/", b"3:", b"\xb2", b"\xff33",
];

/// An initial INVITE of this number, withheld or not.
fn invite(number: &str, withheld: bool) -> Vec<u8> {
    changed(number, withheld, |_| ())
}

fn changed(number: &str, withheld: bool, change: impl Fn(&mut Fields)) -> Vec<u8> {
    let mut fields = base("INVITE");
    set(&mut fields, "P-Asserted-Identity", format!("<sip:{number}@h>").as_bytes());
    if withheld {
        add(&mut fields, "Privacy", b"id");
    }
    change(&mut fields);
    build("INVITE", URI, &fields, b"")
}

/// Bytes from their hex digits.
fn hex(text: &str) -> Vec<u8> {
    text.split_whitespace().map(|pair| u8::from_str_radix(pair, 16).expect("two hex digits")).collect()
}

fn made(message: &[u8], code: &str, home: bool) -> Vec<u8> {
    parameter(message, code.as_bytes(), home).unwrap_or_else(|refusal| panic!("{refusal:?}"))
}

/// Reason, reply, detail and missing count.
fn refused(message: &[u8], code: &[u8], home: bool) -> [u64; 4] {
    let Refusal { reason, reply, detail, missing } = parameter(message, code, home).expect_err("a refusal");
    [reason, reply, detail, missing]
}

fn back(text: &str, code: &str) -> Result<(String, bool), u64> {
    caller(&hex(text), code.as_bytes()).map(|Caller { number, id }| (String::from_utf8(number).expect("digits"), id))
}

fn given(number: &str, id: bool) -> Result<(String, bool), u64> {
    Ok((number.to_string(), id))
}

/// A number of so many digits.
fn number_of(digits: usize) -> String {
    format!("+{}", &"331234567890123"[..digits])
}

// Forward

#[test]
fn worked_parameters() {
    for (number, withheld, code, home, wanted) in [
        ("+33187654321", true, "33", true, "83 17 81 67 45 23 01"),
        ("+33187654321", true, "33", false, "84 17 33 81 67 45 23 01"),
        ("+33187654321", false, "33", true, "83 13 81 67 45 23 01"),
        ("+33187654321", false, "33", false, "84 13 33 81 67 45 23 01"),
        ("+331234567890", false, "33", true, "03 13 21 43 65 87 09"),
        ("+331234567890", true, "33", false, "04 17 33 21 43 65 87 09"),
        ("+33187654321", false, "44", true, "84 13 33 81 67 45 23 01"),
        ("+33187654321", false, "34", true, "84 13 33 81 67 45 23 01"),
        ("+33187654321", false, "332", true, "84 13 33 81 67 45 23 01"),
        ("+33187654321", false, "3", true, "03 13 13 78 56 34 12"),
        ("+33187654321", false, "331", true, "03 13 78 56 34 12"),
        ("+1234567", true, "123", true, "03 17 54 76"),
        ("+1234567", true, "1", true, "03 17 32 54 76"),
        ("+3301234567", false, "33", true, "03 13 10 32 54 76"),
        ("+3333333", false, "33", true, "83 13 33 33 03"),
        ("+1337654321", false, "33", true, "04 13 31 73 56 34 12"),
        ("+999999999999999", true, "99", true, "83 17 99 99 99 99 99 99 09"),
        ("+900000000000000", false, "1", true, "84 13 09 00 00 00 00 00 00 00"),
        ("+123456789012345", false, "1", false, "84 13 21 43 65 87 09 21 43 05"),
    ] {
        assert_eq!(made(&invite(number, withheld), code, home), hex(wanted), "{number} {code} {home}");
    }
    assert_eq!(made(&call(), "33", true), hex("83 17 81 67 45 23 01"));
}

#[test]
fn the_longest_has_ten_bytes() {
    for digits in 7..=15 {
        for (code, home) in [("33", true), ("33", false), ("1", true)] {
            let bytes = made(&invite(&number_of(digits), false), code, home);
            let left = if code == "33" && home { digits - 2 } else { digits };
            assert_eq!(bytes.len(), 2 + left.div_ceil(2), "{digits} {code} {home}");
            assert_eq!(bytes[0] >= 128, left % 2 == 1);
        }
    }
    assert_eq!(made(&invite(&number_of(15), true), "1", false).len(), MOST);
}

#[test]
fn national_exactly_at_home_with_our_code() {
    for code in ["3", "33", "331", "1", "31", "13", "332", "43", "330", "34", "2"] {
        for home in [true, false] {
            let nature = made(&invite("+33187654321", false), code, home)[0] % 128;
            let ours = ["3", "33", "331"].contains(&code);
            assert_eq!(nature, if home && ours { 3 } else { 4 }, "{code} {home}");
        }
    }
}

#[test]
fn every_way_to_hide_restricts() {
    for (value, presentation) in [
        ("id", 1), ("user", 1), ("header", 1), ("ID", 1), ("none;id", 1), ("none ; User", 1), ("session;HEADER", 1), ("none;\r\n id", 1),
        ("none", 0), ("session", 0), ("identity", 0), ("username", 0), ("critical", 0),
    ] {
        for (code, home) in [("33", true), ("33", false), ("1", true)] {
            let message = changed("+33187654321", false, |fields| add(fields, "Privacy", value.as_bytes()));
            assert_eq!(made(&message, code, home)[1], 0x13 + 4 * presentation, "{value}");
        }
    }
    assert_eq!(made(&invite("+33187654321", false), "33", true)[1], 0x13);
}

#[test]
fn the_number_is_the_calling_number() {
    for (message, digits) in callings() {
        for (code, home) in [("33", true), ("33", false), ("1", true)] {
            let wanted = made(&invite(digits, false), code, home);
            assert_eq!(made(&message, code, home), wanted, "{}", String::from_utf8_lossy(&message));
        }
    }
}

#[test]
fn neither_from_nor_to_nor_the_request_uri_gives_it() {
    let message = changed("+33187654321", false, |fields| {
        set(fields, "From", b"<sip:+44111111111@h>;tag=1");
        set(fields, "To", b"<tel:+44222222222>");
    });
    assert_eq!(made(&message, "44", true), hex("84 13 33 81 67 45 23 01"));
}

#[test]
fn harmless_fields_and_names_change_nothing() {
    let message = changed("+33187654321", true, |fields| {
        for field in fields.iter_mut().filter(|(name, _)| ["From", "To", "Via"].contains(&name.as_str())) {
            field.0 = field.0[..1].to_ascii_lowercase();
        }
        for (name, value) in [("X-Relay-Mode", "text"), ("P-Asserted-Identit", "<sip:+44111111111@h>"), ("Reason", ""), ("Privacys", "none")] {
            fields.insert(0, (name.to_string(), value.as_bytes().to_vec()));
        }
    });
    assert_eq!(made(&message, "33", true), made(&invite("+33187654321", true), "33", true));
}

#[test]
fn the_screens_own_refusals_come_first() {
    for case in second::recorded::cases().iter().filter(|case| case.message.len() < 2000).step_by(3) {
        let numbers = screen(&case.message, 0, &mut none_held(), &mut [0; 4096]).numbers();
        for code in [&b"33"[..], b"0"] {
            match numbers[0] {
                0 => assert!(parameter(&case.message, code, true).map_or_else(|refusal| refusal.reason > 40, |_| code == b"33")),
                _ => assert_eq!(refused(&case.message, code, false), numbers[..4]),
            }
        }
    }
}

#[test]
fn no_initial_invite() {
    let tagged = |value: &[u8]| changed("+33187654321", false, |fields| set(fields, "To", value));
    let mut others: Vec<Vec<u8>> = ["ACK", "BYE", "CANCEL", "OPTIONS"].iter().map(|method| build(method, URI, &base(method), b"")).collect();
    for method in ["INVITE", "BYE", "CANCEL", "OPTIONS"] {
        others.extend(["100", "200", "486"].map(|code| build_from(&format!("SIP/2.0 {code} x"), &response_base(method), b"")));
    }
    let tags = [&b"<sip:h>;tag=1"[..], b"<sip:h>\r\n ;\r\n TaG\r\n =\r\n 1", b"sip:h;x=\"\";tag=q", b"\"A\r\n B\" <sip:h>;x\r\n\t;tag=1"];
    others.extend(tags.map(tagged));
    for message in &others {
        assert_eq!(numbers(message), [0; 4], "{}", String::from_utf8_lossy(message));
        for code in [&b"33"[..], b"0", b"", b"1234"] {
            assert_eq!(refused(message, code, true), [42, 0, 0, 0]);
            assert_eq!(refused(message, code, false), [42, 0, 0, 0]);
        }
    }
    // A tag inside the URI or inside quotes is none.
    for value in [&b"<sip:h;tag=1>"[..], b"\";tag=1\" <sip:h>", b"<sip:h>;x=\";tag=1\"", b"<sip:h>\r\n ;tagx=1"] {
        assert!(parameter(&tagged(value), b"33", true).is_ok(), "{}", String::from_utf8_lossy(value));
    }
}

#[test]
fn bad_country_codes_forward() {
    for code in BAD_CODES {
        for home in [true, false] {
            assert_eq!(refused(&invite("+33187654321", true), code, home), [41, 0, 0, 0], "{}", String::from_utf8_lossy(code));
        }
        assert_eq!(refused(&build("BYE", URI, &base("BYE"), b""), code, true), [42, 0, 0, 0]);
        assert_eq!(refused(b"", code, true), [3, 0, 0, 0]);
    }
    for code in CODES {
        assert!(parameter(&invite("+33187654321", true), code.as_bytes(), true).is_ok(), "{code}");
    }
}

/// Every code of up to two bytes, and of three with each byte at each place.
#[test]
fn every_short_code() {
    let message = invite("+33187654321", false);
    let good = |code: &[u8]| (b'1'..=b'9').contains(&code[0]) && code.iter().all(|byte| (48..=57).contains(byte));
    for one in 0..=255u8 {
        for code in [&[one][..], &[one, b'3'], &[b'3', one], &[one, b'3', b'3'], &[b'3', one, b'3'], &[b'3', b'3', one]] {
            assert_eq!(parameter(&message, code, true).is_ok(), good(code), "{code:?}");
            assert_eq!(caller(&hex("84 13 33 81 67 45 23 01"), code).is_ok(), good(code), "{code:?}");
            assert_eq!(parameter(&message, &[code, b"333"].concat(), true), Err(Refusal { reason: 41, reply: 0, detail: 0, missing: 0 }));
        }
    }
}

// Backward

#[test]
fn worked_callers() {
    for (bytes, code, number, id) in [
        ("83 17 81 67 45 23 01", "33", "+33187654321", true),
        ("84 17 33 81 67 45 23 01", "33", "+33187654321", true),
        ("83 13 81 67 45 23 01", "33", "+33187654321", false),
        ("83 13 81 67 45 23 01", "44", "+44187654321", false),
        ("83 13 81 67 45 23 01", "3", "+3187654321", false),
        ("03 13 21 43 65 87 09", "33", "+331234567890", false),
        ("84 13 33 81 67 45 23 01", "1", "+33187654321", false),
        ("04 13 21 43 65 87", "999", "+12345678", false),
        ("84 17 21 43 65 07", "1", "+1234567", true),
        ("03 13 10 32", "590", "+5900123", false),
        ("03 17 00 00 00 00 00 00", "100", "+100000000000000", true),
        ("84 13 99 99 99 99 99 99 99 09", "1", "+999999999999999", false),
    ] {
        assert_eq!(back(bytes, code), given(number, id), "{bytes}");
    }
}

#[test]
fn bad_country_codes_backward() {
    for code in BAD_CODES {
        // Also where the code is not used, and before every other refusal.
        for bytes in ["84 13 33 81 67 45 23 01", "83 13 81 67 45 23 01", "", "85", "85 13", "05 00", "84 13 1C", "04 13 CC", "04 13"] {
            assert_eq!(caller(&hex(bytes), code), Err(41), "{bytes}");
        }
    }
}

#[test]
fn cut_short() {
    for bytes in ["", "00", "03", "04", "83", "84", "FF", "83 13", "84 17", "85 13", "80 00", "FF FF"] {
        assert_eq!(back(bytes, "33"), Err(43), "{bytes}");
    }
    for (bytes, refusal) in [("03 13", 47), ("04 17", 47), ("05 13", 44), ("00 00", 44), ("7F 7F", 44), ("83 13 01", 47), ("85 13 01", 44)] {
        assert_eq!(back(bytes, "33"), Err(refusal), "{bytes}");
    }
}

/// All 256 second octets, with every nature and both parities.
#[test]
fn every_second_octet() {
    for second in 0..=255u8 {
        for first in 0..=255u8 {
            let good_first = [0x03, 0x04, 0x83, 0x84].contains(&first);
            let wanted = match second {
                0x13 | 0x17 if good_first => Ok(second == 0x17),
                _ => Err(44),
            };
            // The last half is the filler where the number is odd, else the digit 0.
            let bytes = [&[first, second][..], &hex("21 43 65 07")].concat();
            assert_eq!(caller(&bytes, b"33").map(|caller| caller.id), wanted, "{bytes:x?}");
        }
    }
}

/// All 256 first octets: parity and nature apart.
#[test]
fn every_first_octet() {
    for first in 0..=255u8 {
        let wanted = match first {
            0x03 => given("+3312345670", false),
            0x83 => given("+331234567", false),
            0x04 => given("+12345670", false),
            0x84 => given("+1234567", false),
            _ => Err(44),
        };
        assert_eq!(back(&format!("{first:02x} 13 21 43 65 07"), "33"), wanted, "{first:02x}");
        let without_address = if first >= 128 { 43 } else if [3, 4].contains(&first) { 47 } else { 44 };
        assert_eq!(back(&format!("{first:02x} 13"), "33"), Err(without_address));
    }
}

/// Every filler, and the same half as a digit.
#[test]
fn every_filler() {
    for half in 0..16u8 {
        let last = format!("{:02x}", half * 16 + 7);
        let odd = if half == 0 { given("+1234567", false) } else { Err(45) };
        let even = if half <= 9 { given(&format!("+1234567{half}"), false) } else { Err(46) };
        assert_eq!(back(&format!("84 13 21 43 65 {last}"), "33"), odd, "{half}");
        assert_eq!(back(&format!("04 13 21 43 65 {last}"), "33"), even, "{half}");
    }
}

/// Every digit code in each half of each byte.
#[test]
fn every_digit_code() {
    for odd in [false, true] {
        for place in 0..if odd { 13 } else { 14 } {
            for digit in 0..16u8 {
                let mut bytes = vec![if odd { 0x84 } else { 0x04 }, 0x13, 0x11, 0x11, 0x11, 0x11, 0x11, 0x11, if odd { 0x01 } else { 0x11 }];
                let (byte, low) = (2 + place / 2, place % 2 == 0);
                bytes[byte] = if low { bytes[byte] / 16 * 16 + digit } else { bytes[byte] % 16 + digit * 16 };
                let mut number = vec![b'1'; if odd { 13 } else { 14 }];
                number[place] = b'0' + digit;
                let wanted = match digit {
                    0 if place == 0 => Err(47),
                    0..=9 => Ok(Caller { number: [b"+", &number[..]].concat(), id: false }),
                    _ => Err(46),
                };
                assert_eq!(caller(&bytes, b"33"), wanted, "{bytes:x?}");
            }
        }
    }
}

/// Every length from 0 to 12 and long ones: 46 looks at every digit, 47 comes after it.
#[test]
fn every_length() {
    for first in [0x03u8, 0x04, 0x83, 0x84] {
        for length in (0..=12).chain([13, 20, 100, 1000, 8999, 9000, 70_000]) {
            let mut bytes = vec![0x11; length];
            for (place, octet) in [first, 0x17].into_iter().enumerate().take(length) {
                bytes[place] = octet;
            }
            let odd = first >= 128;
            if odd && length > 2 {
                bytes[length - 1] = 0x01;
            }
            let code: &[u8] = if first % 128 == 3 { b"590" } else { b"" };
            let digits = (2 * length.saturating_sub(2)).saturating_sub(usize::from(odd));
            let wanted = match length {
                0 | 1 => Err(43),
                2 if odd => Err(43),
                _ if (7..=15).contains(&(code.len() + digits)) => Ok(Caller { number: [b"+", code, &vec![b'1'; digits]].concat(), id: true }),
                _ => Err(47),
            };
            assert_eq!(caller(&bytes, b"590"), wanted, "{first:02x} {length}");
            for place in (2..length).take(20).chain((2..length).rev().take(2)) {
                let mut damaged = bytes.clone();
                damaged[place] |= 0x0f;
                assert_eq!(caller(&damaged, b"590"), Err(46), "{first:02x} {length} {place}");
            }
        }
    }
}

/// Two faults at once: the earlier number is told.
#[test]
fn the_first_that_applies() {
    for (bytes, refusal) in [
        // 43 before 44 and 47: nothing and one byte have no more faults that could be told.
        ("85 13", 43), ("83 93", 43), ("80 00", 43),
        // 44 before 45, 46 and 47.
        ("85 13 11", 44), ("84 93 11", 44), ("84 1B 1C", 44), ("05 13 CC", 44), ("04 10 CC", 44), ("05 13", 44), ("03 03", 44),
        // 45 before 46 and 47.
        ("84 13 1C", 45), ("84 13 CC 10", 45), ("83 13 11", 45), ("84 13 F1", 45),
        // 46 before 47.
        ("84 13 0C", 46), ("04 13 C0", 46), ("04 13 0C", 46), ("03 13 A1", 46), ("04 13 11 11 11 11 11 11 11 11 1F", 46),
        // 47 alone.
        ("04 13 11 11 11 11 11 11 11 11", 47), ("84 13 11 11 01", 47), ("04 13 10 11 11 11", 47), ("03 13 11 11 11 11 11 11 11", 47),
    ] {
        assert_eq!(back(bytes, "33"), Err(refusal), "{bytes}");
        assert_eq!(back(bytes, "033"), Err(41), "{bytes}");
    }
    let many = [&hex("04 13")[..], &[0x11; 100]].concat();
    assert_eq!(caller(&many, b"33"), Err(47));
    assert_eq!(caller(&[&many[..], &[0x1f]].concat(), b"33"), Err(46));
}

#[test]
fn the_code_is_added_first() {
    // 4 digits and a code of 3 are 7, 14 and a code of 1 are 15; one less and one more are no number.
    for (bytes, code, good) in [
        ("03 13 11 11", "590", true), ("03 13 11 11", "59", false), ("83 13 11 01", "590", false), ("83 13 11 11 01", "59", true),
        ("03 13 11 11 11", "1", true), ("83 13 11 11 01", "1", false), ("03 13 00 00 00", "1", true), ("04 13 00 11 11 11", "1", false),
        ("03 13 11 11 11 11 11 11 11", "1", true), ("03 13 11 11 11 11 11 11 11", "33", false), ("83 13 11 11 11 11 11 11 01", "33", true),
        ("03 13 11 11 11 11 11 11", "590", true), ("83 13 11 11 11 11 11 11 01", "590", false), ("83 13 11 11 11 11 11 11 11 01", "1", false),
    ] {
        assert_eq!(back(bytes, code).is_ok(), good, "{bytes} {code}");
        assert!(good || back(bytes, code) == Err(47), "{bytes} {code}");
    }
}

// There and back

#[test]
fn there_and_back() {
    let mut natures = [0; 2];
    for digits in 7..=15 {
        for number in ["331234567890123", "100000000000000", "999999999999999", "330033003300330", "590000000000001", "987654321098765"] {
            let number = format!("+{}", &number[..digits]);
            for code in CODES {
                for (home, withheld) in [(true, true), (true, false), (false, true), (false, false)] {
                    let bytes = made(&invite(&number, withheld), code, home);
                    natures[usize::from(bytes[0] % 128 == 3)] += 1;
                    let wanted = Caller { number: number.clone().into_bytes(), id: withheld };
                    assert_eq!(caller(&bytes, code.as_bytes()), Ok(wanted), "{number} {code} {home} {withheld}");
                }
            }
        }
    }
    assert!(natures[0] > 1000 && natures[1] > 100, "{natures:?}");
}

#[test]
fn there_and_back_drawn() {
    let mut dice = Dice::new(7);
    for _ in 0..20_000 {
        let more = 6 + dice.below(9);
        let digits: String = [1 + dice.below(9)].into_iter().chain((0..more).map(|_| dice.below(10))).map(|digit| digit.to_string()).collect();
        let length = 1 + dice.below(3);
        let code = if dice.one_in(2) { digits[..length].to_string() } else { (1 + dice.below(999)).to_string() };
        let (home, withheld) = (dice.one_in(2), dice.one_in(2));
        let bytes = made(&invite(&format!("+{digits}"), withheld), &code, home);
        assert_eq!(bytes[0] % 128 == 3, home && digits.starts_with(&code));
        assert_eq!(caller(&bytes, code.as_bytes()), Ok(Caller { number: format!("+{digits}").into_bytes(), id: withheld }));
    }
}

/// All that is taken backward is what is made forward, at home where it is national.
fn is_made_forward(bytes: &[u8], code: &str) -> bool {
    let Ok(caller) = caller(bytes, code.as_bytes()) else { return false };
    let message = invite(std::str::from_utf8(&caller.number).expect("digits"), caller.id);
    let [at_home, abroad] = [true, false].map(|home| made(&message, code, home));
    assert!(bytes == at_home || bytes == abroad, "{bytes:x?}");
    assert_eq!(bytes == at_home, bytes[0] % 128 == 3 || at_home == abroad);
    true
}

#[test]
fn back_and_there() {
    let mut taken = 0;
    for (first, second) in (0..=255u8).flat_map(|first| (0..=255u8).map(move |second| (first, second))) {
        taken += usize::from(is_made_forward(&[first, second, 0x33, 0x21, 0x43, 0x05], "33"));
    }
    assert_eq!(taken, 8);
    for last in 0..=255u8 {
        for first in ["03", "04", "83", "84"] {
            taken += usize::from(is_made_forward(&hex(&format!("{first} 17 33 21 43 {last:02x}")), "33"));
            taken += usize::from(is_made_forward(&hex(&format!("{first} 13 {last:02x} 21 43 05")), "5"));
        }
    }
    assert!(taken > 500, "{taken}");
}

#[test]
fn back_and_there_drawn() {
    let mut dice = Dice::new(77);
    let mut taken = 0;
    for _ in 0..50_000 {
        let length = dice.below(11);
        let mut digits = || (dice.below(10) * 16 + dice.below(10)) as u8;
        let mut bytes: Vec<u8> = (0..length).map(|_| digits()).collect();
        if length > 0 && dice.one_in(3) {
            bytes[dice.below(length)] = dice.number() as u8;
        }
        for (place, octets) in [&[0x03, 0x04, 0x83, 0x84], &[0x13, 0x17, 0x13, 0x17]].into_iter().enumerate().take(length) {
            bytes[place] = *dice.pick(octets);
        }
        if length > 2 && bytes[0] >= 128 && !dice.one_in(4) {
            bytes[length - 1] %= 16;
        }
        let code = (1 + dice.below(999)).to_string();
        taken += usize::from(is_made_forward(&bytes, &code));
    }
    assert!(taken > 10_000, "{taken}");
}

// Causes

#[test]
fn the_trunks_causes() {
    for (cause, wanted) in [
        (0, 480), (1, 404), (16, 480), (17, 486), (22, 410), (26, 480), (27, 502), (28, 484), (34, 480), (38, 503), (91, 404), (102, 480), (111, 500), (127, 500),
    ] {
        assert_eq!(status(cause), (wanted, 0), "cause {cause}");
    }
    for cause in 0..2000 {
        let answer = second::status_of_cause(cause);
        assert_eq!(status(cause), (answer.status, answer.refusal));
    }
    for cause in [128, 255, 256, 273, 65_536 + 17, (1 << 32) + 17, 1 << 63, u64::MAX] {
        assert_eq!(status(cause), (0, 21));
    }
}
