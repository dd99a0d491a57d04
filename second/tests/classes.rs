//! The byte classes against RFC 3261's sets, written out byte for byte.
use second::classes::*;

const LETTERS_DIGITS: &str = "abcdefghijklmnopqrstuvwxyzABCDEFGHIJKLMNOPQRSTUVWXYZ0123456789";

fn is_exactly(class: fn(u8) -> bool, members: &str) {
    for byte in 0..=255u8 {
        assert_eq!(class(byte), members.as_bytes().contains(&byte), "byte {byte}");
    }
}

#[test]
fn classes_are_the_sets() {
    is_exactly(is_token, &format!("{LETTERS_DIGITS}-.!%*_+`'~"));
    is_exactly(is_digit, "0123456789");
    is_exactly(is_hex, "0123456789abcdefABCDEF");
    is_exactly(is_unreserved, &format!("{LETTERS_DIGITS}-_.!~*'()"));
    is_exactly(is_user, &format!("{LETTERS_DIGITS}-_.!~*'()&=+$,;?/"));
    is_exactly(is_parameter, &format!("{LETTERS_DIGITS}-_.!~*'()[]/:&+$;="));
    is_exactly(is_host, &format!("{LETTERS_DIGITS}-."));
    is_exactly(is_blank, " \t");
    is_exactly(is_space, " \t\r\n");
}

#[test]
fn value_and_visible_bytes() {
    for byte in 0..=255u8 {
        assert_eq!(is_visible(byte), byte > 32 && byte < 127);
        assert_eq!(is_value(byte), byte == 9 || (byte > 31 && byte != 127));
    }
}

#[test]
fn digits_make_numbers() {
    assert_eq!(number_of_digits(b"007", 3), Some(7));
    assert_eq!(number_of_digits(b"9999999999", 10), Some(9_999_999_999));
    for bad in [&b""[..], b"1234", b"+12", b"1a", b" 1"] {
        assert_eq!(number_of_digits(bad, 3), None);
    }
}
