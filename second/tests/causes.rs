//! "Causes" and CR 4: both tables over their whole range, the row of every cause, and what the program `cause_map` prints.
use second::causes::{printed, Answer};
use second::{cause_of_status, status_of_cause};

/// The status of each cause of 0 to 127, by hand from document 01.
const LISTED: &str = "0:480 1:404 2-4:503 5:404 6-16:480 17:486 18-21:480 22:410 23-26:480 27:502 28:484 29:503 \
    30-31:480 32-33:503 34:480 35-90:503 91:404 92-95:503 96:500 97:503 98:500 99:503 100-101:500 102:480 103-127:500";

/// The row over 0 to 127, written out from the page: 0 stands for the cause itself.
const ROWS: &str = "0:31 1-5:0 6-16:31 17-22:0 23-24:31 25:0 26:31 27-29:0 30:31 31:0 32-33:47 34:0 35-37:47 38:0 39-40:47 41-44:0 \
    45-46:47 47:0 48-49:63 50:0 51-56:63 57-58:0 59-62:63 63:0 64:79 65:0 66-69:79 70:0 71-78:79 79:0 80-87:95 88:0 89-90:95 91:0 \
    92-94:95 95:0 96:111 97:0 98:111 99:0 100-101:111 102:0 103-110:111 111:0 112-126:127 127:0";

/// The number of each cause from 0 to 127 in such a list, none left out.
fn read(list: &str) -> Vec<u64> {
    let mut numbers = Vec::new();
    for item in list.split_whitespace() {
        let (range, number) = item.split_once(':').unwrap();
        let (first, last) = range.split_once('-').unwrap_or((range, range));
        let (first, last): (usize, usize) = (first.parse().unwrap(), last.parse().unwrap());
        assert_eq!(first, numbers.len(), "no cause left out");
        numbers.resize(last + 1, number.parse().unwrap());
    }
    assert_eq!(numbers.len(), 128);
    numbers
}

#[test]
fn every_status_stays() {
    for (cause, status) in (0..).zip(read(LISTED)) {
        assert_eq!(status_of_cause(cause).status, status, "cause {cause}");
        assert_eq!(status_of_cause(cause).refusal, 0, "cause {cause}");
    }
}

#[test]
fn the_row_over_its_whole_range() {
    for (cause, row) in (0..).zip(read(ROWS)) {
        let row = if row == 0 { cause } else { row };
        assert_eq!(status_of_cause(cause).row, row, "cause {cause}");
    }
}

/// The row of a cause has a row of its own and the same status. It is the cause or the next class end, and 38 causes are listed.
#[test]
fn the_row_gave_the_status() {
    for cause in 0..=127 {
        let answer = status_of_cause(cause);
        assert_eq!(status_of_cause(answer.row), answer, "cause {cause}");
        let class_end = if cause < 31 { 31 } else { cause / 16 * 16 + 15 };
        assert!(answer.row == cause || answer.row == class_end, "cause {cause}");
    }
    assert_eq!((0..=127).filter(|&cause| status_of_cause(cause).row == cause).count(), 38);
}

#[test]
fn beyond_127() {
    let far = [8, 16, 31, 32, 63].map(|width| 1u64 << width).into_iter().flat_map(|edge| [edge - 1, edge, edge + 1, edge + 26, edge + 127]);
    for cause in (128..=300).chain(far).chain([u64::MAX - 1, u64::MAX]) {
        assert_eq!(status_of_cause(cause), Answer { status: 0, row: 0, refusal: 21 }, "cause {cause}");
    }
}

/// The page's list, written out once more as a match.
fn page(status: u64) -> (u64, u64) {
    let cause = match status {
        404 | 485 | 604 => 1,
        486 | 600 => 17,
        480 => 18,
        401..=403 | 407 | 603 => 21,
        410 => 22,
        482 | 483 => 25,
        484 => 28,
        502 => 38,
        400 | 481 | 500 | 503 => 41,
        405 => 63,
        406 | 415 | 501 => 79,
        408 | 504 => 102,
        400..=699 => 127,
        _ => return (0, 22),
    };
    (cause, 0)
}

#[test]
fn status_to_cause_over_its_whole_range() {
    for status in 0..=2000 {
        assert_eq!(cause_of_status(status), page(status), "status {status}");
    }
    for status in [487, 488, 606, 420, 416, 505, 699] {
        assert_eq!(cause_of_status(status), (127, 0));
    }
    for status in [0, 100, 200, 399, 700, u64::MAX] {
        assert_eq!(cause_of_status(status), (0, 22));
    }
}

/// A number, right-aligned in three places.
fn wide(number: u64) -> String {
    let digits = number.to_string();
    " ".repeat(3 - digits.len()) + &digits
}

#[test]
fn the_table_where_nothing_is_given() {
    let mut wanted = String::new();
    for (cause, (status, row)) in (0..).zip(read(LISTED).into_iter().zip(read(ROWS))) {
        let (row, own) = if row == 0 { (cause, " *") } else { (row, "") };
        wanted += &[&wide(cause), " ", &wide(status), " ", &wide(row), own, "\n"].concat();
    }
    assert_eq!(printed(b""), wanted);
    let lines: Vec<&str> = wanted.lines().collect();
    assert_eq!(lines.len(), 128);
    let some = [lines[0], lines[5], lines[17], lines[26], lines[31], lines[99], lines[127]];
    assert_eq!(some, ["  0 480  31", "  5 404   5 *", " 17 486  17 *", " 26 480  31", " 31 480  31 *", " 99 503  99 *", "127 500 127 *"]);
}

#[test]
fn one_line_for_one_cause() {
    for (cause, (status, row)) in (0..).zip(read(LISTED).into_iter().zip(read(ROWS))) {
        let row = if row == 0 { cause } else { row };
        let wanted = format!("{status} {row} 0\n");
        for input in [format!("{cause}"), format!("{cause}\n"), format!("0{cause}"), format!("{cause:019}\n")] {
            assert_eq!(printed(input.as_bytes()), wanted, "{input:?}");
        }
    }
    for input in ["128", "128\n", "255", "256", "300\n", "65536", "4294967322", "1000000000000000026", "9999999999999999999\n"] {
        assert_eq!(printed(input.as_bytes()), "0 0 21\n", "{input:?}");
    }
}

#[test]
fn anything_else_is_not_a_number() {
    let others: [&[u8]; 30] = [
        b"\n", b"\r\n", b" ", b"26 ", b" 26", b"26\r\n", b"26\n\n", b"\n26", b"26\n27\n", b"26\n27", b"2 6", b"+26", b"-26", b"-0", b"26.", b"0x1a", b"2,6",
        b"x", b"\0", b"26\0", b"\x0026", b"26\n\0", b"2:", b"2/", b"\xff", b"\xb2", "\u{0662}".as_bytes(), b"00000000000000000026",
        b"00000000000000000000\n", b"18446744073709551616",
    ];
    for input in others {
        assert_eq!(printed(input), "not a number of 1 to 19 digits\n", "{:?}", String::from_utf8_lossy(input));
    }
    for length in 20..=100 {
        assert_eq!(printed(&vec![b'0'; length]), "not a number of 1 to 19 digits\n", "{length} digits");
        assert_eq!(printed(&[&vec![b'1'; length][..], b"\n"].concat()), "not a number of 1 to 19 digits\n", "{length} digits");
    }
}

#[test]
fn every_byte_alone_and_behind_a_digit() {
    for byte in 0..=255u8 {
        let digit = byte.is_ascii_digit();
        assert_eq!(printed(&[byte]) == "not a number of 1 to 19 digits\n", !digit, "byte {byte}");
        assert_eq!(printed(&[b'7', byte]) == "not a number of 1 to 19 digits\n", !digit && byte != b'\n', "byte {byte}");
    }
}
