//! The calling numbers of second/reviewed/identities-calling.txt (CR 6) are found as their writer says: where they stand and their digits.
use second::recorded::calling::cases;
use second::{calling_number, calling_slice};

#[test]
fn every_calling_number_is_found_as_written() {
    for case in cases() {
        assert_eq!(calling_number(&case.message, &case.trunk), case.part, "{}", case.name);
        assert_eq!(calling_slice(&case.message, &case.trunk), case.digits.as_bytes(), "{}", case.name);
    }
}

#[test]
fn the_writer_says_the_same_in_words() {
    for case in cases() {
        let (part, digits) = (case.part, &case.digits);
        let words = match (part.from_trunk, part.length) {
            (false, 0) => "empty".to_string(),
            (false, length) => format!("{digits}, from the message, from byte {} on (from 0), {length} bytes", part.start),
            (true, _) => format!("{digits}, the trunk number"),
        };
        assert_eq!(case.words, words, "{}", case.name);
    }
}

#[test]
fn every_kind_of_answer_is_among_them() {
    let kinds: Vec<(bool, bool)> = cases().iter().map(|case| (case.part.from_trunk, case.part.length > 0)).collect();
    let count = |kind: (bool, bool)| kinds.iter().filter(|other| **other == kind).count();
    assert_eq!([(false, true), (true, true), (false, false)].map(count), [11, 3, 6]);
    assert_eq!(kinds.len(), 20);
}
