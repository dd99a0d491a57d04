//! The worked texts of second/reviewed/replay.txt are replayed as their writer says, in every byte of the report.
use second::recorded::worked::texts;
use second::replay::{self, MOST_RECORDS};
use std::collections::BTreeSet;

#[test]
fn every_text_is_replayed_as_written() {
    for worked in texts() {
        assert_eq!(replay::report(&worked.text()), worked.report, "{}", worked.name);
    }
}

/// Each reason is a key of some pair, each ending the last number of some report.
#[test]
fn every_ending_and_every_reason_is_among_them() {
    let reports: Vec<String> = texts().into_iter().map(|worked| worked.report).collect();
    assert_eq!(reports.len(), 111);
    let endings: BTreeSet<&str> = reports.iter().filter_map(|report| report.split_whitespace().last()).collect();
    assert_eq!(endings, BTreeSet::from(["0", "31", "32", "33"]));
    let pairs = reports.iter().flat_map(|report| report.split_whitespace()).filter_map(|word| word.split_once('='));
    let reasons: BTreeSet<u64> = pairs.map(|(reason, _)| reason.parse().unwrap()).collect();
    assert_eq!(reasons, (1..=15).chain([17]).collect());
}

#[test]
fn they_are_numbered_and_have_four_lines() {
    for (place, worked) in texts().iter().enumerate() {
        assert_eq!(worked.number(), format!("{:03}", place + 1), "{}", worked.name);
        let words: Vec<Option<&str>> = worked.report.lines().map(|line| line.split(' ').next()).collect();
        assert_eq!(words, ["relay", "other", "unread", "end"].map(Some), "{}", worked.name);
    }
}

/// Some lines of the form, by texts that are easily written out.
#[test]
fn the_lines_stand_for_their_bytes() {
    let text = |number: usize| texts()[number - 1].text();
    let [call, with_the_head_in_hex] = [1, 2].map(text);
    assert_eq!(call, with_the_head_in_hex);
    assert_eq!(call[..13], *b"SN\x01\x01\x70INVITE s");
    assert_eq!(text(4), b"");
    assert_eq!(text(8), b"SN\x01\x00");
    let million = b"SN\x01\0\0".repeat(MOST_RECORDS);
    assert!(text(100) == million);
    assert!(text(105) == [&million[..], b"S\0\x01\0\0"].concat());
}
