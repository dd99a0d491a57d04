//! The edge calls of second/reviewed are answered as their writers say, in every number and every byte of the buffer, and so are the causes
//! of second/reviewed/causes.txt.
use second::causes::Answer;
use second::recorded::reviewed::{calls, files, Reviewed};
use second::{none_held, screen, status_of_cause};
use std::collections::BTreeSet;

const FILLING: u8 = 0xA5;
const CAUSES: &str = include_str!("../reviewed/causes.txt");

#[test]
fn every_call_is_answered_as_written() {
    for call in calls() {
        let mut buffer = vec![FILLING; usize::from(call.case.room)];
        let numbers = screen(&call.case.message, u64::from(call.case.side), &mut none_held(), &mut buffer).numbers();
        assert_eq!(numbers, call.answer, "{}", call.name);
        assert_eq!(call.output.len() as u64, call.answer[4], "{}", call.name);
        let mut written = call.output.clone();
        written.resize(buffer.len(), FILLING);
        assert!(buffer == written, "{}", call.name);
    }
}

#[test]
fn every_reason_is_among_them() {
    let reasons: BTreeSet<u64> = calls().iter().map(|call| call.answer[0]).collect();
    assert_eq!(reasons, (0..=17).collect());
    assert_eq!(files().map(|calls| calls.len()), [96, 124, 81, 80, 111]);
    let responses = calls().into_iter().filter(|call| call.case.message.starts_with(b"SIP/2.0 "));
    let reasons: BTreeSet<u64> = responses.map(|call| call.answer[0]).collect();
    assert_eq!(reasons, BTreeSet::from([0, 1, 2, 3, 4, 5, 6, 9, 10, 11, 12, 16, 17]));
}

/// CR 5: the answers of a pair inside are the same, and those of a pair outside are not, as its writer says. In identities.txt the pairs
/// stand behind 91 single calls.
#[test]
fn a_pair_has_one_answer_exactly_if_it_is_inside() {
    let [.., callers, identities] = files();
    assert!(identities[..91].iter().all(|call| !call.name.starts_with("pair ")));
    assert_eq!([&callers, &identities[91..]].map(pairs_inside), [26, 6]);
}

/// How many pairs are inside.
fn pairs_inside(calls: &[Reviewed]) -> usize {
    let mut all = 0;
    for (number, pair) in calls.chunks(2).enumerate() {
        let inside = pair[0].name.starts_with(&format!("pair {:02} inside first", number + 1));
        let kind = if inside { "inside" } else { "outside" };
        for (call, place) in pair.iter().zip(["first", "second"]) {
            assert!(call.name.starts_with(&format!("pair {:02} {kind} {place}", number + 1)), "{}", call.name);
        }
        assert_eq!((pair[0].case.side, pair[0].case.room), (pair[1].case.side, pair[1].case.room), "{}", pair[0].name);
        assert_ne!(pair[0].case.message, pair[1].case.message, "{}", pair[0].name);
        let answers = pair.iter().map(|call| (call.answer, &call.output)).collect::<BTreeSet<_>>();
        assert_eq!(answers.len(), if inside { 1 } else { 2 }, "{}", pair[0].name);
        all += usize::from(inside);
    }
    all
}

/// The cause of each line and its answer: "CAUSE STATUS ROW REFUSAL, in decimal, parted by single spaces", "Lines with # are notes".
fn causes() -> Vec<(u64, Answer)> {
    let numbers = |line: &str| -> Vec<u64> { line.split(' ').map(|word| word.parse().expect("a number")).collect() };
    let line = |numbers: Vec<u64>| match numbers[..] {
        [cause, status, row, refusal] => (cause, Answer { status, row, refusal }),
        _ => panic!("not four numbers: {numbers:?}"),
    };
    CAUSES.lines().filter(|line| !line.starts_with('#')).map(numbers).map(line).collect()
}

#[test]
fn every_cause_is_answered_as_written() {
    for (cause, answer) in causes() {
        assert_eq!(status_of_cause(cause), answer, "cause {cause}");
    }
}

#[test]
fn every_cause_to_127_and_some_beyond_are_among_them() {
    let causes: Vec<u64> = causes().into_iter().map(|(cause, _)| cause).collect();
    assert_eq!(causes[..128], (0..128).collect::<Vec<u64>>());
    assert!([128, 255, 256, 282, 65536, 1 << 32, 1 << 63, u64::MAX].iter().all(|cause| causes[128..].contains(cause)));
    assert_eq!(causes.len(), 146);
}
