//! The worked cases of second/reviewed/isup-forward.txt and isup-back.txt (CR 7) are answered as their writer says, in every number, byte and
//! digit, and what is stored for the gate says the same.
use second::recorded::isup::reviewed::all;
use second::recorded::isup::{cases, Case, MOST};
use std::collections::{BTreeMap, BTreeSet, HashMap, HashSet};
use std::path::Path;

/// The only one that is too long to be recorded.
const LONG: &str = "65,544 digits: 8 more than 65,536";

#[test]
fn every_case_is_answered_as_written() {
    for reviewed in all() {
        assert_eq!(reviewed.case.line(), reviewed.line, "{}", reviewed.name);
    }
}

#[test]
fn every_case_but_one_is_recorded() {
    let recorded: HashSet<Case> = cases().into_iter().collect();
    let left: Vec<_> = all().into_iter().filter(|reviewed| !recorded.contains(&reviewed.case)).collect();
    let [long] = &left[..] else { panic!("{:?}", left.iter().map(|reviewed| &reviewed.name).collect::<Vec<_>>()) };
    assert_eq!(long.name, LONG);
    assert!(matches!(&long.case, Case::Backward { bytes, .. } if bytes.len() == 32_774 && bytes.len() > MOST));
}

#[test]
fn every_stored_answer_is_the_writers() {
    let folder = Path::new(env!("CARGO_MANIFEST_DIR")).join("../crates/isup_vectors");
    let stdin = std::fs::read(folder.join("stdin")).expect("crates/isup_vectors/stdin");
    let stdout = std::fs::read_to_string(folder.join("stdout")).expect("crates/isup_vectors/stdout");
    let mut lines = stdout.split_inclusive('\n');
    let mut stored = HashMap::new();
    let mut rest = &stdin[..];
    while !rest.is_empty() {
        let (case, next) = Case::read(rest).expect("a case");
        stored.insert(case, lines.next().expect("a line for each case"));
        rest = next;
    }
    assert_eq!(lines.next(), None);
    for reviewed in all().iter().filter(|reviewed| reviewed.name != LONG) {
        assert_eq!(stored.get(&reviewed.case), Some(&&reviewed.line[..]), "{}", reviewed.name);
    }
}

/// The first number of each answer to a case of this kind, and how often it is there.
fn answers(kind: fn(&Case) -> bool) -> BTreeMap<u64, usize> {
    let mut found = BTreeMap::new();
    for reviewed in all().iter().filter(|reviewed| kind(&reviewed.case)) {
        let first = reviewed.line.split(' ').next().and_then(|word| word.parse().ok()).expect("a number");
        *found.entry(first).or_insert(0) += 1;
    }
    found
}

#[test]
fn every_refusal_is_among_them() {
    let forward = answers(|case| matches!(case, Case::Forward { .. }));
    let backward = answers(|case| matches!(case, Case::Backward { .. }));
    assert_eq!([&forward, &backward].map(|found| found.values().sum::<usize>()), [303, 239]);
    assert_eq!(forward.keys().copied().collect::<BTreeSet<u64>>(), (2..=15).chain([0, 17, 41, 42]).collect());
    assert_eq!([0, 41, 42].map(|reason| forward[&reason]), [122, 28, 28]);
    assert_eq!(backward, BTreeMap::from([(0, 43), (41, 29), (43, 14), (44, 51), (45, 25), (46, 45), (47, 32)]));
}

#[test]
fn every_cause_to_127_and_some_beyond_are_among_them() {
    let cause = |case: &Case| if let Case::Cause(cause) = case { Some(*cause) } else { None };
    let causes: BTreeSet<u64> = all().iter().filter_map(|reviewed| cause(&reviewed.case)).collect();
    assert_eq!(causes, (0..=129).chain([145, 255, 256, 273, 65_553]).collect());
    assert_eq!(answers(|case| matches!(case, Case::Cause(_))).values().sum::<usize>(), causes.len());
}
