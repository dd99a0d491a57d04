//! The histories of second/reviewed/hidden-calls.txt (CR 8) are answered as their writer says: in every number, every byte of the buffer and
//! all that is said of the table.
use second::calls::{held, PLACE};
use second::recorded::calls::reviewed::{histories, Reviewed, Said};
use second::recorded::{steps, Step};
use second::{end_call, screen, Table};
use std::collections::BTreeMap;

const FILLING: u8 = 0xA5;

/// The numbers of the answer and the buffer; the table is kept from step to step.
fn answer(step: &Step, table: &mut Table) -> (Vec<u64>, Vec<u8>) {
    match step {
        Step::Next(case) => {
            let mut buffer = vec![FILLING; usize::from(case.room)];
            let numbers = screen(&case.message, u64::from(case.side), table, &mut buffer).numbers();
            (numbers.to_vec(), buffer)
        }
        Step::End { call_id, tag } => (vec![end_call(table, call_id, tag)], Vec::new()),
        other => panic!("no screening and no end: {other:?}"),
    }
}

fn place(table: &Table, number: usize) -> &[u8] {
    &table[PLACE * number..PLACE * (number + 1)]
}

/// Whether it holds of the tables at the start of the history, before the step and after it.
fn holds(said: &Said, [start, before, after]: [&Table; 3]) -> bool {
    match said {
        Said::Held(pairs) => held(after) == *pairs,
        Said::Kept => before == after,
        Said::Place(number, bytes) => place(after, *number) == bytes,
        Said::AsSet(number) => place(after, *number) == place(start, *number),
    }
}

#[test]
fn every_step_is_answered_as_written() {
    for history in histories() {
        let mut table = history.before;
        for (number, Reviewed { step, answer: numbers, output, said }) in history.steps.iter().enumerate() {
            let name = format!("{}, step {}", history.name, number + 1);
            let before = table;
            let (answered, buffer) = answer(step, &mut table);
            assert_eq!(answered, *numbers, "{name}");
            assert_eq!(output.len() as u64, *numbers.get(4).unwrap_or(&0), "{name}");
            let mut written = output.clone();
            written.resize(buffer.len(), FILLING);
            assert!(buffer == written, "{name}");
            for (line, said) in said.iter().enumerate() {
                assert!(holds(said, [&history.before, &before, &table]), "{name}, line {} behind it", line + 1);
            }
        }
    }
}

#[test]
fn every_step_is_recorded() {
    let recorded = steps();
    for history in histories() {
        let wanted: Vec<&Step> = history.steps.iter().map(|reviewed| &reviewed.step).collect();
        let starts = recorded.windows(wanted.len() + 1).filter(|steps| {
            let Step::Table(front) = &steps[0] else { return false };
            let (same, rest) = history.before.split_at(front.len());
            same == front && rest.iter().all(|&byte| byte == 0) && steps[1..].iter().eq(wanted.iter().copied())
        });
        assert_eq!(starts.count(), 1, "{}", history.name);
    }
}

/// How often each answer begins with this number.
fn answers(all: &[Reviewed], kind: fn(&Step) -> bool) -> BTreeMap<u64, usize> {
    let mut found = BTreeMap::new();
    for reviewed in all.iter().filter(|reviewed| kind(&reviewed.step)) {
        *found.entry(reviewed.answer[0]).or_insert(0) += 1;
    }
    found
}

#[test]
fn every_answer_is_among_them() {
    let all: Vec<Reviewed> = histories().into_iter().flat_map(|history| history.steps).collect();
    assert_eq!(histories().len(), 64);
    let screened = [(0, 152), (1, 2), (3, 1), (4, 1), (6, 2), (7, 1), (8, 1), (9, 2), (10, 8), (11, 1), (12, 3), (13, 4), (14, 4), (15, 3), (16, 12), (18, 14)];
    assert_eq!(answers(&all, |step| matches!(step, Step::Next(_))), BTreeMap::from(screened));
    assert_eq!(answers(&all, |step| matches!(step, Step::End { .. })), BTreeMap::from([(0, 7), (19, 19)]));
    let said = |kind: fn(&Said) -> bool| all.iter().flat_map(|reviewed| &reviewed.said).filter(|said| kind(said)).count();
    assert_eq!(said(|said| matches!(said, Said::Held(_))), 180);
    assert_eq!(said(|said| matches!(said, Said::Kept)), 143);
    assert_eq!(said(|said| matches!(said, Said::Place(..))), 156);
    assert_eq!(said(|said| matches!(said, Said::AsSet(_))), 34);
}
