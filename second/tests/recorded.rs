//! The recorded cases reach what they are for, and the stored files of cases, of records and of causes are what `second` writes
//! today.
use second::recorded::{cases, file, steps, Case, Step, MOST, ROOM};
use second::start::Start;
use second::profile::{self, Column};
use second::{judge, lines, none_held, screen};
use std::collections::BTreeSet;
use std::path::Path;
use std::process::{Command, Stdio};

fn answer(case: &Case) -> [u64; 5] {
    let mut buffer = vec![0xA5; usize::from(case.room)];
    screen(&case.message, u64::from(case.side), &mut none_held(), &mut buffer).numbers()
}

/// The details seen with a reason.
fn details(answers: &[[u64; 5]], reason: u64) -> BTreeSet<u64> {
    answers.iter().filter(|a| a[0] == reason).map(|a| a[2]).collect()
}

#[test]
fn every_reason_and_detail_is_there() {
    let all = cases();
    assert!(all.len() >= 14_900);
    let answers: Vec<[u64; 5]> = all.iter().map(answer).collect();
    for reason in 0..=17 {
        assert!(answers.iter().filter(|a| a[0] == reason).count() >= 10, "reason {reason}");
    }
    let not_repeating: BTreeSet<u64> = profile::ROWS.iter().filter(|row| !row.repeats).map(|row| row.number).collect();
    assert_eq!(details(&answers, 9), not_repeating);
    assert_eq!(details(&answers, 10), BTreeSet::from([1, 2, 3, 4, 5, 6, 7, 8, 9, 10, 11, 14, 15, 16, 18]));
    assert_eq!(details(&answers, 12), BTreeSet::from([1, 2, 3, 4, 5, 6, 7, 9, 12, 15]));
    assert!((1..=40).all(|place| details(&answers, 14).contains(&place)));
    let counts: BTreeSet<u64> = answers.iter().map(|a| a[3]).collect();
    assert_eq!(counts, (0..=10).collect());
    // Every refusal that an ACK can have is silent.
    for (case, a) in all.iter().zip(&answers).filter(|(case, _)| case.message.starts_with(b"ACK ")) {
        assert_eq!(a[1], 0, "{case:?}");
    }
}

/// Whether the case is one of a response whose start line reads.
fn is_response(case: &Case) -> bool {
    let end = case.message.windows(2).position(|pair| pair == b"\r\n");
    end.and_then(|end| Start::read(&case.message[..end])).is_some_and(|start| matches!(start, Start::Status { .. }))
}

fn column_of(case: &Case) -> Option<Column> {
    judge::column(&lines::read(&case.message).ok()?)
}

#[test]
fn every_reason_and_detail_of_responses_is_there() {
    let all: Vec<Case> = cases().into_iter().filter(is_response).collect();
    let answers: Vec<[u64; 5]> = all.iter().map(answer).collect();
    assert!(answers.iter().all(|a| a[1] == 0), "reply always 0");
    let reasons: BTreeSet<u64> = answers.iter().map(|a| a[0]).collect();
    assert_eq!(reasons, BTreeSet::from([0, 1, 2, 4, 5, 6, 9, 10, 11, 12, 16, 17]));
    assert_eq!(details(&answers, 9), BTreeSet::from([3, 4, 5, 6, 7, 8, 9]));
    assert_eq!(details(&answers, 10), BTreeSet::from([1, 3, 4, 5, 7, 8, 9, 11, 14, 18]));
    assert_eq!(details(&answers, 12), BTreeSet::from([1, 3, 4, 5, 7, 9]));
    let counts: BTreeSet<u64> = answers.iter().map(|a| a[3]).collect();
    assert_eq!(counts, (0..=6).collect());
    for column in [Column::InviteSuccess, Column::CancelResponse, Column::OtherResponse] {
        let accepted = all.iter().zip(&answers).filter(|(case, a)| a[0] == 0 && column_of(case) == Some(column)).count();
        assert!(accepted >= 10, "{column:?}");
    }
    for code in ["099", "100", "199", "200", "299", "300", "699", "700"] {
        let front = format!("SIP/2.0 {code} ");
        assert!(all.iter().filter(|case| case.message.starts_with(front.as_bytes())).count() >= 10, "{code}");
    }
    let status_lines_refused = cases().iter().filter(|case| case.message.starts_with(b"SIP/2.0") && answer(case)[0] == 3).count();
    assert!(status_lines_refused >= 50);
}

/// The Privacy tokens of an INVITE that is accepted on side 1, in small letters, and whether From goes out anonymous.
fn asked_and_masked(case: &Case) -> Option<(Vec<String>, bool)> {
    let mut buffer = vec![0; usize::from(case.room)];
    let [reason, .., length] = screen(&case.message, u64::from(case.side), &mut none_held(), &mut buffer).numbers();
    let text = String::from_utf8_lossy(&buffer[..length as usize]);
    let text = text.split("\r\n\r\n").next()?;
    let value = text.split("\r\nPrivacy: ").nth(1)?.split("\r\n").next()?.to_ascii_lowercase();
    let tokens = value.split(';').map(|token| token.trim().to_string()).collect();
    (reason == 0 && case.side == 1 && text.starts_with("INVITE ")).then(|| (tokens, text.contains("\r\nFrom: \"Anonymous\" <sip:anonymous@")))
}

#[test]
fn every_way_to_hide_is_there() {
    let answers: Vec<(Vec<String>, bool)> = cases().iter().filter_map(asked_and_masked).collect();
    let masked = |least: usize, with: &dyn Fn(&[String]) -> bool| {
        let found: Vec<bool> = answers.iter().filter(|(tokens, _)| with(tokens)).map(|(_, masked)| *masked).collect();
        found.len() >= least && found.iter().all(|&masked| masked)
    };
    for way in ["header", "user", "id"] {
        let has = |tokens: &[String], token: &str| tokens.iter().any(|one| one == token);
        assert!(masked(40, &|tokens| tokens == [way]), "{way} alone");
        assert!(masked(40, &|tokens| has(tokens, way) && has(tokens, "none")), "{way} beside none");
        assert!(masked(3, &|tokens| has(tokens, way) && tokens.len() > 3000), "{way} among many");
        assert!(masked(20, &|tokens| has(tokens, way) && ["header", "user", "id"].iter().filter(|one| has(tokens, one)).count() > 1), "{way} beside another");
    }
    let shown: BTreeSet<&str> = answers.iter().filter(|(tokens, masked)| tokens.len() == 1 && !masked).map(|(tokens, _)| tokens[0].as_str()).collect();
    assert!(shown.len() >= 80, "{}", shown.len());
    for near in ["username", "users", "use", "ser", "usr", "us%r", "identity", "user-id", "i", "d", "idd", "headers", "head", "header.", "he!der", "none", "session", "critical", "history"] {
        assert!(shown.contains(near), "{near}");
    }
}

#[test]
fn every_step_is_read_again_and_every_kind_is_there() {
    let (file, all) = (file(), steps());
    let mut rest = &file[..];
    let mut kinds = [0; 4];
    for step in &all {
        kinds[usize::from(rest[0])] += 1;
        let (again, next) = Step::read(rest).expect("a step");
        assert_eq!(&again, step);
        rest = next;
    }
    assert!(rest.is_empty());
    assert!(kinds[0] > cases().len() + 100 && kinds[1..].iter().all(|&many| many >= 700), "{kinds:?}");
    assert!(all[..cases().len()].iter().zip(cases()).all(|(step, case)| *step == Step::Fresh(case)));
}

/// The histories (CR 8) meet a full table, hide by the table alone, and end pairs that are held and others.
#[test]
fn every_answer_of_a_history_is_there() {
    let (mut table, mut full, mut hidden, mut ends) = (none_held(), 0, 0, [0; 2]);
    for step in &steps()[cases().len()..] {
        let before = table;
        let line = step.line(&mut table);
        match step {
            Step::Table(_) => {}
            Step::End { .. } => ends[usize::from(line.starts_with("19 "))] += 1,
            Step::Fresh(case) | Step::Next(case) => {
                full += usize::from(line.starts_with("18 503 0 0 0 "));
                hidden += usize::from(line.starts_with("0 ") && line.split(' ').nth(4) != Step::Fresh(case.clone()).line(&mut before.clone()).split(' ').nth(4));
            }
        }
    }
    assert!(full >= 100 && hidden >= 200 && ends[0] >= 300 && ends[1] >= 300, "{full} {hidden} {ends:?}");
}

#[test]
fn the_program_of_the_gate_reads_them_all() {
    assert!(steps().len() <= 65_536);
}

#[test]
fn sizes_are_at_their_edges() {
    let all = cases();
    let lengths: BTreeSet<usize> = all.iter().map(|case| case.message.len()).collect();
    assert!(lengths.contains(&8192) && lengths.contains(&MOST) && lengths.contains(&0));
    let grown = all.iter().map(|case| (answer(case)[4] as usize).saturating_sub(case.message.len())).max();
    assert!(grown > Some(800) && grown < Some(1024), "{grown:?}");
    let short = all.iter().filter(|case| answer(case)[0] == 16 && answer(case)[2] == u64::from(case.room) + 1).count();
    let exact = all.iter().filter(|case| answer(case)[4] == u64::from(case.room) && case.room > 0).count();
    assert!(short >= 20 && exact >= 20);
    assert!(all.iter().all(|case| case.room <= ROOM));
}

#[test]
fn the_file_is_the_same_each_time() {
    assert_eq!(file(), file());
}

/// What is stored for the program of a crate is what these words of `second` write and answer today.
fn stored_files_are_up_to_date(name: &str, writes: &str, answers: &str) {
    let folder = Path::new(env!("CARGO_MANIFEST_DIR")).join("../crates").join(name);
    let (stdin, stdout) = (folder.join("stdin"), folder.join("stdout"));
    if !stdin.exists() && !stdout.exists() {
        eprintln!("skipped: crates/{name}/stdin and stdout are absent; second/regenerate writes them");
        return;
    }
    let second = |word: &str, input: Stdio| Command::new(env!("CARGO_BIN_EXE_second")).arg(word).stdin(input).output().expect("second").stdout;
    let stored = std::fs::read(&stdin).expect("stdin");
    assert!(stored == second(writes, Stdio::null()), "crates/{name}/stdin differs from `second {writes}`: run second/regenerate");
    let input = std::fs::File::open(&stdin).expect("stdin");
    let stored = std::fs::read(&stdout).expect("stdout");
    assert!(stored == second(answers, Stdio::from(input)), "crates/{name}/stdout differs from `second {answers}`: run second/regenerate");
}

#[test]
fn stored_cases_are_up_to_date() {
    stored_files_are_up_to_date("vectors", "record", "cases");
}

#[test]
fn stored_cases_of_the_parameter_are_up_to_date() {
    stored_files_are_up_to_date("isup_vectors", "isup-record", "isup-cases");
}

#[test]
fn stored_records_are_up_to_date() {
    stored_files_are_up_to_date("replay", "history", "replay");
}

/// What is stored as the output of a crate's program is what `second causes` prints for this input.
fn stored_causes_are_up_to_date(name: &str, input: Stdio) {
    let path = Path::new(env!("CARGO_MANIFEST_DIR")).join("../crates").join(name).join("stdout");
    let stored = std::fs::read(&path).unwrap_or_else(|e| panic!("crates/{name}/stdout: {e}"));
    let printed = Command::new(env!("CARGO_BIN_EXE_second")).arg("causes").stdin(input).output().expect("second").stdout;
    let [stored, printed] = [stored, printed].map(|bytes| String::from_utf8(bytes).expect("plain text"));
    assert_eq!(stored, printed, "crates/{name}/stdout and `second causes`");
}

#[test]
fn stored_cause_table_is_up_to_date() {
    stored_causes_are_up_to_date("cause_table", Stdio::null());
}

#[test]
fn stored_cause_is_up_to_date() {
    let path = Path::new(env!("CARGO_MANIFEST_DIR")).join("../crates/cause_map/stdin");
    let input = std::fs::File::open(path).expect("crates/cause_map/stdin");
    stored_causes_are_up_to_date("cause_map", Stdio::from(input));
}

/// The gate stores the table that `cause_table` prints: that program must be `cause_map` but for its first line, which says what it is.
#[test]
fn cause_table_is_cause_map_once_more() {
    let main = |name: &str| {
        let path = Path::new(env!("CARGO_MANIFEST_DIR")).join("../crates").join(name).join("src/main.rt");
        std::fs::read_to_string(&path).unwrap_or_else(|e| panic!("{}: {e}", path.display()))
    };
    let [map, table] = ["cause_map", "cause_table"].map(main);
    let code = |text: &str| text.split_once('\n').expect("a first line").1.to_string();
    assert!(code(&map).contains("fn main"));
    assert_eq!(code(&map), code(&table));
}
