//! The program: `screen [side] [room]`, `cases`, `replay`, `history [SEED [COUNT]]`, `causes` and `worked DIR`.
mod common;
use common::*;
use second::recorded::{history, worked};
use std::fs;
use std::io::Write;
use std::process::{Command, Stdio};

fn program(words: &[&str], input: &[u8]) -> (Option<i32>, Vec<u8>) {
    let mut child = Command::new(env!("CARGO_BIN_EXE_second"))
        .args(words)
        .stdin(Stdio::piped())
        .stdout(Stdio::piped())
        .stderr(Stdio::null())
        .spawn()
        .unwrap();
    let mut stdin = child.stdin.take().unwrap();
    let _ = stdin.write_all(input);
    drop(stdin);
    let done = child.wait_with_output().unwrap();
    (done.status.code(), done.stdout)
}

#[test]
fn screen_prints_numbers_and_output() {
    let mut wanted = b"0 0 0 0\n".to_vec();
    wanted.extend(run(&call(), 1).1);
    assert_eq!(program(&["screen"], &call()), (Some(0), wanted));
    let mut trusted = b"0 0 0 0\n".to_vec();
    trusted.extend(run(&call(), 0).1);
    assert_eq!(program(&["screen", "0"], &call()), (Some(0), trusted));
    let need = run(&call(), 1).0[4];
    assert_eq!(program(&["screen", "1", "10"], &call()).1, format!("16 500 {need} 0\n").into_bytes());
    assert_eq!(program(&["screen"], b"").1, b"3 0 0 0\n");
    assert_eq!(program(&["screen", "7"], &call()).1, b"1 0 0 0\n");
    assert_eq!(program(&["screen", "x"], &call()).0, Some(2));
    assert_eq!(program(&[], b"").0, Some(2));
}

fn digest(bytes: &[u8]) -> u64 {
    let low = |k: usize| bytes[..k].iter().fold(1, |a, &b| a + u64::from(b)) % 65521;
    (1..=bytes.len()).map(low).sum::<u64>() % 65521 * 65536 + low(bytes.len())
}

fn recorded(kind: u8, side: u8, room: u16, bytes: &[u8]) -> Vec<u8> {
    [&[kind, side][..], &room.to_be_bytes(), &(bytes.len() as u16).to_be_bytes(), bytes].concat()
}

/// The page's call in the first place of a table: Call-ID `9x@relay.example` and tag `a1`.
fn holding_the_call() -> Vec<u8> {
    let mut table = vec![0; 6208];
    table[..17].copy_from_slice(b"\x109x@relay.example");
    table[129..132].copy_from_slice(b"\x02a1");
    table
}

#[test]
fn cases_prints_a_line_for_each() {
    let good = run(&call(), 1).1;
    let mut buffer = good.clone();
    buffer.resize(9216, 0xA5);
    let file = [recorded(0, 1, 9216, &call()), recorded(0, 0, 3, &call()), recorded(0, 2, 0, b""), recorded(0, 1, 1, &[0; 9000])].concat();
    let need = run(&call(), 0).0[4];
    let [none, one] = [digest(&[0; 6208]), digest(&holding_the_call())];
    let wanted = format!(
        "0 0 0 0 {} {} {one}\n16 500 {need} 0 0 {} {none}\n1 0 0 0 0 1 {none}\n2 0 0 0 0 {} {none}\n",
        good.len(), digest(&buffer), digest(&[0xA5; 3]), digest(&[0xA5])
    );
    assert_eq!(program(&["cases"], &file), (Some(0), wanted.into_bytes()));
    assert_eq!(program(&["cases"], b""), (Some(0), Vec::new()));
    // A file that is cut short, or has no such kind, table or end, is none.
    assert_eq!(program(&["cases"], &file[..file.len() - 1]).0, Some(2));
    assert_eq!(program(&["cases"], &[0, 1, 0, 0, 0]).0, Some(2));
    for bad in [recorded(4, 0, 0, b""), recorded(2, 0, 0, &[0; 6209]), recorded(2, 1, 0, b""), recorded(2, 0, 1, b"x"), recorded(3, 0, 2, b"x"), recorded(3, 1, 1, b"xy")] {
        assert_eq!(program(&["cases"], &[&file[..], &bad].concat()).0, Some(2));
    }
}

#[test]
fn cases_carry_the_table_on() {
    let table = holding_the_call();
    let [none, one] = [digest(&[0; 6208]), digest(&table)];
    let texts = b"9x@relay.examplea1";
    let short = run_in(&call(), 1, 9216).0[4];
    let refused = |room: u16| format!("16 500 {short} 0 0 {}", digest(&vec![0xA5; usize::from(room)]));
    for (steps, wanted) in [
        (vec![recorded(2, 0, 0, &table)], format!("{one}\n")),
        (vec![recorded(2, 0, 0, &table[..132]), recorded(3, 0, 16, texts), recorded(3, 0, 16, texts)], format!("{one}\n0 {none}\n19 {none}\n")),
        (vec![recorded(2, 0, 0, &table), recorded(3, 0, 15, texts), recorded(1, 1, 0, &call())], format!("{one}\n19 {one}\n{} {one}\n", refused(0))),
        (vec![recorded(2, 0, 0, &table), recorded(0, 1, 7, &call()), recorded(2, 0, 0, b"")], format!("{one}\n{} {none}\n{none}\n", refused(7))),
        (vec![recorded(3, 0, 0, b""), recorded(1, 9, 0, b"")], format!("19 {none}\n1 0 0 0 0 1 {none}\n")),
    ] {
        assert_eq!(program(&["cases"], &steps.concat()), (Some(0), wanted.into_bytes()));
    }
}

#[test]
fn replay_prints_the_report() {
    let wanted = |lines: &str| (Some(0), lines.as_bytes().to_vec());
    let record = [&[0x53, 0x4E, 1, 0x01, 0x70], &call()[..]].concat();
    assert_eq!(program(&["replay"], &record), wanted("relay 1 1 0\nother 0 0 0\nunread 0 0 0\nend 1 0\n"));
    assert_eq!(program(&["replay"], b""), wanted("relay 0 0 0\nother 0 0 0\nunread 0 0 0\nend 0 0\n"));
    assert_eq!(program(&["replay"], &[0x53]), wanted("relay 0 0 0\nother 0 0 0\nunread 0 0 0\nend 0 32\n"));
    assert_eq!(program(&["replay"], &[record, vec![0]].concat()), wanted("relay 1 1 0\nother 0 0 0\nunread 0 0 0\nend 1 31\n"));
}

#[test]
fn history_writes_records() {
    assert_eq!(program(&["history"], b""), (Some(0), history::fixed_file()));
    assert!(program(&["history", "3"], b"") == (Some(0), history::drawn_file(3, 2000)));
    assert!(program(&["history", "3", "10"], b"") == (Some(0), history::drawn_file(3, 10)));
    assert_eq!(program(&["history", "x"], b"").0, Some(2));
    assert_eq!(program(&["history", "1", "-1"], b"").0, Some(2));
}

#[test]
fn causes_prints_a_line_or_the_table() {
    let wanted = |text: &str| (Some(0), text.as_bytes().to_vec());
    assert_eq!(program(&["causes"], b"26\n"), wanted("480 31 0\n"));
    assert_eq!(program(&["causes"], b"34"), wanted("480 34 0\n"));
    assert_eq!(program(&["causes"], b"128"), wanted("0 0 21\n"));
    assert_eq!(program(&["causes"], b"\n"), wanted("not a number of 1 to 19 digits\n"));
    assert_eq!(program(&["causes"], &[b'1'; 100_000]), wanted("not a number of 1 to 19 digits\n"));
    assert_eq!(program(&["causes"], b""), wanted(include_str!("../../crates/cause_table/stdout")));
}

#[test]
fn worked_writes_texts_and_reports() {
    let folder = format!("{}/worked", env!("CARGO_TARGET_TMPDIR"));
    assert_eq!(program(&["worked", &folder], b""), (Some(0), Vec::new()));
    for worked in worked::texts() {
        let read = |kind: &str| fs::read(format!("{folder}/{}.{kind}", worked.number())).unwrap();
        assert!(read("records") == worked.text(), "{}", worked.name);
        assert!(read("report") == worked.report.as_bytes(), "{}", worked.name);
    }
    assert_eq!(fs::read_dir(&folder).unwrap().count(), 2 * 111);
    fs::remove_dir_all(&folder).unwrap();
    assert_eq!(program(&["worked"], b"").0, Some(2));
    assert_eq!(program(&["worked", &folder, "more"], b"").0, Some(2));
    // No folder can be made inside a file.
    assert_eq!(program(&["worked", concat!(env!("CARGO_MANIFEST_DIR"), "/Cargo.toml/worked")], b"").0, Some(2));
}

#[test]
fn digest_of_known_bytes() {
    // RFC 1950's sum of the empty text, and a published value.
    assert_eq!(digest(b""), 1);
    assert_eq!(digest(b"Wikipedia"), 0x11E6_0398);
}
