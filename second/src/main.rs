//! `second screen [side] [room]`: one message from standard input.
//! `second record`: writes the recorded cases to standard output.
//! `second cases`: recorded cases from standard input, one line for each.
//! `second isup-record`: writes the recorded cases of the box for the old exchange (CR 7) to standard output.
//! `second isup-cases`: such cases from standard input, one line for each.
//! `second replay`: records from standard input, the report of all.
//! `second history [SEED [COUNT]]`: writes records to standard output, the fixed ones or those with COUNT drawn ones among them.
//! `second causes`: a cause from standard input, its status, row and refusal; the whole table where nothing is given.
//! `second worked DIR`: writes the worked texts of records and their reports to DIR, 001.records and 001.report and so on.

use std::fs;
use std::io::{self, Read, Write};
use std::path::Path;
use std::process::exit;

use second::recorded::steps::{self, FILLING};
use second::recorded::{self, history, isup, worked};
use second::{causes, none_held, replay, screen};

const USE: &str = "use: second screen [side] [room] | second record | second cases | second isup-record | second isup-cases \
    | second replay | second history [SEED [COUNT]] | second causes | second worked DIR";

fn main() {
    let words: Vec<String> = std::env::args().skip(1).collect();
    let done = match words.first().map(String::as_str) {
        Some("screen") => run_screen(&words[1..]),
        Some("record") => print(&recorded::file()),
        Some("cases") => print_lines(steps::lines),
        Some("isup-record") => print(&isup::file()),
        Some("isup-cases") => print_lines(isup::lines),
        Some("replay") => standard_input().and_then(|text| print(replay::report(&text).as_bytes())),
        Some("history") => run_history(&words[1..]),
        Some("causes") => standard_input().and_then(|input| print(causes::printed(&input).as_bytes())),
        Some("worked") if words.len() == 2 => run_worked(Path::new(&words[1])),
        _ => Err(USE.to_string()),
    };
    if let Err(what) = done {
        eprintln!("{what}");
        exit(2);
    }
}

fn standard_input() -> Result<Vec<u8>, String> {
    let mut bytes = Vec::new();
    io::stdin().read_to_end(&mut bytes).map_err(|e| e.to_string())?;
    Ok(bytes)
}

fn print(bytes: &[u8]) -> Result<(), String> {
    io::stdout().write_all(bytes).map_err(|e| e.to_string())
}

fn number(words: &[String], place: usize, otherwise: u64) -> Result<u64, String> {
    match words.get(place) {
        Some(word) => word.parse().map_err(|_| format!("not a number: {word}")),
        None => Ok(otherwise),
    }
}

/// "It prints reason, reply, detail and missing count with single spaces and LF, then the output."
fn run_screen(words: &[String]) -> Result<(), String> {
    let side = number(words, 0, 1)?;
    let room = number(words, 1, 9216)?;
    let message = standard_input()?;
    let mut buffer = vec![FILLING; room as usize];
    let verdict = screen(&message, side, &mut none_held(), &mut buffer);
    let [reason, reply, detail, missing, length] = verdict.numbers();
    let mut text = format!("{reason} {reply} {detail} {missing}\n").into_bytes();
    text.extend(&buffer[..length as usize]);
    print(&text)
}

/// The fixed records, or with a seed drawn ones among them.
fn run_history(words: &[String]) -> Result<(), String> {
    if words.is_empty() {
        return print(&history::fixed_file());
    }
    let count = number(words, 1, history::DRAWN as u64)?;
    print(&history::drawn_file(number(words, 0, 0)?, count as usize))
}

/// The folder is made where it is not there.
fn run_worked(folder: &Path) -> Result<(), String> {
    let write = |name: String, bytes: &[u8]| {
        let path = folder.join(name);
        fs::write(&path, bytes).map_err(|e| format!("{}: {e}", path.display()))
    };
    fs::create_dir_all(folder).map_err(|e| format!("{}: {e}", folder.display()))?;
    for worked in worked::texts() {
        write(format!("{}.records", worked.number()), &worked.text())?;
        write(format!("{}.report", worked.number()), worked.report.as_bytes())?;
    }
    Ok(())
}

/// The lines of the file of cases on standard input.
fn print_lines(lines: fn(&[u8]) -> Result<String, usize>) -> Result<(), String> {
    let lines = lines(&standard_input()?).map_err(|place| format!("no case at byte {place}"))?;
    print(lines.as_bytes())
}
