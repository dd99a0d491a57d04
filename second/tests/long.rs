//! Long inputs: time grows no faster than the length, over shapes that invite going back.
mod common;
use common::*;
use second::{calling_number, count, screen};
use std::hint::black_box;
use std::time::{Duration, Instant};

const TRUNK: &[u8] = b"+33999999999";

/// An OPTIONS or INVITE whose one value is made long by repeating a piece.
fn stretched(method: &str, name: &str, front: &str, piece: &str, back: &str, length: usize) -> Vec<u8> {
    let mut fields = base(method);
    let value = format!("{front}{}{back}", piece.repeat(length / piece.len()));
    set(&mut fields, name, value.as_bytes());
    build(method, URI, &fields, b"")
}

type Shape = (&'static str, &'static str, &'static str, &'static str, &'static str);

const SHAPES: [Shape; 16] = [
    ("INVITE", "Accept", "a", " ", "b"),
    ("INVITE", "Accept", "a", "\r\n ", "b"),
    ("INVITE", "Accept", "a", "\r\n b", "c"),
    ("INVITE", "Accept", "a", "  \t b", ""),
    ("INVITE", "From", "", "a ", "<sip:h>;tag=1"),
    ("INVITE", "From", "\"", "\\\"", "\" <sip:h>;tag=1"),
    ("INVITE", "From", "\"", "\\", "<sip:h>;tag=1"),
    ("INVITE", "From", "sip:", "a;", "@h;tag=1"),
    ("INVITE", "From", "<sip:h;", "%41;", ">;tag=1"),
    ("INVITE", "From", "<sip:h>", " ", ";tag=1"),
    ("INVITE", "From", "<sip:h>;tag=1", ";a = \"b\"", ""),
    ("INVITE", "From", "<sip:h>;tag=1", ";tag=1", ""),
    ("INVITE", "From", "<", "<", ">;tag=1"),
    ("INVITE", "Privacy", "a", ";\tid", ""),
    ("INVITE", "Require", "timer", ", timer", ", x"),
    ("INVITE", "Require", "timer", " ", ",timer"),
];

/// The time of some rounds over one message.
fn time(message: &[u8], rounds: usize) -> Duration {
    let mut buffer = vec![0; 9216];
    let begin = Instant::now();
    for _ in 0..rounds {
        black_box(screen(black_box(message), 1, &mut none_held(), &mut buffer));
        black_box(calling_number(black_box(message), TRUNK));
        black_box(count(black_box(message), 3));
    }
    begin.elapsed()
}

/// Eight rounds over the short message against one over the long one, which is eight times as
/// long: linear work gives about the same time, square work eight times as much. The windows are
/// short and of like length, and the best of many counts, so that a busy machine does not matter.
fn is_linear(short: &[u8], long: &[u8]) -> bool {
    let (mut best_short, mut best_long) = (Duration::MAX, Duration::MAX);
    for sample in 1..=60 {
        best_short = best_short.min(time(short, 8));
        best_long = best_long.min(time(long, 1));
        if sample >= 15 && best_long < best_short * 3 {
            return true;
        }
    }
    println!("{best_short:?} against {best_long:?}");
    false
}

#[test]
fn eight_times_the_length_takes_about_eight_times_as_long() {
    for (method, name, front, piece, back) in SHAPES {
        let short = stretched(method, name, front, piece, back, 900);
        let long = stretched(method, name, front, piece, back, 7200);
        assert!(is_linear(&short, &long), "{name} {piece:?}");
    }
}

#[test]
fn many_short_fields() {
    let many = |n: usize| format!("INVITE {URI} SIP/2.0\r\n{}\r\n", "v:\r\n".repeat(n)).into_bytes();
    assert!(is_linear(&many(250), &many(2000)));
}

#[test]
fn over_the_size_nothing_is_looked_at() {
    let mut message = call();
    message.resize(20_000_000, b' ');
    let begin = Instant::now();
    for _ in 0..1000 {
        assert_eq!(numbers(black_box(&message)), [2, 0, 0, 0]);
        assert_eq!(count(black_box(&message), 1), 0);
    }
    assert!(begin.elapsed() < Duration::from_secs(20));
}

#[test]
fn long_messages_keep_their_answers() {
    for (method, name, front, piece, back) in SHAPES {
        let short = numbers(&stretched(method, name, front, piece, back, 60));
        let long = numbers(&stretched(method, name, front, piece, back, 7200));
        if name == "Accept" || name == "Privacy" || piece == "<" || piece == "a " {
            assert_eq!(short, long, "{name} {piece:?}");
        }
    }
    assert_eq!(numbers(&stretched("INVITE", "Require", "timer", ", timer", ", x", 7000)), [14, 420, 1002, 0]);
    assert_eq!(numbers(&stretched("INVITE", "From", "\"", "\\\"", "\" <sip:h>;tag=1", 7200)), [0, 0, 0, 0]);
    assert_eq!(numbers(&stretched("INVITE", "From", "sip:", "a;", "@h;tag=1", 7200)), [10, 400, 3, 0]);
}

#[test]
fn random_bytes_never_stop_it() {
    let mut dice = Dice::new(4);
    for _ in 0..20_000 {
        let mut message = call();
        for _ in 0..1 + dice.below(4) {
            let place = dice.below(message.len());
            match dice.below(3) {
                0 => message[place] = dice.number() as u8,
                1 => { message.remove(place); }
                _ => message.insert(place, *dice.pick(b"\r\n \t:;<>\"\\%@+0,=\x00\xff")),
            }
        }
        message.truncate(message.len() - if dice.one_in(10) { dice.below(message.len()) } else { 0 });
        let (answer, _) = run(&message, dice.below(2) as u64);
        assert!(answer[0] <= 16);
        let part = calling_number(&message, TRUNK);
        let whole = if part.from_trunk { TRUNK } else { &message[..] };
        assert!(part.length == 0 || whole[part.start] == b'+');
    }
}
