//! Compares every function of libmishkolar.a and libmishkolar_isup.a with the second implementation. See `run` beside this folder.

mod bench;
mod callers;
mod causes;
mod counts;
mod differences;
mod guarded;
mod histories;
mod identities;
mod isup;
mod isup_library;
mod library;
mod messages;
mod outgoing;
mod privacy;
mod progress;
mod remembered;
mod replay;
mod screening;
mod tally;
mod watch;

use bench::Bench;
use progress::Progress;
use second::drafts::Dice;
use std::process::exit;

fn main() {
    let words: Vec<String> = std::env::args().skip(1).collect();
    let number = |place: usize, otherwise: u64| match words.get(place).map(|word| word.replace([',', '_'], "").parse()) {
        None => otherwise,
        Some(Ok(number)) => number,
        Some(Err(_)) => usage(),
    };
    if words.len() > 2 {
        usage();
    }
    let (seed, count) = (number(0, 1), number(1, 1_000_000));
    watch::NOW.set("the calls with null pointers", b"");
    watch::watch_for_faults();
    let mut bench = Bench::new();
    bench.fixed();
    let mut dice = Dice::new(seed);
    let mut progress = Progress::new(count);
    for done in 0..count {
        progress.show(done);
        bench.one(&mut dice);
    }
    progress.show(count);
    bench.counts.report(seed, count);
}

fn usage() -> ! {
    eprintln!("use: compare [SEED [COUNT]]");
    exit(2)
}
