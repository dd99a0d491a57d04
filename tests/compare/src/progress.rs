//! How far the run is.

use std::io::{IsTerminal, Write};
use std::time::{Duration, Instant};

/// A bar on standard error, a few times a second where that is a terminal, else a line now and then.
pub struct Progress {
    count: u64,
    begin: Instant,
    next: Instant,
    step: Duration,
}

impl Progress {
    pub fn new(count: u64) -> Progress {
        let step = if std::io::stderr().is_terminal() { Duration::from_millis(200) } else { Duration::from_secs(10) };
        Progress { count, begin: Instant::now(), next: Instant::now() + step, step }
    }

    pub fn show(&mut self, done: u64) {
        if done != self.count && (!done.is_multiple_of(256) || Instant::now() < self.next) {
            return;
        }
        self.next = Instant::now() + self.step;
        let share = if self.count == 0 { 1.0 } else { done as f64 / self.count as f64 };
        let full = (share * 40.0) as usize;
        let spent = self.begin.elapsed().as_secs_f64();
        let left = if share > 0.0 { spent / share - spent } else { 0.0 };
        let bar = format!("[{}{}] {done} of {}, {spent:.0} s, {left:.0} s left", "#".repeat(full), ".".repeat(40 - full), self.count);
        let terminal = std::io::stderr().is_terminal();
        let end = if !terminal || done == self.count { "\n" } else { "" };
        eprint!("{}{bar}{end}", if terminal { "\r" } else { "" });
        let _ = std::io::stderr().flush();
    }
}
