//! What was counted of records, as the library keeps it, and as the second implementation says it must be.

use crate::library::COUNTS;
use second::drafts::Dice;
use second::replay::{self, Group, History, Line, GROUPS, MOST_RECORDS};

/// Numbers for each line of the report.
const OF_A_LINE: usize = COUNTS / GROUPS.len();

/// The counts, how many records were read, and how the text ended.
#[derive(Clone, Debug, PartialEq)]
pub struct Tally {
    pub counts: Vec<u32>,
    pub read: u64,
    pub end: u64,
}

impl Tally {
    /// Before the first record.
    pub fn new() -> Tally {
        Tally { counts: vec![0; COUNTS], read: 0, end: 0 }
    }

    /// What a history leaves.
    pub fn of(history: &History, end: u64) -> Tally {
        let mut tally = Tally { counts: Vec::new(), read: history.len() as u64, end };
        for (group, _) in GROUPS {
            let line = Line::of(history, group);
            let often = |reason: u64| line.refused.iter().find(|pair| pair.0 == reason).map_or(0, |pair| pair.1);
            tally.counts.push(line.accepted as u32);
            tally.counts.extend((1..OF_A_LINE as u64).map(|reason| often(reason) as u32));
        }
        tally
    }

    /// Any numbers: small and large ones, at the edges, and in the count of this group and reason often the largest.
    pub fn drawn(dice: &mut Dice, judged: (Group, u64)) -> Tally {
        let often = *dice.pick(&[1, 2, 60, 6000]);
        let mut counts: Vec<u32> = (0..COUNTS).map(|_| if dice.one_in(often) { drawn_count(dice) } else { 0 }).collect();
        if dice.one_in(8) {
            counts[place(judged)] = u32::MAX - dice.below(2) as u32;
        }
        let edges = [999_998, 999_999, 1_000_000, 1_000_001, 1_048_576, 1 << 32, (1 << 32) + 5, 1 << 63, u64::MAX - 1, u64::MAX];
        let read = match dice.below(4) {
            0 => *dice.pick(&edges),
            1 => dice.number() >> dice.below(64),
            _ => dice.below(MOST_RECORDS) as u64,
        };
        let end = if dice.one_in(3) { *dice.pick(&[1, 31, 32, 33, 34, 255, 1 << 32, u64::MAX]) } else { 0 };
        Tally { counts, read, end }
    }

    /// The same with one record more, as the header has it: "Where *end is not 0 nothing changes; else, where *read is 1,000,000 or more,
    /// nothing is counted and *end is 33." "A count of 4,294,967,295 stays as it is."
    pub fn with(&self, judged: (Group, u64)) -> Tally {
        let mut after = self.clone();
        if self.end != 0 {
            return after;
        }
        if self.read >= MOST_RECORDS as u64 {
            after.end = 33;
        } else {
            let count = &mut after.counts[place(judged)];
            *count = count.saturating_add(1);
            after.read += 1;
        }
        after
    }

    /// Its report.
    pub fn written(&self) -> Vec<u8> {
        let line = |group: usize| {
            let counts = &self.counts[group * OF_A_LINE..(group + 1) * OF_A_LINE];
            let refused = counts.iter().enumerate().skip(1).map(|(reason, &count)| (reason as u64, u64::from(count))).collect();
            Line { accepted: u64::from(counts[0]), refused }
        };
        replay::written(&[line(0), line(1), line(2)], self.read, self.end).into_bytes()
    }
}

/// The place among the counts.
pub fn place((group, reason): (Group, u64)) -> usize {
    let line = GROUPS.iter().position(|one| one.0 == group).expect("one of three");
    line * OF_A_LINE + reason as usize
}

fn drawn_count(dice: &mut Dice) -> u32 {
    match dice.below(4) {
        0 => u32::MAX - dice.below(2) as u32,
        1 => dice.below(12) as u32,
        2 => *dice.pick(&[9, 10, 99, 100, 9_999, 10_000, 999_999, 1_000_000, 999_999_999, 1_000_000_000]),
        _ => (dice.number() >> 32) as u32 >> dice.below(32),
    }
}
