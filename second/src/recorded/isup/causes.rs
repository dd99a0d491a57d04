//! Causes from the trunk: all that have a status and some beyond, and what fewer bits would make one of them.

use super::Case;

pub fn cases() -> Vec<Case> {
    let widths = [8, 16, 31, 32, 63].into_iter().flat_map(|width| beside(1 << width));
    (0..=140).chain([254, 300, 404, 999, 1000]).chain(widths).chain([u64::MAX - 1, u64::MAX]).map(Case::Cause).collect()
}

fn beside(edge: u64) -> [u64; 6] {
    [edge - 1, edge, edge + 1, edge + 17, edge + 127, edge + 128]
}
