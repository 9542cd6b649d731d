//! Damage to the counts of the schedules, for questions 50 and 15.

use super::super::super::Random;
use super::{Parts, NODE};
use crate::fields::u16_at;

impl Parts {
    /// Whether the bytes of the node records count: table 6 is absent or empty.
    pub fn byte_counts(&self) -> bool {
        self.tables.get(5).is_none_or(|table| table.is_empty())
    }

    /// The counts in force.
    pub fn counts(&self) -> Vec<usize> {
        if self.byte_counts() {
            return self.tables[1].chunks_exact(NODE).map(|node| node[1].into()).collect();
        }
        self.tables[5].chunks_exact(2).map(|count| u16_at(count, 0).into()).collect()
    }
}

/// Question 50: table 6 of another length, a count in it 0, or a byte that it replaces not 0.
pub fn bad_counts(random: &mut Random, parts: &mut Parts) {
    let nodes = parts.tables[1].len() / NODE;
    if parts.byte_counts() {
        // Each byte stays beside the count that replaces it, and is not 0.
        let counts = parts.counts();
        parts.tables[5] = counts.iter().flat_map(|&count| (count as u16).to_le_bytes()).collect();
    }
    let any = random.below(nodes);
    let node = random.pick(&[0, nodes - 1, any]);
    match random.below(3) {
        0 => {
            let whole = 2 * nodes;
            let any = random.from_to(whole + 1, whole + 80);
            let lengths = [1, nodes, whole - 1, whole - 2, whole + 1, whole + 2, any];
            let length = random.pick(&lengths);
            let table = parts.tables[5].iter().copied().cycle().take(length);
            parts.tables[5] = table.collect();
        }
        1 => parts.tables[5][2 * node..2 * node + 2].fill(0),
        _ => {
            let any = random.from_to(1, 255) as u8;
            parts.tables[1][NODE * node + 1] = random.pick(&[1, 255, any]);
        }
    }
}

/// Question 15: counts and entries that a slip would read as fitting: every count with its bytes in
/// the other order, or entries by the low bytes alone. False, and nothing done, where these fit.
pub fn misread(random: &mut Random, parts: &mut Parts) -> bool {
    let counts = parts.counts();
    let swapped: Vec<u16> = counts.iter().map(|&count| (count as u16).swap_bytes()).collect();
    if random.once_in(2) {
        let other = swapped.iter().map(|&count| usize::from(count)).sum::<usize>();
        if other == counts.iter().sum() {
            return false;
        }
        parts.tables[5] = swapped.iter().flat_map(|count| count.to_le_bytes()).collect();
        return true;
    }
    let mut rest = &parts.tables[4][..];
    let mut kept = Vec::new();
    for &count in &counts {
        let (schedule, after) = rest.split_at(8 * count);
        kept.extend(&schedule[..8 * (count % 256)]);
        rest = after;
    }
    parts.tables[4] = kept;
    counts.iter().any(|&count| count > 255)
}
