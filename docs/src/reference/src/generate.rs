//! Jobs at random, the same ones from the same seed: sound ones, odd ones that are accepted all
//! the same, ones near rest at their outlets, ones whose power fails, chains and near-chains, and damaged
//! ones.

mod chains;
mod damaged;
mod network;
mod odd;
mod outlets;
mod random;
mod sound;
mod trips;

pub use chains::{chain, chain_of, near_chain, Break, ToSet, CAUSES_TOGETHER};
pub use damaged::{damaged, damaged_anywhere, damaged_from, edited_anywhere};
pub use odd::odd;
pub use outlets::outlets;
pub use random::Random;
pub use sound::sound;
pub use trips::{any_pair_number, trips};

/// Counts of steps that add up to `steps`, with some of 0 among them: a long run-on cut up.
pub fn cut_up(random: &mut Random, steps: u64) -> Vec<u64> {
    let mut counts = Vec::new();
    let mut left = steps;
    while left > 0 {
        let count = random.from_to(0, left as usize) as u64;
        counts.push(count);
        left -= count;
    }
    counts
}
