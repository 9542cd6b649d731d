//! Jobs near rest at the heads of their outlets, so that a valve's y is often a zero or next to it.

use super::sound::sound_with;
use super::Random;
use crate::draft::{Draft, DraftNode};
use crate::reader::MOST_BYTES;

/// A job in which at least one node is a valve; every section is at one level, next to it or at a
/// quarter of it. Schedules are short, so that no job is too long.
pub fn outlets(random: &mut Random) -> Draft {
    let mut draft = sound_with(random, 6, MOST_BYTES);
    draft.steps = random.from_to(1, 12) as u32;
    let level = tenths(random, 400);
    let valve = random.below(draft.nodes.len());
    for (number, node) in draft.nodes.iter_mut().enumerate() {
        *node = node_at(random, level, if number == valve { 2 } else { node.kind });
    }
    // A pump may have become a valve, whose trip would be refused.
    draft.trips.retain(|trip| draft.nodes[usize::from(trip.node)].kind == 3);
    for pipe in &mut draft.pipes {
        pipe.s = tenths(random, 60);
    }
    let friction = random.pick(&[0.0, 0.0, 0.125]);
    draft.friction.fill(friction);
    for section in &mut draft.sections {
        let last_place = 2.0_f64.powi(random.from_to(0, 8) as i32 - 56);
        let flow = random.pick(&[0.0, 0.0, -0.0, last_place, -last_place, 1e-3, -1e-3]);
        *section = [next_to(random, level), flow, -1e6];
    }
    draft
}

/// A node of the kind, its figures at the level.
fn node_at(random: &mut Random, level: f64, kind: u8) -> DraftNode {
    match kind {
        0 => DraftNode::junction(&[random.pick(&[0.0, -0.0, 1e-3])]),
        1 => DraftNode::reservoir(&[level]),
        2 => {
            // With the greater two w·w is infinite.
            let a = random.pick(&[1.0, 4.0, 1e100, 1e200]);
            let openings = [1.0, 0.5, 0.0, 1e-200];
            let schedule = [random.pick(&openings), random.pick(&openings), 1.0];
            DraftNode::valve(a, next_to(random, level), &schedule)
        }
        _ => DraftNode::pump(0.0, 1.0, level, &[1.0]),
    }
}

/// A whole number of tenths, 1 to `most`.
fn tenths(random: &mut Random, most: usize) -> f64 {
    random.from_to(1, most) as f64 / 10.0
}

/// The level; three times in eight an f64 next to it, or a quarter of it.
fn next_to(random: &mut Random, level: f64) -> f64 {
    match random.below(8) {
        0 => f64::from_bits(level.to_bits() + 1),
        1 => f64::from_bits(level.to_bits() - 1),
        2 => level / 4.0,
        _ => level,
    }
}
