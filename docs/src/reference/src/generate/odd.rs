//! Odd jobs, accepted all the same: signed zeros, subnormals, figures at the end of the range,
//! heads on their floors.

use super::sound::sound;
use super::Random;
use crate::draft::{Draft, DraftNode};

/// An odd job.
pub fn odd(random: &mut Random) -> Draft {
    let mut draft = sound(random);
    draft.steps = random.from_to(0, 20) as u32;
    match random.below(5) {
        0 => replace(random, &mut draft, 1, &ZEROS),
        1 => replace(random, &mut draft, 1, &TINY),
        2 => replace(random, &mut draft, 1, &ANY),
        3 => {
            let seldom = random.pick(&[4, 30, 200]);
            replace(random, &mut draft, seldom, &ANY);
        }
        _ => huge_sums(random, &mut draft),
    }
    set_floors(random, &mut draft);
    draft
}

/// What the fields of a job are replaced by.
struct Choices {
    /// Not below zero; -0 is among them.
    sizes: &'static [f64],
    /// S, above zero.
    constants: &'static [f64],
    /// Openings and speeds, from 0 to 1.
    parts: &'static [f64],
}

const LEAST: f64 = f64::from_bits(1);
const LARGEST_SUBNORMAL: f64 = f64::from_bits((1 << 52) - 1);
const BELOW_ONE: f64 = f64::from_bits(0x3fef_ffff_ffff_ffff);

/// Every head, flow, friction and scheduled value a zero of either sign.
const ZEROS: Choices =
    Choices { sizes: &[0.0, -0.0], constants: &[1.0, 0.5], parts: &[0.0, -0.0, 1.0] };

/// About the subnormals, where a run goes on for long.
const TINY: Choices = Choices {
    sizes: &[0.0, -0.0, LEAST, 3.0 * LEAST, LARGEST_SUBNORMAL, f64::MIN_POSITIVE, 1e-307],
    constants: &[1.0, 0.5, 2.0, LEAST, 1e-160],
    parts: &[0.0, -0.0, LEAST, 1e-160, 0.5, BELOW_ONE, 1.0],
};

/// The whole range.
const ANY: Choices = Choices {
    sizes: &[0.0, -0.0, LEAST, 1e-200, 1e-5, 1.0, 1e5, 1e154, 1e200, 1e300, 1e308, f64::MAX],
    constants: &[LEAST, LARGEST_SUBNORMAL, 1e-200, 1e-3, 1.0, 1e154, 1e300, 1e308, f64::MAX],
    parts: &[0.0, -0.0, LEAST, 1e-200, 1e-160, 0.5, BELOW_ONE, 1.0],
};

/// One of the sizes with either sign.
fn signed(random: &mut Random, choices: &Choices) -> f64 {
    let size = random.pick(choices.sizes);
    if random.once_in(2) {
        -size
    } else {
        size
    }
}

/// Replaces about one field in `times`.
fn replace(random: &mut Random, draft: &mut Draft, times: usize, choices: &Choices) {
    for pipe in &mut draft.pipes {
        if random.once_in(times) {
            pipe.s = random.pick(choices.constants);
        }
    }
    for r in &mut draft.friction {
        if random.once_in(times) {
            *r = random.pick(choices.sizes);
        }
    }
    for field in draft.sections.iter_mut().flat_map(|section| &mut section[..2]) {
        if random.once_in(times) {
            *field = signed(random, choices);
        }
    }
    for node in &mut draft.nodes {
        replace_in_node(random, node, times, choices);
    }
    for constant in draft.trips.iter_mut().flat_map(|trip| &mut trip.constants) {
        if random.once_in(times) {
            *constant = random.pick(choices.sizes);
        }
    }
}

fn replace_in_node(random: &mut Random, node: &mut DraftNode, times: usize, choices: &Choices) {
    for (place, figure) in node.figures.iter_mut().enumerate() {
        // Which of a, b and c are sizes, and which may have either sign.
        let new = match (node.kind, place) {
            (2, 0) | (3, 0) | (3, 1) => random.pick(choices.sizes),
            (2, 1) | (3, 2) => signed(random, choices),
            _ => continue,
        };
        if random.once_in(times) {
            *figure = new;
        }
    }
    for v in &mut node.schedule {
        let new = if node.kind >= 2 { random.pick(choices.parts) } else { signed(random, choices) };
        if random.once_in(times) {
            *v = new;
        }
    }
}

/// S so large that T passes every f64 at some nodes, and small or large heads with it.
fn huge_sums(random: &mut Random, draft: &mut Draft) {
    for pipe in &mut draft.pipes {
        pipe.s = random.pick(&[1e307, 1e308, f64::MAX]);
    }
    let heads = random.pick(&[&[0.0, -0.0][..], &[1e-300, 0.0][..], &[LEAST][..]]);
    for section in &mut draft.sections {
        section[0] = random.pick(heads);
    }
}

/// Floors not above the heads: on the head, far below, or a zero under a zero of the other sign.
fn set_floors(random: &mut Random, draft: &mut Draft) {
    let on_floor = random.once_in(3);
    for [head, _, floor] in &mut draft.sections {
        let far = random.pick(&[-f64::MAX, -1e300]);
        *floor = match random.below(4) {
            0 if *head == 0.0 => -*head,
            1 => *head,
            _ if on_floor || far > *head => *head,
            _ => far,
        };
    }
}
