//! How long the waves of a pipe rule a stop out, so that most steps need no look at its sections.
//!
//! Q + S·H of a section travels down the pipe and Q - S·H travels up it, a reach a step: but for
//! friction and rounding, the one is CP of the section below, the other CM of the section above, and
//! a new inner section takes over both. So a new wave comes in at an end only, and bounds on the
//! waves of all sections, let out by the greatest friction of each step, hold for many steps. While
//! they keep CP - CM above (S + S)·floor for the greatest floor, no inner section stops the run.

use super::sweep::Part;
use crate::baseline::plan::{PipePlan, Plan};
use crate::baseline::two::Two;
use crate::fields::f64_at;

/// Nothing beyond this size is reckoned with; up to it no result passes every f64.
const LARGE: f64 = 1e60;
/// A step rounds by less than this part of its numbers (by some 30 · 2^-53), ...
const ROUNDING: f64 = 1e-13;
/// ... or by less than this where they are subnormal.
const TINY: f64 = 1e-200;
/// The most steps to vouch for.
const MOST_STEPS: f64 = 1e6;
/// After waves that ruled nothing out: how many steps go by before they are measured again.
const WAIT: u64 = 8;

/// Until when a pipe's inner sections cannot stop the run, and what that rests on.
#[derive(Clone, Copy)]
pub struct Watch {
    /// What a wave that comes in at an end has to keep to: the one down, the one up, and the size
    /// of Q and S·H together.
    least_down: f64,
    most_up: f64,
    most_size: f64,
    /// The last step in which no inner section can stop the run.
    until: u64,
    /// The first step in which to measure again.
    again: u64,
}

impl Watch {
    /// Nothing is vouched for.
    pub const NONE: Watch =
        Watch { least_down: 0.0, most_up: 0.0, most_size: 0.0, until: 0, again: 0 };

    /// Whether no inner section can stop the run in this step.
    #[inline(always)]
    pub fn vouches_for(&self, step: u64) -> bool {
        step <= self.until
    }

    /// Takes note of the new ends of a step (head and flow at the start, head and flow at the
    /// finish): where a wave comes in that was not reckoned with, later steps are not vouched for.
    #[inline(always)]
    pub fn take_note(&mut self, step: u64, s: f64, [upper, down_flow, lower, up_flow]: [f64; 4]) {
        let (q, sh) = (Two([down_flow, up_flow]), Two::both(s) * Two([upper, lower]));
        let size = Two(q.0.map(f64::abs)) + Two(sh.0.map(f64::abs));
        let reckoned_with = (q.0[0] + sh.0[0] >= self.least_down)
            & (q.0[1] - sh.0[1] <= self.most_up)
            & (size.0[0] <= self.most_size)
            & (size.0[1] <= self.most_size);
        self.until = if reckoned_with { self.until } else { self.until.min(step) };
    }

    /// Measures the waves of the state before a step, unless that was in vain lately, and finds out
    /// how long they rule a stop out.
    pub fn measure(&mut self, step: u64, plan: &Plan<'_>, pipe: &PipePlan, part: &Part<'_>) {
        if step < self.again {
            return;
        }
        let waves = Waves::of(pipe.s, part, plan.initial(pipe));
        let least_difference = least_difference(pipe.s, waves.greatest_floor);
        // Half of the room is left to the waves that come in, half to what the steps let out: 2 ·
        // let_out each, with two steps kept back for the rounding here. Sizes may grow by half at the
        // ends, and by another half through what the steps let out.
        let room = (waves.least_down - waves.most_up) - least_difference;
        self.least_down = waves.least_down - room / 4.0;
        self.most_up = waves.most_up + room / 4.0;
        self.most_size = waves.size * 1.5;
        let most = waves.size + waves.size;
        let friction = greatest_r(plan.friction(pipe)) * most * most;
        let let_out = friction + (friction + most) * ROUNDING + TINY;
        let steps = (room / (4.0 * let_out) - 2.0).min(waves.size / (2.0 * let_out));
        if (room > 0.0) & (let_out <= LARGE) & (steps >= 1.0) {
            self.until = step + steps.min(MOST_STEPS) as u64 - 1;
        } else {
            self.again = step + WAIT;
        }
    }
}

/// CP - CM above this keeps a head from being below the floor.
fn least_difference(s: f64, floor: f64) -> f64 {
    if !((1.0 / LARGE..=LARGE).contains(&s) && floor <= LARGE) {
        return f64::INFINITY;
    }
    let least = floor.max(-LARGE) * (s + s);
    least + least.abs() * ROUNDING + TINY
}

#[inline(always)]
fn greatest_r(friction: &[[u8; 8]]) -> f64 {
    let (pairs, odd) = friction.as_chunks::<2>();
    let mut most = Two::both(odd.first().map_or(0.0, |&r| f64::from_le_bytes(r)));
    for &pair in pairs {
        most = Two::of_bytes(pair).or_greater(most);
    }
    greater_of(most)
}

/// The least Q + S·H and the greatest Q - S·H of all sections, the greatest size of both, and the
/// greatest floor.
struct Waves {
    least_down: f64,
    most_up: f64,
    size: f64,
    greatest_floor: f64,
}

impl Waves {
    #[inline(always)]
    fn of(s: f64, part: &Part<'_>, initial: &[[u8; 24]]) -> Waves {
        let last = initial.len() - 1;
        let count = initial.len() / 2;
        let (heads, flows) = (part.heads.as_chunks::<2>().0, part.flows.as_chunks::<2>().0);
        let (heads, flows) = (&heads[..count], &flows[..count]);
        let records = &initial.as_chunks::<2>().0[..count];
        // An odd section, or the last one a second time.
        let ends = (Two::both(part.heads[last]), Two::both(part.flows[last]));
        let mut seen = Seen::at(s, ends.0, ends.1, [&initial[last], &initial[last]]);
        for at in 0..count {
            let record = records[at].each_ref();
            seen = seen.and(Seen::at(s, Two(heads[at]), Two(flows[at]), record));
        }
        let most = greater_of(seen.most_down.or_greater(seen.most_up));
        let least = less_of(seen.least_down.or_less(seen.least_up));
        Waves {
            least_down: less_of(seen.least_down),
            most_up: greater_of(seen.most_up),
            size: if most > -least { most } else { -least },
            greatest_floor: greater_of(seen.most_floor),
        }
    }
}

fn greater_of(two: Two) -> f64 {
    if two.0[0] > two.0[1] {
        two.0[0]
    } else {
        two.0[1]
    }
}

fn less_of(two: Two) -> f64 {
    if two.0[0] < two.0[1] {
        two.0[0]
    } else {
        two.0[1]
    }
}

/// What the sections seen so far have shown, two at a time.
#[derive(Clone, Copy)]
struct Seen {
    least_down: Two,
    most_down: Two,
    least_up: Two,
    most_up: Two,
    most_floor: Two,
}

impl Seen {
    #[inline(always)]
    fn at(s: f64, h: Two, q: Two, records: [&[u8; 24]; 2]) -> Seen {
        let sh = Two::both(s) * h;
        let (down, up) = (q + sh, q - sh);
        let most_floor = Two(records.map(|record| f64_at(record, 16)));
        Seen { least_down: down, most_down: down, least_up: up, most_up: up, most_floor }
    }

    #[inline(always)]
    fn and(self, other: Seen) -> Seen {
        Seen {
            least_down: other.least_down.or_less(self.least_down),
            most_down: other.most_down.or_greater(self.most_down),
            least_up: other.least_up.or_less(self.least_up),
            most_up: other.most_up.or_greater(self.most_up),
            most_floor: other.most_floor.or_greater(self.most_floor),
        }
    }
}
