//! Power failures: records of table 7 in any job with pumps, and jobs made for what a rundown can come to.

use super::sound::sound_with;
use super::Random;
use crate::draft::{Draft, DraftNode, DraftTrip};
use crate::layout::Form;
use crate::reader::MOST_BYTES;

const LEAST: f64 = f64::from_bits(1);

/// G, t0 and t1: those of a pump that comes to rest in some steps, those that leave the speed as it is,
/// and those whose sum or product passes every f64: with some of the last a speed of 1 with some inflow
/// becomes minus infinity or a NaN.
const CONSTANTS: [[f64; 3]; 19] = [
    [0.05, 1.0, 0.5],
    [0.25, 0.5, 2.0],
    [1.0, 0.0, 0.25],
    [1.0, -0.0, 1.0],
    [0.5, 1.0, 0.0],
    [1.0, 2.0, 3.0],
    [0.0, 1.0, 1.0],
    [-0.0, -0.0, -0.0],
    [1.0, -0.0, 0.0],
    [LEAST, 1.0, 1.0],
    [1.0, LEAST, LEAST],
    [1e-300, 1e300, 1e300],
    [f64::MAX, 1.0, 1.0],
    [1.0, f64::MAX, f64::MAX],
    [0.0, f64::MAX, f64::MAX],
    [-0.0, f64::MAX, f64::MAX],
    [1e308, f64::MAX, f64::MAX],
    [0.0, 1e308, 1e308],
    [0.0, f64::MAX, 1.0],
];

/// A trip step: the first ones, one within the run, or one that no run comes to.
fn trip_step(random: &mut Random, steps: u32) -> u32 {
    let any = random.from_to(3, 12) as u32;
    random.pick(&[0, 1, 1, 2, 2, 3, any, any, steps, steps.saturating_add(1), u32::MAX])
}

/// Records for most pumps of a job of seven pairs, in any order.
pub(super) fn add_trips(random: &mut Random, draft: &mut Draft) {
    if !Form::OF_SEVEN.contains(&draft.form) || random.once_in(6) {
        return;
    }
    let pumps: Vec<_> = pumps(draft);
    for node in pumps {
        if random.once_in(4) {
            continue;
        }
        let step = trip_step(random, draft.steps);
        let constants = if random.once_in(3) {
            random.pick(&CONSTANTS)
        } else {
            [random.number(0.0, 0.3), random.number(0.0, 1.0), random.number(0.0, 4.0)]
        };
        draft.trips.push(DraftTrip { node: node as u16, step, constants });
    }
    random.shuffle(&mut draft.trips);
}

fn pumps(draft: &Draft) -> Vec<usize> {
    (0..draft.nodes.len()).filter(|&node| draft.nodes[node].kind == 3).collect()
}

/// A job with at least one tripped pump, in small figures, with floors so far below that a run mostly ends
/// for its speeds.
pub fn trips(random: &mut Random) -> Draft {
    let mut draft = sound_with(random, 8, MOST_BYTES);
    draft.form = random.pick(&Form::OF_SEVEN);
    draft.steps = random.from_to(1, 12) as u32;
    draft.trips.clear();
    let first = random.below(draft.nodes.len());
    for (number, node) in draft.nodes.iter_mut().enumerate() {
        if number == first || random.once_in(2) {
            *node = pump(random);
        }
        node.schedule.truncate(255);
    }
    for pipe in &mut draft.pipes {
        pipe.s = random.pick(&[0.5, 1.0, 2.0]);
    }
    let depth = random.pick(&[1e6, 1e6, 8.0, 2.0]);
    for section in &mut draft.sections {
        let (head, flow) = (random.pick(&[16.0, 16.0, 10.0]), random.pick(&[0.0, 1.0, -1.0]));
        *section = [head, flow, head - depth];
    }
    for node in pumps(&draft) {
        if node == first || !random.once_in(4) {
            let (step, constants) = (trip_step(random, draft.steps), random.pick(&CONSTANTS));
            draft.trips.push(DraftTrip { node: node as u16, step, constants });
        }
    }
    random.shuffle(&mut draft.trips);
    draft
}

/// A pump that delivers at once, or that never does, with speeds at the ends of the range among its own.
fn pump(random: &mut Random) -> DraftNode {
    let speeds = [1.0, 1.0, 0.5, 0.75, 0.0, -0.0];
    let schedule: Vec<f64> = (0..random.from_to(1, 6)).map(|_| random.pick(&speeds)).collect();
    let a = random.pick(&[40.0, 20.0, 0.0]);
    DraftNode::pump(a, random.pick(&[1.5, 0.0, 0.25]), random.pick(&[0.0, 4.0, -2.0]), &schedule)
}

/// About half of the nodes become pumps, with as many scheduled values.
pub(super) fn more_pumps(random: &mut Random, draft: &mut Draft) {
    for node in &mut draft.nodes {
        if node.kind != 3 && random.once_in(2) {
            let speeds: Vec<f64> = node.schedule.iter().map(|_| random.number(0.0, 1.0)).collect();
            *node = DraftNode::pump(40.0, 1.5, 0.0, &speeds);
        }
    }
}

/// A speed or an inflow that no call need have left.
pub fn any_pair_number(random: &mut Random) -> f64 {
    let any = random.number(0.0, 1.0);
    random.pick(&[
        0.0,
        -0.0,
        1.0,
        any,
        any,
        -3.0,
        7.0,
        0.5,
        1e-310,
        -1e-310,
        1e160,
        -1e160,
        1e300,
        f64::MAX,
        -f64::MAX,
    ])
}

#[cfg(test)]
mod tests {
    use super::*;
    use crate::rows::RowStore;
    use crate::run::{run_on, start, Cause};
    use std::collections::BTreeSet;

    /// Some speeds come down to +0, some stay, and some runs stop though every head and flow is finite.
    #[test]
    fn rundowns_end_in_every_way() {
        let mut random = Random::new(21);
        let (mut at_rest, mut still_on, mut stopped) = (0, 0, 0);
        let mut steps = BTreeSet::new();
        for _ in 0..600 {
            let draft = trips(&mut random);
            let job = draft.bytes();
            assert_eq!(Draft::read(&job).unwrap(), draft);
            let mut rows = RowStore::zeros(draft.needed());
            start(&job, rows.lend()).unwrap();
            let ran = run_on(&job, 0, draft.steps.into(), rows.lend()).unwrap();
            stopped += usize::from(ran.stop.is_some_and(|stop| stop.cause == Cause::NotFinite));
            for trip in &draft.trips {
                steps.insert(trip.step);
                if u64::from(trip.step) <= ran.done {
                    let speed = rows.speeds()[usize::from(trip.node)];
                    at_rest += usize::from(speed.to_bits() == 0);
                    still_on += usize::from(speed > 0.0);
                }
            }
        }
        assert!(at_rest > 50 && still_on > 50 && stopped > 30, "{at_rest} {still_on} {stopped}");
        assert!([0, 1, 2, u32::MAX].iter().all(|step| steps.contains(step)));
    }
}
