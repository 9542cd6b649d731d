//! The figures of a chain, aimed at causes of none.

use super::ToSet;
use crate::draft::Draft;
use crate::generate::Random;
use crate::reader::read;
use crate::valve_setting::{work_out, Cause};

const LEAST: f64 = f64::from_bits(1);
const HUGE: [f64; 3] = [1e308, 1.5e308, f64::MAX];

/// The chain with figures that these causes are likely to hold of, and others not to.
pub fn aimed(random: &mut Random, mut draft: Draft, causes: &[Cause]) -> ToSet {
    let aim = |cause: Cause| causes.contains(&cause);
    // A coefficient that is just finite.
    let great = causes.is_empty() && random.once_in(12);
    let (mut level, mut discharge) = ordinary(random, &mut draft);
    if aim(Cause::HeadNotFinite) {
        let reach = random.below(draft.friction.len());
        draft.friction[reach] = 1e308;
        discharge = random.pick(&[1e3, 1e200]);
    } else if aim(Cause::DifferenceNotFinite) {
        let sign = if aim(Cause::NotAboveOutlet) { -1.0 } else { 1.0 };
        level = sign * random.pick(&HUGE);
    } else if aim(Cause::CoefficientNotFinite) || great {
        draft.friction.fill_with(|| random.pick(&[0.0, -0.0]));
        level = random.pick(&[0.0, LEAST, 1e-300, 1e-9, 10.0]);
        let choices = if great { [1e145, 1e151, 1e296] } else { [1e303, 1e308, f64::MAX] };
        discharge = random.pick(&choices);
    }
    if aim(Cause::DischargeNotAboveZero) {
        let infinite = aim(Cause::HeadNotFinite) || aim(Cause::CoefficientNotFinite);
        let choices = [-discharge, -LEAST, 0.0, -0.0];
        discharge = random.pick(if infinite { &choices[..1] } else { &choices });
    }
    let heads = heads(&draft, level, discharge);
    let outlet = outlet(random, heads[heads.len() - 1], great, aim);
    let valve = draft.nodes.len() - 1;
    draft.nodes[valve].figures[1] = outlet;
    set_sections(random, &mut draft, &heads, aim(Cause::HeadBelowFloor));
    ToSet { draft, level, discharge }
}

/// Level and discharge in the sort of figures that the draft has, or odd ones all through.
fn ordinary(random: &mut Random, draft: &mut Draft) -> (f64, f64) {
    if !random.once_in(3) {
        let small = draft.pipes.iter().all(|pipe| pipe.s >= 0.5);
        return if small {
            (random.from_to(0, 64) as f64 / 4.0, random.from_to(1, 8) as f64 / 2.0)
        } else {
            (random.number(20.0, 100.0), random.number(0.001, 0.3))
        };
    }
    for pipe in &mut draft.pipes {
        pipe.s = random.pick(&[LEAST, 1e-200, 1e-3, 1.0, 3.0, 1e154, f64::MAX]);
    }
    let frictions = [0.0, -0.0, LEAST, 1e-310, 1e-200, 1e-5, 1.0];
    draft.friction.fill_with(|| random.pick(&frictions));
    let level = random.pick(&[0.0, -0.0, LEAST, -LEAST, 1e-300, -1e-9, 1.0, -7.5, 1e300, -1e300]);
    (level, random.pick(&[LEAST, 1e-310, 1e-200, 1e-5, 1.0, 1e5, 1e150]))
}

/// The heads, whatever the sections are.
fn heads(draft: &Draft, level: f64, discharge: f64) -> Vec<f64> {
    let job = read(&draft.bytes()).expect("a chain with all its sections zero is accepted");
    work_out(&job, level, discharge).heads
}

/// b, by the last head.
fn outlet(random: &mut Random, head: f64, great: bool, aim: impl Fn(Cause) -> bool) -> f64 {
    let less = random.number(0.5, 30.0);
    if !head.is_finite() {
        less
    } else if aim(Cause::DifferenceNotFinite) {
        -head.signum() * random.pick(&HUGE)
    } else if aim(Cause::NotAboveOutlet) {
        random.pick(&[head, head.next_up(), head + less])
    } else if aim(Cause::CoefficientNotFinite) || great {
        head.next_down()
    } else {
        random.pick(&[head - less, head - less, head - 16.0, head.next_down(), -1e300])
    }
}

/// Floors on the heads, next below or far below, one above its head where that is asked for; and an initial state that
/// has nothing to do with them but that no head in it is below its floor.
fn set_sections(random: &mut Random, draft: &mut Draft, heads: &[f64], one_above: bool) {
    let near = random.once_in(2);
    for (section, &head) in draft.sections.iter_mut().zip(heads) {
        let finite = if head.is_finite() { head } else { 0.0 };
        let other_zero = if finite == 0.0 { -finite } else { finite };
        let floors = [finite, finite.next_down(), other_zero, finite - 5.0];
        section[2] = if near { random.pick(&floors) } else { random.pick(&[-1e300, -f64::MAX]) };
    }
    if one_above {
        let place = floor_place(random, draft);
        let head = heads[place];
        draft.sections[place][2] = random.pick(&[head.next_up(), head.next_up(), head + 5.0]);
    }
    for [head, flow, floor] in &mut draft.sections {
        let other = random.pick(&[0.0, 50.0, *floor + 1.0]);
        *head = if other >= *floor && other.is_finite() { other } else { *floor };
        *flow = random.pick(&[0.0, -0.0, 0.25, -3.0]);
    }
}

/// Section 0, the last one, on either side of any node between, or any.
fn floor_place(random: &mut Random, draft: &Draft) -> usize {
    let (pipe, sections) = (random.below(draft.pipes.len()), draft.section_count());
    let first: usize = draft.pipes[..pipe].iter().map(|pipe| usize::from(pipe.reaches) + 1).sum();
    let any = random.below(sections);
    random.pick(&[0, sections - 1, first, first.saturating_sub(1), any])
}
