//! Chains with a level and a discharge to set their valves for: near the causes of none, on either side of them; and
//! layouts that just are no chains.

use super::damaged::BYTES_TO_DAMAGE;
use super::network::Network;
use super::sound::{add_pipes, entry_count, shorten_schedules, Figures};
use super::Random;
use crate::draft::{Draft, DraftNode};
use crate::layout::Form;
use crate::reader::read;
use crate::valve_setting::{work_out, Cause};
use Cause::{
    CoefficientNotFinite, DifferenceNotFinite, DischargeNotAboveZero, HeadBelowFloor,
    HeadNotFinite, NotAboveOutlet,
};

mod figures;
mod near;

pub use near::{near_chain, Break};

/// A job, with the level and the discharge to set its valve for.
#[derive(Clone, Debug)]
pub struct ToSet {
    pub draft: Draft,
    pub level: f64,
    pub discharge: f64,
}

/// Every set of causes that can hold of a chain at once, in the order of `Cause::ALL`.
///
/// The loss of a reach is not below zero where Q is above zero, and not above zero where Q is not. So a head that is
/// not finite is minus infinity from there on, below every floor and every outlet, or plus infinity, which takes a Q
/// below zero; H - b is then not finite either. No head is a NaN. The coefficient is asked about only where H is
/// above b and H - b is finite.
pub const CAUSES_TOGETHER: [&[Cause]; 22] = [
    &[DischargeNotAboveZero],
    &[HeadBelowFloor],
    &[NotAboveOutlet],
    &[DifferenceNotFinite],
    &[CoefficientNotFinite],
    &[HeadBelowFloor, NotAboveOutlet],
    &[HeadBelowFloor, DifferenceNotFinite],
    &[HeadBelowFloor, CoefficientNotFinite],
    &[NotAboveOutlet, DifferenceNotFinite],
    &[HeadBelowFloor, NotAboveOutlet, DifferenceNotFinite],
    &[HeadBelowFloor, NotAboveOutlet, HeadNotFinite, DifferenceNotFinite],
    &[DischargeNotAboveZero, HeadBelowFloor],
    &[DischargeNotAboveZero, NotAboveOutlet],
    &[DischargeNotAboveZero, DifferenceNotFinite],
    &[DischargeNotAboveZero, CoefficientNotFinite],
    &[DischargeNotAboveZero, HeadBelowFloor, NotAboveOutlet],
    &[DischargeNotAboveZero, HeadBelowFloor, DifferenceNotFinite],
    &[DischargeNotAboveZero, HeadBelowFloor, CoefficientNotFinite],
    &[DischargeNotAboveZero, NotAboveOutlet, DifferenceNotFinite],
    &[DischargeNotAboveZero, HeadBelowFloor, NotAboveOutlet, DifferenceNotFinite],
    &[DischargeNotAboveZero, HeadNotFinite, DifferenceNotFinite],
    &[DischargeNotAboveZero, HeadBelowFloor, HeadNotFinite, DifferenceNotFinite],
];

/// A chain of at most 20 pipes for which exactly these causes of none hold; with no cause, a coefficient is given.
pub fn chain(random: &mut Random, causes: &[Cause]) -> ToSet {
    chain_of(random, 1, 20, causes)
}

/// The same of so many pipes, at most 31.
pub fn chain_of(random: &mut Random, least: usize, most: usize, causes: &[Cause]) -> ToSet {
    loop {
        let draft = layout(random, least, most);
        let made = figures::aimed(random, draft, causes);
        // The figures are only aimed: some leave the range of a job, and other causes may come to hold.
        if let Ok(job) = read(&made.draft.bytes()) {
            if work_out(&job, made.level, made.discharge).causes == causes {
                return made;
            }
        }
    }
}

/// The pipes, the nodes and their schedules; the sections are still all zeros.
fn layout(random: &mut Random, least: usize, most: usize) -> Draft {
    let few = most.min(least + 4);
    let pipes = if random.once_in(8) { most } else { random.from_to(least, few) };
    let network = Network { nodes: pipes + 1, pipes: (0..pipes).map(|i| (i, i + 1)).collect() };
    let form = random.pick(&Form::ALL);
    let mut draft = Draft { form, steps: random.from_to(0, 20) as u32, ..Draft::default() };
    for place in 0..=pipes {
        let count = entry_count(random, form);
        draft.node(node(random, place, pipes, count));
    }
    let figures = if random.once_in(3) { Figures::Small } else { Figures::Engineer };
    add_pipes(random, figures, &network, &mut draft);
    draft.sections = vec![[0.0; 3]; draft.section_count()];
    shorten_schedules(&mut draft, BYTES_TO_DAMAGE);
    draft
}

/// A reservoir, junctions that draw off zeros, a valve.
fn node(random: &mut Random, place: usize, last: usize, count: usize) -> DraftNode {
    let schedule = |random: &mut Random, choices: &[f64]| -> Vec<f64> {
        (0..count).map(|_| random.pick(choices)).collect()
    };
    if place == 0 {
        return DraftNode::reservoir(&schedule(random, &[80.0, 12.5, -3.0, 0.0]));
    }
    if place < last {
        return DraftNode::junction(&schedule(random, &[0.0, 0.0, -0.0]));
    }
    let a = random.pick(&[0.0, 1.0, 0.02, 1e300]);
    DraftNode::valve(a, 0.0, &schedule(random, &[1.0, 0.5, 0.0]))
}

#[cfg(test)]
mod tests {
    use super::*;
    use crate::valve_setting::{not_chain, NotChain};
    use std::collections::BTreeSet;

    /// `chain_of` has seen that exactly these causes hold; here, that it comes to an end, in every form.
    #[test]
    fn every_set_of_causes_is_met_in_every_form() {
        let mut random = Random::new(11);
        for causes in CAUSES_TOGETHER.into_iter().chain([&[][..]]) {
            let mut forms = BTreeSet::new();
            for _ in 0..60 {
                let ToSet { draft, .. } = chain(&mut random, causes);
                assert_eq!(not_chain(&read(&draft.bytes()).unwrap()), None);
                forms.insert(draft.form.place());
            }
            assert_eq!(forms.len(), 5, "{causes:?}");
        }
    }

    /// Figures of any sort meet no other set of causes.
    #[test]
    fn no_other_causes_hold_together() {
        let mut random = Random::new(12);
        for _ in 0..20_000 {
            let aim = random.pick(&CAUSES_TOGETHER);
            let draft = layout(&mut random, 1, 4);
            let made = figures::aimed(&mut random, draft, aim);
            let Ok(job) = read(&made.draft.bytes()) else {
                continue;
            };
            let worked = work_out(&job, made.level, made.discharge);
            assert!(worked.heads.iter().all(|head| !head.is_nan()));
            let causes = worked.causes;
            assert!(causes.is_empty() || CAUSES_TOGETHER.contains(&&causes[..]), "{causes:?}");
        }
    }

    /// What each near-chain lacks, and that it is accepted.
    #[test]
    fn near_chains_lack_what_they_say() {
        let mut random = Random::new(13);
        for way in Break::ALL {
            for _ in 0..200 {
                let ToSet { draft, .. } = near_chain(&mut random, way);
                let lack = not_chain(&read(&draft.bytes()).unwrap());
                let expected = match way {
                    Break::DoublePipe | Break::Loop | Break::TwoParts => {
                        lack == Some(NotChain::NodeCount)
                    }
                    Break::FirstNode => lack == Some(NotChain::FirstNode),
                    Break::LastNode => lack == Some(NotChain::LastNode),
                    Break::Between => matches!(lack, Some(NotChain::Between(_))),
                    Break::DrawOff => matches!(lack, Some(NotChain::DrawOff { .. })),
                    _ => matches!(lack, Some(NotChain::Pipe(_))),
                };
                assert!(expected, "{way:?} {lack:?}");
            }
        }
    }
}
