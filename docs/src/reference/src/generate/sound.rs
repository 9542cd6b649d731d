//! Sound jobs: every kind of node and network, in figures of an engineer or in small whole ones.

use super::network::{network, Network};
use super::trips::add_trips;
use super::Random;
use crate::draft::{Draft, DraftNode};
use crate::layout::Form;
use crate::reader::{MOST_BYTES, MOST_PIPES};

/// A sound job.
pub fn sound(random: &mut Random) -> Draft {
    sound_with(random, MOST_PIPES, MOST_BYTES)
}

/// A sound job of at most so many pipes and bytes.
pub fn sound_with(random: &mut Random, most_pipes: usize, most_bytes: usize) -> Draft {
    let network = network(random, most_pipes);
    let figures = if random.once_in(3) { Figures::Small } else { Figures::Engineer };
    let form = random.pick(&Form::ALL);
    let mut draft = Draft { form, steps: random.from_to(0, 60) as u32, ..Draft::default() };
    for _ in 0..network.nodes {
        draft.node(node(random, figures, form));
    }
    add_pipes(random, figures, &network, &mut draft);
    add_sections(random, figures, &mut draft);
    add_trips(random, &mut draft);
    shorten_schedules(&mut draft, most_bytes);
    let longest = draft.longest_schedule();
    if longest > Form::FivePairs.most_entries() && random.once_in(4) {
        draft.steps = random.from_to(250, longest + 10) as u32;
    }
    draft
}

#[derive(Clone, Copy)]
pub(super) enum Figures {
    /// Metres and seconds of a real main.
    Engineer,
    /// Whole numbers and quarters, so that many results are exact.
    Small,
}

/// A number of the job's figures from `least` to `most`: in quarters where they are small.
pub(super) fn number(random: &mut Random, figures: Figures, least: f64, most: f64) -> f64 {
    match figures {
        Figures::Engineer => random.number(least, most),
        Figures::Small => (random.number(least, most) * 4.0).round() / 4.0,
    }
}

/// How many entries a schedule has: mostly one or a few, at times as many as a byte counts, and more
/// where the form counts more.
pub(super) fn entry_count(random: &mut Random, form: Form) -> usize {
    match random.below(8) {
        0..=2 => 1,
        3..=6 => random.from_to(2, 9),
        _ if form.counts_in_table_6() && random.once_in(2) => random.from_to(256, 1200),
        _ => random.from_to(10, 255),
    }
}

fn node(random: &mut Random, figures: Figures, form: Form) -> DraftNode {
    let kind = random.below(4);
    let count = entry_count(random, form);
    let schedule = |random: &mut Random, least: f64, most: f64| -> Vec<f64> {
        (0..count).map(|_| number(random, figures, least, most)).collect()
    };
    let [draw, level, coefficient, outlet, shut_off, curve, sump] = match figures {
        Figures::Engineer => [0.02, 100.0, 0.05, 50.0, 100.0, 2000.0, 20.0],
        Figures::Small => [4.0, 16.0, 4.0, 8.0, 20.0, 2.0, 4.0],
    };
    match kind {
        0 => DraftNode::junction(&schedule(random, -draw / 4.0, draw)),
        1 => DraftNode::reservoir(&schedule(random, level / 2.0, level)),
        2 => {
            let a = number(random, figures, 0.0, coefficient);
            let b = number(random, figures, 0.0, outlet);
            DraftNode::valve(a, b, &schedule(random, 0.0, 1.0))
        }
        _ => {
            let a = number(random, figures, 0.0, shut_off);
            let b = number(random, figures, 0.0, curve);
            let c = number(random, figures, -sump / 4.0, sump);
            DraftNode::pump(a, b, c, &schedule(random, 0.0, 1.0))
        }
    }
}

/// The pipes, at most 512 sections in all, at times exactly 512.
pub(super) fn add_pipes(
    random: &mut Random,
    figures: Figures,
    network: &Network,
    draft: &mut Draft,
) {
    let mut left = 512 - 2 * network.pipes.len();
    let (size, fill) = (random.pick(&[1, 3, 12, 60, left]), random.once_in(6));
    for (place, &(start, finish)) in network.pipes.iter().enumerate() {
        let last = place + 1 == network.pipes.len();
        let more = if last && fill { left } else { random.below(size.min(left) + 1) };
        left -= more;
        let s = match figures {
            Figures::Engineer => random.number(3e-4, 5e-3),
            Figures::Small => random.pick(&[0.5, 1.0, 1.0, 2.0]),
        };
        draft.pipe(start as u8, finish as u8, 1 + more as u16, s, 0.0);
    }
    let most_r = match figures {
        Figures::Engineer => 0.05,
        Figures::Small => 0.25,
    };
    if !random.once_in(4) {
        draft.friction.fill_with(|| number(random, figures, 0.0, most_r));
    }
}

/// The sections: heads about a level, and floors so near or so far that some runs stop.
fn add_sections(random: &mut Random, figures: Figures, draft: &mut Draft) {
    let [level, flow] = match figures {
        Figures::Engineer => [80.0, 0.2],
        Figures::Small => [16.0, 4.0],
    };
    let (even, depth) = (random.once_in(2), random.pick(&[5.0, 200.0, 1e6, 1e6, 1e6]));
    for _ in 0..draft.section_count() {
        let head = if even { level } else { number(random, figures, level / 2.0, level) };
        let flow = number(random, figures, -flow, flow);
        draft.section(head, flow, head - number(random, figures, depth / 4.0, depth));
    }
}

/// Brings the job down to the bytes that it may have.
pub(super) fn shorten_schedules(draft: &mut Draft, most_bytes: usize) {
    while draft.byte_count() > most_bytes {
        let longest = draft.longest_schedule();
        let most = longest - longest.div_ceil(4);
        for node in &mut draft.nodes {
            node.schedule.truncate(most);
        }
    }
}

#[cfg(test)]
mod tests {
    use super::super::{odd, outlets, trips};
    use super::*;
    use crate::listing::listing;
    use std::collections::BTreeSet;

    type Make = fn(&mut Random) -> Draft;

    /// The jobs' sizes and the first words of their last lines.
    fn met(make: Make, seed: u64) -> (BTreeSet<usize>, BTreeSet<String>) {
        let mut random = Random::new(seed);
        let (mut pipes, mut ends) = (BTreeSet::new(), BTreeSet::new());
        for _ in 0..1500 {
            let draft = make(&mut random);
            let bytes = draft.bytes();
            assert_eq!(Draft::read(&bytes).unwrap(), draft);
            pipes.insert(draft.pipes.len());
            let listing = listing(&bytes);
            let last = listing.lines().last().unwrap();
            ends.insert(last.split(' ').next().unwrap().to_string());
        }
        (pipes, ends)
    }

    /// Some are short in each form, some of the long form are long, and some run past entry 255.
    #[test]
    fn jobs_have_every_form() {
        let mut random = Random::new(7);
        let (mut short, mut long, mut past) = ([0; 5], [0; 5], 0);
        for _ in 0..1500 {
            let draft = sound(&mut random);
            let form = draft.form.place();
            let longest = draft.longest_schedule();
            if longest > 255 {
                long[form] += 1;
                past += usize::from(draft.steps > 255);
            } else {
                short[form] += 1;
            }
        }
        assert!(short.iter().all(|&count| count > 100), "{short:?}");
        let by_bytes = [long[0], long[1], long[3]];
        assert!(by_bytes == [0; 3] && long[2] > 50 && long[4] > 50, "{long:?}");
        assert!(past > 20, "{past}");
    }

    #[test]
    fn jobs_are_accepted_and_end_in_every_way() {
        for (make, seed, most_pipes) in
            [(sound as Make, 4, 32), (odd, 5, 32), (outlets, 6, 6), (trips, 7, 8)]
        {
            let (pipes, ends) = met(make, seed);
            assert_eq!(pipes, (1..=most_pipes).collect());
            assert_eq!(ends, ["done", "notfinite", "parted"].map(String::from).into());
        }
    }
}
