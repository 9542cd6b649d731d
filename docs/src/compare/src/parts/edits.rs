//! Demand 3: pairs of jobs alike but for one node's scheduled values, by the same list of calls.

use crate::both::{differ, Lent};
use crate::distance;
use crate::ours::{self, Answer};
use crate::tally::Tally;
use reference::draft::{Draft, DraftNode};
use reference::generate::{odd, sound, trips, Random};
use reference::rows::{Lengths, INFLOWS, OF_SECTIONS, SPEEDS};

const SHARP: &str = "sections at k + d steps that differ: the bound is sharp";
const SHARP_FORMS: &str = "the same of a job of five pairs beside one with a full table 6";
const SHARP_LATE: &str = "the same where k is past 255";
const LATE: &str = "pairs of jobs edited after entry 255 and compared past step k";

const PAIRS_ALIKE: &str = "speeds and inflows of edited jobs found alike as promised, at pumps";
const PAIRS_ALIKE_TRIPPED: &str = "the same at pumps that run down";
const SHARP_INFLOW: &str = "inflows at k + d steps that differ: the bound is sharp for them";
const SHARP_INFLOW_FAR: &str = "the same at another pump than the edited node";
const TRIPPED_LATER: &str = "speeds of tripped pumps that differ for the edit, after k + d steps";
const START_DIFFERS: &str = "starts whose speed at the edited pump follows the edited first entry";
const EDITED_TRIPPED: &str = "pairs of jobs edited at a pump with a trip";
const EDITED_BESIDE: &str = "pairs of jobs edited at another node than one with a trip";

/// Pairs by the places of their forms in `Form::ALL`, the lesser first.
const FORMS: [[&str; 5]; 5] = [
    [
        "pairs of edited jobs: five pairs both",
        "pairs of edited jobs: five pairs; six, table 6 empty",
        "pairs of edited jobs: five pairs; six, table 6 full",
        "pairs of edited jobs: five pairs; seven, table 6 empty",
        "pairs of edited jobs: five pairs; seven, table 6 full",
    ],
    [
        "",
        "pairs of edited jobs: six, table 6 empty both",
        "pairs of edited jobs: six, table 6 empty; six, table 6 full",
        "pairs of edited jobs: six, table 6 empty; seven, table 6 empty",
        "pairs of edited jobs: six, table 6 empty; seven, table 6 full",
    ],
    [
        "",
        "",
        "pairs of edited jobs: six, table 6 full both",
        "pairs of edited jobs: six, table 6 full; seven, table 6 empty",
        "pairs of edited jobs: six, table 6 full; seven, table 6 full",
    ],
    [
        "",
        "",
        "",
        "pairs of edited jobs: seven, table 6 empty both",
        "pairs of edited jobs: seven, table 6 empty; seven, table 6 full",
    ],
    ["", "", "", "", "pairs of edited jobs: seven, table 6 full both"],
];

/// What must be reached, and how often at least.
pub fn all() -> Vec<(&'static str, u64)> {
    let pairs = FORMS.concat().into_iter().filter(|case| !case.is_empty());
    let mut counts: Vec<_> = pairs.map(|case| (case, 100)).collect();
    let of_pumps = [PAIRS_ALIKE, PAIRS_ALIKE_TRIPPED, SHARP_INFLOW, SHARP_INFLOW_FAR];
    let of_trips = [TRIPPED_LATER, START_DIFFERS, EDITED_TRIPPED, EDITED_BESIDE];
    counts.extend(of_pumps.into_iter().chain(of_trips).map(|case| (case, 100)));
    counts.extend([(SHARP, 1), (SHARP_FORMS, 100), (LATE, 100), (SHARP_LATE, 100)]);
    counts
}

pub fn edits(tally: &mut Tally) {
    let mut random = Random::new(105);
    for place in 0..9000 {
        let draft = match place % 5 {
            0 => odd(&mut random),
            1 => trips(&mut random),
            _ => sound(&mut random),
        };
        let node = edited_node(&mut random, &draft);
        let mut edited = draft.clone();
        edit_schedule(&mut random, &mut edited.nodes[node]);
        let Some(k) = first_unlike(&draft.nodes[node], &edited.nodes[node]) else {
            continue;
        };
        let (draft, edited) = (in_any_form(&mut random, &draft), in_any_form(&mut random, &edited));
        let pair = Pair::new(&draft, &edited, node as u8, k);
        pair.compare(tally, &mut random);
        tally.count("pairs of jobs edited at one node", 1);
    }
}

/// Any node; more often one whose schedule has more than 255 entries, or a pump with a trip.
fn edited_node(random: &mut Random, draft: &Draft) -> usize {
    let long = draft.nodes.iter().position(|node| node.schedule.len() > 255);
    match (long, draft.trips.first()) {
        (Some(node), _) if !random.once_in(4) => node,
        (_, Some(trip)) if random.once_in(3) => trip.node.into(),
        _ => random.below(draft.nodes.len()),
    }
}

/// The same job in any of the forms that can count its schedules.
fn in_any_form(random: &mut Random, draft: &Draft) -> Draft {
    draft.in_form(random.pick(&draft.forms()))
}

/// Another value in one entry, more entries, or fewer.
fn edit_schedule(random: &mut Random, node: &mut DraftNode) {
    let entry = random.below(node.schedule.len());
    let value = |random: &mut Random| match node.kind {
        2 | 3 => random.pick(&[0.0, -0.0, 0.25, 0.75, 1.0]),
        _ => random.pick(&[0.0, -0.0, 0.5, -1.0, 3.0, 42.0]),
    };
    match random.below(4) {
        0 => {
            let more = value(random);
            node.schedule.push(more);
        }
        1 if entry > 0 => node.schedule.truncate(entry),
        _ => node.schedule[entry] = value(random),
    }
}

/// The first step at which the two read different bits.
fn first_unlike(a: &DraftNode, b: &DraftNode) -> Option<u64> {
    let at =
        |node: &DraftNode, step: usize| node.schedule[step.min(node.schedule.len()) - 1].to_bits();
    let last = a.schedule.len().max(b.schedule.len());
    (1..=last).find(|&step| at(a, step) != at(b, step)).map(|step| step as u64)
}

struct Pair {
    jobs: [Vec<u8>; 2],
    forms: [usize; 2],
    needed: Lengths,
    far: Vec<Option<u64>>,
    /// How far each node is.
    far_nodes: Vec<Option<u64>>,
    /// The edited node.
    node: usize,
    /// The numbers of the pumps, each with its trip step where it has one.
    pumps: Vec<(usize, Option<u32>)>,
    k: u64,
}

impl Pair {
    fn new(draft: &Draft, edited: &Draft, node: u8, k: u64) -> Pair {
        let mut forms = [draft.form, edited.form].map(|form| form.place());
        forms.sort();
        let far = distance::from_node(draft, node);
        let trip_step = |node: usize| {
            draft.trips.iter().find(|trip| usize::from(trip.node) == node).map(|trip| trip.step)
        };
        let pumps = (0..draft.nodes.len()).filter(|&node| draft.nodes[node].kind == 3);
        Pair {
            jobs: [draft.bytes(), edited.bytes()],
            forms,
            needed: draft.needed(),
            far_nodes: distance::of_nodes(draft, &far),
            far,
            node: node.into(),
            pumps: pumps.map(|node| (node, trip_step(node))).collect(),
            k,
        }
    }

    /// Both by the same calls, compared after each while both have done the same steps; their spares
    /// hold anything.
    fn compare(&self, tally: &mut Tally, random: &mut Random) {
        let mut runs = [Lent::marked(self.needed), Lent::marked(self.needed)];
        for (job, lent) in self.jobs.iter().zip(&mut runs) {
            if ours::start(job, &mut lent.store, lent.lengths).number != 0 {
                // The longer schedule has made the job too large.
                return;
            }
        }
        tally.count(FORMS[self.forms[0]][self.forms[1]], 1);
        self.count_trips(tally);
        self.same_nodes(tally, 0, &runs);
        self.same_sections(tally, 0, &runs);
        let mut done = [0; 2];
        // Where k is late, one call for most of the steps before it.
        let mut before_k = self.k.saturating_sub(20);
        for _ in 0..self.k.min(20) + 24 {
            // Else mostly single steps, so that each m is seen.
            let single = if random.once_in(5) { random.below(4) as u64 } else { 1 };
            let count = if before_k > 0 { std::mem::take(&mut before_k) } else { single };
            let mut answers = [Answer { number: 0, section: 0, steps: 0 }; 2];
            for which in 0..2 {
                let lent = &mut runs[which];
                lent.fill_spare(random, self.needed);
                let job = &self.jobs[which];
                answers[which] =
                    ours::run_on(job, done[which], count, &mut lent.store, lent.lengths);
                done[which] = answers[which].steps;
            }
            self.same_stops(answers);
            if done[0] != done[1] {
                return;
            }
            self.same_sections(tally, done[0], &runs);
            self.same_nodes(tally, done[0], &runs);
            if answers.iter().any(|answer| answer.number != 0) {
                return;
            }
        }
        if self.k > 255 {
            tally.count(LATE, 1);
        }
    }

    /// A stop at a step before k is in both: step, section and cause.
    fn same_stops(&self, answers: [Answer; 2]) {
        let early = |answer: &Answer| answer.number != 0 && answer.steps + 1 < self.k;
        if answers.iter().any(early) && answers[0] != answers[1] {
            differ("demand 3, stops", &self.jobs[0], &format!("{answers:?}, k is {}", self.k));
        }
    }

    /// Alike at d reaches while m is at most k + d - 1, and at every m where no path leads.
    fn same_sections(&self, tally: &mut Tally, m: u64, runs: &[Lent; 2]) {
        let bits = |which: usize, section: usize| -> [u64; OF_SECTIONS] {
            std::array::from_fn(|row| runs[which].store.rows[row][section].to_bits())
        };
        for (section, far) in self.far.iter().enumerate() {
            let alike = bits(0, section) == bits(1, section);
            // m is at most k + d - 1.
            let promised = far.is_none_or(|d| m < self.k + d);
            if promised && !alike {
                let found = format!("section {section} at {far:?}, m is {m}, k is {}", self.k);
                differ("demand 3", &self.jobs[0], &found);
            }
            if promised {
                tally.count("sections of edited jobs found alike as promised", 1);
            } else if *far == m.checked_sub(self.k) {
                tally.count("sections at k + d steps", 1);
                if !alike {
                    self.sharp(tally);
                }
            }
        }
    }

    /// Speeds and inflows at a node d reaches away alike while m is at most k + d - 1, but for the speed that the start
    /// writes at the edited node, where k is 1. The bound is not said to be sharp for speeds.
    fn same_nodes(&self, tally: &mut Tally, m: u64, runs: &[Lent; 2]) {
        let alike = |row: usize, node: usize| {
            let [a, b] = runs.each_ref().map(|lent| lent.store.rows[row][node].to_bits());
            a == b
        };
        for (node, far) in self.far_nodes.iter().enumerate() {
            let promised = far.is_none_or(|d| m < self.k + d);
            let excepted = node == self.node && self.k == 1 && m == 0;
            let (speeds, inflows) = (alike(SPEEDS, node), alike(INFLOWS, node));
            if promised && !(inflows && (speeds || excepted)) {
                let found = format!("node {node} at {far:?}, m is {m}, k is {}", self.k);
                differ("demand 3, speeds and inflows", &self.jobs[0], &found);
            }
            let Some(&(_, trip)) = self.pumps.iter().find(|&&(pump, _)| pump == node) else {
                continue;
            };
            let tripped = trip.is_some_and(|step| m >= u64::from(step).max(1));
            let at_bound = *far == m.checked_sub(self.k);
            for (case, holds) in [
                (START_DIFFERS, excepted && !speeds),
                (PAIRS_ALIKE, promised && !excepted),
                (PAIRS_ALIKE_TRIPPED, promised && !excepted && tripped),
                (SHARP_INFLOW, at_bound && !inflows),
                (SHARP_INFLOW_FAR, at_bound && !inflows && node != self.node),
                (TRIPPED_LATER, tripped && !speeds && far.is_some_and(|d| m > self.k + d)),
            ] {
                tally.count(case, u64::from(holds));
            }
        }
    }

    fn count_trips(&self, tally: &mut Tally) {
        let tripped = |(node, trip): &&(usize, Option<u32>)| trip.is_some() && *node == self.node;
        if self.pumps.iter().any(|pump| tripped(&pump)) {
            tally.count(EDITED_TRIPPED, 1);
        } else if self.pumps.iter().any(|(_, trip)| trip.is_some()) {
            tally.count(EDITED_BESIDE, 1);
        }
    }

    /// A section differs as soon as it may.
    fn sharp(&self, tally: &mut Tally) {
        tally.count(SHARP, 1);
        if self.forms == [0, 2] {
            tally.count(SHARP_FORMS, 1);
        }
        if self.k > 255 {
            tally.count(SHARP_LATE, 1);
        }
    }
}
