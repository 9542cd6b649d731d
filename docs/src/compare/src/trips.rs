//! What pumps whose power fails meet at the first step of a run-on, and what becomes of the speeds and inflows lent.
//! Each case must be reached by the comparison.

use crate::both::Lent;
use crate::ours::Answer;
use crate::tally::Tally;
use reference::job::{Job, Kind, Trip};
use reference::node::{solve, Solved};
use reference::reader::read;
use reference::run::sums;

mod slips;

/// An unrefused run-on: the slices as they were lent and as they were left.
pub struct Call<'a> {
    pub done: u64,
    pub count: u64,
    pub before: &'a Lent,
    pub after: &'a Lent,
    pub answer: Answer,
}

/// Pumps at their first step without power, by the record's trip step.
const AT_TRIP: [&str; 4] = [
    "pumps tripped at step 1, the record says 0",
    "pumps tripped at step 1, the record says 1",
    "pumps tripped at step 2",
    "pumps tripped later",
];
const BEFORE_TRIP: &str =
    "pumps in a record before their trip step, lent another speed than is scheduled";
const LAST_BEFORE: &str = "pumps in a record at the step before their trip step";
const IN_NO_RECORD: &str = "pumps in no record beside one that runs down";

/// What the rundown came to.
const RUNS_DOWN: &str = "rundowns to a speed above zero and below the old one";
const STAYS: &str = "rundowns that leave the speed as it was, above zero";
const BELOW: &str = "rundowns below zero and finite, so +0";
const MINUS_INFINITY: &str = "rundowns of minus infinity, so +0";
const MINUS_ZERO: &str = "rundowns of -0, which stays";
const RISES: &str = "rundowns to a greater speed";
const ABOVE_ONE: &str = "rundowns to a speed above 1";
const FROM_BELOW_ZERO: &str = "rundowns from a lent speed below zero";
const FROM_PLUS_ZERO: &str = "rundowns from a speed of +0";

/// Stops for a pair that is not finite.
const NAN_STOPS: &str =
    "stops for a speed that is no number, every head and flow of its node finite";
const INFINITE_STOPS: &str = "stops for a speed of plus infinity, the head of its node finite";
const LOWEST_OF_SEVERAL: &str = "the same at the lowest of several sections of the node";
const NOT_FIRST_END: &str = "the same where the lowest section is the finish of its pipe";
const BEFORE_41: &str = "the same at a section with a head below its floor: 40 precedes 41";
const EARLIER_STOP: &str = "stops at a section before that of a speed that is not finite";
const TWO_NODES: &str = "stops for the lower of two nodes with a speed that is not finite";
const INFLOW_STOPS: &str = "stops where an inflow is not finite";

const NO_NUMBER_Y: &str = "pumps that run on with a finite speed whose y is no number";

/// Speeds or inflows lent at nodes that are no pumps, none of them +0.
const OTHER_NODES_CLEARED: &str =
    "run-ons that finish a step, lent pairs at nodes that are no pumps";
const OTHER_NODES_NO_STEPS: &str =
    "run-ons of no steps, lent pairs at nodes that are no pumps: left";
const OTHER_NODES_STOPPED: &str =
    "run-ons stopped at once, lent pairs at nodes that are no pumps: left";
const STOPPED_LATER: &str =
    "run-ons that stop after a step, pairs of that step left at tripped pumps";

const START_MINUS_ZERO: &str = "starts that write a first speed of -0";
const START_TRIPPED: &str = "starts of pumps tripped at step 0 or 1, with their first entry";

/// Every case that must be reached.
pub fn all() -> Vec<&'static str> {
    let before = [BEFORE_TRIP, LAST_BEFORE, IN_NO_RECORD];
    let rundowns = [
        RUNS_DOWN,
        STAYS,
        BELOW,
        MINUS_INFINITY,
        MINUS_ZERO,
        RISES,
        ABOVE_ONE,
        FROM_BELOW_ZERO,
        FROM_PLUS_ZERO,
    ];
    let stops = [
        NAN_STOPS,
        INFINITE_STOPS,
        LOWEST_OF_SEVERAL,
        NOT_FIRST_END,
        BEFORE_41,
        EARLIER_STOP,
        TWO_NODES,
        INFLOW_STOPS,
    ];
    let left = [
        NO_NUMBER_Y,
        OTHER_NODES_CLEARED,
        OTHER_NODES_NO_STEPS,
        OTHER_NODES_STOPPED,
        STOPPED_LATER,
    ];
    let starts = [START_MINUS_ZERO, START_TRIPPED];
    let slips = slips::all();
    [&AT_TRIP[..], &before, &rundowns, &stops, &left, &starts, &slips].concat()
}

/// Counts the cases of a start that was not refused.
pub fn count_start(tally: &mut Tally, job: &[u8]) {
    let Ok(job) = read(job) else {
        return;
    };
    for (number, node) in job.nodes.iter().enumerate() {
        if !matches!(node.kind, Kind::Pump { .. }) {
            continue;
        }
        let tripped = job.trips.iter().any(|trip| trip.node == number && trip.step <= 1);
        tally.count(START_MINUS_ZERO, u64::from(node.schedule[0].to_bits() == 1 << 63));
        tally.count(START_TRIPPED, u64::from(tripped && node.schedule[0] != 0.0));
    }
}

/// Counts the cases of a run-on.
pub fn count(tally: &mut Tally, job: &[u8], call: &Call<'_>) {
    let Ok(job) = read(job) else {
        return;
    };
    count_left(tally, &job, call);
    if call.count == 0 {
        return;
    }
    let step = call.done + 1;
    for trip in &job.trips {
        if step >= u64::from(trip.step) {
            count_rundown(tally, &job, trip, step, call);
        } else {
            let (lent, scheduled) = (speed(call, trip.node), job.nodes[trip.node].value_at(step));
            tally.count(BEFORE_TRIP, u64::from(lent.to_bits() != scheduled.to_bits()));
            tally.count(LAST_BEFORE, u64::from(step + 1 == u64::from(trip.step)));
        }
    }
    count_nodes(tally, &job, step, call);
}

fn speed(call: &Call<'_>, node: usize) -> f64 {
    call.before.store.speeds()[node]
}

fn inflow(call: &Call<'_>, node: usize) -> f64 {
    call.before.store.inflows()[node]
}

fn count_rundown(tally: &mut Tally, job: &Job, trip: &Trip, step: u64, call: &Call<'_>) {
    let (old, q) = (speed(call, trip.node), inflow(call, trip.node));
    if step == u64::from(trip.step).max(1) {
        tally.count(AT_TRIP[trip.step.min(3) as usize], 1);
    }
    let raw = old - trip.g * ((trip.t0 * old) * old + (trip.t1 * old) * q);
    let new = trip.rundown(old, q);
    for (case, holds) in [
        (RUNS_DOWN, 0.0 < new && new < old),
        (STAYS, new == old && old > 0.0),
        (BELOW, raw < 0.0 && raw.is_finite()),
        (MINUS_INFINITY, raw == f64::NEG_INFINITY),
        (MINUS_ZERO, new.to_bits() == 1 << 63),
        (RISES, new > old && new.is_finite() && old >= 0.0),
        (ABOVE_ONE, new > 1.0 && new.is_finite()),
        (FROM_BELOW_ZERO, old < 0.0),
        (FROM_PLUS_ZERO, old.to_bits() == 0),
    ] {
        tally.count(case, u64::from(holds));
    }
    // The inflow that the step itself has, where the slices show it.
    let one_step = call.count == 1 && call.answer.number == 0;
    let own = one_step.then(|| call.after.store.inflows()[trip.node]);
    slips::count(tally, trip, (old, q), job.nodes[trip.node].value_at(step), own);
}

/// What a step has at a node of the job.
struct NewNode {
    number: usize,
    speed: f64,
    solved: Solved,
}

fn count_nodes(tally: &mut Tally, job: &Job, step: u64, call: &Call<'_>) {
    let sums = sums(job, &call.before.clone().rows());
    let runs_down = job.trips.iter().any(|trip| step >= u64::from(trip.step));
    let mut bad = Vec::new();
    for (number, (node, sums)) in job.nodes.iter().zip(sums).enumerate() {
        let Kind::Pump { a, c, .. } = node.kind else {
            continue;
        };
        let v = job.value_at(number, step, speed(call, number), inflow(call, number));
        let y = sums.t * (c + (v * v) * a) - sums.b;
        let solved = solve(node.kind, v, sums);
        let goes_on = solved.head.is_finite() && v.is_finite();
        tally.count(NO_NUMBER_Y, u64::from(goes_on && y.is_nan()));
        let in_record = job.trips.iter().any(|trip| trip.node == number);
        tally.count(IN_NO_RECORD, u64::from(runs_down && !in_record));
        if !(v.is_finite() && solved.inflow.is_finite()) {
            bad.push(NewNode { number, speed: v, solved });
        }
    }
    let stopped_at_once = call.answer.number != 0 && call.answer.steps == call.done;
    if stopped_at_once && !bad.is_empty() {
        count_stop(tally, job, &bad, call.answer);
    }
}

fn count_stop(tally: &mut Tally, job: &Job, bad: &[NewNode], answer: Answer) {
    let section = |new: &NewNode| job.lowest_section(new.number) as u64;
    let infinite = bad.iter().any(|new| new.solved.inflow.is_infinite());
    tally.count(INFLOW_STOPS, u64::from(infinite));
    let speeds: Vec<_> = bad.iter().filter(|new| !new.speed.is_finite()).collect();
    tally.count(EARLIER_STOP, u64::from(speeds.iter().any(|new| section(new) > answer.section)));
    let Some(new) = speeds.iter().find(|new| section(new) == answer.section) else {
        return;
    };
    if !new.solved.head.is_finite() {
        return;
    }
    let lowest = answer.section as usize;
    let starts = job.pipes.iter().filter(|pipe| pipe.start == new.number).count();
    let finishes = job.pipes.iter().filter(|pipe| pipe.finish == new.number).count();
    for (case, holds) in [
        (NAN_STOPS, new.speed.is_nan()),
        (INFINITE_STOPS, new.speed == f64::INFINITY),
        (LOWEST_OF_SEVERAL, starts + finishes > 1),
        (NOT_FIRST_END, job.pipes.iter().any(|pipe| pipe.last_section() == lowest)),
        (BEFORE_41, new.solved.head < job.initial[lowest].floor),
        (TWO_NODES, speeds.len() > 1),
    ] {
        tally.count(case, u64::from(holds));
    }
}

/// What became of pairs lent, by the answer.
fn count_left(tally: &mut Tally, job: &Job, call: &Call<'_>) {
    let (store, steps) = (&call.before.store, call.answer.steps - call.done);
    let others = job.nodes.iter().enumerate();
    let mut others = others.filter(|(_, node)| !matches!(node.kind, Kind::Pump { .. }));
    let lent = others.any(|(number, _)| {
        store.speeds()[number].to_bits() != 0 && store.inflows()[number].to_bits() != 0
    });
    let stopped = call.answer.number != 0;
    let tripped = |trip: &Trip| {
        let later = u64::from(trip.step) <= call.answer.steps;
        later && call.after.store.speeds()[trip.node] > 0.0
    };
    for (case, holds) in [
        (OTHER_NODES_CLEARED, lent && steps > 0),
        (OTHER_NODES_NO_STEPS, lent && call.count == 0),
        (OTHER_NODES_STOPPED, lent && stopped && steps == 0),
        (STOPPED_LATER, stopped && steps > 0 && job.trips.iter().any(tripped)),
    ] {
        tally.count(case, u64::from(holds));
    }
}
