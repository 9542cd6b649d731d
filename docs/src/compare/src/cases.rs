//! The cases of the lent slices and of long schedules that a call can meet. Each must be reached by the comparison.

use crate::both::Lent;
use crate::ours::Answer;
use crate::tally::Tally;
use reference::job::Job;
use reference::reader::read;
use reference::rows::{Lengths, INFLOWS, ROWS, SPARE, SPEEDS};

/// What is asked of a call.
#[derive(Clone, Copy)]
pub enum Call {
    Start,
    /// A run-on of so many steps.
    RunOn(u64),
}

const SPARE_ONE_SHORT: &str = "calls refused for a spare one value too short";
const SPARE_OF_SECTIONS: &str =
    "calls refused for a spare that holds no less than the section count";
const SPARE_ENOUGH: &str = "calls with a spare of exactly four values per pipe";
const SPARE_UNDER_SECTIONS: &str = "calls with a spare of exactly that, below the section count";
const SPARE_LONGER: &str = "calls with a longer spare, later entries untouched";
const NANS_STARTED: &str = "starts lent a spare of NaNs";
const NANS_FINISHED: &str = "run-ons of some steps lent a spare of NaNs";
const NANS_NO_STEPS: &str = "run-ons of no steps lent a spare of NaNs";
const NANS_STOPPED: &str = "stopped run-ons lent a spare of NaNs";
const NANS_REFUSED: &str = "refused calls lent a spare of NaNs, which are left";

const PAST_255: &str = "nodes that read an entry past the 255th at the last step of a run-on";
const PAST_LONG: &str =
    "nodes past the end of a schedule of more than 255 entries at the last step of a run-on";

/// Calls refused for one slice alone, in the order of the slices.
const ALONE: [&str; ROWS] = [
    "calls refused for the heads alone",
    "calls refused for the flows alone",
    "calls refused for the maxima alone",
    "calls refused for the minima alone",
    "calls refused for the speeds alone",
    "calls refused for the inflows alone",
    "calls refused for the spare alone",
];

/// Of speeds and of inflows.
type OfPairs = [&'static str; 2];
const PAIRS_ONE_SHORT: OfPairs = [
    "calls refused for the speeds alone one entry too short",
    "calls refused for the inflows alone one entry too short",
];
const PAIRS_UNDER_SECTIONS: OfPairs = [
    "calls with speeds of exactly the node count, below the section count",
    "calls with inflows of exactly the node count, below the section count",
];
const PAIRS_LONGER: OfPairs = [
    "calls with more speeds than nodes, later entries untouched",
    "calls with more inflows than nodes, later entries untouched",
];

/// Every case that must be reached.
pub fn all() -> Vec<&'static str> {
    let spare = [SPARE_ONE_SHORT, SPARE_OF_SECTIONS, SPARE_ENOUGH, SPARE_UNDER_SECTIONS];
    let nans = [NANS_STARTED, NANS_FINISHED, NANS_NO_STEPS, NANS_STOPPED, NANS_REFUSED];
    let pairs = [PAIRS_ONE_SHORT, PAIRS_UNDER_SECTIONS, PAIRS_LONGER].concat();
    [&ALONE[..], &pairs, &spare, &[SPARE_LONGER], &nans, &[PAST_255, PAST_LONG]].concat()
}

/// Counts the cases of a call that was answered so, the slices as they were lent.
pub fn count(tally: &mut Tally, job: &[u8], call: Call, lent: &Lent, answer: Answer) {
    let Ok(job) = read(job) else {
        return;
    };
    if matches!(call, Call::RunOn(1..)) && answer.number == 0 {
        long_schedules(tally, &job, answer.steps);
    }
    let needed = job.needed();
    if answer.number == 20 {
        too_short(tally, needed, lent.lengths);
    }
    if !matches!(answer.number, 20..=22) {
        long_enough(tally, needed, lent.lengths[SPARE]);
        pairs_long_enough(tally, needed, lent.lengths);
    }
    if lent.store.rows[SPARE][..needed[SPARE]].iter().all(|x| x.is_nan()) {
        tally.count(of_nans(call, answer), 1);
    }
}

/// What the nodes with more than 255 entries read at the step.
fn long_schedules(tally: &mut Tally, job: &Job, step: u64) {
    let lengths = job.nodes.iter().map(|node| node.schedule.len() as u64);
    for length in lengths.filter(|&length| length > 255 && step > 255) {
        tally.count(if step <= length { PAST_255 } else { PAST_LONG }, 1);
    }
}

/// Which slice alone was too short, and how short the spare was.
fn too_short(tally: &mut Tally, needed: Lengths, lent: Lengths) {
    let short = |&row: &usize| lent[row] < needed[row];
    let mut rows = (0..needed.len()).filter(short);
    let (Some(row), None) = (rows.next(), rows.next()) else {
        return;
    };
    tally.count(ALONE[row], 1);
    if matches!(row, SPEEDS | INFLOWS) && lent[row] + 1 == needed[row] {
        tally.count(PAIRS_ONE_SHORT[row - SPEEDS], 1);
    }
    if row == SPARE && lent[SPARE] + 1 == needed[SPARE] {
        tally.count(SPARE_ONE_SHORT, 1);
    }
    if row == SPARE && lent[SPARE] >= needed[0] {
        tally.count(SPARE_OF_SECTIONS, 1);
    }
}

fn long_enough(tally: &mut Tally, needed: Lengths, spare: usize) {
    if spare > needed[SPARE] {
        tally.count(SPARE_LONGER, 1);
        return;
    }
    tally.count(SPARE_ENOUGH, 1);
    if spare < needed[0] {
        tally.count(SPARE_UNDER_SECTIONS, 1);
    }
}

fn pairs_long_enough(tally: &mut Tally, needed: Lengths, lent: Lengths) {
    for row in [SPEEDS, INFLOWS] {
        if lent[row] > needed[row] {
            tally.count(PAIRS_LONGER[row - SPEEDS], 1);
        } else if lent[row] < needed[0] {
            tally.count(PAIRS_UNDER_SECTIONS[row - SPEEDS], 1);
        }
    }
}

/// What became of a call lent a spare of NaNs.
fn of_nans(call: Call, answer: Answer) -> &'static str {
    match (answer.number, call) {
        (20..=22, _) => NANS_REFUSED,
        (_, Call::Start) => NANS_STARTED,
        (_, Call::RunOn(0)) => NANS_NO_STEPS,
        (0, Call::RunOn(_)) => NANS_FINISHED,
        (_, Call::RunOn(_)) => NANS_STOPPED,
    }
}
