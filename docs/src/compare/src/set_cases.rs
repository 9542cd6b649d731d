//! What calls to set a valve meet. Each case must be reached by the comparison.

use crate::setting::{LentToSet, NONE};
use crate::tally::Tally;
use reference::job::Job;
use reference::layout::Form;
use reference::reader::read;
use reference::valve_setting::{not_chain, work_out};

mod given;
mod layouts;
mod none;

/// A call as it was made, the rows as they were lent, and its answer.
pub struct Call<'a> {
    pub job: &'a [u8],
    pub level: f64,
    pub discharge: f64,
    pub lent: &'a LentToSet,
    pub answer: u64,
}

/// By the rows too short: heads alone, flows alone.
const ONE_SHORT: [&str; 2] = [
    "refused 52: the heads alone one entry too short",
    "refused 52: the flows alone one entry too short",
];
const EMPTY: [&str; 2] = ["refused 52: the heads alone empty", "refused 52: the flows alone empty"];
const BOTH_SHORT: &str = "refused 52: both rows too short";
const SHORT_AND_NONE: &str = "refused 52, where none would be answered";
const SHORT_AND_GIVEN: &str = "refused 52, where a coefficient would be given";

const ENOUGH: &str = "valves set, rows of exactly the section count";
const LONGER: [&str; 2] =
    ["valves set, more heads lent than sections", "valves set, more flows lent than sections"];
const ENOUGH_NONE: &str = "none, rows of exactly the section count";

/// Rows of NaNs and the coefficient's cell, left as they were: by the answer.
const LEFT_BY_NONE: &str = "none: rows of NaNs and the cell left";
const LEFT_BY_51: &str = "refused 51: rows of NaNs and the cell left";
const LEFT_BY_52: &str = "refused 52: rows of NaNs and the cell left";
const LEFT_BY_QUESTION: &str =
    "calls to set a valve of a refused job: rows of NaNs and the cell left";
const REFUSED_FIRST: &str =
    "calls to set a valve of a refused job, with 51 and 52 against them too";

/// Every case that must be reached, and how often at least.
pub fn all() -> Vec<(&'static str, u64)> {
    let rows = [BOTH_SHORT, SHORT_AND_NONE, SHORT_AND_GIVEN, ENOUGH, ENOUGH_NONE];
    let left = [LEFT_BY_NONE, LEFT_BY_51, LEFT_BY_52, LEFT_BY_QUESTION, REFUSED_FIRST];
    let mut cases = [ONE_SHORT, EMPTY, LONGER].concat();
    cases.extend(rows);
    cases.extend(left);
    cases.extend(given::all());
    cases.extend(none::all());
    cases.extend(layouts::all());
    cases.into_iter().map(|case| (case, 20)).collect()
}

/// Counts the cases of a call.
pub fn count(tally: &mut Tally, call: &Call<'_>) {
    let nans = call.lent.store.rows.iter().flatten().all(|x| x.is_nan());
    let left = match call.answer {
        0 => None,
        NONE => Some(LEFT_BY_NONE),
        51 => Some(LEFT_BY_51),
        52 => Some(LEFT_BY_52),
        _ => Some(LEFT_BY_QUESTION),
    };
    if let Some(case) = left.filter(|_| nans) {
        tally.count(case, 1);
    }
    let finite = call.level.is_finite() && call.discharge.is_finite();
    match read(call.job) {
        Err(_) if !finite && call.lent.lengths.contains(&0) => tally.count(REFUSED_FIRST, 1),
        Err(_) => {}
        Ok(job) => count_accepted(tally, &job, call),
    }
}

fn count_accepted(tally: &mut Tally, job: &Job, call: &Call<'_>) {
    let form = Form::of(call.job).place();
    let too_short = call.lent.lengths.map(|length| length < job.sections());
    if call.answer == 51 {
        return layouts::count(tally, job, form, call, too_short.contains(&true));
    }
    assert_eq!(not_chain(job), None, "51 has been answered of all others");
    let worked = work_out(job, call.level, call.discharge);
    match call.answer {
        52 => {
            count_short(tally, job.sections(), call.lent.lengths);
            let given = worked.causes.is_empty();
            tally.count(if given { SHORT_AND_GIVEN } else { SHORT_AND_NONE }, 1);
        }
        NONE => {
            if call.lent.lengths == [job.sections(); 2] {
                tally.count(ENOUGH_NONE, 1);
            }
            none::count(tally, job, call.discharge, &worked);
        }
        _ => {
            count_long(tally, job.sections(), call.lent.lengths);
            given::count(tally, job, form, (call.level, call.discharge), &worked);
        }
    }
}

/// Which row alone was too short, and how short.
fn count_short(tally: &mut Tally, sections: usize, lengths: [usize; 2]) {
    let [heads, flows] = lengths.map(|length| length < sections);
    if heads && flows {
        return tally.count(BOTH_SHORT, 1);
    }
    let row = usize::from(flows);
    if lengths[row] + 1 == sections {
        tally.count(ONE_SHORT[row], 1);
    }
    if lengths[row] == 0 {
        tally.count(EMPTY[row], 1);
    }
}

fn count_long(tally: &mut Tally, sections: usize, lengths: [usize; 2]) {
    if lengths == [sections; 2] {
        tally.count(ENOUGH, 1);
    }
    for (length, case) in lengths.into_iter().zip(LONGER) {
        if length > sections {
            tally.count(case, 1);
        }
    }
}
