//! The run-on with rows of its own on the stack.
//!
//! - Each pipe is swept once a step, two sections at a time ([`sweep`]). What a section hands to
//!   its two neighbours is worked out once, and the envelopes take the old heads in passing.
//! - Two rows of its own hold the new state, and change places with those lent after each step.
//! - Faults are gathered without a branch; sections are looked at one by one only where there is
//!   one. A fault reported where there is none costs time and nothing else.

mod sweep;
mod tables;

use super::admitted;
use super::ends::{Ends, Pairs};
use super::faults::Faults;
use super::plan::Plan;
use super::two::Two;
use crate::reader::MOST_SECTIONS;
use crate::refusal::Refused;
use crate::rows::Rows;
use crate::run::{self, first_stop, Ran};
use sweep::{Envelopes, State};
use tables::Tables;

/// The run-on: `done` steps are done (m), `count` more are asked for (N).
pub fn run_on(job: &[u8], done: u64, count: u64, mut rows: Rows<'_>) -> Result<Ran, Refused> {
    let mut plan = Plan::empty();
    if !(plan.read(job) && admitted(&plan, done, count, &rows)) {
        return run::run_on(job, done, count, rows);
    }
    let ran = run(&plan, done, count, &mut rows);
    rows.clear_spare(plan.needed());
    Ok(ran)
}

/// Step after step, the state in turn in the rows of heads and flows and in rows of its own.
fn run(plan: &Plan<'_>, done: u64, count: u64, rows: &mut Rows<'_>) -> Ran {
    let sections = plan.sections;
    let mut tables = Tables::empty();
    tables.copy(plan);
    let mut work = Work { plan, tables: &tables, ends: Ends::none() };
    let mut pairs = Pairs { speeds: rows.speeds, inflows: rows.inflows };
    let (mut own_heads, mut own_flows) = ([0.0; MOST_SECTIONS], [0.0; MOST_SECTIONS]);
    let mut old = State { heads: &mut rows.heads[..sections], flows: &mut rows.flows[..sections] };
    let mut new = State { heads: &mut own_heads[..sections], flows: &mut own_flows[..sections] };
    let mut envelopes =
        Envelopes { highest: &mut rows.highest[..sections], lowest: &mut rows.lowest[..sections] };
    let mut ran = Ran { done, stop: None };
    for step in done + 1..=done + count {
        // The state lent is no step of this call, so the first sweep leaves the envelopes alone.
        let faults = if step == done + 1 {
            work.one_step::<false>(step, &pairs, &old, &mut new, &mut envelopes)
        } else {
            work.one_step::<true>(step, &pairs, &old, &mut new, &mut envelopes)
        };
        if faults.any() {
            let floors = tables.floors.iter().copied();
            ran.stop = first_stop(new.points(), floors, work.ends.pair_not_finite(plan));
            if ran.stop.is_some() {
                break;
            }
        }
        ran.done = step;
        work.ends.take_over_pairs(plan, &mut pairs);
        std::mem::swap(&mut old, &mut new);
    }
    if ran.stop.is_none() && ran.done > done {
        envelopes.take(old.heads, 0);
    }
    if (ran.done - done) % 2 == 1 {
        rows.heads[..sections].copy_from_slice(&own_heads[..sections]);
        rows.flows[..sections].copy_from_slice(&own_flows[..sections]);
    }
    if ran.done > done {
        pairs.clear_others(plan);
    }
    ran
}

struct Work<'a, 'b> {
    plan: &'a Plan<'b>,
    tables: &'a Tables,
    ends: Ends,
}

impl Work<'_, '_> {
    /// One step from the old state to the new one; `TAKE` says whether the old heads go into the
    /// envelopes.
    fn one_step<const TAKE: bool>(
        &mut self,
        step: u64,
        pairs: &Pairs<'_>,
        old: &State<'_>,
        new: &mut State<'_>,
        envelopes: &mut Envelopes<'_>,
    ) -> Faults {
        let mut faults = Faults::none();
        self.ends.clear(self.plan.nodes().len());
        for (number, pipe) in self.plan.pipes().iter().enumerate() {
            let k = sweep::pipe::<TAKE>(self.tables, pipe, old, new, envelopes, &mut faults);
            self.ends.set(number, pipe, k);
        }
        let floors = &self.tables.floors;
        let sum = self.ends.new_ends(self.plan, step, pairs, |_, pipe, start, finish| {
            let (first, last) = (pipe.first, pipe.first + pipe.reaches);
            (new.heads[first], new.flows[first]) = (start.head, start.flow);
            (new.heads[last], new.flows[last]) = (finish.head, finish.flow);
            let (heads, flows) = ([start.head, finish.head], [start.flow, finish.flow]);
            faults.look_at(Two(heads), Two(flows), Two([floors[first], floors[last]]));
        });
        faults.look_at_sum(sum);
        faults
    }
}
