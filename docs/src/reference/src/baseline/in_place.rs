//! The run-on in place: with no array that has an entry per section.
//!
//! One step: the new end sections wait in the spare while the old ones still serve the inner
//! sections; that no section stops the run is made sure of before anything but the spare is
//! overwritten; then each pipe is swept in place, two sections at a time ([`sweep`]).
//!
//! The sections are looked at in pairs without a division ([`check`]), and one by one only where that
//! leaves a doubt. [`run_on_by_bounds`] looks at a pipe's sections only where bounds on its waves
//! ([`waves`]) do not rule a stop out, which they do in most steps; that bounds hold for many steps
//! rests on an allowance for rounding that is argued in [`waves`] and tested, and proved nowhere.

mod check;
mod sweep;
mod waves;

use super::admitted;
use super::ends::{Ends, Pairs};
use super::faults::Faults;
use super::plan::{Plan, MOST};
use super::two::Two;
use crate::fields::f64_at;
use crate::refusal::Refused;
use crate::rows::Rows;
use crate::run::{self, first_stop, Ran, Stop};
use crate::wave::Point;
use sweep::Part;
use waves::Watch;

/// The run-on: `done` steps are done (m), `count` more are asked for (N). Every section of every step
/// is looked at before the step is taken over.
pub fn run_on(job: &[u8], done: u64, count: u64, rows: Rows<'_>) -> Result<Ran, Refused> {
    run_on_with::<false>(job, done, count, rows)
}

/// The run-on that looks only where bounds do not rule a stop out.
pub fn run_on_by_bounds(job: &[u8], done: u64, count: u64, rows: Rows<'_>) -> Result<Ran, Refused> {
    run_on_with::<true>(job, done, count, rows)
}

#[inline(always)]
fn run_on_with<const BOUNDS: bool>(
    job: &[u8],
    done: u64,
    count: u64,
    mut rows: Rows<'_>,
) -> Result<Ran, Refused> {
    let mut plan = Plan::empty();
    if !(plan.read(job) && admitted(&plan, done, count, &rows)) {
        return run::run_on(job, done, count, rows);
    }
    let (ends, watches) = (Ends::none(), [Watch::NONE; MOST]);
    let mut work = Work::<BOUNDS> { plan: &plan, rows: &mut rows, ends, watches };
    let ran = work.run(done, count);
    if ran.done > done {
        pairs(&mut rows).clear_others(&plan);
    }
    rows.clear_spare(plan.needed());
    Ok(ran)
}

struct Work<'a, 'b, 'c, const BOUNDS: bool> {
    plan: &'a Plan<'b>,
    rows: &'a mut Rows<'c>,
    ends: Ends,
    watches: [Watch; MOST],
}

impl<const BOUNDS: bool> Work<'_, '_, '_, BOUNDS> {
    fn run(&mut self, done: u64, count: u64) -> Ran {
        if count > 0 {
            self.first_ends();
        }
        for step in done + 1..=done + count {
            if let Some(stop) = self.stop(step) {
                return Ran { done: step - 1, stop: Some(stop) };
            }
            self.take_over();
        }
        Ran { done: done + count, stop: None }
    }

    /// K of the state lent.
    fn first_ends(&mut self) {
        for (number, pipe) in self.plan.pipes().iter().enumerate() {
            let part = Part::of(self.rows, pipe);
            let next = part.two(1, pipe.reaches - 1);
            let k = sweep::end_k(pipe.s, self.plan.friction(pipe), next);
            self.ends.set(number, pipe, k);
        }
    }

    /// Writes the new end sections into the spare; answers the stop, if this step stops the run.
    #[inline(always)]
    fn stop(&mut self, step: u64) -> Option<Stop> {
        let Rows { speeds, inflows, spare, .. } = &mut *self.rows;
        let (plan, spare) = (self.plan, &mut spare[..4 * self.plan.pipes().len()]);
        let lent = Pairs { speeds, inflows };
        let (mut faults, mut certain) = (Faults::none(), true);
        let sum = self.ends.new_ends(plan, step, &lent, |number, pipe, start, finish| {
            let new = [start.head, start.flow, finish.head, finish.flow];
            spare[4 * number..4 * number + 4].copy_from_slice(&new);
            let (heads, flows) = ([start.head, finish.head], [start.flow, finish.flow]);
            let initial = plan.initial(pipe);
            let floors = [floor(&initial[0]), floor(&initial[pipe.reaches])];
            faults.look_at(Two(heads), Two(flows), Two(floors));
            if BOUNDS {
                let watch = &mut self.watches[number];
                certain &= watch.vouches_for(step);
                watch.take_note(step, pipe.s, new);
            }
        });
        faults.look_at_sum(sum);
        if BOUNDS {
            if certain & !faults.any() {
                return None;
            }
            return self.stop_in_doubt(step, faults.any());
        }
        if self.sound() & !faults.any() {
            return None;
        }
        self.first_stop()
    }

    /// True where no inner section stops the run; false where one does or may.
    #[inline(always)]
    fn sound(&mut self) -> bool {
        let plan = self.plan;
        let mut sound = true;
        for pipe in plan.pipes() {
            let part = Part::of(self.rows, pipe);
            sound &= check::sound(pipe.s, plan.friction(pipe), plan.initial(pipe), &part);
        }
        sound
    }

    /// Looks closer at the pipes that are not vouched for, and at every section where that leaves a
    /// doubt.
    #[cold]
    #[inline(never)]
    fn stop_in_doubt(&mut self, step: u64, mut doubt: bool) -> Option<Stop> {
        let plan = self.plan;
        for (number, pipe) in plan.pipes().iter().enumerate() {
            let watch = &mut self.watches[number];
            if watch.vouches_for(step) {
                continue;
            }
            let ends = new_ends(self.rows.spare, number);
            let part = Part::of(self.rows, pipe);
            watch.measure(step, plan, pipe, &part);
            watch.take_note(step, pipe.s, ends);
            let ruled_out = watch.vouches_for(step);
            doubt |=
                !ruled_out && !check::sound(pipe.s, plan.friction(pipe), plan.initial(pipe), &part);
        }
        if doubt {
            self.first_stop()
        } else {
            None
        }
    }

    /// The first section that stops the run, by the new state worked out section by section.
    #[cold]
    #[inline(never)]
    fn first_stop(&mut self) -> Option<Stop> {
        let (plan, spare) = (self.plan, &*self.rows.spare);
        let (heads, flows) = (&*self.rows.heads, &*self.rows.flows);
        let new = plan.pipes().iter().zip(spare.as_chunks::<4>().0).flat_map(|(pipe, ends)| {
            let (heads, flows) = (&heads[pipe.sections()], &flows[pipe.sections()]);
            let friction = plan.friction(pipe);
            (0..=pipe.reaches).map(move |at| match at {
                0 => Point { head: ends[0], flow: ends[1] },
                at if at == pipe.reaches => Point { head: ends[2], flow: ends[3] },
                at => sweep::new_inner(pipe.s, friction, heads, flows, at),
            })
        });
        let floors = plan.pipes().iter().flat_map(|pipe| plan.initial(pipe)).map(floor);
        first_stop(new, floors, self.ends.pair_not_finite(plan))
    }

    /// A step that does not stop: the new state in the place of the old one, the envelopes, and K
    /// for the next step.
    #[inline(always)]
    fn take_over(&mut self) {
        let plan = self.plan;
        self.ends.take_over_pairs(plan, &mut pairs(self.rows));
        self.ends.clear(plan.nodes().len());
        for (number, pipe) in plan.pipes().iter().enumerate() {
            let ends = new_ends(self.rows.spare, number);
            let part = Part::of(self.rows, pipe);
            let k = sweep::in_place(pipe.s, plan.friction(pipe), part, ends);
            self.ends.set(number, pipe, k);
        }
    }
}

#[inline(always)]
fn pairs<'a>(rows: &'a mut Rows<'_>) -> Pairs<'a> {
    Pairs { speeds: rows.speeds, inflows: rows.inflows }
}

/// A pipe's new ends out of the spare: head and flow at the start, head and flow at the finish.
#[inline(always)]
fn new_ends(spare: &[f64], number: usize) -> [f64; 4] {
    spare.as_chunks().0[number]
}

#[inline(always)]
fn floor(record: &[u8; 24]) -> f64 {
    f64_at(record, 16)
}
