//! The run-on written for speed, to time the proved one against: the same equations, answers and
//! rows, in every bit, in two forms.
//!
//! - [`in_place`]: with no array that has an entry per section; the state is overwritten where it
//!   stands. A second call there looks at a step's sections only where bounds do not rule a stop out.
//! - [`own_rows`]: with rows of its own on the stack for the new state.
//!
//! A call to be refused goes to the plain run-on, which knows the number; so does one that looks
//! doubtful here, which costs time and nothing else.

mod ends;
mod faults;
pub mod in_place;
mod look;
pub mod own_rows;
mod plan;
mod two;

use crate::reader::MOST_STEPS;
use crate::rows::Rows;
use plan::Plan;

/// The questions left to a call whose job has a plan: 13, 14, 20, 21 and 22. False where one has a
/// no, or may have.
#[inline(always)]
fn admitted(plan: &Plan<'_>, done: u64, count: u64, rows: &Rows<'_>) -> bool {
    let steps_admitted = done <= MOST_STEPS && count <= MOST_STEPS - done;
    rows.hold(plan.needed()) && steps_admitted && look::sound(plan, rows)
}
