//! How far a run departs from its initial state.

use crate::draft::Draft;
use crate::refusal::Refused;
use crate::rows::RowStore;
use crate::run::{run_on, start, Ran};

/// The greatest departure of a row, and the first section and step that have it; by 0 at section 0 and step 0 where
/// there is none.
#[derive(Clone, Copy, Debug, Default, PartialEq)]
pub struct Farthest {
    pub by: f64,
    pub section: usize,
    pub step: u64,
}

/// What a run of the job's steps answers, and how far heads and flows were from their initial ones after any step of it.
#[derive(Clone, Copy, Debug)]
pub struct Departure {
    pub ran: Ran,
    pub head: Farthest,
    pub flow: Farthest,
}

/// Runs the steps of the job's listing one at a time, up to a stop.
pub fn departure(job: &[u8]) -> Result<Departure, Refused> {
    let draft = Draft::read(job)?;
    let mut rows = RowStore::zeros(draft.needed());
    start(job, rows.lend())?;
    let initial = rows.clone();
    let ran = Ran { done: 0, stop: None };
    let mut found = Departure { ran, head: Farthest::default(), flow: Farthest::default() };
    for done in 0..u64::from(draft.steps) {
        found.ran = run_on(job, done, 1, rows.lend())?;
        if found.ran.stop.is_some() {
            break;
        }
        found.head.compare(rows.heads(), initial.heads(), done + 1);
        found.flow.compare(rows.flows(), initial.flows(), done + 1);
    }
    Ok(found)
}

impl Farthest {
    /// Takes over what a step has brought farther away.
    fn compare(&mut self, row: &[f64], initial: &[f64], step: u64) {
        for (section, (now, first)) in row.iter().zip(initial).enumerate() {
            let by = (now - first).abs();
            if by > self.by {
                *self = Farthest { by, section, step };
            }
        }
    }
}

#[cfg(test)]
mod tests {
    use super::*;
    use crate::run::{Cause, Stop};
    use crate::samples::{all, job_q};

    /// Step 1 raises the valve's head from 10 to 14 and takes its flow from 4 to 0; by step 5 the head there is 6, and
    /// the flow of section 0 has been -4 from step 3 on.
    #[test]
    fn job_q_departs_by_the_bench_figures() {
        let found = departure(&Draft { steps: 5, ..job_q() }.bytes()).unwrap();
        assert_eq!(found.head, Farthest { by: 4.0, section: 2, step: 1 });
        assert_eq!(found.flow, Farthest { by: 8.0, section: 0, step: 3 });
        assert_eq!(found.ran, Ran { done: 5, stop: None });
    }

    #[test]
    fn a_stop_ends_the_run() {
        let stops = all().into_iter().find(|sample| sample.name == "stops-as-41").unwrap();
        let found = departure(&stops.draft.bytes()).unwrap();
        assert_eq!(
            found.ran,
            Ran { done: 4, stop: Some(Stop { cause: Cause::Parted, section: 3 }) }
        );
    }
}
