//! The same job in all its forms, and the longest jobs that there are.

use crate::both::{self, differ, same_rows, Lent};
use crate::tally::Tally;
use reference::draft::Draft;
use reference::generate::{cut_up, odd, outlets, sound, trips, Random};
use reference::layout::Form;
use reference::reader::{read, MOST_BYTES};
use reference::samples::timed::longest_jobs;

/// Must be reached, the first two so often at least.
pub const IN_ALL_FORMS: (&str, u64) =
    ("jobs without a trip run in all five forms, the same bits", 2000);
pub const IN_BOTH_OF_SEVEN: (&str, u64) =
    ("jobs with trips run in both forms of seven pairs, the same bits", 500);
pub const LONGEST_FULL: &str = "jobs of 32,766 bytes with a full table 6, run past their schedules";
pub const LONGEST_EMPTY: &str = "jobs of 32,768 bytes with an empty table 6";
pub const LONGEST_SEVEN: &str =
    "jobs of 32,768 bytes with seven pairs, a full table 6 and seven power failures";

pub fn forms(tally: &mut Tally) {
    let mut random = Random::new(110);
    for place in 0..3600 {
        let mut draft = match place % 5 {
            0 => odd(&mut random),
            1 => outlets(&mut random),
            2 => trips(&mut random),
            _ => sound(&mut random),
        };
        if place % 5 != 2 {
            draft.trips.clear();
        }
        draft.steps = draft.steps.min(40);
        draft.nodes.iter_mut().for_each(|node| node.schedule.truncate(255));
        in_all_forms(tally, &mut random, &draft);
    }
    for draft in longest_jobs() {
        longest(tally, &draft);
    }
}

/// One record, and the same answers and rows from the same calls.
fn in_all_forms(tally: &mut Tally, random: &mut Random, draft: &Draft) {
    let forms = draft.forms();
    let jobs: Vec<_> = forms.iter().map(|&form| draft.in_form(form).bytes()).collect();
    if jobs.iter().any(|job| job.len() > MOST_BYTES) {
        return;
    }
    if jobs.iter().any(|job| read(job) != read(&jobs[0])) {
        differ("forms", &jobs[0], "another record");
    }
    let calls = cut_up(random, u64::from(draft.steps));
    let begun = Lent::marked_and_longer(random, draft.needed());
    let mut runs = Vec::new();
    for job in &jobs {
        let mut lent = begun.clone();
        let mut answers = vec![both::read(tally, job), both::start(tally, job, &mut lent)];
        for &count in &calls {
            let done = answers.last().map_or(0, |answer| answer.steps);
            answers.push(both::run_on(tally, job, done, count, &mut lent));
        }
        runs.push((answers, lent));
    }
    for (job, (answers, lent)) in jobs.iter().zip(&runs) {
        if *answers != runs[0].0 {
            differ("forms", job, &format!("{answers:?} where the first gave {:?}", runs[0].0));
        }
        same_rows("forms", job, &lent.store, &runs[0].1.store);
    }
    match forms.len() {
        5 => tally.count(IN_ALL_FORMS.0, 1),
        _ if !draft.trips.is_empty() => tally.count(IN_BOTH_OF_SEVEN.0, 1),
        _ => {}
    }
}

/// Read, started and run on past the end of every schedule.
fn longest(tally: &mut Tally, draft: &Draft) {
    let job = draft.bytes();
    both::read(tally, &job);
    let mut lent = Lent::marked(draft.needed());
    both::start(tally, &job, &mut lent);
    let (mut done, last) = (0, draft.longest_schedule() as u64);
    for count in [last - 1, 1, 1, 5] {
        done = both::run_on(tally, &job, done, count, &mut lent).steps;
    }
    if done != last + 6 {
        differ("longest jobs", &job, &format!("it stopped after {done} steps"));
    }
    match (draft.form, job.len()) {
        (Form::FullTable6, 32_766) => tally.count(LONGEST_FULL, 1),
        (Form::EmptyTable6, 32_768) => tally.count(LONGEST_EMPTY, 1),
        (Form::SevenFullTable6, 32_768) => tally.count(LONGEST_SEVEN, 1),
        _ => {}
    }
}
