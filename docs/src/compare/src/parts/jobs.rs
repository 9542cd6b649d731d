//! Whole runs of jobs at random, and every call on damaged ones.

use crate::both::{self, Lent};
use crate::tally::Tally;
use crate::ways;
use reference::draft::Draft;
use reference::generate::{cut_up, damaged, damaged_anywhere, odd, outlets, sound, trips, Random};
use reference::reader::QUESTIONS;
use reference::rows::LONGEST;

/// Read, started and run on in several calls, into rows of NaNs with some entries past those in
/// use, and with anything in the spare.
pub fn accepted_jobs(tally: &mut Tally) {
    let mut random = Random::new(101);
    for _ in 0..6000 {
        let draft = sound(&mut random);
        run(tally, &mut random, &draft);
        tally.count("sound jobs", 1);
    }
    for _ in 0..10_000 {
        let draft = odd(&mut random);
        run(tally, &mut random, &draft);
        tally.count("odd jobs", 1);
    }
    for _ in 0..4000 {
        let draft = outlets(&mut random);
        run(tally, &mut random, &draft);
        tally.count("jobs near rest at their outlets", 1);
    }
    for _ in 0..8000 {
        let draft = trips(&mut random);
        run(tally, &mut random, &draft);
        tally.count("jobs whose power fails", 1);
    }
}

fn run(tally: &mut Tally, random: &mut Random, draft: &Draft) {
    let job = draft.bytes();
    both::read(tally, &job);
    let mut lent = Lent::marked_and_longer(random, draft.needed());
    both::start(tally, &job, &mut lent);
    let mut done = 0;
    for count in cut_up(random, u64::from(draft.steps)) {
        lent.fill_spare(random, draft.needed());
        done = both::run_on(tally, &job, done, count, &mut lent).steps;
    }
}

/// Each question broken alone, each two together, and jobs edited anywhere. A refused call leaves
/// the NaNs in the rows as they are.
pub fn damaged_jobs(tally: &mut Tally) {
    let mut random = Random::new(102);
    for (place, question) in QUESTIONS.into_iter().enumerate() {
        for _ in 0..600 {
            let job = damaged(&mut random, &[question]);
            let number = refused_everywhere(tally, &job);
            assert_eq!(
                number,
                u64::from(question),
                "a job damaged for a question is refused there"
            );
            tally.count("jobs damaged for one question", 1);
        }
        for &other in &QUESTIONS[place + 1..] {
            let times = if question == 10 { 80 } else { 20 };
            for _ in 0..times {
                let job = damaged(&mut random, &[question, other]);
                let number = refused_everywhere(tally, &job);
                assert_eq!(number, u64::from(question), "the question asked first decides");
                tally.count("jobs damaged for two questions", 1);
                match (question, other) {
                    (10, 50) => tally.count(ways::TEN_AND_FIFTY, 1),
                    (50, 11) => tally.count(ways::FIFTY_AND_ELEVEN, 1),
                    (10, 53) => tally.count(ways::TEN_AND_FIFTY_THREE, 1),
                    (50, 53) => tally.count(ways::FIFTY_AND_FIFTY_THREE, 1),
                    (53, 11) => tally.count(ways::FIFTY_THREE_AND_ELEVEN, 1),
                    _ => {}
                }
            }
        }
    }
    for _ in 0..20_000 {
        let job = damaged_anywhere(&mut random);
        refused_everywhere(tally, &job);
        tally.count("jobs damaged anywhere", 1);
    }
}

/// Read, start and run-on; answers with what `read` refused. A job that is accepted all the same
/// runs on.
fn refused_everywhere(tally: &mut Tally, job: &[u8]) -> u64 {
    let answer = both::read(tally, job);
    let mut lent = Lent::marked(LONGEST);
    both::start(tally, job, &mut lent);
    both::run_on(tally, job, 0, 9, &mut lent);
    answer.number
}
