//! Lists of run-ons against one long run: the same rows in every bit, with refused calls between.

use crate::both::{differ, same_rows, Lent};
use crate::ours;
use crate::tally::Tally;
use reference::draft::Draft;
use reference::generate::{cut_up, odd, sound, trips, Random};
use reference::rows::{ROWS, SPARE};

/// Must be reached.
pub const SPARE_TOO_SHORT: &str = "refused calls between run-ons, the spare alone too short";

pub fn lists(tally: &mut Tally) {
    let mut random = Random::new(104);
    for place in 0..3000 {
        let mut draft = match place % 4 {
            0 => odd(&mut random),
            1 => trips(&mut random),
            _ => sound(&mut random),
        };
        // Some of those with long schedules go past step 255.
        draft.steps = draft.steps.max(random.from_to(1, 90) as u32);
        list(tally, &mut random, &draft);
        tally.count("lists of run-ons against one long run", 1);
    }
}

/// One long run, then the same steps cut up in three ways.
fn list(tally: &mut Tally, random: &mut Random, draft: &Draft) {
    let (job, steps) = (draft.bytes(), u64::from(draft.steps));
    let begun = {
        let mut lent = Lent::marked_and_longer(random, draft.needed());
        ours::start(&job, &mut lent.store, lent.lengths);
        lent
    };
    let mut long = begun.clone();
    let long_answer = ours::run_on(&job, 0, steps, &mut long.store, long.lengths);
    for way in 0..3 {
        let counts = if way == 0 { vec![1; draft.steps as usize] } else { cut_up(random, steps) };
        let mut lent = begun.clone();
        let (mut done, mut last) = (0, None);
        for count in counts {
            if random.once_in(3) {
                refused_between(tally, random, draft, done, &mut lent);
            }
            lent.fill_spare(random, draft.needed());
            let answer = ours::run_on(&job, done, count, &mut lent.store, lent.lengths);
            tally.count("run-ons in lists", 1);
            if answer.number != 0 && answer != long_answer {
                differ(
                    "list",
                    &job,
                    &format!("{answer:?} in the list, {long_answer:?} in one run"),
                );
            }
            done = answer.steps;
            last = Some(answer);
            if answer.number != 0 {
                break;
            }
        }
        if last.expect("there is a call") != long_answer {
            differ("list", &job, &format!("{last:?} in the list, {long_answer:?} in one run"));
        }
        same_rows("list", &job, &lent.store, &long.store);
    }
}

/// A call that is refused leaves every row as it was: a slice of it too short, or too many steps.
fn refused_between(
    tally: &mut Tally,
    random: &mut Random,
    draft: &Draft,
    done: u64,
    lent: &mut Lent,
) {
    let (job, needed) = (draft.bytes(), draft.needed());
    lent.fill_spare(random, needed);
    let before = lent.clone();
    let (mut count, mut lengths, mut expected) = (1_000_001 - done, lent.lengths, 21);
    if random.once_in(2) {
        count = random.pick(&[5, count]);
        let row = random.below(ROWS);
        lengths[row] = random.pick(&[1, needed[row] - 1]);
        expected = 20;
        if row == SPARE {
            tally.count(SPARE_TOO_SHORT, 1);
        }
    }
    let number = ours::run_on(&job, done, count, &mut lent.store, lengths).number;
    if number != expected {
        differ("refused call in a list", &job, &format!("the number {number}"));
    }
    same_rows("refused call in a list", &job, &lent.store, &before.store);
    tally.count("refused calls between run-ons", 1);
}
