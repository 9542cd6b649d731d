//! A call of both implementations on the same rows, compared in every bit.

use crate::cases::{self, Call};
use crate::ours::{self, Answer};
use crate::outlets;
use crate::tally::Tally;
use crate::trips;
use crate::ways;
use reference::generate::Random;
use reference::reader;
use reference::refusal::Refused;
use reference::rows::{Lengths, RowStore, Rows, INFLOWS, SPARE, SPEEDS};
use reference::run::{self, Cause, Ran};

/// Entries that the rows have past those lent.
const MORE: usize = 6;

/// Rows of which only the first entries are lent; the rest shows a store past what is lent.
#[derive(Clone)]
pub struct Lent {
    pub store: RowStore,
    pub lengths: Lengths,
}

impl Lent {
    /// So many entries of each row lent out of some more, each a NaN of its own payload.
    pub fn marked(lengths: Lengths) -> Lent {
        Lent { store: RowStore::marked(lengths.map(|length| length + MORE)), lengths }
    }

    /// The same with up to three entries more lent of each row.
    pub fn marked_and_longer(random: &mut Random, lengths: Lengths) -> Lent {
        let mut lent = Lent::marked(lengths);
        lent.lengths = lengths.map(|length| length + random.below(4));
        lent
    }

    /// Another content of the entries of the spare that are in use, which must have no effect: NaNs
    /// of their own payloads, one number all through, or what the last call left.
    pub fn fill_spare(&mut self, random: &mut Random, needed: Lengths) {
        let in_use = needed[SPARE];
        match random.below(3) {
            0 => self.store.mark_spare(in_use),
            1 => {
                let fill = random.pick(&[-0.0, 1.0, -7.5, 1e300, f64::INFINITY, f64::MAX, -1e-310]);
                self.store.rows[SPARE][..in_use].fill(fill);
            }
            _ => {}
        }
    }

    pub fn rows(&mut self) -> Rows<'_> {
        let lengths = self.lengths;
        let [heads, flows, highest, lowest, speeds, inflows, spare] = &mut self.store.rows;
        Rows {
            heads: &mut heads[..lengths[0]],
            flows: &mut flows[..lengths[1]],
            highest: &mut highest[..lengths[2]],
            lowest: &mut lowest[..lengths[3]],
            speeds: &mut speeds[..lengths[SPEEDS]],
            inflows: &mut inflows[..lengths[INFLOWS]],
            spare: &mut spare[..lengths[SPARE]],
        }
    }
}

/// Calls both and compares: answers, and all rows whole.
pub fn start(tally: &mut Tally, job: &[u8], lent: &mut Lent) -> Answer {
    let (before, mut other) = (lent.clone(), lent.clone());
    let expected = match run::start(job, other.rows()) {
        Ok(_) => Answer { number: 0, section: 0, steps: 0 },
        Err(refused) => refusal(refused),
    };
    let answer = ours::start(job, &mut lent.store, lent.lengths);
    same("start", job, answer, expected, lent, &other);
    tally.count("starts", 1);
    cases::count(tally, job, Call::Start, &before, answer);
    if answer.number == 0 {
        trips::count_start(tally, job);
    }
    tally.answer(answer)
}

/// Calls both and compares: answers, and all rows whole.
pub fn run_on(tally: &mut Tally, job: &[u8], done: u64, count: u64, lent: &mut Lent) -> Answer {
    let (before, mut other) = (lent.clone(), lent.clone());
    let expected = ran(run::run_on(job, done, count, other.rows()));
    let answer = ours::run_on(job, done, count, &mut lent.store, lent.lengths);
    same("run-on", job, answer, expected, lent, &other);
    tally.count("run-ons", 1);
    cases::count(tally, job, Call::RunOn(count), &before, answer);
    if matches!(answer.number, 0 | 40 | 41) {
        let call = trips::Call { done, count, before: &before, after: lent, answer };
        trips::count(tally, job, &call);
    }
    if count > 0 && matches!(answer.number, 0 | 40 | 41) {
        outlets::count(tally, job, done + 1, before);
    }
    tally.answer(answer)
}

pub fn read(tally: &mut Tally, job: &[u8]) -> Answer {
    let expected = match reader::read(job) {
        Ok(read) => {
            Answer { number: 0, section: read.sections() as u64, steps: u64::from(read.steps) }
        }
        Err(refused) => refusal(refused),
    };
    let answer = ours::read(job);
    if answer != expected {
        differ("read", job, &format!("{answer:?}, where {expected:?} was expected"));
    }
    tally.count("jobs read", 1);
    ways::count(tally, job, answer.number);
    tally.answer(answer)
}

fn refusal(Refused(number): Refused) -> Answer {
    Answer { number: u64::from(number), section: 0, steps: 0 }
}

/// The reference's answer to a run-on in the terms of the C interface.
pub fn ran(result: Result<Ran, Refused>) -> Answer {
    match result {
        Err(refused) => refusal(refused),
        Ok(Ran { done, stop: None }) => Answer { number: 0, section: 0, steps: done },
        Ok(Ran { done, stop: Some(stop) }) => {
            let number = match stop.cause {
                Cause::NotFinite => 40,
                Cause::Parted => 41,
            };
            Answer { number, section: stop.section as u64, steps: done }
        }
    }
}

fn same(call: &str, job: &[u8], answer: Answer, expected: Answer, lent: &Lent, other: &Lent) {
    if answer != expected {
        differ(call, job, &format!("{answer:?}, where {expected:?} was expected"));
    }
    same_rows(call, job, &lent.store, &other.store);
}

/// The rows alike in every bit.
pub fn same_rows(call: &str, job: &[u8], ours: &RowStore, expected: &RowStore) {
    let (ours, expected) = (ours.bits(), expected.bits());
    if ours == expected {
        return;
    }
    for (row, (ours, expected)) in ours.iter().zip(&expected).enumerate() {
        for (at, (ours, expected)) in ours.iter().zip(expected).enumerate() {
            if ours != expected {
                let found = format!("row {row}, entry {at}: {ours:016x} where {expected:016x} was");
                differ(call, job, &(found + " expected"));
            }
        }
    }
    differ(call, job, "rows of different lengths");
}

/// Ends the comparison; the job is kept in a file.
pub fn differ(call: &str, job: &[u8], found: &str) -> ! {
    let path = std::env::temp_dir().join("vintuqay-difference.job");
    let kept = std::fs::write(&path, job).is_ok();
    println!("DIFFERENCE, {call}: {found}");
    println!(
        "the job, {} bytes: {}",
        job.len(),
        if kept { path.display().to_string() } else { "not kept".into() }
    );
    std::process::exit(1);
}
