//! Times the proved run-on against the forms of the reference's, written for speed, on rows placed
//! the same way, in turns. Answers and rows are compared in every bit first. Prints the ratio of each
//! round's times to each form as a median, and the time per section and step. Where the rows come
//! to lie differs from process to process and can move a time by half, so run it a few times.

use compare::both::{differ, ran, same_rows};
use compare::ours::{self, Answer};
use reference::baseline::{in_place, own_rows};
use reference::draft::Draft;
use reference::rows::{Lengths, RowStore, INFLOWS, LONGEST, SPARE, SPEEDS};
use reference::run;
use reference::samples::timed::{
    many_pipes, one_long_pipe, short_main, tripped_pumps, uneven_pipe, with_longest_schedules,
    with_one_entry, with_valve_shut, without_trips,
};
use std::time::Instant;

/// The rows have some entries more than are in use: 512 f64 are 4,096 bytes, and rows that far apart
/// would share places in the cache.
const LONGER: usize = LONGEST[0] + 48;
const LENGTHS: Lengths =
    [LONGER, LONGER, LONGER, LONGER, LONGEST[SPEEDS], LONGEST[INFLOWS], LONGEST[SPARE]];

#[derive(Clone, Copy)]
enum Which {
    Ours,
    /// Rust that overwrites the state where it stands, every section of a step looked at before.
    InPlace,
    /// The same, sections looked at only where bounds do not rule a stop out.
    ByBounds,
    /// Rust with rows of its own on the stack.
    OwnRows,
}

/// In the order in which they take turns.
const ALL: [Which; 4] = [Which::Ours, Which::InPlace, Which::ByBounds, Which::OwnRows];

/// What the calls of a plan do.
#[derive(Clone, Copy)]
enum Calls {
    /// So many calls of so many steps, each from where the last ended.
    OneAfterAnother(u64, u64),
    /// The same, but each from the first scheduled value again.
    FromTheFirst(u64, u64),
}

struct Plan {
    name: &'static str,
    job: Vec<u8>,
    sections: usize,
    calls: Calls,
    rounds: usize,
}

impl Plan {
    fn new(name: &'static str, draft: &Draft, calls: Calls, rounds: usize) -> Plan {
        Plan { name, job: draft.bytes(), sections: draft.section_count(), calls, rounds }
    }

    /// How many calls, how many steps each, and how many steps done each next one begins after.
    fn calls(&self) -> (u64, u64, u64) {
        match self.calls {
            Calls::OneAfterAnother(calls, count) => (calls, count, count),
            Calls::FromTheFirst(calls, count) => (calls, count, 0),
        }
    }

    /// The start, then the calls; the rows are those handed in, for all alike.
    fn run(&self, which: Which, rows: &mut RowStore) -> (Answer, f64) {
        run::start(&self.job, rows.lend()).expect("the job is accepted");
        let mut answer = Answer { number: 0, section: 0, steps: 0 };
        let before = Instant::now();
        let (calls, count, more) = self.calls();
        for call in 0..calls {
            let (job, done) = (&self.job, call * more);
            answer = match which {
                Which::Ours => ours::run_on(job, done, count, rows, LENGTHS),
                Which::InPlace => ran(in_place::run_on(job, done, count, rows.lend())),
                Which::ByBounds => ran(in_place::run_on_by_bounds(job, done, count, rows.lend())),
                Which::OwnRows => ran(own_rows::run_on(job, done, count, rows.lend())),
            };
        }
        (answer, before.elapsed().as_nanos() as f64)
    }

    /// Answers and rows of all alike; the rows are left for the rounds.
    fn compare(&self) -> RowStore {
        let mut rows = RowStore::marked(LENGTHS);
        let (answer, _) = self.run(Which::Ours, &mut rows);
        let (calls, count, more) = self.calls();
        for which in &ALL[1..] {
            let mut other = RowStore::marked(LENGTHS);
            let (expected, _) = self.run(*which, &mut other);
            if answer != expected || answer.steps != (calls - 1) * more + count {
                differ(self.name, &self.job, &format!("{answer:?}, {expected:?}"));
            }
            same_rows(self.name, &self.job, &rows, &other);
        }
        rows
    }

    fn measure(&self) {
        let mut rows = self.compare();
        let mut rounds = Vec::new();
        for _ in 0..self.rounds {
            rounds.push(ALL.map(|which| self.run(which, &mut rows).1));
        }
        let (calls, count, _) = self.calls();
        let cells = (calls * count) as f64 * self.sections as f64;
        let times: [Vec<f64>; 4] =
            std::array::from_fn(|which| rounds.iter().map(|round| round[which] / cells).collect());
        let least = times.each_ref().map(|times| least(times));
        let ratio = |to: usize| median(rounds.iter().map(|round| round[0] / round[to]).collect());
        let [ours, in_place, by_bounds, own_rows] = times.map(median);
        println!("{}:", self.name);
        println!("    ours {ours:.2} ns per section and step (least {:.2})", least[0]);
        for (form, name, time) in [
            (1, "Rust in place", in_place),
            (2, "Rust in place by bounds", by_bounds),
            (3, "Rust with rows of its own", own_rows),
        ] {
            let (median, of_least) = (ratio(form), least[0] / least[form]);
            println!(
                "    {name} {time:.2} ({:.2}); ours to it {median:.2} ({of_least:.2})",
                least[form]
            );
        }
    }
}

fn least(times: &[f64]) -> f64 {
    times.iter().copied().fold(f64::INFINITY, f64::min)
}

fn median(mut values: Vec<f64>) -> f64 {
    values.sort_by(f64::total_cmp);
    values[values.len() / 2]
}

/// The plans; those of long schedules beside the same pipes with schedules of one entry.
fn plans() -> Vec<Plan> {
    use Calls::{FromTheFirst, OneAfterAnother};
    let (long, many) = (one_long_pipe(), many_pipes(15));
    let (one, calls) = (OneAfterAnother(1, 10_000), OneAfterAnother(1000, 1));
    let mut plans = vec![
        Plan::new("one pipe of 511 reaches, 10,000 steps", &long, one, 41),
        Plan::new("32 pipes of 15 reaches, 10,000 steps", &many, one, 41),
        Plan::new("one pipe of 511 reaches, 1,000 calls of one step", &long, calls, 101),
        Plan::new("32 pipes of 15 reaches, 1,000 calls of one step", &many, calls, 101),
    ];
    let (rings, main) = (many_pipes(1), short_main(1));
    let (short, short_valve) = (with_one_entry(&rings), with_one_entry(&main));
    // The long schedules repeat that entry, so that both take the same roots and differ in the reading alone.
    let (all, valve) = (with_longest_schedules(&short, 0), with_longest_schedules(&short_valve, 1));
    // Every entry of the long schedules is read, 115 or 116 a node, or 4,072.
    let (again, main_steps) = (FromTheFirst(80, 116), OneAfterAnother(1, 4072));
    plans.extend([
        Plan::new("32 pipes of one reach, 32 nodes of long schedules, 10,000 steps", &all, one, 41),
        Plan::new("32 pipes of one reach, 32 nodes of one entry, 10,000 steps", &short, one, 41),
        Plan::new(
            "the same, long schedules, 80 calls of 116 steps from the first",
            &all,
            again,
            41,
        ),
        Plan::new("the same, one entry, 80 calls of 116 steps from the first", &short, again, 41),
        Plan::new(
            "one pipe of one reach, a valve of 4,072 openings, 4,072 steps",
            &valve,
            main_steps,
            101,
        ),
        Plan::new(
            "one pipe of one reach, a valve of one opening, 4,072 steps",
            &short_valve,
            main_steps,
            101,
        ),
        // No root is taken: what the one before takes more is a root and the valve's other operations.
        Plan::new("the same, the valve shut", &with_valve_shut(&short_valve), main_steps, 101),
        // No bounds on the pipe's waves rule a stop out, so that every section is looked at.
        Plan::new(
            "one pipe of 511 reaches over uneven ground, 10,000 steps",
            &uneven_pipe(),
            one,
            41,
        ),
    ]);
    // Every pump runs down from the first step on, and delivers all the time.
    let (tripped, one_reach) = (tripped_pumps(15), tripped_pumps(1));
    plans.extend([
        Plan::new("16 tripped pumps, 16 pipes of 15 reaches, 10,000 steps", &tripped, one, 41),
        Plan::new("the same, none tripped", &without_trips(&tripped), one, 41),
        Plan::new("16 tripped pumps, 16 pipes of one reach, 10,000 steps", &one_reach, one, 41),
        Plan::new("the same, none tripped", &without_trips(&one_reach), one, 41),
    ]);
    plans
}

fn main() {
    // A number, counted from 1, asks for one of them.
    let only = std::env::args().nth(1).and_then(|number| number.parse::<usize>().ok());
    for (place, plan) in plans().iter().enumerate() {
        if only.is_none_or(|number| number == place + 1) {
            plan.measure();
        }
    }
}
