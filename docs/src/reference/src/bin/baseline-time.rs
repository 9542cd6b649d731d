//! Times the forms of the run-on written for speed and the plain one: one pipe of 511 reaches, 32
//! pipes of 15 reaches, and calls of one step. The calls are interleaved; least and median times are
//! printed.

use reference::baseline;
use reference::rows::{RowStore, Rows, LONGEST};
use reference::run::{self, start, Ran};
use reference::samples::timed::{many_pipes, one_long_pipe};
use std::time::Instant;

const ROUNDS: usize = 25;
/// Of both jobs.
const SECTIONS: f64 = 512.0;

type RunOn = fn(&[u8], u64, u64, Rows<'_>) -> Result<Ran, reference::refusal::Refused>;

const FORMS: [RunOn; 4] = [
    baseline::in_place::run_on,
    baseline::in_place::run_on_by_bounds,
    baseline::own_rows::run_on,
    run::run_on,
];

/// Nanoseconds of `calls` calls of `count` steps each, from the start on.
fn time(run_on: RunOn, job: &[u8], calls: u64, count: u64) -> f64 {
    let mut rows = RowStore::zeros(LONGEST);
    start(job, rows.lend()).expect("the job is accepted");
    let before = Instant::now();
    for call in 0..calls {
        let ran = run_on(job, call * count, count, rows.lend()).expect("the job runs on");
        assert_eq!(ran, Ran { done: (call + 1) * count, stop: None });
    }
    before.elapsed().as_nanos() as f64
}

/// Least and median of the times of each form, per section and step.
fn times(job: &[u8], calls: u64, count: u64) -> [(f64, f64); 4] {
    let cells = (calls * count) as f64 * SECTIONS;
    let mut times = [const { Vec::new() }; 4];
    for _ in 0..ROUNDS {
        for (run_on, times) in FORMS.iter().zip(&mut times) {
            times.push(time(*run_on, job, calls, count) / cells);
        }
    }
    times.map(|mut times| {
        times.sort_by(f64::total_cmp);
        (times[0], times[ROUNDS / 2])
    })
}

fn main() {
    println!("job, steps a call: ns a section and step, least and median: in place, in place by bounds, with own rows, plain");
    for (name, job) in [
        ("one pipe of 511 reaches", one_long_pipe().bytes()),
        ("32 pipes of 15 reaches", many_pipes(15).bytes()),
    ] {
        for (calls, count) in [(1, 10_000), (1000, 1)] {
            let [in_place, by_bounds, own_rows, plain] =
                times(&job, calls, count).map(|(least, median)| format!("{least:.2} {median:.2}"));
            println!("{name}, {count}: {in_place}, {by_bounds}, {own_rows}, {plain}");
        }
    }
}
