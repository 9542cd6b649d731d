//! Compares what a program prints for jobs on its standard input with the reference's listing:
//! `compare-surgelist PATH`. Ends with status 1 on any difference.

use compare::both::differ;
use compare::tally::Tally;
use reference::generate::{damaged, damaged_anywhere, odd, sound, trips, Random};
use reference::listing::listing;
use reference::reader::QUESTIONS;
use reference::samples::{self, timed::longest_jobs};
use std::io::Write;
use std::process::{Command, Stdio};

fn main() {
    let program = std::env::args().nth(1).expect("the path of the program to compare");
    let mut tally = Tally::default();
    for (what, job) in jobs() {
        let printed = printed(&program, &job);
        if printed != listing(&job) {
            differ("listing", &job, &format!("{what}: the program printed another text"));
        }
        tally.count(what, 1);
    }
    tally.print_tried();
    println!("no difference");
}

fn jobs() -> Vec<(&'static str, Vec<u8>)> {
    let mut random = Random::new(109);
    let mut jobs = Vec::new();
    jobs.extend(samples::jobs().into_iter().map(|(_, job)| ("samples", job)));
    jobs.extend(longest_jobs().map(|draft| ("longest jobs", draft.bytes())));
    for size in [0, 1, 45, 46, 32_768, 32_769, 40_000, 200_000] {
        jobs.push(("inputs of zeros", vec![0; size]));
    }
    for question in QUESTIONS {
        for _ in 0..6 {
            jobs.push(("damaged jobs", damaged(&mut random, &[question])));
        }
    }
    for _ in 0..150 {
        jobs.push(("sound jobs", sound(&mut random).bytes()));
        jobs.push(("odd jobs", odd(&mut random).bytes()));
        jobs.push(("jobs whose power fails", trips(&mut random).bytes()));
        jobs.push(("jobs damaged anywhere", damaged_anywhere(&mut random)));
    }
    jobs
}

fn printed(program: &str, job: &[u8]) -> String {
    let (input, output) = (Stdio::piped(), Stdio::piped());
    let mut child =
        Command::new(program).stdin(input).stdout(output).spawn().expect("the program starts");
    // A program may stop reading where the job is too long.
    let _ = child.stdin.take().expect("its input").write_all(job);
    let output = child.wait_with_output().expect("the program ends");
    String::from_utf8_lossy(&output.stdout).into_owned()
}
