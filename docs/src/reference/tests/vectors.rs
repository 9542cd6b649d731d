//! The jobs that docs/src/vectors/jobs.py writes with their answers, through this reader.

use reference::fields::u32_at;
use reference::reader::read;
use reference::refusal::Refused;
use std::{fs, path::Path};

#[test]
fn the_answers_are_those_of_the_script() {
    let folder = Path::new(env!("CARGO_MANIFEST_DIR")).join("../../../crates/job_vectors");
    let jobs = fs::read(folder.join("stdin")).unwrap();
    let answers = fs::read_to_string(folder.join("stdout")).unwrap();
    let (mut rest, mut given) = (&jobs[..], Vec::new());
    while !rest.is_empty() {
        let (job, after) = rest[4..].split_at(u32_at(rest, 0) as usize);
        given.push(match read(job) {
            Ok(job) => format!("accepted {} {}", job.sections(), job.steps),
            Err(Refused(number)) => format!("refused {number}"),
        });
        rest = after;
    }
    assert_eq!(given, answers.lines().collect::<Vec<_>>());
    assert!(given.len() > 300, "{} jobs", given.len());
}
