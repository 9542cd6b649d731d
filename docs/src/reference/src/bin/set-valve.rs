//! `set-valve LEVEL DISCHARGE`: reads the text of a job from standard input, sets its valve for the discharge, and prints
//! the text with that coefficient and that initial state. Where there is no coefficient, it says why and prints no job.

use reference::draft::Draft;
use reference::reader::read;
use reference::refusal::Refused;
use reference::text::{from_text, number, to_text};
use reference::valve_setting::{below_floor, not_chain, outlet, with_valve_set, work_out, Cause};
use std::io::{self, Read};
use std::process::ExitCode;

fn main() -> io::Result<ExitCode> {
    let arguments: Vec<String> = std::env::args().skip(1).collect();
    let mut text = String::new();
    io::stdin().lock().read_to_string(&mut text)?;
    Ok(match set(&arguments, &text) {
        Ok((text, notes)) => {
            notes.iter().for_each(|note| eprintln!("{note}"));
            print!("{text}");
            ExitCode::SUCCESS
        }
        Err(words) => {
            eprintln!("{words}");
            ExitCode::FAILURE
        }
    })
}

/// The text of the job set, and what may keep its run from staying at rest.
fn set(arguments: &[String], text: &str) -> Result<(String, Vec<String>), String> {
    let [level, discharge] = numbers(arguments)?;
    let draft = from_text(text)?;
    let set = with_valve_set(&draft, level, discharge)
        .map_err(|refused| why_refused(refused, &draft, level, discharge))?
        .ok_or_else(|| why_none(&draft, level, discharge))?;
    let about =
        format!("The valve set for level {} and discharge {}.", number(level), number(discharge));
    Ok((to_text(&about, &set), notes(&set, level)))
}

fn numbers(arguments: &[String]) -> Result<[f64; 2], String> {
    let [level, discharge] = arguments else {
        return Err("set-valve takes a level in m and a discharge in m³/s".to_string());
    };
    let read = |word: &String| word.parse().map_err(|_| format!("`{word}` is no number"));
    Ok([read(level)?, read(discharge)?])
}

/// The refusal, and for 51 what it is about.
fn why_refused(refused: Refused, draft: &Draft, level: f64, discharge: f64) -> String {
    let mut words = refused.to_string();
    if let (Refused(51), Ok(job)) = (refused, read(&draft.bytes())) {
        let layout = not_chain(&job).map(|lack| lack.to_string());
        let level = (!level.is_finite()).then(|| "the level is not finite".to_string());
        let discharge = (!discharge.is_finite()).then(|| "the discharge is not finite".to_string());
        for lack in [layout, level, discharge].into_iter().flatten() {
            words += &format!("\n{lack}");
        }
    }
    words
}

/// Every cause that holds, with its figures.
fn why_none(draft: &Draft, level: f64, discharge: f64) -> String {
    let job = read(&draft.bytes()).expect("the job was accepted");
    let worked = work_out(&job, level, discharge);
    let mut words = "no coefficient sets the valve for this discharge".to_string();
    for cause in worked.causes {
        words += &format!("\n{}", cause.words());
        if let (Cause::HeadBelowFloor, Some(at)) = (cause, below_floor(&job, &worked.heads)) {
            let (head, floor) = (number(worked.heads[at]), number(job.initial[at].floor));
            words += &format!(", first at section {at}: {head} below {floor}");
        }
        if cause == Cause::NotAboveOutlet {
            let last = worked.heads[worked.heads.len() - 1];
            words += &format!(": {} and {}", number(last), number(outlet(&job)));
        }
    }
    words
}

/// The level and the discharge are not the schedule's, which is left as it is.
fn notes(draft: &Draft, level: f64) -> Vec<String> {
    let last = draft.nodes.len() - 1;
    let mut notes = Vec::new();
    if draft.nodes[0].schedule.iter().any(|&scheduled| scheduled != level) {
        notes.push(format!(
            "node 0: the reservoir's scheduled levels are not all {}, so the run need not stay at rest",
            number(level)
        ));
    }
    if draft.nodes[last].schedule.iter().any(|&opening| opening != 1.0) {
        notes.push(format!(
            "node {last}: the valve's openings are not all 1, so the run need not stay at rest"
        ));
    }
    notes
}
