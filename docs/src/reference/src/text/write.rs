//! A job to its text.

use super::{CONSTANTS, FIGURES, FORMS, KINDS};
use crate::draft::{Draft, DraftNode, DraftTrip};
use crate::layout::Form;
use std::fmt::Write;

/// The shortest decimal that reads back to the same bits.
pub fn number(x: f64) -> String {
    let text = format!("{x:?}");
    match text.strip_suffix(".0") {
        Some(whole) => whole.to_string(),
        None => text,
    }
}

/// The text of a job, with a remark on what it is before it.
pub fn to_text(about: &str, draft: &Draft) -> String {
    let mut text = String::new();
    for line in about.lines() {
        text += &format!("# {line}\n");
    }
    text += &format!("steps {}\n", draft.steps);
    text += &counts_line(draft);
    if draft.trips.is_empty() && Form::OF_SEVEN.contains(&draft.form) {
        text += "trips none\n";
    }
    text += "\n";
    text += &pipe_lines(draft);
    for (node, at) in draft.nodes.iter().zip(0..) {
        text += &remarked(&node_line(node), &format!("node {at}"));
    }
    for trip in &draft.trips {
        text += &trip_line(trip);
    }
    text += "\n";
    text += &reach_and_section_lines(draft);
    text += "\n";
    for (node, at) in draft.nodes.iter().zip(0..) {
        let entries: Vec<String> = node.schedule.iter().map(|&v| number(v)).collect();
        text += &remarked(&format!("schedule {}", entries.join(" ")), &format!("node {at}"));
    }
    text
}

/// The `counts` line, where the text without one would have another form.
fn counts_line(draft: &Draft) -> String {
    let fewest = draft.fewest_pairs();
    // Seven pairs need no line `counts empty`: `trips none` or a line `trip` asks for them.
    let said = match draft.form {
        Form::SevenEmptyTable6 => None,
        Form::SevenFullTable6 if fewest.counts_in_table_6() => None,
        Form::SevenFullTable6 => Some(Form::FullTable6),
        form => Some(form).filter(|&form| form != fewest),
    };
    let word = said.and_then(|said| FORMS.iter().find(|&&(_, form)| form == said));
    word.map_or(String::new(), |(word, _)| format!("counts {word}\n"))
}

/// A line with a remark after it.
fn remarked(line: &str, remark: &str) -> String {
    format!("{line:<50} # {remark}\n")
}

fn pipe_lines(draft: &Draft) -> String {
    let mut text = String::new();
    let mut first = 0;
    for (pipe, at) in draft.pipes.iter().zip(0..) {
        let last = first + usize::from(pipe.reaches);
        let line = format!(
            "pipe from {} to {} reaches {} S {}",
            pipe.start,
            pipe.finish,
            pipe.reaches,
            number(pipe.s)
        );
        text += &remarked(&line, &format!("pipe {at}, sections {first} to {last}"));
        first = last + 1;
    }
    text + "\n"
}

fn node_line(node: &DraftNode) -> String {
    let (word, named) = KINDS[usize::from(node.kind)];
    let mut line = format!("node {word}");
    for (name, &figure) in FIGURES.iter().zip(&node.figures).take(named) {
        write!(line, " {name} {}", number(figure)).expect("a string takes all text");
    }
    line
}

fn trip_line(trip: &DraftTrip) -> String {
    let mut line = format!("trip node {} step {}", trip.node, trip.step);
    for (name, &constant) in CONSTANTS.iter().zip(&trip.constants) {
        write!(line, " {name} {}", number(constant)).expect("a string takes all text");
    }
    line + "\n"
}

fn reach_and_section_lines(draft: &Draft) -> String {
    let mut text = String::new();
    let mut friction = draft.friction.iter();
    for (pipe, at) in draft.pipes.iter().zip(0..) {
        for (r, place) in friction.by_ref().take(usize::from(pipe.reaches)).zip(0..) {
            let line = format!("reach R {}", number(*r));
            text += &remarked(&line, &format!("pipe {at}, reach {place}"));
        }
    }
    text += "\n";
    for (&[head, flow, floor], at) in draft.sections.iter().zip(0..) {
        let (head, flow, floor) = (number(head), number(flow), number(floor));
        let line = format!("section head {head} flow {flow} floor {floor}");
        text += &remarked(&line, &format!("section {at}"));
    }
    text
}
