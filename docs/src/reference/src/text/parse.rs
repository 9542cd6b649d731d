//! A job from its text.

use super::{CONSTANTS, FIGURES, FORMS, KINDS, KINDS_IN_WORDS};
use crate::draft::{Draft, DraftNode, DraftPipe, DraftTrip};
use crate::layout::Form;
use std::str::{FromStr, SplitWhitespace};

/// What the lines have said so far.
#[derive(Default)]
struct Said {
    draft: Draft,
    /// Each schedule with the number of its line.
    schedules: Vec<(usize, Vec<f64>)>,
    /// What a `counts` line asked for, with its number.
    counts: Option<(usize, Form)>,
    /// The line that said that there are no trips, but a table for them.
    no_trips: Option<usize>,
}

/// The job that the text says, or in words what does not read.
pub fn from_text(text: &str) -> Result<Draft, String> {
    let mut said = Said::default();
    for (line, at) in text.lines().zip(1..) {
        let words = line.split('#').next().unwrap_or("");
        read_line(Words(words.split_whitespace()), at, &mut said)
            .map_err(|words| format!("line {at}: {words}"))?;
    }
    schedules_fit(&said)?;
    let Said { mut draft, schedules, counts, no_trips } = said;
    let (nodes, given) = (draft.nodes.len(), schedules.len());
    if nodes != given {
        return Err(format!("there are {nodes} nodes but {given} schedules"));
    }
    for (node, (_, schedule)) in draft.nodes.iter_mut().zip(schedules) {
        node.schedule = schedule;
    }
    let form = counts.map_or(draft.fewest_pairs(), |(_, form)| form);
    let seven = no_trips.is_some() || !draft.trips.is_empty();
    draft.form = if seven { form.of_seven() } else { form };
    Ok(draft)
}

/// Each schedule against the counts of the widest form, or of the one asked for.
fn schedules_fit(said: &Said) -> Result<(), String> {
    let (most, why) = match said.counts {
        Some((line, form)) if form != Form::FullTable6 => {
            (form.most_entries(), format!("by line {line} "))
        }
        _ => (Form::FullTable6.most_entries(), String::new()),
    };
    match said.schedules.iter().find(|(_, schedule)| schedule.len() > most) {
        None => Ok(()),
        Some((line, schedule)) => Err(format!(
            "line {line}: {why}a schedule has at most {most} entries, not {}",
            schedule.len()
        )),
    }
}

/// The words of a line that are left to read.
struct Words<'a>(SplitWhitespace<'a>);

impl Words<'_> {
    /// The value after the word that names it.
    fn named<T: FromStr>(&mut self, name: &str) -> Result<T, String> {
        match self.0.next() {
            None => Err(format!("`{name}` is missing")),
            Some(word) if word == name => self.value(name),
            Some(word) => Err(format!("`{name}` was looked for where `{word}` stands")),
        }
    }

    /// The next word as a value of the field `name`.
    fn value<T: FromStr>(&mut self, name: &str) -> Result<T, String> {
        let word = self.0.next().ok_or(format!("nothing follows `{name}`"))?;
        word.parse().map_err(|_| format!("`{word}` does not fit as {name}"))
    }

    /// How many times a line is meant: once where it does not say.
    fn times(&mut self) -> Result<usize, String> {
        match self.0.clone().next() {
            Some("times") => self.named::<u16>("times").map(usize::from),
            _ => Ok(1),
        }
    }

    fn end(mut self) -> Result<(), String> {
        match self.0.next() {
            None => Ok(()),
            Some(word) => Err(format!("`{word}` is one word too many")),
        }
    }
}

fn read_line(mut words: Words<'_>, at: usize, said: &mut Said) -> Result<(), String> {
    let Some(first) = words.0.next() else {
        return Ok(());
    };
    let draft = &mut said.draft;
    match first {
        "steps" => draft.steps = words.value("steps")?,
        "pipe" => draft.pipes.push(pipe(&mut words)?),
        "node" => draft.nodes.push(node(&mut words)?),
        "reach" => {
            let r: f64 = words.named("R")?;
            draft.friction.extend(vec![r; words.times()?]);
        }
        "section" => {
            let section = [words.named("head")?, words.named("flow")?, words.named("floor")?];
            draft.sections.extend(vec![section; words.times()?]);
        }
        "schedule" => said.schedules.push((at, schedule(&mut words)?)),
        "counts" => {
            if let Some((line, _)) = said.counts {
                return Err(format!("line {line} has said how schedules are counted"));
            }
            said.counts = Some((at, counts(&mut words)?));
        }
        "trip" => {
            if let Some(line) = said.no_trips {
                return Err(format!("line {line} has said that there are no trips"));
            }
            draft.trips.push(trip(&mut words)?);
        }
        "trips" => {
            let word: String = words.value("trips")?;
            if word != "none" {
                return Err(format!(
                    "`{word}` does not fit as trips; it is `none`, or a line `trip` for each"
                ));
            }
            if !draft.trips.is_empty() {
                return Err("a line before has a trip".to_string());
            }
            said.no_trips = Some(at);
        }
        word => return Err(format!("no line begins with `{word}`")),
    }
    words.end()
}

fn pipe(words: &mut Words<'_>) -> Result<DraftPipe, String> {
    Ok(DraftPipe {
        start: words.named("from")?,
        finish: words.named("to")?,
        reaches: words.named("reaches")?,
        s: words.named("S")?,
    })
}

/// A node without its schedule, which has a line of its own.
fn node(words: &mut Words<'_>) -> Result<DraftNode, String> {
    let word: String = words.value("node")?;
    let kind = KINDS.iter().position(|&(name, _)| name == word);
    let kind = kind.ok_or(format!("`{word}` is no kind of node; {KINDS_IN_WORDS}"))?;
    let mut figures = [0.0; 3];
    for (name, figure) in FIGURES.iter().zip(&mut figures).take(KINDS[kind].1) {
        *figure = words.named(name)?;
    }
    Ok(DraftNode { kind: kind as u8, figures, schedule: Vec::new() })
}

fn trip(words: &mut Words<'_>) -> Result<DraftTrip, String> {
    let (node, step) = (words.named("node")?, words.named("step")?);
    let mut constants = [0.0; 3];
    for (name, constant) in CONSTANTS.iter().zip(&mut constants) {
        *constant = words.named(name)?;
    }
    Ok(DraftTrip { node, step, constants })
}

fn schedule(words: &mut Words<'_>) -> Result<Vec<f64>, String> {
    let mut entries = Vec::new();
    while words.0.clone().next().is_some() {
        entries.push(words.value("schedule")?);
    }
    Ok(entries)
}

fn counts(words: &mut Words<'_>) -> Result<Form, String> {
    let word: String = words.value("counts")?;
    let form = FORMS.iter().find(|&&(name, _)| name == word);
    let form = form.ok_or(format!("`{word}` is no way to count; it is `long` or `empty`"))?;
    Ok(form.1)
}
