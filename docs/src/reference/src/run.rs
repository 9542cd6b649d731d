//! Start and run-on. The new state of a step is worked out apart from the lent slices, so the spare
//! is only cleared here.

use crate::job::{Job, Kind, Pipe};
use crate::node::{self, Solved};
use crate::reader::{read, MOST_STEPS};
use crate::refusal::{ask, Refused};
use crate::rows::Rows;
use crate::wave::{
    finish_flow, finish_k, from_above, from_below, inner, start_flow, start_k, Point, Sums,
};

/// Why a step stopped the run. A stop is not a refusal.
#[derive(Clone, Copy, Debug, PartialEq, Eq)]
pub enum Cause {
    /// 40: a head, a flow, a speed or an inflow is not finite.
    NotFinite,
    /// 41: a head is below its floor.
    Parted,
}

#[derive(Clone, Copy, Debug, PartialEq, Eq)]
pub struct Stop {
    pub cause: Cause,
    pub section: usize,
}

/// What an unrefused run-on answers.
#[derive(Clone, Copy, Debug, PartialEq, Eq)]
pub struct Ran {
    /// The steps done in all.
    pub done: u64,
    pub stop: Option<Stop>,
}

/// The start: writes the initial heads and flows, both envelopes as the initial heads, and each pump's
/// first scheduled speed with no inflow. Answers the section count.
pub fn start(job: &[u8], mut rows: Rows<'_>) -> Result<usize, Refused> {
    let job = read(job)?;
    ask(20, rows.hold(job.needed()))?;
    for (section, initial) in job.initial.iter().enumerate() {
        rows.heads[section] = initial.head;
        rows.flows[section] = initial.flow;
        rows.highest[section] = initial.head;
        rows.lowest[section] = initial.head;
    }
    for (number, node) in job.nodes.iter().enumerate() {
        let pump = matches!(node.kind, Kind::Pump { .. });
        rows.speeds[number] = if pump { node.schedule[0] } else { 0.0 };
        rows.inflows[number] = 0.0;
    }
    rows.clear_spare(job.needed());
    Ok(job.sections())
}

/// The run-on: `done` steps are done (m), `count` more are asked for (N).
pub fn run_on(job: &[u8], done: u64, count: u64, mut rows: Rows<'_>) -> Result<Ran, Refused> {
    let job = read(job)?;
    ask(20, rows.hold(job.needed()))?;
    ask(21, done <= MOST_STEPS && count <= MOST_STEPS - done)?;
    ask(22, state_admitted(&job, &rows))?;
    let ran = run(&job, done, count, &mut rows);
    rows.clear_spare(job.needed());
    Ok(ran)
}

/// Question 22.
fn state_admitted(job: &Job, rows: &Rows<'_>) -> bool {
    let pairs_finite = (0..job.nodes.len())
        .all(|node| rows.speeds[node].is_finite() && rows.inflows[node].is_finite());
    pairs_finite
        && (0..job.sections()).all(|section| {
            rows.heads[section].is_finite()
                && rows.flows[section].is_finite()
                && rows.highest[section].is_finite()
                && rows.lowest[section].is_finite()
                && rows.heads[section] >= job.initial[section].floor
        })
}

/// Step after step; a stopped step changes no state or envelope.
fn run(job: &Job, done: u64, count: u64, rows: &mut Rows<'_>) -> Ran {
    for step in done + 1..=done + count {
        let nodes = work_out_nodes(job, step, rows);
        let sections = work_out_sections(job, &nodes, rows);
        let floors = job.initial.iter().map(|initial| initial.floor);
        let stop = first_stop(sections.iter().copied(), floors, pair_not_finite(job, &nodes));
        if stop.is_some() {
            return Ran { done: step - 1, stop };
        }
        take_over(&sections, &nodes, rows);
    }
    Ran { done: done + count, stop: None }
}

/// The old state at a section.
fn old(rows: &Rows<'_>, section: usize) -> Point {
    Point { head: rows.heads[section], flow: rows.flows[section] }
}

/// CP of a section of the pipe, `place` reaches after its section 0.
fn cp(job: &Job, pipe: &Pipe, place: usize, rows: &Rows<'_>) -> f64 {
    let r = job.friction[pipe.first_reach + place - 1];
    from_above(pipe.s, r, old(rows, pipe.first_section + place - 1))
}

/// CM of a section of the pipe, `place` reaches after its section 0.
fn cm(job: &Job, pipe: &Pipe, place: usize, rows: &Rows<'_>) -> f64 {
    let r = job.friction[pipe.first_reach + place];
    from_below(pipe.s, r, old(rows, pipe.first_section + place + 1))
}

/// What a step has at a node: its head, and the pair that it leaves there.
struct NewNode {
    head: f64,
    speed: f64,
    inflow: f64,
}

/// Works out every section from the old state, in the order of their numbers.
fn work_out_sections(job: &Job, nodes: &[NewNode], rows: &Rows<'_>) -> Vec<Point> {
    let mut new = Vec::new();
    for pipe in &job.pipes {
        let k = start_k(cm(job, pipe, 0, rows));
        let head = nodes[pipe.start].head;
        new.push(Point { head, flow: start_flow(pipe.s, k, head) });
        for place in 1..pipe.reaches {
            new.push(inner(pipe.s, cp(job, pipe, place, rows), cm(job, pipe, place, rows)));
        }
        let k = finish_k(cp(job, pipe, pipe.reaches, rows));
        let head = nodes[pipe.finish].head;
        new.push(Point { head, flow: finish_flow(pipe.s, k, head) });
    }
    new
}

/// B and T of each node, from the old state, in rising pipe number.
pub fn sums(job: &Job, rows: &Rows<'_>) -> Vec<Sums> {
    let mut sums = vec![Sums::ZERO; job.nodes.len()];
    for pipe in &job.pipes {
        let k = start_k(cm(job, pipe, 0, rows));
        sums[pipe.start] = sums[pipe.start].and(k, pipe.s);
        let k = finish_k(cp(job, pipe, pipe.reaches, rows));
        sums[pipe.finish] = sums[pipe.finish].and(k, pipe.s);
    }
    sums
}

/// Works out every node from the old state; the pair of one that is no pump is +0 twice.
fn work_out_nodes(job: &Job, step: u64, rows: &Rows<'_>) -> Vec<NewNode> {
    let mut new = Vec::new();
    for (number, (node, sums)) in job.nodes.iter().zip(sums(job, rows)).enumerate() {
        let v = job.value_at(number, step, rows.speeds[number], rows.inflows[number]);
        let Solved { head, inflow } = node::solve(node.kind, v, sums);
        let pump = matches!(node.kind, Kind::Pump { .. });
        new.push(NewNode { head, speed: if pump { v } else { 0.0 }, inflow });
    }
    new
}

/// Where a speed or an inflow that is not finite stops the run: the lowest section of its node, the
/// least of them where there are several.
fn pair_not_finite(job: &Job, nodes: &[NewNode]) -> Option<usize> {
    let bad = |new: &NewNode| !(new.speed.is_finite() && new.inflow.is_finite());
    let numbers = nodes.iter().enumerate().filter(|(_, new)| bad(new)).map(|(number, _)| number);
    numbers.map(|number| job.lowest_section(number)).min()
}

/// Scans new heads and flows upward, with the section at which a pair that is not finite counts; at
/// one section 40 precedes 41.
pub(crate) fn first_stop(
    new: impl Iterator<Item = Point>,
    floors: impl Iterator<Item = f64>,
    pair_not_finite: Option<usize>,
) -> Option<Stop> {
    for (section, (Point { head, flow }, floor)) in new.zip(floors).enumerate() {
        if !(head.is_finite() && flow.is_finite()) || pair_not_finite == Some(section) {
            return Some(Stop { cause: Cause::NotFinite, section });
        }
        if head < floor {
            return Some(Stop { cause: Cause::Parted, section });
        }
    }
    None
}

/// A finished step: the new state, and the envelopes where the head is greater or less.
fn take_over(sections: &[Point], nodes: &[NewNode], rows: &mut Rows<'_>) {
    for (number, new) in nodes.iter().enumerate() {
        rows.speeds[number] = new.speed;
        rows.inflows[number] = new.inflow;
    }
    for (section, &Point { head, flow }) in sections.iter().enumerate() {
        rows.heads[section] = head;
        rows.flows[section] = flow;
        if head > rows.highest[section] {
            rows.highest[section] = head;
        }
        if head < rows.lowest[section] {
            rows.lowest[section] = head;
        }
    }
}
