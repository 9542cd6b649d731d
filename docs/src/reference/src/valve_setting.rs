//! Request 4 of document 02: the coefficient that sets the valve of a chain for a discharge, with the heads that
//! belong to it.

use crate::draft::Draft;
use crate::job::{Job, Kind, Node};
use crate::reader::read;
use crate::refusal::{ask, Refused};
use crate::root::root;
use crate::wave::magnitude;
use std::fmt;

/// What a call that is not refused answers.
#[derive(Clone, Copy, Debug, PartialEq)]
pub enum Setting {
    /// a, the valve's full-open coefficient.
    Coefficient(f64),
    /// No coefficient is given, and the rows keep what they held.
    None,
}

/// Sets the valve of a chain for the level L and the flow Q. Only where a coefficient is given, `heads` receives the
/// heads and `flows` Q, both up to the section count.
pub fn set_valve(
    job: &[u8],
    level: f64,
    discharge: f64,
    heads: &mut [f64],
    flows: &mut [f64],
) -> Result<Setting, Refused> {
    let job = read(job)?;
    ask(51, not_chain(&job).is_none() && level.is_finite() && discharge.is_finite())?;
    let sections = job.sections();
    ask(52, heads.len() >= sections && flows.len() >= sections)?;
    let worked = work_out(&job, level, discharge);
    match worked.coefficient {
        Some(a) if worked.causes.is_empty() => {
            heads[..sections].copy_from_slice(&worked.heads);
            flows[..sections].fill(discharge);
            Ok(Setting::Coefficient(a))
        }
        _ => Ok(Setting::None),
    }
}

/// Why a layout is no chain.
#[derive(Clone, Copy, Debug, PartialEq, Eq)]
pub enum NotChain {
    NodeCount,
    /// This pipe does not run from its own number to the next.
    Pipe(usize),
    FirstNode,
    LastNode,
    /// This node, neither first nor last, is no junction.
    Between(usize),
    /// This junction has a scheduled value that is not zero; its entry is counted from 1.
    DrawOff {
        node: usize,
        entry: usize,
    },
}

impl fmt::Display for NotChain {
    fn fmt(&self, out: &mut fmt::Formatter<'_>) -> fmt::Result {
        match self {
            NotChain::NodeCount => write!(out, "there is not one node more than there are pipes"),
            NotChain::Pipe(pipe) => {
                write!(out, "pipe {pipe} does not run from node {pipe} to node {}", pipe + 1)
            }
            NotChain::FirstNode => write!(out, "node 0 is no reservoir"),
            NotChain::LastNode => write!(out, "the last node is no valve"),
            NotChain::Between(node) => write!(out, "node {node} is no junction"),
            NotChain::DrawOff { node, entry } => {
                write!(out, "the draw-off of junction {node} is not zero in entry {entry}")
            }
        }
    }
}

/// What an accepted job lacks to be a chain, if anything.
pub fn not_chain(job: &Job) -> Option<NotChain> {
    let last = job.pipes.len();
    if job.nodes.len() != last + 1 {
        return Some(NotChain::NodeCount);
    }
    let astray =
        |&pipe: &usize| (job.pipes[pipe].start, job.pipes[pipe].finish) != (pipe, pipe + 1);
    if let Some(pipe) = (0..last).find(astray) {
        return Some(NotChain::Pipe(pipe));
    }
    if job.nodes[0].kind != Kind::Reservoir {
        return Some(NotChain::FirstNode);
    }
    if !matches!(job.nodes[last].kind, Kind::Valve { .. }) {
        return Some(NotChain::LastNode);
    }
    (1..last).find_map(|number| not_idle(number, &job.nodes[number]))
}

/// What a node between lacks to be a junction whose scheduled values are all zero, of either sign.
fn not_idle(number: usize, node: &Node) -> Option<NotChain> {
    if node.kind != Kind::Junction {
        return Some(NotChain::Between(number));
    }
    let entry = node.schedule.iter().position(|&draw| draw != 0.0)?;
    Some(NotChain::DrawOff { node: number, entry: entry + 1 })
}

/// Why no coefficient is given. Several may hold at once.
#[derive(Clone, Copy, Debug, PartialEq, Eq)]
pub enum Cause {
    DischargeNotAboveZero,
    HeadBelowFloor,
    NotAboveOutlet,
    HeadNotFinite,
    /// H - b.
    DifferenceNotFinite,
    /// a, asked only where the root of H - b is taken: H is above b, and H - b is finite.
    CoefficientNotFinite,
}

impl Cause {
    pub const ALL: [Cause; 6] = [
        Cause::DischargeNotAboveZero,
        Cause::HeadBelowFloor,
        Cause::NotAboveOutlet,
        Cause::HeadNotFinite,
        Cause::DifferenceNotFinite,
        Cause::CoefficientNotFinite,
    ];

    pub fn words(self) -> &'static str {
        match self {
            Cause::DischargeNotAboveZero => "the discharge is not above zero",
            Cause::HeadBelowFloor => "a head is below its floor",
            Cause::NotAboveOutlet => "the head at the valve is not above its outlet",
            Cause::HeadNotFinite => "a head is not finite",
            Cause::DifferenceNotFinite => {
                "the head at the valve less that of its outlet is not finite"
            }
            Cause::CoefficientNotFinite => "the coefficient is not finite",
        }
    }
}

/// What is worked out for a chain, whether or not a coefficient is given.
#[derive(Clone, Debug)]
pub struct Worked {
    /// By the section's number.
    pub heads: Vec<f64>,
    /// a, where the root is taken.
    pub coefficient: Option<f64>,
    /// Every cause that holds, in the order of `Cause::ALL`; a coefficient is given where none does.
    pub causes: Vec<Cause>,
}

/// Works out a chain for a finite level and flow.
pub fn work_out(job: &Job, level: f64, discharge: f64) -> Worked {
    let heads = heads_along(job, level, discharge);
    let (last, outlet) = (heads[heads.len() - 1], outlet(job));
    let difference = last - outlet;
    let taken = if last > outlet { root(difference).ok() } else { None };
    let coefficient = taken.map(|root| discharge / root);
    let holds = |cause: Cause| match cause {
        Cause::DischargeNotAboveZero => discharge <= 0.0,
        Cause::HeadBelowFloor => below_floor(job, &heads).is_some(),
        // A head that were no number would not be above either.
        Cause::NotAboveOutlet => last <= outlet || last.is_nan(),
        Cause::HeadNotFinite => heads.iter().any(|head| !head.is_finite()),
        Cause::DifferenceNotFinite => !difference.is_finite(),
        Cause::CoefficientNotFinite => coefficient.is_some_and(|a| !a.is_finite()),
    };
    let causes = Cause::ALL.into_iter().filter(|&cause| holds(cause)).collect();
    Worked { heads, coefficient, causes }
}

/// L at section 0, then H - ((R·Q)·|Q|)/S reach by reach; a pipe begins with the head that the one before ended with.
fn heads_along(job: &Job, level: f64, discharge: f64) -> Vec<f64> {
    let mut heads = Vec::new();
    let mut head = level;
    for pipe in &job.pipes {
        heads.push(head);
        for reach in pipe.first_reach..=pipe.last_reach() {
            let friction = (job.friction[reach] * discharge) * magnitude(discharge);
            head -= friction / pipe.s;
            heads.push(head);
        }
    }
    heads
}

/// b of a chain's valve.
pub fn outlet(job: &Job) -> f64 {
    match job.nodes[job.nodes.len() - 1].kind {
        Kind::Valve { b, .. } => b,
        _ => unreachable!("a chain ends at a valve"),
    }
}

/// The first section whose head is below its floor.
pub fn below_floor(job: &Job, heads: &[f64]) -> Option<usize> {
    heads.iter().zip(&job.initial).position(|(&head, initial)| head < initial.floor)
}

/// The job with its valve set and the worked-out state as its initial one, and nothing else changed; `None` where no
/// coefficient is given.
pub fn with_valve_set(draft: &Draft, level: f64, discharge: f64) -> Result<Option<Draft>, Refused> {
    let sections = draft.section_count();
    let (mut heads, mut flows) = (vec![0.0; sections], vec![0.0; sections]);
    let setting = set_valve(&draft.bytes(), level, discharge, &mut heads, &mut flows)?;
    let Setting::Coefficient(a) = setting else {
        return Ok(None);
    };
    let mut set = draft.clone();
    let valve = set.nodes.len() - 1;
    set.nodes[valve].figures[0] = a;
    for (section, (head, flow)) in set.sections.iter_mut().zip(heads.into_iter().zip(flows)) {
        [section[0], section[1]] = [head, flow];
    }
    Ok(Some(set))
}
