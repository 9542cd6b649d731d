//! Layouts that lack one thing to be chains.

use super::{call, call_lent, expect, NOT_FINITE};
use crate::tally::Tally;
use reference::generate::{near_chain, Break, Random};
use reference::job::Job;
use reference::reader::read;
use reference::valve_setting::{not_chain, NotChain};

/// In the order of `Break::ALL`.
const BREAKS: [&str; 12] = [
    "no chain: a pipe reversed",
    "no chain: two pipes exchanged",
    "no chain: two junctions exchanged",
    "no chain: a pipe that branches off an earlier node",
    "no chain: a pipe that ends at a later node",
    "no chain: a pipe beside another",
    "no chain: a pipe back to an earlier node",
    "no chain: two parts",
    "no chain: the first node no reservoir",
    "no chain: the last node no valve",
    "no chain: a node between no junction",
    "no chain: a draw-off not zero",
];

/// What must be counted, and how often at least.
pub fn all() -> Vec<(&'static str, u64)> {
    BREAKS.into_iter().map(|way| (way, 100)).collect()
}

/// Each way to be no chain: with long rows and short ones, and with a discharge that would have none. It is counted
/// where the layout shows it.
pub fn no_chains(tally: &mut Tally, random: &mut Random) {
    for (way, name) in Break::ALL.into_iter().zip(BREAKS) {
        for _ in 0..300 {
            let mut made = near_chain(random, way);
            let shown = read(&made.draft.bytes()).ok().and_then(|job| shown(&job));
            tally.count(name, u64::from(shown == Some(way)));
            expect(&made, call(tally, random, &made), 51);
            let short = [0; 2].map(|_| random.below(made.draft.section_count()));
            expect(&made, call_lent(tally, random, &made, short), 51);
            made.discharge = random.pick(&[0.0, -0.0, -1.0]);
            expect(&made, call(tally, random, &made), 51);
            made.level = f64::from_bits(random.pick(&NOT_FINITE));
            expect(&made, call(tally, random, &made), 51);
        }
    }
}

/// The break that a layout shows where it has one only.
fn shown(job: &Job) -> Option<Break> {
    Some(match not_chain(job)? {
        NotChain::NodeCount if job.nodes.len() > job.pipes.len() => Break::TwoParts,
        NotChain::NodeCount => one_pipe_more(job),
        NotChain::Pipe(pipe) => astray(job, pipe),
        NotChain::FirstNode => Break::FirstNode,
        NotChain::LastNode => Break::LastNode,
        NotChain::Between(_) => Break::Between,
        NotChain::DrawOff { .. } => Break::DrawOff,
    })
}

/// From which node a pipe runs, and to which.
fn ends(job: &Job, pipe: usize) -> (usize, usize) {
    (job.pipes[pipe].start, job.pipes[pipe].finish)
}

fn one_pipe_more(job: &Job) -> Break {
    let last = job.pipes.len() - 1;
    let beside = (0..last).any(|pipe| ends(job, pipe) == ends(job, last));
    if beside {
        Break::DoublePipe
    } else {
        Break::Loop
    }
}

/// By the first pipe that is astray.
fn astray(job: &Job, pipe: usize) -> Break {
    let (start, finish) = ends(job, pipe);
    match start {
        _ if (start, finish) == (pipe + 1, pipe) => Break::PipeReversed,
        _ if start > pipe => Break::PipesExchanged,
        _ if start < pipe => Break::Branch,
        // The next pipe goes on from there.
        _ if job.pipes.get(pipe + 1).is_some_and(|next| next.start == finish) => {
            Break::JunctionsExchanged
        }
        _ => Break::Gathered,
    }
}
