//! Layouts that are accepted and lack one thing to be chains.

use super::{chain_of, ToSet};
use crate::draft::{Draft, DraftNode, DraftPipe};
use crate::generate::Random;

/// What keeps a layout from being a chain.
#[derive(Clone, Copy, Debug, PartialEq, Eq)]
pub enum Break {
    /// A pipe runs the other way.
    PipeReversed,
    /// Two pipes stand in each other's place.
    PipesExchanged,
    /// Two junctions have each other's number.
    JunctionsExchanged,
    /// A pipe begins at an earlier node than its own.
    Branch,
    /// A pipe ends at a later node than the next, which is the end of another.
    Gathered,
    /// One more pipe beside another.
    DoublePipe,
    /// One more pipe from a later node to an earlier one.
    Loop,
    /// The chain is cut at a junction, which makes one node more.
    TwoParts,
    FirstNode,
    LastNode,
    Between,
    /// One draw-off is not zero.
    DrawOff,
}

impl Break {
    pub const ALL: [Break; 12] = [
        Break::PipeReversed,
        Break::PipesExchanged,
        Break::JunctionsExchanged,
        Break::Branch,
        Break::Gathered,
        Break::DoublePipe,
        Break::Loop,
        Break::TwoParts,
        Break::FirstNode,
        Break::LastNode,
        Break::Between,
        Break::DrawOff,
    ];

    /// Pipes that the chain must have to be broken so.
    fn least_pipes(self) -> usize {
        match self {
            Break::PipeReversed | Break::DoublePipe | Break::FirstNode | Break::LastNode => 1,
            Break::JunctionsExchanged => 3,
            _ => 2,
        }
    }
}

/// A chain for which a coefficient would be given, broken so and in no other way.
pub fn near_chain(random: &mut Random, way: Break) -> ToSet {
    let mut made = chain_of(random, way.least_pipes(), 20, &[]);
    let draft = &mut made.draft;
    let last = draft.pipes.len();
    match way {
        Break::PipeReversed => reverse(random, draft),
        Break::PipesExchanged => exchange_pipes(random, draft),
        Break::JunctionsExchanged => exchange_junctions(random, draft),
        Break::Branch => {
            let pipe = random.from_to(1, last - 1);
            join(draft, pipe, random.below(pipe), pipe + 1);
        }
        Break::Gathered => {
            let pipe = random.below(last - 1);
            join(draft, pipe, pipe, random.from_to(pipe + 2, last));
        }
        Break::DoublePipe => {
            let DraftPipe { start, finish, .. } = draft.pipes[random.below(last)];
            one_more_pipe(draft, start, finish);
        }
        Break::Loop => {
            let [low, high] = two_below(random, last + 1);
            one_more_pipe(draft, high as u8, low as u8);
        }
        Break::TwoParts => cut(random, draft),
        Break::FirstNode => other_kind(random, &mut draft.nodes[0], &[0, 2, 3]),
        Break::LastNode => other_kind(random, &mut draft.nodes[last], &[0, 1, 3]),
        Break::Between => {
            let node = random.from_to(1, last - 1);
            other_kind(random, &mut draft.nodes[node], &[1, 2, 3]);
        }
        Break::DrawOff => draw_off(random, draft),
    }
    made
}

fn join(draft: &mut Draft, pipe: usize, start: usize, finish: usize) {
    let (start, finish) = (start as u8, finish as u8);
    draft.pipes[pipe] = DraftPipe { start, finish, ..draft.pipes[pipe].clone() };
}

fn reverse(random: &mut Random, draft: &mut Draft) {
    let pipe = random.below(draft.pipes.len());
    join(draft, pipe, pipe + 1, pipe);
}

fn exchange_pipes(random: &mut Random, draft: &mut Draft) {
    let [low, high] = two_below(random, draft.pipes.len());
    join(draft, low, high, high + 1);
    join(draft, high, low, low + 1);
}

/// Two different numbers below `end`, the lesser first.
fn two_below(random: &mut Random, end: usize) -> [usize; 2] {
    let low = random.below(end - 1);
    [low, random.from_to(low + 1, end - 1)]
}

fn exchange_junctions(random: &mut Random, draft: &mut Draft) {
    let [low, high] = two_below(random, draft.pipes.len() - 1).map(|place| place as u8 + 1);
    let other = |node: u8| match node {
        _ if node == low => high,
        _ if node == high => low,
        _ => node,
    };
    for pipe in &mut draft.pipes {
        [pipe.start, pipe.finish] = [other(pipe.start), other(pipe.finish)];
    }
}

/// A pipe of one reach after the others. Where there are as many sections as may be, the first pipe of several reaches
/// gives up what the new one takes.
fn one_more_pipe(draft: &mut Draft, start: u8, finish: u8) {
    while draft.section_count() + 2 > 512 {
        shorten(draft);
    }
    draft.pipe(start, finish, 1, 1.0, 0.0);
    draft.sections.extend([[50.0, 0.0, -1e300]; 2]);
}

/// The first pipe of several reaches loses its last.
fn shorten(draft: &mut Draft) {
    let (mut reach, mut section) = (0, 0);
    for pipe in &mut draft.pipes {
        let reaches = usize::from(pipe.reaches);
        if reaches > 1 {
            pipe.reaches -= 1;
            draft.friction.remove(reach + reaches - 1);
            draft.sections.remove(section + reaches);
            return;
        }
        reach += reaches;
        section += reaches + 1;
    }
}

/// A junction becomes two: the pipe before ends at one, the pipe after begins at the other.
fn cut(random: &mut Random, draft: &mut Draft) {
    let junction = random.from_to(1, draft.pipes.len() - 1);
    draft.nodes.insert(junction, DraftNode::junction(&[0.0]));
    for (place, pipe) in draft.pipes.iter_mut().enumerate().skip(junction) {
        [pipe.start, pipe.finish] = [place as u8 + 1, place as u8 + 2];
    }
}

/// Another kind, with scheduled values that are all zero.
fn other_kind(random: &mut Random, node: &mut DraftNode, kinds: &[u8]) {
    let zeros = vec![0.0; node.schedule.len()];
    *node = match random.pick(kinds) {
        0 => DraftNode::junction(&zeros),
        1 => DraftNode::reservoir(&zeros),
        2 => DraftNode::valve(1.0, 0.0, &zeros),
        _ => DraftNode::pump(1.0, 1.0, 0.0, &zeros),
    };
}

/// One entry of one junction: the first, the last or any, by the least there is or by more.
fn draw_off(random: &mut Random, draft: &mut Draft) {
    let junctions = draft.pipes.len() - 1;
    let any = random.from_to(1, junctions);
    let long = (1..=junctions).find(|&node| draft.nodes[node].schedule.len() > 255);
    let long = long.unwrap_or(any);
    let node = random.pick(&[1, junctions, any, long, long]);
    let schedule = &mut draft.nodes[node].schedule;
    let last = schedule.len() - 1;
    let any = random.below(last + 1);
    let entry = random.pick(&[0, last, any]);
    schedule[entry] = random.pick(&[f64::from_bits(1), -f64::from_bits(1), 0.01, -1e300]);
}
