//! Which nodes the pipes join.

use super::Random;
use crate::reader::MOST_NODES;

pub struct Network {
    pub nodes: usize,
    /// Start node and finish node of each pipe.
    pub pipes: Vec<(usize, usize)>,
}

/// One pipe, a chain, branches, loops, or separate parts of these; at most `most_pipes` pipes.
pub fn network(random: &mut Random, most_pipes: usize) -> Network {
    let parts = if random.once_in(4) { random.from_to(2, 3) } else { 1 };
    let mut all = Network { nodes: 0, pipes: Vec::new() };
    for _ in 0..parts {
        let (pipes, nodes) = (most_pipes - all.pipes.len(), MOST_NODES - all.nodes);
        if pipes < 1 || nodes < 2 {
            break;
        }
        let part = connected(random, pipes, nodes);
        all.pipes.extend(part.pipes.iter().map(|&(a, b)| (a + all.nodes, b + all.nodes)));
        all.nodes += part.nodes;
    }
    renumbered(random, all)
}

/// A connected network of 1 to `most_pipes` pipes and at most `most_nodes` nodes.
fn connected(random: &mut Random, most_pipes: usize, most_nodes: usize) -> Network {
    let most_pipes = if random.once_in(3) { most_pipes } else { most_pipes.min(6) };
    let pipes = if random.once_in(8) { most_pipes } else { random.from_to(1, most_pipes) };
    let in_tree = pipes.min(most_nodes - 1);
    match random.below(4) {
        0 => tree(random, 1, |_, _| 0),
        1 => tree(random, in_tree, |_, last| last),
        2 => tree(random, in_tree, |random, last| random.below(last + 1)),
        _ => loops(random, in_tree, pipes),
    }
}

/// Each pipe joins a new node to one of those before it, as `earlier` says.
fn tree(
    random: &mut Random,
    pipes: usize,
    earlier: impl Fn(&mut Random, usize) -> usize,
) -> Network {
    let joined = (0..pipes).map(|last| (earlier(random, last), last + 1)).collect();
    Network { nodes: pipes + 1, pipes: joined }
}

/// A tree with further pipes between nodes it has, which may run beside others.
fn loops(random: &mut Random, most_in_tree: usize, pipes: usize) -> Network {
    let in_tree = random.from_to(1, most_in_tree);
    let mut network = tree(random, in_tree, |random, last| random.below(last + 1));
    while network.pipes.len() < pipes {
        let (a, b) = (random.below(network.nodes), random.below(network.nodes));
        if a != b {
            network.pipes.push((a, b));
        }
    }
    network
}

/// The same network with its nodes and pipes in another order, and some pipes turned round.
fn renumbered(random: &mut Random, network: Network) -> Network {
    let mut numbers: Vec<usize> = (0..network.nodes).collect();
    random.shuffle(&mut numbers);
    let mut pipes: Vec<(usize, usize)> =
        network.pipes.iter().map(|&(a, b)| (numbers[a], numbers[b])).collect();
    for pipe in &mut pipes {
        if random.once_in(2) {
            *pipe = (pipe.1, pipe.0);
        }
    }
    random.shuffle(&mut pipes);
    Network { nodes: network.nodes, pipes }
}
