//! What an accepted job says, with the bytes behind it.

use crate::rows::{needed, Lengths};

/// A pipe runs from its start node to its finish node.
#[derive(Clone, Debug, PartialEq)]
pub struct Pipe {
    pub start: usize,
    pub finish: usize,
    pub reaches: usize,
    /// S, the pipe's constant in m²/s.
    pub s: f64,
    /// The number of its section 0 among all sections.
    pub first_section: usize,
    /// The number of its first reach among all reaches.
    pub first_reach: usize,
}

impl Pipe {
    /// The number of section n, at the finish node.
    pub fn last_section(&self) -> usize {
        self.first_section + self.reaches
    }

    /// The number of its last reach among all reaches.
    pub fn last_reach(&self) -> usize {
        self.first_reach + self.reaches - 1
    }
}

/// The figures that a node's kind names.
#[derive(Clone, Copy, Debug, PartialEq)]
pub enum Kind {
    Junction,
    Reservoir,
    Valve { a: f64, b: f64 },
    Pump { a: f64, b: f64, c: f64 },
}

#[derive(Clone, Debug, PartialEq)]
pub struct Node {
    pub kind: Kind,
    pub schedule: Vec<f64>,
}

impl Node {
    /// v: entry n of the schedule at step n, counted from 1, and the last entry afterwards.
    pub fn value_at(&self, step: u64) -> f64 {
        let last = self.schedule.len() as u64;
        self.schedule[(step.min(last) - 1) as usize]
    }
}

/// What table 7 says of a pump whose power fails.
#[derive(Clone, Copy, Debug, PartialEq)]
pub struct Trip {
    pub node: usize,
    /// The first step without power; 0 acts as 1, since steps are counted from 1.
    pub step: u32,
    /// The constants of the rundown.
    pub g: f64,
    pub t0: f64,
    pub t1: f64,
}

impl Trip {
    /// The speed after a step without power: the old speed less G·((t0·α)·α + (t1·α)·q), or +0 where
    /// that is below zero; so a -0 and a NaN stay.
    pub fn rundown(&self, speed: f64, inflow: f64) -> f64 {
        let torque = (self.t0 * speed) * speed + (self.t1 * speed) * inflow;
        let new = speed - self.g * torque;
        if new < 0.0 {
            0.0
        } else {
            new
        }
    }
}

/// What table 4 says of a section.
#[derive(Clone, Copy, Debug, PartialEq)]
pub struct Initial {
    pub head: f64,
    pub flow: f64,
    pub floor: f64,
}

#[derive(Clone, Debug, PartialEq)]
pub struct Job {
    /// Steps for the listing.
    pub steps: u32,
    pub pipes: Vec<Pipe>,
    pub nodes: Vec<Node>,
    /// R of each reach, pipe by pipe.
    pub friction: Vec<f64>,
    /// By the section's number.
    pub initial: Vec<Initial>,
    /// In the order of table 7.
    pub trips: Vec<Trip>,
}

impl Job {
    pub fn sections(&self) -> usize {
        self.initial.len()
    }

    /// What question 20 asks each lent slice to hold.
    pub fn needed(&self) -> Lengths {
        needed(self.sections(), self.nodes.len(), self.pipes.len())
    }

    /// v of a node at a step: its scheduled value, or from its trip step on the rundown of the speed
    /// and the inflow that the step before left.
    pub fn value_at(&self, node: usize, step: u64, speed: f64, inflow: f64) -> f64 {
        let trip = self.trips.iter().find(|trip| trip.node == node);
        match trip.filter(|trip| step >= u64::from(trip.step)) {
            Some(trip) => trip.rundown(speed, inflow),
            None => self.nodes[node].value_at(step),
        }
    }

    /// The lowest number of a section at which a pipe ends at the node.
    pub fn lowest_section(&self, node: usize) -> usize {
        let ends = self.pipes.iter().flat_map(|pipe| {
            [(pipe.start, pipe.first_section), (pipe.finish, pipe.last_section())]
        });
        let at_node = ends.filter(|&(at, _)| at == node).map(|(_, section)| section);
        at_node.min().expect("each node has a pipe end")
    }
}
