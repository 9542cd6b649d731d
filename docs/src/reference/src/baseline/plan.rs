//! A job read quickly, into arrays with an entry per pipe or node. The numbers of reaches and
//! sections stay in the job's bytes, to be judged by [`super::look`].

use crate::fields::{f64_at, u16_at, u32_at};
use crate::job::{Kind, Trip};
use crate::layout::{pairs_admitted, tables, tables_adjoin};
use crate::reader::{FEWEST_BYTES, MOST_BYTES, MOST_SECTIONS, MOST_STEPS, TRIP_BYTES};
use crate::rows::{needed, Lengths};
use std::ops::RangeInclusive;

/// Pipes at the most, and nodes.
pub const MOST: usize = 32;

#[derive(Clone, Copy)]
pub struct PipePlan {
    pub start: usize,
    pub finish: usize,
    pub reaches: usize,
    pub s: f64,
    /// The number of its section 0.
    pub first: usize,
    /// The number of its first reach.
    pub first_reach: usize,
}

impl PipePlan {
    /// The numbers of its sections.
    pub fn sections(&self) -> RangeInclusive<usize> {
        self.first..=self.first + self.reaches
    }
}

#[derive(Clone, Copy)]
pub struct NodePlan {
    pub kind: Kind,
    /// T, which no step changes.
    pub t: f64,
    /// Where its schedule begins among the entries of table 5.
    pub first_entry: usize,
    pub entries: usize,
    /// The first step of its rundown; no step of a run for a node in no record.
    trip_step: u32,
    /// Where its record stands in table 7, or `NO_RECORD`. A table of more than 32 records is refused.
    record: u8,
}

const NO_RECORD: u8 = u8::MAX;

pub struct Plan<'a> {
    pub sections: usize,
    pipe_count: usize,
    pipes: [PipePlan; MOST],
    node_count: usize,
    nodes: [NodePlan; MOST],
    /// A bit for each node that is a pump.
    pumps: u32,
    /// R of each reach, pipe by pipe.
    friction: &'a [[u8; 8]],
    /// Head, flow and floor of each section.
    initial: &'a [[u8; 24]],
    schedules: &'a [[u8; 8]],
    trips: &'a [[u8; TRIP_BYTES]],
}

impl<'a> Plan<'a> {
    pub fn empty() -> Plan<'a> {
        let pipe = PipePlan { start: 0, finish: 0, reaches: 0, s: 0.0, first: 0, first_reach: 0 };
        let node = NodePlan {
            kind: Kind::Junction,
            t: 0.0,
            first_entry: 0,
            entries: 0,
            trip_step: u32::MAX,
            record: NO_RECORD,
        };
        Plan {
            sections: 0,
            pipe_count: 0,
            pipes: [pipe; MOST],
            node_count: 0,
            nodes: [node; MOST],
            pumps: 0,
            friction: &[],
            initial: &[],
            schedules: &[],
            trips: &[],
        }
    }

    /// Reads a job into an empty plan, which is too large to be handed about. True where it passes
    /// questions 1 to 12, 50, 53 and 15 and has tables 3 and 4 of the right lengths.
    pub fn read(&mut self, bytes: &'a [u8]) -> bool {
        if !laid_out(bytes) {
            return false;
        }
        let [pipes, nodes, friction, sections, schedules, entry_counts, trips] = tables(bytes);
        let counts = (records(pipes, 12, 1), records(nodes, 26, 2));
        let (Some(pipe_count), Some(node_count)) = counts else {
            return false;
        };
        (self.pipe_count, self.node_count) = (pipe_count, node_count);
        self.friction = friction.as_chunks().0;
        self.initial = sections.as_chunks().0;
        self.schedules = schedules.as_chunks().0;
        self.read_pipes(pipes)
            && self.read_nodes(nodes, entry_counts)
            && self.read_trips(trips)
            && friction.len() == 8 * (self.sections - pipe_count)
            && sections.len() == 24 * self.sections
            && self.schedules_sound(schedules.len())
    }

    /// What question 20 asks each lent slice to hold.
    pub fn needed(&self) -> Lengths {
        needed(self.sections, self.node_count, self.pipe_count)
    }

    pub fn pipes(&self) -> &[PipePlan] {
        &self.pipes[..self.pipe_count]
    }

    pub fn nodes(&self) -> &[NodePlan] {
        &self.nodes[..self.node_count]
    }

    pub fn all_friction(&self) -> &'a [[u8; 8]] {
        self.friction
    }

    pub fn all_initial(&self) -> &'a [[u8; 24]] {
        self.initial
    }

    /// R of each reach of a pipe.
    #[inline(always)]
    pub fn friction(&self, pipe: &PipePlan) -> &'a [[u8; 8]] {
        &self.friction[pipe.first_reach..pipe.first_reach + pipe.reaches]
    }

    /// Head, flow and floor of each section of a pipe.
    #[inline(always)]
    pub fn initial(&self, pipe: &PipePlan) -> &'a [[u8; 24]] {
        &self.initial[pipe.sections()]
    }

    /// v of a node at a step, by the speed and the inflow that the step before left.
    #[inline(always)]
    pub fn value_at(&self, node: &NodePlan, step: u64, speed: f64, inflow: f64) -> f64 {
        if step >= u64::from(node.trip_step) {
            return trip(&self.trips[usize::from(node.record)]).rundown(speed, inflow);
        }
        let entry = step.min(node.entries as u64) as usize - 1;
        f64::from_le_bytes(self.schedules[node.first_entry + entry])
    }

    /// The numbers of the pumps.
    #[inline(always)]
    pub fn pumps(&self) -> impl Iterator<Item = usize> {
        let mut left = self.pumps;
        std::iter::from_fn(move || {
            let number = left.trailing_zeros();
            left &= left.wrapping_sub(1);
            (number < u32::BITS).then_some(number as usize)
        })
    }

    /// The lowest number of a section at which a pipe ends at the node.
    pub fn lowest_section(&self, node: usize) -> Option<usize> {
        let ends = self
            .pipes()
            .iter()
            .flat_map(|pipe| [(pipe.start, pipe.first), (pipe.finish, pipe.first + pipe.reaches)]);
        ends.filter(|&(at, _)| at == node).map(|(_, section)| section).min()
    }

    /// Questions 7 to 9 and 12, with T of each node.
    fn read_pipes(&mut self, table: &[u8]) -> bool {
        let records = table.as_chunks::<12>().0.iter();
        for (number, (record, pipe)) in records.zip(&mut self.pipes).enumerate() {
            let (start, finish) = (usize::from(record[0]), usize::from(record[1]));
            let (reaches, s) = (usize::from(u16_at(record, 2)), f64_at(record, 4));
            let joins = start != finish && start < self.node_count && finish < self.node_count;
            if !(joins && (1..=511).contains(&reaches) && s.is_finite() && s > 0.0) {
                return false;
            }
            let (first, first_reach) = (self.sections, self.sections - number);
            *pipe = PipePlan { start, finish, reaches, s, first, first_reach };
            self.sections += reaches + 1;
            self.nodes[start].t += s;
            self.nodes[finish].t += s;
        }
        self.sections <= MOST_SECTIONS && self.nodes().iter().all(|node| node.t > 0.0)
    }

    /// Questions 10, 50 and 11.
    fn read_nodes(&mut self, table: &[u8], entry_counts: &[u8]) -> bool {
        let (mut first_entry, in_records) = (0, entry_counts.is_empty());
        if !in_records && entry_counts.len() != 2 * self.node_count {
            return false;
        }
        let records = table.as_chunks::<26>().0.iter();
        for (number, (record, node)) in records.zip(&mut self.nodes).enumerate() {
            let byte = usize::from(record[1]);
            let (entries, replaced) = if in_records {
                (byte, 0)
            } else {
                (u16_at(entry_counts, 2 * number).into(), byte)
            };
            let [a, b, c] = [2, 10, 18].map(|at| f64_at(record, at));
            let zero = |x: f64| x.to_bits() == 0;
            let (kind, named) = match record[0] {
                0 => (Kind::Junction, zero(a) && zero(b) && zero(c)),
                1 => (Kind::Reservoir, zero(a) && zero(b) && zero(c)),
                2 => (Kind::Valve { a, b }, a >= 0.0 && zero(c)),
                3 => (Kind::Pump { a, b, c }, a >= 0.0 && b >= 0.0),
                _ => return false,
            };
            let counted = entries > 0 && replaced == 0;
            if !(counted && named && a.is_finite() && b.is_finite() && c.is_finite()) {
                return false;
            }
            self.pumps |= u32::from(record[0] == 3) << number;
            *node = NodePlan { kind, first_entry, entries, ..*node };
            first_entry += entries;
        }
        first_entry == self.schedules.len()
    }

    /// Question 53.
    fn read_trips(&mut self, table: &'a [u8]) -> bool {
        let (records, rest) = table.as_chunks::<TRIP_BYTES>();
        self.trips = records;
        for (record, bytes) in records.iter().enumerate() {
            let Trip { node, step, g, t0, t1 } = trip(bytes);
            let Some(node) = self.nodes[..self.node_count].get_mut(node) else {
                return false;
            };
            let named = matches!(node.kind, Kind::Pump { .. }) && node.record == NO_RECORD;
            if !(named && [g, t0, t1].iter().all(|x| (0.0..=f64::MAX).contains(x))) {
                return false;
            }
            (node.trip_step, node.record) = (step, record as u8);
        }
        rest.is_empty()
    }

    /// Question 15; the number of entries is known to be right but for bytes after the last.
    fn schedules_sound(&self, length: usize) -> bool {
        let mut bad = u64::from(!length.is_multiple_of(8));
        for node in self.nodes() {
            let (least, most) = match node.kind {
                Kind::Junction | Kind::Reservoir => (-f64::MAX, f64::MAX),
                Kind::Valve { .. } | Kind::Pump { .. } => (0.0, 1.0),
            };
            for entry in &self.schedules[node.first_entry..node.first_entry + node.entries] {
                let v = f64::from_le_bytes(*entry);
                bad += u64::from(!((v >= least) & (v <= most)));
            }
        }
        bad == 0
    }
}

/// What a record of table 7 says.
#[inline(always)]
fn trip(record: &[u8; TRIP_BYTES]) -> Trip {
    let [g, t0, t1] = [6, 14, 22].map(|at| f64_at(record, at));
    Trip { node: u16_at(record, 0).into(), step: u32_at(record, 2), g, t0, t1 }
}

/// Questions 1 to 4.
fn laid_out(bytes: &[u8]) -> bool {
    (FEWEST_BYTES..=MOST_BYTES).contains(&bytes.len())
        && pairs_admitted(bytes)
        && tables_adjoin(bytes)
        && u64::from(u32_at(bytes, 2)) <= MOST_STEPS
}

/// Questions 5 and 6: how many whole records, at least so many and at most 32.
fn records(table: &[u8], width: usize, least: usize) -> Option<usize> {
    let count = table.len() / width;
    (table.len().is_multiple_of(width) && (least..=MOST).contains(&count)).then_some(count)
}
