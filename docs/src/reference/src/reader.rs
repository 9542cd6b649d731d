//! The job reader: questions 1 to 15 with 50 and 53 after 10, the first no decides, and each question runs
//! through its whole table before the next.

use crate::fields::{all_f64, f64_at, u16_at, u32_at};
use crate::job::{Initial, Job, Kind, Node, Pipe, Trip};
use crate::layout::{pair_at, pairs_admitted, tables, tables_adjoin, FEWEST_PAIRS};
use crate::refusal::{ask, Refused};

/// The questions to every call that takes a job, in the order in which they are asked.
pub const QUESTIONS: [u8; 17] = [1, 2, 3, 4, 5, 6, 7, 8, 9, 10, 50, 53, 11, 12, 13, 14, 15];

/// The count, the steps and the fewest pairs.
pub const FEWEST_BYTES: usize = pair_at(FEWEST_PAIRS);
pub const MOST_BYTES: usize = 32_768;
pub const MOST_STEPS: u64 = 1_000_000;
pub const MOST_SECTIONS: usize = 512;
pub const MOST_PIPES: usize = 32;
pub const MOST_NODES: usize = 32;

/// The bytes of a record of table 7.
pub const TRIP_BYTES: usize = 30;

/// Asks the questions and hands back what the job says.
pub fn read(bytes: &[u8]) -> Result<Job, Refused> {
    ask(1, (FEWEST_BYTES..=MOST_BYTES).contains(&bytes.len()))?;
    ask(2, pairs_admitted(bytes))?;
    ask(3, tables_adjoin(bytes))?;
    let steps = u32_at(bytes, 2);
    ask(4, u64::from(steps) <= MOST_STEPS)?;
    let [pipe_table, node_table, friction_table, section_table, schedule_table, count_table, trip_table] =
        tables(bytes);
    ask(5, whole_records(pipe_table, 12, 1, MOST_PIPES))?;
    ask(6, whole_records(node_table, 26, 2, MOST_NODES))?;
    let pipes = read_pipes(pipe_table);
    let nodes: Vec<NodeRecord> = node_table.chunks_exact(26).map(NodeRecord::read).collect();
    ask(7, pipes.iter().all(|pipe| joins(pipe, nodes.len())))?;
    let sections: usize = pipes.iter().map(|pipe| pipe.reaches + 1).sum();
    ask(8, sections <= MOST_SECTIONS)?;
    ask(9, pipes.iter().all(|pipe| pipe.s.is_finite() && pipe.s > 0.0))?;
    let byte_counts = count_table.is_empty();
    ask(10, nodes.iter().all(|node| node.kind <= 3 && (!byte_counts || node.byte >= 1)))?;
    ask(50, byte_counts || counts_admitted(count_table, &nodes))?;
    ask(53, trip_table.len().is_multiple_of(TRIP_BYTES))?;
    let trips: Vec<Trip> = trip_table.chunks_exact(TRIP_BYTES).map(read_trip).collect();
    ask(53, trips_admitted(&trips, &nodes))?;
    ask(11, nodes.iter().all(NodeRecord::figures_admitted))?;
    ask(12, (0..nodes.len()).all(|number| has_pipe_end(number, &pipes)))?;
    let reaches: usize = pipes.iter().map(|pipe| pipe.reaches).sum();
    ask(13, friction_table.len() == 8 * reaches)?;
    let friction = all_f64(friction_table);
    ask(13, friction.iter().all(|&r| r.is_finite() && not_below_zero(r)))?;
    ask(14, section_table.len() == 24 * sections)?;
    let initial: Vec<Initial> = section_table.chunks_exact(24).map(read_section).collect();
    ask(14, initial.iter().all(section_admitted))?;
    let counts = counts_in_force(count_table, &nodes);
    ask(15, schedule_table.len() == 8 * counts.iter().sum::<usize>())?;
    let nodes = with_schedules(&nodes, &counts, &all_f64(schedule_table));
    ask(15, nodes.iter().all(schedule_admitted))?;
    Ok(Job { steps, pipes, nodes, friction, initial, trips })
}

/// Neither zero is below zero; the reader asks this of finite numbers.
fn not_below_zero(x: f64) -> bool {
    x >= 0.0
}

/// Questions 5 and 6: whole records of `width` bytes, `least` to `most` of them.
fn whole_records(table: &[u8], width: usize, least: usize, most: usize) -> bool {
    table.len().is_multiple_of(width) && (least..=most).contains(&(table.len() / width))
}

/// Table 1, each pipe with the places of its sections and reaches.
fn read_pipes(table: &[u8]) -> Vec<Pipe> {
    let (mut first_section, mut first_reach) = (0, 0);
    let mut pipes = Vec::new();
    for record in table.chunks_exact(12) {
        let reaches = usize::from(u16_at(record, 2));
        pipes.push(Pipe {
            start: usize::from(record[0]),
            finish: usize::from(record[1]),
            reaches,
            s: f64_at(record, 4),
            first_section,
            first_reach,
        });
        first_section += reaches + 1;
        first_reach += reaches;
    }
    pipes
}

/// Question 7, for one pipe.
fn joins(pipe: &Pipe, nodes: usize) -> bool {
    pipe.start != pipe.finish
        && pipe.start < nodes
        && pipe.finish < nodes
        && (1..=511).contains(&pipe.reaches)
}

/// Question 12, for one node.
fn has_pipe_end(number: usize, pipes: &[Pipe]) -> bool {
    pipes.iter().any(|pipe| pipe.start == number || pipe.finish == number)
}

/// A record of table 2 as it stands, before its kind is known to be one of the four.
struct NodeRecord {
    kind: u8,
    /// The schedule count where table 6 is empty.
    byte: u8,
    a: f64,
    b: f64,
    c: f64,
}

impl NodeRecord {
    fn read(record: &[u8]) -> NodeRecord {
        NodeRecord {
            kind: record[0],
            byte: record[1],
            a: f64_at(record, 2),
            b: f64_at(record, 10),
            c: f64_at(record, 18),
        }
    }

    /// Question 11, for one node. "All zero bits" refuses -0, "not below zero" admits it.
    fn figures_admitted(&self) -> bool {
        let NodeRecord { a, b, c, .. } = *self;
        let unused = |x: f64| x.to_bits() == 0;
        a.is_finite()
            && b.is_finite()
            && c.is_finite()
            && match self.kind {
                2 => not_below_zero(a) && unused(c),
                3 => not_below_zero(a) && not_below_zero(b),
                _ => unused(a) && unused(b) && unused(c),
            }
    }

    fn figures(&self) -> Kind {
        match self.kind {
            0 => Kind::Junction,
            1 => Kind::Reservoir,
            2 => Kind::Valve { a: self.a, b: self.b },
            _ => Kind::Pump { a: self.a, b: self.b, c: self.c },
        }
    }
}

/// Question 50 where table 6 is not empty.
fn counts_admitted(table: &[u8], nodes: &[NodeRecord]) -> bool {
    table.len() == 2 * nodes.len()
        && table.chunks_exact(2).all(|count| u16_at(count, 0) >= 1)
        && nodes.iter().all(|node| node.byte == 0)
}

/// How many entries each node's schedule has, in either form.
fn counts_in_force(table: &[u8], nodes: &[NodeRecord]) -> Vec<usize> {
    if table.is_empty() {
        return nodes.iter().map(|node| usize::from(node.byte)).collect();
    }
    table.chunks_exact(2).map(|count| usize::from(u16_at(count, 0))).collect()
}

fn read_trip(record: &[u8]) -> Trip {
    Trip {
        node: usize::from(u16_at(record, 0)),
        step: u32_at(record, 2),
        g: f64_at(record, 6),
        t0: f64_at(record, 14),
        t1: f64_at(record, 22),
    }
}

/// Question 53 where table 7 is whole: each record names a pump, no two the same, and its constants
/// are finite and not below zero, which -0 is not.
fn trips_admitted(trips: &[Trip], nodes: &[NodeRecord]) -> bool {
    let names_pump = |trip: &Trip| nodes.get(trip.node).is_some_and(|node| node.kind == 3);
    let times_named = |node: usize| trips.iter().filter(|trip| trip.node == node).count();
    trips.iter().all(|trip| {
        names_pump(trip)
            && times_named(trip.node) == 1
            && [trip.g, trip.t0, trip.t1].into_iter().all(|x| x.is_finite() && not_below_zero(x))
    })
}

fn read_section(record: &[u8]) -> Initial {
    Initial { head: f64_at(record, 0), flow: f64_at(record, 8), floor: f64_at(record, 16) }
}

/// Question 14, for one section.
fn section_admitted(section: &Initial) -> bool {
    let Initial { head, flow, floor } = *section;
    head.is_finite() && flow.is_finite() && floor.is_finite() && head >= floor
}

/// Table 5 holds the schedules in node order, end to end.
fn with_schedules(records: &[NodeRecord], counts: &[usize], entries: &[f64]) -> Vec<Node> {
    let mut rest = entries;
    let mut nodes = Vec::new();
    for (record, &count) in records.iter().zip(counts) {
        let (schedule, after) = rest.split_at(count);
        nodes.push(Node { kind: record.figures(), schedule: schedule.to_vec() });
        rest = after;
    }
    nodes
}

/// Question 15, for one node: finite, and from 0 to 1 where it is an opening or a speed.
fn schedule_admitted(node: &Node) -> bool {
    node.schedule.iter().all(|&v| match node.kind {
        Kind::Junction | Kind::Reservoir => v.is_finite(),
        Kind::Valve { .. } | Kind::Pump { .. } => (0.0..=1.0).contains(&v),
    })
}
