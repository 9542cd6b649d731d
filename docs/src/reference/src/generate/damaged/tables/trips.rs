//! Damage to table 7, for question 53.

use super::super::super::Random;
use super::{put, Parts, LEAST, NODE, NOT_FINITE};
use crate::reader::TRIP_BYTES;

/// Question 53: table 7 not whole, a node that is no pump or absent, one in two records, or a constant
/// not finite or below zero. Records that are sound may stand before and after.
pub fn bad_trips(random: &mut Random, parts: &mut Parts) {
    let pumps = parts.pumps();
    let mut records: Vec<Vec<u8>> =
        parts.tables[6].chunks_exact(TRIP_BYTES).map(<[u8]>::to_vec).collect();
    let untripped: Vec<u16> =
        pumps.iter().copied().filter(|pump| !names(&records, *pump)).collect();
    // Most jobs to be damaged have few records; some more let the damage stand first, last or between.
    for pump in untripped {
        if random.once_in(2) {
            records.push(record(random, pump));
        }
    }
    match random.below(4) {
        0 => return not_whole(random, parts, &records),
        1 => {
            let node = no_pump(random, parts);
            let bad = record(random, node);
            insert(random, &mut records, bad);
        }
        2 if !pumps.is_empty() => {
            let pump = random.pick(&pumps);
            if !names(&records, pump) {
                records.push(record(random, pump));
            }
            let twice = record(random, pump);
            insert(random, &mut records, twice);
        }
        _ => {
            if records.is_empty() {
                // Without a pump the node is refused as well as the constant.
                let node = pumps.first().copied().unwrap_or(0);
                records.push(record(random, node));
            }
            let last = records.len() - 1;
            let any = random.below(records.len());
            let (at, constant) = (random.pick(&[0, last, any]), random.below(3));
            let bad = random.pick(&[-LEAST, -1.0, f64::NAN, NOT_FINITE[0], NOT_FINITE[1]]);
            put(&mut records[at], 6 + 8 * constant, bad);
        }
    }
    parts.tables[6] = records.concat();
}

impl Parts {
    /// The numbers of the pumps.
    fn pumps(&self) -> Vec<u16> {
        let kinds = self.tables[1].chunks_exact(NODE).map(|node| node[0]);
        kinds.zip(0..).filter(|&(kind, _)| kind == 3).map(|(_, number)| number).collect()
    }
}

fn names(records: &[Vec<u8>], node: u16) -> bool {
    records.iter().any(|record| record[..2] == node.to_le_bytes())
}

/// A sound record, but for its node.
fn record(random: &mut Random, node: u16) -> Vec<u8> {
    let mut record = vec![0; TRIP_BYTES];
    record[..2].copy_from_slice(&node.to_le_bytes());
    record[2] = random.below(20) as u8;
    for constant in 0..3 {
        let x = random.pick(&[0.0, -0.0, 0.5, 1.0, f64::MAX]);
        put(&mut record, 6 + 8 * constant, x);
    }
    record
}

/// First, last or anywhere.
fn insert(random: &mut Random, records: &mut Vec<Vec<u8>>, record: Vec<u8>) {
    let (last, any) = (records.len(), random.below(records.len() + 1));
    records.insert(random.pick(&[0, last, any]), record);
}

/// A part of a record alone, or the last record shorter or longer by some bytes.
fn not_whole(random: &mut Random, parts: &mut Parts, records: &[Vec<u8>]) {
    let mut table = records.concat();
    let any = random.from_to(1, TRIP_BYTES - 1);
    let bytes = random.pick(&[1, 1, 28, 29, any]);
    let fewer = table.len().saturating_sub(bytes);
    if fewer > 0 && random.once_in(2) {
        table.truncate(fewer);
    } else {
        table.extend(vec![0; bytes]);
    }
    parts.tables[6] = table;
}

/// A node of another kind, the first that is absent, or a number that a slip would read as a pump: its
/// bytes in the other order, or its low byte alone.
fn no_pump(random: &mut Random, parts: &Parts) -> u16 {
    let (nodes, pumps) = ((parts.tables[1].len() / NODE) as u16, parts.pumps());
    let others: Vec<u16> = (0..nodes).filter(|node| !pumps.contains(node)).collect();
    let absent = random.pick(&[nodes, nodes + 1, 32, 255, 256, u16::MAX]).max(nodes);
    let pump = pumps.last().copied().unwrap_or(0);
    let misread = random.pick(&[256 + pump, (pump + 1) << 8 | pump, (pump << 8).max(256)]);
    match random.below(3) {
        0 if !others.is_empty() => random.pick(&others),
        1 => misread,
        _ => absent,
    }
}
