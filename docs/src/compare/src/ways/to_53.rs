//! The ways to refusal 53.

use super::{at_place, kinds_and_bytes, ByPlace};
use crate::tally::Tally;
use reference::fields::{f64_at, u16_at};
use reference::layout::tables;
use reference::reader::TRIP_BYTES;

/// Table 7 not whole.
const ONE_BYTE: &str = "refused 53: table 7 of one byte";
const BYTE_SHORT: &str = "refused 53: table 7 one byte short of whole records";
const BYTE_LONG: &str = "refused 53: table 7 one byte past whole records";
const PART_ALONE: &str = "refused 53: table 7 of a part of one record";
const PART_LAST: &str = "refused 53: a part of a record after whole ones";

/// By the place of the record: the first, the last, or between; a lone record is the first.
const NO_PUMP: ByPlace = [
    "refused 53: the first record names no pump",
    "refused 53: the last record names no pump",
    "refused 53: a record between names no pump",
];
const BAD_CONSTANT: ByPlace = [
    "refused 53: the first record has a constant that is not admitted",
    "refused 53: the last record has a constant that is not admitted",
    "refused 53: a record between has a constant that is not admitted",
];
/// By the kind of the node that is no pump.
const OTHER_KIND: [&str; 3] = [
    "refused 53: a record of a junction",
    "refused 53: a record of a reservoir",
    "refused 53: a record of a valve",
];
const FIRST_ABSENT: &str = "refused 53: the node after the last";
const MOST_ABSENT: &str = "refused 53: node 65,535";
const LOW_BYTE: &str = "refused 53: an absent node whose low byte is a pump";
const BIG_ENDIAN: &str = "refused 53: an absent node that is a pump big-endian";

const TWICE: &str = "refused 53: two records of a pump, one after the other";
const TWICE_APART: &str = "refused 53: two records of a pump, others between";
const TWICE_FIRST: &str = "refused 53: two records of a pump, the first of them the first";
const TWICE_LAST: &str = "refused 53: two records of a pump, the second of them the last";

/// By the constant: G, t0, t1.
type ByConstant = [&'static str; 3];
const NOT_FINITE: ByConstant =
    ["refused 53: G infinite", "refused 53: t0 infinite", "refused 53: t1 infinite"];
const NO_NUMBER: ByConstant =
    ["refused 53: G no number", "refused 53: t0 no number", "refused 53: t1 no number"];
const BELOW_ZERO: ByConstant =
    ["refused 53: G below zero", "refused 53: t0 below zero", "refused 53: t1 below zero"];
const JUST_BELOW: &str = "refused 53: a constant of the least number below zero";

pub fn all() -> Vec<&'static str> {
    let lengths = [ONE_BYTE, BYTE_SHORT, BYTE_LONG, PART_ALONE, PART_LAST];
    let nodes = [FIRST_ABSENT, MOST_ABSENT, LOW_BYTE, BIG_ENDIAN];
    let twice = [TWICE, TWICE_APART, TWICE_FIRST, TWICE_LAST];
    let by_three = [NO_PUMP, BAD_CONSTANT, OTHER_KIND, NOT_FINITE, NO_NUMBER, BELOW_ZERO].concat();
    [&lengths[..], &nodes, &twice, &by_three, &[JUST_BELOW]].concat()
}

struct Record {
    node: usize,
    constants: [f64; 3],
}

/// Counts every way that refuses the job.
pub fn count(tally: &mut Tally, job: &[u8]) {
    let (node_table, table) = (tables(job)[1], tables(job)[6]);
    let kinds: Vec<u8> = kinds_and_bytes(node_table).iter().map(|&(kind, _)| kind).collect();
    if !table.len().is_multiple_of(TRIP_BYTES) {
        return count_length(tally, table.len());
    }
    let records: Vec<Record> = table
        .chunks_exact(TRIP_BYTES)
        .map(|record| Record {
            node: u16_at(record, 0).into(),
            constants: [6, 14, 22].map(|at| f64_at(record, at)),
        })
        .collect();
    for (place, record) in records.iter().enumerate() {
        if kinds.get(record.node) != Some(&3) {
            tally.count(at_place(NO_PUMP, place, records.len()), 1);
            count_no_pump(tally, &kinds, record.node);
        }
        if record.constants.iter().any(|&x| !(0.0..=f64::MAX).contains(&x)) {
            tally.count(at_place(BAD_CONSTANT, place, records.len()), 1);
        }
        for (constant, &x) in record.constants.iter().enumerate() {
            for (case, holds) in [
                (NOT_FINITE[constant], x.is_infinite()),
                (NO_NUMBER[constant], x.is_nan()),
                (BELOW_ZERO[constant], x < 0.0 && x.is_finite()),
                (JUST_BELOW, x == -f64::from_bits(1)),
            ] {
                tally.count(case, u64::from(holds));
            }
        }
    }
    count_twice(tally, &records);
}

fn count_length(tally: &mut Tally, length: usize) {
    for (case, holds) in [
        (ONE_BYTE, length == 1),
        (BYTE_SHORT, length % TRIP_BYTES == TRIP_BYTES - 1),
        (BYTE_LONG, length % TRIP_BYTES == 1 && length > 1),
        (PART_ALONE, length < TRIP_BYTES),
        (PART_LAST, length > TRIP_BYTES),
    ] {
        tally.count(case, u64::from(holds));
    }
}

/// What a record names that is no pump.
fn count_no_pump(tally: &mut Tally, kinds: &[u8], node: usize) {
    if let Some(&kind) = kinds.get(node) {
        return tally.count(OTHER_KIND[usize::from(kind)], 1);
    }
    let pump = |node: usize| kinds.get(node) == Some(&3);
    for (case, holds) in [
        (FIRST_ABSENT, node == kinds.len()),
        (MOST_ABSENT, node == 65_535),
        (LOW_BYTE, pump(node % 256)),
        (BIG_ENDIAN, pump(usize::from((node as u16).swap_bytes()))),
    ] {
        tally.count(case, u64::from(holds));
    }
}

fn count_twice(tally: &mut Tally, records: &[Record]) {
    for (first, record) in records.iter().enumerate() {
        let later = records.iter().enumerate().skip(first + 1);
        for (second, _) in later.filter(|(_, other)| other.node == record.node) {
            for (case, holds) in [
                (TWICE, second == first + 1),
                (TWICE_APART, second > first + 1),
                (TWICE_FIRST, first == 0),
                (TWICE_LAST, second + 1 == records.len()),
            ] {
                tally.count(case, u64::from(holds));
            }
        }
    }
}
