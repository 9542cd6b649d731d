//! Damage inside the tables, for questions 5 to 15, 50 and 53. Each breaks its question and none before it.

use super::super::Random;
use super::Parts;

mod counts;
mod trips;

const PIPE: usize = 12;
const NODE: usize = 26;
const NOT_FINITE: [f64; 3] = [f64::INFINITY, f64::NEG_INFINITY, f64::NAN];
const LEAST: f64 = f64::from_bits(1);

pub fn damage(random: &mut Random, parts: &mut Parts, question: u8) {
    match question {
        5 => break_records(random, &mut parts.tables[0], PIPE, &[0, 33, 34, 200]),
        6 => break_records(random, &mut parts.tables[1], NODE, &[0, 1, 33, 40]),
        7 => unjoin(random, parts),
        8 => too_many_sections(random, parts),
        9 => {
            let at = record(random, &parts.tables[0], PIPE) + 4;
            let s = random.pick(&[0.0, -0.0, -LEAST, -1.0, f64::INFINITY, f64::NAN]);
            put(&mut parts.tables[0], at, s);
        }
        10 => bad_kind_or_byte(random, parts),
        50 => counts::bad_counts(random, parts),
        53 => trips::bad_trips(random, parts),
        11 => bad_figure(random, parts),
        12 => lone_node(random, parts),
        13 => {
            let bad = random.pick(&[-LEAST, -1.0, f64::INFINITY, f64::NEG_INFINITY, f64::NAN]);
            put_or_resize(random, &mut parts.tables[2], bad);
        }
        14 => bad_section(random, parts),
        _ => bad_entry(random, parts),
    }
}

/// Where a record begins, any of those in the table.
fn record(random: &mut Random, table: &[u8], width: usize) -> usize {
    random.below(table.len() / width) * width
}

fn put(table: &mut [u8], at: usize, x: f64) {
    table[at..at + 8].copy_from_slice(&x.to_bits().to_le_bytes());
}

/// Records in a number not admitted, or a part of one at the end.
fn break_records(random: &mut Random, table: &mut Vec<u8>, width: usize, counts: &[usize]) {
    if random.once_in(2) {
        let part = random.from_to(1, width - 1);
        table.extend(vec![0; part]);
    } else {
        let count = random.pick(counts);
        let first = table[..width].to_vec();
        *table = first.iter().copied().cycle().take(count * width).collect();
    }
}

/// Question 7: one node at both ends, a node that is absent, or reaches not 1 to 511.
fn unjoin(random: &mut Random, parts: &mut Parts) {
    let at = record(random, &parts.tables[0], PIPE);
    let nodes = parts.tables[1].len() / NODE;
    let table = &mut parts.tables[0];
    match random.below(3) {
        0 => table[at] = table[at + 1],
        1 => table[at + random.below(2)] = random.from_to(nodes, 255) as u8,
        _ => {
            let reaches = random.pick(&[0_u16, 512, 513, 256 * 255, u16::MAX]);
            table[at + 2..at + 4].copy_from_slice(&reaches.to_le_bytes());
        }
    }
}

/// Question 8: 513 sections or more, no pipe of more than 511 reaches.
fn too_many_sections(random: &mut Random, parts: &mut Parts) {
    let table = &mut parts.tables[0];
    if table.len() == PIPE {
        let pipe = table.clone();
        table.extend(pipe);
    }
    let mut left = if random.once_in(2) { 513 } else { random.from_to(513, 1000) };
    let pipes = table.len() / PIPE;
    for (place, pipe) in table.chunks_exact_mut(PIPE).enumerate() {
        // Two sections at least for each pipe that follows.
        let after = 2 * (pipes - place - 1);
        let sections = if after == 0 { left.min(512) } else { (left - after).min(508) };
        let reaches = (sections - 1) as u16;
        pipe[2..4].copy_from_slice(&reaches.to_le_bytes());
        left -= sections;
        left = left.max(after);
    }
}

/// Question 10: a kind that there is not, or, where table 6 is empty, a byte of 0.
fn bad_kind_or_byte(random: &mut Random, parts: &mut Parts) {
    let at = record(random, &parts.tables[1], NODE);
    if parts.byte_counts() && random.once_in(2) {
        parts.tables[1][at + 1] = 0;
    } else {
        let any = random.from_to(4, 255) as u8;
        parts.tables[1][at] = random.pick(&[4, 255, any]);
    }
}

/// Question 11: a figure not finite, below zero where it may not be, or not all zero bits where the
/// kind does not name it.
fn bad_figure(random: &mut Random, parts: &mut Parts) {
    let at = record(random, &parts.tables[1], NODE);
    let place = random.below(3);
    let kind = parts.tables[1][at];
    let bad: &[f64] = match (kind, place) {
        (2, 0) | (3, 0) | (3, 1) => &[-LEAST, -1.0, f64::NAN, f64::INFINITY],
        (2, 1) | (3, 2) => &NOT_FINITE,
        _ => &[-0.0, LEAST, 1.0, f64::NAN, f64::INFINITY],
    };
    let bad = random.pick(bad);
    put(&mut parts.tables[1], at + 2 + 8 * place, bad);
}

/// Question 12: one more junction, with a schedule, and no pipe that ends there.
fn lone_node(random: &mut Random, parts: &mut Parts) {
    let mut node = [0; NODE];
    if parts.byte_counts() {
        node[1] = 1;
    } else {
        parts.tables[5].extend(1_u16.to_le_bytes());
    }
    parts.tables[1].extend(node);
    let draw = random.number(-1.0, 1.0);
    parts.tables[4].extend(draw.to_bits().to_le_bytes());
}

/// One number made `bad`, or the table longer or shorter than it should be.
fn put_or_resize(random: &mut Random, table: &mut Vec<u8>, bad: f64) {
    if random.once_in(3) {
        let more = random.pick(&[1, 7, 8, 8, 24]);
        table.extend(vec![0; more]);
    } else if random.once_in(3) {
        let fewer = random.pick(&[1, 7, 8, 8]);
        table.truncate(table.len() - fewer);
    } else {
        let at = record(random, table, 8);
        put(table, at, bad);
    }
}

/// Question 14: a number not finite, a head below its floor, or a table of another length.
fn bad_section(random: &mut Random, parts: &mut Parts) {
    let table = &mut parts.tables[3];
    if random.once_in(2) {
        let at = record(random, table, 24);
        let head = random.pick(&[0.0, -0.0, 10.0, -10.0]);
        let floor = head + random.pick(&[LEAST, 1.0, f64::MAX]);
        put(table, at, head);
        put(table, at + 16, if floor > head { floor } else { 11.0 });
    } else {
        let bad = random.pick(&NOT_FINITE);
        put_or_resize(random, table, bad);
    }
}

/// Question 15: an entry not finite or out of its kind's range, or a table of another length, which may
/// end in any schedule.
fn bad_entry(random: &mut Random, parts: &mut Parts) {
    let way = random.below(4);
    if way == 0 && !parts.byte_counts() && counts::misread(random, parts) {
        return;
    }
    if way == 1 {
        let bad = random.pick(&NOT_FINITE);
        return put_or_resize(random, &mut parts.tables[4], bad);
    }
    if way == 2 {
        let table = &mut parts.tables[4];
        let (any, right) = (random.below(table.len()), table.len());
        return table.resize(random.pick(&[any, any, right - 8, right + 8]), 0);
    }
    let counts = parts.counts();
    let long = counts.iter().position(|&count| count > 255).filter(|_| random.once_in(2));
    let node = long.unwrap_or_else(|| random.below(counts.len()));
    let first: usize = counts[..node].iter().sum();
    let entry = random.from_to(if long.is_some() { 255 } else { 0 }, counts[node] - 1);
    let above_one = f64::from_bits(0x3ff0_0000_0000_0001);
    let part = parts.tables[1][NODE * node] >= 2;
    let bad = if part { &[-LEAST, above_one, 2.0, -1.0] } else { &NOT_FINITE[..] };
    let bad = random.pick(bad);
    put(&mut parts.tables[4], 8 * (first + entry), bad);
}
