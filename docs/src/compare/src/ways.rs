//! The ways to refusals 2, 3, 10, 50, 53 and 15 by the forms of a job. Each must be reached by the comparison.

use crate::tally::Tally;
use reference::fields::{all_f64, u16_at};
use reference::layout::{pair, pair_at, pair_count, tables, Form, FEWEST_PAIRS};

mod to_53;

/// Refused 2 for the count of pairs.
const COUNTS: [(usize, &str); 11] = [
    (0, "refused 2: no pairs"),
    (1, "refused 2: one pair"),
    (2, "refused 2: two pairs"),
    (3, "refused 2: three pairs"),
    (4, "refused 2: four pairs"),
    (8, "refused 2: eight pairs"),
    (9, "refused 2: nine pairs"),
    (5 << 8, "refused 2: 1,280 pairs, which is 5 big-endian"),
    (6 << 8, "refused 2: 1,536 pairs, which is 6 big-endian"),
    (7 << 8, "refused 2: 1,792 pairs, which is 7 big-endian"),
    (65_535, "refused 2: 65,535 pairs"),
];

/// Refused 2 for six pairs in a file that ends before them, by its length.
const SIX_SHORT: [&str; 8] = [
    "refused 2: six pairs in 46 bytes",
    "refused 2: six pairs in 47 bytes",
    "refused 2: six pairs in 48 bytes",
    "refused 2: six pairs in 49 bytes",
    "refused 2: six pairs in 50 bytes",
    "refused 2: six pairs in 51 bytes",
    "refused 2: six pairs in 52 bytes",
    "refused 2: six pairs in 53 bytes",
];

/// The same for seven pairs.
const SEVEN_SHORT: [&str; 16] = [
    "refused 2: seven pairs in 46 bytes",
    "refused 2: seven pairs in 47 bytes",
    "refused 2: seven pairs in 48 bytes",
    "refused 2: seven pairs in 49 bytes",
    "refused 2: seven pairs in 50 bytes",
    "refused 2: seven pairs in 51 bytes",
    "refused 2: seven pairs in 52 bytes",
    "refused 2: seven pairs in 53 bytes",
    "refused 2: seven pairs in 54 bytes",
    "refused 2: seven pairs in 55 bytes",
    "refused 2: seven pairs in 56 bytes",
    "refused 2: seven pairs in 57 bytes",
    "refused 2: seven pairs in 58 bytes",
    "refused 2: seven pairs in 59 bytes",
    "refused 2: seven pairs in 60 bytes",
    "refused 2: seven pairs in 61 bytes",
];

/// By the number of pairs, five to seven.
type ByPairs = [&'static str; 3];
/// The first table where another number of pairs ends: by the number of pairs, and by the other.
const FIRST: [ByPairs; 3] = [
    [
        "",
        "refused 3: five pairs, the first table where six end",
        "refused 3: five pairs, the first table where seven end",
    ],
    [
        "refused 3: six pairs, the first table where five end",
        "",
        "refused 3: six pairs, the first table where seven end",
    ],
    [
        "refused 3: seven pairs, the first table where five end",
        "refused 3: seven pairs, the first table where six end",
        "",
    ],
];
const GAP: ByPairs = [
    "refused 3: five pairs, a gap",
    "refused 3: six pairs, a gap",
    "refused 3: seven pairs, a gap",
];
const OVERLAP: ByPairs = [
    "refused 3: five pairs, an overlap",
    "refused 3: six pairs, an overlap",
    "refused 3: seven pairs, an overlap",
];
const EARLY: ByPairs = [
    "refused 3: five pairs, the last table ends before the file",
    "refused 3: six pairs, the last table ends before the file",
    "refused 3: seven pairs, the last table ends before the file",
];
const LATE: ByPairs = [
    "refused 3: five pairs, the last table ends after the file",
    "refused 3: six pairs, the last table ends after the file",
    "refused 3: seven pairs, the last table ends after the file",
];
const WRAPPED: ByPairs = [
    "refused 3: five pairs, sums that are right at 2^32",
    "refused 3: six pairs, sums that are right at 2^32",
    "refused 3: seven pairs, sums that are right at 2^32",
];

/// By the form, in the order of `Form::ALL`.
type ByForm = [&'static str; 5];
const KIND_4: ByForm = [
    "refused 10: five pairs, kind 4",
    "refused 10: six pairs, table 6 empty, kind 4",
    "refused 10: six pairs, table 6 full, kind 4",
    "refused 10: seven pairs, table 6 empty, kind 4",
    "refused 10: seven pairs, table 6 full, kind 4",
];
const KIND_255: ByForm = [
    "refused 10: five pairs, kind 255",
    "refused 10: six pairs, table 6 empty, kind 255",
    "refused 10: six pairs, table 6 full, kind 255",
    "refused 10: seven pairs, table 6 empty, kind 255",
    "refused 10: seven pairs, table 6 full, kind 255",
];
/// Of no form that counts in table 6.
const BYTE_0: ByForm = [
    "refused 10: five pairs, a byte of 0",
    "refused 10: six pairs, table 6 empty, a byte of 0",
    "",
    "refused 10: seven pairs, table 6 empty, a byte of 0",
    "",
];
const KIND_AND_LENGTH: &str = "refused 10: a kind that there is not, and table 6 of another length";

/// Refused 50 for the length of table 6.
const ONE_BYTE: &str = "refused 50: table 6 of one byte";
const BYTE_SHORT: &str = "refused 50: table 6 one byte short";
const BYTE_LONG: &str = "refused 50: table 6 one byte long";
const NODE_SHORT: &str = "refused 50: table 6 one node short";
const NODE_LONG: &str = "refused 50: table 6 one node long";
const BYTE_WIDE: &str = "refused 50: table 6 of one byte per node";
/// By the place of the node: the first, the last, or between.
type ByPlace = [&'static str; 3];
const COUNT_0: ByPlace = [
    "refused 50: the first count 0",
    "refused 50: the last count 0",
    "refused 50: a count between 0",
];
const BYTE_NOT_0: ByPlace = [
    "refused 50: the first byte not 0",
    "refused 50: the last byte not 0",
    "refused 50: a byte between not 0",
];

/// Two questions broken, the first of which decides; counted where the job is made.
pub const TEN_AND_FIFTY: &str = "refused 10, which 50 would refuse too";
pub const FIFTY_AND_ELEVEN: &str = "refused 50, which 11 would refuse too";
pub const TEN_AND_FIFTY_THREE: &str = "refused 10, which 53 would refuse too";
pub const FIFTY_AND_FIFTY_THREE: &str = "refused 50, which 53 would refuse too";
pub const FIFTY_THREE_AND_ELEVEN: &str = "refused 53, which 11 would refuse too";

/// Refused 15 where table 6 counts.
const ENTRY_SHORT: &str = "refused 15: table 6 full, table 5 one entry short";
const ENTRY_LONG: &str = "refused 15: table 6 full, table 5 one entry long";
const BIG_ENDIAN: &str = "refused 15: table 5 as long as big-endian counts would have it";
const LOW_BYTES: &str = "refused 15: table 5 as long as the low bytes of the counts would have it";
const LATE_NOT_FINITE: &str = "refused 15: an entry past the 255th not finite";
const LATE_OUT_OF_RANGE: &str = "refused 15: an entry past the 255th out of its range";

/// Refused 15 where table 5 ends early: the first node whose schedule is not whole in it.
const ENDS_BY_BYTES: ByPlace = [
    "refused 15: counted by bytes, the first schedule not whole",
    "refused 15: counted by bytes, the last schedule not whole",
    "refused 15: counted by bytes, a schedule between not whole",
];
const ENDS_BY_TABLE_6: ByPlace = [
    "refused 15: counted by table 6, the first schedule not whole",
    "refused 15: counted by table 6, the last schedule not whole",
    "refused 15: counted by table 6, a schedule between not whole",
];

/// Every way that must be reached.
pub fn all() -> Vec<&'static str> {
    let lengths = [ONE_BYTE, BYTE_SHORT, BYTE_LONG, NODE_SHORT, NODE_LONG, BYTE_WIDE];
    let entries =
        [ENTRY_SHORT, ENTRY_LONG, BIG_ENDIAN, LOW_BYTES, LATE_NOT_FINITE, LATE_OUT_OF_RANGE];
    let mut all: Vec<_> = COUNTS.iter().map(|&(_, way)| way).collect();
    all.extend(SIX_SHORT);
    all.extend(SEVEN_SHORT);
    all.extend(FIRST.concat().into_iter().chain(BYTE_0).filter(|way| !way.is_empty()));
    all.extend([GAP, OVERLAP, EARLY, LATE, WRAPPED].concat());
    all.extend([KIND_4, KIND_255].concat());
    all.push(KIND_AND_LENGTH);
    all.extend(lengths);
    all.extend([COUNT_0, BYTE_NOT_0].concat());
    all.extend([TEN_AND_FIFTY, FIFTY_AND_ELEVEN]);
    all.extend([TEN_AND_FIFTY_THREE, FIFTY_AND_FIFTY_THREE, FIFTY_THREE_AND_ELEVEN]);
    all.extend(to_53::all());
    all.extend(entries);
    all.extend([ENDS_BY_BYTES, ENDS_BY_TABLE_6].concat());
    all
}

/// Counts the way of a job that was refused so.
pub fn count(tally: &mut Tally, job: &[u8], number: u64) {
    let way = match number {
        2 => to_2(job),
        3 => to_3(job),
        10 => to_10(tally, job),
        50 => to_50(job),
        53 => return to_53::count(tally, job),
        15 => to_15(tally, job),
        _ => None,
    };
    if let Some(way) = way {
        tally.count(way, 1);
    }
}

fn to_2(job: &[u8]) -> Option<&'static str> {
    let count = pair_count(job);
    let past_fewest = job.len() - pair_at(FEWEST_PAIRS);
    match count {
        6 => return Some(SIX_SHORT[past_fewest]),
        7 => return Some(SEVEN_SHORT[past_fewest]),
        _ => {}
    }
    COUNTS.iter().find(|&&(counted, _)| counted == count).map(|&(_, way)| way)
}

fn to_3(job: &[u8]) -> Option<&'static str> {
    let count = pair_count(job);
    let (by_pairs, pairs) = (count - FEWEST_PAIRS, (0..count).map(|number| pair(job, number)));
    let (mut end, mut wrapped) = (pair_at(count) as u64, pair_at(count) as u32);
    let mut first = None;
    for (number, (offset, length)) in pairs.clone().enumerate() {
        if offset != end && first.is_none() {
            let other = (0..FIRST.len())
                .find(|other| number == 0 && offset == pair_at(FEWEST_PAIRS + other) as u64);
            let apart = if offset > end { GAP } else { OVERLAP };
            first = Some(other.map_or(apart[by_pairs], |other| FIRST[by_pairs][other]));
        }
        end = offset + length;
    }
    let sums_right = pairs.clone().all(|(offset, length)| {
        let right = offset == u64::from(wrapped);
        wrapped = wrapped.wrapping_add(length as u32);
        right
    });
    let at_file = if end < job.len() as u64 { EARLY } else { LATE };
    if sums_right && wrapped as usize == job.len() {
        Some(WRAPPED[by_pairs])
    } else {
        first.or(Some(at_file[by_pairs]))
    }
}

/// Kind and byte of each node's record.
fn kinds_and_bytes(node_table: &[u8]) -> Vec<(u8, u8)> {
    node_table.chunks_exact(26).map(|record| (record[0], record[1])).collect()
}

fn to_10(tally: &mut Tally, job: &[u8]) -> Option<&'static str> {
    let (node_table, count_table) = (tables(job)[1], tables(job)[5]);
    let nodes = kinds_and_bytes(node_table);
    let form = Form::of(job).place();
    let kind = nodes.iter().map(|&(kind, _)| kind).find(|&kind| kind > 3);
    if kind.is_some() && !count_table.is_empty() && count_table.len() != 2 * nodes.len() {
        tally.count(KIND_AND_LENGTH, 1);
    }
    match kind {
        Some(4) => Some(KIND_4[form]),
        Some(255) => Some(KIND_255[form]),
        Some(_) => None,
        None => Some(BYTE_0[form]).filter(|way| !way.is_empty()),
    }
}

/// The way of the place among three.
fn at_place(ways: ByPlace, place: usize, nodes: usize) -> &'static str {
    match place {
        0 => ways[0],
        _ if place + 1 == nodes => ways[1],
        _ => ways[2],
    }
}

fn to_50(job: &[u8]) -> Option<&'static str> {
    let (node_table, count_table) = (tables(job)[1], tables(job)[5]);
    let nodes = kinds_and_bytes(node_table);
    let (length, whole) = (count_table.len(), 2 * nodes.len());
    if length == whole {
        let zero = count_table.chunks_exact(2).position(|count| u16_at(count, 0) == 0);
        if let Some(place) = zero {
            return Some(at_place(COUNT_0, place, nodes.len()));
        }
        let place = nodes.iter().position(|&(_, byte)| byte != 0)?;
        return Some(at_place(BYTE_NOT_0, place, nodes.len()));
    }
    let lengths = [
        (1, ONE_BYTE),
        (whole - 1, BYTE_SHORT),
        (whole + 1, BYTE_LONG),
        (whole - 2, NODE_SHORT),
        (whole + 2, NODE_LONG),
        (nodes.len(), BYTE_WIDE),
    ];
    lengths.iter().find(|&&(other, _)| other == length).map(|&(_, way)| way)
}

fn to_15(tally: &mut Tally, job: &[u8]) -> Option<&'static str> {
    let [_, node_table, _, _, schedules, count_table, _] = tables(job);
    let nodes = kinds_and_bytes(node_table);
    if count_table.is_empty() {
        let counts: Vec<u16> = nodes.iter().map(|&(_, byte)| byte.into()).collect();
        count_early_end(tally, ENDS_BY_BYTES, &counts, schedules.len());
        return None;
    }
    let counts: Vec<u16> = count_table.chunks_exact(2).map(|count| u16_at(count, 0)).collect();
    count_early_end(tally, ENDS_BY_TABLE_6, &counts, schedules.len());
    let bytes_by = |read: fn(u16) -> u16| -> usize {
        counts.iter().map(|&count| 8 * usize::from(read(count))).sum()
    };
    let (length, right) = (schedules.len(), bytes_by(|count| count));
    if length == right {
        return late_entry(&nodes, &counts, &all_f64(schedules));
    }
    let lengths = [
        (right - 8, ENTRY_SHORT),
        (right + 8, ENTRY_LONG),
        (bytes_by(u16::swap_bytes), BIG_ENDIAN),
        (bytes_by(|count| count % 256), LOW_BYTES),
    ];
    lengths.iter().find(|&&(other, _)| other == length).map(|&(_, way)| way)
}

/// Counts the first schedule that is not whole in a table 5 of so many bytes, where one is not.
fn count_early_end(tally: &mut Tally, ways: ByPlace, counts: &[u16], length: usize) {
    let mut end = 0;
    let node = counts.iter().position(|&count| {
        end += 8 * usize::from(count);
        end > length
    });
    if let Some(node) = node {
        tally.count(at_place(ways, node, counts.len()), 1);
    }
}

/// What is wrong with the first entry that is not admitted, where it is past the 255th of its schedule.
fn late_entry(nodes: &[(u8, u8)], counts: &[u16], entries: &[f64]) -> Option<&'static str> {
    let mut rest = entries;
    for (&(kind, _), &count) in nodes.iter().zip(counts) {
        let (schedule, after) = rest.split_at(count.into());
        let admitted = |v: f64| v.is_finite() && (kind < 2 || (0.0..=1.0).contains(&v));
        if let Some(place) = schedule.iter().position(|&v| !admitted(v)) {
            let way = if schedule[place].is_finite() { LATE_OUT_OF_RANGE } else { LATE_NOT_FINITE };
            return (place >= 255).then_some(way);
        }
        rest = after;
    }
    None
}
