//! Calls refused as 51: layouts that are no chains, and levels and discharges that are not finite.

use super::Call;
use crate::tally::Tally;
use reference::job::{Job, Kind};
use reference::valve_setting::{not_chain, NotChain};

/// By the form, in the order of `Form::ALL`.
const FORMS: [&str; 5] = [
    "refused 51: no chain, five pairs",
    "refused 51: no chain, six pairs, table 6 empty",
    "refused 51: no chain, six pairs, table 6 full",
    "refused 51: no chain, seven pairs, table 6 empty",
    "refused 51: no chain, seven pairs, table 6 full",
];

const MORE_PIPES: &str = "refused 51: as many nodes as pipes";
const MORE_NODES: &str = "refused 51: two nodes more than pipes";
/// By the first pipe that is astray: the first, the last, or between.
type ByPlace = [&'static str; 3];
const PIPE: ByPlace = [
    "refused 51: pipe 0 astray",
    "refused 51: the last pipe alone astray",
    "refused 51: a pipe between the first to be astray",
];

/// By the kind that stands there: junction, reservoir, valve, pump.
type ByKind = [&'static str; 4];
const FIRST: ByKind = [
    "refused 51: the first node a junction",
    "",
    "refused 51: the first node a valve",
    "refused 51: the first node a pump",
];
const LAST: ByKind = [
    "refused 51: the last node a junction",
    "refused 51: the last node a reservoir",
    "",
    "refused 51: the last node a pump",
];
const BETWEEN: ByKind = [
    "",
    "refused 51: a reservoir between",
    "refused 51: a valve between",
    "refused 51: a pump between",
];

/// The one draw-off that is not zero: the first entry of several, the last, or between.
const ENTRY: ByPlace = [
    "refused 51: the first draw-off of several not zero",
    "refused 51: the last draw-off of several not zero",
    "refused 51: a draw-off between not zero",
];
/// Its junction: the first of several, the last, or between.
const JUNCTION: ByPlace = [
    "refused 51: a draw-off of the first of several junctions not zero",
    "refused 51: a draw-off of the last of several junctions not zero",
    "refused 51: a draw-off of a junction between not zero",
];
const ONLY_ENTRY: &str = "refused 51: the only draw-off of a junction not zero";
const LATE_ENTRY: &str = "refused 51: a draw-off past the 255th not zero";
/// By its bits: of the least size there is, of either sign.
const LEAST_ENTRY: [(&str, u64); 2] = [
    ("refused 51: a draw-off of the least size there is, above zero", 1),
    ("refused 51: a draw-off of the least size there is, below zero", 1 | 1 << 63),
];

/// Of a chain, by what is not finite: NaN, plus infinity, minus infinity.
const LEVEL: [&str; 3] = [
    "refused 51: a chain, the level a NaN",
    "refused 51: a chain, the level plus infinity",
    "refused 51: a chain, the level minus infinity",
];
const DISCHARGE: [&str; 3] = [
    "refused 51: a chain, the discharge a NaN",
    "refused 51: a chain, the discharge plus infinity",
    "refused 51: a chain, the discharge minus infinity",
];
const BOTH: &str = "refused 51: a chain, level and discharge not finite";
const LAYOUT_AND_NOT_FINITE: &str = "refused 51: no chain, and level or discharge not finite";

const CHAIN_AND_52: &str = "refused 51 for the level or the discharge, which 52 would refuse too";
const LAYOUT_AND_52: &str = "refused 51 for the layout, which 52 would refuse too";
const LEVEL_AND_NONE: &str = "refused 51 for the level, with a discharge not above zero";
const LAYOUT_AND_NONE: &str = "refused 51 for the layout, with a discharge not above zero";

pub fn all() -> Vec<&'static str> {
    let together =
        [BOTH, LAYOUT_AND_NOT_FINITE, CHAIN_AND_52, LAYOUT_AND_52, LEVEL_AND_NONE, LAYOUT_AND_NONE];
    let mut all = [PIPE, ENTRY, JUNCTION, LEVEL, DISCHARGE].concat();
    all.extend(FORMS);
    all.extend([MORE_PIPES, MORE_NODES]);
    all.extend([FIRST, LAST, BETWEEN].concat().into_iter().filter(|case| !case.is_empty()));
    all.extend([ONLY_ENTRY, LATE_ENTRY]);
    all.extend(LEAST_ENTRY.map(|(case, _)| case));
    all.extend(together);
    all
}

pub fn count(tally: &mut Tally, job: &Job, form: usize, call: &Call<'_>, too_short: bool) {
    let lack = not_chain(job);
    let finite = call.level.is_finite() && call.discharge.is_finite();
    if too_short {
        tally.count(if lack.is_none() { CHAIN_AND_52 } else { LAYOUT_AND_52 }, 1);
    }
    if call.discharge <= 0.0 && call.discharge.is_finite() {
        tally.count(if lack.is_none() { LEVEL_AND_NONE } else { LAYOUT_AND_NONE }, 1);
    }
    match lack {
        None => count_not_finite(tally, call),
        Some(_) if !finite => tally.count(LAYOUT_AND_NOT_FINITE, 1),
        Some(lack) => {
            tally.count(FORMS[form], 1);
            count_lack(tally, job, lack);
        }
    }
}

fn count_not_finite(tally: &mut Tally, call: &Call<'_>) {
    let sort = |x: f64| match x {
        _ if x.is_nan() => 0,
        _ if x > 0.0 => 1,
        _ => 2,
    };
    let case = match (call.level.is_finite(), call.discharge.is_finite()) {
        (false, true) => LEVEL[sort(call.level)],
        (true, false) => DISCHARGE[sort(call.discharge)],
        _ => BOTH,
    };
    tally.count(case, 1);
}

fn count_lack(tally: &mut Tally, job: &Job, lack: NotChain) {
    let last = job.nodes.len() - 1;
    let case = match lack {
        NotChain::NodeCount if job.nodes.len() == job.pipes.len() => MORE_PIPES,
        NotChain::NodeCount if job.nodes.len() == job.pipes.len() + 2 => MORE_NODES,
        NotChain::NodeCount => return,
        NotChain::Pipe(pipe) => at_place(PIPE, pipe, job.pipes.len()),
        NotChain::FirstNode => FIRST[kind_at(job, 0)],
        NotChain::LastNode => LAST[kind_at(job, last)],
        NotChain::Between(node) => BETWEEN[kind_at(job, node)],
        NotChain::DrawOff { node, entry } => return count_draw_off(tally, job, node, entry - 1),
    };
    tally.count(case, 1);
}

fn kind_at(job: &Job, node: usize) -> usize {
    match job.nodes[node].kind {
        Kind::Junction => 0,
        Kind::Reservoir => 1,
        Kind::Valve { .. } => 2,
        Kind::Pump { .. } => 3,
    }
}

/// The way of the place among three.
fn at_place(ways: ByPlace, place: usize, places: usize) -> &'static str {
    match place {
        0 => ways[0],
        _ if place + 1 == places => ways[1],
        _ => ways[2],
    }
}

fn count_draw_off(tally: &mut Tally, job: &Job, node: usize, entry: usize) {
    let (schedule, junctions) = (&job.nodes[node].schedule, job.nodes.len() - 2);
    let several = schedule.len() > 1;
    let way = if several { at_place(ENTRY, entry, schedule.len()) } else { ONLY_ENTRY };
    tally.count(way, 1);
    if junctions > 1 {
        tally.count(at_place(JUNCTION, node - 1, junctions), 1);
    }
    tally.count(LATE_ENTRY, u64::from(entry >= 255));
    for (case, bits) in LEAST_ENTRY {
        tally.count(case, u64::from(schedule[entry].to_bits() == bits));
    }
}
