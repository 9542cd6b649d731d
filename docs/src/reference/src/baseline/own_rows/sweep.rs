//! One pipe for one step: its inner sections, and K at both ends.

use super::tables::Tables;
use crate::baseline::ends::EndK;
use crate::baseline::faults::Faults;
use crate::baseline::plan::PipePlan;
use crate::baseline::two::Two;
use crate::wave::{from_below, inner, start_k, Point};

/// Heads and flows, as many as there are sections.
pub struct State<'a> {
    pub heads: &'a mut [f64],
    pub flows: &'a mut [f64],
}

impl State<'_> {
    /// Head and flow of each section.
    pub fn points(&self) -> impl Iterator<Item = Point> + '_ {
        self.heads.iter().zip(&*self.flows).map(|(&head, &flow)| Point { head, flow })
    }
}

pub struct Envelopes<'a> {
    pub highest: &'a mut [f64],
    pub lowest: &'a mut [f64],
}

impl Envelopes<'_> {
    /// Raises the maxima and lowers the minima from section `first` on.
    pub fn take(&mut self, heads: &[f64], first: usize) {
        let rows = self.highest[first..].iter_mut().zip(&mut self.lowest[first..]);
        for (&head, (highest, lowest)) in heads[first..].iter().zip(rows) {
            *highest = if head > *highest { head } else { *highest };
            *lowest = if head < *lowest { head } else { *lowest };
        }
    }
}

/// A pipe's part of each row in pairs: sections 0 and 1, 2 and 3, ... of the old state, and 1 and
/// 2, 3 and 4, ... of the new one, which has a pair less.
struct Pairs<'a> {
    heads: &'a [[f64; 2]],
    flows: &'a [[f64; 2]],
    /// R of the reaches below the old sections, and above those of every pair but the first.
    friction_below: &'a [[f64; 2]],
    friction_above: &'a [[f64; 2]],
    highest: &'a mut [[f64; 2]],
    lowest: &'a mut [[f64; 2]],
    floors: &'a [[f64; 2]],
    new_heads: &'a mut [[f64; 2]],
    new_flows: &'a mut [[f64; 2]],
}

/// `count` pairs of a row from `first` on.
#[inline(always)]
fn pairs(row: &[f64], first: usize, count: usize) -> &[[f64; 2]] {
    row[first..first + 2 * count].as_chunks().0
}

#[inline(always)]
fn pairs_mut(row: &mut [f64], first: usize, count: usize) -> &mut [[f64; 2]] {
    row[first..first + 2 * count].as_chunks_mut().0
}

/// Sweeps a pipe; `TAKE` says whether the old heads go into the envelopes.
#[inline(always)]
pub fn pipe<const TAKE: bool>(
    tables: &Tables,
    pipe: &PipePlan,
    old: &State<'_>,
    new: &mut State<'_>,
    envelopes: &mut Envelopes<'_>,
    faults: &mut Faults,
) -> EndK {
    let (first, count) = (pipe.first, pipe.reaches.div_ceil(2));
    let rows = Pairs {
        heads: pairs(old.heads, first, count),
        flows: pairs(old.flows, first, count),
        friction_below: pairs(&tables.friction, first, count),
        friction_above: pairs(&tables.friction, first + 1, count - 1),
        highest: pairs_mut(envelopes.highest, first, count),
        lowest: pairs_mut(envelopes.lowest, first, count),
        floors: pairs(&tables.floors, first + 1, count - 1),
        new_heads: pairs_mut(new.heads, first + 1, count - 1),
        new_flows: pairs_mut(new.flows, first + 1, count - 1),
    };
    let start = Point { head: old.heads[first], flow: old.flows[first] };
    let cp = sweep::<TAKE>(pipe.s, start, rows, faults);
    last_sections::<TAKE>(tables, pipe, old, new, envelopes, faults, cp)
}

/// Works out the new pairs. CP of sections i + 1 and i + 2 comes from sections i and i + 1, and CM
/// of the same two from i + 2 and i + 3, so that pairs fit together without being shifted, and what
/// a section hands to its two neighbours is worked out once. Answers CP of the two sections after
/// the first of the last old pair. Not inlined, so that one index serves all rows. The start section
/// is handed over apart: it was written alone just before, and a load of its pair would wait for it.
#[inline(never)]
fn sweep<const TAKE: bool>(s: f64, start: Point, rows: Pairs<'_>, faults: &mut Faults) -> [f64; 2] {
    let (s, s_twice, half) = (Two::both(s), Two::both(s + s), Two::both(0.5));
    let h = Two([start.head, rows.heads[0][1]]);
    let q = Two([start.flow, rows.flows[0][1]]);
    let mut cp = (q + s * h) - (Two(rows.friction_below[0]) * q) * q.magnitude();
    if TAKE {
        rows.highest[0] = h.or_greater(Two(rows.highest[0])).0;
        rows.lowest[0] = h.or_less(Two(rows.lowest[0])).0;
    }
    let count = rows.new_heads.len();
    let (heads, flows) = (&rows.heads[1..=count], &rows.flows[1..=count]);
    let (highest, lowest) = (&mut rows.highest[1..=count], &mut rows.lowest[1..=count]);
    let (above, below) = (&rows.friction_above[..count], &rows.friction_below[1..=count]);
    let (floors, new_flows) = (&rows.floors[..count], &mut rows.new_flows[..count]);
    for at in 0..count {
        let (h, q) = (Two(heads[at]), Two(flows[at]));
        let (sh, size) = (s * h, q.magnitude());
        let cm = (q - sh) - (Two(above[at]) * q) * size;
        // Half a number and a number divided by 2 round alike.
        let (head, flow) = ((cp - cm) / s_twice, (cp + cm) * half);
        cp = (q + sh) - (Two(below[at]) * q) * size;
        rows.new_heads[at] = head.0;
        new_flows[at] = flow.0;
        faults.look_at(head, flow, Two(floors[at]));
        if TAKE {
            highest[at] = h.or_greater(Two(highest[at])).0;
            lowest[at] = h.or_less(Two(lowest[at])).0;
        }
    }
    cp.0
}

/// What the pairs leave over: where the reaches are even in number, the last inner section and the
/// envelopes of the last section; and K at both ends.
#[inline(always)]
fn last_sections<const TAKE: bool>(
    tables: &Tables,
    pipe: &PipePlan,
    old: &State<'_>,
    new: &mut State<'_>,
    envelopes: &mut Envelopes<'_>,
    faults: &mut Faults,
    cp: [f64; 2],
) -> EndK {
    let (first, last) = (pipe.first, pipe.first + pipe.reaches);
    let old_at = |at: usize| Point { head: old.heads[at], flow: old.flows[at] };
    let start = start_k(from_below(pipe.s, tables.friction[first], old_at(first + 1)));
    if pipe.reaches % 2 == 1 {
        return EndK { start, finish: cp[0] };
    }
    let cm = from_below(pipe.s, tables.friction[last - 1], old_at(last));
    let point = inner(pipe.s, cp[0], cm);
    new.heads[last - 1] = point.head;
    new.flows[last - 1] = point.flow;
    let floor = tables.floors[last - 1];
    faults.look_at(Two::both(point.head), Two::both(point.flow), Two::both(floor));
    if TAKE {
        envelopes.take(&old.heads[..=last], last);
    }
    EndK { start, finish: cp[1] }
}
