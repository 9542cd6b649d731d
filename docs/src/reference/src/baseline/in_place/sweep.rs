//! One pipe for one step, in place.

use crate::baseline::ends::EndK;
use crate::baseline::plan::PipePlan;
use crate::baseline::two::Two;
use crate::rows::Rows;
use crate::wave::{from_above, from_below, inner, Point};
use std::cell::Cell;
use std::hint::black_box;

/// Sections above which a pipe is long.
const LONG: usize = 64;

/// A pipe's part of the state and of the envelopes.
pub struct Part<'a> {
    pub heads: &'a mut [f64],
    pub flows: &'a mut [f64],
    pub highest: &'a mut [f64],
    pub lowest: &'a mut [f64],
}

impl<'a> Part<'a> {
    #[inline(always)]
    pub fn of(rows: &'a mut Rows<'_>, pipe: &PipePlan) -> Part<'a> {
        Part {
            heads: &mut rows.heads[pipe.sections()],
            flows: &mut rows.flows[pipe.sections()],
            highest: &mut rows.highest[pipe.sections()],
            lowest: &mut rows.lowest[pipe.sections()],
        }
    }

    /// Heads and flows of two sections.
    #[inline(always)]
    pub fn two(&self, a: usize, b: usize) -> (Two, Two) {
        (Two([self.heads[a], self.heads[b]]), Two([self.flows[a], self.flows[b]]))
    }

    /// A new section, with its envelopes.
    #[inline(always)]
    fn put(&mut self, at: usize, head: f64, flow: f64) {
        self.heads[at] = head;
        self.flows[at] = flow;
        self.highest[at] = if head > self.highest[at] { head } else { self.highest[at] };
        self.lowest[at] = if head < self.lowest[at] { head } else { self.lowest[at] };
    }

    /// Two new sections, with their envelopes.
    #[inline(always)]
    fn put_two(&mut self, at: usize, head: Two, flow: Two) {
        let both = at..at + 2;
        self.heads[both.clone()].copy_from_slice(&head.0);
        self.flows[both.clone()].copy_from_slice(&flow.0);
        let highest = Two([self.highest[at], self.highest[at + 1]]);
        self.highest[both.clone()].copy_from_slice(&head.or_greater(highest).0);
        let lowest = Two([self.lowest[at], self.lowest[at + 1]]);
        self.lowest[both].copy_from_slice(&head.or_less(lowest).0);
    }
}

/// R of two reaches.
#[inline(always)]
pub fn two_r(friction: &[[u8; 8]], a: usize, b: usize) -> Two {
    Two::of_bytes([friction[a], friction[b]])
}

/// CP of the sections below two sections.
#[inline(always)]
pub fn two_cp(s: Two, r: Two, (h, q): (Two, Two)) -> Two {
    (q + s * h) - (r * q) * q.magnitude()
}

/// CM of the sections above two sections.
#[inline(always)]
pub fn two_cm(s: Two, r: Two, (h, q): (Two, Two)) -> Two {
    (q - s * h) - (r * q) * q.magnitude()
}

/// Two new inner sections: heads and flows.
#[inline(always)]
fn two_inner(s: Two, cp: Two, cm: Two) -> (Two, Two) {
    // Half a number and a number divided by 2 round alike.
    ((cp - cm) / (s + s), (cp + cm) * Two::both(0.5))
}

/// The new state of an inner section, by itself.
pub fn new_inner(s: f64, friction: &[[u8; 8]], heads: &[f64], flows: &[f64], at: usize) -> Point {
    let old = |at: usize| Point { head: heads[at], flow: flows[at] };
    let r = |at: usize| f64::from_le_bytes(friction[at]);
    inner(s, from_above(s, r(at - 1), old(at - 1)), from_below(s, r(at), old(at + 1)))
}

/// K at both ends of the pipe, from heads and flows of the sections next to them.
#[inline(always)]
pub fn end_k(s: f64, friction: &[[u8; 8]], (h, q): (Two, Two)) -> EndK {
    let sh = Two::both(s) * h;
    let lost = (two_r(friction, 0, friction.len() - 1) * q) * q.magnitude();
    EndK { start: -((q.0[0] - sh.0[0]) - lost.0[0]), finish: (q.0[1] + sh.0[1]) - lost.0[1] }
}

/// The new state in the place of the old one, with its envelopes; `ends` has the new head and flow
/// at the start and at the finish. Answers K for the next step. Not inlined, so that one index
/// serves all rows.
#[inline(never)]
pub fn in_place(s: f64, friction: &[[u8; 8]], mut part: Part<'_>, ends: [f64; 4]) -> EndK {
    let last = part.heads.len() - 1;
    if last > 1 {
        inner_sections(s, friction, &mut part);
    }
    part.put(0, ends[0], ends[1]);
    part.put(last, ends[2], ends[3]);
    end_k(s, friction, part.two(1, last - 1))
}

/// The sections in pairs. In a long pipe the first waits, so that the pairs mostly lie on 16 bytes.
#[inline(always)]
fn inner_sections(s: f64, friction: &[[u8; 8]], part: &mut Part<'_>) {
    let first = if part.heads.len() > LONG { 2 } else { 1 };
    let waits = (first == 2).then(|| new_inner(s, friction, part.heads, part.flows, 1));
    sections_from(first, Two::both(s), friction, part);
    if let Some(Point { head, flow }) = waits {
        part.put(1, head, flow);
    }
}

/// The inner sections from `first` on; the last pair, or the last section, has no CP to hand on.
#[inline(always)]
fn sections_from(first: usize, s: Two, friction: &[[u8; 8]], part: &mut Part<'_>) {
    let last = part.heads.len() - 1;
    let count = (last - 1 - first) / 2;
    let cp = pairs_in_place(first, count, s, friction, part);
    let at = first + 2 * count;
    let next = (at + 1).min(last - 1);
    let cm = two_cm(s, two_r(friction, at, next), part.two(at + 1, next + 1));
    let (head, flow) = two_inner(s, cp, cm);
    if next > at {
        part.put_two(at, head, flow);
    } else {
        part.put(at, head.0[0], flow.0[0]);
    }
}

/// `count` pairs of a row from section `first` on, to be read and written by turns.
#[inline(always)]
fn pairs(row: &[Cell<f64>], first: usize, count: usize) -> &[[Cell<f64>; 2]] {
    &row[first..first + 2 * count].as_chunks().0[..count]
}

#[inline(always)]
fn pairs_mut(row: &mut [f64], first: usize, count: usize) -> &mut [[f64; 2]] {
    &mut row[first..first + 2 * count].as_chunks_mut().0[..count]
}

#[inline(always)]
fn get(pair: &[Cell<f64>; 2]) -> Two {
    Two([pair[0].get(), pair[1].get()])
}

#[inline(always)]
fn set(pair: &[Cell<f64>; 2], new: Two) {
    pair[0].set(new.0[0]);
    pair[1].set(new.0[1]);
}

/// `count` pairs of sections from `first` on. CP of sections i and i + 1 comes from i - 1 and i and is
/// carried, since these are overwritten by then; CM comes from i + 1 and i + 2, which are not. Answers
/// CP of the two sections after the pairs.
#[inline(always)]
fn pairs_in_place(
    first: usize,
    count: usize,
    s: Two,
    friction: &[[u8; 8]],
    part: &mut Part<'_>,
) -> Two {
    let mut cp = two_cp(s, two_r(friction, first - 1, first), part.two(first - 1, first));
    let (s_twice, half) = (s + s, Two::both(0.5));
    let heads = Cell::from_mut(&mut *part.heads).as_slice_of_cells();
    let flows = Cell::from_mut(&mut *part.flows).as_slice_of_cells();
    let (old_heads, new_heads) = (pairs(heads, first + 1, count), pairs(heads, first, count));
    let (old_flows, new_flows) = (pairs(flows, first + 1, count), pairs(flows, first, count));
    let (highest, lowest) =
        (pairs_mut(part.highest, first, count), pairs_mut(part.lowest, first, count));
    let above = &friction[first..].as_chunks::<2>().0[..count];
    let below = &friction[first + 1..].as_chunks::<2>().0[..count];
    // A stride that the compiler does not know: it would take two pairs at once and shuffle them.
    let (mut at, one) = (0, black_box(1));
    while at < count {
        let (h, q) = (get(&old_heads[at]), get(&old_flows[at]));
        let (sh, size) = (s * h, q.magnitude());
        let cm = (q - sh) - (Two::of_bytes(above[at]) * q) * size;
        let (head, flow) = ((cp - cm) / s_twice, (cp + cm) * half);
        cp = (q + sh) - (Two::of_bytes(below[at]) * q) * size;
        set(&new_heads[at], head);
        set(&new_flows[at], flow);
        highest[at] = head.or_greater(Two(highest[at])).0;
        lowest[at] = head.or_less(Two(lowest[at])).0;
        at += one;
    }
    cp
}
