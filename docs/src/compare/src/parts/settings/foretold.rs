//! Chains with figures of which nothing is rounded: answer, heads and coefficient are told here, not by the reference.

use super::{call, expect};
use crate::both::differ;
use crate::setting::{set_valve, LentToSet, NONE};
use crate::tally::Tally;
use reference::generate::{chain, Random, ToSet};

/// A chain whose valve is set, and the same with one thing changed for which there is none.
pub fn foretold(tally: &mut Tally, random: &mut Random) {
    let (made, heads) = not_rounded(random);
    set(tally, random, &made, &heads);
    let (valve, sections) = (made.draft.nodes.len() - 1, heads.len());
    let none = random.pick(&[0.0, -0.0, -made.discharge]);
    let no_discharge = ToSet { discharge: none, ..made.clone() };
    let mut not_above_outlet = made.clone();
    let last = heads[sections - 1];
    not_above_outlet.draft.nodes[valve].figures[1] = random.pick(&[last, last.next_up()]);
    let mut below_floor = made;
    let section = random.below(sections);
    below_floor.draft.sections[section] = at_floor(heads[section].next_up());
    for made in [no_discharge, not_above_outlet, below_floor] {
        expect(&made, call(tally, random, &made), NONE);
    }
}

/// A chain with losses of a whole number of quarters in each reach, and its heads. The last is 16 above the outlet.
fn not_rounded(random: &mut Random) -> (ToSet, Vec<f64>) {
    let ToSet { mut draft, .. } = chain(random, &[]);
    let level = random.from_to(0, 400) as f64 / 4.0;
    let [s, discharge] = [0; 2].map(|_| random.pick(&[1.0, 2.0, 4.0]));
    let r = random.pick(&[0.0, 1.0, 3.0]);
    let (loss, mut reaches, mut heads) = (r * discharge * discharge / s, 0, Vec::new());
    for pipe in &mut draft.pipes {
        pipe.s = s;
        let end = reaches + pipe.reaches;
        heads.extend((reaches..=end).map(|reach| level - f64::from(reach) * loss));
        reaches = end;
    }
    draft.friction.fill(r);
    draft.sections = heads.iter().map(|head| at_floor(head - random.pick(&[0.0, 5.0]))).collect();
    let valve = draft.nodes.len() - 1;
    draft.nodes[valve].figures[1] = heads[heads.len() - 1] - 16.0;
    (ToSet { draft, level, discharge }, heads)
}

/// A section with this floor, and an initial head on it.
fn at_floor(floor: f64) -> [f64; 3] {
    [floor, 0.0, floor]
}

/// The heads, the flows, and Q by the root of 16.
fn set(tally: &mut Tally, random: &mut Random, made: &ToSet, heads: &[f64]) {
    let (job, discharge, sections) = (made.draft.bytes(), made.discharge, heads.len());
    let mut lent = LentToSet::new(random, [sections; 2]);
    expect(made, set_valve(tally, &job, made.level, discharge, &mut lent), 0);
    let [found, flows, ..] = &lent.store.rows;
    let right = found[..sections] == *heads
        && flows[..sections].iter().all(|&flow| flow == discharge)
        && lent.cells[1] == discharge / 4.0;
    if !right {
        differ("set valve", &job, "not the state or not the coefficient that was foretold");
    }
}
