//! Questions 13, 14 and 22, two numbers at a time and without a branch. A number that is not finite
//! makes a sum not finite; a sum past every f64 is a false alarm, which costs the caller time and
//! nothing else.

use super::plan::Plan;
use super::two::Two;
use crate::fields::f64_at;
use crate::rows::Rows;

/// True where tables 3 and 4 and the lent state pass; false where they do not, or may not.
#[inline(always)]
pub fn sound(plan: &Plan<'_>, rows: &Rows<'_>) -> bool {
    friction_sound(plan.all_friction())
        && sections_sound(plan.all_initial(), rows)
        && pairs_sound(plan.nodes().len(), rows)
}

/// Question 13.
#[inline(always)]
fn friction_sound(friction: &[[u8; 8]]) -> bool {
    let (fours, rest) = friction.as_chunks::<4>();
    let (mut sum, mut least) = (Two::both(0.0), Two::both(0.0));
    for &[a, b, c, d] in fours {
        let (r, other) = (Two::of_bytes([a, b]), Two::of_bytes([c, d]));
        sum = sum + (r + other);
        least = r.or_less(other).or_less(least);
    }
    let rest = rest.iter().all(|&r| (0.0..=f64::MAX).contains(&f64::from_le_bytes(r)));
    rest & finite(sum) & not_below_zero(least)
}

/// Questions 14 and 22.
#[inline(always)]
fn sections_sound(initial: &[[u8; 24]], rows: &Rows<'_>) -> bool {
    let lent = [&*rows.heads, &*rows.flows, &*rows.highest, &*rows.lowest];
    let lent = lent.map(|row| &row[..initial.len()]);
    let count = initial.len() / 2;
    let records = &initial.as_chunks::<2>().0[..count];
    let [heads, flows, highest, lowest] = lent.map(|row| &row.as_chunks::<2>().0[..count]);
    let mut seen = Seen { sum: Two::both(0.0), least_above: Two::both(0.0) };
    for at in 0..count {
        seen.take(&records[at], [heads[at], flows[at], highest[at], lowest[at]].map(Two));
    }
    // An odd section is looked at together with the one above it.
    seen.take(last_two(initial), lent.map(|row| Two(*last_two(row))));
    finite(seen.sum) & not_below_zero(seen.least_above)
}

/// Question 22 of speeds and inflows.
#[inline(always)]
fn pairs_sound(nodes: usize, rows: &Rows<'_>) -> bool {
    let pairs = rows.speeds[..nodes].iter().zip(&rows.inflows[..nodes]);
    pairs.fold(0.0, |sum, (speed, inflow)| sum + (speed + inflow)).is_finite()
}

/// There are at least two sections.
#[inline(always)]
fn last_two<T>(entries: &[T]) -> &[T; 2] {
    entries.last_chunk().expect("two sections")
}

/// What the sections have shown so far.
struct Seen {
    /// The sum of every number.
    sum: Two,
    /// The least height of a head above its floor; the difference of two numbers has the right
    /// sign however it is rounded.
    least_above: Two,
}

impl Seen {
    /// Two sections: their records, and heads, flows and envelopes lent.
    #[inline(always)]
    fn take(&mut self, records: &[[u8; 24]; 2], [head, flow, highest, lowest]: [Two; 4]) {
        let field = |at: usize| Two([f64_at(&records[0], at), f64_at(&records[1], at)]);
        let (first_head, first_flow, floor) = (field(0), field(8), field(16));
        // Floors may all be as low as can be; a thousandth of their sum is not past every f64.
        let job = (first_head + first_flow) + floor * Two::both(1e-3);
        self.sum = self.sum + (job + ((head + flow) + (highest + lowest)));
        let above = (head - floor).or_less(first_head - floor);
        self.least_above = above.or_less(self.least_above);
    }
}

#[inline(always)]
fn not_below_zero(least: Two) -> bool {
    (least.0[0] >= 0.0) & (least.0[1] >= 0.0)
}

#[inline(always)]
fn finite(sum: Two) -> bool {
    sum.0[0].is_finite() & sum.0[1].is_finite()
}
