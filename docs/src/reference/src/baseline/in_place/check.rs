//! A pipe's inner sections looked at before they are overwritten, in pairs and without a division.

use super::sweep::{two_cm, two_cp, two_r, Part};
use crate::baseline::two::Two;
use crate::fields::f64_at;

/// True where no inner section of the new state stops the run; false where one does or may.
///
/// With d = CP - CM and w = S + S: where the rounded floor·w is below d, the exact floor·w is not
/// above d, since rounding keeps the order and d is an f64; so d/w is not below the floor, exact or
/// rounded. Where d is below 1e300·w, too, the head is finite. The flows are finite where their sum
/// is.
#[inline(never)]
pub fn sound(s: f64, friction: &[[u8; 8]], initial: &[[u8; 24]], part: &Part<'_>) -> bool {
    let last = part.heads.len() - 1;
    if last < 2 {
        return true;
    }
    // The pairs leave one or two inner sections over.
    let count = (last - 2) / 2;
    let (limit, s, s_twice) = ((s + s) * 1e300, Two::both(s), Two::both(s + s));
    let mut cp = two_cp(s, two_r(friction, 0, 1), part.two(0, 1));
    let (heads, flows) = (part.heads.as_chunks::<2>().0, part.flows.as_chunks::<2>().0);
    let (heads, flows) = (&heads[1..=count], &flows[1..=count]);
    let above = &friction[1..].as_chunks::<2>().0[..count];
    let below = &friction[2..].as_chunks::<2>().0[..count];
    let records = &initial[1..].as_chunks::<2>().0[..count];
    let (mut sum, mut sound) = (Two::both(0.0), [0_u64; 2]);
    for at in 0..count {
        let (h, q) = (Two(heads[at]), Two(flows[at]));
        let (sh, size) = (s * h, q.magnitude());
        let cm = (q - sh) - (Two::of_bytes(above[at]) * q) * size;
        let floor = Two(records[at].each_ref().map(|record| f64_at(record, 16)));
        let (d, least) = ((cp - cm).0, (floor * s_twice).0);
        sound[0] += u64::from((least[0] < d[0]) & (d[0] < limit));
        sound[1] += u64::from((least[1] < d[1]) & (d[1] < limit));
        sum = sum + (cp + cm);
        cp = (q + sh) - (Two::of_bytes(below[at]) * q) * size;
    }
    // What is left: one section twice, or two.
    let at = 2 * count + 1;
    let next = (at + 1).min(last - 1);
    let cm = two_cm(s, two_r(friction, at, next), part.two(at + 1, next + 1));
    let cp = if next > at { cp } else { Two::both(cp.0[0]) };
    let floor = Two([f64_at(&initial[at], 16), f64_at(&initial[next], 16)]);
    let (d, least) = ((cp - cm).0, (floor * s_twice).0);
    sound[0] += u64::from((least[0] < d[0]) & (d[0] < limit));
    sound[1] += u64::from((least[1] < d[1]) & (d[1] < limit));
    sum = sum + (cp + cm);
    sound[0] + sound[1] == 2 * count as u64 + 2 && (sum.0[0] + sum.0[1]).is_finite()
}
