//! The root cut down, as it was before request 2 of document 02: to count where the nearest is another.

use reference::root::root;
use std::cmp::Ordering;

/// The greatest f64 whose exact square is at most x; `None` where no root is taken.
pub fn cut_down(x: f64) -> Option<f64> {
    let nearest = root(x).ok()?;
    Some(if square_to(nearest, x).is_gt() { nearest.next_down() } else { nearest })
}

/// How the exact square of an f64 next to the root of x compares with x.
pub fn square_to(root: f64, x: f64) -> Ordering {
    if x == 0.0 {
        return Ordering::Equal;
    }
    let (root, root_power) = parts(root);
    let (whole, power) = parts(x);
    let square = u128::from(root) * u128::from(root);
    square.cmp(&(u128::from(whole) << (power - 2 * root_power)))
}

/// x as a whole number times a power of two.
fn parts(x: f64) -> (u64, i32) {
    let (field, fraction) = ((x.to_bits() >> 52) as i32, x.to_bits() & ((1 << 52) - 1));
    if field > 0 {
        (fraction | 1 << 52, field - 1075)
    } else {
        (fraction, -1074)
    }
}
