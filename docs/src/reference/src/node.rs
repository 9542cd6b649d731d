//! The head at a node of each kind, and the inflow of a pump.

use crate::job::Kind;
use crate::root::root;
use crate::wave::Sums;

/// The root where an equation takes it; `None` where its argument is not finite. The arguments of
/// both equations are never below zero.
fn root_taken(x: f64) -> Option<f64> {
    root(x).ok()
}

/// What a step has at a node: H, and the pump's q, which is +0 at the other kinds.
#[derive(Clone, Copy, Debug, PartialEq)]
pub struct Solved {
    pub head: f64,
    pub inflow: f64,
}

impl Solved {
    /// Where B, T or the argument of a root that is taken is not finite. The paper names no inflow there,
    /// and none is seen, for the run stops.
    const PLUS_INFINITY: Solved = Solved { head: f64::INFINITY, inflow: 0.0 };

    #[inline(always)]
    fn without_inflow(head: f64) -> Solved {
        Solved { head, inflow: 0.0 }
    }
}

/// H of a node whose value at the step is `v`.
pub fn head(kind: Kind, v: f64, sums: Sums) -> f64 {
    solve(kind, v, sums).head
}

/// A node whose value at the step is `v`: a pump's is its speed.
pub fn solve(kind: Kind, v: f64, sums: Sums) -> Solved {
    solve_by(root_taken, kind, v, sums)
}

/// The same by a given way to take roots.
#[inline(always)]
pub fn solve_by(root: impl Fn(f64) -> Option<f64>, kind: Kind, v: f64, sums: Sums) -> Solved {
    let Sums { b: sum_k, t } = sums;
    if !(sum_k.is_finite() && t.is_finite()) {
        return Solved::PLUS_INFINITY;
    }
    match kind {
        Kind::Junction => Solved::without_inflow((sum_k - v) / t),
        Kind::Reservoir => Solved::without_inflow(v),
        Kind::Valve { a, b } => match valve_flow(root, v, a, b, sums) {
            Some(q) => Solved::without_inflow((sum_k - q) / t),
            None => Solved::PLUS_INFINITY,
        },
        Kind::Pump { a, b, c } => match pump_flow(root, v, [a, b, c], sums) {
            Some(q) => Solved { head: (sum_k + q) / t, inflow: q },
            None => Solved::PLUS_INFINITY,
        },
    }
}

/// w and y of a valve of opening `v`.
#[inline(always)]
pub fn valve_w_y(v: f64, a: f64, b: f64, sums: Sums) -> (f64, f64) {
    let Sums { b: sum_k, t } = sums;
    (((v * a) * (v * a)) / t, sum_k - t * b)
}

/// q through a valve of opening `v`, out of the node into open air: nothing comes back where y is not
/// above zero. `None` where a root cannot be taken.
#[inline(always)]
fn valve_flow(
    root: impl Fn(f64) -> Option<f64>,
    v: f64,
    a: f64,
    b: f64,
    sums: Sums,
) -> Option<f64> {
    let (w, y) = valve_w_y(v, a, b, sums);
    if y > 0.0 && w != 0.0 {
        // z = |y| is y.
        let r = root(w * w + 4.0 * (w * y))?;
        Some(((y + y) * w) / (w + r))
    } else {
        Some(0.0)
    }
}

/// q from a pump of speed `v`, into the node; `None` where a root cannot be taken.
#[inline(always)]
fn pump_flow(
    root: impl Fn(f64) -> Option<f64>,
    v: f64,
    [a, b, c]: [f64; 3],
    sums: Sums,
) -> Option<f64> {
    let Sums { b: sum_k, t } = sums;
    let h = c + (v * v) * a;
    let y = t * h - sum_k;
    if y > 0.0 {
        let r = root(1.0 + 4.0 * ((b * t) * y))?;
        Some((y + y) / (1.0 + r))
    } else {
        Some(0.0)
    }
}

#[cfg(test)]
mod tests {
    use super::*;

    const VALVE_OF_Q: Kind = Kind::Valve { a: 2.0, b: 6.0 };
    const PUMP_OF_P8: Kind = Kind::Pump { a: 10.0, b: 1.5, c: 0.0 };

    fn sums(b: f64, t: f64) -> Sums {
        Sums { b, t }
    }

    #[test]
    fn p6_and_p7() {
        assert_eq!(valve_flow(root_taken, 1.0, 2.0, 6.0, sums(14.0, 1.0)), Some(4.0));
        assert_eq!(head(VALVE_OF_Q, 1.0, sums(14.0, 1.0)), 10.0);
        // As document 02, 1/12, has it.
        assert_eq!(valve_flow(root_taken, 1.0, 2.0, 6.0, sums(3.0, 1.0)), Some(0.0));
        assert_eq!(head(VALVE_OF_Q, 1.0, sums(3.0, 1.0)), 3.0);
    }

    #[test]
    fn p8() {
        assert_eq!(pump_flow(root_taken, 1.0, [10.0, 1.5, 0.0], sums(2.0, 1.0)), Some(2.0));
        assert_eq!(head(PUMP_OF_P8, 1.0, sums(2.0, 1.0)), 4.0);
        assert_eq!(pump_flow(root_taken, 0.0, [10.0, 1.5, 0.0], sums(2.0, 1.0)), Some(0.0));
        assert_eq!(head(PUMP_OF_P8, 0.0, sums(2.0, 1.0)), 2.0);
    }

    #[test]
    fn the_inflow_is_the_pumps() {
        assert_eq!(solve(PUMP_OF_P8, 1.0, sums(2.0, 1.0)), Solved { head: 4.0, inflow: 2.0 });
        for kind in [Kind::Junction, Kind::Reservoir, VALVE_OF_Q] {
            assert_eq!(solve(kind, 1.0, sums(14.0, 1.0)).inflow.to_bits(), 0);
        }
        // A speed that is no number gives a y that is none: not above zero, so nothing comes in.
        let still = solve(PUMP_OF_P8, f64::NAN, sums(2.0, 1.0));
        assert_eq!((still.head, still.inflow.to_bits()), (2.0, 0));
    }

    #[test]
    fn p9() {
        let both = Sums::ZERO.and(14.0, 1.0).and(6.0, 1.0);
        assert_eq!(head(Kind::Junction, 4.0, both), 8.0);
    }

    #[test]
    fn sums_not_finite_give_plus_infinity_for_every_kind() {
        for kind in [Kind::Junction, Kind::Reservoir, VALVE_OF_Q, PUMP_OF_P8] {
            for bad in [f64::INFINITY, f64::NEG_INFINITY, f64::NAN] {
                assert_eq!(head(kind, 0.0, sums(bad, 1.0)), f64::INFINITY);
            }
            assert_eq!(head(kind, 0.0, sums(1.0, f64::INFINITY)), f64::INFINITY);
        }
    }

    #[test]
    fn a_root_not_taken_is_not_judged() {
        // A shut valve whose y passes every f64, and a pump whose head does, downwards.
        let shut = Kind::Valve { a: 1e200, b: -1e300 };
        assert_eq!(head(shut, 0.0, sums(2.0, 1e20)), 2e-20);
        let deep = Kind::Pump { a: 0.0, b: 1.0, c: -1e300 };
        assert_eq!(head(deep, 1.0, sums(2.0, 1e20)), 2e-20);
        // y is zero, and b·T passes every f64.
        let idle = Kind::Pump { a: 0.0, b: 1e300, c: 0.0 };
        assert_eq!(head(idle, 1.0, sums(0.0, 1e20)), 0.0);
    }

    #[test]
    fn nothing_comes_back_out_of_open_air() {
        // w·w passes every f64; y is +0, -0, below zero and minus infinity.
        let wide = |b| Kind::Valve { a: 1e200, b };
        assert_eq!(head(wide(6.0), 1.0, sums(6.0, 1.0)), 6.0);
        assert_eq!(head(wide(0.0), 1.0, sums(-0.0, 1.0)).to_bits(), (-0.0_f64).to_bits());
        assert_eq!(head(wide(6.0), 1.0, sums(3.0, 2.0)), 1.5);
        assert_eq!(head(wide(1e300), 1.0, sums(2.0, 1e20)), 2e-20);
        // q is +0: B = -0 keeps its sign.
        assert_eq!(head(VALVE_OF_Q, 1.0, sums(-0.0, 1.0)).to_bits(), (-0.0_f64).to_bits());
    }

    /// T·b is 0.24 and B the next f64, so y > 0; B/T is b all the same. T·b and B are 0.6 rounded up, so
    /// y = 0; B/T lies above b.
    #[test]
    fn y_decides_and_not_the_quotient() {
        let above = sums(f64::from_bits((0.1_f64 * 2.4).to_bits() + 1), 0.1);
        assert_eq!(above.b / above.t, 2.4);
        let q = valve_flow(root_taken, 1.0, 2.0, 2.4, above);
        assert_eq!(q, Some(2.0_f64.powi(-55)));
        let level = sums(0.1 * 6.0, 0.1);
        assert!(level.b / level.t > 6.0);
        assert_eq!(valve_flow(root_taken, 1.0, 1e200, 6.0, level), Some(0.0));
    }

    #[test]
    fn a_root_taken_of_no_finite_number_gives_plus_infinity() {
        let wide = Kind::Valve { a: 1e200, b: 0.0 };
        assert_eq!(head(wide, 1.0, sums(2.0, 1.0)), f64::INFINITY);
        // y is infinite and b·T zero, so the argument is no number.
        let high = Kind::Pump { a: 1e300, b: 0.0, c: 0.0 };
        assert_eq!(head(high, 1.0, sums(2.0, 1e20)), f64::INFINITY);
    }

    #[test]
    fn a_valve_whose_w_comes_to_zero_passes_nothing() {
        let hair = Kind::Valve { a: 1e-200, b: 6.0 };
        assert_eq!(head(hair, 1.0, sums(14.0, 1.0)), 14.0);
    }
}
