//! The wave equations, each f64 operation rounded once, in the written order.

/// What a section holds.
#[derive(Clone, Copy, Debug, PartialEq)]
pub struct Point {
    pub head: f64,
    pub flow: f64,
}

/// |Q|: -Q where Q < 0, else Q; so |-0| is -0.
pub fn magnitude(q: f64) -> f64 {
    if q < 0.0 {
        -q
    } else {
        q
    }
}

/// CP, from the section above by a reach of friction `r`.
pub fn from_above(s: f64, r: f64, above: Point) -> f64 {
    let Point { head: h, flow: q } = above;
    (q + s * h) - (r * q) * magnitude(q)
}

/// CM, from the section below by a reach of friction `r`.
pub fn from_below(s: f64, r: f64, below: Point) -> f64 {
    let Point { head: h, flow: q } = below;
    (q - s * h) - (r * q) * magnitude(q)
}

/// An inner section from its two lines.
pub fn inner(s: f64, cp: f64, cm: f64) -> Point {
    Point { head: (cp - cm) / (s + s), flow: (cp + cm) / 2.0 }
}

/// K at a finish end.
pub fn finish_k(cp: f64) -> f64 {
    cp
}

/// K at a start end.
pub fn start_k(cm: f64) -> f64 {
    -cm
}

/// The flow at a finish end.
pub fn finish_flow(s: f64, k: f64, h: f64) -> f64 {
    k - s * h
}

/// The flow at a start end.
pub fn start_flow(s: f64, k: f64, h: f64) -> f64 {
    s * h - k
}

/// A node's B and T: the sums of K and of S over its pipe ends, added to +0.
#[derive(Clone, Copy, Debug, PartialEq)]
pub struct Sums {
    pub b: f64,
    pub t: f64,
}

impl Sums {
    pub const ZERO: Sums = Sums { b: 0.0, t: 0.0 };

    /// The sums with one pipe end more.
    pub fn and(self, k: f64, s: f64) -> Sums {
        Sums { b: self.b + k, t: self.t + s }
    }
}

#[cfg(test)]
mod tests {
    use super::*;

    #[test]
    fn p4_and_p5() {
        assert_eq!(from_above(1.0, 0.25, Point { head: 10.0, flow: 4.0 }), 10.0);
        assert_eq!(from_above(1.0, 0.25, Point { head: 10.0, flow: -4.0 }), 10.0);
    }

    #[test]
    fn magnitude_keeps_the_sign_of_zero() {
        assert_eq!(magnitude(-0.0).to_bits(), (-0.0_f64).to_bits());
        assert_eq!(magnitude(-3.0), 3.0);
    }

    #[test]
    fn sums_start_from_plus_zero() {
        assert_eq!(Sums::ZERO.and(-0.0, 1.0).b.to_bits(), 0);
    }

    #[test]
    fn the_lines_of_a_reach_meet_in_its_friction() {
        let point = Point { head: 7.0, flow: -2.0 };
        assert_eq!(from_above(0.5, 0.25, point), (-2.0 + 3.5) + 1.0);
        assert_eq!(from_below(0.5, 0.25, point), (-2.0 - 3.5) + 1.0);
        assert_eq!(inner(0.5, 2.5, -4.5), Point { head: 7.0, flow: -1.0 });
    }
}
