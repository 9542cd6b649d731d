//! The root, over whole numbers only.

use crate::refusal::{ask, Refused};

/// The f64 nearest the exact root, ties to the even last bit, +0 for either zero.
/// Refuses, as 23, an argument that is not finite or is below zero.
pub fn root(x: f64) -> Result<f64, Refused> {
    ask(23, x.is_finite() && x >= 0.0)?;
    if x == 0.0 {
        return Ok(0.0);
    }
    let (significand, exponent) = full_width(x);
    // x is wide · 2^(2·half) with 2^104 <= wide < 2^106, so its whole root has 53 digits.
    let odd = exponent.rem_euclid(2);
    let wide = u128::from(significand) << (52 + odd);
    let half = (exponent - 52 - odd) / 2;
    Ok(from_parts(nearest_root(wide), half))
}

/// x as significand · 2^exponent with 2^52 <= significand < 2^53; a subnormal is brought to full
/// width by its leading zeros.
fn full_width(x: f64) -> (u64, i32) {
    let bits = x.to_bits();
    let field = (bits >> 52) as i32;
    let fraction = bits & ((1 << 52) - 1);
    if field > 0 {
        return (fraction | 1 << 52, field - 1075);
    }
    let shift = fraction.leading_zeros() - 11;
    (fraction << shift, -1074 - shift as i32)
}

/// The whole number nearest the exact root of `wide`.
fn nearest_root(wide: u128) -> u64 {
    let below = wide.isqrt();
    let twice_the_middle = 2 * below + 1;
    // Never equal, one side being even and the other odd: no tie arises.
    let up = 4 * wide > twice_the_middle * twice_the_middle;
    below as u64 + u64::from(up)
}

/// significand · 2^exponent for 2^52 <= significand <= 2^53: the leading digit is added to the
/// exponent's field, and so is the carry of 2^53. A root's exponent lies within -589 to 459, so the
/// result is never subnormal.
fn from_parts(significand: u64, exponent: i32) -> f64 {
    let field = (exponent + 1074) as u64;
    f64::from_bits((field << 52) + significand)
}

#[cfg(test)]
mod tests {
    use super::*;
    use crate::generate::Random;

    fn bits(x: f64) -> u64 {
        root(x).unwrap().to_bits()
    }

    #[test]
    fn p10() {
        assert_eq!(root(144.0), Ok(12.0));
        assert_eq!(root(f64::from_bits(1)), Ok(2.0_f64.powi(-537)));
        assert_eq!(bits(2.0), 0x3ff6_a09e_667f_3bcd);
    }

    #[test]
    fn either_zero_gives_plus_zero() {
        assert_eq!(bits(0.0), 0);
        assert_eq!(bits(-0.0), 0);
    }

    #[test]
    fn refuses_what_has_no_root() {
        for x in [-1.0, -f64::from_bits(1), f64::INFINITY, f64::NEG_INFINITY, f64::NAN] {
            assert_eq!(root(x), Err(Refused(23)));
        }
    }

    #[test]
    fn squares_of_short_numbers_come_back() {
        // 2^-1072, a subnormal, and its root.
        let (square, side) = (f64::from_bits(4), 2.0_f64.powi(-536));
        for t in 1..5_000_u32 {
            let t = f64::from(t);
            assert_eq!(root(t * t), Ok(t));
            assert_eq!(root(t * t * square), Ok(t * side));
        }
    }

    /// The machine's root is IEEE 754's, the nearest.
    fn is_the_machines(x: f64) {
        assert_eq!(bits(x), x.sqrt().to_bits(), "{x:e}");
    }

    #[test]
    fn is_the_machines_root() {
        let mut random = Random::new(7);
        for _ in 0..200_000 {
            let x = f64::from_bits(random.bits() >> 1);
            if x.is_finite() {
                is_the_machines(x);
            }
            // Subnormal, of every width; none is zero.
            is_the_machines(f64::from_bits(1 | random.bits() >> random.from_to(12, 63)));
            let side =
                f64::from_bits(0x3ff0_0000_0000_0000 | random.bits() >> random.from_to(12, 40));
            let square = (side * side).to_bits();
            for near in [square - 1, square, square + 1] {
                is_the_machines(f64::from_bits(near));
            }
        }
    }

    #[test]
    fn about_the_powers_of_two() {
        for field in 1..2047_u64 {
            for near in [1, 2, 3] {
                is_the_machines(f64::from_bits((field << 52) - near));
                is_the_machines(f64::from_bits((field << 52) - 1 + near));
            }
        }
    }

    /// The exact root lies just below the middle, by less than a part in 2^106 of it: rounded up, the
    /// first would be the next f64 above 1, the others would carry into the exponent.
    #[test]
    fn just_below_the_middle() {
        assert_eq!(bits(1.0_f64.next_up()), 0x3ff0_0000_0000_0000);
        assert_eq!(bits(4.0_f64.next_down()), 0x3fff_ffff_ffff_ffff);
        assert_eq!(bits(f64::MAX), 0x5fef_ffff_ffff_ffff);
    }

    #[test]
    fn a_carry_goes_into_the_exponent() {
        assert_eq!(from_parts(1 << 53, -52), 2.0);
        assert_eq!(from_parts((1 << 53) - 1, -52), 2.0_f64.next_down());
        assert_eq!(from_parts(1 << 52, -52), 1.0);
    }
}
