//! Two f64 numbers worked on side by side: the compiler makes one instruction of each pair of
//! operations, by the instructions that every machine of its default target has. Each operation
//! rounds as it does on one number.

use std::ops::{Add, Div, Mul, Sub};

#[derive(Clone, Copy)]
pub struct Two(pub [f64; 2]);

impl Two {
    #[inline(always)]
    pub fn both(x: f64) -> Two {
        Two([x, x])
    }

    /// Two fields of a job.
    #[inline(always)]
    pub fn of_bytes(fields: [[u8; 8]; 2]) -> Two {
        Two(fields.map(f64::from_le_bytes))
    }

    #[inline(always)]
    fn each(self, other: Two, work: impl Fn(f64, f64) -> f64) -> Two {
        Two([work(self.0[0], other.0[0]), work(self.0[1], other.0[1])])
    }

    /// Each number where it is greater than the other one, else the other.
    #[inline(always)]
    pub fn or_greater(self, other: Two) -> Two {
        self.each(other, |x, y| if x > y { x } else { y })
    }

    /// Each number where it is less than the other one, else the other.
    #[inline(always)]
    pub fn or_less(self, other: Two) -> Two {
        self.each(other, |x, y| if x < y { x } else { y })
    }

    /// |Q|: -Q where Q < 0, which is where -Q is greater than Q, else Q.
    #[inline(always)]
    pub fn magnitude(self) -> Two {
        Two([-self.0[0], -self.0[1]]).or_greater(self)
    }
}

impl Add for Two {
    type Output = Two;

    #[inline(always)]
    fn add(self, other: Two) -> Two {
        self.each(other, |x, y| x + y)
    }
}

impl Sub for Two {
    type Output = Two;

    #[inline(always)]
    fn sub(self, other: Two) -> Two {
        self.each(other, |x, y| x - y)
    }
}

impl Mul for Two {
    type Output = Two;

    #[inline(always)]
    fn mul(self, other: Two) -> Two {
        self.each(other, |x, y| x * y)
    }
}

impl Div for Two {
    type Output = Two;

    #[inline(always)]
    fn div(self, other: Two) -> Two {
        self.each(other, |x, y| x / y)
    }
}
