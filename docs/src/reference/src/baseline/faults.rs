//! Faults of a step, looked for without a branch.

use super::two::Two;

/// What a step's new heads and flows show of faults, gathered without a branch.
pub struct Faults {
    /// The sum of all heads and flows: not finite where one of them is not.
    sum: Two,
    /// How many heads are below their floors.
    below: [u64; 2],
}

impl Faults {
    pub fn none() -> Faults {
        Faults { sum: Two::both(0.0), below: [0, 0] }
    }

    #[inline(always)]
    pub fn look_at(&mut self, head: Two, flow: Two, floor: Two) {
        self.sum = self.sum + (head + flow);
        self.below[0] += u64::from(head.0[0] < floor.0[0]);
        self.below[1] += u64::from(head.0[1] < floor.0[1]);
    }

    /// A number whose finiteness is asked about, or a sum of such.
    #[inline(always)]
    pub fn look_at_sum(&mut self, sum: f64) {
        self.sum = self.sum + Two::both(sum);
    }

    /// No faulty section is missed; a sum past every f64 is a false alarm.
    pub fn any(&self) -> bool {
        !(self.sum.0[0] + self.sum.0[1]).is_finite() | (self.below[0] + self.below[1] > 0)
    }
}
