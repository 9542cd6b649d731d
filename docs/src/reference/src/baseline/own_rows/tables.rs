//! The numbers of reaches and sections in rows of their own.

use crate::baseline::plan::{PipePlan, Plan};
use crate::fields::f64_at;
use crate::reader::MOST_SECTIONS;

pub struct Tables {
    /// R of the reach below each section; 0 at a pipe's last section, which has none.
    pub friction: [f64; MOST_SECTIONS],
    pub floors: [f64; MOST_SECTIONS],
}

impl Tables {
    pub fn empty() -> Tables {
        Tables { friction: [0.0; MOST_SECTIONS], floors: [0.0; MOST_SECTIONS] }
    }

    /// Fills empty tables, which are too large to be handed about.
    pub fn copy(&mut self, plan: &Plan<'_>) {
        for pipe in plan.pipes() {
            self.copy_friction(pipe, plan.friction(pipe));
        }
        for (floor, record) in self.floors.iter_mut().zip(plan.all_initial()) {
            *floor = f64_at(record, 16);
        }
    }

    #[inline(always)]
    fn copy_friction(&mut self, pipe: &PipePlan, table: &[[u8; 8]]) {
        for (r, bytes) in self.friction[pipe.sections()].iter_mut().zip(table) {
            *r = f64::from_le_bytes(*bytes);
        }
    }
}
