//! The proved calculator, called through its C interface, against the reference implementation.
//!
//! - [`ours`]: the C interface; [`both`]: a call of both, compared in every bit; [`setting`]: the same of a call to set
//!   a valve.
//! - [`parts`]: what is compared; [`tally`]: how many of each, and which numbers were reached.
//! - Which cases were reached: [`cases`], of the lent slices and of long schedules; [`ways`], of the
//!   refusals; [`outlets`], of the valves and pumps; [`trips`], of pumps whose power fails;
//!   [`set_cases`], of calls to set a valve;
//!   [`cut_down`]: the root as it was, to count where it differs.
//! - [`distance`]: how far each section and each node is from a node, for demand 3.

pub mod both;
pub mod cases;
pub mod cut_down;
pub mod distance;
pub mod ours;
pub mod outlets;
pub mod parts;
pub mod set_cases;
pub mod setting;
pub mod tally;
pub mod trips;
pub mod ways;
