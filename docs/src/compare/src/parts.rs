//! What is compared, each part with a seed of its own.

use crate::{cases, outlets, set_cases, trips, ways};

mod calls;
mod edits;
mod forms;
mod jobs;
mod lines;
mod lists;
mod roots;
mod settings;

pub use calls::calls;
pub use edits::edits;
pub use forms::forms;
pub use jobs::{accepted_jobs, damaged_jobs};
pub use lines::{lines, listings};
pub use lists::lists;
pub use roots::roots;
pub use settings::settings;

/// What must be counted for the comparison to pass, and how often at least.
pub fn to_be_reached() -> Vec<(&'static str, u64)> {
    let mut cases = cases::all();
    cases.extend(outlets::all());
    cases.push(lists::SPARE_TOO_SHORT);
    cases.extend([forms::LONGEST_FULL, forms::LONGEST_EMPTY, forms::LONGEST_SEVEN]);
    let mut counts: Vec<_> = cases.into_iter().map(|case| (case, 1)).collect();
    counts.extend(ways::all().into_iter().map(|way| (way, 5)));
    counts.extend(trips::all().into_iter().map(|case| (case, 10)));
    counts.extend([forms::IN_ALL_FORMS, forms::IN_BOTH_OF_SEVEN]);
    counts.extend(edits::all());
    counts.extend(roots::all());
    counts.extend(set_cases::all());
    counts.extend(settings::all());
    counts
}
