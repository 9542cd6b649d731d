//! Calls that were answered with none, by the causes that held.

use crate::tally::Tally;
use reference::generate::CAUSES_TOGETHER;
use reference::job::Job;
use reference::valve_setting::{outlet, Cause, Worked};

/// In the order of `CAUSES_TOGETHER`: every set of causes that can hold.
const TOGETHER: [&str; 22] = [
    "none: Q not above zero alone",
    "none: a head below its floor alone",
    "none: H not above b alone",
    "none: H - b not finite alone",
    "none: the coefficient not finite alone",
    "none: floor, H not above b",
    "none: floor, H - b not finite",
    "none: floor, the coefficient not finite",
    "none: H not above b, H - b not finite",
    "none: floor, H not above b, H - b not finite",
    "none: a head minus infinity, and so floor, H not above b, H - b not finite",
    "none: Q, floor",
    "none: Q, H not above b",
    "none: Q, H - b not finite",
    "none: Q, the coefficient not finite",
    "none: Q, floor, H not above b",
    "none: Q, floor, H - b not finite",
    "none: Q, floor, the coefficient not finite",
    "none: Q, H not above b, H - b not finite",
    "none: Q, floor, H not above b, H - b not finite",
    "none: Q, a head plus infinity, and so H - b not finite",
    "none: Q, floor, a head plus infinity, and so H - b not finite",
];

/// Q not above zero alone.
const Q_ZERO: &str = "none: Q = +0 alone";
const Q_MINUS_ZERO: &str = "none: Q = -0 alone";
const Q_BELOW: &str = "none: Q below zero alone";

/// One head below its floor, and nothing else.
const FLOOR_FIRST: &str = "none: the head at section 0 alone below its floor";
const FLOOR_LAST: &str = "none: the head at the last section alone below its floor";
const FLOOR_NEXT_PIPE: &str = "none: the head where a later pipe begins alone below its floor";
const FLOOR_PIPE_END: &str = "none: the head where a pipe but the last ends alone below its floor";
const FLOOR_INNER: &str = "none: the head at an inner section alone below its floor";
const FLOOR_NEXT: &str = "none: one head alone next below its floor";

const OUTLET_EQUAL: &str = "none: H equal to b alone";
const OUTLET_BELOW: &str = "none: H below b alone";

pub fn all() -> Vec<&'static str> {
    let floors =
        [FLOOR_FIRST, FLOOR_LAST, FLOOR_NEXT_PIPE, FLOOR_PIPE_END, FLOOR_INNER, FLOOR_NEXT];
    let others = [Q_ZERO, Q_MINUS_ZERO, Q_BELOW, OUTLET_EQUAL, OUTLET_BELOW];
    [&TOGETHER[..], &floors, &others].concat()
}

pub fn count(tally: &mut Tally, job: &Job, discharge: f64, worked: &Worked) {
    let set = CAUSES_TOGETHER.iter().position(|causes| *causes == worked.causes);
    tally.count(TOGETHER[set.expect("no other causes hold together")], 1);
    let last = worked.heads[worked.heads.len() - 1];
    match worked.causes[..] {
        [Cause::DischargeNotAboveZero] => {
            let zeros = if discharge.is_sign_positive() { Q_ZERO } else { Q_MINUS_ZERO };
            tally.count(if discharge < 0.0 { Q_BELOW } else { zeros }, 1);
        }
        [Cause::HeadBelowFloor] => count_floor(tally, job, &worked.heads),
        [Cause::NotAboveOutlet] => {
            tally.count(if last < outlet(job) { OUTLET_BELOW } else { OUTLET_EQUAL }, 1);
        }
        _ => {}
    }
}

/// Where the one head is that is below its floor.
fn count_floor(tally: &mut Tally, job: &Job, heads: &[f64]) {
    let below = |&section: &usize| heads[section] < job.initial[section].floor;
    let mut sections = (0..heads.len()).filter(below);
    let (Some(section), None) = (sections.next(), sections.next()) else {
        return;
    };
    let at_place = match section {
        0 => FLOOR_FIRST,
        _ if section + 1 == heads.len() => FLOOR_LAST,
        _ if job.pipes.iter().any(|pipe| pipe.first_section == section) => FLOOR_NEXT_PIPE,
        _ if job.pipes.iter().any(|pipe| pipe.last_section() == section) => FLOOR_PIPE_END,
        _ => FLOOR_INNER,
    };
    tally.count(at_place, 1);
    if heads[section].next_up() == job.initial[section].floor {
        tally.count(FLOOR_NEXT, 1);
    }
}
