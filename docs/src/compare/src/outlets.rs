//! What valves and pumps meet at the first step of a run-on. Each case must be reached by the comparison.

use crate::both::Lent;
use crate::cut_down::cut_down;
use crate::tally::Tally;
use reference::job::Kind;
use reference::node::{head, solve_by, valve_w_y};
use reference::reader::read;
use reference::run::sums;
use reference::wave::Sums;

const DISCHARGES: &str = "valves that discharge";
const ROOT_NOT_FINITE: &str = "valves with y above zero and a root's argument not finite";
const SHUT: &str = "valves with y above zero and w zero, which discharge nothing";
const BELOW: &str = "open valves with y below zero and w·w finite, which discharge nothing";
const BELOW_WIDE: &str = "valves with y below zero and w·w infinite, which discharge nothing";
const ZERO_WIDE: &str = "valves with y zero and w·w infinite, which discharge nothing";
const NOT_ABOVE_NOT_FINITE: &str = "valves with y zero or below and B or T not finite";
const ABOVE_BY_Y: &str = "open valves with y above zero where B/T is not above b";
const LEVEL_BY_Y: &str = "valves with y zero and w·w infinite where B/T is above b";
const VALVE_TO_NEAREST: &str = "valves whose head a root cut down would change";
const PUMP_TO_NEAREST: &str = "pumps whose head a root cut down would change";

/// Every case that must be reached.
pub fn all() -> [&'static str; 11] {
    [
        DISCHARGES,
        ROOT_NOT_FINITE,
        SHUT,
        BELOW,
        BELOW_WIDE,
        ZERO_WIDE,
        NOT_ABOVE_NOT_FINITE,
        ABOVE_BY_Y,
        LEVEL_BY_Y,
        VALVE_TO_NEAREST,
        PUMP_TO_NEAREST,
    ]
}

/// Counts the cases of the valves and pumps at a step that begins from the slices as they were lent.
pub fn count(tally: &mut Tally, job: &[u8], step: u64, mut lent: Lent) {
    let Ok(job) = read(job) else {
        return;
    };
    let all_sums = sums(&job, &lent.rows());
    for (number, (node, sums)) in job.nodes.iter().zip(all_sums).enumerate() {
        let (speed, inflow) = (lent.store.speeds()[number], lent.store.inflows()[number]);
        let (kind, v) = (node.kind, job.value_at(number, step, speed, inflow));
        if let Kind::Valve { a, b } = kind {
            count_valve(tally, v, a, b, sums);
        }
        if head(kind, v, sums).to_bits() != solve_by(cut_down, kind, v, sums).head.to_bits() {
            // A junction or a reservoir takes no root.
            let valve = matches!(kind, Kind::Valve { .. });
            tally.count(if valve { VALVE_TO_NEAREST } else { PUMP_TO_NEAREST }, 1);
        }
    }
}

fn count_valve(tally: &mut Tally, v: f64, a: f64, b: f64, sums: Sums) {
    let (w, y) = valve_w_y(v, a, b, sums);
    let wide = (w * w).is_infinite();
    if !(sums.b.is_finite() && sums.t.is_finite()) {
        if y <= 0.0 {
            tally.count(NOT_ABOVE_NOT_FINITE, 1);
        }
        return;
    }
    let quotient_above = sums.b / sums.t > b;
    if y > 0.0 {
        let finite = (w * w + 4.0 * (w * y)).is_finite();
        let case = if w == 0.0 {
            SHUT
        } else if finite {
            DISCHARGES
        } else {
            ROOT_NOT_FINITE
        };
        tally.count(case, 1);
        if w != 0.0 && !quotient_above {
            tally.count(ABOVE_BY_Y, 1);
        }
    } else if y == 0.0 && wide {
        tally.count(ZERO_WIDE, 1);
        if quotient_above {
            tally.count(LEVEL_BY_Y, 1);
        }
    } else if y < 0.0 && w > 0.0 {
        tally.count(if wide { BELOW_WIDE } else { BELOW }, 1);
    }
}
