//! Valves that were set.

use crate::cut_down::cut_down;
use crate::tally::Tally;
use reference::job::Job;
use reference::valve_setting::{outlet, Worked};

/// By the form, in the order of `Form::ALL`.
const FORMS: [&str; 5] = [
    "valves set: five pairs",
    "valves set: six pairs, table 6 empty",
    "valves set: six pairs, table 6 full",
    "valves set: seven pairs, table 6 empty",
    "valves set: seven pairs, table 6 full",
];
const ONE_PIPE: &str = "valves set at the end of one pipe";
const MOST_PIPES: &str = "valves set at the end of 31 pipes";
const MOST_SECTIONS: &str = "valves set of 512 sections";
const OTHER_S: &str = "valves set where the pipes differ in S";
const OTHER_LEVEL: &str = "valves set for a level that is not the reservoir's scheduled one";

const ZERO: &str = "coefficients of +0";
const SUBNORMAL: &str = "coefficients that are subnormal";
const GREAT: &str = "coefficients of 1e300 or more";
const CUT_DOWN: &str = "coefficients that a root cut down would change";
const NEXT_ABOVE: &str = "valves set with the last head next above the outlet";
const MINUS_ZERO_HEAD: &str = "valves set with a head of -0";
const MINUS_ZERO_DRAW: &str = "valves set with a draw-off of -0";
const LONG_SCHEDULE: &str = "valves set with more than 255 draw-offs of a junction";

/// A head on its floor: at section 0, at the last section, or between.
const ON_FLOOR: [&str; 3] = [
    "valves set with a head on its floor: section 0",
    "valves set with a head on its floor: the last section",
    "valves set with a head on its floor: between",
];

/// The loss of a reach otherwise than by ((R·Q)·|Q|)/S, of R, Q and S.
type Loss = fn(f64, f64, f64) -> f64;
const OTHER_LOSSES: [(&str, Loss); 3] = [
    ("valves set whose heads R·(Q·|Q|) would change", |r, q, s| (r * (q * q)) / s),
    ("valves set whose heads (R·Q)·(|Q|/S) would change", |r, q, s| (r * q) * (q / s)),
    ("valves set whose heads (R/S)·(Q·|Q|) would change", |r, q, s| (r / s) * (q * q)),
];

pub fn all() -> Vec<&'static str> {
    let layout = [ONE_PIPE, MOST_PIPES, MOST_SECTIONS, OTHER_S, OTHER_LEVEL];
    let numbers = [ZERO, SUBNORMAL, GREAT, CUT_DOWN, NEXT_ABOVE];
    let zeros = [MINUS_ZERO_HEAD, MINUS_ZERO_DRAW, LONG_SCHEDULE];
    let losses = OTHER_LOSSES.map(|(case, _)| case);
    [&FORMS[..], &layout, &numbers, &zeros, &ON_FLOOR, &losses].concat()
}

pub fn count(tally: &mut Tally, job: &Job, form: usize, asked: (f64, f64), worked: &Worked) {
    let (level, discharge) = asked;
    let a = worked.coefficient.expect("a coefficient was given");
    let (sections, pipes) = (job.sections(), &job.pipes);
    let (last, outlet) = (worked.heads[sections - 1], outlet(job));
    let draws = || job.nodes[1..pipes.len()].iter().map(|node| &node.schedule);
    let cut = cut_down(last - outlet).expect("the root was taken");
    tally.count(FORMS[form], 1);
    for (case, holds) in [
        (ONE_PIPE, pipes.len() == 1),
        (MOST_PIPES, pipes.len() == 31),
        (MOST_SECTIONS, sections == 512),
        (OTHER_S, pipes.iter().any(|pipe| pipe.s != pipes[0].s)),
        (OTHER_LEVEL, job.nodes[0].schedule.iter().all(|&scheduled| scheduled != level)),
        (ZERO, a.to_bits() == 0),
        (SUBNORMAL, a.is_subnormal()),
        (GREAT, a >= 1e300),
        (CUT_DOWN, (discharge / cut).to_bits() != a.to_bits()),
        (NEXT_ABOVE, last.next_down() == outlet),
        (MINUS_ZERO_HEAD, worked.heads.iter().any(|head| head.to_bits() == 1 << 63)),
        (MINUS_ZERO_DRAW, draws().flatten().any(|draw| draw.to_bits() == 1 << 63)),
        (LONG_SCHEDULE, draws().any(|schedule| schedule.len() > 255)),
    ] {
        tally.count(case, u64::from(holds));
    }
    count_on_floor(tally, job, &worked.heads);
    for (case, loss) in OTHER_LOSSES {
        tally.count(case, u64::from(heads_by(loss, job, level, discharge) != worked.heads));
    }
}

fn count_on_floor(tally: &mut Tally, job: &Job, heads: &[f64]) {
    let on_floor = |section: usize| heads[section] == job.initial[section].floor;
    let last = heads.len() - 1;
    let between = (1..last).any(on_floor);
    for (case, holds) in ON_FLOOR.into_iter().zip([on_floor(0), on_floor(last), between]) {
        tally.count(case, u64::from(holds));
    }
}

/// The heads by another loss.
fn heads_by(loss: Loss, job: &Job, level: f64, discharge: f64) -> Vec<f64> {
    let (mut heads, mut head) = (Vec::new(), level);
    for pipe in &job.pipes {
        heads.push(head);
        for &r in &job.friction[pipe.first_reach..=pipe.last_reach()] {
            head -= loss(r, discharge, pipe.s);
            heads.push(head);
        }
    }
    heads
}
