//! Mains whose power fails: request 7 of document 02.

use super::PipeFigures;
use crate::draft::{Draft, DraftNode};

const STEP_TIME: f64 = 0.1;
/// Power fails after 1 s: step 11 is the first without it.
const TRIP_STEP: u32 = 11;
/// The part of the rated torque that a pump takes at full speed with no discharge.
const TORQUE: f64 = 0.4;
/// Seconds in which the rated torque alone would stop the rotating mass, a flywheel with it: G is the step
/// time by this.
const MASS: f64 = 12.0;
const LEVEL: f64 = 40.0;
const SHUT_OFF: f64 = 60.0;

const MAIN: PipeFigures = PipeFigures {
    gravity: 9.81,
    wave_speed: 1000.0,
    diameter: 0.4,
    friction_factor: 0.02,
    step_time: STEP_TIME,
};
/// From each of two pumps to the main.
const BRANCH: PipeFigures = PipeFigures { diameter: 0.3, ..MAIN };

/// G, t0 and t1, where the torque rises by `more` times the discharge.
fn constants(more: f64) -> [f64; 3] {
    [STEP_TIME / MASS, TORQUE, more]
}

/// A pump of the discharge at the head, with its non-return valve.
fn pump(discharge: f64, head: f64) -> DraftNode {
    DraftNode::pump(SHUT_OFF, (SHUT_OFF - head) / (discharge * discharge), 0.0, &[1.0])
}

/// The main's sections at first: it climbs evenly from 0 m to 30 m, and water vaporises 10 m below it.
fn add_sections(draft: &mut Draft, reaches: u16, flow: f64) {
    for place in 0..=reaches {
        let (along, left) = (f64::from(place), f64::from(reaches - place));
        let elevation = 30.0 * along / f64::from(reaches);
        draft.section(LEVEL + left * MAIN.loss(flow), flow, elevation - 10.0);
    }
}

/// One pump lifts 0.15 m³/s from a sump at 0 m through 2,000 m of main to a reservoir at 40 m.
pub fn power_failure() -> Draft {
    let (reaches, flow) = (20, 0.15);
    let mut draft = Draft { steps: 600, ..Draft::default() };
    let pump = draft.node(pump(flow, LEVEL + f64::from(reaches) * MAIN.loss(flow)));
    let reservoir = draft.node(DraftNode::reservoir(&[LEVEL]));
    draft.pipe(pump, reservoir, reaches, MAIN.s(), MAIN.r());
    add_sections(&mut draft, reaches, flow);
    // 0.4 + 4·0.15 is the whole torque.
    draft.trip(pump, TRIP_STEP, constants(4.0));
    draft
}

/// Two pumps of 0.1 m³/s each, on 100 m of pipe of their own, lift into the same main; the power of the first
/// fails, and the second goes on.
pub fn second_pump_goes_on() -> Draft {
    let (reaches, each) = (20, 0.1);
    let joined = LEVEL + f64::from(reaches) * MAIN.loss(2.0 * each);
    let head = joined + BRANCH.loss(each);
    let mut draft = Draft { steps: 600, ..Draft::default() };
    let (first, second) = (draft.node(pump(each, head)), draft.node(pump(each, head)));
    let junction = draft.node(DraftNode::junction(&[0.0]));
    let reservoir = draft.node(DraftNode::reservoir(&[LEVEL]));
    for pump in [first, second] {
        draft.pipe(pump, junction, 1, BRANCH.s(), BRANCH.r());
        draft.section(head, each, -10.0);
        draft.section(joined, each, -10.0);
    }
    draft.pipe(junction, reservoir, reaches, MAIN.s(), MAIN.r());
    add_sections(&mut draft, reaches, 2.0 * each);
    // 0.4 + 6·0.1 is the whole torque.
    draft.trip(first, TRIP_STEP, constants(6.0));
    draft
}
