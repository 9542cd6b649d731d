//! Rundowns that a slip would change: each must be met, so that the comparison would tell the slip.

use crate::tally::Tally;
use reference::job::Trip;

/// The difference before it is held to zero, otherwise than by α - G·((t0·α)·α + (t1·α)·q), of the record, α (here v) and q.
type Other = fn(&Trip, f64, f64) -> f64;

const OTHERS: [(&str, Other); 10] = [
    ("rundowns that t0 and t1 exchanged would change", |t, v, q| {
        v - t.g * ((t.t1 * v) * v + (t.t0 * v) * q)
    }),
    ("rundowns that q·q for α·q would change", |t, v, q| {
        v - t.g * ((t.t0 * v) * v + (t.t1 * q) * q)
    }),
    ("rundowns that α for α·α would change", |t, v, q| v - t.g * (t.t0 * v + (t.t1 * v) * q)),
    ("rundowns that no inflow would change", |t, v, _| v - t.g * ((t.t0 * v) * v)),
    ("rundowns that t0·(α·α) would change", |t, v, q| {
        v - t.g * (t.t0 * (v * v) + (t.t1 * v) * q)
    }),
    ("rundowns that t1·(α·q) would change", |t, v, q| {
        v - t.g * ((t.t0 * v) * v + t.t1 * (v * q))
    }),
    ("rundowns that (t1·q)·α would change", |t, v, q| {
        v - t.g * ((t.t0 * v) * v + (t.t1 * q) * v)
    }),
    ("rundowns that G in each part would change", |t, v, q| {
        v - ((t.g * t.t0 * v) * v + (t.g * t.t1 * v) * q)
    }),
    ("rundowns that α less one part and then the other would change", |t, v, q| {
        (v - t.g * ((t.t0 * v) * v)) - t.g * ((t.t1 * v) * q)
    }),
    ("rundowns that more in place of less would change", |t, v, q| {
        v + t.g * ((t.t0 * v) * v + (t.t1 * v) * q)
    }),
];
const NOT_HELD: &str = "rundowns that a speed left below zero would change";
const HELD_TO_ONE: &str = "rundowns that a speed held to 1 would change";
const OWN_ENTRY: &str = "rundowns that α of the step's own entry would change";
const OWN_INFLOW: &str = "rundowns that the step's own inflow would change";

pub fn all() -> Vec<&'static str> {
    let others = OTHERS.iter().map(|&(case, _)| case);
    others.chain([NOT_HELD, HELD_TO_ONE, OWN_ENTRY, OWN_INFLOW]).collect()
}

/// Counts what another rundown would change in a finite speed; `entry` is the step's scheduled one, and `own` the
/// inflow that the step itself has, where it is known.
pub fn count(
    tally: &mut Tally,
    trip: &Trip,
    (speed, inflow): (f64, f64),
    entry: f64,
    own: Option<f64>,
) {
    let right = trip.rundown(speed, inflow);
    if !right.is_finite() {
        return;
    }
    let held = |x: f64| if x < 0.0 { 0.0 } else { x };
    let other = |x: f64| x.to_bits() != right.to_bits();
    for (case, work) in OTHERS {
        tally.count(case, u64::from(other(held(work(trip, speed, inflow)))));
    }
    let raw = speed - trip.g * ((trip.t0 * speed) * speed + (trip.t1 * speed) * inflow);
    for (case, holds) in [
        (NOT_HELD, other(raw)),
        (HELD_TO_ONE, other(right.min(1.0))),
        (OWN_ENTRY, other(trip.rundown(entry, inflow))),
        (OWN_INFLOW, own.is_some_and(|own| other(trip.rundown(speed, own)))),
    ] {
        tally.count(case, u64::from(holds));
    }
}
