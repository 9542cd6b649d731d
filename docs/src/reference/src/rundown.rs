//! The rundown of source document 002 (6.7, equations 60 to 66), α = 1/(Kb·t + 1), beside the rule of request 7
//! with t1 = 0 and G·t0 = Kb·dt, which is its explicit step; and the printed heads of the document's example 9.2.4.

use crate::draft::{Draft, DraftNode};
use crate::rows::RowStore;
use crate::run::{run_on, start};
use crate::samples::PipeFigures;
use std::f64::consts::PI;

/// The example's data: 2,600 m of main to a reservoir at 67 m, 11 m lost on the way at 0.033 m³/s.
const LENGTH: f64 = 2600.0;
const DIAMETER: f64 = 0.2042;
const WAVE_SPEED: f64 = 347.36;
const FRICTION_FACTOR: f64 = 0.016;
const GRAVITY: f64 = 9.81;
const LEVEL: f64 = 67.0;
const LOSS: f64 = 11.0;
const FLOW: f64 = 0.033;
const SHUT_OFF: f64 = 80.0;
/// S and R as the example stores them, for three parts of the main.
const STORED_S: f64 = 0.00092;
const STORED_R: f64 = 2.987;

/// Example 9.2.4's heads at x/L = 0, 1/3 and 2/3, in hundredths of a metre, a row every 2.497 s.
const PRINTED: [[i64; 3]; 14] = [
    [4216, 7434, 7067],
    [4190, 4019, 7067],
    [3824, 4002, 3831],
    [3815, 3638, 3815],
    [3453, 3630, 6421],
    [3446, 6143, 6428],
    [8634, 6150, 6422],
    [8653, 8808, 6422],
    [8981, 8820, 8976],
    [8986, 9147, 8987],
    [9312, 9151, 6923],
    [9316, 7147, 6918],
    [5110, 7141, 6924],
    [5096, 4957, 6923],
];

/// Kb by equation 66, in 1/s: γ = 1,000 kgf/m³, efficiency 0.69, I = 0.422 kg·m², 3,500 revolutions a minute.
pub fn kb() -> f64 {
    let turning = PI * 3500.0;
    900.0 * GRAVITY * 1000.0 * FLOW * (LEVEL + LOSS) / (0.69 * 0.422 * turning * turning)
}

/// α after so many seconds, by equation 65.
pub fn closed_form(seconds: f64) -> f64 {
    1.0 / (kb() * seconds + 1.0)
}

fn step_time(reaches: u16) -> f64 {
    LENGTH / WAVE_SPEED / f64::from(reaches)
}

/// The main in so many reaches, run for a time, its power off from the first step on. The pump's curve has no
/// linear term, so it is another than the example's: it has the same head at no flow and at the first flow.
pub fn draft(reaches: u16, seconds: f64) -> Draft {
    let pipe = PipeFigures {
        gravity: GRAVITY,
        wave_speed: WAVE_SPEED,
        diameter: DIAMETER,
        friction_factor: FRICTION_FACTOR,
        step_time: step_time(reaches),
    };
    let steps = (seconds / pipe.step_time).round() as u32;
    main(reaches, pipe.s(), pipe.r(), steps, kb() * pipe.step_time)
}

fn main(reaches: u16, s: f64, r: f64, steps: u32, g: f64) -> Draft {
    let first = LEVEL + LOSS;
    let mut draft = Draft { steps, ..Draft::default() };
    let pump = DraftNode::pump(SHUT_OFF, (SHUT_OFF - first) / (FLOW * FLOW), 0.0, &[1.0]);
    let pump = draft.node(pump);
    let reservoir = draft.node(DraftNode::reservoir(&[LEVEL]));
    draft.pipe(pump, reservoir, reaches, s, r);
    for place in 0..=reaches {
        let left = f64::from(reaches - place) / f64::from(reaches);
        draft.section(LEVEL + LOSS * left, FLOW, -1000.0);
    }
    draft.trip(pump, 1, [g, 1.0, 0.0]);
    draft
}

/// The greatest departure of a run's speed from the closed form, and the time that has it.
#[derive(Clone, Copy, Debug)]
pub struct Departure {
    pub reaches: u16,
    pub step_time: f64,
    pub steps: u32,
    pub greatest: f64,
    pub seconds: f64,
}

/// Reaches of the runs compared: the step is cut to a half and to a quarter.
pub const REACHES: [u16; 3] = [72, 144, 288];
pub const SECONDS: f64 = 30.0;

/// How far each run's speed departs from the closed form, by the steps that all of them have.
pub fn departures() -> [Departure; 3] {
    REACHES.map(|reaches| {
        let (draft, step_time) = (draft(reaches, SECONDS), step_time(reaches));
        let every = u64::from(reaches / REACHES[0]);
        let mut found =
            Departure { reaches, step_time, steps: draft.steps, greatest: 0.0, seconds: 0.0 };
        for (speed, call) in speeds(&draft, every).into_iter().zip(1_u64..) {
            let seconds = (call * every) as f64 * step_time;
            let by = (speed - closed_form(seconds)).abs();
            if by > found.greatest {
                (found.greatest, found.seconds) = (by, seconds);
            }
        }
        found
    })
}

/// The pump's speed after each call of so many steps.
fn speeds(draft: &Draft, every: u64) -> Vec<f64> {
    let job = draft.bytes();
    let mut store = RowStore::zeros(draft.needed());
    start(&job, store.lend()).expect("the job is accepted");
    let calls = u64::from(draft.steps) / every;
    let call = |call: u64| {
        let ran = run_on(&job, call * every, every, store.lend()).expect("the job runs on");
        assert_eq!(ran.stop, None, "no head comes near the floors");
        store.speeds()[0]
    };
    (0..calls).map(call).collect()
}

/// A head of example 9.2.4 beside the one worked out here, with the example's S and R.
#[derive(Clone, Copy, Debug)]
pub struct Compared {
    pub step: u64,
    pub section: usize,
    /// In hundredths of a metre.
    pub printed: i64,
    pub head: f64,
}

impl Compared {
    /// How many hundredths the printed head lies above ours, rounded to hundredths.
    pub fn difference(&self) -> i64 {
        self.printed - (self.head * 100.0).round() as i64
    }
}

/// Every printed head beside ours, row by row. A step is 2.497 s: the first takes the speed to +0, where equation 65
/// has 0.383, and at either the non-return valve is shut from then on.
pub fn compare() -> Vec<Compared> {
    let draft = main(3, STORED_S, STORED_R, 14, kb() * 2.497);
    let job = draft.bytes();
    let mut store = RowStore::zeros(draft.needed());
    start(&job, store.lend()).expect("the job is accepted");
    let mut compared = Vec::new();
    for (row, done) in PRINTED.iter().zip(0..) {
        run_on(&job, done, 1, store.lend()).expect("the job runs on");
        for (section, &printed) in row.iter().enumerate() {
            let head = store.heads()[section];
            compared.push(Compared { step: done + 1, section, printed, head });
        }
    }
    compared
}

#[cfg(test)]
mod tests {
    use super::*;

    /// The example prints 0.646, and α after 2.497, 4.994 and 7.491 s.
    #[test]
    fn kb_and_the_closed_form_are_the_documents() {
        assert_eq!(format!("{:.3}", kb()), "0.646");
        for (seconds, printed) in [(2.497, "0.383"), (4.994, "0.237"), (7.491, "0.171")] {
            assert_eq!(format!("{:.3}", closed_form(seconds)), printed);
        }
    }

    /// As samples/rundown.md has it: of the first order, so that half the step has about half the departure.
    #[test]
    fn the_departure_is_of_the_first_order() {
        let [whole, half, quarter] = departures();
        assert_eq!([whole, half, quarter].map(|found| found.steps), [289, 577, 1154]);
        for (coarse, fine) in [(whole, half), (half, quarter)] {
            let ratio = coarse.greatest / fine.greatest;
            assert!((1.95..2.1).contains(&ratio), "{ratio}");
        }
        assert!((0.0..0.02).contains(&whole.greatest), "{whole:?}");
        // A step along the tangent lies below the curve.
        let (draft, step_time) = (draft(REACHES[0], SECONDS), step_time(REACHES[0]));
        for (speed, step) in speeds(&draft, 1).into_iter().zip(1..) {
            assert!(speed > 0.0 && speed < closed_form(f64::from(step) * step_time));
        }
    }

    /// The step and the section of every head that the wave of the first step's head at the pump reaches, up and down
    /// the main.
    const PATH: [(u64, usize); 12] = [
        (1, 0),
        (2, 1),
        (3, 2),
        (5, 2),
        (6, 1),
        (7, 0),
        (8, 1),
        (9, 2),
        (11, 2),
        (12, 1),
        (13, 0),
        (14, 1),
    ];

    #[test]
    fn heads_agree_as_reported() {
        let compared = compare();
        let count = |most: i64| compared.iter().filter(|at| at.difference().abs() <= most).count();
        assert_eq!((compared.len(), count(0), count(1), count(16)), (42, 24, 30, 42));
        let far = compared.iter().filter(|at| at.difference().abs() > 1);
        assert_eq!(far.map(|at| (at.step, at.section)).collect::<Vec<_>>(), PATH);
    }
}
