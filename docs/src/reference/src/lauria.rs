//! The case of Lauria's thesis (source document 000, chapter 4.3), and table 4's printed heads.

use crate::draft::{Draft, DraftNode};
use crate::rows::RowStore;
use crate::run::{run_on, start};
use crate::samples::PipeFigures;

const PIPE: PipeFigures = PipeFigures {
    gravity: 9.806,
    wave_speed: 1200.0,
    diameter: 0.5,
    friction_factor: 0.018,
    step_time: 0.05,
};
const REACHES: u16 = 10;
const LEVEL: f64 = 150.0;
/// Cd·A of the open valve, in m².
const VALVE_AREA: f64 = 0.009;
const CLOSING_TIME: f64 = 2.1;
/// 5.65 s in steps of 0.05 s.
const STEPS: u32 = 113;

/// Table 4 as the scan has it.
const PRINTED: &str = include_str!("../samples/lauria-table-4.txt");

/// The job: the valve's a is CdA·√(2g), its outlet is at 0 m, and the state at first is steady.
pub fn draft() -> Draft {
    let a = VALVE_AREA * (2.0 * PIPE.gravity).sqrt();
    // Steady flow: Q² = a²·H at the valve, and H = level - reaches·R·Q²/S.
    let losses = f64::from(REACHES) * PIPE.r() / PIPE.s();
    let flow = a * (LEVEL / (1.0 + a * a * losses)).sqrt();
    let mut draft = Draft { steps: STEPS, ..Draft::default() };
    let upper = draft.node(DraftNode::reservoir(&[LEVEL]));
    let lower = draft.node(DraftNode::valve(a, 0.0, &openings()));
    draft.pipe(upper, lower, REACHES, PIPE.s(), PIPE.r());
    for place in 0..=REACHES {
        draft.section(LEVEL - f64::from(place) * PIPE.loss(flow), flow, 0.0);
    }
    draft
}

/// (1 - t/tF)^1.5 at each step up to tF: 42 entries, the last 0.
fn openings() -> Vec<f64> {
    let steps = (CLOSING_TIME / PIPE.step_time).round() as u32;
    let part = |step: u32| 1.0 - f64::from(step) / f64::from(steps);
    (1..=steps).map(|step| part(step) * part(step).sqrt()).collect()
}

/// A head of table 4 beside the one worked out here.
#[derive(Clone, Copy, Debug)]
pub struct Compared {
    pub step: u64,
    pub section: usize,
    /// In hundredths of a metre.
    pub printed: i64,
    pub head: f64,
}

impl Compared {
    /// How many hundredths the printed head lies above ours, rounded to hundredths.
    pub fn difference(&self) -> i64 {
        self.printed - (self.head * 100.0).round() as i64
    }
}

/// Every printed head of table 4 beside ours, in the table's order.
pub fn compare() -> Vec<Compared> {
    let heads = heads_by_step();
    let mut compared = Vec::new();
    for row in PRINTED.lines().filter(|line| !line.starts_with('#')) {
        let figures: Vec<i64> = row.split_whitespace().map(thousandths).collect();
        let step = (figures[0] / 50) as u64;
        for (section, figure) in figures[1..].iter().enumerate() {
            let head = heads[step as usize][section];
            compared.push(Compared { step, section, printed: figure / 10, head });
        }
    }
    compared
}

/// A decimal of the table as a whole number of thousandths.
fn thousandths(figure: &str) -> i64 {
    let number: f64 = figure.parse().expect("table 4 holds decimals");
    (number * 1000.0).round() as i64
}

/// The heads at the start and after each step.
fn heads_by_step() -> Vec<Vec<f64>> {
    let job = draft().bytes();
    let mut store = RowStore::zeros(draft().needed());
    start(&job, store.lend()).expect("the sample job is accepted");
    let mut heads = vec![store.heads().to_vec()];
    for done in 0..u64::from(STEPS) {
        run_on(&job, done, 1, store.lend()).expect("the sample job runs on");
        heads.push(store.heads().to_vec());
    }
    heads
}

#[cfg(test)]
mod tests {
    use super::*;

    /// The counts of samples/lauria.md: 4 heads differ by a hundredth, 49 are misread.
    #[test]
    fn heads_agree_as_reported() {
        let differences: Vec<i64> = compare().iter().map(|at| at.difference().abs()).collect();
        let count = |wanted: fn(i64) -> bool| differences.iter().filter(|&&d| wanted(d)).count();
        assert_eq!(differences.len(), 869);
        assert_eq!([count(|d| d == 0), count(|d| d == 1), count(|d| d > 1)], [816, 4, 49]);
    }

    #[test]
    fn the_closure_fits_a_schedule() {
        let openings = openings();
        assert_eq!((openings.len(), openings[41]), (42, 0.0));
    }
}
