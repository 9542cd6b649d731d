//! The sample jobs, built from the figures that an engineer would have.

use crate::draft::{Draft, DraftNode};
use crate::lauria;
use crate::layout::Form;
use crate::rundown;

mod pipe_figures;
mod power;
mod set_main;
pub mod timed;

pub use pipe_figures::PipeFigures;

/// A sample job: the name of its file, a line on what it is, and the job.
pub struct Sample {
    pub name: &'static str,
    pub about: &'static str,
    pub draft: Draft,
}

fn sample(name: &'static str, about: &'static str, draft: Draft) -> Sample {
    Sample { name, about, draft }
}

pub fn all() -> Vec<Sample> {
    [of_job_q(), of_mains(), of_power(), others()].into_iter().flatten().collect()
}

/// Job Q in each form.
fn of_job_q() -> Vec<Sample> {
    vec![
        sample(
            "job-q",
            "Document 01's job Q: a reservoir, one pipe without friction, and a valve shut in the first step.",
            job_q(),
        ),
        sample(
            "job-q-six-pairs",
            "Job Q with six pairs and an empty table 6: the bytes of the node records count the schedules.",
            job_q().in_form(Form::EmptyTable6),
        ),
        sample(
            "job-q-long-counts",
            "Job Q with six pairs: table 6 counts the schedules, and the bytes of the node records are zero.",
            job_q().in_form(Form::FullTable6),
        ),
        sample(
            "job-q-seven-pairs",
            "Job Q with seven pairs, tables 6 and 7 empty: bytes count the schedules, and no power fails.",
            job_q().in_form(Form::SevenEmptyTable6),
        ),
    ]
}

/// Mains and networks that run to their end.
fn of_mains() -> Vec<Sample> {
    vec![
        sample(
            "rising-main",
            "A rising main of 2,000 m: the pump is slowed down over 24 s and its non-return valve shuts.",
            rising_main(&down_to_zero(240)),
        ),
        sample(
            "branches-and-loop",
            "A network at rest, with a branch and a loop: two draw-offs begin, a valve opens and shuts again, a pump starts and stops.",
            branches_and_loop(),
        ),
        sample(
            "ditch-outlet",
            "A main to an outlet over a ditch: a hydrant takes the head below the outlet, which then draws nothing.",
            ditch_outlet(),
        ),
        sample(
            "set-main",
            "A village main of three diameters, its valve set for 40 l/s, which is what set-valve makes: a run from there stays near rest.",
            set_main::set_main(),
        ),
        sample(
            "slow-gate",
            "A gate at the end of a gravity main of 3,000 m, shut over 50 s in 500 openings.",
            gate(500),
        ),
        sample(
            "fast-gate",
            "The same gate shut over 10 s in 100 openings.",
            gate(100),
        ),
    ]
}

/// Mains whose power fails.
fn of_power() -> Vec<Sample> {
    vec![
        sample(
            "power-failure",
            "A rising main of 2,000 m whose power fails after 1 s: the pump runs down and its non-return valve shuts.",
            power::power_failure(),
        ),
        sample(
            "second-pump-goes-on",
            "Two pumps on a rising main: the power of the first fails after 1 s, and the second goes on.",
            power::second_pump_goes_on(),
        ),
        sample(
            "rundown",
            "The main of source document 002's example 9.2.4 in 72 reaches, its power off from the first step on (see rundown.md).",
            rundown::draft(rundown::REACHES[0], rundown::SECONDS),
        ),
    ]
}

/// Runs that are stopped, and one of a thesis.
fn others() -> Vec<Sample> {
    vec![
        sample(
            "stops-as-40",
            "A friction a thousand times too large: the flows run away and the run stops as 40 (notfinite).",
            friction_too_large(),
        ),
        sample(
            "stops-as-41",
            "The rising main with the power cut at once: the column parts and the run stops as 41 (parted).",
            rising_main(&[1.0, 0.0]),
        ),
        sample(
            "lauria",
            "Lauria's thesis, table 4: a valve shut in 2.1 s at the end of a pipe of 600 m (see lauria.md).",
            lauria::draft(),
        ),
    ]
}

/// The bytes of every job in the folder `jobs`, by the name of its file: the samples, job Q over more
/// steps, and one to be refused.
pub fn jobs() -> Vec<(String, Vec<u8>)> {
    let mut jobs: Vec<_> =
        all().into_iter().map(|sample| (sample.name.to_string(), sample.draft.bytes())).collect();
    for steps in [2, 3, 5] {
        jobs.push((format!("job-q-{steps}-steps"), Draft { steps, ..job_q() }.bytes()));
    }
    jobs.push(("eighth-pair".to_string(), eighth_pair()));
    jobs
}

/// Job Q with tables 6 and 7 and an unknown table 8 of eight bytes, all well laid out.
fn eighth_pair() -> Vec<u8> {
    let draft = job_q().in_form(Form::SevenFullTable6);
    let mut tables = draft.tables();
    tables.push(vec![0; 8]);
    Draft::bytes_of(draft.steps, &tables)
}

/// Document 01's job Q.
pub fn job_q() -> Draft {
    let mut draft = Draft { steps: 1, ..Draft::default() };
    let upper = draft.node(DraftNode::reservoir(&[10.0]));
    let lower = draft.node(DraftNode::valve(2.0, 6.0, &[0.0]));
    draft.pipe(upper, lower, 2, 1.0, 0.0);
    for _ in 0..3 {
        draft.section(10.0, 4.0, 0.0);
    }
    draft
}

/// Speeds or openings from 1 down to 0 in equal parts.
fn down_to_zero(steps: u32) -> Vec<f64> {
    (1..=steps).map(|step| f64::from(steps - step) / f64::from(steps)).collect()
}

/// A pump lifts 0.15 m³/s from a sump at 0 m through 2,000 m of pipe to a reservoir at 40 m. The
/// pipe climbs evenly to 38 m, and water vaporises 10 m below it.
fn rising_main(speeds: &[f64]) -> Draft {
    let pipe = PipeFigures {
        gravity: 9.81,
        wave_speed: 1000.0,
        diameter: 0.4,
        friction_factor: 0.02,
        step_time: 0.1,
    };
    let (reaches, flow, level, shut_off) = (20_u16, 0.15, 40.0, 60.0);
    let head = level + f64::from(reaches) * pipe.loss(flow);
    let mut draft = Draft { steps: 600, ..Draft::default() };
    let pump = DraftNode::pump(shut_off, (shut_off - head) / (flow * flow), 0.0, speeds);
    let pump = draft.node(pump);
    let reservoir = draft.node(DraftNode::reservoir(&[level]));
    draft.pipe(pump, reservoir, reaches, pipe.s(), pipe.r());
    for place in 0..=reaches {
        let along = f64::from(place);
        let elevation = 38.0 * along / f64::from(reaches);
        draft.section(head - along * pipe.loss(flow), flow, elevation - 10.0);
    }
    draft
}

/// A gravity main of 3,000 m and 0.6 m across from a reservoir at 80 m to a gate at 20 m, which
/// discharges 0.35 m³/s into open air and is shut evenly in so many steps of 0.1 s. A wave is back after
/// 6 s. The main falls evenly from 70 m, and water vaporises 10 m below it.
fn gate(openings: u32) -> Draft {
    let pipe = PipeFigures {
        gravity: 9.81,
        wave_speed: 1000.0,
        diameter: 0.6,
        friction_factor: 0.018,
        step_time: 0.1,
    };
    let (reaches, flow, level, outlet) = (30_u16, 0.35, 80.0_f64, 20.0);
    let head = level - f64::from(reaches) * pipe.loss(flow);
    let mut draft = Draft { steps: 560, ..Draft::default() };
    let reservoir = draft.node(DraftNode::reservoir(&[level]));
    let a = flow / (head - outlet).sqrt();
    let gate = draft.node(DraftNode::valve(a, outlet, &down_to_zero(openings)));
    draft.pipe(reservoir, gate, reaches, pipe.s(), pipe.r());
    for place in 0..=reaches {
        let along = f64::from(place);
        let elevation = 70.0 - 50.0 * along / f64::from(reaches);
        draft.section(level - along * pipe.loss(flow), flow, elevation - 10.0);
    }
    draft.in_form(draft.fewest_pairs())
}

/// 800 m from a reservoir at 20 m to an outlet over a ditch at 18 m, which discharges 4 l/s at first. A
/// hydrant half way takes 12 l/s from step 21 on; from step 25 on the head at the outlet is below the
/// ditch.
fn ditch_outlet() -> Draft {
    let pipe = PipeFigures {
        gravity: 9.81,
        wave_speed: 1000.0,
        diameter: 0.3,
        friction_factor: 0.02,
        step_time: 0.1,
    };
    let (reaches, flow, level, ditch) = (4_u16, 0.004, 20.0_f64, 18.0);
    let outlet_head = level - f64::from(2 * reaches) * pipe.loss(flow);
    let mut draws = vec![0.0; 20];
    draws.push(0.012);
    let mut draft = Draft { steps: 30, ..Draft::default() };
    let reservoir = draft.node(DraftNode::reservoir(&[level]));
    let hydrant = draft.node(DraftNode::junction(&draws));
    let a = flow / (outlet_head - ditch).sqrt();
    let outlet = draft.node(DraftNode::valve(a, ditch, &[1.0]));
    draft.pipe(reservoir, hydrant, reaches, pipe.s(), pipe.r());
    draft.pipe(hydrant, outlet, reaches, pipe.s(), pipe.r());
    for place in (0..=reaches).chain(reaches..=2 * reaches) {
        draft.section(level - f64::from(place) * pipe.loss(flow), flow, 5.0);
    }
    draft
}

/// Reservoir 0 feeds junction 1; pipes 1-2, 2-3 and 1-3 are a loop; a branch goes from 2 to the
/// draw-off at 4, a main from 3 to the valve 5, and pump 6 delivers into 3. At rest at 80 m.
fn branches_and_loop() -> Draft {
    let level = 80.0;
    let mut draft = Draft { steps: 400, ..Draft::default() };
    draft.node(DraftNode::reservoir(&[level]));
    draft.node(DraftNode::junction(&[0.0]));
    draft.node(DraftNode::junction(&[0.0, 0.0, 0.0, 0.0, 0.005, 0.01]));
    draft.node(DraftNode::junction(&[0.0]));
    draft.node(DraftNode::junction(&[0.0, 0.002, 0.004, 0.006]));
    draft.node(DraftNode::valve(0.004, 10.0, &opening_and_shutting(200)));
    draft.node(DraftNode::pump(95.0, 2000.0, 2.0, &opening_and_shutting(240)));
    for (start, finish, reaches, diameter) in [
        (0, 1, 12, 0.4),
        (1, 2, 7, 0.3),
        (2, 3, 9, 0.25),
        (1, 3, 11, 0.3),
        (2, 4, 6, 0.2),
        (3, 5, 10, 0.3),
        (6, 3, 5, 0.2),
    ] {
        let pipe = PipeFigures {
            gravity: 9.81,
            wave_speed: 1100.0,
            diameter,
            friction_factor: 0.019,
            step_time: 0.05,
        };
        draft.pipe(start, finish, reaches, pipe.s(), pipe.r());
    }
    for _ in 0..draft.section_count() {
        draft.section(level, 0.0, -8.0);
    }
    draft
}

/// Values from 0 up to 1 and down to 0 again, in two halves of equal parts.
fn opening_and_shutting(steps: u32) -> Vec<f64> {
    let half = steps / 2;
    let value = |step: u32| f64::from(if step <= half { step } else { 2 * half - step });
    (1..=2 * half).map(|step| value(step) / f64::from(half)).collect()
}

/// A reservoir and an open valve; R was entered with the wrong unit.
fn friction_too_large() -> Draft {
    let mut draft = Draft { steps: 100, ..Draft::default() };
    let upper = draft.node(DraftNode::reservoir(&[50.0]));
    let lower = draft.node(DraftNode::valve(0.02, 0.0, &[1.0]));
    draft.pipe(upper, lower, 8, 0.001, 100.0);
    for _ in 0..9 {
        draft.section(50.0, 0.1, -1e308);
    }
    draft
}
