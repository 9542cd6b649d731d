//! A main whose valve is set for its discharge: what the tool `set-valve` makes, as `tests/programs.rs` has it do.

use super::PipeFigures;
use crate::draft::{Draft, DraftNode};
use crate::valve_setting::with_valve_set;

/// Metres and m³/s.
const LEVEL: f64 = 60.0;
const DISCHARGE: f64 = 0.04;
const OUTLET: f64 = 44.0;

/// Reaches of 100 m and diameter of each pipe.
const PIPES: [(u16, f64); 3] = [(12, 0.3), (8, 0.25), (6, 0.2)];

/// 2,600 m of main in three diameters, from a reservoir at 60 m to a village's valve, which discharges 40 l/s into open
/// air at 44 m and stays fully open. The main falls evenly from 52 m to 42 m, and water vaporises 10 m below it.
pub fn set_main() -> Draft {
    let mut draft = Draft { steps: 1000, ..Draft::default() };
    draft.node(DraftNode::reservoir(&[LEVEL]));
    draft.node(DraftNode::junction(&[0.0]));
    draft.node(DraftNode::junction(&[0.0]));
    draft.node(DraftNode::valve(0.0, OUTLET, &[1.0]));
    let all: u16 = PIPES.iter().map(|&(reaches, _)| reaches).sum();
    let mut along = 0;
    for (number, (reaches, diameter)) in PIPES.into_iter().enumerate() {
        let pipe = PipeFigures {
            gravity: 9.81,
            wave_speed: 1000.0,
            diameter,
            friction_factor: 0.02,
            step_time: 0.1,
        };
        draft.pipe(number as u8, number as u8 + 1, reaches, pipe.s(), pipe.r());
        for place in along..=along + reaches {
            let elevation = 52.0 - 10.0 * f64::from(place) / f64::from(all);
            draft.section(LEVEL, 0.0, elevation - 10.0);
        }
        along += reaches;
    }
    let set = with_valve_set(&draft, LEVEL, DISCHARGE).expect("the main is a chain");
    set.expect("a coefficient is given")
}

#[cfg(test)]
mod tests {
    use super::*;
    use crate::rest::departure;

    /// Darcy's losses, f·(l/D)·v²/2g: 1.306 m, 2.166 m and 4.958 m. The valve then has 7.571 m above its outlet, and
    /// 0.04 by the root of that is 0.014538.
    #[test]
    fn the_heads_are_those_of_darcy() {
        let draft = set_main();
        for (section, head) in [(0, 60.0), (12, 58.694), (21, 56.528), (28, 51.571)] {
            assert!((draft.sections[section][0] - head).abs() < 1e-3, "section {section}");
        }
        assert!((draft.nodes[3].figures[0] - 0.014538).abs() < 1e-6);
        assert!(draft.sections.iter().all(|section| section[1] == DISCHARGE));
    }

    /// As the README has it.
    #[test]
    fn the_run_stays_near_rest() {
        let found = departure(&set_main().bytes()).unwrap();
        assert_eq!((found.ran.done, found.ran.stop), (1000, None));
        assert!(found.head.by < 1.5e-13 && found.flow.by < 1.4e-16, "{found:?}");
    }
}
