//! A chain whose figures are worked out by hand, and the call to set its valve.

// Each test program uses a part of this.
#![allow(dead_code)]

use reference::draft::{Draft, DraftNode};
use reference::refusal::Refused;
use reference::valve_setting::{set_valve, Setting};

pub const LEAST: f64 = f64::from_bits(1);
pub const MARK: u64 = 0x7ff8_0000_dead_beef;
/// Entries of each row past the sections.
pub const MORE: usize = 3;

/// Two pipes of two reaches. With Q = 4, Q·|Q| is 16. Pipe 0 has S = 2 and loses 0.5·16/2 = 4, then
/// 0.25·16/2 = 2; pipe 1 has S = 4 and loses 1·16/4 = 4, then 0.5·16/4 = 2. Of the junction's values
/// one is -0; neither the reservoir's levels nor the openings matter.
pub fn two_pipes() -> Draft {
    let mut draft = Draft { steps: 1, ..Draft::default() };
    draft.node(DraftNode::reservoir(&[7.0, 9.0]));
    draft.node(DraftNode::junction(&[0.0, -0.0, 0.0]));
    draft.node(DraftNode::valve(5.0, 24.0, &[0.25, 0.5]));
    draft.pipe(0, 1, 2, 2.0, 0.0);
    draft.pipe(1, 2, 2, 4.0, 0.0);
    draft.friction = vec![0.5, 0.25, 1.0, 0.5];
    for _ in 0..6 {
        draft.section(30.0, -1.0, 20.0);
    }
    draft
}

pub const LEVEL: f64 = 40.0;
pub const DISCHARGE: f64 = 4.0;
pub const HEADS: [f64; 6] = [40.0, 36.0, 34.0, 34.0, 30.0, 28.0];

/// The answer and both rows in bits, lent so many entries out of marked ones.
pub struct Called {
    pub answer: Result<Setting, Refused>,
    pub heads: Vec<u64>,
    pub flows: Vec<u64>,
}

pub fn call_lent(draft: &Draft, level: f64, discharge: f64, lent: [usize; 2]) -> Called {
    let mut rows = [(); 2].map(|()| vec![f64::from_bits(MARK); draft.section_count() + MORE]);
    let [heads, flows] = &mut rows;
    let (heads, flows) = (&mut heads[..lent[0]], &mut flows[..lent[1]]);
    let answer = set_valve(&draft.bytes(), level, discharge, heads, flows);
    let [heads, flows] = rows.map(|row| row.into_iter().map(f64::to_bits).collect());
    Called { answer, heads, flows }
}

pub fn call(draft: &Draft, level: f64, discharge: f64) -> Called {
    call_lent(draft, level, discharge, [draft.section_count() + MORE; 2])
}

impl Called {
    /// Neither row has changed.
    pub fn kept(&self) -> bool {
        self.heads.iter().chain(&self.flows).all(|&bits| bits == MARK)
    }

    pub fn none(&self) -> bool {
        self.answer == Ok(Setting::None) && self.kept()
    }

    pub fn refused(&self, number: u8) -> bool {
        self.answer == Err(Refused(number)) && self.kept()
    }

    pub fn coefficient(&self) -> u64 {
        match self.answer {
            Ok(Setting::Coefficient(a)) => a.to_bits(),
            other => panic!("{other:?}"),
        }
    }
}
