//! A call of both implementations to set a valve, compared in every bit.

use crate::both::{differ, same_rows};
use crate::ours;
use crate::set_cases;
use crate::tally::Tally;
use reference::generate::Random;
use reference::refusal::Refused;
use reference::rows::RowStore;
use reference::valve_setting::{self, Setting};

/// What is answered where no coefficient is given.
pub const NONE: u64 = 255;

/// Entries that the rows have past those lent.
const MORE: usize = 6;

/// What the rows and the cells may hold, beside NaNs that tell the entry: NaNs quiet and signalling, of either
/// sign, and numbers.
const HELD: [u64; 8] = [
    0x7ff8_dead_beef_0001,
    0x7ff0_0000_0000_0001,
    0xfff8_0000_0000_0000,
    0xffff_ffff_ffff_ffff,
    0x7ff0_0000_0000_0000,
    0x8000_0000_0000_0000,
    0x3ff0_0000_0000_0000,
    0x0000_0000_0000_0001,
];

/// Heads and flows of which only the first entries are lent, and the coefficient's cell between two others; the rest
/// shows a store past what is lent.
#[derive(Clone)]
pub struct LentToSet {
    pub store: RowStore,
    pub lengths: [usize; 2],
    pub cells: [f64; 3],
}

impl LentToSet {
    /// So many entries lent out of some more. Every entry is a NaN of its own payload, or all hold one pattern.
    pub fn new(random: &mut Random, lengths: [usize; 2]) -> LentToSet {
        let [heads, flows] = lengths.map(|length| length + MORE);
        let mut store = RowStore::marked([heads, flows, 0, 0, 0, 0, 0]);
        if random.once_in(3) {
            let held = f64::from_bits(random.pick(&HELD));
            store.rows.iter_mut().for_each(|row| row.fill(held));
        }
        let cells = [0; 3].map(|_| f64::from_bits(random.pick(&HELD)));
        LentToSet { store, lengths, cells }
    }

    fn cell_bits(&self) -> [u64; 3] {
        self.cells.map(f64::to_bits)
    }
}

/// Calls both and compares: the whole answer, both rows whole, the coefficient's cell with its neighbours, and the
/// job's bytes.
pub fn set_valve(
    tally: &mut Tally,
    job: &[u8],
    level: f64,
    discharge: f64,
    lent: &mut LentToSet,
) -> u64 {
    let (before, mut other) = (lent.clone(), lent.clone());
    let expected = expected(job, level, discharge, &mut other);
    let mut bytes = job.to_vec();
    let LentToSet { store, lengths, cells } = lent;
    let answer = ours::set_valve(&mut bytes, level, discharge, store, *lengths, &mut cells[1]);
    let given = format!("level {level:?}, discharge {discharge:?}, rows of {lengths:?}");
    if answer != expected {
        let found = format!("{given}: {answer:#x}, where {expected:#x} was expected");
        differ("set valve", job, &found);
    }
    same_rows(&format!("set valve, {given}"), job, &lent.store, &other.store);
    let (ours, theirs) = (lent.cell_bits(), other.cell_bits());
    if ours != theirs {
        let found = format!("{given}: cells {ours:016x?}, where {theirs:016x?} were expected");
        differ("set valve", job, &found);
    }
    if bytes != job {
        differ("set valve", job, &format!("{given}: the job was changed"));
    }
    tally.count("calls to set a valve", 1);
    set_cases::count(tally, &set_cases::Call { job, level, discharge, lent: &before, answer });
    if answer != NONE {
        tally.reach(answer);
    }
    answer
}

/// The reference's answer in the terms of the C interface, its rows and cells left in `lent`.
fn expected(job: &[u8], level: f64, discharge: f64, lent: &mut LentToSet) -> u64 {
    let LentToSet { store, lengths, cells } = lent;
    let [heads, flows, ..] = &mut store.rows;
    let (heads, flows) = (&mut heads[..lengths[0]], &mut flows[..lengths[1]]);
    match valve_setting::set_valve(job, level, discharge, heads, flows) {
        Ok(Setting::Coefficient(a)) => {
            cells[1] = a;
            0
        }
        Ok(Setting::None) => NONE,
        Err(Refused(number)) => u64::from(number),
    }
}
