//! The seven slices of f64 numbers that start and run-on are lent.

use crate::reader::{MOST_NODES, MOST_PIPES, MOST_SECTIONS};

/// The lent slices: the state, the envelopes and the spare.
pub struct Rows<'a> {
    pub heads: &'a mut [f64],
    pub flows: &'a mut [f64],
    /// The envelope of maxima.
    pub highest: &'a mut [f64],
    /// The envelope of minima.
    pub lowest: &'a mut [f64],
    /// Per node, the speed at the last step; +0 where it is no pump.
    pub speeds: &'a mut [f64],
    /// Per node, the pump's inflow at the last step; +0 where it is no pump.
    pub inflows: &'a mut [f64],
    /// Two values per pipe end to work with; what it holds on entry has no effect.
    pub spare: &'a mut [f64],
}

/// How many slices are lent, in the order heads, flows, highest, lowest, speeds, inflows, spare.
pub const ROWS: usize = 7;

/// How many of them have an entry per section; they come first.
pub const OF_SECTIONS: usize = 4;

/// Where the speeds, the inflows and the spare stand among them.
pub const SPEEDS: usize = 4;
pub const INFLOWS: usize = 5;
pub const SPARE: usize = 6;

/// A length for each lent slice, in their order.
pub type Lengths = [usize; ROWS];

/// What question 20 asks each slice to hold: the section count, of speeds and inflows the node count,
/// and of the spare two values per pipe end.
pub const fn needed(sections: usize, nodes: usize, pipes: usize) -> Lengths {
    [sections, sections, sections, sections, nodes, nodes, 4 * pipes]
}

/// Lengths that hold every job.
pub const LONGEST: Lengths = needed(MOST_SECTIONS, MOST_NODES, MOST_PIPES);

impl Rows<'_> {
    /// Question 20: is each lent slice as long as needed?
    pub fn hold(&self, needed: Lengths) -> bool {
        let lengths = [
            self.heads.len(),
            self.flows.len(),
            self.highest.len(),
            self.lowest.len(),
            self.speeds.len(),
            self.inflows.len(),
            self.spare.len(),
        ];
        lengths.iter().zip(needed).all(|(&length, needed)| length >= needed)
    }

    /// As many entries of the spare +0 as question 20 asks for.
    pub fn clear_spare(&mut self, needed: Lengths) {
        self.spare[..needed[SPARE]].fill(0.0);
    }
}

/// Seven rows that a caller owns, to lend from and to compare by their bits.
#[derive(Clone, Debug)]
pub struct RowStore {
    pub rows: [Vec<f64>; ROWS],
}

impl RowStore {
    /// Rows of these lengths, every entry +0.
    pub fn zeros(lengths: Lengths) -> RowStore {
        RowStore { rows: lengths.map(|length| vec![0.0; length]) }
    }

    /// Rows of these lengths, each entry a NaN with a payload of its own, so that a change of any
    /// entry shows.
    pub fn marked(lengths: Lengths) -> RowStore {
        RowStore { rows: std::array::from_fn(|row| marks(row, lengths[row])) }
    }

    /// Marks the first `count` entries of the spare again.
    pub fn mark_spare(&mut self, count: usize) {
        self.rows[SPARE][..count].copy_from_slice(&marks(SPARE, count));
    }

    pub fn lend(&mut self) -> Rows<'_> {
        let [heads, flows, highest, lowest, speeds, inflows, spare] = &mut self.rows;
        Rows { heads, flows, highest, lowest, speeds, inflows, spare }
    }

    pub fn heads(&self) -> &[f64] {
        &self.rows[0]
    }

    pub fn flows(&self) -> &[f64] {
        &self.rows[1]
    }

    pub fn highest(&self) -> &[f64] {
        &self.rows[2]
    }

    pub fn lowest(&self) -> &[f64] {
        &self.rows[3]
    }

    pub fn speeds(&self) -> &[f64] {
        &self.rows[SPEEDS]
    }

    pub fn inflows(&self) -> &[f64] {
        &self.rows[INFLOWS]
    }

    /// Every entry's bits, row by row.
    pub fn bits(&self) -> [Vec<u64>; ROWS] {
        std::array::from_fn(|row| self.rows[row].iter().map(|x| x.to_bits()).collect())
    }
}

/// The marks of a row: NaNs that tell the row and the entry.
fn marks(row: usize, length: usize) -> Vec<f64> {
    let mark = |at: usize| 0x7ff8_0000_0000_0000 | (row as u64 + 1) << 32 | at as u64;
    (0..length).map(|at| f64::from_bits(mark(at))).collect()
}
