//! Where the pairs and the tables of a job stand: questions 2 and 3.

use crate::fields::{u16_at, u32_at};

/// Pairs that a job has at the least and at the most; its tables are the first so many.
pub const FEWEST_PAIRS: usize = 5;
pub const MOST_PAIRS: usize = 7;

/// How many pairs a job has, and how it counts the entries of its schedules.
#[derive(Clone, Copy, Debug, Default, PartialEq, Eq)]
pub enum Form {
    /// Five pairs: a byte in each node's record.
    #[default]
    FivePairs,
    /// Six pairs and an empty table 6: the byte all the same.
    EmptyTable6,
    /// Six pairs: a u16 per node in table 6, and the byte is zero.
    FullTable6,
    /// Seven pairs, the schedules counted as in the form of six; table 7 may be empty or not.
    SevenEmptyTable6,
    SevenFullTable6,
}

impl Form {
    pub const ALL: [Form; 5] = [
        Form::FivePairs,
        Form::EmptyTable6,
        Form::FullTable6,
        Form::SevenEmptyTable6,
        Form::SevenFullTable6,
    ];

    /// Those that have a table 7, and so may have trips.
    pub const OF_SEVEN: [Form; 2] = [Form::SevenEmptyTable6, Form::SevenFullTable6];

    /// Its place in `ALL`.
    pub fn place(self) -> usize {
        self as usize
    }

    pub fn pairs(self) -> usize {
        match self {
            Form::FivePairs => FEWEST_PAIRS,
            Form::EmptyTable6 | Form::FullTable6 => 6,
            Form::SevenEmptyTable6 | Form::SevenFullTable6 => 7,
        }
    }

    /// Whether table 6 counts the schedules.
    pub fn counts_in_table_6(self) -> bool {
        matches!(self, Form::FullTable6 | Form::SevenFullTable6)
    }

    /// The form of seven pairs that counts alike.
    pub fn of_seven(self) -> Form {
        if self.counts_in_table_6() {
            Form::SevenFullTable6
        } else {
            Form::SevenEmptyTable6
        }
    }

    /// Entries that a schedule has at the most, by the width of its count.
    pub fn most_entries(self) -> usize {
        usize::from(if self.counts_in_table_6() { u16::MAX } else { u8::MAX.into() })
    }

    /// The form of a job that is accepted.
    pub fn of(job: &[u8]) -> Form {
        match (pair_count(job), tables(job)[5].is_empty()) {
            (FEWEST_PAIRS, _) => Form::FivePairs,
            (6, true) => Form::EmptyTable6,
            (6, false) => Form::FullTable6,
            (_, true) => Form::SevenEmptyTable6,
            (_, false) => Form::SevenFullTable6,
        }
    }
}

/// Where a pair stands, counted from 0; for the count of pairs, where the first table begins.
pub const fn pair_at(number: usize) -> usize {
    6 + 8 * number
}

pub fn pair_count(bytes: &[u8]) -> usize {
    usize::from(u16_at(bytes, 0))
}

/// A pair's offset and length, wide enough to be added.
pub fn pair(bytes: &[u8], number: usize) -> (u64, u64) {
    let at = pair_at(number);
    (u64::from(u32_at(bytes, at)), u64::from(u32_at(bytes, at + 4)))
}

/// Question 2.
pub fn pairs_admitted(bytes: &[u8]) -> bool {
    let count = pair_count(bytes);
    (FEWEST_PAIRS..=MOST_PAIRS).contains(&count) && pair_at(count) <= bytes.len()
}

/// Question 3.
pub fn tables_adjoin(bytes: &[u8]) -> bool {
    let count = pair_count(bytes);
    let mut end = pair_at(count) as u64;
    for number in 0..count {
        let (offset, length) = pair(bytes, number);
        if offset != end {
            return false;
        }
        end = offset + length;
    }
    end == bytes.len() as u64
}

/// Each table as its own part of the file, where questions 2 and 3 have a yes; one that has no pair
/// is empty.
pub fn tables(bytes: &[u8]) -> [&[u8]; MOST_PAIRS] {
    let count = pair_count(bytes);
    std::array::from_fn(|number| {
        let (offset, length) = if number < count { pair(bytes, number) } else { (0, 0) };
        &bytes[offset as usize..(offset + length) as usize]
    })
}
