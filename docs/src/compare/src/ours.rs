//! The calls of the proved calculator through its C interface.

use reference::rows::{Lengths, RowStore, ROWS};

extern "C" {
    fn vintuqay_root(x: f64) -> f64;
    fn vintuqay_read(job: *const u8, job_length: usize) -> u64;
    fn vintuqay_start(
        job: *const u8,
        job_length: usize,
        heads: *mut f64,
        heads_length: usize,
        flows: *mut f64,
        flows_length: usize,
        highest: *mut f64,
        highest_length: usize,
        lowest: *mut f64,
        lowest_length: usize,
        speeds: *mut f64,
        speeds_length: usize,
        inflows: *mut f64,
        inflows_length: usize,
        spare: *mut f64,
        spare_length: usize,
    ) -> u64;
    fn vintuqay_run_on(
        job: *const u8,
        job_length: usize,
        done: u64,
        count: u64,
        heads: *mut f64,
        heads_length: usize,
        flows: *mut f64,
        flows_length: usize,
        highest: *mut f64,
        highest_length: usize,
        lowest: *mut f64,
        lowest_length: usize,
        speeds: *mut f64,
        speeds_length: usize,
        inflows: *mut f64,
        inflows_length: usize,
        spare: *mut f64,
        spare_length: usize,
    ) -> u64;
    fn vintuqay_set_valve(
        job: *const u8,
        job_length: usize,
        level: f64,
        discharge: f64,
        heads: *mut f64,
        heads_length: usize,
        flows: *mut f64,
        flows_length: usize,
        coefficient: *mut f64,
    ) -> u64;
    fn vintuqay_line(
        section: usize,
        head: f64,
        flow: f64,
        highest: f64,
        lowest: f64,
        out: *mut u8,
        out_length: usize,
    ) -> usize;
}

/// An answer, out of the one number that the C interface hands back.
#[derive(Clone, Copy, Debug, PartialEq, Eq)]
pub struct Answer {
    /// The number of a refusal or of a stop, 0 where there is neither.
    pub number: u64,
    /// The section of a stop; the section count where a job was read.
    pub section: u64,
    pub steps: u64,
}

impl Answer {
    fn unpacked(packed: u64) -> Answer {
        Answer { number: packed & 0xff, section: packed >> 8 & 0xfff, steps: packed >> 20 }
    }
}

pub fn root(x: f64) -> f64 {
    // SAFETY: a number goes in and a number comes out; the contract has no precondition.
    unsafe { vintuqay_root(x) }
}

pub fn read(job: &[u8]) -> Answer {
    // SAFETY: the pointer and the length are those of one slice, which is only read.
    Answer::unpacked(unsafe { vintuqay_read(job.as_ptr(), job.len()) })
}

/// The start, lent the first `lengths` entries of the rows.
pub fn start(job: &[u8], rows: &mut RowStore, lengths: Lengths) -> Answer {
    let [a, b, c, d, e, f, g] = pointers(rows, lengths);
    let [la, lb, lc, ld, le, lf, lg] = lengths;
    // SAFETY: `pointers` has seen that each row holds what is lent of it; the rows are slices of their own, borrowed
    // mutably here, and the job is only read.
    let packed = unsafe {
        vintuqay_start(job.as_ptr(), job.len(), a, la, b, lb, c, lc, d, ld, e, le, f, lf, g, lg)
    };
    Answer::unpacked(packed)
}

/// The run-on, lent the first `lengths` entries of the rows.
pub fn run_on(job: &[u8], done: u64, count: u64, rows: &mut RowStore, lengths: Lengths) -> Answer {
    let [a, b, c, d, e, f, g] = pointers(rows, lengths);
    let [la, lb, lc, ld, le, lf, lg] = lengths;
    let (bytes, size) = (job.as_ptr(), job.len());
    // SAFETY: `pointers` has seen that each row holds what is lent of it; the rows are slices of their own, borrowed
    // mutably here, and the job is only read.
    let packed = unsafe {
        vintuqay_run_on(bytes, size, done, count, a, la, b, lb, c, lc, d, ld, e, le, f, lf, g, lg)
    };
    Answer::unpacked(packed)
}

/// The valve set, lent the first `lengths` entries of heads and flows: the whole number handed back. The job is borrowed
/// mutably only so that a store into it would show.
pub fn set_valve(
    job: &mut [u8],
    level: f64,
    discharge: f64,
    rows: &mut RowStore,
    lengths: [usize; 2],
    coefficient: &mut f64,
) -> u64 {
    let [lh, lf] = lengths;
    let [heads, flows, ..] = pointers(rows, [lh, lf, 0, 0, 0, 0, 0]);
    let (bytes, size) = (job.as_mut_ptr(), job.len());
    // SAFETY: `pointers` has seen that each row holds what is lent of it; job, rows and coefficient are apart from each
    // other and borrowed mutably here.
    unsafe { vintuqay_set_valve(bytes, size, level, discharge, heads, lh, flows, lf, coefficient) }
}

/// The line of a section at the front of `out`: how many bytes it takes, 0 for a refusal.
pub fn line(section: usize, values: [f64; 4], out: &mut [u8]) -> usize {
    let [head, flow, highest, lowest] = values;
    // SAFETY: the pointer and the length are those of `out`, borrowed mutably here.
    unsafe { vintuqay_line(section, head, flow, highest, lowest, out.as_mut_ptr(), out.len()) }
}

fn pointers(rows: &mut RowStore, lengths: Lengths) -> [*mut f64; ROWS] {
    for (row, length) in rows.rows.iter().zip(lengths) {
        assert!(length <= row.len(), "more is lent than there is");
    }
    rows.rows.each_mut().map(|row| row.as_mut_ptr())
}
