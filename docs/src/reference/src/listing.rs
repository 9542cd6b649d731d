//! The listing: a line for each section and a closing line.

use crate::reader::{read, MOST_SECTIONS};
use crate::refusal::{ask, Refused};
use crate::rows::{RowStore, LONGEST};
use crate::run::{run_on, start, Cause, Ran};
use crate::wave::Point;

/// The longest line: three digits, four fields of a space and sixteen digits, a newline.
pub const LONGEST_LINE: usize = 72;

/// The line call: writes the line of a section at the front of `out` and hands back the written
/// part, newline included. A refusal, as 24, writes nothing.
pub fn line(
    section: usize,
    point: Point,
    highest: f64,
    lowest: f64,
    out: &mut [u8],
) -> Result<&mut [u8], Refused> {
    ask(24, section < MOST_SECTIONS && out.len() >= LONGEST_LINE)?;
    let text = line_text(section, [point.head, point.flow, highest, lowest]);
    let part = &mut out[..text.len()];
    part.copy_from_slice(text.as_bytes());
    Ok(part)
}

/// The number in decimal, then each f64 as 16 lower-case hexadecimal digits, highest first.
fn line_text(section: usize, fields: [f64; 4]) -> String {
    let mut text = section.to_string();
    for field in fields {
        text += &format!(" {:016x}", field.to_bits());
    }
    text + "\n"
}

/// The last line of a job that was not refused.
pub fn closing_line(ran: Ran) -> String {
    match ran.stop {
        None => format!("done {}\n", ran.done),
        Some(stop) => {
            let word = match stop.cause {
                Cause::NotFinite => "notfinite",
                Cause::Parted => "parted",
            };
            format!("{word} {} {}\n", ran.done, stop.section)
        }
    }
}

/// All that is printed for the bytes of a job.
pub fn listing(job: &[u8]) -> String {
    match run_listing(job) {
        Ok(text) => text,
        Err(Refused(number)) => format!("refused {number}\n"),
    }
}

fn run_listing(job: &[u8]) -> Result<String, Refused> {
    let steps = u64::from(read(job)?.steps);
    let mut store = RowStore::zeros(LONGEST);
    let sections = start(job, store.lend())?;
    let ran = run_on(job, 0, steps, store.lend())?;
    let mut text = String::new();
    let mut out = [0; LONGEST_LINE];
    for section in 0..sections {
        let point = Point { head: store.heads()[section], flow: store.flows()[section] };
        let part =
            line(section, point, store.highest()[section], store.lowest()[section], &mut out)?;
        text += std::str::from_utf8(part).expect("a line is plain text");
    }
    Ok(text + &closing_line(ran))
}
