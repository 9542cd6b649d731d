//! Lines of sections, and the lines of whole listings.

use crate::both::{differ, Lent};
use crate::ours;
use crate::tally::Tally;
use reference::generate::{odd, sound, trips, Random};
use reference::listing::{line, listing};
use reference::rows::LONGEST;
use reference::wave::Point;

/// Any section, any bits and any length of slice, the bytes past the line compared too.
pub fn lines(tally: &mut Tally) {
    let mut random = Random::new(107);
    for _ in 0..60_000 {
        let section = random.pick(&[0, 9, 10, 99, 100, 511, 512, 513, usize::MAX, 7, 345]);
        let section = if random.once_in(2) { random.below(520) } else { section };
        let length = random.pick(&[0, 71, 72, 73, 100, 72 + 30]);
        let values: [f64; 4] = std::array::from_fn(|_| any(&mut random));
        compare(tally, &mut random, section, values, length);
    }
}

fn any(random: &mut Random) -> f64 {
    let bits = random.bits();
    f64::from_bits(random.pick(&[
        bits,
        bits >> 12,
        0,
        1 << 63,
        0x7ff0_0000_0000_0000,
        bits | 0x7ff0 << 48,
    ]))
}

fn compare(
    tally: &mut Tally,
    random: &mut Random,
    section: usize,
    values: [f64; 4],
    length: usize,
) {
    let held: Vec<u8> = (0..length + 5).map(|_| random.below(256) as u8).collect();
    let (mut ours, mut expected) = (held.clone(), held);
    let written = ours::line(section, values, &mut ours[..length]);
    // Every NaN is one number to the proved calculator, and it prints all by one pattern.
    if values.iter().any(|x| x.is_nan()) {
        tally.count("lines with a NaN, printed as 7ff8000000000000", 1);
    }
    let [head, flow, highest, lowest] =
        values.map(|x| if x.is_nan() { f64::from_bits(0x7ff8 << 48) } else { x });
    let point = Point { head, flow };
    let count = match line(section, point, highest, lowest, &mut expected[..length]) {
        Ok(part) => part.len(),
        Err(refused) => {
            tally.reach(u64::from(refused.0));
            0
        }
    };
    if written != count || ours != expected {
        println!("DIFFERENCE, line of section {section}, {values:?}, into {length} bytes");
        println!(
            "{:?} where {:?} was expected",
            String::from_utf8_lossy(&ours),
            String::from_utf8_lossy(&expected)
        );
        std::process::exit(1);
    }
    tally.count("lines", 1);
}

/// The lines of a listing, by start, run-on and line, against the listing of the reference.
pub fn listings(tally: &mut Tally) {
    let mut random = Random::new(108);
    for place in 0..300 {
        let draft = match place % 3 {
            0 => sound(&mut random),
            1 => odd(&mut random),
            _ => trips(&mut random),
        };
        let job = draft.bytes();
        let mut lent = Lent::marked(LONGEST);
        ours::start(&job, &mut lent.store, lent.lengths);
        let answer = ours::run_on(&job, 0, u64::from(draft.steps), &mut lent.store, lent.lengths);
        let mut text = String::new();
        let mut out = [0; 72];
        for section in 0..draft.section_count() {
            let values = std::array::from_fn(|row| lent.store.rows[row][section]);
            let written = ours::line(section, values, &mut out);
            text += std::str::from_utf8(&out[..written]).expect("a line is plain text");
        }
        text += &match answer.number {
            0 => format!("done {}\n", answer.steps),
            40 => format!("notfinite {} {}\n", answer.steps, answer.section),
            41 => format!("parted {} {}\n", answer.steps, answer.section),
            number => format!("refused {number}\n"),
        };
        if text != listing(&job) {
            differ("listing", &job, "another text");
        }
        tally.count("listings", 1);
    }
}
