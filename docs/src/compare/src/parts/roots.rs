//! The root on many patterns, in every bit: the compiled one against the machine's, which IEEE 754 has
//! to nearest, and against the reference's.

mod table;

use crate::cut_down::square_to;
use crate::ours;
use crate::tally::Tally;
use reference::generate::Random;
use reference::refusal::Refused;
use reference::root::root;

const ROOTS: &str = "roots";
const ROOTS_AT_LEAST: u64 = 10_000_000;
const ABOVE: &str = "roots above the exact one: cut down, each would be another";
const BELOW: &str = "roots below the exact one: rounded up, each would be another";
const EXACT: &str = "roots that are exact";

/// Where patterns come from that are drawn at random, three at a time.
type Draw = fn(&mut Random) -> [u64; 3];
const DRAWN: [(&str, Draw); 6] = [
    ("roots of patterns of either sign", either_sign),
    ("roots of patterns not below zero", not_below_zero),
    ("roots of numbers of few digits", few_digits),
    ("roots of squares of up to 26 digits' numbers and their neighbours", squares),
    ("roots of rounded squares and their neighbours", rounded_squares),
    ("roots of subnormal numbers, of every width", subnormal),
];
const DRAWS: usize = 640_000;
const BINADE_ENDS: &str = "roots at the ends of every binade";
const RANGE_ENDS: &str = "roots at the ends of the range";
const ENTRIES: &str = "roots about every entry of the table that starts a root";

/// What must be counted, and how often at least.
pub fn all() -> Vec<(&'static str, u64)> {
    let mut cases = vec![(ROOTS, ROOTS_AT_LEAST), (ABOVE, 1), (BELOW, 1), (EXACT, 1)];
    // Eight of each binade have no sign; of those drawn a part is refused.
    cases.extend([(BINADE_ENDS, 8 * 2047), (RANGE_ENDS, 1), (ENTRIES, 24 * 768)]);
    cases.extend(table::TOO_SMALL.map(|name| (name, 100)));
    cases.extend(DRAWN.map(|(name, _)| (name, DRAWS as u64)));
    cases
}

pub fn roots(tally: &mut Tally) {
    let mut random = Random::new(106);
    compare_each(tally, RANGE_ENDS, range_ends().into_iter());
    compare_each(tally, BINADE_ENDS, (0..2047).flat_map(binade_ends));
    compare_each(tally, ENTRIES, table::about_entries().map(|(bits, _)| bits));
    table::about_entries().for_each(|(_, short)| tally.count(table::TOO_SMALL[short], 1));
    for (name, draw) in DRAWN {
        compare_each(tally, name, (0..DRAWS).flat_map(|_| draw(&mut random)));
    }
}

fn either_sign(random: &mut Random) -> [u64; 3] {
    [0; 3].map(|_| random.bits())
}

fn not_below_zero(random: &mut Random) -> [u64; 3] {
    [0; 3].map(|_| random.bits() >> 1)
}

/// Many of them squares.
fn few_digits(random: &mut Random) -> [u64; 3] {
    [0; 3].map(|_| {
        let digits = random.bits() & 0xf << random.below(49);
        (random.bits() >> 1 & 0x7ff0_0000_0000_0000) | digits
    })
}

fn squares(random: &mut Random) -> [u64; 3] {
    let side = (1 | random.bits() >> random.from_to(38, 63)) as f64;
    near_square(random, side)
}

fn rounded_squares(random: &mut Random) -> [u64; 3] {
    let side = f64::from_bits(0x3ff0_0000_0000_0000 | random.bits() >> random.from_to(12, 40));
    near_square(random, side)
}

/// The square of a number from 1 up to 2^26 and its neighbours, times a power of four.
fn near_square(random: &mut Random, side: f64) -> [u64; 3] {
    let square = (side * side).to_bits() - (1022 << 52) + ((2 * random.below(980) as u64) << 52);
    [square - 1, square, square + 1]
}

fn subnormal(random: &mut Random) -> [u64; 3] {
    [0; 3].map(|_| random.bits() >> random.from_to(12, 63))
}

/// The first and the last four patterns of an exponent's field, of either sign.
fn binade_ends(field: u64) -> impl Iterator<Item = u64> {
    let first = field << 52;
    let last = first | 0x000f_ffff_ffff_ffff;
    (0..4).flat_map(move |near| [first + near, last - near]).flat_map(|bits| [bits, bits | 1 << 63])
}

/// About each end of the range, with either sign, and NaNs.
fn range_ends() -> Vec<u64> {
    let ends = [
        0,
        0x000f_ffff_ffff_ffff,
        0x0010_0000_0000_0000,
        0x3ff0_0000_0000_0000,
        0x4000_0000_0000_0000,
        0x4062_0000_0000_0000,
        0x7fef_ffff_ffff_ffff,
        0x7ff0_0000_0000_0000,
        0x7ff8_0000_0000_0000,
    ];
    let mut all = Vec::new();
    for end in ends {
        for near in 0..5_u64 {
            let bits = (end + near).saturating_sub(2);
            all.push(bits);
            all.push(bits | 1 << 63);
        }
    }
    all
}

fn compare_each(tally: &mut Tally, name: &'static str, patterns: impl Iterator<Item = u64>) {
    // Below, equal to and above the exact root.
    let mut sides = [0; 3];
    for bits in patterns {
        let x = f64::from_bits(bits);
        if x.is_finite() && x >= 0.0 {
            let root = compare(x);
            sides[(square_to(root, x) as i8 + 1) as usize] += 1;
        } else {
            compare_refused(x);
            tally.reach(23);
        }
    }
    for (case, count) in [BELOW, EXACT, ABOVE].into_iter().zip(sides) {
        tally.count(case, count);
        tally.count(ROOTS, count);
        tally.count(name, count);
    }
}

fn compare(x: f64) -> f64 {
    let ours = ours::root(x);
    // Of -0 the machine's is -0, which +0 added makes +0.
    let machine = x.sqrt() + 0.0;
    let same = |other: f64| ours.to_bits() == other.to_bits();
    if !(same(machine) && root(x).is_ok_and(same)) {
        differ(x, ours);
    }
    ours
}

fn compare_refused(x: f64) {
    let ours = ours::root(x);
    if !(ours.is_nan() && root(x) == Err(Refused(23))) {
        differ(x, ours);
    }
}

fn differ(x: f64, ours: f64) -> ! {
    let [of, ours, machine] = [x, ours, x.sqrt()].map(f64::to_bits);
    let reference = root(x).map(f64::to_bits);
    println!("DIFFERENCE, root of {of:016x}: {ours:016x}");
    println!("the machine's: {machine:016x}, the reference's: {reference:016x?}");
    std::process::exit(1);
}
