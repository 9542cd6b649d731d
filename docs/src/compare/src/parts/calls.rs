//! Questions 20, 21 and 22, and rows that no call left.

use crate::both::{self, Lent};
use crate::tally::Tally;
use reference::draft::Draft;
use reference::generate::{any_pair_number, odd, sound, trips, Random};
use reference::rows::{INFLOWS, OF_SECTIONS, ROWS, SPEEDS};

/// NaNs quiet and signalling, of either sign and several payloads, and the infinities.
const NOT_FINITE: [u64; 8] = [
    0x7ff8_0000_0000_0000,
    0x7ff8_dead_beef_0001,
    0x7ff0_0000_0000_0001,
    0x7ff4_0000_1234_5678,
    0xfff8_0000_0000_0000,
    0xffff_ffff_ffff_ffff,
    0x7ff0_0000_0000_0000,
    0xfff0_0000_0000_0000,
];

/// m and N about the limit, with whether question 21 lets them through.
const LIMITS: [(u64, u64, bool); 12] = [
    (1_000_000, 0, true),
    (999_999, 1, true),
    (999_990, 10, true),
    (1_000_000, 1, false),
    (999_999, 2, false),
    (1_000_001, 0, false),
    (0, 1_000_001, false),
    (1, 1_000_000, false),
    (u64::MAX, 0, false),
    (u64::MAX, u64::MAX, false),
    (1, u64::MAX, false),
    (u64::MAX - 999_999, 1_000_000, false),
];

pub fn calls(tally: &mut Tally) {
    let mut random = Random::new(103);
    for place in 0..600 {
        let draft = match place % 3 {
            0 => sound(&mut random),
            1 => odd(&mut random),
            _ => trips(&mut random),
        };
        let job = draft.bytes();
        let mut lent = Lent::marked(draft.needed());
        both::start(tally, &job, &mut lent);
        short_rows(tally, &mut random, &draft, &lent);
        limits(tally, &job, &lent);
        states(tally, &mut random, &draft, &lent);
        any_numbers(tally, &mut random, &draft, &lent);
    }
}

/// Question 20 with each slice short in turn, the others exactly long enough or longer, and before
/// 21 and 22.
fn short_rows(tally: &mut Tally, random: &mut Random, draft: &Draft, lent: &Lent) {
    let (job, needed) = (draft.bytes(), draft.needed());
    for row in 0..ROWS {
        for length in [0, random.below(needed[row]), needed[row] - 1] {
            let mut short = lent.clone();
            short.lengths = needed.map(|length| length + random.below(4));
            short.lengths[row] = length;
            short.fill_spare(random, needed);
            expect(both::start(tally, &job, &mut short).number, 20);
            expect(both::run_on(tally, &job, 0, 3, &mut short).number, 20);
            expect(both::run_on(tally, &job, 2, u64::MAX, &mut short).number, 20);
            short.store.rows[0][0] = f64::NAN;
            expect(both::run_on(tally, &job, 0, 3, &mut short).number, 20);
            tally.count("calls lent a slice too short", 4);
        }
    }
}

fn limits(tally: &mut Tally, job: &[u8], lent: &Lent) {
    for (done, count, within) in LIMITS {
        let mut rows = lent.clone();
        let number = both::run_on(tally, job, done, count, &mut rows).number;
        assert_eq!(number == 21, !within, "question 21 at {done} and {count}");
        // 21 comes before 22.
        rows = lent.clone();
        rows.store.rows[1][0] = f64::NAN;
        expect(
            both::run_on(tally, job, done, count, &mut rows).number,
            if within { 22 } else { 21 },
        );
        tally.count("run-ons about the limit of steps", 2);
    }
}

/// Question 22: a number not finite in each row but the spare; a head just below its floor, and on it.
fn states(tally: &mut Tally, random: &mut Random, draft: &Draft, lent: &Lent) {
    let job = draft.bytes();
    for row in (0..OF_SECTIONS).chain([SPEEDS, INFLOWS]) {
        for bits in NOT_FINITE {
            // Any section or, of speeds and inflows, any node.
            let entry = random.below(draft.needed()[row]);
            let mut rows = lent.clone();
            rows.store.rows[row][entry] = f64::from_bits(bits);
            expect(both::run_on(tally, &job, 0, 2, &mut rows).number, 22);
            tally.count("run-ons refused for a number not finite", 1);
        }
    }
    for _ in 0..4 {
        let section = random.below(draft.section_count());
        let floor = draft.sections[section][2];
        let mut rows = lent.clone();
        rows.store.rows[0][section] = floor;
        let on_floor = both::run_on(tally, &job, 0, 1, &mut rows).number;
        assert_ne!(on_floor, 22, "a head on its floor runs on");
        let below = next_below(floor);
        if below.is_finite() {
            rows = lent.clone();
            rows.store.rows[0][section] = below;
            expect(both::run_on(tally, &job, 0, 1, &mut rows).number, 22);
        }
        tally.count("run-ons with a head on or below its floor", 2);
    }
}

/// The next f64 below x.
fn next_below(x: f64) -> f64 {
    if x == 0.0 {
        return -f64::from_bits(1);
    }
    let bits = x.to_bits();
    f64::from_bits(if x > 0.0 { bits - 1 } else { bits + 1 })
}

/// The rows lent need not be such as a call left: any envelopes, speeds and inflows, any heads not below their floors.
/// Half of the calls take what the start left but for speeds and inflows, so that more of them run on.
fn any_numbers(tally: &mut Tally, random: &mut Random, draft: &Draft, lent: &Lent) {
    let job = draft.bytes();
    let numbers = [0.0, -0.0, 1.0, -1.0, 30.0, 1e-310, -1e-310, 1e10, -1e300, f64::MAX];
    for way in 0..8 {
        let mut rows = lent.clone();
        for (section, [_, _, floor]) in draft.sections.iter().enumerate() {
            for row in 0..if way % 2 == 0 { OF_SECTIONS } else { 0 } {
                let number = random.pick(&numbers);
                if row > 0 || number >= *floor {
                    rows.store.rows[row][section] = number;
                }
            }
        }
        for row in [SPEEDS, INFLOWS] {
            let used = draft.nodes.len();
            rows.store.rows[row][..used].fill_with(|| any_pair_number(random));
        }
        if !draft.trips.is_empty() && random.once_in(2) {
            // A speed so great, and an inflow so far below zero, that a rundown may rise to plus infinity.
            let pump = usize::from(random.pick(&draft.trips).node);
            rows.store.rows[SPEEDS][pump] = random.pick(&[1e160, 1e200]);
            rows.store.rows[INFLOWS][pump] = random.pick(&[-1e160, -f64::MAX]);
        }
        rows.fill_spare(random, draft.needed());
        let longest = draft.longest_schedule();
        // Early and late, about the trip steps and past the schedules.
        let last = random.pick(&[4, 12, longest.max(300)]);
        let (done, count) = (random.below(last) as u64, random.below(10) as u64);
        let number = both::run_on(tally, &job, done, count, &mut rows).number;
        assert_ne!(number, 22, "any numbers not below the floors are let through");
        tally.count("run-ons from rows that no call left", 1);
    }
}

fn expect(number: u64, expected: u64) {
    assert_eq!(number, expected, "the number of the refusal");
}
