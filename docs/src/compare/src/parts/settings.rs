//! Valves set for a discharge: chains with and without a coefficient, layouts that are no chains, rows too short, and
//! jobs that are refused.

use crate::both::differ;
use crate::setting::{set_valve, LentToSet, NONE};
use crate::tally::Tally;
use foretold::foretold;
use reference::generate::{
    chain, chain_of, damaged, damaged_anywhere, damaged_from, edited_anywhere, odd, sound, Random,
    ToSet, CAUSES_TOGETHER,
};
use reference::layout::Form;
use reference::reader::{MOST_BYTES, QUESTIONS};
use reference::samples::timed::longest_jobs;

mod breaks;
mod foretold;

/// By the answer.
const EDITED_SET: &str = "chains edited anywhere: valves set";
const EDITED_NONE: &str = "chains edited anywhere: none";
const EDITED_51: &str = "chains edited anywhere: refused 51";
const EDITED_REFUSED: &str = "chains edited anywhere: refused by a question to every job";

/// NaNs quiet and signalling, of either sign and several payloads, and the infinities.
const NOT_FINITE: [u64; 6] = [
    0x7ff8_0000_0000_0000,
    0x7ff0_0000_0000_0001,
    0xfff8_0000_dead_beef,
    0xffff_ffff_ffff_ffff,
    0x7ff0_0000_0000_0000,
    0xfff0_0000_0000_0000,
];

/// What must be counted, and how often at least.
pub fn all() -> Vec<(&'static str, u64)> {
    let edited = [EDITED_SET, EDITED_NONE, EDITED_51, EDITED_REFUSED];
    breaks::all().into_iter().chain(edited.map(|case| (case, 20))).collect()
}

pub fn settings(tally: &mut Tally) {
    let mut random = Random::new(111);
    for place in 0..4000 {
        let most = if place % 8 == 0 { 31 } else { 6 };
        let made = chain_of(&mut random, 1, most, &[]);
        call(tally, &mut random, &made);
    }
    for causes in CAUSES_TOGETHER {
        // Those with one cause alone are looked at more closely.
        for _ in 0..if causes.len() == 1 { 600 } else { 60 } {
            let made = chain(&mut random, causes);
            call(tally, &mut random, &made);
        }
    }
    breaks::no_chains(tally, &mut random);
    longest(tally, &mut random);
    for _ in 0..150 {
        not_finite(tally, &mut random);
        rows(tally, &mut random);
    }
    refused_jobs(tally, &mut random);
    edited(tally, &mut random);
    for _ in 0..300 {
        foretold(tally, &mut random);
    }
}

/// The call with rows of the section count or up to three entries more.
fn call(tally: &mut Tally, random: &mut Random, made: &ToSet) -> u64 {
    let sections = made.draft.section_count();
    let lengths = [0; 2].map(|_| sections + random.pick(&[0, 0, 1, 3]));
    call_lent(tally, random, made, lengths)
}

fn call_lent(tally: &mut Tally, random: &mut Random, made: &ToSet, lengths: [usize; 2]) -> u64 {
    let mut lent = LentToSet::new(random, lengths);
    set_valve(tally, &made.draft.bytes(), made.level, made.discharge, &mut lent)
}

/// What the call was made for, known from its making and not from the reference's answer: a mistake of both is seen.
fn expect(made: &ToSet, answer: u64, expected: u64) {
    if answer != expected {
        let ToSet { level, discharge, .. } = made;
        let found =
            format!("level {level:?}, discharge {discharge:?}: {answer}, made for {expected}");
        differ("set valve", &made.draft.bytes(), &found);
    }
}

/// The longest chain that there is, and with its last draw-off not zero.
fn longest(tally: &mut Tally, random: &mut Random) {
    let draft = longest_jobs().into_iter().find(|draft| draft.form == Form::EmptyTable6);
    let mut made = ToSet { draft: draft.expect("one is a chain"), level: 80.0, discharge: 0.1 };
    let last = made.draft.nodes.len() - 1;
    for node in &mut made.draft.nodes[1..last] {
        node.schedule.fill_with(|| random.pick(&[0.0, -0.0]));
    }
    assert_eq!(made.draft.byte_count(), MOST_BYTES, "as long as a job may be");
    expect(&made, call(tally, random, &made), 0);
    if let Some(draw) = made.draft.nodes[last - 1].schedule.last_mut() {
        *draw = 1e-300;
    }
    expect(&made, call(tally, random, &made), 51);
}

/// Level, discharge or both not finite: 51, before 52 and none.
fn not_finite(tally: &mut Tally, random: &mut Random) {
    let made = chain(random, &[]);
    for bad in NOT_FINITE.map(f64::from_bits) {
        let level = ToSet { level: bad, ..made.clone() };
        let discharge = ToSet { discharge: bad, ..made.clone() };
        let both = ToSet { level: bad, ..discharge.clone() };
        let with_none = ToSet { discharge: random.pick(&[0.0, -0.0, -2.0]), ..level.clone() };
        for made in [level, discharge, both, with_none] {
            expect(&made, call(tally, random, &made), 51);
            let short = random.below(made.draft.section_count());
            expect(&made, call_lent(tally, random, &made, [short; 2]), 51);
        }
    }
}

/// Each row too short by one, empty, or of any length below the count, alone and with the other; 52 before none.
fn rows(tally: &mut Tally, random: &mut Random) {
    let given = chain(random, &[]);
    let causes = random.pick(&CAUSES_TOGETHER);
    let none = chain(random, causes);
    for made in [given, none] {
        let sections = made.draft.section_count();
        let any = random.below(sections);
        for short in [sections - 1, 0, any] {
            let long = sections + random.below(4);
            for lengths in [[short, long], [long, short], [short, any]] {
                expect(&made, call_lent(tally, random, &made, lengths), 52);
            }
        }
        for lengths in [[0, 0], [0, 3], [3, 0], [2, 1]] {
            let lengths = lengths.map(|more| sections + more);
            call_lent(tally, random, &made, lengths);
        }
    }
}

/// Questions 1 to 15, 50 and 53 come first, whatever level, discharge and rows are.
fn refused_jobs(tally: &mut Tally, random: &mut Random) {
    for (place, question) in QUESTIONS.into_iter().enumerate() {
        for _ in 0..40 {
            let made = chain(random, &[]);
            let job = damaged_from(random, made.draft.clone(), &[question]);
            refused(tally, random, &made, &job, question);
        }
        for _ in 0..10 {
            let (made, job) = (chain(random, &[]), damaged(random, &[question]));
            refused(tally, random, &made, &job, question);
        }
        for &other in &QUESTIONS[place + 1..] {
            let made = chain(random, &[]);
            let job = damaged_from(random, made.draft.clone(), &[question, other]);
            refused(tally, random, &made, &job, question);
        }
    }
}

/// Chains edited anywhere, counted by their answers, and some jobs of any layout.
fn edited(tally: &mut Tally, random: &mut Random) {
    for place in 0..2000 {
        let made = chain(random, &[]);
        let edited = edited_anywhere(random, made.draft.bytes());
        let case = match any_job(tally, random, &made, &edited) {
            0 => EDITED_SET,
            NONE => EDITED_NONE,
            51 => EDITED_51,
            _ => EDITED_REFUSED,
        };
        tally.count(case, 1);
        let other = match place % 8 {
            0 => sound(random).bytes(),
            1 => odd(random).bytes(),
            2 => damaged_anywhere(random),
            _ => continue,
        };
        any_job(tally, random, &made, &other);
    }
}

/// A job that the question refuses: with the level and the discharge of the chain, and with all that 51 and 52 refuse.
fn refused(tally: &mut Tally, random: &mut Random, made: &ToSet, job: &[u8], question: u8) {
    let number = any_job(tally, random, made, job);
    let mut lent = LentToSet::new(random, [0, 2]);
    let bad = f64::from_bits(random.pick(&NOT_FINITE));
    let against = set_valve(tally, job, bad, bad, &mut lent);
    if [number, against] != [u64::from(question); 2] {
        differ("set valve", job, &format!("{number} and {against}, damaged for {question}"));
    }
}

/// A job of which it is not foreseen how it is answered, with rows that hold every job.
fn any_job(tally: &mut Tally, random: &mut Random, made: &ToSet, job: &[u8]) -> u64 {
    let mut lent = LentToSet::new(random, [512; 2]);
    set_valve(tally, job, made.level, made.discharge, &mut lent)
}
