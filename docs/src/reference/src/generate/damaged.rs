//! Damaged jobs: for each question one that it refuses, and jobs damaged anywhere.

use super::sound::sound_with;
use super::trips::more_pumps;
use super::{odd, sound, Random};
use crate::draft::Draft;
use crate::layout::{pair_at, Form};
use crate::reader::{MOST_BYTES, QUESTIONS};

mod pairs;
mod tables;

/// The steps and the tables of a job, before the pairs are written.
pub(super) struct Parts {
    pub steps: u32,
    pub tables: Vec<Vec<u8>>,
}

/// Where a question stands in the order in which they are asked.
fn place(question: u8) -> usize {
    QUESTIONS.iter().position(|&asked| asked == question).expect("a question to a job")
}

/// A job that would be sound but that each question named is answered with no; so the one that is
/// asked first decides.
pub fn damaged(random: &mut Random, questions: &[u8]) -> Vec<u8> {
    let draft = sound_with(random, PIPES_TO_DAMAGE, BYTES_TO_DAMAGE);
    damaged_from(random, draft, questions)
}

/// Pipes and bytes that a job to be damaged has at the most, so that some may be added.
pub(super) const PIPES_TO_DAMAGE: usize = 20;
pub(super) const BYTES_TO_DAMAGE: usize = 28_000;

/// The same of this job, which is accepted.
pub fn damaged_from(random: &mut Random, mut draft: Draft, questions: &[u8]) -> Vec<u8> {
    if questions.contains(&50) && draft.form == Form::FivePairs {
        draft.form = random.pick(&Form::ALL[1..]);
    }
    if questions.contains(&53) {
        // With several pumps a record can stand between others.
        more_pumps(random, &mut draft);
        draft.form = draft.form.of_seven();
    }
    let mut parts = Parts { steps: draft.steps, tables: draft.tables() };
    let mut from_last = questions.to_vec();
    from_last.sort_by_key(|&question| usize::MAX - place(question));
    for &question in from_last.iter().filter(|&&question| question > 4) {
        tables::damage(random, &mut parts, question);
    }
    if from_last.contains(&4) {
        parts.steps = random.pick(&[1_000_001, 16_777_217, u32::MAX]);
    }
    let mut bytes = Draft::bytes_of(parts.steps, &parts.tables);
    for &question in from_last.iter().filter(|&&question| question < 4) {
        match question {
            3 => pairs::part_tables(random, &mut bytes),
            2 => pairs::change_count(random, &mut bytes),
            _ => change_size(random, &mut bytes, parts.tables.len()),
        }
    }
    bytes
}

/// Question 1: too few bytes, or too many, the last table longer by them.
fn change_size(random: &mut Random, bytes: &mut Vec<u8>, pairs: usize) {
    if random.once_in(2) {
        let few = random.pick(&[0, 1, 45, 20]);
        return bytes.truncate(few);
    }
    let size = MOST_BYTES + random.from_to(1, 40);
    let more = size.saturating_sub(bytes.len());
    bytes.resize(size, 0);
    add_to_u32(bytes, pair_at(pairs - 1) + 4, more as u32);
}

fn add_to_u32(bytes: &mut [u8], at: usize, more: u32) {
    let field: &mut [u8] = &mut bytes[at..at + 4];
    let old = u32::from_le_bytes([field[0], field[1], field[2], field[3]]);
    field.copy_from_slice(&old.wrapping_add(more).to_le_bytes());
}

/// A job damaged by a few edits anywhere; which question refuses it, if one does, is not foreseen.
pub fn damaged_anywhere(random: &mut Random) -> Vec<u8> {
    let bytes = if random.once_in(2) { sound(random).bytes() } else { odd(random).bytes() };
    edited_anywhere(random, bytes)
}

/// The same of these bytes.
pub fn edited_anywhere(random: &mut Random, mut bytes: Vec<u8>) -> Vec<u8> {
    for _ in 0..random.from_to(1, 4) {
        edit(random, &mut bytes);
    }
    bytes
}

fn edit(random: &mut Random, bytes: &mut Vec<u8>) {
    if bytes.is_empty() {
        return;
    }
    // Half of the edits fall on the first two tables and what stands before them.
    let end = if random.once_in(2) { bytes.len().min(46 + 200) } else { bytes.len() };
    let at = random.below(end);
    match random.below(12) {
        0..=3 => bytes[at] ^= 1 << random.below(8),
        4..=6 => bytes[at] = random.pick(&[0, 1, 0x7f, 0x80, 0xf0, 0xff]),
        7 => bytes.truncate(at),
        8 => bytes.insert(at, random.below(256) as u8),
        9 => {
            bytes.remove(at);
        }
        10 => {
            let to = random.below(bytes.len());
            bytes.swap(at, to);
        }
        _ => {
            for byte in bytes.iter_mut().skip(at).take(8) {
                *byte = random.pick(&[0, 0xff]);
            }
        }
    }
}

#[cfg(test)]
mod tests {
    use super::*;
    use crate::reader::read;
    use crate::refusal::Refused;

    #[test]
    fn each_question_refuses_the_jobs_damaged_for_it() {
        let mut random = Random::new(1);
        for question in QUESTIONS {
            for _ in 0..200 {
                let bytes = damaged(&mut random, &[question]);
                assert_eq!(read(&bytes), Err(Refused(question)));
            }
        }
    }

    #[test]
    fn the_first_no_decides() {
        let mut random = Random::new(2);
        for first in QUESTIONS {
            for &later in &QUESTIONS[place(first) + 1..] {
                for _ in 0..20 {
                    let bytes = damaged(&mut random, &[later, first]);
                    assert_eq!(read(&bytes), Err(Refused(first)), "{first} before {later}");
                }
            }
        }
    }

    #[test]
    fn damage_anywhere_leaves_some_jobs_accepted() {
        let mut random = Random::new(3);
        let accepted = (0..2000).filter(|_| read(&damaged_anywhere(&mut random)).is_ok()).count();
        assert!((50..1950).contains(&accepted), "{accepted}");
    }
}
