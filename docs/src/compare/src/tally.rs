//! How many of each were tried, and which numbers the proved calculator answered with.

use crate::ours::Answer;
use reference::reader::QUESTIONS;
use std::collections::BTreeMap;

/// Every number of a refusal or a stop, those to every job apart, which the reader has.
const OTHER_NUMBERS: [u8; 9] = [20, 21, 22, 23, 24, 40, 41, 51, 52];

#[derive(Default)]
pub struct Tally {
    tried: Vec<(&'static str, u64)>,
    numbers: BTreeMap<u64, u64>,
}

impl Tally {
    pub fn count(&mut self, what: &'static str, more: u64) {
        match self.tried.iter_mut().find(|(name, _)| *name == what) {
            Some((_, count)) => *count += more,
            None => self.tried.push((what, more)),
        }
    }

    pub fn counted(&self, what: &str) -> u64 {
        self.tried.iter().find(|(name, _)| *name == what).map_or(0, |&(_, count)| count)
    }

    /// Counts a refusal or a stop.
    pub fn reach(&mut self, number: u64) {
        if number != 0 {
            *self.numbers.entry(number).or_default() += 1;
        }
    }

    pub fn answer(&mut self, answer: Answer) -> Answer {
        self.reach(answer.number);
        answer
    }

    pub fn print_tried(&self) {
        for (what, count) in &self.tried {
            println!("{count:>9} {what}");
        }
    }

    pub fn print(&self) {
        self.print_tried();
        println!("refusals and stops reached, each with how often:");
        for (number, count) in &self.numbers {
            println!("{number:>9}: {count}");
        }
    }

    /// Which of these were counted less often than asked.
    pub fn too_few(&self, cases: &[(&'static str, u64)]) -> Vec<&'static str> {
        let too_few = cases.iter().filter(|&&(case, least)| self.counted(case) < least);
        too_few.map(|&(case, _)| case).collect()
    }

    /// The numbers that were not reached.
    pub fn missing(&self) -> Vec<u64> {
        let numbers = QUESTIONS.iter().chain(&OTHER_NUMBERS).map(|&number| u64::from(number));
        numbers.filter(|number| !self.numbers.contains_key(number)).collect()
    }
}
