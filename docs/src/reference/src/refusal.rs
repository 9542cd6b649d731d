//! The numbers under which documents 01 and 02 refuse a call, and what they ask in words.

use std::fmt;

/// A question answered with no: its number alone.
#[derive(Clone, Copy, Debug, PartialEq, Eq, PartialOrd, Ord, Hash)]
pub struct Refused(pub u8);

/// Goes on where the answer is yes, refuses by the question's number where it is no.
pub fn ask(number: u8, answer: bool) -> Result<(), Refused> {
    if answer {
        Ok(())
    } else {
        Err(Refused(number))
    }
}

impl Refused {
    /// What must hold, in words.
    pub fn words(self) -> &'static str {
        match self.0 {
            1 => "a job has 46 to 32,768 bytes",
            2 => "a job has five to seven pairs of offset and length, all inside the file",
            3 => {
                "the first table begins straight after the pairs, each next one where the last ended, \
                 and the last ends with the file"
            }
            4 => "the steps for the listing are at most 1,000,000",
            5 => "table 1 is made of whole records of 12 bytes, 1 to 32 pipes",
            6 => "table 2 is made of whole records of 26 bytes, 2 to 32 nodes",
            7 => "each pipe joins two different nodes, both present, by 1 to 511 reaches",
            8 => "there are at most 512 sections",
            9 => "each pipe's S is finite and above zero",
            10 => {
                "each node's kind is 0 to 3 and, where table 6 is empty, the schedule count in its \
                 record is at least 1"
            }
            11 => "each node's a, b and c are finite, a valve's a and a pump's a and b not below zero, and figures that its kind does not name are all zero bits",
            12 => "each node has a pipe end",
            13 => "table 3 has one R for each reach, finite and not below zero",
            14 => "table 4 has head, flow and floor head for each section, all finite, and no head is below its floor",
            15 => "table 5 has every node's schedule, all finite, openings and speeds from 0 to 1",
            20 => "heads, flows and envelopes lent hold the section count, speeds and inflows the node count, and the spare four values per pipe",
            21 => "the steps done are at most 1,000,000, and so are they with the steps asked for",
            22 => "heads, flows, envelopes, speeds and inflows lent are finite, and no head is below its floor",
            23 => "a root is taken of a finite number not below zero",
            24 => "a line is written for a section below 512 into at least 72 bytes",
            50 => {
                "table 6 is empty, or it has two bytes per node, each count in it is at least 1, \
                 and the byte that it replaces in each node's record is 0"
            }
            51 => {
                "pipe i runs from node i to node i + 1, node 0 is a reservoir, the last a valve and the others \
                 junctions whose scheduled values are all zero, and the level and the flow are finite"
            }
            52 => "the two rows lent hold the section count",
            53 => {
                "table 7 is made of whole records of 30 bytes, each names a pump and no two the same one, \
                 and G, t0 and t1 are finite and not below zero"
            }
            _ => "no question of documents 01 and 02 has this number",
        }
    }
}

impl fmt::Display for Refused {
    fn fmt(&self, out: &mut fmt::Formatter<'_>) -> fmt::Result {
        write!(out, "refused {}: it must hold that {}", self.0, self.words())
    }
}
