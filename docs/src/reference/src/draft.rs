//! A job as a program puts it together, before it is written down as bytes. Nothing is judged
//! here, so that jobs to be refused can be written too.

use crate::job::{Kind, Trip};
use crate::layout::{pair_at, Form, MOST_PAIRS};
use crate::reader::read;
use crate::refusal::Refused;
use crate::rows::{needed, Lengths};

#[derive(Clone, Debug, Default, PartialEq)]
pub struct Draft {
    pub form: Form,
    /// Steps for the listing.
    pub steps: u32,
    pub pipes: Vec<DraftPipe>,
    pub nodes: Vec<DraftNode>,
    /// R of each reach, pipe by pipe.
    pub friction: Vec<f64>,
    /// Head, flow and floor head of each section.
    pub sections: Vec<[f64; 3]>,
    /// The records of table 7, for which the form has seven pairs.
    pub trips: Vec<DraftTrip>,
}

#[derive(Clone, Copy, Debug, PartialEq)]
pub struct DraftTrip {
    pub node: u16,
    pub step: u32,
    /// G, t0 and t1.
    pub constants: [f64; 3],
}

#[derive(Clone, Debug, PartialEq)]
pub struct DraftPipe {
    pub start: u8,
    pub finish: u8,
    pub reaches: u16,
    pub s: f64,
}

#[derive(Clone, Debug, PartialEq)]
pub struct DraftNode {
    pub kind: u8,
    /// a, b and c.
    pub figures: [f64; 3],
    /// At most as many entries as the draft's form can count.
    pub schedule: Vec<f64>,
}

impl DraftTrip {
    fn of(trip: &Trip) -> DraftTrip {
        let Trip { node, step, g, t0, t1 } = *trip;
        DraftTrip { node: node as u16, step, constants: [g, t0, t1] }
    }
}

impl DraftNode {
    pub fn junction(draws: &[f64]) -> DraftNode {
        DraftNode { kind: 0, figures: [0.0; 3], schedule: draws.to_vec() }
    }

    pub fn reservoir(levels: &[f64]) -> DraftNode {
        DraftNode { kind: 1, figures: [0.0; 3], schedule: levels.to_vec() }
    }

    pub fn valve(a: f64, b: f64, openings: &[f64]) -> DraftNode {
        DraftNode { kind: 2, figures: [a, b, 0.0], schedule: openings.to_vec() }
    }

    pub fn pump(a: f64, b: f64, c: f64, speeds: &[f64]) -> DraftNode {
        DraftNode { kind: 3, figures: [a, b, c], schedule: speeds.to_vec() }
    }
}

impl Draft {
    /// Adds a node; answers its number.
    pub fn node(&mut self, node: DraftNode) -> u8 {
        self.nodes.push(node);
        (self.nodes.len() - 1) as u8
    }

    /// Adds a pipe whose reaches all have friction `r`; answers its number.
    pub fn pipe(&mut self, start: u8, finish: u8, reaches: u16, s: f64, r: f64) -> usize {
        self.pipes.push(DraftPipe { start, finish, reaches, s });
        self.friction.extend(vec![r; usize::from(reaches)]);
        self.pipes.len() - 1
    }

    /// Adds a section to those of the pipes in order.
    pub fn section(&mut self, head: f64, flow: f64, floor: f64) {
        self.sections.push([head, flow, floor]);
    }

    /// Adds a record of table 7; the form becomes one of seven pairs.
    pub fn trip(&mut self, node: u8, step: u32, constants: [f64; 3]) {
        self.trips.push(DraftTrip { node: node.into(), step, constants });
        self.form = self.form.of_seven();
    }

    /// Sections that the pipes have in all.
    pub fn section_count(&self) -> usize {
        self.pipes.iter().map(|pipe| usize::from(pipe.reaches) + 1).sum()
    }

    /// What question 20 asks each slice lent with the job to hold.
    pub fn needed(&self) -> Lengths {
        needed(self.section_count(), self.nodes.len(), self.pipes.len())
    }

    /// How many bytes the job has.
    pub fn byte_count(&self) -> usize {
        self.bytes().len()
    }

    /// Entries of the longest schedule.
    pub fn longest_schedule(&self) -> usize {
        self.nodes.iter().map(|node| node.schedule.len()).max().unwrap_or(0)
    }

    /// Five pairs where a byte counts each schedule, else six with a full table 6; seven that count alike
    /// where there is a trip.
    pub fn fewest_pairs(&self) -> Form {
        let counted = if self.longest_schedule() <= Form::FivePairs.most_entries() {
            Form::FivePairs
        } else {
            Form::FullTable6
        };
        if self.trips.is_empty() {
            counted
        } else {
            counted.of_seven()
        }
    }

    /// The forms that can hold the job.
    pub fn forms(&self) -> Vec<Form> {
        let forms = if self.trips.is_empty() { &Form::ALL[..] } else { &Form::OF_SEVEN };
        let longest = self.longest_schedule();
        forms.iter().copied().filter(|form| longest <= form.most_entries()).collect()
    }

    /// The same job in another form.
    pub fn in_form(&self, form: Form) -> Draft {
        Draft { form, ..self.clone() }
    }

    /// The bytes of the job.
    pub fn bytes(&self) -> Vec<u8> {
        Draft::bytes_of(self.steps, &self.tables())
    }

    /// The bytes of a job of these tables, each next one where the last ended.
    pub fn bytes_of(steps: u32, tables: &[Vec<u8>]) -> Vec<u8> {
        let mut bytes = Vec::new();
        bytes.extend((tables.len() as u16).to_le_bytes());
        bytes.extend(steps.to_le_bytes());
        let mut offset = pair_at(tables.len());
        for table in tables {
            bytes.extend((offset as u32).to_le_bytes());
            bytes.extend((table.len() as u32).to_le_bytes());
            offset += table.len();
        }
        for table in tables {
            bytes.extend(table);
        }
        bytes
    }

    /// The tables, as many as the form has pairs.
    pub fn tables(&self) -> Vec<Vec<u8>> {
        let mut tables: [Vec<u8>; MOST_PAIRS] = Default::default();
        for pipe in &self.pipes {
            tables[0].extend([pipe.start, pipe.finish]);
            tables[0].extend(pipe.reaches.to_le_bytes());
            push_numbers(&mut tables[0], &[pipe.s]);
        }
        for node in &self.nodes {
            let (count, mut byte) = (node.schedule.len(), 0);
            if self.form.counts_in_table_6() {
                let count = u16::try_from(count).expect("a u16 counts the schedule");
                tables[5].extend(count.to_le_bytes());
            } else {
                byte = u8::try_from(count).expect("a byte counts the schedule");
            }
            tables[1].extend([node.kind, byte]);
            push_numbers(&mut tables[1], &node.figures);
            push_numbers(&mut tables[4], &node.schedule);
        }
        push_numbers(&mut tables[2], &self.friction);
        for section in &self.sections {
            push_numbers(&mut tables[3], section);
        }
        for trip in &self.trips {
            tables[6].extend(trip.node.to_le_bytes());
            tables[6].extend(trip.step.to_le_bytes());
            push_numbers(&mut tables[6], &trip.constants);
        }
        assert!(self.form.pairs() == MOST_PAIRS || self.trips.is_empty(), "a trip has a table 7");
        tables.into_iter().take(self.form.pairs()).collect()
    }

    /// The draft whose bytes these are.
    pub fn read(bytes: &[u8]) -> Result<Draft, Refused> {
        let job = read(bytes)?;
        let pipes = job.pipes.iter().map(|pipe| DraftPipe {
            start: pipe.start as u8,
            finish: pipe.finish as u8,
            reaches: pipe.reaches as u16,
            s: pipe.s,
        });
        let nodes = job.nodes.iter().map(|node| match node.kind {
            Kind::Junction => DraftNode::junction(&node.schedule),
            Kind::Reservoir => DraftNode::reservoir(&node.schedule),
            Kind::Valve { a, b } => DraftNode::valve(a, b, &node.schedule),
            Kind::Pump { a, b, c } => DraftNode::pump(a, b, c, &node.schedule),
        });
        Ok(Draft {
            form: Form::of(bytes),
            steps: job.steps,
            pipes: pipes.collect(),
            nodes: nodes.collect(),
            friction: job.friction,
            sections: job.initial.iter().map(|at| [at.head, at.flow, at.floor]).collect(),
            trips: job.trips.iter().map(DraftTrip::of).collect(),
        })
    }
}

fn push_numbers(bytes: &mut Vec<u8>, numbers: &[f64]) {
    for number in numbers {
        bytes.extend(number.to_bits().to_le_bytes());
    }
}
