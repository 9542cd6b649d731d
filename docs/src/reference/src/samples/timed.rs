//! Jobs to be timed, and jobs with as many scheduled values as the bytes of a job hold.

use crate::draft::{Draft, DraftNode};
use crate::layout::Form;
use crate::reader::MOST_BYTES;
use crate::rows::RowStore;
use crate::run::{run_on, start};

/// One pipe of 511 reaches from a reservoir to a valve that stays partly open.
pub fn one_long_pipe() -> Draft {
    let openings: Vec<f64> = (1..=200).map(|step| 1.0 - f64::from(step) / 400.0).collect();
    let mut draft = Draft { steps: 10_000, ..Draft::default() };
    let upper = draft.node(DraftNode::reservoir(&[150.0]));
    let lower = draft.node(DraftNode::valve(0.04, 0.0, &openings));
    draft.pipe(upper, lower, 511, 0.0016, 0.0);
    // Each reach has its own friction and each section its own floor.
    draft.friction.iter_mut().zip(0..).for_each(|(r, at)| *r = 9e-5 + 1e-8 * f64::from(at));
    for at in 0..512 {
        draft.section(150.0 - f64::from(at) * 0.0128, 0.477, -10.0 - 0.001 * f64::from(at));
    }
    draft
}

/// The same over uneven ground: every floor lies a metre below the lowest head that its section has in
/// 10,000 steps. Near the reservoir it is higher than heads elsewhere, so that no bounds on the pipe's
/// waves rule a stop out.
pub fn uneven_pipe() -> Draft {
    let mut draft = one_long_pipe();
    let mut rows = RowStore::zeros(draft.needed());
    start(&draft.bytes(), rows.lend()).expect("the job is accepted");
    run_on(&draft.bytes(), 0, 10_000, rows.lend()).expect("the job runs on");
    let lowest = rows.lowest().to_vec();
    draft.sections.iter_mut().zip(lowest).for_each(|(section, low)| section[2] = low - 1.0);
    draft
}

/// 32 pipes of so many reaches: eight rings of four pipes, each ring with a reservoir, a junction, a
/// valve and a pump.
pub fn many_pipes(reaches: u16) -> Draft {
    let mut draft = Draft { steps: 10_000, ..Draft::default() };
    for _ in 0..8 {
        let reservoir = draft.node(DraftNode::reservoir(&[80.0]));
        let junction = draft.node(DraftNode::junction(&[0.001, 0.002]));
        let valve = draft.node(DraftNode::valve(0.01, 10.0, &[0.9, 0.8, 0.7]));
        let pump = draft.node(DraftNode::pump(95.0, 2000.0, 2.0, &[0.8, 0.9, 1.0]));
        for (start, finish) in
            [(reservoir, junction), (junction, valve), (pump, valve), (reservoir, pump)]
        {
            draft.pipe(start, finish, reaches, 0.001, 0.01);
        }
    }
    for _ in 0..draft.section_count() {
        draft.section(80.0, 0.0, -10.0);
    }
    draft
}

/// 16 pumps, each with a main of so many reaches to a reservoir of its own. All are tripped at the first step, with so
/// much rotating mass that they deliver for 10,000 steps and more.
pub fn tripped_pumps(reaches: u16) -> Draft {
    let mut draft = Draft { steps: 10_000, ..Draft::default() };
    for _ in 0..16 {
        let pump = draft.node(DraftNode::pump(95.0, 2000.0, 2.0, &[1.0]));
        let reservoir = draft.node(DraftNode::reservoir(&[60.0]));
        draft.pipe(pump, reservoir, reaches, 0.001, 0.01);
        draft.trip(pump, 1, [1e-5, 0.4, 5.0]);
    }
    for _ in 0..draft.section_count() {
        draft.section(60.0, 0.0, -10.0);
    }
    draft
}

/// The same without its trips.
pub fn without_trips(draft: &Draft) -> Draft {
    Draft { trips: Vec::new(), ..draft.clone() }
}

/// A reservoir and a valve, joined by so many pipes of one reach.
pub fn short_main(pipes: usize) -> Draft {
    let mut draft = Draft { steps: 4_000, ..Draft::default() };
    let upper = draft.node(DraftNode::reservoir(&[80.0]));
    let lower = draft.node(DraftNode::valve(0.01, 10.0, &[0.9, 0.8, 0.7]));
    for _ in 0..pipes {
        draft.pipe(upper, lower, 1, 0.001, 0.01);
        draft.section(80.0, 0.0, -10.0);
        draft.section(80.0, 0.0, -10.0);
    }
    draft
}

/// The same with its valve shut, so that no root is taken.
pub fn with_valve_shut(draft: &Draft) -> Draft {
    let mut shut = draft.clone();
    shut.nodes[1].schedule.fill(0.0);
    shut
}

/// The same with every schedule cut to its first entry, counted in table 6.
pub fn with_one_entry(draft: &Draft) -> Draft {
    let mut cut = draft.in_form(Form::FullTable6);
    cut.nodes.iter_mut().for_each(|node| node.schedule.truncate(1));
    cut
}

/// The same, counted in table 6, with the schedules from node `first` on repeated over and over to as
/// many entries as a job holds.
pub fn with_longest_schedules(draft: &Draft, first: usize) -> Draft {
    let full = if draft.trips.is_empty() { Form::FullTable6 } else { Form::SevenFullTable6 };
    let mut long = draft.in_form(full);
    long.nodes[first..].iter_mut().for_each(|node| node.schedule.clear());
    let (entries, nodes) = ((MOST_BYTES - long.byte_count()) / 8, draft.nodes.len() - first);
    for (place, (node, old)) in
        long.nodes[first..].iter_mut().zip(&draft.nodes[first..]).enumerate()
    {
        let count = entries / nodes + usize::from(place < entries % nodes);
        node.schedule = old.schedule.iter().copied().cycle().take(count).collect();
    }
    long
}

/// The longest jobs: one schedule as long as can be, which leaves four bytes over; the same in as many
/// bytes as a full table 6 allows, for such a job's length is 2 modulo 4; the same of 32 nodes; and all
/// the bytes that there may be, with table 6 empty, and with table 6 full and seven power failures.
pub fn longest_jobs() -> [Draft; 5] {
    [
        with_longest_schedules(&short_main(1), 1),
        with_longest_schedules(&short_main(2), 1),
        with_longest_schedules(&many_pipes(1), 0),
        longest_with_table_6_empty(),
        with_longest_schedules(&seven_tripped(), 0),
    ]
}

/// The rings of one reach a pipe; seven of their eight pumps run down from step 100 on.
fn seven_tripped() -> Draft {
    let mut draft = many_pipes(1);
    for ring in 1..8 {
        draft.trip(4 * ring + 3, 100, [1e-4, 0.5, 1.0]);
    }
    draft
}

/// A chain of eight pipes of 63 reaches with six pairs, an empty table 6 and exactly as many bytes as a
/// job may have.
fn longest_with_table_6_empty() -> Draft {
    let mut draft = Draft { form: Form::EmptyTable6, steps: 300, ..Draft::default() };
    draft.node(DraftNode::reservoir(&levels(223)));
    for node in 1..8 {
        draft.node(DraftNode::junction(&vec![0.001; 223]));
        draft.pipe(node - 1, node, 63, 0.002, 0.01);
    }
    draft.node(DraftNode::valve(0.01, 10.0, &vec![0.5; 224]));
    draft.pipe(7, 8, 63, 0.002, 0.01);
    for _ in 0..draft.section_count() {
        draft.section(80.0, 0.0, -100.0);
    }
    draft
}

/// Levels that rise slowly from 80 m.
fn levels(count: u32) -> Vec<f64> {
    (0..count).map(|at| 80.0 + 0.01 * f64::from(at)).collect()
}
