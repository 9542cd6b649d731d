//! Request 4 of document 02: which layouts are chains, and in which order its questions are asked.

mod chain;

use chain::{call, call_lent, two_pipes, DISCHARGE, LEAST, LEVEL, MARK};
use reference::draft::{Draft, DraftNode, DraftPipe};
use reference::layout::Form;
use reference::reader::read;
use reference::valve_setting::{not_chain, NotChain};

/// The two pipes with other ends.
fn joined(ends: [(u8, u8); 2]) -> Draft {
    let mut draft = two_pipes();
    for (pipe, (start, finish)) in draft.pipes.iter_mut().zip(ends) {
        *pipe = DraftPipe { start, finish, ..pipe.clone() };
    }
    draft
}

/// The two pipes and a third.
fn with_third(start: u8, finish: u8) -> Draft {
    let mut draft = two_pipes();
    third_pipe(&mut draft, start, finish);
    draft
}

fn third_pipe(draft: &mut Draft, start: u8, finish: u8) {
    draft.pipe(start, finish, 1, 1.0, 0.0);
    draft.sections.extend([[30.0, 0.0, 20.0]; 2]);
}

/// Nodes 3 and 4 beside the chain, the last a valve too.
fn with_separate_pipe() -> Draft {
    let mut draft = two_pipes();
    draft.node(DraftNode::junction(&[0.0]));
    draft.node(DraftNode::valve(1.0, 24.0, &[1.0]));
    third_pipe(&mut draft, 3, 4);
    draft
}

/// Pipes that make no chain, with what is lacking: a pipe turned round, pipes exchanged, a branch, a double pipe, a
/// loop, a separate pipe.
fn other_pipes() -> [(Draft, NotChain); 8] {
    [
        (joined([(1, 0), (1, 2)]), NotChain::Pipe(0)),
        (joined([(0, 1), (2, 1)]), NotChain::Pipe(1)),
        (joined([(1, 2), (0, 1)]), NotChain::Pipe(0)),
        (joined([(0, 1), (0, 2)]), NotChain::Pipe(1)),
        (joined([(0, 2), (1, 2)]), NotChain::Pipe(0)),
        (with_third(1, 2), NotChain::NodeCount),
        (with_third(2, 0), NotChain::NodeCount),
        (with_separate_pipe(), NotChain::NodeCount),
    ]
}

/// Each node of another kind; those between have scheduled values of zero.
fn other_kinds() -> [(usize, DraftNode, NotChain); 9] {
    [
        (0, DraftNode::junction(&[0.0]), NotChain::FirstNode),
        (0, DraftNode::valve(1.0, 1.0, &[1.0]), NotChain::FirstNode),
        (0, DraftNode::pump(1.0, 1.0, 1.0, &[1.0]), NotChain::FirstNode),
        (1, DraftNode::reservoir(&[0.0]), NotChain::Between(1)),
        (1, DraftNode::valve(0.0, 0.0, &[0.0]), NotChain::Between(1)),
        (1, DraftNode::pump(0.0, 0.0, 0.0, &[0.0]), NotChain::Between(1)),
        (2, DraftNode::junction(&[0.0]), NotChain::LastNode),
        (2, DraftNode::reservoir(&[1.0]), NotChain::LastNode),
        (2, DraftNode::pump(1.0, 1.0, 1.0, &[1.0]), NotChain::LastNode),
    ]
}

fn no_chains() -> Vec<(Draft, NotChain)> {
    let mut all = other_pipes().to_vec();
    for (number, node, lack) in other_kinds() {
        let mut draft = two_pipes();
        draft.nodes[number] = node;
        all.push((draft, lack));
    }
    for (entry, draw) in [(1, LEAST), (2, -LEAST), (3, 0.5)] {
        let mut draft = two_pipes();
        draft.nodes[1].schedule[entry - 1] = draw;
        all.push((draft, NotChain::DrawOff { node: 1, entry }));
    }
    all
}

/// 51 also where a discharge of 0 would have none and where the rows are too short.
#[test]
fn what_is_no_chain_is_refused() {
    for (draft, lack) in no_chains() {
        for form in Form::ALL {
            let draft = draft.in_form(form);
            assert_eq!(not_chain(&read(&draft.bytes()).unwrap()), Some(lack));
            assert!(call(&draft, LEVEL, DISCHARGE).refused(51), "{lack:?}");
            assert!(call(&draft, LEVEL, 0.0).refused(51));
            assert!(call_lent(&draft, LEVEL, DISCHARGE, [0, 0]).refused(51));
        }
    }
}

#[test]
fn level_and_discharge_must_be_finite() {
    for bad in [f64::NAN, f64::INFINITY, f64::NEG_INFINITY] {
        for (level, discharge) in [(bad, DISCHARGE), (LEVEL, bad), (bad, bad), (bad, 0.0)] {
            assert!(call(&two_pipes(), level, discharge).refused(51));
            assert!(call_lent(&two_pipes(), level, discharge, [5, 6]).refused(51));
        }
    }
}

/// 52 also where no coefficient would be given; six entries are enough.
#[test]
fn rows_must_hold_the_sections() {
    for lent in [[5, 6], [6, 5], [0, 6], [6, 0], [5, 9], [0, 0]] {
        assert!(call_lent(&two_pipes(), LEVEL, DISCHARGE, lent).refused(52), "{lent:?}");
        assert!(call_lent(&two_pipes(), LEVEL, 0.0, lent).refused(52));
    }
    for lent in [[6, 6], [6, 9], [9, 6]] {
        let called = call_lent(&two_pipes(), LEVEL, DISCHARGE, lent);
        assert_eq!(called.coefficient(), 2.0_f64.to_bits(), "{lent:?}");
        assert_eq!([called.heads[6], called.flows[6]], [MARK; 2]);
    }
}

/// An opening above 1 is refused as 15, whatever else is asked.
#[test]
fn the_questions_to_a_job_come_first() {
    let mut draft = two_pipes();
    draft.nodes[2].schedule[0] = 2.0;
    assert!(call(&draft, LEVEL, DISCHARGE).refused(15));
    draft.nodes[1].schedule[0] = 1.0;
    assert!(call_lent(&draft, f64::NAN, f64::NAN, [0, 0]).refused(15));
}
