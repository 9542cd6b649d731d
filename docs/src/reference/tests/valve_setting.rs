//! Request 4 of document 02: the valve set for a discharge, by figures worked out by hand.

mod chain;

use chain::{call, two_pipes, DISCHARGE, HEADS, LEAST, LEVEL, MARK, MORE};
use reference::draft::{Draft, DraftNode};
use reference::layout::Form;
use reference::reader::read;
use reference::valve_setting::{work_out, Cause};

fn causes(draft: &Draft, level: f64, discharge: f64) -> Vec<Cause> {
    work_out(&read(&draft.bytes()).unwrap(), level, discharge).causes
}

/// No coefficient, for these causes and no other.
fn none_for(draft: &Draft, level: f64, discharge: f64, expected: &[Cause]) {
    assert!(call(draft, level, discharge).none());
    assert_eq!(causes(draft, level, discharge), expected);
}

/// H - b = 28 - 24, whose root is 2, and 4/2 is 2. Past the sections the marks are left.
#[test]
fn heads_are_carried_over_the_node() {
    for form in Form::ALL {
        let called = call(&two_pipes().in_form(form), LEVEL, DISCHARGE);
        assert_eq!(called.coefficient(), 2.0_f64.to_bits());
        let marks = [MARK; MORE];
        assert_eq!(called.heads, [&HEADS.map(f64::to_bits)[..], &marks].concat());
        assert_eq!(called.flows, [&[DISCHARGE.to_bits(); 6][..], &marks].concat());
    }
}

/// R = 7, Q = 1.1 and S = 0.7, worked out apart: in the written order the loss ends in 36, as R·(Q·|Q|) or by R/S it
/// would end in 34, as (R·Q)·(|Q|/S) in 35. From level 0 the head is the loss itself.
#[test]
fn products_and_quotient_round_in_the_written_order() {
    let mut draft = two_pipes();
    draft.pipes[0].s = 0.7;
    draft.friction = vec![7.0, 0.0, 0.0, 0.0];
    draft.nodes[2].figures[1] = -100.0;
    draft.sections = vec![[0.0, 0.0, -100.0]; 6];
    let called = call(&draft, 0.0, 1.1);
    assert_eq!(called.heads[1], 0xc028_3333_3333_3336);
}

/// A head on its floor is not below it, at any section; the next f64 above is a floor too high.
#[test]
fn floors_are_asked_from_section_0_on() {
    for (section, head) in HEADS.into_iter().enumerate() {
        let mut draft = two_pipes();
        draft.sections[section] = [50.0, 0.0, head];
        assert_eq!(call(&draft, LEVEL, DISCHARGE).coefficient(), 2.0_f64.to_bits());
        draft.sections[section][2] = head.next_up();
        none_for(&draft, LEVEL, DISCHARGE, &[Cause::HeadBelowFloor]);
    }
}

#[test]
fn the_last_head_must_be_above_the_outlet() {
    let mut draft = two_pipes();
    for b in [28.0, 28.0_f64.next_up(), 1e9] {
        draft.nodes[2].figures[1] = b;
        none_for(&draft, LEVEL, DISCHARGE, &[Cause::NotAboveOutlet]);
    }
    // 28 less the f64 before it is 2^-48, whose root is 2^-24: 4/2^-24 is 2^26.
    draft.nodes[2].figures[1] = 28.0_f64.next_down();
    assert_eq!(call(&draft, LEVEL, DISCHARGE).coefficient(), 2.0_f64.powi(26).to_bits());
}

/// With Q = -4 the heads rise along the pipes, and no other cause holds.
#[test]
fn the_discharge_must_be_above_zero() {
    let mut draft = two_pipes();
    for discharge in [0.0, -0.0, -LEAST, -4.0] {
        none_for(&draft, LEVEL, discharge, &[Cause::DischargeNotAboveZero]);
    }
    // 40 + 1e308·4·4 passes every f64.
    draft.friction[0] = 1e308;
    none_for(
        &draft,
        LEVEL,
        -4.0,
        &[Cause::DischargeNotAboveZero, Cause::HeadNotFinite, Cause::DifferenceNotFinite],
    );
}

/// A head that is minus infinity is below its floor and not above the outlet either.
#[test]
fn a_head_that_is_not_finite() {
    let mut draft = two_pipes();
    draft.friction[2] = 1e308;
    let expected = [
        Cause::HeadBelowFloor,
        Cause::NotAboveOutlet,
        Cause::HeadNotFinite,
        Cause::DifferenceNotFinite,
    ];
    none_for(&draft, LEVEL, DISCHARGE, &expected);
}

#[test]
fn the_difference_must_be_finite() {
    let mut draft = two_pipes();
    draft.nodes[2].figures[1] = -1e308;
    none_for(&draft, 1e308, DISCHARGE, &[Cause::DifferenceNotFinite]);
    draft.nodes[2].figures[1] = 1e308;
    draft.sections = vec![[0.0, 0.0, -f64::MAX]; 6];
    none_for(&draft, -1e308, DISCHARGE, &[Cause::NotAboveOutlet, Cause::DifferenceNotFinite]);
}

/// A main without friction at the least subnormal, into an outlet at 0: the root is 2^-537, so that Q = 2^486 gives
/// 2^1023 and twice that passes every f64.
#[test]
fn the_coefficient_must_be_finite() {
    let mut draft = two_pipes();
    draft.friction = vec![0.0; 4];
    draft.nodes[2].figures[1] = 0.0;
    draft.sections = vec![[0.0, 0.0, 0.0]; 6];
    let (enough, too_much) = (2.0_f64.powi(486), 2.0_f64.powi(487));
    assert_eq!(call(&draft, LEAST, enough).coefficient(), 2.0_f64.powi(1023).to_bits());
    none_for(&draft, LEAST, too_much, &[Cause::CoefficientNotFinite]);
    let both = [Cause::DischargeNotAboveZero, Cause::CoefficientNotFinite];
    none_for(&draft, LEAST, -too_much, &both);
}

/// The least subnormal by 2 is half way to it and rounds to +0; by the f64 before 2, to the least again.
#[test]
fn a_coefficient_of_zero_is_an_answer() {
    let mut draft = two_pipes();
    draft.nodes[2].figures[1] = 36.0;
    let called = call(&draft, LEVEL, LEAST);
    assert_eq!((called.coefficient(), called.flows[5]), (0, 1));
    draft.nodes[2].figures[1] = 37.0;
    assert_eq!(call(&draft, LEVEL, LEAST).coefficient(), 1);
}

/// -0 less a loss of +0 is -0, and less one of -0, by an R of -0, +0; neither is below a floor of 0.
#[test]
fn signed_zeros_are_written_as_they_come() {
    let mut draft = two_pipes();
    draft.friction = vec![0.0, 0.0, -0.0, 0.0];
    draft.nodes[2].figures[1] = -4.0;
    draft.sections = vec![[0.0, 0.0, 0.0]; 6];
    let called = call(&draft, -0.0, 4.0);
    assert_eq!(called.heads[..6], [-0.0, -0.0, -0.0, -0.0, 0.0, 0.0].map(f64::to_bits));
    assert_eq!(called.coefficient(), 2.0_f64.to_bits());
}

/// One pipe of one reach has no junction: 40 - 1·16/1 = 24, 24 - 8 = 16, 4/4.
#[test]
fn a_chain_of_one_pipe() {
    let mut draft = Draft::default();
    draft.node(DraftNode::reservoir(&[1.0]));
    draft.node(DraftNode::valve(0.0, 8.0, &[0.0]));
    draft.pipe(0, 1, 1, 1.0, 1.0);
    draft.sections = vec![[0.0, 0.0, 0.0]; 2];
    let called = call(&draft, LEVEL, DISCHARGE);
    assert_eq!(called.coefficient(), 1.0_f64.to_bits());
    assert_eq!(called.heads[..2], [40.0, 24.0].map(f64::to_bits));
}
