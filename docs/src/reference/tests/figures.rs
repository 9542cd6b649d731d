//! Figures worked out from documents 01 and 02, by hand or by docs/src/vectors, each chosen so that a
//! slip which P1 to P10 let through gives another one.

use reference::draft::{Draft, DraftNode};
use reference::job::Kind;
use reference::node::head;
use reference::rows::RowStore;
use reference::run::{run_on, start, Ran};
use reference::wave::{from_above, from_below, Point, Sums};

/// The rows after `count` steps.
fn after(draft: &Draft, count: u64) -> RowStore {
    let bytes = draft.bytes();
    let mut store = RowStore::zeros(draft.needed());
    start(&bytes, store.lend()).unwrap();
    assert_eq!(run_on(&bytes, 0, count, store.lend()), Ok(Ran { done: count, stop: None }));
    store
}

/// Head and flow at a section after one step.
fn at(draft: &Draft, section: usize) -> (f64, f64) {
    let store = after(draft, 1);
    (store.heads()[section], store.flows()[section])
}

/// A reservoir at 10, a pipe of two reaches, a junction; heads 10, flows 4, floors -100.
fn main_of_two_reaches(s: f64) -> Draft {
    let mut draft = Draft::default();
    let upper = draft.node(DraftNode::reservoir(&[10.0]));
    let lower = draft.node(DraftNode::junction(&[4.0]));
    draft.pipe(upper, lower, 2, s, 0.0);
    for _ in 0..3 {
        draft.section(10.0, 4.0, -100.0);
    }
    draft
}

/// Section 1: CP = 14 by reach 0 without friction, CM = (4 - 10) - 0.25·16 = -10 by reach 1.
/// The finish end: CP = 14 - 4 = 10, so H = (10 - 4)/1 = 6 and Q = 10 - 6 = 4.
#[test]
fn each_reach_has_its_own_friction() {
    let mut draft = main_of_two_reaches(1.0);
    draft.friction[1] = 0.25;
    assert_eq!(at(&draft, 1), (12.0, 2.0));
    assert_eq!(at(&draft, 2), (6.0, 4.0));
    // The start end, by reach 0: CM = -6, so Q = 10 - 6.
    assert_eq!(at(&draft, 0), (10.0, 4.0));
}

/// With S = 2: at the start CM = 4 - 20 = -16, K = 16, Q = 2·11 - 16 where the level is 11; at the
/// finish CP = 24, H = (24 - 4)/2, Q = 24 - 2·10.
#[test]
fn s_enters_the_lines_and_the_end_flows() {
    let mut draft = main_of_two_reaches(2.0);
    draft.nodes[0].schedule = vec![11.0];
    assert_eq!(at(&draft, 0), (11.0, 6.0));
    assert_eq!(at(&draft, 1), (10.0, 4.0));
    assert_eq!(at(&draft, 2), (10.0, 4.0));
}

/// Pipe k has its section 0 at another node and finishes at node 3 with K = Q + H: 2^53, 1 and 1.
/// In rising order the sum is 2^53, in any other that adds 1 and 1 first it is 2^53 + 2.
#[test]
fn sums_are_taken_in_rising_pipe_number() {
    let large = 2.0_f64.powi(53);
    let mut draft = Draft::default();
    for _ in 0..3 {
        draft.node(DraftNode::reservoir(&[0.0]));
    }
    let joint = draft.node(DraftNode::junction(&[large]));
    for (node, flow) in [(0, large), (1, 1.0), (2, 1.0)] {
        draft.pipe(node, joint, 1, 1.0, 0.0);
        draft.section(0.0, flow, -1e300);
        draft.section(0.0, flow, -1e300);
    }
    assert_eq!(at(&draft, 5), (0.0, 1.0));
}

/// w = (0.5·4)²/2 = 2; y = 6 - 2·1 = 4; r = root(4 + 4·8) = 6; q = 8·2/8 = 2; H = (6 - 2)/2.
/// With B = -2: y = -4, q = 0, H = -2/2.
#[test]
fn a_valve_with_t_of_2() {
    let valve = Kind::Valve { a: 4.0, b: 1.0 };
    assert_eq!(head(valve, 0.5, Sums { b: 6.0, t: 2.0 }), 2.0);
    assert_eq!(head(valve, 0.5, Sums { b: -2.0, t: 2.0 }), -1.0);
}

/// h = 3 + 0.25·28 = 10; y = 2·10 - 12 = 8; b·T = 1.5; q = 16/(1 + root(1 + 48)) = 2;
/// H = (12 + 2)/2. With B = 20, y = 0: the pump gives nothing.
#[test]
fn a_pump_with_a_sump_and_t_of_2() {
    let pump = Kind::Pump { a: 28.0, b: 0.75, c: 3.0 };
    assert_eq!(head(pump, 0.5, Sums { b: 12.0, t: 2.0 }), 7.0);
    assert_eq!(head(pump, 0.5, Sums { b: 20.0, t: 2.0 }), 10.0);
}

/// The level goes 12, 9, 9, ...: the envelopes keep 12 and 9, and the initial head elsewhere.
#[test]
fn envelopes_keep_the_extremes() {
    let mut draft = main_of_two_reaches(1.0);
    draft.nodes[0].schedule = vec![12.0, 9.0];
    let store = after(&draft, 3);
    assert_eq!((store.heads()[0], store.highest()[0], store.lowest()[0]), (9.0, 12.0, 9.0));
    // Section 1 after step 2: CP = 12 + 6 = 18, CM = -6: 12; after step 3: CP = 9 + Q.
    let two = after(&draft, 2);
    assert_eq!((two.heads()[1], two.flows()[1]), (12.0, 6.0));
    assert_eq!((two.highest()[1], two.lowest()[1]), (12.0, 10.0));
}

/// +0 against -0 changes no envelope: the head is -0, the envelopes stay +0.
#[test]
fn envelopes_change_by_greater_and_less_only() {
    let mut draft = main_of_two_reaches(1.0);
    draft.nodes[0].schedule = vec![-0.0];
    draft.nodes[1].schedule = vec![0.0];
    draft.sections.fill([0.0, 0.0, -1.0]);
    let store = after(&draft, 1);
    assert_eq!(store.heads()[0].to_bits(), (-0.0_f64).to_bits());
    assert_eq!((store.highest()[0].to_bits(), store.lowest()[0].to_bits()), (0, 0));
}

/// Two pipes beside each other without friction, one from node 0 to node 1 and one back: at node 1
/// K = 14 from the first and -CM = -(4 - 10) = 6 from the second; B = 20, T = 2, H = (20 - 4)/2,
/// and the end flows are 14 - 8 and 8 - 6.
#[test]
fn a_node_with_a_finish_and_a_start_end() {
    let mut draft = main_of_two_reaches(1.0);
    draft.pipe(1, 0, 1, 1.0, 0.0);
    draft.section(10.0, 4.0, -100.0);
    draft.section(10.0, 4.0, -100.0);
    assert_eq!(at(&draft, 2), (8.0, 6.0));
    assert_eq!(at(&draft, 3), (8.0, 2.0));
}

/// 1 + 2^53 rounds to 2^53, so CP and CM are 2^53 - 1; summed in another order they would be 2^53.
/// (R·Q)·|Q| is 1e200 where R·(Q·|Q|) passes every f64.
#[test]
fn the_lines_round_in_the_written_order() {
    let large = 2.0_f64.powi(53);
    assert_eq!(from_above(1.0, 1.0, Point { head: large, flow: 1.0 }), large - 1.0);
    assert_eq!(from_below(1.0, 1.0, Point { head: -large, flow: 1.0 }), large - 1.0);
    let swift = Point { head: 0.0, flow: 2.0_f64.powi(600) };
    assert_eq!(from_above(1.0, 2.0_f64.powi(-600), swift), 0.0);
}

/// P6 and P8 with factors whose products would leave the range in another order: v·a is 2, and b·T
/// is 1.5 while T·y is past every f64.
#[test]
fn valve_and_pump_multiply_in_the_written_order() {
    let (wide, thin) = (2.0_f64.powi(601), 2.0_f64.powi(-600));
    let valve = Kind::Valve { a: wide, b: 6.0 };
    assert_eq!(head(valve, thin, Sums { b: 14.0, t: 1.0 }), 10.0);
    let t = 2.0_f64.powi(1021);
    let pump = Kind::Pump { a: 8.0 / t, b: 1.5 / t, c: 0.0 };
    assert_eq!(head(pump, 1.0, Sums { b: 0.0, t }), 2.0 / t);
}

/// The heads and flows of two pipes over three steps, worked out by docs/src/vectors/steps.py. The
/// valve discharges at steps 1 and 2; at step 3 y is about -0.52, and its head is B/T.
#[test]
fn a_valve_that_discharges_twice_and_then_draws_nothing() {
    let mut draft = Draft::default();
    let upper = draft.node(DraftNode::reservoir(&[11.0, 5.0]));
    let joint = draft.node(DraftNode::junction(&[0.5]));
    let lower = draft.node(DraftNode::valve(2.0, 6.0, &[1.0, 0.5]));
    draft.pipe(upper, joint, 1, 2.0, 0.25);
    draft.pipe(joint, lower, 3, 0.7, 0.0);
    draft.friction = vec![0.25, 0.5, 0.125, 0.0625];
    for [head, flow] in [[13.0, 4.0], [11.0, 1.0], [11.0, 4.0], [9.0, 4.0], [7.0, 5.0], [7.0, 4.0]]
    {
        draft.section(head, flow, -100.0);
    }
    let ends = [
        (0x401f_be19_9860_0ddf, 0x4006_42a8_f779_862c),
        (0x4021_412c_d6ff_e0c3, 0x3ff9_ef2d_db5c_d7e8),
        (0x4015_0b87_0455_2874, 0x0000_0000_0000_0000),
    ];
    for (count, end) in (1..).zip(ends) {
        let store = after(&draft, count);
        assert_eq!((store.heads()[5].to_bits(), store.flows()[5].to_bits()), end, "step {count}");
    }
}
