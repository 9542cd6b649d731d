//! Document 01's own figures and edges.

use reference::draft::{Draft, DraftNode};
use reference::listing::{closing_line, line, listing};
use reference::reader::read;
use reference::refusal::Refused;
use reference::rows::{RowStore, LONGEST, ROWS, SPARE};
use reference::run::{run_on, start, Cause, Ran, Stop};
use reference::samples::job_q;
use reference::wave::Point;

/// The state after a start and `count` steps, with the answer.
fn after(draft: &Draft, count: u64) -> (RowStore, Ran) {
    let bytes = draft.bytes();
    let mut store = RowStore::marked(LONGEST);
    start(&bytes, store.lend()).unwrap();
    let ran = run_on(&bytes, 0, count, store.lend()).unwrap();
    (store, ran)
}

#[test]
fn job_q_lists_as_printed() {
    let printed = "\
        0 4024000000000000 4010000000000000 4024000000000000 4024000000000000\n\
        1 4024000000000000 4010000000000000 4024000000000000 4024000000000000\n\
        2 402c000000000000 0000000000000000 402c000000000000 4024000000000000\n\
        done 1\n";
    assert_eq!(listing(&job_q().bytes()), printed);
}

#[test]
fn p1_to_p3() {
    let (store, _) = after(&job_q(), 2);
    assert_eq!((store.heads()[1], store.flows()[1]), (14.0, 0.0));
    let (store, _) = after(&job_q(), 3);
    assert_eq!(store.flows()[0], -4.0);
    let (store, ran) = after(&job_q(), 5);
    assert_eq!(store.heads()[2], 6.0);
    assert_eq!(ran, Ran { done: 5, stop: None });
}

/// A reservoir, one pipe and a junction, everything at rest.
fn at_rest(reaches: u16, head: f64, floor: f64) -> Draft {
    let mut draft = Draft { steps: 3, ..Draft::default() };
    let upper = draft.node(DraftNode::reservoir(&[head]));
    let lower = draft.node(DraftNode::junction(&[0.0]));
    draft.pipe(upper, lower, reaches, 1.0, 0.0);
    for _ in 0..=reaches {
        draft.section(head, 0.0, floor);
    }
    draft
}

#[test]
fn reaches_511_pass_and_512_do_not() {
    assert!(read(&at_rest(511, 1.0, 0.0).bytes()).is_ok());
    assert_eq!(read(&at_rest(512, 1.0, 0.0).bytes()), Err(Refused(7)));
    assert_eq!(read(&at_rest(0, 1.0, 0.0).bytes()), Err(Refused(7)));
}

#[test]
fn a_head_on_its_floor_runs_on() {
    let (_, ran) = after(&at_rest(4, 2.0, 2.0), 100);
    assert_eq!(ran, Ran { done: 100, stop: None });
    // -0 is not below +0.
    let (_, ran) = after(&at_rest(4, -0.0, 0.0), 100);
    assert_eq!(ran, Ran { done: 100, stop: None });
}

#[test]
fn a_million_steps_done_pass_with_none_asked_for_only() {
    let bytes = job_q().bytes();
    let mut store = RowStore::zeros(job_q().needed());
    start(&bytes, store.lend()).unwrap();
    let mut ask = |done, count| run_on(&bytes, done, count, store.lend());
    assert_eq!(ask(1_000_000, 0), Ok(Ran { done: 1_000_000, stop: None }));
    assert_eq!(ask(1_000_000, 1), Err(Refused(21)));
    assert_eq!(ask(1_000_001, 0), Err(Refused(21)));
    assert_eq!(ask(999_999, 1), Ok(Ran { done: 1_000_000, stop: None }));
    assert_eq!(ask(u64::MAX, u64::MAX), Err(Refused(21)));
    assert_eq!(ask(1, u64::MAX), Err(Refused(21)));
}

#[test]
fn a_node_reads_entry_n_at_step_n_and_its_last_afterwards() {
    let mut draft = at_rest(2, 10.0, 0.0);
    draft.nodes[0].schedule = vec![11.0, 12.0, 13.0];
    for (count, head) in [(1, 11.0), (2, 12.0), (3, 13.0), (4, 13.0)] {
        assert_eq!(after(&draft, count).0.heads()[0], head);
    }
}

#[test]
fn a_stop_keeps_state_and_envelopes_of_the_last_finished_step() {
    // The level falls under the floor at step 3.
    let mut draft = at_rest(2, 10.0, 5.0);
    draft.nodes[0].schedule = vec![10.0, 10.0, 4.0];
    let (stopped, ran) = after(&draft, 9);
    let stop = Some(Stop { cause: Cause::Parted, section: 0 });
    assert_eq!(ran, Ran { done: 2, stop });
    assert_eq!(stopped.bits(), after(&draft, 2).0.bits());
    assert_eq!(closing_line(ran), "parted 2 0\n");
}

#[test]
fn at_one_section_40_precedes_41_and_the_lowest_section_decides() {
    // A draw-off beyond every f64 makes the head minus infinity: not finite, and below its floor.
    let mut draft = at_rest(1, 10.0, 0.0);
    draft.pipes[0].s = 1e-300;
    draft.nodes[1].schedule = vec![1e300];
    let (_, ran) = after(&draft, 1);
    assert_eq!(ran.stop, Some(Stop { cause: Cause::NotFinite, section: 1 }));
    // Section 0 goes below its floor in the same step and is met first.
    draft.nodes[0].schedule = vec![-1.0];
    let (_, ran) = after(&draft, 1);
    assert_eq!(ran.stop, Some(Stop { cause: Cause::Parted, section: 0 }));
    assert_eq!(ran.done, 0);
}

#[test]
fn a_t_beyond_every_f64_stops_even_a_reservoir() {
    let mut draft = Draft::default();
    let upper = draft.node(DraftNode::reservoir(&[0.0]));
    let lower = draft.node(DraftNode::reservoir(&[0.0]));
    draft.pipe(upper, lower, 1, 1e308, 0.0);
    draft.pipe(upper, lower, 1, 1e308, 0.0);
    for _ in 0..4 {
        draft.section(0.0, 0.0, -1.0);
    }
    let (_, ran) = after(&draft, 1);
    assert_eq!(ran.stop, Some(Stop { cause: Cause::NotFinite, section: 0 }));
}

/// Job Q has 3 sections, 2 nodes and 1 pipe: 4 entries of its spare are in use. Here every slice has some
/// entries more.
const LONGER_THAN_Q: [usize; ROWS] = [7, 5, 6, 4, 3, 8, 9];

/// The bits of the spare after a call on job Q, which leaves all entries past those in use marked.
fn spare_in_use(store: &RowStore) -> Vec<u64> {
    let (bits, marked) = (store.bits(), RowStore::marked(LONGER_THAN_Q).bits());
    for (row, used) in job_q().needed().into_iter().enumerate() {
        assert_eq!(bits[row][used..], marked[row][used..], "row {row}");
    }
    bits[SPARE][..4].to_vec()
}

#[test]
fn the_spare_is_cleared_and_entries_past_those_in_use_untouched() {
    let bytes = job_q().bytes();
    let mut store = RowStore::marked(LONGER_THAN_Q);
    start(&bytes, store.lend()).unwrap();
    assert_eq!(spare_in_use(&store), [0; 4]);
    for count in [0, 1, 5] {
        store.mark_spare(4);
        run_on(&bytes, 0, count, store.lend()).unwrap();
        assert_eq!(spare_in_use(&store), [0; 4]);
    }
}

#[test]
fn a_stop_clears_the_spare() {
    // The level falls under the floor at step 3.
    let mut draft = job_q();
    draft.nodes[0].schedule = vec![10.0, 10.0, -1.0];
    let bytes = draft.bytes();
    let mut store = RowStore::marked(LONGER_THAN_Q);
    start(&bytes, store.lend()).unwrap();
    for (done, count) in [(0, 9), (2, 1)] {
        store.mark_spare(4);
        let stop = Some(Stop { cause: Cause::Parted, section: 0 });
        assert_eq!(run_on(&bytes, done, count, store.lend()), Ok(Ran { done: 2, stop }));
        assert_eq!(spare_in_use(&store), [0; 4]);
    }
}

#[test]
fn a_spare_of_three_is_refused_and_one_of_four_is_enough() {
    let bytes = job_q().bytes();
    for (length, answer) in [(0, Err(Refused(20))), (3, Err(Refused(20))), (4, Ok(3)), (5, Ok(3))] {
        let mut store = RowStore::marked([3, 3, 3, 3, 2, 2, length]);
        assert_eq!(start(&bytes, store.lend()), answer, "a spare of {length}");
        let ran = answer.map(|_| Ran { done: 2, stop: None });
        assert_eq!(run_on(&bytes, 0, 2, store.lend()), ran, "a spare of {length}");
    }
}

#[test]
fn what_the_spare_holds_has_no_effect() {
    let bytes = job_q().bytes();
    let (expected, _) = after(&job_q(), 5);
    for fill in [f64::NAN, f64::INFINITY, -0.0, 1e300, -7.5] {
        let mut store = RowStore::marked(LONGEST);
        store.rows[SPARE][..4].fill(fill);
        start(&bytes, store.lend()).unwrap();
        for (done, count) in [(0, 2), (2, 3)] {
            store.rows[SPARE][..4].fill(fill);
            run_on(&bytes, done, count, store.lend()).unwrap();
        }
        assert_eq!(store.bits(), expected.bits());
    }
}

#[test]
fn minus_zero_is_not_below_zero_but_is_not_all_zero_bits() {
    let mut draft = job_q();
    draft.friction = vec![-0.0, 0.0];
    draft.nodes[1] = DraftNode::valve(-0.0, -0.0, &[-0.0, 1.0]);
    assert!(read(&draft.bytes()).is_ok());
    draft.nodes[1].figures[2] = -0.0;
    assert_eq!(read(&draft.bytes()), Err(Refused(11)));
    draft.nodes[1] = DraftNode::pump(-0.0, -0.0, -0.0, &[-0.0]);
    assert!(read(&draft.bytes()).is_ok());
    draft.nodes[0].figures[0] = -0.0;
    assert_eq!(read(&draft.bytes()), Err(Refused(11)));
}

#[test]
fn a_refused_call_writes_nothing() {
    let bytes = job_q().bytes();
    let mut store = RowStore::marked(LONGER_THAN_Q);
    let marked = store.bits();
    // Rows of NaNs: 22. Steps past the limit: 21, before it.
    assert_eq!(run_on(&bytes, 0, 1, store.lend()), Err(Refused(22)));
    assert_eq!(run_on(&bytes, 2_000_000, 1, store.lend()), Err(Refused(21)));
    assert_eq!(store.bits(), marked);
    // Each slice short by one in turn: 20, before 21 and 22.
    for row in 0..ROWS {
        let mut short = store.clone();
        short.rows[row].truncate(job_q().needed()[row] - 1);
        let before = short.bits();
        assert_eq!(start(&bytes, short.lend()), Err(Refused(20)));
        assert_eq!(run_on(&bytes, 2_000_000, 1, short.lend()), Err(Refused(20)));
        assert_eq!(short.bits(), before);
    }
}

#[test]
fn a_run_cut_in_two_is_the_run_in_one() {
    let bytes = job_q().bytes();
    let (whole, ran) = after(&job_q(), 17);
    let mut cut = RowStore::marked(LONGEST);
    start(&bytes, cut.lend()).unwrap();
    assert_eq!(run_on(&bytes, 0, 4, cut.lend()).unwrap().done, 4);
    assert_eq!(run_on(&bytes, 4, 13, cut.lend()), Ok(ran));
    assert_eq!(cut.bits(), whole.bits());
}

#[test]
fn the_line_call_hands_back_what_it_wrote() {
    let mut out = [b'x'; 80];
    let point = Point { head: 10.0, flow: -0.0 };
    let part = line(511, point, f64::MAX, f64::from_bits(1), &mut out).unwrap();
    let text = "511 4024000000000000 8000000000000000 7fefffffffffffff 0000000000000001\n";
    assert_eq!(part, text.as_bytes());
    assert_eq!(part.len(), 72);
    assert_eq!(out[72..], [b'x'; 8]);
    assert_eq!(line(512, point, 0.0, 0.0, &mut out), Err(Refused(24)));
    assert_eq!(line(0, point, 0.0, 0.0, &mut out[..71]), Err(Refused(24)));
    assert_eq!(&out[..72], text.as_bytes());
}

#[test]
fn refused_jobs_print_the_number_alone() {
    assert_eq!(listing(&[]), "refused 1\n");
    assert_eq!(listing(&[0; 32_769]), "refused 1\n");
    assert_eq!(listing(&[0; 46]), "refused 2\n");
}
