//! Request 7 of document 02, by figures worked out by hand: the rundown, the pairs per node, the stop, and
//! where refusal 53 begins.

use reference::draft::{Draft, DraftNode, DraftTrip};
use reference::job::Trip;
use reference::reader::read;
use reference::refusal::Refused;
use reference::rows::{RowStore, INFLOWS, ROWS, SPEEDS};
use reference::run::{run_on, start, Cause, Ran, Stop};

const PLUS_ZERO: u64 = 0;
const MINUS_ZERO: u64 = 1 << 63;

/// Node 0 a pump with a = 16, b = c = 0, so that q = y and H = 16·v·v where it delivers; node 1 a reservoir at
/// 10; one reach between them, S = 1, R = 0. At rest at 10.
fn lift(speeds: &[f64]) -> Draft {
    let mut draft = Draft { steps: 5, ..Draft::default() };
    draft.node(DraftNode::pump(16.0, 0.0, 0.0, speeds));
    draft.node(DraftNode::reservoir(&[10.0]));
    draft.pipe(0, 1, 1, 1.0, 0.0);
    draft.section(10.0, 0.0, -100.0);
    draft.section(10.0, 0.0, -100.0);
    draft
}

/// The pump trips at step 3 with G = 1/16, t0 = 1, t1 = 1/2.
fn tripped_lift() -> Draft {
    let mut draft = lift(&[1.0]);
    draft.trip(0, 3, [0.0625, 1.0, 0.5]);
    draft
}

fn started(draft: &Draft) -> RowStore {
    let mut rows = RowStore::marked(draft.needed());
    start(&draft.bytes(), rows.lend()).unwrap();
    rows
}

/// The rows after so many steps from the start, none of which stops.
fn after(draft: &Draft, steps: u64) -> RowStore {
    let mut rows = started(draft);
    let ran = run_on(&draft.bytes(), 0, steps, rows.lend()).unwrap();
    assert_eq!(ran, Ran { done: steps, stop: None });
    rows
}

/// Speed, inflow, head and flow at the pump, and flow at the reservoir, all exact: at step 3 the torque is
/// 1·1·1 + (1/2)·1·6 = 4, at step 4 0.75·0.75 + 0.375·11 = 4.6875.
const STEPS: [[f64; 5]; 5] = [
    [1.0, 6.0, 16.0, 6.0, 0.0],
    [1.0, 6.0, 16.0, 6.0, 12.0],
    [0.75, 11.0, 9.0, 11.0, 12.0],
    [0.45703125, 5.342041015625, 3.342041015625, 5.342041015625, 10.0],
    [0.367680162191391, 2.1630192267054014, 2.1630192267054014, 2.1630192267054014, -1.31591796875],
];

#[test]
fn a_trip_at_step_3_over_five_steps() {
    let draft = tripped_lift();
    let mut rows = started(&draft);
    assert_eq!((rows.speeds(), rows.inflows()), (&[1.0, 0.0][..], &[0.0; 2][..]));
    for (step, expected) in STEPS.iter().enumerate() {
        run_on(&draft.bytes(), step as u64, 1, rows.lend()).unwrap();
        let found = [
            rows.speeds()[0],
            rows.inflows()[0],
            rows.heads()[0],
            rows.flows()[0],
            rows.flows()[1],
        ];
        assert_eq!(found, *expected, "step {}", step + 1);
        assert_eq!([rows.speeds()[1].to_bits(), rows.inflows()[1].to_bits()], [PLUS_ZERO; 2]);
    }
    assert_eq!(after(&draft, 5).bits(), rows.bits());
}

/// A run in which every number is rounded, by docs/src/vectors/trips.py: speed, inflow and head at the pump.
#[test]
fn a_trip_at_step_2_with_friction() {
    let mut draft = Draft { steps: 3, ..Draft::default() };
    draft.node(DraftNode::pump(10.0, 1.5, 0.0, &[1.0, 0.5]));
    draft.node(DraftNode::reservoir(&[3.0]));
    draft.pipe(0, 1, 1, 0.7, 0.25);
    draft.section(4.0, 1.5, -100.0);
    draft.section(4.0, 1.5, -100.0);
    draft.trip(0, 2, [0.1, 0.9, 1.1]);
    for (step, expected) in [
        (1, [0x3ff0_0000_0000_0000, 0x3ffc_955d_6a35_07f8, 0x4014_d9ea_815c_1522]),
        (2, [0x3fe6_d4e6_5427_887c, 0x3ff1_e38f_efec_80ab, 0x4009_b984_11c6_3003]),
        (3, [0x3fe2_8ebb_9d97_428d, 0x3fe5_f9c7_6ed1_043c, 0x4005_3edb_ff72_3f21]),
    ] {
        let rows = after(&draft, step);
        let found = [rows.speeds()[0], rows.inflows()[0], rows.heads()[0]].map(f64::to_bits);
        assert_eq!(found, expected, "step {step}");
    }
    let [speed, inflow] = [0.1, 0.8];
    assert_eq!(rundown([0.3, 2.5, 0.7], speed, inflow), 0x3fb3_6113_404e_a4aa);
}

/// The same pump twice, apart, the second in no record: it goes on by its schedule.
#[test]
fn a_second_pump_goes_on() {
    let mut draft = tripped_lift();
    draft.node(DraftNode::pump(16.0, 0.0, 0.0, &[1.0, 0.5]));
    draft.node(DraftNode::reservoir(&[10.0]));
    draft.pipe(2, 3, 1, 1.0, 0.0);
    draft.section(10.0, 0.0, -100.0);
    draft.section(10.0, 0.0, -100.0);
    for (step, [speed, inflow, ..]) in (1..).zip(STEPS) {
        let rows = after(&draft, step);
        assert_eq!((rows.speeds()[0], rows.inflows()[0]), (speed, inflow));
        assert_eq!(rows.speeds()[2], if step == 1 { 1.0 } else { 0.5 });
    }
}

/// Trip steps 0 and 1 are one; at the trip step α is what the slices hold, not that step's entry.
#[test]
fn trip_steps_0_1_and_2() {
    let speeds = |trip_step: u32, steps: u64| -> f64 {
        let mut draft = lift(&[1.0, 0.5, 0.5]);
        draft.trip(0, trip_step, [0.25, 1.0, 0.0]);
        after(&draft, steps).speeds()[0]
    };
    for trip_step in [0, 1] {
        assert_eq!(speeds(trip_step, 1), 0.75);
        assert_eq!(speeds(trip_step, 2), 0.75 - 0.25 * 0.5625);
    }
    assert_eq!((speeds(2, 1), speeds(2, 2)), (1.0, 0.75));
    assert_eq!((speeds(3, 2), speeds(3, 3)), (0.5, 0.4375));
    assert_eq!((speeds(u32::MAX, 2), speeds(9, 5)), (0.5, 0.5));
}

fn rundown(constants: [f64; 3], speed: f64, inflow: f64) -> u64 {
    let [g, t0, t1] = constants;
    Trip { node: 0, step: 0, g, t0, t1 }.rundown(speed, inflow).to_bits()
}

#[test]
fn what_a_rundown_comes_to() {
    // Below zero, and just zero.
    assert_eq!(rundown([1.0, 2.0, 0.0], 1.0, 0.0), PLUS_ZERO);
    assert_eq!(rundown([1.0, 1.0, 0.0], 1.0, 0.0), PLUS_ZERO);
    // -0 - (+0) is -0, which is not below zero.
    assert_eq!(rundown([1.0, 1.0, 1.0], -0.0, 2.0), MINUS_ZERO);
    // Minus infinity is below zero; 0 times infinity is no number, which is not.
    let most = f64::MAX;
    assert_eq!(rundown([1.0, most, most], 1.0, 1.0), PLUS_ZERO);
    assert!(f64::from_bits(rundown([0.0, most, most], 1.0, 1.0)).is_nan());
    // Nothing holds the speed to 1, nor a lent one above zero.
    assert_eq!(rundown([1.0, 1.0, 1.0], 2.0, -5.0), 8.0_f64.to_bits());
    assert_eq!(rundown([1.0, 1.0, 1.0], -3.0, 0.0), PLUS_ZERO);
    assert_eq!(rundown([1.0, 1.0, 1.0], -3.0, 5.0), 3.0_f64.to_bits());
}

/// Each constant and each of α and q in its own place: exchanging any two gives another figure.
#[test]
fn the_rundown_rounds_in_the_written_order() {
    // (0.7·0.9)·0.9 is not 0.7·(0.9·0.9), and so are the others.
    let (g, t0, t1, alpha, q): (f64, f64, f64, f64, f64) = (0.3, 0.7, 1.3, 0.9, 0.11);
    let found = rundown([g, t0, t1], alpha, q);
    assert_eq!(found, (alpha - g * ((t0 * alpha) * alpha + (t1 * alpha) * q)).to_bits());
    for other in [
        alpha - g * ((t1 * alpha) * alpha + (t0 * alpha) * q),
        alpha - g * ((t0 * alpha) * alpha + (t1 * q) * q),
        alpha - t0 * ((g * alpha) * alpha + (t1 * alpha) * q),
        alpha + g * ((t0 * alpha) * alpha + (t1 * alpha) * q),
    ] {
        assert_ne!(found, other.to_bits());
    }
}

/// The pump's node has sections 1 and 2 as ends, and its speed is no number at step 2, where every head and
/// flow is finite: 40 at section 1. With a floor at section 1 above its head 40 still precedes 41; a head
/// below its floor at section 0 is met first.
#[test]
fn a_speed_that_is_no_number_stops_at_the_lowest_section() {
    let mut draft = Draft::default();
    draft.node(DraftNode::reservoir(&[10.0]));
    draft.node(DraftNode::pump(40.0, 0.0, 0.0, &[1.0]));
    draft.node(DraftNode::reservoir(&[10.0, 3.0]));
    draft.pipe(0, 1, 1, 1.0, 0.0);
    draft.pipe(1, 2, 1, 1.0, 0.0);
    for _ in 0..4 {
        draft.section(10.0, 0.0, -100.0);
    }
    draft.trip(1, 2, [0.0, f64::MAX, f64::MAX]);
    let stops = |draft: &Draft| {
        let mut rows = started(draft);
        let ran = run_on(&draft.bytes(), 0, 5, rows.lend()).unwrap();
        let one = after(draft, 1);
        assert_eq!(rows.bits(), one.bits(), "a stopped step leaves the pairs of the step before");
        assert_eq!((one.speeds()[1], one.inflows()[1]), (1.0, 60.0));
        assert_eq!(ran.done, 1);
        ran.stop.unwrap()
    };
    assert_eq!(stops(&draft), Stop { cause: Cause::NotFinite, section: 1 });
    // B is 20 at step 1 and the heads 40; at step 2 nothing comes in, and the node's head is 10.
    draft.sections[1][2] = 10.5;
    draft.sections[1][0] = 11.0;
    let mut rows = started(&draft);
    let ran = run_on(&draft.bytes(), 0, 5, rows.lend()).unwrap();
    assert_eq!(ran.stop, Some(Stop { cause: Cause::NotFinite, section: 1 }));
    draft.nodes[0].schedule = vec![10.0, 3.0];
    draft.sections[0][2] = 5.0;
    let mut rows = started(&draft);
    let ran = run_on(&draft.bytes(), 0, 5, rows.lend()).unwrap();
    assert_eq!(ran.stop, Some(Stop { cause: Cause::Parted, section: 0 }));
}

/// A state of the caller's own: a speed that is not scheduled, of any size and sign, and pairs at other nodes.
#[test]
fn a_state_of_ones_own_runs() {
    let draft = tripped_lift();
    let mut rows = started(&draft);
    rows.rows[SPEEDS].copy_from_slice(&[7.0, -3.0]);
    rows.rows[INFLOWS].copy_from_slice(&[-2.0, 1e300]);
    // Step 3 from there: 7 - (49 - 7)/16 = 4.375; the reservoir's pair has no effect and goes.
    let ran = run_on(&draft.bytes(), 2, 1, rows.lend());
    assert_eq!(ran, Ok(Ran { done: 3, stop: None }));
    assert_eq!(rows.speeds()[0], 4.375);
    assert_eq!([rows.speeds()[1].to_bits(), rows.inflows()[1].to_bits()], [PLUS_ZERO; 2]);
    // Before its trip step the lent speed has no effect.
    let mut rows = started(&draft);
    rows.rows[SPEEDS][0] = -3.0;
    run_on(&draft.bytes(), 0, 1, rows.lend()).unwrap();
    assert_eq!(rows.bits(), after(&draft, 1).bits());
    // No step writes no pair.
    rows.rows[SPEEDS].copy_from_slice(&[7.0, -3.0]);
    run_on(&draft.bytes(), 1, 0, rows.lend()).unwrap();
    assert_eq!(rows.speeds(), [7.0, -3.0]);
}

/// The start writes the first entry with its bits, also where the trip step is 0 or 1.
#[test]
fn the_start_writes_the_first_entry() {
    for trip_step in [0, 1] {
        let mut draft = lift(&[-0.0, 1.0]);
        draft.trip(0, trip_step, [1.0, 1.0, 1.0]);
        let rows = started(&draft);
        assert_eq!(rows.speeds().iter().map(|x| x.to_bits()).collect::<Vec<_>>(), [MINUS_ZERO, 0]);
        assert_eq!(rows.inflows().iter().map(|x| x.to_bits()).collect::<Vec<_>>(), [0, 0]);
        assert_eq!(after(&draft, 1).speeds()[0].to_bits(), MINUS_ZERO);
    }
}

#[test]
fn questions_20_and_22_ask_for_the_node_count() {
    let draft = tripped_lift();
    let (job, needed) = (draft.bytes(), draft.needed());
    assert_eq!(needed, [2, 2, 2, 2, 2, 2, 4]);
    for row in 0..ROWS {
        let mut lengths = needed;
        lengths[row] -= 1;
        let mut short = RowStore::marked(lengths);
        assert_eq!(start(&job, short.lend()), Err(Refused(20)), "row {row}");
        assert_eq!(run_on(&job, 0, 1, short.lend()), Err(Refused(20)), "row {row}");
    }
    for row in [SPEEDS, INFLOWS] {
        for node in 0..2 {
            for bad in [f64::NAN, f64::INFINITY, f64::NEG_INFINITY] {
                let mut rows = started(&draft);
                rows.rows[row][node] = bad;
                let before = rows.bits();
                assert_eq!(run_on(&job, 0, 1, rows.lend()), Err(Refused(22)));
                assert_eq!(rows.bits(), before);
            }
        }
    }
}

/// How a job with these records of table 7 is refused; 0 where it is accepted.
fn number(trips: &[DraftTrip]) -> u8 {
    let draft = Draft { trips: trips.to_vec(), ..tripped_lift() };
    read(&draft.bytes()).err().map_or(0, |Refused(number)| number)
}

#[test]
fn question_53_asks_for_whole_records_of_pumps_and_sound_constants() {
    let sound = DraftTrip { node: 0, step: 3, constants: [1.0, 1.0, 1.0] };
    assert_eq!((number(&[]), number(&[sound]), number(&[sound, sound])), (0, 0, 53));
    for node in [1, 2, 3, 32, 255, 256, 65_535] {
        assert_eq!(number(&[DraftTrip { node, ..sound }]), 53, "node {node}");
        assert_eq!(number(&[sound, DraftTrip { node, ..sound }]), 53, "node {node}");
    }
    for constant in 0..3 {
        for (x, expected) in [
            (-0.0, 0),
            (f64::MAX, 0),
            (f64::from_bits(1), 0),
            (-f64::from_bits(1), 53),
            (-1.0, 53),
            (f64::INFINITY, 53),
            (f64::NEG_INFINITY, 53),
            (f64::NAN, 53),
        ] {
            let mut trip = sound;
            trip.constants[constant] = x;
            assert_eq!(number(&[trip]), expected, "{x} as constant {constant}");
        }
    }
    for length in 1..95 {
        let mut tables = tripped_lift().tables();
        let record = tables[6].clone();
        tables[6] = record.iter().copied().cycle().take(length).collect();
        let bytes = Draft::bytes_of(5, &tables);
        assert_eq!(read(&bytes).is_ok(), length == 30, "table 7 of {length} bytes");
        if length != 30 {
            assert_eq!(read(&bytes), Err(Refused(53)));
        }
    }
}

#[test]
fn question_53_comes_after_50_and_before_11() {
    for full in [false, true] {
        let mut draft = tripped_lift();
        if full {
            draft.form = reference::layout::Form::SevenFullTable6;
        }
        draft.trips[0].node = 1;
        draft.nodes[1].figures[2] = 1.0;
        assert_eq!(read(&draft.bytes()), Err(Refused(53)));
        let mut tables = draft.tables();
        tables[5] = vec![1, 0, 0, 0];
        assert_eq!(read(&Draft::bytes_of(5, &tables)), Err(Refused(50)));
        draft.trips[0].node = 0;
        assert_eq!(read(&draft.bytes()), Err(Refused(11)));
    }
}
