//! The forms of the run-on written for speed against the plain one: answers and rows in every bit.

use reference::baseline;
use reference::draft::{Draft, DraftNode};
use reference::generate::{
    any_pair_number, cut_up, damaged, damaged_anywhere, odd, outlets, sound, trips, Random,
};
use reference::reader::QUESTIONS;
use reference::refusal::Refused;
use reference::rows::{RowStore, Rows, INFLOWS, LONGEST, ROWS, SPARE, SPEEDS};
use reference::run::{self, start, Cause, Ran, Stop};

type RunOn = fn(&[u8], u64, u64, Rows<'_>) -> Result<Ran, Refused>;

const FORMS: [(&str, RunOn); 3] = [
    ("in place", baseline::in_place::run_on),
    ("in place by bounds", baseline::in_place::run_on_by_bounds),
    ("with own rows", baseline::own_rows::run_on),
];

/// Calls all of them on the same rows; all must answer and leave the same.
fn all_alike(job: &[u8], done: u64, count: u64, rows: &mut RowStore) -> Result<Ran, Refused> {
    let before = rows.clone();
    let answer = run::run_on(job, done, count, rows.lend());
    for (name, run_on) in FORMS {
        let mut fast = before.clone();
        assert_eq!(run_on(job, done, count, fast.lend()), answer, "{name}");
        assert_eq!(fast.bits(), rows.bits(), "{name}");
    }
    answer
}

/// A start, then the job's steps in several calls, before each of which the spare is full of NaNs.
/// Answers how many of the calls stopped.
fn run_cut_up(random: &mut Random, draft: &Draft) -> usize {
    let (job, mut stopped) = (draft.bytes(), 0);
    let mut rows = RowStore::marked(draft.needed().map(|length| length + random.below(4)));
    start(&job, rows.lend()).unwrap();
    let mut done = 0;
    for count in cut_up(random, u64::from(draft.steps)) {
        rows.mark_spare(draft.needed()[SPARE]);
        let ran = all_alike(&job, done, count, &mut rows).unwrap();
        done = ran.done;
        stopped += usize::from(ran.stop.is_some());
    }
    stopped
}

#[test]
fn on_sound_jobs() {
    let mut random = Random::new(10);
    let mut stopped = 0;
    for _ in 0..2000 {
        let draft = sound(&mut random);
        stopped += run_cut_up(&mut random, &draft);
    }
    assert!(stopped > 100, "{stopped} calls stopped");
}

#[test]
fn on_odd_jobs() {
    let mut random = Random::new(11);
    let mut stopped = 0;
    for _ in 0..3000 {
        let draft = odd(&mut random);
        stopped += run_cut_up(&mut random, &draft);
    }
    assert!(stopped > 100, "{stopped} calls stopped");
}

#[test]
fn on_outlets() {
    let mut random = Random::new(12);
    let mut stopped = 0;
    for _ in 0..3000 {
        let draft = outlets(&mut random);
        stopped += run_cut_up(&mut random, &draft);
    }
    assert!(stopped > 100, "{stopped} calls stopped");
}

/// Most stops are for a speed that is no number.
#[test]
fn on_power_failures() {
    let mut random = Random::new(16);
    let mut stopped = 0;
    for _ in 0..4000 {
        let draft = trips(&mut random);
        stopped += run_cut_up(&mut random, &draft);
    }
    assert!(stopped > 100, "{stopped} calls stopped");
}

/// Floors on which some head stands at its least in a long run: it runs on. With one of them the
/// least step higher it stops there, though no head has been that low for long.
#[test]
fn on_floors_just_met() {
    let mut random = Random::new(15);
    let (mut ran_on, mut stopped) = (0, 0);
    for _ in 0..600 {
        let mut draft = sound(&mut random);
        draft.steps = random.from_to(20, 700) as u32;
        let Some(lowest) = lowest_heads(&mut draft) else {
            continue;
        };
        // Far from most heads the floor of one section alone is near.
        let near = random.pick(&[1, 3, 1000]);
        for (section, &low) in draft.sections.iter_mut().zip(&lowest) {
            section[2] = if random.once_in(near) { low } else { low - 1000.0 };
        }
        ran_on += usize::from(run_cut_up(&mut random, &draft) == 0);
        let at = random.below(lowest.len());
        draft.sections[at][2] = lowest[at].next_up();
        if draft.sections[at][0] > lowest[at] {
            stopped += usize::from(run_cut_up(&mut random, &draft) > 0);
        }
    }
    assert!(ran_on > 100 && stopped > 100, "{ran_on} ran on, {stopped} stopped");
}

/// The least head of each section in the whole run of a job without floors, if it is not stopped.
fn lowest_heads(draft: &mut Draft) -> Option<Vec<f64>> {
    draft.sections.iter_mut().for_each(|section| section[2] = -1e300);
    let job = draft.bytes();
    let mut rows = RowStore::zeros(draft.needed());
    start(&job, rows.lend()).unwrap();
    let ran = run::run_on(&job, 0, u64::from(draft.steps), rows.lend()).unwrap();
    ran.stop.is_none().then(|| rows.lowest().to_vec())
}

/// An inner section whose flow or head passes every f64, while both ends stay finite.
#[test]
fn on_inner_sections_past_every_number() {
    let flow_too_large = [0.0, 0.0, 1.2e308, 0.0, 1.2e308, 0.0, 0.0, 0.0];
    let head_too_high = [0.0, 1e150, 0.0, -1e150, 0.0, -1e150, 0.0, -1e150];
    let head_too_low = head_too_high.map(|q| -q);
    for (s, flows, section) in
        [(1e10, flow_too_large, 3), (1e-200, head_too_high, 2), (1e-200, head_too_low, 2)]
    {
        let mut draft = Draft::default();
        let upper = draft.node(DraftNode::reservoir(&[0.0]));
        let lower = draft.node(DraftNode::reservoir(&[0.0]));
        draft.pipe(upper, lower, 7, s, 0.0);
        flows.iter().for_each(|_| draft.section(0.0, 0.0, -1e300));
        let job = draft.bytes();
        let mut rows = RowStore::marked(draft.needed());
        start(&job, rows.lend()).unwrap();
        // Envelopes against the flows, so that no sum of the numbers lent is past every f64.
        rows.rows[1].copy_from_slice(&flows);
        rows.rows[2].copy_from_slice(&flows.map(|q| -q));
        let stop = Some(Stop { cause: Cause::NotFinite, section });
        assert_eq!(all_alike(&job, 0, 1, &mut rows), Ok(Ran { done: 0, stop }));
    }
}

#[test]
fn on_damaged_jobs() {
    let mut random = Random::new(12);
    let mut rows = RowStore::zeros(LONGEST);
    for question in QUESTIONS {
        for _ in 0..50 {
            let job = damaged(&mut random, &[question]);
            assert_eq!(all_alike(&job, 0, 1, &mut rows), Err(Refused(question)));
        }
    }
    for _ in 0..3000 {
        let job = damaged_anywhere(&mut random);
        let mut rows = RowStore::marked(LONGEST);
        if start(&job, rows.lend()).is_ok() {
            all_alike(&job, 0, 20, &mut rows).unwrap();
        }
    }
}

/// The state lent need not be one that a call left: any envelopes, any heads not below their floors.
#[test]
fn on_rows_of_any_numbers() {
    let mut random = Random::new(13);
    let numbers = [0.0, -0.0, 1.0, -1.0, 30.0, 1e-310, 1e10];
    for _ in 0..2000 {
        let make = random.pick(&[sound as fn(&mut Random) -> Draft, odd, trips, trips]);
        let draft = make(&mut random);
        let job = draft.bytes();
        let mut rows = RowStore::marked(draft.needed());
        start(&job, rows.lend()).unwrap();
        for (section, [_, _, floor]) in draft.sections.iter().enumerate() {
            for row in 0..4 {
                let number = random.pick(&numbers);
                if row > 0 || number >= *floor {
                    rows.rows[row][section] = number;
                }
            }
        }
        for row in [SPEEDS, INFLOWS] {
            let used = draft.nodes.len();
            rows.rows[row][..used].fill_with(|| any_pair_number(&mut random));
        }
        let (done, count) = (random.below(300) as u64, random.below(10) as u64);
        all_alike(&job, done, count, &mut rows).unwrap();
    }
}

#[test]
fn on_calls_to_be_refused() {
    let mut random = Random::new(14);
    for _ in 0..300 {
        let draft = sound(&mut random);
        let (job, sections) = (draft.bytes(), draft.section_count());
        let mut rows = RowStore::zeros(draft.needed());
        start(&job, rows.lend()).unwrap();
        assert_eq!(all_alike(&job, 999_999, 2, &mut rows), Err(Refused(21)));
        let (row, section) = (random.below(4), random.below(sections));
        let mut short = rows.clone();
        let short_row = random.below(ROWS);
        short.rows[short_row].truncate(draft.needed()[short_row] - 1);
        assert_eq!(all_alike(&job, 0, 1, &mut short), Err(Refused(20)));
        rows.rows[row][section] = random.pick(&[f64::NAN, f64::INFINITY, f64::NEG_INFINITY]);
        assert_eq!(all_alike(&job, 0, 1, &mut rows), Err(Refused(22)));
        start(&job, rows.lend()).unwrap();
        let (pair, node) = (random.pick(&[SPEEDS, INFLOWS]), random.below(draft.nodes.len()));
        rows.rows[pair][node] = random.pick(&[f64::NAN, f64::INFINITY, f64::NEG_INFINITY]);
        assert_eq!(all_alike(&job, 0, 1, &mut rows), Err(Refused(22)));
        start(&job, rows.lend()).unwrap();
        rows.rows[0][section] = draft.sections[section][2] - 1.0;
        assert_eq!(all_alike(&job, 0, 1, &mut rows), Err(Refused(22)));
    }
}
