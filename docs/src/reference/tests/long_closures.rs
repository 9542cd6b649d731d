//! Request 3 of document 02: jobs of five and of more pairs, and where their refusals begin.

use reference::draft::{Draft, DraftNode};
use reference::layout::Form;
use reference::reader::read;
use reference::refusal::Refused;
use reference::rows::{RowStore, LONGEST};
use reference::run::{run_on, start};
use reference::samples::job_q;
use reference::samples::timed::longest_jobs;

/// Job Q's tables with a full table 6: two counts of 1.
fn long_tables() -> Vec<Vec<u8>> {
    job_q().in_form(Form::FullTable6).tables()
}

/// How a job of these tables is refused; 0 where it is accepted.
fn number(tables: &[Vec<u8>]) -> u8 {
    refusal(&Draft::bytes_of(1, tables))
}

fn refusal(bytes: &[u8]) -> u8 {
    read(bytes).err().map_or(0, |Refused(number)| number)
}

#[test]
fn job_q_says_the_same_in_each_form() {
    let expected = read(&job_q().bytes()).unwrap();
    for (form, pairs, size) in [
        (Form::FivePairs, 5, 214),
        (Form::EmptyTable6, 6, 222),
        (Form::FullTable6, 6, 226),
        (Form::SevenEmptyTable6, 7, 230),
        (Form::SevenFullTable6, 7, 234),
    ] {
        let bytes = job_q().in_form(form).bytes();
        assert_eq!((bytes[0], bytes.len()), (pairs, size), "{form:?}");
        assert_eq!(read(&bytes).unwrap(), expected, "{form:?}");
        assert_eq!(Form::of(&bytes), form);
    }
}

/// A reservoir whose level at step n is n, up to step 300.
#[test]
fn a_schedule_of_300_entries_is_read_to_its_end() {
    let mut draft = job_q().in_form(Form::FullTable6);
    draft.nodes[0] = DraftNode::reservoir(&(1..=300).map(f64::from).collect::<Vec<_>>());
    draft.sections.iter_mut().for_each(|section| section[2] = -1e9);
    let bytes = draft.bytes();
    let mut store = RowStore::marked(LONGEST);
    start(&bytes, store.lend()).unwrap();
    let mut done = 0;
    for (step, level) in
        [(44, 44.0), (255, 255.0), (256, 256.0), (299, 299.0), (300, 300.0), (301, 300.0)]
    {
        done = run_on(&bytes, done, step - done, store.lend()).unwrap().done;
        assert_eq!((done, store.heads()[0]), (step, level));
    }
}

#[test]
fn question_2_admits_five_to_seven_pairs_inside_the_file() {
    let mut bytes = job_q().bytes();
    for count in [0_u16, 1, 2, 3, 4, 8, 9, 5 << 8, 6 << 8, 7 << 8, u16::MAX] {
        bytes[..2].copy_from_slice(&count.to_le_bytes());
        assert_eq!(refusal(&bytes), 2, "{count} pairs");
    }
    // Six pairs end at byte 54; with five, 46 bytes are enough for the question.
    let (mut six, mut five) = ([0; 54], [0; 54]);
    (six[0], five[0]) = (6, 5);
    for length in 46..54 {
        assert_eq!(refusal(&six[..length]), 2, "six pairs in {length} bytes");
        assert_eq!(refusal(&five[..length]), 3, "five pairs in {length} bytes");
    }
    assert_eq!((refusal(&six), refusal(&six[..45])), (3, 1));
    let empty = vec![Vec::new(); 6];
    assert_eq!((number(&empty), Draft::bytes_of(1, &empty).len()), (5, 54));
    assert_eq!((number(&empty[..5]), Draft::bytes_of(1, &empty[..5]).len()), (5, 46));
    // Seven end at byte 62.
    let mut seven = [0; 62];
    seven[0] = 7;
    for length in 46..62 {
        assert_eq!(refusal(&seven[..length]), 2, "seven pairs in {length} bytes");
    }
    assert_eq!((refusal(&seven), refusal(&seven[..45])), (3, 1));
    let mut tables = long_tables();
    tables.push(Vec::new());
    assert_eq!(number(&tables), 0);
    tables.push(Vec::new());
    assert_eq!(number(&tables), 2);
}

/// Each form with the first table where the other has it; the rest adjoins and ends with the file.
#[test]
fn question_3_goes_by_the_number_of_pairs() {
    let mut five = job_q().bytes();
    five.splice(46..46, [0; 8]);
    for pair in 0..5 {
        five[6 + 8 * pair] += 8;
    }
    assert_eq!((five[6], refusal(&five)), (54, 3));
    let mut six = job_q().in_form(Form::FullTable6).bytes();
    six[6] -= 8;
    six[10] += 8;
    assert_eq!((six[6], refusal(&six)), (46, 3));
    for form in Form::ALL {
        let mut bytes = job_q().in_form(form).bytes();
        assert_eq!(refusal(&bytes[..bytes.len() - 1]), 3, "{form:?}");
        bytes.push(0);
        assert_eq!(refusal(&bytes), 3, "{form:?}");
    }
}

/// Where the byte of a node's record stands in table 2.
const BYTES: [usize; 2] = [1, 27];

#[test]
fn question_10_asks_the_byte_only_where_table_6_is_empty() {
    for form in Form::ALL {
        for at in BYTES {
            for kind in [4, 255] {
                let mut tables = job_q().in_form(form).tables();
                tables[1][at - 1] = kind;
                assert_eq!(number(&tables), 10, "{form:?}");
            }
            let mut tables = job_q().in_form(form).tables();
            tables[1][at] = 0;
            assert_eq!(number(&tables), if form.counts_in_table_6() { 0 } else { 10 }, "{form:?}");
        }
    }
}

#[test]
fn question_50_asks_the_length_the_counts_and_the_bytes() {
    for length in (1..40).filter(|&length| length != 4) {
        let mut tables = long_tables();
        tables[5] = [1, 0].into_iter().cycle().take(length).collect();
        assert_eq!(number(&tables), 50, "table 6 of {length} bytes");
    }
    for node in 0..2 {
        let mut tables = long_tables();
        tables[5][2 * node] = 0;
        assert_eq!(number(&tables), 50, "a count of 0");
        for byte in [1, 2, 255] {
            let mut tables = long_tables();
            tables[1][BYTES[node]] = byte;
            assert_eq!(number(&tables), 50, "a byte of {byte}");
        }
    }
}

#[test]
fn question_50_comes_after_10_and_before_11() {
    let faults: [fn(&mut Vec<Vec<u8>>); 3] =
        [|tables| tables[5].push(0), |tables| tables[5][2] = 0, |tables| tables[1][1] = 1];
    for fault in faults {
        let mut tables = long_tables();
        fault(&mut tables);
        // The valve's c, and then its kind.
        tables[1][51] = 1;
        assert_eq!(number(&tables), 50);
        tables[1][26] = 4;
        assert_eq!(number(&tables), 10);
    }
    let mut tables = long_tables();
    tables[1][51] = 1;
    assert_eq!(number(&tables), 11);
}

/// Counts of 1 and 300, and then counts that other readings would take for these.
#[test]
fn question_15_goes_by_the_u16_counts() {
    let mut draft = job_q().in_form(Form::FullTable6);
    draft.nodes[1].schedule = vec![0.5; 300];
    let tables = draft.tables();
    assert_eq!((&tables[5][..], number(&tables)), (&[1, 0, 44, 1][..], 0));
    // The other order of bytes; the low bytes alone.
    for counts in [[0, 1, 1, 44], [1, 0, 44, 0]] {
        let mut tables = tables.clone();
        tables[5] = counts.to_vec();
        assert_eq!(number(&tables), 15);
    }
    for (length, expected) in
        [(8 * 300, 15), (8 * 301 - 1, 15), (8 * 301, 0), (8 * 302, 15), (8 * 45, 15)]
    {
        let mut tables = tables.clone();
        tables[4].resize(length, 0);
        assert_eq!(number(&tables), expected, "{length} bytes");
    }
    for (entry, bad) in [(255, f64::NAN), (256, -1.0), (299, 1.5), (299, f64::INFINITY)] {
        draft.nodes[1].schedule = vec![0.5; 300];
        draft.nodes[1].schedule[entry] = bad;
        assert_eq!(refusal(&draft.bytes()), 15, "{bad} as entry {}", entry + 1);
    }
}

#[test]
fn the_longest_jobs() {
    let expected = [(32_762, 4073), (32_766, 4065), (32_766, 3705), (32_768, 2008), (32_768, 3678)];
    for (draft, (size, entries)) in longest_jobs().iter().zip(expected) {
        let job = read(&draft.bytes()).unwrap();
        let counted: usize = job.nodes.iter().map(|node| node.schedule.len()).sum();
        assert_eq!((draft.byte_count(), counted), (size, entries));
        // An entry more, rightly counted, is too much.
        let mut longer = draft.clone();
        longer.nodes[1].schedule.push(0.0);
        assert_eq!(refusal(&longer.bytes()), 1);
    }
}
