//! A plain text form of a job: a line for each pipe, node, reach, section and schedule.
//!
//! ```text
//! steps 1
//! pipe from 0 to 1 reaches 2 S 1
//! node reservoir
//! node valve a 2 b 6
//! reach R 0 times 2
//! section head 10 flow 4 floor 0 times 3
//! schedule 10
//! schedule 0
//! ```
//!
//! Pipes, nodes and sections are numbered from 0 in the order of their lines; reaches and sections
//! go pipe by pipe, and the schedules are in node order. `times` repeats a reach or a section. What
//! follows `#` is a remark. Numbers written here read back to the same bits. A valve's b is the head
//! of its outlet into open air: water goes out there, and none comes back.
//!
//! A job has five pairs, and where a schedule has more than 255 entries six with a table 6 of
//! counts. A line `counts long` asks for that table all the same, `counts empty` for six pairs and
//! an empty table 6.
//!
//! A line `trip node 0 step 3 G 0.5 t0 1 t1 0` is a record of table 7: from step 3 on the pump at
//! node 0 runs down by these constants. A job with one has seven pairs; `trips none` asks for seven
//! pairs and an empty table 7.

use crate::layout::Form;

mod parse;
mod write;

pub use parse::from_text;
pub use write::{number, to_text};

/// The word for each kind of node, by its number, and how many of a, b and c it names.
const KINDS: [(&str, usize); 4] = [("junction", 0), ("reservoir", 0), ("valve", 2), ("pump", 3)];
/// For whoever wrote another word.
const KINDS_IN_WORDS: &str = "the kinds are junction, reservoir, \
    valve (an outlet into open air at head b; nothing comes back) and pump (with a non-return valve)";
const FIGURES: [&str; 3] = ["a", "b", "c"];

/// The word after `counts` for each form of six pairs.
const FORMS: [(&str, Form); 2] = [("long", Form::FullTable6), ("empty", Form::EmptyTable6)];
const CONSTANTS: [&str; 3] = ["G", "t0", "t1"];

#[cfg(test)]
mod tests {
    use super::*;
    use crate::draft::Draft;
    use crate::generate::{sound, Random};
    use crate::samples;

    #[test]
    fn job_q_reads_from_text() {
        let text = "# job Q\nsteps 1\npipe from 0 to 1 reaches 2 S 1\nnode reservoir\n\
                    node valve a 2 b 6 # the valve\nreach R 0 times 2\n\n\
                    section head 10 flow 4 floor 0 times 3\nschedule 10\nschedule 0\n";
        assert_eq!(from_text(text).unwrap(), samples::job_q());
    }

    #[test]
    fn every_sample_comes_back_from_its_text() {
        for sample in samples::all() {
            let text = to_text(sample.about, &sample.draft);
            assert_eq!(from_text(&text).unwrap().bytes(), sample.draft.bytes());
        }
    }

    #[test]
    fn jobs_of_every_form_come_back_from_their_text() {
        let mut random = Random::new(8);
        for _ in 0..200 {
            let draft = sound(&mut random);
            let back = from_text(&to_text("", &draft)).unwrap();
            assert!(back.form == draft.form && back.bytes() == draft.bytes(), "{draft:?}");
        }
    }

    #[test]
    fn numbers_come_back_with_their_bits() {
        for bits in
            [0, 1 << 63, 1, 0x7fef_ffff_ffff_ffff, 0x3ff6_a09e_667f_3bcc, 0x6974_e718_d7d7_625a]
        {
            let x = f64::from_bits(bits);
            assert_eq!(number(x).parse::<f64>().unwrap().to_bits(), bits);
        }
    }

    #[test]
    fn a_line_that_does_not_read_is_named() {
        let tank = format!("line 2: `tank` is no kind of node; {KINDS_IN_WORDS}");
        for (text, words) in [
            ("steps 1\nnode tank", tank.as_str()),
            ("steps -1", "line 1: `-1` does not fit as steps"),
            ("pipe from 0 to 1 reaches 2", "line 1: `S` is missing"),
            ("reach R 0 times 2 3", "line 1: `3` is one word too many"),
            ("reach R", "line 1: nothing follows `R`"),
            ("hose 1", "line 1: no line begins with `hose`"),
            ("steps 1\nnode junction", "there are 1 nodes but 0 schedules"),
            ("counts", "line 1: nothing follows `counts`"),
            ("counts short", "line 1: `short` is no way to count; it is `long` or `empty`"),
            ("counts long 6", "line 1: `6` is one word too many"),
            ("counts long\ncounts long", "line 2: line 1 has said how schedules are counted"),
            ("trip node 0 step 3 G 1 t0 1", "line 1: `t1` is missing"),
            ("trip 0 3 1 1 1", "line 1: `node` was looked for where `0` stands"),
            ("trip node 65536 step 3 G 1 t0 1 t1 0", "line 1: `65536` does not fit as node"),
            ("trip node 0 step -1 G 1 t0 1 t1 0", "line 1: `-1` does not fit as step"),
            (
                "trips some",
                "line 1: `some` does not fit as trips; it is `none`, or a line `trip` for each",
            ),
            (
                "trips none\ntrip node 0 step 3 G 1 t0 1 t1 0",
                "line 2: line 1 has said that there are no trips",
            ),
            ("trip node 0 step 3 G 1 t0 1 t1 0\ntrips none", "line 2: a line before has a trip"),
        ] {
            assert_eq!(from_text(text), Err(words.to_string()));
        }
    }

    /// Job Q with so many entries in the valve's schedule.
    fn job_q_of(entries: usize, form: Form) -> Draft {
        let mut draft = samples::job_q().in_form(form);
        draft.nodes[1].schedule = (0..entries).map(|at| at as f64 / entries as f64).collect();
        draft
    }

    fn says_counts(text: &str) -> Option<&str> {
        text.lines().find(|line| line.starts_with("counts"))
    }

    #[test]
    fn the_form_is_kept_and_said_only_where_it_would_be_another() {
        for (entries, form, line) in [
            (1, Form::FivePairs, None),
            (255, Form::FivePairs, None),
            (1, Form::EmptyTable6, Some("counts empty")),
            (255, Form::EmptyTable6, Some("counts empty")),
            (1, Form::FullTable6, Some("counts long")),
            (255, Form::FullTable6, Some("counts long")),
            (256, Form::FullTable6, None),
            (4000, Form::FullTable6, None),
            (1, Form::SevenEmptyTable6, None),
            (255, Form::SevenEmptyTable6, None),
            (1, Form::SevenFullTable6, Some("counts long")),
            (256, Form::SevenFullTable6, None),
        ] {
            let draft = job_q_of(entries, form);
            let text = to_text("", &draft);
            assert_eq!(says_counts(&text), line, "{entries} entries, {form:?}");
            let back = from_text(&text).unwrap();
            assert_eq!((back.form, back.bytes()), (form, draft.bytes()));
            assert_eq!(Draft::read(&draft.bytes()).unwrap().bytes(), draft.bytes());
        }
    }

    /// A trip asks for seven pairs by itself, `trips none` where there is none; trips keep their order.
    #[test]
    fn trips_come_back_in_their_order() {
        let mut draft = Draft { steps: 2, ..Draft::default() };
        draft.node(crate::draft::DraftNode::pump(10.0, 0.0, 0.0, &[1.0]));
        draft.node(crate::draft::DraftNode::pump(10.0, 0.0, 0.0, &[1.0]));
        draft.pipe(0, 1, 1, 1.0, 0.0);
        draft.section(10.0, 0.0, 0.0);
        draft.section(10.0, 0.0, 0.0);
        let empty = draft.in_form(Form::SevenEmptyTable6);
        let text = to_text("", &empty);
        assert!(text.contains("\ntrips none\n"));
        assert_eq!(from_text(&text).unwrap(), empty);
        draft.trip(1, 0, [0.5, -0.0, 1e300]);
        draft.trip(0, u32::MAX, [0.0, 1.0, 0.25]);
        for form in Form::OF_SEVEN {
            let draft = draft.in_form(form);
            let text = to_text("", &draft);
            assert!(text.contains("\ntrip node 1 step 0 G 0.5 t0 -0 t1 1e300\n"), "{text}");
            let back = from_text(&text).unwrap();
            assert!(back == draft && back.bytes() == draft.bytes() && !text.contains("none"));
        }
    }

    #[test]
    fn the_long_form_may_be_said_where_it_is_needed() {
        let draft = job_q_of(300, Form::FullTable6);
        let text = to_text("", &draft);
        for text in [format!("counts long\n{text}"), format!("{text}counts long\n")] {
            assert_eq!(from_text(&text).unwrap(), draft);
        }
    }

    #[test]
    fn a_schedule_too_long_for_its_count_is_named_by_its_line() {
        let text = format!("schedule 1\nschedule{}\n", " 0".repeat(256));
        let words = "a schedule has at most 255 entries, not 256";
        assert_eq!(
            from_text(&format!("counts empty\n{text}")),
            Err(format!("line 3: by line 1 {words}"))
        );
        assert_eq!(
            from_text(&format!("{text}counts empty\n")),
            Err(format!("line 2: by line 3 {words}"))
        );
        let words = "line 1: a schedule has at most 65535 entries, not 65536";
        let text = format!("schedule{}\n", " 0".repeat(65_536));
        assert_eq!(from_text(&text), Err(words.to_string()));
        assert_eq!(from_text(&format!("{text}counts long\n")), Err(words.to_string()));
        let nodes = from_text(&text.replace("schedule 0", "schedule"));
        assert_eq!(nodes, Err("there are 0 nodes but 1 schedules".to_string()));
    }
}
