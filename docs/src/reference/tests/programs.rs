//! The programs, run as people run them, over the sample jobs.

use reference::draft::Draft;
use reference::samples;
use reference::text::{from_text, to_text};
use std::io::Write;
use std::process::{Command, Output, Stdio};
use std::{fs, path::Path};

/// Runs a program with `input` on standard input.
fn run(program: &str, arguments: &[&str], input: &[u8]) -> Output {
    let mut child = Command::new(program)
        .args(arguments)
        .stdin(Stdio::piped())
        .stdout(Stdio::piped())
        .stderr(Stdio::piped())
        .spawn()
        .unwrap();
    child.stdin.take().unwrap().write_all(input).unwrap();
    child.wait_with_output().unwrap()
}

fn text_of(sample: &str) -> Vec<u8> {
    let path = Path::new(env!("CARGO_MANIFEST_DIR")).join("samples").join(format!("{sample}.txt"));
    fs::read(path).unwrap()
}

fn bytes_of(sample: &str) -> Vec<u8> {
    let output = run(env!("CARGO_BIN_EXE_job-from-text"), &[], &text_of(sample));
    assert!(output.status.success());
    output.stdout
}

fn listing_of(job: &[u8]) -> Vec<u8> {
    run(env!("CARGO_BIN_EXE_reference-surgelist"), &[], job).stdout
}

#[test]
fn the_sample_texts_are_those_of_the_program() {
    for sample in samples::all() {
        let text = to_text(sample.about, &sample.draft);
        assert_eq!(String::from_utf8(text_of(sample.name)).unwrap(), text, "{}", sample.name);
        assert_eq!(bytes_of(sample.name), sample.draft.bytes());
    }
}

#[test]
fn the_stored_jobs_and_listings_are_those_of_the_program() {
    let folder = Path::new(env!("CARGO_MANIFEST_DIR")).join("../../../jobs");
    let mut names = Vec::new();
    for (name, job) in samples::jobs() {
        let path = folder.join(&name);
        assert_eq!(fs::read(path.with_extension("job")).unwrap(), job, "{name}");
        assert_eq!(fs::read(path.with_extension("listing")).unwrap(), listing_of(&job), "{name}");
        names.extend([format!("{name}.job"), format!("{name}.listing")]);
    }
    // And there is no other.
    for file in fs::read_dir(folder).unwrap() {
        let name = file.unwrap().file_name().into_string().unwrap();
        assert!(name == "README.md" || names.contains(&name), "{name}");
    }
}

#[test]
fn job_q_lists_the_same_in_each_form() {
    let listing = listing_of(&bytes_of("job-q"));
    for (sample, pairs, size) in
        [("job-q-six-pairs", 6, 222), ("job-q-long-counts", 6, 226), ("job-q-seven-pairs", 7, 230)]
    {
        let job = bytes_of(sample);
        assert_eq!((job[0], job.len()), (pairs, size), "{sample}");
        assert_eq!(listing_of(&job), listing, "{sample}");
    }
}

#[test]
fn an_eighth_table_is_refused() {
    let jobs = samples::jobs();
    let (_, job) = jobs.iter().find(|(name, _)| name == "eighth-pair").unwrap();
    assert_eq!((job[0], listing_of(job)), (8, b"refused 2\n".to_vec()));
}

/// The highest head at a sample's last section, the gate.
fn highest_at_the_gate(sample: &str) -> f64 {
    let listing = String::from_utf8(listing_of(&bytes_of(sample))).unwrap();
    let line = listing.lines().nth_back(1).unwrap();
    f64::from_bits(u64::from_str_radix(line.split(' ').nth(3).unwrap(), 16).unwrap())
}

/// 80 m is the level of the reservoir.
#[test]
fn a_slow_gate_is_gentler_than_a_fast_one() {
    let (slow, fast) = (highest_at_the_gate("slow-gate"), highest_at_the_gate("fast-gate"));
    assert!((88.0..90.0).contains(&slow) && (145.0..150.0).contains(&fast), "{slow} {fast}");
    // 500 openings: six pairs, where 100 are counted in a byte.
    assert_eq!((bytes_of("slow-gate")[0], bytes_of("fast-gate")[0]), (6, 5));
}

#[test]
fn samples_end_as_they_say() {
    for (sample, last) in [
        ("job-q", "done 1"),
        ("job-q-six-pairs", "done 1"),
        ("job-q-long-counts", "done 1"),
        ("slow-gate", "done 560"),
        ("fast-gate", "done 560"),
        ("rising-main", "done 600"),
        ("branches-and-loop", "done 400"),
        ("ditch-outlet", "done 30"),
        ("set-main", "done 1000"),
        ("job-q-seven-pairs", "done 1"),
        ("power-failure", "done 600"),
        ("second-pump-goes-on", "done 600"),
        ("rundown", "done 289"),
        ("stops-as-40", "notfinite 8 0"),
        ("stops-as-41", "parted 4 3"),
        ("lauria", "done 113"),
    ] {
        let listing = String::from_utf8(listing_of(&bytes_of(sample))).unwrap();
        assert_eq!(listing.lines().last(), Some(last), "{sample}");
    }
}

#[test]
fn bytes_go_to_text_and_back() {
    let six = ["job-q-six-pairs", "job-q-long-counts", "slow-gate"];
    let seven = ["job-q-seven-pairs", "power-failure", "second-pump-goes-on"];
    let forms = six.into_iter().chain(seven);
    for sample in ["job-q", "branches-and-loop", "lauria"].into_iter().chain(forms) {
        let job = bytes_of(sample);
        let text = run(env!("CARGO_BIN_EXE_job-to-text"), &[], &job).stdout;
        assert_eq!(run(env!("CARGO_BIN_EXE_job-from-text"), &[], &text).stdout, job);
    }
}

#[test]
fn refusals_are_said_in_words() {
    let text = String::from_utf8(text_of("job-q")).unwrap().replace("S 1 ", "S -1 ");
    let output = run(env!("CARGO_BIN_EXE_job-from-text"), &[], text.as_bytes());
    assert!(!output.status.success() && output.stdout.is_empty());
    assert!(String::from_utf8(output.stderr).unwrap().starts_with("refused 9: "));
    let output = run(env!("CARGO_BIN_EXE_job-to-text"), &[], b"no job");
    assert!(String::from_utf8(output.stderr).unwrap().starts_with("refused 1: "));
    // One byte more than a job may have.
    let listing = listing_of(&[5; 32_769]);
    assert_eq!(listing, b"refused 1\n");
    let words = run(env!("CARGO_BIN_EXE_listing-in-decimals"), &[], &listing).stdout;
    assert!(String::from_utf8(words).unwrap().contains("46 to 32,768 bytes"));
}

#[test]
fn a_listing_in_decimals() {
    let listing = listing_of(&bytes_of("lauria"));
    let shown = run(env!("CARGO_BIN_EXE_listing-in-decimals"), &["--exact"], &listing).stdout;
    let text = String::from_utf8(shown).unwrap();
    let first: Vec<&str> = text.lines().nth(1).unwrap().split_whitespace().collect();
    assert_eq!([first[0], first[1], first[3], first[4]], ["0", "150", "150", "150"]);
    assert_eq!(text.lines().last(), Some("Done: 113 steps."));
}

/// What `set-valve` prints and says of a text, and whether it succeeds.
fn set_valve(arguments: &[&str], text: &str) -> (String, String, bool) {
    let output = run(env!("CARGO_BIN_EXE_set-valve"), arguments, text.as_bytes());
    let [printed, said] =
        [output.stdout, output.stderr].map(|text| String::from_utf8(text).unwrap());
    (printed, said, output.status.success())
}

fn set_main() -> (String, Draft) {
    let text = String::from_utf8(text_of("set-main")).unwrap();
    let draft = from_text(&text).unwrap();
    (text, draft)
}

#[test]
fn set_valve_makes_the_sample_again() {
    let (_, draft) = set_main();
    let mut unset = draft.clone();
    unset.nodes[3].figures[0] = 0.0;
    unset.sections.iter_mut().for_each(|section| [section[0], section[1]] = [70.0, -1.0]);
    let (printed, said, success) = set_valve(&["60", "0.04"], &to_text("", &unset));
    assert!(success && said.is_empty(), "{said}");
    assert_eq!(from_text(&printed).unwrap(), draft);
}

/// Coefficient and initial state are changed, and nothing else; what may keep the run from rest is said.
#[test]
fn set_valve_leaves_the_schedules() {
    let (text, draft) = set_main();
    let (printed, said, success) =
        set_valve(&["55", "0.03"], &text.replace("schedule 1 ", "schedule 1 0.5 "));
    assert!(success);
    let lines: Vec<&str> = said.lines().collect();
    assert!(lines[0].starts_with("node 0: the reservoir's scheduled levels are not all 55, so"));
    assert!(lines[1].starts_with("node 3: the valve's openings are not all 1, so"));
    assert_eq!(lines.len(), 2);
    let mut set = from_text(&printed).unwrap();
    assert_eq!((set.sections[0][0], set.sections[28][1]), (55.0, 0.03));
    for (section, old) in set.sections.iter_mut().zip(&draft.sections) {
        [section[0], section[1]] = [old[0], old[1]];
    }
    set.nodes[3].figures[0] = draft.nodes[3].figures[0];
    assert_eq!(set.nodes[3].schedule, [1.0, 0.5]);
    set.nodes[3].schedule = vec![1.0];
    assert_eq!(set, draft);
}

#[test]
fn set_valve_says_why_there_is_no_coefficient() {
    let (text, _) = set_main();
    for (level, discharge, words) in [
        (
            "60",
            "0",
            "no coefficient sets the valve for this discharge\nthe discharge is not above zero\n",
        ),
        ("41.5", "0.001", "a head is below its floor, first at section 0: 41.5 below 42\n"),
        ("45", "0.04", "the head at the valve is not above its outlet: 36.57066672185529 and 44\n"),
        ("60", "1e200", "a head is not finite\n"),
        ("nan", "0.04", "the level is not finite\n"),
        ("60", "-inf", "the discharge is not finite\n"),
        ("60", "much", "`much` is no number\n"),
    ] {
        let (printed, said, success) = set_valve(&[level, discharge], &text);
        assert!(!success && printed.is_empty() && said.contains(words), "{said}");
    }
    let (_, said, success) = set_valve(&["60"], &text);
    assert!(!success && said.starts_with("set-valve takes a level"), "{said}");
}

#[test]
fn set_valve_says_why_a_job_is_refused() {
    let (text, _) = set_main();
    let parted = text.replace("node junction ", "node reservoir ");
    let drawn = text.replace("schedule 0 ", "schedule 0 -0 0.001 ");
    let reversed = text.replace("from 1 to 2", "from 2 to 1");
    for (text, number, words) in [
        (parted.as_str(), 51, "\nnode 1 is no junction\n"),
        (&drawn, 51, "\nthe draw-off of junction 1 is not zero in entry 3\n"),
        (&reversed, 51, "\npipe 1 does not run from node 1 to node 2\n"),
        (&text.replace("schedule 1 ", "schedule 2 "), 15, "openings and speeds from 0 to 1\n"),
    ] {
        let (printed, said, success) = set_valve(&["60", "0.04"], text);
        assert!(
            said.starts_with(&format!("refused {number}: ")) && said.ends_with(words),
            "{said}"
        );
        assert!(!success && printed.is_empty());
    }
    let (_, said, _) = set_valve(&["60", "0.04"], "hose 1");
    assert_eq!(said, "line 1: no line begins with `hose`\n");
}

#[test]
fn rest_tells_how_far_a_run_departs() {
    let printed = |job: &[u8]| run(env!("CARGO_BIN_EXE_rest"), &[], job);
    let text = String::from_utf8(printed(&bytes_of("set-main")).stdout).unwrap();
    assert_eq!(
        text,
        "head: at most 1.492e-13 m from the initial one, at section 23 after step 59\n\
         flow: at most 1.318e-16 m³/s from the initial one, at section 20 after step 290\n\
         done 1000\n"
    );
    let refused = printed(b"no job");
    assert!(!refused.status.success() && refused.stdout.is_empty());
}
