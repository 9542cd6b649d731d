//! Compares the proved calculator with the reference implementation. Prints how many of each were
//! tried and which refusals and stops were reached; ends with status 1 on any difference.

use compare::parts;
use compare::tally::Tally;
use std::time::Instant;

fn main() {
    let before = Instant::now();
    let mut tally = Tally::default();
    // Listed first, also where one is never reached.
    for (case, _) in parts::to_be_reached() {
        tally.count(case, 0);
    }
    parts::accepted_jobs(&mut tally);
    parts::damaged_jobs(&mut tally);
    parts::calls(&mut tally);
    parts::lists(&mut tally);
    parts::edits(&mut tally);
    parts::forms(&mut tally);
    parts::settings(&mut tally);
    parts::roots(&mut tally);
    parts::lines(&mut tally);
    parts::listings(&mut tally);
    tally.print();
    let (numbers, cases) = (tally.missing(), tally.too_few(&parts::to_be_reached()));
    if !numbers.is_empty() || !cases.is_empty() {
        println!("not reached, or too seldom: {numbers:?} {cases:?}");
        std::process::exit(1);
    }
    println!("no difference, in {:.0} s", before.elapsed().as_secs_f64());
}
