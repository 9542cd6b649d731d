//! Compares the speeds of a power failure with the closed form of source document 002, at a step, half of it and a
//! quarter, and the heads of the document's example 9.2.4 with its printed ones.

use reference::rundown::{compare, departures, kb, SECONDS};

fn main() {
    println!("Kb = {:.4} 1/s; the speed beside 1/(Kb·t + 1) over {SECONDS} s", kb());
    println!("reaches step steps departure at ratio");
    let mut last = None;
    for found in departures() {
        let ratio =
            last.map_or("-".to_string(), |last: f64| format!("{:.3}", last / found.greatest));
        println!(
            "{} {:.5} {} {:.3e} {:.2} {ratio}",
            found.reaches, found.step_time, found.steps, found.greatest, found.seconds
        );
        last = Some(found.greatest);
    }
    println!("step section printed here difference");
    let compared = compare();
    for at in compared.iter().filter(|at| at.difference() != 0) {
        println!(
            "{} {} {:.2} {:.4} {:+.2}",
            at.step,
            at.section,
            at.printed as f64 / 100.0,
            at.head,
            at.difference() as f64 / 100.0
        );
    }
    let agree = compared.iter().filter(|at| at.difference() == 0).count();
    println!("{agree} of {} printed heads agree to the printed hundredth", compared.len());
}
