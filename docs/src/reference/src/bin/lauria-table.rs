//! Compares the heads of the sample job `lauria` with the printed ones of table 4.

use reference::lauria::compare;

fn main() {
    let compared = compare();
    println!("step time section printed here difference");
    for at in compared.iter().filter(|at| at.difference() != 0) {
        println!(
            "{} {:.2} {} {:.2} {:.4} {:+.2}",
            at.step,
            at.step as f64 * 0.05,
            at.section,
            at.printed as f64 / 100.0,
            at.head,
            at.difference() as f64 / 100.0
        );
    }
    let agree = compared.iter().filter(|at| at.difference() == 0).count();
    println!("{agree} of {} printed heads agree to the printed hundredth", compared.len());
}
