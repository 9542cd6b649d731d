//! Reads a job from standard input, runs the steps of its listing one at a time, and prints how far heads and flows
//! were from the initial ones at the most, where, and how the run ended.

use reference::listing::closing_line;
use reference::rest::{departure, Farthest};
use std::io::{self, Read};
use std::process::ExitCode;

fn main() -> io::Result<ExitCode> {
    let mut job = Vec::new();
    io::stdin().lock().read_to_end(&mut job)?;
    Ok(match departure(&job) {
        Ok(found) => {
            println!("{}", words("head", "m", found.head));
            println!("{}", words("flow", "m³/s", found.flow));
            print!("{}", closing_line(found.ran));
            ExitCode::SUCCESS
        }
        Err(refused) => {
            eprintln!("{refused}");
            ExitCode::FAILURE
        }
    })
}

fn words(row: &str, unit: &str, farthest: Farthest) -> String {
    let Farthest { by, section, step } = farthest;
    format!("{row}: at most {by:.3e} {unit} from the initial one, at section {section} after step {step}")
}
