//! Reads a listing of `surgelist` from standard input and prints it in decimals, its last line in
//! words. `--exact` shows every digit that is needed to read the same bits back.

use reference::decimals::{in_decimals, Shown};
use std::io::{self, Read};
use std::process::ExitCode;

fn main() -> io::Result<ExitCode> {
    let exact = std::env::args().any(|word| word == "--exact");
    let mut listing = String::new();
    io::stdin().lock().read_to_string(&mut listing)?;
    Ok(match in_decimals(&listing, if exact { Shown::Exact } else { Shown::Rounded }) {
        Ok(text) => {
            print!("{text}");
            ExitCode::SUCCESS
        }
        Err(words) => {
            eprintln!("{words}");
            ExitCode::FAILURE
        }
    })
}
