//! Reads the bytes of a job from standard input and prints its text. Of a job that is refused it
//! says why.

use reference::draft::Draft;
use reference::text::to_text;
use std::io::{self, Read};
use std::process::ExitCode;

fn main() -> io::Result<ExitCode> {
    let mut bytes = Vec::new();
    io::stdin().lock().read_to_end(&mut bytes)?;
    Ok(match Draft::read(&bytes) {
        Ok(draft) => {
            print!("{}", to_text("", &draft));
            ExitCode::SUCCESS
        }
        Err(refused) => {
            eprintln!("{refused}");
            ExitCode::FAILURE
        }
    })
}
