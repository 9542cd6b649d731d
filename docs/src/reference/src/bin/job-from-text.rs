//! Reads the text of a job from standard input and writes its bytes to standard output. A job
//! that would be refused is not written; the refusal is said in words.

use reference::reader::read;
use reference::text::from_text;
use std::io::{self, Read, Write};
use std::process::ExitCode;

fn main() -> io::Result<ExitCode> {
    let mut text = String::new();
    io::stdin().lock().read_to_string(&mut text)?;
    let judged = from_text(&text).and_then(|draft| {
        let bytes = draft.bytes();
        read(&bytes).map(|_| bytes).map_err(|refused| refused.to_string())
    });
    match judged {
        Ok(bytes) => io::stdout().lock().write_all(&bytes).map(|()| ExitCode::SUCCESS),
        Err(words) => {
            eprintln!("{words}");
            Ok(ExitCode::FAILURE)
        }
    }
}
