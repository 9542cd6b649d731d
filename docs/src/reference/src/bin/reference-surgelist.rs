//! Reads a job from standard input and prints its listing.

use reference::listing::listing;
use reference::reader::MOST_BYTES;
use std::io::{self, Read, Write};

fn main() -> io::Result<()> {
    // One byte more than a job may have, so that a longer one is seen to be longer.
    let mut job = Vec::new();
    io::stdin().lock().take(MOST_BYTES as u64 + 1).read_to_end(&mut job)?;
    io::stdout().lock().write_all(listing(&job).as_bytes())
}
