//! Writes the text of every sample job into the first directory named (`samples` where none is), and
//! where a second is named the jobs with their listings into that one.

use reference::listing::listing;
use reference::samples::{all, jobs};
use reference::text::to_text;
use std::{env, fs, io, path::Path};

fn main() -> io::Result<()> {
    let mut directories = env::args().skip(1);
    let texts = directories.next().unwrap_or_else(|| "samples".to_string());
    for sample in all() {
        let path = Path::new(&texts).join(format!("{}.txt", sample.name));
        fs::write(path, to_text(sample.about, &sample.draft))?;
    }
    if let Some(directory) = directories.next() {
        for (name, job) in jobs() {
            let path = Path::new(&directory).join(name);
            fs::write(path.with_extension("job"), &job)?;
            fs::write(path.with_extension("listing"), listing(&job))?;
        }
    }
    Ok(())
}
