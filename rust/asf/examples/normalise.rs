//! Normalises one module of a specification: `normalise NAME [LIBRARY] < FILE`. It prints the visible lines of its normal form, or why it is
//! refused. LIBRARY is a file whose modules count as standing before those of FILE.

use asf::Specification;
use std::error::Error;
use std::io::{self, Read};

fn main() -> Result<(), Box<dyn Error>> {
    let mut words = std::env::args().skip(1);
    let asked = words
        .next()
        .ok_or("usage: normalise NAME [LIBRARY] < FILE")?;
    let library = match words.next() {
        Some(path) => std::fs::read(path)?,
        None => Vec::new(),
    };
    let mut text = Vec::new();
    io::stdin().read_to_end(&mut text)?;
    let listing = asf::normalise(
        asked.as_bytes(),
        Specification::with_library(&library, &text),
    )?;
    for line in asf::lines(listing.visible()) {
        let line = line?;
        println!(
            "{} is {}",
            String::from_utf8_lossy(line.key),
            String::from_utf8_lossy(line.value)
        );
    }
    Ok(())
}
