//! Keeps the visible parts of modules from edition to edition: `store NAMES LIBRARY TEXT [LIBRARY TEXT]..`, the names with commas between, each
//! edition as two files, of which the library's may be empty. For each edition behind the first it prints what was done with each part.

use asf::{Specification, Store};
use std::error::Error;
use std::fs;

const USAGE: &str = "usage: store NAMES LIBRARY TEXT [LIBRARY TEXT]..";

fn main() -> Result<(), Box<dyn Error>> {
    let words: Vec<String> = std::env::args().skip(1).collect();
    let (names, files) = words.split_first().ok_or(USAGE)?;
    let mut editions = Vec::new();
    for edition in files.chunks(2) {
        match edition {
            [library, text] => editions.push((fs::read(library)?, fs::read(text)?)),
            _ => return Err(USAGE.into()),
        }
    }
    let (first, later) = editions.split_first().ok_or(USAGE)?;
    let mut store = Store::new(Specification::with_library(&first.0, &first.1));
    for name in names.split(',') {
        if let Err(refusal) = store.add(name.as_bytes()) {
            println!("{}: {}", name, refusal);
        }
    }
    for (number, (library, text)) in (2..).zip(later) {
        for (module, done) in store.change(Specification::with_library(library, text)) {
            let module = String::from_utf8_lossy(&module);
            println!("edition {}, {}: {}", number, module, done);
        }
    }
    Ok(())
}
