//! `reference-asfnorm`: standard input to standard output, as document 01 says of `asfnorm`.

use std::io::{self, Read, Write};

fn main() -> io::Result<()> {
    let mut input = Vec::new();
    io::stdin().read_to_end(&mut input)?;
    io::stdout().write_all(&reference::asfnorm(&input))
}
