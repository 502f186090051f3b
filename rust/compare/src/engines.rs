//! The two sides of a comparison, and where they differ.

use crate::cases::Case;
use reference::{asfnorm, normalise, Answer, Lent};
use std::io::{self, Write};
use std::process::{Command, Stdio};

pub fn reference(case: &Case) -> Answer {
    normalise(&case.asked, case.texts(), Lent::output(case.output))
}

/// What should be said of a case and what is, where the two differ.
pub struct Difference {
    pub expected: String,
    pub found: String,
}

/// The reference with one word of working memory too few.
pub fn reference_with_short_memory(case: &Case) -> Answer {
    let lent = Lent {
        work: 0,
        work_needed: 1,
        output: case.output,
    };
    normalise(&case.asked, case.texts(), lent)
}

/// The standard input of `asfnorm` for a case.
pub fn input(case: &Case) -> Vec<u8> {
    let first_line = match &case.first_line {
        Some(line) => line.clone(),
        None => [b"normalise=", &case.asked[..], b"\n"].concat(),
    };
    let library_line = match &case.library_line {
        Some(line) => line.clone(),
        None if case.library.is_empty() => Vec::new(),
        None => format!("library={}\n", case.library.len()).into_bytes(),
    };
    [&first_line, &library_line, &case.library, &case.text]
        .map(|part| &part[..])
        .concat()
}

/// Runs a program on a case as `asfnorm` is run, and compares what it prints with what the reference prints.
pub fn compare_program(case: &Case, program: &str) -> io::Result<Option<Difference>> {
    let input = input(case);
    let expected = asfnorm(&input);
    let found = run(program, input)?;
    Ok((expected != found).then(|| Difference {
        expected: String::from_utf8_lossy(&expected).into_owned(),
        found: String::from_utf8_lossy(&found).into_owned(),
    }))
}

/// A program that stops reading early is not an error here: its output tells.
fn run(program: &str, input: Vec<u8>) -> io::Result<Vec<u8>> {
    let mut child = Command::new(program)
        .stdin(Stdio::piped())
        .stdout(Stdio::piped())
        .spawn()?;
    let mut stdin = child.stdin.take().expect("the input is piped");
    let writer = std::thread::spawn(move || drop(stdin.write_all(&input)));
    let output = child.wait_with_output()?;
    drop(writer.join());
    Ok(output.stdout)
}
