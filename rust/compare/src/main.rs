//! `compare`: tallies the answers over seeds, or looks for the first seed on which two implementations differ.

use compare::cases::{case, undivided, Case};
use compare::decided::{self, Tally};
use compare::deep::deep_loads;
use compare::divided;
use compare::editions::{chain, write_word};
use compare::engines::{self, Difference};
use compare::import_order::{self, Agreed, Told};
use compare::loads::loads;
use compare::meetings::meetings;
use compare::proved::Proved;
use compare::shrink::shrink;
use compare::timing;
use reference::{Answer, Name};
use std::collections::BTreeMap;
use std::env;
use std::error::Error;
use std::fs;
use std::io::{self, BufWriter, Write};
use std::path::Path;
use std::process::ExitCode;

const USAGE: &str = "usage:
  compare tally COUNT [FIRST]            answers of the reference over seeds, by kind of text
  compare program PATH COUNT [FIRST]     a program like asfnorm against the reference
  compare proved COUNT FIRST DRIVER..    the proved library, behind its driver in C, against the reference
  compare divided COUNT FIRST DRIVER..   the proved library on texts divided at each module against the same undivided
  compare decide COUNT FIRST DRIVER..    the proved library's decisions against the reference's, over chains of editions
  compare chains COUNT FIRST             the chains themselves, for the program `chains` of rust/asf
  compare imports PAIRS FIRST [DRIVER..] the proved library, or else the reference, on texts with their imports in another order
  compare time TIMES DRIVER..            times of the library and of the reference, as a table
  compare time-decisions TIMES DRIVER..  times of a decision whether a part may be kept beside those of a call, as a table
  compare texts FOLDER                   the texts that are timed, and deep ones, each as a standard input of asfnorm
  compare input SEED                     the standard input of asfnorm for a seed";

fn main() -> Result<ExitCode, Box<dyn Error>> {
    let arguments: Vec<String> = env::args().skip(1).collect();
    let words: Vec<&str> = arguments.iter().map(String::as_str).collect();
    match words[..] {
        ["tally", count] => tally(count.parse()?, 0),
        ["tally", count, first] => tally(count.parse()?, first.parse()?),
        ["program", path, count] => against_program(path, count.parse()?, 0),
        ["program", path, count, first] => against_program(path, count.parse()?, first.parse()?),
        ["proved", count, first, _, ..] => {
            let proved = Proved::new(&arguments[3..]);
            search(count.parse()?, first.parse()?, case, |case| {
                proved.compare(case)
            })
        }
        ["divided", count, first, _, ..] => {
            let proved = Proved::new(&arguments[3..]);
            search(count.parse()?, first.parse()?, undivided, |case| {
                divided::compare(&proved, case)
            })
        }
        ["decide", count, first, _, ..] => {
            let proved = Proved::new(&arguments[3..]);
            decisions(count.parse()?, first.parse()?, &proved)
        }
        ["chains", count, first] => chains(count.parse()?, first.parse()?),
        ["imports", pairs, first] => {
            rearranged(pairs.parse()?, first.parse()?, import_order::ask_reference)
        }
        ["imports", pairs, first, _, ..] => {
            let proved = Proved::new(&arguments[3..]);
            rearranged(pairs.parse()?, first.parse()?, |case, asked| {
                import_order::ask_proved(&proved, case, asked)
            })
        }
        ["time", times, _, ..] => {
            timing::table(times.parse()?, &arguments[2..])?;
            Ok(ExitCode::SUCCESS)
        }
        ["time-decisions", times, _, ..] => {
            timing::decisions(times.parse()?, &arguments[2..])?;
            Ok(ExitCode::SUCCESS)
        }
        ["texts", folder] => texts(Path::new(folder)),
        ["input", seed] => input(seed.parse()?),
        _ => {
            eprintln!("{USAGE}");
            Ok(ExitCode::FAILURE)
        }
    }
}

/// Looks for the first chain of editions between two of which the library decides otherwise than the reference.
fn decisions(count: u64, first: u64, proved: &Proved) -> Result<ExitCode, Box<dyn Error>> {
    let mut all = Tally::default();
    for seed in first..first + count {
        match decided::compare(proved, &chain(seed)) {
            Ok(tally) => all += tally,
            Err(difference) => {
                println!("chain {seed}\n--- expected\n{}", difference.expected);
                println!("--- found\n{}", difference.found);
                return Ok(ExitCode::FAILURE);
            }
        }
    }
    println!("{count} chains of editions from {first}: no difference in decisions; {all}");
    Ok(ExitCode::SUCCESS)
}

fn chains(count: u64, first: u64) -> Result<ExitCode, Box<dyn Error>> {
    let out = &mut BufWriter::new(io::stdout().lock());
    for seed in first..first + count {
        chain(seed).write(seed, out)?;
    }
    write_word(0, out)?;
    out.flush()?;
    Ok(ExitCode::SUCCESS)
}

fn input(seed: u64) -> Result<ExitCode, Box<dyn Error>> {
    io::stdout().write_all(&engines::input(&case(seed)))?;
    Ok(ExitCode::SUCCESS)
}

/// Writes the texts that are timed and deep ones; those that take long stand apart.
fn texts(folder: &Path) -> Result<ExitCode, Box<dyn Error>> {
    let apart = folder.join("long");
    fs::create_dir_all(&apart)?;
    for load in loads().iter().chain(&deep_loads()) {
        let place = if load.long { &apart } else { folder };
        fs::write(place.join(load.file_name()), engines::input(&load.case()))?;
    }
    Ok(ExitCode::SUCCESS)
}

/// How often each number came, for all texts and for each kind.
fn tally(count: u64, first: u64) -> Result<ExitCode, Box<dyn Error>> {
    let mut counts: BTreeMap<&str, [u64; 28]> = BTreeMap::new();
    for seed in first..first + count {
        let case = case(seed);
        let answer = engines::reference(&case);
        let mut kinds = vec!["all", case.kind];
        kinds.extend((!case.library.is_empty()).then_some("with a library"));
        kinds.extend(answer.in_library.then_some("in the library"));
        kinds.extend(parameters_met(&case, &answer).then_some("parameters met"));
        for kind in kinds {
            counts.entry(kind).or_default()[answer.number as usize] += 1;
        }
    }
    for (kind, numbers) in counts {
        print!("{kind:>15}:");
        for (number, times) in numbers.iter().enumerate() {
            if *times > 0 {
                print!("  {number}:{times}");
            }
        }
        println!();
    }
    Ok(ExitCode::SUCCESS)
}

/// Whether parameters of one name have met and are one, or have met and are 15.
fn parameters_met(case: &Case, answer: &Answer) -> bool {
    match answer.number {
        0 => !meetings(case).is_empty(),
        15 => meetings(case)
            .iter()
            .any(|met| (&met.module, &met.parameter) == (&answer.module, &answer.name)),
        _ => false,
    }
}

/// Looks for the first seed with a difference, and tells it with the text made as small as it goes.
fn search(
    count: u64,
    first: u64,
    case_of: fn(u64) -> Case,
    differ: impl Fn(&Case) -> Option<Difference>,
) -> Result<ExitCode, Box<dyn Error>> {
    for seed in first..first + count {
        if seed > first && (seed - first) % 10_000 == 0 {
            eprintln!("{} seeds from {first}: no difference so far", seed - first);
        }
        let case = case_of(seed);
        if differ(&case).is_some() {
            let smallest = shrink(&case, |smaller| differ(smaller).is_some());
            report(seed, &smallest, differ(&smallest))?;
            return Ok(ExitCode::FAILURE);
        }
    }
    println!("{count} seeds from {first}: no difference");
    Ok(ExitCode::SUCCESS)
}

/// Goes through the seeds until so many pairs of texts are compared: each with the imports in its own order, and in another.
fn rearranged(
    pairs: u64,
    first: u64,
    ask: impl Fn(&Case, &Name) -> io::Result<Told>,
) -> Result<ExitCode, Box<dyn Error>> {
    let differ = |case: &Case| {
        let other = import_order::other_order(case)?;
        import_order::compare(case, &other, &ask).err()
    };
    let mut all = Agreed::default();
    let (mut seed, mut compared) = (first, 0);
    while compared < pairs {
        let case = case(seed);
        if let Some(other) = import_order::other_order(&case) {
            match import_order::compare(&case, &other, &ask) {
                Ok(agreed) => all += agreed,
                Err(_) => {
                    let smallest = shrink(&case, |smaller| differ(smaller).is_some());
                    report(seed, &smallest, differ(&smallest))?;
                    return Ok(ExitCode::FAILURE);
                }
            }
            compared += 1;
        }
        seed += 1;
    }
    println!("{pairs} pairs of texts from seed {first} to {seed}: no difference; {all}");
    Ok(ExitCode::SUCCESS)
}

fn report(seed: u64, case: &Case, difference: Option<Difference>) -> io::Result<()> {
    println!("seed {seed} ({}), output {}", case.kind, case.output);
    println!("--- input, made smaller");
    io::stdout().write_all(&engines::input(case))?;
    if let Some(difference) = difference {
        println!("\n--- expected\n{}", difference.expected);
        println!("--- found\n{}", difference.found);
    }
    Ok(())
}

fn against_program(path: &str, count: u64, first: u64) -> Result<ExitCode, Box<dyn Error>> {
    search(count, first, case, |case| {
        engines::compare_program(case, path).unwrap_or_else(|error| {
            Some(Difference {
                expected: String::new(),
                found: format!("{path}: {error}"),
            })
        })
    })
}
