//! Every test vector: `NAME.in` is a standard input of `asfnorm`, `NAME.out` what it must print.

use std::collections::BTreeMap;
use std::env;
use std::fs;
use std::path::{Path, PathBuf};

/// The folder with `appendix/`, `readings/`, `one/`, `nine/`, `twelve/`, `two/`, `seven/`, `eleven/` and `five/`: from the
/// environment, or beside this crate.
fn folder() -> PathBuf {
    match env::var_os("ASF_VECTORS") {
        Some(path) => PathBuf::from(path),
        None => Path::new(env!("CARGO_MANIFEST_DIR")).join("vectors"),
    }
}

fn inputs(folder: &Path) -> Vec<PathBuf> {
    let entries = fs::read_dir(folder).expect("the folder of vectors");
    let mut paths: Vec<PathBuf> = entries.map(|entry| entry.unwrap().path()).collect();
    paths.retain(|path| path.extension().is_some_and(|kind| kind == "in"));
    paths.sort();
    paths
}

fn run(part: &str, least: usize) {
    let paths = inputs(&folder().join(part));
    let mut tally: BTreeMap<String, usize> = BTreeMap::new();
    for path in &paths {
        let input = fs::read(path).unwrap();
        let expected = fs::read(path.with_extension("out")).unwrap();
        let output = reference::asfnorm(&input);
        assert!(
            output == expected,
            "{}: {}",
            path.display(),
            String::from_utf8_lossy(&output)
        );
        let first = output.split(|&byte| byte == b'\n').next().unwrap();
        *tally
            .entry(String::from_utf8_lossy(first).into_owned())
            .or_default() += 1;
    }
    println!("{part}: {} vectors, {tally:?}", paths.len());
    assert!(paths.len() >= least);
}

#[test]
fn appendix() {
    run("appendix", 40);
}

#[test]
fn readings() {
    run("readings", 120);
}

#[test]
fn one() {
    run("one", 51);
}

#[test]
fn nine() {
    run("nine", 6);
}

#[test]
fn twelve() {
    run("twelve", 31);
}

#[test]
fn two() {
    run("two", 118);
}

#[test]
fn seven() {
    run("seven", 37);
}

#[test]
fn eleven() {
    run("eleven", 11);
}

#[test]
fn five() {
    run("five", 52);
}
