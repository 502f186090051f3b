//! The command `asf`: for people who write modules, what `asfnorm` is for programs. All that is decided is decided by the proved library; this
//! reads files, asks, and tells the answer.

mod arguments;
mod asking;
mod difference;
mod help;
mod json;
mod keeping;
mod listing;
mod report;
mod scan;
mod sheet;
mod source;
mod terminal;

use crate::arguments::{parsed, Allowed, Arguments};
use crate::report::Spot;
use crate::source::{File, Text};
use crate::terminal::{wrapped, Paint};
use std::ffi::{OsStr, OsString};
use std::io::{self, Write};
use std::process::ExitCode;

/// Exit statuses. `diff` has the same: equal, different, trouble.
const ACCEPTED: u8 = 0;
const REFUSED: u8 = 1;
const WRONG: u8 = 2;

/// What a command prints, and how it ends.
struct Ended {
    out: Vec<u8>,
    error: Vec<u8>,
    status: u8,
}

/// Why a command does not run: its words are not right, or a file.
enum Wrong {
    Use(String),
    File(String),
}

struct Command {
    name: &'static str,
    help: &'static str,
    allowed: Allowed,
    run: fn(&Arguments) -> Result<Ended, Wrong>,
}

const COMMANDS: [Command; 6] = [
    Command {
        name: "check",
        help: help::CHECK,
        allowed: &["--library", "--json", "--quiet", "--color"],
        run: asking::check,
    },
    Command {
        name: "list",
        help: help::LIST,
        allowed: &["--library", "--json", "--color"],
        run: |arguments| asking::list(arguments, true),
    },
    Command {
        name: "visible",
        help: help::VISIBLE,
        allowed: &["--library", "--json", "--color"],
        run: |arguments| asking::list(arguments, false),
    },
    Command {
        name: "diff",
        help: help::DIFF,
        allowed: &["--color"],
        run: diff,
    },
    Command {
        name: "keep",
        help: help::KEEP,
        allowed: &["--old-library", "--library", "--color"],
        run: keeping::keep,
    },
    Command {
        name: "explain",
        help: help::EXPLAIN,
        allowed: &[],
        run: explain,
    },
];

fn main() -> ExitCode {
    let ended = ran(std::env::args_os().skip(1).collect());
    let printed = io::stdout()
        .write_all(&ended.out)
        .and_then(|_| io::stdout().flush());
    let told = io::stderr().write_all(&ended.error);
    match printed.and(told) {
        Ok(()) => ExitCode::from(ended.status),
        // whoever reads has seen enough
        Err(error) if error.kind() == io::ErrorKind::BrokenPipe => ExitCode::from(ended.status),
        Err(error) => {
            eprintln!("asf: {}", error);
            ExitCode::from(WRONG)
        }
    }
}

fn ran(mut words: Vec<OsString>) -> Ended {
    if words.is_empty() {
        return Ended {
            out: Vec::new(),
            error: help::ASF.into(),
            status: WRONG,
        };
    }
    let name = words.remove(0);
    match name.to_str() {
        Some("-h" | "--help") => said(help::ASF),
        Some("-V" | "--version") => said(concat!("asf ", env!("CARGO_PKG_VERSION"), "\n")),
        Some("help") => match words.first() {
            None => said(help::ASF),
            Some(name) => command(name, |command| said(command.help)),
        },
        _ => command(&name, |command| match parsed(words, command.allowed) {
            Ok(arguments) if arguments.help => said(command.help),
            Ok(arguments) => {
                (command.run)(&arguments).unwrap_or_else(|wrong| wrong.ended(command.name))
            }
            Err(message) => Wrong::Use(message).ended(command.name),
        }),
    }
}

/// Text that was asked for.
fn said(words: &str) -> Ended {
    Ended {
        out: words.into(),
        error: Vec::new(),
        status: ACCEPTED,
    }
}

fn command(name: &OsStr, then: impl FnOnce(&Command) -> Ended) -> Ended {
    match COMMANDS.iter().find(|command| name == command.name) {
        Some(command) => then(command),
        None => Ended {
            out: Vec::new(),
            error: format!(
                "asf: no command {}; see asf --help\n",
                name.to_string_lossy()
            )
            .into(),
            status: WRONG,
        },
    }
}

impl Wrong {
    fn ended(self, command: &str) -> Ended {
        let message = match self {
            Wrong::Use(message) => {
                format!("asf {}: {}; see asf {} --help\n", command, message, command)
            }
            Wrong::File(message) => format!("asf {}: {}\n", command, message),
        };
        Ended {
            out: Vec::new(),
            error: message.into(),
            status: WRONG,
        }
    }
}

/// Of the files that are named one at most may be standard input.
fn once(names: &[Option<&OsStr>]) -> Result<(), Wrong> {
    let input = |name: &&Option<&OsStr>| **name == Some(OsStr::new("-"));
    match names.iter().filter(input).count() {
        0 | 1 => Ok(()),
        _ => {
            let twice = "standard input can be read only once";
            Err(Wrong::Use(twice.to_string()))
        }
    }
}

/// `asf diff`.
fn diff(arguments: &Arguments) -> Result<Ended, Wrong> {
    let (old, new) = match &arguments.words[..] {
        [old, new] => (old, new),
        _ => return Err(Wrong::Use("two listings are needed".to_string())),
    };
    once(&[Some(old), Some(new)])?;
    let old = File::read(old).map_err(Wrong::File)?;
    let new = File::read(new).map_err(Wrong::File)?;
    let listed = (listing::listed(&old.bytes), listing::listed(&new.bytes));
    let lines = match listed {
        (Err(bad), _) => return Ok(bad_line(&old, bad, arguments)),
        (_, Err(bad)) => return Ok(bad_line(&new, bad, arguments)),
        (Ok(old), Ok(new)) => difference::compared(&old, &new, Paint::new(arguments.when, 1)),
    };
    let same = old.bytes == new.bytes;
    let first = match asf::visible(&old.bytes) == asf::visible(&new.bytes) {
        true => "the visible parts are equal, byte for byte\n",
        false => "the visible parts differ\n",
    };
    let last = match same {
        true => "so are the listings\n",
        false if lines.is_empty() => "the same lines, in another order\n",
        false => "",
    };
    Ok(Ended {
        out: [first, &lines, last].concat().into_bytes(),
        error: Vec::new(),
        status: if same { ACCEPTED } else { REFUSED },
    })
}

/// A line that is none of a listing, told like any other mistake.
fn bad_line(file: &File, bad: asf::BadLine, arguments: &Arguments) -> Ended {
    const NUMBER: u32 = 21;
    let text = Text::whole(file);
    let message = format!("{}: {}", NUMBER, sheet::title(NUMBER));
    let shown =
        Spot::of(&text, bad.at..bad.at).shown(&message, Paint::new(arguments.when, 2), Paint::bad);
    Ended {
        out: Vec::new(),
        error: format!("{}{}", shown, wrapped("help: ", &sheet::advice(NUMBER))).into(),
        status: WRONG,
    }
}

/// `asf explain`.
fn explain(arguments: &Arguments) -> Result<Ended, Wrong> {
    match &arguments.words[..] {
        [] => Ok(said(&sheet::overview())),
        [word] => {
            let told = word.to_string_lossy();
            let section = told.parse().ok().and_then(sheet::section);
            match section {
                Some(section) => Ok(said(&section.printed())),
                None => Err(Wrong::Use(format!(
                    "no number {}: there are {}",
                    told,
                    sheet::numbers()
                ))),
            }
        }
        _ => Err(Wrong::Use("one number at a time".to_string())),
    }
}
