//! The words behind a command: options, and what is left.

use crate::terminal::When;
use std::ffi::{OsStr, OsString};

/// What options said, and the other words in order.
pub struct Arguments {
    pub words: Vec<OsString>,
    pub library: Option<OsString>,
    pub old_library: Option<OsString>,
    pub json: bool,
    pub quiet: bool,
    pub help: bool,
    pub when: When,
}

/// The options that a command has beside `--help`.
pub type Allowed = &'static [&'static str];

/// Takes options apart from words; `--` ends the options, and a lone `-` is a word.
pub fn parsed(given: Vec<OsString>, allowed: Allowed) -> Result<Arguments, String> {
    let mut arguments = Arguments {
        words: Vec::new(),
        library: None,
        old_library: None,
        json: false,
        quiet: false,
        help: false,
        when: When::Auto,
    };
    let mut given = given.into_iter();
    while let Some(word) = given.next() {
        let told = word.to_string_lossy().into_owned();
        if told == "--" {
            arguments.words.extend(given);
            break;
        }
        if told.starts_with('-') && told != "-" {
            arguments.take(&told, allowed, &mut given)?;
        } else {
            arguments.words.push(word);
        }
    }
    Ok(arguments)
}

impl Arguments {
    /// Takes one option, as `--name`, `--name=value` or `--name` before its value.
    fn take(
        &mut self,
        told: &str,
        allowed: Allowed,
        given: &mut impl Iterator<Item = OsString>,
    ) -> Result<(), String> {
        let (name, value) = match told.split_once('=') {
            Some((name, value)) => (name, Some(OsString::from(value))),
            None => (told, None),
        };
        let option = match name {
            "-h" => "--help",
            "-q" => "--quiet",
            "--colour" => "--color",
            other => other,
        };
        if option != "--help" && !allowed.contains(&option) {
            return Err(format!("unknown option {}", told));
        }
        match option {
            "--library" => self.library = Some(value_of(option, value, given)?),
            "--old-library" => self.old_library = Some(value_of(option, value, given)?),
            "--color" => self.when = when(&value_of(option, value, given)?)?,
            _ if value.is_some() => return Err(format!("{} has no value", option)),
            "--json" => self.json = true,
            "--quiet" => self.quiet = true,
            _ => self.help = true,
        }
        Ok(())
    }
}

fn value_of(
    option: &str,
    value: Option<OsString>,
    given: &mut impl Iterator<Item = OsString>,
) -> Result<OsString, String> {
    value
        .or_else(|| given.next())
        .ok_or_else(|| format!("{} needs a value", option))
}

fn when(word: &OsStr) -> Result<When, String> {
    match word.to_str() {
        Some("auto") => Ok(When::Auto),
        Some("always") => Ok(When::Always),
        Some("never") => Ok(When::Never),
        _ => Err(format!(
            "--color is auto, always or never, not {}",
            word.to_string_lossy()
        )),
    }
}
