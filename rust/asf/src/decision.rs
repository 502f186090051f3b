//! What to do before a stored visible part is shown for a changed specification (docs/CACHE.md).

use crate::refusal::text;
use std::fmt;

/// What to do with a stored visible part of a module M, which is that of an old specification: M was answered 0 there, or the part was kept for
/// it in this way.
#[derive(Clone, Debug, PartialEq, Eq)]
pub enum Decision {
    /// Ask these modules of the new specification, each by itself; there may be none. If all are answered 0 the part is that of the new
    /// specification too, and the next change is decided from there. If one has another answer, 18 and 19 among them, ask M.
    KeepAfter(Vec<Vec<u8>>),
    /// Ask M of the new specification.
    AskAgain(Why),
    /// One of the two specifications is not read.
    NotRead(Unread),
}

/// Why M must be asked again: the reason, the module concerned, and with 3 and 8 another name.
#[derive(Clone, Debug, PartialEq, Eq)]
pub struct Why {
    pub(crate) reason: u32,
    pub(crate) module: Vec<u8>,
    pub(crate) name: Vec<u8>,
}

impl Why {
    /// 1 to 8; they are no answers' numbers.
    pub fn reason(&self) -> u32 {
        self.reason
    }

    /// With 1, 2 and 4 the asked module; with 3 the one that it reaches there in the old specification; else the reached module concerned.
    pub fn module(&self) -> &[u8] {
        &self.module
    }

    /// With 3 the module that is reached there in the new specification, with 8 the module name that is used; else blank.
    pub fn name(&self) -> &[u8] {
        &self.name
    }
}

fn reason_text(reason: u32) -> &'static str {
    match reason {
        1 => "the module was not there before",
        2 => "the module is not there any more",
        3 => "other modules are reached, or in another order",
        4 => "the module itself changed",
        5 => "parameters changed",
        6 => "exports changed",
        7 => "imports changed",
        8 => "a name of a module is missing or too late in one of the two only",
        _ => "no such reason",
    }
}

impl fmt::Display for Why {
    fn fmt(&self, f: &mut fmt::Formatter<'_>) -> fmt::Result {
        write!(f, "{}", reason_text(self.reason))?;
        for (what, name) in [("module", &self.module), ("name", &self.name)] {
            if !name.is_empty() {
                write!(f, ", {} {}", what, String::from_utf8_lossy(name))?;
            }
        }
        Ok(())
    }
}

/// The refusal of a specification that is not read, and which of the two it is.
#[derive(Clone, Debug, PartialEq, Eq)]
pub struct Unread {
    pub(crate) number: u32,
    pub(crate) at: usize,
    pub(crate) in_new: bool,
    pub(crate) in_library: bool,
}

impl Unread {
    /// 1 to 5.
    pub fn number(&self) -> u32 {
        self.number
    }

    /// Its place in the text or in the library, in bytes from 0.
    pub fn at(&self) -> usize {
        self.at
    }

    /// Whether it is the new specification that is not read; else it is the old one.
    pub fn in_new(&self) -> bool {
        self.in_new
    }

    /// Whether the place is one of its library.
    pub fn in_library(&self) -> bool {
        self.in_library
    }
}

impl fmt::Display for Unread {
    fn fmt(&self, f: &mut fmt::Formatter<'_>) -> fmt::Result {
        write!(
            f,
            "{}: {}, at byte {} of the {} {}",
            self.number,
            text(self.number),
            self.at,
            if self.in_new { "new" } else { "old" },
            if self.in_library { "library" } else { "text" }
        )
    }
}

impl fmt::Display for Decision {
    fn fmt(&self, f: &mut fmt::Formatter<'_>) -> fmt::Result {
        match self {
            Decision::KeepAfter(modules) if modules.is_empty() => write!(f, "keep it"),
            Decision::KeepAfter(modules) => {
                write!(f, "keep it if these are answered 0: {}", listed(modules))
            }
            Decision::AskAgain(why) => write!(f, "ask it again: {}", why),
            Decision::NotRead(unread) => write!(f, "not read: {}", unread),
        }
    }
}

pub(crate) fn listed(names: &[Vec<u8>]) -> String {
    let names = names.iter().map(|name| String::from_utf8_lossy(name));
    names.collect::<Vec<_>>().join(", ")
}
