//! Why a module has no listing, with a text for each number.

use std::error::Error;
use std::fmt;

/// The number, how many modules were evaluated (the refused one included), the module evaluated when refused, the culprit's name, for 22 to 26
/// the actual name that it is paired with, and for 1 to 5 its place in the text or in the library. What a number does not tell is blank or 0.
#[derive(Clone, Debug, PartialEq, Eq)]
pub struct Refusal {
    pub(crate) number: u32,
    pub(crate) modules: u32,
    pub(crate) module: Vec<u8>,
    pub(crate) name: Vec<u8>,
    pub(crate) actual: Vec<u8>,
    pub(crate) at: usize,
    pub(crate) in_library: bool,
}

impl Refusal {
    /// 1 to 15, 17 to 19, or 22 to 27.
    pub fn number(&self) -> u32 {
        self.number
    }

    /// How many modules were evaluated, the refused one included; 0 for 1 to 6.
    pub fn modules(&self) -> u32 {
        self.modules
    }

    /// The module evaluated when refused; the asked one for 6 and 19, blank for 1 to 5.
    pub fn module(&self) -> &[u8] {
        &self.module
    }

    /// The culprit's name; for 22 to 27 a formal name of the parameter that is bound, or what a pair has for one.
    pub fn name(&self) -> &[u8] {
        &self.name
    }

    /// For 22 to 26 the actual name in the pair that is wrong.
    pub fn actual(&self) -> &[u8] {
        &self.actual
    }

    /// The culprit's place in the text or in the library, in bytes from 0; 0 from 6 up.
    pub fn at(&self) -> usize {
        self.at
    }

    /// Whether that place is one of the library.
    pub fn in_library(&self) -> bool {
        self.in_library
    }
}

/// What each number says, in the words of the help sheet (docs/ANSWERS.md), which has an example and a remedy for each.
pub(crate) fn text(number: u32) -> &'static str {
    match number {
        1 => "these bytes are no part of the language",
        2 => "this may not stand here",
        3 => "another name is closed than was opened",
        4 => "more than a text may have",
        5 => "two modules have this name",
        6 => "the asked module is not in the text",
        7 => "there is no module of this name",
        8 => "the module comes too late",
        9 => "declared twice",
        10 => "one name for two things",
        11 => "arguments do not tell which",
        12 => "this variable is taken",
        13 => "this sort is not there",
        14 => "nothing to rename",
        15 => "no such parameter, or one too many",
        17 => "an equation makes no sense",
        18 => "the normal form is too large",
        19 => "the listing does not fit",
        22 => "the parameter has no such name",
        23 => "this name is paired twice",
        24 => "the actual name is not shown",
        25 => "a sort and a function are paired",
        26 => "the types do not agree",
        27 => "this name has no pair",
        _ => "no such number",
    }
}

impl fmt::Display for Refusal {
    fn fmt(&self, f: &mut fmt::Formatter<'_>) -> fmt::Result {
        write!(f, "{}: {}", self.number, text(self.number))?;
        if self.number <= 5 {
            let of = if self.in_library {
                " of the library"
            } else {
                ""
            };
            return write!(f, ", at byte {}{}", self.at, of);
        }
        let names = [
            ("module", &self.module),
            ("name", &self.name),
            ("actual", &self.actual),
        ];
        for (what, name) in names {
            if !name.is_empty() {
                write!(f, ", {} {}", what, String::from_utf8_lossy(name))?;
            }
        }
        Ok(())
    }
}

impl Error for Refusal {}
