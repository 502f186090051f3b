//! What is printed where: colour only on a terminal, progress too.

use std::env;

extern "C" {
    fn isatty(descriptor: i32) -> i32;
}

/// Whether a person looks at what is printed there: 1 is standard output, 2 standard error.
pub fn is_terminal(descriptor: i32) -> bool {
    // SAFETY: any number may be asked.
    unsafe { isatty(descriptor) == 1 }
}

/// When there is colour.
#[derive(Clone, Copy, Debug, PartialEq, Eq)]
pub enum When {
    Auto,
    Always,
    Never,
}

/// How words are painted, or that they are not.
#[derive(Clone, Copy, Debug)]
pub struct Paint {
    colour: bool,
}

impl Paint {
    pub fn new(when: When, descriptor: i32) -> Paint {
        let set = |name| env::var_os(name).map_or(false, |value| !value.is_empty());
        let plain = set("NO_COLOR") || env::var_os("TERM").map_or(true, |kind| kind == "dumb");
        Paint {
            colour: match when {
                When::Auto => is_terminal(descriptor) && !plain,
                When::Always => true,
                When::Never => false,
            },
        }
    }

    fn painted(self, code: &str, words: &str) -> String {
        if self.colour {
            format!("\x1b[{}m{}\x1b[0m", code, words)
        } else {
            words.to_string()
        }
    }

    /// A place, in bold.
    pub fn place(self, words: &str) -> String {
        self.painted("1", words)
    }

    /// What is refused, or gone, in red.
    pub fn bad(self, words: &str) -> String {
        self.painted("31", words)
    }

    /// What is accepted, or new, in green.
    pub fn good(self, words: &str) -> String {
        self.painted("32", words)
    }

    /// What stands beside it, in cyan.
    pub fn aside(self, words: &str) -> String {
        self.painted("36", words)
    }
}

/// Words in lines of at most 80 columns: the first behind `first`, the others behind as many blanks. A word is never divided.
pub fn wrapped(first: &str, words: &str) -> String {
    const COLUMNS: usize = 80;
    let margin = " ".repeat(first.chars().count());
    let mut lines = Vec::new();
    let mut line = String::new();
    for word in words.split_whitespace() {
        let width = margin.len() + line.chars().count() + 1 + word.chars().count();
        if !line.is_empty() && width > COLUMNS {
            lines.push(std::mem::take(&mut line));
        }
        if !line.is_empty() {
            line.push(' ');
        }
        line.push_str(word);
    }
    lines.push(line);
    format!("{}{}\n", first, lines.join(&format!("\n{}", margin)))
}
