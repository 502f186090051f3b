//! A scan of texts that were read: their modules, and where in one of them a name is first met.

use std::ops::Range;

const SYMBOLS: &[u8] = b"+-*/&|!@%?~";

fn layout(byte: u8) -> bool {
    matches!(byte, b' ' | b'\t' | b'\r' | b'\n' | 0x0c)
}

fn of_name(byte: u8) -> bool {
    byte.is_ascii_alphanumeric() || byte == b'\''
}

fn symbol(byte: u8) -> bool {
    SYMBOLS.contains(&byte)
}

/// The tokens of a text; comments are none. What is no token is taken byte by byte.
pub fn tokens(text: &[u8]) -> Vec<Range<usize>> {
    let mut found = Vec::new();
    let mut place = 0;
    while place < text.len() {
        let behind_layout = place > 0 && layout(text[place - 1]);
        if layout(text[place]) {
            place += 1;
        } else if behind_layout && text[place..].starts_with(b"--") {
            place = comment_end(text, place);
        } else {
            let end = token_end(text, place);
            found.push(place..end);
            place = end;
        }
    }
    found
}

/// A comment ends behind the next two hyphens, or where its line does.
fn comment_end(text: &[u8], start: usize) -> usize {
    let mut place = start + 2;
    while place < text.len() && !matches!(text[place], b'\r' | b'\n') {
        if text[place..].starts_with(b"--") {
            return place + 2;
        }
        place += 1;
    }
    place
}

fn token_end(text: &[u8], start: usize) -> usize {
    let rest = &text[start..];
    let run = |of: fn(u8) -> bool| rest.iter().take_while(|&&byte| of(byte)).count();
    start
        + match rest[0] {
            b'-' if rest.starts_with(b"->") => 2,
            byte if symbol(byte) => run(symbol),
            byte if of_name(byte) => name_length(rest),
            b'.' => match name_length(&rest[1..]) {
                length if length > 0 && rest.get(length + 1) == Some(&b'.') => length + 2,
                _ => 1,
            },
            _ => 1,
        }
}

/// Hyphens belong to a name where more of it follows them.
fn name_length(rest: &[u8]) -> usize {
    let mut length = 0;
    for (offset, &byte) in rest.iter().enumerate() {
        if of_name(byte) {
            length = offset + 1;
        } else if byte != b'-' || offset == 0 {
            break;
        }
    }
    length
}

/// The names of a text's modules, where they are opened.
pub fn headings(text: &[u8]) -> Vec<Range<usize>> {
    let tokens = tokens(text);
    let opened = tokens
        .windows(2)
        .filter(|two| &text[two[0].clone()] == b"module");
    opened.map(|two| two[1].clone()).collect()
}

/// What is sought in a module: words as they stand in a refusal.
pub struct Culprit<'r> {
    pub number: u32,
    pub name: &'r [u8],
    pub actual: &'r [u8],
}

/// Where the culprit of a refusal is first met in the text of the module, behind its heading.
pub fn search(module: &[u8], culprit: &Culprit<'_>) -> Option<Range<usize>> {
    let module = Tokens::new(module);
    let name = Tokens::new(culprit.name).words();
    if name.is_empty() {
        return None;
    }
    let arrow = [&name[..], &[b"->"]].concat();
    match culprit.number {
        7 | 8 => module.first(module.behind(b"imports"), &name, 0..name.len()),
        12 => module.first(module.behind(b"variables"), &name, 0..name.len()),
        14 => module.first(module.behind(b"imports"), &arrow, 0..name.len()),
        15 => {
            let bound = [&name[..], &[b"bound"]].concat();
            let found = module.first(module.behind(b"imports"), &bound, 0..name.len());
            found.or_else(|| module.first(2, &name, 0..name.len()))
        }
        17 => {
            let tag = [&[&b"["[..]][..], &name, &[b"]"]].concat();
            module.first(2, &tag, 0..tag.len())
        }
        22..=26 => {
            let actual = Tokens::new(culprit.actual).words();
            let pair = [&arrow[..], &actual].concat();
            let places = module.places(module.behind(b"imports"), &pair);
            let twice = |at: &usize| culprit.number != 23 || module.list_has(*at, &arrow);
            let at = places.into_iter().find(twice)?;
            Some(module.range(at..at + pair.len()))
        }
        _ => module.first(2, &name, 0..name.len()),
    }
}

struct Tokens<'t> {
    text: &'t [u8],
    tokens: Vec<Range<usize>>,
}

impl<'t> Tokens<'t> {
    fn new(text: &'t [u8]) -> Tokens<'t> {
        Tokens {
            text,
            tokens: tokens(text),
        }
    }

    fn word(&self, at: usize) -> &'t [u8] {
        &self.text[self.tokens[at].clone()]
    }

    fn words(&self) -> Vec<&'t [u8]> {
        (0..self.tokens.len()).map(|at| self.word(at)).collect()
    }

    /// The place behind the first such word, or behind the heading.
    fn behind(&self, word: &[u8]) -> usize {
        let found = (2..self.tokens.len()).find(|&at| self.word(at) == word);
        found.map_or(2, |at| at + 1)
    }

    fn stands(&self, at: usize, pattern: &[&[u8]]) -> bool {
        let all = pattern
            .iter()
            .enumerate()
            .all(|(k, word)| self.word(at + k) == *word);
        // `-_` does not stand in `_-_`
        let longer =
            self.word(at - 1) == b"_" && pattern[0] != b"_" && pattern.get(1) == Some(&&b"_"[..]);
        all && !longer
    }

    /// Where a pattern stands, from a token on.
    fn places(&self, from: usize, pattern: &[&[u8]]) -> Vec<usize> {
        let until = (self.tokens.len() + 1).saturating_sub(pattern.len());
        (from..until.max(from))
            .filter(|&at| self.stands(at, pattern))
            .collect()
    }

    /// Where those words of a pattern stand that a part of it names.
    fn first(&self, from: usize, pattern: &[&[u8]], part: Range<usize>) -> Option<Range<usize>> {
        let at = *self.places(from, pattern).first()?;
        Some(self.range(at + part.start..at + part.end))
    }

    fn range(&self, tokens: Range<usize>) -> Range<usize> {
        self.tokens[tokens.start].start..self.tokens[tokens.end - 1].end
    }

    /// Whether the list in brackets that a token stands in has the pattern before it.
    fn list_has(&self, at: usize, pattern: &[&[u8]]) -> bool {
        let opened = (0..at).rev().find(|&k| self.word(k) == b"[").unwrap_or(at);
        let places = self.places(opened + 1, pattern);
        places.first().map_or(false, |&first| first < at)
    }
}
