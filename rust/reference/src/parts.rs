//! A module's text, as a part of the lent text that declares it (document 02, One): from its `module` to the name behind
//! its `end`. Parts are found by tokens alone, so that a text which is refused has parts too.

use crate::lexis::{self, Lexeme, Token};
use crate::{Texts, MODULES, TEXT_BYTES};

const MODULE: Token = Token::Keyword("module");

/// The text of one module: its name, its place in the text that declares it, and its bytes there.
#[derive(Clone, Copy, Debug, PartialEq, Eq)]
pub struct Part<'t> {
    pub name: &'t [u8],
    pub place: usize,
    pub bytes: &'t [u8],
}

/// A part, and whether it is one of the library.
#[derive(Clone, Copy, Debug, PartialEq, Eq)]
pub struct Fetched<'t> {
    pub in_library: bool,
    pub part: Part<'t>,
}

/// The part that declares a module, sought in the library first.
pub fn fetch<'t>(name: &[u8], texts: Texts<'t>) -> Option<Fetched<'t>> {
    [(true, texts.library), (false, texts.customer)]
        .into_iter()
        .find_map(|(in_library, text)| {
            let part = parts(text).into_iter().find(|part| part.name == name)?;
            Some(Fetched { in_library, part })
        })
}

/// The parts of a text in turn, as many as it may have modules, up to where something else than a `module` stands. What
/// stands behind that keyword is the name, whatever token it is.
pub fn parts(text: &[u8]) -> Vec<Part<'_>> {
    let mut parts = Vec::new();
    let mut place = 0;
    while parts.len() < MODULES {
        let keyword = token_or_end(text, place);
        if keyword.token != MODULE {
            break;
        }
        let name = token_or_end(text, keyword.stop);
        place = part_end(text, name);
        parts.push(Part {
            name: &text[name.start..name.stop],
            place: keyword.start,
            bytes: &text[keyword.start..place],
        });
    }
    parts
}

/// Where the last token ends before the next `module` or the end, from a module's name on. No text that is read has
/// more tokens than bytes.
fn part_end(text: &[u8], name: Lexeme) -> usize {
    let mut place = name.stop;
    if name.token == Token::EndOfText {
        return place;
    }
    for _ in 0..TEXT_BYTES {
        let next = token_or_end(text, place);
        if [MODULE, Token::EndOfText].contains(&next.token) {
            break;
        }
        place = next.stop;
    }
    place
}

/// The next token; where none stands, the text ends for whoever seeks parts.
fn token_or_end(text: &[u8], place: usize) -> Lexeme {
    lexis::token(text, place).unwrap_or_else(|offence| Lexeme {
        token: Token::EndOfText,
        start: offence.at,
        stop: offence.at,
    })
}
