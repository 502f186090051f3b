//! A second normaliser for ASF: document 01, with document 02's requests as they land, in plain values and linear lookup,
//! no thought of speed. The proved library is compared with it, so the two share nothing but the documents.

mod asking;
mod checks;
mod clauses;
mod evaluate;
mod form;
mod grammar;
mod lexis;
mod listing;
mod order;
mod own;
mod parameters;
mod parts;
mod program;
mod reader;
pub mod syntax;

pub use asking::{decide, module_name, Decision};
pub use grammar::read;
pub use lexis::Offence;
pub use parts::{fetch, parts, Fetched, Part};
pub use program::asfnorm;
pub use reader::{next_line, Step};
pub use syntax::Name;

/// The longest text that is read ("The text", sizes), the library as the customer's.
pub const TEXT_BYTES: usize = 32_768;
/// The longest name or operator as it stands in a text ("The text", sizes), and the longest asked name.
pub const TOKEN_BYTES: usize = 40;
/// The longest name that is listed or told: that of an infix operator has two underlines (document 02, Two).
pub const NAME_BYTES: usize = TOKEN_BYTES + 2;
/// The most modules of a specification ("The text", sizes), over both texts (document 02, One).
pub const MODULES: usize = 64;
/// What the program `asfnorm` lends for its output ("The listing").
pub const OUTPUT_BYTES: usize = 65_536;

/// A specification as it is lent (document 02, One): our library, which is none where it is empty, and the customer's
/// text. The library's modules count as standing before the customer's.
#[derive(Clone, Copy, Debug, PartialEq, Eq)]
pub struct Texts<'t> {
    pub library: &'t [u8],
    pub customer: &'t [u8],
}

impl<'t> Texts<'t> {
    /// A text without a library.
    pub fn alone(customer: &'t [u8]) -> Texts<'t> {
        Texts {
            library: &[],
            customer,
        }
    }
}

/// The lengths of what a caller lends. The size that the working memory must have is the library's own ("The numbers
/// that come back", 19), so it is told here rather than known.
#[derive(Clone, Copy, Debug)]
pub struct Lent {
    pub work: usize,
    pub work_needed: usize,
    pub output: usize,
}

impl Lent {
    /// Enough working memory, and so many bytes of output.
    pub fn output(output: usize) -> Lent {
        Lent {
            work: 0,
            work_needed: 0,
            output,
        }
    }
}

/// What comes back ("The numbers that come back"); the listing is empty unless the number is 0. A place is one of the
/// customer's text, or of the library where the answer says so. The actual name is told of a binding's pair alone
/// (document 02, Five).
#[derive(Clone, Debug, Default, PartialEq, Eq)]
pub struct Answer {
    pub number: u32,
    pub modules: u32,
    pub module: Name,
    pub name: Name,
    pub actual: Name,
    pub at: usize,
    pub in_library: bool,
    pub listing: Vec<u8>,
}

/// Normalises the asked module of a specification. The order of the questions: working memory, length of the library,
/// the library itself, length of the customer's text, that text itself, the asked name, the modules, the room for the
/// listing.
pub fn normalise(asked: &[u8], texts: Texts, lent: Lent) -> Answer {
    if lent.work < lent.work_needed {
        return about_asked(19, asked);
    }
    let specification = match read_both(texts) {
        Ok(specification) => specification,
        Err(refused) => return refused,
    };
    let Some(index) = specification.index(asked) else {
        let mut answer = about_asked(6, asked);
        answer.name = answer.module.clone();
        return answer;
    };
    finish(
        evaluate::evaluate(&specification, index),
        &specification,
        asked,
        lent.output,
    )
}

/// Reads the library, if there is one, wholly before anything is asked of the customer's text.
fn read_both(texts: Texts) -> Result<syntax::Specification, Answer> {
    let mut specification = syntax::Specification::default();
    if !texts.library.is_empty() {
        grammar::read_behind(&mut specification, texts.library)
            .map_err(|offence| at_place(offence, true))?;
    }
    grammar::read_behind(&mut specification, texts.customer)
        .map_err(|offence| at_place(offence, false))?;
    Ok(specification)
}

fn finish(
    evaluated: evaluate::Evaluated,
    specification: &syntax::Specification,
    asked: &[u8],
    room: usize,
) -> Answer {
    let mut answer = match evaluated.outcome {
        Ok(form) => {
            let listing = listing::write(&form, specification);
            if listing.len() > room {
                about_asked(19, asked)
            } else {
                Answer {
                    listing,
                    ..Answer::default()
                }
            }
        }
        Err(refusal) => Answer {
            number: refusal.number,
            module: evaluated.last,
            name: refusal.name,
            actual: refusal.actual,
            ..Answer::default()
        },
    };
    answer.modules = evaluated.modules;
    answer
}

/// An answer that names the asked module.
fn about_asked(number: u32, asked: &[u8]) -> Answer {
    Answer {
        number,
        module: short_or_blank(asked),
        ..Answer::default()
    }
}

/// An asked name over 40 bytes is told as a blank.
fn short_or_blank(asked: &[u8]) -> Name {
    if asked.len() <= TOKEN_BYTES {
        asked.to_vec()
    } else {
        Name::new()
    }
}

fn at_place(offence: Offence, in_library: bool) -> Answer {
    Answer {
        number: offence.number,
        at: offence.at,
        in_library,
        ..Answer::default()
    }
}
