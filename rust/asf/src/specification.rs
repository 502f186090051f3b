//! What is normalised: a text, with a library before it or without one; and the parts of the two that declare modules.

use crate::foreign::part_at;

/// A text, and a library whose modules count as standing before those of the text. A plain text converts to one without a library; an empty
/// library is none.
#[derive(Clone, Copy, Debug, PartialEq, Eq)]
pub struct Specification<'t> {
    library: &'t [u8],
    text: &'t [u8],
}

impl<'t> Specification<'t> {
    /// A text without a library.
    pub fn new(text: &'t [u8]) -> Specification<'t> {
        Specification { library: &[], text }
    }

    /// A text behind a library.
    pub fn with_library(library: &'t [u8], text: &'t [u8]) -> Specification<'t> {
        Specification { library, text }
    }

    /// The library; empty where there is none.
    pub fn library(&self) -> &'t [u8] {
        self.library
    }

    /// The text.
    pub fn text(&self) -> &'t [u8] {
        self.text
    }
}

impl<'t, T: AsRef<[u8]> + ?Sized> From<&'t T> for Specification<'t> {
    fn from(text: &'t T) -> Specification<'t> {
        Specification::new(text.as_ref())
    }
}

/// The text of one module, from its `module` to the name behind its `end`, as it stands in the text or in the library.
#[derive(Clone, Copy, Debug, PartialEq, Eq)]
pub struct Part<'t> {
    pub bytes: &'t [u8],
    pub in_library: bool,
}

/// The part of a specification that declares the module; none where no module is called so. Nothing is copied, and texts that [`normalise`]
/// refuses are looked through too, up to what is no token or no module.
///
/// [`normalise`]: crate::normalise
pub fn fetch<'t>(name: &[u8], specification: impl Into<Specification<'t>>) -> Option<Part<'t>> {
    let specification = specification.into();
    let (in_library, range) = part_at(name, specification)?;
    let text = if in_library {
        specification.library
    } else {
        specification.text
    };
    Some(Part {
        bytes: &text[range],
        in_library,
    })
}
