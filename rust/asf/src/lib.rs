//! Normalising ASF specifications by the proved library: [`normalise`] gives a module's normal form as a [`Listing`], or a [`Refusal`].
//! A visible part that was stored may be shown for a changed specification as [`decide`] says; [`Store`] does what it says.
//! All that is unsafe here are the calls of C, in `foreign`.

mod decision;
mod foreign;
mod lines;
mod refusal;
mod specification;
mod store;

pub use decision::{Decision, Unread, Why};
pub use foreign::Memory;
pub use lines::{lines, visible, BadLine, Line, Lines};
pub use refusal::Refusal;
pub use specification::{fetch, Part, Specification};
pub use store::{Because, Done, Store};

/// The most bytes of a text that is read, the library's as the customer's.
pub const TEXT_BYTES: usize = 32_768;
/// The most bytes of a name or an operator in a text, and of the asked name.
pub const TOKEN_BYTES: usize = 40;
/// The most bytes of a name that is listed or told: an operator's has its underlines.
pub const NAME_BYTES: usize = TOKEN_BYTES + 2;
/// The most modules of a specification.
pub const MODULES: usize = 64;
/// The bytes that are lent for a listing, unless [`Memory::with_output`] says otherwise.
pub const OUTPUT_BYTES: usize = 65_536;

/// The normal form of a module, as lines `key=value`.
#[derive(Clone, Debug, PartialEq, Eq)]
pub struct Listing {
    bytes: Vec<u8>,
    modules: u32,
}

impl Listing {
    /// The whole listing.
    pub fn bytes(&self) -> &[u8] {
        &self.bytes
    }

    /// How many modules were evaluated.
    pub fn modules(&self) -> u32 {
        self.modules
    }

    /// Its lines, from the first on.
    pub fn lines(&self) -> Lines<'_> {
        lines(&self.bytes)
    }

    /// The part that shows what of the module other modules can see.
    pub fn visible(&self) -> &[u8] {
        visible(&self.bytes)
    }
}

/// Normalises the asked module of a specification: a text, or a [`Specification`] that has a library too. It lends working memory and output
/// for this one call; [`Memory`] keeps them for more.
pub fn normalise<'t>(
    asked: &[u8],
    specification: impl Into<Specification<'t>>,
) -> Result<Listing, Refusal> {
    Memory::new().normalise(asked, specification)
}

/// Decides what to do before a stored visible part of the asked module, which is that of the old specification, is shown for the new one. It
/// lends working memory for this one call; [`Memory::decide`] keeps it for more.
pub fn decide<'o, 'n>(
    asked: &[u8],
    old: impl Into<Specification<'o>>,
    new: impl Into<Specification<'n>>,
) -> Decision {
    Memory::with_output(0).decide(asked, old, new)
}
