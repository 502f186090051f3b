//! A listing line by line, and its visible part: for a listing just made, and for one that was stored.

use crate::foreign::{line_at, visible_length, Read};
use std::error::Error;
use std::fmt;

/// A line `key=value`.
#[derive(Clone, Copy, Debug, PartialEq, Eq)]
pub struct Line<'l> {
    pub key: &'l [u8],
    pub value: &'l [u8],
}

/// No line stands at this place (21): an unknown key, no `=`, or no LF at the end.
#[derive(Clone, Copy, Debug, PartialEq, Eq)]
pub struct BadLine {
    pub at: usize,
}

impl fmt::Display for BadLine {
    fn fmt(&self, f: &mut fmt::Formatter<'_>) -> fmt::Result {
        write!(
            f,
            "21: this line is no line of a listing, at byte {}",
            self.at
        )
    }
}

impl Error for BadLine {}

/// The lines of a listing. After a bad one there are no more.
#[derive(Clone, Debug)]
pub struct Lines<'l> {
    listing: &'l [u8],
    place: usize,
    ended: bool,
}

impl Lines<'_> {
    /// The place of the next line.
    pub fn place(&self) -> usize {
        self.place
    }
}

impl<'l> Iterator for Lines<'l> {
    type Item = Result<Line<'l>, BadLine>;

    fn next(&mut self) -> Option<Self::Item> {
        if self.ended {
            return None;
        }
        let at = self.place;
        match line_at(self.listing, at) {
            Read::Line {
                mark,
                value,
                end,
                next,
            } => {
                self.place = next;
                Some(Ok(Line {
                    key: &self.listing[at..mark],
                    value: &self.listing[value..end],
                }))
            }
            Read::End => {
                self.ended = true;
                None
            }
            Read::Bad => {
                self.ended = true;
                Some(Err(BadLine { at }))
            }
        }
    }
}

/// The lines of a listing, from the first on.
pub fn lines(listing: &[u8]) -> Lines<'_> {
    Lines {
        listing,
        place: 0,
        ended: false,
    }
}

/// The part of a listing that its visible lines fill, which stands in front.
pub fn visible(listing: &[u8]) -> &[u8] {
    &listing[..visible_length(listing)]
}
