//! The calls of C, and what they are lent.

use crate::decision::{Decision, Unread, Why};
use crate::refusal::Refusal;
use crate::{Listing, Specification, MODULES, NAME_BYTES, OUTPUT_BYTES};
use std::ops::Range;

// As in `c/asf.h`: a pointer is followed by the number of elements behind it.
extern "C" {
    fn asf_memory_words() -> usize;
    fn asf_normalise(
        asked: *const u8,
        asked_length: usize,
        library: *const u8,
        library_length: usize,
        text: *const u8,
        text_length: usize,
        work: *mut u32,
        work_length: usize,
        out: *mut u8,
        out_length: usize,
        values: *mut usize,
        values_length: usize,
        names: *mut u8,
        names_length: usize,
    ) -> u32;
    fn asf_fetch(
        name: *const u8,
        name_length: usize,
        library: *const u8,
        library_length: usize,
        text: *const u8,
        text_length: usize,
        values: *mut usize,
        values_length: usize,
    ) -> u32;
    fn asf_decide(
        asked: *const u8,
        asked_length: usize,
        old_library: *const u8,
        old_library_length: usize,
        old_text: *const u8,
        old_text_length: usize,
        new_library: *const u8,
        new_library_length: usize,
        new_text: *const u8,
        new_text_length: usize,
        work: *mut u32,
        work_length: usize,
        values: *mut usize,
        values_length: usize,
        names: *mut u8,
        names_length: usize,
    ) -> u32;
    fn asf_module_name(
        library: *const u8,
        library_length: usize,
        text: *const u8,
        text_length: usize,
        k: u32,
        work: *mut u32,
        work_length: usize,
        names: *mut u8,
        names_length: usize,
    ) -> usize;
    fn asf_line(
        listing: *const u8,
        listing_length: usize,
        place: usize,
        values: *mut usize,
        values_length: usize,
    ) -> u32;
    fn asf_visible(listing: *const u8, listing_length: usize) -> usize;
}

/// The working memory and the output, kept between calls.
pub struct Memory {
    work: Vec<u32>,
    out: Vec<u8>,
}

impl Default for Memory {
    fn default() -> Memory {
        Memory::new()
    }
}

impl Memory {
    /// The working memory that a call needs, and room for a listing of [`OUTPUT_BYTES`].
    pub fn new() -> Memory {
        Memory::with_output(OUTPUT_BYTES)
    }

    /// The same with room for a listing of so many bytes; a longer one is refused by 19.
    pub fn with_output(bytes: usize) -> Memory {
        // SAFETY: the function takes nothing.
        let words = unsafe { asf_memory_words() };
        Memory {
            work: vec![0; words],
            out: vec![0; bytes],
        }
    }

    /// Normalises the asked module of a specification: a text, or a [`Specification`] that has a library too.
    pub fn normalise<'t>(
        &mut self,
        asked: &[u8],
        specification: impl Into<Specification<'t>>,
    ) -> Result<Listing, Refusal> {
        let mut values = [0; 8];
        let mut names = [0; 3 * NAME_BYTES];
        let number = self.call(asked, specification.into(), &mut values, &mut names);
        let [_, modules, at, module, name, listing, in_library, actual] = values;
        if number == 0 {
            return Ok(Listing {
                bytes: self.out[..listing].to_vec(),
                modules: modules as u32,
            });
        }
        Err(Refusal {
            number,
            modules: modules as u32,
            module: match number {
                // the asked name is told only where it has at most 40 bytes
                6 | 19 => asked.to_vec(),
                _ => names[..module].to_vec(),
            },
            name: names[NAME_BYTES..][..name].to_vec(),
            actual: names[2 * NAME_BYTES..][..actual].to_vec(),
            at,
            in_library: in_library != 0,
        })
    }

    /// Decides what to do before a stored visible part of the asked module, which is that of the old specification, is shown for the new one.
    /// See [`Decision`].
    pub fn decide<'o, 'n>(
        &mut self,
        asked: &[u8],
        old: impl Into<Specification<'o>>,
        new: impl Into<Specification<'n>>,
    ) -> Decision {
        let new = new.into();
        let mut values = [0; 9];
        let mut names = [0; 2 * NAME_BYTES];
        let number = self.call_decide(asked, old.into(), new, &mut values, &mut names);
        let [reason, low, high, refusal, at, in_new, in_library, by, name] = values;
        match number {
            0 => Decision::KeepAfter(self.named(low | high << 32, new)),
            1 => Decision::AskAgain(Why {
                reason: reason as u32,
                module: match reason {
                    // the asked name is told only where it has at most 40 bytes
                    1 | 2 => asked.to_vec(),
                    _ => names[..by].to_vec(),
                },
                name: names[NAME_BYTES..][..name].to_vec(),
            }),
            2 => Decision::NotRead(Unread {
                number: refusal as u32,
                at,
                in_new: in_new != 0,
                in_library: in_library != 0,
            }),
            other => unreachable!("{}: the working memory has its size", other),
        }
    }

    /// The names of the modules of a set, in the order of the specification.
    fn named(&mut self, set: usize, specification: Specification<'_>) -> Vec<Vec<u8>> {
        (0..MODULES)
            .filter(|number| set >> number & 1 == 1)
            .map(|number| self.module_name(number as u32, specification))
            .collect()
    }

    fn module_name(&mut self, number: u32, specification: Specification<'_>) -> Vec<u8> {
        let (library, text) = (specification.library(), specification.text());
        let mut name = [0; NAME_BYTES];
        // SAFETY: as below.
        let length = unsafe {
            asf_module_name(
                library.as_ptr(),
                library.len(),
                text.as_ptr(),
                text.len(),
                number,
                self.work.as_mut_ptr(),
                self.work.len(),
                name.as_mut_ptr(),
                name.len(),
            )
        };
        name[..length].to_vec()
    }

    fn call_decide(
        &mut self,
        asked: &[u8],
        old: Specification<'_>,
        new: Specification<'_>,
        values: &mut [usize],
        names: &mut [u8],
    ) -> u32 {
        // SAFETY: as below.
        unsafe {
            asf_decide(
                asked.as_ptr(),
                asked.len(),
                old.library().as_ptr(),
                old.library().len(),
                old.text().as_ptr(),
                old.text().len(),
                new.library().as_ptr(),
                new.library().len(),
                new.text().as_ptr(),
                new.text().len(),
                self.work.as_mut_ptr(),
                self.work.len(),
                values.as_mut_ptr(),
                values.len(),
                names.as_mut_ptr(),
                names.len(),
            )
        }
    }

    fn call(
        &mut self,
        asked: &[u8],
        specification: Specification<'_>,
        values: &mut [usize],
        names: &mut [u8],
    ) -> u32 {
        let (library, text) = (specification.library(), specification.text());
        // SAFETY: each pointer comes from a slice and is followed by its length; what is lent for writing is borrowed as such, so that
        // nothing overlaps it. Nothing else is asked of callers.
        unsafe {
            asf_normalise(
                asked.as_ptr(),
                asked.len(),
                library.as_ptr(),
                library.len(),
                text.as_ptr(),
                text.len(),
                self.work.as_mut_ptr(),
                self.work.len(),
                self.out.as_mut_ptr(),
                self.out.len(),
                values.as_mut_ptr(),
                values.len(),
                names.as_mut_ptr(),
                names.len(),
            )
        }
    }
}

/// Where the part of a specification stands that declares the module: whether in the library, and on which bytes there.
pub fn part_at(name: &[u8], specification: Specification<'_>) -> Option<(bool, Range<usize>)> {
    let (library, text) = (specification.library(), specification.text());
    let mut values = [0; 3];
    // SAFETY: as above.
    let number = unsafe {
        asf_fetch(
            name.as_ptr(),
            name.len(),
            library.as_ptr(),
            library.len(),
            text.as_ptr(),
            text.len(),
            values.as_mut_ptr(),
            values.len(),
        )
    };
    let [in_library, place, length] = values;
    match number {
        0 => Some((in_library != 0, place..place + length)),
        _ => None,
    }
}

/// What stands at a place of a listing, by its places: where the key ends, where the value begins and ends, where the next line is.
pub enum Read {
    Line {
        mark: usize,
        value: usize,
        end: usize,
        next: usize,
    },
    End,
    Bad,
}

pub fn line_at(listing: &[u8], place: usize) -> Read {
    let mut values = [0; 5];
    // SAFETY: as above.
    let number = unsafe {
        asf_line(
            listing.as_ptr(),
            listing.len(),
            place,
            values.as_mut_ptr(),
            values.len(),
        )
    };
    let [_, mark, value, end, next] = values;
    match number {
        0 => Read::Line {
            mark,
            value,
            end,
            next,
        },
        1 => Read::End,
        _ => Read::Bad,
    }
}

pub fn visible_length(listing: &[u8]) -> usize {
    // SAFETY: as above.
    unsafe { asf_visible(listing.as_ptr(), listing.len()) }
}
