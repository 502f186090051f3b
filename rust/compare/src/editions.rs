//! Chains of editions of one specification, as whoever stores visible parts meets them: each edition comes from the one before by some edits,
//! by going back to an earlier one, or by an accident after which it is not read.

use crate::damage;
use crate::diamonds;
use crate::draft::{self, Plan};
use crate::edits;
use crate::names;
use crate::operators;
use crate::parameterised;
use crate::random::Random;
use crate::spelling::{lay_out, some_layout, spell};
use reference::syntax::{Module, Specification};
use reference::{normalise, Lent, Name, Texts, OUTPUT_BYTES};
use std::io::{self, Write};

#[derive(Clone, Debug, PartialEq, Eq)]
pub struct Edition {
    /// Empty where there is none.
    pub library: Vec<u8>,
    pub text: Vec<u8>,
}

impl Edition {
    pub fn texts(&self) -> Texts<'_> {
        Texts {
            library: &self.library,
            customer: &self.text,
        }
    }
}

pub struct Chain {
    /// The modules whose parts are stored; now and then there is none of the name.
    pub names: Vec<Name>,
    /// How many bytes are lent for a listing.
    pub output: usize,
    pub editions: Vec<Edition>,
}

impl Chain {
    /// The chain as bytes, for `chains` of rust/asf: words of 32 bits, least byte first, and behind a length as many bytes. A 1 stands before a
    /// chain; a 0 ends them.
    pub fn write(&self, seed: u64, out: &mut impl Write) -> io::Result<()> {
        for number in [1, seed as usize, self.output, self.names.len()] {
            write_word(number, out)?;
        }
        for name in &self.names {
            write_bytes(name, out)?;
        }
        write_word(self.editions.len(), out)?;
        for edition in &self.editions {
            write_bytes(&edition.library, out)?;
            write_bytes(&edition.text, out)?;
        }
        Ok(())
    }
}

pub fn write_word(word: usize, out: &mut impl Write) -> io::Result<()> {
    let word = u32::try_from(word).expect("a number of a chain");
    out.write_all(&word.to_le_bytes())
}

fn write_bytes(bytes: &[u8], out: &mut impl Write) -> io::Result<()> {
    write_word(bytes.len(), out)?;
    out.write_all(bytes)
}

/// The chain of a seed.
pub fn chain(seed: u64) -> Chain {
    let random = &mut Random::new(seed);
    let (names, first) = start(random);
    let mut history = vec![first];
    let mut editions = vec![history[0].edition()];
    let count = random.between(3, 7);
    while editions.len() < count {
        let next = following(&history, random);
        editions.extend(next.iter().map(Sources::edition));
        // a mistake is mostly mended: what comes next is made from what was there before it
        let stay = next.into_iter().filter(|next| {
            let number = number(&names[0], &next.edition());
            number == 0 || number > 5 && random.chance(35)
        });
        history.extend(stay.collect::<Vec<Sources>>());
        if random.chance(6) {
            editions.push(damaged(&history[history.len() - 1], random));
        }
    }
    Chain {
        output: some_output(&names, &editions[0], random),
        names,
        editions,
    }
}

fn number(asked: &Name, edition: &Edition) -> u32 {
    normalise(asked, edition.texts(), Lent::output(OUTPUT_BYTES)).number
}

/// Mostly a specification whose last module is accepted.
fn start(random: &mut Random) -> (Vec<Name>, Sources) {
    loop {
        let sources = Sources::new(specification(random), random);
        let names = some_names(&sources.modules, random);
        if number(&names[0], &sources.edition()) == 0 || random.chance(5) {
            return (names, sources);
        }
    }
}

fn specification(random: &mut Random) -> Specification {
    let modules = random.between(2, 4) + random.below(4);
    let mut specification = match random.below(10) {
        0..=6 => draft::specification(&Plan { modules, kept: 0 }, random),
        7 | 8 => diamonds::specification(random),
        _ => parameterised::specification(random),
    };
    if random.chance(20) {
        operators::operate(&mut specification, random);
    }
    specification
}

/// The last module, which reaches the most, and mostly others.
fn some_names(modules: &[Module], random: &mut Random) -> Vec<Name> {
    let mut names: Vec<Name> = modules
        .last()
        .map(|last| last.name.clone())
        .into_iter()
        .collect();
    for _ in 0..random.below(4) {
        let other = match random.pick(modules) {
            Some(module) if random.chance(97) => module.name.clone(),
            _ => names::fresh(random),
        };
        if !names.contains(&other) {
            names.push(other);
        }
    }
    names
}

/// Now and then little more than the first listing needs, so that later ones do not fit.
fn some_output(names: &[Name], first: &Edition, random: &mut Random) -> usize {
    if random.chance(85) {
        return OUTPUT_BYTES;
    }
    let listing = normalise(&names[0], first.texts(), Lent::output(OUTPUT_BYTES)).listing;
    listing.len() + random.below(120)
}

/// The modules as trees and as they are spelt, and how many of them stand in the library.
#[derive(Clone)]
struct Sources {
    modules: Vec<Module>,
    spelt: Vec<Vec<u8>>,
    in_library: usize,
}

impl Sources {
    fn new(specification: Specification, random: &mut Random) -> Sources {
        let none = Sources {
            modules: Vec::new(),
            spelt: Vec::new(),
            in_library: 0,
        };
        let mut sources = none.with(specification, random);
        if random.chance(50) {
            sources.divide(random);
        }
        sources
    }

    /// Other modules; those that are there already keep their bytes.
    fn with(&self, specification: Specification, random: &mut Random) -> Sources {
        let mut spelling = |module: &Module| {
            let there = self.modules.iter().position(|other| other == module);
            there.map_or_else(|| spelt(module, random), |index| self.spelt[index].clone())
        };
        Sources {
            spelt: specification.modules.iter().map(&mut spelling).collect(),
            in_library: self
                .in_library
                .min(specification.modules.len().saturating_sub(1)),
            modules: specification.modules,
        }
    }

    fn specification(&self) -> Specification {
        Specification {
            modules: self.modules.clone(),
        }
    }

    /// So that a module is left for the customer's text.
    fn divide(&mut self, random: &mut Random) {
        self.in_library = random.below(self.modules.len());
    }

    /// One module spelt in another way: most often nothing changes but layout.
    fn spell_again(&mut self, random: &mut Random) {
        let index = random.below(self.modules.len());
        self.spelt[index] = spelt(&self.modules[index], random);
    }

    fn edition(&self) -> Edition {
        let (library, text) = self.spelt.split_at(self.in_library);
        Edition {
            library: library.join(&b'\n'),
            text: text.join(&b'\n'),
        }
    }
}

fn spelt(module: &Module, random: &mut Random) -> Vec<u8> {
    let alone = Specification {
        modules: vec![module.clone()],
    };
    let tokens = spell(&alone, random);
    lay_out(&tokens, some_layout(random), random)
}

/// What comes behind these: mostly one edition.
fn following(history: &[Sources], random: &mut Random) -> Vec<Sources> {
    let last = &history[history.len() - 1];
    match random.below(20) {
        0 | 1 => vec![history[random.below(history.len())].clone()],
        2 => vec![module_as_before(history, random)],
        3 => {
            let mut divided = last.clone();
            divided.divide(random);
            vec![divided]
        }
        4 => {
            let mut spelt = last.clone();
            spelt.spell_again(random);
            vec![spelt]
        }
        5 | 6 => too_large_for_a_while(last, random),
        7 => missing_then_late(last, random),
        _ => {
            let mut specification = last.specification();
            for _ in 0..random.between(1, 3) {
                edits::edit(&mut specification, random);
            }
            vec![last.with(specification, random)]
        }
    }
}

/// One module goes back to what it was.
fn module_as_before(history: &[Sources], random: &mut Random) -> Sources {
    let last = &history[history.len() - 1];
    let earlier = &history[random.below(history.len())];
    let mut specification = last.specification();
    if let Some(module) = random.pick(&earlier.modules) {
        if let Some(index) = specification.index(&module.name) {
            specification.modules[index] = module.clone();
        }
    }
    last.with(specification, random)
}

/// Of three modules one above the other the middle one goes wrong while the lowest is too large for any call, which 18 hides; then the lowest
/// is as it was. Where there are no such three, any module is too large for a while.
fn too_large_for_a_while(last: &Sources, random: &mut Random) -> Vec<Sources> {
    let mut specification = last.specification();
    let top = specification.modules.len() - 1;
    let middle = random.pick(&edits::named(&specification, top)).copied();
    let below = middle.map(|middle| edits::named(&specification, middle));
    let low = random.pick(&below.unwrap_or_default()).copied();
    if let (Some(middle), Some(_)) = (middle, low) {
        edits::go_wrong_inside(&mut specification, middle, random);
    }
    let low = low.unwrap_or_else(|| random.below(top + 1));
    let small = last.with(specification.clone(), random);
    edits::grow(
        &mut specification.modules[low],
        random.between(1_030, 1_100),
    );
    let large = small.with(specification, random);
    vec![large, small]
}

/// A module names one that is missing, and then stands behind it.
fn missing_then_late(last: &Sources, random: &mut Random) -> Vec<Sources> {
    let mut specification = last.specification();
    let index = random.below(specification.modules.len());
    let name = edits::name_in_vain(&mut specification.modules[index], random);
    let missing = last.with(specification.clone(), random);
    specification.modules.push(Module {
        name,
        ..Module::default()
    });
    let late = missing.with(specification, random);
    vec![missing, late]
}

/// An edition with bytes damaged in one of its texts.
fn damaged(sources: &Sources, random: &mut Random) -> Edition {
    let mut edition = sources.edition();
    if !edition.library.is_empty() && random.chance(50) {
        damage::bytes(&mut edition.library, random);
    } else {
        damage::bytes(&mut edition.text, random);
    }
    edition
}
