//! What to do before a stored visible part of a module is shown for a new specification, from the words of docs/CACHE.md: which modules must
//! be asked first, or why the module itself.

use crate::evaluate::reached;
use crate::syntax::{Module, Name, Specification};
use crate::{read_both, short_or_blank, Answer, Texts};

#[derive(Clone, Debug, PartialEq, Eq)]
pub enum Decision {
    /// Keep the part once these modules of the new specification are answered 0, by their places in the sequence.
    KeepAfter(Vec<usize>),
    /// Ask the module itself: why, the module concerned, and another name with 3 and 8.
    AskAgain { reason: u32, by: Name, name: Name },
    /// The new specification, or else the old one, is not read: the refusal.
    NotRead { in_new: bool, refused: Answer },
}

/// The old specification is looked at first.
pub fn decide(asked: &[u8], old: Texts, new: Texts) -> Decision {
    let not_read = |in_new, refused| Decision::NotRead { in_new, refused };
    match (read_both(old), read_both(new)) {
        (Err(refused), _) => not_read(false, refused),
        (_, Err(refused)) => not_read(true, refused),
        (Ok(old), Ok(new)) => Editions { old, new }.decide(asked),
    }
}

/// The name of the module at a place of the sequence; blank where there is none, and where the texts are not read.
pub fn module_name(texts: Texts, place: usize) -> Name {
    let modules = read_both(texts).map_or(Vec::new(), |specification| specification.modules);
    modules.into_iter().nth(place).unwrap_or_default().name
}

/// An earlier specification and a later one.
struct Editions {
    old: Specification,
    new: Specification,
}

/// A reached module and its counterpart, by their places.
type Pair = (usize, usize);

impl Editions {
    fn decide(&self, asked: &[u8]) -> Decision {
        let absent = |reason| ask_again(reason, &short_or_blank(asked), b"");
        let Some(before) = self.old.index(asked) else {
            return absent(1);
        };
        let Some(now) = self.new.index(asked) else {
            return absent(2);
        };
        // the asked module comes last in both and nowhere else: where one goes on behind the other's last, a pair before differs
        let reached = places(&self.old, before).into_iter();
        let pairs: Vec<Pair> = reached.zip(places(&self.new, now)).collect();
        let first = |objection: fn(&Self, Pair) -> Option<Decision>| {
            pairs.iter().find_map(|&pair| objection(self, pair))
        };
        first(Self::reached_otherwise)
            .or_else(|| self.asked_changed((before, now)))
            .or_else(|| first(Self::shown_changed))
            .or_else(|| first(Self::named_otherwise))
            .unwrap_or_else(|| self.keep_after(&pairs))
    }

    /// The changed modules, in text order.
    fn keep_after(&self, pairs: &[Pair]) -> Decision {
        let changed = pairs.iter().filter(|&&pair| {
            let (old, new) = self.modules(pair);
            old != new
        });
        Decision::KeepAfter(changed.map(|&(_, new)| new).collect())
    }

    fn modules(&self, (old, new): Pair) -> (&Module, &Module) {
        (&self.old.modules[old], &self.new.modules[new])
    }

    /// 3: the reached modules are others, or stand in another order.
    fn reached_otherwise(&self, pair: Pair) -> Option<Decision> {
        let (old, new) = self.modules(pair);
        (old.name != new.name).then(|| ask_again(3, &old.name, &new.name))
    }

    /// 4: the asked module changed, in whatever it has.
    fn asked_changed(&self, asked: Pair) -> Option<Decision> {
        let (old, new) = self.modules(asked);
        (old != new).then(|| ask_again(4, &old.name, b""))
    }

    /// 5, 6, 7: a reached module has other parameters, exports or imports.
    fn shown_changed(&self, pair: Pair) -> Option<Decision> {
        let (old, new) = self.modules(pair);
        let changed = [
            (5, old.parameters != new.parameters),
            (6, old.exports != new.exports),
            (7, old.imports != new.imports),
        ];
        let (reason, _) = changed.into_iter().find(|&(_, changed)| changed)?;
        Some(ask_again(reason, &old.name, b""))
    }

    /// 8: a module name that a reached module uses is missing in one specification only, or too late in one only.
    fn named_otherwise(&self, (old, new): Pair) -> Option<Decision> {
        let module = &self.old.modules[old];
        let mut names = module.named_modules().into_iter();
        let name =
            names.find(|name| standing(&self.old, old, name) != standing(&self.new, new, name))?;
        Some(ask_again(8, &module.name, name))
    }
}

fn ask_again(reason: u32, by: &[u8], name: &[u8]) -> Decision {
    Decision::AskAgain {
        reason,
        by: by.to_vec(),
        name: name.to_vec(),
    }
}

/// The places of the modules that one reaches, in text order.
fn places(specification: &Specification, asked: usize) -> Vec<usize> {
    let reached = reached(specification, asked);
    (0..reached.len()).filter(|&place| reached[place]).collect()
}

#[derive(PartialEq, Eq)]
enum Standing {
    Missing,
    TooLate,
    Earlier,
}

/// How a module stands to one that uses its name.
fn standing(specification: &Specification, user: usize, name: &[u8]) -> Standing {
    match specification.index(name) {
        None => Standing::Missing,
        Some(place) if place >= user => Standing::TooLate,
        Some(_) => Standing::Earlier,
    }
}
