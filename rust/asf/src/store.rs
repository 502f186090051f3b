//! Visible parts that are kept while the specification changes.

use crate::decision::{listed, Decision, Unread, Why};
use crate::{Memory, Refusal, Specification};
use std::collections::BTreeMap;
use std::fmt;
use std::rc::Rc;

/// Keeps the visible parts of some modules. Given a new specification it asks what must be asked, keeps what may be kept, and tells what it did
/// (`examples/store.rs`).
///
/// With each part it remembers the specification that the part is held for, in the sense of `Held` in `crates/ask_decision`: there the module was
/// answered 0, or the part was kept for it. That is the old one of the next decision, also where specifications came between for which there is
/// nothing to show. What is shown is what asking the module would show, byte for byte, or asking it would be answered 18 or 19.
pub struct Store {
    memory: Memory,
    now: Rc<Texts>,
    modules: BTreeMap<Vec<u8>, Stored>,
}

/// A specification of the store's own.
struct Texts {
    library: Vec<u8>,
    text: Vec<u8>,
}

impl Texts {
    fn new(specification: Specification<'_>) -> Rc<Texts> {
        Rc::new(Texts {
            library: specification.library().to_vec(),
            text: specification.text().to_vec(),
        })
    }

    fn specification(&self) -> Specification<'_> {
        Specification::with_library(&self.library, &self.text)
    }
}

/// What is stored of a module: the part that is held for some specification, and whether that is the one of now, or else the refusal.
struct Stored {
    held: Option<Held>,
    now: Result<(), Refusal>,
}

struct Held {
    part: Vec<u8>,
    of: Rc<Texts>,
}

/// What was done with the part of a module when the specification changed.
#[derive(Clone, Debug, PartialEq, Eq)]
pub enum Done {
    /// It was kept, once these modules were answered 0; with none of them, without asking.
    Kept(Vec<Vec<u8>>),
    /// The module was asked again, and has a part.
    AskedAgain(Because),
    /// The module was asked again, and is refused now. An older part is not shown.
    Refused(Because, Refusal),
}

/// Why a module was asked again.
#[derive(Clone, Debug, PartialEq, Eq)]
pub enum Because {
    /// No part of it is held.
    NothingHeld,
    /// It must be, by the decision.
    Decided(Why),
    /// A module that had to be asked first is not answered 0.
    NotAccepted(Vec<u8>, Refusal),
    /// The specification is not read.
    NotRead(Unread),
}

/// The visible part, or the refusal, of each module that was asked of the new specification: none is asked twice.
type Asked = BTreeMap<Vec<u8>, Result<Vec<u8>, Refusal>>;

impl Store {
    /// A store without modules, for a specification: a text, or a [`Specification`] that has a library too.
    pub fn new<'t>(specification: impl Into<Specification<'t>>) -> Store {
        Store::with_memory(Memory::new(), specification)
    }

    /// The same with this memory.
    pub fn with_memory<'t>(memory: Memory, specification: impl Into<Specification<'t>>) -> Store {
        Store {
            memory,
            now: Texts::new(specification.into()),
            modules: BTreeMap::new(),
        }
    }

    /// Asks a module, and stores its visible part from now on.
    pub fn add(&mut self, module: &[u8]) -> Result<&[u8], &Refusal> {
        let answer = self.ask(module, &mut Asked::new());
        let nothing = Stored {
            held: None,
            now: Ok(()),
        };
        self.modules.insert(module.to_vec(), nothing);
        self.put(module, answer);
        self.show(module).expect("it was added")
    }

    /// The visible part of a module for the specification of now, or why it is refused; none where the module was not added.
    pub fn show(&self, module: &[u8]) -> Option<Result<&[u8], &Refusal>> {
        let stored = self.modules.get(module)?;
        Some(match (&stored.now, &stored.held) {
            (Ok(()), Some(held)) => Ok(&held.part),
            (Ok(()), None) => unreachable!("what is not refused has a part"),
            (Err(refusal), _) => Err(refusal),
        })
    }

    /// A new specification: every part is kept or asked again. What was done is told in the order of the names.
    pub fn change<'t>(
        &mut self,
        specification: impl Into<Specification<'t>>,
    ) -> Vec<(Vec<u8>, Done)> {
        self.now = Texts::new(specification.into());
        let mut asked = Asked::new();
        let modules: Vec<Vec<u8>> = self.modules.keys().cloned().collect();
        let done = modules.into_iter().map(|module| {
            let done = self.keep_or_ask(&module, &mut asked);
            (module, done)
        });
        done.collect()
    }

    /// The procedure of docs/CACHE.md for one module.
    fn keep_or_ask(&mut self, module: &[u8], asked: &mut Asked) -> Done {
        let because = match self.decide(module) {
            None => Because::NothingHeld,
            Some(Decision::AskAgain(why)) => Because::Decided(why),
            Some(Decision::NotRead(unread)) => Because::NotRead(unread),
            Some(Decision::KeepAfter(changed)) => match self.first_refused(&changed, asked) {
                None => {
                    self.keep(module);
                    return Done::Kept(changed);
                }
                Some((changed, refusal)) => Because::NotAccepted(changed, refusal),
            },
        };
        let answer = self.ask(module, asked);
        let refusal = answer.clone().err();
        self.put(module, answer);
        match refusal {
            None => Done::AskedAgain(because),
            Some(refusal) => Done::Refused(because, refusal),
        }
    }

    /// From the specification that the part is held for; none where no part is held.
    fn decide(&mut self, module: &[u8]) -> Option<Decision> {
        let held = self.modules.get(module)?.held.as_ref()?;
        let (old, new) = (held.of.specification(), self.now.specification());
        Some(self.memory.decide(module, old, new))
    }

    /// The first of these modules that is not answered 0, whatever its number is.
    fn first_refused(
        &mut self,
        modules: &[Vec<u8>],
        asked: &mut Asked,
    ) -> Option<(Vec<u8>, Refusal)> {
        let mut modules = modules.iter();
        modules.find_map(|module| {
            let refusal = self.ask(module, asked).err()?;
            Some((module.clone(), refusal))
        })
    }

    fn ask(&mut self, module: &[u8], asked: &mut Asked) -> Result<Vec<u8>, Refusal> {
        if let Some(answer) = asked.get(module) {
            return answer.clone();
        }
        let listing = self.memory.normalise(module, self.now.specification());
        let answer = listing.map(|listing| listing.visible().to_vec());
        asked.insert(module.to_vec(), answer.clone());
        answer
    }

    /// The part is held for the specification of now.
    fn keep(&mut self, module: &[u8]) {
        if let Some(stored) = self.modules.get_mut(module) {
            stored.now = Ok(());
            if let Some(held) = &mut stored.held {
                held.of = Rc::clone(&self.now);
            }
        }
    }

    /// What was answered now; after a refusal an older part stays held for the specification that it is of.
    fn put(&mut self, module: &[u8], answer: Result<Vec<u8>, Refusal>) {
        if let Some(stored) = self.modules.get_mut(module) {
            stored.now = match answer {
                Ok(part) => {
                    let of = Rc::clone(&self.now);
                    stored.held = Some(Held { part, of });
                    Ok(())
                }
                Err(refusal) => Err(refusal),
            };
        }
    }
}

impl fmt::Display for Because {
    fn fmt(&self, f: &mut fmt::Formatter<'_>) -> fmt::Result {
        match self {
            Because::NothingHeld => write!(f, "nothing was stored"),
            Because::Decided(why) => write!(f, "{}", why),
            Because::NotAccepted(module, refusal) => {
                let module = String::from_utf8_lossy(module);
                write!(f, "{} is not accepted ({})", module, refusal)
            }
            Because::NotRead(unread) => write!(f, "not read ({})", unread),
        }
    }
}

impl fmt::Display for Done {
    fn fmt(&self, f: &mut fmt::Formatter<'_>) -> fmt::Result {
        match self {
            Done::Kept(asked) if asked.is_empty() => write!(f, "kept without asking"),
            Done::Kept(asked) => write!(f, "kept after asking {}", listed(asked)),
            Done::AskedAgain(because) => write!(f, "asked again: {}", because),
            Done::Refused(because, refusal) => {
                write!(f, "refused now by {}; asked again: {}", refusal, because)
            }
        }
    }
}
