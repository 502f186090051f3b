//! The library's decision whether a stored part may be kept, held to the reference's, between editions of a chain; and the names of modules by
//! their numbers, which a decision is told with.

use crate::cases::Case;
use crate::driver::{Reply, DECISION_NAMES, DECISION_VALUES, FILL, MEMORY_WORDS};
use crate::editions::{Chain, Edition};
use crate::engines::Difference;
use crate::proved::{differ, laid, laid_values, told, Proved};
use crate::shrink::shrink;
use reference::{decide, module_name, Decision, Name, NAME_BYTES};
use std::collections::BTreeMap;
use std::fmt;
use std::ops::AddAssign;

/// How often each decision came.
#[derive(Clone, Debug, Default)]
pub struct Tally {
    counts: BTreeMap<String, u64>,
}

impl Tally {
    pub fn count(&mut self, decision: &Decision) {
        let what = match decision {
            Decision::KeepAfter(modules) if modules.is_empty() => "kept".to_string(),
            Decision::KeepAfter(_) => "kept after asking".to_string(),
            Decision::AskAgain { reason, .. } => format!("asked for {reason}"),
            Decision::NotRead { in_new: false, .. } => "old not read".to_string(),
            Decision::NotRead { in_new: true, .. } => "new not read".to_string(),
        };
        *self.counts.entry(what).or_default() += 1;
    }

    pub fn of(&self, what: &str) -> u64 {
        self.counts.get(what).copied().unwrap_or_default()
    }
}

impl AddAssign for Tally {
    fn add_assign(&mut self, more: Tally) {
        for (what, count) in more.counts {
            *self.counts.entry(what).or_default() += count;
        }
    }
}

impl fmt::Display for Tally {
    fn fmt(&self, f: &mut fmt::Formatter<'_>) -> fmt::Result {
        let counts = self.counts.iter();
        let all: Vec<String> = counts
            .map(|(what, count)| format!("{what} {count}"))
            .collect();
        write!(f, "{}", all.join(", "))
    }
}

/// What is asked: a name, and the editions before and now.
pub struct Question<'c> {
    pub asked: Name,
    pub old: &'c Edition,
    pub new: &'c Edition,
}

impl Question<'_> {
    pub fn decision(&self) -> Decision {
        decide(&self.asked, self.old.texts(), self.new.texts())
    }
}

/// Each edition and the next, the first and the last both ways; for every name of the chain, one that is absent, and one that is too long.
pub fn questions(chain: &Chain) -> Vec<Question<'_>> {
    let editions = &chain.editions;
    let mut pairs: Vec<_> = editions.iter().zip(&editions[1..]).collect();
    let (first, last) = (&editions[0], &editions[editions.len() - 1]);
    pairs.extend([(first, last), (last, first)]);
    let others = [b"Absent'".to_vec(), vec![b'n'; 40 + last.text.len() % 2]];
    let mut questions = Vec::new();
    for (index, (old, new)) in pairs.into_iter().enumerate() {
        let other = others.get(index);
        for asked in chain.names.iter().chain(other).cloned() {
            questions.push(Question { asked, old, new });
        }
    }
    questions
}

/// Every question, once with too little memory, and some numbers of modules.
pub fn compare(proved: &Proved, chain: &Chain) -> Result<Tally, Difference> {
    let mut tally = Tally::default();
    for question in questions(chain) {
        match proved.compare_decision(&question) {
            None => tally.count(&question.decision()),
            Some(_) => return Err(smallest(proved, &question)),
        }
    }
    let edition = &chain.editions[chain.editions.len() - 1];
    let other = proved
        .compare_short_memory(&chain.names[0], edition)
        .or_else(|| proved.compare_names(edition));
    other.map_or(Ok(tally), Err)
}

impl Proved {
    pub fn compare_decision(&self, question: &Question) -> Option<Difference> {
        let expected = expected_decision(&question.decision(), rooms(question.new));
        self.compare_reply(question, &expected, MEMORY_WORDS)
    }

    /// 19 comes before all else, and nothing is told.
    fn compare_short_memory(&self, asked: &Name, edition: &Edition) -> Option<Difference> {
        let question = Question {
            asked: asked.clone(),
            old: edition,
            new: edition,
        };
        let expected = expected_reply(19, [0; DECISION_VALUES], [&[], &[]], rooms(edition));
        self.compare_reply(&question, &expected, short_memory(edition))
    }

    fn compare_reply(
        &self,
        question: &Question,
        expected: &Reply,
        memory: usize,
    ) -> Option<Difference> {
        let (old, new) = (question.old.texts(), question.new.texts());
        let room = rooms(question.new);
        let found = self.call(|driver| driver.decide(&question.asked, old, new, room, memory));
        differ(expected, found, |reply| {
            let asked = String::from_utf8_lossy(&question.asked);
            format!("{asked} decided: {}", told(reply))
        })
    }

    /// The first module, one of them, numbers behind the last, and the first with too little memory.
    fn compare_names(&self, edition: &Edition) -> Option<Difference> {
        let some = edition.text.len() % 7;
        let enough = [0, some, 63, 64, u32::MAX as usize].map(|number| (number, MEMORY_WORDS));
        let mut all = enough.into_iter().chain([(0, short_memory(edition))]);
        all.find_map(|(number, memory)| self.compare_name(edition, number, memory))
    }

    fn compare_name(&self, edition: &Edition, number: usize, memory: usize) -> Option<Difference> {
        let name = match memory < MEMORY_WORDS {
            true => Name::new(),
            false => module_name(edition.texts(), number),
        };
        let (_, room) = rooms(edition);
        let expected = Reply {
            number: name.len() as u32,
            names: laid(&laid(&name, 0, NAME_BYTES), FILL, room),
            ..Reply::default()
        };
        let found = self.call(|driver| driver.module_name(edition.texts(), number, memory, room));
        differ(&expected, found, |reply| {
            format!("module {number} named: {}", told(reply))
        })
    }
}

/// Mostly room for all values and names, now and then less or more.
fn rooms(edition: &Edition) -> (usize, usize) {
    let length = edition.text.len();
    if length % 8 == 0 {
        (length / 8 % 12, length / 8 % 97)
    } else {
        (DECISION_VALUES, DECISION_NAMES)
    }
}

/// One word too few now and then, since that costs as much as enough; else fewer.
fn short_memory(edition: &Edition) -> usize {
    if edition.text.len() % 16 == 0 {
        MEMORY_WORDS - 1
    } else {
        edition.text.len() % 1_000
    }
}

/// What `c/asf.h` says of a decision.
fn expected_decision(decision: &Decision, room: (usize, usize)) -> Reply {
    match decision {
        Decision::KeepAfter(modules) => {
            let set = modules.iter().fold(0, |set, module| set | 1_u64 << module);
            let values = [0, set & 0xffff_ffff, set >> 32, 0, 0, 0, 0, 0, 0];
            expected_reply(0, values, [&[], &[]], room)
        }
        Decision::AskAgain { reason, by, name } => {
            let lengths = [by.len() as u64, name.len() as u64];
            let values = [u64::from(*reason), 0, 0, 0, 0, 0, 0, lengths[0], lengths[1]];
            expected_reply(1, values, [by, name], room)
        }
        Decision::NotRead { in_new, refused } => {
            let (number, at) = (u64::from(refused.number), refused.at as u64);
            let marks = [*in_new, refused.in_library].map(u64::from);
            let values = [0, 0, 0, number, at, marks[0], marks[1], 0, 0];
            expected_reply(2, values, [&[], &[]], room)
        }
    }
}

fn expected_reply(
    number: u32,
    values: [u64; DECISION_VALUES],
    names: [&[u8]; 2],
    (value_room, name_room): (usize, usize),
) -> Reply {
    let names = names.map(|name| laid(name, 0, NAME_BYTES)).concat();
    Reply {
        number,
        values: laid_values(&values, value_room),
        names: laid(&names, FILL, name_room),
        ..Reply::default()
    }
}

/// The difference with both editions made as small as they go, the new one first.
fn smallest(proved: &Proved, question: &Question) -> Difference {
    let asked = &question.asked;
    let differ = |old: &Edition, new: &Edition| {
        let asked = asked.clone();
        proved.compare_decision(&Question { asked, old, new })
    };
    let new = smaller(question.new, |new| differ(question.old, new).is_some());
    let old = smaller(question.old, |old| differ(old, &new).is_some());
    let found = differ(&old, &new).expect("it differs still");
    Difference {
        expected: format!("{}\n{}", found.expected, both(&old, &new)),
        found: found.found,
    }
}

fn smaller(edition: &Edition, differs: impl Fn(&Edition) -> bool) -> Edition {
    let of_case = |case: &Case| Edition {
        library: case.library.clone(),
        text: case.text.clone(),
    };
    let case = Case {
        library: edition.library.clone(),
        text: edition.text.clone(),
        ..Case::default()
    };
    of_case(&shrink(&case, |case| differs(&of_case(case))))
}

fn both(old: &Edition, new: &Edition) -> String {
    let all = [
        ("old library", &old.library),
        ("old text", &old.text),
        ("new library", &new.library),
        ("new text", &new.text),
    ];
    let told = all.map(|(what, text)| format!("--- {what}\n{}", String::from_utf8_lossy(text)));
    told.join("\n")
}
