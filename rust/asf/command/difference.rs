//! Two listings compared: what was added, what is gone, what has changed.

use crate::listing::{Item, Kind, Listed, Stands};
use crate::terminal::Paint;

/// Something that is listed. `keys` say what it is, the first in full, each further one less: what has one of them in common is one thing that
/// has changed. `parts` are told where they differ.
struct Entry {
    name: String,
    keys: [String; 3],
    parts: Vec<Part>,
}

/// A part of what is told of an entry: for people, and in full.
#[derive(Clone, PartialEq, Eq)]
struct Part {
    what: &'static str,
    short: String,
    full: String,
}

/// The sections of a comparison, in the order of listings.
pub fn compared(old: &Listed, new: &Listed, paint: Paint) -> String {
    let mut out = String::new();
    if old.module != new.module {
        out.push_str(&format!("module {} is now {}\n", old.module, new.module));
    }
    let sections: [(&str, fn(&Listed) -> Vec<Entry>); 7] = [
        ("sorts", |listed| exported(listed, Kind::Sort)),
        ("functions", |listed| exported(listed, Kind::Function)),
        ("parameters", parameters),
        ("hidden sorts", |listed| hidden(listed, Kind::Sort)),
        ("hidden functions", |listed| hidden(listed, Kind::Function)),
        ("variables", |listed| hidden(listed, Kind::Variable)),
        ("equations", equations),
    ];
    for (title, entries) in sections {
        let lines = differences(entries(old), entries(new), paint);
        if !lines.is_empty() {
            out.push_str(&format!("{}\n{}", title, lines));
        }
    }
    out
}

fn differences(old: Vec<Entry>, new: Vec<Entry>, paint: Paint) -> String {
    let partners = partners(&old, &new);
    let gone = |entry: &Entry| format!("  {}\n", paint.bad(&format!("- {}", entry.told())));
    let added = |entry: &Entry| format!("  {}\n", paint.good(&format!("+ {}", entry.told())));
    let kept = old
        .iter()
        .zip(&partners)
        .map(|(entry, partner)| match partner {
            None => gone(entry),
            Some(n) => entry.changed(&new[*n], paint),
        });
    let others = (0..new.len()).filter(|n| !partners.contains(&Some(*n)));
    kept.chain(others.map(|n| added(&new[n]))).collect()
}

/// For each of the old entries the new one that it has become. In full alike, any is as good as any other; else it must be clear which.
fn partners(old: &[Entry], new: &[Entry]) -> Vec<Option<usize>> {
    let mut partners: Vec<Option<usize>> = vec![None; old.len()];
    for (level, k) in (0..3).flat_map(|level| (0..old.len()).map(move |k| (level, k))) {
        let key = &old[k].keys[level];
        let free = |n: &usize| &new[*n].keys[level] == key && !partners.contains(&Some(*n));
        let alike: Vec<usize> = (0..new.len()).filter(free).collect();
        let rival = |o: &usize| partners[*o].is_none() && &old[*o].keys[level] == key;
        let rivals = (0..old.len()).filter(rival).count();
        let clear = (level == 0 && !alike.is_empty()) || (alike.len() == 1 && rivals == 1);
        if partners[k].is_none() && clear {
            partners[k] = Some(alike[0]);
        }
    }
    partners
}

impl Entry {
    /// What it is, without its origin.
    fn told(&self) -> String {
        match self.parts.first() {
            Some(part) if part.what.is_empty() => format!("{}{}", self.name, part.short),
            _ => self.name.clone(),
        }
    }

    /// A line for each part that is another now.
    fn changed(&self, new: &Entry, paint: Paint) -> String {
        let parts = self.parts.iter().zip(&new.parts);
        let others: Vec<(&Part, &Part)> = parts.filter(|(was, is)| was.full != is.full).collect();
        // an origin has the type as it was declared: what is told by the type is not told again
        let again = |was: &Part, is: &Part| {
            others.len() > 1 && was.what == ORIGIN && was.declared() == is.declared()
        };
        let told = others.iter().filter(|(was, is)| !again(was, is));
        told.map(|(was, is)| {
            let line = format!("~ {}{}", self.name, was.became(is));
            format!("  {}\n", paint.aside(&line))
        })
        .collect()
    }
}

impl Part {
    /// An origin without the last thing in it, the name with its type.
    fn declared(&self) -> &str {
        let end = self.full.rfind(',').unwrap_or(self.full.len());
        &self.full[..end]
    }

    fn became(&self, new: &Part) -> String {
        let (was, is) = match self.short == new.short {
            true => (&self.full, &new.full),
            false => (&self.short, &new.short),
        };
        let is = is.trim_start_matches(&[':', ' '][..]);
        match self.what {
            "" => format!("{} is now {}", was, is),
            what => format!(": {} {} is now {}", what, was, is),
        }
    }
}

const ORIGIN: &str = "origin";

/// An item under a name, with its type as it is read with the hidden things' own names.
fn entry(listed: &Listed, item: &Item, name: String, identity: [String; 2]) -> Entry {
    let typed = |full| match item.kind {
        Kind::Sort => String::new(),
        _ => format!(": {}", with_names(listed, &item.sorts, full)),
    };
    let [whole, less] = identity;
    Entry {
        keys: [
            format!("{} {} {}", whole, typed(true), item.origin),
            format!("{} {}", whole, typed(true)),
            less,
        ],
        parts: vec![
            Part {
                what: "",
                short: typed(false),
                full: typed(true),
            },
            Part {
                what: ORIGIN,
                short: item.origin.clone(),
                full: item.origin.clone(),
            },
        ],
        name,
    }
}

fn exported(listed: &Listed, kind: Kind) -> Vec<Entry> {
    let items = listed
        .items
        .iter()
        .filter(|item| item.stands == Stands::Exported && item.kind == kind);
    let one = |item: &Item| {
        entry(
            listed,
            item,
            item.name.clone(),
            [item.name.clone(), item.name.clone()],
        )
    };
    items.map(one).collect()
}

fn parameters(listed: &Listed) -> Vec<Entry> {
    let mut entries = Vec::new();
    for parameter in &listed.parameters {
        entries.push(Entry {
            name: parameter.clone(),
            keys: [parameter.clone(), parameter.clone(), parameter.clone()],
            parts: Vec::new(),
        });
        let stands = Stands::InParameter(parameter.clone());
        for item in listed.items.iter().filter(|item| item.stands == stands) {
            let kind = if item.kind == Kind::Sort {
                "sort"
            } else {
                "function"
            };
            let name = format!("{}: {} {}", parameter, kind, item.name);
            entries.push(entry(listed, item, name.clone(), [name.clone(), name]));
        }
    }
    entries
}

/// Hidden items go by their origins, since their numbers change with what stands before them.
fn hidden(listed: &Listed, kind: Kind) -> Vec<Entry> {
    let items = listed
        .items
        .iter()
        .filter(|item| item.stands == Stands::Hidden && item.kind == kind);
    let one = |item: &Item| {
        let name = format!("{}, of {}", declared(&item.origin), module(&item.origin));
        entry(listed, item, name.clone(), [item.origin.clone(), name])
    };
    items.map(one).collect()
}

fn equations(listed: &Listed) -> Vec<Entry> {
    let one = |equation: &crate::listing::Equation| {
        let full = with_names(listed, &equation.sides, true);
        Entry {
            name: format!("[{}]", equation.tag),
            keys: [
                format!("[{}] {}", equation.tag, full),
                equation.tag.clone(),
                full.clone(),
            ],
            parts: vec![Part {
                what: "",
                short: format!(" {}", with_names(listed, &equation.sides, false)),
                full: format!(" {}", full),
            }],
        }
    };
    listed.equations.iter().map(one).collect()
}

/// The name in an origin as it was declared: `[M1,hidden,function,g:A->A]` has `g`.
fn declared(origin: &str) -> String {
    let last = origin
        .rsplit(',')
        .next()
        .unwrap_or("")
        .trim_end_matches(']');
    last.split(':').next().unwrap_or("").to_string()
}

/// The module in an origin.
fn module(origin: &str) -> &str {
    origin
        .trim_start_matches('[')
        .split(',')
        .next()
        .unwrap_or("")
}

/// A type or an equation in which `{1}`, `{2}` and so on are exchanged: for people by the names that the hidden things were declared under, in
/// full by their origins and types, which two listings have in common.
fn with_names(listed: &Listed, words: &str, full: bool) -> String {
    let mut out = String::new();
    let mut rest = words;
    while let Some(open) = rest.find('{') {
        let close = rest[open..]
            .find('}')
            .map_or(rest.len(), |length| open + length + 1);
        out.push_str(&rest[..open]);
        let number = &rest[open..close];
        let item = listed
            .items
            .iter()
            .find(|item| item.stands == Stands::Hidden && item.name == number);
        match item {
            Some(item) if full && item.kind == Kind::Sort => {
                out.push_str(&format!("{{{}}}", item.origin))
            }
            Some(item) if full => {
                let sorts = with_names(listed, &item.sorts, true);
                out.push_str(&format!("{{{}:{}}}", item.origin, sorts));
            }
            Some(item) => out.push_str(&format!("{{{}}}", declared(&item.origin))),
            None => out.push_str(number),
        }
        rest = &rest[close..];
    }
    out.push_str(rest);
    out
}
