//! The help sheet, docs/ANSWERS.md: what each number means, and what to do about it. It is the one source of these words.

use crate::terminal::wrapped;

const SHEET: &str = include_str!("../../../docs/ANSWERS.md");

/// The section of a number.
pub struct Section {
    pub number: u32,
    pub title: &'static str,
    body: &'static str,
}

/// All sections, in the order of the sheet.
pub fn sections() -> Vec<Section> {
    let mut found = Vec::new();
    for part in SHEET.split("\n#").skip(1) {
        let (heading, body) = part.split_once('\n').unwrap_or((part, ""));
        let numbered = heading.trim_start_matches('#').trim().split_once(": ");
        if let Some((number, title)) = numbered {
            if let Ok(number) = number.parse() {
                let body = body.trim();
                found.push(Section {
                    number,
                    title,
                    body,
                });
            }
        }
    }
    found
}

pub fn section(number: u32) -> Option<Section> {
    sections()
        .into_iter()
        .find(|section| section.number == number)
}

/// What a number says: its section's title.
pub fn title(number: u32) -> &'static str {
    section(number).map_or("no such number", |section| section.title)
}

/// What to do about a number: what stands first in bold in its section, as a sentence.
pub fn advice(number: u32) -> String {
    let section = section(number);
    let words = section.and_then(|section| section.body.split("**").nth(1));
    let words = words.unwrap_or("");
    let open = !words.is_empty() && !words.ends_with('.');
    format!("{}{}", words, if open { "." } else { "" })
}

/// The numbers that have a section, as `0 to 15, 17 to 19`.
pub fn numbers() -> String {
    let mut all: Vec<u32> = sections().iter().map(|section| section.number).collect();
    all.sort_unstable();
    let mut ranges: Vec<(u32, u32)> = Vec::new();
    for number in all {
        match ranges.last_mut() {
            Some((_, last)) if *last + 1 == number => *last = number,
            _ => ranges.push((number, number)),
        }
    }
    let told = ranges.iter().map(|&(first, last)| {
        if first == last {
            first.to_string()
        } else {
            format!("{} to {}", first, last)
        }
    });
    told.collect::<Vec<_>>().join(", ")
}

impl Section {
    /// The whole section for a terminal: examples indented, all else in lines of 80 columns.
    pub fn printed(&self) -> String {
        let mut out = format!("{}: {}\n", self.number, self.title);
        for (k, part) in self.body.split("```").enumerate() {
            if k % 2 == 1 {
                out.push('\n');
                for line in part.trim_matches('\n').lines() {
                    out.push_str(&format!("    {}\n", line));
                }
                continue;
            }
            for paragraph in part.split("\n\n").filter(|words| !words.trim().is_empty()) {
                out.push('\n');
                out.push_str(&wrapped("", &paragraph.replace("**", "")));
            }
        }
        out
    }
}

/// All numbers with their titles, as lines.
pub fn overview() -> String {
    let mut all = sections();
    all.sort_by_key(|section| section.number);
    let line = |section: &Section| format!("{:>4}  {}\n", section.number, section.title);
    all.iter().map(line).collect()
}
