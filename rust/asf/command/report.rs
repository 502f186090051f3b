//! A refusal as a compiler would tell it: place, number and title; the line with carets; what else is known of it; and what to do.

use crate::json::{text, Value};
use crate::scan::{headings, search, tokens, Culprit};
use crate::sheet;
use crate::source::{readable, Question, Text};
use crate::terminal::{wrapped, Paint};
use asf::{Refusal, TEXT_BYTES};
use std::ops::Range;

/// A part of one of the two texts, and how it is known.
pub struct Spot<'q> {
    kind: &'static str,
    text: &'q Text<'q>,
    range: Range<usize>,
}

/// The place that the answer has, for 1 to 5.
const TOLD: &str = "told";
/// The name of the module that the answer has, where it is declared.
const HEADING: &str = "heading";
/// What the culprit is called, found by a scan.
const SEARCH: &str = "search";
/// The module that the culprit is the name of, for 5 and 8.
const OTHER: &str = "other";

/// A refusal with its question: the asked name and the texts.
pub struct Report<'q> {
    pub asked: &'q [u8],
    pub question: &'q Question<'q>,
    pub refusal: &'q Refusal,
}

impl<'q> Report<'q> {
    fn told(&self) -> Option<Spot<'q>> {
        let at = self.refusal.at();
        (self.refusal.number() <= 5).then(|| Spot {
            kind: TOLD,
            text: self.question.side(self.refusal.in_library()),
            range: at..at,
        })
    }

    fn found(&self) -> Option<Spot<'q>> {
        let refusal = self.refusal;
        let (text, part) = part(self.question, refusal.module())?;
        let culprit = Culprit {
            number: refusal.number(),
            name: refusal.name(),
            actual: refusal.actual(),
        };
        let range = search(&text.bytes()[part.clone()], &culprit)?;
        Some(Spot {
            kind: SEARCH,
            text,
            range: part.start + range.start..part.start + range.end,
        })
    }

    /// All that can be shown, the first in front of the message.
    fn spots(&self) -> Vec<Spot<'q>> {
        let refusal = self.refusal;
        match refusal.number() {
            5 => {
                let told = self.told().expect("5 has a place");
                let name = tokens(&told.text.bytes()[told.range.start..]);
                let name = name
                    .first()
                    .map(|token| told.text.bytes()[told.range.start..][token.clone()].to_vec());
                let other = name.and_then(|name| Spot::declared(self.question, &name, OTHER));
                Some(told).into_iter().chain(other).collect()
            }
            1..=4 => self.told().into_iter().collect(),
            6 => Vec::new(),
            number => {
                let other = match number {
                    8 if refusal.name() != refusal.module() => {
                        Spot::declared(self.question, refusal.name(), OTHER)
                    }
                    _ => None,
                };
                let spots = [
                    Spot::heading(self.question, refusal.module()),
                    self.found(),
                    other,
                ];
                spots.into_iter().flatten().collect()
            }
        }
    }

    /// The names that the refusal tells, as a title is continued by them.
    fn names(&self) -> String {
        let name = readable(self.refusal.name());
        let actual = readable(self.refusal.actual());
        match self.refusal.number() {
            6 => format!(": {}", readable(self.asked)),
            _ if name.is_empty() => String::new(),
            17 => format!(": [{}]", name),
            _ if actual.is_empty() => format!(": {}", name),
            _ => format!(": {} -> {}", name, actual),
        }
    }

    /// The message for people.
    pub fn printed(&self, paint: Paint) -> String {
        let number = self.refusal.number();
        let spots = self.spots();
        let message = format!("{}: {}{}", number, sheet::title(number), self.names());
        let mut out = match spots.first() {
            Some(spot) => spot.shown(&message, paint, Paint::bad),
            None => format!(
                "{}: {}\n",
                paint.place(&self.question.text.file.name),
                paint.bad(&message)
            ),
        };
        for spot in spots.iter().skip(1) {
            out.push_str(&spot.shown(&self.label(spot.kind), paint, Paint::aside));
        }
        for note in self.notes(&spots) {
            out.push_str(&wrapped("note: ", &note));
        }
        out.push_str(&wrapped("help: ", &sheet::advice(number)));
        out
    }

    fn label(&self, kind: &str) -> String {
        let module = readable(self.refusal.module());
        let name = self.names();
        match (kind, self.refusal.number()) {
            (OTHER, 5) => "note: the first of the two".to_string(),
            (OTHER, _) => format!("note: {} stands here", name.trim_start_matches(": ")),
            _ => format!("note: found by search in {}{}", module, name),
        }
    }

    fn notes(&self, spots: &[Spot<'_>]) -> Vec<String> {
        let mut notes = Vec::new();
        if let Some(told) = spots.first().filter(|spot| spot.kind == TOLD) {
            let bytes = told.text.bytes();
            if told.range.start == bytes.len() {
                notes.push("the text ends here".to_string());
            }
            if self.refusal.number() == 4 && told.range.start == TEXT_BYTES {
                notes.push(format!("a text has at most {} bytes", TEXT_BYTES));
            }
            if told.range.start == 0 && bytes.starts_with(b"\xef\xbb\xbf") {
                notes.push(
                    "the file begins with a byte order mark; store it without one".to_string(),
                );
            }
        }
        let told = self.refusal.module();
        if self.refusal.number() == 6 {
            notes.extend(self.spelt());
        } else if !told.is_empty() && told != self.asked {
            let [asked, told] = [self.asked, told].map(readable);
            notes.push(format!("{} was asked, which needs {}", asked, told));
        }
        notes
    }

    /// The modules that there are, of the text and of the library.
    fn spelt(&self) -> Vec<String> {
        let sides = [
            ("the text", Some(&self.question.text)),
            ("the library", self.question.library.as_ref()),
        ];
        let has = |(side, text): (&str, Option<&Text<'_>>)| {
            let bytes = text?.bytes();
            let names: Vec<String> = headings(bytes)
                .into_iter()
                .map(|name| readable(&bytes[name]))
                .collect();
            Some(format!("{} has {}", side, names.join(", ")))
        };
        sides.into_iter().filter_map(has).collect()
    }

    /// One line for a module that is refused by what was told already.
    pub fn again(&self, paint: Paint) -> String {
        if self.asked == self.refusal.module() {
            return String::new();
        }
        let needs = format!(
            "{} needs {}, which is refused",
            readable(self.asked),
            readable(self.refusal.module())
        );
        match Spot::heading(self.question, self.asked) {
            Some(spot) => format!(
                "{} {}\n",
                paint.place(&spot.where_told()),
                paint.aside(&needs)
            ),
            None => format!("{}\n", paint.aside(&needs)),
        }
    }

    /// The refusal as an object.
    pub fn value(&self) -> Value {
        let refusal = self.refusal;
        let number = refusal.number();
        let places = self.spots().iter().map(Spot::value).collect();
        Value::Object(vec![
            ("answer", Value::Number(number as usize)),
            ("title", Value::Text(sheet::title(number).to_string())),
            ("asked", text(self.asked)),
            ("modules", Value::Number(refusal.modules() as usize)),
            ("module", text(refusal.module())),
            ("name", text(refusal.name())),
            ("actual", text(refusal.actual())),
            ("at", Value::Number(refusal.at())),
            ("in_library", Value::Truth(refusal.in_library())),
            ("places", Value::List(places)),
            ("advice", Value::Text(sheet::advice(number))),
        ])
    }
}

/// The part of one of the two texts that declares a module.
fn part<'q>(question: &'q Question<'q>, name: &[u8]) -> Option<(&'q Text<'q>, Range<usize>)> {
    let part = asf::fetch(name, question.specification())?;
    let text = question.side(part.in_library);
    let start = part.bytes.as_ptr() as usize - text.bytes().as_ptr() as usize;
    Some((text, start..start + part.bytes.len()))
}

impl<'q> Spot<'q> {
    /// The heading of a module.
    pub fn heading(question: &'q Question<'q>, name: &[u8]) -> Option<Spot<'q>> {
        Spot::declared(question, name, HEADING)
    }

    /// Where a module is declared: its name behind `module`.
    fn declared(question: &'q Question<'q>, name: &[u8], kind: &'static str) -> Option<Spot<'q>> {
        let (text, part) = part(question, name)?;
        let heading = tokens(&text.bytes()[part.clone()]).into_iter().nth(1)?;
        let range = part.start + heading.start..part.start + heading.end;
        Some(Spot { kind, text, range })
    }

    /// A part of a file that stands for itself.
    pub fn of(text: &'q Text<'q>, range: Range<usize>) -> Spot<'q> {
        Spot {
            kind: TOLD,
            text,
            range,
        }
    }

    fn where_told(&self) -> String {
        let place = self.text.file.place(self.text.byte(self.range.start));
        format!("{}:{}:{}:", self.text.file.name, place.line, place.column)
    }

    /// Place and message, the line, and carets below it.
    pub fn shown(&self, message: &str, paint: Paint, hue: fn(Paint, &str) -> String) -> String {
        let file = self.text.file;
        let place = file.place(self.text.byte(self.range.start));
        let excerpt = file.excerpt(&place, self.text.byte(self.range.end));
        let number = format!("{:>5} | ", place.line);
        let margin = format!("{:>5} | ", "");
        let line = format!("{}{}", number, excerpt.line);
        let carets = format!("{}{}", margin, hue(paint, &excerpt.carets));
        let first = format!(
            "{} {}",
            paint.place(&self.where_told()),
            hue(paint, message)
        );
        format!("{}\n{}\n{}\n", first, line.trim_end(), carets)
    }

    fn value(&self) -> Value {
        let place = self.text.file.place(self.text.byte(self.range.start));
        Value::Object(vec![
            ("kind", Value::Text(self.kind.to_string())),
            ("file", Value::Text(self.text.file.name.clone())),
            ("line", Value::Number(place.line)),
            ("column", Value::Number(place.column)),
        ])
    }
}
