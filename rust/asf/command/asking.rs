//! The commands that ask the library: `check`, `list` and `visible`.

use crate::arguments::Arguments;
use crate::json::{text, Value};
use crate::listing::listed;
use crate::report::Report;
use crate::scan::headings;
use crate::source::{framed, readable, File, Question, Text};
use crate::terminal::{is_terminal, Paint};
use crate::{once, Ended, Wrong, ACCEPTED, REFUSED};
use asf::{Memory, Refusal};
use std::ffi::OsStr;
use std::os::unix::ffi::OsStrExt;

/// What is asked about, of a file and of the library where one is named; and the name that the file's first line asks for.
pub fn question<'f>(
    file: &'f File,
    library: Option<&'f File>,
) -> Result<(Option<Vec<u8>>, Question<'f>), Wrong> {
    let input = framed(file);
    let library = match (library, input.library) {
        (Some(_), Some(_)) => {
            let both = "has a library in it, so that no other can be named";
            return Err(Wrong::Use(format!("{} {}", file.name, both)));
        }
        (Some(file), None) => Some(Text::whole(file)),
        (None, library) => library,
    };
    let text = input.text;
    Ok((input.asked, Question { library, text }))
}

/// Reads the file that a command names, and its library.
fn read(file: &OsStr, arguments: &Arguments) -> Result<(File, Option<File>), Wrong> {
    let library = arguments.library.as_deref();
    once(&[Some(file), library])?;
    let read = |name: &OsStr| File::read(name).map_err(Wrong::File);
    Ok((read(file)?, library.map(read).transpose()?))
}

/// The answers to one check.
struct Answers<'q> {
    question: &'q Question<'q>,
    asked: Vec<Vec<u8>>,
    refusals: Vec<Option<Refusal>>,
}

/// The file and the module that a command names.
fn named(arguments: &Arguments) -> Result<(&OsStr, Option<Vec<u8>>), Wrong> {
    match &arguments.words[..] {
        [file] => Ok((file, None)),
        [file, module] => Ok((file, Some(module.as_bytes().to_vec()))),
        [] => Err(Wrong::Use("no file is named".to_string())),
        _ => {
            let more = "more is named than a file and a module";
            Err(Wrong::Use(more.to_string()))
        }
    }
}

/// `asf check`.
pub fn check(arguments: &Arguments) -> Result<Ended, Wrong> {
    let (file, module) = named(arguments)?;
    let (file, library) = read(file, arguments)?;
    let (asked, question) = question(&file, library.as_ref())?;
    let one = module.or(asked);
    let progress = one.is_none() && !arguments.quiet && !arguments.json && is_terminal(2);
    let asked = match &one {
        Some(name) => vec![name.clone()],
        None => modules(&question),
    };
    let answers = Answers::given(&question, asked, progress);
    let accepted = answers.refusals.iter().all(Option::is_none);
    let out = match arguments.json {
        true => line(answers.value()),
        false => {
            let told = answers.told(Paint::new(arguments.when, 1));
            let last = match arguments.quiet {
                true => String::new(),
                false => answers.summary(one.is_some()),
            };
            (told + &last).into_bytes()
        }
    };
    Ok(Ended {
        out,
        error: Vec::new(),
        status: if accepted { ACCEPTED } else { REFUSED },
    })
}

/// The modules of the text in its order. Where there is none, and where it is not read, a blank name is asked for, so that it is told why.
fn modules(question: &Question<'_>) -> Vec<Vec<u8>> {
    let blank = || vec![Vec::new()];
    let refusal = asf::normalise(b"", question.specification()).err();
    if refusal.map_or(false, |refusal| refusal.number() <= 5) {
        return blank();
    }
    let text = question.text.bytes();
    headings(text)
        .into_iter()
        .map(|name| text[name].to_vec())
        .collect()
}

impl<'q> Answers<'q> {
    fn given(question: &'q Question<'q>, asked: Vec<Vec<u8>>, progress: bool) -> Answers<'q> {
        let mut memory = Memory::new();
        let mut refusals = Vec::new();
        for name in &asked {
            let refusal = memory.normalise(name, question.specification()).err();
            if progress && !name.is_empty() {
                let answer = match &refusal {
                    None => "accepted".to_string(),
                    Some(refusal) => format!("refused by {}", refusal.number()),
                };
                eprintln!("{}: {} {}", question.text.file.name, readable(name), answer);
            }
            refusals.push(refusal);
        }
        Answers {
            question,
            asked,
            refusals,
        }
    }

    /// The refusals, each told once: whether it was told for an earlier module already.
    fn reports(&self) -> Vec<(Report<'_>, bool)> {
        let mut reports: Vec<(Report<'_>, bool)> = Vec::new();
        for (asked, refusal) in self.asked.iter().zip(&self.refusals) {
            if let Some(refusal) = refusal {
                let again = reports
                    .iter()
                    .any(|(report, _)| same_mistake(report.refusal, refusal));
                let question = self.question;
                let report = Report {
                    asked,
                    question,
                    refusal,
                };
                reports.push((report, again));
            }
        }
        reports
    }

    fn told(&self, paint: Paint) -> String {
        let told = self.reports().into_iter().map(|(report, again)| {
            if again {
                report.again(paint)
            } else {
                report.printed(paint)
            }
        });
        told.collect()
    }

    /// The last line: how many modules were accepted, or where more is said.
    fn summary(&self, one: bool) -> String {
        let refused: Vec<&Refusal> = self.refusals.iter().flatten().collect();
        let count = self.asked.len();
        let which = match one {
            true => readable(&self.asked[0]),
            false => format!(
                "{} {}",
                count,
                if count == 1 { "module" } else { "modules" }
            ),
        };
        let file = &self.question.text.file.name;
        let first = match refused.first() {
            Some(first) => first,
            None => return format!("{}: {} accepted\n", file, which),
        };
        let more = format!("for more: asf explain {}", first.number());
        if first.number() <= 5 {
            let side = self.question.side(first.in_library());
            return format!("{}: not read; {}\n", side.file.name, more);
        }
        match one {
            true => format!("{}: {} refused; {}\n", file, which, more),
            false => format!(
                "{}: {} of {} refused; {}\n",
                file,
                refused.len(),
                which,
                more
            ),
        }
    }

    fn value(&self) -> Value {
        let answer = |(asked, refusal): (&Vec<u8>, &Option<Refusal>)| {
            let number = refusal.as_ref().map_or(0, Refusal::number);
            Value::Object(vec![
                ("module", text(asked)),
                ("answer", Value::Number(number as usize)),
            ])
        };
        let first = self.reports().into_iter().filter(|(_, again)| !again);
        let read = self
            .refusals
            .iter()
            .flatten()
            .all(|refusal| refusal.number() > 5);
        let answers = self
            .asked
            .iter()
            .zip(&self.refusals)
            .filter(|_| read)
            .map(answer);
        Value::Object(vec![
            ("file", Value::Text(self.question.text.file.name.clone())),
            (
                "accepted",
                Value::Truth(self.refusals.iter().all(Option::is_none)),
            ),
            ("answers", Value::List(answers.collect())),
            (
                "refusals",
                Value::List(first.map(|(report, _)| report.value()).collect()),
            ),
        ])
    }
}

/// Whether two refusals tell the same of the same module.
fn same_mistake(one: &Refusal, other: &Refusal) -> bool {
    let said = |refusal: &Refusal| (refusal.number(), refusal.at(), refusal.in_library());
    said(one) == said(other)
        && one.module() == other.module()
        && one.name() == other.name()
        && one.actual() == other.actual()
}

/// `asf list`, and `asf visible` where the whole is not asked for.
pub fn list(arguments: &Arguments, whole: bool) -> Result<Ended, Wrong> {
    let (file, module) = named(arguments)?;
    let (file, library) = read(file, arguments)?;
    let (asked, question) = question(&file, library.as_ref())?;
    let none = || Wrong::Use("no module is named".to_string());
    let asked = module.or(asked).ok_or_else(none)?;
    let (out, error, status) = match asf::normalise(&asked, question.specification()) {
        Ok(listing) if arguments.json => (line(accepted(&listing, whole)), Vec::new(), ACCEPTED),
        Ok(listing) if whole => (listing.bytes().to_vec(), Vec::new(), ACCEPTED),
        Ok(listing) => (listing.visible().to_vec(), Vec::new(), ACCEPTED),
        Err(refusal) => {
            let report = Report {
                asked: &asked,
                question: &question,
                refusal: &refusal,
            };
            match arguments.json {
                true => (line(report.value()), Vec::new(), REFUSED),
                false => (
                    Vec::new(),
                    report.printed(Paint::new(arguments.when, 2)).into(),
                    REFUSED,
                ),
            }
        }
    };
    Ok(Ended { out, error, status })
}

fn line(value: Value) -> Vec<u8> {
    format!("{}\n", value.written()).into_bytes()
}

fn accepted(listing: &asf::Listing, whole: bool) -> Value {
    let read = listed(listing.bytes()).expect("a listing is read back");
    let mut keys = vec![
        ("answer", Value::Number(0)),
        ("module", text(read.module.as_bytes())),
        ("modules", Value::Number(listing.modules() as usize)),
    ];
    keys.extend(read.keys(whole));
    Value::Object(keys)
}
