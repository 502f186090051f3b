//! `asf keep`: whether a stored visible part of a module may be shown for a new edition, by the library's decision (docs/CACHE.md). The modules
//! that it says must be asked are asked at once.

use crate::arguments::Arguments;
use crate::asking::question;
use crate::report::{Report, Spot};
use crate::source::{framed, readable, File, Question};
use crate::terminal::Paint;
use crate::{once, Ended, Wrong, ACCEPTED, REFUSED};
use asf::{Decision, Why};
use std::ffi::OsStr;
use std::os::unix::ffi::OsStrExt;

/// Two editions, and the module whose part is stored.
struct Editions<'f> {
    asked: Vec<u8>,
    old: Question<'f>,
    new: Question<'f>,
    paint: Paint,
}

/// `asf keep`.
pub fn keep(arguments: &Arguments) -> Result<Ended, Wrong> {
    let (old, new, module) = match &arguments.words[..] {
        [old, new] => (old, new, None),
        [old, new, module] => (old, new, Some(module.as_bytes().to_vec())),
        _ => return Err(Wrong::Use("two files and a module are needed".to_string())),
    };
    let (library, old_library) = (
        arguments.library.as_deref(),
        arguments.old_library.as_deref(),
    );
    once(&[Some(old), Some(new), library, old_library])?;
    let read = |name: &OsStr| File::read(name).map_err(Wrong::File);
    let (old, new) = (read(old)?, read(new)?);
    let library = library.map(read).transpose()?;
    let old_library = old_library.map(read).transpose()?;
    let (asked, new) = question(&new, library.as_ref())?;
    // the old edition had the library of the new one, unless it has one in it or another is named
    let same = library.as_ref().filter(|_| framed(&old).library.is_none());
    let (_, old) = question(&old, old_library.as_ref().or(same))?;
    let none = || Wrong::Use("no module is named".to_string());
    let editions = Editions {
        asked: module.or(asked).ok_or_else(none)?,
        old,
        new,
        paint: Paint::new(arguments.when, 1),
    };
    let (told, kept) = editions.decided();
    let last = editions.verdict(kept);
    Ok(Ended {
        out: (told + &last).into_bytes(),
        error: Vec::new(),
        status: if kept { ACCEPTED } else { REFUSED },
    })
}

impl Editions<'_> {
    /// What is told, and whether the part is to be kept.
    fn decided(&self) -> (String, bool) {
        let (old, new) = (self.old.specification(), self.new.specification());
        match asf::decide(&self.asked, old, new) {
            Decision::NotRead(unread) if unread.in_new() => {
                (self.refused(&self.asked, &self.new), false)
            }
            Decision::NotRead(_) => (self.refused(&self.asked, &self.old), false),
            Decision::AskAgain(why) => (self.why(&why), false),
            Decision::KeepAfter(changed) => self.after(&changed),
        }
    }

    /// Asks what must be asked. What the old edition refuses has no part; 18 and 19 may be the old edition's if the part was kept for it.
    fn after(&self, changed: &[Vec<u8>]) -> (String, bool) {
        let before = asf::normalise(&self.asked, self.old.specification()).err();
        if before.map_or(false, |refusal| !matches!(refusal.number(), 18 | 19)) {
            return (self.refused(&self.asked, &self.old), false);
        }
        let told: Vec<String> = changed
            .iter()
            .map(|module| self.refused(module, &self.new))
            .collect();
        let asked = changed
            .iter()
            .zip(&told)
            .map(|(module, told)| match told.is_empty() {
                true => format!(
                    "{} changed: {}\n",
                    readable(module),
                    self.paint.good("accepted")
                ),
                false => format!(
                    "{} changed: {}\n{}",
                    readable(module),
                    self.paint.bad("refused"),
                    told
                ),
            });
        (asked.collect(), told.iter().all(String::is_empty))
    }

    /// Asks a module of an edition; blank where it is accepted.
    fn refused(&self, module: &[u8], edition: &Question<'_>) -> String {
        let refusal = asf::normalise(module, edition.specification()).err();
        refusal.map_or(String::new(), |refusal| {
            let report = Report {
                asked: module,
                question: edition,
                refusal: &refusal,
            };
            report.printed(self.paint)
        })
    }

    /// Why the module must be asked itself, at the module concerned, as it stands in the new edition or else in the old one.
    fn why(&self, why: &Why) -> String {
        let [new, old] = [&self.new, &self.old];
        let spot = Spot::heading(new, why.module()).or_else(|| Spot::heading(old, why.module()));
        match spot {
            Some(spot) => spot.shown(&why.to_string(), self.paint, Paint::aside),
            None => format!("{}\n", self.paint.aside(&why.to_string())),
        }
    }

    fn verdict(&self, kept: bool) -> String {
        let module = readable(&self.asked);
        match kept {
            true => format!("{}: keep the stored visible part\n", module),
            false => format!(
                "{}: do not keep the stored visible part, ask again\n",
                module
            ),
        }
    }
}
