//! A property of the proved library, and of the reference (document 02, Eleven): in which order a module's imports stand, and how often one is
//! written, changes neither whether a module is accepted nor its listing. A refusal may tell another number or culprit, but of the same module
//! and after as many.

use crate::cases::Case;
use crate::driver::Reply;
use crate::engines::{input, Difference};
use crate::proved::Proved;
use crate::random::Random;
use crate::rearranging::{rearranged, Rearranged};
use reference::{normalise, Lent, Name, NAME_BYTES};
use std::ops::AddAssign;
use std::{fmt, io};

/// How many modules of a text are asked.
const ASKED: usize = 4;

/// What is told of a module; whether the call kept its promises about what was lent.
pub struct Told {
    pub number: u32,
    pub modules: u64,
    pub module: Name,
    pub name: Name,
    pub actual: Name,
    pub listing: Vec<u8>,
    pub kept: bool,
}

/// How many modules were accepted with both orders and refused with both, and how many of these by another number or culprit.
#[derive(Clone, Copy, Debug, Default)]
pub struct Agreed {
    pub accepted: u64,
    pub refused: u64,
    pub told_otherwise: u64,
}

impl AddAssign for Agreed {
    fn add_assign(&mut self, more: Agreed) {
        self.accepted += more.accepted;
        self.refused += more.refused;
        self.told_otherwise += more.told_otherwise;
    }
}

impl fmt::Display for Agreed {
    fn fmt(&self, f: &mut fmt::Formatter<'_>) -> fmt::Result {
        write!(
            f,
            "{} modules accepted, {} refused, {} of them told otherwise",
            self.accepted, self.refused, self.told_otherwise
        )
    }
}

/// The case with its imports rearranged, always in the same way.
pub fn other_order(case: &Case) -> Option<Rearranged> {
    let seed = case.text.len() * 31 + case.library.len();
    rearranged(case, &mut Random::new(seed as u64))
}

/// Asks some modules of both texts, the case's own first.
pub fn compare(
    case: &Case,
    other: &Rearranged,
    ask: impl Fn(&Case, &Name) -> io::Result<Told>,
) -> Result<Agreed, Difference> {
    let mut agreed = Agreed::default();
    for asked in some_modules(case, &other.modules) {
        let told = [case, &other.case].map(|texts| ask(texts, &asked));
        let [Ok(one), Ok(another)] = &told else {
            return Err(difference(&asked, &other.case, &told));
        };
        if !agree(one, another) {
            return Err(difference(&asked, &other.case, &told));
        }
        match one.number {
            0 => agreed.accepted += 1,
            _ => agreed.refused += 1,
        }
        agreed.told_otherwise += u64::from(culprit(one) != culprit(another));
    }
    Ok(agreed)
}

/// The case's own first, then others; which ones, the text's length decides.
fn some_modules(case: &Case, modules: &[Name]) -> Vec<Name> {
    let mut asked = vec![case.asked.clone()];
    let turned = modules.iter().cycle().skip(case.text.len() % modules.len());
    for name in turned.take(modules.len()) {
        if asked.len() < ASKED && !asked.contains(name) {
            asked.push(name.clone());
        }
    }
    asked
}

fn agree(one: &Told, other: &Told) -> bool {
    let accepted = (one.number == 0) == (other.number == 0);
    let told = |told: &Told| (told.modules, told.module.clone(), told.listing.clone());
    accepted && told(one) == told(other) && one.kept && other.kept
}

fn culprit(told: &Told) -> (u32, &Name, &Name) {
    (told.number, &told.name, &told.actual)
}

fn difference(asked: &Name, other: &Case, told: &[io::Result<Told>; 2]) -> Difference {
    let asked = String::from_utf8_lossy(asked);
    let tell = |told: &io::Result<Told>| match told {
        Ok(told) => format!("{asked} asked: {}", sentence(told)),
        Err(error) => format!("{asked} asked: the driver ended: {error}"),
    };
    let text = input(other);
    Difference {
        expected: tell(&told[0]),
        found: format!(
            "{}\n--- for\n{}",
            tell(&told[1]),
            String::from_utf8_lossy(&text)
        ),
    }
}

fn sentence(told: &Told) -> String {
    format!(
        "number {}, {} modules, module {}, name {}, actual {}{}\n{}",
        told.number,
        told.modules,
        String::from_utf8_lossy(&told.module),
        String::from_utf8_lossy(&told.name),
        String::from_utf8_lossy(&told.actual),
        if told.kept {
            ""
        } else {
            ", something lent is changed"
        },
        String::from_utf8_lossy(&told.listing)
    )
}

pub fn ask_reference(case: &Case, asked: &Name) -> io::Result<Told> {
    let answer = normalise(asked, case.texts(), Lent::output(case.output));
    Ok(Told {
        number: answer.number,
        modules: u64::from(answer.modules),
        module: answer.module,
        name: answer.name,
        actual: answer.actual,
        listing: answer.listing,
        kept: true,
    })
}

pub fn ask_proved(proved: &Proved, case: &Case, asked: &Name) -> io::Result<Told> {
    let reply = proved.reply(asked, case.texts(), case.output)?;
    Ok(of_reply(&reply))
}

/// The values in their order (`c/asf.h`): number, count, place, lengths of two names and of the listing, the mark, length of the third name.
fn of_reply(reply: &Reply) -> Told {
    let front = |bytes: &[u8], value: usize| {
        let length = bytes.len().min(reply.values[value] as usize);
        bytes[..length].to_vec()
    };
    Told {
        number: reply.number,
        modules: reply.values[1],
        module: front(&reply.names, 3),
        name: front(&reply.names[NAME_BYTES..], 4),
        actual: front(&reply.names[2 * NAME_BYTES..], 7),
        listing: front(&reply.listing, 5),
        kept: reply.broken == 0,
    }
}
