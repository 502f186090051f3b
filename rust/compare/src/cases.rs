//! From a seed to a case: which kind of text, which module is asked, how the modules are divided between library and
//! customer's text, how much output is lent.

use crate::aims;
use crate::damage;
use crate::diamonds;
use crate::division;
use crate::draft::{self, Plan};
use crate::names;
use crate::numbering;
use crate::operators;
use crate::parameterised;
use crate::random::Random;
use crate::sizes;
use crate::spelling::{self, Tokens};
use reference::syntax::Specification;
use reference::{normalise, Lent, Name, Texts, OUTPUT_BYTES};

/// One question to an implementation, and the kind of text it came from.
#[derive(Clone, Debug, Default)]
pub struct Case {
    pub kind: &'static str,
    pub asked: Name,
    /// Empty where there is none.
    pub library: Vec<u8>,
    pub text: Vec<u8>,
    pub output: usize,
    /// What a program like `asfnorm` gets before the library's line, where it is not the asked name's line.
    pub first_line: Option<Vec<u8>>,
    /// What it gets before the library, where it is not the line that tells the library's length.
    pub library_line: Option<Vec<u8>>,
}

impl Case {
    pub fn texts(&self) -> Texts<'_> {
        Texts {
            library: &self.library,
            customer: &self.text,
        }
    }
}

/// The case of a seed; about half of them have a library.
pub fn case(seed: u64) -> Case {
    // numbers of its own, so that a seed's text is the same whether it is divided or not
    let mut division = Random::new(!seed);
    let random = &mut Random::new(seed);
    let mut case = of_one_text(random);
    if division.chance(50) {
        division::divide(&mut case, &mut division);
    }
    division::odd_line(&mut case, &mut division);
    short_output(&mut case, random);
    bad_first_line(&mut case, random);
    case
}

/// The case of a seed with all modules in the customer's text.
pub fn undivided(seed: u64) -> Case {
    let random = &mut Random::new(seed);
    let mut case = of_one_text(random);
    short_output(&mut case, random);
    case
}

fn of_one_text(random: &mut Random) -> Case {
    let mut case = match random.below(100) {
        0..=10 => accepted(random),
        11..=18 => diamonds(random),
        19..=26 => parameterised(random),
        27..=33 => loose(random),
        34..=66 => aimed(random),
        67..=72 => damaged_tokens("names moved", damage::identifiers, random),
        73..=77 => damaged_tokens("tokens damaged", damage::tokens, random),
        78..=81 => damaged_tokens("no token", damage::lexical, random),
        82..=83 => damaged_text("comments", damage::comments, random),
        84..=85 => damaged_tokens("closing name", damage::closing_name, random),
        86..=88 => damaged_text("bytes damaged", damage::bytes, random),
        89 => soup(random),
        _ => sized(random),
    };
    other_asked(&mut case, random);
    case
}

fn drafted(kept: usize, random: &mut Random) -> Specification {
    let modules = random.between(1, 4) + random.below(4);
    draft::specification(&Plan { modules, kept }, random)
}

/// Mostly the last module, which reaches the most.
fn asked(specification: &Specification, random: &mut Random) -> Name {
    let last = specification.modules.len() - 1;
    let index = if random.chance(85) {
        last
    } else {
        random.below(last + 1)
    };
    specification.modules[index].name.clone()
}

/// Names with runs of digits stand in most of these texts.
fn from_tokens(
    kind: &'static str,
    mut asked: Name,
    mut tokens: Tokens,
    random: &mut Random,
) -> Case {
    if random.chance(70) {
        numbering::rename(&mut tokens, &mut asked, random);
    }
    let layout = spelling::some_layout(random);
    Case {
        kind,
        asked,
        text: spelling::lay_out(&tokens, layout, random),
        output: OUTPUT_BYTES,
        ..Case::default()
    }
}

/// Operators stand in most of these texts; in some of them, wherever they may.
fn written(mut specification: Specification, random: &mut Random) -> Tokens {
    if random.chance(30) {
        operators::operate(&mut specification, random);
    }
    spelling::spell(&specification, random)
}

fn from_draft(kind: &'static str, specification: Specification, random: &mut Random) -> Case {
    let asked = asked(&specification, random);
    let tokens = written(specification, random);
    from_tokens(kind, asked, tokens, random)
}

fn accepted(random: &mut Random) -> Case {
    let specification = drafted(0, random);
    from_draft("accepted", specification, random)
}

fn diamonds(random: &mut Random) -> Case {
    let specification = diamonds::specification(random);
    from_draft("diamonds", specification, random)
}

fn parameterised(random: &mut Random) -> Case {
    let specification = parameterised::specification(random);
    from_draft("parameterised", specification, random)
}

fn loose(random: &mut Random) -> Case {
    let specification = drafted(60, random);
    from_draft("loose", specification, random)
}

/// One change aimed at a number, sometimes two: then the order of the checks decides.
fn aimed(random: &mut Random) -> Case {
    let number = aims::NUMBERS[random.below(aims::NUMBERS.len())];
    let mut specification = drafted(0, random);
    let asked = asked(&specification, random);
    aims::aim(number, &mut specification, random);
    if random.chance(35) {
        let other = aims::near(number, random);
        aims::aim(other, &mut specification, random);
    }
    let tokens = written(specification, random);
    from_tokens("aimed", asked, tokens, random)
}

fn damaged_tokens(
    kind: &'static str,
    damage: fn(&mut Tokens, &mut Random),
    random: &mut Random,
) -> Case {
    let specification = drafted(0, random);
    let asked = asked(&specification, random);
    let mut tokens = written(specification, random);
    damage(&mut tokens, random);
    from_tokens(kind, asked, tokens, random)
}

fn damaged_text(
    kind: &'static str,
    damage: fn(&mut Vec<u8>, &mut Random),
    random: &mut Random,
) -> Case {
    let specification = drafted(0, random);
    let mut case = from_draft(kind, specification, random);
    damage(&mut case.text, random);
    case
}

fn soup(random: &mut Random) -> Case {
    let tokens = damage::soup(random);
    from_tokens("soup", b"M".to_vec(), tokens, random)
}

fn sized(random: &mut Random) -> Case {
    let mut case = Case {
        kind: "sizes",
        asked: b"M".to_vec(),
        text: sizes::text(random),
        output: OUTPUT_BYTES,
        ..Case::default()
    };
    if random.chance(5) {
        damage::bytes(&mut case.text, random);
    }
    case
}

/// Now and then an absent module is asked, or one whose name is too long, or another of the text.
fn other_asked(case: &mut Case, random: &mut Random) {
    if random.chance(97) {
        return;
    }
    case.asked = match random.below(6) {
        0 => Name::new(),
        1 => names::long(40, random),
        2 => names::long(41, random),
        3 => [&case.asked[..], b"\r"].concat(),
        4 => names::module(random.below(3), random),
        _ => names::fresh(random),
    };
}

/// Now and then the output is exactly long enough, one byte short, or none.
fn short_output(case: &mut Case, random: &mut Random) {
    if random.chance(92) {
        return;
    }
    let answer = normalise(&case.asked, case.texts(), Lent::output(OUTPUT_BYTES));
    let length = answer.listing.len();
    case.output = match random.below(4) {
        0 => length,
        1 | 2 => length.saturating_sub(1),
        _ => random.below(length + 1),
    };
}

/// Now and then the program's first line is none: the proved library does not see it.
fn bad_first_line(case: &mut Case, random: &mut Random) {
    if random.chance(98) {
        return;
    }
    let mut line = [b"normalise=", &case.asked[..], b"\n"].concat();
    damage::bytes(&mut line, random);
    case.first_line = Some(line);
}
