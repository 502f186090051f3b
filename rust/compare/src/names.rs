//! Names of all shapes, from pools so small that they meet again by other ways.

use crate::random::Random;
use reference::syntax::{infix, operands, prefix};
use reference::{Name, TOKEN_BYTES};

const SORTS: [&str; 10] = ["A", "B", "C", "S", "T", "A'", "NAT", "6", "S-1", "hidden"];
const FUNCTIONS: [&str; 12] = [
    "f", "g", "h", "a", "b", "c", "eq", "A", "S", "2-way", "f'", "if",
];
/// Those that begin with two hyphens stand only straight behind a token.
const OPERATORS: [&str; 24] = [
    "+",
    "-",
    "*",
    "/",
    "&",
    "|",
    "!",
    "@",
    "%",
    "?",
    "~",
    "+-",
    "-+",
    "--",
    "---",
    "--+",
    "*--",
    "+-*/&|!@%?~",
    ".push.",
    ".A.",
    ".f.",
    ".2-way.",
    ".if.",
    ".x--y.",
];
const SYMBOLS: &[u8] = b"+-*/&|!@%?~";
const VARIABLES: [&str; 8] = ["x", "y", "z", "x'", "i", "i1", "f", "x--y"];
const PARAMETERS: [&str; 6] = ["P", "Q", "Items", "hidden", "export", "P'"];
const TAGS: [&str; 6] = ["e", "e1", "1", "'", "E-2", "Begin"];
const MODULES: [&str; 8] = ["M", "N", "A", "Base", "M'", "M-1", "0", "Lists"];
const STEMS: [&str; 8] = ["role", "role", "a", "S", "", "x'", "x-", "v1-"];
const NUMBERS: [&str; 12] = [
    "0", "1", "2", "9", "10", "11", "19", "90", "99", "100", "109", "1000",
];
const TAILS: [&str; 9] = ["b", "z", "'", "-b", "-9", "-10", "'9", "'010", "b1"];

fn from(pool: &[&str], random: &mut Random) -> Name {
    if random.chance(1) {
        return long(40, random);
    }
    pool[random.below(pool.len())].as_bytes().to_vec()
}

pub fn sort(random: &mut Random) -> Name {
    from(&SORTS, random)
}

pub fn function(random: &mut Random) -> Name {
    from(&FUNCTIONS, random)
}

/// An operator as it stands in a term.
pub fn operator(random: &mut Random) -> Name {
    if random.chance(2) {
        return long_operator(TOKEN_BYTES, random);
    }
    OPERATORS[random.below(OPERATORS.len())].as_bytes().to_vec()
}

/// The name of an operator with one or two operands.
pub fn operator_name(count: usize, random: &mut Random) -> Name {
    underlined(&operator(random), count)
}

fn underlined(operator: &[u8], count: usize) -> Name {
    match count {
        1 => prefix(operator),
        _ => infix(operator),
    }
}

/// A name for a function of so many arguments, at times an operator's.
pub fn function_of(count: usize, random: &mut Random) -> Name {
    match count {
        1 | 2 if random.chance(40) => operator_name(count, random),
        _ => function(random),
    }
}

/// An operator of an exact length: a run of symbols that does not begin with a hyphen, or a dotted name.
pub fn long_operator(length: usize, random: &mut Random) -> Name {
    if random.chance(50) {
        return [b".", &long(length - 2, random)[..], b"."].concat();
    }
    let mut run: Name = (0..length)
        .map(|_| SYMBOLS[random.below(SYMBOLS.len())])
        .collect();
    run[0] = b'+';
    run
}

pub fn variable(random: &mut Random) -> Name {
    from(&VARIABLES, random)
}

pub fn parameter(random: &mut Random) -> Name {
    from(&PARAMETERS, random)
}

pub fn tag(random: &mut Random) -> Name {
    from(&TAGS, random)
}

/// A name that no earlier module has: the number keeps it apart.
pub fn module(index: usize, random: &mut Random) -> Name {
    let mut name = from(&MODULES, random);
    let number = index.to_string();
    name.truncate(40 - number.len());
    name.extend_from_slice(number.as_bytes());
    name
}

/// A name of an exact length: letters, digits, quotes, and hyphens inside.
pub fn long(length: usize, random: &mut Random) -> Name {
    let bytes = b"aZ09'-";
    let mut name: Name = (0..length)
        .map(|_| bytes[random.below(bytes.len())])
        .collect();
    for end in [0, length.saturating_sub(1)] {
        if name.get(end) == Some(&b'-') {
            name[end] = b'q';
        }
    }
    name
}

/// A name that the pools do not have.
pub fn fresh(random: &mut Random) -> Name {
    format!("n{}", random.below(1_000_000)).into_bytes()
}

/// A name that the pools do not have, for the operator that the name is, if it is one's.
pub fn fresh_like(name: &[u8], random: &mut Random) -> Name {
    let fresh = fresh(random);
    match operands(name) {
        Some(count) => underlined(&[b".", &fresh[..], b"."].concat(), count),
        None => fresh,
    }
}

/// What numbered names of one text begin with.
pub fn stem(random: &mut Random) -> &'static str {
    STEMS[random.below(STEMS.len())]
}

/// A stem, mostly a run of digits, and now and then a tail: names of one stem whose order the numbers decide.
pub fn numbered(stem: &str, random: &mut Random) -> Name {
    let tail = if random.chance(25) {
        TAILS[random.below(TAILS.len())]
    } else {
        ""
    };
    let number = NUMBERS[random.below(NUMBERS.len())];
    let run = match random.below(20) {
        0..=10 => number.to_string(),
        11..=15 => "0".repeat(random.between(1, 3)) + number,
        16..=18 => long_run(TOKEN_BYTES - stem.len() - tail.len(), random),
        _ if stem.is_empty() || stem.ends_with('-') => number.to_string(),
        _ => String::new(),
    };
    format!("{stem}{run}{tail}").into_bytes()
}

/// Digits around what 64 bits hold, or as many as there is room for: all the same but one, so that two such runs differ
/// late or in their zeros.
fn long_run(room: usize, random: &mut Random) -> String {
    let lengths = [19, 20, room - 1, room];
    let length = lengths[random.below(lengths.len())].min(room);
    let place = random.below(length);
    let same = random.below(3);
    (0..length)
        .map(|index| match index == place {
            true => b"0123456789"[random.below(10)],
            false => b"019"[same],
        })
        .map(char::from)
        .collect()
}
