//! The modules of a text divided between our library and the customer's text (document 02, One): mostly between two
//! modules, at times so that something is refused which is none in one text.

use crate::cases::Case;
use crate::damage;
use crate::random::Random;
use reference::{parts, Name, Texts, MODULES, TEXT_BYTES};

/// A library that no generated text names.
const UNNAMED: &[u8] =
    b"module Ours' begin exports begin sorts A functions f: A -> A end end Ours'\n";

/// Libraries without a module.
const LAYOUT: [&[u8]; 5] = [b" ", b"\n", b"\t\r\n\x0c ", b" -- ours --\n", b"\n--\n"];

/// All ways to divide a text between two of its modules, so that both texts have some and their order stays.
pub fn divisions(text: &[u8]) -> Vec<Texts<'_>> {
    let later = parts(text).into_iter().skip(1);
    let divided = later.map(|part| Texts {
        library: &text[..part.place],
        customer: &text[part.place..],
    });
    divided.collect()
}

/// Gives a case a library.
pub fn divide(case: &mut Case, random: &mut Random) {
    share(case, random);
    if random.chance(30) {
        spoil(case, random);
    }
    if random.chance(25) {
        ask_other(case, random);
    }
}

/// Shares the modules of the text between the two. Where those of the library come to stand after others, they name
/// modules of the customer's (8), and where one is left out, it is named in vain (7).
fn share(case: &mut Case, random: &mut Random) {
    let whole = std::mem::take(&mut case.text);
    let pieces = pieces(&whole);
    let first = random.between(1, (pieces.len() - 1).max(1));
    let (earlier, later) = pieces.split_at(first);
    (case.library, case.text) = match random.below(20) {
        0 | 1 if !later.is_empty() => (later.concat(), earlier.concat()),
        2 if first > 1 => {
            let out = random.below(first);
            let kept = [&earlier[..out], &earlier[out + 1..]].concat();
            (kept.concat(), later.concat())
        }
        3 => (UNNAMED.to_vec(), whole.clone()),
        4 => split(&whole, random.below(whole.len() + 1)),
        5 | 6 => (whole.clone(), over(&mut case.asked, random)),
        _ if later.is_empty() => (whole.clone(), over(&mut case.asked, random)),
        _ => split(&whole, cut(&whole, first, random)),
    };
}

/// The text cut before each module but the first.
fn pieces(text: &[u8]) -> Vec<&[u8]> {
    let mut pieces = Vec::new();
    let mut start = 0;
    for part in parts(text).iter().skip(1) {
        pieces.push(&text[start..part.place]);
        start = part.place;
    }
    pieces.push(&text[start..]);
    pieces
}

fn split(text: &[u8], place: usize) -> (Vec<u8>, Vec<u8>) {
    let (library, customer) = text.split_at(place);
    (library.to_vec(), customer.to_vec())
}

/// A place between a module and the one before it: right at either, or somewhere in the layout between, where it may
/// make a comment the customer's first bytes.
fn cut(text: &[u8], index: usize, random: &mut Random) -> usize {
    let parts = parts(text);
    let (before, behind) = (parts[index - 1], parts[index]);
    let end = before.place + before.bytes.len();
    match random.below(10) {
        0..=5 => behind.place,
        6..=8 => end,
        _ => random.between(end, behind.place),
    }
}

/// A customer's module that imports the asked one, which is the library's; mostly it is asked now.
fn over(asked: &mut Name, random: &mut Random) -> Vec<u8> {
    let text = [b"module Over' begin imports ", &asked[..], b" end Over'\n"].concat();
    if random.chance(70) {
        *asked = b"Over'".to_vec();
    }
    text
}

/// Makes something wrong that only two texts can have wrong, or that has its place in the library.
fn spoil(case: &mut Case, random: &mut Random) {
    match random.below(20) {
        0..=5 => twin(case, random),
        6..=8 => fill_up(case, random),
        9..=13 => damage::bytes(&mut case.library, random),
        14 | 15 => case.library = LAYOUT[random.below(LAYOUT.len())].to_vec(),
        16..=18 => lengthen(case, random),
        _ => case.text.clear(),
    }
}

fn either<'c>(case: &'c mut Case, random: &mut Random) -> &'c mut Vec<u8> {
    if random.chance(50) {
        &mut case.library
    } else {
        &mut case.text
    }
}

/// Puts a module before or behind a text.
fn put(module: &[u8], text: &mut Vec<u8>, random: &mut Random) {
    *text = if random.chance(50) {
        [module, b"\n", &text[..]].concat()
    } else {
        [&text[..], b"\n", module].concat()
    };
}

/// A module of one text once more, in the other or in the same.
fn twin(case: &mut Case, random: &mut Random) {
    let text = either(case, random).clone();
    if let Some(part) = random.pick(&parts(&text)) {
        put(part.bytes, either(case, random), random);
    }
}

/// As many modules over both texts as there may be, or one more.
fn fill_up(case: &mut Case, random: &mut Random) {
    let there = parts(&case.library).len() + parts(&case.text).len();
    for index in there..MODULES + random.below(2) {
        let filler = format!("module Filler'{index} begin end Filler'{index}");
        put(filler.as_bytes(), either(case, random), random);
    }
}

/// One of the texts as long as it may be, or nearly so, or one byte longer.
fn lengthen(case: &mut Case, random: &mut Random) {
    let length = TEXT_BYTES - 1 + random.below(3);
    let text = either(case, random);
    text.resize(text.len().max(length), b'\n');
}

fn ask_other(case: &mut Case, random: &mut Random) {
    let text = either(case, random).clone();
    if let Some(part) = random.pick(&parts(&text)) {
        case.asked = part.name.to_vec();
    }
}

/// Now and then a program like `asfnorm` gets another line than the library's length asks for: it is no such line then,
/// or it divides what is behind it elsewhere. The proved library does not see it.
pub fn odd_line(case: &mut Case, random: &mut Random) {
    let percent = if case.library.is_empty() { 4 } else { 12 };
    if !random.chance(percent) {
        return;
    }
    let length = case.library.len();
    let behind = length + case.text.len();
    let number = match random.below(12) {
        0 => format!("0{length}"),
        1 => String::new(),
        2 => format!("{length}\r"),
        3 => format!("{}", length + 1),
        4 => format!("{}", length.saturating_sub(1)),
        5 => format!("{behind}"),
        6 => format!("{}", behind + 1),
        7 => format!("{}", random.below(behind + 1)),
        8 => format!("{}", TEXT_BYTES + 1),
        9 => "999999999".to_string(),
        10 => "1000000000".to_string(),
        _ => "0".to_string(),
    };
    let mut line = format!("library={number}\n").into_bytes();
    if random.chance(20) {
        damage::bytes(&mut line, random);
    }
    case.library_line = Some(line);
}
