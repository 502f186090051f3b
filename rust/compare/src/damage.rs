//! Damage to tokens and to bytes, for texts that are no specification any more or only just.

use crate::names;
use crate::random::Random;
use crate::spelling::Tokens;

const MARKS: [&[u8]; 15] = [
    b":", b"#", b",", b"(", b")", b"[", b"]", b"{", b"}", b"->", b"=", b"==>", b"==\n", b"()", b"_",
];

const KEYWORDS: [&[u8]; 15] = [
    b"begin",
    b"end",
    b"functions",
    b"parameters",
    b"to",
    b"bound",
    b"equations",
    b"imports",
    b"renamed",
    b"variables",
    b"by",
    b"exports",
    b"module",
    b"sorts",
    b"when",
];

/// What begins no token, or a comment where none may begin, or looks so: an operator where mostly none may stand.
const OFFENCES: [&[u8]; 28] = [
    b".end.",
    b".a-.",
    b".-a.",
    b".a--b.",
    b". a.",
    b".a",
    b"..",
    b"+->",
    b"-->",
    b"- >",
    b"--+",
    b"^",
    b"+",
    b"<",
    b">",
    b"_",
    b".",
    b"-",
    b"--",
    b"- -",
    b"\x00",
    b"\x0b",
    b"\xc3\xa9",
    b"\x80",
    b"$",
    b"=>",
    b" -- open",
    b" ----",
];

/// Whether a token begins as a name does and is no keyword.
pub fn identifier(token: &[u8]) -> bool {
    token
        .first()
        .is_some_and(|&byte| byte.is_ascii_alphanumeric() || byte == b'\'')
        && !KEYWORDS.contains(&token)
}

/// Whether a token is an operator, or begins like one.
fn operator(token: &[u8]) -> bool {
    let symbol = |byte: &u8| b".+-*/&|!@%?~".contains(byte);
    token.first().is_some_and(symbol) && token != b"->"
}

fn some_token(tokens: &Tokens, random: &mut Random) -> Vec<u8> {
    match random.below(5) {
        0 => MARKS[random.below(MARKS.len())].to_vec(),
        1 => KEYWORDS[random.below(KEYWORDS.len())].to_vec(),
        2 => names::function(random),
        3 => names::operator(random),
        _ => random.pick(tokens).cloned().unwrap_or_default(),
    }
}

/// Phrases that the grammar knows, each with a token near which it is almost right, and how far behind.
const PHRASES: [(&str, usize, &str); 34] = [
    ("functions", 1, "_ + _ : A # A -> A"),
    ("functions", 1, "- _ : A -> A"),
    ("functions", 1, "_ + _ : A -> A"),
    ("functions", 1, "- _ : A # A -> A"),
    ("functions", 1, "- _ : -> A"),
    ("functions", 1, "_ + _ : A # A # A -> A"),
    ("functions", 1, "- : A -> A"),
    ("functions", 1, "_ + : A # A -> A"),
    ("=", 0, "+ x"),
    ("=", 1, "- x +"),
    ("=", 1, "- -"),
    ("=", 0, "+ - x"),
    ("=", 1, "_ + _ ( x , x ) ="),
    ("(", 1, "- x +"),
    (",", 1, "- _ -> f ,"),
    ("->", 1, "_"),
    ("imports", 2, "{ }"),
    ("}", 0, "renamed by [ A -> B ]"),
    ("{", 1, "renamed by [ A -> B ]"),
    ("}", 0, "P bound by [ A -> A ] to N"),
    ("begin", 1, "exports begin end"),
    ("begin", 1, "parameters P begin end P"),
    ("end", 0, "sorts A"),
    ("end", 0, "functions f : -> A"),
    ("end", 0, "variables x : -> A"),
    ("end", 0, "equations [ e ] x = x"),
    ("end", 0, "imports M"),
    ("(", 1, ")"),
    ("=", 0, "( )"),
    ("when", 1, "x = x ==>"),
    ("]", 1, "x = x ,"),
    ("->", 1, "A #"),
    (":", 1, "#"),
    (",", 1, ","),
];

/// Puts a phrase behind a token near which it is almost right.
fn phrase(tokens: &mut Tokens, random: &mut Random) {
    let (near, behind, phrase) = PHRASES[random.below(PHRASES.len())];
    let places: Vec<usize> = (0..tokens.len())
        .filter(|&place| tokens[place] == near.as_bytes())
        .collect();
    if let Some(&place) = random.pick(&places) {
        let place = (place + behind).min(tokens.len());
        let words = phrase.split(' ').map(|word| word.as_bytes().to_vec());
        tokens.splice(place..place, words);
    }
}

/// Deletes, repeats, changes, adds or swaps tokens.
pub fn tokens(tokens: &mut Tokens, random: &mut Random) {
    if random.chance(40) {
        return phrase(tokens, random);
    }
    for _ in 0..random.between(1, 2) {
        if tokens.is_empty() {
            return;
        }
        let place = random.below(tokens.len());
        match random.below(5) {
            0 => drop(tokens.remove(place)),
            1 => tokens.insert(place, tokens[place].clone()),
            2 => tokens[place] = some_token(tokens, random),
            3 => tokens.insert(place, some_token(tokens, random)),
            _ => {
                let other = random.below(tokens.len());
                tokens.swap(place, other);
            }
        }
    }
}

/// Puts one identifier of the text in the place of another, or one operator: the grammar stays, the meaning does not.
pub fn identifiers(tokens: &mut Tokens, random: &mut Random) {
    let kind: fn(&[u8]) -> bool = if random.chance(40) {
        operator
    } else {
        identifier
    };
    let places: Vec<usize> = (0..tokens.len())
        .filter(|&place| kind(&tokens[place]))
        .collect();
    for _ in 0..random.between(1, 3) {
        if let (Some(&place), Some(&other)) = (random.pick(&places), random.pick(&places)) {
            tokens[place] = tokens[other].clone();
        }
    }
}

/// Changes a name behind an `end`.
pub fn closing_name(tokens: &mut Tokens, random: &mut Random) {
    let places: Vec<usize> = (1..tokens.len())
        .filter(|&place| tokens[place - 1] == b"end" && identifier(&tokens[place]))
        .collect();
    if let Some(&place) = random.pick(&places) {
        let near = [&tokens[place][..], b"'"].concat();
        let shorter = tokens[place][..tokens[place].len() - 1].to_vec();
        tokens[place] = match random.below(4) {
            0 => near,
            1 if !shorter.is_empty() => shorter,
            2 => names::long(41, random),
            _ => names::fresh(random),
        };
    }
}

/// Spells an `=` or an implication in a way that is near to one.
fn equals(tokens: &mut Tokens, random: &mut Random) {
    let near: [&[u8]; 8] = [
        b"==", b"==\r\n", b"=\n", b"===", b"=>", b"== >", b"==>", b"= =",
    ];
    let places: Vec<usize> = (0..tokens.len())
        .filter(|&place| tokens[place].first() == Some(&b'='))
        .collect();
    if let Some(&place) = random.pick(&places) {
        tokens[place] = near[random.below(near.len())].to_vec();
    }
}

/// Puts something that is no token between two tokens, with or without layout before it.
pub fn lexical(tokens: &mut Tokens, random: &mut Random) {
    if random.chance(25) {
        return equals(tokens, random);
    }
    let place = random.below(tokens.len() + 1);
    let offence = OFFENCES[random.below(OFFENCES.len())];
    if place > 0 && random.chance(40) {
        tokens[place - 1].extend_from_slice(offence);
    } else {
        tokens.insert(place, offence.to_vec());
    }
}

/// Comments where they may stand and where they may not: at byte 0, at the end, straight after another.
pub fn comments(text: &mut Vec<u8>, random: &mut Random) {
    let openings: [&[u8]; 4] = [b"-- c --", b"--\n", b"----", b" ----\n"];
    let closings: [&[u8]; 7] = [
        b" --",
        b" -- x",
        b" ---",
        b" -- x\r",
        b"\n--\n----",
        b"\t---- ----",
        b"--\n",
    ];
    let insides: [&[u8]; 7] = [
        b" ------",
        b" -----",
        b" --x----y--",
        b" --x-- --y--",
        b" --x\n--y\r--z--",
        b" --\x0c--",
        b" --=-",
    ];
    match random.below(4) {
        0 => drop(text.splice(0..0, openings[random.below(openings.len())].iter().copied())),
        1 => text.extend_from_slice(closings[random.below(closings.len())]),
        _ => {
            let layout: Vec<usize> = (0..text.len())
                .filter(|&place| text[place] == b' ')
                .collect();
            if let Some(&place) = random.pick(&layout) {
                let inside = insides[random.below(insides.len())];
                text.splice(place..place, inside.iter().copied());
            }
        }
    }
}

/// Changes, deletes, adds or repeats bytes, or cuts the text.
pub fn bytes(text: &mut Vec<u8>, random: &mut Random) {
    let likely = b" \n\r\t\x0c--->==()[]{},:#'a0A\x00\xff..+*__";
    for _ in 0..random.between(1, 4) {
        if text.is_empty() {
            return;
        }
        let place = random.below(text.len());
        match random.below(6) {
            0 => text[place] = likely[random.below(likely.len())],
            1 => drop(text.remove(place)),
            2 => text.insert(place, likely[random.below(likely.len())]),
            3 => text[place] ^= 1 << random.below(8),
            4 if random.chance(20) => text.truncate(place),
            _ => {
                let stop = (place + random.between(1, 12)).min(text.len());
                let repeated = text[place..stop].to_vec();
                text.splice(place..place, repeated);
            }
        }
    }
}

/// Tokens without any grammar but a module's beginning.
pub fn soup(random: &mut Random) -> Tokens {
    let mut tokens: Tokens = vec![b"module".to_vec(), b"M".to_vec(), b"begin".to_vec()];
    tokens.truncate(random.below(4));
    for _ in 0..random.below(30) {
        tokens.push(some_token(&tokens, random));
    }
    tokens
}
