//! The program `asfnorm` as a function from its standard input to its output ("The listing"; document 02, One and Five).

use crate::{at_place, normalise, Answer, Lent, Offence, Texts};
use crate::{OUTPUT_BYTES, TEXT_BYTES, TOKEN_BYTES};
use std::ops::RangeInclusive;

const FIRST: &[u8] = b"normalise=";
const SECOND: &[u8] = b"library=";
/// The most digits of the library's length.
const DIGITS: usize = 9;
/// The numbers whose refusals tell the actual name, also where it is blank.
const BINDING_MISTAKES: RangeInclusive<u32> = 22..=27;

/// What the program prints for an input.
pub fn asfnorm(input: &[u8]) -> Vec<u8> {
    printed(&answered(input))
}

fn answered(input: &[u8]) -> Answer {
    let Some((asked, rest)) = split(input) else {
        return at_place(Offence { number: 2, at: 0 }, false);
    };
    let texts = match library_line(rest) {
        Some((length, _)) if length > TEXT_BYTES => {
            let offence = Offence {
                number: 4,
                at: TEXT_BYTES,
            };
            return at_place(offence, true);
        }
        Some((length, behind)) if length <= behind.len() => Texts {
            library: &behind[..length],
            customer: &behind[length..],
        },
        _ => Texts::alone(rest),
    };
    normalise(asked, texts, Lent::output(OUTPUT_BYTES))
}

/// The asked name and what is behind its line; none without a proper first line.
fn split(input: &[u8]) -> Option<(&[u8], &[u8])> {
    let rest = input.strip_prefix(FIRST)?;
    let length = rest.iter().position(|&byte| byte == b'\n')?;
    (length <= TOKEN_BYTES).then(|| (&rest[..length], &rest[length + 1..]))
}

/// The length that a library's line tells, and what is behind that line; none where it is no such line.
fn library_line(rest: &[u8]) -> Option<(usize, &[u8])> {
    let rest = rest.strip_prefix(SECOND)?;
    let end = rest.iter().position(|&byte| byte == b'\n')?;
    let digits = &rest[..end];
    let leading_zero = end > 1 && digits[0] == b'0';
    if leading_zero || end > DIGITS || !digits.iter().all(u8::is_ascii_digit) {
        return None;
    }
    let length = std::str::from_utf8(digits).ok()?.parse().ok()?;
    Some((length, &rest[end + 1..]))
}

fn printed(answer: &Answer) -> Vec<u8> {
    let mut out = format!("answer={}\nmodules={}\n", answer.number, answer.modules).into_bytes();
    if answer.number == 0 {
        out.extend_from_slice(&answer.listing);
        return out;
    }
    let mut names = vec![("module", &answer.module), ("name", &answer.name)];
    if BINDING_MISTAKES.contains(&answer.number) {
        names.push(("actual", &answer.actual));
    }
    for (key, value) in names {
        out.extend_from_slice(key.as_bytes());
        out.push(b'=');
        out.extend_from_slice(value);
        out.push(b'\n');
    }
    let mark = if answer.in_library { "library:" } else { "" };
    out.extend_from_slice(format!("at={mark}{}\n", answer.at).as_bytes());
    out
}
