//! Names with runs of digits in the place of a text's names, one for one: what is told stays, but for the names and for
//! all that goes by their order.

use crate::damage::identifier;
use crate::names;
use crate::random::Random;
use crate::spelling::Tokens;
use reference::{Name, TOKEN_BYTES};

/// Puts other names in the place of most of a text's, the asked one included.
pub fn rename(tokens: &mut Tokens, asked: &mut Name, random: &mut Random) {
    let mut taken: Vec<Name> = Vec::new();
    for name in tokens.iter().chain([&*asked]) {
        if is_name(name) && !taken.contains(name) {
            taken.push(name.clone());
        }
    }
    let stems = [names::stem(random), names::stem(random)];
    let mut pairs: Vec<(Name, Name)> = Vec::new();
    for old in taken.clone() {
        if random.chance(90) {
            let new = match old[0] {
                b'.' => untaken(&taken, &stems, dotted, random),
                _ => untaken(&taken, &stems, |name| name, random),
            };
            taken.push(new.clone());
            pairs.push((old, new));
        }
    }
    for name in tokens.iter_mut().chain([asked]) {
        if let Some((_, new)) = pairs.iter().find(|(old, _)| old == name) {
            *name = new.clone();
        }
    }
}

/// Mostly of the first stem, so that what stands behind it decides.
fn untaken(
    taken: &[Name],
    stems: &[&str; 2],
    written: fn(Name) -> Name,
    random: &mut Random,
) -> Name {
    loop {
        let stem = stems[usize::from(random.chance(15))];
        let name = written(names::numbered(stem, random));
        if name.len() <= TOKEN_BYTES && !taken.contains(&name) {
            return name;
        }
    }
}

fn dotted(name: Name) -> Name {
    [b".", &name[..], b"."].concat()
}

/// A name or a dotted operator as it may stand in a text; a token that is damaged stays so.
fn is_name(token: &[u8]) -> bool {
    let inside = |&byte: &u8| byte.is_ascii_alphanumeric() || byte == b'\'' || byte == b'-';
    let dotless = token
        .strip_prefix(b".")
        .and_then(|rest| rest.strip_suffix(b"."));
    let name = dotless.unwrap_or(token);
    let ended = token.len() <= TOKEN_BYTES && !name.ends_with(b"-");
    identifier(name) && ended && name.iter().all(inside)
}

#[cfg(test)]
mod tests {
    use super::*;
    use crate::draft::{specification, Plan};
    use crate::spelling::{spaced, spell};
    use reference::{normalise, Answer, Lent, Texts};

    fn answer(tokens: &Tokens, asked: &Name) -> Answer {
        let text = spaced(tokens);
        normalise(asked, Texts::alone(&text), Lent::output(usize::MAX))
    }

    #[test]
    fn numbers_and_counts_stay() {
        for seed in 0..200 {
            let random = &mut Random::new(seed);
            let plan = Plan {
                modules: 4,
                kept: 50,
            };
            let drafted = specification(&plan, random);
            let mut tokens = spell(&drafted, random);
            let mut asked = drafted.modules[3].name.clone();
            let before = answer(&tokens, &asked);
            rename(&mut tokens, &mut asked, random);
            let after = answer(&tokens, &asked);
            let told = |answer: &Answer| (answer.number, answer.modules);
            assert_eq!(told(&before), told(&after), "{seed}");
        }
    }
}
