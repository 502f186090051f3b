//! A parameterised module that arrives by two ways or more (document 02, Seven): alike, renamed or bound on one of them, declared again by
//! another module, brought by the module that a parameter is bound to. Some of its parameters have nothing in them.

use crate::random::{one, Random};
use crate::view::view;
use reference::syntax::*;

/// Two modules that show the same names, and stand for the sorts and functions of P.
const GROUNDS: &str =
    "module Ground begin exports begin sorts S functions g: S -> S s: -> S end end Ground \
     module Soil begin exports begin sorts S functions g: S -> S s: -> S end end Soil";

/// What P asks for, and the pairs that bind it to a ground.
const FIRST: [(&str, &str); 4] = [
    ("sorts X", "X -> S"),
    ("sorts X functions p: X -> X", "X -> S, p -> g"),
    ("sorts X functions - _: X -> X", "- _ -> g, X -> S"),
    (
        "sorts X functions p: X -> X c: -> X",
        "c -> s, X -> S, p -> g",
    ),
];

/// What Q asks for: nothing, or something over its own sorts and P's.
const SECOND: [&str; 4] = [
    "",
    "sorts Y",
    "functions q: X -> X",
    "sorts Y functions q: X # Y -> Y",
];

/// The same over a sort that is shown.
const SECOND_OVER_S: [&str; 2] = ["sorts Y functions q: S -> Y", "functions q: S # X -> S"];

const THIRD: [&str; 4] = [
    "",
    "",
    ", R begin end R",
    ", R begin end R, hidden begin sorts Z' end hidden",
];

/// What is shown beside the parameters, and the grounds that go with it: the sort S is not there, or its own, or a ground's.
const SHOWN: [(&str, &[&str]); 6] = [
    ("", &["Ground", "Soil"]),
    (
        "exports begin sorts L functions n: X # L -> L end",
        &["Ground", "Soil"],
    ),
    ("exports begin sorts S functions n: -> S end", &["Ground"]),
    (
        "exports begin sorts L functions n: -> L end imports Ground",
        &["Ground"],
    ),
    (
        "exports begin sorts L functions n: X # L -> L end imports Ground",
        &["Ground"],
    ),
    (
        "imports Soil sorts H variables x: -> X equations [e] x = x",
        &["Soil"],
    ),
];

const RENAMINGS: [&str; 9] = [
    "X -> Z",
    "X -> Z, Y -> Z'",
    "Y -> Z', X -> Z",
    "p -> f, X -> Z",
    "X -> Y, Y -> X",
    "q -> f",
    "S -> K",
    "L -> K, X -> Z",
    "n -> m",
];

/// The module Lists, a module with parameters of the same words, and what P is bound to.
struct Ground {
    text: String,
    parameters: [String; 3],
    pairs: &'static str,
    actuals: &'static [&'static str],
    shows_own: bool,
}

impl Ground {
    fn new(random: &mut Random) -> Ground {
        let (first, pairs) = FIRST[random.below(FIRST.len())];
        let place = random.below(SHOWN.len());
        let (shown, actuals) = SHOWN[place];
        let third = one(&THIRD, random);
        let second = match place {
            2.. if random.chance(50) => one(&SECOND_OVER_S, random),
            _ => one(&SECOND, random),
        };
        let parameters = [
            format!("P begin {first} end P"),
            format!("Q begin {second} end Q"),
            "R begin end R".to_string(),
        ];
        let [of_p, of_q, of_r] = &parameters;
        let both = format!("{of_q}, {of_p}");
        let twin = one(&[of_p, &both, of_r], random);
        let text = format!(
            "{GROUNDS} module Lists begin parameters {of_p}, {of_q} {third} {shown} end Lists \
             module Twin begin parameters {twin} imports Ground end Twin"
        );
        Ground {
            text,
            parameters,
            pairs,
            actuals,
            shows_own: shown.contains("sorts S"),
        }
    }
}

pub fn specification(random: &mut Random) -> Specification {
    let ground = Ground::new(random);
    let mut specification = read(&ground.text);
    match random.below(20) {
        0 => renamed_twice(&mut specification, random),
        1..=6 => bound_twice(&ground, &mut specification, random),
        _ => by_some_ways(&ground, &mut specification, random),
    }
    specification
}

/// Modules over Lists, each written again while it is refused, and one over these that stays as it is.
fn by_some_ways(ground: &Ground, specification: &mut Specification, random: &mut Random) {
    for index in 0..random.between(2, 4) {
        for _ in 0..4 {
            let way = way(ground, specification, index, random);
            specification.modules.push(way);
            let name = format!("Way{index}").into_bytes();
            if view(specification, &name).is_some() || random.chance(8) {
                break;
            }
            specification.modules.pop();
        }
    }
    let top = top(ground, specification, random);
    specification.modules.push(top);
}

fn read(text: &str) -> Specification {
    let read = reference::read(text.as_bytes());
    read.unwrap_or_else(|offence| panic!("{offence:?} in {text}"))
}

fn module(text: &str) -> Module {
    read(text).modules.swap_remove(0)
}

/// A module that imports Lists or an earlier way, often with clauses, and now and then something else besides.
fn way(
    ground: &Ground,
    specification: &Specification,
    index: usize,
    random: &mut Random,
) -> Module {
    let imported = match random.below(3) {
        0 => some_module(specification, random),
        _ => "Lists".to_string(),
    };
    let mut imports = expression(&imported, ground, specification, random);
    if random.chance(30) {
        let other = some_module(specification, random);
        imports = format!("{imports}, {other}");
    }
    let own = one(
        &["", "", "exports begin sorts O functions o: O -> O end"],
        random,
    );
    module(&format!(
        "module Way{index} begin {own} imports {imports} end Way{index}"
    ))
}

/// A module that imports some of the others, and now and then declares a parameter again.
fn top(ground: &Ground, specification: &Specification, random: &mut Random) -> Module {
    let (own, least) = match random.below(8) {
        0 => (
            format!("parameters {}", ground.parameters[random.below(3)]),
            1,
        ),
        _ => (String::new(), 2),
    };
    let mut imports = Vec::new();
    for _ in 0..random.between(least, 3) {
        let imported = match random.below(5) {
            0 => "Lists".to_string(),
            _ => some_module(specification, random),
        };
        imports.push(match random.below(4) {
            0 => expression(&imported, ground, specification, random),
            _ => imported,
        });
    }
    let imports = imports.join(", ");
    module(&format!("module Top begin {own} imports {imports} end Top"))
}

/// Mostly one of the ways, which stand last.
fn some_module(specification: &Specification, random: &mut Random) -> String {
    let count = specification.modules.len();
    let index = random.below(count).max(random.below(count));
    String::from_utf8_lossy(&specification.modules[index].name).into_owned()
}

fn expression(
    imported: &str,
    ground: &Ground,
    specification: &Specification,
    random: &mut Random,
) -> String {
    let renamed = format!("renamed by [{}]", one(&RENAMINGS, random));
    let actual = match random.below(10) {
        0..=5 => one(ground.actuals, random).to_string(),
        6 => one(&["Ground", "Soil"], random).to_string(),
        _ => some_module(specification, random),
    };
    let bound = format!("P bound by [{}] to {actual}", ground.pairs);
    match random.below(10) {
        0..=3 => imported.to_string(),
        4..=5 => format!("{imported} {{ {renamed} }}"),
        6..=8 => format!("{imported} {{ {bound} }}"),
        _ => format!("{imported} {{ {renamed} {bound} }}"),
    }
}

/// Some of P's and of Q's names changed alike on two ways, or mostly so.
fn renamed_twice(specification: &mut Specification, random: &mut Random) {
    let renamed = one(&RENAMINGS, random);
    let other = match random.chance(80) {
        true => renamed,
        false => one(&RENAMINGS, random),
    };
    let texts = [
        format!("module Way begin imports Lists {{ renamed by [{renamed}] }} end Way"),
        format!("module Top begin imports Lists {{ renamed by [{other}] }}, Way end Top"),
    ];
    specification
        .modules
        .extend(texts.map(|text| module(&text)));
}

/// P bound on two ways, by two imports or by the one through the other: the other parameters meet, their types over what stands for P's sort.
/// That has one origin or two, and where Lists shows a sort of that name, it gets another one on the first way.
fn bound_twice(ground: &Ground, specification: &mut Specification, random: &mut Random) {
    let bound = |actual: &str| format!("P bound by [{}] to {actual}", ground.pairs);
    let renamed = match ground.shows_own {
        true => "renamed by [S -> K]",
        false => "",
    };
    let actual = one(ground.actuals, random);
    let other = match ground.shows_own || random.chance(50) {
        true => "Way",
        false => one(ground.actuals, random),
    };
    let behind = one(&["Way", "Way", "Twin", "Lists"], random);
    let texts = [
        format!(
            "module Way begin imports Lists {{ {renamed} {} }} end Way",
            bound(actual)
        ),
        format!(
            "module Top begin imports Lists {{ {} }}, {behind} end Top",
            bound(other)
        ),
    ];
    specification
        .modules
        .extend(texts.map(|text| module(&text)));
}

#[cfg(test)]
mod tests {
    use super::*;
    use crate::cases::Case;
    use crate::engines::reference;
    use crate::meetings::{meetings, Meeting, Place};
    use crate::spelling::plain;
    use ::reference::{Answer, OUTPUT_BYTES};

    type Happening = fn(&Answer, &Meeting) -> bool;

    /// What comes of two parameters of one name that meet: 0, or 15 of their name.
    const HAPPENINGS: [(&str, Happening); 12] = [
        ("one of two imports", |answer, met| {
            answer.number == 0 && met.place == Place::Imports
        }),
        ("one in a binding", |answer, met| {
            answer.number == 0 && met.place == Place::Binding
        }),
        ("an empty one is one", |answer, met| {
            answer.number == 0 && empty(met)
        }),
        ("an empty one in a binding is one", |answer, met| {
            answer.number == 0 && empty(met) && met.place == Place::Binding
        }),
        ("changed alike on both ways", |answer, met| {
            let renamed = |line: &[u8]| line.starts_with(b"parameter-sort=Z\n");
            answer.number == 0 && renamed(&met.lines[0])
        }),
        (
            "one in a binding by what stands for another's sort",
            |answer, met| {
                let in_binding = met.place == Place::Binding;
                answer.number == 0 && in_binding && met.lines[0] != met.lines[1]
            },
        ),
        ("15 of two imports", |answer, met| {
            answer.number == 15 && met.place == Place::Imports
        }),
        ("15 in a binding", |answer, met| {
            answer.number == 15 && met.place == Place::Binding
        }),
        ("15 of an own one", |answer, met| {
            answer.number == 15 && met.place == Place::Own
        }),
        ("15 of empty ones of two modules", |answer, met| {
            answer.number == 15 && met.place == Place::Imports && empty(met)
        }),
        ("15 of what is changed on one way", |answer, met| {
            answer.number == 15 && met.place == Place::Imports && met.lines[0] != met.lines[1]
        }),
        ("15 of types over a sort of two origins", |answer, met| {
            let alike = met.lines[0] == met.lines[1] && !empty(met);
            answer.number == 15 && met.place == Place::Imports && alike
        }),
    ];

    fn empty(met: &Meeting) -> bool {
        met.lines.iter().all(Vec::is_empty)
    }

    /// The meetings that an answer speaks of: all where it is 0; where it is 15, the only one of the name that is told.
    fn spoken_of(case: &Case, answer: &Answer) -> Vec<Meeting> {
        let mut found = meetings(case);
        if answer.number != 0 {
            found.retain(|met| (&met.module, &met.parameter) == (&answer.module, &answer.name));
            found.truncate(if found.len() == 1 { 1 } else { 0 });
        }
        found
    }

    #[test]
    fn parameters_meet_in_every_way() {
        let mut counts = [0; HAPPENINGS.len()];
        for seed in 0..1_500 {
            let random = &mut Random::new(seed);
            let case = Case {
                asked: b"Top".to_vec(),
                text: plain(&specification(random)),
                output: OUTPUT_BYTES,
                ..Case::default()
            };
            let answer = reference(&case);
            let met = spoken_of(&case, &answer);
            for ((_, happens), count) in HAPPENINGS.iter().zip(&mut counts) {
                *count += usize::from(met.iter().any(|met| happens(&answer, met)));
            }
        }
        for ((what, _), count) in HAPPENINGS.iter().zip(counts) {
            println!("{what}: {count}");
            assert!(count > 0, "{what}");
        }
    }
}
