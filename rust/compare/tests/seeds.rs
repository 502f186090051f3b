//! The seeds reach every number that a specification can be answered with, what only two texts can have and what operators bring, every
//! listing is read back to its end, and the order of imports is of no account.

use compare::cases::{case, undivided, Case};
use compare::decided::{questions, Tally};
use compare::division::divisions;
use compare::editions::chain;
use compare::engines::{input, reference};
use compare::import_order::{self, Agreed};
use compare::operators::{declared, replace};
use compare::spelling::plain;
use reference::syntax::operands;
use reference::{
    asfnorm, next_line, normalise, parts, read, Answer, Lent, Name, Step, Texts, NAME_BYTES,
    TEXT_BYTES,
};

/// Every number that a call can give; 16 and 20 are given no more, and 21 is the listing reader's.
#[test]
fn every_number_is_reached() {
    let mut counts = [0; 28];
    let mut in_library = [0; 28];
    for seed in 0..1_500 {
        let answer = reference(&case(seed));
        counts[answer.number as usize] += 1;
        in_library[answer.number as usize] += usize::from(answer.in_library);
    }
    for (number, count) in counts.iter().enumerate() {
        let given = ![16, 20, 21].contains(&number);
        assert_eq!(*count > 0, given, "{number}: {count}");
    }
    for (number, count) in in_library.iter().enumerate() {
        assert_eq!(*count > 0, (1..=5).contains(&number), "{number}: {count}");
    }
}

#[test]
fn listings_are_read_back() {
    for seed in 0..500 {
        let listing = reference(&case(seed)).listing;
        let mut place = 0;
        while let Step::Line { next, .. } = next_line(&listing, place) {
            place = next;
        }
        assert_eq!(place, listing.len());
    }
}

/// Many listings have lines that the order of bytes would put otherwise.
#[test]
fn numbers_decide_the_order() {
    let listings = (0..1_500).map(|seed| reference(&case(seed)).listing);
    let otherwise = listings.filter(|listing| !sorts(listing).is_sorted());
    let count = otherwise.count();
    assert!(count > 50, "{count}");
}

/// The exported sorts of a listing.
fn sorts(listing: &[u8]) -> Vec<Name> {
    let mut sorts = Vec::new();
    let mut place = 0;
    while let Step::Line { key, value, next } = next_line(listing, place) {
        sorts.extend((key == b"sort").then_some(value));
        place = next;
    }
    sorts
}

#[test]
fn a_seed_is_one_case() {
    for seed in 0..50 {
        let (one, again) = (case(seed), case(seed));
        assert_eq!((&one.asked, one.texts()), (&again.asked, again.texts()));
    }
}

/// About half of the seeds have a library; the others, but for a few whose library came out empty, have the text that
/// they have undivided.
#[test]
fn half_of_the_seeds_have_a_library() {
    let (mut with_library, mut undivided_text) = (0, 0);
    for seed in 0..500 {
        let case = case(seed);
        if !case.library.is_empty() {
            with_library += 1;
        } else if case.text == undivided(seed).text {
            undivided_text += 1;
        }
    }
    assert!((200..=300).contains(&with_library), "{with_library}");
    assert!(with_library + undivided_text > 490, "{undivided_text}");
}

type Happening = fn(&Case, &Answer) -> bool;

/// What only two texts can have, or have otherwise.
const HAPPENINGS: [(&str, Happening); 10] = [
    ("accepted across both", |case, answer| {
        let count = parts(&case.text).len();
        answer.number == 0 && answer.modules as usize > count
    }),
    ("a module of the library is asked", |case, answer| {
        answer.number == 0 && declares(&case.library, &case.asked)
    }),
    ("the library names a customer's module", |case, answer| {
        let names = declares(&case.text, &answer.name);
        answer.number == 8 && names && declares(&case.library, &answer.module)
    }),
    ("a name in both", |case, answer| {
        let there = answer.number == 5 && !answer.in_library;
        there && named_at(&case.text, answer.at).is_some_and(|name| declares(&case.library, &name))
    }),
    ("64 modules over both", |case, answer| {
        !case.library.is_empty() && answer.number != 4 && modules(case) == 64
    }),
    ("65 modules over both", |case, answer| {
        answer.number == 4 && !answer.in_library && modules(case) == 65
    }),
    ("a library of layout alone", |case, answer| {
        let end = answer.at == case.library.len();
        end && answer.in_library && parts(&case.library).is_empty()
    }),
    ("a library as long as it may be", |case, answer| {
        case.library.len() == TEXT_BYTES && !answer.in_library
    }),
    ("a library that is too long", |case, answer| {
        case.library.len() > TEXT_BYTES && (answer.number, answer.at) == (4, TEXT_BYTES)
    }),
    ("no customer's text", |case, answer| {
        let empty = case.text.is_empty() && !case.library.is_empty();
        empty && !answer.in_library && (answer.number, answer.at) == (2, 0)
    }),
];

fn declares(text: &[u8], name: &[u8]) -> bool {
    parts(text).iter().any(|part| part.name == name)
}

fn modules(case: &Case) -> usize {
    parts(&case.library).len() + parts(&case.text).len()
}

/// The name of the module whose own name stands at a place.
fn named_at(text: &[u8], place: usize) -> Option<Name> {
    let found = parts(text).into_iter();
    let mut found = found.filter(|part| text[place..].starts_with(part.name) && part.place < place);
    found.next_back().map(|part| part.name.to_vec())
}

/// Each of these happens among so many seeds.
fn assert_happening(happenings: &[(&str, Happening)], seeds: u64) {
    let cases: Vec<(Case, Answer)> = (0..seeds)
        .map(case)
        .map(|case| {
            let answer = reference(&case);
            (case, answer)
        })
        .collect();
    for (what, happens) in happenings {
        let seen = cases.iter().filter(|(case, answer)| happens(case, answer));
        let count = seen.count();
        println!("{what}: {count}");
        assert!(count > 0, "{what}");
    }
}

#[test]
fn what_only_two_texts_have() {
    assert_happening(&HAPPENINGS, 1_500);
}

/// What operators bring.
const OPERATORS: [(&str, Happening); 21] = [
    ("a prefix operator is listed", |_, answer| {
        functions(answer).any(|name| operands(&name) == Some(1))
    }),
    ("an infix operator is listed", |_, answer| {
        functions(answer).any(|name| operands(&name) == Some(2))
    }),
    ("an operator that begins with two hyphens", |_, answer| {
        functions(answer).any(|name| name.starts_with(b"_--") || name.starts_with(b"--"))
    }),
    ("one name before and between", |_, answer| {
        let listed = lines(answer, b"function");
        let infix = |name: &[u8]| {
            listed
                .iter()
                .any(|line| line.starts_with(&[b"_", name].concat()))
        };
        let mut names = functions(answer);
        names.any(|name| operands(&name) == Some(1) && infix(&name))
    }),
    ("a name of 42 bytes is listed", |_, answer| {
        functions(answer).any(|name| name.len() == NAME_BYTES)
    }),
    ("digits in an operator decide", |_, answer| {
        let dotted: Vec<Name> = functions(answer)
            .filter(|name| name.starts_with(b"_."))
            .collect();
        !dotted.is_sorted()
    }),
    ("a plain name made an operator", |_, answer| {
        let infix = |line: &Vec<u8>| line.starts_with(b"_");
        let mut listed = listed_with_origins(answer);
        listed.any(|(line, origin)| infix(&line) && !origin.contains(&b'_'))
    }),
    ("an operator made plain", |_, answer| {
        let plain = |line: &Vec<u8>| !line.contains(&b'_');
        let mut listed = listed_with_origins(answer);
        listed.any(|(line, origin)| plain(&line) && origin.contains(&b'_'))
    }),
    ("more than 16 operands in a row", |_, answer| {
        let equations = lines(answer, b"equation");
        let row = |line: &Vec<u8>| nesting(line) > 15;
        equations.iter().any(row)
    }),
    ("a hidden operator is applied", |_, answer| {
        let hidden = |line: &Vec<u8>| contains(line, b",hidden,function,") && line.contains(&b'_');
        lines(answer, b"origin").iter().any(hidden) && !lines(answer, b"equation").is_empty()
    }),
    ("9 of an operator", |_, answer| about_operator(answer, 9)),
    ("10 of an operator", |_, answer| about_operator(answer, 10)),
    ("11 of an operator", |_, answer| about_operator(answer, 11)),
    ("13 of an operator", |_, answer| about_operator(answer, 13)),
    ("14 of an operator", |_, answer| about_operator(answer, 14)),
    ("22 of an operator", |_, answer| about_operator(answer, 22)),
    ("24 of an actual operator", |_, answer| {
        answer.number == 24 && operands(&answer.actual).is_some()
    }),
    ("25 of an actual operator", |_, answer| {
        answer.number == 25 && operands(&answer.actual).is_some()
    }),
    ("26 of an operator", |_, answer| about_operator(answer, 26)),
    ("26 of an actual operator", |_, answer| {
        answer.number == 26 && operands(&answer.actual).is_some()
    }),
    ("14 of a name that is there", |case, answer| {
        let pair = [&answer.name[..], b" -> _"].concat();
        answer.number == 14 && operands(&answer.name).is_none() && contains(&case.text, &pair)
    }),
];

fn about_operator(answer: &Answer, number: u32) -> bool {
    answer.number == number && operands(&answer.name).is_some()
}

fn contains(line: &[u8], part: &[u8]) -> bool {
    line.windows(part.len()).any(|window| window == part)
}

/// The values of a listing's lines with a key.
fn lines(answer: &Answer, wanted: &[u8]) -> Vec<Vec<u8>> {
    let mut found = Vec::new();
    let mut place = 0;
    while let Step::Line { key, value, next } = next_line(&answer.listing, place) {
        found.extend((key == wanted).then_some(value));
        place = next;
    }
    found
}

/// The names of the exported functions.
fn functions(answer: &Answer) -> impl Iterator<Item = Name> {
    let name = |line: Vec<u8>| line.split(|&byte| byte == b':').next().map(<[u8]>::to_vec);
    lines(answer, b"function").into_iter().filter_map(name)
}

/// The exported functions, each with the line behind it.
fn listed_with_origins(answer: &Answer) -> impl Iterator<Item = (Vec<u8>, Vec<u8>)> {
    let mut found = Vec::new();
    let mut place = 0;
    while let Step::Line { key, value, next } = next_line(&answer.listing, place) {
        if let (true, Step::Line { value: origin, .. }) =
            (key == b"function", next_line(&answer.listing, next))
        {
            found.push((value, origin));
        }
        place = next;
    }
    found.into_iter()
}

/// The most brackets that are open at once.
fn nesting(line: &[u8]) -> i32 {
    let (mut open, mut most) = (0, 0);
    for byte in line {
        open += i32::from(*byte == b'(') - i32::from(*byte == b')');
        most = most.max(open);
    }
    most
}

#[test]
fn what_operators_bring() {
    assert_happening(&OPERATORS, 2_500);
}

/// Document 02, Two: in an accepted specification a fresh plain function may stand for an operator, with the same lines apart from that name,
/// their order and the numbers of hidden items.
#[test]
fn an_operator_may_be_replaced() {
    let mut replaced = 0;
    for seed in 0..1_500 {
        let case = undivided(seed);
        let whole = reference(&case);
        let Ok(mut specification) = read(&case.text) else {
            continue;
        };
        let operator = declared(&specification)
            .into_iter()
            .find(|(name, _)| operands(name).is_some());
        let (0, Some((operator, _))) = (whole.number, operator) else {
            continue;
        };
        replace(&mut specification, &operator, &b"fresh'".to_vec());
        let text = plain(&specification);
        let answer = normalise(&case.asked, Texts::alone(&text), Lent::output(usize::MAX));
        // the sizes are kept but for depth
        if answer.number == 4 {
            continue;
        }
        assert_eq!(
            (answer.number, answer.modules),
            (0, whole.modules),
            "{seed}"
        );
        assert_eq!(
            loosely(&whole, &operator),
            loosely(&answer, b"fresh'"),
            "{seed}"
        );
        replaced += 1;
    }
    assert!(replaced > 100, "{replaced}");
}

/// The lines of a listing with one sign for the name and one for every hidden item, put in order.
fn loosely(answer: &Answer, name: &[u8]) -> Vec<Vec<u8>> {
    let mut lines: Vec<Vec<u8>> = Vec::new();
    for line in answer.listing.split(|&byte| byte == b'\n') {
        let mut loose = Vec::new();
        let mut place = 0;
        while place < line.len() {
            if line[place..].starts_with(name) && !within_name(line, place, name.len()) {
                loose.push(b'$');
                place += name.len();
            } else if line[place] == b'{' {
                loose.push(b'{');
                place += line[place..]
                    .iter()
                    .position(|&byte| byte == b'}')
                    .unwrap_or(0);
            } else {
                loose.push(line[place]);
                place += 1;
            }
        }
        lines.push(loose);
    }
    lines.sort();
    lines
}

/// Whether what stands there is part of a longer name.
fn within_name(line: &[u8], place: usize, length: usize) -> bool {
    let ends = |byte: &u8| b"=:(),[] ".contains(byte);
    let before = place == 0 || ends(&line[place - 1]);
    let behind = line.get(place + length).is_none_or(ends);
    !(before && behind)
}

/// Lines `library=N` that are none, and such that tell another length, are among the inputs.
#[test]
fn odd_library_lines() {
    let odd = (0..1_500)
        .map(case)
        .filter(|case| case.library_line.is_some());
    let differ = odd.filter(|case| {
        let proper = Case {
            library_line: None,
            ..case.clone()
        };
        asfnorm(&input(case)) != asfnorm(&input(&proper))
    });
    assert!(differ.count() > 20);
}

/// How the modules are divided changes no answer from 6 up and no listing.
#[test]
fn divided_as_undivided() {
    let mut divided = 0;
    for seed in 0..400 {
        let case = undivided(seed);
        let whole = reference(&case);
        if (1..=5).contains(&whole.number) {
            continue;
        }
        for texts in divisions(&case.text) {
            let answer = normalise(&case.asked, texts, Lent::output(case.output));
            assert_eq!(answer, whole, "{seed}");
            divided += 1;
        }
    }
    assert!(divided > 500, "{divided}");
}

/// In which order imports stand and how often one is written changes neither what is accepted nor a listing; some refusals are told otherwise.
#[test]
fn imports_in_another_order() {
    let mut all = Agreed::default();
    for seed in 0..1_000 {
        let case = case(seed);
        if let Some(other) = import_order::other_order(&case) {
            match import_order::compare(&case, &other, import_order::ask_reference) {
                Ok(agreed) => all += agreed,
                Err(difference) => panic!("{seed}: {}\n{}", difference.expected, difference.found),
            }
        }
    }
    println!("{all}");
    assert!(all.accepted > 1_000 && all.refused > 400 && all.told_otherwise > 5);
}

/// Between the editions of a chain every decision comes, and each reason; and calls that are answered 18 and 19 are among them.
#[test]
fn every_decision_is_reached() {
    let mut tally = Tally::default();
    let mut counts = [0; 28];
    for seed in 0..300 {
        let chain = chain(seed);
        for question in questions(&chain) {
            tally.count(&question.decision());
        }
        for edition in &chain.editions {
            let lent = Lent::output(chain.output);
            let answer = normalise(&chain.names[0], edition.texts(), lent);
            counts[answer.number as usize] += 1;
        }
    }
    println!("{tally}");
    let reasons = (1..=8).map(|reason| format!("asked for {reason}"));
    let others = ["kept", "kept after asking", "old not read", "new not read"];
    for what in reasons.chain(others.map(String::from)) {
        assert!(tally.of(&what) > 0, "{what}");
    }
    for number in [0, 18, 19] {
        assert!(counts[number] > 10, "{number}: {}", counts[number]);
    }
}

#[test]
fn a_seed_is_one_chain() {
    for seed in 0..20 {
        let (one, again) = (chain(seed), chain(seed));
        assert_eq!((one.names, one.output), (again.names, again.output));
        assert_eq!(one.editions, again.editions);
    }
}
