//! The safe functions over the proved library: a listing and its lines, refusals and their texts, two texts, what is lent, and the test vectors.

use asf::{fetch, lines, normalise, visible};
use asf::{BadLine, Line, Memory, Part, Refusal, Specification};
use asf::{NAME_BYTES, TEXT_BYTES, TOKEN_BYTES};
use std::fs;
use std::path::{Path, PathBuf};

const L: &[u8] = b"module M1 begin exports begin sorts A functions f : A -> A end
functions g : A -> A variables x : -> A
equations [e] g(x) = f(x) end M1
module M2 begin imports M1 { renamed by [ A -> C ] } end M2
";

const LISTING: &str = "module=M2
sort=C
origin=[M1,export,sort,A]
function=f:C->C
origin=[M1,export,function,f:A->A]
hidden-function={1}:C->C
origin=[M1,hidden,function,g:A->A]
variable={2}:C
origin=[M1,hidden,variable,x:->A]
equation=[e] {1}({2})=f({2})
end=M2
";

fn refused<'t>(asked: &[u8], specification: impl Into<Specification<'t>>) -> Refusal {
    normalise(asked, specification).expect_err("a refusal")
}

/// L with M1 in the library.
fn divided() -> Specification<'static> {
    let (library, text) = L.split_at(module_of_l("M2"));
    Specification::with_library(library, text)
}

fn module_of_l(name: &str) -> usize {
    let text = std::str::from_utf8(L).expect("L is ASCII");
    text.find(&format!("module {}", name)).expect("it is there")
}

#[test]
fn a_listing() {
    let listing = normalise(b"M2", L).expect("a listing");
    assert_eq!(listing.bytes(), LISTING.as_bytes());
    assert_eq!(listing.modules(), 2);
}

#[test]
fn its_lines() {
    let listing = normalise(b"M2", L).expect("a listing");
    let found: Vec<Line> = listing.lines().map(|line| line.expect("a line")).collect();
    let expected: Vec<Line> = LISTING
        .lines()
        .map(|line| line.split_once('=').expect("a key"))
        .map(|(key, value)| Line {
            key: key.as_bytes(),
            value: value.as_bytes(),
        })
        .collect();
    assert_eq!(found, expected);
}

#[test]
fn its_visible_part() {
    let listing = normalise(b"M2", L).expect("a listing");
    let hidden = LISTING.find("hidden-function").expect("a hidden function");
    assert_eq!(listing.visible(), LISTING[..hidden].as_bytes());
}

#[test]
fn stored_listings_may_be_bad() {
    let mut read = lines(b"module=M\nfrobnicate=M\n");
    assert_eq!(
        read.next(),
        Some(Ok(Line {
            key: b"module",
            value: b"M"
        }))
    );
    assert_eq!(read.place(), 9);
    assert_eq!(read.next(), Some(Err(BadLine { at: 9 })));
    assert_eq!(read.next(), None);
    assert_eq!(read.place(), 9);
    assert_eq!(lines(b"").next(), None);
    assert_eq!(visible(b"module=M\nfrobnicate=M\n"), b"module=M\n");
    assert_eq!(visible(b""), b"");
}

#[test]
fn refusals() {
    let absent = refused(b"M3", L);
    assert_eq!((absent.number(), absent.modules()), (6, 0));
    assert_eq!((absent.module(), absent.name()), (&b"M3"[..], &b"M3"[..]));
    let empty = refused(b"M", b"");
    assert_eq!((empty.number(), empty.at()), (2, 0));
    assert_eq!((empty.module(), empty.name()), (&b""[..], &b""[..]));
    let long = refused(&[b'x'; TOKEN_BYTES + 1], L);
    assert_eq!(
        (long.number(), long.module()),
        (6, &[b'x'; TOKEN_BYTES + 1][..])
    );
    assert_eq!(long.name(), b"");
}

/// An operator is told by its name, underlines included.
#[test]
fn operators_are_told() {
    let text = b"module M begin exports begin sorts A functions _+_ : A # A -> A end end M
module N begin imports M { renamed by [_+_ -> -_] } end N
";
    let refusal = refused(b"N", text);
    assert_eq!((refusal.number(), refusal.name()), (14, &b"_+_"[..]));
    let infix = format!("_{}_", "+".repeat(TOKEN_BYTES));
    let twice = format!("{infix}:A#A->A", infix = infix).repeat(2);
    let text = format!("module M begin sorts A functions {} end M", twice);
    let refusal = refused(b"M", &text);
    assert_eq!(refusal.number(), 9);
    assert_eq!(refusal.name(), infix.as_bytes());
    assert_eq!(refusal.name().len(), NAME_BYTES);
}

/// Bits, Lists over a parameter, and a module that binds it by these pairs.
fn bound(pairs: &str) -> String {
    let bits = "module Bits begin exports begin sorts Bit functions zero : -> Bit not : Bit -> Bit end end Bits";
    let lists = "module Lists begin parameters Item begin sorts Elem functions none : -> Elem end Item end Lists";
    let top = format!(
        "module M begin imports Lists {{ Item bound by [ {} ] to Bits }} end M",
        pairs
    );
    [bits, lists, &top].join("\n")
}

/// A binding's mistakes are told by both names of the pair; where there is no pair, by the formal one.
#[test]
fn mistakes_in_a_binding() {
    assert!(normalise(b"M", &bound("Elem -> Bit, none -> zero")).is_ok());
    let mistakes = [
        ("Item -> Bit", 22, "Item", "Bit"),
        ("Elem -> Bit, Elem -> zero", 23, "Elem", "zero"),
        ("Elem -> Bits", 24, "Elem", "Bits"),
        ("Elem -> zero", 25, "Elem", "zero"),
        ("Elem -> Bit, none -> not", 26, "none", "not"),
        ("Elem -> Bit", 27, "none", ""),
    ];
    for (pairs, number, name, actual) in mistakes {
        let refusal = refused(b"M", &bound(pairs));
        assert_eq!((refusal.number(), refusal.modules()), (number, 3));
        assert_eq!(refusal.module(), b"M");
        assert_eq!(refusal.name(), name.as_bytes());
        assert_eq!(refusal.actual(), actual.as_bytes());
    }
    let one_name = refused(b"M4", &bound("Elem -> Bit"));
    assert_eq!((one_name.number(), one_name.actual()), (6, &b""[..]));
}

/// Both names may have 42 bytes.
#[test]
fn long_names_in_a_binding() {
    let [formal, actual] = ["+", "-"].map(|symbol| format!("_{}_", symbol.repeat(TOKEN_BYTES)));
    let text = format!(
        "module N begin exports begin sorts A end end N
module O begin parameters P begin sorts C functions {}: C#C -> C end P end O
module M begin imports O {{ P bound by [C -> A, {} ->{}] to N }} end M",
        formal, formal, actual
    );
    let refusal = refused(b"M", &text);
    assert_eq!(refusal.number(), 24);
    assert_eq!(refusal.name(), formal.as_bytes());
    assert_eq!(refusal.actual(), actual.as_bytes());
}

#[test]
fn a_library_before_the_text() {
    let listing = normalise(b"M2", divided()).expect("a listing");
    assert_eq!(listing.bytes(), LISTING.as_bytes());
    assert_eq!(listing.modules(), 2);
    assert!(normalise(b"M1", divided()).is_ok());
    let alone = normalise(b"M2", Specification::new(L));
    assert_eq!(alone, normalise(b"M2", &L.to_vec()));
    let other_order = Specification::with_library(divided().text(), divided().library());
    let late = refused(b"M2", other_order);
    assert_eq!((late.number(), late.modules()), (8, 1));
    assert_eq!((late.module(), late.name()), (&b"M2"[..], &b"M1"[..]));
    assert_eq!((late.at(), late.in_library()), (0, false));
}

#[test]
fn places_in_either_text() {
    let twice = refused(b"M2", Specification::with_library(L, L));
    assert_eq!((twice.number(), twice.at()), (5, 7));
    assert!(!twice.in_library());
    let in_library = refused(b"M2", Specification::with_library(b"module M1 $", b""));
    assert_eq!((in_library.number(), in_library.at()), (1, 10));
    assert!(in_library.in_library());
    let long = refused(
        b"M2",
        Specification::with_library(&[b' '; TEXT_BYTES + 1], b""),
    );
    assert_eq!((long.number(), long.at()), (4, TEXT_BYTES));
    assert!(long.in_library());
    let empty = refused(b"M1", Specification::with_library(L, b""));
    assert_eq!(
        (empty.number(), empty.at(), empty.in_library()),
        (2, 0, false)
    );
}

#[test]
fn modules_are_fetched() {
    let (m1, m2) = L.split_at(module_of_l("M2"));
    let (m1, m2) = (&m1[..m1.len() - 1], &m2[..m2.len() - 1]);
    let part = |bytes, in_library| Some(Part { bytes, in_library });
    assert_eq!(fetch(b"M1", divided()), part(m1, true));
    assert_eq!(fetch(b"M2", divided()), part(m2, false));
    assert_eq!(fetch(b"M2", L), part(m2, false));
    assert_eq!(fetch(b"M3", divided()), None);
    assert_eq!(fetch(b"M1", b""), None);
    let found = fetch(b"M1", L).expect("a part").bytes;
    assert_eq!(found.as_ptr(), L.as_ptr());
}

#[test]
fn their_texts() {
    let absent = refused(b"M3", L).to_string();
    assert_eq!(
        absent,
        "6: the asked module is not in the text, module M3, name M3"
    );
    let empty = refused(b"M", b"").to_string();
    assert_eq!(empty, "2: this may not stand here, at byte 0");
    let in_library = refused(b"M", Specification::with_library(b"module M", L)).to_string();
    assert_eq!(
        in_library,
        "2: this may not stand here, at byte 8 of the library"
    );
    let lacking = refused(b"M", &bound("List -> Bit")).to_string();
    assert_eq!(
        lacking,
        "22: the parameter has no such name, module M, name List, actual Bit"
    );
    let unpaired = refused(b"M", &bound("Elem -> Bit")).to_string();
    assert_eq!(unpaired, "27: this name has no pair, module M, name none");
    let bad = lines(b"module").next().expect("a line or none");
    assert_eq!(
        bad.expect_err("no line").to_string(),
        "21: this line is no line of a listing, at byte 0"
    );
}

#[test]
fn memory_is_kept_between_calls() {
    let mut memory = Memory::with_output(LISTING.len());
    for _ in 0..3 {
        let listing = memory.normalise(b"M2", L).expect("it fits exactly");
        assert_eq!(listing.bytes(), LISTING.as_bytes());
        assert!(memory.normalise(b"M1", b"module").is_err());
    }
    let mut short = Memory::with_output(LISTING.len() - 1);
    let refusal = short.normalise(b"M2", L).expect_err("a byte is missing");
    assert_eq!((refusal.number(), refusal.modules()), (19, 2));
    assert_eq!(refusal.module(), b"M2");
}

/// The asked name and the specification of an input of `asfnorm`; none where it has no proper first line, or where the library's length is
/// beyond what it may be, whatever stands behind.
fn question(input: &[u8]) -> Option<(&[u8], Specification<'_>)> {
    let rest = input.strip_prefix(b"normalise=")?;
    let length = rest.iter().position(|&byte| byte == b'\n')?;
    let (asked, text) = (&rest[..length], &rest[length + 1..]);
    if length > TOKEN_BYTES {
        return None;
    }
    match library_line(text) {
        Some((length, _)) if length > TEXT_BYTES => None,
        Some((length, behind)) if length <= behind.len() => {
            let (library, text) = behind.split_at(length);
            Some((asked, Specification::with_library(library, text)))
        }
        _ => Some((asked, Specification::new(text))),
    }
}

/// The length that a line `library=N` tells, and what is behind it.
fn library_line(text: &[u8]) -> Option<(usize, &[u8])> {
    let rest = text.strip_prefix(b"library=")?;
    let end = rest.iter().position(|&byte| byte == b'\n')?;
    let digits = std::str::from_utf8(&rest[..end]).ok()?;
    let length: usize = digits.parse().ok()?;
    let exact = digits == length.to_string() && digits.len() <= 9;
    exact.then(|| (length, &rest[end + 1..]))
}

/// What `asfnorm` prints for an input that asks something of the library.
fn printed(memory: &mut Memory, input: &[u8]) -> Option<Vec<u8>> {
    let (asked, specification) = question(input)?;
    Some(match memory.normalise(asked, specification) {
        Ok(listing) => {
            let mut out = format!("answer=0\nmodules={}\n", listing.modules()).into_bytes();
            out.extend_from_slice(listing.bytes());
            out
        }
        Err(refusal) => format!(
            "answer={}\nmodules={}\nmodule={}\nname={}\n{}at={}{}\n",
            refusal.number(),
            refusal.modules(),
            String::from_utf8_lossy(refusal.module()),
            String::from_utf8_lossy(refusal.name()),
            match refusal.number() {
                22..=27 => format!("actual={}\n", String::from_utf8_lossy(refusal.actual())),
                _ => String::new(),
            },
            if refusal.in_library() { "library:" } else { "" },
            refusal.at()
        )
        .into_bytes(),
    })
}

fn inputs(folder: &Path) -> Vec<PathBuf> {
    let entries = fs::read_dir(folder).expect("the vectors");
    let paths = entries.map(|entry| entry.expect("an entry").path());
    paths
        .filter(|path| path.extension().map_or(false, |kind| kind == "in"))
        .collect()
}

#[test]
fn the_vectors() {
    let vectors = Path::new(env!("CARGO_MANIFEST_DIR")).join("../reference/vectors");
    let mut memory = Memory::new();
    let mut count = 0;
    for folder in [
        "appendix", "readings", "one", "nine", "twelve", "two", "seven", "eleven", "five",
    ] {
        for input in inputs(&vectors.join(folder)) {
            let expected = fs::read(input.with_extension("out")).expect("an output");
            let text = fs::read(&input).expect("an input");
            if let Some(found) = printed(&mut memory, &text) {
                assert!(found == expected, "{}", input.display());
                count += 1;
            }
        }
    }
    assert!(count > 440, "{} vectors", count);
}

/// The help sheet's heading for each number: `### 7: there is no module of this name`.
fn heading(number: u32) -> String {
    let sheet = include_str!("../../../docs/ANSWERS.md");
    let start = format!(" {}: ", number);
    let line = sheet
        .lines()
        .find(|line| line.trim_start_matches('#').starts_with(&start));
    line.expect("a heading")
        .trim_start_matches('#')
        .trim()
        .to_string()
}

/// Each example of the help sheet is refused by a number, and told in the words of its heading.
#[test]
fn the_help_sheet() {
    let sheet = include_str!("../../../docs/ANSWERS.md");
    let mut told = 0;
    for example in sheet.split("```\nnormalise=").skip(1) {
        let example = example.split("\n```").next().expect("an end");
        let input = format!("normalise={}\n", example);
        // a library that is told to be too long is the program's to refuse
        let asked = question(input.as_bytes());
        if let Some(Err(refusal)) =
            asked.map(|(asked, specification)| normalise(asked, specification))
        {
            let heading = heading(refusal.number());
            assert!(refusal.to_string().starts_with(&heading), "{}", refusal);
            told += 1;
        }
    }
    assert!(told > 30, "{} examples are refused", told);
}
