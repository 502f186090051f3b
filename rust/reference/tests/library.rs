//! What documents 01 and 02 say of the library and the program has no input for: lent lengths, long names, the reader,
//! fetching.

use reference::{fetch, next_line, parts, Answer, Lent, Step, Texts};

const TEXT: &[u8] = b"module M begin exports begin sorts A end end M";
const LISTING: &[u8] = b"module=M\nsort=A\norigin=[M,export,sort,A]\nend=M\n";

fn normalise(asked: &[u8], text: &[u8], lent: Lent) -> Answer {
    reference::normalise(asked, Texts::alone(text), lent)
}

#[test]
fn output_exact_and_one_byte_short() {
    let exact = normalise(b"M", TEXT, Lent::output(LISTING.len()));
    assert_eq!((exact.number, exact.modules), (0, 1));
    assert_eq!(exact.listing, LISTING);
    let short = normalise(b"M", TEXT, Lent::output(LISTING.len() - 1));
    assert_eq!((short.number, short.modules), (19, 1));
    assert_eq!((&short.module[..], &short.name[..]), (&b"M"[..], &b""[..]));
    assert!(short.listing.is_empty());
}

#[test]
fn working_memory_comes_before_all_else() {
    let lent = Lent {
        work: 9,
        work_needed: 10,
        output: 0,
    };
    let answer = normalise(b"M", b"no text", lent);
    assert_eq!((answer.number, answer.modules, answer.at), (19, 0, 0));
    assert_eq!(answer.module, b"M");
}

#[test]
fn an_asked_name_over_forty_bytes_is_blank() {
    let answer = normalise(&[b'n'; 41], TEXT, Lent::output(0));
    assert_eq!((answer.number, answer.modules), (6, 0));
    assert!(answer.name.is_empty());
    let answer = normalise(&[b'n'; 40], TEXT, Lent::output(0));
    assert_eq!((answer.number, &answer.name[..]), (6, &[b'n'; 40][..]));
}

/// An operator of 40 bytes is told with its underlines.
#[test]
fn told_names_have_up_to_42_bytes() {
    let infix = format!("_{}_", "+".repeat(40));
    let declared = format!("{infix}: A#A -> A");
    let text =
        format!("module M begin exports begin sorts A functions {declared} {declared} end end M");
    let answer = normalise(b"M", text.as_bytes(), Lent::output(0));
    assert_eq!((answer.number, answer.name), (9, infix.into_bytes()));
}

#[test]
fn the_reader_steps_line_by_line() {
    let first = Step::Line {
        key: b"module".to_vec(),
        value: b"M".to_vec(),
        next: 9,
    };
    assert_eq!(next_line(LISTING, 0), first);
    assert_eq!(next_line(LISTING, LISTING.len()), Step::End);
    assert_eq!(next_line(LISTING, LISTING.len() + 1), Step::Bad);
    assert_eq!(next_line(b"sort=A", 0), Step::Bad);
    assert_eq!(next_line(b"sort\n", 0), Step::Bad);
    assert_eq!(next_line(b"sorts=A\n", 0), Step::Bad);
    assert_eq!(next_line(b"=\n", 0), Step::Bad);
    let empty = Step::Line {
        key: b"end".to_vec(),
        value: Vec::new(),
        next: 5,
    };
    assert_eq!(next_line(b"end=\n", 0), empty);
    let equals = Step::Line {
        key: b"equation".to_vec(),
        value: b"[e] a=b".to_vec(),
        next: 17,
    };
    assert_eq!(next_line(b"equation=[e] a=b\n", 0), equals);
}

/// The bytes of a module's part, and whether they are the library's.
fn fetched<'t>(name: &str, library: &'t str, customer: &'t str) -> Option<(&'t str, bool)> {
    let texts = Texts {
        library: library.as_bytes(),
        customer: customer.as_bytes(),
    };
    let found = fetch(name.as_bytes(), texts)?;
    let text = if found.in_library { library } else { customer };
    let part = &text[found.part.place..][..found.part.bytes.len()];
    assert_eq!(part.as_bytes(), found.part.bytes);
    Some((part, found.in_library))
}

#[test]
fn a_module_is_fetched_from_the_text_that_declares_it() {
    let library =
        " -- ours --\nmodule B begin sorts A end B -- c --\nmodule C begin\nend -- c --\nC\n\n";
    let customer = "module M begin imports B end M\tmodule N begin end N";
    let of = |name| fetched(name, library, customer);
    assert_eq!(of("B"), Some(("module B begin sorts A end B", true)));
    assert_eq!(of("C"), Some(("module C begin\nend -- c --\nC", true)));
    assert_eq!(of("M"), Some(("module M begin imports B end M", false)));
    assert_eq!(of("N"), Some(("module N begin end N", false)));
    assert_eq!(of("A"), None);
    assert_eq!(of(""), None);
    assert_eq!(fetched("B", "", customer), None);
    assert_eq!(fetched("B", library, ""), of("B"));
}

/// A text that is refused has parts too: up to what is no token, and none behind what is no module.
#[test]
fn refused_texts_have_parts() {
    let parts_of = |text: &str| {
        let found = parts(text.as_bytes());
        let bytes = |part: &reference::Part| String::from_utf8(part.bytes.to_vec()).unwrap();
        found.iter().map(bytes).collect::<Vec<String>>()
    };
    assert_eq!(
        parts_of("module M , module M $"),
        ["module M ,", "module M"]
    );
    assert_eq!(parts_of("module module M"), ["module module M"]);
    assert_eq!(parts_of("sorts module M"), [""; 0]);
    assert_eq!(parts_of("--\nmodule M"), [""; 0]);
    assert_eq!(parts_of("module M -- open"), ["module M"]);
    assert_eq!(parts_of("module -- c ----x"), ["module -- c --"]);
    assert_eq!(parts_of("module M--x -+->"), ["module M--x -+-"]);
    assert_eq!(parts_of("module M .a-b. .-a. .x."), ["module M .a-b."]);
    assert_eq!(parts_of(&"module M ".repeat(65)).len(), 64);
    assert_eq!(fetched("", "module \n", ""), Some(("module \n", true)));
    assert_eq!(fetched("", "", "module $"), Some(("module ", false)));
    assert_eq!(
        fetched("M", "module M", "module M end"),
        Some(("module M", true))
    );
    let long = format!("module M {}", ":".repeat(40_000));
    assert_eq!(parts_of(&long), [&long[..9 + 32_768]]);
}
