//! The decision whether a stored visible part may be kept, and the store that does what it says.

use asf::{
    decide, normalise, Because, Decision, Done, Memory, Refusal, Specification, Store, Why,
    TOKEN_BYTES,
};

const M0: &str = "module M0 begin exports begin sorts A end sorts H end M0\n";
const M1: &str = "module M1 begin imports M0 functions f : A -> A end M1\n";
const M2: &str = "module M2 begin imports M1 { renamed by [ A -> C ] } end M2\n";
/// M0 and M1 that hide other things.
const OTHER_M0: &str =
    "module M0 begin exports begin sorts A end sorts K functions k : -> K end M0\n";
const OTHER_M1: &str = "module M1 begin imports M0 variables x : -> A equations [e] x = x end M1\n";
/// M1 that hides a sort which is called like one of its imports, and is refused by 10.
const WRONG_M1: &str = "module M1 begin imports M0 sorts A end M1\n";

fn text(modules: [&str; 3]) -> String {
    modules.concat()
}

fn names(names: &[&str]) -> Vec<Vec<u8>> {
    names.iter().map(|name| name.as_bytes().to_vec()).collect()
}

/// M0 that hides more than a normal form may have.
fn too_large() -> String {
    let sorts: Vec<String> = (0..1_100).map(|number| format!("S{}", number)).collect();
    let sorts = sorts.join(",");
    format!(
        "module M0 begin exports begin sorts A end sorts H,{} end M0\n",
        sorts
    )
}

fn why(decision: Decision) -> Why {
    match decision {
        Decision::AskAgain(why) => why,
        other => panic!("{}", other),
    }
}

/// The number of the module that was not accepted.
fn not_accepted(done: &Done) -> u32 {
    match done {
        Done::Refused(Because::NotAccepted(_, its), _) => its.number(),
        other => panic!("{}", other),
    }
}

fn changed(store: &mut Store, edition: &str) -> Done {
    let mut done = store.change(edition);
    assert_eq!(done.len(), 1);
    done.remove(0).1
}

fn part(asked: &str, edition: &str) -> Vec<u8> {
    let listing = normalise(asked.as_bytes(), edition).expect("a listing");
    listing.visible().to_vec()
}

fn number(shown: Option<Result<&[u8], &Refusal>>) -> u32 {
    shown
        .expect("it was added")
        .map_or_else(Refusal::number, |_| 0)
}

#[test]
fn decisions() {
    let old = text([M0, M1, M2]);
    let new = format!("module M9 begin end M9\n{}", text([OTHER_M0, M1, M2]));
    assert_eq!(
        decide(b"M2", &old, &new),
        Decision::KeepAfter(names(&["M0"]))
    );
    let both = text([OTHER_M0, OTHER_M1, M2]);
    assert_eq!(
        decide(b"M2", &old, &both),
        Decision::KeepAfter(names(&["M0", "M1"]))
    );
    assert_eq!(decide(b"M2", &old, &old), Decision::KeepAfter(Vec::new()));
    let divided = Specification::with_library(M0.as_bytes(), &old.as_bytes()[M0.len()..]);
    assert_eq!(
        decide(b"M2", &old, divided),
        Decision::KeepAfter(Vec::new())
    );
    let why = why(decide(b"M2", &old, &text([M1, M0, M2])));
    assert_eq!(
        (why.reason(), why.module(), why.name()),
        (3, &b"M0"[..], &b"M1"[..])
    );
    let no_text = Specification::with_library(b"modul", b"");
    let unread = match decide(b"M2", &old, no_text) {
        Decision::NotRead(unread) => unread,
        other => panic!("{}", other),
    };
    assert_eq!((unread.number(), unread.at()), (2, 0));
    assert!(unread.in_new() && unread.in_library());
}

/// All of 64 modules are told by their numbers, the halves of the set put together.
#[test]
fn sixty_four_modules() {
    let edition = |hidden: &str| {
        let module = |number: usize| {
            let imports = match number {
                0 => String::new(),
                _ => format!("imports m{} ", number - 1),
            };
            let hidden = if number == 63 { "" } else { hidden };
            format!(
                "module m{0} begin {1}{2}end m{0}\n",
                number, imports, hidden
            )
        };
        (0..64).map(module).collect::<String>()
    };
    let all: Vec<Vec<u8>> = (0..63)
        .map(|number| format!("m{}", number).into_bytes())
        .collect();
    let decision = decide(b"m63", &edition(""), &edition("sorts H "));
    assert_eq!(decision, Decision::KeepAfter(all));
}

#[test]
fn their_sentences() {
    let old = text([M0, M1, M2]);
    let says = |new: &str| decide(b"M2", &old, new).to_string();
    assert_eq!(says(&old), "keep it");
    let both = text([OTHER_M0, OTHER_M1, M2]);
    assert_eq!(says(&both), "keep it if these are answered 0: M0, M1");
    let order = "ask it again: other modules are reached, or in another order, module M0, name M1";
    assert_eq!(says(&text([M1, M0, M2])), order);
    assert_eq!(
        says(M0),
        "ask it again: the module is not there any more, module M2"
    );
    assert_eq!(
        says("module M2 $"),
        "not read: 1: these bytes are no part of the language, at byte 10 of the new text"
    );
    let long = [b'n'; TOKEN_BYTES + 1];
    let why = why(decide(&long, &old, &old));
    assert_eq!((why.reason(), why.module()), (1, &long[..]));
}

/// M2 is asked once; after two editions its part is shown still, with one module asked after each.
#[test]
fn a_part_is_kept_from_edition_to_edition() {
    let first = text([M0, M1, M2]);
    let mut store = Store::new(&first);
    assert_eq!(store.add(b"M2"), Ok(&part("M2", &first)[..]));
    let second = text([OTHER_M0, M1, M2]);
    assert_eq!(changed(&mut store, &second), Done::Kept(names(&["M0"])));
    // from the second edition on: M0 is not asked again
    let third = text([OTHER_M0, OTHER_M1, M2]);
    assert_eq!(changed(&mut store, &third), Done::Kept(names(&["M1"])));
    assert_eq!(changed(&mut store, &third), Done::Kept(Vec::new()));
    assert_eq!(store.show(b"M2"), Some(Ok(&part("M2", &third)[..])));
    assert_eq!(store.show(b"M1"), None);
}

#[test]
fn a_changed_module_that_is_wrong() {
    let first = text([M0, M1, M2]);
    let mut store = Store::new(&first);
    assert!(store.add(b"M2").is_ok());
    let done = changed(&mut store, &text([M0, WRONG_M1, M2]));
    match &done {
        Done::Refused(Because::NotAccepted(module, its), refusal) => {
            assert_eq!(module, b"M1");
            assert_eq!((its.number(), refusal.number()), (10, 10));
        }
        _ => panic!("{}", done),
    }
    assert_eq!(number(store.show(b"M2")), 10);
    // the part is held for the first edition still
    assert_eq!(changed(&mut store, &first), Done::Kept(Vec::new()));
    assert_eq!(number(store.show(b"M2")), 0);
}

/// The lowest of three modules is too large while the next goes wrong, and then small again: what 18 has hidden is seen.
#[test]
fn eighteen_is_not_zero() {
    let mut store = Store::new(&text([M0, M1, M2]));
    assert!(store.add(b"M2").is_ok());
    let done = changed(&mut store, &text([&too_large(), WRONG_M1, M2]));
    assert_eq!(not_accepted(&done), 18);
    assert_eq!(number(store.show(b"M2")), 18);
    let done = changed(&mut store, &text([M0, WRONG_M1, M2]));
    assert_eq!(not_accepted(&done), 10);
    assert_eq!(number(store.show(b"M2")), 10);
}

/// M1's listing does not fit, so M2 is asked, whose own fits.
#[test]
fn nineteen_is_not_zero() {
    let edition = |hidden: &str| {
        let long = "a-long-name-that-M2-gives-a-short-one";
        let low = format!(
            "module M1 begin exports begin sorts {} end sorts {} end M1\n",
            long, hidden
        );
        let top = format!("imports M1 {{ renamed by [ {} -> A ] }}", long);
        format!("{}module M2 begin {} end M2\n", low, top)
    };
    let (first, second) = (edition("H"), edition("K"));
    let length = |asked: &[u8]| normalise(asked, &second).expect("a listing").bytes().len();
    assert!(length(b"M2") < length(b"M1"));
    let mut store = Store::with_memory(Memory::with_output(length(b"M2")), &first);
    assert!(store.add(b"M2").is_ok());
    match changed(&mut store, &second) {
        Done::AskedAgain(Because::NotAccepted(_, its)) => assert_eq!(its.number(), 19),
        other => panic!("{}", other),
    }
    assert_eq!(store.show(b"M2"), Some(Ok(&part("M2", &second)[..])));
}

#[test]
fn an_edition_that_is_not_read() {
    let first = text([M0, M1, M2]);
    let mut store = Store::new(&first);
    assert!(store.add(b"M2").is_ok());
    let done = changed(&mut store, "module M0 begin");
    match &done {
        Done::Refused(Because::NotRead(unread), refusal) => {
            assert!(unread.in_new());
            assert_eq!((unread.number(), refusal.number()), (2, 2));
        }
        other => panic!("{}", other),
    }
    assert_eq!(number(store.show(b"M2")), 2);
    assert_eq!(
        changed(&mut store, &text([OTHER_M0, M1, M2])),
        Done::Kept(names(&["M0"]))
    );
}

/// Modules that are stored themselves; one that is absent at first.
#[test]
fn several_modules() {
    let mut store = Store::new(M0);
    assert_eq!(store.add(b"M2").map_err(Refusal::number), Err(6));
    assert!(store.add(b"M0").is_ok());
    let told = |done: Vec<(Vec<u8>, Done)>| {
        let lines = done
            .iter()
            .map(|(module, done)| format!("{}: {}", String::from_utf8_lossy(module), done));
        lines.collect::<Vec<String>>()
    };
    assert_eq!(
        told(store.change(&text([M0, M1, M2]))),
        [
            "M0: kept without asking",
            "M2: asked again: nothing was stored"
        ]
    );
    assert_eq!(
        told(store.change(&text([OTHER_M0, M1, M2]))),
        [
            "M0: asked again: the module itself changed, module M0",
            "M2: kept after asking M0"
        ]
    );
    assert_eq!(
        told(store.change(&text([OTHER_M0, WRONG_M1, M2]))),
        [
            "M0: kept without asking",
            "M2: refused now by 10: one name for two things, module M1, name A; asked again: M1 is not accepted \
             (10: one name for two things, module M1, name A)"
        ]
    );
}
