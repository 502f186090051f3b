//! The decision whether a stored visible part may be kept, on small specifications: those of `crates/ask_decision/specs/Samples.antt`, and what
//! counts as a change.

use reference::{decide, module_name, Answer, Decision, Name, Texts};

const M0: &str = "module M0 begin exports begin sorts A end sorts H end M0 ";
const M1: &str = "module M1 begin imports M0 functions f : A -> A end M1 ";
const M2: &str = "module M2 begin imports M1 { renamed by [ A -> C ] } end M2";
/// M0 that hides other things.
const OTHER_M0: &str =
    "module M0 begin exports begin sorts A end sorts K functions k : -> K end M0 ";

fn texts<'t>(library: &'t str, customer: &'t str) -> Texts<'t> {
    Texts {
        library: library.as_bytes(),
        customer: customer.as_bytes(),
    }
}

/// M2 asked of M0 in the library and the others behind it, and then of this text alone.
fn from_first(text: &str) -> Decision {
    let first = [M1, M2].concat();
    decide(b"M2", texts(M0, &first), texts("", text))
}

fn between(old: &str, new: &str) -> Decision {
    decide(b"M2", texts("", old), texts("", new))
}

fn ask_again(reason: u32, by: &str, name: &str) -> Decision {
    let [by, name] = [by, name].map(|name| name.as_bytes().to_vec());
    Decision::AskAgain { reason, by, name }
}

fn not_read(in_new: bool, in_library: bool, number: u32, at: usize) -> Decision {
    let refused = Answer {
        number,
        at,
        in_library,
        ..Answer::default()
    };
    Decision::NotRead { in_new, refused }
}

#[test]
fn changed_modules_are_asked() {
    let unreached = "module M9 begin imports M8 end M9 ";
    let second = [unreached, OTHER_M0, M1, M2].concat();
    assert_eq!(from_first(&second), Decision::KeepAfter(vec![1]));
    assert_eq!(module_name(texts("", &second), 1), b"M0");
    let other_m1 = "module M1 begin imports M0 variables x : -> A equations [e] x = x end M1 ";
    let third = [OTHER_M0, other_m1, M2].concat();
    assert_eq!(from_first(&third), Decision::KeepAfter(vec![0, 1]));
    assert_eq!(between(&second, &third), Decision::KeepAfter(vec![1]));
    assert_eq!(between(&second, &second), Decision::KeepAfter(vec![]));
}

#[test]
fn the_reasons() {
    let says = |modules: [&str; 3]| from_first(&modules.concat());
    assert_eq!(from_first(M0), ask_again(2, "M2", ""));
    let newly = decide(b"M1", texts("", M0), texts(M0, M1));
    assert_eq!(newly, ask_again(1, "M1", ""));
    assert_eq!(says([M1, M0, M2]), ask_again(3, "M0", "M1"));
    let other_m2 = "module M2 begin imports M1 { renamed by [ A -> C ] } sorts C end M2";
    let exporting = "module M0 begin exports begin sorts A, B end sorts H end M0 ";
    assert_eq!(says([exporting, M1, other_m2]), ask_again(4, "M2", ""));
    let parameterised = "module M1 begin parameters P begin sorts A end P imports M0 end M1 ";
    assert_eq!(says([M0, parameterised, M2]), ask_again(5, "M1", ""));
    assert_eq!(says([exporting, M1, M2]), ask_again(6, "M0", ""));
    let twice = "module M1 begin imports M0, M0 functions f : A -> A end M1 ";
    assert_eq!(says([M0, twice, M2]), ask_again(7, "M1", ""));
}

/// The first module in text order is told, and of one module the least of 5 to 7.
#[test]
fn which_of_several() {
    let exporting = "module M0 begin exports begin sorts A, B end sorts H end M0 ";
    let parameterised = "module M1 begin parameters P begin end P imports M0 end M1 ";
    let both = from_first(&[exporting, parameterised, M2].concat());
    assert_eq!(both, ask_again(6, "M0", ""));
    let all = "module M0 begin parameters P begin end P exports begin sorts B end end M0 ";
    let all = from_first(&[all, M1, M2].concat());
    assert_eq!(all, ask_again(5, "M0", ""));
}

#[test]
fn names_missing_late_and_earlier() {
    let missing = "module M2 begin imports M1 end M2";
    let late = "module M2 begin imports M1 end M2 module M1 begin end M1";
    assert_eq!(between(missing, late), ask_again(8, "M2", "M1"));
    assert_eq!(between(late, missing), ask_again(8, "M2", "M1"));
    let earlier = decide(
        b"M2",
        texts("", late),
        texts("module M1 begin end M1", missing),
    );
    assert_eq!(earlier, ask_again(3, "M2", "M1"));
}

/// The old one is looked at first.
#[test]
fn unread_specifications() {
    let missing = "module M2 begin imports M1 end M2";
    let old = decide(b"M2", texts("modul", missing), texts("", "."));
    assert_eq!(old, not_read(false, true, 2, 0));
    assert_eq!(between(missing, " ."), not_read(true, false, 1, 1));
    assert_eq!(module_name(texts("", " ."), 0), Name::new());
    assert_eq!(module_name(texts(M0, M1), 2), Name::new());
}

/// A name over 40 bytes is told as a blank.
#[test]
fn long_asked_names() {
    let asked = |length: usize| decide(&vec![b'n'; length], texts("", M0), texts("", M0));
    assert_eq!(asked(40), ask_again(1, &"n".repeat(40), ""));
    assert_eq!(asked(41), ask_again(1, "", ""));
}

/// Layout, comments, brackets that a term does not need and an empty section are no change; how variables are declared together, and on which
/// side of its equation a condition stands, is one.
#[test]
fn what_is_a_change() {
    let with = |exports: &str, variables: &str, equation: &str| {
        format!(
            "module M2 begin {exports} sorts A variables {variables} equations [e] {equation} end M2"
        )
    };
    let old = with("", "x, y : -> A", "x = y when y = y");
    let kept = [
        with("exports begin end", "x, y : -> A", "x = y when y = y"),
        with("", "x,y:->A", "x = y -- so --\nwhen y = y"),
        with("", "x, y : -> A", "(x) = y when y = ((y))"),
    ];
    for new in kept {
        assert_eq!(between(&old, &new), Decision::KeepAfter(vec![]), "{new}");
    }
    let changed = [
        with("", "x : -> A y : -> A", "x = y when y = y"),
        with("", "x, y : -> A", "y = y ==> x = y"),
        with("", "y, x : -> A", "x = y when y = y"),
    ];
    for new in changed {
        assert_eq!(between(&old, &new), ask_again(4, "M2", ""), "{new}");
    }
}
