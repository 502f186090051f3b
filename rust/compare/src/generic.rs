//! A parameterised module, a module to bind it to and a common ground of both, in many variations: some bind well,
//! some clash, some have a sort of the ground under another name or another sort under its name.

use crate::random::{one, Random};
use reference::syntax::*;

/// The three modules as text, and a binding of the first that is right for most of them.
pub struct Generic {
    modules: Vec<Module>,
    pub binding: Binding,
}

/// What parameters stand behind P.
const BEHIND_P: [&str; 4] = [
    "",
    ", Q begin sorts Z end Q",
    ", Q begin end Q",
    ", Q begin end Q, R begin end R",
];

impl Generic {
    pub fn new(random: &mut Random) -> Generic {
        let on_ground = random.chance(40);
        let extra = random.chance(40);
        let text = [
            "module Ground' begin exports begin sorts G functions z: -> G end end Ground'",
            &generic(on_ground, extra, random),
            &actual(on_ground, random),
        ]
        .join("\n");
        let read = reference::read(text.as_bytes());
        let specification = read.unwrap_or_else(|offence| panic!("{offence:?} in {text}"));
        Generic {
            modules: specification.modules,
            binding: binding(on_ground, extra, random),
        }
    }

    /// Puts the modules before the one at the index, unless they are there, and gives its new index.
    pub fn place(&self, specification: &mut Specification, index: usize) -> usize {
        let there = specification.index(b"Generic'");
        if there.is_some_and(|there| there < index) {
            return index;
        }
        if there.is_none() {
            let modules = self.modules.iter().cloned();
            specification.modules.splice(index..index, modules);
        }
        let index = specification.modules.len() - 1;
        specification.modules[index].imports.truncate(12);
        index
    }
}

fn generic(on_ground: bool, extra: bool, random: &mut Random) -> String {
    let sorts_of_p = one(&["X, Y", "Y, X"], random);
    let extra = if extra { "A0: X -> Y" } else { "" };
    let ground = if on_ground { "q: X -> G" } else { "" };
    let second = one(&BEHIND_P, random);
    let sorts = one(&["", "", "sorts Out", "sorts D", "sorts m"], random);
    let overloaded = one(
        &["", "o: X -> X o: Y -> Y", "m: X -> Y", "o: -> Y o: X -> Y"],
        random,
    );
    let imports = match on_ground {
        true => one(
            &["imports Ground'", "imports Ground' { renamed by [G -> G] }"],
            random,
        ),
        false => one(&["", "imports Ground' { renamed by [G -> G'] }"], random),
    };
    let hidden = one(&["", "sorts H", "sorts H, D"], random);
    let hidden_functions = one(
        &["h: Y -> X", "h: Y -> X m: X -> Y", "h: Y -> X h: X -> X"],
        random,
    );
    let equations = one(
        &[
            "[e] k(x) = k(h(k(x))) [e] k(x, k(X)) = x",
            "[e] k(x) = k(X) when x = X, k(x) = k(x)",
            "[e] x = X ==> k(x, k(x)) = h(k(x)) [d] k(X, k(x)) = x",
        ],
        random,
    );
    format!(
        "module Generic' begin parameters P begin sorts {sorts_of_p} functions k: X -> Y {extra} X: -> X {ground} end P {second} \
         exports begin {sorts} functions k: X#Y -> X {overloaded} end {imports} \
         {hidden} functions {hidden_functions} variables x: -> X equations {equations} end Generic'"
    )
}

fn actual(on_ground: bool, random: &mut Random) -> String {
    let parameters = one(
        &[
            "",
            "",
            "",
            "parameters Q begin end Q",
            "parameters P begin sorts F functions p: F -> D end P",
            "parameters hidden begin sorts H end hidden",
        ],
        random,
    );
    let (sorts, imports, ground) = match random.below(4) {
        0 => (", G", "", "q': D -> G q: D -> G"),
        1 => (
            "",
            "imports Ground' { renamed by [G -> G'] }",
            "q': D -> G' q: D -> G'",
        ),
        _ if on_ground => ("", "imports Ground'", "q': D -> G q: D -> G"),
        _ => ("", "", ""),
    };
    let more = one(
        &[
            "",
            "m: E -> E",
            "m: D#D -> E",
            "o: D -> E",
            "E: -> D",
            "E: D -> E",
        ],
        random,
    );
    let hidden = one(
        &["", "sorts K functions g: K -> D", "functions h: E -> D"],
        random,
    );
    format!(
        "module Actual' begin {parameters} exports begin sorts D, E {sorts} \
         functions m: D -> E d: -> D D: -> D n: E -> E {ground} {more} end {imports} {hidden} \
         variables x: -> D equations [e] n(m(x)) = m(D) end Actual'"
    )
}

fn binding(on_ground: bool, extra: bool, random: &mut Random) -> Binding {
    let pair = |old: &str, new: &str| Pair {
        old: old.as_bytes().to_vec(),
        new: new.as_bytes().to_vec(),
    };
    let mut pairs = vec![pair("X", "D"), pair("Y", "E"), pair("k", "m")];
    if random.chance(15) {
        pairs = vec![pair("X", "D"), pair("Y", "D"), pair("k", "m")];
    }
    if extra {
        pairs.push(pair("A0", "m"));
    }
    if on_ground {
        pairs.push(pair("q", one(&["q", "q'"], random)));
    }
    let place = random.below(pairs.len());
    pairs.swap(0, place);
    Binding {
        parameter: b"P".to_vec(),
        pairs,
        actual: b"Actual'".to_vec(),
    }
}
