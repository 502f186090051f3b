//! One module that arrives by many ways under few names: items and equations of one origin split by renamings and
//! become one again, or clash.

use crate::random::{one, Random};
use crate::view::view;
use reference::syntax::*;

const SORTS: [&str; 3] = ["S", "T", "U"];
const FUNCTIONS: [&str; 6] = ["f", "g", "c", "S", "-_", "_+_"];

const PARAMETERS: [&str; 4] = [
    "",
    "",
    "parameters P begin sorts X functions p: X -> S end P",
    "parameters P begin sorts U functions f: U -> U end P",
];

/// A base and some modules over it; one that is refused is kept now and then.
pub fn specification(random: &mut Random) -> Specification {
    let text = base(random);
    let read = reference::read(text.as_bytes());
    let mut specification = read.unwrap_or_else(|offence| panic!("{offence:?} in {text}"));
    for index in 0..random.between(1, 5) {
        for _ in 0..5 {
            let module = over(&specification, index, random);
            let name = module.name.clone();
            specification.modules.push(module);
            if view(&specification, &name).is_some() || random.chance(10) {
                break;
            }
            specification.modules.pop();
        }
    }
    specification
}

fn base(random: &mut Random) -> String {
    let parameters = one(&PARAMETERS, random);
    let sorts = one(&["S", "S, T", "T, S"], random);
    let functions = one(
        &[
            "f: S -> S",
            "f: S -> S g: S -> S",
            "f: S -> S c: -> S",
            "f: S -> S f: S#S -> S",
            "f: S -> S S: -> S",
            "f: S -> S -_: S -> S",
            "f: S -> S _+_: S#S -> S",
        ],
        random,
    );
    let hidden = one(
        &["h: S -> S", "h: S -> S k: H -> S", "h: S -> S f: H -> H"],
        random,
    );
    let variables = one(&["x: -> S", "x, y: -> S", "x: -> S w: -> H"], random);
    let equations = one(
        &[
            "[e] h(x) = f(x)",
            "[e] f(x) = x [e] f(x) = x",
            "[e] f(x) = x when h(x) = x [d] h(f(x)) = f(h(x))",
            "[e] x = h(x), x = x ==> f(x) = x",
            "[e] ~ x = f(x) [d] x * x * (~ x) = h(x)",
        ],
        random,
    );
    format!(
        "module Base begin {parameters} exports begin sorts {sorts} functions {functions} end \
         sorts H functions {hidden} ~_: S -> S _*_: S#S -> S variables {variables} equations {equations} end Base"
    )
}

/// A module with nothing but imports, and now and then an equation or a declaration of its own.
fn over(specification: &Specification, index: usize, random: &mut Random) -> Module {
    let mut module = Module {
        name: format!("N{index}").into_bytes(),
        ..Module::default()
    };
    for _ in 0..random.between(1, 3) {
        module.imports.extend(expression(specification, random));
    }
    if random.chance(15) {
        let sort = one(&SORTS, random).as_bytes().to_vec();
        match random.below(3) {
            0 => module.exports.sorts.push(sort),
            1 => module.hidden.sorts.push(sort),
            _ => module.variables.push(VariableDeclaration {
                name: b"x".to_vec(),
                sort,
            }),
        }
    }
    module
}

fn expression(specification: &Specification, random: &mut Random) -> Option<Expression> {
    let imported = random.pick(&specification.modules)?;
    let shown = view(specification, &imported.name)?;
    let mut clauses = Vec::new();
    for parameter in &shown.parameters {
        if random.chance(50) {
            let binding = crate::draft::binding(specification, parameter, random);
            clauses.extend(binding.map(Clause::Binding));
        }
    }
    let mut pairs: Vec<Pair> = Vec::new();
    for sort in &shown.sorts {
        if random.chance(35) {
            pairs.push(pair(sort, one(&SORTS, random)));
        }
    }
    for function in &shown.functions {
        let paired = pairs.iter().any(|pair| pair.old == function.name);
        if !paired && random.chance(25) {
            pairs.push(pair(&function.name, one(&FUNCTIONS, random)));
        }
    }
    if !pairs.is_empty() {
        let place = if random.chance(80) { clauses.len() } else { 0 };
        clauses.insert(place, Clause::Renaming(pairs));
    }
    Some(Expression {
        module: imported.name.clone(),
        clauses,
    })
}

fn pair(old: &Name, new: &str) -> Pair {
    Pair {
        old: old.clone(),
        new: new.as_bytes().to_vec(),
    }
}
