//! Changes to a drafted specification, each aimed at one of the numbers of documents 01 and 02. A change is made in some
//! module that the asked one may reach; it does not always hit, since another refusal may come first.

use crate::draft::{self, alone};
use crate::generic::Generic;
use crate::mistakes;
use crate::names;
use crate::random::{insert, Random};
use crate::view::{view, View};
use reference::syntax::*;

/// The numbers that a change of the tree is aimed at, in the order of the checks; 1 to 4 and 6, 18, 19 are reached in other
/// ways.
pub const NUMBERS: [u32; 17] = [
    5, 7, 8, 9, 10, 11, 12, 13, 14, 15, 22, 23, 24, 25, 26, 27, 17,
];

/// A number for a second change: mostly the same one or a neighbour, so that the order among culprits decides.
pub fn near(number: u32, random: &mut Random) -> u32 {
    let place = NUMBERS.iter().position(|&other| other == number);
    let place = place.unwrap_or(0);
    match random.below(8) {
        0..=2 => number,
        3 => NUMBERS[(place + 1).min(NUMBERS.len() - 1)],
        4 => NUMBERS[place.saturating_sub(1)],
        _ => NUMBERS[random.below(NUMBERS.len())],
    }
}

/// Changes a specification so that it is likely to be refused with the number, mostly in its last module.
pub fn aim(number: u32, specification: &mut Specification, random: &mut Random) {
    let last = specification.modules.len() - 1;
    let index = if random.chance(70) {
        last
    } else {
        random.below(last + 1)
    };
    aim_at(number, specification, index, random);
}

/// The same in a module of one's choice.
pub fn aim_at(number: u32, specification: &mut Specification, index: usize, random: &mut Random) {
    match number {
        5 => module_twice(specification, random),
        7 => module_absent(specification, index, random),
        8 => module_late(specification, index, random),
        9 => declared_twice(&mut specification.modules[index], random),
        10 => clash(specification, index, random),
        11 => overloading(specification, index, random),
        12 => variable(specification, index, random),
        13 => {
            for _ in 0..random.between(1, 2) {
                unavailable(&mut specification.modules[index], random);
            }
        }
        14 => renaming(specification, index, random),
        15 => parameter(specification, index, random),
        22..=27 => mistakes::aim(number, specification, index, random),
        _ => ill_typed(specification, index, random),
    }
}

pub fn name(text: &str) -> Name {
    text.as_bytes().to_vec()
}

fn function(called: &str, inputs: &[&str], output: &str) -> FunctionDeclaration {
    FunctionDeclaration {
        name: name(called),
        inputs: inputs.iter().map(|input| name(input)).collect(),
        output: name(output),
    }
}

pub fn import(module: &Name, clauses: Vec<Clause>) -> Expression {
    Expression {
        module: module.clone(),
        clauses,
    }
}

/// One to four of the elements, none twice: the least of them is then told.
fn several<T: Clone + PartialEq>(elements: &[T], random: &mut Random) -> Vec<T> {
    let mut chosen = Vec::new();
    for _ in 0..random.between(1, 4) {
        if let Some(element) = random.pick(elements) {
            if !chosen.contains(element) {
                chosen.push(element.clone());
            }
        }
    }
    chosen
}

pub fn pair(old: &Name, new: &Name) -> Pair {
    Pair {
        old: old.clone(),
        new: new.clone(),
    }
}

fn module_twice(specification: &mut Specification, random: &mut Random) {
    let Some(twin) = random.pick(&specification.modules).cloned() else {
        return;
    };
    insert(&mut specification.modules, twin, random);
}

/// Puts a module's name into an import or a binding of the module.
fn named(module: &mut Module, wanted: &Name, random: &mut Random) {
    let mut places: Vec<&mut Name> = Vec::new();
    for expression in &mut module.imports {
        places.push(&mut expression.module);
        for clause in &mut expression.clauses {
            if let Clause::Binding(binding) = clause {
                places.push(&mut binding.actual);
            }
        }
    }
    let chosen = random.below(places.len());
    match places.into_iter().nth(chosen) {
        Some(place) if random.chance(60) => *place = wanted.clone(),
        _ => insert(&mut module.imports, import(wanted, Vec::new()), random),
    }
}

fn module_absent(specification: &mut Specification, index: usize, random: &mut Random) {
    let absent = names::fresh(random);
    named(&mut specification.modules[index], &absent, random);
}

/// A module not declared earlier: itself, one of the later ones, or a new one that names an earlier module, which is
/// not reached by that way.
fn module_late(specification: &mut Specification, index: usize, random: &mut Random) {
    if random.chance(40) {
        let earlier = specification.modules[random.below(index + 1)].name.clone();
        let mut late = Module {
            name: name("Late'"),
            ..Module::default()
        };
        late.imports.push(import(&earlier, Vec::new()));
        specification.modules.insert(index + 1, late);
        return named(&mut specification.modules[index], &name("Late'"), random);
    }
    let late = random.between(index, specification.modules.len() - 1);
    let late = specification.modules[late].name.clone();
    named(&mut specification.modules[index], &late, random);
}

/// One signature of a module, with a name where it is a parameter's.
fn signature<'m>(module: &'m mut Module, random: &mut Random) -> &'m mut Signature {
    let count = module.parameters.len();
    match random.below(count + 2) {
        0 => &mut module.exports,
        1 => &mut module.hidden,
        other => &mut module.parameters[other - 2].signature,
    }
}

fn declared_twice(module: &mut Module, random: &mut Random) {
    if random.chance(35) {
        if let Some(mut twin) = random.pick(&module.parameters).cloned() {
            if random.chance(40) {
                twin.signature.sorts.extend([name("Twin"), name("Twin")]);
            }
            insert(&mut module.parameters, twin, random);
            return;
        }
    }
    let signature = signature(module, random);
    if let (Some(twin), true) = (
        random.pick(&signature.functions).cloned(),
        random.chance(50),
    ) {
        insert(&mut signature.functions, twin, random);
        return;
    }
    let twin = match random.pick(&signature.sorts) {
        Some(sort) => sort.clone(),
        None => name("Twin"),
    };
    insert(&mut signature.sorts, twin.clone(), random);
    insert(&mut signature.sorts, twin, random);
}

fn shown(specification: &Specification, index: usize) -> View {
    view(specification, &specification.modules[index].name).unwrap_or_default()
}

/// Visible names declared again elsewhere, two modules with the same names, or two names made one.
fn clash(specification: &mut Specification, index: usize, random: &mut Random) {
    let shown = shown(specification, index);
    let module = &mut specification.modules[index];
    match random.below(8) {
        0..=1 => {
            let mut sorts = several(&shown.sorts, random);
            if sorts.is_empty() {
                sorts.push(name("A"));
            }
            for sort in sorts {
                insert(&mut signature(module, random).sorts, sort, random);
            }
            if random.chance(30) {
                let twins = ["A'", "z", "*_"].map(|called| function(called, &["Own"], "Own"));
                module.exports.sorts.push(name("Own"));
                module.exports.functions.extend(twins.clone());
                module.hidden.functions.extend(twins);
            }
        }
        2..=3 => {
            for twin in several(&shown.functions, random) {
                insert(&mut signature(module, random).functions, twin, random);
            }
        }
        4..=5 => two_exporters(specification, index, random),
        6 => hidden_parameter(module, random),
        _ => made_one(specification, index, random),
    }
}

/// A parameter called `hidden` with a sort that the hidden section has too.
fn hidden_parameter(module: &mut Module, random: &mut Random) {
    let sort = match module.hidden.sorts.first() {
        Some(sort) => sort.clone(),
        None => names::sort(random),
    };
    if module.hidden.sorts.is_empty() && random.chance(80) {
        module.hidden.sorts.push(sort.clone());
    }
    module.parameters.push(Parameter {
        name: name("hidden"),
        signature: Signature {
            sorts: vec![sort],
            functions: Vec::new(),
        },
    });
}

/// Two new modules before the one at the index, which imports both.
fn two_exporters(specification: &mut Specification, index: usize, random: &mut Random) {
    let mut same = vec![name("Same")];
    if random.chance(70) {
        same.extend(several(&["Alike", "Equal"].map(name), random));
    }
    let mut exporters = Vec::new();
    for called in ["One'", "Other'"] {
        let mut module = Module {
            name: name(called),
            ..Module::default()
        };
        module.exports.sorts.push(names::sort(random));
        for sort in &same {
            insert(&mut module.exports.sorts, sort.clone(), random);
        }
        module
            .exports
            .functions
            .push(function("a", &["Same"], "Same"));
        exporters.push(module);
    }
    let importer = &mut specification.modules[index];
    importer.imports.truncate(14);
    for exporter in &exporters {
        insert(
            &mut importer.imports,
            import(&exporter.name, Vec::new()),
            random,
        );
    }
    specification.modules.splice(index..index, exporters);
}

/// Two visible names of an imported module renamed to one.
fn made_one(specification: &mut Specification, index: usize, random: &mut Random) {
    let earlier = random.below(index);
    let earlier_name = specification.modules[earlier].name.clone();
    if earlier >= index {
        return;
    }
    let seen = shown(specification, earlier);
    let mut old: Vec<Name> = seen.sorts.clone();
    old.extend(seen.functions.iter().map(|function| function.name.clone()));
    let (Some(one), Some(other)) = (random.pick(&old), random.pick(&old)) else {
        return;
    };
    let new = names::function(random);
    let clause = Clause::Renaming(vec![pair(one, &new), pair(other, &new)]);
    let module = &mut specification.modules[index];
    insert(
        &mut module.imports,
        import(&earlier_name, vec![clause]),
        random,
    );
}

/// Functions that differ from others in their output alone, or stand twice in a parameter.
fn overloading(specification: &mut Specification, index: usize, random: &mut Random) {
    let seen = shown(specification, index);
    let module = &mut specification.modules[index];
    if random.chance(25) {
        let mut twins = Signature::default();
        for called in several(&["p", "q", "r"], random) {
            twins.functions.push(function(called, &["T1"], "T1"));
            twins.functions.push(function(called, &["T1", "T1"], "T1"));
        }
        if random.chance(50) {
            twins.functions.push(function("-_", &["T1"], "T1"));
            twins.functions.push(function("_-_", &["T1", "T1"], "T1"));
        }
        twins.sorts.push(name("T1"));
        module.parameters.push(Parameter {
            name: name("Twins"),
            signature: twins,
        });
        return;
    }
    if random.chance(25) {
        return made_one(specification, index, random);
    }
    let new_sort = name("Else");
    let mut functions = seen.functions.clone();
    functions.extend(module.hidden.functions.iter().cloned());
    for mut twin in several(&functions, random) {
        twin.output = new_sort.clone();
        insert(&mut signature(module, random).functions, twin, random);
    }
    insert(&mut module.exports.sorts, new_sort, random);
}

fn variable(specification: &mut Specification, index: usize, random: &mut Random) {
    let seen = shown(specification, index);
    let module = &mut specification.modules[index];
    let mut sorts = seen.sorts.clone();
    sorts.extend(module.hidden.sorts.iter().cloned());
    let Some(sort) = random.pick(&sorts).cloned() else {
        return;
    };
    let mut taken: Vec<Name> = seen
        .functions
        .iter()
        .chain(&module.hidden.functions)
        .filter(|function| function.inputs.is_empty())
        .map(|function| function.name.clone())
        .collect();
    taken.extend(
        module
            .variables
            .iter()
            .map(|variable| variable.name.clone()),
    );
    let called = random.pick(&taken).cloned();
    let called = called.unwrap_or_else(|| name("twice"));
    for _ in 0..random.between(1, 2) {
        let twin = VariableDeclaration {
            name: called.clone(),
            sort: sort.clone(),
        };
        insert(&mut module.variables, twin, random);
    }
}

/// A type with a sort that is nowhere, or hidden where it must be visible, or hidden in an imported module.
fn unavailable(module: &mut Module, random: &mut Random) {
    if random.chance(40) {
        module.hidden.sorts.push(names::fresh(random));
    }
    let hidden = random.pick(&module.hidden.sorts).cloned();
    let wrong = match hidden {
        Some(hidden) if random.chance(50) => hidden,
        _ if random.chance(30) => names::sort(random),
        _ => name("Nowhere"),
    };
    if random.chance(30) {
        let variable = VariableDeclaration {
            name: names::fresh(random),
            sort: wrong,
        };
        insert(&mut module.variables, variable, random);
        return;
    }
    let mut declared = FunctionDeclaration {
        name: names::fresh(random),
        inputs: Vec::new(),
        output: wrong.clone(),
    };
    if random.chance(50) {
        declared.inputs.push(wrong);
    }
    if declared.inputs.len() == 1 && random.chance(50) {
        declared.name = names::operator_name(1, random);
    }
    insert(&mut signature(module, random).functions, declared, random);
}

/// Puts a wrong pair into a renaming; makes one where there is none.
fn renaming(specification: &mut Specification, index: usize, random: &mut Random) {
    let misfit = misfit(specification, index, random);
    let module = &mut specification.modules[index];
    let wrong = misfit.unwrap_or(Pair {
        old: names::sort(random),
        new: names::fresh(random),
    });
    for expression in &mut module.imports {
        for clause in &mut expression.clauses {
            if let Clause::Renaming(pairs) = clause {
                let twin = random.pick(pairs).cloned();
                let wrong = if random.chance(50) { twin } else { None }.unwrap_or(wrong);
                insert(pairs, wrong, random);
                return;
            }
        }
    }
    if let Some(expression) = module.imports.first_mut() {
        let clause = Clause::Renaming(vec![wrong]);
        let place = if random.chance(50) {
            0
        } else {
            expression.clauses.len()
        };
        expression.clauses.insert(place, clause);
    } else if index > 0 {
        let earlier = specification.modules[random.below(index)].name.clone();
        let clause = Clause::Renaming(vec![wrong]);
        specification.modules[index]
            .imports
            .push(import(&earlier, vec![clause]));
    }
}

/// A pair that makes an operator of a sort, or of a function that mostly has another number of arguments.
fn misfit(specification: &Specification, index: usize, random: &mut Random) -> Option<Pair> {
    let imported = &specification.modules[index].imports.first()?.module;
    let seen = view(specification, imported)?;
    let count = random.between(1, 2);
    let new = names::operator_name(count, random);
    let function = random.pick(&seen.functions);
    match random.below(6) {
        0 => Some(pair(random.pick(&seen.sorts)?, &new)),
        1..=3 => Some(pair(&function?.name, &new)),
        _ => None,
    }
}

/// A parameter that is not there, is bound twice, or arrives twice.
fn parameter(specification: &mut Specification, index: usize, random: &mut Random) {
    let mut generic = Generic::new(random);
    let index = generic.place(specification, index);
    let parted = parted(specification, random);
    let module = &mut specification.modules[index];
    let bound = Clause::Binding(generic.binding.clone());
    let imported = name("Generic'");
    match random.below(7) {
        0 => {
            generic.binding.parameter = names::parameter(random);
            let clause = Clause::Binding(generic.binding);
            module.imports.push(import(&imported, vec![clause]));
        }
        1 => {
            let clauses = vec![bound.clone(), bound];
            module.imports.push(import(&imported, clauses));
        }
        2..=4 => {
            insert(&mut module.imports, import(&imported, Vec::new()), random);
            insert(&mut module.imports, import(&imported, parted), random);
        }
        5 => {
            insert(&mut module.imports, import(&imported, Vec::new()), random);
            for called in several(&["P", "Q", "R"], random) {
                module.parameters.push(Parameter {
                    name: name(called),
                    signature: Signature::default(),
                });
            }
        }
        _ => {
            module.imports.push(import(&imported, vec![bound]));
            insert(&mut module.imports, import(&imported, Vec::new()), random);
        }
    }
}

/// Renames something of some parameters, which are then other ones than by a way without it; now and then nothing.
fn parted(specification: &Specification, random: &mut Random) -> Vec<Clause> {
    let seen = view(specification, &name("Generic'")).unwrap_or_default();
    let mut pairs = Vec::new();
    for parameter in &seen.parameters {
        let sort = random.pick(&parameter.signature.sorts);
        if let (Some(sort), true) = (sort, random.chance(60)) {
            pairs.push(pair(sort, &names::fresh(random)));
        }
    }
    match pairs.is_empty() {
        true => Vec::new(),
        false => vec![Clause::Renaming(pairs)],
    }
}

/// An equation with a term changed somewhere inside.
fn ill_typed(specification: &mut Specification, index: usize, random: &mut Random) {
    let seen = shown(specification, index);
    let module = &mut specification.modules[index];
    if module.equations.is_empty() {
        draft::write_equations(module, &seen, random);
    }
    let constants = module
        .variables
        .iter()
        .map(|variable| variable.name.clone())
        .chain(seen.functions.iter().map(|function| function.name.clone()));
    let other: Vec<Name> = constants.chain([name("unknown")]).collect();
    let wrong = random.pick(&other).cloned().unwrap_or_default();
    let chosen = random.below(module.equations.len());
    let Some(equation) = module.equations.get_mut(chosen) else {
        let sides = Sides {
            left: alone(&wrong),
            right: alone(&wrong),
        };
        module.equations.push(EquationText {
            tag: name("bad"),
            conditions: Vec::new(),
            conclusion: sides,
            when: false,
        });
        return;
    };
    let sides = match random.below(equation.conditions.len() + 1) {
        0 => &mut equation.conclusion,
        other => &mut equation.conditions[other - 1],
    };
    let side = if random.chance(50) {
        &mut sides.left
    } else {
        &mut sides.right
    };
    *subterm(side, random) = alone(&wrong);
}

fn subterm<'t>(term: &'t mut TermText, random: &mut Random) -> &'t mut TermText {
    let count = term.arguments.len();
    match random.below(count + 1) {
        0 => term,
        other => subterm(&mut term.arguments[other - 1], random),
    }
}
