//! Edits of a specification, such as people make from edition to edition: of what a module hides, exports, takes and imports, of the order of
//! modules, of which there are, and of their size.

use crate::aims::{self, import};
use crate::draft::write_equations;
use crate::names;
use crate::random::{insert, shuffle, Random};
use crate::view::{view, View};
use reference::syntax::*;

/// The numbers that a change of what a module hides is aimed at.
const INSIDE: [u32; 2] = [12, 17];

/// Mostly in one of the earlier modules, which others stand on.
pub fn edit(specification: &mut Specification, random: &mut Random) {
    let count = specification.modules.len();
    let index = random.below(count).min(random.below(count));
    match random.below(50) {
        0..=15 => hidden(specification, index, random),
        16..=19 => exports(&mut specification.modules[index].exports, random),
        20 | 21 => parameters(&mut specification.modules[index].parameters, random),
        22..=27 => imports(specification, index, random),
        28..=30 => order(specification, index, random),
        31..=34 => added(specification, random),
        35 | 36 => removed(specification, index),
        37 => called_otherwise(specification, index, random),
        38..=40 => grow(&mut specification.modules[index], random.between(20, 1_100)),
        41..=43 => shrink(&mut specification.modules[index]),
        44 | 45 => go_wrong_inside(specification, index, random),
        _ => {
            let number = aims::NUMBERS[random.below(aims::NUMBERS.len())];
            aims::aim_at(number, specification, index, random);
        }
    }
}

/// Makes a module wrong by what it hides; what it shows stays.
pub fn go_wrong_inside(specification: &mut Specification, index: usize, random: &mut Random) {
    let seen = shown(specification, index);
    match random.pick(&seen.sorts) {
        Some(sort) if random.chance(70) => {
            let sort = sort.clone();
            specification.modules[index].hidden.sorts.push(sort);
        }
        _ => {
            let number = INSIDE[random.below(INSIDE.len())];
            aims::aim_at(number, specification, index, random);
        }
    }
}

/// So many hidden sorts more; with over 1,024 a normal form is too large, with fewer a listing may be too long.
pub fn grow(module: &mut Module, count: usize) {
    let there = module.hidden.sorts.len();
    let sorts = (there..there + count).map(|number| format!("grown{number}").into_bytes());
    module.hidden.sorts.extend(sorts);
}

fn shrink(module: &mut Module) {
    let grown = |sort: &Name| sort.starts_with(b"grown");
    module.hidden.sorts.retain(|sort| !grown(sort));
}

fn shown(specification: &Specification, index: usize) -> View {
    let name = &specification.modules[index].name;
    view(specification, name).unwrap_or_default()
}

fn hidden(specification: &mut Specification, index: usize, random: &mut Random) {
    let seen = shown(specification, index);
    let module = &mut specification.modules[index];
    match random.below(10) {
        0 => module.hidden.sorts.push(names::fresh(random)),
        1 => module.hidden.sorts.push(names::sort(random)),
        2 => module
            .hidden
            .functions
            .extend(function(&seen.sorts, random)),
        3 => take_out(&mut module.hidden.sorts, random),
        4 => take_out(&mut module.hidden.functions, random),
        5 => {
            let sort = random.pick(&seen.sorts).cloned();
            let name = names::fresh(random);
            module
                .variables
                .extend(sort.map(|sort| VariableDeclaration { name, sort }));
        }
        6 => take_out(&mut module.variables, random),
        7 => take_out(&mut module.equations, random),
        _ => write_equations(module, &seen, random),
    }
}

fn take_out<T>(elements: &mut Vec<T>, random: &mut Random) {
    if !elements.is_empty() {
        elements.remove(random.below(elements.len()));
    }
}

/// A function over the sorts that there are, mostly under a new name.
fn function(sorts: &[Name], random: &mut Random) -> Option<FunctionDeclaration> {
    let mut inputs = Vec::new();
    for _ in 0..random.below(3) {
        inputs.extend(random.pick(sorts).cloned());
    }
    let name = match random.below(4) {
        0 => names::function(random),
        _ => names::fresh(random),
    };
    let output = random.pick(sorts)?.clone();
    Some(FunctionDeclaration {
        name,
        inputs,
        output,
    })
}

fn exports(exports: &mut Signature, random: &mut Random) {
    match random.below(6) {
        0 => exports.sorts.push(names::fresh(random)),
        1 => take_out(&mut exports.sorts, random),
        2 => take_out(&mut exports.functions, random),
        3 => shuffle(&mut exports.functions, random),
        4 => shuffle(&mut exports.sorts, random),
        _ => {
            let function = function(&exports.sorts, random);
            exports.functions.extend(function);
        }
    }
}

fn parameters(parameters: &mut Vec<Parameter>, random: &mut Random) {
    match random.below(3) {
        0 => take_out(parameters, random),
        more => {
            let mut parameter = Parameter {
                name: names::fresh(random),
                signature: Signature::default(),
            };
            if more == 1 {
                parameter.signature.sorts.push(names::fresh(random));
            }
            insert(parameters, parameter, random);
        }
    }
}

fn imports(specification: &mut Specification, index: usize, random: &mut Random) {
    let other = random.below(specification.modules.len());
    let other = specification.modules[other].name.clone();
    let imports = &mut specification.modules[index].imports;
    let chosen = random.below(imports.len());
    match random.below(6) {
        0 => take_out(imports, random),
        1 => shuffle(imports, random),
        2 => imports.extend(imports.get(chosen).cloned()),
        3 => {
            if let Some(expression) = imports.get_mut(chosen) {
                take_out(&mut expression.clauses, random);
            }
        }
        4 => drop(name_in_vain(&mut specification.modules[index], random)),
        _ => insert(imports, import(&other, Vec::new()), random),
    }
}

fn order(specification: &mut Specification, index: usize, random: &mut Random) {
    let module = specification.modules.remove(index);
    insert(&mut specification.modules, module, random);
}

/// A module that nobody names, or one that was named in vain; now and then it imports another.
fn added(specification: &mut Specification, random: &mut Random) {
    let name = match random.pick(&in_vain(specification)) {
        Some(name) if random.chance(70) => name.clone(),
        _ => names::fresh(random),
    };
    let mut module = Module {
        name,
        ..Module::default()
    };
    module.exports.sorts.push(names::fresh(random));
    if random.chance(30) {
        let other = random.below(specification.modules.len());
        let other = &specification.modules[other].name;
        module.imports.push(import(other, Vec::new()));
    }
    insert(&mut specification.modules, module, random);
}

/// A module names one that is not there.
pub fn name_in_vain(module: &mut Module, random: &mut Random) -> Name {
    let absent = names::fresh(random);
    insert(&mut module.imports, import(&absent, Vec::new()), random);
    absent
}

/// The places of the earlier modules that a module names.
pub fn named(specification: &Specification, index: usize) -> Vec<usize> {
    let names = specification.modules[index].named_modules().into_iter();
    let places = names.filter_map(|name| specification.index(name));
    places.filter(|&place| place < index).collect()
}

/// The module names that are used, and that no module has.
fn in_vain(specification: &Specification) -> Vec<Name> {
    let used = specification.modules.iter().flat_map(Module::named_modules);
    let absent = used.filter(|name| specification.index(name).is_none());
    absent.cloned().collect()
}

/// The last one stays: a text without modules is not read.
fn removed(specification: &mut Specification, index: usize) {
    if specification.modules.len() > 1 {
        specification.modules.remove(index);
    }
}

/// A module gets another name, wherever it is named.
fn called_otherwise(specification: &mut Specification, index: usize, random: &mut Random) {
    let new = names::fresh(random);
    let old = std::mem::replace(&mut specification.modules[index].name, new.clone());
    for module in &mut specification.modules {
        for expression in &mut module.imports {
            if expression.module == old {
                expression.module = new.clone();
            }
            for clause in &mut expression.clauses {
                match clause {
                    Clause::Binding(binding) if binding.actual == old => {
                        binding.actual = new.clone();
                    }
                    _ => {}
                }
            }
        }
    }
}
