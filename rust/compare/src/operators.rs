//! Operators in the place of plain functions, throughout a specification: declared, in pairs and in terms.

use crate::names;
use crate::random::Random;
use reference::syntax::*;

/// Makes some of the plain functions operators, such as have one or two arguments wherever they are declared. A pair that makes one of
/// them of something else may be wrong then.
pub fn operate(specification: &mut Specification, random: &mut Random) {
    let mut taken = declared(specification);
    for (old, count) in taken.clone() {
        if !fits(specification, &old, count) || random.chance(40) {
            continue;
        }
        let new = names::operator_name(count, random);
        if taken.iter().all(|(name, _)| *name != new) {
            taken.push((new.clone(), count));
            replace(specification, &old, &new);
        }
    }
}

/// The names of all functions that are declared, each once, with the number of arguments of its first instance.
pub fn declared(specification: &Specification) -> Vec<(Name, usize)> {
    let mut found: Vec<(Name, usize)> = Vec::new();
    for signature in specification.modules.iter().flat_map(signatures) {
        for function in &signature.functions {
            if found.iter().all(|(name, _)| *name != function.name) {
                found.push((function.name.clone(), function.inputs.len()));
            }
        }
    }
    found
}

fn signatures(module: &Module) -> impl Iterator<Item = &Signature> {
    let parameters = module.parameters.iter();
    let inside = parameters.map(|parameter| &parameter.signature);
    inside.chain([&module.exports, &module.hidden])
}

/// Whether the name is a plain one of functions with so many arguments and of nothing else.
fn fits(specification: &Specification, name: &Name, count: usize) -> bool {
    let alone = |signature: &Signature| {
        let instances = |function: &FunctionDeclaration| {
            function.name != *name || function.inputs.len() == count
        };
        !signature.sorts.contains(name) && signature.functions.iter().all(instances)
    };
    let mut modules = specification.modules.iter();
    operands(name).is_none()
        && (1..=2).contains(&count)
        && modules.all(|module| signatures(module).all(alone))
}

/// Puts the new name in the place of the old one.
pub fn replace(specification: &mut Specification, old: &Name, new: &Name) {
    for name in specification.modules.iter_mut().flat_map(function_names) {
        if name == old {
            *name = new.clone();
        }
    }
}

/// All places of a module where a function's name stands: declared, in a pair, or with arguments in a term.
fn function_names(module: &mut Module) -> Vec<&mut Name> {
    let mut names: Vec<&mut Name> = Vec::new();
    let parameters = module.parameters.iter_mut();
    let inside = parameters.map(|parameter| &mut parameter.signature);
    for signature in inside.chain([&mut module.exports, &mut module.hidden]) {
        names.extend(
            signature
                .functions
                .iter_mut()
                .map(|function| &mut function.name),
        );
    }
    for clause in module
        .imports
        .iter_mut()
        .flat_map(|expression| &mut expression.clauses)
    {
        let pairs = match clause {
            Clause::Renaming(pairs) => pairs,
            Clause::Binding(binding) => &mut binding.pairs,
        };
        names.extend(
            pairs
                .iter_mut()
                .flat_map(|pair| [&mut pair.old, &mut pair.new]),
        );
    }
    for equation in &mut module.equations {
        for sides in equation
            .conditions
            .iter_mut()
            .chain([&mut equation.conclusion])
        {
            applied(&mut sides.left, &mut names);
            applied(&mut sides.right, &mut names);
        }
    }
    names
}

fn applied<'t>(term: &'t mut TermText, names: &mut Vec<&'t mut Name>) {
    if !term.arguments.is_empty() {
        names.push(&mut term.name);
    }
    for argument in &mut term.arguments {
        applied(argument, names);
    }
}
