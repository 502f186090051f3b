//! Specifications drafted module by module. Each module is written over what the modules before it show, so that
//! most drafts are accepted; one that is not is drafted again, or kept where refusals are wanted.

use crate::names;
use crate::random::{shuffle, Random};
use crate::view::{view, View};
use reference::syntax::*;

/// How many modules, and how many percent of refused drafts are kept.
pub struct Plan {
    pub modules: usize,
    pub kept: usize,
}

pub fn specification(plan: &Plan, random: &mut Random) -> Specification {
    let mut specification = Specification {
        modules: Vec::new(),
    };
    for index in 0..plan.modules {
        let mut attempts = 0;
        loop {
            let mut module = drafted(&specification, index, attempts, random);
            if attempts == 8 {
                module = bare(index, random);
            }
            let name = module.name.clone();
            specification.modules.push(module);
            if view(&specification, &name).is_some() || random.chance(plan.kept) {
                break;
            }
            specification.modules.pop();
            attempts += 1;
        }
    }
    specification
}

/// A module that nothing can refuse: one new sort.
fn bare(index: usize, random: &mut Random) -> Module {
    let mut module = Module {
        name: names::module(index, random),
        ..Module::default()
    };
    module.exports.sorts.push(names::fresh(random));
    module
}

/// A module with imports, declarations and equations; after failed attempts, fewer imports.
fn drafted(
    specification: &Specification,
    index: usize,
    attempts: usize,
    random: &mut Random,
) -> Module {
    let mut module = Module {
        name: names::module(index, random),
        ..Module::default()
    };
    let most = if attempts > 2 { 1 } else { 3 };
    if index > 0 && random.chance(90) {
        for _ in 0..random.between(1, most) {
            module.imports.extend(expression(specification, random));
        }
    }
    let imported = shown(specification, &module).unwrap_or_default();
    declare(&mut module, &imported, random);
    let complete = shown(specification, &module).unwrap_or(imported);
    write_equations(&mut module, &complete, random);
    module
}

fn shown(specification: &Specification, module: &Module) -> Option<View> {
    let mut longer = specification.clone();
    longer.modules.push(module.clone());
    view(&longer, &module.name)
}

/// An import of an earlier module, often with clauses.
fn expression(specification: &Specification, random: &mut Random) -> Option<Expression> {
    let imported = recent(specification, random)?;
    let mut expression = Expression {
        module: imported.name.clone(),
        clauses: Vec::new(),
    };
    let Some(shown) = view(specification, &imported.name) else {
        return Some(expression);
    };
    let first = random.chance(20);
    if first {
        expression.clauses.extend(renaming(&shown, random));
    }
    for parameter in &shown.parameters {
        if expression.clauses.len() < 3 && random.chance(60) {
            let binding = binding(specification, parameter, random);
            expression.clauses.extend(binding.map(Clause::Binding));
        }
    }
    if !first && random.chance(35) {
        expression.clauses.extend(renaming(&shown, random));
    }
    Some(expression)
}

/// An earlier module, the later the likelier, so that chains and diamonds grow.
fn recent<'s>(specification: &'s Specification, random: &mut Random) -> Option<&'s Module> {
    let count = specification.modules.len();
    let index = random.below(count).max(random.below(count));
    specification.modules.get(index)
}

fn renaming(shown: &View, random: &mut Random) -> Option<Clause> {
    let mut pairs: Vec<Pair> = Vec::new();
    for _ in 0..random.between(1, 3) {
        let (old, new) = if random.chance(50) {
            (random.pick(&shown.sorts)?.clone(), names::sort(random))
        } else {
            let function = random.pick(&shown.functions)?;
            let count = function.inputs.len();
            (function.name.clone(), names::function_of(count, random))
        };
        let new = if random.chance(30) {
            names::fresh_like(&new, random)
        } else {
            new
        };
        if pairs.iter().all(|pair| pair.old != old) {
            pairs.push(Pair { old, new });
        }
    }
    Some(Clause::Renaming(pairs))
}

/// Pairs for every formal name; for a function, one of the wanted type if the actual module shows any.
pub fn binding(
    specification: &Specification,
    parameter: &Parameter,
    random: &mut Random,
) -> Option<Binding> {
    let actual = random.pick(&specification.modules)?;
    let offered = view(specification, &actual.name)?;
    let mut pairs: Vec<Pair> = Vec::new();
    for sort in &parameter.signature.sorts {
        let new = random.pick(&offered.sorts).unwrap_or(sort).clone();
        pairs.push(Pair {
            old: sort.clone(),
            new,
        });
    }
    let sorts = pairs.clone();
    for function in &parameter.signature.functions {
        if pairs.iter().all(|pair| pair.old != function.name) {
            let new = fitting(function, &sorts, &offered, random);
            pairs.push(Pair {
                old: function.name.clone(),
                new,
            });
        }
    }
    if pairs.is_empty() {
        return None;
    }
    shuffle(&mut pairs, random);
    Some(Binding {
        parameter: parameter.name.clone(),
        pairs,
        actual: actual.name.clone(),
    })
}

/// The name of an offered function with the formal type, formal sorts replaced.
fn fitting(
    formal: &FunctionDeclaration,
    sorts: &[Pair],
    offered: &View,
    random: &mut Random,
) -> Name {
    let actual = |sort: &Name| {
        let pair = sorts.iter().find(|pair| pair.old == *sort);
        pair.map_or(sort, |pair| &pair.new).clone()
    };
    let inputs: Vec<Name> = formal.inputs.iter().map(actual).collect();
    let output = actual(&formal.output);
    let fits =
        |function: &&FunctionDeclaration| function.inputs == inputs && function.output == output;
    let fitting: Vec<&FunctionDeclaration> = offered.functions.iter().filter(fits).collect();
    match random.pick(&fitting) {
        Some(function) => function.name.clone(),
        None => formal.name.clone(),
    }
}

/// Own parameters, exports, hidden items and variables.
fn declare(module: &mut Module, imported: &View, random: &mut Random) {
    let mut taken: Vec<Name> = imported.sorts.clone();
    let parameters = if random.chance(35) {
        random.between(1, 2)
    } else {
        0
    };
    for _ in 0..parameters {
        let parameter = Parameter {
            name: names::parameter(random),
            signature: Signature {
                sorts: new_sorts(&mut taken, 2, random),
                functions: Vec::new(),
            },
        };
        module.parameters.push(parameter);
    }
    module.exports.sorts = new_sorts(&mut taken, 2, random);
    let visible = taken.clone();
    if random.chance(50) {
        module.hidden.sorts = new_sorts(&mut taken, 2, random);
    }
    let mut taken_functions = imported.functions.clone();
    for parameter in &mut module.parameters {
        parameter.signature.functions = new_functions(&mut taken_functions, &visible, 2, random);
    }
    module.exports.functions = new_functions(&mut taken_functions, &visible, 3, random);
    if random.chance(60) {
        module.hidden.functions = new_functions(&mut taken_functions, &taken, 2, random);
    }
    declare_variables(module, &taken, &taken_functions, random);
}

/// New sorts whose names are mostly not taken.
fn new_sorts(taken: &mut Vec<Name>, most: usize, random: &mut Random) -> Vec<Name> {
    let mut sorts = Vec::new();
    for _ in 0..random.between(0, most) {
        let mut name = names::sort(random);
        if taken.contains(&name) && !random.chance(3) {
            name = names::fresh(random);
        }
        taken.push(name.clone());
        sorts.push(name);
    }
    sorts
}

/// New functions, overloading others where their input types differ.
fn new_functions(
    taken: &mut Vec<FunctionDeclaration>,
    sorts: &[Name],
    most: usize,
    random: &mut Random,
) -> Vec<FunctionDeclaration> {
    let mut functions = Vec::new();
    for _ in 0..random.between(0, most) {
        let Some(output) = random.pick(sorts) else {
            break;
        };
        let mut inputs = Vec::new();
        for _ in 0..random.below(4) {
            inputs.extend(random.pick(sorts).cloned());
        }
        let mut function = FunctionDeclaration {
            name: names::function_of(inputs.len(), random),
            inputs,
            output: output.clone(),
        };
        let meets = |other: &FunctionDeclaration| {
            other.name == function.name && other.inputs == function.inputs
        };
        if taken.iter().any(meets) && !random.chance(3) {
            function.name = names::fresh_like(&function.name, random);
        }
        taken.push(function.clone());
        functions.push(function);
    }
    functions
}

fn declare_variables(
    module: &mut Module,
    sorts: &[Name],
    functions: &[FunctionDeclaration],
    random: &mut Random,
) {
    for _ in 0..random.below(5) {
        let Some(sort) = random.pick(sorts) else {
            return;
        };
        let mut name = names::variable(random);
        let constant = functions
            .iter()
            .any(|function| function.name == name && function.inputs.is_empty());
        let twice = module.variables.iter().any(|other| other.name == name);
        if (constant || twice) && !random.chance(2) {
            name = names::fresh(random);
        }
        let sort = sort.clone();
        module.variables.push(VariableDeclaration { name, sort });
    }
}

/// What terms are made of.
struct Ground<'g> {
    functions: Vec<FunctionDeclaration>,
    variables: &'g [VariableDeclaration],
}

pub fn write_equations(module: &mut Module, complete: &View, random: &mut Random) {
    let mut functions = complete.functions.clone();
    functions.extend(module.hidden.functions.iter().cloned());
    let mut sorts = complete.sorts.clone();
    sorts.extend(module.hidden.sorts.iter().cloned());
    let ground = Ground {
        functions,
        variables: &module.variables,
    };
    let mut equations = Vec::new();
    for _ in 0..random.below(4) {
        equations.extend(ground.equation(&sorts, random));
    }
    module.equations = equations;
}

impl Ground<'_> {
    fn equation(&self, sorts: &[Name], random: &mut Random) -> Option<EquationText> {
        let conclusion = self.sides(sorts, random)?;
        let mut conditions = Vec::new();
        if random.chance(40) {
            for _ in 0..random.between(1, 3) {
                conditions.extend(self.sides(sorts, random));
            }
        }
        Some(EquationText {
            tag: names::tag(random),
            conditions,
            conclusion,
            when: false,
        })
    }

    fn sides(&self, sorts: &[Name], random: &mut Random) -> Option<Sides> {
        for _ in 0..4 {
            let sort = random.pick(sorts)?;
            let left = self.side(sort, random);
            let right = self.side(sort, random);
            if let (Some(left), Some(right)) = (left, right) {
                return Some(Sides { left, right });
            }
        }
        None
    }

    /// A term, now and then with others joined to it in a row.
    fn side(&self, sort: &Name, random: &mut Random) -> Option<TermText> {
        let mut side = self.term(sort, 3, random)?;
        let joining = |function: &&FunctionDeclaration| {
            operands(&function.name) == Some(2)
                && function.output == *sort
                && function.inputs[0] == *sort
        };
        let joining: Vec<_> = self.functions.iter().filter(joining).collect();
        if joining.is_empty() || random.chance(60) {
            return Some(side);
        }
        let row = if random.chance(15) { 14 } else { 3 };
        for _ in 0..random.between(1, row) {
            let function = random.pick(&joining)?;
            let joined = self.term(&function.inputs[1], 2, random)?;
            side = TermText {
                name: function.name.clone(),
                arguments: vec![side, joined],
            };
        }
        Some(side)
    }

    /// A term of a sort, at most so deep.
    fn term(&self, sort: &Name, depth: usize, random: &mut Random) -> Option<TermText> {
        let variables: Vec<_> = self
            .variables
            .iter()
            .filter(|variable| variable.sort == *sort)
            .collect();
        if let (Some(variable), true) = (random.pick(&variables), random.chance(40)) {
            return Some(alone(&variable.name));
        }
        let functions: Vec<_> = self
            .functions
            .iter()
            .filter(|function| function.output == *sort)
            .filter(|function| depth > 1 || function.inputs.is_empty())
            .collect();
        for _ in 0..3 {
            let Some(function) = random.pick(&functions) else {
                break;
            };
            let arguments: Option<Vec<TermText>> = function
                .inputs
                .iter()
                .map(|input| self.term(input, depth - 1, random))
                .collect();
            if let Some(arguments) = arguments {
                let name = function.name.clone();
                return Some(TermText { name, arguments });
            }
        }
        random
            .pick(&variables)
            .map(|variable| alone(&variable.name))
    }
}

pub fn alone(name: &Name) -> TermText {
    TermText {
        name: name.clone(),
        arguments: Vec::new(),
    }
}
