//! A module's own declarations: 9 before its imports, then joined to them, with 13, 12 and 17 ("Evaluating").

use crate::checks::{named_functions, refuse, Refusal};
use crate::form::{
    self, Declared, Equation, Form, Function, Origin, Section, Sort, Term, Variable,
};
use crate::syntax::*;
use std::rc::Rc;

/// 9: parameters in text order, each with its name first, then exports, then the hidden section.
pub fn repeated(module: &Module) -> Result<(), Refusal> {
    for (index, parameter) in module.parameters.iter().enumerate() {
        let earlier = &module.parameters[..index];
        if earlier.iter().any(|other| other.name == parameter.name) {
            return refuse(9, &parameter.name);
        }
        repeated_in(&parameter.signature)?;
    }
    repeated_in(&module.exports)?;
    repeated_in(&module.hidden)
}

fn repeated_in(signature: &Signature) -> Result<(), Refusal> {
    for (index, sort) in signature.sorts.iter().enumerate() {
        if signature.sorts[..index].contains(sort) {
            return refuse(9, sort);
        }
    }
    for (index, function) in signature.functions.iter().enumerate() {
        if signature.functions[..index].contains(function) {
            return refuse(9, &function.name);
        }
    }
    Ok(())
}

/// The sections of a module in text order.
fn sections(module: &Module) -> Vec<(Section, &Signature)> {
    let mut sections: Vec<(Section, &Signature)> = module
        .parameters
        .iter()
        .map(|parameter| {
            (
                Section::Parameter(parameter.name.clone()),
                &parameter.signature,
            )
        })
        .collect();
    sections.push((Section::Export, &module.exports));
    sections.push((Section::Hidden, &module.hidden));
    sections
}

/// Joins the module's own parameters, sorts, functions and variables to what it imports. An own parameter is never one
/// with an imported one, which another module has declared. A sort's name means the own hidden sort if there is one, else
/// the visible sort.
pub fn join(form: &mut Form, module: &Module) {
    for parameter in &module.parameters {
        form.parameters.push(form::Parameter {
            name: parameter.name.clone(),
            module: module.name.clone(),
        });
    }
    for (section, signature) in sections(module) {
        for name in &signature.sorts {
            form.add_sort(own_sort(module, &section, name));
        }
    }
    for (section, signature) in sections(module) {
        for declaration in &signature.functions {
            let function = own_function(form, module, &section, declaration);
            form.add_function(Rc::new(function));
        }
    }
    for declaration in &module.variables {
        let variable = own_variable(form, module, declaration);
        form.add_variable(Rc::new(variable));
    }
}

fn own_origin(module: &Module, section: &Section, declared: Declared) -> Rc<Origin> {
    Rc::new(Origin {
        module: module.name.clone(),
        section: section.clone(),
        declared,
    })
}

fn own_sort(module: &Module, section: &Section, name: &Name) -> Sort {
    let origin = own_origin(module, section, Declared::Sort(name.clone()));
    match section {
        Section::Hidden => Sort::Hidden(origin),
        _ => Sort::Visible(name.clone(), origin),
    }
}

fn own_function(
    form: &Form,
    module: &Module,
    section: &Section,
    declaration: &FunctionDeclaration,
) -> Function {
    let visible = *section != Section::Hidden;
    Function {
        name: visible.then(|| declaration.name.clone()),
        origin: own_origin(module, section, Declared::Function(declaration.clone())),
        inputs: declaration
            .inputs
            .iter()
            .map(|name| meant_sort(form, name))
            .collect(),
        output: meant_sort(form, &declaration.output),
    }
}

fn own_variable(form: &Form, module: &Module, declaration: &VariableDeclaration) -> Variable {
    let declared = Declared::Variable(declaration.name.clone(), declaration.sort.clone());
    Variable {
        origin: own_origin(module, &Section::Hidden, declared),
        sort: meant_sort(form, &declaration.sort),
    }
}

/// The sort that a name means in the text of the form's module.
fn meant_sort(form: &Form, name: &Name) -> Sort {
    let own = |sort: &&Sort| match sort {
        Sort::Hidden(origin) => origin.own_hidden(&form.module) && origin.name() == name,
        _ => false,
    };
    let found = form
        .sorts
        .iter()
        .find(own)
        .or_else(|| form.visible_sort(name));
    found
        .cloned()
        .unwrap_or_else(|| Sort::Unavailable(name.clone()))
}

/// 13: the first function or variable in text order whose type uses a sort that is not available; in exports and
/// parameters, not visible.
pub fn unavailable(form: &Form, module: &Module) -> Result<(), Refusal> {
    for (section, signature) in sections(module) {
        for declaration in &signature.functions {
            let mut used = declaration.inputs.iter().chain([&declaration.output]);
            if !used.all(|name| available(&meant_sort(form, name), &section)) {
                return refuse(13, &declaration.name);
            }
        }
    }
    for declaration in &module.variables {
        if !available(&meant_sort(form, &declaration.sort), &Section::Hidden) {
            return refuse(13, &declaration.name);
        }
    }
    Ok(())
}

fn available(sort: &Sort, section: &Section) -> bool {
    match sort {
        Sort::Visible(..) => true,
        Sort::Hidden(_) => *section == Section::Hidden,
        Sort::Unavailable(_) => false,
    }
}

/// 12: the first variable that repeats an earlier one or is named like a constant in reach.
pub fn variables(form: &Form, module: &Module) -> Result<(), Refusal> {
    let functions = named_functions(form);
    for (index, variable) in module.variables.iter().enumerate() {
        let earlier = &module.variables[..index];
        let twice = earlier.iter().any(|other| other.name == variable.name);
        let constant = functions
            .iter()
            .any(|(name, function)| **name == variable.name && function.inputs.is_empty());
        if twice || constant {
            return refuse(12, &variable.name);
        }
    }
    Ok(())
}

/// 17: the module's own equations, typed from the inside out, or the tag of the first that has no type.
pub fn equations(form: &Form, module: &Module) -> Result<Vec<Equation>, Refusal> {
    let mut equations = Vec::new();
    for (position, text) in module.equations.iter().enumerate() {
        match typed_equation(form, module, position, text) {
            Some(equation) => equations.push(equation),
            None => return refuse(17, &text.tag),
        }
    }
    Ok(equations)
}

fn typed_equation(
    form: &Form,
    module: &Module,
    position: usize,
    text: &EquationText,
) -> Option<Equation> {
    let mut conditions = Vec::new();
    for condition in &text.conditions {
        conditions.push(typed_sides(form, condition)?);
    }
    Some(Equation {
        position,
        module: module.name.clone(),
        tag: text.tag.clone(),
        conditions,
        conclusion: typed_sides(form, &text.conclusion)?,
    })
}

fn typed_sides(form: &Form, sides: &Sides) -> Option<(Term, Term)> {
    let (left, left_sort) = typed_term(form, &sides.left)?;
    let (right, right_sort) = typed_term(form, &sides.right)?;
    (left_sort == right_sort).then_some((left, right))
}

/// A name alone is a variable if declared, else a constant; a name with arguments is always a function.
fn typed_term(form: &Form, text: &TermText) -> Option<(Term, Sort)> {
    if text.arguments.is_empty() {
        if let Some(variable) = own_variable_named(form, &text.name) {
            return Some((Term::Variable(variable.clone()), variable.sort.clone()));
        }
    }
    let mut arguments = Vec::new();
    let mut inputs = Vec::new();
    for argument in &text.arguments {
        let (term, sort) = typed_term(form, argument)?;
        arguments.push(term);
        inputs.push(sort);
    }
    let function = function_in_reach(form, &text.name, &inputs)?;
    let sort = function.output.clone();
    Some((Term::Application(function, arguments), sort))
}

fn own_variable_named<'f>(form: &'f Form, name: &Name) -> Option<&'f Rc<Variable>> {
    form.variables
        .iter()
        .find(|variable| variable.origin.own_hidden(&form.module) && variable.origin.name() == name)
}

fn function_in_reach(form: &Form, name: &Name, inputs: &[Sort]) -> Option<Rc<Function>> {
    form.functions
        .iter()
        .find(|function| {
            let own = function.name.is_none() && function.origin.own_hidden(&form.module);
            let named = match &function.name {
                Some(visible) => visible == name,
                None => own && function.origin.name() == name,
            };
            named && function.inputs == inputs
        })
        .cloned()
}
