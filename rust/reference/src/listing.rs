//! A normal form written as a listing ("The listing").

use crate::form::{Declared, Equation, Form, Function, Origin, Section, Sort, Term, Variable};
use crate::order;
use crate::syntax::{Name, Specification};
use std::rc::Rc;

/// The hidden items in the order of their numbers, which start at 1.
#[derive(Default)]
struct Numbers {
    sorts: Vec<Rc<Origin>>,
    functions: Vec<Rc<Function>>,
    variables: Vec<Rc<Variable>>,
}

pub fn write(form: &Form, specification: &Specification) -> Vec<u8> {
    let numbers = numbers(form);
    let mut out = Vec::new();
    line(&mut out, "module", &form.module);
    section(&mut out, form, &numbers, &Section::Export, "");
    let mut parameters = form.parameters.clone();
    parameters.sort_by(|one, other| order::of_names(&one.name, &other.name));
    for parameter in parameters {
        line(&mut out, "parameter", &parameter.name);
        let inside = Section::Parameter(parameter.name);
        section(&mut out, form, &numbers, &inside, "parameter-");
    }
    hidden(&mut out, &numbers);
    equations(&mut out, form, &numbers, specification);
    line(&mut out, "end", &form.module);
    out
}

fn line(out: &mut Vec<u8>, key: &str, value: &[u8]) {
    out.extend_from_slice(key.as_bytes());
    out.push(b'=');
    out.extend_from_slice(value);
    out.push(b'\n');
}

/// The hidden items put in order: by the bytes of the written origin, then of the written type.
fn numbers(form: &Form) -> Numbers {
    let mut numbers = Numbers::default();
    for sort in &form.sorts {
        if let Sort::Hidden(origin) = sort {
            numbers.sorts.push(origin.clone());
        }
    }
    numbers.sorts.sort_by_key(|origin| origin_text(origin));
    let mut functions: Vec<_> = form.functions.clone();
    functions.retain(|function| function.name.is_none());
    functions
        .sort_by_key(|function| (origin_text(&function.origin), type_text(function, &numbers)));
    let mut variables = form.variables.clone();
    variables.sort_by_key(|variable| {
        (
            origin_text(&variable.origin),
            sort_text(&variable.sort, &numbers),
        )
    });
    numbers.functions = functions;
    numbers.variables = variables;
    numbers
}

/// The visible items of one section: in the order of names, then by the bytes of the written type.
fn section(out: &mut Vec<u8>, form: &Form, numbers: &Numbers, section: &Section, prefix: &str) {
    let mut sorts = Vec::new();
    for sort in &form.sorts {
        if let Sort::Visible(name, origin) = sort {
            if origin.section == *section {
                sorts.push((name, origin));
            }
        }
    }
    sorts.sort_by(|one, other| order::of_names(one.0, other.0));
    for (name, origin) in sorts {
        line(out, &format!("{prefix}sort"), name);
        line(out, "origin", &origin_text(origin));
    }
    let mut functions: Vec<(&Name, Vec<u8>, &Origin)> = Vec::new();
    for function in &form.functions {
        if let (Some(name), true) = (&function.name, function.origin.section == *section) {
            functions.push((name, type_text(function, numbers), &function.origin));
        }
    }
    functions
        .sort_by(|one, other| order::of_names(one.0, other.0).then_with(|| one.1.cmp(&other.1)));
    for (name, typed, origin) in functions {
        let value = [name, &b":"[..], &typed].concat();
        line(out, &format!("{prefix}function"), &value);
        line(out, "origin", &origin_text(origin));
    }
}

fn hidden(out: &mut Vec<u8>, numbers: &Numbers) {
    for (index, origin) in numbers.sorts.iter().enumerate() {
        line(out, "hidden-sort", &braced(index));
        line(out, "origin", &origin_text(origin));
    }
    let before = numbers.sorts.len();
    for (index, function) in numbers.functions.iter().enumerate() {
        let value = [
            braced(before + index),
            b":".to_vec(),
            type_text(function, numbers),
        ]
        .concat();
        line(out, "hidden-function", &value);
        line(out, "origin", &origin_text(&function.origin));
    }
    let before = before + numbers.functions.len();
    for (index, variable) in numbers.variables.iter().enumerate() {
        let value = [
            braced(before + index),
            b":".to_vec(),
            sort_text(&variable.sort, numbers),
        ]
        .concat();
        line(out, "variable", &value);
        line(out, "origin", &origin_text(&variable.origin));
    }
}

/// By the text order of their modules, then position, then bytes.
fn equations(out: &mut Vec<u8>, form: &Form, numbers: &Numbers, specification: &Specification) {
    let mut lines: Vec<(Option<usize>, usize, Vec<u8>)> = Vec::new();
    for equation in &form.equations {
        let module = specification.index(&equation.module);
        lines.push((module, equation.position, equation_text(equation, numbers)));
    }
    lines.sort();
    for (_, _, value) in lines {
        line(out, "equation", &value);
    }
}

/// The name of the hidden item with this index.
fn braced(index: usize) -> Vec<u8> {
    format!("{{{}}}", index + 1).into_bytes()
}

fn sort_text(sort: &Sort, numbers: &Numbers) -> Vec<u8> {
    match sort {
        Sort::Visible(name, _) | Sort::Unavailable(name) => name.clone(),
        Sort::Hidden(origin) => braced(place(&numbers.sorts, origin)),
    }
}

fn place<T: PartialEq>(items: &[T], item: &T) -> usize {
    items
        .iter()
        .position(|other| other == item)
        .expect("what a normal form uses, it holds")
}

/// `A#B->C`
fn type_text(function: &Function, numbers: &Numbers) -> Vec<u8> {
    let inputs: Vec<Vec<u8>> = function
        .inputs
        .iter()
        .map(|sort| sort_text(sort, numbers))
        .collect();
    [
        inputs.join(&b'#'),
        b"->".to_vec(),
        sort_text(&function.output, numbers),
    ]
    .concat()
}

/// `[module,section,category,declared]`, types as declared.
fn origin_text(origin: &Origin) -> Vec<u8> {
    let section = match &origin.section {
        Section::Export => b"export".to_vec(),
        Section::Hidden => b"hidden".to_vec(),
        Section::Parameter(name) => [b"parameter ", &name[..]].concat(),
    };
    let declared = match &origin.declared {
        Declared::Sort(name) => [b"sort,", &name[..]].concat(),
        Declared::Variable(name, sort) => [b"variable,", &name[..], b":->", &sort[..]].concat(),
        Declared::Function(function) => [
            b"function,",
            &function.name[..],
            b":",
            &function.inputs.join(&b'#'),
            b"->",
            &function.output,
        ]
        .concat(),
    };
    [
        b"[",
        &origin.module[..],
        b",",
        &section,
        b",",
        &declared,
        b"]",
    ]
    .concat()
}

fn equation_text(equation: &Equation, numbers: &Numbers) -> Vec<u8> {
    let conditions: Vec<Vec<u8>> = equation
        .conditions
        .iter()
        .map(|sides| sides_text(sides, numbers))
        .collect();
    let mut text = [b"[", &equation.tag[..], b"] "].concat();
    text.extend(sides_text(&equation.conclusion, numbers));
    if !conditions.is_empty() {
        text.extend_from_slice(b" when ");
        text.extend(conditions.join(&b','));
    }
    text
}

fn sides_text(sides: &(Term, Term), numbers: &Numbers) -> Vec<u8> {
    [
        term_text(&sides.0, numbers),
        b"=".to_vec(),
        term_text(&sides.1, numbers),
    ]
    .concat()
}

fn term_text(term: &Term, numbers: &Numbers) -> Vec<u8> {
    match term {
        Term::Variable(variable) => variable_text(variable, numbers),
        Term::Application(function, arguments) => {
            let mut text = function_text(function, numbers);
            if !arguments.is_empty() {
                let arguments: Vec<Vec<u8>> = arguments
                    .iter()
                    .map(|argument| term_text(argument, numbers))
                    .collect();
                text.push(b'(');
                text.extend(arguments.join(&b','));
                text.push(b')');
            }
            text
        }
    }
}

fn function_text(function: &Rc<Function>, numbers: &Numbers) -> Vec<u8> {
    match &function.name {
        Some(name) => name.clone(),
        None => braced(numbers.sorts.len() + place(&numbers.functions, function)),
    }
}

fn variable_text(variable: &Rc<Variable>, numbers: &Numbers) -> Vec<u8> {
    let before = numbers.sorts.len() + numbers.functions.len();
    braced(before + place(&numbers.variables, variable))
}
