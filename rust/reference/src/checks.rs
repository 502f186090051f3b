//! What is checked after each clause and each union: 15, 10, 11 and 18 ("Evaluating"; document 02, Seven).

use crate::form::{Form, Function, Parameter, Section, Sort};
use crate::order;
use crate::syntax::Name;

const PARAMETERS: usize = 8;
const ITEMS: usize = 512;
const EQUATIONS: usize = 256;

/// A refusal by evaluation: its number, the culprit's name and, of a binding's pair, the actual name.
#[derive(Clone, Debug, PartialEq, Eq)]
pub struct Refusal {
    pub number: u32,
    pub name: Name,
    pub actual: Name,
}

pub fn refuse<T>(number: u32, name: &[u8]) -> Result<T, Refusal> {
    refuse_both(number, name, b"")
}

pub fn refuse_both<T>(number: u32, name: &[u8], actual: &[u8]) -> Result<T, Refusal> {
    Err(Refusal {
        number,
        name: name.to_vec(),
        actual: actual.to_vec(),
    })
}

/// The checks that stand after a clause or a union of imports.
pub fn result(form: &Form) -> Result<(), Refusal> {
    names(form)?;
    room(form)
}

/// 15, then 10, then 11. The hidden names that take part are those of the module that the form is for.
pub fn names(form: &Form) -> Result<(), Refusal> {
    let of_one_name = |one: &Parameter, other: &Parameter| one.name == other.name;
    if let Some(twin) = least_twin(&form.parameters, of_one_name, |twin| &twin.name) {
        return refuse(15, &twin.name);
    }
    let sorts = named_sorts(form);
    if let Some(clash) = least_twin(&sorts, |one, other| one.0 == other.0, |sort| sort.0) {
        return refuse(10, clash.0);
    }
    let functions = named_functions(form);
    if let Some(clash) = least_twin(&functions, equal_type, |function| function.0) {
        return refuse(10, clash.0);
    }
    if let Some(twin) = least_twin(&functions, overloaded, |function| function.0) {
        return refuse(11, twin.0);
    }
    Ok(())
}

/// 18 for one normal form.
pub fn room(form: &Form) -> Result<(), Refusal> {
    let beyond = form.parameters.len() > PARAMETERS
        || form.items() > ITEMS
        || form.equations.len() > EQUATIONS;
    if beyond {
        return refuse(18, b"");
    }
    Ok(())
}

/// The least in the order of names among the elements that stand in the relation to a later one.
fn least_twin<'e, T>(
    elements: &'e [T],
    related: impl Fn(&T, &T) -> bool,
    name: impl Fn(&'e T) -> &'e Name,
) -> Option<&'e T> {
    let mut least: Option<&T> = None;
    for (index, one) in elements.iter().enumerate() {
        let smaller = least.is_none_or(|least| order::of_names(name(one), name(least)).is_lt());
        if smaller
            && elements[index + 1..]
                .iter()
                .any(|other| related(one, other))
        {
            least = Some(one);
        }
    }
    least
}

/// Visible sorts and the module's own hidden ones, by the names that its text has for them.
fn named_sorts(form: &Form) -> Vec<(&Name, &Sort)> {
    let mut named = Vec::new();
    for sort in &form.sorts {
        match sort {
            Sort::Visible(name, _) => named.push((name, sort)),
            Sort::Hidden(origin) if origin.own_hidden(&form.module) => {
                named.push((origin.name(), sort));
            }
            _ => {}
        }
    }
    named
}

/// Visible functions and the module's own hidden ones, by the names that its text has for them.
pub fn named_functions(form: &Form) -> Vec<(&Name, &Function)> {
    let mut named: Vec<(&Name, &Function)> = Vec::new();
    for function in &form.functions {
        match &function.name {
            Some(name) => named.push((name, function)),
            None if function.origin.own_hidden(&form.module) => {
                named.push((function.origin.name(), function));
            }
            None => {}
        }
    }
    named
}

/// Different functions of one name and type: their origins differ, else they would be one.
fn equal_type(one: &(&Name, &Function), other: &(&Name, &Function)) -> bool {
    one.0 == other.0 && one.1.inputs == other.1.inputs && one.1.output == other.1.output
}

/// Equal name and input type, or one name twice in a parameter.
fn overloaded(one: &(&Name, &Function), other: &(&Name, &Function)) -> bool {
    let section = &one.1.origin.section;
    let one_parameter =
        matches!(section, Section::Parameter(_)) && *section == other.1.origin.section;
    one.0 == other.0 && (one_parameter || one.1.inputs == other.1.inputs)
}
