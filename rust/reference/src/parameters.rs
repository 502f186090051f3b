//! When two parameters of one name are one (document 02, Seven).

use crate::form::{Form, Function, Parameter, Section, Sort};
use std::rc::Rc;

/// Whether both forms have the parameter and it is one: the same module declared it, and it now has the same sorts and
/// functions, types and origins included.
pub fn same(parameter: &Parameter, here: &Form, there: &Form) -> bool {
    let section = Section::Parameter(parameter.name.clone());
    let in_both = here.parameters.contains(parameter) && there.parameters.contains(parameter);
    let same_sorts = same_elements(
        &sorts_in(here, &section),
        &sorts_in(there, &section),
        |one, other| one == other,
    );
    let same_functions = same_elements(
        &functions_in(here, &section),
        &functions_in(there, &section),
        |one, other| same_function(one, here, other, there),
    );
    in_both && same_sorts && same_functions
}

fn same_elements<T>(here: &[T], there: &[T], same: impl Fn(&T, &T) -> bool) -> bool {
    let found = |one: &T| there.iter().any(|other| same(one, other));
    let found_back = |other: &T| here.iter().any(|one| same(one, other));
    here.iter().all(found) && there.iter().all(found_back)
}

fn sorts_in<'f>(form: &'f Form, section: &Section) -> Vec<&'f Sort> {
    let sorts = form.sorts.iter();
    sorts.filter(|sort| sort.in_section(section)).collect()
}

fn functions_in<'f>(form: &'f Form, section: &Section) -> Vec<&'f Rc<Function>> {
    let functions = form.functions.iter();
    let inside = functions.filter(|function| function.origin.section == *section);
    inside.collect()
}

fn same_function(one: &Function, here: &Form, other: &Function, there: &Form) -> bool {
    let same_types = one.inputs.len() == other.inputs.len()
        && one
            .sorts()
            .zip(other.sorts())
            .all(|(sort, twin)| same_sort(sort, here, twin, there));
    one.name == other.name && one.origin == other.origin && same_types
}

/// Sorts of types: of one name, and of one origin where both forms show a sort of that name. A sort that only one of them
/// shows agrees by its name: in a binding what stands for a formal sort is shown by the actual form, and by the other only
/// if it has a sort of that name besides.
fn same_sort(sort: &Sort, here: &Form, twin: &Sort, there: &Form) -> bool {
    let Some(name) = sort.visible_name() else {
        return sort == twin;
    };
    let shown = here.visible_sort(name).zip(there.visible_sort(name));
    twin.visible_name() == Some(name) && shown.is_none_or(|(one, other)| one == other)
}
