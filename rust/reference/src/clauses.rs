//! Renaming and binding ("Evaluating", step 3; document 02, Two, Seven and Five).

use crate::checks::{refuse, refuse_both, Refusal};
use crate::form::{Form, Function, Replacement, Section, Sort};
use crate::order;
use crate::syntax::{operands, Binding, Name, Pair};
use std::rc::Rc;

/// Simultaneous renaming of visible sorts and functions; types and equations follow.
pub fn renamed(form: &Form, pairs: &[Pair]) -> Result<Form, Refusal> {
    for (index, pair) in pairs.iter().enumerate() {
        let visible = form.visible_sort(&pair.old).is_some()
            || form.visible_functions(&pair.old).next().is_some();
        let repeated = pairs[..index].iter().any(|earlier| earlier.old == pair.old);
        if !visible || repeated || !fits(form, pair) {
            return refuse(14, &pair.old);
        }
    }
    let sort = |sort: &Sort| match sort {
        Sort::Visible(name, origin) => Sort::Visible(new_name(pairs, name), origin.clone()),
        other => other.clone(),
    };
    let function = |mut function: Function| {
        function.name = function.name.map(|name| new_name(pairs, &name));
        function
    };
    Ok(form.replaced(&Replacement {
        sort: &sort,
        function: &function,
    }))
}

/// Any name may be made a plain one. An operator stands for functions alone, and for all of the old name's instances.
fn fits(form: &Form, pair: &Pair) -> bool {
    let Some(count) = operands(&pair.new) else {
        return true;
    };
    let no_sort = form.visible_sort(&pair.old).is_none();
    let mut instances = form.visible_functions(&pair.old);
    no_sort && instances.all(|function| function.inputs.len() == count)
}

fn first_pair<'p>(pairs: &'p [Pair], old: &[u8]) -> Option<&'p Pair> {
    pairs.iter().find(|pair| pair.old == old)
}

fn new_name(pairs: &[Pair], name: &Name) -> Name {
    first_pair(pairs, name)
        .map_or(name, |pair| &pair.new)
        .clone()
}

/// The formal items of one parameter, and what the pairs make of them in the actual module.
struct Bound<'b> {
    section: Section,
    form: &'b Form,
    pairs: &'b [Pair],
    actual: &'b Form,
}

/// The module without the parameter, formal items replaced by actual ones, united with the actual normal form.
pub fn bound(form: &Form, binding: &Binding, actual: &Form) -> Result<Form, Refusal> {
    let mut parameters = form.parameters.iter();
    if !parameters.any(|parameter| parameter.name == binding.parameter) {
        return refuse(15, &binding.parameter);
    }
    let bound = Bound {
        section: Section::Parameter(binding.parameter.clone()),
        form,
        pairs: &binding.pairs,
        actual,
    };
    bound.check()?;
    let mut result = bound.without_parameter(&binding.parameter);
    result.unite(actual);
    Ok(result)
}

impl Bound<'_> {
    fn formal_sorts(&self) -> impl Iterator<Item = &Name> {
        self.form
            .sorts
            .iter()
            .filter(|sort| sort.in_section(&self.section))
            .filter_map(Sort::visible_name)
    }

    fn formal_functions(&self) -> impl Iterator<Item = &Rc<Function>> {
        self.form
            .functions
            .iter()
            .filter(|function| function.origin.section == self.section)
    }

    fn formal_function(&self, name: &Name) -> Option<&Rc<Function>> {
        self.formal_functions()
            .find(|function| function.name.as_ref() == Some(name))
    }

    /// The pairs in text order: the first that has a mistake is told. Then 27, the least formal that no pair names.
    fn check(&self) -> Result<(), Refusal> {
        for (index, pair) in self.pairs.iter().enumerate() {
            if let Some(number) = self.mistake(pair, &self.pairs[..index]) {
                return refuse_both(number, &pair.old, &pair.new);
            }
        }
        match self.least_unpaired() {
            Some(name) => refuse(27, name),
            None => Ok(()),
        }
    }

    /// The first of 22 to 26 that fits a pair behind these. A name of both kinds needs both.
    fn mistake(&self, pair: &Pair, earlier: &[Pair]) -> Option<u32> {
        let sort = self.formal_sorts().any(|name| *name == pair.old);
        let function = self.formal_function(&pair.old);
        let sort_shown = self.actual.visible_sort(&pair.new).is_some();
        let function_shown = self.actual.visible_functions(&pair.new).next().is_some();
        let mistakes = [
            (22, !sort && function.is_none()),
            (23, first_pair(earlier, &pair.old).is_some()),
            (24, !sort_shown && !function_shown),
            (25, sort && !sort_shown),
            (25, function.is_some() && !function_shown),
            (
                26,
                function.is_some_and(|formal| self.actual_function(formal, pair).is_none()),
            ),
        ];
        let fitting = mistakes.into_iter().find(|(_, fits)| *fits);
        fitting.map(|(number, _)| number)
    }

    fn least_unpaired(&self) -> Option<&Name> {
        let functions = self
            .formal_functions()
            .filter_map(|function| function.name.as_ref());
        self.formal_sorts()
            .chain(functions)
            .filter(|name| first_pair(self.pairs, name).is_none())
            .min_by(|one, other| order::of_names(one, other))
    }

    /// A formal sort by its first pair; any other sort stays. None where the pair is lacking or names no visible sort.
    fn actual_sort(&self, sort: &Sort) -> Option<Sort> {
        match sort {
            Sort::Visible(name, _) if sort.in_section(&self.section) => {
                let pair = first_pair(self.pairs, name)?;
                self.actual.visible_sort(&pair.new).cloned()
            }
            other => Some(other.clone()),
        }
    }

    /// The visible function of the actual module with the new name and the formal type, formal sorts replaced.
    fn actual_function(&self, formal: &Function, pair: &Pair) -> Option<Rc<Function>> {
        let inputs: Option<Vec<Sort>> = formal
            .inputs
            .iter()
            .map(|sort| self.actual_sort(sort))
            .collect();
        let (inputs, output) = (inputs?, self.actual_sort(&formal.output)?);
        self.actual
            .visible_functions(&pair.new)
            .find(|function| function.inputs == inputs && function.output == output)
            .cloned()
    }

    /// Called only when every pair is right and every formal is paired. The parameter goes with its items; what stands for
    /// them in types and equations comes with the actual form.
    fn without_parameter(&self, parameter: &Name) -> Form {
        let mut rest = self.form.clone();
        rest.parameters.retain(|other| other.name != *parameter);
        rest.sorts.retain(|sort| !sort.in_section(&self.section));
        rest.functions
            .retain(|function| function.origin.section != self.section);
        let sort = |sort: &Sort| self.actual_sort(sort).unwrap_or_else(|| sort.clone());
        let function = |function: Function| self.bound_function(function);
        rest.replaced(&Replacement {
            sort: &sort,
            function: &function,
        })
    }

    /// A formal function as the actual one that its pair has found; its type has followed already, so it is found by
    /// the formal it was.
    fn bound_function(&self, followed: Function) -> Function {
        if followed.origin.section != self.section {
            return followed;
        }
        let formal = self
            .formal_functions()
            .find(|formal| formal.name == followed.name);
        let actual = formal.and_then(|formal| {
            let pair = first_pair(self.pairs, formal.name.as_ref()?)?;
            self.actual_function(formal, pair)
        });
        actual.map_or(followed, |actual| (*actual).clone())
    }
}
