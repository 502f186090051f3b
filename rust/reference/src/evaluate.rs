//! The modules reached from the asked one, evaluated in text order up to the first refused ("Evaluating").

use crate::checks::{self, refuse, Refusal};
use crate::clauses;
use crate::form::Form;
use crate::own;
use crate::syntax::{Clause, Expression, Module, Name, Specification};

const ITEMS: usize = 1_024;
const EQUATIONS: usize = 512;
const NODES: usize = 4_096;

/// The asked normal form or the refusal, with the count of modules evaluated and the last of them.
pub struct Evaluated {
    pub outcome: Result<Form, Refusal>,
    pub modules: u32,
    pub last: Name,
}

/// The normal forms so far, by the place of their modules.
struct Forms<'s> {
    specification: &'s Specification,
    forms: Vec<Option<Form>>,
}

pub fn evaluate(specification: &Specification, asked: usize) -> Evaluated {
    let reached = reached(specification, asked);
    let mut forms = Forms {
        specification,
        forms: vec![None; specification.modules.len()],
    };
    let in_text_order = (0..=asked).filter(|&index| reached[index]);
    for (modules, index) in (1..).zip(in_text_order) {
        let outcome = forms.module(index);
        if index == asked || outcome.is_err() {
            let last = specification.modules[index].name.clone();
            return Evaluated {
                outcome,
                modules,
                last,
            };
        }
        forms.forms[index] = outcome.ok();
    }
    unreachable!("the asked module is reached")
}

/// All modules that are reached from the asked one: it, and every module that a reached one names and that stands earlier.
pub fn reached(specification: &Specification, asked: usize) -> Vec<bool> {
    let mut reached = vec![false; specification.modules.len()];
    let mut waiting = vec![asked];
    while let Some(index) = waiting.pop() {
        if reached[index] {
            continue;
        }
        reached[index] = true;
        for name in specification.modules[index].named_modules() {
            waiting.extend(specification.index(name).filter(|&earlier| earlier < index));
        }
    }
    reached
}

impl Forms<'_> {
    /// Steps 1 to 4 for one module.
    fn module(&self, index: usize) -> Result<Form, Refusal> {
        let module = &self.specification.modules[index];
        self.module_names(index)?;
        own::repeated(module)?;
        let mut results = Vec::new();
        for expression in &module.imports {
            results.push(self.expression(expression)?);
        }
        let imported = united(results)?;
        let form = joined(imported, module)?;
        self.totals(&form)?;
        Ok(form)
    }

    /// Step 1: absent 7, not declared earlier 8.
    fn module_names(&self, index: usize) -> Result<(), Refusal> {
        for name in self.specification.modules[index].named_modules() {
            match self.specification.index(name) {
                None => return refuse(7, name),
                Some(late) if late >= index => return refuse(8, name),
                Some(_) => {}
            }
        }
        Ok(())
    }

    fn form(&self, name: &Name) -> &Form {
        let index = self.specification.index(name).expect("checked in step 1");
        self.forms[index]
            .as_ref()
            .expect("named modules are reached, and stand earlier")
    }

    /// Step 3: the clauses act one after another, each result checked. The form keeps the imported module's name
    /// until it is joined; so its hidden names are made nobody's own first.
    fn expression(&self, expression: &Expression) -> Result<Form, Refusal> {
        let mut form = self.form(&expression.module).clone();
        form.module = Name::new();
        for clause in &expression.clauses {
            form = match clause {
                Clause::Renaming(pairs) => clauses::renamed(&form, pairs)?,
                Clause::Binding(binding) => {
                    clauses::bound(&form, binding, self.form(&binding.actual))?
                }
            };
            checks::result(&form)?;
        }
        Ok(form)
    }

    /// 18 for the normal forms of all modules evaluated, this one included.
    fn totals(&self, form: &Form) -> Result<(), Refusal> {
        let all = || self.forms.iter().flatten().chain([form]);
        let beyond = all().map(Form::items).sum::<usize>() > ITEMS
            || all().map(|form| form.equations.len()).sum::<usize>() > EQUATIONS
            || all().map(Form::nodes).sum::<usize>() > NODES;
        if beyond {
            return refuse(18, b"");
        }
        Ok(())
    }
}

/// The results of the expressions united, left to right, each union checked.
fn united(results: Vec<Form>) -> Result<Form, Refusal> {
    let mut results = results.into_iter();
    let mut form = results.next().unwrap_or_default();
    for result in results {
        form.unite(&result);
        checks::result(&form)?;
    }
    Ok(form)
}

/// The module's own declarations joined, with the whole row of checks.
fn joined(mut form: Form, module: &Module) -> Result<Form, Refusal> {
    form.module = module.name.clone();
    own::join(&mut form, module);
    checks::names(&form)?;
    own::unavailable(&form, module)?;
    own::variables(&form, module)?;
    for equation in own::equations(&form, module)? {
        form.add_equation(equation);
    }
    checks::room(&form)?;
    Ok(form)
}
