//! Origins, items, equations and normal forms as values ("Origins"; document 02, Seven). Two items are one exactly when
//! their values are equal: a hidden item has no name of its own, so its origin (and type) is all it is.

use crate::parameters;
use crate::syntax::{FunctionDeclaration, Name};
use std::rc::Rc;

/// A section is export, hidden, or a parameter that carries its name; a parameter called `hidden` is not hidden.
#[derive(Clone, Debug, PartialEq, Eq)]
pub enum Section {
    Export,
    Hidden,
    Parameter(Name),
}

/// What was declared: the category, the name and the type as written there.
#[derive(Clone, Debug, PartialEq, Eq)]
pub enum Declared {
    Sort(Name),
    Function(FunctionDeclaration),
    Variable(Name, Name),
}

#[derive(Clone, Debug, PartialEq, Eq)]
pub struct Origin {
    pub module: Name,
    pub section: Section,
    pub declared: Declared,
}

impl Origin {
    pub fn name(&self) -> &Name {
        match &self.declared {
            Declared::Sort(name) | Declared::Variable(name, _) => name,
            Declared::Function(function) => &function.name,
        }
    }

    /// Whether this is an item of the hidden section of the given module.
    pub fn own_hidden(&self, module: &Name) -> bool {
        self.section == Section::Hidden && self.module == *module
    }
}

/// A sort as a type uses it. One that is not available is known by its name alone.
#[derive(Clone, Debug, PartialEq, Eq)]
pub enum Sort {
    Visible(Name, Rc<Origin>),
    Hidden(Rc<Origin>),
    Unavailable(Name),
}

impl Sort {
    pub fn visible_name(&self) -> Option<&Name> {
        match self {
            Sort::Visible(name, _) => Some(name),
            _ => None,
        }
    }

    pub fn origin(&self) -> Option<&Rc<Origin>> {
        match self {
            Sort::Visible(_, origin) | Sort::Hidden(origin) => Some(origin),
            Sort::Unavailable(_) => None,
        }
    }

    pub fn in_section(&self, section: &Section) -> bool {
        self.origin()
            .is_some_and(|origin| origin.section == *section)
    }
}

/// A function; only a visible one has a name.
#[derive(Clone, Debug, PartialEq, Eq)]
pub struct Function {
    pub name: Option<Name>,
    pub origin: Rc<Origin>,
    pub inputs: Vec<Sort>,
    pub output: Sort,
}

impl Function {
    /// The sorts of its type.
    pub fn sorts(&self) -> impl Iterator<Item = &Sort> {
        self.inputs.iter().chain([&self.output])
    }
}

#[derive(Clone, Debug, PartialEq, Eq)]
pub struct Variable {
    pub origin: Rc<Origin>,
    pub sort: Sort,
}

#[derive(Clone, Debug, PartialEq, Eq)]
pub enum Term {
    Variable(Rc<Variable>),
    Application(Rc<Function>, Vec<Term>),
}

/// Equations are one when module, position there and resolved content agree.
#[derive(Clone, Debug, PartialEq, Eq)]
pub struct Equation {
    pub position: usize,
    pub module: Name,
    pub tag: Name,
    pub conditions: Vec<(Term, Term)>,
    pub conclusion: (Term, Term),
}

/// A parameter with the module that declared it: one without sorts and functions has nothing else to be known by.
#[derive(Clone, Debug, PartialEq, Eq)]
pub struct Parameter {
    pub name: Name,
    pub module: Name,
}

/// A normal form, or what is on the way to one. Visible items lie in the exports or in a parameter as the section of
/// their origin says: parameters are never renamed.
#[derive(Clone, Debug, Default)]
pub struct Form {
    pub module: Name,
    pub parameters: Vec<Parameter>,
    pub sorts: Vec<Sort>,
    pub functions: Vec<Rc<Function>>,
    pub variables: Vec<Rc<Variable>>,
    pub equations: Vec<Equation>,
}

/// How a form changes into another: sorts and functions replaced, everything built of them following.
pub struct Replacement<'r> {
    pub sort: &'r dyn Fn(&Sort) -> Sort,
    pub function: &'r dyn Fn(Function) -> Function,
}

impl Replacement<'_> {
    /// The type follows first, then the function itself is replaced.
    fn function(&self, function: &Function) -> Function {
        let followed = Function {
            name: function.name.clone(),
            origin: function.origin.clone(),
            inputs: function.inputs.iter().map(self.sort).collect(),
            output: (self.sort)(&function.output),
        };
        (self.function)(followed)
    }

    fn variable(&self, variable: &Variable) -> Variable {
        Variable {
            origin: variable.origin.clone(),
            sort: (self.sort)(&variable.sort),
        }
    }

    fn term(&self, term: &Term) -> Term {
        match term {
            Term::Variable(variable) => Term::Variable(Rc::new(self.variable(variable))),
            Term::Application(function, arguments) => Term::Application(
                Rc::new(self.function(function)),
                arguments
                    .iter()
                    .map(|argument| self.term(argument))
                    .collect(),
            ),
        }
    }

    fn sides(&self, sides: &(Term, Term)) -> (Term, Term) {
        (self.term(&sides.0), self.term(&sides.1))
    }

    fn equation(&self, equation: &Equation) -> Equation {
        Equation {
            position: equation.position,
            module: equation.module.clone(),
            tag: equation.tag.clone(),
            conditions: equation
                .conditions
                .iter()
                .map(|sides| self.sides(sides))
                .collect(),
            conclusion: self.sides(&equation.conclusion),
        }
    }
}

impl Form {
    pub fn replaced(&self, by: &Replacement) -> Form {
        let mut form = Form {
            module: self.module.clone(),
            parameters: self.parameters.clone(),
            ..Form::default()
        };
        for sort in &self.sorts {
            form.add_sort((by.sort)(sort));
        }
        for function in &self.functions {
            form.add_function(Rc::new(by.function(function)));
        }
        for variable in &self.variables {
            form.add_variable(Rc::new(by.variable(variable)));
        }
        for equation in &self.equations {
            form.add_equation(by.equation(equation));
        }
        form
    }

    pub fn add_sort(&mut self, sort: Sort) {
        add(&mut self.sorts, sort);
    }

    pub fn add_function(&mut self, function: Rc<Function>) {
        add(&mut self.functions, function);
    }

    pub fn add_variable(&mut self, variable: Rc<Variable>) {
        add(&mut self.variables, variable);
    }

    pub fn add_equation(&mut self, equation: Equation) {
        add(&mut self.equations, equation);
    }

    /// The union. Parameters are compared while the items of both are still apart; where two of one name are not one,
    /// both stay, so that the check after it can tell them.
    pub fn unite(&mut self, other: &Form) {
        let mut added = other.parameters.clone();
        added.retain(|parameter| !parameters::same(parameter, self, other));
        self.parameters.extend(added);
        for sort in &other.sorts {
            self.add_sort(sort.clone());
        }
        for function in &other.functions {
            self.add_function(function.clone());
        }
        for variable in &other.variables {
            self.add_variable(variable.clone());
        }
        for equation in &other.equations {
            self.add_equation(equation.clone());
        }
    }

    pub fn visible_sort(&self, name: &[u8]) -> Option<&Sort> {
        self.sorts
            .iter()
            .find(|sort| sort.visible_name().is_some_and(|own| own == name))
    }

    pub fn visible_functions<'f>(
        &'f self,
        name: &'f [u8],
    ) -> impl Iterator<Item = &'f Rc<Function>> {
        self.functions
            .iter()
            .filter(move |function| function.name.as_deref() == Some(name))
    }

    /// Sorts, functions and variables together ("The text", sizes of a normal form).
    pub fn items(&self) -> usize {
        self.sorts.len() + self.functions.len() + self.variables.len()
    }

    /// Term nodes of all equations, conditions included.
    pub fn nodes(&self) -> usize {
        self.equations.iter().map(equation_nodes).sum()
    }
}

fn add<T: PartialEq>(items: &mut Vec<T>, item: T) {
    if !items.contains(&item) {
        items.push(item);
    }
}

fn equation_nodes(equation: &Equation) -> usize {
    let conditions: usize = equation.conditions.iter().map(sides_nodes).sum();
    conditions + sides_nodes(&equation.conclusion)
}

fn sides_nodes(sides: &(Term, Term)) -> usize {
    term_nodes(&sides.0) + term_nodes(&sides.1)
}

fn term_nodes(term: &Term) -> usize {
    match term {
        Term::Variable(_) => 1,
        Term::Application(_, arguments) => 1 + arguments.iter().map(term_nodes).sum::<usize>(),
    }
}
