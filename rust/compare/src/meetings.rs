//! Where two parameters of one name meet among the modules that the asked one reaches (document 02, Seven). What an import expression has for
//! parameters is read from the listing of a module that imports it and nothing else.

use crate::cases::Case;
use crate::spelling::plain;
use reference::syntax::*;
use reference::{next_line, normalise, Lent, Step, Texts};

#[derive(Clone, Copy, Debug, PartialEq, Eq)]
pub enum Place {
    /// Two import expressions.
    Imports,
    /// A module with a parameter bound, and the module that it is bound to.
    Binding,
    /// A module and what it imports.
    Own,
}

#[derive(Clone, Debug)]
pub struct Meeting {
    pub place: Place,
    pub module: Name,
    pub parameter: Name,
    /// The lines of the parameter on the one way and on the other; a module's own are not listed.
    pub lines: [Vec<u8>; 2],
}

/// The name of a parameter, and the lines of a listing that say what is in it.
type Listed = (Name, Vec<u8>);

/// All meetings in the modules that are evaluated, as far as what meets is accepted; none where a text is not read.
pub fn meetings(case: &Case) -> Vec<Meeting> {
    let Some(specification) = read(case) else {
        return Vec::new();
    };
    let mut found = Vec::new();
    for index in reached(&specification, &case.asked) {
        let ways = Ways {
            specification: &specification,
            index,
        };
        found.extend(ways.meetings());
    }
    found
}

fn read(case: &Case) -> Option<Specification> {
    let mut modules = Vec::new();
    if !case.library.is_empty() {
        modules = reference::read(&case.library).ok()?.modules;
    }
    modules.extend(reference::read(&case.text).ok()?.modules);
    Some(Specification { modules })
}

/// The modules that the asked one reaches.
fn reached(specification: &Specification, asked: &Name) -> Vec<usize> {
    let mut reached: Vec<usize> = specification.index(asked).into_iter().collect();
    let mut next = 0;
    while let Some(&index) = reached.get(next) {
        for name in specification.modules[index].named_modules() {
            let earlier = specification.index(name).filter(|&named| named < index);
            reached.extend(earlier.filter(|named| !reached.contains(named)));
        }
        next += 1;
    }
    reached
}

/// The ways by which parameters come into one module of a specification.
struct Ways<'s> {
    specification: &'s Specification,
    index: usize,
}

impl Ways<'_> {
    fn module(&self) -> &Module {
        &self.specification.modules[self.index]
    }

    fn meetings(&self) -> Vec<Meeting> {
        let imports = &self.module().imports;
        let mut found = Vec::new();
        for (place, expression) in imports.iter().enumerate() {
            found.extend(self.in_bindings(expression));
            let before = self.parameters(&imports[..place]);
            let joined = self.parameters(std::slice::from_ref(expression));
            found.extend(self.met(Place::Imports, &before, &joined));
        }
        let own = self.module().parameters.iter();
        let own: Vec<Listed> = own.map(|own| (own.name.clone(), Vec::new())).collect();
        found.extend(self.met(Place::Own, &self.parameters(imports), &own));
        found
    }

    fn in_bindings(&self, expression: &Expression) -> Vec<Meeting> {
        let mut found = Vec::new();
        for (place, clause) in expression.clauses.iter().enumerate() {
            let Clause::Binding(binding) = clause else {
                continue;
            };
            let mut before = self.parameters(&[Expression {
                module: expression.module.clone(),
                clauses: expression.clauses[..place].to_vec(),
            }]);
            before.retain(|(name, _)| *name != binding.parameter);
            let actual = self.parameters(&[Expression {
                module: binding.actual.clone(),
                clauses: Vec::new(),
            }]);
            found.extend(self.met(Place::Binding, &before, &actual));
        }
        found
    }

    fn met(&self, place: Place, here: &[Listed], there: &[Listed]) -> Vec<Meeting> {
        let mut found = Vec::new();
        for (name, lines) in here {
            let twin = there.iter().find(|(other, _)| other == name);
            found.extend(twin.map(|(_, others)| Meeting {
                place,
                module: self.module().name.clone(),
                parameter: name.clone(),
                lines: [lines.clone(), others.clone()],
            }));
        }
        found
    }

    /// What the expressions have for parameters where this module stands; none where they are refused.
    fn parameters(&self, imports: &[Expression]) -> Vec<Listed> {
        let name = b"Probe'".to_vec();
        let mut modules = self.specification.modules[..self.index].to_vec();
        modules.push(Module {
            name: name.clone(),
            imports: imports.to_vec(),
            ..Module::default()
        });
        let text = plain(&Specification { modules });
        let answer = normalise(&name, Texts::alone(&text), Lent::output(usize::MAX));
        listed(&answer.listing)
    }
}

fn listed(listing: &[u8]) -> Vec<Listed> {
    let mut found: Vec<Listed> = Vec::new();
    let mut place = 0;
    while let Step::Line { key, value, next } = next_line(listing, place) {
        match &key[..] {
            b"parameter" => found.push((value, Vec::new())),
            b"parameter-sort" | b"parameter-function" | b"origin" => {
                if let Some((_, lines)) = found.last_mut() {
                    lines.extend_from_slice(&listing[place..next]);
                }
            }
            b"sort" | b"function" | b"module" => {}
            _ => break,
        }
        place = next;
    }
    found
}
