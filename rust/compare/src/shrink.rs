//! A case on which two implementations differ, made smaller while they still do.

use crate::cases::Case;
use crate::spelling::plain;
use reference::syntax::*;

/// Makes the customer's text smaller, then the library.
pub fn shrink(case: &Case, differs: impl Fn(&Case) -> bool) -> Case {
    let with_text = |text: Vec<u8>| Case {
        text,
        ..case.clone()
    };
    let case = with_text(smaller(&case.text, |text| differs(&with_text(text))));
    let with_library = |library: Vec<u8>| Case {
        library,
        ..case.clone()
    };
    with_library(smaller(&case.library, |library| {
        differs(&with_library(library))
    }))
}

/// Takes parts out of a text that can be read, else bytes.
fn smaller(text: &[u8], differs: impl Fn(Vec<u8>) -> bool) -> Vec<u8> {
    if let Ok(specification) = reference::read(text) {
        let still = |smaller: &Specification| differs(plain(smaller));
        if still(&specification) {
            return plain(&fewer_parts(specification, still));
        }
    }
    fewer_bytes(text.to_vec(), |smaller| differs(smaller.to_vec()))
}

/// Two rounds: what a later part kept in place may go when that part is gone.
fn fewer_parts(
    mut smallest: Specification,
    still: impl Fn(&Specification) -> bool,
) -> Specification {
    for _ in 0..2 {
        let mut part = 0;
        loop {
            let mut smaller = smallest.clone();
            if !Cut::new(part).specification(&mut smaller) {
                break;
            }
            if still(&smaller) {
                smallest = smaller;
            } else {
                part += 1;
            }
        }
    }
    smallest
}

/// Counts through the parts of a specification, large ones first, and takes one of them out.
struct Cut {
    left: usize,
    done: bool,
}

impl Cut {
    fn new(part: usize) -> Cut {
        Cut {
            left: part,
            done: false,
        }
    }

    fn from<T>(&mut self, parts: &mut Vec<T>) {
        if self.done {
            return;
        }
        if self.left < parts.len() {
            parts.remove(self.left);
            self.done = true;
        } else {
            self.left -= parts.len();
        }
    }

    /// A list that must keep one element.
    fn but_one<T>(&mut self, parts: &mut Vec<T>) {
        if parts.len() > 1 {
            self.from(parts);
        }
    }

    fn specification(mut self, specification: &mut Specification) -> bool {
        self.but_one(&mut specification.modules);
        for module in &mut specification.modules {
            self.module(module);
        }
        self.done
    }

    fn module(&mut self, module: &mut Module) {
        self.from(&mut module.equations);
        self.from(&mut module.imports);
        self.from(&mut module.parameters);
        self.from(&mut module.variables);
        self.signature(&mut module.exports);
        self.signature(&mut module.hidden);
        for parameter in &mut module.parameters {
            self.signature(&mut parameter.signature);
        }
        for expression in &mut module.imports {
            self.from(&mut expression.clauses);
            for clause in &mut expression.clauses {
                match clause {
                    Clause::Renaming(pairs) => self.but_one(pairs),
                    Clause::Binding(binding) => self.but_one(&mut binding.pairs),
                }
            }
        }
        for equation in &mut module.equations {
            self.from(&mut equation.conditions);
        }
    }

    fn signature(&mut self, signature: &mut Signature) {
        self.from(&mut signature.functions);
        self.from(&mut signature.sorts);
    }
}

/// Takes out runs of bytes, long ones first; for a long text not down to the last byte.
fn fewer_bytes(mut smallest: Vec<u8>, still: impl Fn(&[u8]) -> bool) -> Vec<u8> {
    let mut length = smallest.len() / 2;
    let mut attempts = 0;
    while length > 0 {
        let mut start = 0;
        while start < smallest.len() {
            attempts += 1;
            if attempts > 3_000 {
                return smallest;
            }
            let mut smaller = smallest.clone();
            smaller.drain(start..(start + length).min(smallest.len()));
            if still(&smaller) {
                smallest = smaller;
            } else {
                start += length;
            }
        }
        length /= 2;
    }
    smallest
}
