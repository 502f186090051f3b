//! What a module shows, read from the reference's own listing: the ground on which further modules are drafted.

use crate::spelling;
use reference::syntax::*;
use reference::{next_line, normalise, Lent, Step, Texts};

#[derive(Clone, Debug, Default)]
pub struct View {
    pub sorts: Vec<Name>,
    pub functions: Vec<FunctionDeclaration>,
    pub parameters: Vec<Parameter>,
}

/// The visible part of a module of a specification; none where it is refused.
pub fn view(specification: &Specification, module: &Name) -> Option<View> {
    let text = spelling::plain(specification);
    let answer = normalise(module, Texts::alone(&text), Lent::output(usize::MAX));
    (answer.number == 0).then(|| read(&answer.listing))
}

fn read(listing: &[u8]) -> View {
    let mut view = View::default();
    let mut place = 0;
    while let Step::Line { key, value, next } = next_line(listing, place) {
        place = next;
        match &key[..] {
            b"parameter" => view.parameters.push(Parameter {
                name: value,
                signature: Signature::default(),
            }),
            b"sort" => view.sorts.push(value),
            b"function" => view.functions.push(function(&value)),
            b"parameter-sort" => {
                view.sorts.push(value.clone());
                last(&mut view).sorts.push(value);
            }
            b"parameter-function" => {
                view.functions.push(function(&value));
                last(&mut view).functions.push(function(&value));
            }
            _ => {}
        }
    }
    view
}

fn last(view: &mut View) -> &mut Signature {
    let parameter = view.parameters.last_mut();
    &mut parameter.expect("a parameter's line comes first").signature
}

/// `f:A#B->C`
fn function(value: &[u8]) -> FunctionDeclaration {
    let text = String::from_utf8_lossy(value);
    let (name, typed) = text.split_once(':').expect("a function's line has a colon");
    let (inputs, output) = typed.split_once("->").expect("and an arrow");
    let sorts = inputs.split('#').filter(|sort| !sort.is_empty());
    FunctionDeclaration {
        name: name.as_bytes().to_vec(),
        inputs: sorts.map(|sort| sort.as_bytes().to_vec()).collect(),
        output: output.as_bytes().to_vec(),
    }
}
