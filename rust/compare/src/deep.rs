//! Texts made to take much stack: whatever goes down step by step, modules, imports, clauses, terms and conditions, goes as far as it may, in
//! the last of 64 modules that stand one above the other.

use crate::loads::{divided, joined, load, Load};
use reference::MODULES;

pub fn deep_loads() -> Vec<Load> {
    vec![
        load("deep terms", "Top", deep_terms()),
        load("deep operators", "Top", deep_operators()),
        load("deep operands", "Top", deep_operands()),
        load("deep twins", "Top", deep_twins()),
        load("deep imports", "Top", deep_imports()),
        divided("deep terms, divided", "Top", deep_terms()),
        divided("deep operators, divided", "Top", deep_operators()),
        divided("deep operands, divided", "Top", deep_operands()),
        divided("deep twins, divided", "Top", deep_twins()),
        divided("deep imports, divided", "Top", deep_imports()),
    ]
}

/// The first modules, then modules of which each imports the one before it, and the last, which imports them and more.
fn last_of_64(first: &[String], last: &str) -> String {
    let between = MODULES - first.len() - 1;
    let chain = joined(between, "\n", |module| match module {
        0 => "module m0 begin end m0".to_string(),
        _ => format!(
            "module m{module} begin imports m{} end m{module}",
            module - 1
        ),
    });
    let first = first.join("\n");
    format!(
        "{first}\n{chain}\nmodule Top begin imports m{},{last} end Top\n",
        between - 1
    )
}

/// Terms 16 deep. Those of another module come to the last under two names, so that equations are ordered by what they are written as.
fn deep_terms() -> String {
    let equations = deep_equations();
    let exported = "sorts A functions four: A#A#A#A->A three: A#A#A->A";
    let deep = format!("module Deep begin exports begin {exported} end {equations} end Deep");
    last_of_64(
        &[deep],
        &format!("Deep,Deep {{renamed by [four->quartet,three->trio]}} {equations}"),
    )
}

/// As deep and as wide as 64 nodes allow, in a conclusion and in the last of eight conditions.
fn deep_equations() -> String {
    let (four, three) = (deep_term("four", 4), deep_term("three", 3));
    let conditions = "x=x,".repeat(7);
    format!("variables x: -> A equations [d] {four}=x [e] x=x when {conditions}{three}=x")
}

/// Its last argument has the next level, so that all others stand before it.
fn deep_term(function: &str, arguments: usize) -> String {
    let open = format!("{function}({}", "x,".repeat(arguments - 1));
    format!("{}x{}", open.repeat(15), ")".repeat(15))
}

/// Terms by operators, deeper as trees than brackets alone may go.
fn deep_operators() -> String {
    by_operators(&deep_row(62), &deep_row(46))
}

/// Second operands in 15 brackets, and one more inside the last: what is typed by functions that call themselves is as deep as it may be.
fn deep_operands() -> String {
    let nested = format!("{}x+x{}=x", "x+(".repeat(15), ")".repeat(15));
    by_operators(&nested, &nested)
}

/// As deep, in an equation that comes to the last module twice and differs in its innermost name alone: to be ordered it is written to its end.
fn deep_twins() -> String {
    let nested = format!("{}c+b{}", "c+(".repeat(15), ")".repeat(15));
    let exported = "sorts A functions _+_: A#A->A c: ->A b: ->A";
    let deep =
        format!("module Deep begin exports begin {exported} end equations [d] {nested}=c end Deep");
    last_of_64(&[deep], "Deep,Deep {renamed by [b->e]}")
}

/// Two equations, one as a condition. They come to the last module under two names, as above.
fn by_operators(conclusion: &str, condition: &str) -> String {
    let equations = format!(
        "variables x: -> A equations [d] {conclusion} [e] x=x when {}{condition}",
        "x=x,".repeat(7)
    );
    let exported = "sorts A functions _+_: A#A->A -_: A->A";
    let deep = format!("module Deep begin exports begin {exported} end {equations} end Deep");
    last_of_64(
        &[deep],
        &format!("Deep,Deep {{renamed by [_+_->plus,-_->neg]}} {equations}"),
    )
}

/// So many nodes, as deep as they go: 15 brackets, each behind an operator, and inside them operands in a row.
fn deep_row(nodes: usize) -> String {
    let row = format!("-x{}", "+x".repeat((nodes - 17) / 2));
    format!("{}{row}{}=x", "-(".repeat(15), ")".repeat(15))
}

/// 16 imports, the last of them with as many clauses as there may be, over functions of eight inputs; a parameter arrives with each import and
/// with each binding, and is one.
fn deep_imports() -> String {
    let asked = format!("sorts Y functions q: {}->Y", eight("Y", "#"));
    let shared = format!("module Shared begin parameters Q begin {asked} end Q end Shared");
    let exported = format!("sorts A functions f: {}->A", eight("A", "#"));
    let actual = format!(
        "module Actual begin exports begin {exported} end imports Shared {} end Actual",
        hidden_items("A")
    );
    let parameters = joined(4, ",", |p| {
        let sort = format!("X{p}");
        format!(
            "P{p} begin sorts {sort} functions p{p}: {}->{sort} end P{p}",
            eight(&sort, "#")
        )
    });
    let shown = "sorts G functions g: X0#X1#X2#X3#X0#X1#X2#X3->G";
    let generic = format!(
        "module Generic begin parameters {parameters} exports begin {shown} end imports Shared {} end Generic",
        hidden_items("X3")
    );
    let imports = joined(14, ",", |import| {
        format!("Actual {{renamed by [f->f{import}]}}")
    });
    let bindings = joined(4, " ", |p| {
        format!("P{p} bound by [X{p}->A,p{p}->f] to Actual")
    });
    last_of_64(
        &[shared, actual, generic],
        &format!("{imports},Generic {{renamed by [g->g'] {bindings}}}"),
    )
}

fn eight(element: &str, separator: &str) -> String {
    [element; 8].join(separator)
}

/// A sort, a function from eight of the given sort, a variable, and an equation.
fn hidden_items(sort: &str) -> String {
    let (inputs, variables) = (eight(sort, "#"), eight("x", ","));
    format!("sorts H functions h: {inputs}->H variables x: -> {sort} equations [e] h({variables})=h({variables})")
}

#[cfg(test)]
mod tests {
    use super::*;
    use reference::{normalise, Lent, OUTPUT_BYTES};

    /// A text that is refused goes less deep than it should.
    #[test]
    fn deep_loads_are_accepted() {
        for load in deep_loads() {
            let output = Lent::output(OUTPUT_BYTES);
            let answer = normalise(load.asked.as_bytes(), load.texts(), output);
            assert_eq!((answer.number, answer.modules), (0, 64), "{}", load.title);
        }
    }
}
