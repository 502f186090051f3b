//! Texts at each size of document 01, one below it and beyond it ("The text", sizes). The last module is `M`.

use crate::names;
use crate::random::Random;
use reference::{normalise, Lent, Texts};

/// A way to write a text of a wanted size.
type Writer = fn(usize, &mut Random) -> String;

/// Each limit with the writer of its texts.
const LIMITS: [(&str, usize, Writer); 42] = [
    ("modules", 64, modules),
    ("name", 40, one_name),
    ("closing name", 40, closing_name),
    ("text", 32_768, text_bytes),
    ("text in a comment", 32_768, comment_bytes),
    ("imports", 16, imports),
    ("bindings", 4, bindings),
    ("renaming pairs", 32, renaming_pairs),
    ("binding pairs", 32, binding_pairs),
    ("conditions behind", 8, conditions_behind),
    ("conditions before", 8, conditions_before),
    ("list before nothing", 8, list_before_nothing),
    ("nodes", 64, nodes),
    ("nodes in conditions", 64, condition_nodes),
    ("arguments", 8, arguments),
    ("inputs", 8, inputs),
    ("depth of arguments", 15, argument_depth),
    ("depth of brackets", 15, bracket_depth),
    ("parameters", 8, parameters),
    ("parameters met", 8, parameters_met),
    ("parameters that are one", 8, parameters_one),
    ("parameters on the way", 8, parameters_on_the_way),
    ("items", 512, items),
    ("items met", 512, items_met),
    ("equations", 256, equations),
    ("equations met", 256, equations_met),
    ("items in all", 1_024, items_in_all),
    ("equations in all", 512, equations_in_all),
    ("nodes in all", 4_096, nodes_in_all),
    ("listing", 65_536, listing_bytes),
    ("operator", 40, one_operator),
    ("operators", 64, operators),
    ("operators in conditions", 64, condition_operators),
    ("arguments with operators", 8, operator_arguments),
    ("conditions with operators", 8, operator_conditions),
    ("renaming pairs of operators", 32, operator_renaming),
    ("binding pairs of operators", 32, operator_binding),
    ("brackets of operators", 15, operator_brackets),
    ("operators to the brim", 32_768, operators_to_the_brim),
    ("pairs to the brim", 32_768, pairs_to_the_brim),
    ("items with operators", 512, operator_items),
    ("listing with operators", 65_536, operator_listing),
];

/// A text at a limit, just below or just beyond; now and then far beyond.
pub fn text(random: &mut Random) -> Vec<u8> {
    let (_, limit, writer) = LIMITS[random.below(LIMITS.len())];
    let far = if limit < 100 && random.chance(10) {
        random.between(2, 9)
    } else {
        1
    };
    let size = match random.below(5) {
        0 => limit - 1,
        1 | 2 => limit,
        _ => limit + far,
    };
    writer(size, random).into_bytes()
}

fn repeat(count: usize, separator: &str, element: impl Fn(usize) -> String) -> String {
    let elements: Vec<String> = (0..count).map(element).collect();
    elements.join(separator)
}

fn modules(size: usize, random: &mut Random) -> String {
    let behind = if random.chance(20) { " ." } else { "" };
    let last = format!("module M begin end M{behind}");
    let text = repeat(size - 1, "\n", |index| {
        format!("module M{index} begin end M{index}")
    });
    format!("{text}\n{last}")
}

/// A name of the wanted length in one of the places where names stand.
fn one_name(size: usize, random: &mut Random) -> String {
    let long = String::from_utf8(names::long(size, random)).expect("names are of ASCII letters");
    let inside = match random.below(10) {
        0 => format!("parameters {long} begin end {long}"),
        1 => format!("exports begin sorts {long} end"),
        2 => format!("exports begin sorts A functions {long}: -> A end"),
        3 => format!("sorts A variables {long}: -> A"),
        4 => format!("sorts A variables x: -> A equations [{long}] x = x"),
        5 => format!("imports N {{ renamed by [S -> {long}] }}"),
        6 => format!("imports N {{ renamed by [{long} -> S] }}"),
        7 => format!("imports {long}"),
        8 => format!("sorts A variables x: -> A equations [e] x = {long}"),
        _ => format!("functions f: {long} -> {long} sorts"),
    };
    format!("module N begin exports begin sorts S end end N module M begin {inside} end M")
}

/// A closing name that begins like the opening one, which is never too long itself.
fn closing_name(size: usize, random: &mut Random) -> String {
    let long = String::from_utf8(names::long(size, random)).expect("names are of ASCII letters");
    let opening = &long[..size.min(40)];
    let opening = opening.trim_end_matches('-');
    format!("module {opening} begin end {long} module M begin end M")
}

fn text_bytes(size: usize, random: &mut Random) -> String {
    let layout = if random.chance(50) { " " } else { "\n" };
    let start = "module M begin sorts A end M";
    format!("{start}{}", layout.repeat(size - start.len()))
}

fn comment_bytes(size: usize, random: &mut Random) -> String {
    let (start, end) = ("module M begin --", "--end M");
    let inside = if random.chance(50) { "x" } else { " " };
    format!(
        "{start}{}{end}",
        inside.repeat(size - start.len() - end.len())
    )
}

fn imports(size: usize, random: &mut Random) -> String {
    let last = if random.chance(20) { ", sorts" } else { "" };
    format!(
        "module N begin exports begin sorts S end end N module M begin imports {}{last} end M",
        repeat(size, ",", |_| "N".to_string())
    )
}

fn bindings(size: usize, random: &mut Random) -> String {
    let parameters = repeat(6, ",", |index| {
        format!("P{index} begin sorts X{index} end P{index}")
    });
    let bound = repeat(size, " ", |index| {
        format!("P{index} bound by [X{index}->S] to N")
    });
    let renamed = match random.below(3) {
        0 => ("renamed by [X5->Z]", ""),
        1 => ("", "renamed by [S->Z]"),
        _ => ("", ""),
    };
    format!(
        "module N begin exports begin sorts S end end N module G begin parameters {parameters} end G \
         module M begin imports G {{ {} {bound} {} }} end M",
        renamed.0, renamed.1
    )
}

fn renaming_pairs(size: usize, _: &mut Random) -> String {
    let sorts = repeat(40, ",", |index| format!("s{index}"));
    let pairs = repeat(size, ",", |index| format!("s{index}->t{index}"));
    format!(
        "module N begin exports begin sorts {sorts} end end N \
         module M begin imports N {{ renamed by [{pairs}] }} end M"
    )
}

fn binding_pairs(size: usize, random: &mut Random) -> String {
    let sorts = repeat(if random.chance(50) { size } else { 32 }, ",", |index| {
        format!("s{index}")
    });
    let pairs = repeat(size, ",", |index| format!("s{index}->S"));
    format!(
        "module N begin exports begin sorts S end end N \
         module G begin parameters P begin sorts {sorts} end P end G \
         module M begin imports G {{ P bound by [{pairs}] to N }} end M"
    )
}

/// The module `M` with one sort, a function of two arguments, variables and the given equations.
fn with_equations(equations: &str) -> String {
    format!(
        "module M begin exports begin sorts A functions f: A -> A g: A#A -> A end \
         variables x, y: -> A equations {equations} end M"
    )
}

fn conditions_behind(size: usize, random: &mut Random) -> String {
    let bracket = if random.chance(20) { "(x)" } else { "x" };
    let conditions = repeat(size, ",", |_| format!("{bracket}=y"));
    with_equations(&format!("[e] x=y when {conditions}"))
}

fn conditions_before(size: usize, random: &mut Random) -> String {
    let implication = if random.chance(50) { "==>" } else { "==\n" };
    let conditions = repeat(size, ",", |_| "x=y".to_string());
    with_equations(&format!("[e] {conditions}{implication}x=y"))
}

fn list_before_nothing(size: usize, random: &mut Random) -> String {
    let behind = if random.chance(50) { "" } else { ",," };
    let conditions = repeat(size, ",", |_| "x=y".to_string());
    with_equations(&format!("[e] {conditions}{behind} [d] x=x"))
}

/// A term of exactly so many nodes, not deep.
fn term(nodes: usize) -> String {
    match nodes {
        0 | 1 => "x".to_string(),
        even if even % 2 == 0 => format!("f({})", term(even - 1)),
        odd => {
            let half = (odd - 1) / 2;
            format!("g({},{})", term(half), term(odd - 1 - half))
        }
    }
}

fn nodes(size: usize, random: &mut Random) -> String {
    let left = random.between(1, size - 1);
    let (left, right) = (term(left), term(size - left));
    match random.below(3) {
        0 => with_equations(&format!("[e] (({left}))=({right})")),
        _ => with_equations(&format!("[e] {left}={right}")),
    }
}

fn condition_nodes(size: usize, random: &mut Random) -> String {
    let conclusion = random.between(2, size - 5);
    let (first, second) = (term(conclusion), term(size - 4 - conclusion));
    match random.below(2) {
        0 => with_equations(&format!("[e] x={first} when x=y,{second}=x")),
        _ => with_equations(&format!("[e] x={first},x=y==>{second}=y")),
    }
}

fn arguments(size: usize, random: &mut Random) -> String {
    let inputs = repeat(size.min(8), "#", |_| "A".to_string());
    let bracket = if random.chance(20) { "(x)" } else { "x" };
    let arguments = repeat(size, ",", |_| bracket.to_string());
    format!(
        "module M begin sorts A functions f: {inputs} -> A variables x: -> A \
         equations [e] x = f({arguments}) end M"
    )
}

fn inputs(size: usize, random: &mut Random) -> String {
    let behind = if random.chance(20) { "#" } else { "" };
    let inputs = repeat(size, "#", |_| "A".to_string());
    format!("module M begin sorts A functions f: {inputs}{behind} -> A end M")
}

fn argument_depth(size: usize, random: &mut Random) -> String {
    let (open, close) = ("f(".repeat(size), ")".repeat(size));
    match random.below(2) {
        0 => with_equations(&format!("[e] {open}x{close}=x")),
        _ => with_equations(&format!("[e] x=y when x={open}x{close}")),
    }
}

fn bracket_depth(size: usize, random: &mut Random) -> String {
    let within = random.below(size.min(5));
    let open = format!("{}{}", "f(".repeat(within), "(".repeat(size - within));
    with_equations(&format!("[e] x={open}x{}", ")".repeat(size)))
}

fn parameter(index: usize) -> String {
    format!("P{index} begin sorts X{index} end P{index}")
}

fn parameters(size: usize, _: &mut Random) -> String {
    format!(
        "module M begin parameters {} end M",
        repeat(size, ",", parameter)
    )
}

fn parameters_met(size: usize, random: &mut Random) -> String {
    let own = random.between(1, size - 1);
    let imported = repeat(size - own, ",", parameter);
    let parameters = repeat(own, ",", |index| parameter(size - 1 - index));
    match random.below(2) {
        0 => format!(
            "module N begin parameters {imported} end N \
             module M begin parameters {parameters} imports N end M"
        ),
        _ => format!(
            "module N begin parameters {imported} end N \
             module K begin parameters {parameters} end K module M begin imports N, K {} end M",
            trouble(random)
        ),
    }
}

/// Some parameters arrive by two ways and count once, by imports or from the module that one more is bound to.
fn parameters_one(size: usize, random: &mut Random) -> String {
    let twice = random.between(1, size - 1);
    let shared = repeat(twice, ",", parameter);
    let others = repeat(size - twice, ",", |index| parameter(twice + index));
    let imports = match random.below(3) {
        0 => "N, K",
        1 => "K, N, K",
        _ => "B { P bound by [X -> S] to K }",
    };
    format!(
        "module N begin parameters {shared} end N \
         module K begin parameters {others} exports begin sorts S end imports N end K \
         module B begin parameters P begin sorts X end P imports N end B \
         module M begin imports {imports} end M"
    )
}

/// Something that is refused once the module's own are joined: what is beyond a size before that is told first.
fn trouble(random: &mut Random) -> &'static str {
    match random.below(5) {
        0 => "variables t: -> Nowhere",
        1 => "sorts t variables t, t: -> t",
        _ => "",
    }
}

/// So many parameters after the first of two bindings, one fewer after the second.
fn parameters_on_the_way(size: usize, random: &mut Random) -> String {
    let first = random.between(2, size - 1);
    let one = repeat(first, ",", parameter);
    let other = repeat(size + 1 - first, ",", |index| parameter(20 + index));
    format!(
        "module C begin exports begin sorts S end end C module N begin parameters {one} end N \
         module K begin parameters {other} end K \
         module M begin imports N {{ P0 bound by [X0->X20] to K P1 bound by [X1->S] to C }} end M"
    )
}

/// So many items of all kinds, whose names begin with the letter.
fn declared(letter: &str, size: usize, random: &mut Random) -> String {
    let sorts = random.between(1, size - 2);
    let functions = random.between(1, size - sorts - 1);
    let variables = size - sorts - functions;
    let visible = random.chance(50);
    let (open, close) = if visible {
        ("exports begin", "end")
    } else {
        ("", "")
    };
    format!(
        "{open} sorts {} functions {} {close} variables {}: -> {letter}0",
        repeat(sorts, ",", |index| format!("{letter}{index}")),
        repeat(functions, " ", |index| format!(
            "{letter}f{index}:->{letter}0"
        )),
        repeat(variables, ",", |index| format!("{letter}v{index}")),
    )
}

fn items(size: usize, random: &mut Random) -> String {
    let ill_typed = if random.chance(25) {
        "equations [bad] nothing = nothing"
    } else {
        ""
    };
    let declared = declared("a", size, random);
    format!("module M begin {declared} {ill_typed} end M")
}

fn items_met(size: usize, random: &mut Random) -> String {
    let first = random.between(3, size - 3);
    let (one, other) = (
        declared("a", first, random),
        declared("b", size - first, random),
    );
    format!(
        "module N begin {one} end N module K begin {other} end K module M begin imports N, K {} end M",
        trouble(random)
    )
}

fn some_equations(count: usize) -> String {
    repeat(count, " ", |_| "[e]x=x".to_string())
}

fn equations(size: usize, _: &mut Random) -> String {
    with_equations(&some_equations(size))
}

fn equations_met(size: usize, random: &mut Random) -> String {
    let first = random.between(1, size - 1);
    let one = some_equations(first);
    let other = some_equations(size - first);
    format!(
        "module N begin exports begin sorts A end variables x: -> A equations {one} end N \
         module M begin imports N variables x: -> A equations {other} end M"
    )
}

/// Three modules, each importing the one before: what the first adds counts three times, the second's twice. The
/// first is so large that the last keeps within the size of one normal form.
fn in_all(size: usize, random: &mut Random) -> [usize; 3] {
    let first = size / 4 + random.below(size / 40);
    let second = size / 20 + random.below(size / 40);
    [first, second, size - 3 * first - 2 * second]
}

fn items_in_all(size: usize, random: &mut Random) -> String {
    let [first, second, third] = in_all(size, random);
    let (one, two, three) = (
        declared("a", first, random),
        declared("b", second, random),
        declared("c", third, random),
    );
    chain(&one, &with_import(&two, "K"), &with_import(&three, "L"))
}

/// The import put where the grammar has it: behind the exports, before all else.
fn with_import(declared: &str, module: &str) -> String {
    match declared.split_once(" end ") {
        Some((exports, rest)) => format!("{exports} end imports {module} {rest}"),
        None => format!("imports {module} {declared}"),
    }
}

fn chain(one: &str, two: &str, three: &str) -> String {
    format!("module K begin {one} end K module L begin {two} end L module M begin {three} end M")
}

fn equations_in_all(size: usize, random: &mut Random) -> String {
    let [first, second, third] = in_all(size, random);
    counted_chain([first, second, third].map(some_equations))
}

fn nodes_in_all(size: usize, random: &mut Random) -> String {
    counted_chain(in_all(size, random).map(equations_of_nodes))
}

fn counted_chain(equations: [String; 3]) -> String {
    let [one, two, three] = equations;
    let ground = "exports begin sorts A functions f: A -> A g: A#A -> A end variables x: -> A";
    chain(
        &format!("{ground} equations {one}"),
        &format!("imports K variables x: -> A equations {two}"),
        &format!("imports L variables x: -> A equations {three}"),
    )
}

/// Equations with so many nodes in all, each within its own limit.
fn equations_of_nodes(total: usize) -> String {
    let mut left = total;
    let mut text = String::new();
    while left > 1 {
        let nodes = if left > 64 { 62 } else { left };
        text.push_str(&format!("[e] x={} ", term(nodes - 1)));
        left -= nodes;
    }
    text
}

/// A text whose listing has exactly so many bytes: long types bring it near, tags fill it up.
fn listing_bytes(size: usize, random: &mut Random) -> String {
    let long = "S".repeat(40);
    let inputs = repeat(8, "#", |_| long.clone());
    let count = random.between(75, 80);
    let functions = repeat(count, " ", |index| format!("f{index}:{inputs}->{long}"));
    listing_over(size, &long, &functions)
}

/// The same by names of 42 bytes.
fn operator_listing(size: usize, random: &mut Random) -> String {
    let long = "S".repeat(40);
    let count = random.between(160, 170);
    let functions = repeat(count, " ", |index| {
        let operator = format!("{}{index:03}", "o".repeat(35));
        format!("_.{operator}._:{long}#{long}->{long}")
    });
    listing_over(size, &long, &functions)
}

fn listing_over(size: usize, long: &str, functions: &str) -> String {
    let ground =
        format!("exports begin sorts {long} functions {functions} end variables x: -> {long}");
    let with = |equations: &str| format!("module M begin {ground} equations {equations} end M");
    let one = listing_length(&with("[e] x=x"));
    let each = listing_length(&with("[e] x=x [e] x=x")) - one;
    let mut left = size - (one - each);
    let mut equations = String::new();
    while left > 0 {
        let length = if left > each + 80 {
            each + 30
        } else {
            left / 2
        };
        let length = if left < each + 40 { left } else { length };
        equations.push_str(&format!("[{}]x=x", "e".repeat(length + 1 - each)));
        left -= length;
    }
    with(&equations)
}

fn listing_length(text: &str) -> usize {
    let texts = Texts::alone(text.as_bytes());
    normalise(b"M", texts, Lent::output(usize::MAX))
        .listing
        .len()
}

/// An operator of the wanted length in one of the places where operators stand.
fn one_operator(size: usize, random: &mut Random) -> String {
    let long = String::from_utf8(names::long_operator(size, random)).expect("operators are ASCII");
    let inside = match random.below(8) {
        0 => format!("exports begin sorts A functions {long}_: A -> A end"),
        1 => format!("exports begin sorts A functions _{long}_: A#A -> A end"),
        2 => format!("sorts A functions _ {long} _: A#A -> A"),
        3 => format!("imports N {{ renamed by [_+_ -> _{long}_] }}"),
        4 => format!("imports N {{ renamed by [{long}_ -> f] }}"),
        5 => format!("imports N equations [e] {long} a = a"),
        6 => format!("imports N equations [e] a = a {long}a"),
        _ => format!("sorts A functions {long}_: A -> A {long}_: A -> A"),
    };
    let exported = "sorts S functions a: -> S _+_: S#S -> S";
    format!("module N begin exports begin {exported} end end N module M begin {inside} end M")
}

/// The module `M` with operators, variables and the given equations.
fn with_operators(equations: &str) -> String {
    format!(
        "module M begin exports begin sorts A functions f: A -> A g: A#A -> A _+_: A#A -> A _.o._: A#A -> A -_: A -> A end \
         variables x, y: -> A equations {equations} end M"
    )
}

/// A term of exactly so many nodes by operators, in brackets where it must be; the fewer brackets may open, the more it is a row.
fn operator_term(nodes: usize, open: usize, random: &mut Random) -> String {
    match nodes {
        0 | 1 => "x".to_string(),
        2 => "- x".to_string(),
        _ if open > 0 && random.chance(15) => {
            format!("-({})", operator_term(nodes - 1, open - 1, random))
        }
        _ => {
            let right = if open > 0 && random.chance(30) {
                random.between(1, nodes - 2)
            } else {
                1
            };
            let left = operator_term(nodes - 1 - right, open, random);
            let operator = if random.chance(50) { "+" } else { " .o. " };
            match right {
                1 => format!("{left}{operator}x"),
                _ => {
                    let inside = operator_term(right, open - 1, random);
                    format!("{left}{operator}({inside})")
                }
            }
        }
    }
}

fn operators(size: usize, random: &mut Random) -> String {
    let open = [0, 3, 15][random.below(3)];
    let left = random.between(1, size - 1);
    let (left, right) = (
        operator_term(left, open, random),
        operator_term(size - left, open, random),
    );
    with_operators(&format!("[e] {left}={right}"))
}

fn condition_operators(size: usize, random: &mut Random) -> String {
    let conclusion = random.between(2, size - 5);
    let (first, second) = (
        operator_term(conclusion, 5, random),
        operator_term(size - 4 - conclusion, 5, random),
    );
    match random.below(2) {
        0 => with_operators(&format!("[e] x={first} when x=y,{second}=x")),
        _ => with_operators(&format!("[e] x={first},x=y==>{second}=y")),
    }
}

/// A term, more often than not one that begins with an operator.
fn operator_or_not(random: &mut Random) -> String {
    ["-x", "- x", "-x+x", "x+x", "x"][random.below(5)].to_string()
}

fn operator_arguments(size: usize, random: &mut Random) -> String {
    let inputs = repeat(size.min(8), "#", |_| "A".to_string());
    let arguments: Vec<String> = (0..size).map(|_| operator_or_not(random)).collect();
    format!(
        "module M begin sorts A functions f: {inputs} -> A _+_: A#A -> A -_: A -> A variables x: -> A \
         equations [e] x = f({}) end M",
        arguments.join(",")
    )
}

fn operator_conditions(size: usize, random: &mut Random) -> String {
    let conditions: Vec<String> = (0..size)
        .map(|_| format!("{}=y", operator_or_not(random)))
        .collect();
    match random.below(2) {
        0 => with_operators(&format!("[e] x=y when {}", conditions.join(","))),
        _ => with_operators(&format!("[e] {}==>x=y", conditions.join(","))),
    }
}

/// A pair for the operator of this number: to an operator, or to a plain name.
fn operator_pair(index: usize) -> String {
    match index % 3 {
        0 => format!("_.s{index}._->_.t{index}._"),
        1 => format!("_ .s{index}. _->t{index}"),
        _ => format!("_.s{index}._ -> _ .t{index}._"),
    }
}

fn operator_renaming(size: usize, _: &mut Random) -> String {
    let declared = repeat(40, "", |index| format!("_.s{index}._:A#A->A"));
    let pairs = repeat(size, ",", operator_pair);
    format!(
        "module N begin exports begin sorts A functions {declared} end end N \
         module M begin imports N {{ renamed by [{pairs}] }} end M"
    )
}

fn operator_binding(size: usize, random: &mut Random) -> String {
    let prefix = random.chance(50);
    let formals = repeat(
        if random.chance(50) { size } else { 32 } - 1,
        "",
        |index| match prefix {
            true => format!(".s{index}._:X->X"),
            false => format!("_.s{index}._:X#X->X"),
        },
    );
    let pairs = repeat(size - 1, ",", |index| match prefix {
        true => format!(".s{index}._->neg"),
        false => format!("_.s{index}._->_+_"),
    });
    format!(
        "module N begin exports begin sorts S functions neg: S -> S _+_: S#S -> S end end N \
         module G begin parameters P begin sorts X functions {formals} end P end G \
         module M begin imports G {{ P bound by [X->S,{pairs}] to N }} end M"
    )
}

fn operator_brackets(size: usize, random: &mut Random) -> String {
    let opened: String = (0..size)
        .map(|_| ["-(", "x+(", "f(", "-x+("][random.below(4)])
        .collect();
    with_operators(&format!("[e] {opened}x{}=x", ")".repeat(size)))
}

/// So many bytes with as many tokens as they hold, in a module that is not reached.
fn operators_to_the_brim(size: usize, random: &mut Random) -> String {
    let row = format!("[e]{}x=x", "x+".repeat(62));
    let (start, element) = [
        ("functions", "-_:A->A"),
        ("functions", "_+_:A#A->A"),
        ("equations", "[e]-x=-x"),
        ("equations", "[e]x+x=x"),
        ("equations", &row),
    ][random.below(5)];
    let (start, end) = (
        format!("module D begin {start} "),
        "end D module M begin end M",
    );
    let count = (size - start.len() - end.len() - 1) / element.len();
    filled(size, &format!("{start}{} {end}", element.repeat(count)))
}

/// The same by pairs: 16 imports with 32 of them, in as many modules as there is room for.
fn pairs_to_the_brim(size: usize, _: &mut Random) -> String {
    let pairs = repeat(32, ",", |_| "-_->_+_".to_string());
    let imports = repeat(16, ",", |_| format!("N{{renamed by[{pairs}]}}"));
    let modules = repeat(7, " ", |index| {
        format!("module D{index} begin imports {imports} end D{index}")
    });
    filled(size, &format!("{modules} module M begin end M"))
}

/// The text with layout behind it.
fn filled(size: usize, text: &str) -> String {
    format!("{text}{}", " ".repeat(size.saturating_sub(text.len())))
}

/// So many items, most of them operators.
fn operator_items(size: usize, random: &mut Random) -> String {
    let functions = repeat(size - 2, "", |index| match index % 2 {
        0 => format!("_.a{index}._:A#A->A"),
        _ => format!(".a{index}._:A->A"),
    });
    let (open, close) = if random.chance(50) {
        ("exports begin", "end")
    } else {
        ("", "")
    };
    format!("module M begin {open} sorts A functions {functions} {close} variables x: -> A end M")
}

#[cfg(test)]
mod tests {
    use super::*;
    use reference::OUTPUT_BYTES;

    fn number(text: &str) -> u32 {
        let texts = Texts::alone(text.as_bytes());
        normalise(b"M", texts, Lent::output(OUTPUT_BYTES)).number
    }

    /// What is at its limit is accepted unless the writer put something wrong in; what is beyond never is.
    #[test]
    fn limits_are_met_exactly() {
        for (name, limit, writer) in LIMITS {
            let at = |size: usize| {
                (0..24)
                    .map(|seed| number(&writer(size, &mut Random::new(seed))))
                    .collect::<Vec<u32>>()
            };
            assert!(
                at(limit).contains(&0) || name == "list before nothing",
                "{name}"
            );
            assert!(!at(limit + 1).contains(&0), "{name}");
        }
    }

    #[test]
    fn listings_have_the_wanted_length() {
        for size in [65_535, 65_536, 65_537] {
            let text = listing_bytes(size, &mut Random::new(size as u64));
            assert_eq!(listing_length(&text), size);
        }
    }
}
