//! The texts whose times are measured: small ones, a specification near every limit, and texts made to take long; and
//! some of them with a library.

use crate::cases::Case;
use crate::division::divisions;
use reference::{Texts, OUTPUT_BYTES, TEXT_BYTES};

const L: &str = include_str!("../../reference/vectors/appendix/L.in");
const NSTRINGS: &str = include_str!("../../reference/vectors/appendix/3.1-Nstrings.in");

/// A specification with a name for the table and the module that is asked.
pub struct Load {
    pub title: &'static str,
    pub asked: &'static str,
    /// Under an emulator a call takes seconds.
    pub long: bool,
    library: Vec<u8>,
    text: Vec<u8>,
}

impl Load {
    pub fn texts(&self) -> Texts<'_> {
        Texts {
            library: &self.library,
            customer: &self.text,
        }
    }

    pub fn case(&self) -> Case {
        Case {
            asked: self.asked.as_bytes().to_vec(),
            library: self.library.clone(),
            text: self.text.clone(),
            output: OUTPUT_BYTES,
            ..Case::default()
        }
    }

    /// The title, with a hyphen for all between its words.
    pub fn file_name(&self) -> String {
        let between = |letter: char| !letter.is_ascii_alphanumeric();
        let words = self.title.split(between).filter(|word| !word.is_empty());
        format!("{}.in", words.collect::<Vec<&str>>().join("-"))
    }

    fn long(self) -> Load {
        Load { long: true, ..self }
    }
}

pub fn loads() -> Vec<Load> {
    let mut loads = undivided();
    loads.extend([
        divided("L, divided", "M2", of_vector(L)),
        divided("Nstrings, divided", "Nstrings", of_vector(NSTRINGS)),
        divided("near every limit, divided", "Top", near_every_limit()),
        divided(
            "64 modules, each imported 16 times, divided",
            "m63",
            imported_often(),
        ),
    ]);
    loads
}

fn undivided() -> Vec<Load> {
    vec![
        load("L", "M2", of_vector(L)),
        load("Nstrings, section 3.1", "Nstrings", of_vector(NSTRINGS)),
        load("near every limit", "Top", near_every_limit()),
        load(
            "one sort name, 16,000 times",
            "M",
            sorts(&repeated(16_000), true),
        ),
        load("9,000 sorts exported", "M", sorts(&names(9_000), true)).long(),
        load("9,000 sorts hidden", "M", sorts(&names(9_000), false)).long(),
        load("constants to the brim", "M", constants()).long(),
        load("variables to the brim", "M", variables()).long(),
        load("one function over 3,600 types", "M", overloaded()).long(),
        load("terms over 3,000 constants", "M", terms()).long(),
        load(
            "64 modules, each imported 16 times",
            "m63",
            imported_often(),
        ),
        load("15 renamings of 500 sorts", "m1", renamings()),
        load("500 functions of a parameter, 16 times", "m1", met_often()),
    ]
}

/// The text of an input, behind its first line.
fn of_vector(input: &str) -> String {
    let (_, text) = input.split_once('\n').expect("a first line");
    text.to_string()
}

pub fn load(title: &'static str, asked: &'static str, text: String) -> Load {
    assert!(text.len() <= TEXT_BYTES, "{title}: {} bytes", text.len());
    Load {
        title,
        asked,
        long: false,
        library: Vec::new(),
        text: text.into_bytes(),
    }
}

/// Half of the modules stand in the library.
pub fn divided(title: &'static str, asked: &'static str, text: String) -> Load {
    let divisions = divisions(text.as_bytes());
    let half = divisions[divisions.len() / 2];
    Load {
        title,
        asked,
        long: false,
        library: half.library.to_vec(),
        text: half.customer.to_vec(),
    }
}

pub fn joined(count: usize, separator: &str, element: impl Fn(usize) -> String) -> String {
    let elements: Vec<String> = (0..count).map(element).collect();
    elements.join(separator)
}

/// The shortest names, but for the keywords among them.
fn names(count: usize) -> Vec<String> {
    let letters: Vec<char> = ('a'..='z').chain('A'..='Z').chain('0'..='9').collect();
    let mut names: Vec<String> = Vec::new();
    let mut stems = vec![String::new()];
    while names.len() < count {
        let longer = |stem: &String| -> Vec<String> {
            letters
                .iter()
                .map(|letter| format!("{stem}{letter}"))
                .collect()
        };
        stems = stems.iter().flat_map(longer).collect();
        names.extend(
            stems
                .iter()
                .filter(|name| !["to", "by", "end"].contains(&name.as_str()))
                .cloned(),
        );
    }
    names.truncate(count);
    names
}

fn repeated(count: usize) -> Vec<String> {
    vec!["A".to_string(); count]
}

fn sorts(names: &[String], exported: bool) -> String {
    let list = brim(names, ",", 60);
    if exported {
        format!("module M begin exports begin sorts {list} end end M")
    } else {
        format!("module M begin sorts {list} end M")
    }
}

/// As many elements as a text holds beside so many bytes.
fn brim(elements: &[String], separator: &str, beside: usize) -> String {
    let mut text = String::new();
    for element in elements {
        if text.len() + separator.len() + element.len() + beside > TEXT_BYTES {
            break;
        }
        if !text.is_empty() {
            text.push_str(separator);
        }
        text.push_str(element);
    }
    text
}

fn constants() -> String {
    let declared: Vec<String> = names(6_000)
        .iter()
        .map(|name| format!("{name}:->A"))
        .collect();
    let list = brim(&declared, "\n", 90);
    format!("module M begin exports begin sorts A functions {list} end end M")
}

fn variables() -> String {
    let declared: Vec<String> = names(10_000)
        .iter()
        .map(|name| format!("v{name}"))
        .collect();
    let list = brim(&declared, ",", 90);
    format!("module M begin exports begin sorts A end variables {list}:->A end M")
}

/// As many input types of two sorts as a text holds, under one function name.
fn overloaded() -> String {
    let sorts = names(60);
    let pairs = sorts.iter().flat_map(|one| {
        let declared = |other| format!("f:{one}#{other}->a");
        sorts.iter().map(declared).collect::<Vec<String>>()
    });
    let declared = brim(&pairs.collect::<Vec<String>>(), "\n", 250);
    let sorts = sorts.join(",");
    format!("module M begin exports begin sorts {sorts} functions {declared} end end M")
}

/// Equations of 34 nodes, most of them the constant that was declared last.
fn terms() -> String {
    let constants = names(3_000);
    let last = &constants[2_999];
    let eight = format!("f({})", vec![last.as_str(); 8].join(","));
    let side = format!(
        "f({},{})",
        [eight.as_str(); 2].join(","),
        vec![last.as_str(); 6].join(",")
    );
    let declared: Vec<String> = constants.iter().map(|name| format!("{name}:->A")).collect();
    let front = format!(
        "module M begin exports begin sorts A functions {}\nf:A#A#A#A#A#A#A#A->A end equations ",
        declared.join("\n")
    );
    let equations = brim(
        &vec![format!("[e]{side}={eight}"); 200],
        "\n",
        front.len() + 20,
    );
    format!("{front}{equations} end M")
}

/// A chain of 64 modules, each of which imports the one before it 16 times.
fn imported_often() -> String {
    joined(64, "\n", |module| match module {
        0 => format!(
            "module m0 begin exports begin sorts {} end end m0",
            joined(7, ",", |sort| format!("s{sort}"))
        ),
        _ => {
            let imports = joined(16, ",", |_| format!("m{}", module - 1));
            format!("module m{module} begin imports {imports} end m{module}")
        }
    })
}

fn renamings() -> String {
    let declared = joined(500, ",", |sort| format!("s{sort}"));
    let imports = joined(15, ",", |import| {
        let pairs = joined(32, ",", |pair| format!("s{0}->t{0}", import * 32 + pair));
        format!("m0 {{renamed by [{pairs}]}}")
    });
    format!("module m0 begin exports begin sorts {declared} end end m0\nmodule m1 begin imports {imports} end m1\n")
}

/// A parameter that 16 imports bring, alike: each time its functions are compared with those that are there.
fn met_often() -> String {
    let inputs = ["X"; 8].join("#");
    let functions = joined(500, "\n", |function| format!("f{function}:{inputs}->X"));
    let imports = ["m0"; 16].join(",");
    format!(
        "module m0 begin parameters P begin sorts X functions\n{functions} end P end m0\n\
         module m1 begin imports {imports} end m1\n"
    )
}

/// 64 modules, 992 items, 480 equations, close to 32,768 bytes: 16 modules of 31 items and 15 equations over 47 empty ones, and a top that
/// imports them all, four renamed.
fn near_every_limit() -> String {
    let mut text = joined(47, "", |module| {
        format!("module Empty{module} begin end Empty{module}\n")
    });
    text += &joined(16, "", leaf);
    let imports = joined(16, ",", |module| match module % 4 {
        0 => format!("Leaf{module} {{renamed by [combine{module}x0 -> joined{module}]}}"),
        _ => format!("Leaf{module}"),
    });
    text += &format!("module Top begin imports {imports} end Top\n");
    text
}

/// Two sorts, 20 functions, 5 hidden ones, four variables, 15 equations.
fn leaf(module: usize) -> String {
    let imports = joined(if module == 15 { 2 } else { 3 }, ",", |import| {
        format!("Empty{}", module * 3 + import)
    });
    let functions = joined(20, "\n", |f| match f % 4 {
        0 => format!("combine{module}x{f} : Element{module} # Element{module} -> Element{module}"),
        1 => format!("measure{module}x{f} : Element{module} -> Result{module}"),
        2 => format!("initial{module}x{f} : -> Element{module}"),
        _ => format!("convert{module}x{f} : Result{module} -> Element{module}"),
    });
    let hidden = joined(5, "\n", |f| {
        format!("aux{f} : Element{module} -> Element{module}")
    });
    let equations = joined(15, "\n", |e| {
        let f = e % 5 * 4;
        format!(
            "[e{e}] combine{module}x{f}(x, aux{}(y)) = convert{module}x{}(measure{module}x{}(x))",
            e / 3,
            f + 3,
            f + 1
        )
    });
    format!(
        "module Leaf{module} begin exports begin sorts Element{module}, Result{module} functions\n{functions} end\n\
         imports {imports}\nfunctions {hidden}\nvariables x, y, z, u : -> Element{module}\n\
         equations {equations} end Leaf{module}\n"
    )
}
