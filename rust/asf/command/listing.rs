//! A listing as what it lists: items with their names, types and origins, parameters, equations.

use crate::json::{text, Value};
use asf::{lines, BadLine};

/// Where an item stands, in the order of listings.
#[derive(Clone, Debug, PartialEq, Eq)]
pub enum Stands {
    Exported,
    InParameter(String),
    Hidden,
}

#[derive(Clone, Copy, Debug, PartialEq, Eq)]
pub enum Kind {
    Sort,
    Function,
    Variable,
}

/// A sort, a function or a variable. A sort has no type; a hidden one is called by its number.
#[derive(Clone, Debug, PartialEq, Eq)]
pub struct Item {
    pub stands: Stands,
    pub kind: Kind,
    pub name: String,
    pub sorts: String,
    pub origin: String,
}

#[derive(Clone, Debug, PartialEq, Eq)]
pub struct Equation {
    pub tag: String,
    pub sides: String,
}

#[derive(Clone, Debug, Default, PartialEq, Eq)]
pub struct Listed {
    pub module: String,
    pub parameters: Vec<String>,
    pub items: Vec<Item>,
    pub equations: Vec<Equation>,
}

/// Reads a listing, or the visible part of one.
pub fn listed(listing: &[u8]) -> Result<Listed, BadLine> {
    let mut read = Listed::default();
    for line in lines(listing) {
        let line = line?;
        let value = String::from_utf8_lossy(line.value).into_owned();
        match line.key {
            b"module" => read.module = value,
            b"sort" => read.push(Stands::Exported, Kind::Sort, value),
            b"function" => read.push(Stands::Exported, Kind::Function, value),
            b"parameter" => read.parameters.push(value),
            b"parameter-sort" => read.push(read.last_parameter(), Kind::Sort, value),
            b"parameter-function" => read.push(read.last_parameter(), Kind::Function, value),
            b"hidden-sort" => read.push(Stands::Hidden, Kind::Sort, value),
            b"hidden-function" => read.push(Stands::Hidden, Kind::Function, value),
            b"variable" => read.push(Stands::Hidden, Kind::Variable, value),
            b"origin" => {
                if let Some(item) = read.items.last_mut() {
                    item.origin = value;
                }
            }
            b"equation" => {
                let (tag, sides) = value.split_once("] ").unwrap_or(("", &value));
                read.equations.push(Equation {
                    tag: tag.trim_start_matches('[').to_string(),
                    sides: sides.to_string(),
                });
            }
            _ => {} // the end
        }
    }
    Ok(read)
}

impl Listed {
    fn last_parameter(&self) -> Stands {
        Stands::InParameter(self.parameters.last().cloned().unwrap_or_default())
    }

    fn push(&mut self, stands: Stands, kind: Kind, value: String) {
        let (name, sorts) = value.split_once(':').unwrap_or((&value, ""));
        self.items.push(Item {
            stands,
            kind,
            name: name.to_string(),
            sorts: sorts.to_string(),
            origin: String::new(),
        });
    }

    fn values(&self, stands: &Stands, kind: Kind) -> Value {
        let items = self
            .items
            .iter()
            .filter(|item| &item.stands == stands && item.kind == kind);
        Value::List(items.map(Item::value).collect())
    }

    /// The keys of what is visible, and of the rest where the whole is asked for.
    pub fn keys(&self, whole: bool) -> Vec<(&'static str, Value)> {
        let parameter = |name: &String| {
            let stands = Stands::InParameter(name.clone());
            Value::Object(vec![
                ("name", text(name.as_bytes())),
                ("sorts", self.values(&stands, Kind::Sort)),
                ("functions", self.values(&stands, Kind::Function)),
            ])
        };
        let mut keys = vec![
            ("sorts", self.values(&Stands::Exported, Kind::Sort)),
            ("functions", self.values(&Stands::Exported, Kind::Function)),
            (
                "parameters",
                Value::List(self.parameters.iter().map(parameter).collect()),
            ),
        ];
        if whole {
            let equation = |equation: &Equation| {
                Value::Object(vec![
                    ("tag", text(equation.tag.as_bytes())),
                    ("equation", text(equation.sides.as_bytes())),
                ])
            };
            keys.push(("hidden_sorts", self.values(&Stands::Hidden, Kind::Sort)));
            keys.push((
                "hidden_functions",
                self.values(&Stands::Hidden, Kind::Function),
            ));
            keys.push(("variables", self.values(&Stands::Hidden, Kind::Variable)));
            keys.push((
                "equations",
                Value::List(self.equations.iter().map(equation).collect()),
            ));
        }
        keys
    }
}

impl Item {
    fn value(&self) -> Value {
        let mut keys = vec![("name", text(self.name.as_bytes()))];
        if self.kind != Kind::Sort {
            keys.push(("type", text(self.sorts.as_bytes())));
        }
        keys.push(("origin", text(self.origin.as_bytes())));
        Value::Object(keys)
    }
}
