//! Mistakes in the pairs of a binding (document 02, Five), each aimed at one of 22 to 27: in a binding that the module has, or in one that is
//! made for it. A mistake does not always hit, since what is changed may still be right, or wrong in another way too.

use crate::aims::{import, name, pair};
use crate::generic::Generic;
use crate::names;
use crate::random::{insert, shuffle, Random};
use crate::view::{view, View};
use reference::syntax::*;

pub const NUMBERS: [u32; 6] = [22, 23, 24, 25, 26, 27];

/// Puts a mistake into a binding, often another one into the same list: then their places decide. Now and then none.
pub fn aim(number: u32, specification: &mut Specification, index: usize, random: &mut Random) {
    let place = match some_binding(&specification.modules[index], random) {
        Some((expression, clause)) if random.chance(40) => Place {
            module: index,
            expression,
            clause,
        },
        _ => new_binding(specification, index, random),
    };
    let ground = Ground::new(specification, place);
    let binding = place.binding(specification);
    if random.chance(95) {
        ground.mistake(number, binding, random);
    }
    if random.chance(35) {
        let other = NUMBERS[random.below(NUMBERS.len())];
        ground.mistake(other, binding, random);
    }
    if random.chance(30) {
        shuffle(&mut binding.pairs, random);
    }
}

/// Where a binding stands.
#[derive(Clone, Copy)]
struct Place {
    module: usize,
    expression: usize,
    clause: usize,
}

impl Place {
    fn binding(self, specification: &mut Specification) -> &mut Binding {
        let expression = &mut specification.modules[self.module].imports[self.expression];
        match &mut expression.clauses[self.clause] {
            Clause::Binding(binding) => binding,
            Clause::Renaming(_) => unreachable!("a binding stands there"),
        }
    }
}

/// The expression and the clause of a binding that the module has.
fn some_binding(module: &Module, random: &mut Random) -> Option<(usize, usize)> {
    let mut places = Vec::new();
    for (place, expression) in module.imports.iter().enumerate() {
        let clauses = expression.clauses.iter().enumerate();
        let bindings = clauses.filter(|(_, clause)| matches!(clause, Clause::Binding(_)));
        places.extend(bindings.map(|(clause, _)| (place, clause)));
    }
    random.pick(&places).copied()
}

/// A binding of a parameterised module that is put there with it; sometimes renamed before or after.
fn new_binding(specification: &mut Specification, index: usize, random: &mut Random) -> Place {
    let generic = Generic::new(random);
    let module = generic.place(specification, index);
    let (mut clauses, mut clause) = (vec![Clause::Binding(generic.binding)], 0);
    if random.chance(20) {
        let olds = ["X", "k", "D", "G", "m"];
        let renamed = pair(&name(olds[random.below(olds.len())]), &names::sort(random));
        clause = random.below(2);
        clauses.insert(1 - clause, Clause::Renaming(vec![renamed]));
    }
    let imports = &mut specification.modules[module].imports;
    let expression = random.below(imports.len() + 1);
    imports.insert(expression, import(&name("Generic'"), clauses));
    Place {
        module,
        expression,
        clause,
    }
}

/// What the pairs of a binding go from and to: the formals of its parameter, all that the module shows which has it, and what the actual module
/// shows and what its text hides.
struct Ground {
    formals: Signature,
    whole: View,
    offered: View,
    hidden: Vec<Name>,
}

impl Ground {
    fn new(specification: &mut Specification, place: Place) -> Ground {
        let Binding {
            parameter, actual, ..
        } = place.binding(specification).clone();
        let whole = before(specification, place);
        let bound = whole.parameters.iter().find(|own| own.name == parameter);
        let actual_module = specification.index(&actual);
        let hidden = actual_module.map(|index| hidden(&specification.modules[index]));
        Ground {
            formals: bound.map(|own| own.signature.clone()).unwrap_or_default(),
            offered: view(specification, &actual).unwrap_or_default(),
            hidden: hidden.unwrap_or_default(),
            whole,
        }
    }

    fn mistake(&self, number: u32, binding: &mut Binding, random: &mut Random) {
        match number {
            22 => self.lacking(binding, random),
            23 => self.again(&mut binding.pairs, random),
            24 => self.absent(&mut binding.pairs, random),
            25 => self.other_kind(&mut binding.pairs, random),
            26 => self.other_type(&mut binding.pairs, random),
            _ => self.unpaired(&mut binding.pairs, random),
        }
    }

    fn is_sort(&self, formal: &Name) -> bool {
        self.formals.sorts.contains(formal)
    }

    fn function(&self, formal: &Name) -> Option<&FunctionDeclaration> {
        let mut functions = self.formals.functions.iter();
        functions.find(|function| function.name == *formal)
    }

    /// Names that the actual module shows for sorts alone, and those for functions alone.
    fn of_one_kind(&self) -> [Vec<Name>; 2] {
        let (sorts, functions) = (self.offered.sorts.clone(), function_names(&self.offered));
        let but = |names: &[Name], others: &[Name]| {
            let apart = names.iter().filter(|name| !others.contains(name));
            apart.cloned().collect()
        };
        [but(&sorts, &functions), but(&functions, &sorts)]
    }

    /// Mostly a name that the actual module shows.
    fn some_actual(&self, random: &mut Random) -> Name {
        let shown = all_names(&self.offered);
        match random.pick(&shown) {
            Some(actual) if random.chance(70) => actual.clone(),
            _ => names::fresh(random),
        }
    }

    /// A name that is none of the parameter's, also where it has none; now and then twice.
    fn lacking(&self, binding: &mut Binding, random: &mut Random) {
        let nothing = |own: &&Parameter| all_names_in(&own.signature).is_empty();
        let empty = self.whole.parameters.iter().find(nothing);
        if let (Some(empty), true) = (empty, random.chance(30)) {
            binding.parameter = empty.name.clone();
            return;
        }
        let mut shown = all_names(&self.whole);
        shown.retain(|name| !self.is_sort(name) && self.function(name).is_none());
        let old = match random.below(6) {
            0 => names::fresh(random),
            1 => names::operator_name(random.between(1, 2), random),
            2 => binding.parameter.clone(),
            _ => random.pick(&shown).cloned().unwrap_or(name("nobody")),
        };
        for _ in 0..1 + random.below(5) / 4 {
            let lacking = pair(&old, &self.some_actual(random));
            insert(&mut binding.pairs, lacking, random);
        }
    }

    /// A formal paired twice, with the same actual name or another.
    fn again(&self, pairs: &mut Vec<Pair>, random: &mut Random) {
        let mut twin = pairs[random.below(pairs.len())].clone();
        if random.chance(50) {
            twin.new = self.some_actual(random);
        }
        insert(pairs, twin, random);
    }

    /// An actual name that is nowhere, hidden there, or shown by the other module alone.
    fn absent(&self, pairs: &mut [Pair], random: &mut Random) {
        let whole = all_names(&self.whole);
        let found = match random.below(5) {
            0 => None,
            1 => Some(names::operator_name(random.between(1, 2), random)),
            2..=3 => random.pick(&self.hidden).cloned(),
            _ => random.pick(&whole).cloned(),
        };
        let place = random.below(pairs.len());
        pairs[place].new = found.unwrap_or_else(|| names::fresh(random));
    }

    /// A function for a sort, a sort for a function, one of the two for a name of both.
    fn other_kind(&self, pairs: &mut [Pair], random: &mut Random) {
        let place = random.below(pairs.len());
        let formal = &pairs[place].old;
        let [sorts, functions] = self.of_one_kind();
        let wrong = match (self.is_sort(formal), self.function(formal).is_some()) {
            (true, true) if random.chance(50) => sorts,
            (true, _) => functions,
            _ => sorts,
        };
        if let Some(new) = random.pick(&wrong) {
            pairs[place].new = new.clone();
        }
    }

    /// Another function, mostly with another number of arguments; or the pair of a sort goes, is wrong further right, or has another sort.
    fn other_type(&self, pairs: &mut Vec<Pair>, random: &mut Random) {
        let of_function = some_place(pairs, |old| self.function(old).is_some(), random);
        let of_sort = some_place(pairs, |old| self.is_sort(old), random);
        match (random.below(6), of_function, of_sort) {
            (0..=2, Some(place), _) => {
                let count = self.function(&pairs[place].old).map(|own| own.inputs.len());
                let mut others = self.offered.functions.clone();
                if random.chance(60) {
                    others.retain(|function| Some(function.inputs.len()) != count);
                }
                if self.is_sort(&pairs[place].old) {
                    others.retain(|function| self.offered.sorts.contains(&function.name));
                }
                if let Some(other) = random.pick(&others) {
                    pairs[place].new = other.name.clone();
                }
            }
            (3, _, Some(place)) if pairs.len() > 1 => drop(pairs.remove(place)),
            (4, _, Some(place)) => {
                let mut wrong = pairs.remove(place);
                wrong.new = self.some_actual(random);
                pairs.push(wrong);
            }
            (_, _, Some(place)) => {
                if let Some(sort) = random.pick(&self.offered.sorts) {
                    pairs[place].new = sort.clone();
                }
            }
            _ => {}
        }
    }

    /// Takes pairs away; often those of all functions, which would be wrong without a pair for each of their sorts.
    fn unpaired(&self, pairs: &mut Vec<Pair>, random: &mut Random) {
        let of_sorts = pairs.iter().filter(|pair| self.is_sort(&pair.old)).count();
        if of_sorts > 0 && random.chance(70) {
            pairs.retain(|pair| self.is_sort(&pair.old));
        }
        shuffle(pairs, random);
        pairs.truncate(random.between(1, pairs.len()));
    }
}

/// What is shown where the binding stands, after the clauses before it.
fn before(specification: &Specification, place: Place) -> View {
    let mut modules = specification.modules[..=place.module].to_vec();
    let expression = modules
        .pop()
        .map(|mut own| own.imports.swap_remove(place.expression));
    let probe = Module {
        name: name("Probe'"),
        imports: expression.into_iter().collect(),
        ..Module::default()
    };
    modules.push(probe);
    let last = &mut modules[place.module].imports[0];
    last.clauses.truncate(place.clause);
    view(&Specification { modules }, &name("Probe'")).unwrap_or_default()
}

fn hidden(module: &Module) -> Vec<Name> {
    let variables = module.variables.iter().map(|variable| &variable.name);
    let mut found = all_names_in(&module.hidden);
    found.extend(variables.cloned());
    found
}

fn function_names(view: &View) -> Vec<Name> {
    let functions = view.functions.iter();
    functions.map(|function| function.name.clone()).collect()
}

fn all_names(view: &View) -> Vec<Name> {
    [view.sorts.clone(), function_names(view)].concat()
}

fn all_names_in(signature: &Signature) -> Vec<Name> {
    let functions = signature.functions.iter().map(|function| &function.name);
    signature.sorts.iter().chain(functions).cloned().collect()
}

fn some_place(
    pairs: &[Pair],
    wanted: impl Fn(&Name) -> bool,
    random: &mut Random,
) -> Option<usize> {
    let places: Vec<usize> = (0..pairs.len())
        .filter(|&place| wanted(&pairs[place].old))
        .collect();
    random.pick(&places).copied()
}

#[cfg(test)]
mod tests {
    use super::*;
    use crate::operators::operate;
    use crate::spelling::plain;
    use ::reference::{normalise, Answer, Lent, Texts};

    /// A binding, what its pairs go from and to, and what is told.
    struct Tried {
        ground: Ground,
        pairs: Vec<Pair>,
        answer: Answer,
        /// What is told with the pairs the other way round.
        backwards: Answer,
    }

    fn told(specification: &Specification) -> Answer {
        let text = plain(specification);
        normalise(b"M", Texts::alone(&text), Lent::output(usize::MAX))
    }

    fn tried(seed: u64) -> Tried {
        let random = &mut Random::new(seed);
        let mut specification = Specification {
            modules: vec![Module {
                name: name("M"),
                ..Module::default()
            }],
        };
        let number = NUMBERS[random.below(NUMBERS.len())];
        aim(number, &mut specification, 0, random);
        if random.chance(30) {
            operate(&mut specification, random);
        }
        let module = specification.modules.len() - 1;
        let found = some_binding(&specification.modules[module], random);
        let (expression, clause) = found.expect("M has one binding");
        let place = Place {
            module,
            expression,
            clause,
        };
        let ground = Ground::new(&mut specification, place);
        let answer = told(&specification);
        let pairs = place.binding(&mut specification).pairs.clone();
        place.binding(&mut specification).pairs.reverse();
        Tried {
            ground,
            pairs,
            answer,
            backwards: told(&specification),
        }
    }

    impl Tried {
        fn is(&self, number: u32) -> bool {
            self.answer.number == number
        }

        /// Whether the name that is told is a sort's of the parameter, and whether it is a function's.
        fn formal(&self) -> (bool, bool) {
            let name = &self.answer.name;
            (
                self.ground.is_sort(name),
                self.ground.function(name).is_some(),
            )
        }

        fn pairs_of<'t>(&'t self, formal: &'t Name) -> impl Iterator<Item = &'t Pair> {
            self.pairs.iter().filter(move |pair| pair.old == *formal)
        }

        fn paired(&self, formal: &Name) -> bool {
            self.pairs_of(formal).next().is_some()
        }

        /// The formal sorts in the type of the function that is told.
        fn sorts(&self) -> Vec<Name> {
            let function = self.ground.function(&self.answer.name);
            let mut sorts = function.map_or(Vec::new(), |own| {
                [&own.inputs[..], &[own.output.clone()]].concat()
            });
            sorts.retain(|sort| self.ground.is_sort(sort));
            sorts
        }

        fn counts(&self, name: &Name) -> Vec<usize> {
            let functions = self.ground.offered.functions.iter();
            let called = functions.filter(|function| function.name == *name);
            called.map(|function| function.inputs.len()).collect()
        }
    }

    type Happening = fn(&Tried) -> bool;

    const HAPPENINGS: [(&str, Happening); 30] = [
        ("no mistake", |tried| tried.is(0)),
        ("22 of a name that is shown", |tried| {
            tried.is(22) && all_names(&tried.ground.whole).contains(&tried.answer.name)
        }),
        ("22 of an operator", |tried| {
            tried.is(22) && operands(&tried.answer.name).is_some()
        }),
        ("22 of a parameter without items", |tried| {
            tried.is(22) && all_names_in(&tried.ground.formals).is_empty()
        }),
        ("22 of a name that stands twice", |tried| {
            tried.is(22) && tried.pairs_of(&tried.answer.name).count() > 1
        }),
        ("23 with the same actual", |tried| {
            let same = |pair: &Pair| pair.new == tried.answer.actual;
            tried.is(23) && tried.pairs_of(&tried.answer.name).all(same)
        }),
        ("23 with another", |tried| {
            let same = |pair: &Pair| pair.new == tried.answer.actual;
            tried.is(23) && !tried.pairs_of(&tried.answer.name).all(same)
        }),
        ("23 of a name of both kinds", |tried| {
            tried.is(23) && tried.formal() == (true, true)
        }),
        ("24 of a hidden name", |tried| {
            tried.is(24) && tried.ground.hidden.contains(&tried.answer.actual)
        }),
        ("24 of a name that the other module shows", |tried| {
            tried.is(24) && all_names(&tried.ground.whole).contains(&tried.answer.actual)
        }),
        ("24 of an operator", |tried| {
            tried.is(24) && operands(&tried.answer.actual).is_some()
        }),
        ("24 of a sort", |tried| {
            tried.is(24) && tried.formal() == (true, false)
        }),
        ("24 of a function", |tried| {
            tried.is(24) && tried.formal() == (false, true)
        }),
        ("25 of a sort", |tried| {
            tried.is(25) && tried.formal() == (true, false)
        }),
        ("25 of a sort with an operator", |tried| {
            tried.is(25) && operands(&tried.answer.actual).is_some()
        }),
        ("25 of a function", |tried| {
            tried.is(25) && tried.formal() == (false, true)
        }),
        ("25 of a name of both kinds with a sort", |tried| {
            let sort = tried.counts(&tried.answer.actual).is_empty();
            tried.is(25) && tried.formal() == (true, true) && sort
        }),
        ("25 of a name of both kinds with a function", |tried| {
            let function = !tried.counts(&tried.answer.actual).is_empty();
            tried.is(25) && tried.formal() == (true, true) && function
        }),
        ("26 of the number of arguments", |tried| {
            let formal = tried.ground.function(&tried.answer.name);
            let counts = tried.counts(&tried.answer.actual);
            tried.is(26) && formal.is_some_and(|own| !counts.contains(&own.inputs.len()))
        }),
        ("26 with an operator", |tried| {
            tried.is(26) && operands(&tried.answer.actual).is_some()
        }),
        ("26 of an operator", |tried| {
            tried.is(26) && operands(&tried.answer.name).is_some()
        }),
        ("26 of a name of both kinds", |tried| {
            tried.is(26) && tried.formal() == (true, true)
        }),
        ("26 of a sort without a pair", |tried| {
            tried.is(26) && tried.sorts().iter().any(|sort| !tried.paired(sort))
        }),
        ("26 of a sort with its bad pair further right", |tried| {
            let bad = |sort: &Name| {
                let first = tried.pairs_of(sort).next();
                first.is_some_and(|pair| !tried.ground.offered.sorts.contains(&pair.new))
            };
            tried.is(26) && tried.sorts().iter().any(bad)
        }),
        ("26 of sorts of two origins", |tried| {
            tried.is(26) && tried.answer.name == b"q" && tried.answer.actual.starts_with(b"q")
        }),
        ("27 of one", |tried| tried.is(27) && unpaired(tried) == 1),
        ("27 of several", |tried| tried.is(27) && unpaired(tried) > 1),
        ("27 of a sort", |tried| {
            tried.is(27) && tried.formal() == (true, false)
        }),
        (
            "the first of two mistakes, of the smaller number",
            |tried| {
                tried.answer.number < tried.backwards.number
                    && NUMBERS.contains(&tried.answer.number)
                    && tried.backwards.number != 27
            },
        ),
        (
            "the first of two mistakes, of the greater number",
            |tried| {
                tried.answer.number > tried.backwards.number
                    && NUMBERS.contains(&tried.backwards.number)
            },
        ),
    ];

    fn unpaired(tried: &Tried) -> usize {
        let mut formals = all_names_in(&tried.ground.formals);
        formals.sort();
        formals.dedup();
        let unpaired = formals.iter().filter(|name| !tried.paired(name));
        unpaired.count()
    }

    #[test]
    fn mistakes_of_every_kind() {
        let all: Vec<Tried> = (0..1_500).map(tried).collect();
        for (what, happens) in HAPPENINGS {
            let count = all.iter().filter(|tried| happens(tried)).count();
            println!("{what}: {count}");
            assert!(count > 0, "{what}");
        }
    }

    /// What is told of a pair stands in the list; the actual name is told of pairs alone.
    #[test]
    fn both_names_are_told() {
        for tried in (0..500).map(tried) {
            let actual = &tried.answer.actual;
            if (22..=26).contains(&tried.answer.number) {
                let mut pairs = tried.pairs_of(&tried.answer.name);
                assert!(pairs.any(|pair| pair.new == *actual));
            } else {
                assert!(actual.is_empty());
            }
        }
    }
}
