//! What a specification says, as a tree ("The text").

/// An operator's name has its underlines: `-_`, `_+_`.
pub type Name = Vec<u8>;

pub fn prefix(operator: &[u8]) -> Name {
    [operator, b"_"].concat()
}

pub fn infix(operator: &[u8]) -> Name {
    [b"_", operator, b"_"].concat()
}

/// How many operands an operator's name has room for; none where the name is plain.
pub fn operands(name: &[u8]) -> Option<usize> {
    let underlines = name.iter().filter(|&&byte| byte == b'_').count();
    (underlines > 0).then_some(underlines)
}

/// The modules of both texts in one sequence, the library's first.
#[derive(Clone, Debug, Default)]
pub struct Specification {
    pub modules: Vec<Module>,
}

impl Specification {
    /// The place of a module in the sequence.
    pub fn index(&self, name: &[u8]) -> Option<usize> {
        self.modules.iter().position(|module| module.name == name)
    }
}

/// Two modules are equal if the same was read of them. So it is kept which variables are declared together, though nothing else asks for it;
/// what is no read text need not say it.
#[derive(Clone, Debug, Default, PartialEq, Eq)]
pub struct Module {
    pub name: Name,
    pub parameters: Vec<Parameter>,
    pub exports: Signature,
    pub imports: Vec<Expression>,
    pub hidden: Signature,
    pub variables: Vec<VariableDeclaration>,
    /// How many variables each declaration has.
    pub together: Vec<usize>,
    pub equations: Vec<EquationText>,
}

#[derive(Clone, Debug, PartialEq, Eq)]
pub struct Parameter {
    pub name: Name,
    pub signature: Signature,
}

#[derive(Clone, Debug, Default, PartialEq, Eq)]
pub struct Signature {
    pub sorts: Vec<Name>,
    pub functions: Vec<FunctionDeclaration>,
}

#[derive(Clone, Debug, PartialEq, Eq)]
pub struct FunctionDeclaration {
    pub name: Name,
    pub inputs: Vec<Name>,
    pub output: Name,
}

#[derive(Clone, Debug, PartialEq, Eq)]
pub struct VariableDeclaration {
    pub name: Name,
    pub sort: Name,
}

/// An import expression: a module and its clauses in the order of the text.
#[derive(Clone, Debug, PartialEq, Eq)]
pub struct Expression {
    pub module: Name,
    pub clauses: Vec<Clause>,
}

#[derive(Clone, Debug, PartialEq, Eq)]
pub enum Clause {
    Renaming(Vec<Pair>),
    Binding(Binding),
}

#[derive(Clone, Debug, PartialEq, Eq)]
pub struct Binding {
    pub parameter: Name,
    pub pairs: Vec<Pair>,
    pub actual: Name,
}

#[derive(Clone, Debug, PartialEq, Eq)]
pub struct Pair {
    pub old: Name,
    pub new: Name,
}

/// An equation of either source form: its conditions come first, then its conclusion.
#[derive(Clone, Debug, PartialEq, Eq)]
pub struct EquationText {
    pub tag: Name,
    pub conditions: Vec<Sides>,
    pub conclusion: Sides,
    /// Whether the text has the conditions behind a `when`; as with `together`, only a text that was read says so.
    pub when: bool,
}

#[derive(Clone, Debug, PartialEq, Eq)]
pub struct Sides {
    pub left: TermText,
    pub right: TermText,
}

/// A term: a name alone, or a name with its arguments.
#[derive(Clone, Debug, PartialEq, Eq)]
pub struct TermText {
    pub name: Name,
    pub arguments: Vec<TermText>,
}

impl Module {
    /// The names of modules in text order: an expression's module, then those of its bindings.
    pub fn named_modules(&self) -> Vec<&Name> {
        let mut names = Vec::new();
        for expression in &self.imports {
            names.push(&expression.module);
            for clause in &expression.clauses {
                if let Clause::Binding(binding) = clause {
                    names.push(&binding.actual);
                }
            }
        }
        names
    }
}
