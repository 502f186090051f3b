//! A specification spelt as tokens, and tokens laid out as text, with comments and every kind of layout.

use crate::random::Random;
use reference::syntax::*;

pub type Tokens = Vec<Vec<u8>>;

/// Writes tokens; how an equation is written is left to chance where there is a choice.
pub struct Speller<'r> {
    pub tokens: Tokens,
    pub random: &'r mut Random,
    /// Percent of terms that get brackets which they do not need.
    pub brackets: usize,
}

/// The tokens of a specification.
pub fn spell(specification: &Specification, random: &mut Random) -> Tokens {
    let brackets = if random.chance(20) { 5 } else { 0 };
    let mut speller = Speller {
        tokens: Vec::new(),
        random,
        brackets,
    };
    for module in &specification.modules {
        speller.module(module);
    }
    speller.tokens
}

/// A text with single spaces.
pub fn plain(specification: &Specification) -> Vec<u8> {
    let mut random = Random::new(0);
    let mut speller = Speller {
        tokens: Vec::new(),
        random: &mut random,
        brackets: 0,
    };
    for module in &specification.modules {
        speller.module(module);
    }
    spaced(&speller.tokens)
}

/// Tokens with single spaces, but for what would be a comment behind one.
pub fn spaced(tokens: &[Vec<u8>]) -> Vec<u8> {
    let mut text = Vec::new();
    for token in tokens {
        if !text.is_empty() && (!token.starts_with(b"--") || joins(&text, token)) {
            text.push(b' ');
        }
        text.extend_from_slice(token);
    }
    text
}

impl Speller<'_> {
    fn words(&mut self, words: &str) {
        for word in words.split(' ') {
            self.tokens.push(word.as_bytes().to_vec());
        }
    }

    fn name(&mut self, name: &Name) {
        self.tokens.push(name.clone());
    }

    /// A function's name as declarations and pairs have it: an operator stands between its underlines.
    fn function_name(&mut self, name: &Name) {
        match operator_of(name) {
            Some(operator) => {
                if name.starts_with(b"_") {
                    self.words("_");
                }
                self.tokens.push(operator);
                self.words("_");
            }
            None => self.name(name),
        }
    }

    fn separator(&mut self, index: usize, mark: &str) {
        if index > 0 {
            self.words(mark);
        }
    }

    pub fn module(&mut self, module: &Module) {
        self.words("module");
        self.name(&module.name);
        self.words("begin");
        for (index, parameter) in module.parameters.iter().enumerate() {
            self.words(if index == 0 { "parameters" } else { "," });
            self.name(&parameter.name);
            self.words("begin");
            self.signature(&parameter.signature);
            self.words("end");
            self.name(&parameter.name);
        }
        self.exports(&module.exports);
        for (index, expression) in module.imports.iter().enumerate() {
            self.words(if index == 0 { "imports" } else { "," });
            self.expression(expression);
        }
        self.signature(&module.hidden);
        self.variables(&module.variables);
        for (index, equation) in module.equations.iter().enumerate() {
            if index == 0 {
                self.words("equations");
            }
            self.equation(equation);
        }
        self.words("end");
        self.name(&module.name);
    }

    fn exports(&mut self, signature: &Signature) {
        let empty = signature.sorts.is_empty() && signature.functions.is_empty();
        if empty && !self.random.chance(5) {
            return;
        }
        self.words("exports begin");
        self.signature(signature);
        self.words("end");
    }

    fn signature(&mut self, signature: &Signature) {
        for (index, sort) in signature.sorts.iter().enumerate() {
            self.words(if index == 0 { "sorts" } else { "," });
            self.name(sort);
        }
        for (index, function) in signature.functions.iter().enumerate() {
            if index == 0 {
                self.words("functions");
            }
            self.function_name(&function.name);
            self.words(":");
            for (index, sort) in function.inputs.iter().enumerate() {
                self.separator(index, "#");
                self.name(sort);
            }
            self.words("->");
            self.name(&function.output);
        }
    }

    /// Neighbours of one sort are sometimes declared together.
    fn variables(&mut self, variables: &[VariableDeclaration]) {
        for (index, variable) in variables.iter().enumerate() {
            if index == 0 {
                self.words("variables");
            }
            self.name(&variable.name);
            let next = variables.get(index + 1);
            let together = next.is_some_and(|next| next.sort == variable.sort);
            if together && self.random.chance(60) {
                self.words(",");
            } else {
                self.words(": ->");
                self.name(&variable.sort);
            }
        }
    }

    fn expression(&mut self, expression: &Expression) {
        self.name(&expression.module);
        if expression.clauses.is_empty() {
            return;
        }
        self.words("{");
        for clause in &expression.clauses {
            match clause {
                Clause::Renaming(pairs) => {
                    self.words("renamed by");
                    self.pairs(pairs);
                }
                Clause::Binding(binding) => {
                    self.name(&binding.parameter);
                    self.words("bound by");
                    self.pairs(&binding.pairs);
                    self.words("to");
                    self.name(&binding.actual);
                }
            }
        }
        self.words("}");
    }

    fn pairs(&mut self, pairs: &[Pair]) {
        self.words("[");
        for (index, pair) in pairs.iter().enumerate() {
            self.separator(index, ",");
            self.function_name(&pair.old);
            self.words("->");
            self.function_name(&pair.new);
        }
        self.words("]");
    }

    fn equation(&mut self, equation: &EquationText) {
        self.words("[");
        self.name(&equation.tag);
        self.words("]");
        if !equation.conditions.is_empty() && self.random.chance(50) {
            self.list(&equation.conditions);
            let implications: [&[u8]; 4] = [b"==>", b"==\n", b"====>", b"===\n"];
            let implication = implications[self.random.below(4)];
            let place = self.tokens.len();
            self.tokens.push(implication.to_vec());
            self.sides(&equation.conclusion);
            if self.tokens[place + 1].starts_with(b"--") {
                self.tokens[place] = b"==>".to_vec();
            }
            return;
        }
        self.sides(&equation.conclusion);
        if !equation.conditions.is_empty() {
            self.words("when");
            self.list(&equation.conditions);
        }
    }

    fn list(&mut self, list: &[Sides]) {
        for (index, sides) in list.iter().enumerate() {
            self.separator(index, ",");
            self.sides(sides);
        }
    }

    fn sides(&mut self, sides: &Sides) {
        self.term(&sides.left);
        self.words("=");
        self.term(&sides.right);
    }

    fn term(&mut self, term: &TermText) {
        if self.random.chance(self.brackets) {
            return self.bracketed(term);
        }
        let Some(operator) = operator_of(&term.name) else {
            return self.application(term);
        };
        match (&term.arguments[..], term.name.starts_with(b"_")) {
            ([operand], false) => {
                self.tokens.push(operator);
                self.primary(operand);
            }
            ([left, right], true) => {
                self.term(left);
                self.tokens.push(operator);
                self.primary(right);
            }
            // no text says this: the name stands as a declaration has it, which is refused
            _ => self.function_name(&term.name),
        }
    }

    fn bracketed(&mut self, term: &TermText) {
        self.words("(");
        self.term(term);
        self.words(")");
    }

    /// What may stand behind an operator.
    fn primary(&mut self, term: &TermText) {
        if operator_of(&term.name).is_some() {
            self.bracketed(term);
        } else {
            self.term(term);
        }
    }

    fn application(&mut self, term: &TermText) {
        self.name(&term.name);
        if term.arguments.is_empty() {
            return;
        }
        self.words("(");
        for (index, argument) in term.arguments.iter().enumerate() {
            self.separator(index, ",");
            self.term(argument);
        }
        self.words(")");
    }
}

/// The operator of a name; none where the name is plain.
pub fn operator_of(name: &[u8]) -> Option<Vec<u8>> {
    let operator = name.strip_suffix(b"_")?;
    Some(operator.strip_prefix(b"_").unwrap_or(operator).to_vec())
}

/// How wildly tokens are laid out.
#[derive(Clone, Copy)]
pub enum Layout {
    Tight,
    Plain,
    Wild,
}

pub fn some_layout(random: &mut Random) -> Layout {
    [Layout::Tight, Layout::Plain, Layout::Plain, Layout::Wild][random.below(4)]
}

/// Tokens as text: layout where two would else be one, and more of it as the way of laying out wants. Where a comment
/// would begin there is mostly none.
pub fn lay_out(tokens: &[Vec<u8>], layout: Layout, random: &mut Random) -> Vec<u8> {
    let mut text = Vec::new();
    for token in tokens {
        match layout {
            _ if token.starts_with(b"--") && random.chance(97) => {}
            Layout::Tight => {}
            Layout::Plain => text.push(if random.chance(10) { b'\n' } else { b' ' }),
            Layout::Wild if random.chance(60) => wild(&mut text, random),
            Layout::Wild => {}
        }
        if joins(&text, token) {
            text.push(b' ');
        }
        text.extend_from_slice(token);
    }
    if random.chance(70) {
        text.push(b'\n');
    }
    text
}

/// Whether the token would join what stands before it: two words, with hyphens between or without; two runs of symbols.
fn joins(text: &[u8], token: &[u8]) -> bool {
    let word = |byte: &u8| byte.is_ascii_alphanumeric() || *byte == b'\'';
    let symbol = |byte: &u8| b"+-*/&|!@%?~".contains(byte);
    let before_hyphens = text.iter().rev().find(|&&byte| byte != b'-');
    let words = before_hyphens.is_some_and(word) && token.first().is_some_and(word);
    words || text.last().is_some_and(symbol) && token.first().is_some_and(symbol)
}

fn wild(text: &mut Vec<u8>, random: &mut Random) {
    for _ in 0..random.between(1, 3) {
        let layout = b" \t\r\n\x0c";
        text.push(layout[random.below(layout.len())]);
        if random.chance(25) {
            comment(text, random);
        }
    }
}

fn comment(text: &mut Vec<u8>, random: &mut Random) {
    let insides: [&[u8]; 8] = [
        b"",
        b" a comment ",
        b" - ",
        b"-x",
        b"\xff\x00+<>",
        b"module M begin",
        b"=",
        b" '",
    ];
    let endings: [&[u8]; 3] = [b"--", b"\n", b"\r"];
    let inside = insides[random.below(insides.len())];
    text.extend_from_slice(b"--");
    text.extend_from_slice(inside);
    text.extend_from_slice(endings[random.below(endings.len())]);
    if text.ends_with(b"--") && random.chance(60) {
        text.push(b' ');
    }
}
