//! From tokens to a specification, with the sizes of a text ("The text"; the report's section 2.1; document
//! 02, Two).

use crate::lexis::{self, Lexeme, Offence, Token};
use crate::syntax::{self, *};
use crate::{MODULES, TEXT_BYTES, TOKEN_BYTES};

const EXPRESSIONS: usize = 16;
const BINDINGS: usize = 4;
const PAIRS: usize = 32;
const CONDITIONS: usize = 8;
const NODES: usize = 64;
const ARGUMENTS: usize = 8;
const OPEN_BRACKETS: usize = 15;

const UNDERLINE: Token = Token::Mark(b'_');
/// What a term may begin with.
const TERM: [Token; 3] = [Token::Identifier, Token::Operator, Token::Mark(b'(')];
/// What a function's name may begin with, in a declaration and in a pair.
const FUNCTION: [Token; 3] = [Token::Identifier, Token::Operator, UNDERLINE];

/// Reads a whole text, or tells its leftmost offence.
pub fn read(text: &[u8]) -> Result<Specification, Offence> {
    let mut specification = Specification::default();
    read_behind(&mut specification, text)?;
    Ok(specification)
}

/// Reads a whole text behind the modules that are there: their names are taken, and they count among the most that
/// there may be.
pub fn read_behind(specification: &mut Specification, text: &[u8]) -> Result<(), Offence> {
    if text.len() > TEXT_BYTES {
        return Err(size(TEXT_BYTES));
    }
    Parser { text, place: 0 }.modules(specification)
}

fn size(at: usize) -> Offence {
    Offence { number: 4, at }
}

/// One node more, at a place.
fn node(nodes: &mut usize, at: usize) -> Result<(), Offence> {
    *nodes += 1;
    if *nodes > NODES {
        return Err(size(at));
    }
    Ok(())
}

struct Parser<'t> {
    text: &'t [u8],
    place: usize,
}

impl Parser<'_> {
    fn look(&self) -> Result<Lexeme, Offence> {
        lexis::token(self.text, self.place)
    }

    fn next_is(&self, token: Token) -> Result<bool, Offence> {
        Ok(self.look()?.token == token)
    }

    fn next_among(&self, tokens: &[Token]) -> Result<bool, Offence> {
        Ok(tokens.contains(&self.look()?.token))
    }

    fn not_allowed<T>(&self) -> Result<T, Offence> {
        let next = self.look()?;
        Err(Offence {
            number: 2,
            at: next.start,
        })
    }

    fn accept(&mut self, token: Token) -> Result<bool, Offence> {
        let next = self.look()?;
        if next.token == token {
            self.place = next.stop;
        }
        Ok(next.token == token)
    }

    fn expect(&mut self, token: Token) -> Result<(), Offence> {
        if self.accept(token)? {
            Ok(())
        } else {
            self.not_allowed()
        }
    }

    fn mark(&mut self, mark: u8) -> Result<bool, Offence> {
        self.accept(Token::Mark(mark))
    }

    fn keyword(&mut self, keyword: &'static str) -> Result<bool, Offence> {
        self.accept(Token::Keyword(keyword))
    }

    fn expect_keyword(&mut self, keyword: &'static str) -> Result<(), Offence> {
        self.expect(Token::Keyword(keyword))
    }

    /// The bytes of the expected token, however many, and its place.
    fn bytes(&mut self, token: Token) -> Result<(Name, usize), Offence> {
        let next = self.look()?;
        self.expect(token)?;
        Ok((self.text[next.start..next.stop].to_vec(), next.start))
    }

    fn short_bytes(&mut self, token: Token) -> Result<Name, Offence> {
        let (bytes, at) = self.bytes(token)?;
        if bytes.len() > TOKEN_BYTES {
            return Err(size(at));
        }
        Ok(bytes)
    }

    fn name(&mut self) -> Result<Name, Offence> {
        self.short_bytes(Token::Identifier)
    }

    fn operator(&mut self) -> Result<Name, Offence> {
        self.short_bytes(Token::Operator)
    }

    /// A function's name as declarations and pairs write it: `f`, `-_` or `_+_`, with layout where one likes.
    fn function_name(&mut self) -> Result<Name, Offence> {
        if self.next_is(Token::Identifier)? {
            return self.name();
        }
        let infix = self.accept(UNDERLINE)?;
        let operator = self.operator()?;
        self.expect(UNDERLINE)?;
        Ok(if infix {
            syntax::infix(&operator)
        } else {
            syntax::prefix(&operator)
        })
    }

    /// The name after `end`; at one place 3 comes before 4.
    fn closing_name(&mut self, opening: &Name) -> Result<(), Offence> {
        let (name, at) = self.bytes(Token::Identifier)?;
        if name != *opening {
            return Err(Offence { number: 3, at });
        }
        Ok(())
    }

    /// Where a list is full, a token that may begin one more element is 4; any other is left to be told as 2.
    fn full(&self, count: usize, limit: usize, begins: &[Token]) -> Result<(), Offence> {
        let next = self.look()?;
        if count == limit && begins.contains(&next.token) {
            return Err(size(next.start));
        }
        Ok(())
    }

    /// One or more modules up to the end of the text.
    fn modules(&mut self, specification: &mut Specification) -> Result<(), Offence> {
        loop {
            self.full(
                specification.modules.len(),
                MODULES,
                &[Token::Keyword("module")],
            )?;
            let module = self.module(specification)?;
            specification.modules.push(module);
            if self.next_is(Token::EndOfText)? {
                return Ok(());
            }
        }
    }

    fn module(&mut self, earlier: &Specification) -> Result<Module, Offence> {
        self.expect_keyword("module")?;
        let at = self.look()?.start;
        let name = self.name()?;
        if earlier.index(&name).is_some() {
            return Err(Offence { number: 5, at });
        }
        self.expect_keyword("begin")?;
        let mut module = Module {
            parameters: self.parameters()?,
            exports: self.exports()?,
            imports: self.imports()?,
            hidden: self.signature()?,
            name,
            ..Module::default()
        };
        self.variables(&mut module)?;
        module.equations = self.equations()?;
        self.expect_keyword("end")?;
        self.closing_name(&module.name)?;
        Ok(module)
    }

    fn parameters(&mut self) -> Result<Vec<Parameter>, Offence> {
        let mut parameters = Vec::new();
        if self.keyword("parameters")? {
            parameters.push(self.parameter()?);
            while self.mark(b',')? {
                parameters.push(self.parameter()?);
            }
        }
        Ok(parameters)
    }

    fn parameter(&mut self) -> Result<Parameter, Offence> {
        let name = self.name()?;
        self.expect_keyword("begin")?;
        let signature = self.signature()?;
        self.expect_keyword("end")?;
        self.closing_name(&name)?;
        Ok(Parameter { name, signature })
    }

    fn exports(&mut self) -> Result<Signature, Offence> {
        if !self.keyword("exports")? {
            return Ok(Signature::default());
        }
        self.expect_keyword("begin")?;
        let signature = self.signature()?;
        self.expect_keyword("end")?;
        Ok(signature)
    }

    fn signature(&mut self) -> Result<Signature, Offence> {
        Ok(Signature {
            sorts: self.sorts()?,
            functions: self.functions()?,
        })
    }

    fn sorts(&mut self) -> Result<Vec<Name>, Offence> {
        if self.keyword("sorts")? {
            self.names()
        } else {
            Ok(Vec::new())
        }
    }

    /// One or more names, commas between.
    fn names(&mut self) -> Result<Vec<Name>, Offence> {
        let mut names = vec![self.name()?];
        while self.mark(b',')? {
            names.push(self.name()?);
        }
        Ok(names)
    }

    fn functions(&mut self) -> Result<Vec<FunctionDeclaration>, Offence> {
        let mut functions = Vec::new();
        if self.keyword("functions")? {
            functions.push(self.function()?);
            while self.next_among(&FUNCTION)? {
                functions.push(self.function()?);
            }
        }
        Ok(functions)
    }

    fn function(&mut self) -> Result<FunctionDeclaration, Offence> {
        let name = self.function_name()?;
        self.expect(Token::Mark(b':'))?;
        let inputs = match syntax::operands(&name) {
            Some(count) => self.operand_sorts(count)?,
            None => self.inputs()?,
        };
        self.expect(Token::Arrow)?;
        let output = self.name()?;
        Ok(FunctionDeclaration {
            name,
            inputs,
            output,
        })
    }

    /// As many sorts as the operator has operands.
    fn operand_sorts(&mut self, count: usize) -> Result<Vec<Name>, Offence> {
        let mut sorts = vec![self.name()?];
        while sorts.len() < count {
            self.expect(Token::Mark(b'#'))?;
            sorts.push(self.name()?);
        }
        Ok(sorts)
    }

    fn inputs(&mut self) -> Result<Vec<Name>, Offence> {
        let mut inputs = Vec::new();
        if self.next_is(Token::Identifier)? {
            inputs.push(self.name()?);
            while self.mark(b'#')? {
                self.full(inputs.len(), ARGUMENTS, &[Token::Identifier])?;
                inputs.push(self.name()?);
            }
        }
        Ok(inputs)
    }

    fn imports(&mut self) -> Result<Vec<Expression>, Offence> {
        let mut expressions = Vec::new();
        if self.keyword("imports")? {
            expressions.push(self.expression()?);
            while self.mark(b',')? {
                self.full(expressions.len(), EXPRESSIONS, &[Token::Identifier])?;
                expressions.push(self.expression()?);
            }
        }
        Ok(expressions)
    }

    fn expression(&mut self) -> Result<Expression, Offence> {
        let module = self.name()?;
        let mut clauses = Vec::new();
        if self.mark(b'{')? {
            self.modifier(&mut clauses)?;
            self.expect(Token::Mark(b'}'))?;
        }
        Ok(Expression { module, clauses })
    }

    /// A renaming and then bindings, or bindings and then a renaming; one of the two may be left out.
    fn modifier(&mut self, clauses: &mut Vec<Clause>) -> Result<(), Offence> {
        if self.keyword("renamed")? {
            clauses.push(self.renaming()?);
            return self.bindings(clauses);
        }
        if !self.next_is(Token::Identifier)? {
            return self.not_allowed();
        }
        self.bindings(clauses)?;
        if self.keyword("renamed")? {
            clauses.push(self.renaming()?);
        }
        Ok(())
    }

    fn renaming(&mut self) -> Result<Clause, Offence> {
        self.expect_keyword("by")?;
        Ok(Clause::Renaming(self.pairs()?))
    }

    fn bindings(&mut self, clauses: &mut Vec<Clause>) -> Result<(), Offence> {
        let mut count = 0;
        while self.next_is(Token::Identifier)? {
            self.full(count, BINDINGS, &[Token::Identifier])?;
            clauses.push(Clause::Binding(self.binding()?));
            count += 1;
        }
        Ok(())
    }

    fn binding(&mut self) -> Result<Binding, Offence> {
        let parameter = self.name()?;
        self.expect_keyword("bound")?;
        self.expect_keyword("by")?;
        let pairs = self.pairs()?;
        self.expect_keyword("to")?;
        let actual = self.name()?;
        Ok(Binding {
            parameter,
            pairs,
            actual,
        })
    }

    fn pairs(&mut self) -> Result<Vec<Pair>, Offence> {
        self.expect(Token::Mark(b'['))?;
        let mut pairs = vec![self.pair()?];
        while self.mark(b',')? {
            self.full(pairs.len(), PAIRS, &FUNCTION)?;
            pairs.push(self.pair()?);
        }
        self.expect(Token::Mark(b']'))?;
        Ok(pairs)
    }

    fn pair(&mut self) -> Result<Pair, Offence> {
        let old = self.function_name()?;
        self.expect(Token::Arrow)?;
        let new = self.function_name()?;
        Ok(Pair { old, new })
    }

    fn variables(&mut self, module: &mut Module) -> Result<(), Offence> {
        if self.keyword("variables")? {
            self.variables_of_one_sort(module)?;
            while self.next_is(Token::Identifier)? {
                self.variables_of_one_sort(module)?;
            }
        }
        Ok(())
    }

    fn variables_of_one_sort(&mut self, module: &mut Module) -> Result<(), Offence> {
        let names = self.names()?;
        self.expect(Token::Mark(b':'))?;
        self.expect(Token::Arrow)?;
        let sort = self.name()?;
        module.together.push(names.len());
        for name in names {
            let sort = sort.clone();
            module.variables.push(VariableDeclaration { name, sort });
        }
        Ok(())
    }

    fn equations(&mut self) -> Result<Vec<EquationText>, Offence> {
        let mut equations = Vec::new();
        if self.keyword("equations")? {
            equations.push(self.equation()?);
            while self.next_is(Token::Mark(b'['))? {
                equations.push(self.equation()?);
            }
        }
        Ok(equations)
    }

    /// A tag, and an equation in one of the two source forms. Conditions before an implication are counted as they
    /// come, before it is known that one follows.
    fn equation(&mut self) -> Result<EquationText, Offence> {
        self.expect(Token::Mark(b'['))?;
        let tag = self.name()?;
        self.expect(Token::Mark(b']'))?;
        let mut nodes = 0;
        let first = self.sides(&mut nodes)?;
        if self.keyword("when")? {
            let condition = self.sides(&mut nodes)?;
            let conditions = self.more_sides(vec![condition], &mut nodes)?;
            return Ok(EquationText {
                tag,
                conditions,
                conclusion: first,
                when: true,
            });
        }
        let list = self.more_sides(vec![first], &mut nodes)?;
        if list.len() > 1 && !self.next_is(Token::Implies)? {
            return self.not_allowed();
        }
        self.conclusion(tag, list, &mut nodes)
    }

    fn conclusion(
        &mut self,
        tag: Name,
        mut list: Vec<Sides>,
        nodes: &mut usize,
    ) -> Result<EquationText, Offence> {
        let conclusion = if self.accept(Token::Implies)? {
            self.sides(nodes)?
        } else {
            list.remove(0)
        };
        Ok(EquationText {
            tag,
            conditions: list,
            conclusion,
            when: false,
        })
    }

    fn more_sides(
        &mut self,
        mut list: Vec<Sides>,
        nodes: &mut usize,
    ) -> Result<Vec<Sides>, Offence> {
        while self.mark(b',')? {
            self.full(list.len(), CONDITIONS, &TERM)?;
            list.push(self.sides(nodes)?);
        }
        Ok(list)
    }

    fn sides(&mut self, nodes: &mut usize) -> Result<Sides, Offence> {
        let left = self.term(nodes, 0)?;
        self.expect(Token::Equals)?;
        let right = self.term(nodes, 0)?;
        Ok(Sides { left, right })
    }

    /// A term inside so many open brackets: a primary, mostly, or an operator and its primary; then operators join
    /// what stands before them to the primary behind.
    fn term(&mut self, nodes: &mut usize, open: usize) -> Result<TermText, Offence> {
        let mut term = if self.next_is(Token::Operator)? {
            let operator = self.operator_node(nodes)?;
            TermText {
                name: syntax::prefix(&operator),
                arguments: vec![self.primary(nodes, open)?],
            }
        } else {
            self.primary(nodes, open)?
        };
        while self.next_is(Token::Operator)? {
            let operator = self.operator_node(nodes)?;
            term = TermText {
                name: syntax::infix(&operator),
                arguments: vec![term, self.primary(nodes, open)?],
            };
        }
        Ok(term)
    }

    /// A term in brackets, or a name with its arguments.
    fn primary(&mut self, nodes: &mut usize, open: usize) -> Result<TermText, Offence> {
        if self.open_bracket(open)? {
            let inner = self.term(nodes, open + 1)?;
            self.expect(Token::Mark(b')'))?;
            return Ok(inner);
        }
        let at = self.look()?.start;
        let name = self.name()?;
        node(nodes, at)?;
        let arguments = if self.open_bracket(open)? {
            self.arguments(nodes, open + 1)?
        } else {
            Vec::new()
        };
        Ok(TermText { name, arguments })
    }

    fn operator_node(&mut self, nodes: &mut usize) -> Result<Name, Offence> {
        let at = self.look()?.start;
        let operator = self.operator()?;
        node(nodes, at)?;
        Ok(operator)
    }

    fn open_bracket(&mut self, open: usize) -> Result<bool, Offence> {
        self.full(open, OPEN_BRACKETS, &[Token::Mark(b'(')])?;
        self.mark(b'(')
    }

    fn arguments(&mut self, nodes: &mut usize, open: usize) -> Result<Vec<TermText>, Offence> {
        let mut arguments = vec![self.term(nodes, open)?];
        while self.mark(b',')? {
            self.full(arguments.len(), ARGUMENTS, &TERM)?;
            arguments.push(self.term(nodes, open)?);
        }
        self.expect(Token::Mark(b')'))?;
        Ok(arguments)
    }
}
