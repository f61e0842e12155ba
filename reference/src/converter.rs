//! From text to the tagged form: a reading by recursive descent, a token ahead.
//!
//! "24 at the first byte of the first token that is malformed, ..., may not
//! stand there, or passes a limit". So all that is asked of a token is asked
//! before the next one is looked at.

use crate::assemble::*;
use crate::compile::admit;
use crate::lexer::{Lexeme, Lexer, Token};
use crate::text_answer::{outside, past_line_255, Refused, Written, LONGEST};
use crate::types::Types;
use std::collections::BTreeSet;

/// "the deepest field is at depth 32, where items have depth 1".
const DEEPEST: usize = 32;
/// "at most 32 round brackets around expressions are open at one time".
const MOST_BRACKETS: usize = 32;
/// "at most 1,024 different strings".
const MOST_STRINGS: usize = 1024;

/// The manifest of a text, with the eight built-in types, for an output and a
/// memory of these lengths.
pub fn convert(text: &[u8], output: usize, memory: usize) -> Written {
    convert_with_types(None, text, output, memory)
}

/// The manifest of a text, with the types of a list if one is lent: "the text
/// tools take it too".
pub fn convert_with_types(types: Option<&[u8]>, text: &[u8], output: usize, memory: usize) -> Written {
    let types = admit(types, memory)?;
    if text.len() > LONGEST {
        return Err(outside(0, "a text over 65,535 bytes"));
    }
    let mut parser = Parser::new(text, types);
    let items = parser.manifest()?;
    if let Some(place) = parser.late {
        return Err(past_line_255(place));
    }
    let length = table_size(&parser.strings) + items.iter().map(size).sum::<usize>();
    if length > LONGEST {
        return Err(outside(0, "a manifest over 65,535 bytes"));
    }
    if length > output {
        return Err(outside(0, "a manifest over the output"));
    }
    Ok(Manifest::new(items).build().bytes)
}

/// How many bytes a field takes, its header included.
fn size(field: &Field) -> usize {
    let parts = field.parts.iter().map(|part| match part {
        Part::Bytes(bytes) => bytes.len(),
        Part::Name(_) => 2,
        Part::Field(inner) => size(inner),
    });
    3 + parts.sum::<usize>()
}

fn table_size(strings: &BTreeSet<Vec<u8>>) -> usize {
    3 + strings.iter().map(|string| 3 + string.len()).sum::<usize>()
}

struct Parser<'t> {
    types: Types<'t>,
    lexer: Lexer<'t>,
    /// The token looked at and not yet taken.
    ahead: Option<Lexeme<'t>>,
    /// Every string that a field names.
    strings: BTreeSet<Vec<u8>>,
    /// Round brackets around expressions that are open.
    brackets: usize,
    /// The place of the first constant on line 256 or later.
    late: Option<usize>,
}

/// An expression read, and how many levels of fields it has.
struct Grown {
    field: Field,
    height: usize,
}

/// Parses one thing, or refuses.
type Parsed<T> = Result<T, Refused>;

/// How operators bind: the level is higher where they bind tighter.
const LOOSEST: u8 = 1;
const TIGHTEST: u8 = 8;
const SELECTOR: u8 = 3;

/// What stands between operands, or behind one.
#[derive(Clone, Copy)]
enum Operator {
    Binary(u8),
    Select,
}

/// The operator of a token, with its level.
fn operator(token: &Token) -> Option<(u8, Operator)> {
    Some(match token {
        Token::Sign("/") => (7, Operator::Binary(DIVIDE)),
        Token::Sign("+") => (6, Operator::Binary(ADD)),
        Token::Sign("-") => (6, Operator::Binary(SUBTRACT)),
        Token::Sign("==" | "=") => (5, Operator::Binary(EQUAL)),
        Token::Sign(">") => (4, Operator::Binary(GREATER)),
        Token::Sign("?") => (SELECTOR, Operator::Select),
        Token::Keyword("and") => (2, Operator::Binary(AND)),
        Token::Keyword("or") => (1, Operator::Binary(OR)),
        _ => return None,
    })
}

/// The token may not stand where it stands.
fn misplaced(lexeme: &Lexeme) -> Refused {
    let why = match lexeme.token {
        Token::End => "the text ends too early",
        _ => "a token that may not stand there",
    };
    outside(lexeme.place, why)
}

/// The pieces everything is read with.
impl<'t> Parser<'t> {
    fn new(text: &'t [u8], types: Types<'t>) -> Parser<'t> {
        Parser {
            types,
            lexer: Lexer::new(text),
            ahead: None,
            strings: BTreeSet::new(),
            brackets: 0,
            late: None,
        }
    }

    fn peek(&mut self) -> Parsed<&Token<'t>> {
        let lexeme = match self.ahead.take() {
            Some(lexeme) => lexeme,
            None => self.lexer.next()?,
        };
        Ok(&self.ahead.insert(lexeme).token)
    }

    fn take(&mut self) -> Parsed<Lexeme<'t>> {
        match self.ahead.take() {
            Some(lexeme) => Ok(lexeme),
            None => self.lexer.next(),
        }
    }

    /// Takes the token if it is the one given.
    fn takes(&mut self, token: Token) -> Parsed<bool> {
        let is_there = *self.peek()? == token;
        if is_there {
            self.ahead = None;
        }
        Ok(is_there)
    }

    fn sign_comes(&mut self, sign: &'static str) -> Parsed<bool> {
        self.takes(Token::Sign(sign))
    }

    /// A sign that must come. Gives its place.
    fn sign(&mut self, sign: &'static str) -> Parsed<usize> {
        let lexeme = self.take()?;
        match lexeme.token == Token::Sign(sign) {
            true => Ok(lexeme.place),
            false => Err(misplaced(&lexeme)),
        }
    }

    /// Behind an entry of a list: true for a comma, false for what closes it.
    fn comma_or(&mut self, closing: &'static str) -> Parsed<bool> {
        if self.sign_comes(",")? {
            return Ok(true);
        }
        self.sign(closing)?;
        Ok(false)
    }

    /// A name that must come, as a string of the table.
    fn name(&mut self) -> Parsed<(&'t [u8], usize)> {
        let lexeme = self.take()?;
        let Token::Name(name) = lexeme.token else {
            return Err(misplaced(&lexeme));
        };
        self.string(name, lexeme.place)?;
        Ok((name, lexeme.place))
    }

    /// Counts a string that the token at that place brings.
    fn string(&mut self, string: &[u8], place: usize) -> Parsed<()> {
        if self.strings.contains(string) {
            return Ok(());
        }
        if self.strings.len() == MOST_STRINGS {
            return Err(outside(place, "the 1,025th string"));
        }
        self.strings.insert(string.to_vec());
        Ok(())
    }

    /// The label of a constant there: its line, if a label can name it.
    fn label(&mut self, place: usize, line: usize) -> u8 {
        u8::try_from(line).unwrap_or_else(|_| {
            self.late = self.late.or(Some(place));
            0
        })
    }
}

/// The token at that place brings a field of that depth.
fn brings(depth: usize, place: usize) -> Parsed<()> {
    match depth > DEEPEST {
        true => Err(outside(place, "a field deeper than 32")),
        false => Ok(()),
    }
}

/// Items.
impl<'t> Parser<'t> {
    fn manifest(&mut self) -> Parsed<Vec<Field>> {
        let mut items = Vec::new();
        while *self.peek()? != Token::End {
            items.push(self.item()?);
        }
        Ok(items)
    }

    fn item(&mut self) -> Parsed<Field> {
        match self.peek()? {
            Token::Keyword("node") => self.node(),
            Token::Keyword("define") => self.type_definition(),
            Token::Keyword("class") => self.class_item(),
            _ => self.statement(1),
        }
    }

    fn node(&mut self) -> Parsed<Field> {
        self.take()?;
        let node = Field::new(0x30);
        let node = match self.takes(Token::Keyword("default"))? {
            true => node.field(default()),
            false => node.fields(self.devices()?),
        };
        Ok(node.field(self.block(2)?))
    }

    /// "one device or more", "not in a list of devices" a comma behind the last.
    fn devices(&mut self) -> Parsed<Vec<Field>> {
        let is_bracketed = self.sign_comes("(")?;
        let mut devices = vec![self.device()?];
        while self.sign_comes(",")? {
            devices.push(self.device()?);
        }
        if is_bracketed {
            self.sign(")")?;
        }
        Ok(devices)
    }

    fn device(&mut self) -> Parsed<Field> {
        let lexeme = self.take()?;
        let name = match &lexeme.token {
            Token::Quoted(bytes) => &bytes[..],
            Token::Name(name) => name,
            _ => return Err(misplaced(&lexeme)),
        };
        self.string(name, lexeme.place)?;
        Ok(Field::new(0x31).name(name))
    }

    fn type_definition(&mut self) -> Parsed<Field> {
        self.take()?;
        let (name, _) = self.name()?;
        let parameters = self.parameters()?;
        let definition = Field::new(0x32).name(name).fields(parameters);
        Ok(definition.field(self.block(2)?))
    }

    /// `class` at the top: a definition, or a class with attributes.
    fn class_item(&mut self) -> Parsed<Field> {
        self.take()?;
        if *self.peek()? == Token::Sign("{") {
            return self.class_with_attributes(1);
        }
        let (name, _) = self.name()?;
        let parameters = self.parameters()?;
        let mut definition = Field::new(0x34).name(name);
        if self.takes(Token::Keyword("inherits"))? {
            definition = definition.field(parent(self.name()?.0));
        }
        Ok(definition.fields(parameters).field(self.block(2)?))
    }

    /// The 33s; none also where the brackets are left out.
    fn parameters(&mut self) -> Parsed<Vec<Field>> {
        let mut parameters = Vec::new();
        if !self.sign_comes("(")? || self.sign_comes(")")? {
            return Ok(parameters);
        }
        loop {
            parameters.push(self.parameter()?);
            if !self.comma_or(")")? || self.sign_comes(")")? {
                return Ok(parameters);
            }
        }
    }

    fn parameter(&mut self) -> Parsed<Field> {
        let lexeme = self.take()?;
        let Token::Variable(name) = lexeme.token else {
            return Err(misplaced(&lexeme));
        };
        self.string(name, lexeme.place)?;
        let default = match self.sign_comes("=")? {
            true => Some(self.constant(3)?),
            false => None,
        };
        Ok(parameter(name, default))
    }
}

/// Statements and blocks.
impl<'t> Parser<'t> {
    /// A 20 of that depth.
    fn block(&mut self, depth: usize) -> Parsed<Field> {
        let place = self.sign("{")?;
        brings(depth, place)?;
        let mut statements = Vec::new();
        while !self.sign_comes("}")? {
            statements.push(self.statement(depth + 1)?);
        }
        Ok(block(statements))
    }

    /// A statement of that depth, which its first token brings.
    fn statement(&mut self, depth: usize) -> Parsed<Field> {
        let lexeme = self.take()?;
        brings(depth, lexeme.place)?;
        match lexeme.token {
            Token::Variable(name) => self.assignment(name, lexeme.place, depth),
            Token::Name(name) => self.resource(name, lexeme.place, depth),
            Token::Keyword("if") => self.condition(depth),
            Token::Keyword("case") => self.case(depth),
            Token::Keyword("class") => self.class_with_attributes(depth),
            Token::Keyword("include") => Ok(include(self.name()?.0)),
            _ => Err(misplaced(&lexeme)),
        }
    }

    fn assignment(&mut self, name: &[u8], place: usize, depth: usize) -> Parsed<Field> {
        self.string(name, place)?;
        self.sign("=")?;
        Ok(assign(name, self.expression(depth + 1)?))
    }

    /// "without `else` the second block is an empty 20".
    fn condition(&mut self, depth: usize) -> Parsed<Field> {
        let test = self.expression(depth + 1)?;
        let then = self.block(depth + 1)?;
        let otherwise = match self.takes(Token::Keyword("else"))? {
            true => self.block(depth + 1)?,
            false => block(vec![]),
        };
        Ok(Field::new(0x22).field(test).field(then).field(otherwise))
    }

    fn case(&mut self, depth: usize) -> Parsed<Field> {
        let mut case = Field::new(0x23).field(self.expression(depth + 1)?);
        self.sign("{")?;
        while !self.sign_comes("}")? {
            let pattern = self.pattern(depth + 2)?;
            self.sign(":")?;
            let branch = Field::new(0x24).field(pattern);
            case = case.field(branch.field(self.block(depth + 2)?));
        }
        Ok(case)
    }

    /// "25 if the type list holds the name, else 27".
    fn resource(&mut self, kind: &[u8], place: usize, depth: usize) -> Parsed<Field> {
        self.string(kind, place)?;
        self.sign("{")?;
        let title = self.expression(depth + 1)?;
        self.sign(":")?;
        let attributes = self.attributes(depth + 1)?;
        Ok(match self.types.holds(kind) {
            true => built_in(kind, title, attributes),
            false => defined(kind, title, attributes),
        })
    }

    /// What stands behind the `class` of a 28.
    fn class_with_attributes(&mut self, depth: usize) -> Parsed<Field> {
        self.sign("{")?;
        let (name, _) = self.name()?;
        self.sign(":")?;
        Ok(class_with(name, self.attributes(depth + 1)?))
    }

    /// The 26s of that depth and the brace behind them.
    fn attributes(&mut self, depth: usize) -> Parsed<Vec<Field>> {
        let mut attributes = Vec::new();
        loop {
            if self.sign_comes("}")? {
                return Ok(attributes);
            }
            attributes.push(self.attribute(depth)?);
            if !self.comma_or("}")? {
                return Ok(attributes);
            }
        }
    }

    fn attribute(&mut self, depth: usize) -> Parsed<Field> {
        let (name, place) = self.name()?;
        brings(depth, place)?;
        self.sign("=>")?;
        Ok(given(name, self.expression(depth + 1)?))
    }
}

/// Expressions.
impl<'t> Parser<'t> {
    fn expression(&mut self, depth: usize) -> Parsed<Field> {
        Ok(self.grown(depth, LOOSEST)?.field)
    }

    /// An expression of that depth whose operators bind at that level or
    /// tighter.
    ///
    /// "all from the left": the right side of an operator holds only those that
    /// bind tighter. So what follows it here binds as tight or looser; behind a
    /// selector too, which has no right side to take a tighter one.
    fn grown(&mut self, depth: usize, loosest: u8) -> Parsed<Grown> {
        let mut left = self.operand(depth)?;
        let mut tightest = TIGHTEST;
        while let Some((level, operator)) = operator(self.peek()?) {
            if level < loosest || level > tightest {
                break;
            }
            tightest = level;
            let place = self.take()?.place;
            if depth + left.height > DEEPEST {
                return Err(outside(place, "an operator that pushes its left below 32"));
            }
            left = match operator {
                Operator::Binary(byte) => binary_of(byte, left, self.grown(depth + 1, level + 1)?),
                Operator::Select => self.selector(left, depth)?,
            };
        }
        Ok(left)
    }

    /// The arms of a selector of that depth: "one arm or more".
    fn selector(&mut self, scrutinee: Grown, depth: usize) -> Parsed<Grown> {
        self.sign("{")?;
        let mut height = 1 + scrutinee.height;
        let mut selector = Field::new(0x19).field(scrutinee.field);
        loop {
            let pattern = self.pattern(depth + 2)?;
            self.sign("=>")?;
            let chosen = self.grown(depth + 2, LOOSEST)?;
            height = height.max(2 + chosen.height);
            selector = selector.field(Field::new(0x1A).field(pattern).field(chosen.field));
            if !self.comma_or("}")? || self.sign_comes("}")? {
                return Ok(Grown {
                    field: selector,
                    height,
                });
            }
        }
    }

    fn operand(&mut self, depth: usize) -> Parsed<Grown> {
        let lexeme = self.take()?;
        let place = lexeme.place;
        // Round brackets bring no field: the operand in them does.
        if lexeme.token == Token::Sign("(") {
            return self.bracketed(place, depth);
        }
        brings(depth, place)?;
        match lexeme.token {
            Token::Sign("!") => Ok(not_of(self.operand(depth + 1)?)),
            Token::Variable(name) => {
                self.string(name, place)?;
                Ok(leaf(var(name)))
            }
            Token::TopVariable(name) => {
                self.string(name, place)?;
                Ok(leaf(top_var(name)))
            }
            Token::ClassVariable(class, name) => {
                self.string(class, place)?;
                self.string(name, place)?;
                Ok(leaf(class_var(class, name)))
            }
            Token::Name(name) => self.name_operand(name, &lexeme, depth),
            _ => Ok(leaf(self.constant_of(lexeme)?)),
        }
    }

    fn bracketed(&mut self, place: usize, depth: usize) -> Parsed<Grown> {
        if self.brackets == MOST_BRACKETS {
            return Err(outside(place, "the 33rd open bracket"));
        }
        self.brackets += 1;
        let inside = self.grown(depth, LOOSEST)?;
        self.sign(")")?;
        self.brackets -= 1;
        Ok(inside)
    }

    /// "A name with `[` behind it is a read's type where an operand may begin";
    /// another name is a string constant.
    fn name_operand(&mut self, name: &[u8], lexeme: &Lexeme<'t>, depth: usize) -> Parsed<Grown> {
        self.string(name, lexeme.place)?;
        if !self.sign_comes("[")? {
            let label = self.label(lexeme.place, lexeme.line);
            return Ok(leaf(text(label, name)));
        }
        let title = self.grown(depth + 1, LOOSEST)?;
        self.sign("]")?;
        self.sign("[")?;
        let (attribute, _) = self.name()?;
        self.sign("]")?;
        Ok(Grown {
            field: attribute_of(name, attribute, title.field),
            height: 1 + title.height,
        })
    }

    fn pattern(&mut self, depth: usize) -> Parsed<Field> {
        if *self.peek()? != Token::Keyword("default") {
            return self.constant(depth);
        }
        let place = self.take()?.place;
        brings(depth, place)?;
        Ok(default())
    }

    fn constant(&mut self, depth: usize) -> Parsed<Field> {
        let lexeme = self.take()?;
        brings(depth, lexeme.place)?;
        self.constant_of(lexeme)
    }

    fn constant_of(&mut self, lexeme: Lexeme<'t>) -> Parsed<Field> {
        let (place, line) = (lexeme.place, lexeme.line);
        match &lexeme.token {
            Token::Number(number) => Ok(int(self.label(place, line), *number)),
            Token::Keyword("true") => Ok(boolean(self.label(place, line), true)),
            Token::Keyword("false") => Ok(boolean(self.label(place, line), false)),
            Token::Name(name) => self.string_constant(name, place, line),
            Token::Quoted(bytes) => self.string_constant(bytes, place, line),
            _ => Err(misplaced(&lexeme)),
        }
    }

    fn string_constant(&mut self, string: &[u8], place: usize, line: usize) -> Parsed<Field> {
        self.string(string, place)?;
        Ok(text(self.label(place, line), string))
    }
}

fn leaf(field: Field) -> Grown {
    Grown { field, height: 1 }
}

fn not_of(operand: Grown) -> Grown {
    Grown {
        field: not(operand.field),
        height: 1 + operand.height,
    }
}

fn binary_of(byte: u8, left: Grown, right: Grown) -> Grown {
    Grown {
        field: binary(byte, left.field, right.field),
        height: 1 + left.height.max(right.height),
    }
}
