//! From the tagged form back to text.

use crate::compile::{admit, read};
use crate::lexer::{is_name, keyword};
use crate::text_answer::{unprintable, Refused, Written, LONGEST};
use crate::tree::*;
use crate::types::Types;
use crate::walk::{fields, Met};

/// The text of a manifest, with the eight built-in types, for an output and a
/// memory of these lengths.
pub fn print(manifest: &[u8], output: usize, memory: usize) -> Written {
    print_with_types(None, manifest, output, memory)
}

/// The text of a manifest, with the types of a list if one is lent.
pub fn print_with_types(types: Option<&[u8]>, manifest: &[u8], output: usize, memory: usize) -> Written {
    let types = admit(types, memory)?;
    let tree = read(manifest)?;
    check(manifest, &tree.strings, &types)?;
    let text = text_of(&tree);
    if text.len() > LONGEST {
        return Err(unprintable(0, "a text over 65,535 bytes"));
    }
    if text.len() > output {
        return Err(unprintable(0, "a text over the output"));
    }
    Ok(text)
}

/// 26 "at the lowest field".
fn check(manifest: &[u8], strings: &[&[u8]], types: &Types) -> Result<(), Refused> {
    let mut label_before = 0;
    for met in fields(manifest) {
        let fault = match met.label() {
            Some(label) if label < label_before => Some("a label below the one before"),
            Some(label) => {
                label_before = label;
                None
            }
            None => fault_of_names(&met, strings, types),
        };
        if let Some(why) = fault {
            return Err(unprintable(met.place, why));
        }
    }
    Ok(())
}

/// "a field other than 11 and 31 that holds a name the notation cannot spell
/// (empty, keyword, other bytes); a 25 whose type is not in the list, a 27 whose
/// type is".
fn fault_of_names(met: &Met, strings: &[&[u8]], types: &Types) -> Option<&'static str> {
    if met.tag == 0x31 {
        return None;
    }
    for name in met.names() {
        let spelled = strings.get(usize::from(name)).copied().unwrap_or(&[]);
        if spelled.is_empty() {
            return Some("an empty name");
        }
        if keyword(spelled).is_some() {
            return Some("a keyword for a name");
        }
        if !is_name(spelled) {
            return Some("other bytes in a name");
        }
        match (met.tag, types.holds(spelled)) {
            (0x25, false) => return Some("a 25 of no built-in type"),
            (0x27, true) => return Some("a 27 of a built-in type"),
            _ => {}
        }
    }
    None
}

/// The text of a tree that [`check`] lets pass.
fn text_of(tree: &Tree) -> Vec<u8> {
    let mut printer = Printer {
        tree,
        text: Vec::new(),
        line: 0,
        wanted: 0,
        open: 0,
        is_glued: true,
    };
    for item in &tree.items {
        printer.item(item);
    }
    if !printer.text.is_empty() {
        printer.text.push(b'\n');
    }
    printer.text
}

struct Printer<'m> {
    tree: &'m Tree<'m>,
    text: Vec<u8>,
    /// The line of the token before.
    line: usize,
    /// The line that the next token stands on.
    wanted: usize,
    /// Brackets that are open.
    open: usize,
    /// Nothing stands between the token before and the next one, if they share
    /// a line.
    is_glued: bool,
}

/// Tokens and where they stand.
impl Printer<'_> {
    /// What begins next and holds these constants begins on the line of the
    /// first of them.
    fn begin(&mut self, first_label: Option<u8>) {
        if let Some(label) = first_label {
            self.wanted = usize::from(label);
        }
    }

    fn token(&mut self, spelled: &[u8]) {
        if matches!(spelled, b")" | b"]" | b"}") {
            self.open -= 1;
        }
        let glues_before = matches!(spelled, b")" | b"]" | b"[" | b"," | b":");
        if self.wanted > self.line {
            self.text
                .extend(std::iter::repeat_n(b'\n', self.wanted - self.line));
            self.text.extend(std::iter::repeat_n(b' ', 2 * self.open));
            self.line = self.wanted;
        } else if !self.is_glued && !glues_before {
            self.text.push(b' ');
        }
        self.text.extend_from_slice(spelled);
        self.is_glued = matches!(spelled, b"(" | b"[" | b"!");
        if matches!(spelled, b"(" | b"[" | b"{") {
            self.open += 1;
        }
    }

    fn tokens(&mut self, spelled: &[&str]) {
        for token in spelled {
            self.token(token.as_bytes());
        }
    }

    fn string(&self, name: Name) -> &[u8] {
        let strings = &self.tree.strings;
        strings.get(usize::from(name)).copied().unwrap_or(&[])
    }

    /// A bare name with something before it, as one token.
    fn name(&mut self, before: &str, name: Name) {
        let mut token = before.as_bytes().to_vec();
        token.extend_from_slice(self.string(name));
        self.token(&token);
    }

    fn quoted(&mut self, name: Name) {
        let token = quote(self.string(name));
        self.token(&token);
    }

    /// Entries with commas between them.
    fn list<Entry>(&mut self, entries: &[Entry], mut print: impl FnMut(&mut Self, &Entry)) {
        for (at, entry) in entries.iter().enumerate() {
            if at > 0 {
                self.token(b",");
            }
            print(self, entry);
        }
    }
}

/// "in single quotes, with `\\`, `\'` and `\n` for a backslash, a single quote
/// and a line feed, and every other byte for itself".
fn quote(string: &[u8]) -> Vec<u8> {
    let mut quoted = vec![b'\''];
    for byte in string {
        match byte {
            b'\\' => quoted.extend_from_slice(b"\\\\"),
            b'\'' => quoted.extend_from_slice(b"\\'"),
            b'\n' => quoted.extend_from_slice(b"\\n"),
            _ => quoted.push(*byte),
        }
    }
    quoted.push(b'\'');
    quoted
}

/// Items and statements.
impl Printer<'_> {
    fn item(&mut self, item: &Item) {
        match item {
            Item::Statement(statement) => self.statement(statement),
            Item::Node(node) => self.node(node),
            Item::Definition(definition) => self.definition(definition),
        }
    }

    fn node(&mut self, node: &Node) {
        self.begin(first_in_block(&node.block));
        self.token(b"node");
        match &node.devices {
            Devices::Default => self.token(b"default"),
            Devices::Named(names) => self.list(names, |printer, name| printer.quoted(*name)),
        }
        self.block(&node.block);
    }

    fn definition(&mut self, definition: &Definition) {
        let parameters = &definition.parameters.list;
        let defaults = parameters.iter().find_map(first_in_parameter);
        self.begin(defaults.or_else(|| first_in_block(&definition.block)));
        self.token(match definition.sort {
            Sort::Class => b"class",
            Sort::Type => b"define",
        });
        self.name("", definition.name);
        if !parameters.is_empty() {
            self.token(b"(");
            self.list(parameters, Printer::parameter);
            self.token(b")");
        }
        if let Some(parent) = &definition.parent {
            self.token(b"inherits");
            self.name("", parent.name);
        }
        self.block(&definition.block);
    }

    fn parameter(&mut self, parameter: &Parameter) {
        self.begin(first_in_parameter(parameter));
        self.name("$", parameter.name);
        if let Some(default) = &parameter.default {
            self.token(b"=");
            self.constant(default);
        }
    }

    fn block(&mut self, block: &Block) {
        self.token(b"{");
        for statement in block {
            self.statement(statement);
        }
        self.token(b"}");
    }

    fn statement(&mut self, statement: &Statement) {
        self.begin(first_in_statement(statement));
        match &statement.action {
            Action::Assign { name, value } => {
                self.name("$", *name);
                self.token(b"=");
                self.expression(value);
            }
            Action::If {
                condition,
                then,
                otherwise,
                ..
            } => self.condition(condition, then, otherwise),
            Action::Case { scrutinee, arms, .. } => self.case(scrutinee, arms),
            Action::BuiltIn(resource) | Action::Defined(resource) => self.resource(resource),
            Action::Class { class, attributes } => {
                self.tokens(&["class", "{"]);
                self.name("", *class);
                self.attributes(attributes);
            }
            Action::Include { class } => {
                self.token(b"include");
                self.name("", *class);
            }
        }
    }

    /// "`else` only where the second block holds a statement".
    fn condition(&mut self, condition: &Expression, then: &Block, otherwise: &Block) {
        self.token(b"if");
        self.expression(condition);
        self.block(then);
        if !otherwise.is_empty() {
            self.token(b"else");
            self.block(otherwise);
        }
    }

    fn case(&mut self, scrutinee: &Expression, branches: &[Arm<Block>]) {
        self.token(b"case");
        self.expression(scrutinee);
        self.token(b"{");
        for branch in branches {
            self.begin(first_in_pattern(&branch.pattern).or_else(|| first_in_block(&branch.chosen)));
            self.pattern(&branch.pattern);
            self.token(b":");
            self.block(&branch.chosen);
        }
        self.token(b"}");
    }

    fn resource(&mut self, resource: &Resource) {
        self.name("", resource.kind);
        self.token(b"{");
        self.expression(&resource.title);
        self.attributes(&resource.attributes);
    }

    /// From the colon behind a title to the closing brace.
    fn attributes(&mut self, attributes: &Attributes) {
        self.token(b":");
        self.list(&attributes.list, |printer, attribute| {
            printer.begin(first_in(&attribute.value));
            printer.name("", attribute.name);
            printer.token(b"=>");
            printer.expression(&attribute.value);
        });
        self.token(b"}");
    }
}

/// How tightly an expression's outermost operator binds; operands tightest.
fn level(expression: &Expression) -> u8 {
    match &expression.form {
        Form::Binary { operator, .. } => binary_level(*operator),
        Form::Selector { .. } => SELECTOR,
        _ => TIGHTEST,
    }
}

const SELECTOR: u8 = 3;
const TIGHTEST: u8 = 8;

fn binary_level(operator: Operator) -> u8 {
    match operator {
        Operator::Divide => 7,
        Operator::Add | Operator::Subtract => 6,
        Operator::Equal => 5,
        Operator::Greater => 4,
        Operator::And => 2,
        Operator::Or => 1,
    }
}

fn sign_of(operator: Operator) -> &'static [u8] {
    match operator {
        Operator::Add => b"+",
        Operator::Subtract => b"-",
        Operator::Divide => b"/",
        Operator::Greater => b">",
        Operator::Equal => b"==",
        Operator::And => b"and",
        Operator::Or => b"or",
    }
}

/// Expressions.
impl Printer<'_> {
    /// An operand that stands bare if it binds at that level or tighter.
    fn operand(&mut self, expression: &Expression, loosest: u8) {
        if level(expression) >= loosest {
            return self.expression(expression);
        }
        self.token(b"(");
        self.expression(expression);
        self.token(b")");
    }

    fn expression(&mut self, expression: &Expression) {
        match &expression.form {
            Form::Constant(constant) => self.constant(constant),
            Form::Variable(name) => self.name("$", *name),
            Form::TopVariable(name) => self.name("$::", *name),
            Form::ClassVariable { class, name } => self.class_variable(*class, *name),
            Form::Binary {
                operator,
                left,
                right,
            } => {
                let level = binary_level(*operator);
                self.operand(left, level);
                self.token(sign_of(*operator));
                self.operand(right, level + 1);
            }
            Form::Not(operand) => {
                self.token(b"!");
                self.operand(operand, TIGHTEST);
            }
            Form::AttributeRead {
                kind,
                attribute,
                title,
            } => {
                self.name("", *kind);
                self.token(b"[");
                self.expression(title);
                self.tokens(&["]", "["]);
                self.name("", *attribute);
                self.token(b"]");
            }
            Form::Selector { scrutinee, arms } => self.selector(scrutinee, arms),
        }
    }

    fn class_variable(&mut self, class: Name, name: Name) {
        let token = [b"$::", self.string(class), b"::", self.string(name)].concat();
        self.token(&token);
    }

    fn selector(&mut self, scrutinee: &Expression, arms: &[Arm<Expression>]) {
        self.operand(scrutinee, SELECTOR);
        self.tokens(&["?", "{"]);
        self.list(arms, |printer, arm| {
            printer.begin(first_in_pattern(&arm.pattern).or_else(|| first_in(&arm.chosen)));
            printer.pattern(&arm.pattern);
            printer.token(b"=>");
            printer.expression(&arm.chosen);
        });
        self.token(b"}");
    }

    fn pattern(&mut self, pattern: &Pattern) {
        match pattern {
            Pattern::Default => self.token(b"default"),
            Pattern::Constant(constant) => self.constant(constant),
        }
    }

    /// "a constant stands on the line that its label names".
    fn constant(&mut self, constant: &Constant) {
        self.begin(Some(constant.label));
        match constant.value {
            Value::Integer(number) => self.token(number.to_string().as_bytes()),
            Value::Text(name) => self.quoted(name),
            Value::Boolean(truth) => self.token(truth.to_string().as_bytes()),
        }
    }
}

// The label of the first constant in something, in the order of the text.

fn first_in_pattern(pattern: &Pattern) -> Option<u8> {
    match pattern {
        Pattern::Default => None,
        Pattern::Constant(constant) => Some(constant.label),
    }
}

fn first_in_parameter(parameter: &Parameter) -> Option<u8> {
    parameter.default.as_ref().map(|constant| constant.label)
}

fn first_in(expression: &Expression) -> Option<u8> {
    match &expression.form {
        Form::Constant(constant) => Some(constant.label),
        Form::Variable(_) | Form::TopVariable(_) | Form::ClassVariable { .. } => None,
        Form::Binary { left, right, .. } => first_in(left).or_else(|| first_in(right)),
        Form::Not(operand) => first_in(operand),
        Form::AttributeRead { title, .. } => first_in(title),
        Form::Selector { scrutinee, arms } => first_in(scrutinee).or_else(|| {
            let in_arm =
                |arm: &Arm<Expression>| first_in_pattern(&arm.pattern).or_else(|| first_in(&arm.chosen));
            arms.iter().find_map(in_arm)
        }),
    }
}

fn first_in_block(block: &Block) -> Option<u8> {
    block.iter().find_map(first_in_statement)
}

fn first_in_attributes(attributes: &Attributes) -> Option<u8> {
    attributes
        .list
        .iter()
        .find_map(|attribute| first_in(&attribute.value))
}

fn first_in_statement(statement: &Statement) -> Option<u8> {
    match &statement.action {
        Action::Assign { value, .. } => first_in(value),
        Action::If {
            condition,
            then,
            otherwise,
            ..
        } => first_in(condition)
            .or_else(|| first_in_block(then))
            .or_else(|| first_in_block(otherwise)),
        Action::Case { scrutinee, arms, .. } => first_in(scrutinee).or_else(|| {
            let in_branch =
                |arm: &Arm<Block>| first_in_pattern(&arm.pattern).or_else(|| first_in_block(&arm.chosen));
            arms.iter().find_map(in_branch)
        }),
        Action::BuiltIn(resource) | Action::Defined(resource) => {
            first_in(&resource.title).or_else(|| first_in_attributes(&resource.attributes))
        }
        Action::Class { attributes, .. } => first_in_attributes(attributes),
        Action::Include { .. } => None,
    }
}
