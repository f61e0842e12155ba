//! A manifest once it has been read: the fields as a tree, each with its place.

use crate::answer::Place;
use crate::labels::Labels;
use std::collections::BTreeMap;

/// "A name is a two-byte string number, counted from 0."
pub type Name = u16;

/// Integer, string (by its number in the table) or boolean. Strings of the
/// table are all different, so equal numbers are equal strings.
#[derive(Clone, Copy, Debug, PartialEq, Eq)]
pub enum Value {
    Integer(i64),
    Text(Name),
    Boolean(bool),
}

/// A value with the labels that decide it.
#[derive(Clone, Copy, Debug, PartialEq, Eq)]
pub struct Labelled {
    pub value: Value,
    pub labels: Labels,
}

impl Labelled {
    /// The same value with more labels.
    pub fn with(self, more: Labels) -> Labelled {
        Labelled {
            labels: self.labels.union(more),
            ..self
        }
    }
}

/// 10, 11 and 12.
#[derive(Clone, Copy, Debug)]
pub struct Constant {
    pub place: Place,
    pub label: u8,
    pub value: Value,
}

impl Constant {
    pub fn labelled(&self) -> Labelled {
        Labelled {
            value: self.value,
            labels: Labels::one(self.label),
        }
    }
}

/// "A pattern is a constant or the empty field 1B, default."
#[derive(Clone, Copy, Debug)]
pub enum Pattern {
    Constant(Constant),
    Default,
}

#[derive(Debug)]
pub struct Expression {
    pub place: Place,
    pub form: Form,
}

#[derive(Debug)]
pub enum Form {
    Constant(Constant),
    Variable(Name),
    TopVariable(Name),
    ClassVariable {
        class: Name,
        name: Name,
    },
    Binary {
        operator: Operator,
        left: Box<Expression>,
        right: Box<Expression>,
    },
    Not(Box<Expression>),
    AttributeRead {
        kind: Name,
        attribute: Name,
        title: Box<Expression>,
    },
    Selector {
        scrutinee: Box<Expression>,
        arms: Vec<Arm<Expression>>,
    },
}

/// "operator byte 0 to 6 for + − / > = and or".
#[derive(Clone, Copy, Debug, PartialEq, Eq)]
pub enum Operator {
    Add,
    Subtract,
    Divide,
    Greater,
    Equal,
    And,
    Or,
}

impl Operator {
    pub fn from_byte(byte: u8) -> Option<Operator> {
        Some(match byte {
            0 => Operator::Add,
            1 => Operator::Subtract,
            2 => Operator::Divide,
            3 => Operator::Greater,
            4 => Operator::Equal,
            5 => Operator::And,
            6 => Operator::Or,
            _ => return None,
        })
    }
}

/// A pattern and what it chooses: a selector's 1A or a case's 24.
#[derive(Debug)]
pub struct Arm<Chosen> {
    pub pattern: Pattern,
    pub chosen: Chosen,
}

/// A 20: its statements in order.
pub type Block = Vec<Statement>;

#[derive(Debug)]
pub struct Statement {
    pub place: Place,
    pub action: Action,
}

#[derive(Debug)]
pub enum Action {
    Assign {
        name: Name,
        value: Expression,
    },
    If {
        condition: Expression,
        then: Block,
        otherwise: Block,
        effect: Effect,
    },
    Case {
        scrutinee: Expression,
        arms: Vec<Arm<Block>>,
        effect: Effect,
    },
    BuiltIn(Resource),
    Defined(Resource),
    Class {
        class: Name,
        attributes: Attributes,
    },
    Include {
        class: Name,
    },
}

/// What the text of a condition's branches, all of them, may do: "each name
/// assigned anywhere in any of its branches, taken or not, nested conditions
/// included", and whether "any branch holds a 27, 28 or 29 at any depth".
#[derive(Debug, Default)]
pub struct Effect {
    /// Each name once, rising.
    pub assigned: Vec<Name>,
    pub declares: bool,
}

impl Effect {
    /// The effect of several branches together. A nested condition has its own
    /// effect already, so no statement is looked at more often than there are
    /// conditions around it, and depth 32 bounds those.
    pub fn of<'b>(branches: impl Iterator<Item = &'b Block>) -> Effect {
        let mut effect = Effect::default();
        for statement in branches.flatten() {
            match &statement.action {
                Action::Assign { name, .. } => effect.assigned.push(*name),
                Action::If { effect: inner, .. } | Action::Case { effect: inner, .. } => {
                    effect.assigned.extend_from_slice(&inner.assigned);
                    effect.declares |= inner.declares;
                }
                Action::Defined(_) | Action::Class { .. } | Action::Include { .. } => {
                    effect.declares = true;
                }
                Action::BuiltIn(_) => {}
            }
        }
        effect.assigned.sort_unstable();
        effect.assigned.dedup();
        effect
    }
}

/// A 25 or 27.
#[derive(Debug)]
pub struct Resource {
    pub kind: Name,
    pub title: Expression,
    pub attributes: Attributes,
}

/// A 26.
#[derive(Debug)]
pub struct Attribute {
    pub place: Place,
    pub name: Name,
    pub value: Expression,
}

/// The 26s of one body, in written order.
#[derive(Debug, Default)]
pub struct Attributes {
    pub list: Vec<Attribute>,
    /// Where in the list a name first stands.
    first: BTreeMap<Name, usize>,
    /// The first 26 whose name stands earlier in the body (refusal 21).
    pub repeated: Option<Place>,
}

impl Attributes {
    pub fn push(&mut self, attribute: Attribute) {
        if self.first.contains_key(&attribute.name) {
            self.repeated = self.repeated.or(Some(attribute.place));
        } else {
            self.first.insert(attribute.name, self.list.len());
        }
        self.list.push(attribute);
    }

    pub fn position(&self, name: Name) -> Option<usize> {
        self.first.get(&name).copied()
    }
}

/// A 33.
#[derive(Debug)]
pub struct Parameter {
    pub place: Place,
    pub name: Name,
    pub default: Option<Constant>,
}

/// The 33s of one definition, in written order.
#[derive(Debug, Default)]
pub struct Parameters {
    pub list: Vec<Parameter>,
    names: std::collections::BTreeSet<Name>,
}

impl Parameters {
    pub fn push(&mut self, parameter: Parameter) {
        self.names.insert(parameter.name);
        self.list.push(parameter);
    }

    pub fn contains(&self, name: Name) -> bool {
        self.names.contains(&name)
    }
}

/// A 35.
#[derive(Clone, Copy, Debug)]
pub struct Parent {
    pub place: Place,
    pub name: Name,
}

#[derive(Clone, Copy, Debug, PartialEq, Eq)]
pub enum Sort {
    Class,
    Type,
}

/// A 32 or 34.
#[derive(Debug)]
pub struct Definition {
    pub place: Place,
    pub name: Name,
    pub sort: Sort,
    pub parent: Option<Parent>,
    pub parameters: Parameters,
    pub block: Block,
}

/// Whom a 30 is for.
#[derive(Debug)]
pub enum Devices {
    Named(Vec<Name>),
    Default,
}

/// A 30.
#[derive(Debug)]
pub struct Node {
    pub devices: Devices,
    pub block: Block,
}

#[derive(Debug)]
pub enum Item {
    Statement(Statement),
    Node(Node),
    Definition(Definition),
}

/// A whole manifest without faults 3, 4 and 5: every name is a number of the
/// table, whose strings rise.
#[derive(Debug)]
pub struct Tree<'m> {
    pub strings: Vec<&'m [u8]>,
    pub items: Vec<Item>,
}

impl Tree<'_> {
    /// The number of a string, if the table has it.
    pub fn number_of(&self, string: &[u8]) -> Option<Name> {
        let at = self.strings.binary_search(&string).ok()?;
        Name::try_from(at).ok()
    }
}
