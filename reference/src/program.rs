//! Random manifests that mean something: what they read was mostly assigned,
//! what they declare is mostly defined somewhere. A sloppiness says how often a
//! choice is made without regard to that.

use crate::arrange::arrange;
use crate::assemble::*;
use crate::random::Random;
use std::collections::BTreeSet;

type Word = &'static str;
type Words = BTreeSet<Word>;

#[derive(Clone, Copy, PartialEq, Eq)]
pub enum Kind {
    Integer,
    Text,
    Boolean,
}

/// Variables and parameters: the name tells the kind.
const INTEGERS: [Word; 5] = ["base", "fee", "hours", "rate", "seats"];
const TEXTS: [Word; 3] = ["city", "mode", "owner"];
const BOOLEANS: [Word; 4] = ["late", "member", "open", "peak"];
const ATTRIBUTES: [Word; 8] = [
    "fee", "from", "open", "price", "screens", "sign", "title", "until",
];
pub const KINDS: [Word; 8] = [
    "kiosk", "tablet", "printer", "scanner", "gate", "screen", "plan", "wall",
];
const CLASSES: [Word; 6] = ["billing", "climbing", "desk", "extras", "gates", "walls"];
const TYPES: [Word; 4] = ["booth", "corner", "doorway", "entry"];
const TITLES: [Word; 6] = ["back", "city", "east", "front", "kiosk", "north"];
pub const DEVICES: [Word; 4] = ["desk", "front", "gym", ""];

fn names_of(kind: Kind) -> &'static [Word] {
    match kind {
        Kind::Integer => &INTEGERS,
        Kind::Text => &TEXTS,
        Kind::Boolean => &BOOLEANS,
    }
}

fn kind_of(name: Word) -> Kind {
    if INTEGERS.contains(&name) {
        Kind::Integer
    } else if BOOLEANS.contains(&name) {
        Kind::Boolean
    } else {
        Kind::Text
    }
}

/// What is known of a definition.
#[derive(Clone)]
struct Known {
    name: Word,
    /// Position of the parent among the classes.
    parent: Option<usize>,
    /// Each with whether it has a default.
    parameters: Vec<(Word, bool)>,
    /// Variables its scope surely has once its body has run.
    sure: Words,
}

impl Known {
    fn needs_values(&self) -> bool {
        self.parameters.iter().any(|(_, default)| !default)
    }
}

/// What is known at one point of the text.
#[derive(Clone, Default)]
struct Env {
    is_top: bool,
    /// In a type body: only types before this one are declared.
    inside_type: Option<usize>,
    /// In a class body: only classes before this one are declared.
    inside_class: Option<usize>,
    /// May have a value in this scope.
    assigned: Words,
    /// Surely can be read here.
    visible: Words,
    /// Surely have a value at the top.
    top: Words,
    /// Classes surely declared.
    declared: BTreeSet<usize>,
    /// Surely in the catalog.
    entries: Vec<(Word, String, Word, Kind)>,
    /// Built-in types already used with the variable "title" in this body.
    titled: Words,
}

impl Env {
    /// What is known after a condition with these branches.
    fn merge(&mut self, mut branches: Vec<Env>, one_is_taken: bool) {
        if !one_is_taken {
            branches.push(self.clone());
        }
        let Some(first) = branches.pop() else {
            return;
        };
        let (mut visible, mut declared, mut top) = (first.visible, first.declared, first.top);
        self.assigned.extend(first.assigned);
        self.titled.extend(first.titled);
        for branch in branches {
            visible.retain(|name| branch.visible.contains(name));
            top.retain(|name| branch.top.contains(name));
            declared.retain(|class| branch.declared.contains(class));
            self.assigned.extend(branch.assigned);
            self.titled.extend(branch.titled);
        }
        self.visible = visible;
        self.top = top;
        self.declared = declared;
    }
}

pub struct Program<'r> {
    random: &'r mut Random,
    sloppiness: usize,
    classes: Vec<Known>,
    types: Vec<Known>,
    /// Classes some statement may declare.
    touched: BTreeSet<usize>,
    titles: usize,
}

/// A whole random manifest.
pub fn program(random: &mut Random, sloppiness: usize) -> Manifest {
    let mut program = Program::new(random, sloppiness);
    let mut env = Env {
        is_top: true,
        ..Env::default()
    };
    let mut items = program.preamble(&mut env);
    items.extend(program.definitions(&env));
    if program.random.chance(60) {
        let at = program.random.below(items.len());
        items.insert(at, program.node_item(&env));
    }
    let mut devices = program.random.weighted(&[3, 4, 2, 1]);
    for _ in 0..program.random.between(3, 11) {
        if devices > 0 && program.random.chance(300) {
            devices -= 1;
            items.push(program.node_item(&env));
        } else {
            items.push(program.statement(&mut env, 0));
        }
    }
    items.extend((0..devices).map(|_| program.node_item(&env)));
    program.disorder(&mut items);
    let mut manifest = Manifest::new(items);
    arrange(program.random, &mut manifest);
    match program.random.chance(800) {
        true => manifest.with("title").with("desk"),
        false => manifest,
    }
}

/// One statement without regard to anything, for the ends of other shapes.
pub fn stray_statement(random: &mut Random) -> Field {
    let mut program = Program::new(random, 500);
    program.statement(&mut Env::default(), 2)
}

/// A constant of any kind.
pub fn any_constant(random: &mut Random) -> Field {
    let mut program = Program::new(random, 0);
    let kind = program.any_kind();
    program.constant(kind)
}

/// Puts a default among the arms of a case or selector, in about half of them
/// behind all the others, and the second one somewhere behind the first.
pub fn place_defaults<Chosen>(
    random: &mut Random,
    arms: &mut Vec<(Field, Chosen)>,
    first: Chosen,
    second: Option<Chosen>,
) {
    let last = arms.len();
    let at = match random.chance(500) {
        true => last,
        false => random.below(last),
    };
    arms.insert(at, (default(), first));
    if let Some(second) = second {
        let behind = random.between(at + 1, arms.len());
        arms.insert(behind, (default(), second));
    }
}

/// Making a manifest.
impl<'r> Program<'r> {
    fn new(random: &'r mut Random, sloppiness: usize) -> Program<'r> {
        Program {
            random,
            sloppiness,
            classes: Vec::new(),
            types: Vec::new(),
            touched: BTreeSet::new(),
            titles: 0,
        }
    }

    fn sloppy(&mut self) -> bool {
        self.random.chance(self.sloppiness)
    }

    /// Some variables of the top that every body can read.
    fn preamble(&mut self, env: &mut Env) -> Vec<Field> {
        (0..self.random.between(2, 6))
            .map(|_| self.assignment(env))
            .collect()
    }

    fn definitions(&mut self, env: &Env) -> Vec<Field> {
        let classes = self.random.below(CLASSES.len());
        let types = self.random.below(TYPES.len());
        let mut sorts: Vec<bool> = (0..classes + types).map(|at| at < classes).collect();
        self.random.shuffle(&mut sorts);
        sorts
            .into_iter()
            .map(|class| {
                if class {
                    self.class(env)
                } else {
                    self.type_item(env)
                }
            })
            .collect()
    }

    /// Sometimes moves an item, so that a read may come before its assignment,
    /// or has one twice.
    fn disorder(&mut self, items: &mut Vec<Field>) {
        if self.random.chance(50) || self.sloppy() {
            let item = items.remove(self.random.below(items.len()));
            let to = self.random.below(items.len() + 1);
            items.insert(to, item);
        }
        if self.sloppy() {
            let item = items[self.random.below(items.len())].clone();
            items.push(item);
        }
    }

    fn node_item(&mut self, env: &Env) -> Field {
        let mut inside = Env {
            is_top: false,
            assigned: Words::new(),
            ..env.clone()
        };
        let statements = self.random.between(1, 6);
        let block = self.statements(&mut inside, statements, 0);
        match self.random.weighted(&[4, 6]) {
            0 => node_default(block),
            _ => {
                let count = self.random.between(1, 2);
                let devices: Vec<Word> = (0..count).map(|_| self.random.pick(&DEVICES)).collect();
                node(&devices, block)
            }
        }
    }

    fn parameters(&mut self, all_defaults: bool) -> (Vec<(Word, bool)>, Vec<Field>) {
        let mut parameters: Vec<(Word, bool)> = Vec::new();
        let mut fields = Vec::new();
        for _ in 0..self.random.weighted(&[4, 4, 3, 2]) {
            let mut name = self.any_variable();
            if self.sloppy() {
                name = "title";
            }
            if parameters.iter().any(|(known, _)| *known == name) && !self.sloppy() {
                continue;
            }
            let default = all_defaults || self.random.chance(500);
            let constant = default.then(|| self.constant(kind_of(name)));
            parameters.push((name, default));
            fields.push(parameter(name, constant));
        }
        (parameters, fields)
    }

    /// What is known inside a new body.
    fn body_env(&self, env: &Env, parameters: &[(Word, bool)]) -> Env {
        let names = parameters.iter().map(|(name, _)| *name);
        Env {
            is_top: false,
            assigned: names.clone().collect(),
            visible: env.visible.iter().copied().chain(names).collect(),
            ..env.clone()
        }
    }

    fn class(&mut self, env: &Env) -> Field {
        let at = self.classes.len();
        let name = CLASSES[at % CLASSES.len()];
        let all_defaults = self.random.chance(750);
        let (parameters, fields) = self.parameters(all_defaults);
        let mut inside = self.body_env(env, &parameters);
        let above = self.choose_parent(at);
        let parent_name = above.map(|parent| CLASSES[parent % CLASSES.len()]);
        if let Some(parent) = above.filter(|parent| *parent < at) {
            for ancestor in self.ancestors(parent) {
                inside.visible.extend(&self.classes[ancestor].sure);
                inside.declared.insert(ancestor);
            }
        }
        inside.inside_class = Some(at);
        let count = self.random.below(5);
        let block = self.statements(&mut inside, count, 1);
        self.classes.push(Known {
            name,
            parent: above.filter(|parent| *parent < at),
            parameters,
            sure: inside.assigned.intersection(&inside.visible).copied().collect(),
        });
        class_definition(name, parent_name.map(parent), fields, block)
    }

    /// Mostly a class before this one that needs no values.
    fn choose_parent(&mut self, at: usize) -> Option<usize> {
        if self.sloppy() {
            return Some(self.random.below(CLASSES.len()));
        }
        if at == 0 || self.random.chance(450) {
            return None;
        }
        let parent = self.random.below(at);
        (!self.classes[parent].needs_values()).then_some(parent)
    }

    /// The class and those above it.
    fn ancestors(&self, class: usize) -> Vec<usize> {
        let mut chain = Vec::new();
        let mut next = Some(class);
        while let Some(at) = next {
            chain.push(at);
            next = self
                .classes
                .get(at)
                .and_then(|known| known.parent)
                .filter(|parent| *parent < at);
        }
        chain
    }

    fn type_item(&mut self, env: &Env) -> Field {
        let at = self.types.len();
        let name = TYPES[at % TYPES.len()];
        let (parameters, fields) = self.parameters(false);
        let mut inside = self.body_env(env, &parameters);
        inside.inside_type = Some(at);
        let count = self.random.between(1, 5);
        let block = self.statements(&mut inside, count, 1);
        self.types.push(Known {
            name,
            parent: None,
            parameters,
            sure: Words::new(),
        });
        let name = match self.sloppy() {
            true => self.any_definition(),
            false => name,
        };
        type_definition(name, fields, block)
    }
}

/// Names of any sort.
impl Program<'_> {
    fn any_kind(&mut self) -> Kind {
        self.random
            .pick(&[Kind::Integer, Kind::Integer, Kind::Text, Kind::Boolean])
    }

    fn any_variable(&mut self) -> Word {
        let kind = self.any_kind();
        self.random.pick(names_of(kind))
    }

    fn any_definition(&mut self) -> Word {
        match self.random.below(7) {
            0..=2 => self.random.pick(&CLASSES),
            3..=5 => self.random.pick(&TYPES),
            _ => self.random.pick(&KINDS),
        }
    }

    fn fresh_title(&mut self) -> String {
        self.titles += 1;
        match self.random.chance(30) {
            true => self.random.pick(&TITLES).to_string(),
            false => format!("{}-{}", self.random.pick(&TITLES), self.titles),
        }
    }
}

/// Statements.
impl Program<'_> {
    fn statements(&mut self, env: &mut Env, count: usize, nesting: usize) -> Vec<Field> {
        (0..count).map(|_| self.statement(env, nesting)).collect()
    }

    fn statement(&mut self, env: &mut Env, nesting: usize) -> Field {
        let conditions = if nesting < 4 { 1 } else { 0 };
        match self
            .random
            .weighted(&[26, 14 * conditions, 8 * conditions, 28, 10, 5, 9])
        {
            0 => self.assignment(env),
            1 => self.condition(env, nesting),
            2 => self.case_statement(env, nesting),
            3 => self.resource(env),
            4 => self.declared_type(env),
            5 => self.declared_class(env),
            _ => self.inclusion(env),
        }
    }

    fn assignment(&mut self, env: &mut Env) -> Field {
        let mut name = self.any_variable();
        if env.assigned.contains(name) && !self.sloppy() {
            let all = INTEGERS.iter().chain(&TEXTS).chain(&BOOLEANS);
            match all.into_iter().find(|other| !env.assigned.contains(*other)) {
                Some(other) => name = other,
                None => return self.resource(env),
            }
        }
        let value = self.expression(kind_of(name), env, 3);
        env.assigned.insert(name);
        env.visible.insert(name);
        if env.is_top {
            env.top.insert(name);
        }
        assign(name, value)
    }

    fn branch(&mut self, env: &Env, nesting: usize, branches: &mut Vec<Env>) -> Vec<Field> {
        let mut inside = env.clone();
        let count = self.random.weighted(&[3, 5, 3, 1]);
        let block = self.statements(&mut inside, count, nesting + 1);
        branches.push(inside);
        block
    }

    fn condition(&mut self, env: &mut Env, nesting: usize) -> Field {
        let test = self.expression(Kind::Boolean, env, 2);
        let mut branches = Vec::new();
        let then = self.branch(env, nesting, &mut branches);
        let otherwise = match self.random.chance(500) {
            true => self.branch(env, nesting, &mut branches),
            false => {
                branches.push(env.clone());
                Vec::new()
            }
        };
        env.merge(branches, true);
        if_else(test, then, otherwise)
    }

    fn case_statement(&mut self, env: &mut Env, nesting: usize) -> Field {
        let kind = self.any_kind();
        let test = self.expression(kind, env, 2);
        let mut branches = Vec::new();
        let mut arms = Vec::new();
        for _ in 0..self.random.below(4) {
            let pattern = self.pattern(kind);
            arms.push((pattern, self.branch(env, nesting, &mut branches)));
        }
        let with_default = self.random.chance(500);
        if with_default {
            let first = self.branch(env, nesting, &mut branches);
            // A second one never runs: what is known after the case is without it.
            let second = self.second_default(|program| program.branch(env, nesting, &mut Vec::new()));
            place_defaults(self.random, &mut arms, first, second);
        }
        env.merge(branches, with_default);
        case(test, arms)
    }

    /// What a second default would choose, where there is one.
    fn second_default<Chosen>(&mut self, make: impl FnOnce(&mut Self) -> Chosen) -> Option<Chosen> {
        self.random.chance(167).then(|| make(self))
    }

    fn resource(&mut self, env: &mut Env) -> Field {
        let mut kind = self.random.pick(&KINDS);
        let (title, constant) = self.title(&mut kind, env);
        let mut attributes: Vec<(Word, Kind, Field)> = Vec::new();
        for _ in 0..self.random.weighted(&[2, 4, 4, 2, 1]) {
            let name = self.random.pick(&ATTRIBUTES);
            if attributes.iter().any(|(known, ..)| *known == name) && !self.sloppy() {
                continue;
            }
            let of = self.any_kind();
            attributes.push((name, of, self.expression(of, env, 3)));
        }
        if let Some(title) = constant {
            let named = attributes
                .iter()
                .map(|(name, of, _)| (kind, title.clone(), *name, *of));
            env.entries.extend(named);
        }
        if self.sloppy() {
            kind = self.any_definition();
        }
        let attributes = attributes.into_iter().map(|(name, _, value)| given(name, value));
        built_in(kind, title, attributes.collect())
    }

    /// A title, and the string it surely is.
    fn title(&mut self, kind: &mut Word, env: &mut Env) -> (Field, Option<String>) {
        if self.sloppy() {
            let of = self.any_kind();
            return (self.expression(of, env, 2), None);
        }
        if env.inside_type.is_some() && self.random.chance(900) {
            if env.titled.contains(kind) {
                *kind = KINDS
                    .into_iter()
                    .find(|kind| !env.titled.contains(kind))
                    .unwrap_or(*kind);
            }
            env.titled.insert(kind);
            return (var("title"), None);
        }
        match self.random.below(20) {
            0 => (self.expression(Kind::Text, env, 2), None),
            1 | 2 => {
                let test = self.expression(Kind::Boolean, env, 1);
                let (one, other) = (self.fresh_title(), self.fresh_title());
                let (a, b) = (self.random.label(), self.random.label());
                let mut arms = vec![(self.pattern(Kind::Boolean), text(a, one))];
                let second = self.second_default(|program| program.constant(Kind::Text));
                place_defaults(self.random, &mut arms, text(b, other), second);
                (select(test, arms), None)
            }
            _ => {
                let title = self.fresh_title();
                (text(self.random.label(), &title), Some(title))
            }
        }
    }

    fn given_values(&mut self, parameters: &[(Word, bool)], env: &Env) -> Vec<Field> {
        let mut values = Vec::new();
        for (name, default) in parameters {
            let leave_out = if *default {
                self.random.chance(500)
            } else {
                self.sloppy()
            };
            if !leave_out {
                values.push(given(name, self.expression(kind_of(name), env, 2)));
            }
        }
        self.random.shuffle(&mut values);
        if self.sloppy() {
            let name = self.any_variable();
            values.push(given(name, self.expression(kind_of(name), env, 2)));
        }
        values
    }

    fn declared_type(&mut self, env: &mut Env) -> Field {
        let among = env.inside_type.unwrap_or(self.types.len());
        let sloppy = self.sloppy();
        if among == 0 && !sloppy {
            return self.resource(env);
        }
        let title = match env.inside_type {
            Some(_) => var("title"),
            None => {
                let title = self.fresh_title();
                text(self.random.label(), title)
            }
        };
        let at = self.random.below(if sloppy { TYPES.len() } else { among });
        match self.types.get(at).cloned() {
            Some(known) => {
                let values = self.given_values(&known.parameters, env);
                defined(known.name, title, values)
            }
            None => defined(self.any_definition(), title, vec![]),
        }
    }

    fn declared_class(&mut self, env: &mut Env) -> Field {
        let among = env.inside_class.unwrap_or(self.classes.len());
        let mut choices: Vec<usize> = (0..among).filter(|at| !self.touched.contains(at)).collect();
        if env.inside_type.is_some() {
            choices.clear();
        }
        if self.sloppy() {
            choices = (0..self.classes.len()).collect();
        }
        if choices.is_empty() {
            return self.inclusion(env);
        }
        let at = self.random.pick(&choices);
        self.touch(at, env);
        let known = self.classes[at].clone();
        let values = self.given_values(&known.parameters, env);
        class_with(known.name, values)
    }

    fn inclusion(&mut self, env: &mut Env) -> Field {
        if self.sloppy() {
            return include(self.any_definition());
        }
        let among = env.inside_class.unwrap_or(self.classes.len());
        let choices: Vec<usize> = (0..among)
            .filter(|at| !self.classes[*at].needs_values())
            .collect();
        if choices.is_empty() {
            return self.resource(env);
        }
        let at = self.random.pick(&choices);
        self.touch(at, env);
        include(self.classes[at].name)
    }

    fn touch(&mut self, class: usize, env: &mut Env) {
        for ancestor in self.ancestors(class) {
            self.touched.insert(ancestor);
            env.declared.insert(ancestor);
        }
    }
}

/// Expressions.
impl Program<'_> {
    fn integer_value(&mut self) -> i64 {
        const EDGES: [i64; 10] = [
            i64::MIN,
            i64::MIN + 1,
            i64::MAX,
            i64::MAX - 1,
            1 << 32,
            -(1 << 32),
            1 << 62,
            -(1 << 62),
            -1,
            0,
        ];
        match self.random.below(40) {
            0 => self.random.pick(&EDGES),
            1 => self.random.next() as i64,
            2..=8 => -(self.random.below(60) as i64),
            _ => self.random.below(60) as i64,
        }
    }

    pub fn constant(&mut self, kind: Kind) -> Field {
        let label = self.random.label();
        match kind {
            Kind::Integer => int(label, self.integer_value()),
            Kind::Text if self.random.chance(600) => text(label, self.fresh_title()),
            Kind::Text => text(label, self.random.pick(&TITLES)),
            Kind::Boolean => boolean(label, self.random.chance(500)),
        }
    }

    fn pattern(&mut self, kind: Kind) -> Field {
        let kind = if self.random.chance(100) {
            self.any_kind()
        } else {
            kind
        };
        match kind {
            Kind::Integer => int(self.random.label(), self.random.below(8) as i64),
            Kind::Text => text(self.random.label(), self.random.pick(&TITLES)),
            Kind::Boolean => boolean(self.random.label(), self.random.chance(500)),
        }
    }

    fn expression(&mut self, kind: Kind, env: &Env, budget: usize) -> Field {
        let kind = if self.sloppy() { self.any_kind() } else { kind };
        let composed = if budget == 0 { 0 } else { 1 };
        match self.random.weighted(&[6, 8, 3, 4, 7 * composed, 3 * composed]) {
            0 => self.constant(kind),
            1 => self.variable(kind, env),
            2 => self.other_variable(kind, env),
            3 => self.catalog_read(kind, env, budget),
            4 => self.operation(kind, env, budget - 1),
            _ => self.selector(kind, env, budget - 1),
        }
    }

    fn variable(&mut self, kind: Kind, env: &Env) -> Field {
        if self.sloppy() {
            return var(self.any_variable());
        }
        if kind == Kind::Text && env.inside_type.is_some() && self.random.chance(400) {
            return var("title");
        }
        match self.choose(names_of(kind), &env.visible) {
            Some(name) => var(name),
            None => self.constant(kind),
        }
    }

    fn choose(&mut self, names: &[Word], known: &Words) -> Option<Word> {
        let choices: Vec<Word> = names
            .iter()
            .copied()
            .filter(|name| known.contains(name))
            .collect();
        (!choices.is_empty()).then(|| self.random.pick(&choices))
    }

    /// A 14 or 15.
    fn other_variable(&mut self, kind: Kind, env: &Env) -> Field {
        if self.sloppy() {
            let (class, name) = (self.any_definition(), self.any_variable());
            return match self.random.chance(500) {
                true => top_var(name),
                false => class_var(class, name),
            };
        }
        if !env.declared.is_empty() && self.random.chance(700) {
            let declared: Vec<usize> = env.declared.iter().copied().collect();
            let class = self.random.pick(&declared);
            let known = self.classes[class].clone();
            if let Some(name) = self.choose(names_of(kind), &known.sure) {
                return class_var(known.name, name);
            }
        }
        match self.choose(names_of(kind), &env.top) {
            Some(name) => top_var(name),
            None => self.constant(kind),
        }
    }

    /// An 18.
    fn catalog_read(&mut self, kind: Kind, env: &Env, budget: usize) -> Field {
        if self.sloppy() && budget > 0 {
            let (of, attribute) = (self.any_definition(), self.random.pick(&ATTRIBUTES));
            let title = self.expression(Kind::Text, env, budget - 1);
            return attribute_of(of, attribute, title);
        }
        let fitting: Vec<_> = env.entries.iter().filter(|(.., of)| *of == kind).collect();
        if fitting.is_empty() {
            return self.variable(kind, env);
        }
        let (of, title, attribute, _) = self.random.pick(&fitting);
        attribute_of(of, attribute, text(self.random.label(), title))
    }

    fn operation(&mut self, kind: Kind, env: &Env, budget: usize) -> Field {
        match kind {
            Kind::Integer => {
                let operator = self.random.pick(&[ADD, SUBTRACT, DIVIDE]);
                let left = self.expression(Kind::Integer, env, budget);
                if operator == DIVIDE && !self.random.chance(100) {
                    let divisor = self.random.pick(&[-7, -3, -2, -1, 1, 2, 3, 4, 10]);
                    return binary(operator, left, int(self.random.label(), divisor));
                }
                binary(operator, left, self.expression(Kind::Integer, env, budget))
            }
            Kind::Boolean => self.boolean_operation(env, budget),
            Kind::Text => self.selector(Kind::Text, env, budget),
        }
    }

    fn boolean_operation(&mut self, env: &Env, budget: usize) -> Field {
        let (operator, of) = match self.random.below(5) {
            0 => return not(self.expression(Kind::Boolean, env, budget)),
            1 => (GREATER, Kind::Integer),
            2 => (EQUAL, self.any_kind()),
            3 => (AND, Kind::Boolean),
            _ => (OR, Kind::Boolean),
        };
        let left = self.expression(of, env, budget);
        let right_kind = match operator == EQUAL && self.random.chance(100) {
            true => self.any_kind(),
            false => of,
        };
        binary(operator, left, self.expression(right_kind, env, budget))
    }

    fn selector(&mut self, kind: Kind, env: &Env, budget: usize) -> Field {
        let of = self.any_kind();
        let scrutinee = self.expression(of, env, budget);
        let mut arms = Vec::new();
        for _ in 0..self.random.below(3) {
            arms.push((self.pattern(of), self.expression(kind, env, budget)));
        }
        if arms.is_empty() || !self.random.chance(15) {
            let first = self.expression(kind, env, budget);
            let second = self.second_default(|program| program.expression(kind, env, budget));
            place_defaults(self.random, &mut arms, first, second);
        }
        select(scrutinee, arms)
    }
}
