//! Random manifests to ask about: few statements with constants that are met
//! and constants that are not, around resources whose sets have every part.

use crate::arrange::arrange;
use crate::assemble::*;
use crate::random::Random;

/// A manifest that is mostly accepted. Its constants are made with label 1 and
/// get their labels at the end.
pub fn counted(random: &mut Random) -> Manifest {
    let mut maker = Maker { random, names: 0 };
    let mut items = maker.variables();
    let definitions = maker.definitions();
    // In front their constants have the lowest places, met or not.
    items.splice(0..0, definitions);
    let mut uses = maker.uses();
    for _ in 0..maker.random.between(1, 3) {
        let at = maker.random.below(uses.len() + 1);
        let more = maker.body();
        uses.splice(at..at, more);
    }
    let elsewhere = maker.body();
    match maker.random.below(4) {
        0 => items.push(node_default(uses)),
        1 => {
            items.push(node(&["gym"], elsewhere));
            items.push(node(&["desk", "gym"], uses));
        }
        2 => {
            items.extend(uses);
            items.push(node(&["desk"], elsewhere));
        }
        _ => items.extend(uses),
    }
    let mut manifest = Manifest::new(items);
    arrange(random, &mut manifest);
    relabel(random, &mut manifest);
    manifest
}

/// Gives every constant one of few labels, so that several share each of them.
pub fn relabel(random: &mut Random, manifest: &mut Manifest) {
    let few = match random.chance(500) {
        true => random.between(1, 8),
        false => random.between(8, 30),
    };
    let labels: Vec<u8> = (0..few).map(|_| random.label()).collect();
    for item in &mut manifest.items {
        relabel_field(random, item, &labels);
    }
}

fn relabel_field(random: &mut Random, field: &mut Field, labels: &[u8]) {
    let is_constant = matches!(field.tag, 0x10..=0x12);
    for part in &mut field.parts {
        match part {
            Part::Field(inner) => relabel_field(random, inner, labels),
            Part::Bytes(bytes) if is_constant && !bytes.is_empty() => {
                bytes[0] = random.pick(labels);
                return;
            }
            _ => {}
        }
    }
}

struct Maker<'r> {
    random: &'r mut Random,
    /// How many names were made, so that each is another.
    names: usize,
}

/// What stands around the resources.
impl Maker<'_> {
    fn fresh(&mut self, start: &str) -> String {
        self.names += 1;
        format!("{start}{}", self.names)
    }

    /// `x`, a number, `name`, a string, and what attribute and class reads find;
    /// some with a mark by a branch not taken.
    fn variables(&mut self) -> Vec<Field> {
        let mut stock = vec![assign("x", int(1, self.random.below(3) as i64))];
        if self.random.chance(600) {
            let marked = self.untaken(vec![assign("x", int(1, 1))]);
            stock.push(marked);
        }
        let mut items = vec![
            assign("x", int(1, self.random.below(3) as i64)),
            assign("name", text(1, "named")),
            built_in("wall", text(1, "there"), vec![given("price", int(1, 5))]),
            class_definition("stock", None, vec![], stock),
            include("stock"),
        ];
        for name in ["x", "name"] {
            if self.random.chance(600) {
                let marked = self.untaken(vec![assign(name, int(1, 1))]);
                items.push(marked);
            }
        }
        items
    }

    /// Classes and types with defaults, some of which may never run.
    fn definitions(&mut self) -> Vec<Field> {
        let mut definitions = vec![class_definition("quiet", None, vec![], vec![])];
        definitions.extend(self.spares());
        definitions.extend(self.classes());
        definitions.extend(self.looping());
        definitions.extend(self.types());
        definitions
    }

    /// Bodies and defaults that nobody declares.
    fn spares(&mut self) -> Vec<Field> {
        (0..self.random.below(3))
            .map(|_| {
                let parameters = vec![self.with_default("fee"), self.with_default("seats")];
                let (name, body) = (self.fresh("spare"), self.body());
                match self.random.chance(500) {
                    true => class_definition(name, None, parameters, body),
                    false => type_definition(name, parameters, body),
                }
            })
            .collect()
    }

    fn with_default(&mut self, name: &str) -> Field {
        parameter(name, Some(int(1, self.random.below(9) as i64)))
    }

    /// A class and one that reads in its scope.
    fn classes(&mut self) -> [Field; 2] {
        let mut billing = self.body();
        billing.push(self.resource(var("fee")));
        let mut corner = self.lures();
        corner.push(self.resource(binary(ADD, var("fee"), var("seats"))));
        let (fee, seats) = (self.with_default("fee"), self.with_default("seats"));
        [
            class_definition("billing", None, vec![fee], billing),
            class_definition("corner", Some(parent("billing")), vec![seats], corner),
        ]
    }

    /// A class that its parent's body declares meanwhile.
    fn looping(&mut self) -> [Field; 2] {
        let again = match self.random.chance(600) {
            true => class_with("again", vec![given("fee", self.number(1))]),
            false => include("again"),
        };
        let mut looper = self.lures();
        looper.push(again);
        let fee = self.with_default("fee");
        [
            class_definition("looper", None, vec![], looper),
            class_definition("again", Some(parent("looper")), vec![fee], vec![]),
        ]
    }

    /// A type and one whose body declares it, its fee handed on or not.
    fn types(&mut self) -> [Field; 2] {
        let mut attributes = vec![given("fee", var("fee"))];
        if self.random.chance(600) {
            attributes.push(given("price", self.number(2)));
        }
        let mut booth = self.lures();
        booth.push(self.maybe_inside(built_in("plan", var("title"), attributes)));
        let handed = match self.random.chance(500) {
            true => vec![given("fee", binary(ADD, var("fee"), var("seats")))],
            false => vec![],
        };
        let mut hall = self.lures();
        hall.push(self.maybe_inside(defined("booth", var("title"), handed)));
        let (fee, seats) = (self.with_default("fee"), self.with_default("seats"));
        [
            type_definition("booth", vec![self.with_default("fee")], booth),
            type_definition("hall", vec![fee, seats], hall),
        ]
    }

    /// Each definition is used or not, its parameter given or not.
    fn uses(&mut self) -> Vec<Field> {
        let mut uses = Vec::new();
        for (class, given_to) in [("billing", "fee"), ("again", ""), ("corner", "seats")] {
            match self.random.below(4) {
                0 => {}
                1 if !given_to.is_empty() => {
                    uses.push(class_with(class, vec![given(given_to, self.number(1))]))
                }
                _ => uses.push(include(class)),
            }
            if self.random.chance(200) {
                uses.push(include("billing"));
            }
        }
        for _ in 0..self.random.below(4) {
            let kind = self.random.pick(&["booth", "booth", "hall"]);
            let values = match self.random.chance(500) {
                true => vec![given("fee", self.number(1))],
                false => vec![],
            };
            let title = self.fresh(kind);
            uses.push(defined(kind, text(1, title), values));
        }
        uses.into_iter().map(|used| self.maybe_inside(used)).collect()
    }

    /// Lures, and mostly a resource behind them.
    fn body(&mut self) -> Vec<Field> {
        let mut body = self.lures();
        if self.random.chance(800) {
            let value = self.number(2);
            body.push(self.resource(value));
        }
        body
    }

    fn resource(&mut self, first: Field) -> Field {
        let title = self.title();
        let mut attributes = vec![given("fee", first)];
        for name in ["open", "price"] {
            match self.random.below(4) {
                0 => attributes.push(given(name, self.number(2))),
                1 => attributes.push(given(name, self.dropping())),
                _ => {}
            }
        }
        let kind = self.random.pick(&["gate", "kiosk", "plan"]);
        let resource = built_in(kind, title, attributes);
        self.maybe_inside(resource)
    }

    /// A statement, often in a branch that is taken.
    fn maybe_inside(&mut self, statement: Field) -> Field {
        match self.random.below(6) {
            0 => {
                let other = self.lures();
                if_else(self.truth(true, 1), vec![statement], other)
            }
            1 => {
                let other = self.lures();
                if_else(self.truth(false, 1), other, vec![statement])
            }
            2 => case(
                int(1, 2),
                vec![
                    (int(1, 1), self.lures()),
                    (default(), vec![statement]),
                    (int(1, 3), self.lures()),
                ],
            ),
            _ => statement,
        }
    }
}

/// Statements that add to marks, path and trail, or to nothing.
impl Maker<'_> {
    fn lures(&mut self) -> Vec<Field> {
        (0..self.random.weighted(&[3, 4, 2, 1]))
            .map(|_| self.lure())
            .collect()
    }

    fn lure(&mut self) -> Field {
        let name = self.fresh("v");
        match self.random.below(8) {
            0 => assign(name, self.number(2)),
            1 => assign(name, self.truth(true, 2)),
            2 => self.untaken(vec![assign("x", int(1, 1))]),
            3 => self.untaken(vec![assign("name", text(1, "other"))]),
            4 => self.untaken(vec![include("quiet")]),
            5 => self.untaken(vec![defined("booth", text(1, "never"), vec![])]),
            6 => {
                let (one, other) = (self.lures(), self.number(1));
                let arms = vec![(int(1, 2), one), (self.pattern(), vec![assign(name, other)])];
                case(int(1, 2), arms)
            }
            _ => {
                let (scrutinee, value) = (self.number(1), self.number(1));
                let arms = vec![
                    (self.pattern(), vec![assign(&name, int(1, 1))]),
                    (self.pattern(), vec![assign(&name, value)]),
                ];
                case(scrutinee, arms)
            }
        }
    }

    fn untaken(&mut self, statements: Vec<Field>) -> Field {
        match self.random.below(3) {
            0 => if_else(self.truth(false, 1), statements, vec![]),
            1 => if_else(self.truth(true, 1), vec![], statements),
            _ => case(int(1, 9), vec![(self.pattern(), statements)]),
        }
    }
}

/// Expressions.
impl Maker<'_> {
    fn pattern(&mut self) -> Field {
        match self.random.below(6) {
            0 => boolean(1, true),
            _ => int(1, self.random.below(3) as i64),
        }
    }

    fn title(&mut self) -> Field {
        let title = text(1, self.fresh("t"));
        match self.random.below(6) {
            0 => {
                let other = text(1, "other");
                let test = self.truth(true, 1);
                select(test, vec![(boolean(1, false), other), (default(), title)])
            }
            1 => select(
                var("name"),
                vec![(text(1, "named"), title), (default(), int(1, 1))],
            ),
            _ => title,
        }
    }

    fn number(&mut self, budget: usize) -> Field {
        let composed = if budget == 0 { 0 } else { 1 };
        match self.random.weighted(&[3, 4, 1, 1, 2, 2 * composed, 3 * composed]) {
            0 => int(1, self.random.below(3) as i64),
            1 => var("x"),
            2 => top_var("x"),
            3 => class_var("stock", "x"),
            4 => attribute_of("wall", "price", text(1, "there")),
            5 => {
                let left = self.number(budget - 1);
                binary(ADD, left, self.number(budget - 1))
            }
            _ => {
                let scrutinee = self.number(budget - 1);
                let (one, other) = (self.number(budget - 1), self.number(budget - 1));
                let mut arms = vec![(self.pattern(), one), (self.pattern(), int(1, 3))];
                let at = self.random.below(3);
                arms.insert(at, (default(), other));
                select(scrutinee, arms)
            }
        }
    }

    /// Reads variables for a value that is another.
    fn dropping(&mut self) -> Field {
        let reads = [var("x"), top_var("x"), class_var("stock", "x"), var("name")];
        let read = self.random.pick(&reads);
        match self.random.below(3) {
            0 => select(read, vec![(int(1, 1), int(1, 2)), (default(), int(1, 3))]),
            1 => binary(EQUAL, read, text(1, "named")),
            _ => {
                let same = binary(EQUAL, read.clone(), read);
                binary(AND, same, self.truth(true, 1))
            }
        }
    }

    /// An expression with that value, whose right side may be skipped.
    fn truth(&mut self, value: bool, budget: usize) -> Field {
        if budget == 0 {
            return boolean(1, value);
        }
        match self.random.below(7) {
            0 => not(self.truth(!value, budget - 1)),
            1 => {
                let skipped = match self.random.chance(500) {
                    true => boolean(1, self.random.chance(500)),
                    false => binary(GREATER, self.number(1), int(1, 1)),
                };
                let operator = if value { OR } else { AND };
                binary(operator, self.truth(value, budget - 1), skipped)
            }
            2 => {
                let operator = if value { AND } else { OR };
                let left = self.truth(value, budget - 1);
                binary(operator, left, self.truth(value, budget - 1))
            }
            3 => {
                let arms = vec![(int(1, 7), boolean(1, !value)), (default(), boolean(1, value))];
                select(var("x"), arms)
            }
            4 => binary(GREATER, int(1, 1 + i64::from(value)), int(1, 1)),
            _ => boolean(1, value),
        }
    }
}
