//! How a manifest runs.

use crate::answer::{Place, Reason, Refusal};
use crate::catalog::{Catalog, Entry};
use crate::definitions::Definitions;
use crate::labels::Labels;
use crate::scopes::{ScopeId, Scopes, NODE, TOP};
use crate::tree::*;
use crate::types::Types;
use crate::watch::{Origin, Watch};

/// "the deepest allowed for a declaration ... is 16".
const DEEPEST_LEVEL: u32 = 16;

/// Where a statement stands while it runs.
#[derive(Clone, Copy)]
struct Context {
    scope: ScopeId,
    /// "the top is level 0".
    level: u32,
    /// "the union over the conditions enclosing the statement, through
    /// declarations too".
    path: Labels,
}

impl Context {
    /// The top, or the chosen node's block: "at level 0 with an empty path".
    fn outermost(scope: ScopeId) -> Context {
        Context {
            scope,
            level: 0,
            path: Labels::EMPTY,
        }
    }

    /// "a body runs one level below its declaration".
    fn body(&self, scope: ScopeId) -> Context {
        Context {
            scope,
            level: self.level + 1,
            path: self.path,
        }
    }

    /// "A parent is declared from the child's declaring scope, one level below
    /// its child's declaration".
    fn parent(&self) -> Context {
        self.body(self.scope)
    }

    fn check_level(&self, place: Place) -> Result<(), Refusal> {
        if self.level > DEEPEST_LEVEL {
            return Err(Reason::Level.at(place));
        }
        Ok(())
    }
}

/// Everything a compile carries along once the manifest is read.
pub struct Machine<'t, 'o, W> {
    pub definitions: Definitions<'t>,
    /// The position of the node item that runs.
    chosen: Option<usize>,
    title: Option<Name>,
    /// One place for each string; every name is below its length.
    declared: Vec<Option<ScopeId>>,
    scopes: Scopes,
    /// "one set for the whole compile, never shrinking".
    trail: Labels,
    limit: u16,
    steps: u16,
    catalog: Catalog<'o>,
    watch: &'o W,
}

/// The catalog's length and the steps.
pub struct Finished {
    pub length: u16,
    pub steps: u16,
}

/// Gathers the definitions of a manifest, which refuses 8 "before any step",
/// then runs its items in order.
pub fn run<W: Watch>(
    tree: &Tree,
    types: &Types,
    device: &[u8],
    limit: u16,
    output: &mut [u8],
    watch: &W,
) -> Result<Finished, Refusal> {
    let definitions = Definitions::gather(tree, types)?;
    let mut machine = Machine::new(tree, definitions, device, limit, output, watch);
    for (at, item) in tree.items.iter().enumerate() {
        machine.item(at, item)?;
    }
    Ok(machine.finished())
}

/// Items.
impl<'t, 'o, W: Watch> Machine<'t, 'o, W> {
    /// A machine that finds these definitions and has run no item yet.
    pub fn new(
        tree: &Tree,
        definitions: Definitions<'t>,
        device: &[u8],
        limit: u16,
        output: &'o mut [u8],
        watch: &'o W,
    ) -> Machine<'t, 'o, W> {
        Machine {
            definitions,
            chosen: chosen_node(tree, device),
            title: tree.number_of(b"title"),
            declared: vec![None; tree.strings.len()],
            scopes: Scopes::new(),
            trail: Labels::EMPTY,
            limit,
            steps: 0,
            catalog: Catalog::new(output),
            watch,
        }
    }

    /// Runs the item at that position. Running a definition does nothing: it was
    /// gathered before.
    pub fn item(&mut self, at: usize, item: &'t Item) -> Result<(), Refusal> {
        match item {
            Item::Statement(statement) => self.statement(statement, &Context::outermost(TOP)),
            Item::Node(node) if self.chosen == Some(at) => self.block(&node.block, &Context::outermost(NODE)),
            Item::Node(_) | Item::Definition(_) => Ok(()),
        }
    }

    pub fn finished(&self) -> Finished {
        Finished {
            length: self.catalog.length(),
            steps: self.steps,
        }
    }
}

/// "The first node item naming the device, or else the first default one",
/// chosen over the whole manifest beforehand (reading 7).
fn chosen_node(tree: &Tree, device: &[u8]) -> Option<usize> {
    let device = tree.number_of(device);
    let naming = tree.items.iter().position(|item| match item {
        Item::Node(Node {
            devices: Devices::Named(names),
            ..
        }) => device.is_some_and(|device| names.contains(&device)),
        _ => false,
    });
    let default = || {
        tree.items.iter().position(|item| {
            matches!(
                item,
                Item::Node(Node {
                    devices: Devices::Default,
                    ..
                })
            )
        })
    };
    naming.or_else(default)
}

/// Small parts.
impl<'t, W: Watch> Machine<'t, '_, W> {
    /// The class or type of that name, wherever it stands; 9 if the whole
    /// manifest defines none, also for "a name of the other sort".
    fn find(&self, name: Name, sort: Sort, place: Place) -> Result<&'t Definition, Refusal> {
        self.definitions.find(name, sort).ok_or(Reason::Unknown.at(place))
    }

    fn declared(&self, class: Name) -> Option<ScopeId> {
        self.declared[usize::from(class)]
    }

    /// "each statement begun counts one, again each time ...; each declaration
    /// of a parent counts one".
    fn step(&mut self, place: Place) -> Result<(), Refusal> {
        if self.steps == self.limit {
            return Err(Reason::Steps.at(place));
        }
        self.steps += 1;
        Ok(())
    }

    /// "An assignment stores its value's set with path and trail"; also for a
    /// title and for parameters, "each as a 21 would do it".
    fn assign(
        &mut self,
        context: &Context,
        name: Name,
        value: Labelled,
        place: Place,
    ) -> Result<(), Refusal> {
        let value = value.with(context.path).with(self.trail);
        self.scopes
            .assign(context.scope, name, value)
            .map_err(|reason| reason.at(place))
    }
}

/// Statements.
impl<'t, W: Watch> Machine<'t, '_, W> {
    /// "blocks count nothing".
    fn block(&mut self, block: &'t Block, context: &Context) -> Result<(), Refusal> {
        for statement in block {
            self.statement(statement, context)?;
        }
        Ok(())
    }

    /// "A statement counts its step, evaluates its parts in written order, then
    /// makes its other checks by rising number".
    fn statement(&mut self, statement: &'t Statement, context: &Context) -> Result<(), Refusal> {
        let place = statement.place;
        self.step(place)?;
        match &statement.action {
            Action::Assign { name, value } => {
                let value = self.evaluate(value, context.scope)?;
                self.assign(context, *name, value, place)
            }
            Action::If {
                condition,
                then,
                otherwise,
                effect,
            } => {
                let (truth, labels) = self.truth(condition, context.scope)?;
                let inside = self.after_test(labels, effect, context, place)?;
                self.block(if truth { then } else { otherwise }, &inside)
            }
            Action::Case {
                scrutinee,
                arms,
                effect,
            } => {
                let tested = self.evaluate(scrutinee, context.scope)?;
                let (chosen, tried) = choose(arms, &tested.value, self.watch);
                let inside = self.after_test(tested.labels.union(tried), effect, context, place)?;
                match chosen {
                    Some(block) => self.block(block, &inside),
                    None => Ok(()),
                }
            }
            Action::BuiltIn(resource) => self.built_in_resource(resource, context, place),
            Action::Defined(resource) => self.defined_resource(resource, context, place),
            Action::Class { class, attributes } => self.class_statement(*class, attributes, context, place),
            Action::Include { class } => self.include(*class, context, place),
        }
    }

    /// "A condition's set is its expression (for case also the patterns tried),
    /// path and trail." It joins the marks (22 at the condition statement), the
    /// trail if a branch can declare, and the path of the branch taken.
    fn after_test(
        &mut self,
        tested: Labels,
        effect: &Effect,
        context: &Context,
        place: Place,
    ) -> Result<Context, Refusal> {
        let set = tested.union(context.path).union(self.trail);
        for name in &effect.assigned {
            self.scopes
                .mark(context.scope, *name, set)
                .map_err(|reason| reason.at(place))?;
        }
        if effect.declares {
            self.trail.join(set);
        }
        Ok(Context {
            path: context.path.union(set),
            ..*context
        })
    }

    /// Reading 10: title and its 15, attributes in order, 9, 20, 21, 23.
    fn built_in_resource(
        &mut self,
        resource: &'t Resource,
        context: &Context,
        place: Place,
    ) -> Result<(), Refusal> {
        let (title, labels) = self.text(&resource.title, context.scope)?;
        let values = self.values(&resource.attributes, context.scope)?;
        if !self.definitions.is_built_in(resource.kind) {
            return Err(Reason::Unknown.at(place));
        }
        if self.catalog.contains(resource.kind, title) {
            return Err(Reason::InCatalog.at(place));
        }
        check_named_once(&resource.attributes)?;
        let origin = Origin {
            title: labels,
            path: context.path,
            trail: self.trail,
        };
        let labels = origin.labels();
        // An attribute stores its value's set with path and trail, which its
        // resource's set holds already: "an attribute's set includes its
        // resource's".
        let named = resource.attributes.list.iter().zip(values);
        let entry = Entry {
            kind: resource.kind,
            title,
            labels,
            attributes: named
                .map(|(attribute, value)| (attribute.name, value.with(labels)))
                .collect(),
        };
        self.watch.resource(&entry, origin);
        self.catalog.add(entry).map_err(|reason| reason.at(place))
    }
}

/// Declarations.
impl<'t, W: Watch> Machine<'t, '_, W> {
    /// Reading 11: title and its 15, attributes, 7, 9, 11, 12, 21, the title's
    /// 22 at the 27, for each 33 its 14 and 22.
    fn defined_resource(
        &mut self,
        resource: &'t Resource,
        context: &Context,
        place: Place,
    ) -> Result<(), Refusal> {
        let (title, labels) = self.text(&resource.title, context.scope)?;
        let values = self.values(&resource.attributes, context.scope)?;
        context.check_level(place)?;
        let definition = self.find(resource.kind, Sort::Type, place)?;
        let values = parameter_values(definition, &resource.attributes, &values)?;

        let body = context.body(self.scopes.open_body(context.scope));
        if let Some(name) = self.title {
            let value = Value::Text(title);
            self.assign(&body, name, Labelled { value, labels }, place)?;
        }
        self.run_body(definition, &values, &body)?;
        self.scopes.free(body.scope);
        Ok(())
    }

    /// Reading 12: attributes, 7, 9, 10, 11, 12, 21, the parent, the second
    /// look (10 again), for each 33 its 14 and 22.
    fn class_statement(
        &mut self,
        class: Name,
        attributes: &'t Attributes,
        context: &Context,
        place: Place,
    ) -> Result<(), Refusal> {
        let values = self.values(attributes, context.scope)?;
        context.check_level(place)?;
        let definition = self.find(class, Sort::Class, place)?;
        if self.declared(class).is_some() {
            return Err(Reason::AlreadyDeclared.at(place));
        }
        let values = parameter_values(definition, attributes, &values)?;
        self.declare_parent(definition, context)?;
        if self.declared(class).is_some() {
            return Err(Reason::AlreadyDeclared.at(place));
        }
        self.declare(definition, &values, context)
    }

    /// Reading 13: a declared class ends it, at any level; otherwise 7, 9, 12,
    /// the parent, the second look.
    fn include(&mut self, class: Name, context: &Context, place: Place) -> Result<(), Refusal> {
        if self.declared(class).is_some() {
            return Ok(());
        }
        context.check_level(place)?;
        let definition = self.find(class, Sort::Class, place)?;
        self.declare_without_attributes(definition, context)
    }

    /// Reading 14: an undeclared parent has 6, 7 and 9 at the 35, then 12 at
    /// its own 33s, then its own parent; a declared one has no step and no
    /// check.
    fn declare_parent(&mut self, child: &'t Definition, context: &Context) -> Result<(), Refusal> {
        let Some(parent) = child.parent else {
            return Ok(());
        };
        if self.declared(parent.name).is_some() {
            return Ok(());
        }
        let context = context.parent();
        self.step(parent.place)?;
        context.check_level(parent.place)?;
        let definition = self.find(parent.name, Sort::Class, parent.place)?;
        self.declare_without_attributes(definition, &context)
    }

    /// What an include and a parent's declaration share: "if the class was
    /// declared meanwhile, an include or a parent's declaration does nothing
    /// more".
    fn declare_without_attributes(
        &mut self,
        definition: &'t Definition,
        context: &Context,
    ) -> Result<(), Refusal> {
        let values = parameter_values(definition, &Attributes::default(), &[])?;
        self.declare_parent(definition, context)?;
        if self.declared(definition.name).is_some() {
            return Ok(());
        }
        self.declare(definition, &values, context)
    }

    /// "Then it is marked declared, its parameters are assigned and its body
    /// runs." "A class's parent is its named parent, or else the base scope of
    /// the place that declared it."
    fn declare(
        &mut self,
        definition: &'t Definition,
        values: &[Supply],
        context: &Context,
    ) -> Result<(), Refusal> {
        let named = definition.parent.and_then(|parent| self.declared(parent.name));
        let parent = named.unwrap_or_else(|| self.scopes.base(context.scope));
        let scope = self.scopes.open_class(parent);
        self.declared[usize::from(definition.name)] = Some(scope);
        self.run_body(definition, values, &context.body(scope))
    }

    /// "parameters follow in the order of the 33s, each as a 21 would do it",
    /// then the body runs.
    fn run_body(
        &mut self,
        definition: &'t Definition,
        values: &[Supply],
        body: &Context,
    ) -> Result<(), Refusal> {
        for (parameter, supply) in definition.parameters.list.iter().zip(values) {
            let value = match supply {
                Supply::Given(value) => *value,
                Supply::Default(constant) => self.constant(constant),
            };
            self.assign(body, parameter.name, value, parameter.place)?;
        }
        self.block(&definition.block, body)
    }
}

/// Where a parameter's value comes from. A default is met only once it is
/// assigned, which a class declared meanwhile does not come to.
enum Supply<'t> {
    Given(Labelled),
    Default(&'t Constant),
}

/// A value for each 33, in order: its 26's, or else its default. Refusals 11
/// at the 26, 12 at the 33, 21 at the later 26, each the first by place.
fn parameter_values<'t>(
    definition: &'t Definition,
    attributes: &Attributes,
    given: &[Labelled],
) -> Result<Vec<Supply<'t>>, Refusal> {
    let parameters = &definition.parameters;
    let unknown = |attribute: &&Attribute| !parameters.contains(attribute.name);
    if let Some(attribute) = attributes.list.iter().find(unknown) {
        return Err(Reason::UnknownParameter.at(attribute.place));
    }
    let mut values = Vec::with_capacity(parameters.list.len());
    for parameter in &parameters.list {
        let value = attributes
            .position(parameter.name)
            .and_then(|at| given.get(at).copied().map(Supply::Given));
        let default = || parameter.default.as_ref().map(Supply::Default);
        let value = value.or_else(default);
        values.push(value.ok_or(Reason::NoParameterValue.at(parameter.place))?);
    }
    check_named_once(attributes)?;
    Ok(values)
}

/// Refusal 21, at the later 26.
fn check_named_once(attributes: &Attributes) -> Result<(), Refusal> {
    match attributes.repeated {
        Some(place) => Err(Reason::NamedTwice.at(place)),
        None => Ok(()),
    }
}

/// Patterns are tried in written order, but "a default in a case or selector is
/// tried only after every other pattern"; "With two defaults the first counts."
/// "The patterns tried, and so the label sets, follow the new order": where a
/// default is chosen, every constant was tried. Gives what is chosen, if
/// anything, and the set of the patterns tried, the matching one among them
/// (reading 22).
fn choose<'a, Chosen>(
    arms: &'a [Arm<Chosen>],
    value: &Value,
    watch: &impl Watch,
) -> (Option<&'a Chosen>, Labels) {
    let mut tried = Labels::EMPTY;
    let mut default = None;
    for arm in arms {
        match &arm.pattern {
            Pattern::Default => default = default.or(Some(&arm.chosen)),
            Pattern::Constant(constant) => {
                watch.constant(constant);
                tried.join(Labels::one(constant.label));
                if constant.value == *value {
                    return (Some(&arm.chosen), tried);
                }
            }
        }
    }
    (default, tried)
}

/// Expressions.
impl<W: Watch> Machine<'_, '_, W> {
    fn values(&self, attributes: &Attributes, scope: ScopeId) -> Result<Vec<Labelled>, Refusal> {
        attributes
            .list
            .iter()
            .map(|attribute| {
                self.watch.attribute(attribute.name);
                self.evaluate(&attribute.value, scope)
            })
            .collect()
    }

    fn constant(&self, constant: &Constant) -> Labelled {
        self.watch.constant(constant);
        constant.labelled()
    }

    fn evaluate(&self, expression: &Expression, scope: ScopeId) -> Result<Labelled, Refusal> {
        let place = expression.place;
        match &expression.form {
            Form::Constant(constant) => Ok(self.constant(constant)),
            Form::Variable(name) => self
                .scopes
                .read(scope, *name, self.watch)
                .ok_or(Reason::NoValue.at(place)),
            Form::TopVariable(name) => self
                .scopes
                .read_only(TOP, *name, self.watch)
                .ok_or(Reason::NoValue.at(place)),
            Form::ClassVariable { class, name } => self.class_variable(*class, *name, place),
            Form::Binary {
                operator,
                left,
                right,
            } => self.binary(*operator, left, right, scope, place),
            Form::Not(operand) => {
                let (truth, labels) = self.truth(operand, scope)?;
                Ok(boolean(!truth, labels))
            }
            Form::AttributeRead {
                kind,
                attribute,
                title,
            } => self.attribute_read(*kind, *attribute, title, scope, place),
            Form::Selector { scrutinee, arms } => {
                let tested = self.evaluate(scrutinee, scope)?;
                let (chosen, tried) = choose(arms, &tested.value, self.watch);
                let chosen = chosen.ok_or(Reason::NoMatch.at(place))?;
                Ok(self.evaluate(chosen, scope)?.with(tested.labels).with(tried))
            }
        }
    }

    /// Reading 17: 9 for a class not defined in the whole manifest or a type; 13
    /// for one not declared, also if it is defined later.
    fn class_variable(&self, class: Name, name: Name, place: Place) -> Result<Labelled, Refusal> {
        self.find(class, Sort::Class, place)?;
        self.declared(class)
            .and_then(|scope| self.scopes.read_only(scope, name, self.watch))
            .ok_or(Reason::NoValue.at(place))
    }

    /// Reading 18: the title and its kind, then 9, then 19, also for a type
    /// defined later. "an attribute read's is title expression and attribute".
    fn attribute_read(
        &self,
        kind: Name,
        attribute: Name,
        title: &Expression,
        scope: ScopeId,
        place: Place,
    ) -> Result<Labelled, Refusal> {
        let (title, labels) = self.text(title, scope)?;
        if !self.definitions.is_built_in(kind) {
            self.find(kind, Sort::Type, place)?;
        }
        self.catalog
            .attribute(kind, title, attribute)
            .map(|found| found.with(labels))
            .ok_or(Reason::NotInCatalog.at(place))
    }

    /// "an operator's is the union over operands evaluated".
    fn binary(
        &self,
        operator: Operator,
        left: &Expression,
        right: &Expression,
        scope: ScopeId,
        place: Place,
    ) -> Result<Labelled, Refusal> {
        match operator {
            Operator::Equal => {
                let left = self.evaluate(left, scope)?;
                let right = self.evaluate(right, scope)?;
                Ok(boolean(
                    left.value == right.value,
                    left.labels.union(right.labels),
                ))
            }
            Operator::And => self.connective(false, left, right, scope),
            Operator::Or => self.connective(true, left, right, scope),
            Operator::Add | Operator::Subtract | Operator::Divide | Operator::Greater => {
                let (left, left_labels) = self.integer(left, scope)?;
                let (right, right_labels) = self.integer(right, scope)?;
                let value = calculate(operator, left, right).map_err(|reason| reason.at(place))?;
                let labels = left_labels.union(right_labels);
                Ok(Labelled { value, labels })
            }
        }
    }

    /// "and" and "or" "skip the right side when the left decides": a left side
    /// equal to `deciding` does.
    fn connective(
        &self,
        deciding: bool,
        left: &Expression,
        right: &Expression,
        scope: ScopeId,
    ) -> Result<Labelled, Refusal> {
        let (left, left_labels) = self.truth(left, scope)?;
        if left == deciding {
            return Ok(boolean(left, left_labels));
        }
        let (right, right_labels) = self.truth(right, scope)?;
        Ok(boolean(right, left_labels.union(right_labels)))
    }

    /// An operand that must be an integer; "checked as soon as it is
    /// evaluated", 15 at the part itself.
    fn integer(&self, expression: &Expression, scope: ScopeId) -> Result<(i64, Labels), Refusal> {
        match self.evaluate(expression, scope)? {
            Labelled {
                value: Value::Integer(number),
                labels,
            } => Ok((number, labels)),
            _ => Err(Reason::Kind.at(expression.place)),
        }
    }

    /// An operand or condition that must be a boolean.
    fn truth(&self, expression: &Expression, scope: ScopeId) -> Result<(bool, Labels), Refusal> {
        match self.evaluate(expression, scope)? {
            Labelled {
                value: Value::Boolean(truth),
                labels,
            } => Ok((truth, labels)),
            _ => Err(Reason::Kind.at(expression.place)),
        }
    }

    /// "Titles are strings."
    fn text(&self, expression: &Expression, scope: ScopeId) -> Result<(Name, Labels), Refusal> {
        match self.evaluate(expression, scope)? {
            Labelled {
                value: Value::Text(name),
                labels,
            } => Ok((name, labels)),
            _ => Err(Reason::Kind.at(expression.place)),
        }
    }
}

fn boolean(truth: bool, labels: Labels) -> Labelled {
    Labelled {
        value: Value::Boolean(truth),
        labels,
    }
}

/// + − / > on integers: 16 outside 64 bits, 17 for a zero divisor.
fn calculate(operator: Operator, left: i64, right: i64) -> Result<Value, Reason> {
    let number = match operator {
        Operator::Add => left.checked_add(right),
        Operator::Subtract => left.checked_sub(right),
        Operator::Divide if right == 0 => return Err(Reason::ZeroDivisor),
        Operator::Divide => divide_downward(left, right),
        _ => return Ok(Value::Boolean(left > right)),
    };
    number.map(Value::Integer).ok_or(Reason::Overflow)
}

/// "division rounds toward minus infinity": one less than the truncated
/// quotient where there is a remainder and the signs differ.
fn divide_downward(left: i64, right: i64) -> Option<i64> {
    let quotient = left.checked_div(right)?;
    let remainder = left.checked_rem(right)?;
    if remainder != 0 && (remainder < 0) != (right < 0) {
        return quotient.checked_sub(1);
    }
    Some(quotient)
}
