//! Reading the fields: refusals 3 and 4 in one reading from the first byte,
//! then 5.

use crate::answer::{Place, Reason, Refusal};
use crate::tree::*;

/// "the deepest allowed is 32".
const DEEPEST: usize = 32;
/// "0 to 1,024 fields 02".
const MOST_STRINGS: usize = 1024;
/// "each a string of 0 to 255 bytes".
const LONGEST_STRING: usize = 255;

/// Reads a manifest of 1 to 65,535 bytes.
pub fn read(manifest: &[u8]) -> Result<Tree<'_>, Refusal> {
    let mut reader = Reader {
        bytes: manifest,
        strings: Vec::new(),
        string_places: Vec::new(),
        names: Vec::new(),
    };
    let items = reader.manifest()?;
    reader.check_strings()?;
    reader.check_names()?;
    Ok(Tree {
        strings: reader.strings,
        items,
    })
}

struct Reader<'m> {
    bytes: &'m [u8],
    strings: Vec<&'m [u8]>,
    string_places: Vec<Place>,
    /// Every name met, with the field that itself holds it, by rising offset.
    names: Vec<(Place, Name)>,
}

/// A field whose header and depth are in order, and how far its body is read.
/// The manifest itself is one too, at depth 0, since 1 to 65,535 bytes of
/// fields need the same care.
struct Field {
    tag: u8,
    place: Place,
    at: usize,
    end: usize,
    depth: usize,
}

impl Field {
    /// "a missing part is met at the end of the field that lacks it".
    fn lacks_part(&self) -> Refusal {
        Reason::Field.at(self.place)
    }

    fn is_at_end(&self) -> bool {
        self.at >= self.end
    }
}

/// Which tags may stand at a position.
type Allowed = fn(u8) -> bool;

fn constant_tag(tag: u8) -> bool {
    matches!(tag, 0x10..=0x12)
}

fn pattern_tag(tag: u8) -> bool {
    constant_tag(tag) || tag == 0x1B
}

fn expression_tag(tag: u8) -> bool {
    matches!(tag, 0x10..=0x19)
}

fn statement_tag(tag: u8) -> bool {
    matches!(tag, 0x21..=0x23 | 0x25 | 0x27..=0x29)
}

fn item_tag(tag: u8) -> bool {
    statement_tag(tag) || matches!(tag, 0x30 | 0x32 | 0x34)
}

fn block_tag(tag: u8) -> bool {
    tag == 0x20
}

fn device_tag(tag: u8) -> bool {
    matches!(tag, 0x31 | 0x1B)
}

/// Reading 1: "for tags whose body has one length only (10 11 12 13 14 15 1B
/// 29 31 35), that length"; reading 5: a string's length is "seen in the
/// header".
fn length_fits(tag: u8, length: usize) -> bool {
    match tag {
        0x02 => length <= LONGEST_STRING,
        0x10 => length == 9,
        0x11 => length == 3,
        0x12 | 0x13 | 0x14 | 0x29 | 0x31 | 0x35 => length == 2,
        0x15 => length == 4,
        0x1B => length == 0,
        _ => true,
    }
}

/// Offsets are below 65,536 because the manifest's length is; nothing is lost.
fn place(offset: usize) -> Place {
    Place::try_from(offset).unwrap_or(Place::MAX)
}

/// The pieces every field is read with.
impl<'m> Reader<'m> {
    /// Reading 1: first the header (three bytes, tag, end, length), then the
    /// depth; the field around moves past the whole of the new one.
    fn enter(&self, around: &mut Field, allowed: Allowed) -> Result<Field, Refusal> {
        let fault = Reason::Field.at(place(around.at));
        let rest = self.bytes.get(around.at..around.end).unwrap_or(&[]);
        let &[tag, high, low, ref body @ ..] = rest else {
            return Err(fault);
        };
        let length = usize::from(u16::from_be_bytes([high, low]));
        if !allowed(tag) || length > body.len() || !length_fits(tag, length) {
            return Err(fault);
        }
        let depth = around.depth + 1;
        if depth > DEEPEST {
            return Err(Reason::Depth.at(place(around.at)));
        }
        let field = Field {
            tag,
            place: place(around.at),
            at: around.at + 3,
            end: around.at + 3 + length,
            depth,
        };
        around.at = field.end;
        Ok(field)
    }

    /// A part that must be there.
    fn required(&self, around: &mut Field, allowed: Allowed) -> Result<Field, Refusal> {
        if around.is_at_end() {
            return Err(around.lacks_part());
        }
        self.enter(around, allowed)
    }

    /// A part that may be there: only if the next byte is its tag.
    fn optional(&self, around: &mut Field, tag: u8, allowed: Allowed) -> Result<Option<Field>, Refusal> {
        if around.is_at_end() || self.bytes.get(around.at) != Some(&tag) {
            return Ok(None);
        }
        self.enter(around, allowed).map(Some)
    }

    /// Reading 3: "anything after the last part listed" is 3 at that inner
    /// field.
    fn finish(&self, field: &Field) -> Result<(), Refusal> {
        if field.is_at_end() {
            Ok(())
        } else {
            Err(Reason::Field.at(place(field.at)))
        }
    }

    fn bytes_of<const N: usize>(&self, field: &mut Field) -> Result<[u8; N], Refusal> {
        let rest = self.bytes.get(field.at..field.end).unwrap_or(&[]);
        let taken = rest.first_chunk::<N>().ok_or_else(|| field.lacks_part())?;
        field.at += N;
        Ok(*taken)
    }

    fn byte(&self, field: &mut Field) -> Result<u8, Refusal> {
        self.bytes_of::<1>(field).map(|[byte]| byte)
    }

    /// A name, kept for 5 with the field that holds it.
    fn name(&mut self, field: &mut Field) -> Result<Name, Refusal> {
        let name = Name::from_be_bytes(self.bytes_of(field)?);
        self.names.push((field.place, name));
        Ok(name)
    }
}

/// The manifest and its items.
impl<'m> Reader<'m> {
    /// "one field 01, then items".
    fn manifest(&mut self) -> Result<Vec<Item>, Refusal> {
        let mut whole = Field {
            tag: 0,
            place: 0,
            at: 0,
            end: self.bytes.len(),
            depth: 0,
        };
        let table = self.required(&mut whole, |tag| tag == 0x01)?;
        self.table(table)?;
        let mut items = Vec::new();
        while !whole.is_at_end() {
            let field = self.enter(&mut whole, item_tag)?;
            items.push(self.item(field)?);
        }
        Ok(items)
    }

    fn table(&mut self, mut table: Field) -> Result<(), Refusal> {
        while !table.is_at_end() {
            let string = self.enter(&mut table, |tag| tag == 0x02)?;
            if self.strings.len() == MOST_STRINGS {
                return Err(Reason::Field.at(string.place));
            }
            self.strings
                .push(self.bytes.get(string.at..string.end).unwrap_or(&[]));
            self.string_places.push(string.place);
        }
        Ok(())
    }

    fn item(&mut self, field: Field) -> Result<Item, Refusal> {
        match field.tag {
            0x30 => self.node(field).map(Item::Node),
            0x32 => self.definition(field, Sort::Type).map(Item::Definition),
            0x34 => self.definition(field, Sort::Class).map(Item::Definition),
            _ => self.statement(field).map(Item::Statement),
        }
    }

    /// "30 node (one or more 31, each a device's name, or one 1B; block)".
    fn node(&mut self, mut field: Field) -> Result<Node, Refusal> {
        let mut first = self.required(&mut field, device_tag)?;
        let devices = if first.tag == 0x1B {
            Devices::Default
        } else {
            let mut names = vec![self.name(&mut first)?];
            while let Some(mut more) = self.optional(&mut field, 0x31, device_tag)? {
                names.push(self.name(&mut more)?);
            }
            Devices::Named(names)
        };
        let block = self.block_part(&mut field)?;
        self.finish(&field)?;
        Ok(Node { devices, block })
    }

    /// "32 type definition (name, any number of 33; block); 34 class (name, at
    /// most one 35 with the parent's name, any number of 33; block)".
    fn definition(&mut self, mut field: Field, sort: Sort) -> Result<Definition, Refusal> {
        let name = self.name(&mut field)?;
        let parent = match sort {
            Sort::Class => self.parent(&mut field)?,
            Sort::Type => None,
        };
        let mut parameters = Parameters::default();
        while let Some(parameter) = self.optional(&mut field, 0x33, |tag| tag == 0x33)? {
            parameters.push(self.parameter(parameter)?);
        }
        let block = self.block_part(&mut field)?;
        self.finish(&field)?;
        Ok(Definition {
            place: field.place,
            name,
            sort,
            parent,
            parameters,
            block,
        })
    }

    fn parent(&mut self, class: &mut Field) -> Result<Option<Parent>, Refusal> {
        let Some(mut field) = self.optional(class, 0x35, |tag| tag == 0x35)? else {
            return Ok(None);
        };
        Ok(Some(Parent {
            place: field.place,
            name: self.name(&mut field)?,
        }))
    }

    /// "33 is a parameter: name, then at most one constant as its default."
    fn parameter(&mut self, mut field: Field) -> Result<Parameter, Refusal> {
        let name = self.name(&mut field)?;
        let default = if field.is_at_end() {
            None
        } else {
            let constant = self.enter(&mut field, constant_tag)?;
            Some(self.constant(constant)?)
        };
        self.finish(&field)?;
        Ok(Parameter {
            place: field.place,
            name,
            default,
        })
    }
}

/// Statements and blocks.
impl<'m> Reader<'m> {
    fn block_part(&mut self, around: &mut Field) -> Result<Block, Refusal> {
        let mut field = self.required(around, block_tag)?;
        let mut block = Block::new();
        while !field.is_at_end() {
            let statement = self.enter(&mut field, statement_tag)?;
            block.push(self.statement(statement)?);
        }
        Ok(block)
    }

    fn statement(&mut self, mut field: Field) -> Result<Statement, Refusal> {
        let action = match field.tag {
            0x21 => Action::Assign {
                name: self.name(&mut field)?,
                value: self.expression_part(&mut field)?,
            },
            0x22 => self.if_parts(&mut field)?,
            0x23 => self.case_parts(&mut field)?,
            0x25 => Action::BuiltIn(self.resource_parts(&mut field)?),
            0x27 => Action::Defined(self.resource_parts(&mut field)?),
            0x28 => Action::Class {
                class: self.name(&mut field)?,
                attributes: self.attribute_parts(&mut field)?,
            },
            0x29 => Action::Include {
                class: self.name(&mut field)?,
            },
            _ => return Err(Reason::Field.at(field.place)),
        };
        self.finish(&field)?;
        Ok(Statement {
            place: field.place,
            action,
        })
    }

    /// "22 if (expression, block, block)".
    fn if_parts(&mut self, field: &mut Field) -> Result<Action, Refusal> {
        let condition = self.expression_part(field)?;
        let then = self.block_part(field)?;
        let otherwise = self.block_part(field)?;
        let effect = Effect::of([&then, &otherwise].into_iter());
        Ok(Action::If {
            condition,
            then,
            otherwise,
            effect,
        })
    }

    /// "23 case (expression, any number of 24: pattern, block)".
    fn case_parts(&mut self, field: &mut Field) -> Result<Action, Refusal> {
        let scrutinee = self.expression_part(field)?;
        let mut arms = Vec::new();
        while !field.is_at_end() {
            let mut arm = self.enter(field, |tag| tag == 0x24)?;
            let pattern = self.pattern_part(&mut arm)?;
            let chosen = self.block_part(&mut arm)?;
            self.finish(&arm)?;
            arms.push(Arm { pattern, chosen });
        }
        let effect = Effect::of(arms.iter().map(|arm| &arm.chosen));
        Ok(Action::Case {
            scrutinee,
            arms,
            effect,
        })
    }

    /// "type name, title expression, any number of 26".
    fn resource_parts(&mut self, field: &mut Field) -> Result<Resource, Refusal> {
        Ok(Resource {
            kind: self.name(field)?,
            title: self.expression_part(field)?,
            attributes: self.attribute_parts(field)?,
        })
    }

    /// "any number of 26: name, expression".
    fn attribute_parts(&mut self, around: &mut Field) -> Result<Attributes, Refusal> {
        let mut attributes = Attributes::default();
        while !around.is_at_end() {
            let mut field = self.enter(around, |tag| tag == 0x26)?;
            let name = self.name(&mut field)?;
            let value = self.expression_part(&mut field)?;
            self.finish(&field)?;
            attributes.push(Attribute {
                place: field.place,
                name,
                value,
            });
        }
        Ok(attributes)
    }
}

/// Expressions.
impl<'m> Reader<'m> {
    fn expression_part(&mut self, around: &mut Field) -> Result<Expression, Refusal> {
        let field = self.required(around, expression_tag)?;
        self.expression(field)
    }

    fn boxed_part(&mut self, around: &mut Field) -> Result<Box<Expression>, Refusal> {
        self.expression_part(around).map(Box::new)
    }

    fn expression(&mut self, mut field: Field) -> Result<Expression, Refusal> {
        let form = match field.tag {
            0x13 => Form::Variable(self.name(&mut field)?),
            0x14 => Form::TopVariable(self.name(&mut field)?),
            0x15 => Form::ClassVariable {
                class: self.name(&mut field)?,
                name: self.name(&mut field)?,
            },
            0x16 => self.binary_parts(&mut field)?,
            0x17 => Form::Not(self.boxed_part(&mut field)?),
            0x18 => Form::AttributeRead {
                kind: self.name(&mut field)?,
                attribute: self.name(&mut field)?,
                title: self.boxed_part(&mut field)?,
            },
            0x19 => self.selector_parts(&mut field)?,
            _ => {
                let place = field.place;
                let form = Form::Constant(self.constant(field)?);
                return Ok(Expression { place, form });
            }
        };
        self.finish(&field)?;
        Ok(Expression {
            place: field.place,
            form,
        })
    }

    /// Reading 4: "An operator byte above 6 is 3 at the 16 ..., met at that
    /// byte."
    fn binary_parts(&mut self, field: &mut Field) -> Result<Form, Refusal> {
        let byte = self.byte(field)?;
        let operator = Operator::from_byte(byte).ok_or(Reason::Field.at(field.place))?;
        Ok(Form::Binary {
            operator,
            left: self.boxed_part(field)?,
            right: self.boxed_part(field)?,
        })
    }

    /// "19 selector (expression, one or more 1A: pattern, expression)".
    fn selector_parts(&mut self, field: &mut Field) -> Result<Form, Refusal> {
        let scrutinee = self.boxed_part(field)?;
        let mut arms = Vec::new();
        while arms.is_empty() || !field.is_at_end() {
            let mut arm = self.required(field, |tag| tag == 0x1A)?;
            let pattern = self.pattern_part(&mut arm)?;
            let chosen = self.expression_part(&mut arm)?;
            self.finish(&arm)?;
            arms.push(Arm { pattern, chosen });
        }
        Ok(Form::Selector { scrutinee, arms })
    }

    fn pattern_part(&mut self, around: &mut Field) -> Result<Pattern, Refusal> {
        let field = self.required(around, pattern_tag)?;
        if field.tag == 0x1B {
            return Ok(Pattern::Default);
        }
        self.constant(field).map(Pattern::Constant)
    }

    /// "10 integer (label, 8 bytes, signed); 11 string (label, name); 12
    /// boolean (label, 00 or 01)". Their lengths were seen in the header.
    fn constant(&mut self, mut field: Field) -> Result<Constant, Refusal> {
        let label = self.byte(&mut field)?;
        let value = match field.tag {
            0x10 => Value::Integer(i64::from_be_bytes(self.bytes_of(&mut field)?)),
            0x11 => Value::Text(self.name(&mut field)?),
            _ => match self.byte(&mut field)? {
                0 => Value::Boolean(false),
                1 => Value::Boolean(true),
                _ => return Err(Reason::Field.at(field.place)),
            },
        };
        Ok(Constant {
            place: field.place,
            label,
            value,
        })
    }
}

/// Refusal 5, "from the first byte".
impl Reader<'_> {
    /// "strictly rising by bytes, a prefix first"; "of two strings the later".
    fn check_strings(&self) -> Result<(), Refusal> {
        let pairs = self.strings.windows(2).zip(self.string_places.iter().skip(1));
        for (pair, later) in pairs {
            if pair[0] >= pair[1] {
                return Err(Reason::Strings.at(*later));
            }
        }
        Ok(())
    }

    /// Reading 6: "then each field that itself holds a name past the table".
    fn check_names(&self) -> Result<(), Refusal> {
        let past = |(_, name): &&(Place, Name)| usize::from(*name) >= self.strings.len();
        match self.names.iter().find(past) {
            Some((place, _)) => Err(Reason::Strings.at(*place)),
            None => Ok(()),
        }
    }
}
