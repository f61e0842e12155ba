//! An assembler for manifests: nested fields in, bytes and offsets out.
//!
//! Names are written as strings; the table is made of all strings used, in
//! order. A field can be given a mark, whose offset is known once the manifest
//! is built. Faulty manifests can be made too: any tag, any parts, a false
//! length, a table of one's own.

use std::collections::{BTreeMap, BTreeSet};

/// A field to be built.
#[derive(Clone, Debug)]
pub struct Field {
    pub tag: u8,
    pub parts: Vec<Part>,
    pub mark: Option<&'static str>,
    /// A length to write in place of the true one.
    pub length: Option<u16>,
}

/// What a field's body holds, in order.
#[derive(Clone, Debug)]
pub enum Part {
    Bytes(Vec<u8>),
    Name(Vec<u8>),
    Field(Field),
}

impl Field {
    pub fn new(tag: u8) -> Field {
        Field {
            tag,
            parts: Vec::new(),
            mark: None,
            length: None,
        }
    }

    /// Gives the field a mark, for [`Built::place`].
    pub fn at(mut self, mark: &'static str) -> Field {
        self.mark = Some(mark);
        self
    }

    pub fn bytes(mut self, bytes: &[u8]) -> Field {
        self.parts.push(Part::Bytes(bytes.to_vec()));
        self
    }

    pub fn name(mut self, name: impl AsRef<[u8]>) -> Field {
        self.parts.push(Part::Name(name.as_ref().to_vec()));
        self
    }

    pub fn field(mut self, field: Field) -> Field {
        self.parts.push(Part::Field(field));
        self
    }

    pub fn fields(mut self, fields: impl IntoIterator<Item = Field>) -> Field {
        self.parts.extend(fields.into_iter().map(Part::Field));
        self
    }

    /// Writes this length in place of the true one.
    pub fn length(mut self, length: u16) -> Field {
        self.length = Some(length);
        self
    }
}

/// A manifest to be built: the string table and the fields after it.
#[derive(Clone, Debug, Default)]
pub struct Manifest {
    pub items: Vec<Field>,
    /// Strings in the table though no name may use them.
    pub strings: Vec<Vec<u8>>,
    /// A 01 to write in place of the one made of the strings used.
    pub table: Option<Field>,
}

/// A built manifest.
#[derive(Clone, Debug, Default)]
pub struct Built {
    pub bytes: Vec<u8>,
    marks: BTreeMap<&'static str, u16>,
    /// The offset of every field in rising order, with its tag.
    pub fields: Vec<(usize, u8)>,
}

impl Built {
    /// The offset of the field with that mark; 65,535 if there is none.
    #[cfg_attr(not(test), allow(dead_code))]
    pub fn place(&self, mark: &str) -> u16 {
        self.marks.get(mark).copied().unwrap_or(u16::MAX)
    }
}

impl Manifest {
    pub fn new(items: Vec<Field>) -> Manifest {
        Manifest {
            items,
            ..Manifest::default()
        }
    }

    /// Puts a string into the table, used or not.
    pub fn with(mut self, string: impl AsRef<[u8]>) -> Manifest {
        self.strings.push(string.as_ref().to_vec());
        self
    }

    pub fn with_table(mut self, table: Field) -> Manifest {
        self.table = Some(table);
        self
    }

    /// All strings of the table, rising.
    pub fn all_strings(&self) -> Vec<Vec<u8>> {
        let mut strings: BTreeSet<Vec<u8>> = self.strings.iter().cloned().collect();
        for item in &self.items {
            collect(item, &mut strings);
        }
        strings.into_iter().collect()
    }

    pub fn build(&self) -> Built {
        let strings = self.all_strings();
        let mut built = Built::default();
        let table = self.table.clone().unwrap_or_else(|| table(&strings));
        write(&table, &strings, &mut built);
        for item in &self.items {
            write(item, &strings, &mut built);
        }
        built
    }
}

/// A 01 of the given strings, in the given order.
pub fn table<S: AsRef<[u8]>>(strings: &[S]) -> Field {
    Field::new(0x01).fields(
        strings
            .iter()
            .map(|string| Field::new(0x02).bytes(string.as_ref())),
    )
}

fn collect(field: &Field, strings: &mut BTreeSet<Vec<u8>>) {
    for part in &field.parts {
        match part {
            Part::Bytes(_) => {}
            Part::Name(name) if strings.contains(name) => {}
            Part::Name(name) => {
                strings.insert(name.clone());
            }
            Part::Field(inner) => collect(inner, strings),
        }
    }
}

fn write(field: &Field, strings: &[Vec<u8>], built: &mut Built) {
    let place = built.bytes.len();
    built.fields.push((place, field.tag));
    if let Some(mark) = field.mark {
        built.marks.insert(mark, place as u16);
    }
    built.bytes.extend_from_slice(&[field.tag, 0, 0]);
    for part in &field.parts {
        match part {
            Part::Bytes(bytes) => built.bytes.extend_from_slice(bytes),
            Part::Name(name) => {
                let number = strings.binary_search(name).unwrap_or(usize::MAX);
                built.bytes.extend_from_slice(&(number as u16).to_be_bytes());
            }
            Part::Field(inner) => write(inner, strings, built),
        }
    }
    let length = field.length.unwrap_or((built.bytes.len() - place - 3) as u16);
    built.bytes[place + 1..place + 3].copy_from_slice(&length.to_be_bytes());
}

// Constants, patterns and expressions.

pub fn int(label: u8, value: i64) -> Field {
    Field::new(0x10).bytes(&[label]).bytes(&value.to_be_bytes())
}

pub fn text(label: u8, string: impl AsRef<[u8]>) -> Field {
    Field::new(0x11).bytes(&[label]).name(string)
}

pub fn boolean(label: u8, value: bool) -> Field {
    Field::new(0x12).bytes(&[label, u8::from(value)])
}

/// The pattern 1B.
pub fn default() -> Field {
    Field::new(0x1B)
}

pub fn var(name: impl AsRef<[u8]>) -> Field {
    Field::new(0x13).name(name)
}

pub fn top_var(name: impl AsRef<[u8]>) -> Field {
    Field::new(0x14).name(name)
}

pub fn class_var(class: impl AsRef<[u8]>, name: impl AsRef<[u8]>) -> Field {
    Field::new(0x15).name(class).name(name)
}

/// Operator bytes of a 16.
pub const ADD: u8 = 0;
pub const SUBTRACT: u8 = 1;
pub const DIVIDE: u8 = 2;
pub const GREATER: u8 = 3;
pub const EQUAL: u8 = 4;
pub const AND: u8 = 5;
pub const OR: u8 = 6;

pub fn binary(operator: u8, left: Field, right: Field) -> Field {
    Field::new(0x16).bytes(&[operator]).field(left).field(right)
}

pub fn not(operand: Field) -> Field {
    Field::new(0x17).field(operand)
}

pub fn attribute_of(kind: impl AsRef<[u8]>, attribute: impl AsRef<[u8]>, title: Field) -> Field {
    Field::new(0x18).name(kind).name(attribute).field(title)
}

pub fn select(scrutinee: Field, arms: Vec<(Field, Field)>) -> Field {
    let arms = arms
        .into_iter()
        .map(|(pattern, chosen)| Field::new(0x1A).field(pattern).field(chosen));
    Field::new(0x19).field(scrutinee).fields(arms)
}

// Statements.

pub fn block(statements: Vec<Field>) -> Field {
    Field::new(0x20).fields(statements)
}

pub fn assign(name: impl AsRef<[u8]>, value: Field) -> Field {
    Field::new(0x21).name(name).field(value)
}

pub fn if_else(condition: Field, then: Vec<Field>, otherwise: Vec<Field>) -> Field {
    Field::new(0x22)
        .field(condition)
        .field(block(then))
        .field(block(otherwise))
}

pub fn case(scrutinee: Field, arms: Vec<(Field, Vec<Field>)>) -> Field {
    let arms = arms
        .into_iter()
        .map(|(pattern, chosen)| Field::new(0x24).field(pattern).field(block(chosen)));
    Field::new(0x23).field(scrutinee).fields(arms)
}

/// A 26.
pub fn given(name: impl AsRef<[u8]>, value: Field) -> Field {
    Field::new(0x26).name(name).field(value)
}

pub fn built_in(kind: impl AsRef<[u8]>, title: Field, attributes: Vec<Field>) -> Field {
    Field::new(0x25).name(kind).field(title).fields(attributes)
}

pub fn defined(kind: impl AsRef<[u8]>, title: Field, attributes: Vec<Field>) -> Field {
    Field::new(0x27).name(kind).field(title).fields(attributes)
}

/// A 28.
pub fn class_with(class: impl AsRef<[u8]>, attributes: Vec<Field>) -> Field {
    Field::new(0x28).name(class).fields(attributes)
}

pub fn include(class: impl AsRef<[u8]>) -> Field {
    Field::new(0x29).name(class)
}

// Items.

pub fn node(devices: &[&str], statements: Vec<Field>) -> Field {
    let devices = devices.iter().map(|device| Field::new(0x31).name(device));
    Field::new(0x30).fields(devices).field(block(statements))
}

pub fn node_default(statements: Vec<Field>) -> Field {
    Field::new(0x30).field(default()).field(block(statements))
}

/// A 33.
pub fn parameter(name: impl AsRef<[u8]>, default: Option<Field>) -> Field {
    Field::new(0x33).name(name).fields(default)
}

pub fn type_definition(name: impl AsRef<[u8]>, parameters: Vec<Field>, statements: Vec<Field>) -> Field {
    Field::new(0x32)
        .name(name)
        .fields(parameters)
        .field(block(statements))
}

/// A 35.
pub fn parent(name: impl AsRef<[u8]>) -> Field {
    Field::new(0x35).name(name)
}

pub fn class_definition(
    name: impl AsRef<[u8]>,
    parent: Option<Field>,
    parameters: Vec<Field>,
    statements: Vec<Field>,
) -> Field {
    Field::new(0x34)
        .name(name)
        .fields(parent)
        .fields(parameters)
        .field(block(statements))
}
