//! The catalog: entries written into the output, and read back from it.

use crate::answer::Reason;
use crate::labels::Labels;
use crate::tree::{Labelled, Name, Value};
use std::collections::{BTreeMap, HashMap};

/// "or 65,535 bytes in all".
const LONGEST: usize = 65_535;

/// Tag and length.
const HEADER: usize = 3;
/// What an entry has besides its attributes: "40 (type name, title name, 32
/// bytes of labels, attributes)".
const ENTRY: usize = HEADER + 2 + 2 + 32;
/// What an attribute has besides its value: "41: name, 32 bytes".
const ATTRIBUTE: usize = HEADER + 2 + 32;

/// The size of the whole 42, 43 or 44.
fn value_size(value: &Value) -> usize {
    match value {
        Value::Integer(_) => HEADER + 8,
        Value::Text(_) => HEADER + 2,
        Value::Boolean(_) => HEADER + 1,
    }
}

/// A resource about to be entered, all its sets final.
pub struct Entry {
    pub kind: Name,
    pub title: Name,
    pub labels: Labels,
    pub attributes: Vec<(Name, Labelled)>,
}

/// The catalog being made: the lent output, how much of it is filled, and what
/// an 18 can find.
pub struct Catalog<'o> {
    output: &'o mut [u8],
    filled: usize,
    resources: HashMap<(Name, Name), BTreeMap<Name, Labelled>>,
}

impl<'o> Catalog<'o> {
    /// Starts on an output that is zero throughout.
    pub fn new(output: &'o mut [u8]) -> Catalog<'o> {
        Catalog {
            output,
            filled: 0,
            resources: HashMap::new(),
        }
    }

    /// The catalog's length; never above 65,535.
    pub fn length(&self) -> u16 {
        u16::try_from(self.filled).unwrap_or(u16::MAX)
    }

    pub fn contains(&self, kind: Name, title: Name) -> bool {
        self.resources.contains_key(&(kind, title))
    }

    pub fn attribute(&self, kind: Name, title: Name, name: Name) -> Option<Labelled> {
        self.resources.get(&(kind, title))?.get(&name).copied()
    }

    /// Writes an entry at the fill point, or refuses 23.
    pub fn add(&mut self, entry: Entry) -> Result<(), Reason> {
        let values = entry
            .attributes
            .iter()
            .map(|(_, worth)| ATTRIBUTE + value_size(&worth.value));
        let size = ENTRY + values.sum::<usize>();
        let room = self.output.len().min(LONGEST) - self.filled;
        if size > room {
            return Err(Reason::Output);
        }
        let rest = &mut self.output[self.filled..self.filled + size];
        write_entry(&mut Pen { rest }, &entry, size);
        self.filled += size;
        let attributes = entry.attributes.into_iter().collect();
        self.resources.insert((entry.kind, entry.title), attributes);
        Ok(())
    }
}

/// Writes bytes one after the other into a part of the output that is known to
/// be long enough.
struct Pen<'o> {
    rest: &'o mut [u8],
}

impl Pen<'_> {
    fn bytes(&mut self, bytes: &[u8]) {
        let rest = std::mem::take(&mut self.rest);
        if let Some((here, after)) = rest.split_at_mut_checked(bytes.len()) {
            here.copy_from_slice(bytes);
            self.rest = after;
        }
    }

    fn number(&mut self, number: u16) {
        self.bytes(&number.to_be_bytes());
    }

    /// A tag and the length of the body of a field of the given whole size.
    fn header(&mut self, tag: u8, size: usize) {
        self.bytes(&[tag]);
        self.number(u16::try_from(size - HEADER).unwrap_or(u16::MAX));
    }
}

fn write_entry(pen: &mut Pen, entry: &Entry, size: usize) {
    pen.header(0x40, size);
    pen.number(entry.kind);
    pen.number(entry.title);
    pen.bytes(&entry.labels.to_bytes());
    for (name, worth) in &entry.attributes {
        pen.header(0x41, ATTRIBUTE + value_size(&worth.value));
        pen.number(*name);
        pen.bytes(&worth.labels.to_bytes());
        write_value(pen, &worth.value);
    }
}

/// "then 42 integer (8 bytes), 43 string (name) or 44 boolean".
fn write_value(pen: &mut Pen, value: &Value) {
    let size = value_size(value);
    match value {
        Value::Integer(number) => {
            pen.header(0x42, size);
            pen.bytes(&number.to_be_bytes());
        }
        Value::Text(name) => {
            pen.header(0x43, size);
            pen.number(*name);
        }
        Value::Boolean(truth) => {
            pen.header(0x44, size);
            pen.bytes(&[u8::from(*truth)]);
        }
    }
}

/// Reads a finished catalog back into its entries; nothing if it isn't one.
pub fn entries(mut catalog: &[u8]) -> Option<Vec<Entry>> {
    let mut entries = Vec::new();
    while !catalog.is_empty() {
        let body = take_field(&mut catalog, 0x40)?;
        entries.push(read_entry(body)?);
    }
    Some(entries)
}

fn read_entry(mut body: &[u8]) -> Option<Entry> {
    let mut entry = Entry {
        kind: take_number(&mut body)?,
        title: take_number(&mut body)?,
        labels: Labels::from_bytes(&take(&mut body)?),
        attributes: Vec::new(),
    };
    while !body.is_empty() {
        let mut attribute = take_field(&mut body, 0x41)?;
        let name = take_number(&mut attribute)?;
        let labels = Labels::from_bytes(&take(&mut attribute)?);
        let value = read_value(attribute)?;
        entry.attributes.push((name, Labelled { value, labels }));
    }
    Some(entry)
}

fn read_value(mut bytes: &[u8]) -> Option<Value> {
    let tag = *bytes.first()?;
    let body = take_field(&mut bytes, tag)?;
    if !bytes.is_empty() {
        return None;
    }
    match tag {
        0x42 => Some(Value::Integer(i64::from_be_bytes(body.try_into().ok()?))),
        0x43 => Some(Value::Text(Name::from_be_bytes(body.try_into().ok()?))),
        0x44 => match body {
            [0] => Some(Value::Boolean(false)),
            [1] => Some(Value::Boolean(true)),
            _ => None,
        },
        _ => None,
    }
}

fn take<const N: usize>(bytes: &mut &[u8]) -> Option<[u8; N]> {
    let (taken, rest) = bytes.split_first_chunk::<N>()?;
    *bytes = rest;
    Some(*taken)
}

fn take_number(bytes: &mut &[u8]) -> Option<u16> {
    take(bytes).map(u16::from_be_bytes)
}

fn take_field<'c>(bytes: &mut &'c [u8], expected: u8) -> Option<&'c [u8]> {
    let [tag] = take(bytes)?;
    let length = usize::from(take_number(bytes)?);
    let (body, rest) = bytes.split_at_checked(length)?;
    *bytes = rest;
    (tag == expected).then_some(body)
}
