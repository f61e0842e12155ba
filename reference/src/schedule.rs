//! The schedule printer.

use crate::answer::Answer;
use crate::catalog::{self, Entry};
use crate::compile::{compile, LEAST_MEMORY};
use crate::labels::Labels;
use crate::reader;
use crate::tree::{Name, Value};

/// Reading 26: "The printer compiles with limit 65,535 and 65,535 bytes of
/// output."
const OUTPUT: usize = 65_535;

/// The printed schedule for "the device name, a line feed, then the manifest";
/// "without a line feed the manifest is empty".
pub fn schedule(input: &[u8]) -> Vec<u8> {
    let (device, manifest) = match input.iter().position(|byte| *byte == b'\n') {
        Some(at) => (&input[..at], &input[at + 1..]),
        None => (input, &[][..]),
    };
    let mut out = vec![0; OUTPUT];
    let mut work = vec![0; LEAST_MEMORY];
    match compile(manifest, device, u16::MAX, &mut out, &mut work) {
        Answer::Refused { number, place } => format!("refused {number} at {place}\n").into_bytes(),
        Answer::Catalog { length, steps } => {
            let mut lines = print_catalog(manifest, &out[..usize::from(length)]);
            lines.extend_from_slice(format!("steps {steps}\n").as_bytes());
            lines
        }
    }
}

/// The lines of a catalog, with the strings of the manifest it came from.
fn print_catalog(manifest: &[u8], bytes: &[u8]) -> Vec<u8> {
    let strings = reader::read(manifest)
        .map(|tree| tree.strings)
        .unwrap_or_default();
    let printer = Printer { strings };
    let mut lines = Vec::new();
    for entry in catalog::entries(bytes).unwrap_or_default() {
        printer.entry(&entry, &mut lines);
    }
    lines
}

struct Printer<'m> {
    strings: Vec<&'m [u8]>,
}

impl<'m> Printer<'m> {
    fn string(&self, name: Name) -> &'m [u8] {
        self.strings.get(usize::from(name)).copied().unwrap_or(&[])
    }

    /// "Each line: type, title, attribute, value ..., how many labels, the
    /// labels rising. A resource without attributes has "-" for attribute and
    /// value."
    fn entry(&self, entry: &Entry, lines: &mut Vec<u8>) {
        if entry.attributes.is_empty() {
            self.line(entry, b"-", b"-", entry.labels, lines);
        }
        for (name, worth) in &entry.attributes {
            let value = self.value(&worth.value);
            self.line(entry, self.string(*name), &value, worth.labels, lines);
        }
    }

    /// "value (decimal, bytes, or true/false)".
    fn value(&self, value: &Value) -> Vec<u8> {
        match value {
            Value::Integer(number) => number.to_string().into_bytes(),
            Value::Text(name) => self.string(*name).to_vec(),
            Value::Boolean(truth) => truth.to_string().into_bytes(),
        }
    }

    fn line(&self, entry: &Entry, attribute: &[u8], value: &[u8], labels: Labels, lines: &mut Vec<u8>) {
        for word in [
            self.string(entry.kind),
            self.string(entry.title),
            attribute,
            value,
        ] {
            lines.extend_from_slice(word);
            lines.push(b' ');
        }
        let rising: Vec<String> = labels.iter().map(|label| label.to_string()).collect();
        let sets = format!("{} {}\n", labels.count(), rising.join(","));
        lines.extend_from_slice(sets.as_bytes());
    }
}
