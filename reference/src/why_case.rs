//! A question, its line, and its answer's line.

use crate::answer::Answer;
use crate::case::{from_hex, length, list_word, take_list, to_hex, Case};
use crate::catalog;
use crate::compile;
use crate::labels::Labels;
use crate::why::{why, Why};

/// What one question is given.
#[derive(Clone, Debug, PartialEq, Eq)]
pub struct WhyCase {
    /// The list of types, if one is lent.
    pub types: Option<Vec<u8>>,
    pub device: Vec<u8>,
    pub kind: Vec<u8>,
    pub title: Vec<u8>,
    pub attribute: Vec<u8>,
    pub label: u8,
    pub memory: usize,
    pub manifest: Vec<u8>,
}

/// A resource of the catalog asked about, by its strings.
pub struct Resource {
    pub kind: Vec<u8>,
    pub title: Vec<u8>,
    /// Each with its set.
    pub attributes: Vec<(Vec<u8>, Labels)>,
}

impl WhyCase {
    /// `why`, device, type, title, attribute, label, memory length and
    /// manifest, separated by single spaces; the list before them.
    pub fn line(&self) -> String {
        let strings = [&self.device, &self.kind, &self.title, &self.attribute];
        let strings = strings.map(|string| to_hex(string)).join(" ");
        let (list, label, memory) = (list_word(&self.types), self.label, self.memory);
        format!("{list}why {strings} {label} {memory} {}", to_hex(&self.manifest))
    }

    pub fn from_line(line: &str) -> Result<WhyCase, String> {
        let (types, line) = take_list(line)?;
        let parts: Vec<&str> = line.split(' ').collect();
        let ["why", device, kind, title, attribute, label, memory, manifest] = parts[..] else {
            return Err("a line has eight parts, the first of them 'why'".to_string());
        };
        Ok(WhyCase {
            types,
            device: from_hex(device)?,
            kind: from_hex(kind)?,
            title: from_hex(title)?,
            attribute: from_hex(attribute)?,
            label: label.parse().map_err(|_| format!("no label: {label}"))?,
            memory: length(memory)?,
            manifest: from_hex(manifest)?,
        })
    }

    pub fn answer(&self) -> Why {
        why(
            self.types.as_deref(),
            &self.manifest,
            &self.device,
            [&self.kind, &self.title, &self.attribute],
            self.label,
            self.memory,
        )
    }

    /// What the catalog holds; nothing if the manifest is refused.
    pub fn resources(&self) -> Vec<Resource> {
        let compiling = Case {
            types: self.types.clone(),
            device: self.device.clone(),
            memory: self.memory,
            ..Case::of(self.manifest.clone())
        };
        let tree = compile::read(&self.manifest);
        let (Ok(tree), Ok((Answer::Catalog { .. }, bytes))) = (tree, compiling.compile()) else {
            return Vec::new();
        };
        let string = |name: u16| tree.strings[usize::from(name)].to_vec();
        let entries = catalog::entries(&bytes).unwrap_or_default().into_iter();
        entries
            .map(|entry| Resource {
                kind: string(entry.kind),
                title: string(entry.title),
                attributes: entry
                    .attributes
                    .iter()
                    .map(|(name, worth)| (string(*name), worth.labels))
                    .collect(),
            })
            .collect()
    }
}

/// `among PART PLACE`, `not among` or `refused NUMBER PLACE`.
pub fn why_line(answer: &Why) -> String {
    match answer {
        Why::Among { part, place } => format!("among {} {place}", *part as u8),
        Why::NotAmong => "not among".to_string(),
        Why::Refused(refusal) => format!("refused {} {}", refusal.reason as u8, refusal.place),
    }
}
