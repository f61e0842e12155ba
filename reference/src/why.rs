//! "Why does this line count?" (document 02): which part of an attribute's set
//! holds a label first, and the lowest place of a constant that has it.

use crate::answer::{Place, Reason, Refusal};
use crate::catalog::Entry;
use crate::compile;
use crate::labels::Labels;
use crate::machine;
use crate::tree::{Constant, Name, Tree};
use crate::watch::{Origin, Watch};
use std::cell::Cell;

/// "a compile given no limits has 65,535 for steps and output".
const LIMIT: u16 = 65_535;

/// What [`why`] gives back.
#[derive(Clone, Copy, Debug, PartialEq, Eq)]
pub enum Why {
    /// The first part holding the label, and "the lowest place of a constant
    /// with that label that the compile evaluated or tried as a pattern".
    Among {
        part: Part,
        place: Place,
    },
    /// "'Not among them' comes back precisely when the set lacks the label."
    NotAmong,
    Refused(Refusal),
}

/// "title expression, path, trail, marks its expression read, value (the rest)".
#[derive(Clone, Copy, Debug, PartialEq, Eq, PartialOrd, Ord)]
#[repr(u8)]
pub enum Part {
    Title = 1,
    Path = 2,
    Trail = 3,
    Marks = 4,
    Value = 5,
}

/// Asks why a label is in the set of an attribute of the catalog that this
/// manifest gives this device, by its type, title and name; "a type list may be
/// lent". `memory` is the length of the memory lent.
pub fn why(
    types: Option<&[u8]>,
    manifest: &[u8],
    device: &[u8],
    strings: [&[u8]; 3],
    label: u8,
    memory: usize,
) -> Why {
    answer(types, manifest, device, strings, label, memory).unwrap_or_else(Why::Refused)
}

/// 27 "follows all of the compile's own refusals".
fn answer(
    types: Option<&[u8]>,
    manifest: &[u8],
    device: &[u8],
    strings: [&[u8]; 3],
    label: u8,
    memory: usize,
) -> Result<Why, Refusal> {
    let types = compile::admit(types, memory)?;
    let tree = compile::read(manifest)?;
    let watcher = Watcher::new(Asked::find(&tree, strings), label);
    let mut catalog = vec![0; usize::from(LIMIT)];
    machine::run(&tree, &types, device, LIMIT, &mut catalog, &watcher)?;
    watcher.answer().ok_or(Reason::NoAttribute.at(0))
}

/// The attribute asked about.
#[derive(Clone, Copy)]
struct Asked {
    kind: Name,
    title: Name,
    attribute: Name,
}

impl Asked {
    /// Nothing if the table lacks one of the strings.
    fn find(tree: &Tree, [kind, title, attribute]: [&[u8]; 3]) -> Option<Asked> {
        Some(Asked {
            kind: tree.number_of(kind)?,
            title: tree.number_of(title)?,
            attribute: tree.number_of(attribute)?,
        })
    }
}

/// The attribute's set, and its parts but the last.
#[derive(Clone, Copy)]
struct Parts {
    whole: Labels,
    origin: Origin,
    marks: Labels,
}

impl Parts {
    /// "The label is looked for only if the 41's set holds it."
    fn first_with(&self, label: u8) -> Option<Part> {
        let holds = |set: Labels| set.meets(&Labels::one(label));
        let parts = [
            (Part::Title, self.origin.title),
            (Part::Path, self.origin.path),
            (Part::Trail, self.origin.trail),
            (Part::Marks, self.marks),
            (Part::Value, self.whole),
        ];
        let first = parts.into_iter().find(|(_, set)| holds(*set));
        first.filter(|_| holds(self.whole)).map(|(part, _)| part)
    }
}

/// Notes what the question needs while the manifest runs.
struct Watcher {
    asked: Option<Asked>,
    label: u8,
    /// The lowest place so far of a constant met with the label; at first above
    /// any there can be.
    lowest: Cell<Place>,
    /// Whether the attribute begun last has the name asked about.
    inside: Cell<bool>,
    /// The marks read since the last such attribute was begun.
    marks: Cell<Labels>,
    parts: Cell<Option<Parts>>,
}

impl Watcher {
    fn new(asked: Option<Asked>, label: u8) -> Watcher {
        Watcher {
            asked,
            label,
            lowest: Cell::new(Place::MAX),
            inside: Cell::new(false),
            marks: Cell::new(Labels::EMPTY),
            parts: Cell::new(None),
        }
    }

    /// Nothing if no such attribute was added.
    fn answer(&self) -> Option<Why> {
        let part = self.parts.get()?.first_with(self.label);
        let place = self.lowest.get();
        Some(part.map_or(Why::NotAmong, |part| Why::Among { part, place }))
    }
}

impl Watch for Watcher {
    fn constant(&self, constant: &Constant) {
        if constant.label == self.label {
            self.lowest.set(self.lowest.get().min(constant.place));
        }
    }

    /// Reads count "also ... whose value is then dropped", so they are noted as
    /// they are made.
    fn read(&self, marks: Labels) {
        if self.inside.get() {
            self.marks.set(self.marks.get().union(marks));
        }
    }

    fn attribute(&self, name: Name) {
        let inside = self.asked.is_some_and(|asked| asked.attribute == name);
        self.inside.set(inside);
        if inside {
            self.marks.set(Labels::EMPTY);
        }
    }

    /// No read is made between a resource's last attribute and its adding, and
    /// no name stands twice in its body, so that the marks are this attribute's.
    fn resource(&self, entry: &Entry, origin: Origin) {
        self.inside.set(false);
        let Some(asked) = self.asked else { return };
        if (entry.kind, entry.title) != (asked.kind, asked.title) {
            return;
        }
        let is_asked = |(name, _): &&(Name, _)| *name == asked.attribute;
        if let Some((_, worth)) = entry.attributes.iter().find(is_asked) {
            self.parts.set(Some(Parts {
                whole: worth.labels,
                origin,
                marks: self.marks.get(),
            }));
        }
    }
}
