//! "All definitions are gathered first" (document 02): the classes and types of
//! the whole manifest, by name.

use crate::answer::{Reason, Refusal};
use crate::tree::{Definition, Item, Name, Sort, Tree};
use crate::types::Types;

/// What a name stands for. Both tables have one place for each string, and
/// every name is below their length.
pub struct Definitions<'t> {
    built_in: Vec<bool>,
    defined: Vec<Option<&'t Definition>>,
}

impl<'t> Definitions<'t> {
    /// Those of every item, or 8 "at the first item, by place, whose name an
    /// earlier item defines or that is a built-in type's".
    pub fn gather(tree: &'t Tree, types: &Types) -> Result<Definitions<'t>, Refusal> {
        let mut definitions = Definitions::none(tree, types);
        for item in &tree.items {
            if let Item::Definition(definition) = item {
                definitions.add(definition)?;
            }
        }
        Ok(definitions)
    }

    /// No definition yet, only the built-in types.
    pub fn none(tree: &Tree, types: &Types) -> Definitions<'t> {
        Definitions {
            built_in: tree.strings.iter().map(|string| types.holds(string)).collect(),
            defined: vec![None; tree.strings.len()],
        }
    }

    /// One more, or 8; "classes and types share one set of names".
    pub fn add(&mut self, definition: &'t Definition) -> Result<(), Refusal> {
        let name = usize::from(definition.name);
        if self.built_in[name] || self.defined[name].is_some() {
            return Err(Reason::DefinedAgain.at(definition.place));
        }
        self.defined[name] = Some(definition);
        Ok(())
    }

    pub fn is_built_in(&self, kind: Name) -> bool {
        self.built_in[usize::from(kind)]
    }

    /// The class or type of that name; nothing also for "a name of the other
    /// sort".
    pub fn find(&self, name: Name, sort: Sort) -> Option<&'t Definition> {
        self.defined[usize::from(name)].filter(|definition| definition.sort == sort)
    }
}
