//! Scopes and their cells: values, stored sets and marks.

use crate::answer::Reason;
use crate::labels::Labels;
use crate::tree::{Labelled, Name};
use crate::watch::Watch;
use std::collections::BTreeMap;

/// "At most 512 exist."
const MOST_CELLS: usize = 512;

#[derive(Clone, Copy, Debug, PartialEq, Eq)]
pub struct ScopeId(usize);

pub const TOP: ScopeId = ScopeId(0);
pub const NODE: ScopeId = ScopeId(1);

/// "A cell is a scope and name with a value or a mark."
#[derive(Default)]
struct Cell {
    value: Option<Labelled>,
    mark: Labels,
}

struct Scope {
    parent: Option<ScopeId>,
    base: ScopeId,
    cells: BTreeMap<Name, Cell>,
}

impl Scope {
    fn new(parent: Option<ScopeId>, base: ScopeId) -> Scope {
        Scope {
            parent,
            base,
            cells: BTreeMap::new(),
        }
    }
}

/// Top, node, one for each declared class and one for each running
/// defined-type body.
pub struct Scopes {
    all: Vec<Scope>,
    freed: Vec<ScopeId>,
    cells: usize,
}

impl Scopes {
    /// "The base is top or node: of top and node themselves"; "Node's parent
    /// is top".
    pub fn new() -> Scopes {
        Scopes {
            all: vec![Scope::new(None, TOP), Scope::new(Some(TOP), NODE)],
            freed: Vec::new(),
            cells: 0,
        }
    }

    pub fn base(&self, scope: ScopeId) -> ScopeId {
        self.all[scope.0].base
    }

    /// A class's scope: its base is "of a class its parent's base".
    pub fn open_class(&mut self, parent: ScopeId) -> ScopeId {
        self.open(Scope::new(Some(parent), self.base(parent)))
    }

    /// "of a type body its declarer's base. A type body's parent is its base."
    pub fn open_body(&mut self, declarer: ScopeId) -> ScopeId {
        let base = self.base(declarer);
        self.open(Scope::new(Some(base), base))
    }

    fn open(&mut self, scope: Scope) -> ScopeId {
        if let Some(id) = self.freed.pop() {
            self.all[id.0] = scope;
            return id;
        }
        self.all.push(scope);
        ScopeId(self.all.len() - 1)
    }

    /// Frees a type body's scope: its cells "are used again". Nothing can refer
    /// to it any more, since the parent of a scope is never a type body.
    pub fn free(&mut self, scope: ScopeId) {
        let cells = std::mem::take(&mut self.all[scope.0].cells);
        self.cells -= cells.len();
        self.freed.push(scope);
    }

    /// "A plain read tries its scope, then the parents upward"; "A read's set is
    /// the stored set and the marks of every scope tried".
    pub fn read(&self, scope: ScopeId, name: Name, watch: &impl Watch) -> Option<Labelled> {
        let mut marks = Labels::EMPTY;
        let mut tried = Some(scope);
        while let Some(id) = tried {
            let scope = &self.all[id.0];
            if let Some(cell) = scope.cells.get(&name) {
                marks.join(cell.mark);
                if let Some(stored) = cell.value {
                    watch.read(marks);
                    return Some(stored.with(marks));
                }
            }
            tried = scope.parent;
        }
        None
    }

    /// A read that tries one scope only: "14 tries top only, 15 the class only".
    pub fn read_only(&self, scope: ScopeId, name: Name, watch: &impl Watch) -> Option<Labelled> {
        let cell = self.all[scope.0].cells.get(&name)?;
        watch.read(cell.mark);
        cell.value.map(|stored| stored.with(cell.mark))
    }

    /// Gives a variable its value: refusals 14, then 22.
    pub fn assign(&mut self, scope: ScopeId, name: Name, value: Labelled) -> Result<(), Reason> {
        let cell = self.cell(scope, name)?;
        if cell.value.is_some() {
            return Err(Reason::HasValue);
        }
        cell.value = Some(value);
        Ok(())
    }

    /// Joins a set to a mark: refusal 22.
    pub fn mark(&mut self, scope: ScopeId, name: Name, labels: Labels) -> Result<(), Reason> {
        self.cell(scope, name)?.mark.join(labels);
        Ok(())
    }

    /// The cell there is, or else a new one if there may be one more.
    fn cell(&mut self, scope: ScopeId, name: Name) -> Result<&mut Cell, Reason> {
        use std::collections::btree_map::Entry;
        match self.all[scope.0].cells.entry(name) {
            Entry::Occupied(there) => Ok(there.into_mut()),
            Entry::Vacant(_) if self.cells == MOST_CELLS => Err(Reason::Cells),
            Entry::Vacant(place) => {
                self.cells += 1;
                Ok(place.insert(Cell::default()))
            }
        }
    }
}
