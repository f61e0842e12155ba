//! Who looks on while a manifest runs. A compile is watched by nobody, which
//! costs it nothing; a question about it needs what the catalog does not tell.

use crate::catalog::Entry;
use crate::labels::Labels;
use crate::tree::{Constant, Name};

pub trait Watch {
    /// A constant was evaluated as an expression, tried as a pattern or
    /// assigned to a parameter as its default.
    fn constant(&self, constant: &Constant);

    /// A variable is read: the marks of every scope tried.
    fn read(&self, marks: Labels);

    /// The expression of an attribute of that name is evaluated next.
    fn attribute(&self, name: Name);

    /// A resource is added to the catalog.
    fn resource(&self, entry: &Entry, origin: Origin);
}

/// What a resource's set is made of.
#[derive(Clone, Copy)]
pub struct Origin {
    /// The title expression's set.
    pub title: Labels,
    pub path: Labels,
    pub trail: Labels,
}

impl Origin {
    /// "An assignment stores its value's set with path and trail; so does a
    /// resource for its title".
    pub fn labels(&self) -> Labels {
        self.title.union(self.path).union(self.trail)
    }
}

pub struct Nobody;

impl Watch for Nobody {
    fn constant(&self, _: &Constant) {}
    fn read(&self, _: Labels) {}
    fn attribute(&self, _: Name) {}
    fn resource(&self, _: &Entry, _: Origin) {}
}
