//! Cases that `reference/` has under no name.

use crate::assemble::*;
use crate::case::Case;

/// A name and how its case is made.
type HandMade = (&'static str, fn() -> Case);

pub const HAND_MADE: [HandMade; 1] = [("deepest", deepest)];

/// As much stack as a manifest can ask for: seventeen types, each declared inside fourteen nested conditions of the body
/// before it, and in the last body an expression that is as deep as fields go.
fn deepest() -> Case {
    let kind = |at: usize| format!("t{at:02}");
    let declare = |at: usize| conditions(14, defined(kind(at), text(1, "x"), vec![]));
    let mut items: Vec<Field> = (0..16)
        .map(|at| type_definition(kind(at), vec![], vec![declare(at + 1)]))
        .collect();
    let expression = (0..28).fold(boolean(2, true), |inner, _| {
        binary(EQUAL, boolean(3, true), inner)
    });
    items.push(type_definition(kind(16), vec![], vec![assign("y", expression)]));
    items.push(declare(0));
    Case::of(Manifest::new(items).build().bytes)
}

/// The statement inside so many ifs.
fn conditions(count: usize, statement: Field) -> Field {
    (0..count).fold(statement, |inner, _| {
        if_else(boolean(4, true), vec![inner], vec![])
    })
}
