//! Hand-written cases. Every expected value follows from documents 01 and 02
//! and docs/DECISIONS.md, as the comment beside it says; "R7" is reading 7.

mod default_last;
mod definitions;
mod definitions_anywhere;
mod demand;
mod expressions;
mod fields;
mod label_sets;
mod lent;
mod order;
mod papers_cases;
mod text;
mod types;
mod why;

use crate::answer::Answer;
use crate::assemble::*;
use crate::case::Case;
use crate::schedule::schedule;

/// Compiles for "desk" with a limit and checks the bytes lent.
fn answer_limited(manifest: &Manifest, limit: u16) -> Answer {
    let mut case = Case::of(manifest.build().bytes);
    case.limit = limit;
    case.compile().expect("the bytes lent obey document 01").0
}

/// The printed schedule for a device.
fn printed(device: &str, manifest: &Manifest) -> String {
    let mut input = device.as_bytes().to_vec();
    input.push(b'\n');
    input.extend(manifest.build().bytes);
    String::from_utf8_lossy(&schedule(&input)).into_owned()
}

/// The manifest is accepted and prints these lines for "desk".
#[track_caller]
fn check(manifest: Manifest, lines: &[&str]) {
    let expected: String = lines.iter().map(|line| format!("{line}\n")).collect();
    assert_eq!(printed("desk", &manifest), expected);
}

/// The manifest is refused with that number at the field of that mark.
#[track_caller]
fn refuse(manifest: Manifest, number: u8, mark: &str) {
    refuse_limited(manifest, u16::MAX, number, mark);
}

#[track_caller]
fn refuse_limited(manifest: Manifest, limit: u16, number: u8, mark: &str) {
    let place = manifest.build().place(mark);
    assert_ne!(place, u16::MAX, "no field has the mark {mark}");
    assert_eq!(
        answer_limited(&manifest, limit),
        Answer::Refused { number, place }
    );
}

/// A manifest of these items.
fn items(items: Vec<Field>) -> Manifest {
    Manifest::new(items)
}

/// Statements that run at the given level, the bodies of as many types around
/// them; the definitions first.
fn at_level(level: usize, mut definitions: Vec<Field>, mut statements: Vec<Field>) -> Manifest {
    for at in (0..level).rev() {
        let name = format!("level{at:02}");
        definitions.push(type_definition(&name, vec![], statements));
        statements = vec![defined(&name, text(0, "down"), vec![])];
    }
    definitions.extend(statements);
    Manifest::new(definitions)
}

/// Assignments at the top that take so many cells.
fn filling(cells: usize) -> Vec<Field> {
    (0..cells)
        .map(|at| assign(format!("fill{at:03}"), boolean(0, true)))
        .collect()
}

/// The filling, then more items.
fn filled(cells: usize, more: Vec<Field>) -> Manifest {
    let mut all = filling(cells);
    all.extend(more);
    Manifest::new(all)
}

/// A resource that prints one value: `kiosk front x`, title label 0.
fn show(value: Field) -> Field {
    built_in("kiosk", text(0, "front"), vec![given("x", value)])
}
