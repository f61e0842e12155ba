//! Questions made by hand, besides the named ones of the program made apart.

use crate::assemble::*;
use crate::compile::LEAST_MEMORY;
use crate::why_case::WhyCase;
use crate::why_named::{shown, why_named, Asking};

/// A name and how its question is made.
type HandMade = (&'static str, fn() -> WhyCase);

pub const HAND_MADE_QUESTIONS: [HandMade; 4] = [
    ("example", example),
    ("schedule", schedule),
    ("one-step-too-many", one_step_too_many),
    ("last-place", last_place),
];

/// The fee, at the kiosk of a device of the example.
pub fn example() -> WhyCase {
    WhyCase {
        types: None,
        device: b"hill-desk".to_vec(),
        kind: b"kiosk".to_vec(),
        title: b"front".to_vec(),
        attribute: b"price".to_vec(),
        label: 1,
        memory: LEAST_MEMORY,
        manifest: include_bytes!("../examples/gyms.manifest").to_vec(),
    }
}

/// The scope paper's schedule: the price's label 2, which a mark brings.
pub fn schedule() -> WhyCase {
    let manifest = crate::special::named("schedule").map(|case| case.manifest);
    WhyCase {
        device: b"desk".to_vec(),
        label: 2,
        manifest: manifest.expect("the program made apart has this input"),
        ..example()
    }
}

/// The named question of 65,535 steps.
fn most_steps() -> Asking {
    why_named("large-steps").expect("the program made apart has this question")
}

/// A compile without limits has 65,535 steps.
fn one_step_too_many() -> WhyCase {
    let mut asking = most_steps();
    asking.manifest.items.push(assign("y", int(7, 1)));
    asking.case()
}

/// As long as a question can take, in compiles: 65,535 bytes and steps, and the label only at the end, so that every
/// run of the sixteen that look for its place is a whole one.
pub fn last_place() -> WhyCase {
    let make = |assignments: usize, padding: usize| {
        let mut asking = most_steps();
        asking.label = 9;
        asking.manifest.items.pop();
        asking.manifest.items.push(shown(int(9, 40)));
        let unmet = (0..assignments).map(|_| assign("y", int(1, 1))).collect();
        let never = class_definition("never", None, vec![], unmet);
        asking.manifest.items.insert(0, never);
        asking.manifest = asking.manifest.with("z".repeat(padding));
        asking.case()
    };
    let length = |assignments: usize| make(assignments, 0).manifest.len();
    let (room, each) = (65_535 - length(0), length(1) - length(0));
    make(room / each, room % each)
}
