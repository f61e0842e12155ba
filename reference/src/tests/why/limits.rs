//! What a question's compile is given, and refusals in its order.

use super::*;
use crate::answer::Reason;
use crate::assemble::{built_in, given, int, text, Field, Manifest};
use crate::special::named;
use crate::why_case::WhyCase;
use crate::why_named::{no_item, part_value};

/// A question that no catalog answers, about a manifest.
fn about(manifest: Vec<u8>) -> Why {
    WhyCase {
        manifest,
        ..no_item().case()
    }
    .answer()
}

fn number_of(answer: Why) -> u8 {
    match answer {
        Why::Refused(refusal) => refusal.reason as u8,
        other => panic!("{other:?}"),
    }
}

/// "a compile given no limits has 65,535 for steps": as many are accepted, and
/// one more is refused 6.
#[test]
fn steps() {
    let mut manifest = named("time-steps").unwrap().manifest;
    assert_eq!(number_of(about(manifest.clone())), 27);
    let place = manifest.len() as u16;
    // A case without arms is a statement.
    manifest.extend([0x23, 0, 5, 0x12, 0, 2, 7, 1]);
    let refusal = Reason::Steps.at(place);
    assert_eq!(about(manifest), Why::Refused(refusal));
}

/// 1,676 entries of 39 bytes, then a kiosk with attributes of 48 (a number) and
/// twice 42 (a string): 65,535 bytes, if the last one is a string.
fn filling(last: Field) -> Asking {
    let entry = |at: usize| {
        let kind = if at % 2 == 0 { "gate" } else { "wall" };
        built_in(kind, text(1, format!("r{:03}", at / 2)), vec![])
    };
    let mut items: Vec<Field> = (0..1676).map(entry).collect();
    let attributes = vec![
        given("a", int(1, 1)),
        given("b", text(1, "front")),
        given("price", last),
    ];
    items.push(built_in("kiosk", text(1, "front"), attributes));
    Asking {
        manifest: Manifest::new(items),
        ..part_value()
    }
}

/// "65,535 for ... output": a catalog of that length is accepted, a longer one
/// is refused 23.
#[test]
fn output() {
    tells(filling(text(7, "front").at("told")), Part::Value);
    assert_eq!(number_of(filling(int(7, 1)).case().answer()), 23);
}

/// 1 before 2, 2 before 3, and each before 27.
#[test]
fn order() {
    let short = Asking {
        memory: 65_535,
        ..part_value()
    };
    let mut case = short.case();
    assert_eq!(number_of(case.answer()), 1);
    case.manifest.clear();
    assert_eq!(number_of(case.answer()), 1);
    case.memory = 65_536;
    assert_eq!(number_of(case.answer()), 2);
    case.manifest = vec![0; 65_536];
    assert_eq!(number_of(case.answer()), 2);
    case.manifest.pop();
    assert_eq!(number_of(case.answer()), 3);
    case.memory = 70_000;
    case.manifest = vec![1, 0, 0];
    assert_eq!(number_of(case.answer()), 27);
}
