//! What holds of random cases with a list.

use super::*;
use crate::any_case::AnyAnswer;
use crate::assemble::Manifest;
use crate::generate::{cases, whole_program};
use crate::random::Random;
use crate::text_case::{Call, TextCase};
use crate::text_generate::text_cases;
use crate::text_trips::spelled;
use crate::types::{list_of, list_of_eight, names_of, Fault};
use crate::types_generate::types_cases;
use crate::types_named::compiling;
use crate::types_shapes::exchange;
use crate::types_tally::Tally;
use crate::types_words::Used;
use crate::why_generate::why_cases;

/// "Not lending a list ... means the eight", and so does lending them.
#[test]
fn the_eight_as_a_list() {
    let compiles = cases(21, 1500).map(AnyCase::Compile);
    let texts = text_cases(22, 1500).map(AnyCase::Text);
    let questions = why_cases(23, 1500).map(AnyCase::Why);
    for case in compiles.chain(texts).chain(questions) {
        let listed = case.with_types(Some(list_of_eight()));
        assert_eq!(listed.answer(), case.answer(), "{}", listed.line());
    }
}

/// The names of the list that the manifest or text has too.
fn present(case: &AnyCase) -> Option<Vec<Vec<u8>>> {
    let names = names_of(case.types()?).ok()?;
    let used = match case.call() {
        "convert" => Used::by_text(case.bytes()),
        _ => Used::by_manifest(case.bytes()),
    };
    let has = |name: &&&[u8]| {
        let words = [
            &used.built_in,
            &used.resources,
            &used.read,
            &used.defined,
            &used.others,
        ];
        words.into_iter().any(|words| words.contains(**name))
    };
    let present: Vec<Vec<u8>> = names.iter().filter(has).map(|name| name.to_vec()).collect();
    (!present.is_empty() && present.len() < names.len()).then_some(present)
}

/// "A type of the list that the manifest's table lacks has no effect."
#[test]
fn types_that_the_table_lacks() {
    let mut shorter = 0;
    for case in types_cases(24, 4000) {
        if let Some(present) = present(&case) {
            let other = case.with_types(Some(list_of(&present)));
            assert_eq!(other.answer(), case.answer(), "{}", case.line());
            shorter += 1;
        }
    }
    assert!(shorter > 1500, "{shorter}");
}

/// The eight with the booth for the kiosk: names of types mean nothing by
/// themselves. Both words have five letters, so that places stay.
#[test]
fn another_word_for_the_kiosk() {
    let names = [
        "booth", "gate", "plan", "printer", "scanner", "screen", "tablet", "wall",
    ];
    for at in 0..1500 {
        let manifest = whole_program(&mut Random::new(25, at));
        let mut other: Manifest = manifest.clone();
        exchange(&mut other, b"kiosk", b"booth");
        let by_eight = compiling(list_of_eight(), manifest).answer();
        let by_list = compiling(list_of(&names), other).answer();
        match (by_eight, by_list) {
            (Ok(AnyAnswer::Compile(one, _)), Ok(AnyAnswer::Compile(other, _))) => assert_eq!(one, other),
            other => panic!("{other:?}"),
        }
    }
}

/// "Converting that text gives a tree equal to the first", with the same list.
#[test]
fn there_and_back() {
    let mut trees = 0;
    for case in types_cases(26, 6000) {
        let AnyCase::Text(case) = case else { continue };
        let (Call::Print, Ok(text)) = (case.call, case.answer()) else {
            continue;
        };
        let back = TextCase {
            types: case.types.clone(),
            ..TextCase::converting(text)
        };
        let again = back.answer().expect("a text that was printed");
        assert_eq!(spelled(&again), spelled(&case.bytes), "{}", case.line());
        trees += 1;
    }
    assert!(trees > 400, "{trees}");
}

/// A faulty list is 28 at its fault, unless the memory is too short, whatever
/// else the case holds.
#[test]
fn faulty_lists() {
    let mut faulty_ones = 0;
    for case in types_cases(27, 8000) {
        let Some(Err(faulty)) = case.types().map(names_of) else {
            continue;
        };
        match case.lengths()[1] {
            ..65_536 => refuses(&case, 1, 0),
            _ => refuses(&case, 28, usize::from(faulty.place)),
        }
        faulty_ones += 1;
    }
    assert!((500..1500).contains(&faulty_ones), "{faulty_ones}");
}

/// Every reason of 28 in every call, and all that lists decide, occurs.
#[test]
fn every_answer_occurs() {
    let tally = Tally::of(3, 12_000).expect("clean");
    let times = |call: &'static str, thing: &'static str| tally.things.get(&(call, thing)).copied();
    for call in ["compile", "convert", "print", "why"] {
        assert!(tally.answers[&(call, 0)] > 800, "{call}");
        for fault in Fault::ALL {
            let words = fault.words();
            assert!(times(call, words) >= Some(5), "{call}, {words}");
        }
        for thing in [
            "1 with a faulty list",
            "28 behind the first field",
            "accepted with a list of 1 name",
            "accepted with a list of 64 names",
        ] {
            assert!(times(call, thing) >= Some(8), "{call}, {thing}");
        }
    }
    for (call, thing) in [
        ("compile", "28 where 2 would follow"),
        ("convert", "28 where 24 would follow"),
        ("compile", "8 at a listed type"),
        ("compile", "9 at a 25 of one of the eight that the list lacks"),
        ("compile", "9 at a 27 of a listed type"),
        ("compile", "9 at a read of one of the eight that the list lacks"),
        (
            "compile",
            "accepted, one of the eight defined that the list lacks",
        ),
        ("why", "accepted, one of the eight defined that the list lacks"),
        ("convert", "a convert whose tags are others by the eight"),
        ("print", "26 by the list"),
    ] {
        assert!(times(call, thing) >= Some(40), "{call}, {thing}");
    }
}
