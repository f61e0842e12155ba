//! What holds of the answers to random questions.

use super::*;
use crate::answer::Answer;
use crate::case::Case;
use crate::catalog::{self, Entry};
use crate::labels::Labels;
use crate::tree::{Labelled, Name};
use crate::why_case::WhyCase;
use crate::why_generate::why_cases;
use crate::why_tally::Tally;
use crate::{compile, walk};

fn compiled(case: &WhyCase) -> (Answer, Vec<u8>) {
    let compiling = Case {
        device: case.device.clone(),
        memory: case.memory,
        ..Case::of(case.manifest.clone())
    };
    compiling.compile().expect("the bytes lent obey document 01")
}

/// The sets of the 40 and the 41 asked about.
fn sets(case: &WhyCase, catalog: &[u8]) -> Option<(Labels, Labels)> {
    let tree = compile::read(&case.manifest).ok()?;
    let kind = tree.number_of(&case.kind)?;
    let title = tree.number_of(&case.title)?;
    let attribute = tree.number_of(&case.attribute)?;
    let is_asked = |entry: &&Entry| (entry.kind, entry.title) == (kind, title);
    let entries = catalog::entries(catalog)?;
    let entry = entries.iter().find(is_asked)?;
    let is_named = |(name, _): &&(Name, Labelled)| *name == attribute;
    let (_, worth) = entry.attributes.iter().find(is_named)?;
    Some((entry.labels, worth.labels))
}

/// "27, the catalog has no such attribute; it follows all of the compile's own
/// refusals"; "'Not among them' comes back precisely when the set lacks the
/// label". A resource's set is its title's, path and trail, the first three
/// parts.
#[test]
fn answers_fit_the_catalog() {
    for case in why_cases(1, 6000) {
        let answer = case.answer();
        let (of_compile, catalog) = compiled(&case);
        if let Answer::Refused { .. } = of_compile {
            assert!(matches!(answer, Why::Refused(refusal) if of_compile == refusal.into()));
            continue;
        }
        let label = Labels::one(case.label);
        match sets(&case, &catalog) {
            None => assert_eq!(crate::why_case::why_line(&answer), "refused 27 0"),
            Some((_, set)) if !set.meets(&label) => assert_eq!(answer, Why::NotAmong),
            Some((of_resource, _)) => match answer {
                Why::Among { part, .. } => assert_eq!(part <= Part::Trail, of_resource.meets(&label)),
                other => panic!("{other:?}"),
            },
        }
    }
}

/// The place is a constant's with the label; those with the label below it were
/// not met, so that with any other label they leave the catalog as it is.
#[test]
fn lower_constants_change_nothing() {
    let mut lower = 0;
    for mut case in why_cases(2, 3000) {
        let Why::Among { place, .. } = case.answer() else {
            continue;
        };
        let before = compiled(&case);
        let with_label: Vec<usize> = walk::fields(&case.manifest)
            .iter()
            .filter(|field| field.label() == Some(case.label))
            .map(|field| field.place)
            .collect();
        assert!(with_label.contains(&usize::from(place)));
        for at in with_label.into_iter().filter(|at| *at < usize::from(place)) {
            case.manifest[at + 3] ^= 0x55;
            lower += 1;
        }
        assert_eq!(compiled(&case), before);
    }
    assert!(lower > 500, "{lower}");
}

/// Where the constants with that label have it.
fn labels_at(manifest: &[u8], label: u8) -> Vec<usize> {
    let fields = walk::fields(manifest);
    let with_label = fields.iter().filter(|field| field.label() == Some(label));
    with_label.map(|field| field.place + 3).collect()
}

/// Labels have no meaning but being equal: two that change places everywhere
/// leave the answer as it is.
#[test]
fn labels_change_places() {
    for (at, mut case) in why_cases(5, 2000).enumerate() {
        let before = case.answer();
        if matches!(before, Why::Refused(refusal) if refusal.reason as u8 != 27) {
            continue;
        }
        let (one, other) = (case.label, (at % 256) as u8);
        let of_one = labels_at(&case.manifest, one);
        for at in labels_at(&case.manifest, other) {
            case.manifest[at] = one;
        }
        for at in of_one {
            case.manifest[at] = other;
        }
        case.label = other;
        assert_eq!(case.answer(), before);
    }
}

/// Gives every constant a label of its own; nothing if there are too many.
fn labelled_apart(case: &WhyCase) -> Option<WhyCase> {
    let mut apart = case.clone();
    let fields = walk::fields(&case.manifest);
    let constants = fields.iter().filter(|field| field.label().is_some());
    for (at, constant) in constants.enumerate() {
        apart.manifest[constant.place + 3] = u8::try_from(at).ok()?;
    }
    Some(apart)
}

/// Every set is the union over constants: what is told of a label is the first
/// part of those that its constants would be told of by themselves, and no place
/// above theirs.
#[test]
fn constants_by_themselves() {
    let mut several = 0;
    for case in why_cases(6, 3000) {
        let answer = case.answer();
        let Some(mut apart) = labelled_apart(&case).filter(|_| !matches!(answer, Why::Refused(_))) else {
            continue;
        };
        let mut parts = Vec::new();
        let mut lowest = u16::MAX;
        for at in labels_at(&case.manifest, case.label) {
            apart.label = apart.manifest[at];
            if let Why::Among { part, place } = apart.answer() {
                assert_eq!(usize::from(place) + 3, at);
                parts.push(part);
                lowest = lowest.min(place);
            }
        }
        match answer {
            Why::Among { part, place } => {
                assert_eq!(Some(&part), parts.iter().min());
                assert!(place <= lowest);
            }
            _ => assert!(parts.is_empty()),
        }
        several += usize::from(parts.iter().any(|part| *part != parts[0]));
    }
    assert!(several > 300, "{several}");
}

/// Each part is told in at least one answer of a hundred; each way to be met and
/// not to be met, and each 27, occurs.
#[test]
fn every_answer_occurs() {
    let count = 6000;
    let tally = Tally::of(3, count);
    let parts = tally
        .answers
        .iter()
        .filter(|(answer, _)| answer.starts_with("among"));
    assert_eq!(parts.clone().count(), 5);
    for (part, times) in parts {
        assert!(times * 100 >= count, "{part}: {times}");
    }
    assert!(tally.answers["not among"] * 100 >= count);
    let missing = tally.answers.iter().filter(|(answer, _)| answer.contains("27"));
    assert_eq!(missing.clone().count(), 5);
    assert!(missing.clone().all(|(_, times)| times * 200 >= count));
    assert_eq!(tally.situations.len(), 8);
    assert!(tally.situations.values().all(|times| times * 100 >= tally.among));
    assert_eq!(tally.forms.len(), 11);
    assert!(tally.forms.values().all(|times| times * 5 >= tally.among));
    assert!(tally.refused.len() > 12);
}
