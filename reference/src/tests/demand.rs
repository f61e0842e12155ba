//! Demand 3 on random pairs, and what is asked of the random cases.

use super::*;
use crate::assemble::Part;
use crate::catalog::{entries, Entry};
use crate::generate::{cases, whole_program};
use crate::labels::Labels;
use crate::modes::Tally;
use crate::random::Random;
use crate::shapes::shape;

/// The label of a constant.
fn label_of(field: &Field) -> Option<u8> {
    match field.parts.first() {
        Some(Part::Bytes(bytes)) if matches!(field.tag, 0x10..=0x12) => bytes.first().copied(),
        _ => None,
    }
}

fn each_constant(field: &mut Field, change: &mut dyn FnMut(&mut Field)) {
    if label_of(field).is_some() {
        change(field);
    }
    for part in &mut field.parts {
        if let Part::Field(inner) = part {
            each_constant(inner, change);
        }
    }
}

fn other_constant(random: &mut Random, label: u8, strings: &[Vec<u8>]) -> Field {
    match random.below(4) {
        0 => text(label, random.pick(strings)),
        1 | 2 => boolean(label, random.chance(500)),
        _ => int(label, random.below(12) as i64 - 2),
    }
}

/// The same tree and table with some constants of other kinds or values, and
/// the labels of those that differ.
pub fn edited(random: &mut Random, manifest: &Manifest) -> (Manifest, Labels) {
    let mut other = manifest.clone();
    other.strings = manifest.all_strings();
    let strings = other.strings.clone();
    let mut differing = Labels::EMPTY;
    let chosen = random.label();
    let rarely = random.pick(&[0, 0, 30, 100]);
    for item in &mut other.items {
        each_constant(item, &mut |field| {
            let label = label_of(field).unwrap_or(0);
            if label != chosen && !random.chance(rarely) {
                return;
            }
            // Mostly a value of the same kind, so that both are accepted.
            let new = match field.tag {
                0x12 if random.chance(700) => boolean(label, random.chance(500)),
                0x10 if random.chance(700) => int(label, random.below(60) as i64 - 10),
                0x11 if random.chance(700) => text(label, random.pick(&strings)),
                _ => other_constant(random, label, &strings),
            };
            if format!("{new:?}") != format!("{field:?}") {
                differing.join(Labels::one(label));
                *field = new;
            }
        });
    }
    (other, differing)
}

pub fn accepted(manifest: &Manifest) -> Option<Vec<Entry>> {
    match Case::of(manifest.build().bytes).compile() {
        Ok((Answer::Catalog { .. }, bytes)) => entries(&bytes),
        _ => None,
    }
}

/// The sentence of demand 3 for one pair.
pub fn promise_holds(first: &[Entry], second: &[Entry], differing: &Labels) -> bool {
    let same = |a: &Entry, b: &Entry| a.kind == b.kind && a.title == b.title;
    first.iter().all(|entry| {
        let opposite: Vec<&Entry> = second.iter().filter(|other| same(entry, other)).collect();
        let resource =
            entry.labels.meets(differing) || matches!(opposite[..], [other] if other.labels == entry.labels);
        let attributes = entry.attributes.iter().all(|(name, worth)| {
            let there: Vec<_> = opposite
                .iter()
                .flat_map(|other| &other.attributes)
                .filter(|(other, _)| other == name)
                .collect();
            worth.labels.meets(differing) || matches!(there[..], [(_, other)] if other == worth)
        });
        resource && attributes
    })
}

/// Demand 3: each resource and attribute whose set holds no label of a
/// differing constant is in the other catalog, the same.
#[test]
fn demand_3_on_random_pairs() {
    let (mut pairs, mut both, mut telling) = (0, 0, 0);
    for at in 0..2500 {
        let mut random = Random::new(33, at);
        let manifest = if random.chance(600) {
            whole_program(&mut random)
        } else {
            shape(&mut random)
        };
        let Some(first) = accepted(&manifest) else {
            continue;
        };
        for _ in 0..4 {
            let (other, differing) = edited(&mut random, &manifest);
            pairs += 1;
            let Some(second) = accepted(&other) else {
                continue;
            };
            both += 1;
            telling += u32::from(differing != Labels::EMPTY);
            assert!(
                promise_holds(&first, &second, &differing),
                "case {at}: {differing:?}\n{manifest:?}\n{other:?}"
            );
        }
    }
    assert!(
        both > pairs / 2 && telling > 1000,
        "{pairs} pairs, {both} both accepted, {telling} differ"
    );
}

/// What is asked of the random cases: every refusal occurs, 40% or more are
/// accepted, most of those with entries and several labels.
#[test]
fn random_cases_reach_every_outcome() {
    let tally = Tally::of(1, 5000).expect("the bytes lent obey document 01");
    for (number, times) in tally.refused.iter().enumerate().skip(1) {
        assert!(*times > 0, "no case is refused {number}");
    }
    assert!(tally.accepted >= 2000, "{} of 5,000 accepted", tally.accepted);
    assert!(tally.with_entries * 10 >= tally.accepted * 9);
    assert!(tally.with_several_labels * 10 >= tally.accepted * 8);
}

/// A seed always gives the same cases; another seed gives others.
#[test]
fn random_cases_are_determined_by_the_seed() {
    let lines = |seed: u64| cases(seed, 50).map(|case| case.line()).collect::<Vec<_>>();
    assert_eq!(lines(7), lines(7));
    assert_ne!(lines(7), lines(8));
}

/// Bytes of no meaning: never a panic, always an answer with clean bytes.
#[test]
fn random_bytes() {
    for at in 0..3000 {
        let mut random = Random::new(99, at);
        let length = random.below(40);
        let mut bytes: Vec<u8> = (0..length)
            .map(|_| random.pick(&[0, 1, 2, 3, 0x10, 0x21, 0x20, 0x12, 0x30, 255]))
            .collect();
        if random.chance(500) {
            let mut with_table = vec![1, 0, 4, 2, 0, 1, b'a'];
            with_table.append(&mut bytes);
            bytes = with_table;
        }
        let answer = Case::of(bytes).compile().expect("clean").0;
        assert!(matches!(
            answer,
            Answer::Catalog { .. } | Answer::Refused { number: 2..=23, .. }
        ));
    }
}
