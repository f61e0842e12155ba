//! Random questions.

use crate::arrange::define_again;
use crate::assemble::Manifest;
use crate::compile;
use crate::generate::{damaged, whole_program};
use crate::labels::Labels;
use crate::program::{program, DEVICES};
use crate::random::Random;
use crate::shapes::shape;
use crate::walk;
use crate::why::{Part, Why};
use crate::why_case::WhyCase;
use crate::why_shapes::{counted, relabel};

/// The questions of a seed, each made by itself.
pub fn why_cases(seed: u64, count: u64) -> impl Iterator<Item = WhyCase> {
    (0..count).map(move |at| case(&mut Random::new(seed, at)))
}

/// An attribute of a catalog, by its strings.
struct Shown {
    kind: Vec<u8>,
    title: Vec<u8>,
    attribute: Vec<u8>,
    labels: Labels,
}

/// Mostly about an attribute that exists, of the fifth manifest at the latest.
fn case(random: &mut Random) -> WhyCase {
    let tries = if random.chance(60) { 0 } else { 5 };
    for _ in 0..tries {
        let manifest = some_manifest(random);
        let mut case = of(random, manifest.build().bytes);
        if is_asked(random, &mut case) {
            return case;
        }
    }
    careless(random)
}

/// Asks about an attribute of the case's catalog; false if there is none.
pub fn is_asked(random: &mut Random, case: &mut WhyCase) -> bool {
    let shown = attributes(case);
    if shown.is_empty() {
        return false;
    }
    ask(random, case, &shown);
    lend(random, case);
    true
}

/// A question about nothing yet.
pub fn of(random: &mut Random, manifest: Vec<u8>) -> WhyCase {
    let device = match random.chance(700) {
        true => "desk",
        false => random.pick(&DEVICES),
    };
    WhyCase {
        types: None,
        device: device.as_bytes().to_vec(),
        kind: Vec::new(),
        title: Vec::new(),
        attribute: Vec::new(),
        label: 0,
        memory: compile::LEAST_MEMORY,
        manifest,
    }
}

/// A manifest to ask about.
pub fn some_manifest(random: &mut Random) -> Manifest {
    match random.weighted(&[60, 28, 12]) {
        0 => counted(random),
        1 => relabelled(random, |random| program(random, 0)),
        _ => relabelled(random, shape),
    }
}

/// Mostly with few labels.
fn relabelled(random: &mut Random, make: fn(&mut Random) -> Manifest) -> Manifest {
    let mut manifest = make(random);
    if random.chance(750) {
        relabel(random, &mut manifest);
    }
    manifest
}

/// A manifest that is often refused, and strings of its table.
pub fn careless(random: &mut Random) -> WhyCase {
    let mut manifest = match random.chance(500) {
        true => whole_program(random),
        false => shape(random),
    };
    if random.chance(120) {
        define_again(random, &mut manifest);
    }
    let bytes = match random.chance(400) {
        true => damaged(random, manifest),
        false => manifest.build().bytes,
    };
    let mut case = of(random, bytes);
    case.kind = random.pick(&["kiosk", "plan", "wall"]).as_bytes().to_vec();
    case.title = string_of(random, &case.manifest);
    case.attribute = string_of(random, &case.manifest);
    case.label = random.label();
    lend(random, &mut case);
    case
}

/// Every attribute that the catalog has.
fn attributes(case: &WhyCase) -> Vec<Shown> {
    let mut shown = Vec::new();
    for resource in case.resources() {
        for (attribute, labels) in resource.attributes {
            shown.push(Shown {
                kind: resource.kind.clone(),
                title: resource.title.clone(),
                attribute,
                labels,
            });
        }
    }
    shown
}

fn ask(random: &mut Random, case: &mut WhyCase, shown: &[Shown]) {
    match random.weighted(&[75, 13, 12]) {
        0 => ask_for_part(random, case, shown),
        1 => {
            point_at(random, case, shown);
            case.label = other_label(random, &case.manifest);
        }
        _ => {
            point_at(random, case, shown);
            miss(random, case);
        }
    }
}

/// An attribute of the catalog and a label of its set.
fn point_at(random: &mut Random, case: &mut WhyCase, shown: &[Shown]) {
    let at = &shown[random.below(shown.len())];
    case.kind = at.kind.clone();
    case.title = at.title.clone();
    case.attribute = at.attribute.clone();
    let labels: Vec<u8> = at.labels.iter().collect();
    case.label = random.pick(&labels);
}

/// Looks for a question with a certain part for its answer, since a label drawn
/// at random is mostly the title's; often also for one with a constant of that
/// label below the place told.
fn ask_for_part(random: &mut Random, case: &mut WhyCase, shown: &[Shown]) {
    const PARTS: [Part; 5] = [Part::Title, Part::Path, Part::Trail, Part::Marks, Part::Value];
    let wanted = PARTS[random.weighted(&[2, 3, 3, 6, 3])];
    let with_one_below = random.chance(500);
    let mut without = None;
    for _ in 0..16 {
        point_at(random, case, shown);
        match case.answer() {
            Why::Among { part, place } if part == wanted => {
                if !with_one_below || first_with(case) < Some(usize::from(place)) {
                    return;
                }
                without = Some(case.clone());
            }
            _ => {}
        }
    }
    if let Some(without) = without {
        *case = without;
    }
}

/// The place of the first constant with the label, met or not.
fn first_with(case: &WhyCase) -> Option<usize> {
    let fields = walk::fields(&case.manifest);
    let first = fields.iter().find(|field| field.label() == Some(case.label));
    first.map(|field| field.place)
}

/// A label of some constant, in the set or not, or any label.
fn other_label(random: &mut Random, manifest: &[u8]) -> u8 {
    let fields = walk::fields(manifest);
    let labels: Vec<u8> = fields.iter().filter_map(|field| field.label()).collect();
    match labels.is_empty() || random.chance(300) {
        true => random.below(256) as u8,
        false => random.pick(&labels),
    }
}

/// Puts another string in place of type, title or attribute, one of the table
/// or none of it.
fn miss(random: &mut Random, case: &mut WhyCase) {
    let mut other = string_of(random, &case.manifest);
    if random.chance(500) {
        match random.below(3) {
            0 => other.push(b'x'),
            1 => other = b"nowhere".to_vec(),
            _ => other = Vec::new(),
        }
    }
    match random.below(3) {
        0 => case.kind = other,
        1 => case.title = other,
        _ => case.attribute = other,
    }
}

/// A string of the table; an empty one if there is none.
fn string_of(random: &mut Random, manifest: &[u8]) -> Vec<u8> {
    let fields = walk::fields(manifest);
    let strings = fields.iter().filter(|field| field.tag == 0x02);
    let strings: Vec<&[u8]> = strings.map(|field| field.own).collect();
    match strings.is_empty() {
        true => Vec::new(),
        false => random.pick(&strings).to_vec(),
    }
}

fn lend(random: &mut Random, case: &mut WhyCase) {
    if random.chance(10) {
        case.memory = random.pick(&[65_537, 70_000, 65_535, 65_535, 1, 0]);
    }
}
