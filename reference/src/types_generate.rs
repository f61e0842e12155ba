//! Random cases with a list of types, of all three sorts.

use crate::any_case::AnyCase;
use crate::arrange::define_again;
use crate::assemble::Manifest;
use crate::case::Case;
use crate::compile::{LEAST_MEMORY, LONGEST_MANIFEST};
use crate::generate::{damaged, lend, whole_program};
use crate::printer::print_with_types;
use crate::random::Random;
use crate::shapes::shape;
use crate::text_answer::LONGEST;
use crate::text_case::{Call, TextCase};
use crate::text_generate::{self, any_text};
use crate::text_trees::{repair, spoil, unrepaired};
use crate::types::{list_of, names_of, Types};
use crate::types_faults::faulty_list;
use crate::types_lists::good_list;
use crate::types_shapes::{rename, shaped};
use crate::types_words::{Used, Word};
use crate::why_case::WhyCase;
use crate::why_generate::{self, careless, is_asked, some_manifest};

/// The cases of a seed, each made by itself.
pub fn types_cases(seed: u64, count: u64) -> impl Iterator<Item = AnyCase> {
    (0..count).map(move |at| case(&mut Random::new(seed, at)))
}

/// About a tenth of the lists are faulty.
fn case(random: &mut Random) -> AnyCase {
    let case = match random.weighted(&[40, 22, 18, 20]) {
        0 => AnyCase::Compile(compiling(random)),
        1 => AnyCase::Text(converting(random)),
        2 => AnyCase::Text(printing(random)),
        _ => AnyCase::Why(asking(random)),
    };
    match random.chance(110) {
        true => with_faulty_list(random, case),
        false => case,
    }
}

/// A manifest and a good list for it.
fn listed(random: &mut Random, make: fn(&mut Random) -> Manifest) -> (Manifest, Vec<u8>) {
    let mut manifest = match random.weighted(&[45, 35, 20]) {
        0 => {
            let (manifest, names) = shaped(random);
            if random.chance(850) {
                return (manifest, list_of(&names));
            }
            manifest
        }
        1 => make(random),
        _ => {
            let manifest = make(random);
            return with_own_list(random, manifest);
        }
    };
    rename(random, &mut manifest);
    with_own_list(random, manifest)
}

fn with_own_list(random: &mut Random, manifest: Manifest) -> (Manifest, Vec<u8>) {
    let used = Used::by_manifest(&manifest.build().bytes);
    let list = good_list(random, &used);
    (manifest, list)
}

fn compiling(random: &mut Random) -> Case {
    let make = |random: &mut Random| match random.chance(600) {
        true => whole_program(random),
        false => shape(random),
    };
    let (mut manifest, list) = listed(random, make);
    if random.chance(25) {
        define_again(random, &mut manifest);
    }
    let bytes = match random.chance(70) {
        true => damaged(random, manifest),
        false => manifest.build().bytes,
    };
    let case = Case {
        types: Some(list),
        ..Case::of(bytes)
    };
    lend(random, case)
}

fn printing(random: &mut Random) -> TextCase {
    let (mut manifest, mut list) = listed(random, unrepaired);
    if random.chance(900) {
        repair_by(random, &mut manifest, &list);
    }
    if random.chance(200) {
        // It prints with the former list, and mostly not with this one.
        (manifest, list) = with_own_list(random, manifest);
    }
    for _ in 0..random.weighted(&[70, 25, 5]) {
        spoil(random, &mut manifest);
    }
    let bytes = match random.chance(70) {
        true => damaged(random, manifest),
        false => manifest.build().bytes,
    };
    lent(random, Call::Print, list, bytes)
}

/// Makes the manifest one that prints with the list.
fn repair_by(random: &mut Random, manifest: &mut Manifest, list: &[u8]) {
    if let Ok(types) = Types::of(Some(list)) {
        repair(random, manifest, &types);
    }
}

/// Often a text that was printed with the same list.
fn converting(random: &mut Random) -> TextCase {
    if random.chance(500) {
        let (mut manifest, list) = listed(random, unrepaired);
        repair_by(random, &mut manifest, &list);
        let printed = print_with_types(Some(&list), &manifest.build().bytes, LONGEST, LEAST_MEMORY);
        if let Ok(text) = printed {
            let list = match random.chance(700) {
                true => list,
                false => good_list(random, &Used::by_text(&text)),
            };
            return lent(random, Call::Convert, list, text);
        }
    }
    let text = any_text(random);
    let list = good_list(random, &Used::by_text(&text));
    lent(random, Call::Convert, list, text)
}

fn lent(random: &mut Random, call: Call, list: Vec<u8>, bytes: Vec<u8>) -> TextCase {
    let mut case = TextCase {
        types: Some(list),
        ..TextCase::of(call, bytes)
    };
    text_generate::lend(random, &mut case);
    case
}

/// Mostly about an attribute that exists, of the fifth manifest at the latest.
fn asking(random: &mut Random) -> WhyCase {
    let tries = if random.chance(60) { 0 } else { 5 };
    for _ in 0..tries {
        let (manifest, list) = listed(random, some_manifest);
        let mut case = why_generate::of(random, manifest.build().bytes);
        case.types = Some(list);
        if is_asked(random, &mut case) {
            return case;
        }
    }
    let mut case = careless(random);
    case.types = Some(good_list(random, &Used::by_manifest(&case.manifest)));
    case
}

/// A list that breaks a rule in place of a good one, sometimes with what is
/// refused before it or right behind it.
fn with_faulty_list(random: &mut Random, case: AnyCase) -> AnyCase {
    let names: Vec<Word> = match case.types().map(names_of) {
        Some(Ok(names)) => names.into_iter().map(|name| name.to_vec()).collect(),
        _ => vec![b"kiosk".to_vec()],
    };
    let mut case = case.with_types(Some(faulty_list(random, &names)));
    if random.chance(150) {
        let bytes = refused_next(random, case.call());
        case = case.with_bytes(bytes);
    }
    if random.chance(60) {
        let [output, _] = case.lengths();
        case = case.with_lengths([output, random.pick(&[65_535, 65_535, 1, 0])]);
    }
    case
}

/// A manifest that is refused 2, or a text that is refused 24.
fn refused_next(random: &mut Random, call: &str) -> Vec<u8> {
    match (call, random.chance(100)) {
        ("convert", true) => vec![b' '; LONGEST + random.between(1, 3)],
        ("convert", false) => random
            .pick(&["}", "$x = ", "kiosk { a: b }", "A", "kiosk[a]"])
            .into(),
        (_, true) => vec![0x01; LONGEST_MANIFEST + random.between(1, 3)],
        (_, false) => Vec::new(),
    }
}
