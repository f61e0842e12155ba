//! Where the definitions of a random manifest stand: desk files "are joined in
//! any order" (document 02). And names defined again.

use crate::assemble::*;
use crate::program::KINDS;
use crate::random::Random;

pub fn is_definition(item: &Field) -> bool {
    matches!(item.tag, 0x32 | 0x34)
}

/// Leaves the definitions where they were made, mostly in front, or puts them
/// behind all that uses them, or anywhere. The other items keep their order.
pub fn arrange(random: &mut Random, manifest: &mut Manifest) {
    match random.weighted(&[30, 15, 10, 45]) {
        0 => {}
        1 => {
            let mut definitions = take_definitions(manifest);
            random.shuffle(&mut definitions);
            manifest.items.extend(definitions);
        }
        2 => {
            let definitions = take_definitions(manifest);
            manifest.items.extend(definitions.into_iter().rev());
        }
        _ => scatter(random, manifest),
    }
}

/// Puts each definition anywhere.
pub fn scatter(random: &mut Random, manifest: &mut Manifest) {
    for definition in take_definitions(manifest) {
        insert(random, manifest, definition);
    }
}

fn take_definitions(manifest: &mut Manifest) -> Vec<Field> {
    let items = std::mem::take(&mut manifest.items);
    let (definitions, others) = items.into_iter().partition(is_definition);
    manifest.items = others;
    definitions
}

fn insert(random: &mut Random, manifest: &mut Manifest, item: Field) {
    let at = random.between(0, manifest.items.len());
    manifest.items.insert(at, item);
}

/// Makes a manifest that is refused 8, often though a statement in front would
/// be refused by itself, and sometimes for a second reason.
pub fn define_again(random: &mut Random, manifest: &mut Manifest) {
    for _ in 0..random.weighted(&[0, 4, 1]) {
        let again = another_definition(random, manifest);
        match random.below(4) {
            0 => manifest.items.insert(0, again),
            1 => manifest.items.push(again),
            _ => insert(random, manifest, again),
        }
    }
    match random.below(5) {
        0 => manifest.items.insert(0, assign("refused", var("unset"))),
        1 => manifest.items.insert(0, include("unset")),
        _ => {}
    }
}

/// A class or a type whose name is a built-in type's or is defined already, by
/// either sort.
fn another_definition(random: &mut Random, manifest: &mut Manifest) -> Field {
    let name = match random.chance(300) {
        true => random.pick(&KINDS).into(),
        false => defined_name(random, manifest),
    };
    match random.chance(500) {
        true => class_definition(name, None, vec![], vec![]),
        false => type_definition(name, vec![], vec![]),
    }
}

/// A name that the manifest defines, if need be from now on.
fn defined_name(random: &mut Random, manifest: &mut Manifest) -> Vec<u8> {
    let definitions = manifest.items.iter().filter(|item| is_definition(item));
    let names: Vec<Vec<u8>> = definitions.filter_map(name_of).collect();
    if !names.is_empty() {
        return random.pick(&names);
    }
    let name = "twofold";
    insert(random, manifest, class_definition(name, None, vec![], vec![]));
    name.into()
}

fn name_of(definition: &Field) -> Option<Vec<u8>> {
    match definition.parts.first() {
        Some(Part::Name(name)) => Some(name.clone()),
        _ => None,
    }
}
