//! Random manifests for the printer: trees of every form, the random programs
//! and shapes made printable, and faults put into them again.

use crate::assemble::*;
use crate::generate::whole_program;
use crate::lexer::is_name;
use crate::random::Random;
use crate::shapes::shape;
use crate::text_random::{some_name, some_string};
use crate::types::Types;

const NAMES: [&str; 10] = [
    "fee", "price", "open", "title", "a", "b", "x9", "y_z", "in", "unless",
];
const KINDS: [&str; 8] = [
    "kiosk", "tablet", "printer", "scanner", "gate", "screen", "plan", "wall",
];

/// A manifest that the printer accepts, if its text is short enough.
pub fn printable(random: &mut Random) -> Manifest {
    let mut manifest = unrepaired(random);
    repair(random, &mut manifest, &Types::eight());
    if random.chance(200) {
        manifest = manifest.with(some_string(random));
    }
    manifest
}

/// A manifest of every form, a program or a shape, printable or not.
pub fn unrepaired(random: &mut Random) -> Manifest {
    match random.weighted(&[60, 25, 15]) {
        0 => any_tree(random),
        1 => whole_program(random),
        _ => shape(random),
    }
}

/// A manifest of every form, in which anything may stand where the fields let
/// it.
fn any_tree(random: &mut Random) -> Manifest {
    let count = random.weighted(&[1, 8, 8, 6, 4, 2]);
    let items = (0..count).map(|_| any_item(random));
    Manifest::new(items.collect())
}

fn any_name(random: &mut Random) -> Vec<u8> {
    match random.below(8) {
        0 => some_name(random),
        1 => random.pick(&KINDS).into(),
        _ => random.pick(&NAMES).into(),
    }
}

fn any_item(random: &mut Random) -> Field {
    match random.weighted(&[10, 3, 2, 3]) {
        0 => any_statement(random, 0),
        1 => {
            let node = Field::new(0x30);
            let node = match random.chance(300) {
                true => node.field(default()),
                false => {
                    let count = random.between(1, 3);
                    node.fields((0..count).map(|_| Field::new(0x31).name(some_string(random))))
                }
            };
            node.field(block(any_block(random, 0)))
        }
        2 => {
            let (name, parameters) = (any_name(random), any_parameters(random));
            type_definition(name, parameters, any_block(random, 0))
        }
        _ => {
            let (name, parameters) = (any_name(random), any_parameters(random));
            let above = random.chance(500).then(|| parent(any_name(random)));
            class_definition(name, above, parameters, any_block(random, 0))
        }
    }
}

fn any_parameters(random: &mut Random) -> Vec<Field> {
    let one = |random: &mut Random| {
        let name = any_name(random);
        let default = random.chance(500).then(|| any_constant(random));
        parameter(name, default)
    };
    (0..random.weighted(&[3, 3, 2, 1])).map(|_| one(random)).collect()
}

fn any_block(random: &mut Random, nesting: usize) -> Vec<Field> {
    (0..random.weighted(&[3, 4, 2, 1]))
        .map(|_| any_statement(random, nesting + 1))
        .collect()
}

fn any_statement(random: &mut Random, nesting: usize) -> Field {
    let conditions = usize::from(nesting < 5);
    match random.weighted(&[6, 3 * conditions, 2 * conditions, 5, 2, 2]) {
        0 => assign(any_name(random), any_expression(random, 4)),
        1 => {
            let test = any_expression(random, 2);
            let then = any_block(random, nesting);
            if_else(test, then, any_block(random, nesting))
        }
        2 => {
            let test = any_expression(random, 2);
            let arms = (0..random.below(4))
                .map(|_| (any_pattern(random), any_block(random, nesting)))
                .collect();
            case(test, arms)
        }
        3 => {
            let kind = any_name(random);
            let title = any_expression(random, 2);
            built_in(kind, title, any_attributes(random))
        }
        4 => class_with(any_name(random), any_attributes(random)),
        _ => include(any_name(random)),
    }
}

fn any_attributes(random: &mut Random) -> Vec<Field> {
    (0..random.weighted(&[2, 3, 2, 1]))
        .map(|_| given(any_name(random), any_expression(random, 3)))
        .collect()
}

fn any_expression(random: &mut Random, budget: usize) -> Field {
    let composed = usize::from(budget > 0);
    match random.weighted(&[4, 3, 1, 1, 8 * composed, 2 * composed, composed, 4 * composed]) {
        0 => any_constant(random),
        1 => var(any_name(random)),
        2 => top_var(any_name(random)),
        3 => class_var(any_name(random), any_name(random)),
        4 => {
            let left = any_expression(random, budget - 1);
            let operator = random.below(7) as u8;
            binary(operator, left, any_expression(random, budget - 1))
        }
        5 => not(any_expression(random, budget - 1)),
        6 => {
            let (kind, attribute) = (any_name(random), any_name(random));
            attribute_of(kind, attribute, any_expression(random, budget - 1))
        }
        _ => {
            let scrutinee = any_expression(random, budget - 1);
            let arms = (0..random.between(1, 3))
                .map(|_| (any_pattern(random), any_expression(random, budget - 1)))
                .collect();
            select(scrutinee, arms)
        }
    }
}

fn any_pattern(random: &mut Random) -> Field {
    match random.chance(300) {
        true => default(),
        false => any_constant(random),
    }
}

fn any_constant(random: &mut Random) -> Field {
    match random.below(5) {
        0 => int(0, random.pick(&[i64::MIN, i64::MAX, 0, -1, -7])),
        1 => int(0, random.below(50) as i64 - 10),
        2 | 3 => text(0, some_string(random)),
        _ => boolean(0, random.chance(500)),
    }
}

/// Calls for every field, by rising offset.
pub fn each(fields: &mut [Field], call: &mut impl FnMut(&mut Field)) {
    for field in fields {
        each_in(field, call);
    }
}

fn each_in(field: &mut Field, call: &mut impl FnMut(&mut Field)) {
    call(field);
    for part in &mut field.parts {
        if let Part::Field(inner) = part {
            each_in(inner, call);
        }
    }
}

/// The label of a constant.
fn label_of(field: &mut Field) -> Option<&mut u8> {
    match (field.tag, field.parts.first_mut()) {
        (0x10..=0x12, Some(Part::Bytes(bytes))) => bytes.first_mut(),
        _ => None,
    }
}

/// The names that must be spelled bare.
fn names_of(field: &mut Field) -> Vec<&mut Vec<u8>> {
    if matches!(field.tag, 0x11 | 0x31) {
        return Vec::new();
    }
    let names = field.parts.iter_mut().filter_map(|part| match part {
        Part::Name(name) => Some(name),
        _ => None,
    });
    names.collect()
}

/// Makes labels rise, names spellable, and 25 and 27 what their type asks for.
pub fn repair(random: &mut Random, manifest: &mut Manifest, types: &Types) {
    let mut count = 0;
    each(&mut manifest.items, &mut |field| {
        count += usize::from(label_of(field).is_some())
    });
    let mut labels = rising(random, count).into_iter();
    each(&mut manifest.items, &mut |field| {
        if let Some(label) = label_of(field) {
            *label = labels.next().unwrap_or(255);
        }
        for name in names_of(field) {
            if !is_name(name) {
                *name = b"other".to_vec();
            }
        }
        if matches!(field.tag, 0x25 | 0x27) {
            let built_in = names_of(field).first().is_some_and(|name| types.holds(name));
            field.tag = if built_in { 0x25 } else { 0x27 };
        }
    });
}

/// So many labels, none below the one before it.
fn rising(random: &mut Random, count: usize) -> Vec<u8> {
    let (first, most) = random.pick(&[
        (0, 0),
        (0, 1),
        (0, 2),
        (0, 3),
        (3, 1),
        (200, 2),
        (254, 1),
        (255, 0),
    ]);
    let mut label = first;
    let mut labels = Vec::with_capacity(count);
    for _ in 0..count {
        labels.push(label);
        label = (label + random.below(most + 1) * random.below(2)).min(255);
    }
    if random.chance(50) {
        labels = labels.iter().map(|_| random.below(256)).collect();
        labels.sort_unstable();
    }
    labels.into_iter().map(|label| label as u8).collect()
}

/// Puts one fault that 26 names somewhere into the tree.
pub fn spoil(random: &mut Random, manifest: &mut Manifest) {
    match random.below(4) {
        0 => lower_label(random, manifest),
        1 | 2 => spoil_name(random, manifest),
        _ => spoil_kind(random, manifest),
    }
}

/// The position of one of the fields for which this is true.
fn any_position(
    random: &mut Random,
    manifest: &mut Manifest,
    mut fits: impl FnMut(&mut Field) -> bool,
) -> Option<usize> {
    let mut positions = Vec::new();
    let mut at = 0;
    each(&mut manifest.items, &mut |field| {
        if fits(field) {
            positions.push(at);
        }
        at += 1;
    });
    (!positions.is_empty()).then(|| random.pick(&positions))
}

fn change(manifest: &mut Manifest, position: Option<usize>, mut call: impl FnMut(&mut Field)) {
    let mut at = 0;
    each(&mut manifest.items, &mut |field| {
        if Some(at) == position {
            call(field);
        }
        at += 1;
    });
}

fn lower_label(random: &mut Random, manifest: &mut Manifest) {
    let mut before = 0;
    let position = any_position(random, manifest, |field| match label_of(field) {
        Some(label) => std::mem::replace(&mut before, *label) > 0,
        None => false,
    });
    let by = random.pick(&[1, 2, 255]);
    let mut before = 0;
    let mut at = 0;
    each(&mut manifest.items, &mut |field| {
        if let Some(label) = label_of(field) {
            if Some(at) == position {
                *label = u8::saturating_sub(before, by);
            }
            before = *label;
        }
        at += 1;
    });
}

fn spoil_name(random: &mut Random, manifest: &mut Manifest) {
    let position = any_position(random, manifest, |field| !names_of(field).is_empty());
    let wrong: Vec<u8> = match random.below(4) {
        0 => Vec::new(),
        1 => random
            .pick(&["if", "true", "default", "and", "inherits", "node"])
            .into(),
        2 => some_string(random),
        _ => random
            .pick(&["Fee", "a-b", "a::b", "_x", "9a", "a ", " a", "a\n", "é", "$a"])
            .into(),
    };
    let pick = random.below(2);
    change(manifest, position, |field| {
        let mut names = names_of(field);
        let at = pick.min(names.len().saturating_sub(1));
        if let Some(name) = names.get_mut(at) {
            name.clone_from(&wrong);
        }
    });
}

fn spoil_kind(random: &mut Random, manifest: &mut Manifest) {
    let position = any_position(random, manifest, |field| matches!(field.tag, 0x25 | 0x27));
    change(manifest, position, |field| field.tag ^= 0x25 ^ 0x27);
}

/// A manifest whose printed text has 65,534 to 65,537 bytes.
pub fn long_text(random: &mut Random) -> Manifest {
    let mut left = random.between(65_534, 65_537);
    let mut items = Vec::new();
    if random.chance(500) {
        // A string of so many bytes, two for each of those that are escaped.
        // The label is as many line feeds before it.
        let (label, string) = (random.pick(&[0, 1, 255]), random.pick(&["ab", "\n\\", "'x"]));
        items.push(assign("x", text(label, string)));
        let escaped = string.bytes().filter(|byte| b"\n\\'".contains(byte)).count();
        left -= usize::from(label) + "$x = ''\n".len() + string.len() + escaped;
    }
    // Of an include 9 bytes are no name: the word, a space, and what stands
    // behind the name.
    let statement = |length: usize| include("n".repeat(length - 9));
    while left > 2 * 264 {
        items.push(statement(264));
        left -= 264;
    }
    items.push(statement(left / 2));
    items.push(statement(left - left / 2));
    Manifest::new(items)
}
