//! Random cases: programs, particular shapes, and damaged ones of both.

use crate::answer::Answer;
use crate::arrange::define_again;
use crate::assemble::{table, Built, Field, Manifest, Part};
use crate::case::Case;
use crate::program::{program, DEVICES};
use crate::random::Random;
use crate::shapes::shape;

/// The cases of a seed, each made by itself.
pub fn cases(seed: u64, count: u64) -> impl Iterator<Item = Case> {
    (0..count).map(move |at| case(&mut Random::new(seed, at)))
}

fn case(random: &mut Random) -> Case {
    let mut manifest = match random.weighted(&[60, 40]) {
        0 => whole_program(random),
        _ => shape(random),
    };
    let again = random.chance(25);
    if again {
        define_again(random, &mut manifest);
    }
    let way = random.weighted(&[840, 80, 60, 15, 5]);
    let bytes = damage(random, manifest, way);
    let mut case = lend(random, Case::of(bytes));
    if again && random.chance(300) {
        case.limit = random.pick(&[0, 0, 1, 2]);
    }
    case
}

/// The bytes of a manifest, damaged in one of the ways.
pub fn damaged(random: &mut Random, manifest: Manifest) -> Vec<u8> {
    let way = random.weighted(&[0, 80, 60, 15, 5]);
    damage(random, manifest, way)
}

/// The bytes of a manifest, damaged in that way; the first is not at all.
fn damage(random: &mut Random, manifest: Manifest, way: usize) -> Vec<u8> {
    match way {
        0 => manifest.build().bytes,
        1 => damage_fields(random, manifest).build().bytes,
        2 => damage_bytes(random, manifest.build()),
        3 => damage_table(random, manifest).build().bytes,
        _ => odd_length(random, manifest.build().bytes),
    }
}

/// A program, mostly a careful one.
pub fn whole_program(random: &mut Random) -> Manifest {
    let sloppiness = match random.weighted(&[70, 15, 9, 5, 1]) {
        0 => 0,
        1 => 5,
        2 => 20,
        3 => 100,
        _ => 400,
    };
    program(random, sloppiness)
}

/// Chooses device, limit, output and memory; sometimes exactly what the case
/// needs, or one less.
pub fn lend(random: &mut Random, mut case: Case) -> Case {
    if random.chance(500) {
        case.device = random.pick(&DEVICES).as_bytes().to_vec();
    }
    case.output = random.pick(&[65_535, 65_535, 65_535, 65_536, 65_600, 70_000]);
    match random.weighted(&[80, 12, 4, 4]) {
        0 => {}
        1 => tighten(random, &mut case),
        2 => case.limit = random.below(30) as u16,
        _ => case.output = random.below(2000),
    }
    if random.chance(20) {
        case.memory = random.pick(&[65_537, 70_000, 131_072, 65_535, 65_535, 65_534, 1000, 1, 0]);
    }
    case
}

fn tighten(random: &mut Random, case: &mut Case) {
    match case.compile() {
        Ok((Answer::Catalog { length, steps }, _)) => tighten_accepted(random, case, length, steps),
        Ok((Answer::Refused { number: 7.., .. }, _)) => {
            // As many steps as the refusal needs, or one less.
            let needed = steps_needed(case);
            case.limit = needed.saturating_sub(random.pick(&[0, 1, 1]));
        }
        _ => {}
    }
}

fn tighten_accepted(random: &mut Random, case: &mut Case, length: u16, steps: u16) {
    match random.below(8) {
        0 => case.limit = steps,
        1 => case.limit = steps.saturating_sub(1),
        2 => case.limit = random.below(usize::from(steps) + 1) as u16,
        3 | 4 => case.output = usize::from(length),
        5 => case.output = usize::from(length).saturating_sub(1),
        6 => case.output = random.below(usize::from(length) + 1),
        _ => {
            case.limit = steps;
            case.output = usize::from(length);
        }
    }
}

/// The least limit that does not refuse 6, by halving.
fn steps_needed(case: &Case) -> u16 {
    let (mut low, mut high) = (0, u16::MAX);
    while low < high {
        let limit = low + (high - low) / 2;
        let tried = Case {
            limit,
            ..case.clone()
        };
        match tried.compile() {
            Ok((Answer::Refused { number: 6, .. }, _)) => low = limit + 1,
            _ => high = limit,
        }
    }
    low
}

/// Changes the tree of fields in one to three places; the lengths follow,
/// unless they are what is changed.
fn damage_fields(random: &mut Random, mut manifest: Manifest) -> Manifest {
    let strings = manifest.all_strings().len();
    for _ in 0..random.between(1, 3) {
        let total: usize = manifest.items.iter().map(count_fields).sum();
        let mut left = random.below(total);
        for item in &mut manifest.items {
            let size = count_fields(item);
            if left < size {
                if let Some(field) = nth_field(item, left) {
                    damage_field(random, field, strings);
                }
                break;
            }
            left -= size;
        }
    }
    manifest
}

fn count_fields(field: &Field) -> usize {
    let inner = field.parts.iter().map(|part| match part {
        Part::Field(inner) => count_fields(inner),
        _ => 0,
    });
    1 + inner.sum::<usize>()
}

/// The field at that position, the field itself first, then those in it.
fn nth_field(field: &mut Field, at: usize) -> Option<&mut Field> {
    let Some(mut left) = at.checked_sub(1) else {
        return Some(field);
    };
    for part in &mut field.parts {
        if let Part::Field(inner) = part {
            let size = count_fields(inner);
            if left < size {
                return nth_field(inner, left);
            }
            left -= size;
        }
    }
    None
}

const TAGS: [u8; 35] = [
    0x00, 0x01, 0x02, 0x03, 0x10, 0x11, 0x12, 0x13, 0x14, 0x15, 0x16, 0x17, 0x18, 0x19, 0x1A, 0x1B, 0x1C,
    0x20, 0x21, 0x22, 0x23, 0x24, 0x25, 0x26, 0x27, 0x28, 0x29, 0x2A, 0x30, 0x31, 0x32, 0x33, 0x34, 0x35,
    0x40,
];

fn damage_field(random: &mut Random, field: &mut Field, strings: usize) {
    let parts = field.parts.len();
    let (one, other) = (random.below(parts), random.below(parts));
    match random.below(9) {
        0 if parts > 0 => {
            field.parts.remove(one);
        }
        1 if parts > 0 => field.parts.insert(other, field.parts[one].clone()),
        2 if parts > 0 => field.parts.swap(one, other),
        3 => field.tag = random.pick(&TAGS),
        4 => {
            let length = random.pick(&[0, 1, 2, 3, 8, 9, 10, 255, 256, 65_535]);
            field.length = Some(length);
        }
        5 | 6 => name_past_table(random, field, strings),
        7 => field
            .parts
            .push(Part::Bytes(vec![random.pick(&TAGS); random.between(1, 4)])),
        _ => change_own_bytes(random, field),
    }
}

fn name_past_table(random: &mut Random, field: &mut Field, strings: usize) {
    let number = match random.below(4) {
        0 => strings.saturating_sub(1),
        1 => 65_535,
        _ => strings + random.below(3),
    };
    if let Some(part) = field.parts.iter_mut().find(|part| matches!(part, Part::Name(_))) {
        *part = Part::Bytes((number as u16).to_be_bytes().to_vec());
    }
}

fn change_own_bytes(random: &mut Random, field: &mut Field) {
    for part in &mut field.parts {
        if let Part::Bytes(bytes) = part {
            if !bytes.is_empty() {
                let at = random.below(bytes.len());
                bytes[at] = random.pick(&[0, 1, 2, 6, 7, 127, 128, 255]);
            }
        }
    }
}

/// Changes, cuts, inserts or deletes bytes, or changes a header.
fn damage_bytes(random: &mut Random, built: Built) -> Vec<u8> {
    let mut bytes = built.bytes;
    for _ in 0..random.weighted(&[0, 6, 2, 1]) {
        if bytes.is_empty() {
            break;
        }
        let at = random.below(bytes.len());
        match random.below(9) {
            0 => bytes[at] = random.below(256) as u8,
            1 => bytes[at] ^= 1 << random.below(8),
            2 => bytes.truncate(at),
            3 => bytes.insert(at, random.pick(&TAGS)),
            4 => {
                bytes.remove(at);
            }
            5 => bytes.push(random.pick(&TAGS)),
            6 => {
                let from = random.below(bytes.len());
                bytes.swap(at, from);
            }
            _ => damage_header(random, &built.fields, &mut bytes),
        }
    }
    bytes
}

fn damage_header(random: &mut Random, fields: &[(usize, u8)], bytes: &mut [u8]) {
    let (place, _) = random.pick(fields);
    if let Some([tag, high, low]) = bytes.get_mut(place..place + 3) {
        match random.below(5) {
            0 => *tag = random.pick(&TAGS),
            1 => *high = random.below(3) as u8,
            2 => *low = low.wrapping_add(1),
            3 => *low = low.wrapping_sub(1),
            _ => *low = random.below(256) as u8,
        }
    }
}

/// Strings out of order, twice the same, too long, or too many.
fn damage_table(random: &mut Random, manifest: Manifest) -> Manifest {
    let mut strings = manifest.all_strings();
    if strings.is_empty() {
        strings.push(b"only".to_vec());
    }
    let (one, other) = (random.below(strings.len()), random.below(strings.len()));
    match random.below(7) {
        0 => strings.swap(one, other),
        1 => strings.insert(other, strings[one].clone()),
        2 => {
            strings.truncate(one);
        }
        3 => strings[one] = vec![b'x'; random.between(254, 258)],
        4 => strings.insert(0, Vec::new()),
        5 => {
            strings = (0..random.between(1023, 1026))
                .map(|at| format!("{at:05}").into_bytes())
                .collect()
        }
        _ => strings[one].clear(),
    }
    manifest.with_table(table(&strings))
}

/// No bytes, or about 65,535 of them.
fn odd_length(random: &mut Random, mut bytes: Vec<u8>) -> Vec<u8> {
    match random.below(3) {
        0 => return Vec::new(),
        1 => bytes.truncate(random.below(8)),
        _ => {
            let length = random.between(65_533, 65_537);
            // Empty cases: each is a statement of 8 bytes that does nothing.
            while bytes.len() + 8 <= length {
                bytes.extend_from_slice(&[0x23, 0, 5, 0x12, 0, 2, 7, 1]);
            }
            bytes.resize(length, 0x23);
        }
    }
    bytes
}
