//! Which constants a compile meets, seen from outside: the manifest is changed so
//! that it is refused 13 at a certain place precisely if it meets the constant.

use crate::answer::{Answer, Place};
use crate::assemble::*;
use crate::case::Case;
use crate::catalog::Entry;
use crate::labels::Labels;
use crate::program::program;
use crate::random::Random;
use crate::tree::{Constant, Name};
use crate::types::Types;
use crate::watch::{Origin, Watch};
use crate::why_shapes::counted;
use crate::{compile, machine};
use std::cell::RefCell;
use std::collections::BTreeSet;

/// Notes every constant met.
#[derive(Default)]
struct Notes {
    met: RefCell<BTreeSet<Place>>,
}

impl Watch for Notes {
    fn constant(&self, constant: &Constant) {
        self.met.borrow_mut().insert(constant.place);
    }
    fn read(&self, _: Labels) {}
    fn attribute(&self, _: Name) {}
    fn resource(&self, _: &Entry, _: Origin) {}
}

/// The constants met; nothing if the manifest is refused.
fn met(manifest: &[u8]) -> Option<BTreeSet<Place>> {
    let notes = Notes::default();
    let tree = compile::read(manifest).ok()?;
    let mut out = vec![0; 65_535];
    machine::run(&tree, &Types::eight(), b"desk", u16::MAX, &mut out, &notes).ok()?;
    Some(notes.met.take())
}

/// The fields that a field holds, in order.
fn inside(field: &mut Field) -> impl Iterator<Item = &mut Field> {
    field.parts.iter_mut().filter_map(|part| match part {
        Part::Field(inner) => Some(inner),
        _ => None,
    })
}

/// What is refused 13 at the mark "here" as soon as it is evaluated.
fn refusing() -> Field {
    var("without a value").at("here")
}

/// Gives a constant the mark "here", or changes the manifest so that it is
/// refused at that mark precisely if it would meet the constant. The number
/// counts the constants of one role; the answer tells whether there is one.
type Change = fn(&mut Manifest, usize, bool) -> bool;

/// Calls back with every constant that stands as an expression, in order.
fn each_expression(field: &mut Field, visit: &mut impl FnMut(&mut Field)) {
    let around = field.tag;
    for (at, inner) in inside(field).enumerate() {
        let is_pattern = matches!(around, 0x1A | 0x24) && at == 0;
        match inner.tag {
            0x10..=0x12 if is_pattern || around == 0x33 => {}
            0x10..=0x12 => visit(inner),
            _ => each_expression(inner, visit),
        }
    }
}

/// An expression is replaced by a variable without a value.
fn change_expression(manifest: &mut Manifest, number: usize, replace: bool) -> bool {
    let mut at = 0;
    for item in &mut manifest.items {
        each_expression(item, &mut |constant| {
            if at == number {
                match replace {
                    true => *constant = refusing(),
                    false => constant.mark = Some("here"),
                }
            }
            at += 1;
        });
    }
    at > number
}

/// Calls back with every case and selector, in order.
fn each_choice(field: &mut Field, visit: &mut impl FnMut(&mut Field)) {
    if matches!(field.tag, 0x19 | 0x23) {
        visit(field);
    }
    inside(field).for_each(|inner| each_choice(inner, visit));
}

fn pattern_of(arm: &mut Field) -> Option<&mut Field> {
    let is_arm = matches!(arm.tag, 0x1A | 0x24);
    inside(arm).next().filter(|_| is_arm)
}

/// Of the arms only the constants before that one stay, and a default that is
/// refused: it is reached precisely if none of them matches.
fn cut_short(choice: &mut Field, arm: usize) {
    let selector = choice.tag == 0x19;
    choice.parts.truncate(arm);
    choice.parts.retain_mut(|part| match part {
        Part::Field(arm) => pattern_of(arm).is_none_or(|pattern| pattern.tag != 0x1B),
        _ => true,
    });
    let last = match selector {
        true => Field::new(0x1A).field(default()).field(refusing()),
        false => {
            let refused = block(vec![case(refusing(), vec![])]);
            Field::new(0x24).field(default()).field(refused)
        }
    };
    choice.parts.push(Part::Field(last));
}

/// A pattern is tried precisely if no constant before it matches.
fn change_pattern(manifest: &mut Manifest, number: usize, replace: bool) -> bool {
    let mut at = 0;
    for item in &mut manifest.items {
        each_choice(item, &mut |choice| {
            let mut cut = None;
            for (position, arm) in inside(choice).enumerate() {
                let Some(pattern) = pattern_of(arm).filter(|pattern| pattern.tag != 0x1B) else {
                    continue;
                };
                if at == number {
                    pattern.mark = Some("here");
                    cut = Some(position);
                }
                at += 1;
            }
            if let Some(arm) = cut.filter(|_| replace) {
                cut_short(choice, arm);
            }
        });
    }
    at > number
}

/// No manifest holds this number.
const UNHEARD_OF: i64 = 987_654_321;

/// The body begins by asking whether the parameter has that number, which
/// becomes its default.
fn change_default(manifest: &mut Manifest, number: usize, replace: bool) -> bool {
    let mut at = 0;
    let definitions = manifest.items.iter_mut();
    for definition in definitions.filter(|item| matches!(item.tag, 0x32 | 0x34)) {
        let mut asked = None;
        for parameter in inside(definition).filter(|field| field.tag == 0x33) {
            let [Part::Name(name), Part::Field(constant)] = &mut parameter.parts[..] else {
                continue;
            };
            if at == number {
                constant.mark = Some("here");
                asked = Some(name.clone());
                if replace {
                    *constant = int(0, UNHEARD_OF);
                }
            }
            at += 1;
        }
        if let Some(name) = asked.filter(|_| replace) {
            let same = binary(EQUAL, var(name), int(0, UNHEARD_OF));
            let test = if_else(same, vec![case(refusing(), vec![])], vec![]);
            let body = inside(definition).find(|field| field.tag == 0x20);
            body.expect("a body").parts.insert(0, Part::Field(test));
        }
    }
    at > number
}

/// Compares what is noted with what is refused, for constants of one role in
/// many manifests; each of both answers must occur so often.
#[track_caller]
fn compare(change: Change, least: usize) {
    let mut seen = [0, 0];
    for at in 0..150 {
        let random = &mut Random::new(9, at);
        let manifest = match at % 2 {
            0 => counted(random),
            _ => program(random, 0),
        };
        let Some(met) = met(&manifest.build().bytes) else {
            continue;
        };
        for number in 0.. {
            let (mut marked, mut replaced) = (manifest.clone(), manifest.clone());
            if !change(&mut marked, number, false) {
                break;
            }
            change(&mut replaced, number, true);
            let (marked, replaced) = (marked.build(), replaced.build());
            let (answer, _) = Case::of(replaced.bytes.clone()).compile().expect("clean");
            let place = replaced.place("here");
            let refused = answer == Answer::Refused { number: 13, place };
            assert_eq!(met.contains(&marked.place("here")), refused, "{at} {number}");
            seen[usize::from(refused)] += 1;
        }
    }
    assert!(seen.iter().all(|times| *times > least), "{seen:?}");
}

/// "evaluated as an expression": "Skipped operands, arms and branches not taken,
/// bodies not run do not count."
#[test]
fn constants_evaluated() {
    compare(change_expression, 500);
}

/// "tried as a pattern (the matching one included)".
#[test]
fn patterns_tried() {
    compare(change_pattern, 150);
}

/// "assigned to a parameter as its default".
#[test]
fn defaults_assigned() {
    compare(change_default, 50);
}
