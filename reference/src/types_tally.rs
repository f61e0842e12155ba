//! What a case with a list of types shows, and how often each thing is shown.

use crate::any_case::{AnyAnswer, AnyCase};
use crate::types::{names_of, Types, EIGHT, MOST_NAMES};
use crate::types_generate::types_cases;
use crate::walk::{self, Met};
use crate::why::Why;
use std::collections::BTreeMap;

/// What the answer to a case shows.
pub struct Shown {
    /// The call and its answer's number; 0 for what is accepted.
    pub call: &'static str,
    pub number: u8,
    /// In words; the reason of a 28 among them.
    pub things: Vec<&'static str>,
}

impl Shown {
    pub fn by(case: &AnyCase) -> Result<Shown, String> {
        let answer = case.answer()?;
        let by_eight = case.with_types(None).answer()?;
        let number = answer.number();
        let mut things = by_list(case, &answer, &by_eight);
        match number {
            0 => things.extend(by_acceptance(case, &answer, &by_eight)),
            8 | 9 | 26 => things.extend(by_types(case, &answer, &by_eight)),
            _ => {}
        }
        Ok(Shown {
            call: case.call(),
            number,
            things,
        })
    }
}

/// What is shown of a list that is faulty.
fn by_list(case: &AnyCase, answer: &AnyAnswer, by_eight: &AnyAnswer) -> Vec<&'static str> {
    let Some(Err(faulty)) = case.types().map(names_of) else {
        return Vec::new();
    };
    let mut things = Vec::new();
    match answer.number() {
        28 => things.push(faulty.fault.words()),
        1 => things.push("1 with a faulty list"),
        _ => {}
    }
    match (answer.number(), by_eight.number()) {
        (28, 2) => things.push("28 where 2 would follow"),
        (28, 24) => things.push("28 where 24 would follow"),
        _ => {}
    }
    if answer.number() == 28 && faulty.place > 0 {
        things.push("28 behind the first field");
    }
    things
}

/// What is shown by a call that is accepted.
fn by_acceptance(case: &AnyCase, answer: &AnyAnswer, by_eight: &AnyAnswer) -> Vec<&'static str> {
    let mut things = Vec::new();
    match case.types().map(names_of) {
        Some(Ok(names)) if names.len() == 1 => things.push("accepted with a list of 1 name"),
        Some(Ok(names)) if names.len() == MOST_NAMES => things.push("accepted with a list of 64 names"),
        _ => {}
    }
    if let AnyAnswer::Why(Why::NotAmong) = answer {
        things.push("not among");
    }
    match case {
        AnyCase::Why(_) => things.push("a question accepted"),
        AnyCase::Text(_) if case.call() == "convert" && by_eight != answer => {
            things.push("a convert whose tags are others by the eight");
        }
        _ => {}
    }
    let lacks = |name: &[u8]| EIGHT.contains(&name) && !holds(case, name);
    if runs(case) && definitions(case.bytes()).any(|(_, name)| lacks(name)) {
        things.push("accepted, one of the eight defined that the list lacks");
    }
    things
}

/// What is shown by a refusal that speaks of types.
fn by_types(case: &AnyCase, answer: &AnyAnswer, by_eight: &AnyAnswer) -> Vec<&'static str> {
    let Some((number, place)) = answer.refused() else {
        return Vec::new();
    };
    let place = usize::from(place);
    let fields = walk::fields(case.bytes());
    let Some(field) = fields.iter().find(|field| field.place == place) else {
        return Vec::new();
    };
    let name = name_in(case.bytes(), field);
    let is_of_eight = EIGHT.contains(&name);
    let mut things = Vec::new();
    match (number, field.tag) {
        (8, _) if holds(case, name) && is_first(case.bytes(), place, name) => {
            things.push("8 at a listed type");
        }
        (9, 0x25) if is_of_eight && !holds(case, name) => {
            things.push("9 at a 25 of one of the eight that the list lacks");
        }
        (9, 0x27) if holds(case, name) => things.push("9 at a 27 of a listed type"),
        (9, 0x18) if is_of_eight => things.push("9 at a read of one of the eight that the list lacks"),
        (26, 0x25 | 0x27) if answer != by_eight && is_of_eight != holds(case, name) => {
            things.push("26 by the list");
        }
        _ => {}
    }
    things
}

fn holds(case: &AnyCase, name: &[u8]) -> bool {
    Types::of(case.types()).is_ok_and(|types| types.holds(name))
}

fn runs(case: &AnyCase) -> bool {
    matches!(case, AnyCase::Compile(_) | AnyCase::Why(_))
}

/// The first name that a field holds.
fn name_in<'m>(manifest: &'m [u8], field: &Met) -> &'m [u8] {
    let fields = walk::fields(manifest);
    let mut strings = fields.iter().filter(|field| field.tag == 0x02);
    let number = field.names().first().map(|name| usize::from(*name));
    let string = number.and_then(|number| strings.nth(number));
    string.map_or(&[], |string| string.own)
}

/// The place and name of each definition.
fn definitions(manifest: &[u8]) -> impl Iterator<Item = (usize, &[u8])> {
    let fields = walk::fields(manifest).into_iter();
    let definitions = fields.filter(|field| matches!(field.tag, 0x32 | 0x34));
    definitions.map(move |field| (field.place, name_in(manifest, &field)))
}

/// No earlier item defines the name.
fn is_first(manifest: &[u8], place: usize, name: &[u8]) -> bool {
    definitions(manifest)
        .find(|(_, defined)| *defined == name)
        .map_or(true, |(first, _)| first == place)
}

/// How often each answer and each thing occurs, by call.
#[derive(Default)]
pub struct Tally {
    pub answers: BTreeMap<(&'static str, u8), u64>,
    pub things: BTreeMap<(&'static str, &'static str), u64>,
}

impl Tally {
    pub fn of(seed: u64, count: u64) -> Result<Tally, String> {
        let mut tally = Tally::default();
        for case in types_cases(seed, count) {
            tally.add(&Shown::by(&case)?);
        }
        Ok(tally)
    }

    pub fn add(&mut self, shown: &Shown) {
        *self.answers.entry((shown.call, shown.number)).or_insert(0) += 1;
        for thing in &shown.things {
            *self.things.entry((shown.call, thing)).or_insert(0) += 1;
        }
    }
}
