//! How often each answer occurs among random questions, and in which
//! situations.

use crate::compile;
use crate::walk::{self, Met};
use crate::why::{Part, Why};
use crate::why_case::{Resource, WhyCase};
use crate::why_generate::why_cases;
use std::collections::{BTreeMap, BTreeSet};

/// By the answer's words.
#[derive(Default)]
pub struct Tally {
    pub answers: BTreeMap<&'static str, u64>,
    /// By number, but 27.
    pub refused: BTreeMap<u8, u64>,
    /// Of the answers that name a part.
    pub situations: BTreeMap<&'static str, u64>,
    /// What the manifests of those hold, run or not.
    pub forms: BTreeMap<&'static str, u64>,
    pub among: u64,
}

impl Tally {
    pub fn of(seed: u64, count: u64) -> Tally {
        let mut tally = Tally::default();
        for case in why_cases(seed, count) {
            tally.add(&case);
        }
        tally
    }

    pub fn add(&mut self, case: &WhyCase) {
        let answer = match case.answer() {
            Why::Among { part, place } => {
                self.among += 1;
                for situation in situations(case, usize::from(place)) {
                    *self.situations.entry(situation).or_insert(0) += 1;
                }
                for form in forms(case) {
                    *self.forms.entry(form).or_insert(0) += 1;
                }
                part_name(part)
            }
            Why::NotAmong => "not among",
            Why::Refused(refusal) if refusal.reason as u8 == 27 => missing(case),
            Why::Refused(refusal) => {
                *self.refused.entry(refusal.reason as u8).or_insert(0) += 1;
                return;
            }
        };
        *self.answers.entry(answer).or_insert(0) += 1;
    }
}

fn part_name(part: Part) -> &'static str {
    match part {
        Part::Title => "among 1, the title expression",
        Part::Path => "among 2, the path",
        Part::Trail => "among 3, the trail",
        Part::Marks => "among 4, the marks",
        Part::Value => "among 5, the value",
    }
}

/// What a 27 lacks.
fn missing(case: &WhyCase) -> &'static str {
    let lacks = |string: &[u8]| match compile::read(&case.manifest) {
        Ok(tree) => tree.number_of(string).is_none(),
        Err(_) => false,
    };
    if lacks(&case.kind) {
        return "refused 27, the type is not in the table";
    }
    if lacks(&case.title) {
        return "refused 27, the title is not in the table";
    }
    if lacks(&case.attribute) {
        return "refused 27, the attribute is not in the table";
    }
    let is_asked = |resource: &Resource| (&resource.kind, &resource.title) == (&case.kind, &case.title);
    match case.resources().iter().any(is_asked) {
        true => "refused 27, the resource has no such attribute",
        false => "refused 27, no such resource",
    }
}

/// What can be said of an answer that names a part.
fn situations(case: &WhyCase, place: usize) -> Vec<&'static str> {
    let fields = walk::fields(&case.manifest);
    let mut situations = Vec::new();
    let sharing = fields.iter().filter(|field| field.label() == Some(case.label));
    if sharing.count() > 1 {
        situations.push("several constants have the label");
    }
    for (at, field) in fields.iter().enumerate() {
        if field.label() != Some(case.label) || field.place > place {
            continue;
        }
        situations.push(match (role(&fields, at), field.place == place) {
            (Role::Expression, true) => "told: an expression evaluated",
            (Role::Pattern, true) => "told: a pattern tried",
            (Role::Default, true) => "told: a default assigned",
            (Role::Expression, false) => "below: an expression not evaluated",
            (Role::Pattern, false) => "below: a pattern not tried",
            (Role::Default, false) => "below: a default not assigned",
        });
    }
    if !brought(case, place) {
        situations.push("the constant told did not bring the label");
    }
    situations.sort_unstable();
    situations.dedup();
    situations
}

/// What the manifest holds.
fn forms(case: &WhyCase) -> BTreeSet<&'static str> {
    let fields = walk::fields(&case.manifest);
    let form = |field: &Met| match field.tag {
        0x15 => Some("class variable"),
        0x18 => Some("attribute read"),
        0x19 => Some("selector"),
        0x22 => Some("if"),
        0x23 => Some("case"),
        0x27 => Some("defined resource"),
        0x28 => Some("class with attributes"),
        0x29 => Some("include"),
        0x30 => Some("node"),
        0x33 => Some("parameter"),
        0x35 => Some("parent"),
        _ => None,
    };
    fields.iter().filter_map(form).collect()
}

enum Role {
    Expression,
    Pattern,
    Default,
}

/// What the constant at that position of the fields is.
fn role(fields: &[Met], at: usize) -> Role {
    let (before, constant) = (&fields[..at], &fields[at]);
    let around = before.iter().rev().find(|field| field.depth < constant.depth);
    match around.map(|field| (field.tag, field.place + 3 == constant.place)) {
        Some((0x33, _)) => Role::Default,
        Some((0x1A | 0x24, true)) => Role::Pattern,
        _ => Role::Expression,
    }
}

/// Whether the set holds a label that the constant at that place has alone.
fn brought(case: &WhyCase, place: usize) -> bool {
    let fields = walk::fields(&case.manifest);
    let used = |label: &u8| fields.iter().any(|field| field.label() == Some(*label));
    let Some(unused) = (0..=255u8).find(|label| !used(label)) else {
        return true;
    };
    let mut alone = case.clone();
    alone.manifest[place + 3] = unused;
    alone.label = unused;
    alone.answer() != Why::NotAmong
}
