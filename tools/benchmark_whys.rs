//! The questions that are asked to be timed.

use crate::hand_made_questions::{example, last_place, schedule};
use crate::why::Why;
use crate::why_case::WhyCase;
use crate::why_generate::why_cases;
use crate::why_named::why_named;

/// A name and what is asked, one question after the other.
pub type WhyRow = (String, Vec<WhyCase>);

pub fn rows() -> Vec<WhyRow> {
    let mut rows = mixed();
    rows.extend([
        one("why: the example, the price at hill-desk", example()),
        one("why: the paper's schedule, the price", schedule()),
        one("why: 65,535 bytes of one label", named("large-one-label")),
        one("why: 65,535 steps", named("large-steps")),
        one("why: 65,535 bytes and steps, the place at the end", last_place()),
    ]);
    rows
}

/// Random questions, whole and by what becomes of them.
fn mixed() -> Vec<WhyRow> {
    let all: Vec<WhyCase> = why_cases(20_240, 2000)
        .filter(|case| case.memory == 65_536)
        .collect();
    let part = |name: &str, wanted: fn(&Why) -> bool| {
        let cases = all.iter().filter(|case| wanted(&case.answer()));
        (
            format!("why: mixed random questions: {name}"),
            cases.cloned().collect(),
        )
    };
    vec![
        part("all", |_| true),
        part("among", |answer| matches!(answer, Why::Among { .. })),
        part("not among", |answer| matches!(answer, Why::NotAmong)),
        part("refused", |answer| matches!(answer, Why::Refused(_))),
    ]
}

fn one(name: &str, case: WhyCase) -> WhyRow {
    (name.to_string(), vec![case])
}

fn named(name: &str) -> WhyCase {
    match why_named(name) {
        Some(asking) => asking.case(),
        None => panic!("the program made apart has no question {name}"),
    }
}
