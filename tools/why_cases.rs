//! The stored why cases. `print` prints them: the named and hand-made questions, and of random ones those that show what
//! is still shown too rarely. `check` reads stored cases from standard input and says what they show too rarely;
//! `tools/make_cases` and the gate build and run it.

#![allow(dead_code)] // The modules of the program made apart have more than is used here.

include!("reference.rs");
mod hand_made_questions;

use hand_made_questions::HAND_MADE_QUESTIONS;
use std::collections::{BTreeMap, BTreeSet};
use std::io::BufRead;
use std::process::ExitCode;
use why_case::WhyCase;
use why_generate::why_cases;
use why_named::WHY_NAMED;
use why_tally::Tally;

const SEED: u64 = 20_240;
const DRAWN: u64 = 20_000;

/// What must be shown, in the words of `reference/` or ours, and how many times.
const WANTED: [(&str, usize); 22] = [
    ("among 1, the title expression", 20),
    ("among 2, the path", 20),
    ("among 3, the trail", 20),
    ("among 4, the marks", 20),
    ("among 5, the value", 20),
    ("not among", 20),
    ("refused 27, the type is not in the table", 20),
    ("refused 27, the title is not in the table", 20),
    ("refused 27, the attribute is not in the table", 20),
    ("refused 27, no such resource", 20),
    ("refused 27, the resource has no such attribute", 20),
    ("told: an expression evaluated", 20),
    ("told: a pattern tried", 20),
    ("told: a default assigned", 20),
    ("below: an expression not evaluated", 20),
    ("below: a pattern not tried", 20),
    ("below: a default not assigned", 20),
    ("the constant told did not bring the label", 20),
    ("refused 1 with 65535 bytes of memory", 5),
    ("answered with 65536 bytes of memory", 20),
    ("answered with 65537 bytes of memory", 5),
    ("answered with 70000 bytes of memory", 5),
];
/// So many numbers of refusals of the compile must be shown.
const NUMBERS: usize = 10;
/// Random questions are taken until each number is shown so often, and each thing wanted so much more often than it must.
const EACH_NUMBER: usize = 3;
const MORE: usize = 2;
/// No more cases than this, and no more than so many of them with a long line.
const MOST: usize = 400;
const LONG: usize = 20_000;
const MOST_LONG: usize = 3;
/// Random questions have shorter lines.
const SHORT: usize = 5_000;

fn main() -> ExitCode {
    let words: Vec<String> = std::env::args().skip(1).collect();
    match words.iter().map(String::as_str).collect::<Vec<_>>()[..] {
        ["print"] => print(),
        ["check"] => {
            let faults = check();
            faults.iter().for_each(|fault| eprintln!("why_cases: {fault}"));
            return ExitCode::from(u8::from(!faults.is_empty()));
        }
        _ => {
            eprintln!("use: why_cases print | check <cases");
            return ExitCode::from(2);
        }
    }
    ExitCode::SUCCESS
}

/// How often each thing is shown by the cases so far.
#[derive(Default)]
struct Shown {
    things: BTreeMap<String, usize>,
    /// By the number of a refusal other than 27.
    numbers: BTreeMap<u8, usize>,
}

impl Shown {
    fn by(case: &WhyCase) -> Shown {
        let mut tally = Tally::default();
        tally.add(case);
        let numbers: BTreeMap<u8, usize> = tally.refused.keys().map(|number| (*number, 1)).collect();
        let in_words = tally.answers.keys().chain(tally.situations.keys());
        let outcome = match numbers.keys().next() {
            None => "answered".to_string(),
            Some(number) => format!("refused {number}"),
        };
        let memory = format!("{outcome} with {} bytes of memory", case.memory);
        let things = in_words.map(|words| words.to_string()).chain([memory]);
        Shown {
            things: things.map(|thing| (thing, 1)).collect(),
            numbers,
        }
    }

    fn add(&mut self, other: Shown) {
        for (thing, times) in other.things {
            *self.things.entry(thing).or_insert(0) += times;
        }
        for (number, times) in other.numbers {
            *self.numbers.entry(number).or_insert(0) += times;
        }
    }

    fn times(&self, thing: &str) -> usize {
        self.things.get(thing).copied().unwrap_or(0)
    }

    /// Whether the other shows something that is shown too rarely here.
    fn lacks(&self, other: &Shown) -> bool {
        let rare =
            |(thing, least): &(&str, usize)| other.times(thing) > 0 && self.times(thing) < least + MORE;
        let is_rare = |number: &u8| {
            self.numbers
                .get(number)
                .map_or(true, |times| *times < EACH_NUMBER)
        };
        WANTED.iter().any(rare) || other.numbers.keys().any(is_rare)
    }
}

/// The questions that are stored in any case, with their names.
fn always() -> impl Iterator<Item = (&'static str, WhyCase)> {
    let named = WHY_NAMED.into_iter().map(|(name, make)| (name, make().case()));
    let hand_made = HAND_MADE_QUESTIONS.into_iter().map(|(name, make)| (name, make()));
    named.chain(hand_made)
}

/// The named and hand-made questions, each line once, then random ones.
fn print() {
    let mut printed = BTreeSet::new();
    let mut shown = Shown::default();
    for (_, case) in always() {
        if printed.insert(case.line()) {
            println!("{}", case.line());
            shown.add(Shown::by(&case));
        }
    }
    for case in why_cases(SEED, DRAWN) {
        if case.line().len() > SHORT {
            continue;
        }
        let more = Shown::by(&case);
        if shown.lacks(&more) && printed.insert(case.line()) {
            println!("{}", case.line());
            shown.add(more);
        }
    }
}

/// What is wrong with the stored cases.
fn check() -> Vec<String> {
    let mut faults = Vec::new();
    let lines: Vec<String> = std::io::stdin().lock().lines().map_while(Result::ok).collect();
    let mut shown = Shown::default();
    for (at, line) in (1..).zip(&lines) {
        match WhyCase::from_line(line) {
            Ok(case) => shown.add(Shown::by(&case)),
            Err(told) => faults.push(format!("case {at}: {told}")),
        }
    }
    for (name, case) in always() {
        if !lines.contains(&case.line()) {
            faults.push(format!("the question {name} is not stored"));
        }
    }
    for (thing, least) in WANTED {
        if shown.times(thing) < least {
            faults.push(format!(
                "{} stored cases show \"{thing}\", and {least} should",
                shown.times(thing)
            ));
        }
    }
    if shown.numbers.len() < NUMBERS {
        faults.push(format!(
            "the compile is refused by {} numbers, and {NUMBERS} should be there",
            shown.numbers.len()
        ));
    }
    let long = lines.iter().filter(|line| line.len() > LONG).count();
    if lines.len() > MOST || long > MOST_LONG {
        faults.push(format!(
            "{} cases are stored, {long} of them long; there should be {MOST} and {MOST_LONG} at most",
            lines.len()
        ));
    }
    faults
}
