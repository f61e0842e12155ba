//! The stored cases with a list of types. `print` prints them: the named ones, and of random ones those that show what is
//! still shown too rarely. `check` reads stored cases from standard input and says what they show too rarely;
//! `tools/make_cases` and the gate build and run it.

#![allow(dead_code)] // The modules of the program made apart have more than is used here.

include!("reference.rs");

use any_case::AnyCase;
use std::collections::{BTreeMap, BTreeSet};
use std::io::BufRead;
use std::process::ExitCode;
use types::Fault;
use types_generate::types_cases;
use types_named::all_types_named;
use types_tally::Shown;

const SEED: u64 = 20_240;
const DRAWN: u64 = 30_000;

/// What must be shown besides the reasons of 28, in the words of `reference/`, and how many times.
const WANTED: [(&str, usize); 14] = [
    ("accepted with a list of 1 name", 20),
    ("accepted with a list of 64 names", 20),
    ("8 at a listed type", 20),
    ("accepted, one of the eight defined that the list lacks", 20),
    ("9 at a 25 of one of the eight that the list lacks", 20),
    ("9 at a 27 of a listed type", 5),
    ("9 at a read of one of the eight that the list lacks", 5),
    ("26 by the list", 20),
    ("a convert whose tags are others by the eight", 20),
    ("a question accepted", 20),
    ("not among", 5),
    ("28 where 2 would follow", 20),
    ("28 where 24 would follow", 20),
    ("1 with a faulty list", 5),
];
/// So many times each reason of 28.
const EACH_REASON: usize = 20;
/// Random cases are taken until each answer of each call is shown so often, and each thing wanted so much more often than
/// it must.
const EACH_ANSWER: usize = 4;
const MORE: usize = 1;
/// No fewer and no more cases than this, and no more bytes in all, in one line, in a list, or lent by one.
const FEWEST: usize = 400;
const MOST: usize = 500;
const MOST_BYTES: usize = 150_000;
const LONGEST_LINE: usize = 100_000;
const LONGEST_LIST: usize = 3_000;
const MOST_LENT: usize = 70_000;
/// Random cases have shorter lists, and shorter lines besides them: longer ones only where shorter ones do not do.
const SHORT: [Length; 4] = [
    Length { list: 60, rest: 200 },
    Length { list: 60, rest: 300 },
    Length { list: 500, rest: 200 },
    Length { list: 600, rest: 450 },
];

/// How many bytes a list may have, and how many its line besides it.
#[derive(Clone, Copy)]
struct Length {
    list: usize,
    rest: usize,
}

fn main() -> ExitCode {
    let words: Vec<String> = std::env::args().skip(1).collect();
    match words.iter().map(String::as_str).collect::<Vec<_>>()[..] {
        ["print"] => print(),
        ["check"] => {
            let faults = check();
            faults.iter().for_each(|fault| eprintln!("type_cases: {fault}"));
            return ExitCode::from(u8::from(!faults.is_empty()));
        }
        _ => {
            eprintln!("use: type_cases print | check <cases");
            return ExitCode::from(2);
        }
    }
    ExitCode::SUCCESS
}

/// All that must be shown, and how many times.
fn wanted() -> impl Iterator<Item = (&'static str, usize)> {
    let reasons = Fault::ALL.map(|fault| (fault.words(), EACH_REASON));
    WANTED.into_iter().chain(reasons)
}

/// How often each thing and each answer of each call is shown by the cases so far.
#[derive(Default)]
struct Sum {
    things: BTreeMap<&'static str, usize>,
    answers: BTreeMap<(&'static str, u8), usize>,
}

impl Sum {
    fn add(&mut self, shown: &Shown) {
        *self.answers.entry((shown.call, shown.number)).or_insert(0) += 1;
        for thing in &shown.things {
            *self.things.entry(thing).or_insert(0) += 1;
        }
    }

    fn times(&self, thing: &str) -> usize {
        self.things.get(thing).copied().unwrap_or(0)
    }

    /// Whether the other shows something that is shown too rarely here.
    fn lacks(&self, shown: &Shown) -> bool {
        let is_rare = |(thing, least): (&'static str, usize)| {
            shown.things.contains(&thing) && self.times(thing) < least + MORE
        };
        let answers = self.answers.get(&(shown.call, shown.number));
        wanted().any(is_rare) || answers.map_or(true, |times| *times < EACH_ANSWER)
    }
}

/// What a case shows. A compile that breaks a rule on the bytes lent shows nothing: the program made apart has none.
fn shown_by(case: &AnyCase) -> Shown {
    Shown::by(case).expect("the bytes lent obey the rules")
}

/// The named cases, each line once, then random ones.
fn print() {
    let mut printed = BTreeSet::new();
    let mut sum = Sum::default();
    for (_, make) in all_types_named() {
        let case = make();
        if printed.insert(case.line()) {
            println!("{}", case.line());
            sum.add(&shown_by(&case));
        }
    }
    let [.., longest] = SHORT;
    let drawn: Vec<(AnyCase, Shown)> = types_cases(SEED, DRAWN)
        .filter(|case| longest.is_enough_for(case))
        .map(|case| (case.clone(), shown_by(&case)))
        .collect();
    for length in SHORT {
        for (case, shown) in drawn.iter().filter(|(case, _)| length.is_enough_for(case)) {
            if sum.lacks(shown) && printed.insert(case.line()) {
                println!("{}", case.line());
                sum.add(shown);
            }
        }
    }
}

fn list_length(case: &AnyCase) -> usize {
    case.types().map_or(0, |list| list.len())
}

impl Length {
    /// Whether a random case is so short, and lends no more than may be.
    fn is_enough_for(&self, case: &AnyCase) -> bool {
        let list = list_length(case);
        let fits = case.lengths().iter().all(|length| *length <= MOST_LENT);
        fits && list <= self.list && case.line().len() <= self.rest + 2 * list
    }
}

/// What is wrong with the stored cases.
fn check() -> Vec<String> {
    let mut faults = Vec::new();
    let lines: Vec<String> = std::io::stdin().lock().lines().map_while(Result::ok).collect();
    let mut sum = Sum::default();
    for (at, line) in (1..).zip(&lines) {
        match AnyCase::from_line(line) {
            Ok(case) => {
                sum.add(&shown_by(&case));
                faults.extend(too_large(&case, line.len()).map(|told| format!("case {at}: {told}")));
            }
            Err(told) => faults.push(format!("case {at}: {told}")),
        }
    }
    for (name, make) in all_types_named() {
        if !lines.contains(&make().line()) {
            faults.push(format!("the case {name} is not stored"));
        }
    }
    for (thing, least) in wanted() {
        let times = sum.times(thing);
        if times < least {
            faults.push(format!(
                "{times} stored cases show \"{thing}\", and {least} should"
            ));
        }
    }
    let bytes: usize = lines.iter().map(|line| line.len() + 1).sum();
    if !(FEWEST..=MOST).contains(&lines.len()) || bytes > MOST_BYTES {
        faults.push(format!(
            "{} cases of {bytes} bytes are stored; there should be {FEWEST} to {MOST} of {MOST_BYTES} at most",
            lines.len()
        ));
    }
    faults
}

/// What is wrong with a single case.
fn too_large(case: &AnyCase, line: usize) -> Option<&'static str> {
    if case.types().is_none() {
        return Some("it has no list");
    }
    if line >= LONGEST_LINE || list_length(case) > LONGEST_LIST {
        return Some("its line or list is too long");
    }
    let lends_much = case.lengths().iter().any(|length| *length > MOST_LENT);
    lends_much.then_some("it lends too much")
}
